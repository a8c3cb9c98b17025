//! Random experiments.

use crate::experiment::{Call, Experiment, MAX_DEPTH};
use crate::host::{Host, Pulse, MAX_PULSES, MAX_TURN};
use crate::program;
use crate::rng::Rng;
use crate::{HORIZON, MAX_GRANT, RAM_SIZE};

#[derive(Clone, Copy, Debug, PartialEq, Eq)]
pub enum Kind {
    /// Valid instructions with sensible operands.
    Tame,
    /// Random bytes, random codes, or a spoilt tame image.
    Wild,
    /// STOP in both modes, and what wakes the chip.
    Sleepy,
    /// A watchdog that bites soon.
    Watchdog,
}

pub const KINDS: [Kind; 4] = [Kind::Tame, Kind::Wild, Kind::Sleepy, Kind::Watchdog];

/// Experiment `index` of a seed; the kinds take turns.
pub fn experiment(seed: u64, index: u64) -> (Kind, Experiment) {
    let kind = KINDS[(index % 4) as usize];
    (kind, experiment_of(kind, &mut Rng::for_experiment(seed, index)))
}

pub fn experiment_of(kind: Kind, rng: &mut Rng) -> Experiment {
    let image = program::image(kind, rng);
    let ram = ram(rng);
    let host = host(kind, rng, MAX_DEPTH);
    let pin_places = places(rng, 30);
    let mode_places = places(rng, 60);
    // Where tick 0 has no place, the largest grant costs nothing.
    let stuck = pin_places == 0 || mode_places == 0;
    let calls = calls(kind, rng, &host, stuck);
    Experiment { image, ram, host, calls, pin_places, mode_places }
}

fn ram(rng: &mut Rng) -> [u8; RAM_SIZE] {
    let mut ram = [0; RAM_SIZE];
    match rng.below(4) {
        0 => {}
        1 => ram.fill(rng.byte()),
        _ => ram.fill_with(|| rng.byte()),
    }
    ram
}

/// Places of a chart, up to 50 in `few` of 100 cases.
fn places(rng: &mut Rng, few: u64) -> u32 {
    if rng.chance(few) {
        rng.below(51) as u32
    } else {
        rng.pick(&[200, 2000, 10_000, 50_000, 60_000]) + rng.below(100) as u32
    }
}

fn host(kind: Kind, rng: &mut Rng, depth: u32) -> Host {
    let word = host_word(rng);
    match rng.below(if depth == 0 { 6 } else { 9 }) {
        0 => Host::Steady(word),
        1 | 2 => pulses(kind, rng, word),
        3..=5 => wave(kind, rng, word),
        _ => Host::join(host(kind, rng, depth - 1), host(kind, rng, depth - 1)),
    }
}

/// A word in which RA0, RB2 and RB3 are frequent; bit 15 may be set.
fn host_word(rng: &mut Rng) -> u16 {
    match rng.below(6) {
        0 => rng.word(),
        1 => 0xFFFF,
        2 => rng.pick(&[0x0001, 0x0400, 0x0800]),
        _ => (rng.word() & rng.pick(&[0x0C01, 0x8C01, 0x1F00, 0x7F03])) | rng.pick(&[0, 0x0400]),
    }
}

/// Bits of the time between two turns of a host.
fn scale(kind: Kind, rng: &mut Rng) -> u64 {
    match kind {
        Kind::Sleepy => rng.within(6, 15),
        _ => rng.within(1, 13),
    }
}

fn pulses(kind: Kind, rng: &mut Rng, word: u16) -> Host {
    let most = rng.pick(&[4, 40, 400, MAX_PULSES as u64]);
    let count = rng.below(most + 1);
    let (gap_bits, length_bits) = (scale(kind, rng), scale(kind, rng));
    // Rises at the ticks at which dividers pulse, if nothing slept so far.
    let aligned = if rng.chance(25) { 7 } else { 0 };
    let mut list = Vec::new();
    let mut next = if rng.chance(30) { 0 } else { rng.sized(gap_bits) };
    for _ in 0..count {
        let (offset, length) = (next | aligned, 1 + rng.sized(length_bits));
        list.push(Pulse { offset, length });
        next = offset + length + 1 + rng.sized(gap_bits);
    }
    if let Some(last) = list.last_mut().filter(|_| rng.chance(10)) {
        last.length = HORIZON - last.offset;
    }
    Host::pulses(word, list).expect("the pulses lie apart")
}

fn wave(kind: Kind, rng: &mut Rng, word: u16) -> Host {
    let mut turn = || match rng.below(20) {
        0 => 1,
        1 => rng.within(1, MAX_TURN),
        _ => {
            let bits = scale(kind, rng);
            1 + rng.sized(bits)
        }
    };
    let (low, high) = (turn(), turn());
    Host::wave(word, low, high).expect("the times are in range")
}

fn calls(kind: Kind, rng: &mut Rng, host: &Host, stuck: bool) -> Vec<Call> {
    let most = match kind {
        Kind::Sleepy => 150_000,
        Kind::Watchdog => 50_000,
        Kind::Tame | Kind::Wild => 25_000,
    };
    // A few are long enough for the slowest counters.
    let most = if rng.chance(1) { 20 * most } else { most };
    let total = rng.within(most / 2, most);
    let mut tick = 0;
    let mut calls = Vec::new();
    for _ in 0..rng.below(10) {
        calls.push(if rng.chance(15) {
            refused(rng)
        } else if stuck && rng.chance(20) {
            accepted(rng, MAX_GRANT)
        } else {
            let grant = part(rng, host, tick).min(total - tick);
            tick += grant;
            accepted(rng, grant)
        });
    }
    calls.push(accepted(rng, total - tick));
    if rng.chance(20) {
        calls.push(refused(rng));
    }
    calls
}

/// A grant at `tick`, which often ends near a change of the host's word.
fn part(rng: &mut Rng, host: &Host, tick: u64) -> u64 {
    match rng.below(10) {
        0 => 0,
        1 => 1,
        2 | 3 => rng.sized(10),
        4 | 5 => rng.sized(15),
        _ => {
            let after = tick + rng.sized(11);
            (next_change(host, after) + rng.below(3)).saturating_sub(tick + 1)
        }
    }
}

/// The next tick after `tick` at which the host's word changes, if it is near.
fn next_change(host: &Host, tick: u64) -> u64 {
    let changed = |t: &u64| host.levels(*t) != host.levels(tick);
    (tick + 1..tick + 5000).find(changed).unwrap_or(tick + 1)
}

fn accepted(rng: &mut Rng, grant: u64) -> Call {
    Call { leaps: rng.chance(60), short_image: false, grant }
}

/// A call that is refused for its image, its grant or both.
fn refused(rng: &mut Rng) -> Call {
    let large = MAX_GRANT + 1 + rng.sized(20);
    let grant = match rng.below(4) {
        0 => u64::MAX,
        1 => rng.sized(12),
        _ => large,
    };
    let short_image = grant <= MAX_GRANT || rng.chance(25);
    Call { leaps: rng.chance(50), short_image, grant }
}
