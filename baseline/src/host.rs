//! What is wired to the pins.

use crate::fault::{Fault, Kind};
use crate::HORIZON;

/// Bits of a pin word that have a pin.
pub const PINS: u16 = 0x7FFF;
/// The most pulses of a list.
pub const MAX_PULSES: usize = 4096;
/// The longest low or high time of a square wave.
pub const MAX_TURN: u64 = 1 << 20;

#[derive(Clone, Copy, Debug, PartialEq, Eq)]
pub struct Pulse {
    pub offset: u64,
    pub length: u64,
}

impl Pulse {
    /// The first tick after the pulse, if it fits 64 bits.
    fn end(&self) -> Option<u64> {
        self.offset.checked_add(self.length)
    }
}

/// A host. Make lists and waves with `pulses` and `wave`, which test them.
#[derive(Clone, Debug, PartialEq, Eq)]
pub enum Host {
    Steady(u16),
    Pulses(u16, Vec<Pulse>),
    Wave { word: u16, low: u64, high: u64 },
    Join(Box<Host>, Box<Host>),
}

impl Host {
    pub fn pulses(word: u16, list: Vec<Pulse>) -> Result<Host, Fault> {
        match first_bad_pulse(&list) {
            Some(pair) => Err(Fault::pair(pair as u64)),
            None => Ok(Host::Pulses(word, list)),
        }
    }

    pub fn wave(word: u16, low: u64, high: u64) -> Result<Host, Fault> {
        let good = 1..=MAX_TURN;
        if good.contains(&low) && good.contains(&high) {
            Ok(Host::Wave { word, low, high })
        } else {
            Err(Fault::new(Kind::WaveOutOfRange))
        }
    }

    pub fn join(left: Host, right: Host) -> Host {
        Host::Join(Box::new(left), Box::new(right))
    }

    /// The pin word at tick `t`, and 0 from the horizon on.
    pub fn levels(&self, t: u64) -> u16 {
        if t < HORIZON {
            self.word(t) & PINS
        } else {
            0
        }
    }

    fn word(&self, t: u64) -> u16 {
        match self {
            Host::Steady(word) => *word,
            Host::Pulses(word, list) => shown(*word, inside(list, t)),
            Host::Wave { word, low, high } => shown(*word, t % (low + high) >= *low),
            Host::Join(left, right) => left.word(t) | right.word(t),
        }
    }
}

fn shown(word: u16, high: bool) -> u16 {
    if high {
        word
    } else {
        0
    }
}

/// Whether `t` lies in a pulse of a good list.
fn inside(list: &[Pulse], t: u64) -> bool {
    let begun = list.partition_point(|p| p.offset <= t);
    begun > 0 && t < list[begun - 1].offset + list[begun - 1].length
}

/// The first bad pair, or 4,096 where the list is too long.
fn first_bad_pulse(list: &[Pulse]) -> Option<usize> {
    if list.len() > MAX_PULSES {
        return Some(MAX_PULSES);
    }
    let mut last_end = None;
    for (i, pulse) in list.iter().enumerate() {
        match pulse.end() {
            Some(end)
                if pulse.length >= 1
                    && end <= HORIZON
                    && last_end.is_none_or(|last| pulse.offset > last) =>
            {
                last_end = Some(end)
            }
            _ => return Some(i),
        }
    }
    None
}
