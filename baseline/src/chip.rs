//! A chip and its calls.

use crate::bus::World;
use crate::chart::{add, fits, next_count, Mode, PinSample, Stretch};
use crate::counters::Edges;
use crate::fault::{Fault, Kind};
use crate::host::Host;
use crate::machine::Machine;
use crate::tally::{hit, Event};
use crate::{HORIZON, IMAGE_SIZE, MAX_GRANT, RAM_SIZE};

pub type PinChart = [Stretch<PinSample>];
pub type ModeChart = [Stretch<Mode>];

#[derive(Clone, Debug, PartialEq, Eq)]
pub struct Chip {
    pub machine: Machine,
    /// Ticks played since power-on.
    pub tick: u64,
    /// Counted stretches of the pin chart and of the mode chart.
    pub pin_count: usize,
    pub mode_count: usize,
}

impl Default for Chip {
    fn default() -> Chip {
        Chip::new()
    }
}

impl Chip {
    /// The chip of an image of FF, with RAM of 0.
    pub fn new() -> Chip {
        Chip::powered(&[0xFF; IMAGE_SIZE], [0; RAM_SIZE])
    }

    fn powered(image: &[u8], ram: [u8; RAM_SIZE]) -> Chip {
        Chip { machine: Machine::new(image, ram), tick: 0, pin_count: 0, mode_count: 0 }
    }

    pub fn power_on(&mut self, image: &[u8], ram: [u8; RAM_SIZE]) -> Result<(), Fault> {
        check_image(image)?;
        *self = Chip::powered(image, ram);
        Ok(())
    }

    /// Runs up to `grant` ticks; answers the ticks that were run and the fault.
    pub fn run(
        &mut self,
        image: &[u8],
        host: &Host,
        grant: u64,
        pins: &mut PinChart,
        modes: &mut ModeChart,
    ) -> (u64, Option<Fault>) {
        if let Err(refusal) = self.check(image, grant, pins, modes) {
            return (0, Some(refusal));
        }
        let mut before = self.tick.checked_sub(1).map(|t| host.levels(t));
        for done in 0..grant {
            let levels = host.levels(self.tick);
            let world = World { image, levels };
            // Tick 0 has no edges.
            let edges = Edges::between(before.unwrap_or(levels), levels);
            if let Err(stop) = self.play_tick(world, edges, pins, modes) {
                return (done, Some(stop));
            }
            before = Some(levels);
        }
        (grant, None)
    }

    /// The tests of a run call, in their order.
    fn check(
        &self,
        image: &[u8],
        grant: u64,
        pins: &PinChart,
        modes: &ModeChart,
    ) -> Result<(), Fault> {
        check_image(image)?;
        ensure(grant <= MAX_GRANT, Kind::GrantTooLarge)?;
        ensure(self.tick + grant <= HORIZON, Kind::ChipSpent)?;
        ensure(fits(pins, self.pin_count, self.tick), Kind::PinChartUnfit)?;
        ensure(fits(modes, self.mode_count, self.tick), Kind::ModeChartUnfit)
    }

    /// Plays one tick on a copy, and keeps it if nothing stops it.
    fn play_tick(
        &mut self,
        world: World,
        edges: Edges,
        pins: &mut PinChart,
        modes: &mut ModeChart,
    ) -> Result<(), Fault> {
        let mut next = self.machine.clone();
        next.act(world)?;

        let sample = next.pins(world.levels);
        let mode = next.mode;
        let pin_count =
            next_count(pins, self.pin_count, &sample).ok_or(Fault::new(Kind::NoPinPlace))?;
        let mode_count =
            next_count(modes, self.mode_count, &mode).ok_or(Fault::new(Kind::NoModePlace))?;
        add(pins, self.pin_count, pin_count, self.tick, sample);
        add(modes, self.mode_count, mode_count, self.tick, mode);
        hit(Event::Tick(mode.letter()));

        next.settle(world.image, edges);
        *self = Chip { machine: next, tick: self.tick + 1, pin_count, mode_count };
        Ok(())
    }

    /// All that the chip holds, in its fixed order.
    pub fn record(&self) -> Vec<u64> {
        let mut record = self.machine.record();
        record.extend([self.tick, self.pin_count as u64, self.mode_count as u64]);
        record
    }
}

fn check_image(image: &[u8]) -> Result<(), Fault> {
    ensure(image.len() == IMAGE_SIZE, Kind::ImageSize)
}

fn ensure(good: bool, kind: Kind) -> Result<(), Fault> {
    if good {
        Ok(())
    } else {
        Err(Fault::new(kind))
    }
}
