//! Samples, stretches, charts and their lines.

use crate::fault::Fault;
use std::fmt::Display;

#[derive(Clone, Copy, Debug, Default, PartialEq, Eq)]
pub struct PinSample {
    pub level: u16,
    pub drive: u16,
}

#[derive(Clone, Copy, Debug, Default, PartialEq, Eq)]
pub enum Mode {
    #[default]
    Running,
    WakeTimer,
    Stopped,
}

impl Mode {
    pub fn letter(self) -> char {
        match self {
            Mode::Running => 'R',
            Mode::WakeTimer => 'W',
            Mode::Stopped => 'S',
        }
    }
}

/// A row of alike samples.
#[derive(Clone, Copy, Debug, Default, PartialEq, Eq)]
pub struct Stretch<S> {
    pub offset: u64,
    pub length: u64,
    pub sample: S,
}

impl<S> Stretch<S> {
    fn end(&self) -> u128 {
        self.offset as u128 + self.length as u128
    }
}

/// Whether the chart has its counted places and ends at `tick`.
pub fn fits<S>(chart: &[Stretch<S>], count: usize, tick: u64) -> bool {
    count == 0 || (count <= chart.len() && chart[count - 1].end() == tick as u128)
}

/// The count after one more tick of `sample`, or none if it has no place.
pub fn next_count<S: PartialEq>(chart: &[Stretch<S>], count: usize, sample: &S) -> Option<usize> {
    if count > 0 && chart[count - 1].sample == *sample {
        Some(count)
    } else if count < chart.len() {
        Some(count + 1)
    } else {
        None
    }
}

/// Adds one tick of `sample` at `tick`; `next` is what `next_count` gave.
pub fn add<S>(chart: &mut [Stretch<S>], count: usize, next: usize, tick: u64, sample: S) {
    if next == count {
        chart[count - 1].length += 1;
    } else {
        chart[count] = Stretch { offset: tick, length: 1, sample };
    }
}

pub fn pin_line(s: &Stretch<PinSample>) -> String {
    format!("P {} {} {:04X} {:04X}\n", s.offset, s.length, s.sample.level, s.sample.drive)
}

pub fn mode_line(s: &Stretch<Mode>) -> String {
    format!("M {} {} {}\n", s.offset, s.length, s.sample.letter())
}

pub fn outcome_line(ticks: u64, fault: Option<Fault>) -> String {
    format!("T {} {}\n", ticks, fault.map_or(0, |f| f.number()))
}

/// An outcome with PC and address, as results of experiments have it.
pub fn long_outcome_line(ticks: u64, fault: Option<Fault>) -> String {
    let number = fault.map_or(0, |f| f.number());
    let pc = hex_or_dash(fault.and_then(|f| f.pc));
    let address = hex_or_dash(fault.and_then(|f| f.address));
    format!("T {ticks} {number} {pc} {address}\n")
}

fn hex_or_dash(word: Option<u16>) -> String {
    word.map_or("-".to_string(), |w| format!("{w:04X}"))
}

/// The line `R` with the numbers of a record.
pub fn record_line<N: Display>(record: &[N]) -> String {
    let mut line = "R".to_string();
    for number in record {
        line += &format!(" {number}");
    }
    line + "\n"
}
