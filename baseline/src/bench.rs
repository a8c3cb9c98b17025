//! The proved bench, through its C interface.

use crate::experiment::{Call, Experiment};
use crate::host::{Host, Pulse};

/// The most places and pulses that the interface takes.
pub const MAX_PLACES: u32 = 2048;
pub const MAX_PULSES: usize = 4096;
/// Bytes of a record, and of a line.
const RECORD: usize = 192;
const LINE: usize = 64;
/// What stands for no pc and no address.
const NOWHERE: u32 = 65536;

#[repr(C)]
#[derive(Clone, Copy, PartialEq)]
struct Answer {
    ticks: u64,
    number: u32,
    pc: u32,
    address: u32,
}

extern "C" {
    fn gms87_play(
        description: *const u8,
        description_length: usize,
        answers: *mut Answer,
        answers_length: usize,
        fields: *mut u8,
        fields_length: usize,
        lines: *mut u8,
        lines_length: usize,
        written: *mut usize,
    ) -> u32;
}

/// The parts that the interface can wire: a steady word, a list of pulses and two waves.
#[derive(Clone, Default)]
struct Parts {
    steady: u16,
    pulses: Option<(u16, Vec<Pulse>)>,
    waves: Vec<(u16, u64, u64)>,
}

impl Parts {
    fn of(host: &Host) -> Parts {
        let mut parts = Parts::default();
        parts.add(host);
        parts
    }

    fn add(&mut self, host: &Host) {
        match host {
            Host::Steady(word) => self.steady |= word,
            Host::Pulses(word, list) => {
                let few = list[..list.len().min(MAX_PULSES)].to_vec();
                self.pulses.get_or_insert((*word, few));
            }
            Host::Wave { word, low, high } if self.waves.len() < 2 => self.waves.push((*word, *low, *high)),
            Host::Wave { .. } => {}
            Host::Join(left, right) => {
                self.add(left);
                self.add(right);
            }
        }
    }

    fn host(&self) -> Host {
        let (word, list) = self.pulses.clone().unwrap_or_default();
        let wave = |n: usize| {
            let (word, low, high) = self.waves.get(n).copied().unwrap_or((0, 1, 1));
            Host::Wave { word, low, high }
        };
        let left = Host::join(Host::Steady(self.steady), Host::Pulses(word, list));
        Host::join(left, Host::join(wave(0), wave(1)))
    }
}

/// An experiment that the interface can play: its host is brought to a form that can be wired, and its charts are cut.
pub fn fitted(experiment: &Experiment) -> Experiment {
    let host = match &experiment.host {
        Host::Join(..) => Parts::of(&experiment.host).host(),
        Host::Pulses(word, list) => Host::Pulses(*word, list[..list.len().min(MAX_PULSES)].to_vec()),
        alone => alone.clone(),
    };
    Experiment {
        host,
        pin_places: experiment.pin_places.min(MAX_PLACES),
        mode_places: experiment.mode_places.min(MAX_PLACES),
        ..experiment.clone()
    }
}

/// The description that the interface reads.
pub fn description(experiment: &Experiment) -> Vec<u8> {
    let parts = Parts::of(&experiment.host);
    let wiring: u16 = match experiment.host {
        Host::Steady(_) => 0,
        Host::Pulses(..) => 1,
        Host::Wave { .. } => 2,
        Host::Join(..) => 4,
    };
    let (word, list) = parts.pulses.clone().unwrap_or_default();
    let mut out = Vec::new();
    out.extend(experiment.image);
    out.extend(experiment.ram);
    for number in [wiring, parts.steady, word] {
        out.extend(number.to_le_bytes());
    }
    for n in 0..2 {
        let (word, low, high) = parts.waves.get(n).copied().unwrap_or((0, 1, 1));
        out.extend(word.to_le_bytes());
        out.extend((low as u32).to_le_bytes());
        out.extend((high as u32).to_le_bytes());
    }
    let sizes = [experiment.pin_places as u16, experiment.mode_places as u16, list.len() as u16, experiment.calls.len() as u16];
    for number in sizes {
        out.extend(number.to_le_bytes());
    }
    for pulse in list {
        out.extend(pulse.offset.to_le_bytes());
        out.extend(pulse.length.to_le_bytes());
    }
    for Call { leaps, short_image, grant } in &experiment.calls {
        out.extend([*leaps as u8, *short_image as u8]);
        out.extend(grant.to_le_bytes());
    }
    out
}

/// The buffers of a call, of any lengths.
#[derive(Clone, PartialEq)]
pub struct Buffers {
    answers: Vec<Answer>,
    fields: Vec<u8>,
    lines: Vec<u8>,
    written: usize,
}

impl Buffers {
    /// Filled with what no call writes.
    pub fn new(answers: usize, fields: usize, lines: usize) -> Buffers {
        let answer = Answer { ticks: !0, number: !0, pc: !0, address: !0 };
        Buffers { answers: vec![answer; answers], fields: vec![0xA5; fields], lines: vec![0xA5; lines], written: !0 }
    }

    /// Plays a description into them, and returns what the interface answers.
    pub fn play(&mut self, description: &[u8]) -> u32 {
        // SAFETY: each pointer is that of a slice with its length; the interface writes inside them only.
        unsafe {
            gms87_play(
                description.as_ptr(),
                description.len(),
                self.answers.as_mut_ptr(),
                self.answers.len(),
                self.fields.as_mut_ptr(),
                self.fields.len(),
                self.lines.as_mut_ptr(),
                self.lines.len(),
                &mut self.written,
            )
        }
    }
}

/// Plays a fitted experiment on the proved bench, with the model's form of result.
pub fn play(experiment: &Experiment) -> Vec<u8> {
    let description = description(experiment);
    let places = (experiment.pin_places + experiment.mode_places) as usize;
    let mut buffers = Buffers::new(experiment.calls.len(), RECORD, LINE * places);
    let error = buffers.play(&description);
    assert_eq!(error, 0, "the interface refuses the description");
    let mut text = String::new();
    for answer in &buffers.answers {
        let (pc, address) = (named(answer.pc), named(answer.address));
        text += &format!("T {} {} {pc} {address}\n", answer.ticks, answer.number);
    }
    let mut out = text.into_bytes();
    out.extend(&buffers.lines[..buffers.written]);
    out.extend(record_text(&buffers.fields).into_bytes());
    out
}

fn named(place: u32) -> String {
    if place == NOWHERE {
        "-".to_string()
    } else {
        format!("{place:04X}")
    }
}

/// The record's numbers: one byte each, but PC and prescaler two, and tick number and counts eight.
fn record_text(fields: &[u8]) -> String {
    let widths = [&[1; 4][..], &[2], &[1; 160], &[2], &[8; 3]].concat();
    let mut numbers = Vec::new();
    let mut at = 0;
    for width in widths {
        let bytes = &fields[at..at + width];
        numbers.push(bytes.iter().rev().fold(0u64, |n, &b| n << 8 | b as u64).to_string());
        at += width;
    }
    assert_eq!(at, RECORD);
    format!("R {}\n", numbers.join(" "))
}
