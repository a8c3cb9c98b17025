//! Descriptions of experiments, and their results. README.md has the format.

use crate::chart::{long_outcome_line, mode_line, pin_line, record_line, Stretch};
use crate::chip::Chip;
use crate::fault::Fault;
use crate::host::{Host, Pulse, MAX_PULSES};
use crate::{IMAGE_SIZE, RAM_SIZE};

/// The most joins on the way to a host.
pub const MAX_DEPTH: u32 = 3;
/// The most calls of an experiment.
pub const MAX_CALLS: u64 = 4096;
/// The most places of a chart.
pub const MAX_PLACES: u32 = 1 << 16;

/// A run call. The model plays both kinds alike.
#[derive(Clone, Copy, Debug, PartialEq, Eq)]
pub struct Call {
    pub leaps: bool,
    /// Give an image that is one byte short.
    pub short_image: bool,
    pub grant: u64,
}

#[derive(Clone, Debug, PartialEq, Eq)]
pub struct Experiment {
    pub image: [u8; IMAGE_SIZE],
    pub ram: [u8; RAM_SIZE],
    pub host: Host,
    pub calls: Vec<Call>,
    pub pin_places: u32,
    pub mode_places: u32,
}

/// Why a description is bad.
#[derive(Clone, Copy, Debug, PartialEq, Eq)]
pub enum Error {
    /// It ends too early.
    Truncated,
    /// Bytes follow its end.
    Trailing,
    UnknownHost(u8),
    /// More joins above one host than `MAX_DEPTH`.
    TooDeep,
    /// A pulse list or a wave that is refused.
    BadHost(Fault),
    TooManyCalls,
    UnknownCall(u8),
    BadFlag(u8),
    TooManyPlaces,
}

/// Plays a description.
pub fn play(description: &[u8]) -> Result<Vec<u8>, Error> {
    Ok(Experiment::parse(description)?.play())
}

impl Experiment {
    pub fn parse(description: &[u8]) -> Result<Experiment, Error> {
        let mut reader = Reader(description);
        let experiment = Experiment {
            image: reader.array()?,
            ram: reader.array()?,
            host: reader.host(MAX_DEPTH)?,
            calls: reader.calls()?,
            pin_places: reader.places()?,
            mode_places: reader.places()?,
        };
        if reader.0.is_empty() {
            Ok(experiment)
        } else {
            Err(Error::Trailing)
        }
    }

    pub fn describe(&self) -> Vec<u8> {
        let mut out = Vec::new();
        out.extend(self.image);
        out.extend(self.ram);
        describe_host(&self.host, &mut out);
        out.extend((self.calls.len() as u64).to_le_bytes());
        for call in &self.calls {
            out.extend([call.leaps as u8, call.short_image as u8]);
            out.extend(call.grant.to_le_bytes());
        }
        out.extend(self.pin_places.to_le_bytes());
        out.extend(self.mode_places.to_le_bytes());
        out
    }

    /// The canonical result.
    pub fn play(&self) -> Vec<u8> {
        let mut pins = vec![Stretch::default(); self.pin_places as usize];
        let mut modes = vec![Stretch::default(); self.mode_places as usize];
        let mut chip = Chip::new();
        chip.power_on(&self.image, self.ram).expect("the image has its size");
        let mut text = String::new();
        for call in &self.calls {
            let image = &self.image[..IMAGE_SIZE - call.short_image as usize];
            let (ticks, fault) = chip.run(image, &self.host, call.grant, &mut pins, &mut modes);
            text += &long_outcome_line(ticks, fault);
        }
        text.extend(pins[..chip.pin_count].iter().map(pin_line));
        text.extend(modes[..chip.mode_count].iter().map(mode_line));
        text += &record_line(&chip.record());
        text.into_bytes()
    }
}

fn describe_host(host: &Host, out: &mut Vec<u8>) {
    match host {
        Host::Steady(word) => {
            out.push(0);
            out.extend(word.to_le_bytes());
        }
        Host::Pulses(word, list) => {
            out.push(1);
            out.extend(word.to_le_bytes());
            out.extend((list.len() as u64).to_le_bytes());
            for pulse in list {
                out.extend(pulse.offset.to_le_bytes());
                out.extend(pulse.length.to_le_bytes());
            }
        }
        Host::Wave { word, low, high } => {
            out.push(2);
            out.extend(word.to_le_bytes());
            out.extend(low.to_le_bytes());
            out.extend(high.to_le_bytes());
        }
        Host::Join(left, right) => {
            out.push(3);
            describe_host(left, out);
            describe_host(right, out);
        }
    }
}

/// What is left of a description.
struct Reader<'a>(&'a [u8]);

impl Reader<'_> {
    fn array<const N: usize>(&mut self) -> Result<[u8; N], Error> {
        let (head, rest) = self.0.split_first_chunk::<N>().ok_or(Error::Truncated)?;
        self.0 = rest;
        Ok(*head)
    }

    fn byte(&mut self) -> Result<u8, Error> {
        self.array().map(|[byte]| byte)
    }

    fn word(&mut self) -> Result<u16, Error> {
        self.array().map(u16::from_le_bytes)
    }

    fn number(&mut self) -> Result<u64, Error> {
        self.array().map(u64::from_le_bytes)
    }

    fn host(&mut self, depth: u32) -> Result<Host, Error> {
        match self.byte()? {
            0 => Ok(Host::Steady(self.word()?)),
            1 => self.pulses(),
            2 => {
                let (word, low, high) = (self.word()?, self.number()?, self.number()?);
                Host::wave(word, low, high).map_err(Error::BadHost)
            }
            3 if depth == 0 => Err(Error::TooDeep),
            3 => Ok(Host::join(self.host(depth - 1)?, self.host(depth - 1)?)),
            other => Err(Error::UnknownHost(other)),
        }
    }

    fn pulses(&mut self) -> Result<Host, Error> {
        let word = self.word()?;
        let count = self.number()?;
        if count > MAX_PULSES as u64 {
            return Err(Error::BadHost(Fault::pair(MAX_PULSES as u64)));
        }
        let mut list = Vec::new();
        for _ in 0..count {
            list.push(Pulse { offset: self.number()?, length: self.number()? });
        }
        Host::pulses(word, list).map_err(Error::BadHost)
    }

    fn calls(&mut self) -> Result<Vec<Call>, Error> {
        let count = self.number()?;
        if count > MAX_CALLS {
            return Err(Error::TooManyCalls);
        }
        (0..count).map(|_| self.call()).collect()
    }

    fn call(&mut self) -> Result<Call, Error> {
        let leaps = bit(self.byte()?, Error::UnknownCall)?;
        let short_image = bit(self.byte()?, Error::BadFlag)?;
        Ok(Call { leaps, short_image, grant: self.number()? })
    }

    fn places(&mut self) -> Result<u32, Error> {
        match self.array().map(u32::from_le_bytes)? {
            places if places <= MAX_PLACES => Ok(places),
            _ => Err(Error::TooManyPlaces),
        }
    }
}

fn bit(byte: u8, error: fn(u8) -> Error) -> Result<bool, Error> {
    match byte {
        0 => Ok(false),
        1 => Ok(true),
        other => Err(error(other)),
    }
}
