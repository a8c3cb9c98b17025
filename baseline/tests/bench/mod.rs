//! A chip with its image, host and charts, for tests.
#![allow(dead_code)]

use baseline::chart::{mode_line, outcome_line, pin_line};
use baseline::{Chip, Fault, Host, Mode, PinSample, Stretch, IMAGE_SIZE};

pub type Image = [u8; IMAGE_SIZE];

/// An image of FF with `code` at F800 and the reset word F800.
pub fn image(code: &[u8]) -> Image {
    let mut image = [0xFF; IMAGE_SIZE];
    image[..code.len()].copy_from_slice(code);
    set_word(&mut image, 0xFFFE, 0xF800);
    image
}

pub fn set_word(image: &mut Image, address: u16, word: u16) {
    let at = (address - 0xF800) as usize;
    image[at..at + 2].copy_from_slice(&word.to_le_bytes());
}

pub struct Bench {
    pub image: Image,
    pub host: Host,
    pub chip: Chip,
    pub pins: Vec<Stretch<PinSample>>,
    pub modes: Vec<Stretch<Mode>>,
}

impl Bench {
    pub fn new(image: Image, host: Host) -> Bench {
        let mut chip = Chip::new();
        chip.power_on(&image, [0; 128]).unwrap();
        let (pins, modes) = (vec![Stretch::default(); 1000], vec![Stretch::default(); 1000]);
        Bench { image, host, chip, pins, modes }
    }

    pub fn of(code: &[u8]) -> Bench {
        Bench::new(image(code), Host::Steady(0))
    }

    pub fn run(&mut self, grant: u64) -> (u64, Option<Fault>) {
        self.chip.run(&self.image, &self.host, grant, &mut self.pins, &mut self.modes)
    }

    /// Runs a whole grant.
    pub fn go(mut self, grant: u64) -> Bench {
        assert_eq!(self.run(grant), (grant, None));
        self
    }

    /// The lines of a run.
    pub fn lines(&mut self, grant: u64) -> String {
        let (ticks, fault) = self.run(grant);
        let mut text = String::new();
        text.extend(self.pins[..self.chip.pin_count].iter().map(pin_line));
        text.extend(self.modes[..self.chip.mode_count].iter().map(mode_line));
        text + &outcome_line(ticks, fault)
    }
}

/// Number, PC and address of the fault that ends a run of `code`.
pub fn stop_of(code: &[u8]) -> (u64, u8, Option<u16>, Option<u16>) {
    let (ticks, fault) = Bench::of(code).run(10_000);
    let fault = fault.expect("a stop");
    (ticks, fault.number(), fault.pc, fault.address)
}
