//! What the chip holds, its reset and its pins.

use crate::chart::{Mode, PinSample};
use crate::host::PINS;
use crate::{IMAGE_SIZE, RAM_SIZE};

/// Flags of PSW.
pub mod flag {
    pub const N: u8 = 0x80;
    pub const V: u8 = 0x40;
    pub const G: u8 = 0x20;
    pub const B: u8 = 0x10;
    pub const H: u8 = 0x08;
    pub const I: u8 = 0x04;
    pub const Z: u8 = 0x02;
    pub const C: u8 = 0x01;
}

/// Requests, as bits of IRQH and IRQL in one word; enables lie alike.
pub mod request {
    pub const INT0: u16 = 0x8000;
    pub const INT1: u16 = 0x4000;
    pub const T0: u16 = 0x2000;
    pub const T1: u16 = 0x1000;
    pub const AD: u16 = 0x0080;
    pub const WDT: u16 = 0x0040;
    pub const BIT: u16 = 0x0020;
    /// Those that wake the chip.
    pub const WAKING: u16 = INT0 | INT1 | T0;
}

/// Bits of RBFUNC.
pub mod rbfunc {
    pub const PWMO: u8 = 0x10;
    pub const INT1I: u8 = 0x08;
    pub const INT0I: u8 = 0x04;
    pub const BUZO: u8 = 0x02;
}

/// Bits of CKCTLR.
pub mod ckctlr {
    pub const WAKEUP: u8 = 0x40;
    pub const RCWDT: u8 = 0x20;
    pub const WDTON: u8 = 0x10;
    pub const BTCL: u8 = 0x08;
    pub const BTS: u8 = 0x07;
}

/// Pins of a pin word.
pub mod pin {
    pub const RA0: u16 = 1 << 0;
    pub const RB1: u16 = 1 << 9;
    pub const RB2: u16 = 1 << 10;
    pub const RB3: u16 = 1 << 11;
    pub const RB4: u16 = 1 << 12;
}

/// First pin of ports RA, RB and RC in a pin word, and their bits.
pub const PORT_SHIFT: [u32; 3] = [0, 8, 13];
pub const PORT_BITS: [u8; 3] = [0xFF, 0x1F, 0x03];

pub const RESET_VECTOR: u16 = 0xFFFE;

#[derive(Clone, Copy, Debug, Default, PartialEq, Eq)]
pub struct Timer {
    pub control: u8,
    pub limit: u8,
    pub count: u8,
}

#[derive(Clone, Copy, Debug, Default, PartialEq, Eq)]
pub struct Buzzer {
    pub control: u8,
    pub count: u8,
    pub level: bool,
}

#[derive(Clone, Debug, PartialEq, Eq)]
pub struct Machine {
    pub a: u8,
    pub x: u8,
    pub y: u8,
    pub sp: u8,
    pub pc: u16,
    pub psw: u8,
    pub ram: [u8; RAM_SIZE],
    pub latch: [u8; 3],
    pub direction: [u8; 3],
    pub rafunc: u8,
    pub rbfunc: u8,
    pub pupsel: u8,
    pub timer: [Timer; 2],
    pub comp: bool,
    pub buzzer: Buzzer,
    pub ckctlr: u8,
    pub bitr: u8,
    pub wdtr: u8,
    pub watchdog: u8,
    pub enabled: u16,
    pub requests: u16,
    pub ieds: u8,
    pub pfdr: u8,
    pub mode: Mode,
    pub owed: u8,
    pub prescaler: u16,
}

impl Machine {
    /// A machine after power-on.
    pub fn new(image: &[u8], ram: [u8; RAM_SIZE]) -> Machine {
        let blank = Machine {
            a: 0,
            x: 0,
            y: 0,
            sp: 0,
            pc: 0,
            psw: 0,
            ram,
            latch: [0; 3],
            direction: [0; 3],
            rafunc: 0,
            rbfunc: 0,
            pupsel: 0,
            timer: [Timer { control: 0, limit: 0xFF, count: 0 }; 2],
            comp: false,
            buzzer: Buzzer { control: 0xFF, count: 0, level: false },
            ckctlr: 0x17,
            bitr: 0,
            wdtr: 0x7F,
            watchdog: 0,
            enabled: 0,
            requests: 0,
            ieds: 0,
            pfdr: 0x04,
            mode: Mode::Running,
            owed: 0,
            prescaler: 0,
        };
        Machine { pc: image_word(image, RESET_VECTOR), ..blank }
    }

    /// A reset keeps RAM, A, X, Y, SP and the latches; all else is as new.
    pub fn reset(&mut self, image: &[u8]) {
        *self = Machine {
            a: self.a,
            x: self.x,
            y: self.y,
            sp: self.sp,
            latch: self.latch,
            ..Machine::new(image, self.ram)
        };
    }

    pub fn has(&self, flag: u8) -> bool {
        self.psw & flag != 0
    }

    pub fn set(&mut self, flag: u8, on: bool) {
        if on {
            self.psw |= flag;
        } else {
            self.psw &= !flag;
        }
    }

    /// What the pins show before the host's word.
    pub fn pins(&self, host: u16) -> PinSample {
        let mut drive = 0;
        let mut out = 0;
        for (port, shift) in PORT_SHIFT.iter().enumerate() {
            drive |= (self.direction[port] as u16) << shift;
            out |= (self.latch[port] as u16) << shift;
        }
        let mut special = |on: u8, pin: u16, level: bool| {
            if self.rbfunc & on != 0 {
                drive |= pin;
                out = if level { out | pin } else { out & !pin };
            }
        };
        special(rbfunc::BUZO, pin::RB1, self.buzzer.level);
        special(rbfunc::PWMO, pin::RB4, self.comp);
        PinSample { level: (out & drive | host & !drive) & PINS, drive }
    }

    /// The machine's part of the record, in its fixed order.
    pub fn record(&self) -> Vec<u64> {
        let mut record = vec![self.a as u64, self.x as u64, self.y as u64, self.sp as u64];
        record.extend([self.pc as u64, self.psw as u64]);
        record.extend(self.ram.map(u64::from));
        record.extend(self.latch.map(u64::from));
        record.extend(self.direction.map(u64::from));
        record.extend([self.rafunc, self.rbfunc, self.pupsel].map(u64::from));
        for timer in &self.timer {
            record.extend([timer.control, timer.limit, timer.count].map(u64::from));
        }
        let Buzzer { control, count, level } = self.buzzer;
        record.push(self.comp as u64);
        record.extend([control, count, level as u8].map(u64::from));
        record.extend([self.ckctlr, self.bitr, self.wdtr, self.watchdog].map(u64::from));
        record.extend(self.enabled.to_be_bytes().map(u64::from));
        record.extend(self.requests.to_be_bytes().map(u64::from));
        record.extend([self.ieds, self.pfdr].map(u64::from));
        record.extend([self.mode.letter() as u64, self.owed as u64, self.prescaler as u64]);
        record
    }
}

/// The image's byte at an address, if it has one there.
pub fn image_byte(image: &[u8], address: u16) -> Option<u8> {
    let first = 0x10000 - IMAGE_SIZE;
    (address as usize).checked_sub(first).map(|i| image[i])
}

/// The word at a vector, which lies in the image.
pub fn image_word(image: &[u8], address: u16) -> u16 {
    let byte = |a| image_byte(image, a).expect("vectors lie in the image");
    u16::from_le_bytes([byte(address), byte(address + 1)])
}
