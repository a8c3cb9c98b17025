//! Reads and writes of RAM, registers and image.

use crate::fault::{Fault, Kind};
use crate::machine::{ckctlr, image_byte, Machine, PORT_BITS, PORT_SHIFT};
use crate::tally::{hit, Event};

/// What the CPU sees beside the machine.
#[derive(Clone, Copy)]
pub struct World<'a> {
    pub image: &'a [u8],
    /// The host's word of this tick.
    pub levels: u16,
}

impl World<'_> {
    /// A byte of code.
    pub fn code(&self, address: u16) -> Result<u8, Fault> {
        image_byte(self.image, address).ok_or(Fault::at(Kind::Unoccupied, address))
    }
}

impl Machine {
    pub fn read(&self, world: World, address: u16) -> Result<u8, Fault> {
        let byte = match address {
            0x0000..=0x007F => self.ram[address as usize],
            0x00C0..=0x00FF => self.read_register(world, address)?,
            0xF800..=0xFFFF => world.code(address)?,
            _ => return Err(Fault::at(Kind::Unoccupied, address)),
        };
        hit(Event::Read(address));
        Ok(byte)
    }

    pub fn write(&mut self, address: u16, byte: u8) -> Result<(), Fault> {
        match address {
            0x0000..=0x007F => self.ram[address as usize] = byte,
            0x00C0..=0x00FF => self.write_register(address, byte)?,
            0xF800..=0xFFFF => return Err(Fault::at(Kind::WriteToReadOnly, address)),
            _ => return Err(Fault::at(Kind::Unoccupied, address)),
        }
        hit(Event::Write(address));
        Ok(())
    }

    fn read_register(&self, world: World, address: u16) -> Result<u8, Fault> {
        let [ienh, ienl] = self.enabled.to_be_bytes();
        let [irqh, irql] = self.requests.to_be_bytes();
        Ok(match address {
            0xC0 => self.read_port(world, 0),
            0xC2 => self.read_port(world, 1),
            0xC4 => self.read_port(world, 2),
            0xD0 => self.timer[0].control,
            0xD1 => self.timer[0].count,
            0xD2 => self.timer[1].control,
            0xD4 => self.timer[1].count,
            0xE2 => ienh,
            0xE3 => ienl,
            0xE4 => irqh,
            0xE5 => irql,
            0xE6 => self.ieds,
            0xEC => self.bitr,
            0xED => self.wdtr,
            0xEF => self.pfdr,
            0xC1 | 0xC3 | 0xC5 | 0xCA..=0xCC | 0xD3 | 0xDE => {
                return Err(Fault::at(Kind::ReadOfWriteOnly, address))
            }
            _ => return Err(Fault::at(Kind::Unoccupied, address)),
        })
    }

    fn write_register(&mut self, address: u16, byte: u8) -> Result<(), Fault> {
        match address {
            0xC0 => self.latch[0] = byte,
            0xC1 => self.direction[0] = byte,
            0xC2 => self.latch[1] = byte & PORT_BITS[1],
            0xC3 => self.direction[1] = byte & PORT_BITS[1],
            0xC4 => self.latch[2] = byte & PORT_BITS[2],
            0xC5 => self.direction[2] = byte & PORT_BITS[2],
            0xCA => self.rafunc = byte,
            0xCB => self.rbfunc = byte & 0x1F,
            0xCC => self.pupsel = byte & 0x03,
            0xD0 => self.write_timer(0, address, byte & 0x3F, 0x20)?,
            0xD1 => self.timer[0].limit = byte,
            0xD2 => self.write_timer(1, address, byte, 0x70)?,
            0xD3 => self.timer[1].limit = byte,
            0xD4 => return Err(Fault::at(Kind::WriteToReadOnly, address)),
            0xDE => self.write_buzzer(byte),
            0xE2 => self.enabled = high(self.enabled, byte & 0xF0),
            0xE3 => self.enabled = low(self.enabled, byte & 0xE0),
            0xE4 => self.requests = high(self.requests, byte & 0xF0),
            0xE5 => self.requests = low(self.requests, byte & 0xE0),
            0xE6 => self.ieds = byte & 0x0F,
            0xEC => self.write_clock(address, byte)?,
            0xED => self.write_watchdog(byte),
            0xEF => self.pfdr = byte & 0x07,
            _ => return Err(Fault::at(Kind::Unoccupied, address)),
        }
        Ok(())
    }

    fn read_port(&self, world: World, port: usize) -> u8 {
        let host = (world.levels >> PORT_SHIFT[port]) as u8;
        let out = self.direction[port];
        (self.latch[port] & out | host & !out) & PORT_BITS[port]
    }

    fn write_timer(&mut self, i: usize, address: u16, byte: u8, barred: u8) -> Result<(), Fault> {
        if byte & barred != 0 {
            return Err(Fault::at(Kind::UnsupportedMode, address));
        }
        self.timer[i].control = byte;
        if byte & 1 != 0 {
            self.timer[i].count = 0;
        }
        Ok(())
    }

    fn write_buzzer(&mut self, byte: u8) {
        self.buzzer.control = byte;
        self.buzzer.count = 0;
        self.buzzer.level = false;
    }

    fn write_clock(&mut self, address: u16, byte: u8) -> Result<(), Fault> {
        if byte & ckctlr::RCWDT != 0 {
            return Err(Fault::at(Kind::UnsupportedMode, address));
        }
        self.ckctlr = byte & 0x7F & !ckctlr::BTCL;
        if byte & ckctlr::BTCL != 0 {
            self.bitr = 0;
        }
        Ok(())
    }

    fn write_watchdog(&mut self, byte: u8) {
        self.wdtr = byte & 0x7F;
        if byte & 0x80 != 0 {
            self.watchdog = 0;
        }
    }
}

fn high(word: u16, byte: u8) -> u16 {
    (byte as u16) << 8 | word & 0x00FF
}

fn low(word: u16, byte: u8) -> u16 {
    word & 0xFF00 | byte as u16
}
