//! Random images.
//!
//! A sensible image has routines and handlers, then a main program: a setup,
//! and a loop of snippets. A snippet prepares what it needs, so that it hardly
//! ever faults, wherever it stands.

use crate::generate::Kind;
use crate::rng::Rng;
use crate::sheet::{entry, Op, Place, Reg};
use crate::IMAGE_SIZE;

type Image = [u8; IMAGE_SIZE];

/// Registers that may be read.
const READABLE: [u8; 16] = [
    0xC0, 0xC2, 0xC4, 0xD0, 0xD1, 0xD2, 0xD4, 0xE2, 0xE3, 0xE4, 0xE5, 0xE6, 0xEC, 0xED, 0xEF, 0xD1,
];
/// Registers that may be written.
const WRITABLE: [u8; 22] = [
    0xC0, 0xC1, 0xC2, 0xC3, 0xC4, 0xC5, 0xCA, 0xCB, 0xCC, 0xD0, 0xD1, 0xD2, 0xD3, 0xDE, 0xE2, 0xE3,
    0xE4, 0xE5, 0xE6, 0xEC, 0xED, 0xEF,
];
/// Registers that bear to be read, changed in any way and written.
const CHANGEABLE: [u8; 11] = [0xC0, 0xC2, 0xC4, 0xD1, 0xE2, 0xE3, 0xE4, 0xE5, 0xE6, 0xED, 0xEF];
const WRITE_ONLY: [u8; 8] = [0xC1, 0xC3, 0xC5, 0xCA, 0xCB, 0xCC, 0xD3, 0xDE];
/// Direct addresses that are unoccupied.
const EMPTY: [u8; 12] = [0x80, 0xBF, 0xC6, 0xC9, 0xCD, 0xD5, 0xDF, 0xE1, 0xE7, 0xEA, 0xEB, 0xFF];
/// RAM from 0 that snippets write; loop counters and the stack lie above.
const DATA: u64 = 0x40;
/// Snippets of main begin before this address; none reaches FF00.
const ROOM: u16 = 0xFD80;
/// Loop counters of main, routines and handlers, one for each depth.
const MAIN_LOOPS: u8 = 0x40;
const ROUTINE_LOOPS: u8 = 0x44;
const HANDLER_LOOPS: u8 = 0x48;
/// Where the stack begins.
const STACK: u8 = 0x7F;
/// Where SP is kept while it is elsewhere.
const SP_CELL: u8 = 0x4C;
/// A sum of registers and flags, so that a difference once made stays.
const SUM: u8 = 0x4D;
/// Where main keeps the CPU registers that a reset left.
const LEFT: u8 = 0x4E;

/// Codes by name, where a snippet needs just that one.
mod code {
    pub const LDA: u8 = 0xC4;
    pub const LDX: u8 = 0x1E;
    pub const LDY: u8 = 0x3E;
    pub const LDM: u8 = 0xE4;
    pub const LDX_DP: u8 = 0xCC;
    pub const STA_DP: u8 = 0xE5;
    pub const STX_DP: u8 = 0xEC;
    pub const STY_DP: u8 = 0xE9;
    pub const ADC_DP: u8 = 0x05;
    pub const ROL_DP: u8 = 0x29;
    pub const TXA: u8 = 0xC8;
    pub const TYA: u8 = 0xBF;
    pub const TXSP: u8 = 0x8E;
    pub const TSPX: u8 = 0xAE;
    pub const PUSH: [u8; 4] = [0x0E, 0x2E, 0x4E, 0x6E];
    pub const POP: [u8; 4] = [0x0D, 0x2D, 0x4D, 0x6D];
    pub const PUSH_A: u8 = 0x0E;
    pub const POP_A: u8 = 0x0D;
    pub const PUSH_PSW: u8 = 0x6E;
    pub const POP_PSW: u8 = 0x6D;
    pub const RET: u8 = 0x6F;
    pub const RETI: u8 = 0x7F;
    pub const JMP: u8 = 0x1B;
    pub const CALL: u8 = 0x3B;
    pub const PCALL: u8 = 0x4F;
    pub const BRK: u8 = 0x0F;
    pub const BRA: u8 = 0x2F;
    pub const STOP: u8 = 0xEF;
    pub const NOP: u8 = 0xFF;
    pub const EI: u8 = 0xE0;
    pub const DI: u8 = 0x60;
    pub const INC_DP: u8 = 0x89;
    pub const DEC_DP: u8 = 0xA9;
    pub const BNE: u8 = 0x70;
    pub const BPL: u8 = 0x10;
    pub const BBC_DP: u8 = 0x13;
    pub const DBNE_DP: u8 = 0xAC;
    pub const DBNE_Y: u8 = 0x7B;
}

#[derive(Clone, Copy, PartialEq, Eq)]
enum Access {
    Read,
    Write,
    Change,
}

pub fn image(kind: Kind, rng: &mut Rng) -> Image {
    match kind {
        Kind::Wild => wild(rng),
        _ => Builder::new(kind, rng).build(),
    }
}

fn wild(rng: &mut Rng) -> Image {
    match rng.below(4) {
        0 => random_bytes(rng),
        1 => random_codes(rng),
        _ => spoilt(rng),
    }
}

fn random_bytes(rng: &mut Rng) -> Image {
    let mut image = [0; IMAGE_SIZE];
    image.fill_with(|| rng.byte());
    if rng.chance(90) {
        aim_vectors(&mut image, rng);
    }
    image
}

/// Codes of the sheet with operands that often meet RAM or a register.
fn random_codes(rng: &mut Rng) -> Image {
    let mut image = [0; IMAGE_SIZE];
    let mut at = 0;
    while at < IMAGE_SIZE {
        image[at] = valid_code(rng);
        let operands = entry(image[at]).map_or(0, |e| e.operands as usize);
        for place in image.iter_mut().skip(at + 1).take(operands) {
            *place = rough_operand(rng);
        }
        at += 1 + operands;
    }
    aim_vectors(&mut image, rng);
    // A stack first.
    image[..5].copy_from_slice(&[code::LDX, STACK, code::TXSP, code::NOP, code::NOP]);
    image[0x7FE..].copy_from_slice(&0xF800u16.to_le_bytes());
    image
}

/// A sensible image with a few bytes changed.
fn spoilt(rng: &mut Rng) -> Image {
    let kind = rng.pick(&[Kind::Tame, Kind::Sleepy, Kind::Watchdog]);
    let mut image = Builder::new(kind, rng).build();
    for _ in 0..rng.within(1, 12) {
        image[rng.below(0x700) as usize] = rng.byte();
    }
    image
}

fn valid_code(rng: &mut Rng) -> u8 {
    loop {
        let code = rng.byte();
        if entry(code).is_some() {
            return code;
        }
    }
}

fn invalid_code(rng: &mut Rng) -> u8 {
    loop {
        let code = rng.byte();
        if entry(code).is_none() {
            return code;
        }
    }
}

fn rough_operand(rng: &mut Rng) -> u8 {
    match rng.below(8) {
        0 => rng.byte(),
        1 => rng.pick(&READABLE),
        2 => rng.pick(&WRITABLE),
        3 => rng.within(0xF8, 0xFF) as u8,
        4 => 0,
        _ => rng.below(0x60) as u8,
    }
}

/// Points all vectors into the image.
fn aim_vectors(image: &mut Image, rng: &mut Rng) {
    for at in (0x7C1..IMAGE_SIZE).step_by(2) {
        image[at] = rng.within(0xF8, 0xFE) as u8;
    }
}

struct Builder<'r> {
    kind: Kind,
    rng: &'r mut Rng,
    image: Image,
    /// Where the next byte goes.
    at: u16,
    /// Loop counters of the part that is being built.
    loops: u8,
    /// Starts of routines that return, and of the page's among them.
    routines: Vec<u16>,
    page_routines: Vec<u8>,
    /// Whether TCALL 0's word is BRK's handler, or else a routine.
    breaks: bool,
    /// Whether FFFF holds a code that is not on the sheet.
    bad_end: bool,
}

impl<'r> Builder<'r> {
    fn new(kind: Kind, rng: &'r mut Rng) -> Builder<'r> {
        let breaks = rng.chance(70);
        let fill = if rng.chance(50) { 0xFF } else { rng.byte() };
        Builder {
            kind,
            rng,
            image: [fill; IMAGE_SIZE],
            at: 0xF800,
            loops: ROUTINE_LOOPS,
            routines: Vec::new(),
            page_routines: Vec::new(),
            breaks,
            bad_end: false,
        }
    }

    fn build(mut self) -> Image {
        for _ in 0..self.rng.within(1, 4) {
            self.routine();
        }
        self.page();
        self.loops = HANDLER_LOOPS;
        self.vectors();
        self.loops = MAIN_LOOPS;
        if self.at < 0xFD00 && self.rng.chance(10) {
            // The reset word's high byte is at FFFF.
            self.bad_end = true;
            self.at = 0xFD00 + self.rng.below(0x20) as u16;
        }
        let start = self.at;
        self.set_word(0xFFFE, start);
        self.main();
        self.image
    }

    // Bytes.

    fn emit(&mut self, bytes: &[u8]) {
        for &byte in bytes {
            self.image[(self.at - 0xF800) as usize] = byte;
            self.at += 1;
        }
    }

    fn set_word(&mut self, address: u16, word: u16) {
        let at = (address - 0xF800) as usize;
        self.image[at..at + 2].copy_from_slice(&word.to_le_bytes());
    }

    fn emit_word(&mut self, code: u8, word: u16) {
        let [low, high] = word.to_le_bytes();
        self.emit(&[code, low, high]);
    }

    fn ldm(&mut self, dp: u8, byte: u8) {
        self.emit(&[code::LDM, byte, dp]);
    }

    // Parts of an image.

    fn routine(&mut self) {
        self.routines.push(self.at);
        if self.rng.chance(40) {
            self.witness();
        }
        for _ in 0..self.rng.within(1, 3) {
            self.snippet(2);
        }
        self.emit(&[code::RET]);
    }

    /// Small routines from FF00 on, one of them with a branch backwards.
    fn page(&mut self) {
        let resume = self.at;
        self.at = 0xFF00;
        self.emit(&[code::RET]);
        for _ in 0..3 {
            self.page_routines.push(self.at as u8);
            self.routines.push(self.at);
            self.operation(3);
            self.emit(&[code::RET]);
        }
        self.page_routines.push(self.at as u8);
        let back = 0xFF00u16.wrapping_sub(self.at + 2) as u8;
        self.emit(&[code::BRA, back]);
        self.at = resume;
    }

    /// TCALL words, handlers and their vectors.
    fn vectors(&mut self) {
        for n in 0..16 {
            let routine = self.rng.pick(&self.routines);
            self.set_word(0xFFDE - 2 * n, routine);
        }
        if self.breaks {
            let handler = self.handler();
            self.set_word(0xFFDE, handler);
        }
        let mut handler = self.handler();
        for vector in [0xFFFA, 0xFFF8, 0xFFF6, 0xFFF4, 0xFFEA, 0xFFE8, 0xFFE6] {
            if self.rng.chance(60) {
                handler = self.handler();
            }
            self.set_word(vector, handler);
        }
    }

    fn handler(&mut self) -> u16 {
        let start = self.at;
        let saves = self.rng.chance(85);
        if saves {
            self.emit(&code::PUSH[..3]);
        }
        if self.rng.chance(60) {
            // Leave the upper page.
            self.emit(&[code::LDA, 0, code::PUSH_A, code::POP_PSW]);
        }
        let cell = self.cell();
        self.emit(&[code::INC_DP, cell]);
        for _ in 0..self.rng.below(3) {
            self.operation(3);
        }
        if self.rng.chance(10) {
            self.emit(&[code::EI]);
        }
        if saves {
            self.emit(&[code::POP[2], code::POP[1], code::POP[0]]);
        }
        let end = if self.rng.chance(98) { code::RETI } else { code::RET };
        self.emit(&[end]);
        start
    }

    fn main(&mut self) {
        if self.rng.chance(4) {
            // EC0 from tick 0 on.
            self.ldm(0xD0, 0x1F);
        }
        if self.rng.chance(50) {
            self.emit(&[code::STA_DP, LEFT, code::STX_DP, LEFT + 1, code::STY_DP, LEFT + 2]);
            self.emit(&[code::TSPX, code::STX_DP, LEFT + 3]);
        }
        let top = if self.rng.chance(95) { STACK } else { self.rng.byte() };
        self.emit(&[code::LDX, top, code::TXSP]);
        self.setup();
        let start = self.at;
        let snippets = self.rng.within(3, 60);
        let bad = if self.rng.chance(35) { self.rng.below(snippets) } else { snippets };
        for i in 0..snippets {
            if i == bad {
                self.bad();
            }
            if self.at < ROOM {
                self.snippet(0);
            }
        }
        self.emit_word(code::JMP, start);
    }

    fn setup(&mut self) {
        for _ in 0..self.rng.below(8) {
            self.poke();
        }
        match self.kind {
            Kind::Sleepy => self.prepare_sleep(),
            Kind::Watchdog => {
                if self.rng.chance(30) {
                    self.prepare_sleep();
                }
                self.prepare_watchdog();
            }
            _ => {}
        }
        if self.rng.chance(75) {
            self.emit(&[code::EI]);
        }
    }

    /// Edges of INT0 and INT1, Timer 0 at its slowest, and their enables.
    fn prepare_sleep(&mut self) {
        let rbfunc = self.rng.byte() & 0x12 | self.rng.pick(&[0x04, 0x08, 0x0C, 0x0C]);
        let ieds = self.rng.within(1, 15) as u8;
        let enable = self.rng.pick(&[0x80, 0x40, 0x20, 0xE0, 0xE0, 0xF0, 0x50, 0x90, 0x30]);
        let limit = self.rng.pick(&[0, 0, 1, 2, 3, 20]);
        let control = self.rng.pick(&[0x1B, 0x1B, 0x1B, 0x1F, 0x0F, 0x1A]);
        self.ldm(0xCB, rbfunc);
        self.ldm(0xE6, ieds);
        self.ldm(0xD1, limit);
        self.ldm(0xD0, control);
        self.ldm(0xE2, enable);
    }

    fn prepare_watchdog(&mut self) {
        let limit = self.rng.byte() & 0x80 | self.rng.pick(&[0, 0, 1, 1, 2, 3, 5, 0x60]);
        let on = if self.rng.chance(75) { 0x10 } else { 0 };
        let clock = self.rng.byte() & 0xC8 | on | self.rng.pick(&[0, 0, 0, 1, 1, 2]);
        let enable = self.rng.byte();
        self.ldm(0xED, limit);
        self.ldm(0xEC, clock);
        self.ldm(0xE3, enable);
    }

    // Snippets.

    /// A random snippet; `depth` tells how deep it stands in others.
    fn snippet(&mut self, depth: u8) {
        match self.rng.below(100) {
            0..=39 => self.operation(depth),
            40..=54 => self.poke(),
            55..=60 => self.peek(),
            61..=70 if depth < 3 => self.forward(depth),
            71..=76 if depth < 3 => self.backward(depth),
            77..=82 if depth < 2 => self.call(),
            83..=86 => self.stack_pair(depth),
            87..=88 => self.upper_page(),
            89 => self.wrapped_stack(),
            90 => self.flags(),
            91 => self.storm(),
            92..=98 => self.special(depth),
            99 if self.rng.chance(25) => self.raw(),
            _ => self.operation(depth),
        }
    }

    /// What the kind of image is about.
    fn special(&mut self, depth: u8) {
        match self.kind {
            Kind::Sleepy => self.sleep(),
            Kind::Watchdog if self.rng.chance(30) => self.prepare_watchdog(),
            Kind::Watchdog if self.rng.chance(60) => {
                let limit = self.rng.byte() & 0x80 | self.rng.below(4) as u8;
                self.ldm(0xED, limit);
            }
            Kind::Watchdog if self.rng.chance(10) => self.sleep(),
            _ => self.operation(depth),
        }
    }

    fn sleep(&mut self) {
        if self.rng.chance(60) {
            self.prepare_sleep();
        }
        if self.rng.chance(70) {
            let clock = self.rng.pick(&[0x40, 0x00]) | self.rng.byte() & 0x17;
            self.ldm(0xEC, clock);
        }
        if self.rng.chance(50) {
            let requests = self.rng.pick(&[0x00, 0x00, 0x10, 0x10, 0x20, 0x80]);
            self.ldm(0xE4, requests);
        }
        if self.rng.chance(50) {
            let flag = self.rng.pick(&[code::EI, code::EI, code::DI]);
            self.emit(&[flag]);
        }
        self.emit(&[code::STOP]);
        if self.rng.chance(30) {
            self.witness();
        }
    }

    /// Writes a register by LDM.
    fn poke(&mut self) {
        let register = self.rng.pick(&WRITABLE);
        let value = self.register_value(register);
        self.ldm(register, value);
    }

    /// Reads a register in some way.
    fn peek(&mut self) {
        let register = self.rng.pick(&READABLE);
        let code =
            self.rng.pick(&[0x05, 0x25, 0x45, 0x65, 0x85, 0xA5, 0xC5, 0xCC, 0xC9, 0x6C, 0x8C]);
        self.emit(&[code, register]);
    }

    fn register_value(&mut self, register: u8) -> u8 {
        let byte = self.rng.byte();
        let small = self.rng.below(6) as u8;
        let seldom = self.rng.chance(25);
        match register {
            0xD0 if seldom => byte & !0x20,
            0xD0 => byte & 0x1C | 0x03,
            0xD2 if seldom => byte & !0x70,
            0xD2 => byte & 0x8C | 0x03,
            0xD1 | 0xD3 if !seldom => small,
            0xDE if !seldom => byte & 0xC0 | small,
            0xED if self.kind == Kind::Watchdog && !seldom => byte & 0x80 | small,
            0xEC => byte & !0x20,
            _ => byte,
        }
    }

    /// A random operation with its operand in a random place.
    fn operation(&mut self, depth: u8) {
        loop {
            let code = valid_code(self.rng);
            if self.operation_of(code, depth) {
                break;
            }
        }
        if self.rng.chance(25) {
            self.witness();
        }
    }

    /// Adds PSW, A, X, Y or a RAM byte to the sum.
    fn witness(&mut self) {
        match self.rng.below(8) {
            0..=3 => self.emit(&[code::PUSH_PSW, code::POP_A]),
            4 => {}
            5 => self.emit(&[code::TXA]),
            6 => self.emit(&[code::TYA]),
            _ => {
                let cell = self.cell();
                self.emit(&[0xC5, cell]);
            }
        }
        self.emit(&[code::ROL_DP, SUM, code::ADC_DP, SUM, code::STA_DP, SUM]);
    }

    /// A byte, often one at which flags change.
    fn number(&mut self) -> u8 {
        if self.rng.chance(40) {
            self.rng.pick(&[0x00, 0x01, 0x0F, 0x10, 0x7F, 0x80, 0x81, 0xFF])
        } else {
            self.rng.byte()
        }
    }

    /// Emits a code with all it needs; false if other snippets make it.
    fn operation_of(&mut self, code: u8, depth: u8) -> bool {
        match entry(code).map(|e| e.op) {
            Some(Op::Alu(_, place) | Op::Compare(_, place) | Op::Load(_, place)) => {
                self.placed(code, place, Access::Read, None)
            }
            Some(Op::Store(reg, place)) => self.placed(code, place, Access::Write, Some(reg)),
            Some(Op::Change(_, place)) => self.placed(code, place, Access::Change, None),
            Some(Op::StoreNumber) => {
                let (cell, byte) = (self.cell(), self.number());
                self.ldm(cell, byte);
            }
            Some(Op::LoadNext) => {
                let target = self.target(Access::Read);
                self.emit(&[code::LDX, target, code]);
            }
            Some(Op::StoreNext) => {
                let target = self.target(Access::Write);
                self.prepare_store(Reg::A, target);
                self.emit(&[code::LDX, target, code]);
            }
            Some(Op::Bit(..)) => {
                let target = self.target(Access::Change);
                self.emit(&[code, target]);
            }
            Some(Op::Transfer(Reg::X, Reg::Sp)) => {
                let byte = self.number();
                self.emit(&[code::TSPX, code::LDA, byte, code]);
            }
            Some(Op::Transfer(..) | Op::SetFlag(_) | Op::ClearFlags(_) | Op::Nop) => {
                self.emit(&[code])
            }
            Some(Op::BranchBit(..) | Op::Branch(..)) if depth < 3 => {
                self.forward_by(code, depth);
            }
            _ => return false,
        }
        true
    }

    /// Emits a code whose operand is in `place`, with X, Y and a pointer made
    /// ready so that it meets a fitting target.
    fn placed(&mut self, code: u8, place: Place, access: Access, stored: Option<Reg>) {
        let mut target = self.target(access) as u16;
        let far = !matches!(place, Place::Direct | Place::DirectX | Place::AtX);
        if access == Access::Read && far && self.rng.chance(40) {
            target = self.rng.within(0xF800, 0xFFFF) as u16;
        }
        if let Some(reg) = stored {
            self.prepare_store(reg, target as u8);
        }
        let index = self.rng.byte();
        match place {
            Place::Number => {
                let byte = self.number();
                self.emit(&[code, byte]);
            }
            Place::In(_) => self.emit(&[code]),
            Place::Direct => self.emit(&[code, target as u8]),
            Place::DirectX => {
                self.emit(&[code::LDX, index, code, (target as u8).wrapping_sub(index)])
            }
            Place::AtX => self.emit(&[code::LDX, target as u8, code]),
            Place::Absolute => self.emit_word(code, target),
            Place::AbsoluteY => {
                self.emit(&[code::LDY, index]);
                self.emit_word(code, target.wrapping_sub(index as u16));
            }
            Place::PointerX => {
                let cell = self.pointer(target);
                self.emit(&[code::LDX, index, code, cell.wrapping_sub(index)]);
            }
            Place::PointerY => {
                let cell = self.pointer(target.wrapping_sub(index as u16));
                self.emit(&[code::LDY, index, code, cell]);
            }
        }
    }

    /// Loads the register that is stored, if a register of the chip takes it.
    fn prepare_store(&mut self, reg: Reg, target: u8) {
        if target < 0x80 {
            return;
        }
        let load = match reg {
            Reg::X => code::LDX,
            Reg::Y => code::LDY,
            _ => code::LDA,
        };
        let value = self.register_value(target);
        self.emit(&[load, value]);
    }

    /// Makes a pointer in RAM.
    fn pointer(&mut self, target: u16) -> u8 {
        let cell = self.rng.below(DATA - 1) as u8;
        let [low, high] = target.to_le_bytes();
        self.ldm(cell, low);
        self.ldm(cell + 1, high);
        cell
    }

    fn cell(&mut self) -> u8 {
        self.rng.below(DATA) as u8
    }

    /// A direct address that bears the access.
    fn target(&mut self, access: Access) -> u8 {
        if self.rng.chance(65) {
            return self.cell();
        }
        match access {
            Access::Read => self.rng.pick(&READABLE),
            Access::Write => self.rng.pick(&WRITABLE),
            Access::Change => self.rng.pick(&CHANGEABLE),
        }
    }

    /// A branch over other snippets.
    fn forward(&mut self, depth: u8) {
        let h = 0x20 * self.rng.below(8) as u8;
        let row = self.rng.pick(&[0x10, 0x02, 0x12, 0x03, 0x13, 0x10]);
        let code = if self.rng.chance(5) { code::BRA } else { h + row };
        self.forward_by(code, depth);
    }

    fn forward_by(&mut self, code: u8, depth: u8) {
        self.emit(&[code]);
        if let Some(Op::BranchBit(_, _, Place::Direct)) = entry(code).map(|e| e.op) {
            let target = self.target(Access::Read);
            self.emit(&[target]);
        }
        let rel = self.at;
        self.emit(&[0]);
        for _ in 0..self.rng.within(1, 2) {
            self.snippet(depth + 1);
        }
        self.patch(rel);
    }

    /// Lets the branch whose rel is at `rel` end here; a body that is too
    /// long is given up.
    fn patch(&mut self, rel: u16) {
        if self.at - rel > 0x7F {
            self.at = rel + 1;
        }
        self.image[(rel - 0xF800) as usize] = (self.at - rel - 1) as u8;
    }

    /// A loop that ends.
    fn backward(&mut self, depth: u8) {
        let cell = self.loops + depth;
        let turns = self.rng.within(1, 6) as u8;
        let resume = self.at;
        if self.rng.chance(20) {
            self.emit(&[code::LDY, turns]);
            let start = self.at;
            self.emit(&[code::INC_DP, self.loops]);
            self.back(&[code::DBNE_Y], start);
            return;
        }
        let (first, end): (u8, &[u8]) = match self.rng.below(4) {
            0 => (turns, &[code::DBNE_DP, cell]),
            1 => (turns, &[code::DEC_DP, cell, code::BNE]),
            2 => (turns, &[code::DEC_DP, cell, code::BPL]),
            _ => (0, &[code::INC_DP, cell, code::BBC_DP + 0x40, cell]),
        };
        self.ldm(cell, first);
        let start = self.at;
        for _ in 0..self.rng.within(1, 2) {
            self.snippet(depth + 1);
        }
        if self.at - start > 0x70 {
            self.at = resume;
        } else {
            self.back(end, start);
        }
    }

    /// A branch back to `start`, from after `bytes` and its rel.
    fn back(&mut self, bytes: &[u8], start: u16) {
        self.emit(bytes);
        let rel = start.wrapping_sub(self.at + 1) as u8;
        self.emit(&[rel]);
    }

    fn call(&mut self) {
        match self.rng.below(5) {
            0 => {
                let routine = self.rng.pick(&self.routines);
                self.emit_word(code::CALL, routine);
            }
            1 => {
                let routine = self.rng.pick(&self.page_routines);
                self.emit(&[code::PCALL, routine]);
            }
            2 if self.breaks => self.emit(&[code::BRK]),
            _ => {
                let first = self.breaks as u64;
                let n = self.rng.within(first, 15) as u8;
                self.emit(&[0x10 * n + 0x0A]);
            }
        }
    }

    fn stack_pair(&mut self, depth: u8) {
        let push = self.rng.pick(&code::PUSH);
        // PSW takes back only PSW, for the sake of G.
        let pop =
            if push == code::PUSH_PSW { code::POP_PSW } else { self.rng.pick(&code::POP[..3]) };
        self.emit(&[push]);
        if depth < 3 {
            self.snippet(depth + 1);
        }
        self.emit(&[pop]);
    }

    /// Random enables and requests of all sources.
    fn storm(&mut self) {
        for register in [0xE2, 0xE3, 0xE4, 0xE5] {
            let byte = self.rng.byte() | self.rng.pick(&[0x00, 0xC0]);
            self.ldm(register, byte);
        }
        self.emit(&[code::EI]);
    }

    /// Random flags, but not G.
    fn flags(&mut self) {
        let flags = self.rng.byte() & !0x20;
        self.emit(&[code::LDA, flags, code::PUSH_A, code::POP_PSW]);
    }

    /// Operations under G, which use no direct address, or seldom one.
    fn upper_page(&mut self) {
        let mask = if self.rng.chance(90) { 0xDB } else { 0xDF };
        let flags = self.rng.byte() & mask | 0x20;
        self.emit(&[code::PUSH_PSW, code::LDA, flags, code::PUSH_A, code::POP_PSW]);
        for _ in 0..self.rng.within(1, 4) {
            self.far_operation();
        }
        if self.rng.chance(5) {
            self.operation(3);
        }
        self.emit(&[code::POP_PSW]);
    }

    /// An operation without a direct address.
    fn far_operation(&mut self) {
        loop {
            let code = valid_code(self.rng);
            let far = entry(code).is_some_and(|e| !is_direct(e.op) && is_plain(e.op));
            if far && self.operation_of(code, 3) {
                return;
            }
        }
    }

    /// Pushes and pulls at which SP wraps.
    fn wrapped_stack(&mut self) {
        self.emit(&[code::DI, code::TSPX, code::STX_DP, SP_CELL]);
        let pop = self.rng.pick(&code::POP[..3]);
        match self.rng.below(3) {
            0 => self.emit(&[code::LDX, 0xFF, code::TXSP, pop]),
            1 => self.emit(&[code::LDX, 0x00, code::TXSP, code::PUSH_A, pop]),
            _ => {
                let [low, high] = (self.at + 10).to_le_bytes();
                self.ldm(0, low);
                self.ldm(1, high);
                self.emit(&[code::LDX, 0xFF, code::TXSP, code::RET]);
            }
        }
        self.emit(&[code::LDX_DP, SP_CELL, code::TXSP]);
        if self.rng.chance(70) {
            self.emit(&[code::EI]);
        }
    }

    /// Any code with any operands.
    fn raw(&mut self) {
        let code = valid_code(self.rng);
        self.emit(&[code]);
        for _ in 0..entry(code).map_or(0, |e| e.operands) {
            let byte = rough_operand(self.rng);
            self.emit(&[byte]);
        }
    }

    /// What stops the run.
    fn bad(&mut self) {
        if self.bad_end && self.rng.chance(50) {
            return self.emit_word(code::JMP, 0xFFFF);
        }
        let (empty, any) = (self.rng.pick(&EMPTY), self.rng.byte());
        match self.rng.below(20) {
            0 => {
                let code = invalid_code(self.rng);
                self.emit(&[code]);
            }
            1 => {
                let code = self.rng.pick(&[0xC5, 0xE5, 0x01, 0xA9, 0x45, 0xEC]);
                self.emit(&[code, empty]);
            }
            2 => {
                let address = self.rng.within(0x0100, 0xF7FF) as u16;
                let code = self.rng.pick(&[0xC7, 0xE7, 0x98, 0xDC, 0x1B, 0x3B]);
                self.emit_word(code, address);
            }
            3 => {
                let register = self.rng.pick(&WRITE_ONLY);
                let code = self.rng.pick(&[0xC5, 0x21, 0x89, 0x8C, 0xCC]);
                self.emit(&[code, register]);
            }
            4 => {
                let code = self.rng.pick(&[0x11, 0x89, 0xE5, 0xE9, 0xEC]);
                self.emit(&[code, 0xD4]);
            }
            5 => {
                let address = self.rng.within(0xF800, 0xFFFF) as u16;
                let code = self.rng.pick(&[0xE7, 0x98, 0xB8, 0xF8, 0xFC]);
                self.emit_word(code, address);
            }
            6 => {
                let value = self.rng.pick(&[0x20, 0x23, 0x3F]);
                self.ldm(0xD0, value);
            }
            7 => {
                let value = self.rng.pick(&[0x10, 0x20, 0x40, 0xF3]);
                self.ldm(0xD2, value);
            }
            8 => self.ldm(0xEC, any | 0x20),
            9 => {
                // Pushes from a bad or a small SP.
                let sp = self.rng.pick(&[0, 1, 2, 0x80, 0xFF, any | 0x80]);
                let code = self.rng.pick(&[code::PUSH_A, code::BRK, 0x1A, code::EI]);
                self.emit(&[code::LDX, sp, code::TXSP, code, code]);
            }
            10 => {
                // Pulls from above RAM.
                let sp = self.rng.pick(&[0x7D, 0x7E, 0x7F, 0x90, any | 0x80]);
                let code = self.rng.pick(&[code::POP_A, code::RET, code::RETI]);
                self.emit(&[code::LDX, sp, code::TXSP, code]);
            }
            11 => {
                let target = self.rng.within(0xFFFC, 0xFFFF) as u16;
                self.emit_word(code::JMP, target);
            }
            12 | 16..=19 => self.direct_in_upper_page(),
            13 => {
                // A pointer with a bad byte, or to nothing.
                let cell = self.rng.pick(&[0x7F, 0xFF, 0xC0, 0x00]);
                let code = self.rng.pick(&[0xD7, 0xF7, 0x17, 0xB7]);
                self.emit(&[code, cell]);
            }
            14 => {
                // Code runs off the end of the image.
                let code = self.rng.pick(&[0x1B, 0x3B, 0xC7, 0x2F]);
                self.set_word(0xFFFC, code as u16 * 0x0101);
                self.emit_word(code::JMP, 0xFFFC);
            }
            _ => self.raw(),
        }
    }

    /// A direct address under G.
    fn direct_in_upper_page(&mut self) {
        let flags = self.rng.byte() & !0x04 | 0x20;
        let code = loop {
            let code = valid_code(self.rng);
            if entry(code).is_some_and(|e| is_direct(e.op)) {
                break code;
            }
        };
        let (x, cell) = (self.cell(), self.cell());
        self.emit(&[code::LDX, x, code::LDA, flags, code::PUSH_A, code::POP_PSW]);
        self.emit(&[code, cell, cell]);
    }
}

fn is_far(place: Place) -> bool {
    matches!(place, Place::Number | Place::Absolute | Place::AbsoluteY | Place::In(_))
}

/// Whether an operation uses a direct address.
fn is_direct(op: Op) -> bool {
    match op {
        Op::Alu(_, p) | Op::Compare(_, p) | Op::Load(_, p) | Op::Store(_, p) => !is_far(p),
        Op::Change(_, p) | Op::BranchBit(_, _, p) | Op::Dbne(p) => !is_far(p),
        Op::Bit(..) | Op::StoreNumber | Op::LoadNext | Op::StoreNext => true,
        _ => false,
    }
}

/// Whether an operation computes or moves, and cannot set G or I.
fn is_plain(op: Op) -> bool {
    matches!(op, Op::Alu(..) | Op::Compare(..) | Op::Load(..) | Op::Store(..) | Op::Change(..))
        || matches!(op, Op::Transfer(..) | Op::ClearFlags(_) | Op::Nop)
}
