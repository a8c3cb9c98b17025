//! The first step of a tick: waking, interrupts and instructions.

use crate::bus::World;
use crate::chart::Mode;
use crate::fault::{Fault, Kind};
use crate::machine::{ckctlr, flag, image_word, request, Machine};
use crate::sheet::{entry, Alu, Change, Op, Place, Reg};
use crate::tally::{hit, Event};
use crate::RAM_SIZE;

/// Ticks that an accepted interrupt owes.
const ACCEPTANCE: u8 = 16;
/// Sources in the order in which they are accepted, with their vectors.
const SOURCES: [(u16, u16); 7] = [
    (request::INT0, 0xFFFA),
    (request::INT1, 0xFFF8),
    (request::T0, 0xFFF6),
    (request::T1, 0xFFF4),
    (request::AD, 0xFFEA),
    (request::WDT, 0xFFE8),
    (request::BIT, 0xFFE6),
];
/// The word of TCALL 0, and of BRK.
const TABLE: u16 = 0xFFDE;

impl Machine {
    /// Step 1 of a tick. After a fault the machine is spoilt.
    pub fn act(&mut self, world: World) -> Result<(), Fault> {
        if self.owed > 0 || !self.awake() {
            return Ok(());
        }
        let pc = self.pc;
        let done = match self.pending() {
            Some(source) if self.has(flag::I) => self.accept(world, source),
            _ => self.instruction(world),
        };
        done.map_err(|fault| fault.with_pc(pc))
    }

    /// Whether the chip is awake, after a request may have woken it.
    fn awake(&mut self) -> bool {
        let waking = self.enabled & self.requests & request::WAKING;
        if self.mode != Mode::Running && waking != 0 {
            hit(Event::Wake(self.mode.letter(), (waking >> 13) as u8));
            self.mode = Mode::Running;
        }
        self.mode == Mode::Running
    }

    /// The first source with an enabled request.
    fn pending(&self) -> Option<usize> {
        SOURCES.iter().position(|(bit, _)| self.enabled & self.requests & bit != 0)
    }

    fn accept(&mut self, world: World, source: usize) -> Result<(), Fault> {
        let (bit, vector) = SOURCES[source];
        self.requests &= !bit;
        self.enter(world, vector)?;
        self.owed = ACCEPTANCE;
        hit(Event::Accept(source as u8));
        Ok(())
    }

    /// Pushes PC and PSW, clears I and goes to the word at `vector`.
    fn enter(&mut self, world: World, vector: u16) -> Result<(), Fault> {
        self.push_pc()?;
        self.push(self.psw)?;
        self.set(flag::I, false);
        self.pc = image_word(world.image, vector);
        Ok(())
    }

    fn instruction(&mut self, world: World) -> Result<(), Fault> {
        let code = world.code(self.pc)?;
        let entry = entry(code).ok_or(Fault::new(Kind::NotOnSheet))?;
        let mut operand = [0; 2];
        for i in 0..entry.operands {
            operand[i as usize] = world.code(self.pc.wrapping_add(1 + i))?;
        }
        self.pc = self.pc.wrapping_add(1 + entry.operands);
        let taken = self.execute(world, entry.op, operand)?;
        self.owed = 2 * (entry.cycles + if taken { 2 } else { 0 });
        hit(Event::Code(code, taken));
        Ok(())
    }

    /// Carries out an operation; true if it is a branch that is taken.
    fn execute(&mut self, world: World, op: Op, operand: [u8; 2]) -> Result<bool, Fault> {
        let word = u16::from_le_bytes(operand);
        match op {
            Op::Alu(alu, place) => {
                let byte = self.get(world, place, operand)?;
                self.compute(alu, byte);
            }
            Op::Compare(reg, place) => {
                let byte = self.get(world, place, operand)?;
                self.compare(self.reg(reg), byte);
            }
            Op::Load(reg, place) => {
                let byte = self.get(world, place, operand)?;
                self.load(reg, byte);
            }
            Op::Store(reg, place) => {
                let address = self.address(world, place, operand)?;
                self.write(address, self.reg(reg))?;
            }
            Op::StoreNumber => self.write(self.direct(operand[1]), operand[0])?,
            Op::LoadNext => {
                let byte = self.read(world, self.direct(self.x))?;
                self.load(Reg::A, byte);
                self.x = self.x.wrapping_add(1);
            }
            Op::StoreNext => {
                self.write(self.direct(self.x), self.a)?;
                self.x = self.x.wrapping_add(1);
            }
            Op::Change(change, Place::In(reg)) => {
                let byte = self.change(change, self.reg(reg));
                self.set_reg(reg, byte);
            }
            Op::Change(change, place) => {
                let address = self.address(world, place, operand)?;
                let old = self.read(world, address)?;
                let new = self.change(change, old);
                self.write(address, new)?;
            }
            Op::Transfer(from, to) => self.load(to, self.reg(from)),
            Op::Push(reg) => self.push(self.reg(reg))?,
            Op::Pop(reg) => {
                let byte = self.pull()?;
                self.set_reg(reg, byte);
            }
            Op::SetFlag(flag) => self.set(flag, true),
            Op::ClearFlags(flags) => self.set(flags, false),
            Op::Bit(on, bit) => {
                let address = self.direct(operand[0]);
                let old = self.read(world, address)?;
                let mask = 1 << bit;
                self.write(address, if on { old | mask } else { old & !mask })?;
            }
            Op::BranchBit(on, bit, Place::In(reg)) => {
                return Ok(self.branch(self.reg(reg) >> bit & 1 == on as u8, operand[0]));
            }
            Op::BranchBit(on, bit, _) => {
                let byte = self.read(world, self.direct(operand[0]))?;
                return Ok(self.branch(byte >> bit & 1 == on as u8, operand[1]));
            }
            Op::Branch(on, flag) => return Ok(self.branch(self.has(flag) == on, operand[0])),
            Op::BranchAlways => {
                self.branch(true, operand[0]);
            }
            Op::Dbne(Place::In(reg)) => {
                let byte = self.reg(reg).wrapping_sub(1);
                self.set_reg(reg, byte);
                return Ok(self.branch(byte != 0, operand[0]));
            }
            Op::Dbne(_) => {
                let address = self.direct(operand[0]);
                let byte = self.read(world, address)?.wrapping_sub(1);
                self.write(address, byte)?;
                return Ok(self.branch(byte != 0, operand[1]));
            }
            Op::Jump => self.pc = word,
            Op::Call => self.call(word)?,
            Op::PageCall => self.call(0xFF00 | operand[0] as u16)?,
            Op::TableCall(n) => self.call(image_word(world.image, TABLE - 2 * n as u16))?,
            Op::Break => {
                self.set(flag::B, true);
                self.enter(world, TABLE)?;
            }
            Op::Return => self.pull_pc()?,
            Op::ReturnInterrupt => {
                self.psw = self.pull()?;
                self.pull_pc()?;
            }
            Op::Stop => {
                let wake_up = self.ckctlr & ckctlr::WAKEUP != 0;
                self.mode = if wake_up { Mode::WakeTimer } else { Mode::Stopped };
            }
            Op::Nop => {}
        }
        Ok(false)
    }

    // Operands.

    /// A direct address, in the page that G selects.
    fn direct(&self, low: u8) -> u16 {
        if self.has(flag::G) {
            hit(Event::UpperPage);
        }
        u16::from_be_bytes([self.has(flag::G) as u8, low])
    }

    /// The word whose bytes are at two direct addresses.
    fn pointer(&self, world: World, low: u8) -> Result<u16, Fault> {
        let first = self.read(world, self.direct(low))?;
        let second = self.read(world, self.direct(low.wrapping_add(1)))?;
        Ok(u16::from_le_bytes([first, second]))
    }

    fn address(&self, world: World, place: Place, operand: [u8; 2]) -> Result<u16, Fault> {
        let word = u16::from_le_bytes(operand);
        let y = self.y as u16;
        Ok(match place {
            Place::Direct => self.direct(operand[0]),
            Place::DirectX => self.direct(operand[0].wrapping_add(self.x)),
            Place::AtX => self.direct(self.x),
            Place::Absolute => word,
            Place::AbsoluteY => word.wrapping_add(y),
            Place::PointerX => self.pointer(world, operand[0].wrapping_add(self.x))?,
            Place::PointerY => self.pointer(world, operand[0])?.wrapping_add(y),
            Place::Number | Place::In(_) => unreachable!("not in memory"),
        })
    }

    fn get(&self, world: World, place: Place, operand: [u8; 2]) -> Result<u8, Fault> {
        match place {
            Place::Number => Ok(operand[0]),
            _ => self.read(world, self.address(world, place, operand)?),
        }
    }

    fn reg(&self, reg: Reg) -> u8 {
        match reg {
            Reg::A => self.a,
            Reg::X => self.x,
            Reg::Y => self.y,
            Reg::Sp => self.sp,
            Reg::Psw => self.psw,
        }
    }

    fn set_reg(&mut self, reg: Reg, byte: u8) {
        match reg {
            Reg::A => self.a = byte,
            Reg::X => self.x = byte,
            Reg::Y => self.y = byte,
            Reg::Sp => self.sp = byte,
            Reg::Psw => self.psw = byte,
        }
    }

    // Results and flags.

    fn load(&mut self, reg: Reg, byte: u8) {
        self.set_reg(reg, byte);
        self.set_nz(byte);
    }

    fn set_nz(&mut self, byte: u8) {
        self.set(flag::N, byte & 0x80 != 0);
        self.set(flag::Z, byte == 0);
    }

    fn compute(&mut self, alu: Alu, byte: u8) {
        match alu {
            Alu::Adc => self.add(byte),
            Alu::Sbc => self.add(!byte),
            Alu::Or => self.load(Reg::A, self.a | byte),
            Alu::And => self.load(Reg::A, self.a & byte),
            Alu::Eor => self.load(Reg::A, self.a ^ byte),
        }
    }

    fn add(&mut self, byte: u8) {
        let carry = self.has(flag::C) as u8;
        let sum = self.a as u16 + byte as u16 + carry as u16;
        let result = sum as u8;
        self.set(flag::H, (self.a & 0x0F) + (byte & 0x0F) + carry > 0x0F);
        self.set(flag::V, !(self.a ^ byte) & (self.a ^ result) & 0x80 != 0);
        self.set(flag::C, sum > 0xFF);
        self.load(Reg::A, result);
    }

    fn compare(&mut self, left: u8, right: u8) {
        self.set(flag::C, left >= right);
        self.set_nz(left.wrapping_sub(right));
    }

    fn change(&mut self, change: Change, old: u8) -> u8 {
        let carry = self.has(flag::C) as u8;
        let new = match change {
            Change::Asl => old << 1,
            Change::Rol => old << 1 | carry,
            Change::Lsr => old >> 1,
            Change::Ror => old >> 1 | carry << 7,
            Change::Inc => old.wrapping_add(1),
            Change::Dec => old.wrapping_sub(1),
        };
        match change {
            Change::Asl | Change::Rol => self.set(flag::C, old & 0x80 != 0),
            Change::Lsr | Change::Ror => self.set(flag::C, old & 0x01 != 0),
            Change::Inc | Change::Dec => {}
        }
        self.set_nz(new);
        new
    }

    // Branches, calls and the stack.

    fn branch(&mut self, taken: bool, rel: u8) -> bool {
        if taken {
            self.pc = self.pc.wrapping_add_signed(rel as i8 as i16);
        }
        taken
    }

    fn call(&mut self, target: u16) -> Result<(), Fault> {
        self.push_pc()?;
        self.pc = target;
        Ok(())
    }

    fn push(&mut self, byte: u8) -> Result<(), Fault> {
        *self.stack()? = byte;
        self.sp = self.sp.wrapping_sub(1);
        Ok(())
    }

    fn pull(&mut self) -> Result<u8, Fault> {
        self.sp = self.sp.wrapping_add(1);
        Ok(*self.stack()?)
    }

    /// The RAM byte at SP.
    fn stack(&mut self) -> Result<&mut u8, Fault> {
        let at = self.sp as usize;
        if at < RAM_SIZE {
            Ok(&mut self.ram[at])
        } else {
            Err(Fault::at(Kind::Unoccupied, at as u16))
        }
    }

    fn push_pc(&mut self) -> Result<(), Fault> {
        let [high, low] = self.pc.to_be_bytes();
        self.push(high)?;
        self.push(low)
    }

    fn pull_pc(&mut self) -> Result<(), Fault> {
        let low = self.pull()?;
        let high = self.pull()?;
        self.pc = u16::from_be_bytes([high, low]);
        Ok(())
    }
}
