//! The code sheet: operation, operand bytes and cycles of a code.

use crate::machine::flag;

#[derive(Clone, Copy, Debug, PartialEq, Eq)]
pub enum Reg {
    A,
    X,
    Y,
    Sp,
    Psw,
}

/// Where an operand is.
#[derive(Clone, Copy, Debug, PartialEq, Eq)]
pub enum Place {
    Number,
    Direct,
    DirectX,
    Absolute,
    AtX,
    AbsoluteY,
    PointerX,
    PointerY,
    In(Reg),
}

#[derive(Clone, Copy, Debug, PartialEq, Eq)]
pub enum Alu {
    Adc,
    Sbc,
    Or,
    And,
    Eor,
}

/// An operation that changes its operand.
#[derive(Clone, Copy, Debug, PartialEq, Eq)]
pub enum Change {
    Asl,
    Rol,
    Lsr,
    Ror,
    Inc,
    Dec,
}

#[derive(Clone, Copy, Debug, PartialEq, Eq)]
pub enum Op {
    Alu(Alu, Place),
    Compare(Reg, Place),
    Load(Reg, Place),
    Store(Reg, Place),
    StoreNumber,
    LoadNext,
    StoreNext,
    Change(Change, Place),
    /// From, to.
    Transfer(Reg, Reg),
    Push(Reg),
    Pop(Reg),
    SetFlag(u8),
    ClearFlags(u8),
    /// The bit's new value and number.
    Bit(bool, u8),
    /// The bit's value that branches, its number, and where it is.
    BranchBit(bool, u8, Place),
    /// The flag's value that branches, and the flag.
    Branch(bool, u8),
    BranchAlways,
    /// DBNE of dp or of Y.
    Dbne(Place),
    Jump,
    Call,
    PageCall,
    TableCall(u8),
    Break,
    Return,
    ReturnInterrupt,
    Stop,
    Nop,
}

#[derive(Clone, Copy, Debug, PartialEq, Eq)]
pub struct Entry {
    pub op: Op,
    /// Operand bytes after the code.
    pub operands: u16,
    /// Cycles without a taken branch, which costs two more.
    pub cycles: u8,
}

/// The sheet's entry of a code.
pub fn entry(code: u8) -> Option<Entry> {
    let (op, cycles) = single(code).or_else(|| in_row(code >> 5, code & 0x1F))?;
    Some(Entry { op, operands: operands(op), cycles })
}

fn operands(op: Op) -> u16 {
    match op {
        Op::Alu(_, p) | Op::Compare(_, p) | Op::Load(_, p) | Op::Store(_, p) | Op::Change(_, p) => {
            place_bytes(p)
        }
        Op::BranchBit(_, _, p) | Op::Dbne(p) => place_bytes(p) + 1,
        Op::StoreNumber | Op::Jump | Op::Call => 2,
        Op::Bit(..) | Op::Branch(..) | Op::BranchAlways | Op::PageCall => 1,
        _ => 0,
    }
}

fn place_bytes(place: Place) -> u16 {
    match place {
        Place::In(_) | Place::AtX => 0,
        Place::Absolute | Place::AbsoluteY => 2,
        _ => 1,
    }
}

/// The codes that the sheet lists one by one.
fn single(code: u8) -> Option<(Op, u8)> {
    use Place::*;
    use Reg::*;
    Some(match code {
        0xE4 => (Op::StoreNumber, 5),
        0x0F => (Op::Break, 8),
        0x2F => (Op::BranchAlways, 4),
        0x4F => (Op::PageCall, 6),
        0x6F => (Op::Return, 5),
        0x7F => (Op::ReturnInterrupt, 6),
        0x1B => (Op::Jump, 3),
        0x3B => (Op::Call, 8),
        0xAC => (Op::Dbne(Direct), 5),
        0x7B => (Op::Dbne(In(Y)), 4),
        0xEF => (Op::Stop, 3),
        0xFF => (Op::Nop, 2),
        0x8F => (Op::Change(Change::Inc, In(X)), 2),
        0xAF => (Op::Change(Change::Dec, In(X)), 2),
        0x9E => (Op::Change(Change::Inc, In(Y)), 2),
        0xBE => (Op::Change(Change::Dec, In(Y)), 2),
        0xC8 => (Op::Transfer(X, A), 2),
        0xE8 => (Op::Transfer(A, X), 2),
        0xBF => (Op::Transfer(Y, A), 2),
        0x9F => (Op::Transfer(A, Y), 2),
        0x8E => (Op::Transfer(X, Sp), 2),
        0xAE => (Op::Transfer(Sp, X), 2),
        0xDB => (Op::LoadNext, 4),
        0xFB => (Op::StoreNext, 4),
        0x1E => (Op::Load(X, Number), 2),
        0xCC => (Op::Load(X, Direct), 3),
        0xDC => (Op::Load(X, Absolute), 4),
        0x3E => (Op::Load(Y, Number), 2),
        0xC9 => (Op::Load(Y, Direct), 3),
        0xD8 => (Op::Load(Y, Absolute), 4),
        0xD9 => (Op::Load(Y, DirectX), 4),
        0x5E => (Op::Compare(X, Number), 2),
        0x6C => (Op::Compare(X, Direct), 3),
        0x7C => (Op::Compare(X, Absolute), 4),
        0x7E => (Op::Compare(Y, Number), 2),
        0x8C => (Op::Compare(Y, Direct), 3),
        0x9C => (Op::Compare(Y, Absolute), 4),
        0xEC => (Op::Store(X, Direct), 4),
        0xFC => (Op::Store(X, Absolute), 5),
        0xE9 => (Op::Store(Y, Direct), 4),
        0xF8 => (Op::Store(Y, Absolute), 5),
        0xF9 => (Op::Store(Y, DirectX), 5),
        _ => return None,
    })
}

/// The codes h × 20 + row.
fn in_row(h: u8, row: u8) -> Option<(Op, u8)> {
    use Place::*;
    Some(match row {
        0x00 => return flags(h),
        0x01 => (Op::Bit(true, h), 4),
        0x11 => (Op::Bit(false, h), 4),
        0x02 => (Op::BranchBit(true, h, In(Reg::A)), 4),
        0x12 => (Op::BranchBit(false, h, In(Reg::A)), 4),
        0x03 => (Op::BranchBit(true, h, Direct), 5),
        0x13 => (Op::BranchBit(false, h, Direct), 5),
        0x04 => accumulator(h, Number, 2),
        0x05 => accumulator(h, Direct, 3),
        0x06 => accumulator(h, DirectX, 4),
        0x07 => accumulator(h, Absolute, 4),
        0x14 => accumulator(h, AtX, 3),
        0x15 => accumulator(h, AbsoluteY, 5),
        0x16 => accumulator(h, PointerX, 6),
        0x17 => accumulator(h, PointerY, 6),
        0x08 => (Op::Change(change(h)?, In(Reg::A)), 2),
        0x09 => (Op::Change(change(h)?, Direct), 4),
        0x18 => (Op::Change(change(h)?, Absolute), 5),
        0x19 => (Op::Change(change(h)?, DirectX), 5),
        0x0A => (Op::TableCall(2 * h), 8),
        0x1A => (Op::TableCall(2 * h + 1), 8),
        0x0D => (Op::Pop(stacked(h)?), 4),
        0x0E => (Op::Push(stacked(h)?), 4),
        0x10 => (branch(h), 2),
        _ => return None,
    })
}

fn flags(h: u8) -> Option<(Op, u8)> {
    Some(match h {
        1 => (Op::ClearFlags(flag::C), 2),
        3 => (Op::ClearFlags(flag::I), 3),
        4 => (Op::ClearFlags(flag::V | flag::H), 2),
        5 => (Op::SetFlag(flag::C), 2),
        7 => (Op::SetFlag(flag::I), 3),
        _ => return None,
    })
}

fn accumulator(h: u8, place: Place, cycles: u8) -> (Op, u8) {
    match h {
        0 => (Op::Alu(Alu::Adc, place), cycles),
        1 => (Op::Alu(Alu::Sbc, place), cycles),
        2 => (Op::Compare(Reg::A, place), cycles),
        3 => (Op::Alu(Alu::Or, place), cycles),
        4 => (Op::Alu(Alu::And, place), cycles),
        5 => (Op::Alu(Alu::Eor, place), cycles),
        6 => (Op::Load(Reg::A, place), cycles),
        _ => (Op::Store(Reg::A, place), cycles + 1),
    }
}

fn change(h: u8) -> Option<Change> {
    Some(match h {
        0 => Change::Asl,
        1 => Change::Rol,
        2 => Change::Lsr,
        3 => Change::Ror,
        4 => Change::Inc,
        5 => Change::Dec,
        _ => return None,
    })
}

fn stacked(h: u8) -> Option<Reg> {
    Some(match h {
        0 => Reg::A,
        1 => Reg::X,
        2 => Reg::Y,
        3 => Reg::Psw,
        _ => return None,
    })
}

fn branch(h: u8) -> Op {
    let flag = [flag::N, flag::V, flag::C, flag::Z][(h & 3) as usize];
    // BPL BVC BCC branch on 0, BNE too; BMI BVS BCS BEQ on 1.
    Op::Branch(h >= 4, flag)
}
