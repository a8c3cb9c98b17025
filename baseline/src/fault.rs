//! Refusals and stops, with their numbers.

/// The case of a fault; its value is the fault's number.
#[derive(Clone, Copy, Debug, PartialEq, Eq)]
#[repr(u8)]
pub enum Kind {
    ImageSize = 1,
    GrantTooLarge = 2,
    ChipSpent = 3,
    PinChartUnfit = 4,
    ModeChartUnfit = 5,
    NotOnSheet = 6,
    Unoccupied = 7,
    ReadOfWriteOnly = 8,
    WriteToReadOnly = 9,
    UnsupportedMode = 10,
    NoPinPlace = 11,
    NoModePlace = 12,
    BadPulseList = 13,
    WaveOutOfRange = 14,
}

/// A fault and what it names.
#[derive(Clone, Copy, Debug, PartialEq, Eq)]
pub struct Fault {
    pub kind: Kind,
    pub pc: Option<u16>,
    pub address: Option<u16>,
    pub pair: Option<u64>,
}

impl Fault {
    pub fn new(kind: Kind) -> Fault {
        Fault { kind, pc: None, address: None, pair: None }
    }

    /// A fault of the bus. The tick adds the PC.
    pub fn at(kind: Kind, address: u16) -> Fault {
        Fault { address: Some(address), ..Fault::new(kind) }
    }

    pub fn pair(pair: u64) -> Fault {
        Fault { pair: Some(pair), ..Fault::new(Kind::BadPulseList) }
    }

    pub fn with_pc(self, pc: u16) -> Fault {
        Fault { pc: Some(pc), ..self }
    }

    pub fn number(&self) -> u8 {
        self.kind as u8
    }
}
