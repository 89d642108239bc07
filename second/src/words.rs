//! Words: the descriptor, the pointer word, the instruction and its opcodes.

/// Bits `first` to `last` of a word; bit 0 is the lowest.
pub(crate) const fn bits(word: u64, first: u32, last: u32) -> u64 {
    (word >> first) & (u64::MAX >> (63 - (last - first)))
}

pub(crate) const fn bit(word: u64, number: u32) -> bool {
    bits(word, number, number) == 1
}

/// The descriptor of a segment. Words 0 to LENGTH-1 exist; gates are words 0 to GATE-1.
#[derive(Clone, Copy, Debug, Default, PartialEq, Eq)]
pub struct Descriptor {
    pub address: u32,
    pub length: u16,
    pub r1: u8,
    pub r2: u8,
    pub r3: u8,
    pub r: bool,
    pub w: bool,
    pub e: bool,
    pub v: bool,
    pub gate: u16,
}

impl Descriptor {
    pub fn from_word(word: u64) -> Self {
        Descriptor {
            address: bits(word, 0, 23) as u32,
            length: bits(word, 24, 39) as u16,
            r1: bits(word, 40, 42) as u8,
            r2: bits(word, 43, 45) as u8,
            r3: bits(word, 46, 48) as u8,
            r: bit(word, 49),
            w: bit(word, 50),
            e: bit(word, 51),
            v: bit(word, 52),
            gate: bits(word, 53, 63) as u16,
        }
    }

    /// The word of fields that are in their ranges.
    pub fn to_word(self) -> u64 {
        u64::from(self.address)
            | u64::from(self.length) << 24
            | u64::from(self.r1) << 40
            | u64::from(self.r2) << 43
            | u64::from(self.r3) << 46
            | u64::from(self.r) << 49
            | u64::from(self.w) << 50
            | u64::from(self.e) << 51
            | u64::from(self.v) << 52
            | u64::from(self.gate) << 53
    }
}

/// A word of a segment and a ring: IPR, each PR, and TPR.
#[derive(Clone, Copy, Debug, Default, PartialEq, Eq)]
pub struct Pointer {
    pub ring: u8,
    pub segno: u16,
    pub wordno: u16,
}

/// A pointer as it stands in memory, with its I.
#[derive(Clone, Copy, Debug, Default, PartialEq, Eq)]
pub struct PointerWord {
    pub pointer: Pointer,
    pub i: bool,
}

impl PointerWord {
    /// Bits 32-63 are ignored.
    pub fn from_word(word: u64) -> Self {
        PointerWord {
            pointer: Pointer {
                wordno: bits(word, 0, 15) as u16,
                segno: bits(word, 16, 27) as u16,
                ring: bits(word, 28, 30) as u8,
            },
            i: bit(word, 31),
        }
    }

    /// Bits 32-63 are zero.
    pub fn to_word(self) -> u64 {
        u64::from(self.pointer.wordno)
            | u64::from(self.pointer.segno) << 16
            | u64::from(self.pointer.ring) << 28
            | u64::from(self.i) << 31
    }
}

/// Where the descriptor segment is: its word s describes segment s.
#[derive(Clone, Copy, Debug, Default, PartialEq, Eq)]
pub struct Dbr {
    pub address: u32,
    pub length: u16,
}

impl Dbr {
    /// The word that LDBR reads: bits 0-23 ADDRESS, 24-36 LENGTH, the rest ignored.
    pub fn from_word(word: u64) -> Self {
        Dbr { address: bits(word, 0, 23) as u32, length: bits(word, 24, 36) as u16 }
    }

    /// The word of fields that are in their ranges.
    pub fn to_word(self) -> u64 {
        u64::from(self.address) | u64::from(self.length) << 24
    }
}

#[derive(Clone, Copy, Debug, Default, PartialEq, Eq)]
pub struct Instruction {
    pub offset: u16,
    pub prnum: u8,
    pub p: bool,
    pub i: bool,
    pub reg: u8,
    pub opcode: u8,
    pub lit: u32,
}

impl Instruction {
    pub fn from_word(word: u64) -> Self {
        Instruction {
            offset: bits(word, 0, 15) as u16,
            prnum: bits(word, 16, 18) as u8,
            p: bit(word, 19),
            i: bit(word, 20),
            reg: bits(word, 21, 23) as u8,
            opcode: bits(word, 24, 31) as u8,
            lit: bits(word, 32, 63) as u32,
        }
    }

    /// The word of fields that are in their ranges.
    pub fn to_word(self) -> u64 {
        u64::from(self.offset)
            | u64::from(self.prnum) << 16
            | u64::from(self.p) << 19
            | u64::from(self.i) << 20
            | u64::from(self.reg) << 21
            | u64::from(self.opcode) << 24
            | u64::from(self.lit) << 32
    }
}

/// The opcodes of the table; Rcu restores the control unit from a frame.
#[derive(Clone, Copy, Debug, PartialEq, Eq)]
pub enum Opcode {
    Lda,
    Sta,
    Ada,
    Sba,
    Ana,
    Ora,
    Xra,
    Cnt,
    Aos,
    Ldi,
    Eap,
    Spp,
    Tra,
    Tze,
    Tmi,
    Call,
    Return,
    Ldbr,
    Hlt,
    Rcu,
}

impl Opcode {
    /// The table, by number.
    pub const TABLE: [(u8, Opcode); 20] = [
        (1, Opcode::Lda),
        (2, Opcode::Sta),
        (3, Opcode::Ada),
        (4, Opcode::Sba),
        (5, Opcode::Ana),
        (6, Opcode::Ora),
        (7, Opcode::Xra),
        (8, Opcode::Cnt),
        (9, Opcode::Aos),
        (10, Opcode::Ldi),
        (16, Opcode::Eap),
        (17, Opcode::Spp),
        (24, Opcode::Tra),
        (25, Opcode::Tze),
        (26, Opcode::Tmi),
        (32, Opcode::Call),
        (33, Opcode::Return),
        (40, Opcode::Ldbr),
        (41, Opcode::Hlt),
        (42, Opcode::Rcu),
    ];

    pub fn from_number(number: u8) -> Option<Opcode> {
        const BY_NUMBER: [Option<Opcode>; 256] = {
            let mut by_number = [None; 256];
            let mut entry = 0;
            while entry < Opcode::TABLE.len() {
                by_number[Opcode::TABLE[entry].0 as usize] = Some(Opcode::TABLE[entry].1);
                entry += 1;
            }
            by_number
        };
        BY_NUMBER[usize::from(number)]
    }

    pub fn is_privileged(self) -> bool {
        matches!(self, Opcode::Ldbr | Opcode::Hlt | Opcode::Rcu)
    }
}
