//! Numbers of opcodes, for directed machines; `words` has the table.

pub const LDA: u8 = 1;
pub const STA: u8 = 2;
pub const ADA: u8 = 3;
pub const CNT: u8 = 8;
pub const AOS: u8 = 9;
pub const LDI: u8 = 10;
pub const EAP: u8 = 16;
pub const SPP: u8 = 17;
pub const TRA: u8 = 24;
pub const TZE: u8 = 25;
pub const TMI: u8 = 26;
pub const CALL: u8 = 32;
pub const RETURN: u8 = 33;
pub const LDBR: u8 = 40;
pub const HLT: u8 = 41;
pub const RCU: u8 = 42;
