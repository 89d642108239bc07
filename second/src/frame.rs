//! The frame: the thirteen words that a delivered fault leaves and that opcode 42 takes up.

use crate::machine::{Fault, Registers};
use crate::words::{Dbr, Pointer, PointerWord};

/// How many words a frame has.
pub const WORDS: usize = 13;

/// Number, address under question, A, DBR, IPR, PR0 to PR7.
pub fn of_fault(fault: &Fault, registers: &Registers) -> [u64; WORDS] {
    let [p0, p1, p2, p3, p4, p5, p6, p7] = registers.pr.map(word);
    let number = u64::from(fault.number);
    let [at, ipr] = [fault.at, registers.ipr].map(word);
    [number, at, registers.a, registers.dbr.to_word(), ipr, p0, p1, p2, p3, p4, p5, p6, p7]
}

/// I off.
fn word(pointer: Pointer) -> u64 {
    PointerWord { pointer, i: false }.to_word()
}

/// The registers of a frame. Number, address under question and every I are ignored; switch and both segments are those
/// of `now`.
pub fn registers(frame: &[u64; WORDS], now: &Registers) -> Registers {
    let [_, _, a, dbr, ipr, pr @ ..] = *frame;
    let pointer = |word| PointerWord::from_word(word).pointer;
    Registers { a, dbr: Dbr::from_word(dbr), ipr: pointer(ipr), pr: pr.map(pointer), ..*now }
}
