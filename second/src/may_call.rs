//! The program that asks whether a call would pass: a pointer and an image, both as bytes.

use crate::image::{read_records, Rules};
use crate::machine::{may_call, Check, Fault};
use crate::words::Pointer;

/// What the program prints, a line.
pub fn may_call_text(bytes: &[u8]) -> String {
    match check(bytes) {
        Check::Refused { number } => format!("refused {number}\n"),
        Check::Fault(Fault { number, at }) => format!("fault {number} {} {} {}\n", at.ring, at.segno, at.wordno),
        Check::Passes { ring } => format!("passes {ring}\n"),
    }
}

/// Of the image's start: 41 to 44 and 51, then the check's own questions, so that 2 of the pointer comes before 3 and 4.
/// The budget isn't used.
fn check(bytes: &[u8]) -> Check {
    // RING 1, SEGNO 2, WORDNO 2, high byte first. 41: are they there?
    let [ring, segno_high, segno_low, wordno_high, wordno_low, image @ ..] = bytes else {
        return Check::Refused { number: 41 };
    };
    let pointer = Pointer {
        ring: *ring,
        segno: u16::from_be_bytes([*segno_high, *segno_low]),
        wordno: u16::from_be_bytes([*wordno_high, *wordno_low]),
    };
    match read_records(image, Rules::Today) {
        Ok(image) => may_call(&image.registers, &image.memory, &pointer),
        Err(number) => Check::Refused { number },
    }
}
