//! The listing: a line for each completed step, then the reply. Every line ends with a newline.

use std::io::{self, Write};

use crate::image::{read_image, Image};
use crate::machine::{step, Fault, Reply};
use crate::words::Pointer;

/// What the laptop program prints for an image.
pub fn list(bytes: &[u8], text: &mut impl Write) -> io::Result<()> {
    match read_image(bytes) {
        Ok(image) => list_run(image, text),
        Err(number) => writeln!(text, "refused {number}"),
    }
}

/// The listing of an image that isn't refused. The last line's total is the sum over the lines before it.
pub fn list_run(image: Image, text: &mut impl Write) -> io::Result<()> {
    let Image { mut registers, mut memory, budget } = image;
    let mut total = 0;
    for count in 0..budget {
        let reply = step(&mut registers, &mut memory);
        if let Reply::Spent { pointer_words, .. } | Reply::Halted { pointer_words, .. } = reply {
            step_line(text, count + 1, registers.ipr, pointer_words)?;
            total += pointer_words;
        }
        match reply {
            Reply::Spent { .. } => {}
            Reply::Halted { .. } => {
                return last_line(text, Reply::Halted { count: count + 1, pointer_words: total });
            }
            Reply::Fault { fault, .. } => {
                return last_line(text, Reply::Fault { fault, count, pointer_words: total });
            }
            // 1 to 4 stay yes from step to step.
            Reply::Refused { .. } => return last_line(text, reply),
        }
    }
    last_line(text, Reply::Spent { count: budget, pointer_words: total })
}

/// A completed step: its number, IPR after it, and its pointer words.
fn step_line(text: &mut impl Write, number: u32, ipr: Pointer, pointer_words: u64) -> io::Result<()> {
    writeln!(text, "{number} {} {} {} {pointer_words}", ipr.ring, ipr.segno, ipr.wordno)
}

/// What the run answers.
fn last_line(text: &mut impl Write, reply: Reply) -> io::Result<()> {
    match reply {
        Reply::Refused { number } => writeln!(text, "refused {number}"),
        Reply::Spent { count, pointer_words } => writeln!(text, "spent {count} {pointer_words}"),
        Reply::Halted { count, pointer_words } => writeln!(text, "halted {count} {pointer_words}"),
        Reply::Fault { fault: Fault { number, at }, count, pointer_words } => {
            writeln!(text, "fault {number} {count} {} {} {} {pointer_words}", at.ring, at.segno, at.wordno)
        }
    }
}

#[cfg(test)]
mod tests {
    use super::*;

    /// 45 asks for 64 bytes a line: the longest numbers fit, and no run has longer ones.
    #[test]
    fn longest_lines() {
        let at = Pointer { ring: 7, segno: 4_095, wordno: 65_535 };
        let most = 64 * u64::from(u32::MAX);
        assert_eq!(most, 274_877_906_880);
        let length = |line: &dyn Fn(&mut Vec<u8>) -> io::Result<()>| {
            let mut text = Vec::new();
            assert!(line(&mut text).is_ok());
            text.len()
        };
        assert_eq!(length(&|text| step_line(text, u32::MAX, at, 64)), 27);
        let (count, pointer_words) = (u32::MAX, most);
        assert_eq!(length(&|text| last_line(text, Reply::Spent { count, pointer_words })), 30);
        assert_eq!(length(&|text| last_line(text, Reply::Halted { count, pointer_words })), 31);
        let fault = Fault { number: 34, at };
        assert_eq!(length(&|text| last_line(text, Reply::Fault { fault, count, pointer_words })), 46);
        // So they would with any total of 64 bits.
        assert_eq!(length(&|text| last_line(text, Reply::Fault { fault, count, pointer_words: u64::MAX })), 54);
    }
}
