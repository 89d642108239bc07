//! The inputs that fuzzing has kept, for both implementations.

use std::fs;
use std::io;
use std::path::Path;

use crate::compare::Machine;
use second::{Dbr, Pointer, Registers};

/// A kept input, read as `tests/fuzz/fuzz.c` reads it.
pub enum Input {
    Image { image: Vec<u8>, text_length: usize },
    Machine(Machine),
}

const WORDS: usize = 256;
const TEXT: usize = 64 * 201 + 32;
/// An ST record without its mark.
const RECORD: usize = 64;

/// Every input in a folder that is one, with its file's name, in the names' order.
pub fn inputs(folder: &Path) -> io::Result<Vec<(String, Input)>> {
    let mut inputs = Vec::new();
    for entry in fs::read_dir(folder)? {
        let path = entry?.path();
        if let Some(input) = input(&fs::read(&path)?) {
            inputs.push((path.file_name().unwrap_or_default().to_string_lossy().into_owned(), input));
        }
    }
    inputs.sort_by(|(one, _), (other, _)| one.cmp(other));
    Ok(inputs)
}

fn input(bytes: &[u8]) -> Option<Input> {
    let (&[kind, how], rest) = bytes.split_first_chunk()?;
    let half = usize::from(how >> 1);
    if kind & 1 == 1 {
        let text_length = if how & 1 == 1 { 64 * half } else { TEXT - half % 64 };
        return Some(Input::Image { image: rest.to_vec(), text_length });
    }
    let (record, words) = rest.split_first_chunk()?;
    let memory = words.chunks_exact(8).take(WORDS).map(number).collect();
    Some(Input::Machine(Machine { registers: registers(record), memory, budget: u32::from(how >> 1) }))
}

/// High byte first.
fn number(bytes: &[u8]) -> u64 {
    bytes.iter().fold(0, |high, &byte| high << 8 | u64::from(byte))
}

fn registers(record: &[u8; RECORD]) -> Registers {
    let pointer = |at: usize| Pointer {
        ring: record[at],
        segno: number(&record[at + 1..at + 3]) as u16,
        wordno: number(&record[at + 3..at + 5]) as u16,
    };
    Registers {
        a: number(&record[..8]),
        dbr: Dbr { address: number(&record[8..12]) as u32, length: number(&record[12..14]) as u16 },
        ipr: pointer(14),
        pr: std::array::from_fn(|k| pointer(19 + 5 * k)),
        fault_switch: u16::from(record[59]),
        save_segment: number(&record[60..62]) as u16,
        handler_segment: number(&record[62..64]) as u16,
    }
}
