//! The table for who may do what: R1, R2, R3, R, W and E of every descriptor, by ranges of segments; and the program that
//! sets them in an image.

use crate::image::{read_image, write_image, Image};
use crate::machine::{descriptor_segment_is_allowed, memory_is_allowed};
use crate::words::{Dbr, Descriptor};

/// What segments `first` to `last` get. A flag is off at 0 and on at any other value.
#[derive(Clone, Copy, Debug, Default, PartialEq, Eq)]
pub struct Row {
    pub first: u16,
    pub last: u16,
    pub r1: u8,
    pub r2: u8,
    pub r3: u8,
    pub read: u8,
    pub write: u8,
    pub execute: u8,
}

/// The most rows that a table may have.
pub const MOST_ROWS: usize = 32;

/// Bytes of a row as the program reads it.
const ROW_BYTES: usize = 10;

/// Writes the six fields into every descriptor below DBR LENGTH, nothing else, and answers 0; or writes nothing and
/// answers the number of the first question that is answered no.
pub fn set_brackets(memory: &mut [u64], dbr: Dbr, rows: &[Row]) -> u32 {
    if let Err(number) = refusal(memory.len(), dbr, rows) {
        return number;
    }
    let descriptors = &mut memory[dbr.address as usize..][..usize::from(dbr.length)];
    for row in rows {
        for word in &mut descriptors[usize::from(row.first)..=usize::from(row.last)] {
            *word = row.set_in(*word);
        }
    }
    0
}

/// 1, 4 and 53; then the lowest segment at fault decides between 54 and 55.
fn refusal(words: usize, dbr: Dbr, rows: &[Row]) -> Result<(), u32> {
    // 1
    if !memory_is_allowed(words) {
        return Err(1);
    }
    // 4. As 2 isn't asked, ADDRESS may be any.
    if !descriptor_segment_is_allowed(dbr, words) {
        return Err(4);
    }
    // 53: are there at most 32 rows, each of them allowed?
    if rows.len() > MOST_ROWS || !rows.iter().all(|row| row.is_allowed(dbr)) {
        return Err(53);
    }
    for segno in 0..dbr.length {
        match rows.iter().filter(|row| row.has(segno)).count() {
            // 54: is the segment in a row?
            0 => return Err(54),
            1 => {}
            // 55: is it in one only?
            _ => return Err(55),
        }
    }
    Ok(())
}

impl Row {
    /// 53 of a row: is first not above last, last below LENGTH, and R1 ≤ R2 ≤ R3 ≤ 7?
    fn is_allowed(&self, dbr: Dbr) -> bool {
        self.first <= self.last && self.last < dbr.length && self.r1 <= self.r2 && self.r2 <= self.r3 && self.r3 <= 7
    }

    fn has(&self, segno: u16) -> bool {
        self.first <= segno && segno <= self.last
    }

    /// The descriptor word with the row's six fields. ADDRESS, LENGTH, V and GATE stay.
    fn set_in(&self, word: u64) -> u64 {
        let descriptor = Descriptor {
            r1: self.r1,
            r2: self.r2,
            r3: self.r3,
            r: self.read != 0,
            w: self.write != 0,
            e: self.execute != 0,
            ..Descriptor::from_word(word)
        };
        descriptor.to_word()
    }

    /// First 2, last 2, high byte first; rings and flags 1 each.
    fn from_bytes(bytes: &[u8; ROW_BYTES]) -> Row {
        let [first_high, first_low, last_high, last_low, r1, r2, r3, read, write, execute] = *bytes;
        let first = u16::from_be_bytes([first_high, first_low]);
        let last = u16::from_be_bytes([last_high, last_low]);
        Row { first, last, r1, r2, r3, read, write, execute }
    }
}

// ---- The program.

/// What the program writes for a table and an image: the image anew, or by which number it is refused.
pub fn brackets_output(bytes: &[u8]) -> Vec<u8> {
    match with_brackets(bytes) {
        Ok(Image { registers, memory, budget }) => write_image(&registers, &memory, budget),
        Err(number) => format!("refused {number}\n").into_bytes(),
    }
}

/// The image after its table. What refuses the image comes before what refuses the table.
pub fn with_brackets(bytes: &[u8]) -> Result<Image, u32> {
    // 41: are all rows there?
    let (rows, image) = split_rows(bytes).ok_or(41_u32)?;
    let mut image = read_image(image)?;
    match set_brackets(&mut image.memory, image.registers.dbr, &rows) {
        0 => Ok(image),
        number => Err(number),
    }
}

/// The rows and the bytes behind them: a count in 2 bytes, high byte first, and so many rows.
fn split_rows(bytes: &[u8]) -> Option<(Vec<Row>, &[u8])> {
    let (count, rest) = bytes.split_first_chunk()?;
    let count = usize::from(u16::from_be_bytes(*count));
    let (rows, image) = rest.split_at_checked(count * ROW_BYTES)?;
    let (rows, _) = rows.as_chunks();
    Some((rows.iter().map(Row::from_bytes).collect(), image))
}
