//! Images: ME, ST, WD and RN records, and the questions 41 to 44 and 51, then 1 to 4; and images written anew.

use crate::machine::{refusal, Registers};
use crate::words::{Dbr, Pointer};

/// What an image hands over.
#[derive(Clone, Debug, PartialEq, Eq)]
pub struct Image {
    pub registers: Registers,
    pub memory: Vec<u64>,
    pub budget: u32,
}

/// The most words of memory that ME may give.
pub const ME_LIMIT: u32 = 8_192;

/// What ST has, and which WDs an image may have.
#[derive(Clone, Copy, Debug, PartialEq, Eq)]
pub enum Rules {
    /// ST of 64 bytes; one WD for each address: 51.
    Today,
    /// ST of 59 bytes, without switch and segments; any WDs: the later of two wins. So were stored images written.
    Stored,
}

/// A record without its mark.
#[derive(Clone, Copy, Debug, PartialEq, Eq)]
pub enum Record {
    Me { words: u32 },
    St { registers: Registers },
    Wd { address: u32, word: u64 },
    Rn { budget: u32 },
}

/// Bytes not read yet; numbers are high byte first.
struct Bytes<'b>(&'b [u8]);

impl Bytes<'_> {
    /// The number in the next `size` bytes, at most 8; nothing when they aren't all there.
    fn number(&mut self, size: usize) -> Option<u64> {
        let (number, rest) = self.0.split_at_checked(size)?;
        self.0 = rest;
        Some(number.iter().fold(0, |high, &byte| high << 8 | u64::from(byte)))
    }

    fn u8(&mut self) -> Option<u8> {
        self.number(1).map(|number| number as u8)
    }

    fn u16(&mut self) -> Option<u16> {
        self.number(2).map(|number| number as u16)
    }

    fn u32(&mut self) -> Option<u32> {
        self.number(4).map(|number| number as u32)
    }

    fn u64(&mut self) -> Option<u64> {
        self.number(8)
    }

    /// RING 1, SEGNO 2, WORDNO 2.
    fn pointer(&mut self) -> Option<Pointer> {
        Some(Pointer { ring: self.u8()?, segno: self.u16()?, wordno: self.u16()? })
    }

    /// A 8, DBR ADDRESS 4, LENGTH 2, then IPR and PR0 to PR7; today the switch 1, save and handler segment 2 as well.
    fn registers(&mut self, rules: Rules) -> Option<Registers> {
        let mut registers = Registers {
            a: self.u64()?,
            dbr: Dbr { address: self.u32()?, length: self.u16()? },
            ipr: self.pointer()?,
            ..Registers::default()
        };
        for pr in &mut registers.pr {
            *pr = self.pointer()?;
        }
        if rules == Rules::Today {
            registers.fault_switch = u16::from(self.u8()?);
            registers.save_segment = self.u16()?;
            registers.handler_segment = self.u16()?;
        }
        Some(registers)
    }

    /// 41: known mark and whole record?
    fn record(&mut self, rules: Rules) -> Option<Record> {
        let (mark, rest) = self.0.split_first_chunk::<2>()?;
        self.0 = rest;
        match mark {
            b"ME" => Some(Record::Me { words: self.u32()? }),
            b"ST" => Some(Record::St { registers: self.registers(rules)? }),
            b"WD" => Some(Record::Wd { address: self.u32()?, word: self.u64()? }),
            b"RN" => Some(Record::Rn { budget: self.u32()? }),
            _ => None,
        }
    }
}

/// The records one after another, each with its bytes, up to the first that isn't whole.
pub fn records(bytes: &[u8], rules: Rules) -> impl Iterator<Item = (Record, &[u8])> {
    let mut rest = Bytes(bytes);
    std::iter::from_fn(move || {
        let before = rest.0;
        let record = rest.record(rules)?;
        Some((record, &before[..before.len() - rest.0.len()]))
    })
}

/// The image in `bytes`, or the number of the first question that is answered no: 41 to 44 and 51 record by record, then
/// 1 to 4.
pub fn read_image(bytes: &[u8]) -> Result<Image, u8> {
    read(bytes, Rules::Today)
}

/// What a stored image means: 51 isn't asked, and the later of two WDs wins; switch and both segments are 0.
pub fn read_stored_image(bytes: &[u8]) -> Result<Image, u8> {
    read(bytes, Rules::Stored)
}

fn read(bytes: &[u8], rules: Rules) -> Result<Image, u8> {
    let image = read_records(bytes, rules)?;
    // 1 to 4
    refusal(&image.registers, image.memory.len())?;
    Ok(image)
}

/// The image of its records alone: 41 to 44 and 51, but not 1 to 4.
pub(crate) fn read_records(bytes: &[u8], rules: Rules) -> Result<Image, u8> {
    let Read { given, registers, budget, .. } = read_each::<Vec<Option<u64>>>(bytes, rules)?;
    // Memory is all zero but for the words given.
    let memory = given.into_iter().map(Option::unwrap_or_default).collect();
    Ok(Image { registers, memory, budget })
}

/// What is kept of the WDs.
pub(crate) trait Given {
    /// Of none, with so many words of memory.
    fn none(words: u32) -> Self;
    /// One more. Answers whether an earlier one has the address, which is one of memory's.
    fn give(&mut self, address: u32, word: u64) -> bool;
}

impl Given for Vec<Option<u64>> {
    fn none(words: u32) -> Self {
        vec![None; words as usize]
    }

    fn give(&mut self, address: u32, word: u64) -> bool {
        self[address as usize].replace(word).is_some()
    }
}

/// What the records hand over.
pub(crate) struct Read<G> {
    /// ME's number.
    pub words: u32,
    pub given: G,
    pub registers: Registers,
    pub budget: u32,
}

/// 41 to 44 and 51, record by record.
pub(crate) fn read_each<G: Given>(bytes: &[u8], rules: Rules) -> Result<Read<G>, u8> {
    let mut bytes = Bytes(bytes);
    // ME's number, and what WDs have given.
    let mut memory: Option<(u32, G)> = None;
    let mut registers: Option<Registers> = None;
    let mut budget: Option<u32> = None;

    while !bytes.0.is_empty() {
        // 42: RN last? Bytes after it aren't read as a record.
        if budget.is_some() {
            return Err(42);
        }
        // 41
        let record = bytes.record(rules).ok_or(41)?;
        match (record, &mut memory) {
            // 42: ME first and single?
            (Record::Me { .. }, Some(_)) => return Err(42),
            (Record::St { .. } | Record::Wd { .. } | Record::Rn { .. }, None) => return Err(42),
            (Record::Me { words }, None) => {
                // 43: ME ≤ 8,192?
                if words > ME_LIMIT {
                    return Err(43);
                }
                memory = Some((words, G::none(words)));
            }
            (Record::St { registers: handed }, Some(_)) => {
                // 42: ST single?
                if registers.is_some() {
                    return Err(42);
                }
                registers = Some(handed);
            }
            (Record::Wd { address, word }, Some((words, given))) => {
                // 44: WD address below ME's number?
                if address >= *words {
                    return Err(44);
                }
                // 51: has no earlier WD the address?
                if given.give(address, word) && rules == Rules::Today {
                    return Err(51);
                }
            }
            (Record::Rn { budget: handed }, Some(_)) => {
                // 42: ST before RN?
                if registers.is_none() {
                    return Err(42);
                }
                budget = Some(handed);
            }
        }
    }

    // 42 is also no for a file without RN, and for an empty one.
    match (memory, registers, budget) {
        (Some((words, given)), Some(registers), Some(budget)) => Ok(Read { words, given, registers, budget }),
        _ => Err(42),
    }
}

// ---- Writing.

/// RING 1, SEGNO 2, WORDNO 2.
pub fn pointer_bytes(pointer: Pointer) -> [u8; 5] {
    let [segno_high, segno_low] = pointer.segno.to_be_bytes();
    let [wordno_high, wordno_low] = pointer.wordno.to_be_bytes();
    [pointer.ring, segno_high, segno_low, wordno_high, wordno_low]
}

/// The ST record. A switch that no byte holds is refused as 255 is.
pub fn st(registers: &Registers) -> Vec<u8> {
    let mut record = stored_st(registers);
    record.push(u8::try_from(registers.fault_switch).unwrap_or(u8::MAX));
    record.extend(registers.save_segment.to_be_bytes());
    record.extend(registers.handler_segment.to_be_bytes());
    record
}

/// The ST record of a stored image, without switch and segments.
pub fn stored_st(registers: &Registers) -> Vec<u8> {
    let mut record = b"ST".to_vec();
    record.extend(registers.a.to_be_bytes());
    record.extend(registers.dbr.address.to_be_bytes());
    record.extend(registers.dbr.length.to_be_bytes());
    record.extend(pointer_bytes(registers.ipr));
    for pr in registers.pr {
        record.extend(pointer_bytes(pr));
    }
    record
}

/// The image of these by today's rules: ME, ST, the words that aren't zero in the order of their addresses, RN.
pub fn write_image(registers: &Registers, memory: &[u64], budget: u32) -> Vec<u8> {
    let mut image = b"ME".to_vec();
    image.extend((memory.len() as u32).to_be_bytes());
    image.extend(st(registers));
    for (address, word) in memory.iter().enumerate() {
        if *word != 0 {
            image.extend(b"WD");
            image.extend((address as u32).to_be_bytes());
            image.extend(word.to_be_bytes());
        }
    }
    image.extend(b"RN");
    image.extend(budget.to_be_bytes());
    image
}
