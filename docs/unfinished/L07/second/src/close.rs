//! Sixteen descriptors close by: the processor that looks first among records lent by the host. Its step is the plain
//! one; only where the step finds a descriptor word is another.

use crate::machine::{refusal, run_by, step_by, Descriptors, Fault, InMemory, Registers, Reply};
use crate::words::Dbr;

/// How many records there are.
pub const RECORDS: usize = 16;

/// The count of the record that was used last; 0 is that of the one to be overwritten next.
const LAST_USED: u8 = 15;

/// A descriptor word and the segment it is kept for.
#[derive(Clone, Copy, Debug, Default, PartialEq, Eq)]
pub struct Record {
    pub valid: u8,
    pub segment: u16,
    pub descriptor: u64,
    pub count: u8,
}

impl Record {
    /// A mark that nobody has written isn't to be trusted: only 1 is one.
    pub fn is_valid(&self) -> bool {
        self.valid == 1
    }
}

/// Sixteen records whose counts are 0 to 15, each once.
#[derive(Clone, Debug, PartialEq, Eq)]
pub struct Close([Record; RECORDS]);

impl Close {
    /// The records as a call takes them up: 63, then 1 to 4. Where their counts aren't 0 to 15, each once, they are all made
    /// invalid and get these counts in order.
    pub fn of_call(records: &[Record], registers: &Registers, words: usize) -> Result<Close, u8> {
        // 63: are there sixteen?
        let Ok(records) = <[Record; RECORDS]>::try_from(records) else { return Err(63) };
        refusal(registers, words)?;
        let mut close = Close(records);
        if !counts_are_in_order(&records) {
            close.clear();
            for (count, record) in (0..).zip(&mut close.0) {
                record.count = count;
            }
        }
        Ok(close)
    }

    pub fn records(&self) -> &[Record; RECORDS] {
        &self.0
    }

    /// The place of the first valid record of a segment.
    pub fn find(&self, segno: u16) -> Option<usize> {
        self.0.iter().position(|record| record.is_valid() && record.segment == segno)
    }

    /// A miss: the record with count 0, which one has, gets the word, whatever it says. Answers its place.
    fn overwrite(&mut self, segment: u16, descriptor: u64) -> usize {
        let place = self.0.iter().position(|record| record.count == 0).unwrap_or(0);
        self.0[place] = Record { valid: 1, segment, descriptor, count: 0 };
        place
    }

    /// The counts above its own are lowered by one, and its own is 15. After a miss these are all the others.
    fn touch(&mut self, place: usize) {
        let old = self.0[place].count;
        for record in self.0.iter_mut().filter(|record| record.count > old) {
            record.count -= 1;
        }
        self.0[place].count = LAST_USED;
    }

    // 02, L7: 'clear all valid marks': each mark becomes 0, also one that is neither 0 nor 1; the rest of a record stays.
    fn clear(&mut self) {
        for record in &mut self.0 {
            record.valid = 0;
        }
    }
}

/// Is each of 0 to 15 the count of one record?
fn counts_are_in_order(records: &[Record; RECORDS]) -> bool {
    (0..=LAST_USED).all(|count| records.iter().any(|record| record.count == count))
}

impl Descriptors for Close {
    fn word(&mut self, dbr: &Dbr, memory: &[u64], segno: u16) -> u64 {
        let place = match self.find(segno) {
            Some(place) => place,
            None => self.overwrite(segno, InMemory.word(dbr, memory, segno)),
        };
        self.touch(place);
        self.0[place].descriptor
    }

    /// The same value written is a write as well.
    fn written(&mut self, dbr: &Dbr, address: usize, words: usize) {
        let first = dbr.address as usize;
        if address < first + usize::from(dbr.length) && first < address + words {
            self.clear();
        }
    }

    fn dbr_loaded(&mut self) {
        self.clear();
    }
}

/// One step. It answers as the plain one does, with its own pointer words, even where it faults.
pub fn step_close(registers: &mut Registers, memory: &mut [u64], records: &mut [Record]) -> Reply {
    let (reply, _) = step_close_and_fault(registers, memory, records);
    reply
}

/// One step, and the fault that it met, delivered or not. Its look-ups stay, whatever becomes of it.
pub fn step_close_and_fault(
    registers: &mut Registers,
    memory: &mut [u64],
    records: &mut [Record],
) -> (Reply, Option<Fault>) {
    let mut close = match Close::of_call(records, registers, memory.len()) {
        Ok(close) => close,
        Err(number) => return (Reply::Refused { number }, None),
    };
    let answer = step_by(&mut close, registers, memory);
    records.copy_from_slice(close.records());
    answer
}

/// A run under a budget, which may be 0: the counts are put in order then as well.
pub fn run_close(registers: &mut Registers, memory: &mut [u64], records: &mut [Record], budget: u32) -> Reply {
    let mut close = match Close::of_call(records, registers, memory.len()) {
        Ok(close) => close,
        Err(number) => return Reply::Refused { number },
    };
    let reply = run_by(&mut close, registers, memory, budget);
    records.copy_from_slice(close.records());
    reply
}
