//! The calls with descriptors close by, in an archive of their own.

use super::{Answer, CRegisters, CReply, Lent, GUARD};
use second::close::Record;

/// All of its bytes are in some field; a call may change the padding.
#[repr(C)]
#[derive(Clone, Copy, PartialEq, Eq)]
struct CRecord {
    descriptor: u64,
    segment: u16,
    valid: u8,
    count: u8,
    padding: u32,
}

const _: () = assert!(std::mem::size_of::<CRecord>() == 16);
const _: () = assert!(std::mem::align_of::<CRecord>() == 8);
const _: () = assert!(std::mem::offset_of!(CRecord, segment) == 8);
const _: () = assert!(std::mem::offset_of!(CRecord, valid) == 10);
const _: () = assert!(std::mem::offset_of!(CRecord, count) == 11);

extern "C" {
    fn kuzhlemor_run_close(
        registers: *mut CRegisters,
        memory: *mut u64,
        words: usize,
        records: *mut CRecord,
        record_count: usize,
        budget: u32,
    ) -> CReply;
    fn kuzhlemor_step_close(
        registers: *mut CRegisters,
        memory: *mut u64,
        words: usize,
        records: *mut CRecord,
        record_count: usize,
    ) -> CReply;
}

/// Records that aren't lent, before and behind those that are. They are valid, of the first segments.
const GUARDS: usize = 3;

fn guard(place: usize) -> CRecord {
    CRecord { descriptor: !0, segment: place as u16, valid: 1, count: place as u8, padding: 0x5a17_c0de }
}

/// Records in the library's hands.
#[derive(Default)]
pub struct LentRecords(Vec<CRecord>);

impl LentRecords {
    pub fn set(&mut self, records: &[Record]) {
        let lent = records.iter().map(|&Record { valid, segment, descriptor, count }| CRecord {
            descriptor,
            segment,
            valid,
            count,
            padding: 0,
        });
        self.0.clear();
        self.0.extend((0..GUARDS).map(guard));
        self.0.extend(lent);
        self.0.extend((0..GUARDS).map(guard));
    }

    fn lent(&self) -> &[CRecord] {
        &self.0[GUARDS..self.0.len() - GUARDS]
    }

    pub fn get(&self) -> Vec<Record> {
        let record =
            |&CRecord { descriptor, segment, valid, count, .. }: &CRecord| Record { valid, segment, descriptor, count };
        self.lent().iter().map(record).collect()
    }

    pub fn are(&self, records: &[Record]) -> bool {
        let same = |(lent, record): (&CRecord, &Record)| {
            (lent.valid, lent.segment, lent.descriptor, lent.count)
                == (record.valid, record.segment, record.descriptor, record.count)
        };
        self.lent().len() == records.len() && self.lent().iter().zip(records).all(same)
    }

    pub fn guards_stand(&self) -> bool {
        let behind = self.0.len() - GUARDS;
        (0..GUARDS).all(|place| self.0[place] == guard(place) && self.0[behind + place] == guard(place))
    }
}

impl Lent {
    fn draw_padding_of(&mut self, records: &mut LentRecords) {
        self.draw_padding();
        let end = records.0.len() - GUARDS;
        for record in &mut records.0[GUARDS..end] {
            record.padding = self.padding.next() as u32;
        }
    }

    pub fn run_close(&mut self, records: &mut LentRecords, budget: u32) -> Answer {
        self.draw_padding_of(records);
        let (words, count) = (self.words.len() - 2 * GUARD, records.lent().len());
        let (memory, first) = (self.words.as_mut_ptr(), records.0.as_mut_ptr());
        // SAFETY: one record of registers, `words` words and so many records, aligned, lent alone for the call.
        let reply = unsafe {
            kuzhlemor_run_close(&mut self.record, memory.add(GUARD), words, first.add(GUARDS), count, budget)
        };
        Answer::from_c(reply)
    }

    pub fn step_close(&mut self, records: &mut LentRecords) -> Answer {
        self.draw_padding_of(records);
        let (words, count) = (self.words.len() - 2 * GUARD, records.lent().len());
        let (memory, first) = (self.words.as_mut_ptr(), records.0.as_mut_ptr());
        // SAFETY: as in `run_close`.
        let reply =
            unsafe { kuzhlemor_step_close(&mut self.record, memory.add(GUARD), words, first.add(GUARDS), count) };
        Answer::from_c(reply)
    }
}
