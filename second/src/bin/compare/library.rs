//! The C library, called as its header says.

use crate::random::Random;
use second::doors::{self, Change, State};
use second::{Check, Dbr, Direction, Fault, Needs, OldAnswer, Pointer, Registers, Reply, Row};

#[repr(C)]
#[derive(Clone, Copy, Default, PartialEq, Eq)]
struct CPointer {
    ring: u8,
    padding: u8,
    segment: u16,
    word: u16,
}

/// All of its bytes are in some field, so that equal records are equal byte for byte.
#[repr(C)]
#[derive(Clone, Copy, Default, PartialEq, Eq)]
struct CRegisters {
    a: u64,
    dbr_address: u32,
    dbr_length: u16,
    dbr_padding: u16,
    ipr: CPointer,
    prs: [CPointer; 8],
    fault_switch: u16,
    save_segment: u16,
    handler_segment: u16,
    padding: [u16; 2],
}

/// The pointer of a reply, whose padding nobody reads.
#[repr(C)]
#[derive(Clone, Copy)]
struct CReplyPointer {
    ring: u8,
    segment: u16,
    word: u16,
}

#[repr(C)]
#[derive(Clone, Copy)]
struct CReply {
    kind: u32,
    number: u32,
    count: u32,
    pointer: CReplyPointer,
    pointer_words: u64,
}

#[repr(C)]
#[derive(Clone, Copy)]
struct CCheck {
    kind: u32,
    number: u32,
    ring: u32,
    pointer: CReplyPointer,
}

/// A row of a table of brackets; it has no padding.
#[repr(C)]
#[derive(Clone, Copy, PartialEq, Eq)]
struct CRow {
    first: u16,
    last: u16,
    r1: u8,
    r2: u8,
    r3: u8,
    read: u8,
    write: u8,
    execute: u8,
}

impl From<Row> for CRow {
    fn from(Row { first, last, r1, r2, r3, read, write, execute }: Row) -> CRow {
        CRow { first, last, r1, r2, r3, read, write, execute }
    }
}

#[repr(C)]
#[derive(Clone, Copy)]
struct COldAnswer {
    number: u64,
    index: u64,
}

#[repr(C)]
#[derive(Clone, Copy)]
struct CNeeds {
    number: u64,
    memory: u64,
    records: u64,
    budget: u64,
    lines: u64,
    pointers: u64,
}

const _: () = assert!(std::mem::size_of::<CRegisters>() == 80);
const _: () = assert!(std::mem::align_of::<CRegisters>() == 8);
const _: () = assert!(std::mem::offset_of!(CRegisters, prs) == 22);
const _: () = assert!(std::mem::offset_of!(CRegisters, fault_switch) == 70);
const _: () = assert!(std::mem::offset_of!(CRegisters, save_segment) == 72);
const _: () = assert!(std::mem::offset_of!(CRegisters, handler_segment) == 74);
const _: () = assert!(std::mem::size_of::<CReply>() == 32);
const _: () = assert!(std::mem::offset_of!(CReply, pointer) == 12);
const _: () = assert!(std::mem::offset_of!(CReply, pointer_words) == 24);
const _: () = assert!(std::mem::offset_of!(CReplyPointer, segment) == 2);
const _: () = assert!(std::mem::size_of::<CCheck>() == 20);
const _: () = assert!(std::mem::offset_of!(CCheck, pointer) == 12);
const _: () = assert!(std::mem::size_of::<CRow>() == 10);
const _: () = assert!(std::mem::align_of::<CRow>() == 2);
const _: () = assert!(std::mem::offset_of!(CRow, r1) == 4);
const _: () = assert!(std::mem::offset_of!(CRow, execute) == 9);
const _: () = assert!(std::mem::size_of::<COldAnswer>() == 16);
const _: () = assert!(std::mem::offset_of!(COldAnswer, index) == 8);
const _: () = assert!(std::mem::size_of::<CNeeds>() == 48);
const _: () = assert!(std::mem::offset_of!(CNeeds, pointers) == 40);

extern "C" {
    fn kuzhlemor_step(registers: *mut CRegisters, memory: *mut u64, words: usize) -> CReply;
    fn kuzhlemor_run(registers: *mut CRegisters, memory: *mut u64, words: usize, budget: u32) -> CReply;
    fn kuzhlemor_bench(image: *const u8, image_length: usize, text: *mut u8, text_length: usize) -> i64;
    fn kuzhlemor_convert(image: *mut u8, length: usize) -> i64;
    fn kuzhlemor_may_call(
        registers: *const CRegisters,
        memory: *const u64,
        words: usize,
        ring: u8,
        segment: u16,
        word: u16,
    ) -> CCheck;
    fn kuzhlemor_set_brackets(
        memory: *mut u64,
        words: usize,
        dbr_address: u32,
        dbr_length: u16,
        rows: *const CRow,
        row_count: usize,
    ) -> u32;
    fn kuzhlemor_from_old(words: *mut u64, count: usize) -> COldAnswer;
    fn kuzhlemor_to_old(words: *mut u64, count: usize) -> COldAnswer;
    fn kuzhlemor_needs(image: *const u8, length: usize) -> CNeeds;
}

/// A reply as the library gives it; it may be one that no `Reply` is.
#[derive(Clone, Copy, Debug, PartialEq, Eq)]
pub struct Answer {
    pub kind: u32,
    pub number: u32,
    pub count: u32,
    pub pointer: Pointer,
    pub pointer_words: u64,
}

impl Answer {
    pub const SPENT: u32 = 1;
    pub const FAULT: u32 = 3;

    /// What the header says for a reply: what a kind doesn't name is 0.
    pub fn of(reply: Reply) -> Answer {
        let (kind, number, count, pointer) = match reply {
            Reply::Refused { number } => (0, number, 0, Pointer::default()),
            Reply::Spent { count, .. } => (1, 0, count, Pointer::default()),
            Reply::Halted { count, .. } => (2, 0, count, Pointer::default()),
            Reply::Fault { fault: Fault { number, at }, count, .. } => (3, number, count, at),
        };
        Answer { kind, number: u32::from(number), count, pointer, pointer_words: reply.pointer_words() }
    }

    fn from_c(reply: CReply) -> Answer {
        Answer {
            kind: reply.kind,
            number: reply.number,
            count: reply.count,
            pointer: reply.pointer.into(),
            pointer_words: reply.pointer_words,
        }
    }
}

impl From<CReplyPointer> for Pointer {
    fn from(CReplyPointer { ring, segment, word }: CReplyPointer) -> Pointer {
        Pointer { ring, segno: segment, wordno: word }
    }
}

/// A check's answer as the library gives it; it may be one that no `Check` is.
#[derive(Clone, Copy, Debug, PartialEq, Eq)]
pub struct CheckAnswer {
    pub kind: u32,
    pub number: u32,
    pub ring: u32,
    pub pointer: Pointer,
}

impl CheckAnswer {
    /// What the header says for a check: what a kind leaves free is 0.
    pub fn of(check: Check) -> CheckAnswer {
        let (kind, number, ring, pointer) = match check {
            Check::Refused { number } => (0, number, 0, Pointer::default()),
            Check::Fault(Fault { number, at }) => (3, number, 0, at),
            Check::Passes { ring } => (4, 0, ring, Pointer::default()),
        };
        CheckAnswer { kind, number: u32::from(number), ring: u32::from(ring), pointer }
    }
}

/// What an image will need as the library gives it; it may be what no image needs.
#[derive(Clone, Copy, Debug, PartialEq, Eq)]
pub struct NeedsAnswer {
    pub number: u64,
    pub needs: Needs,
}

impl NeedsAnswer {
    /// What the header says: the figures are 0 where a number refuses the image.
    pub fn of(needs: Result<Needs, u8>) -> NeedsAnswer {
        match needs {
            Ok(needs) => NeedsAnswer { number: 0, needs },
            Err(number) => NeedsAnswer { number: u64::from(number), needs: Needs::default() },
        }
    }
}

const GUARD: usize = 8;
const GUARD_WORD: u64 = 0x5a17_c0de_0bad_f00d;
/// No table has it: who reads it as a row answers 53.
const GUARD_ROW: CRow = CRow { first: 65_535, last: 0, r1: 255, r2: 254, r3: 253, read: 252, write: 251, execute: 250 };

/// A machine in the library's hands: its record, and its memory between words that it must leave alone. The record's
/// padding, which carries nothing, is drawn before each call. Rows stand between two that aren't lent.
pub struct Lent {
    record: CRegisters,
    words: Vec<u64>,
    rows: Vec<CRow>,
    padding: Random,
}

impl Lent {
    /// Another seed, other padding.
    pub fn new(seed: u64) -> Lent {
        Lent { record: CRegisters::default(), words: Vec::new(), rows: Vec::new(), padding: Random::new(seed) }
    }

    /// Lends these.
    pub fn set(&mut self, registers: &Registers, memory: &[u64]) {
        self.set_memory(memory);
        self.set_registers(registers);
    }

    /// Lends these, for the memory there is.
    pub fn set_registers(&mut self, registers: &Registers) {
        let pointer = |pointer: Pointer| CPointer {
            ring: pointer.ring,
            padding: 0,
            segment: pointer.segno,
            word: pointer.wordno,
        };
        self.record = CRegisters {
            a: registers.a,
            dbr_address: registers.dbr.address,
            dbr_length: registers.dbr.length,
            dbr_padding: 0,
            ipr: pointer(registers.ipr),
            prs: registers.pr.map(pointer),
            fault_switch: registers.fault_switch,
            save_segment: registers.save_segment,
            handler_segment: registers.handler_segment,
            padding: [0; 2],
        };
    }

    /// Lends this, for a call without registers.
    pub fn set_memory(&mut self, memory: &[u64]) {
        self.words.clear();
        self.words.extend_from_slice(&[GUARD_WORD; GUARD]);
        self.words.extend_from_slice(memory);
        self.words.extend_from_slice(&[GUARD_WORD; GUARD]);
    }

    fn draw_padding(&mut self) {
        let bytes = self.padding.next().to_le_bytes();
        for (pr, byte) in self.record.prs.iter_mut().zip(bytes) {
            pr.padding = byte;
        }
        let rest = self.padding.next();
        self.record.ipr.padding = rest as u8;
        self.record.dbr_padding = (rest >> 16) as u16;
        self.record.padding = [(rest >> 32) as u16, (rest >> 48) as u16];
    }

    pub fn registers(&self) -> Registers {
        let pointer = |pointer: CPointer| Pointer { ring: pointer.ring, segno: pointer.segment, wordno: pointer.word };
        Registers {
            a: self.record.a,
            dbr: Dbr { address: self.record.dbr_address, length: self.record.dbr_length },
            ipr: pointer(self.record.ipr),
            pr: self.record.prs.map(pointer),
            fault_switch: self.record.fault_switch,
            save_segment: self.record.save_segment,
            handler_segment: self.record.handler_segment,
        }
    }

    pub fn memory(&self) -> &[u64] {
        &self.words[GUARD..self.words.len() - GUARD]
    }

    pub fn guards_stand(&self) -> bool {
        let end = self.words.len() - GUARD;
        self.words[..GUARD] == [GUARD_WORD; GUARD] && self.words[end..] == [GUARD_WORD; GUARD]
    }

    /// What the step that has led from there to here did to the ring; or, in words, which claim it breaks.
    pub fn change_since(&self, before: State) -> Result<Change, String> {
        let registers = self.registers();
        let after = State { registers: &registers, memory: self.memory() };
        doors::change(before, after).map_err(|breach| {
            let ipr = before.registers.ipr;
            format!("only gates lead down: {breach:?}\n  from {ipr:?}\n  registers after it: {registers:?}")
        })
    }

    pub fn step(&mut self) -> Answer {
        self.draw_padding();
        let words = self.words.len() - 2 * GUARD;
        // SAFETY: one record and `words` words, aligned, lent alone for the call.
        let reply = unsafe { kuzhlemor_step(&mut self.record, self.words.as_mut_ptr().add(GUARD), words) };
        Answer::from_c(reply)
    }

    /// A step of a machine that isn't refused, and what it did to the ring if it was completed. `before` gets the memory as
    /// it was.
    pub fn step_and_change(&mut self, before: &mut Vec<u64>) -> Result<(Answer, Option<Change>), String> {
        let registers = self.registers();
        before.clear();
        before.extend_from_slice(self.memory());
        let answer = self.step();
        let before = State { registers: &registers, memory: before };
        let change = if answer.count == 1 { Some(self.change_since(before)?) } else { None };
        Ok((answer, change))
    }

    pub fn run(&mut self, budget: u32) -> Answer {
        self.draw_padding();
        let words = self.words.len() - 2 * GUARD;
        // SAFETY: as in `step`.
        let reply = unsafe { kuzhlemor_run(&mut self.record, self.words.as_mut_ptr().add(GUARD), words, budget) };
        Answer::from_c(reply)
    }

    /// The check of CALL, and whether the record is what it was, its padding too.
    pub fn may_call(&mut self, Pointer { ring, segno, wordno }: Pointer) -> (CheckAnswer, bool) {
        self.draw_padding();
        let before = self.record;
        let words = self.words.len() - 2 * GUARD;
        // Both could be written here, so that a call that does is seen and not undefined.
        let record: *mut CRegisters = &mut self.record;
        // SAFETY: as in `step`.
        let CCheck { kind, number, ring, pointer } =
            unsafe { kuzhlemor_may_call(record, self.words.as_mut_ptr().add(GUARD), words, ring, segno, wordno) };
        (CheckAnswer { kind, number, ring, pointer: pointer.into() }, self.record == before)
    }

    /// The table of brackets, and whether its rows and those around them are what they were.
    pub fn set_brackets(&mut self, dbr: Dbr, rows: &[Row]) -> (u32, bool) {
        let lent = || {
            let rows = rows.iter().copied().map(CRow::from);
            std::iter::once(GUARD_ROW).chain(rows).chain(std::iter::once(GUARD_ROW))
        };
        self.rows.clear();
        self.rows.extend(lent());
        let words = self.words.len() - 2 * GUARD;
        // As in `may_call`, the rows could be written here.
        let (first_word, first_row) = (self.words.as_mut_ptr(), self.rows.as_mut_ptr());
        // SAFETY: `words` words and so many rows, aligned, lent alone for the call.
        let answer = unsafe {
            let (memory, lent_rows) = (first_word.add(GUARD), first_row.add(1));
            kuzhlemor_set_brackets(memory, words, dbr.address, dbr.length, lent_rows, rows.len())
        };
        (answer, lent().eq(self.rows.iter().copied()))
    }

    /// The conversion of all words lent, as descriptors.
    pub fn convert_old(&mut self, direction: Direction) -> OldAnswer {
        let count = self.words.len() - 2 * GUARD;
        let convert = match direction {
            Direction::FromOld => kuzhlemor_from_old,
            Direction::ToOld => kuzhlemor_to_old,
        };
        // SAFETY: `count` words, aligned, lent alone for the call.
        let COldAnswer { number, index } = unsafe { convert(self.words.as_mut_ptr().add(GUARD), count) };
        OldAnswer { number, index }
    }
}

/// The bench's call.
pub fn bench(image: &[u8], text: &mut [u8]) -> i64 {
    // SAFETY: two runs of bytes, the second lent alone for the call.
    unsafe { kuzhlemor_bench(image.as_ptr(), image.len(), text.as_mut_ptr(), text.len()) }
}

/// What the image will need. It could be written here, so that a call that does is seen.
pub fn needs(image: &mut [u8]) -> NeedsAnswer {
    // SAFETY: a run of bytes, lent alone for the call.
    let CNeeds { number, memory, records, budget, lines, pointers } =
        unsafe { kuzhlemor_needs(image.as_mut_ptr(), image.len()) };
    NeedsAnswer { number, needs: Needs { memory, records, budget, lines, pointers } }
}

/// The conversion of a stored image, in place: the last five bytes are room for what ST gains.
pub fn convert(image_and_room: &mut [u8]) -> i64 {
    // SAFETY: a run of bytes, lent alone for the call.
    unsafe { kuzhlemor_convert(image_and_room.as_mut_ptr(), image_and_room.len()) }
}
