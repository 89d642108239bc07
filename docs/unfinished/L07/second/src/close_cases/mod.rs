//! Directed machines for the sixteen descriptors close by: replies, registers, memory and all records were worked out by
//! hand. `look_ups` has hits and misses, `uses` what each use of a segment looks up, `untrue` false records, `clears`
//! what clears the marks.

mod clears;
mod look_ups;
mod untrue;
mod uses;

use crate::close::Record;
use crate::delivery::{self, plain};
use crate::image::Image;
use crate::machine::{Fault, Registers};
use crate::pointers::{pointer, End};
use crate::words::{Dbr, Descriptor, Instruction, Pointer, PointerWord};

pub use look_ups::largest;

/// A run with the records lent to it, and what it leaves.
pub struct Case {
    pub run: delivery::Case,
    pub lent: Vec<Record>,
    pub records: Vec<Record>,
}

/// Memory, and DBR: words 40 to 63 describe segments 0 to 23.
const WORDS: usize = 200;
const TABLE_AT: u32 = 40;
const SEGMENTS: u16 = 24;
/// Words 0 to 38, where IPR is; open to all rings. Instructions first, pointer words from word 20 on.
const CODE: u16 = 1;
/// Words 39 to 64: the descriptor words are its words 1 to 24.
const TABLE: u16 = 2;
/// Words 170 to 182, and 183 to 190, for ring 0 alone.
const SAVE: u16 = 3;
const HANDLER: u16 = 21;
/// Segments 4 to 20 have four words each, from word 100 on. PR0 leads to the first of them, PR1 to the next, and so on.
const DATA: u16 = 4;
/// Words 70 to 82, for LDBR and opcode 42.
const FRAME: u16 = 22;
/// Words 84 to 91: code, all of it gates.
const OTHER: u16 = 23;

const A: u64 = 0x0123_4567_89ab_cdef;

/// To be read and written in all rings.
fn open(address: u32, length: u16) -> Descriptor {
    Descriptor { address, length, r1: 7, r2: 7, r3: 7, r: true, w: true, v: true, ..Descriptor::default() }
}

fn data(segno: u16) -> Descriptor {
    open(100 + 4 * u32::from(segno - DATA), 4)
}

/// To be read and executed.
fn code(address: u32, length: u16) -> Descriptor {
    Descriptor { r1: 0, w: false, e: true, gate: 8, ..open(address, length) }
}

fn save() -> Descriptor {
    Descriptor { r1: 0, r2: 0, r3: 0, ..open(170, 13) }
}

fn by_pr(opcode: u8, prnum: u8, offset: u16) -> Instruction {
    Instruction { p: true, prnum, offset, reg: 5, ..plain(opcode) }
}

/// By PR0, I on.
fn through(opcode: u8) -> Instruction {
    Instruction { i: true, ..by_pr(opcode, 0, 0) }
}

/// `ring` everywhere; the switch off; no instruction yet.
fn machine(ring: u8) -> Image {
    let mut machine = Image {
        registers: Registers {
            a: A,
            dbr: Dbr { address: TABLE_AT, length: SEGMENTS },
            ipr: pointer(ring, CODE, 0),
            pr: [0, 1, 2, 3, 4, 5, 6, 7].map(|number| pointer(ring, DATA + number, 0)),
            fault_switch: 0,
            save_segment: SAVE,
            handler_segment: HANDLER,
        },
        memory: (0..WORDS as u64).map(|address| 0x1_0000_0000 * address).collect(),
        budget: 1,
    };
    machine.describe(0, Descriptor::default());
    machine.describe(CODE, code(0, 39));
    machine.describe(TABLE, open(39, 26));
    machine.describe(SAVE, save());
    for segno in DATA..HANDLER {
        machine.describe(segno, data(segno));
    }
    machine.describe(HANDLER, Descriptor { r2: 0, r3: 0, ..code(183, 8) });
    machine.describe(FRAME, open(70, 13));
    machine.describe(OTHER, code(84, 8));
    machine
}

/// With 4,096 descriptors, in words 200 to 4,295; those from segment 24 on are zeros.
fn with_many_segments(machine: Image) -> Image {
    machine.with(|m| {
        m.memory.resize(4_400, 0);
        m.memory.copy_within(40..64, 200);
        m.registers.dbr = Dbr { address: 200, length: 4_096 };
    })
}

/// The same with these instructions from IPR on.
fn program(ring: u8, instructions: &[Instruction]) -> Image {
    machine(ring).with(|m| {
        for (word, instruction) in m.memory.iter_mut().zip(instructions) {
            *word = instruction.to_word();
        }
    })
}

/// The same in ring 4, with one instruction.
fn one(instruction: Instruction) -> Image {
    program(4, &[instruction])
}

fn switched_on(machine: Image) -> Image {
    machine.with(|m| m.registers.fault_switch = 1)
}

/// A pointer word.
fn leading_to(to: Pointer, i: bool) -> u64 {
    PointerWord { pointer: to, i }.to_word()
}

/// The record as it is lent, at this place: not valid, but what it holds isn't to be changed.
fn unused(place: usize) -> Record {
    Record { valid: 0, segment: 2_000 + place as u16, descriptor: 0xdead_0000 + place as u64, count: place as u8 }
}

/// Sixteen such records; their counts go up.
fn invalid() -> Vec<Record> {
    (0..16).map(unused).collect()
}

/// The same with valid ones for these segments from the first place on, true copies.
fn keeping(machine: &Image, segments: &[u16]) -> Vec<Record> {
    let mut records = invalid();
    for (record, &segment) in records.iter_mut().zip(segments) {
        let descriptor = machine.memory[machine.registers.dbr.address as usize + usize::from(segment)];
        (record.valid, record.segment, record.descriptor) = (1, segment, descriptor);
    }
    records
}

/// The records during a step, with the descriptor words before it.
struct Kept {
    records: Vec<Record>,
    table: Vec<u64>,
}

impl Kept {
    /// In the order of the counts this place is now the last.
    fn hit(&mut self, place: usize) {
        let mut order: Vec<usize> = (0..16).filter(|other| *other != place).collect();
        order.sort_by_key(|place| self.records[*place].count);
        order.push(place);
        for (count, place) in (0..).zip(order) {
            self.records[place].count = count;
        }
    }

    /// This place, which should be the first in that order, gets the segment's word.
    fn miss(&mut self, place: usize, segment: u16) {
        let descriptor = self.table[usize::from(segment)];
        self.records[place] = Record { valid: 1, segment, descriptor, ..self.records[place] };
        self.hit(place);
    }

    fn cleared(&mut self) {
        self.records.iter_mut().for_each(|record| record.valid = 0);
    }
}

/// The machine and the records before a run and after each of its steps.
struct Course {
    course: delivery::Course,
    lent: Vec<Record>,
    records: Vec<Vec<Record>>,
}

impl Course {
    fn new(name: impl Into<String>, machine: Image, lent: Vec<Record>) -> Course {
        Course { course: delivery::Course::new(name, machine), records: vec![lent.clone()], lent }
    }

    /// Before the first step the records become these.
    fn starting_with(mut self, records: Vec<Record>) -> Course {
        self.records = vec![records];
        self
    }

    fn after(&self, look_ups: impl FnOnce(&mut Kept)) -> Vec<Record> {
        let Image { registers, memory, .. } = &self.course.machines[self.course.steps()];
        let Dbr { address, length } = registers.dbr;
        let table = memory[address as usize..][..usize::from(length)].to_vec();
        let mut kept = Kept { records: self.records[self.course.steps()].clone(), table };
        look_ups(&mut kept);
        kept.records
    }

    /// A step that looks up this and changes this.
    fn step(mut self, pointer_words: u64, look_ups: impl FnOnce(&mut Kept), change: impl FnOnce(&mut Image)) -> Course {
        self.records.push(self.after(look_ups));
        self.course = self.course.step(pointer_words, change);
        self
    }

    /// A step that looks up this and changes this, and IPR goes on by a word.
    fn completes(
        self,
        pointer_words: u64,
        look_ups: impl FnOnce(&mut Kept),
        change: impl FnOnce(&mut Image),
    ) -> Course {
        self.step(pointer_words, look_ups, |m| {
            change(m);
            m.registers.ipr.wordno += 1;
        })
    }

    /// A fault is delivered: its frame is in the words from `address` on.
    fn delivers_to(
        mut self,
        address: usize,
        fault: (u8, Pointer),
        pointer_words: u64,
        look_ups: impl FnOnce(&mut Kept),
    ) -> Course {
        self.records.push(self.after(look_ups));
        self.course = self.course.delivers_to(address, fault, pointer_words);
        self
    }

    fn delivers(self, fault: (u8, Pointer), pointer_words: u64, look_ups: impl FnOnce(&mut Kept)) -> Course {
        self.delivers_to(170, fault, pointer_words, look_ups)
    }
}

#[derive(Default)]
struct Cases(Vec<Case>);

impl Cases {
    /// Its steps from one to another, with a budget.
    fn part(&mut self, course: &Course, name: String, steps: [usize; 2], budget: usize, end: End, records: &[Record]) {
        let [from, to] = steps;
        let lent = if from == 0 { &course.lent } else { &course.records[from] };
        let run = course.course.part(name, from, to, budget, end);
        self.0.push(Case { run, lent: lent.clone(), records: records.to_vec() });
    }

    /// The whole course, with each budget that ends it sooner, and from each of its steps on; then it has these records.
    fn ends(&mut self, course: &Course, end: End, records: &[Record]) {
        let (name, steps) = (&course.course.name, course.course.steps());
        for budget in 0..steps {
            let name = format!("{name}, budget {budget}");
            self.part(course, name, [0, budget], budget, End::Spent, &course.records[budget]);
        }
        // HLT on the last step is halted; a fault has no part in the budget.
        let exact = if end == End::Halted { End::Halted } else { End::Spent };
        let name_of = |from: usize| if from == 0 { name.clone() } else { format!("{name}, after {from} steps") };
        let more = if end == End::Spent { 0 } else { 3 };
        if more > 0 {
            let name = format!("{name}, budget {steps}");
            self.part(course, name, [0, steps], steps, exact, &course.records[steps]);
        }
        for from in 0..steps.max(1) {
            self.part(course, name_of(from), [from, steps], steps - from + more, end, records);
        }
    }

    fn spent(&mut self, course: Course) {
        self.ends(&course, End::Spent, &course.records[course.course.steps()]);
    }

    fn halted(&mut self, course: Course) {
        self.ends(&course, End::Halted, &course.records[course.course.steps()]);
    }

    /// Then a step looks up this and faults.
    fn faults(
        &mut self,
        course: Course,
        (number, at): (u8, Pointer),
        pointer_words: u64,
        look_ups: impl FnOnce(&mut Kept),
    ) {
        let records = course.after(look_ups);
        self.ends(&course, End::Fault(Fault { number, at }, pointer_words), &records);
    }

    /// Nothing changes, whatever the budget.
    fn refused(&mut self, name: &str, machine: &Image, lent: &[Record], number: u8) {
        let course = Course::new(name, machine.clone(), lent.to_vec());
        for budget in [0, 1, 5] {
            self.part(&course, format!("{name}, budget {budget}"), [0, 0], budget, End::Refused(number), lent);
        }
    }
}

pub fn cases() -> Vec<Case> {
    let mut cases = Cases::default();
    look_ups::add(&mut cases);
    uses::add(&mut cases);
    untrue::add(&mut cases);
    clears::add(&mut cases);
    cases.0
}

#[cfg(test)]
mod tests {
    use super::*;
    use crate::close::{run_close, step_close};

    #[test]
    fn replies_of_runs() {
        for Case { run: delivery::Case { run: case, registers: after, memory: memory_after }, lent, records } in cases()
        {
            let (mut kept, Image { mut registers, mut memory, budget }) = (lent, case.machine.clone());
            let reply = run_close(&mut registers, &mut memory, &mut kept, budget);
            assert_eq!(reply, case.reply(), "{}", case.name);
            assert_eq!(registers, after, "{}", case.name);
            assert!(memory == memory_after, "{}", case.name);
            assert_eq!(kept, records, "{}", case.name);
        }
    }

    #[test]
    fn replies_of_steps() {
        for Case { run: delivery::Case { run: case, registers: after, memory: memory_after }, lent, records } in cases()
        {
            let (mut kept, Image { mut registers, mut memory, budget }) = (lent, case.machine.clone());
            for (number, reply) in case.step_replies().into_iter().enumerate() {
                let answer = step_close(&mut registers, &mut memory, &mut kept);
                assert_eq!(answer, reply, "{}, step {}", case.name, number + 1);
            }
            assert_eq!(registers, after, "{}", case.name);
            assert!(memory == memory_after, "{}", case.name);
            // Without a step the counts aren't put in order.
            assert!(kept == records || budget == 0, "{}", case.name);
        }
    }

    fn named(name: &str) -> Case {
        let named = cases().into_iter().find(|case| case.run.run.name == name);
        assert!(named.is_some(), "{name}");
        named.unwrap()
    }

    /// Some counts and marks in full.
    #[test]
    fn counts_in_full() {
        let ones = |places: &[usize]| std::array::from_fn(|place| u8::from(places.contains(&place)));
        let in_full: [(&str, [u8; 16], [u8; 16]); 6] = [
            ("a miss, count 0 at place 0", [15, 0, 1, 2, 3, 4, 5, 6, 7, 8, 9, 10, 11, 12, 13, 14], ones(&[0])),
            ("a miss, count 0 at place 5", [10, 11, 12, 13, 14, 15, 0, 1, 2, 3, 4, 5, 6, 7, 8, 9], ones(&[5])),
            ("a hit at place 3, count 7", [0, 1, 2, 15, 3, 4, 5, 6, 7, 8, 9, 10, 11, 12, 13, 14], ones(&[3])),
            ("a hit at place 3, count 15", [0, 1, 2, 15, 3, 4, 5, 6, 7, 8, 9, 10, 11, 12, 13, 14], ones(&[3])),
            (
                "a chain over three segments",
                [11, 12, 13, 14, 15, 0, 1, 2, 3, 4, 5, 6, 7, 8, 9, 10],
                ones(&[0, 1, 2, 3, 4]),
            ),
            ("STA clears, its word 1 of TABLE", [14, 15, 0, 1, 2, 3, 4, 5, 6, 7, 8, 9, 10, 11, 12, 13], ones(&[])),
        ];
        for (name, counts, marks) in in_full {
            let mut case = named(name);
            let Image { mut registers, mut memory, budget } = case.run.run.machine;
            run_close(&mut registers, &mut memory, &mut case.lent, budget);
            let records = <[Record; 16]>::try_from(case.lent).unwrap();
            assert_eq!(records.map(|record| record.count), counts, "{name}");
            assert_eq!(records.map(|record| record.valid), marks, "{name}");
        }
    }
}
