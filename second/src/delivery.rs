//! Directed machines for delivered faults and opcode 42: replies, registers and memory were worked out by hand.

use crate::image::Image;
use crate::machine::{Fault, Registers};
use crate::opcodes::*;
use crate::pointers::{
    self, chain_segment, leading_to, link, machine, pointer, segment, target, through, unusable, End,
};
use crate::pointers::{BAD, CODE, EVEN, SEGMENTS, TABLE, TARGET, WORDS};
use crate::words::{Dbr, Descriptor, Instruction, Pointer};

/// A run, and what it leaves.
pub struct Case {
    pub run: pointers::Case,
    pub registers: Registers,
    pub memory: Vec<u64>,
}

/// Words 144 to 156, the last of memory, where there is a frame for opcode 42.
const FRAME: u16 = 0;
/// Words 120 to 127.
const HANDLER: u16 = 6;
/// Words 128 to 140, mostly the last of memory; the last segment with a descriptor.
const SAVE: u16 = 7;

const A: u64 = 0x0123_4567_89ab_cdef;

/// For ring 0 alone.
fn inner(address: u32, length: u16) -> Descriptor {
    Descriptor { r2: 0, r3: 0, gate: 0, ..segment(address, length) }
}

/// It just will do.
fn save() -> Descriptor {
    Descriptor { e: false, ..inner(128, 13) }
}

/// The switch on, SAVE and HANDLER; no two PRs alike, but PR2 as it was.
fn on(machine: Image) -> Image {
    machine.with(|m| {
        m.registers.fault_switch = 1;
        m.registers.save_segment = SAVE;
        m.registers.handler_segment = HANDLER;
        m.describe(SAVE, save());
        m.describe(HANDLER, inner(120, 8));
        let pr2 = m.registers.pr[2];
        let ring = m.registers.ipr.ring;
        m.registers.pr = [0, 1, 2, 3, 4, 5, 6, 7].map(|number: u8| {
            let number_16 = u16::from(number);
            pointer((ring + number).min(7), 0xfff - 0x111 * number_16, 0xffff - 0x1111 * number_16)
        });
        m.registers.pr[2] = pr2;
    })
}

/// The first instruction is none of the table.
fn no_opcode(ring: u8) -> Image {
    on(machine(ring, 0, 0)).with(|m| m.registers.a = A)
}

/// The same with the switch off.
fn off(machine: Image) -> Image {
    machine.with(|m| m.registers.fault_switch = 0)
}

/// Without an address.
pub(crate) fn plain(opcode: u8) -> Instruction {
    Instruction { opcode, ..Instruction::default() }
}

/// By the pointer word that is so many words on.
fn by_word(opcode: u8, offset: u16) -> u64 {
    Instruction { offset, i: true, ..plain(opcode) }.to_word()
}

/// As SPP writes it.
pub(crate) fn pointer_word(Pointer { ring, segno, wordno }: Pointer) -> u64 {
    u64::from(ring) << 28 | u64::from(segno) << 16 | u64::from(wordno)
}

/// Number, address under question, A, DBR, IPR, PR0 to PR7.
fn frame(number: u8, at: Pointer, registers: &Registers) -> [u64; 13] {
    let mut frame = [0; 13];
    frame[0] = u64::from(number);
    frame[1] = pointer_word(at);
    frame[2] = registers.a;
    frame[3] = u64::from(registers.dbr.length) << 24 | u64::from(registers.dbr.address);
    frame[4] = pointer_word(registers.ipr);
    for (word, pr) in frame[5..].iter_mut().zip(registers.pr) {
        *word = pointer_word(pr);
    }
    frame
}

/// The machine before a run and after each of its steps, with the pointer words of each.
pub(crate) struct Course {
    name: String,
    machines: Vec<Image>,
    pointer_words: Vec<u64>,
}

impl Course {
    pub(crate) fn new(name: impl Into<String>, machine: Image) -> Course {
        Course { name: name.into(), machines: vec![machine], pointer_words: vec![] }
    }

    /// A step that changes this.
    pub(crate) fn step(mut self, pointer_words: u64, change: impl FnOnce(&mut Image)) -> Course {
        let before = self.machines[self.machines.len() - 1].clone();
        self.machines.push(before.with(change));
        self.pointer_words.push(pointer_words);
        self
    }

    /// A step that changes this, and IPR goes on by a word.
    pub(crate) fn completes(self, pointer_words: u64, change: impl FnOnce(&mut Image)) -> Course {
        self.step(pointer_words, |m| {
            change(m);
            m.registers.ipr.wordno += 1;
        })
    }

    /// A fault is delivered: its frame is in the words from `address` on.
    pub(crate) fn delivers_to(self, address: usize, (number, at): (u8, Pointer), pointer_words: u64) -> Course {
        self.step(pointer_words, |m| {
            let frame = frame(number, at, &m.registers);
            m.memory[address..address + 13].copy_from_slice(&frame);
            m.registers.ipr = pointer(0, m.registers.handler_segment, 0);
        })
    }

    fn delivers(self, fault: (u8, Pointer), pointer_words: u64) -> Course {
        self.delivers_to(128, fault, pointer_words)
    }

    fn steps(&self) -> usize {
        self.pointer_words.len()
    }

    /// Its steps from one to another, with a budget.
    fn part(&self, name: String, from: usize, to: usize, budget: usize, end: End) -> Case {
        let steps = (from..to).map(|step| (self.machines[step + 1].registers.ipr, self.pointer_words[step]));
        let machine = Image { budget: budget as u32, ..self.machines[from].clone() };
        let Image { registers, memory, .. } = self.machines[to].clone();
        Case { run: pointers::Case { name, machine, steps: steps.collect(), end }, registers, memory }
    }

    /// From a step on to the end.
    fn rest(&self, name: String, from: usize, end: End) -> Case {
        let more = if end == End::Spent { 0 } else { 3 };
        self.part(name, from, self.steps(), self.steps() - from + more, end)
    }
}

pub(crate) struct Cases(pub(crate) Vec<Case>);

impl Cases {
    /// The whole course.
    pub(crate) fn add(&mut self, course: Course, end: End) {
        self.0.push(course.rest(course.name.clone(), 0, end));
    }

    /// The whole course; with each budget that ends it sooner; and from each of its steps on.
    pub(crate) fn add_all(&mut self, course: Course, end: End) {
        let steps = course.steps();
        for budget in 0..steps {
            let name = format!("{}, budget {budget}", course.name);
            self.0.push(course.part(name, 0, budget, budget, End::Spent));
        }
        for from in 1..steps {
            self.0.push(course.rest(format!("{}, after {from} steps", course.name), from, end));
        }
        // HLT on the last step is halted; a fault has no part in the budget.
        let exact = if end == End::Halted { End::Halted } else { End::Spent };
        self.0.push(course.part(format!("{}, budget {steps}", course.name), 0, steps, steps, exact));
        self.add(course, end);
    }

    /// Delivered; with the switch off, or W of the save segment, the run's end.
    fn delivered_or_not(&mut self, name: &str, machine: Image, (number, at): (u8, Pointer), pointer_words: u64) {
        let end = End::Fault(Fault { number, at }, pointer_words);
        self.add(Course::new(format!("{name}, switch off"), off(machine.clone())), end);
        let unsaved = machine.clone().with(|m| m.describe(SAVE, Descriptor { w: false, ..save() }));
        self.add(Course::new(format!("{name}, not saved"), unsaved), end);
        self.add(Course::new(name, machine).delivers((number, at), pointer_words), End::Spent);
    }
}

pub fn cases() -> Vec<Case> {
    let mut cases = Cases(Vec::new());
    fields(&mut cases);
    save_segments(&mut cases);
    every_fault(&mut cases);
    handlers(&mut cases);
    no_handlers(&mut cases);
    frames_over_descriptors(&mut cases);
    frames_over_code(&mut cases);
    other_descriptors(&mut cases);
    counts(&mut cases);
    restored_frames(&mut cases);
    frames_at_the_end(&mut cases);
    restoring_by_use(&mut cases);
    restoring_dbr(&mut cases);
    restoring_rings(&mut cases);
    restoring_in_order(&mut cases);
    restoring_in_runs(&mut cases);
    cases.0
}

// ---- Switch and segments.

/// 2: switch, save and handler segment, whether a fault is near or not.
fn fields(cases: &mut Cases) {
    type Set = fn(&mut Registers, u16);
    let fields: [(&str, Set, &[u16]); 3] = [
        ("switch", |r, value| r.fault_switch = value, &[2, 3, 255, 256, 257, 32_768, 65_535]),
        ("save segment", |r, value| r.save_segment = value, &[4_096, 4_097, 4_103, 8_191, 32_768, 65_535]),
        ("handler segment", |r, value| r.handler_segment = value, &[4_096, 4_097, 4_102, 8_191, 32_768, 65_535]),
    ];
    for (name, set, values) in fields {
        for &value in values {
            for (which, machine) in [
                ("", no_opcode(4)),
                (", switch off", off(no_opcode(4))),
                (", no fault", no_opcode(4).with(|m| m.put(0, plain(LDI)))),
                (", 3 no", no_opcode(4).with(|m| m.registers.pr[0].ring = 3)),
                (", 4 no", no_opcode(4).with(|m| m.registers.dbr.length = 4_097)),
            ] {
                let machine = machine.with(|m| set(&mut m.registers, value));
                let course = Course::new(format!("2: {name} {value}{which}"), machine);
                cases.0.push(course.part(format!("{}, budget 0", course.name), 0, 0, 0, End::Refused(2)));
                cases.add(course, End::Refused(2));
            }
        }
    }
    for (number, change) in
        [(3, (|m| m.registers.pr[6].ring = 3) as fn(&mut Image)), (4, |m| m.registers.dbr.address = WORDS - 7)]
    {
        cases.add(Course::new(format!("{number}, switch on"), no_opcode(4).with(change)), End::Refused(number));
    }
    // The largest numbers: a segment that 11 doesn't let pass, and one with the last descriptor there can be.
    let at = pointer(4, CODE, 0);
    let machine = no_opcode(4).with(|m| m.registers.save_segment = 4_095);
    cases.add(Course::new("save segment 4095, none", machine), End::Fault(Fault { number: 32, at }, 0));
    let many = no_opcode(4).with(|m| {
        m.memory.resize(4_300, 0);
        m.registers.dbr = Dbr { address: 150, length: 4_096 };
        m.describe(CODE, segment(16, 8));
        m.describe(4_095, inner(4_287, 13));
        m.describe(4_094, inner(120, 8));
        m.registers.save_segment = 4_095;
        m.registers.handler_segment = 4_094;
        m.memory[120] = plain(HLT).to_word();
    });
    let course = Course::new("save segment 4095", many.clone()).delivers_to(4_287, (32, at), 0).completes(0, |_| {});
    cases.add_all(course, End::Halted);
    // The save segment is the handler's as well: the number is its first instruction.
    let machine = many.with(|m| m.registers.handler_segment = 4_095);
    let course = Course::new("save and handler segment 4095", machine);
    let course = course.delivers_to(4_287, (32, at), 0).delivers_to(4_287, (32, pointer(0, 4_095, 0)), 0);
    cases.add_all(course, End::Spent);
}

/// Descriptors of the save segment, each no at its boundary and what isn't asked; and where the frame goes, if there.
fn save_descriptors() -> Vec<(&'static str, Descriptor, Option<usize>)> {
    let save = save();
    let rings = |r1: u8, r2: u8, r3: u8| Descriptor { r1, r2, r3, ..save };
    let words = |address: u32, length: u16| Descriptor { address, length, ..save };
    let there = Some(128);
    vec![
        ("as it is", save, there),
        ("12 no", Descriptor { v: false, ..save }, None),
        ("12 no, zeros", Descriptor::default(), None),
        ("12 no, all else on", Descriptor { v: false, e: true, gate: 2_047, ..rings(7, 7, 7) }, None),
        ("13 no, R1 above R2", rings(1, 0, 0), None),
        ("13 no, R1 above R2, R3 not below", rings(7, 6, 7), None),
        ("13 no, R2 above R3", rings(0, 1, 0), None),
        ("13 no, both", rings(7, 6, 5), None),
        ("13 just yes, 0 0 7", rings(0, 0, 7), there),
        ("13 just yes, 0 7 7", rings(0, 7, 7), there),
        ("13 just yes, 7 7 7", rings(7, 7, 7), there),
        ("13 yes, 3 4 5", rings(3, 4, 5), there),
        ("14 just no, by ADDRESS", words(129, 13), None),
        ("14 just no, by LENGTH", words(128, 14), None),
        ("14 no, the largest LENGTH", words(128, 65_535), None),
        ("14 no, the largest ADDRESS", words(0xff_ffff, 13), None),
        ("14 just yes, 14 words", words(127, 14), Some(127)),
        ("a word before the end", words(127, 13), Some(127)),
        ("21 words", words(120, 21), Some(120)),
        ("12 words, to the end", words(129, 12), None),
        ("12 words, one more behind them", words(128, 12), None),
        ("1 word", words(128, 1), None),
        ("no word", words(128, 0), None),
        ("no word, at the end", words(WORDS, 0), None),
        ("W off", Descriptor { w: false, ..save }, None),
        ("W off, rings 7 7 7", Descriptor { w: false, ..rings(7, 7, 7) }, None),
        ("W off, 12 words", Descriptor { w: false, ..words(128, 12) }, None),
        ("12, 13 and 14 no", Descriptor { v: false, length: 65_535, ..rings(7, 6, 5) }, None),
        ("R off", Descriptor { r: false, ..save }, there),
        ("E on", Descriptor { e: true, ..save }, there),
        ("R off, E on, gates", Descriptor { r: false, e: true, gate: 2_047, ..save }, there),
    ]
}

/// Faults to save: name, machine, fault and pointer words.
fn faults() -> Vec<(String, Image, (u8, Pointer), u64)> {
    let mut faults = Vec::new();
    for ring in [0, 1, 4, 7] {
        faults.push((format!("32 in ring {ring}"), no_opcode(ring), (32, pointer(ring, CODE, 0)), 0));
    }
    let third = on(machine(4, LDA, 3)).with(|m| {
        m.describe(BAD, Descriptor { r: false, ..chain_segment() });
        m.divert(2, BAD);
    });
    faults.push(("22 at the third pointer word".to_string(), third, (22, pointer(4, BAD, 2)), 2));
    let written = on(machine(7, STA, 64)).with(|m| m.registers.a = A);
    faults.push(("23 after 64 pointer words".to_string(), written, (23, pointer(7, TARGET, 3)), 64));
    faults
}

fn save_segments(cases: &mut Cases) {
    type Change = fn(&mut Image);
    // The descriptor isn't at fault.
    let others: [(&str, Change); 5] = [
        ("11 just no, the next segment", |m| m.registers.save_segment = SEGMENTS),
        ("11 just no, a descriptor behind the last", |m| {
            m.registers.save_segment = SEGMENTS;
            m.describe(SEGMENTS, save());
        }),
        ("11 just no, a shorter descriptor segment", |m| m.registers.dbr.length = SAVE),
        ("11 no", |m| m.registers.save_segment = 4_095),
        ("14 just no, a shorter memory", |m| m.memory.truncate(140)),
    ];
    for (fault_name, machine, fault, pointer_words) in faults() {
        let (number, at) = fault;
        let ends = End::Fault(Fault { number, at }, pointer_words);
        for (name, descriptor, saved) in save_descriptors() {
            let machine = machine.clone().with(|m| m.describe(SAVE, descriptor));
            let course = Course::new(format!("{fault_name}, save segment: {name}"), machine);
            match saved {
                Some(address) => cases.add(course.delivers_to(address, fault, pointer_words), End::Spent),
                None => cases.add(course, ends),
            }
        }
        for (name, change) in others {
            let machine = machine.clone().with(change);
            cases.add(Course::new(format!("{fault_name}, save segment: {name}"), machine), ends);
        }
    }
}

/// Every machine of `pointers` whose first step faults: saved, and for one no after another not saved.
fn every_fault(cases: &mut Cases) {
    let noes: Vec<_> = save_descriptors().into_iter().filter(|(_, _, saved)| saved.is_none()).collect();
    let first_steps = pointers::cases().into_iter().filter(|case| case.steps.is_empty());
    for (case, (name, descriptor, _)) in first_steps.zip(noes.iter().cycle()) {
        let End::Fault(fault, pointer_words) = case.end else { continue };
        let machine = on(case.machine).with(|m| {
            // Whether TZE and TMI transfer depends on A.
            if !matches!((m.memory[16] >> 24) as u8, TZE | TMI) {
                m.registers.a = A;
            }
        });
        let course = Course::new(format!("{}, saved", case.name), machine.clone());
        cases.add(course.delivers((fault.number, fault.at), pointer_words), End::Spent);
        let machine = machine.with(|m| m.describe(SAVE, *descriptor));
        cases.add(Course::new(format!("{}, not saved: {name}", case.name), machine), case.end);
    }
}

// ---- Handlers.

/// 32 at CODE's first word is saved, and the handler has this code.
fn handled(name: &str, code: &[u64]) -> Course {
    let machine = no_opcode(4).with(|m| m.memory[120..120 + code.len()].copy_from_slice(code));
    Course::new(name, machine).delivers((32, pointer(4, CODE, 0)), 0)
}

fn handlers(cases: &mut Cases) {
    let [ldi, hlt] = [Instruction { lit: 7, ..plain(LDI) }, plain(HLT)].map(Instruction::to_word);
    cases.add_all(handled("HLT in the handler", &[hlt]).completes(0, |_| {}), End::Halted);
    let course = handled("LDI and HLT in the handler", &[ldi, hlt]);
    cases.add_all(course.completes(0, |m| m.registers.a = 7).completes(0, |_| {}), End::Halted);
    // The handler's own fault: a second frame over the first, again and again.
    let own = (32, pointer(0, HANDLER, 0));
    let course = handled("no opcode in the handler", &[]).delivers(own, 0).delivers(own, 0).delivers(own, 0);
    cases.add_all(course, End::Spent);
    let later = (32, pointer(0, HANDLER, 1));
    let course = handled("no opcode after LDI in the handler", &[ldi]);
    let course = course.completes(0, |m| m.registers.a = 7).delivers(later, 0).completes(0, |_| {}).delivers(later, 0);
    cases.add_all(course, End::Spent);
    // By PR3, which leads to segment 3,276.
    let code = [Instruction { p: true, prnum: 3, ..plain(LDA) }.to_word()];
    let nowhere = (11, pointer(7, 0xccc, 0xcccc));
    let course = handled("a handler's LDA from nowhere", &code).delivers(nowhere, 0).delivers(nowhere, 0);
    cases.add_all(course, End::Spent);
    mended(cases);
    skipped(cases);
    unsaved(cases);
    from_other_rings(cases);
}

/// Segment 0 is the descriptor segment.
fn describe_table(m: &mut Image) {
    m.describe(0, inner(TABLE.address, TABLE.length));
}

/// The handler stores A, a good descriptor, over TARGET's, and goes back with opcode 42: LDA completes.
fn mended(cases: &mut Cases) {
    let good = target().to_word();
    let machine = on(leading_to(4, LDA, 0, pointer(4, TARGET, 3))).with(|m| {
        m.registers.a = good;
        m.describe(TARGET, Descriptor { v: false, ..target() });
        describe_table(m);
        m.memory[115] = 99;
        m.memory[120] = by_word(STA, 2);
        m.memory[121] = by_word(RCU, 2);
        m.memory[122] = pointer_word(pointer(0, 0, TARGET));
        m.memory[123] = pointer_word(pointer(0, SAVE, 0));
    });
    let course = Course::new("a handler that mends a descriptor", machine)
        .delivers((12, pointer(4, TARGET, 3)), 0)
        .completes(1, |m| m.memory[8] = good)
        .step(1, |m| m.registers.ipr = pointer(4, CODE, 0))
        .completes(0, |m| m.registers.a = 99);
    cases.add_all(course, End::Spent);
}

/// The handler adds one to the saved IPR, and goes back behind the instruction that faulted. A is the frame's.
fn skipped(cases: &mut Cases) {
    let machine = no_opcode(4).with(|m| {
        m.put(1, Instruction { lit: 9, ..plain(LDI) });
        m.memory[120] = by_word(AOS, 3);
        m.memory[121] = Instruction { lit: 5, ..plain(LDI) }.to_word();
        m.memory[122] = by_word(RCU, 2);
        m.memory[123] = pointer_word(pointer(0, SAVE, 4));
        m.memory[124] = pointer_word(pointer(0, SAVE, 0));
    });
    let course = Course::new("a handler that goes on behind", machine)
        .delivers((32, pointer(4, CODE, 0)), 0)
        .completes(1, |m| m.memory[132] = 0x4001_0001)
        .completes(0, |m| m.registers.a = 5)
        .step(1, |m| {
            m.registers.a = A;
            m.registers.ipr = pointer(4, CODE, 1);
        })
        .completes(0, |m| m.registers.a = 9)
        .delivers((32, pointer(4, CODE, 2)), 0);
    cases.add_all(course, End::Spent);
}

/// The handler stores over the save segment's descriptor: its own fault ends the run.
fn unsaved(cases: &mut Cases) {
    for (name, descriptor) in [
        ("V off", Descriptor { v: false, ..save() }),
        ("W off", Descriptor { w: false, ..save() }),
        ("12 words", Descriptor { length: 12, ..save() }),
    ] {
        let machine = no_opcode(4).with(|m| {
            m.registers.a = descriptor.to_word();
            describe_table(m);
            m.memory[120] = by_word(STA, 2);
            m.memory[122] = pointer_word(pointer(0, 0, SAVE));
        });
        let course = Course::new(format!("a handler that ends its save segment: {name}"), machine)
            .delivers((32, pointer(4, CODE, 0)), 0)
            .completes(1, |m| m.memory[11] = descriptor.to_word());
        cases.add_all(course, End::Fault(Fault { number: 32, at: pointer(0, HANDLER, 1) }, 0));
    }
}

/// Faults of a ring that was called, of one that was returned to, and at the end of a segment.
fn from_other_rings(cases: &mut Cases) {
    let machine = on(leading_to(4, CALL, 2, pointer(0, TARGET, 3))).with(|m| {
        m.describe(TARGET, Descriptor { r1: 1, r2: 1, r3: 5, ..target() });
        m.memory[120] = plain(HLT).to_word();
    });
    let course = Course::new("a fault in ring 1", machine)
        .step(2, |m| {
            m.registers.ipr = pointer(1, TARGET, 3);
            m.registers.pr[7] = pointer(1, 1, 0);
        })
        .delivers((32, pointer(1, TARGET, 3)), 0)
        .completes(0, |_| {});
    cases.add_all(course, End::Halted);
    let machine = on(leading_to(1, RETURN, 1, pointer(6, TARGET, 3))).with(|m| {
        m.memory[120] = plain(HLT).to_word();
    });
    // PR0 to PR4 were in rings 1, 2, 1, 4, 5.
    let course = Course::new("a fault in ring 6", machine)
        .step(1, |m| {
            m.registers.ipr = pointer(6, TARGET, 3);
            for pr in 0..5 {
                m.registers.pr[pr].ring = 6;
            }
        })
        .delivers((32, pointer(6, TARGET, 3)), 0)
        .completes(0, |_| {});
    cases.add_all(course, End::Halted);
    let machine = no_opcode(5).with(|m| {
        m.describe(CODE, segment(16, 1));
        m.put(0, Instruction { lit: 3, ..plain(LDI) });
    });
    let course = Course::new("a fault behind the last word", machine)
        .completes(0, |m| m.registers.a = 3)
        .delivers((15, pointer(5, CODE, 1)), 0);
    cases.add_all(course, End::Spent);
}

/// Handler segments that can't be fetched from: that fault is delivered as well, and the run is spent.
fn no_handlers(cases: &mut Cases) {
    for handler_segment in [SEGMENTS, 4_095] {
        let machine = no_opcode(4).with(|m| m.registers.handler_segment = handler_segment);
        let at = pointer(0, handler_segment, 0);
        let course = Course::new(format!("handler segment {handler_segment}, none"), machine)
            .delivers((32, pointer(4, CODE, 0)), 0)
            .delivers((11, at), 0)
            .delivers((11, at), 0)
            .delivers((11, at), 0);
        cases.add_all(course, End::Spent);
    }
    let handler = inner(120, 8);
    for (number, descriptor) in [
        (12, Descriptor { v: false, ..handler }),
        (13, Descriptor { r1: 1, ..handler }),
        (13, Descriptor { r2: 1, ..handler }),
        (14, Descriptor { length: 22, ..handler }),
        (15, Descriptor { length: 0, ..handler }),
        (21, Descriptor { e: false, ..handler }),
        (21, Descriptor { r1: 1, r2: 7, r3: 7, ..handler }),
    ] {
        let machine = no_opcode(4).with(|m| m.describe(HANDLER, descriptor));
        let at = pointer(0, HANDLER, 0);
        let course = Course::new(format!("a handler segment with {number} no"), machine)
            .delivers((32, pointer(4, CODE, 0)), 0)
            .delivers((number, at), 0)
            .delivers((number, at), 0);
        cases.add_all(course, End::Spent);
    }
}

// ---- Frames over descriptors and code.

/// The save segment is words 4 to 16: the frame's words 0 to 7 are the descriptors of segments 0 to 7.
fn frames_over_descriptors(cases: &mut Cases) {
    let over = |handler_segment: u16, a: u64| {
        no_opcode(4).with(|m| {
            m.describe(SAVE, inner(4, 13));
            m.registers.handler_segment = handler_segment;
            m.registers.a = a;
        })
    };
    let first = (32, pointer(4, CODE, 0));
    // A is segment 2's descriptor now.
    let handler = inner(120, 8).to_word();
    let machine = over(2, handler).with(|m| m.memory[120] = plain(HLT).to_word());
    let course = Course::new("A saved as the handler's descriptor", machine);
    cases.add_all(course.delivers_to(4, first, 0).completes(0, |_| {}), End::Halted);
    // PR2 is the save segment's, with V off.
    let course = Course::new("a second fault with A as the handler's descriptor", over(2, handler));
    let end = End::Fault(Fault { number: 32, at: pointer(0, 2, 0) }, 0);
    cases.add_all(course.delivers_to(4, first, 0), end);
    for segno in [0, 1, 3, 4, 5, 6, 7] {
        let course = Course::new(format!("a handler's descriptor with frame word {segno}"), over(segno, handler));
        let end = End::Fault(Fault { number: 12, at: pointer(0, segno, 0) }, 0);
        cases.add_all(course.delivers_to(4, first, 0), end);
    }
    // From word 9 on: A is the save segment's own descriptor, for the next frame.
    let machine = no_opcode(4).with(|m| {
        m.describe(SAVE, inner(9, 13));
        m.registers.a = save().to_word();
    });
    let course = Course::new("A saved as the save segment's descriptor", machine)
        .delivers_to(9, first, 0)
        .delivers((12, pointer(0, HANDLER, 0)), 0)
        .delivers((12, pointer(0, HANDLER, 0)), 0);
    cases.add_all(course, End::Spent);
}

fn frames_over_code(cases: &mut Cases) {
    let first = (32, pointer(4, CODE, 0));
    // From frame word 2 on: A is the handler's first instruction.
    let handler_at_a = |a: Instruction| {
        no_opcode(4).with(|m| {
            m.describe(HANDLER, inner(130, 8));
            m.registers.a = a.to_word();
        })
    };
    let course = Course::new("A saved as the handler's HLT", handler_at_a(plain(HLT)));
    cases.add_all(course.delivers(first, 0).completes(0, |_| {}), End::Halted);
    // Then comes DBR's word, a CNT of the word 4 on, which is PR2's: ring 4, segment 2; then IPR's, opcode 64. The next
    // frame has A 2, no opcode.
    let course = Course::new("a frame as a program", handler_at_a(Instruction { lit: 77, ..plain(LDI) }))
        .delivers(first, 0)
        .completes(0, |m| m.registers.a = 77)
        .completes(0, |m| m.registers.a = 2)
        .delivers((32, pointer(0, HANDLER, 2)), 0)
        .delivers((32, pointer(0, HANDLER, 0)), 0);
    cases.add_all(course, End::Spent);
    // Over the code that faults: when opcode 42 goes back, the number is the instruction.
    let machine = on(leading_to(4, LDA, 0, pointer(4, SEGMENTS, 5))).with(|m| {
        m.describe(SAVE, inner(16, 13));
        m.memory[120] = by_word(RCU, 1);
        m.memory[121] = pointer_word(pointer(0, SAVE, 0));
    });
    let course = Course::new("a frame over the code", machine.clone())
        .delivers_to(16, (11, pointer(4, SEGMENTS, 5)), 0)
        .step(1, |m| m.registers.ipr = pointer(4, CODE, 0))
        .delivers_to(16, first, 0)
        .step(1, |m| m.registers.ipr = pointer(4, CODE, 0))
        .delivers_to(16, first, 0);
    cases.add_all(course, End::Spent);
    // The save segment is the code's own; no ring is asked.
    let machine = machine.with(|m| {
        m.describe(CODE, segment(16, 13));
        m.registers.save_segment = CODE;
    });
    let course = Course::new("a frame in the code's segment", machine)
        .delivers_to(16, (11, pointer(4, SEGMENTS, 5)), 0)
        .step(1, |m| m.registers.ipr = pointer(4, CODE, 0))
        .delivers_to(16, first, 0);
    cases.add_all(course, End::Spent);
    // The save segment is the handler's own: its first instruction is the number.
    let machine = no_opcode(4).with(|m| {
        m.registers.handler_segment = SAVE;
        m.describe(SAVE, inner(128, 13));
    });
    let course = Course::new("a frame in the handler's segment", machine)
        .delivers(first, 0)
        .delivers((32, pointer(0, SAVE, 0)), 0)
        .delivers((32, pointer(0, SAVE, 0)), 0);
    cases.add_all(course, End::Spent);
}

/// LDBR, then a fault: the frame has the new DBR, and the save segment is the one that it describes.
fn other_descriptors(cases: &mut Cases) {
    for (length, saved) in [(8, true), (7, false)] {
        let machine = on(leading_to(0, LDBR, 3, pointer(0, TARGET, 3))).with(|m| {
            m.registers.a = A;
            m.memory[115] = 24 | length << 24;
            m.memory[24 + usize::from(CODE)] = segment(16, 8).to_word();
            m.memory[24 + usize::from(SAVE)] = inner(60, 13).to_word();
        });
        let course = Course::new(format!("a fault after LDBR, LENGTH {length}"), machine)
            .completes(3, |m| m.registers.dbr = Dbr { address: 24, length: length as u16 });
        let (number, at) = (32, pointer(0, CODE, 1));
        if saved {
            // The handler's descriptor is zero there.
            let course = course.delivers_to(60, (number, at), 0).delivers_to(60, (12, pointer(0, HANDLER, 0)), 0);
            cases.add_all(course, End::Spent);
        } else {
            cases.add_all(course, End::Fault(Fault { number, at }, 0));
        }
    }
}

/// The pointer words of a delivered fault are in its line and in the total.
fn counts(cases: &mut Cases) {
    let later = |opcode: u8, offset: u16| Instruction { offset, ..through(opcode) };
    let machine = on(machine(4, LDA, 66)).with(|m| {
        m.put(0, later(LDA, 63));
        m.memory[115] = 5;
        m.put(1, later(EAP, 0));
        m.memory[120] = plain(HLT).to_word();
    });
    let course = Course::new("3 pointer words, then 64 of a fault, then HLT", machine.clone())
        .completes(3, |m| m.registers.a = 5)
        .delivers((31, Pointer { ring: 4, ..link(64) }), 64)
        .completes(0, |_| {});
    cases.add_all(course, End::Halted);
    // The same, not saved: the faulting step's aren't in the total.
    let course = Course::new("3 pointer words, then 64 of a fault, not saved", off(machine.clone()))
        .completes(3, |m| m.registers.a = 5);
    cases.add_all(course, End::Fault(Fault { number: 31, at: Pointer { ring: 4, ..link(64) } }, 64));
    // Faults at the second pointer word, in the handler too, which has its own through TARGET.
    let machine = machine.with(|m| {
        m.put(0, later(LDA, 64));
        m.point(65, pointer(0, BAD, 1), true);
        m.memory[120] = by_word(STA, 1);
        m.memory[121] = pointer_word(pointer(0, TARGET, 0)) | 1 << 31;
        m.memory[112] = pointer_word(pointer(2, BAD, 2)) | 1 << 31;
    });
    let course = Course::new("faults after 2 pointer words each", machine)
        .delivers((12, pointer(4, BAD, 1)), 2)
        .delivers((12, pointer(2, BAD, 2)), 2)
        .delivers((12, pointer(2, BAD, 2)), 2);
    cases.add_all(course, End::Spent);
}

// ---- Opcode 42.

/// What the frame holds. Its DBR just ends with memory; its IPR is nowhere.
fn saved() -> Registers {
    Registers {
        a: 0xfedc_ba98_7654_3210,
        dbr: Dbr { address: 148, length: 9 },
        ipr: pointer(3, 4_095, 65_535),
        pr: [0, 1, 2, 3, 4, 5, 6, 7].map(|number: u16| pointer(3 + number as u8 / 2, 0x111 * number, 0x1357 * number)),
        ..Registers::default()
    }
}

/// For ring 0 alone, to be read and nothing else.
fn frame_segment() -> Descriptor {
    Descriptor { w: false, e: false, ..inner(144, 13) }
}

/// In ring 0: opcode 42 through so many pointer words to FRAME's word 0.
fn restoring(words: u16) -> Image {
    on(leading_to(0, RCU, words, pointer(0, FRAME, 0))).with(|m| {
        m.registers.a = A;
        m.memory.resize(157, 0);
        m.describe(FRAME, frame_segment());
        put_frame(m, &saved());
    })
}

/// The frame of these registers; 23 and its address are nobody's concern.
fn put_frame(m: &mut Image, registers: &Registers) {
    m.memory[144..157].copy_from_slice(&frame(23, pointer(7, 1, 2), registers));
}

/// Switch and both segments stay.
fn take_up(m: &mut Image, registers: Registers) {
    let Registers { fault_switch, save_segment, handler_segment, .. } = m.registers;
    m.registers = Registers { fault_switch, save_segment, handler_segment, ..registers };
}

/// A step that takes up `saved`.
fn restores(name: impl Into<String>, machine: Image, pointer_words: u64) -> Course {
    Course::new(name, machine).step(pointer_words, |m| take_up(m, saved()))
}

fn restored_frames(cases: &mut Cases) {
    for words in [0, 1, 2, 3, 63, 64] {
        let course = restores(format!("42 after {words} pointer words"), restoring(words), u64::from(words));
        cases.add(course, End::Spent);
    }
    let at = Pointer { ring: 0, ..link(64) };
    cases.delivered_or_not("42 after 65 pointer words", restoring(65), (31, at), 64);
    // What is ignored.
    type Change = fn(&mut Image);
    let ignored: [(&str, Change); 6] = [
        ("number", |m| m.memory[144] = u64::MAX),
        ("address under question", |m| m.memory[145] = u64::MAX),
        ("bits 37 to 63 of DBR", |m| m.memory[147] |= !0 << 37),
        ("bits 31 to 63 of IPR", |m| m.memory[148] |= !0 << 31),
        ("bits 31 to 63 of the PRs", |m| m.memory[149..157].iter_mut().for_each(|word| *word |= !0 << 31)),
        ("every I", |m| m.memory[148..157].iter_mut().for_each(|word| *word |= 1 << 31)),
    ];
    for (name, change) in ignored {
        cases.add(restores(format!("42 ignores {name}"), restoring(0).with(change), 0), End::Spent);
    }
    let all = restoring(0).with(|m| ignored.iter().for_each(|(_, change)| change(m)));
    cases.add(restores("42 ignores all of these", all, 0), End::Spent);
    // Switch and both segments stay.
    for (switch, save, handler) in [(0, 0, 0), (0, 4_095, 4_095), (1, 4_095, 0), (1, 0, 4_095), (1, 2, 3)] {
        let machine = restoring(0).with(|m| {
            (m.registers.fault_switch, m.registers.save_segment, m.registers.handler_segment) = (switch, save, handler);
        });
        let name = format!("42 leaves switch {switch}, save {save} and handler {handler}");
        cases.add(restores(name, machine, 0), End::Spent);
    }
    // The frame starts with the instruction itself.
    let machine = restoring(0).with(|m| {
        m.describe(FRAME, Descriptor { address: 16, ..frame_segment() });
        m.memory.copy_within(145..157, 17);
    });
    cases.add(restores("42 from a frame over itself", machine, 0), End::Spent);
    // Other flags and rings of the frame's segment.
    for (name, descriptor) in [
        ("W and E on", inner(144, 13)),
        ("rings 0 7 7", Descriptor { r2: 7, r3: 7, ..frame_segment() }),
        ("rings 7 7 7", Descriptor { r1: 7, r2: 7, r3: 7, ..frame_segment() }),
    ] {
        let machine = restoring(0).with(|m| m.describe(FRAME, descriptor));
        cases.add(restores(format!("42 from a segment with {name}"), machine, 0), End::Spent);
    }
}

/// 15 of all thirteen words, and no word after 65,535 is word 0.
fn frames_at_the_end(cases: &mut Cases) {
    for (length, wordno, passes) in [
        (13, 0, true),
        (13, 1, false),
        (13, 12, false),
        (13, 13, false),
        (13, 65_523, false),
        (13, 65_524, false),
        (13, 65_535, false),
        (12, 0, false),
        (1, 0, false),
        (0, 0, false),
        (14, 0, true),
        (14, 1, true),
        (14, 2, false),
        (100, 87, true),
        (100, 88, false),
        (100, 99, false),
        (100, 65_530, false),
        (65_535, 0, true),
        (65_535, 65_522, true),
        (65_535, 65_523, false),
        (65_535, 65_524, false),
        (65_535, 65_534, false),
        (65_535, 65_535, false),
    ] {
        let machine = restoring(0).with(|m| {
            m.memory.resize(157 + usize::from(length), 0);
            m.describe(FRAME, Descriptor { address: 157, length, ..frame_segment() });
            m.registers.pr[2].wordno = wordno;
            // Where there is room, that far and again at the start.
            for word in [0, usize::from(wordno)] {
                if word + 13 <= usize::from(length) {
                    m.memory.copy_within(144..157, 157 + word);
                }
            }
        });
        let name = format!("42 at word {wordno} of {length}");
        if passes {
            cases.add(restores(name, machine, 0), End::Spent);
        } else {
            cases.delivered_or_not(&name, machine, (15, pointer(0, FRAME, wordno)), 0);
        }
    }
    // Adding OFFSET goes round; the frame doesn't.
    let round = restoring(0).with(|m| {
        m.registers.pr[2].wordno = 65_530;
        m.put(0, Instruction { i: false, offset: 6, ..through(RCU) });
    });
    cases.add(restores("42 by an OFFSET that goes round", round.clone(), 0), End::Spent);
    let before = round.with(|m| m.put(0, Instruction { i: false, offset: 5, ..through(RCU) }));
    cases.delivered_or_not("42 at word 65535", before, (15, pointer(0, FRAME, 65_535)), 0);
}

/// 11 to 15, 22, 33.
fn restoring_by_use(cases: &mut Cases) {
    for words in [0, 1, 64] {
        // In ring 0 the two of 13 still are.
        for (number, segno, descriptor) in unusable(frame_segment(), 12) {
            let machine = restoring(words).with(|m| {
                m.describe(segno, descriptor);
                if words == 0 {
                    m.registers.pr[2].segno = segno;
                } else {
                    m.point(words - 1, pointer(0, segno, 0), false);
                }
            });
            let name = format!("42 after {words} pointer words, {number} no");
            cases.delivered_or_not(&name, machine, (number, pointer(0, segno, 0)), u64::from(words));
        }
    }
    let machine = restoring(0).with(|m| m.describe(FRAME, Descriptor { r: false, ..frame_segment() }));
    cases.delivered_or_not("42, R off", machine, (22, pointer(0, FRAME, 0)), 0);
    // TPR's ring is PR2's or that of a pointer word.
    for (ring, r2) in [(1, 0), (1, 1), (5, 4), (5, 5), (7, 6), (7, 7)] {
        for words in [0, 1] {
            let machine = restoring(words).with(|m| {
                m.describe(FRAME, Descriptor { r2, r3: 7, ..frame_segment() });
                if words == 0 {
                    m.registers.pr[2].ring = ring;
                } else {
                    m.point(0, pointer(ring, FRAME, 0), false);
                }
            });
            let name = format!("42 by ring {ring} after {words} pointer words, R2 {r2}");
            if ring <= r2 {
                cases.add(restores(name, machine, words.into()), End::Spent);
            } else {
                cases.delivered_or_not(&name, machine, (22, pointer(ring, FRAME, 0)), words.into());
            }
        }
    }
    // 33, before anything is read.
    for ring in 1..8 {
        let machine = on(leading_to(ring, RCU, 3, pointer(0, FRAME, 0)));
        cases.delivered_or_not(&format!("42 in ring {ring}"), machine, (33, pointer(ring, CODE, 0)), 0);
    }
}

/// 34 of the frame's DBR.
fn restoring_dbr(cases: &mut Cases) {
    for (words, address, length, passes) in [
        (157, 157, 0, true),
        (157, 158, 0, false),
        (157, 156, 1, true),
        (157, 157, 1, false),
        (157, 0, 157, true),
        (157, 0, 158, false),
        (157, 0, 0, true),
        (157, 16_777_215, 0, false),
        (157, 16_777_215, 8_191, false),
        (157, 0, 4_096, false),
        (4_200, 0, 4_096, true),
        (4_200, 104, 4_096, true),
        (4_200, 105, 4_096, false),
        (4_200, 0, 4_097, false),
        (8_192, 0, 4_096, true),
        (8_192, 4_096, 4_096, true),
        (8_192, 4_097, 4_096, false),
        (8_192, 8_191, 1, true),
        (8_192, 8_191, 2, false),
        (8_192, 0, 4_097, false),
        (8_192, 0, 8_191, false),
    ] {
        let machine = restoring(0).with(|m| {
            m.memory.resize(words, 0);
            m.memory[147] = address | length << 24 | !0 << 37;
        });
        let name = format!("42 with DBR {address} and {length} in {words}");
        if passes {
            let dbr = Dbr { address: address as u32, length: length as u16 };
            let course = Course::new(name, machine).step(0, |m| take_up(m, Registers { dbr, ..saved() }));
            cases.add(course, End::Spent);
        } else {
            cases.delivered_or_not(&name, machine, (34, pointer(0, FRAME, 0)), 0);
        }
    }
}

/// 52: each PR of the frame against its IPR.
fn restoring_rings(cases: &mut Cases) {
    for ring in 0..8 {
        let equal = Registers { ipr: pointer(ring, 5, 6), pr: [pointer(ring, 7, 8); 8], ..saved() };
        let with = |registers: &Registers| restoring(0).with(|m| put_frame(m, registers));
        let course = Course::new(format!("42 with ring {ring} everywhere"), with(&equal));
        cases.add(course.step(0, |m| take_up(m, equal)), End::Spent);
        for pr in 0..8 {
            for pr_ring in 0..8 {
                let mut changed = equal;
                changed.pr[pr].ring = pr_ring;
                let name = format!("42 with ring {ring} and {pr_ring} of PR{pr}");
                if pr_ring >= ring {
                    cases.add(Course::new(name, with(&changed)).step(0, |m| take_up(m, changed)), End::Spent);
                } else {
                    cases.delivered_or_not(&name, with(&changed), (52, pointer(0, FRAME, 0)), 0);
                }
            }
        }
    }
    // With the address of TPR, its ring too, after pointer words.
    for words in [1, 3, 64] {
        let machine = restoring(words).with(|m| {
            m.describe(FRAME, Descriptor { r2: 7, r3: 7, address: 143, length: 14, ..frame_segment() });
            m.point(words - 1, pointer(6, FRAME, 1), false);
            m.memory[149] = 0;
        });
        let name = format!("52 after {words} pointer words");
        cases.delivered_or_not(&name, machine, (52, pointer(6, FRAME, 1)), words.into());
    }
}

/// Every set of noes: the first in order decides.
fn restoring_in_order(cases: &mut Cases) {
    const ORDER: [u8; 8] = [11, 12, 13, 14, 15, 22, 34, 52];
    for set in 1..256_u32 {
        let noes: Vec<u8> = (0..8).filter(|place| set >> place & 1 == 1).map(|place| ORDER[place]).collect();
        let no = |number: u8| noes.contains(&number);
        let segno = if no(11) { SEGMENTS } else { FRAME };
        let machine = restoring(0).with(|m| {
            let descriptor = Descriptor {
                v: !no(12),
                r1: if no(13) { 1 } else { 0 },
                address: if no(14) { 146 } else { 144 },
                length: if no(15) { 12 } else { 13 },
                r: !no(22),
                ..frame_segment()
            };
            m.describe(segno, descriptor);
            m.registers.pr[2].segno = segno;
            if no(34) {
                m.memory[147] = 157 | 1 << 24;
            }
            if no(52) {
                m.memory[153] = pointer_word(pointer(2, 0, 0));
            }
        });
        cases.delivered_or_not(&format!("42 with no to {noes:?}"), machine, (noes[0], pointer(0, segno, 0)), 0);
    }
}

fn restoring_in_runs(cases: &mut Cases) {
    // The next fetch is by the frame's DBR and IPR, which are nowhere.
    let nowhere = Fault { number: 11, at: pointer(3, 4_095, 65_535) };
    cases.add_all(restores("42, then a fetch from nowhere", restoring(2), 2), End::Fault(nowhere, 0));
    // Back to itself: IPR isn't advanced.
    let machine = restoring(1).with(|m| {
        let registers = m.registers;
        put_frame(m, &registers);
    });
    let course = Course::new("42 back to itself", machine).step(1, |_| {}).step(1, |_| {}).step(1, |_| {});
    cases.add_all(course, End::Spent);
    // To ring 7, by another descriptor segment, whose segment 9 is TARGET.
    let there =
        Registers { dbr: Dbr { address: 22, length: 10 }, ipr: pointer(7, 9, 2), pr: [pointer(7, 9, 9); 8], ..saved() };
    let machine = restoring(0).with(|m| {
        put_frame(m, &there);
        m.memory[31] = target().to_word();
        m.memory[114] = Instruction { lit: 4, ..plain(LDI) }.to_word();
    });
    let course =
        Course::new("42 to ring 7", off(machine)).step(0, |m| take_up(m, there)).completes(0, |m| m.registers.a = 4);
    cases.add_all(course, End::Fault(Fault { number: 32, at: pointer(7, 9, 3) }, 0));
    // A frame just written, put back, gives the registers again.
    for (name, machine, fault, pointer_words) in faults() {
        let machine = machine.with(|m| {
            m.memory[120] = by_word(RCU, 5);
            m.memory[125] = pointer_word(pointer(0, SAVE, 0));
        });
        let before = machine.registers;
        let course = Course::new(format!("{name}, put back"), machine)
            .delivers(fault, pointer_words)
            .step(1, |m| m.registers = before)
            .delivers(fault, pointer_words)
            .step(1, |m| m.registers = before);
        cases.add_all(course, End::Spent);
    }
    // 52 in the handler's 42 is delivered as well: EVEN holds no frame of its own.
    let machine = no_opcode(4).with(|m| {
        m.memory[120] = by_word(RCU, 1);
        m.memory[121] = pointer_word(pointer(0, EVEN, 0));
        m.memory[36] = 7 << 28;
    });
    let forged = (52, pointer(0, EVEN, 0));
    let course = Course::new("52 in the handler", machine)
        .delivers((32, pointer(4, CODE, 0)), 0)
        .delivers(forged, 1)
        .delivers(forged, 1);
    cases.add_all(course, End::Spent);
}

/// How a case is tried, here and where others are made.
#[cfg(test)]
impl Case {
    pub fn check_run(&self) {
        let Case { run: case, registers: after, memory: memory_after } = self;
        let Image { mut registers, mut memory, budget } = case.machine.clone();
        assert_eq!(crate::run(&mut registers, &mut memory, budget), case.reply(), "{}", case.name);
        assert_eq!(registers, *after, "{}", case.name);
        assert!(memory == *memory_after, "{}", case.name);
    }

    pub fn check_steps(&self) {
        let Case { run: case, registers: after, memory: memory_after } = self;
        let Image { mut registers, mut memory, .. } = case.machine.clone();
        for (number, reply) in case.step_replies().into_iter().enumerate() {
            assert_eq!(crate::step(&mut registers, &mut memory), reply, "{}, step {}", case.name, number + 1);
            if let Some((ipr, _)) = case.steps.get(number) {
                assert_eq!(registers.ipr, *ipr, "{}, step {}", case.name, number + 1);
            }
        }
        assert_eq!(registers, *after, "{}", case.name);
        assert!(memory == *memory_after, "{}", case.name);
    }

    pub fn listing(&self) -> String {
        let mut text = Vec::new();
        assert!(crate::listing::list_run(self.run.machine.clone(), &mut text).is_ok());
        String::from_utf8_lossy(&text).into_owned()
    }
}

#[cfg(test)]
mod tests {
    use super::*;
    use crate::{step, step_and_fault, Reply};

    #[test]
    fn replies_of_runs() {
        cases().iter().for_each(Case::check_run);
    }

    #[test]
    fn replies_of_steps() {
        cases().iter().for_each(Case::check_steps);
    }

    #[test]
    fn listings() {
        for case in cases().into_iter().filter(|case| !matches!(case.run.end, End::Refused(_))) {
            assert_eq!(case.listing(), case.run.text(), "{}", case.run.name);
        }
    }

    fn named(name: &str) -> Case {
        let named = cases().into_iter().find(|case| case.run.name == name);
        assert!(named.is_some(), "{name}");
        named.unwrap()
    }

    /// Some texts in full.
    #[test]
    fn texts() {
        let texts = [
            ("HLT in the handler", "1 0 6 0 0\n2 0 6 1 0\nhalted 2 0\n"),
            ("HLT in the handler, budget 1", "1 0 6 0 0\nspent 1 0\n"),
            ("HLT in the handler, budget 0", "spent 0 0\n"),
            ("3 pointer words, then 64 of a fault, then HLT", "1 4 1 1 3\n2 0 6 0 64\n3 0 6 1 0\nhalted 3 67\n"),
            ("3 pointer words, then 64 of a fault, not saved", "1 4 1 1 3\nfault 31 1 4 2 64 3\n"),
            ("a handler that mends a descriptor", "1 0 6 0 0\n2 0 6 1 1\n3 4 1 0 1\n4 4 1 1 0\nspent 4 2\n"),
            ("handler segment 4095, none", "1 0 4095 0 0\n2 0 4095 0 0\n3 0 4095 0 0\n4 0 4095 0 0\nspent 4 0\n"),
            ("22 at the third pointer word, save segment: W off", "fault 22 0 4 5 2 0\n"),
            ("22 at the third pointer word, save segment: R off", "1 0 6 0 2\nspent 1 2\n"),
            ("42, then a fetch from nowhere", "1 3 4095 65535 2\nfault 11 1 3 4095 65535 2\n"),
            ("52 after 3 pointer words", "1 0 6 0 3\nspent 1 3\n"),
            ("52 after 3 pointer words, switch off", "fault 52 0 6 0 1 0\n"),
        ];
        for (name, text) in texts {
            assert_eq!(named(name).listing(), text, "{name}");
        }
    }

    /// Some frames in full.
    #[test]
    fn frames() {
        let prs =
            [0x4fff_ffff, 0x5eee_eeee, 0x4002_0000, 0x7ccc_cccc, 0x7bbb_bbbb, 0x7aaa_aaaa, 0x7999_9999, 0x7888_8888];
        for (name, words) in [
            ("32 in ring 4, save segment: as it is", [32, 0x4001_0000, A, 0x800_0004, 0x4001_0000]),
            ("22 at the third pointer word, save segment: R off", [22, 0x4005_0002, 0, 0x800_0004, 0x4001_0000]),
        ] {
            let Case { run: case, .. } = named(name);
            let Image { mut registers, mut memory, .. } = case.machine;
            step(&mut registers, &mut memory);
            assert_eq!(memory[128..133], words, "{name}");
            assert_eq!(memory[133..], prs, "{name}");
            assert_eq!(registers.ipr, pointer(0, 6, 0), "{name}");
        }
    }

    /// Each fault is delivered in some case, and in another, with the switch on as well, it isn't.
    #[test]
    fn every_number() {
        let [mut delivered, mut unsaved] = [[false; 64]; 2];
        for Case { run: case, .. } in cases() {
            let Image { mut registers, mut memory, budget } = case.machine;
            for _ in 0..budget {
                match step_and_fault(&mut registers, &mut memory) {
                    (Reply::Spent { .. }, fault) => fault.iter().for_each(|f| delivered[usize::from(f.number)] = true),
                    (Reply::Fault { fault, .. }, _) => {
                        unsaved[usize::from(fault.number)] |= registers.fault_switch == 1;
                        break;
                    }
                    _ => break,
                }
            }
        }
        for number in 0..64 {
            let is_fault = matches!(number, 11..=15 | 21..=34 | 52);
            assert_eq!([delivered[number], unsaved[number]], [is_fault; 2], "{number}");
        }
    }
}
