//! Directed machines for the pointer words of steps and runs, with replies and counts that were worked out by hand.

use crate::image::Image;
use crate::machine::{Fault, Registers, Reply};
use crate::opcodes::*;
use crate::words::{Dbr, Descriptor, Instruction, Pointer, PointerWord};

/// A machine and what it asks for.
pub struct Case {
    pub name: String,
    pub machine: Image,
    /// By completed step: IPR after it, and the pointer words it read.
    pub steps: Vec<(Pointer, u64)>,
    pub end: End,
}

/// What comes after the completed steps.
#[derive(Clone, Copy, Debug, PartialEq, Eq)]
pub enum End {
    Refused(u8),
    Spent,
    Halted,
    /// With the pointer words that the faulting step read.
    Fault(Fault, u64),
}

impl Case {
    /// The run's reply: its total is that of the completed steps.
    pub fn reply(&self) -> Reply {
        let count = self.steps.len() as u32;
        let pointer_words = self.steps.iter().map(|(_, pointer_words)| pointer_words).sum();
        match self.end {
            End::Refused(number) => Reply::Refused { number },
            End::Spent => Reply::Spent { count, pointer_words },
            End::Halted => Reply::Halted { count, pointer_words },
            End::Fault(fault, _) => Reply::Fault { fault, count, pointer_words },
        }
    }

    /// The replies of single steps, the faulting one too.
    pub fn step_replies(&self) -> Vec<Reply> {
        let mut replies: Vec<Reply> =
            self.steps.iter().map(|&(_, pointer_words)| Reply::Spent { count: 1, pointer_words }).collect();
        match (self.end, replies.pop()) {
            (End::Halted, Some(last)) => replies.push(Reply::Halted { count: 1, pointer_words: last.pointer_words() }),
            (_, last) => replies.extend(last),
        }
        match self.end {
            End::Refused(number) => replies.push(Reply::Refused { number }),
            End::Fault(fault, pointer_words) => replies.push(Reply::Fault { fault, count: 0, pointer_words }),
            End::Spent | End::Halted => {}
        }
        replies
    }

    /// The listing.
    pub fn text(&self) -> String {
        let mut text = String::new();
        let mut total = 0;
        for (number, (ipr, pointer_words)) in self.steps.iter().enumerate() {
            let Pointer { ring, segno, wordno } = ipr;
            text += &format!("{} {ring} {segno} {wordno} {pointer_words}\n", number + 1);
            total += pointer_words;
        }
        let count = self.steps.len();
        text + &match self.end {
            End::Refused(number) => format!("refused {number}\n"),
            End::Spent => format!("spent {count} {total}\n"),
            End::Halted => format!("halted {count} {total}\n"),
            End::Fault(Fault { number, at: Pointer { ring, segno, wordno } }, _) => {
                format!("fault {number} {count} {ring} {segno} {wordno} {total}\n")
            }
        }
    }
}

/// Memory. What is behind word 119 isn't used here.
pub(crate) const WORDS: u32 = 141;
/// DBR: words 4 to 11. Segment 8 is the first without a descriptor.
pub(crate) const TABLE: Dbr = Dbr { address: 4, length: SEGMENTS };
pub(crate) const SEGMENTS: u16 = 8;
/// Words 16 to 23.
pub(crate) const CODE: u16 = 1;
/// Both are words 32 to 111: every chain goes from the one to the other and back.
pub(crate) const EVEN: u16 = 2;
const ODD: u16 = 3;
/// Words 112 to 119, where chains lead: to word 3.
pub(crate) const TARGET: u16 = 4;
/// The segment in question.
pub(crate) const BAD: u16 = 5;

pub(crate) fn pointer(ring: u8, segno: u16, wordno: u16) -> Pointer {
    Pointer { ring, segno, wordno }
}

/// Open to all.
pub(crate) fn segment(address: u32, length: u16) -> Descriptor {
    Descriptor { address, length, r1: 0, r2: 7, r3: 7, r: true, w: true, e: true, v: true, gate: 8 }
}

pub(crate) fn chain_segment() -> Descriptor {
    segment(32, 80)
}

pub(crate) fn target() -> Descriptor {
    segment(112, 8)
}

/// Where the chain's word is, counted from 0.
pub(crate) fn link(word: u16) -> Pointer {
    pointer(0, if word % 2 == 1 { ODD } else { EVEN }, word)
}

/// By PR2, I on.
pub(crate) fn through(opcode: u8) -> Instruction {
    Instruction { opcode, p: true, prnum: 2, i: true, reg: 5, ..Instruction::default() }
}

/// `ring` everywhere; a chain of so many words from PR2 to word 3 of TARGET; the opcode through it; budget 1.
pub(crate) fn machine(ring: u8, opcode: u8, words: u16) -> Image {
    let mut machine = Image {
        registers: Registers {
            dbr: TABLE,
            ipr: pointer(ring, CODE, 0),
            pr: [pointer(ring, TARGET, 3); 8],
            ..Registers::default()
        },
        memory: vec![0; WORDS as usize],
        budget: 1,
    };
    machine.registers.pr[2] = Pointer { ring, ..link(0) };
    machine.describe(CODE, segment(16, 8));
    machine.describe(EVEN, chain_segment());
    machine.describe(ODD, chain_segment());
    machine.describe(TARGET, target());
    machine.put(0, through(opcode));
    for word in 0..words {
        machine.point(word, link(word + 1), true);
    }
    machine.lead(words, pointer(0, TARGET, 3));
    machine
}

impl Image {
    pub(crate) fn describe(&mut self, segno: u16, descriptor: Descriptor) {
        self.memory[self.registers.dbr.address as usize + usize::from(segno)] = descriptor.to_word();
    }

    /// A word of CODE.
    pub(crate) fn put(&mut self, wordno: u16, instruction: Instruction) {
        self.memory[16 + usize::from(wordno)] = instruction.to_word();
    }

    /// A word of the chain. What is above bit 31 is ignored.
    pub(crate) fn point(&mut self, word: u16, to: Pointer, i: bool) {
        self.memory[32 + usize::from(word)] = PointerWord { pointer: to, i }.to_word() | !0 << 32;
    }

    /// A chain of so many words, which is not empty, leads here.
    fn lead(&mut self, words: u16, to: Pointer) {
        if words > 0 {
            self.point(words - 1, to, false);
        }
    }

    /// PR2, or the chain's word before, now leads to this segment for the chain's word `place`. It still is that word:
    /// who doesn't ask goes on along the chain.
    pub(crate) fn divert(&mut self, place: u16, segno: u16) {
        if place == 0 {
            self.registers.pr[2].segno = segno;
        } else {
            self.point(place - 1, pointer(0, segno, place), true);
        }
    }

    pub(crate) fn with(mut self, change: impl FnOnce(&mut Image)) -> Image {
        change(&mut self);
        self
    }
}

/// The ways to fail 11 to 15 for the word `place` in ring 4: number, segment and descriptor. They still say where the
/// words of `good` are.
pub(crate) fn unusable(good: Descriptor, place: u16) -> [(u8, u16, Descriptor); 6] {
    [
        (11, SEGMENTS, good),
        (12, BAD, Descriptor { v: false, ..good }),
        (13, BAD, Descriptor { r1: 6, r2: 5, ..good }),
        (13, BAD, Descriptor { r2: 6, r3: 5, ..good }),
        (14, BAD, Descriptor { length: 65_535, ..good }),
        (15, BAD, Descriptor { length: place, ..good }),
    ]
}

/// The ways to fail 22 in ring 4.
fn unreadable(good: Descriptor) -> [(u8, u16, Descriptor); 2] {
    [(22, BAD, Descriptor { r: false, ..good }), (22, BAD, Descriptor { r2: 3, ..good })]
}

/// The first, a middle and the last word of a chain.
fn places(words: u16) -> Vec<u16> {
    let mut places = vec![0, words / 2, words - 1];
    places.dedup();
    places
}

struct Cases(Vec<Case>);

impl Cases {
    /// A step that faults, after so many pointer words.
    fn faults(&mut self, name: String, machine: Image, (number, at): (u8, Pointer), pointer_words: u64) {
        let end = End::Fault(Fault { number, at }, pointer_words);
        self.0.push(Case { name, machine, steps: vec![], end });
    }

    /// A step that completes.
    fn completes(&mut self, name: String, machine: Image, ipr: Pointer, pointer_words: u64) {
        self.0.push(Case { name, machine, steps: vec![(ipr, pointer_words)], end: End::Spent });
    }

    fn run(&mut self, name: String, machine: Image, steps: &[(Pointer, u64)], end: End) {
        self.0.push(Case { name, machine, steps: steps.to_vec(), end });
    }
}

pub fn cases() -> Vec<Case> {
    let mut cases = Cases(Vec::new());
    at_a_pointer_word(&mut cases);
    too_many(&mut cases);
    at_the_operand(&mut cases);
    by_use(&mut cases);
    completed(&mut cases);
    none_read(&mut cases);
    runs(&mut cases);
    changed_chains(&mut cases);
    cases.0
}

/// 11 to 15 and 22 at a pointer word: those before it were read, and it wasn't.
fn at_a_pointer_word(cases: &mut Cases) {
    for words in [1, 2, 3, 64] {
        for place in places(words) {
            for (number, segno, descriptor) in
                unusable(chain_segment(), place).into_iter().chain(unreadable(chain_segment()))
            {
                // With A 0, TMI isn't taken.
                for opcode in [LDA, STA, EAP, TMI, CALL] {
                    let machine = machine(4, opcode, words).with(|m| {
                        m.describe(segno, descriptor);
                        m.divert(place, segno);
                    });
                    let name = format!("{number} at pointer word {} of {words}, opcode {opcode}", place + 1);
                    cases.faults(name, machine, (number, pointer(4, segno, place)), u64::from(place));
                }
            }
        }
    }
}

/// 31: 64 were read, whatever is to be said of the 65th.
fn too_many(cases: &mut Cases) {
    for words in [65, 66, 80] {
        for opcode in [LDA, EAP, TMI, CALL] {
            let machine = machine(4, opcode, words);
            let at = Pointer { ring: 4, ..link(64) };
            cases.faults(format!("31 of {words} pointer words, opcode {opcode}"), machine, (31, at), 64);
        }
    }
    for (number, segno, descriptor) in unusable(chain_segment(), 64).into_iter().chain(unreadable(chain_segment())) {
        let machine = machine(4, EAP, 65).with(|m| {
            m.describe(segno, descriptor);
            m.divert(64, segno);
        });
        cases.faults(format!("31 before {number}"), machine, (31, pointer(4, segno, 64)), 64);
    }
    let machine = machine(4, EAP, 1).with(|m| m.point(0, pointer(6, EVEN, 0), true));
    cases.faults("31, a pointer word that points to itself".to_string(), machine, (31, pointer(6, EVEN, 0)), 64);
}

/// How long the chains are that lead to an operand.
const LEADING: [u16; 6] = [0, 1, 2, 3, 63, 64];

/// Chains that lead to a word of a segment, in place of TARGET's word 3; without one, PR2 leads there.
pub(crate) fn leading_to(ring: u8, opcode: u8, words: u16, to: Pointer) -> Image {
    machine(ring, opcode, words).with(|m| {
        if words == 0 {
            m.registers.pr[2] = Pointer { ring: to.ring.max(ring), ..to };
            m.put(0, Instruction { i: false, ..through(opcode) });
        }
        m.lead(words, to);
    })
}

/// 11 to 15 of the operand: the whole chain was read.
fn at_the_operand(cases: &mut Cases) {
    for words in LEADING {
        for (number, segno, descriptor) in unusable(target(), 3) {
            // With A 0, TZE is taken.
            for opcode in [LDA, STA, ADA, CNT, AOS, SPP, TRA, TZE, CALL, RETURN, LDBR] {
                let ring = if opcode == LDBR { 0 } else { 4 };
                let machine =
                    leading_to(ring, opcode, words, pointer(0, segno, 3)).with(|m| m.describe(segno, descriptor));
                let name = format!("{number} after {words} pointer words, opcode {opcode}");
                cases.faults(name, machine, (number, pointer(ring, segno, 3)), u64::from(words));
            }
        }
    }
}

/// 22 to 30 and 34 of the operand: number, opcode, TPR's ring, descriptor of TARGET; IPR's ring is 4, for LDBR 0.
fn nos_by_use() -> Vec<(u8, u8, u8, Descriptor)> {
    let rings = |r1: u8, r2: u8, r3: u8| Descriptor { r1, r2, r3, ..target() };
    let no_r = Descriptor { r: false, ..target() };
    let no_w = Descriptor { w: false, ..rings(4, 7, 7) };
    let no_e = Descriptor { e: false, ..target() };
    vec![
        (22, LDA, 4, no_r),
        (22, LDA, 5, rings(0, 4, 7)),
        (22, ADA, 4, no_r),
        (22, CNT, 7, rings(2, 6, 7)),
        (22, AOS, 4, no_r),
        (22, LDBR, 0, no_r),
        (23, STA, 4, no_w),
        (23, STA, 4, rings(3, 7, 7)),
        (23, STA, 5, rings(4, 7, 7)),
        (23, SPP, 4, no_w),
        (23, AOS, 4, no_w),
        (24, TRA, 5, target()),
        (24, TZE, 7, target()),
        (25, TRA, 4, no_e),
        (25, TZE, 4, rings(5, 7, 7)),
        (25, RETURN, 4, no_e),
        (25, RETURN, 6, rings(0, 5, 7)),
        (26, CALL, 4, no_e),
        (27, CALL, 4, Descriptor { gate: 3, ..target() }),
        (28, CALL, 5, rings(0, 4, 4)),
        (29, CALL, 4, rings(5, 5, 5)),
        (30, CALL, 5, rings(2, 5, 5)),
        (34, LDBR, 0, target()),
    ]
}

fn by_use(cases: &mut Cases) {
    for words in LEADING {
        for (number, opcode, tpr_ring, descriptor) in nos_by_use() {
            let ring = if opcode == LDBR { 0 } else { 4 };
            let machine = leading_to(ring, opcode, words, pointer(tpr_ring, TARGET, 3)).with(|m| {
                m.describe(TARGET, descriptor);
                // 34: a descriptor segment that ends after memory.
                m.memory[115] = u64::from(WORDS) | 1 << 24;
            });
            let name = format!("{number} after {words} pointer words, opcode {opcode} in ring {tpr_ring}");
            cases.faults(name, machine, (number, pointer(tpr_ring, TARGET, 3)), u64::from(words));
        }
    }
}

/// Every opcode with an operand; EAP and a transfer that isn't taken, to nowhere as well.
fn completed(cases: &mut Cases) {
    let next = pointer(0, CODE, 1);
    for words in LEADING {
        let count = u64::from(words);
        for opcode in [1, 2, 3, 4, 5, 6, 7, 8, 9, EAP, SPP, TMI, LDBR] {
            // What LDBR reads: DBR as it is.
            let to = pointer(0, TARGET, 3);
            let machine = leading_to(0, opcode, words, to).with(|m| m.memory[115] = 4 | 8 << 24);
            cases.completes(format!("opcode {opcode}, {words} pointer words"), machine, next, count);
        }
        for opcode in [TRA, TZE, CALL, RETURN] {
            let to = pointer(0, TARGET, 3);
            let name = format!("opcode {opcode} moves control, {words} pointer words");
            cases.completes(name, leading_to(0, opcode, words, to), to, count);
        }
        for opcode in [EAP, TMI] {
            let machine = leading_to(0, opcode, words, pointer(7, 4_095, 65_535));
            cases.completes(format!("opcode {opcode} to nowhere, {words} pointer words"), machine, next, count);
        }
    }
    // Without I nothing is followed, even where the operand looks like a pointer word.
    let machine = machine(4, LDA, 64).with(|m| m.put(0, Instruction { i: false, ..through(LDA) }));
    cases.completes("LDA of a pointer word".to_string(), machine, pointer(4, CODE, 1), 0);
}

/// A chain is there, the instruction has I on, and no pointer word is read.
fn none_read(cases: &mut Cases) {
    let chain = |ring, opcode| machine(ring, opcode, 3);
    cases.completes("LDI with I on".to_string(), chain(4, LDI), pointer(4, CODE, 1), 0);
    cases.run("HLT with I on".to_string(), chain(0, HLT), &[(pointer(0, CODE, 1), 0)], End::Halted);
    for opcode in [0, 11, 43, 44, 255] {
        let at = pointer(0, CODE, 0);
        cases.faults(format!("32 with I on, opcode {opcode}"), chain(0, opcode), (32, at), 0);
    }
    for opcode in [LDBR, HLT, RCU] {
        let at = pointer(4, CODE, 0);
        cases.faults(format!("33 with I on, opcode {opcode}"), chain(4, opcode), (33, at), 0);
    }
    // A fetch's fault. The instruction is where it was, or would be.
    let code = segment(16, 8);
    for (number, segno, descriptor) in unusable(code, 0).into_iter().chain([
        (21, BAD, Descriptor { e: false, ..code }),
        (21, BAD, Descriptor { r1: 5, ..code }),
        (21, BAD, Descriptor { r2: 3, ..code }),
    ]) {
        let machine = chain(4, LDA).with(|m| {
            m.describe(segno, descriptor);
            m.registers.ipr.segno = segno;
        });
        cases.faults(format!("{number} of a fetch"), machine, (number, pointer(4, segno, 0)), 0);
    }
    type Change = fn(&mut Image);
    let refused: [(u8, Change); 4] = [
        (2, |m| m.registers.pr[0].ring = 8),
        (3, |m| m.registers.pr[0].ring = 3),
        (4, |m| m.registers.dbr.length = 4_097),
        (4, |m| m.registers.dbr.address = WORDS - 7),
    ];
    for (number, change) in refused {
        cases.run(format!("refused {number}"), chain(4, LDA).with(change), &[], End::Refused(number));
    }
    cases.run("budget 0".to_string(), chain(4, LDA).with(|m| m.budget = 0), &[], End::Spent);
}

/// Through the last so many of the chain's 64 words.
fn last_of_64(opcode: u8, words: u16) -> Instruction {
    Instruction { offset: 64 - words, ..through(opcode) }
}

/// Several steps: the total is that of the completed ones.
fn runs(cases: &mut Cases) {
    // 3, 64, none, 1, and none for HLT.
    let program = machine(0, LDA, 64).with(|m| {
        m.put(0, last_of_64(LDA, 3));
        m.put(1, last_of_64(EAP, 64));
        m.put(2, Instruction { opcode: LDI, ..Instruction::default() });
        m.put(3, last_of_64(STA, 1));
        m.put(4, last_of_64(HLT, 5));
    });
    let steps = [3, 64, 0, 1, 0].iter().zip(1..).map(|(&words, word)| (pointer(0, CODE, word), words));
    let steps: Vec<(Pointer, u64)> = steps.collect();
    for budget in 0..=9 {
        let completed = steps.len().min(budget);
        let end = if budget < steps.len() { End::Spent } else { End::Halted };
        let machine = program.clone().with(|m| m.budget = budget as u32);
        cases.run(format!("a run that halts fifth, budget {budget}"), machine, &steps[..completed], end);
    }
    // The third step's first two pointer words, one of them in the code, lead to a segment with V off.
    let machine = machine(4, LDA, 64).with(|m| {
        m.memory[115] = 1;
        m.put(0, last_of_64(LDA, 2));
        m.put(1, last_of_64(TZE, 1));
        m.put(2, Instruction { opcode: LDA, offset: 5, i: true, ..Instruction::default() });
        m.memory[23] = PointerWord { pointer: pointer(0, EVEN, 70), i: true }.to_word();
        m.point(70, pointer(0, BAD, 9), true);
        m.budget = 9;
    });
    let steps = [(pointer(4, CODE, 1), 2), (pointer(4, CODE, 2), 1)];
    let fault = Fault { number: 12, at: pointer(4, BAD, 9) };
    cases.run("a run that faults third".to_string(), machine, &steps, End::Fault(fault, 2));
    through_a_gate(cases);
    round(cases);
}

/// CALL through two pointer words into ring 1; RETURN through one, by PR2 of ring 4, to where ring 4 may not execute.
fn through_a_gate(cases: &mut Cases) {
    let machine = machine(4, LDA, 64).with(|m| {
        m.describe(TARGET, Descriptor { r1: 1, r2: 1, r3: 5, ..target() });
        m.put(0, last_of_64(CALL, 2));
        m.memory[115] = last_of_64(RETURN, 1).to_word();
        m.budget = 9;
    });
    let fault = Fault { number: 25, at: pointer(4, TARGET, 3) };
    cases.run("a run through a gate".to_string(), machine, &[(pointer(1, TARGET, 3), 2)], End::Fault(fault, 1));
}

/// A transfer to itself.
fn round(cases: &mut Cases) {
    for (words, budget) in [(1, 9), (1, 10), (9, 11), (10, 100), (63, 50), (64, 1), (64, 2), (64, 2_000)] {
        let to = pointer(0, CODE, 0);
        let machine = leading_to(4, TRA, words, to).with(|m| m.budget = budget);
        let steps = vec![(pointer(4, CODE, 0), u64::from(words)); budget as usize];
        cases.run(format!("{budget} transfers through {words}"), machine, &steps, End::Spent);
    }
}

/// Runs that change the chains they go through.
fn changed_chains(cases: &mut Cases) {
    // Word 62 becomes PR5, with I off: two words are left of three.
    let writable = Descriptor { r1: 4, ..chain_segment() };
    let machine = machine(4, LDA, 64).with(|m| {
        m.describe(EVEN, writable);
        m.put(0, last_of_64(LDA, 3));
        m.put(1, Instruction { i: false, ..last_of_64(SPP, 2) });
        m.put(2, last_of_64(LDA, 3));
        m.budget = 3;
    });
    let steps = [(pointer(4, CODE, 1), 3), (pointer(4, CODE, 2), 0), (pointer(4, CODE, 3), 2)];
    cases.run("a chain made shorter".to_string(), machine.clone(), &steps, End::Spent);
    // Word 63 becomes a pointer word to word 0, with I on: from word 62 the 65th is word 62 again.
    let machine = machine.with(|m| {
        m.put(0, last_of_64(EAP, 2));
        m.put(1, Instruction { opcode: LDI, lit: 1 << 31 | u32::from(EVEN) << 16, ..Instruction::default() });
        m.put(2, Instruction { i: false, ..last_of_64(STA, 1) });
        m.put(3, last_of_64(EAP, 2));
        m.budget = 4;
    });
    let steps = [(pointer(4, CODE, 1), 2), (pointer(4, CODE, 2), 0), (pointer(4, CODE, 3), 0)];
    let fault = Fault { number: 31, at: pointer(4, EVEN, 62) };
    cases.run("a chain made endless".to_string(), machine, &steps, End::Fault(fault, 64));
}

#[cfg(test)]
mod tests {
    use super::*;
    use crate::listing::list_run;
    use crate::{run, step};

    #[test]
    fn replies_of_runs() {
        for case in cases() {
            let Image { mut registers, mut memory, budget } = case.machine.clone();
            assert_eq!(run(&mut registers, &mut memory, budget), case.reply(), "{}", case.name);
        }
    }

    #[test]
    fn replies_of_steps() {
        for case in cases() {
            let Image { mut registers, mut memory, .. } = case.machine.clone();
            for (number, reply) in case.step_replies().into_iter().enumerate() {
                assert_eq!(step(&mut registers, &mut memory), reply, "{}, step {}", case.name, number + 1);
                if let Some((ipr, _)) = case.steps.get(number) {
                    assert_eq!(registers.ipr, *ipr, "{}, step {}", case.name, number + 1);
                }
            }
        }
    }

    fn listing(case: &Case) -> String {
        let mut text = Vec::new();
        assert!(list_run(case.machine.clone(), &mut text).is_ok());
        String::from_utf8_lossy(&text).into_owned()
    }

    #[test]
    fn listings() {
        for case in cases().into_iter().filter(|case| !matches!(case.end, End::Refused(_))) {
            assert_eq!(listing(&case), case.text(), "{}", case.name);
        }
    }

    /// Some texts in full.
    #[test]
    fn texts() {
        let texts = [
            (
                "a run that halts fifth, budget 9",
                "1 0 1 1 3\n2 0 1 2 64\n3 0 1 3 0\n4 0 1 4 1\n5 0 1 5 0\nhalted 5 68\n",
            ),
            ("a run that halts fifth, budget 2", "1 0 1 1 3\n2 0 1 2 64\nspent 2 67\n"),
            ("a run that faults third", "1 4 1 1 2\n2 4 1 2 1\nfault 12 2 4 5 9 3\n"),
            ("a run through a gate", "1 1 4 3 2\nfault 25 1 4 4 3 2\n"),
            ("2 transfers through 64", "1 4 1 0 64\n2 4 1 0 64\nspent 2 128\n"),
            ("a chain made endless", "1 4 1 1 2\n2 4 1 2 0\n3 4 1 3 0\nfault 31 3 4 2 62 2\n"),
            ("22 at pointer word 3 of 3, opcode 1", "fault 22 0 4 5 2 0\n"),
            ("budget 0", "spent 0 0\n"),
        ];
        let cases = cases();
        for (name, text) in texts {
            let mut named = cases.iter().filter(|case| case.name == name).peekable();
            assert!(named.peek().is_some(), "{name}");
            for case in named {
                assert_eq!(listing(case), text, "{name}");
            }
        }
    }
}
