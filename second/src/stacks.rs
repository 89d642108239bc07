//! Directed machines for the stack base that CALL leaves in PR7: replies, registers and memory were worked out by hand.

use crate::delivery::{plain, pointer_word, Case, Cases, Course};
use crate::image::Image;
use crate::machine::{Fault, Registers};
use crate::opcodes::*;
use crate::pointers::{self, leading_to, pointer, End};
use crate::words::{Dbr, Descriptor, Instruction, Pointer};

/// DBR: words 0 to 15. Segments 0 to 7 are the rings' own stacks, eight words each from word 64 on.
const SEGMENTS: u16 = 16;
const WORDS: usize = 152;
/// Words 16 to 23, where IPR is; open to all rings.
const CODE: u16 = 8;
/// Words 24 to 31. Word 3, its last gate, is called.
const TARGET: u16 = 9;
/// Words 32 to 39 and 40 to 47: the stacks of two blends in ring 4.
const ONE: u16 = 10;
const OTHER: u16 = 11;
/// Words 48 to 60 and 128 to 135, for ring 0 alone.
const SAVE: u16 = 12;
const HANDLER: u16 = 13;
/// Words 136 to 143: code of ring 4.
const HELPER: u16 = 14;
/// Words 144 to 151: code of ring 1, to be called from up to ring 5.
const FORMULA: u16 = 15;

const A: u64 = 0x0123_4567_89ab_cdef;

/// Where PR6 is: the numbers of all rings, each bit of SEGNO, and the largest numbers. Most have no descriptor: PR7's
/// segment is asked nothing.
const SEGNOS: [u16; 20] = [0, 1, 2, 3, 4, 5, 6, 7, 8, ONE, 16, 32, 64, 128, 256, 512, 1_024, 2_048, 4_094, 4_095];

/// Eight words of code, all of them gates.
fn code(address: u32, [r1, r2, r3]: [u8; 3]) -> Descriptor {
    Descriptor { address, length: 8, r1, r2, r3, r: true, e: true, v: true, gate: 8, ..Descriptor::default() }
}

/// Eight words for a ring and those below it.
fn stack(address: u32, ring: u8) -> Descriptor {
    Descriptor { w: true, e: false, gate: 0, ..code(address, [ring; 3]) }
}

fn target(rings: [u8; 3]) -> Descriptor {
    Descriptor { r: false, gate: 4, ..code(24, rings) }
}

fn by_pr(opcode: u8, prnum: u8, offset: u16) -> Instruction {
    Instruction { p: true, prnum, offset, ..plain(opcode) }
}

/// By IPR, to the word that is so many words on.
fn by_ipr(opcode: u8, offset: u16) -> Instruction {
    Instruction { offset, ..plain(opcode) }
}

/// `ring` everywhere, no two PRs alike; at IPR a CALL by PR2, which leads to TARGET.
fn machine(ring: u8) -> Image {
    let mut machine = Image {
        registers: Registers {
            a: A,
            dbr: Dbr { address: 0, length: SEGMENTS },
            ipr: pointer(ring, CODE, 0),
            pr: [0, 1, 2, 3, 4, 5, 6, 7].map(|number: u16| pointer(ring, 0x300 + number, 0x1000 + number)),
            save_segment: SAVE,
            handler_segment: HANDLER,
            ..Registers::default()
        },
        memory: vec![0; WORDS],
        budget: 1,
    };
    machine.registers.pr[2] = pointer(ring, TARGET, 3);
    for own in 0..8 {
        machine.describe(u16::from(own), stack(64 + 8 * u32::from(own), own));
    }
    machine.describe(CODE, code(16, [0, 7, 7]));
    machine.describe(TARGET, target([0, 7, 7]));
    machine.describe(ONE, stack(32, 4));
    machine.describe(OTHER, stack(40, 4));
    machine.describe(SAVE, Descriptor { length: 13, ..stack(48, 0) });
    machine.describe(HANDLER, code(128, [0, 0, 0]));
    machine.describe(HELPER, code(136, [4, 4, 4]));
    machine.describe(FORMULA, code(144, [1, 1, 5]));
    machine.put(0, by_pr(CALL, 2, 0));
    machine
}

/// With PR6 here and these rings of TARGET.
fn calling(ring: u8, pr6: Pointer, rings: [u8; 3]) -> Image {
    machine(ring).with(|m| {
        m.registers.pr[6] = pr6;
        m.describe(TARGET, target(rings));
    })
}

/// Each pair of rings, the upper one first.
fn pairs() -> impl Iterator<Item = (u8, u8)> {
    (0..8).flat_map(|upper| (0..upper).map(move |lower| (upper, lower)))
}

impl Course {
    /// A CALL: IPR and PR7 become these, and all else stays.
    fn calls(self, ipr: Pointer, pr7: Pointer) -> Course {
        self.calls_through(0, ipr, pr7)
    }

    /// The same through so many pointer words.
    fn calls_through(self, pointer_words: u64, ipr: Pointer, pr7: Pointer) -> Course {
        self.step(pointer_words, |m| {
            m.registers.ipr = ipr;
            m.registers.pr[7] = pr7;
        })
    }

    /// STA to this word of memory.
    fn stores(self, address: usize) -> Course {
        self.completes(0, |m| m.memory[address] = m.registers.a)
    }
}

impl Cases {
    /// A single CALL without pointer words, which leaves IPR and PR7 here.
    fn call(&mut self, name: String, machine: Image, ipr: Pointer, pr7: Pointer) {
        self.add(Course::new(name, machine).calls(ipr, pr7), End::Spent);
    }
}

pub fn cases() -> Vec<Case> {
    let mut cases = Cases(Vec::new());
    within_the_ring(&mut cases);
    to_lower_rings(&mut cases);
    by_rings_above(&mut cases);
    nothing_else_of_pr6(&mut cases);
    nothing_of_pr7(&mut cases);
    through_each_pr(&mut cases);
    through_pointer_words(&mut cases);
    through_chains(&mut cases);
    own_segment(&mut cases);
    faults(&mut cases);
    no_calls(&mut cases);
    of_the_paper(&mut cases);
    two_blends(&mut cases);
    formulas(&mut cases);
    down_the_rings(&mut cases);
    outwards(&mut cases);
    handlers(&mut cases);
    cases.0
}

// ---- One call.

/// The ring as it was: PR6's segment, be it the ring's own or another.
fn within_the_ring(cases: &mut Cases) {
    for ring in 0..8 {
        for segno in SEGNOS {
            for rings in [[0, 7, 7], [ring; 3]] {
                let name = format!("within ring {ring}, PR6 in segment {segno}, rings {rings:?}");
                let machine = calling(ring, pointer(ring, segno, 9), rings);
                cases.call(name, machine, pointer(ring, TARGET, 3), pointer(ring, segno, 0));
            }
        }
    }
}

/// The segment of the new ring's number, wherever PR6 is.
fn to_lower_rings(cases: &mut Cases) {
    for (from, to) in pairs() {
        for segno in SEGNOS {
            let name = format!("from ring {from} to ring {to}, PR6 in segment {segno}");
            let machine = calling(from, pointer(from, segno, 9), [to, to, from]);
            cases.call(name, machine, pointer(to, TARGET, 3), pointer(to, u16::from(to), 0));
        }
    }
}

/// TPR's ring is above IPR's. The ring is as it was if R2 is IPR's ring: TPR's has no part in that.
fn by_rings_above(cases: &mut Cases) {
    for (above, ring) in pairs() {
        for segno in (0..8).chain([ONE, 4_095]) {
            let name = |what: &str| format!("in ring {ring} by ring {above}, PR6 in segment {segno}, {what}");
            let with =
                |rings: [u8; 3]| calling(ring, pointer(ring, segno, 9), rings).with(|m| m.registers.pr[2].ring = above);
            let mut brackets = vec![[0, ring, 7], [ring, ring, above]];
            brackets.dedup();
            for rings in brackets {
                let name = name(&format!("rings {rings:?}"));
                cases.call(name, with(rings), pointer(ring, TARGET, 3), pointer(ring, segno, 0));
            }
            if ring > 0 {
                let below = ring - 1;
                let own = pointer(below, u16::from(below), 0);
                cases.call(name("R2 just below it"), with([0, below, 7]), pointer(below, TARGET, 3), own);
            }
            let end = End::Fault(Fault { number: 30, at: pointer(above, TARGET, 3) }, 0);
            cases.add(Course::new(name("R2 just above it"), with([0, ring + 1, 7])), end);
        }
    }
}

/// Neither its ring, which may be above IPR's, nor its word.
fn nothing_else_of_pr6(cases: &mut Cases) {
    for ring in 0..8 {
        for pr6_ring in ring..8 {
            for wordno in [0, 1, 9, 65_535] {
                let pr6 = pointer(pr6_ring, ONE, wordno);
                let name = |what: &str| format!("PR6 in ring {pr6_ring}, word {wordno}, from ring {ring} {what}");
                let machine = calling(ring, pr6, [0, 7, 7]);
                cases.call(name("within it"), machine, pointer(ring, TARGET, 3), pointer(ring, ONE, 0));
                if ring > 0 {
                    let machine = calling(ring, pr6, [0, 0, 7]);
                    cases.call(name("to ring 0"), machine, pointer(0, TARGET, 3), pointer(0, 0, 0));
                }
            }
        }
    }
}

/// PR7 of before has no part in it.
fn nothing_of_pr7(cases: &mut Cases) {
    for ring in 0..8 {
        for pr7 in [
            pointer(ring, u16::from(ring), 0),
            pointer(ring, ONE, 0),
            pointer(ring, OTHER, 9),
            pointer(7, 4_095, 65_535),
            pointer(7, 0, 0),
        ] {
            let name = |what: &str| format!("PR7 was {pr7:?}, from ring {ring} {what}");
            let with = |rings: [u8; 3]| calling(ring, pointer(ring, ONE, 9), rings).with(|m| m.registers.pr[7] = pr7);
            cases.call(name("within it"), with([0, 7, 7]), pointer(ring, TARGET, 3), pointer(ring, ONE, 0));
            if ring > 0 {
                cases.call(name("to ring 0"), with([0, 0, 7]), pointer(0, TARGET, 3), pointer(0, 0, 0));
            }
        }
    }
}

/// The address comes from each PR, PR6 and the PR7 of before among them. PR6 is in OTHER, unless it is the one.
fn through_each_pr(cases: &mut Cases) {
    for prnum in 0..8 {
        let segno = if prnum == 6 { TARGET } else { OTHER };
        for ring in 0..8 {
            let by = |pr_ring: u8, rings: [u8; 3]| {
                calling(ring, pointer(ring, OTHER, 9), rings).with(|m| {
                    m.registers.pr[usize::from(prnum)] = pointer(pr_ring, TARGET, 1);
                    m.put(0, by_pr(CALL, prnum, 2));
                })
            };
            let name = |what: &str| format!("by PR{prnum}, {what} ring {ring}");
            let to = pointer(ring, TARGET, 3);
            cases.call(name("within"), by(ring, [0, 7, 7]), to, pointer(ring, segno, 0));
            if ring < 7 {
                cases.call(name("in ring 7, within"), by(7, [0, ring, 7]), to, pointer(ring, segno, 0));
            }
            if ring > 0 {
                cases.call(name("to ring 0 from"), by(ring, [0, 0, 7]), pointer(0, TARGET, 3), pointer(0, 0, 0));
            }
        }
    }
}

/// In ring 4, by PR2, PR6 or PR7 of before through a pointer word in ONE.
fn through_pointer_words(cases: &mut Cases) {
    for prnum in [2, 6, 7] {
        let segno = if prnum == 6 { ONE } else { OTHER };
        // Ring of the pointer word, R1 of ONE; TARGET's rings; IPR's ring and PR7.
        for (ring, r1, rings, new_ring, pr7) in [
            (0, 4, [0, 7, 7], 4, pointer(4, segno, 0)),
            (4, 4, [4, 4, 4], 4, pointer(4, segno, 0)),
            (6, 4, [0, 4, 6], 4, pointer(4, segno, 0)),
            (0, 5, [0, 4, 5], 4, pointer(4, segno, 0)),
            (6, 5, [4, 4, 7], 4, pointer(4, segno, 0)),
            (0, 4, [0, 3, 4], 3, pointer(3, 3, 0)),
            (6, 4, [3, 3, 6], 3, pointer(3, 3, 0)),
            (0, 5, [0, 0, 7], 0, pointer(0, 0, 0)),
        ] {
            let machine = calling(4, pointer(4, OTHER, 9), rings).with(|m| {
                m.describe(ONE, Descriptor { r1, r2: 7, r3: 7, ..stack(32, 4) });
                m.memory[34] = pointer_word(pointer(ring, TARGET, 3));
                m.registers.pr[prnum] = pointer(4, ONE, 2);
                m.put(0, Instruction { i: true, ..by_pr(CALL, prnum as u8, 0) });
            });
            let name = format!("by PR{prnum} and a pointer word of ring {ring}, R1 {r1}, rings {rings:?}");
            let course = Course::new(name, machine).calls_through(1, pointer(new_ring, TARGET, 3), pr7);
            cases.add(course, End::Spent);
        }
    }
}

/// Through the chains of `pointers`, whose target is segment 4.
fn through_chains(cases: &mut Cases) {
    let segno = pointers::TARGET;
    for words in [1, 2, 63, 64] {
        // Ring of the last pointer word, R2; IPR's ring and PR7.
        for (ring, r2, new_ring, pr7) in [
            (0, 7, 4, pointer(4, 9, 0)),
            (4, 4, 4, pointer(4, 9, 0)),
            (6, 4, 4, pointer(4, 9, 0)),
            (0, 2, 2, pointer(2, 2, 0)),
            (7, 2, 2, pointer(2, 2, 0)),
        ] {
            let machine = leading_to(4, CALL, words, pointer(ring, segno, 3)).with(|m| {
                m.describe(segno, Descriptor { r2, ..pointers::target() });
                m.registers.pr[6] = pointer(5, 9, 7);
            });
            let name = format!("through {words} pointer words, the last of ring {ring}, R2 {r2}");
            let course = Course::new(name, machine).calls_through(words.into(), pointer(new_ring, segno, 3), pr7);
            cases.add(course, End::Spent);
        }
    }
}

/// Within IPR's segment, which has no gate: the ring is always as it was.
fn own_segment(cases: &mut Cases) {
    for ring in 0..8 {
        for segno in [u16::from(ring), CODE, ONE, 4_095] {
            let with = |rings: [u8; 3], call: Instruction| {
                machine(ring).with(|m| {
                    m.describe(CODE, Descriptor { gate: 0, ..code(16, rings) });
                    m.registers.pr[2] = pointer(ring, CODE, 1);
                    m.registers.pr[3] = pointer(7, CODE, 1);
                    m.registers.pr[6] = pointer(ring, segno, 9);
                    m.put(0, call);
                })
            };
            let name = |what: &str| format!("within segment and ring {ring}, PR6 in segment {segno}, {what}");
            let (to, pr7) = (pointer(ring, CODE, 5), pointer(ring, segno, 0));
            for rings in [[0, 7, 7], [ring; 3]] {
                cases.call(name(&format!("by IPR, rings {rings:?}")), with(rings, by_ipr(CALL, 5)), to, pr7);
                cases.call(name(&format!("by PR2, rings {rings:?}")), with(rings, by_pr(CALL, 2, 4)), to, pr7);
            }
            cases.call(name("by ring 7"), with([0, ring, 7], by_pr(CALL, 3, 4)), to, pr7);
            // To itself: the second time PR7 is what it was.
            let (itself, machine) = (pointer(ring, CODE, 0), with([ring; 3], by_ipr(CALL, 0)));
            let course = Course::new(name("to itself"), machine);
            cases.add(course.calls(itself, pr7).calls(itself, pr7), End::Spent);
        }
    }
}

/// A call that faults leaves PR7 alone, and so does one whose fault is delivered, with that PR7 in its frame.
fn faults(cases: &mut Cases) {
    // Number, TPR's ring, TARGET; IPR's ring is 4. Without their no, some would stay in the ring, and some fall.
    let table = [
        (12, 4, Descriptor { v: false, ..target([0, 7, 7]) }),
        (13, 4, target([5, 4, 7])),
        (14, 4, Descriptor { length: 65_535, ..target([0, 7, 7]) }),
        (15, 4, Descriptor { length: 3, ..target([0, 7, 7]) }),
        (26, 4, Descriptor { e: false, ..target([0, 7, 7]) }),
        (26, 6, Descriptor { e: false, ..target([0, 4, 7]) }),
        (26, 4, Descriptor { e: false, ..target([1, 1, 5]) }),
        (27, 4, Descriptor { gate: 3, ..target([0, 7, 7]) }),
        (27, 5, Descriptor { gate: 0, ..target([4, 4, 5]) }),
        (27, 4, Descriptor { gate: 3, ..target([1, 1, 5]) }),
        (28, 5, target([0, 4, 4])),
        (28, 7, target([4, 4, 6])),
        (28, 6, target([1, 1, 5])),
        (28, 4, target([3, 3, 3])),
        (29, 4, target([5, 5, 5])),
        (29, 4, target([5, 7, 7])),
        (30, 5, target([0, 7, 7])),
        (30, 5, target([5, 5, 5])),
        (30, 7, target([0, 5, 7])),
        (30, 6, target([2, 6, 6])),
    ];
    for (number, ring, descriptor) in table {
        for segno in [4, ONE] {
            let machine = calling(4, pointer(5, segno, 9), [0, 7, 7]).with(|m| {
                m.describe(TARGET, descriptor);
                m.registers.pr[2].ring = ring;
            });
            let Descriptor { r1, r2, r3, .. } = descriptor;
            let at = pointer(ring, TARGET, 3);
            let name = format!("{number} by ring {ring}, rings {r1} {r2} {r3}, PR6 in segment {segno}");
            cases.add(Course::new(name.as_str(), machine.clone()), End::Fault(Fault { number, at }, 0));
            let machine = machine.with(|m| m.registers.fault_switch = 1);
            let course = Course::new(format!("{name}, delivered"), machine);
            cases.add(course.delivers_to(48, (number, at), 0), End::Spent);
        }
    }
    let at = pointer(4, SEGMENTS, 3);
    let machine = calling(4, pointer(4, ONE, 9), [0, 7, 7]).with(|m| m.registers.pr[2] = at);
    cases.add(Course::new("11", machine), End::Fault(Fault { number: 11, at }, 0));
}

/// TRA and RETURN lead to the same word and leave PR7 as it is, but that RETURN may raise its ring. EAP sets what it
/// names.
fn no_calls(cases: &mut Cases) {
    let performing = |instruction: Instruction| {
        calling(4, pointer(4, ONE, 9), [0, 7, 7]).with(|m| {
            m.put(0, instruction);
            m.put(1, by_pr(CALL, 2, 0));
            m.registers.pr[3] = pointer(5, OTHER, 7);
        })
    };
    let to = pointer(4, TARGET, 3);
    for opcode in [TRA, RETURN] {
        let course = Course::new(format!("no CALL, opcode {opcode}"), performing(by_pr(opcode, 2, 0)));
        cases.add(course.step(0, |m| m.registers.ipr = to), End::Spent);
    }
    let machine = performing(by_pr(RETURN, 2, 0)).with(|m| m.registers.pr[2].ring = 6);
    let course = Course::new("no CALL, RETURN to ring 6", machine).step(0, |m| {
        m.registers.ipr = pointer(6, TARGET, 3);
        m.registers.pr.iter_mut().for_each(|pr| pr.ring = 6);
    });
    cases.add(course, End::Spent);
    // PR6 as it is when CALL comes.
    for (reg, pr7) in [(5, pointer(4, ONE, 0)), (6, pointer(4, OTHER, 0)), (7, pointer(4, ONE, 0))] {
        let machine = performing(Instruction { reg, ..by_pr(EAP, 3, 1) });
        let course = Course::new(format!("EAP to PR{reg}, then CALL"), machine)
            .completes(0, |m| m.registers.pr[usize::from(reg)] = pointer(5, OTHER, 8))
            .calls(to, pr7);
        cases.add_all(course, End::Spent);
    }
}

/// 01's cases 3 and 12, in which the ring falls.
fn of_the_paper(cases: &mut Cases) {
    for pr6 in [pointer(5, 0, 0), pointer(5, 5, 0), pointer(5, 4, 9), pointer(7, ONE, 9)] {
        let machine = calling(5, pr6, [4, 4, 6]).with(|m| {
            m.describe(TARGET, Descriptor { gate: 2, ..target([4, 4, 6]) });
            m.registers.pr[2].wordno = 1;
        });
        cases.call(format!("case 3, PR6 is {pr6:?}"), machine, pointer(4, TARGET, 1), pointer(4, 4, 0));
    }
    let mut machine = Image {
        registers: Registers {
            dbr: Dbr { address: 0, length: 6 },
            ipr: pointer(4, 4, 0),
            pr: [pointer(4, 0, 0); 8],
            ..Registers::default()
        },
        memory: vec![0; 64],
        budget: 9,
    };
    machine.registers.pr[2] = pointer(4, 5, 0);
    machine.registers.pr[3] = pointer(4, 3, 0);
    machine.describe(3, Descriptor { length: 4, ..stack(32, 1) });
    machine.describe(4, Descriptor { gate: 0, ..code(16, [4, 4, 4]) });
    machine.describe(5, Descriptor { gate: 1, ..code(24, [1, 1, 5]) });
    machine.memory[16] = Instruction { lit: 7, ..plain(LDI) }.to_word();
    machine.memory[17] = by_pr(CALL, 2, 0).to_word();
    machine.memory[24] = by_pr(STA, 3, 0).to_word();
    let course =
        Course::new("case 12", machine).completes(0, |m| m.registers.a = 7).calls(pointer(1, 5, 0), pointer(1, 1, 0));
    cases.add_all(course, End::Fault(Fault { number: 23, at: pointer(4, 3, 0) }, 0));
}

// ---- Calls one after another.

/// What the request is about: each blend keeps its own stack when it calls within ring 4.
fn two_blends(cases: &mut Cases) {
    let ring_4 = || {
        machine(4).with(|m| {
            m.registers.pr[0] = pointer(4, HELPER, 0);
            m.registers.pr[1] = pointer(4, CODE, 4);
            m.registers.pr[2] = pointer(4, FORMULA, 0);
            m.registers.pr[3] = pointer(4, OTHER, 5);
            m.registers.pr[4] = pointer(4, CODE, 1);
            m.registers.pr[6] = pointer(4, ONE, 5);
            m.put(0, by_pr(CALL, 0, 0));
            m.put(1, by_pr(CALL, 0, 0));
            m.put(4, by_pr(STA, 7, 2));
            m.put(5, by_pr(CALL, 2, 0));
            m.memory[136] = by_pr(STA, 7, 1).to_word();
            m.memory[137] = Instruction { reg: 6, ..by_pr(EAP, 3, 0) }.to_word();
            m.memory[138] = by_pr(CALL, 1, 0).to_word();
            m.memory[144] = by_pr(STA, 7, 3).to_word();
            m.memory[145] = by_pr(RETURN, 4, 0).to_word();
        })
    };
    // The same helper for both, by registers of their own.
    for (name, segno, address) in [("one", ONE, 33), ("the other", OTHER, 41), ("the ring's own", 4, 97)] {
        let machine = ring_4().with(|m| m.registers.pr[6].segno = segno);
        let course = Course::new(format!("a helper with the stack of {name}"), machine)
            .calls(pointer(4, HELPER, 0), pointer(4, segno, 0))
            .stores(address);
        cases.add_all(course, End::Spent);
    }
    // One calls the other's helper, which changes to its own stack, calls the first one's, and that calls a gate below.
    let course = Course::new("two blends and a formula", ring_4())
        .calls(pointer(4, HELPER, 0), pointer(4, ONE, 0))
        .stores(33)
        .completes(0, |m| m.registers.pr[6] = pointer(4, OTHER, 5))
        .calls(pointer(4, CODE, 4), pointer(4, OTHER, 0))
        .stores(42)
        .calls(pointer(1, FORMULA, 0), pointer(1, 1, 0))
        .stores(75)
        .step(0, |m| {
            m.registers.ipr = pointer(4, CODE, 1);
            m.registers.pr[7] = pointer(4, 1, 0);
        })
        .calls(pointer(4, HELPER, 0), pointer(4, OTHER, 0))
        .stores(41);
    cases.add_all(course, End::Spent);
}

/// A formula of ring 1 that calls within its ring. Before it has set PR6, that is still the laboratory's, which then
/// reads what the formula has stored.
fn formulas(cases: &mut Cases) {
    let called = |first: Instruction| {
        machine(4).with(|m| {
            m.registers.pr[2] = pointer(4, FORMULA, 0);
            m.registers.pr[4] = pointer(4, CODE, 1);
            m.registers.pr[6] = pointer(4, ONE, 1);
            m.put(1, by_pr(LDA, 6, 0));
            m.memory[144] = first.to_word();
            m.memory[145] = by_ipr(CALL, 2).to_word();
            m.memory[147] = by_pr(STA, 7, 1).to_word();
            m.memory[148] = plain(LDI).to_word();
            m.memory[149] = by_pr(RETURN, 4, 0).to_word();
        })
    };
    let entered = |name: &str, first: Instruction| {
        Course::new(name, called(first)).calls(pointer(1, FORMULA, 0), pointer(1, 1, 0))
    };
    let course = entered("a formula with the laboratory's stack", Instruction { lit: 77, ..plain(LDI) })
        .completes(0, |m| m.registers.a = 77)
        .calls(pointer(1, FORMULA, 3), pointer(1, ONE, 0))
        .stores(33)
        .completes(0, |m| m.registers.a = 0)
        .step(0, |m| {
            m.registers.ipr = pointer(4, CODE, 1);
            m.registers.pr[7] = pointer(4, ONE, 0);
        })
        .completes(0, |m| m.registers.a = 77);
    cases.add_all(course, End::Fault(Fault { number: 32, at: pointer(4, CODE, 2) }, 0));
    // It takes its own stack first, by the PR7 that it was given.
    let course = entered("a formula with its own stack", Instruction { reg: 6, ..by_pr(EAP, 7, 4) })
        .completes(0, |m| m.registers.pr[6] = pointer(1, 1, 4))
        .calls(pointer(1, FORMULA, 3), pointer(1, 1, 0))
        .stores(73)
        .completes(0, |m| m.registers.a = 0)
        .step(0, |m| {
            m.registers.ipr = pointer(4, CODE, 1);
            m.registers.pr[6] = pointer(4, 1, 4);
            m.registers.pr[7] = pointer(4, 1, 0);
        });
    cases.add_all(course, End::Fault(Fault { number: 22, at: pointer(4, 1, 4) }, 0));
}

/// From ring 7 down to ring 0, then round in ring 0. The code of all rings is the same words by segments 8 to 15.
fn down_the_rings(cases: &mut Cases) {
    let machine = machine(7).with(|m| {
        for ring in 0..8 {
            let rings = [ring, ring, if ring < 7 { ring + 1 } else { 7 }];
            m.describe(CODE + u16::from(ring), Descriptor { length: 16, ..code(24, rings) });
        }
        // Ring 7's word is word 0, ring 6's word 1; each has its pointer word eight words on.
        for word in 0..7 {
            m.memory[24 + word] = Instruction { i: true, ..by_ipr(CALL, 8) }.to_word();
            m.memory[32 + word] = pointer_word(pointer(0, 14 - word as u16, word as u16 + 1));
        }
        m.memory[31] = by_ipr(CALL, 0).to_word();
        m.registers.ipr = pointer(7, 15, 0);
        m.registers.pr[6] = pointer(7, 4_000, 9);
    });
    let course = Course::new("down the rings", machine)
        .calls_through(1, pointer(6, 14, 1), pointer(6, 6, 0))
        .calls_through(1, pointer(5, 13, 2), pointer(5, 5, 0))
        .calls_through(1, pointer(4, 12, 3), pointer(4, 4, 0))
        .calls_through(1, pointer(3, 11, 4), pointer(3, 3, 0))
        .calls_through(1, pointer(2, 10, 5), pointer(2, 2, 0))
        .calls_through(1, pointer(1, 9, 6), pointer(1, 1, 0))
        .calls_through(1, pointer(0, 8, 7), pointer(0, 0, 0))
        .calls(pointer(0, 8, 7), pointer(0, 4_000, 0))
        .calls(pointer(0, 8, 7), pointer(0, 4_000, 0));
    cases.add_all(course, End::Spent);
}

/// RETURN to ring 5, then CALL there: the ring as it was is the one returned to.
fn outwards(cases: &mut Cases) {
    let machine = calling(1, pointer(1, ONE, 9), [0, 7, 7]).with(|m| {
        m.registers.pr[4] = pointer(5, CODE, 3);
        m.put(0, by_pr(RETURN, 4, 0));
        m.put(3, by_pr(CALL, 2, 0));
    });
    let course = Course::new("outwards, then within ring 5", machine)
        .step(0, |m| {
            m.registers.ipr = pointer(5, CODE, 3);
            m.registers.pr.iter_mut().for_each(|pr| pr.ring = 5);
        })
        .calls(pointer(5, TARGET, 3), pointer(5, ONE, 0));
    cases.add_all(course, End::Spent);
}

/// A handler that calls within ring 0 has PR6 of the program that faulted, and opcode 42 gives that one's PR7 back.
fn handlers(cases: &mut Cases) {
    let machine = machine(4).with(|m| {
        m.registers.fault_switch = 1;
        m.registers.pr[6] = pointer(4, ONE, 5);
        m.put(0, plain(0));
        m.memory[128] = by_ipr(CALL, 2).to_word();
        m.memory[130] = by_pr(STA, 7, 1).to_word();
        m.memory[131] = Instruction { i: true, ..by_ipr(RCU, 1) }.to_word();
        m.memory[132] = pointer_word(pointer(0, SAVE, 0));
    });
    let before = machine.registers;
    let no_opcode = (32, pointer(4, CODE, 0));
    let course = Course::new("a handler that calls", machine)
        .delivers_to(48, no_opcode, 0)
        .calls(pointer(0, HANDLER, 2), pointer(0, ONE, 0))
        .stores(33)
        .step(1, |m| m.registers = before)
        .delivers_to(48, no_opcode, 0);
    cases.add_all(course, End::Spent);
}

#[cfg(test)]
mod tests {
    use super::*;
    use crate::machine::{fetch, form_address};
    use crate::run;

    #[test]
    fn runs() {
        cases().iter().for_each(Case::check_run);
    }

    #[test]
    fn steps() {
        cases().iter().for_each(Case::check_steps);
    }

    #[test]
    fn listings() {
        for case in cases() {
            assert_eq!(case.listing(), case.run.text(), "{}", case.run.name);
        }
    }

    /// Two cases of one name would be a slip.
    #[test]
    fn names() {
        let mut names: Vec<String> = cases().into_iter().map(|case| case.run.name).collect();
        names.sort();
        let count = names.len();
        names.dedup();
        assert_eq!(names.len(), count);
    }

    /// The ring as it was or lower, TPR's ring IPR's or above it, PR6 in the new ring's segment or elsewhere.
    #[test]
    fn every_kind() {
        let mut seen = [false; 8];
        for Case { run: case, .. } in cases().into_iter().filter(|case| case.run.machine.registers.fault_switch == 0) {
            let Image { registers: before, memory, .. } = &case.machine;
            let (Some((to, _)), Ok(call)) = (case.steps.first(), fetch(before, memory)) else { continue };
            if let (CALL, Ok(tpr)) = (call.opcode, form_address(before, memory, &call).tpr) {
                let is_elsewhere = before.pr[6].segno != u16::from(to.ring);
                let kind = [to.ring < before.ipr.ring, tpr.ring > before.ipr.ring, is_elsewhere].map(usize::from);
                seen[kind[0] << 2 | kind[1] << 1 | kind[2]] = true;
            }
        }
        assert_eq!(seen, [true; 8]);
    }

    /// Some stack bases in full.
    #[test]
    fn stack_bases() {
        let cases = cases();
        for (name, ring, segno) in [
            ("within ring 4, PR6 in segment 10, rings [4, 4, 4]", 4, 10),
            ("within ring 4, PR6 in segment 4, rings [4, 4, 4]", 4, 4),
            ("within ring 0, PR6 in segment 4095, rings [0, 7, 7]", 0, 4_095),
            ("within ring 7, PR6 in segment 0, rings [0, 7, 7]", 7, 0),
            ("from ring 4 to ring 1, PR6 in segment 10", 1, 1),
            ("from ring 4 to ring 1, PR6 in segment 4", 1, 1),
            ("in ring 4 by ring 6, PR6 in segment 10, rings [4, 4, 6]", 4, 10),
            ("in ring 4 by ring 6, PR6 in segment 10, R2 just below it", 3, 3),
            ("by PR6, within ring 4", 4, 9),
            ("by PR7, within ring 4", 4, 11),
            ("case 12", 1, 1),
            ("down the rings", 0, 4_000),
        ] {
            let Some(case) = cases.iter().find(|case| case.run.name == name) else { panic!("{name}") };
            let Image { mut registers, mut memory, budget } = case.run.machine.clone();
            run(&mut registers, &mut memory, budget);
            assert_eq!(registers.pr[7], pointer(ring, segno, 0), "{name}");
        }
    }
}
