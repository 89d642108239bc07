//! Directed cases: every question at its boundaries, with the reply that the papers ask for; then, for each use of a
//! segment, every bracket, ring and flag with the other questions mixed in.

use crate::compare::{Comparer, Difference, Machine, Outcome};
use crate::describe;
use crate::random::Random;
use second::door_cases::{self, Step};
use second::doors::Change;
use second::image::ME_LIMIT;
use second::opcodes::*;
use second::{
    calls, delivery, pointers, stacks, Dbr, Descriptor, Fault, Image, Instruction, Pointer, PointerWord, Registers,
    Reply,
};

/// The instruction's segment: words 16 to 23, all rings.
const CODE: u16 = 1;
/// The segment in question: words 32 to 39.
const TARGET: u16 = 2;
/// In the grid, the save segment: words 24 to 36.
const SAVE: u16 = 3;

pub fn pointer(ring: u8, segno: u16, wordno: u16) -> Pointer {
    Pointer { ring, segno, wordno }
}

fn segment(address: u32, length: u16, rings: [u8; 3]) -> Descriptor {
    let [r1, r2, r3] = rings;
    Descriptor { address, length, r1, r2, r3, r: true, w: true, e: true, v: true, gate: 2047 }
}

fn by_pr2(opcode: u8) -> Instruction {
    Instruction { opcode, p: true, prnum: 2, ..Instruction::default() }
}

fn indirect(opcode: u8) -> Instruction {
    Instruction { i: true, ..by_pr2(opcode) }
}

// Replies of runs whose completed steps read no pointer word.

fn spent(count: u32) -> Reply {
    Reply::Spent { count, pointer_words: 0 }
}

fn halted(count: u32) -> Reply {
    Reply::Halted { count, pointer_words: 0 }
}

fn refused(number: u8) -> Reply {
    Reply::Refused { number }
}

fn fault(number: u8, count: u32, at: Pointer) -> Reply {
    Reply::Fault { fault: Fault { number, at }, count, pointer_words: 0 }
}

/// 64 words; DBR 0 and 8; `ring` everywhere; CODE at IPR, TARGET in PR2, word 0; budget 1.
fn base(ring: u8) -> Machine {
    let mut machine = Machine { memory: vec![0; 64], budget: 1, ..Machine::default() };
    machine.registers = Registers {
        dbr: Dbr { address: 0, length: 8 },
        ipr: pointer(ring, CODE, 0),
        pr: [pointer(ring, 0, 0); 8],
        ..Registers::default()
    };
    machine.registers.pr[2] = pointer(ring, TARGET, 0);
    machine.describe(CODE, segment(16, 8, [0, 7, 7]));
    machine.describe(TARGET, segment(32, 8, [0, 7, 7]));
    machine
}

impl Machine {
    fn describe(&mut self, segno: u16, descriptor: Descriptor) {
        self.memory[self.registers.dbr.address as usize + usize::from(segno)] = descriptor.to_word();
    }

    fn put(&mut self, address: usize, instruction: Instruction) {
        self.memory[address] = instruction.to_word();
    }

    fn point(&mut self, address: usize, to: Pointer, i: bool) {
        self.memory[address] = PointerWord { pointer: to, i }.to_word();
    }

    fn with(mut self, change: impl FnOnce(&mut Machine)) -> Machine {
        change(&mut self);
        self
    }
}

/// The name of a case, its machine, and what differs.
pub type Failure = (String, Machine, Difference);

/// A case's name and machine; its run's reply and its last step's pointer words by the papers.
type Case = (String, Machine, Reply, u64);

struct Cases(Vec<Case>);

impl Cases {
    /// Where no step reads a pointer word.
    fn add(&mut self, name: impl Into<String>, machine: Machine, reply: Reply) {
        self.add_reading(name, machine, reply, 0);
    }

    /// Where the last step, which may fault, reads so many; steps before it are in the reply.
    fn add_reading(&mut self, name: impl Into<String>, machine: Machine, reply: Reply, last: u64) {
        self.0.push((name.into(), machine, reply, last));
    }
}

/// 1, with 128 MB of memory; and 14 and 34 at the end of the largest memory.
fn largest_memories(cases: &mut Cases) {
    let most = 16_777_216;
    let large = |words: usize| base(3).with(|machine| machine.memory.resize(words, 0));
    cases.add("1 just yes; opcode 0", large(most), fault(32, 0, pointer(3, CODE, 0)));
    cases.add("1 just no", large(most + 1), refused(1));
    cases.add(
        "1 and 2, 3, 4 no",
        large(most + 1).with(|m| {
            m.registers.pr[0].ring = 8;
            m.registers.pr[1].ring = 0;
            m.registers.dbr.length = 4097;
        }),
        refused(1),
    );
    cases.add(
        "14 just yes at the end of all",
        large(most).with(|m| {
            m.describe(TARGET, segment(16_777_215, 1, [7, 7, 7]));
            m.put(16, by_pr2(STA));
            m.registers.a = 77;
        }),
        spent(1),
    );
    cases.add(
        "14 just no at the end of all",
        large(most).with(|m| {
            m.describe(TARGET, segment(16_777_215, 2, [7, 7, 7]));
            m.put(16, by_pr2(STA));
        }),
        fault(14, 0, pointer(3, TARGET, 0)),
    );
}

fn refusals(cases: &mut Cases) {
    // 2
    for place in 0..9 {
        fn at(registers: &mut Registers, place: usize) -> &mut Pointer {
            match place {
                0 => &mut registers.ipr,
                pr => &mut registers.pr[pr - 1],
            }
        }
        let changed = |change: &dyn Fn(&mut Pointer)| {
            let mut machine = base(7);
            change(at(&mut machine.registers, place));
            machine
        };
        for ring in [8, 9, 127, 128, 255] {
            cases.add(format!("2 no: ring {ring} of {place}"), changed(&|p| p.ring = ring), refused(2));
        }
        for segno in [4096, 4097, 32_768, 65_535] {
            cases.add(format!("2 no: SEGNO {segno} of {place}"), changed(&|p| p.segno = segno), refused(2));
        }
        if place == 0 {
            let machine = changed(&|p| p.segno = 4095);
            cases.add("2 just yes: IPR's SEGNO", machine, fault(11, 0, pointer(7, 4095, 0)));
            let machine = changed(&|p| p.wordno = 65_535);
            cases.add("2 just yes: IPR's WORDNO", machine, fault(15, 0, pointer(7, CODE, 65_535)));
        } else {
            let machine = changed(&|p| *p = pointer(7, 4095, 65_535));
            cases.add(format!("2 just yes: {place}"), machine, fault(32, 0, pointer(7, CODE, 0)));
        }
    }
    // 2 and 4, DBR's ADDRESS.
    for (address, length, number) in [
        (16_777_215, 0, 4),
        (16_777_216, 0, 2),
        (u32::MAX, 0, 2),
        (u32::MAX, 65_535, 2),
        (16_777_215, 65_535, 4),
        (65, 0, 4),
        (64, 1, 4),
        (0, 65, 4),
        (57, 8, 4),
        (0, 4097, 4),
        (0, 65_535, 4),
    ] {
        let machine = base(3).with(|m| m.registers.dbr = Dbr { address, length });
        cases.add(format!("{number} no: DBR {address} {length}"), machine, refused(number));
    }
    for (address, length) in [(64, 0), (0, 0), (17, 0)] {
        let machine = base(3).with(|m| m.registers.dbr = Dbr { address, length });
        cases.add(format!("4 just yes: DBR {address} {length}"), machine, fault(11, 0, pointer(3, CODE, 0)));
    }
    let machine = base(3).with(|m| m.registers.dbr = Dbr { address: 0, length: 64 });
    cases.add("4 just yes: DBR 0 64", machine, fault(32, 0, pointer(3, CODE, 0)));
    for (words, length, reply) in [
        (4200, 4096, fault(32, 0, pointer(3, CODE, 0))),
        (4096, 4096, fault(32, 0, pointer(3, CODE, 0))),
        (4095, 4096, refused(4)),
        (4200, 4097, refused(4)),
        (8192, 4097, refused(4)),
    ] {
        let machine = base(3).with(|m| {
            m.memory.resize(words, 0);
            m.registers.dbr.length = length;
        });
        cases.add(format!("4: DBR 0 {length} in {words}"), machine, reply);
    }
    let machine = base(3).with(|m| {
        m.memory.clear();
        m.registers.dbr.length = 0;
    });
    cases.add("no memory: 11", machine.clone(), fault(11, 0, pointer(3, CODE, 0)));
    cases.add("no memory: 4", machine.with(|m| m.registers.dbr.length = 1), refused(4));
    // 3
    for pr in 0..8 {
        let machine = base(4).with(|m| m.registers.pr[pr].ring = 3);
        cases.add(format!("3 just no: PR{pr}"), machine.clone(), refused(3));
        let machine = machine.with(|m| m.registers.dbr.length = 65);
        cases.add(format!("3 and 4 no: PR{pr}"), machine.clone(), refused(3));
        let machine = machine.with(|m| m.registers.pr[(pr + 3) % 8].segno = 4096);
        cases.add(format!("2, 3 and 4 no: PR{pr}"), machine, refused(2));
        let machine = base(4).with(|m| {
            m.registers.pr[pr].ring = 0;
            m.registers.ipr.ring = 8;
        });
        cases.add(format!("2 and 3 no: PR{pr}"), machine, refused(2));
    }
    cases.add("2 and 4 no", base(4).with(|m| m.registers.dbr = Dbr { address: 1 << 24, length: 4097 }), refused(2));
    // Budget 0.
    cases.add("budget 0", base(4).with(|m| m.budget = 0), spent(0));
    cases.add(
        "budget 0, refused",
        base(4).with(|m| {
            m.budget = 0;
            m.registers.pr[3].ring = 1;
        }),
        refused(3),
    );
}

fn fetches(cases: &mut Cases) {
    // 32 and 33, every opcode.
    let table = [1, 2, 3, 4, 5, 6, 7, 8, 9, 10, 16, 17, 24, 25, 26, 32, 33, 40, 41, 42];
    for opcode in 0..=255 {
        for ring in [0, 1, 7] {
            let machine = base(ring).with(|m| m.put(16, by_pr2(opcode)));
            let reply = if !table.contains(&opcode) {
                fault(32, 0, pointer(ring, CODE, 0))
            } else if opcode >= 40 && ring > 0 {
                fault(33, 0, pointer(ring, CODE, 0))
            } else if opcode == HLT {
                halted(1)
            } else if opcode == RCU {
                // Eight words hold no frame.
                fault(15, 0, pointer(ring, TARGET, 0))
            } else if (opcode == STA || opcode == SPP || opcode == AOS) && ring > 0 {
                fault(23, 0, pointer(ring, TARGET, 0))
            } else {
                spent(1)
            };
            cases.add(format!("opcode {opcode} in ring {ring}"), machine, reply);
        }
    }
    // 33 comes before the address is formed; HLT and LDI form none.
    for opcode in [LDBR, HLT, RCU] {
        let machine = base(1).with(|m| {
            m.put(16, Instruction { offset: 9, ..indirect(opcode) });
            m.registers.pr[2].segno = 9;
        });
        cases.add(format!("33 before 11: {opcode}"), machine, fault(33, 0, pointer(1, CODE, 0)));
    }
    for (opcode, reply) in [(HLT, halted(1)), (LDI, spent(1))] {
        let machine = base(0).with(|m| {
            m.put(16, Instruction { offset: 9, lit: u32::MAX, ..indirect(opcode) });
            m.registers.pr[2].segno = 9;
        });
        cases.add(format!("no address formed: {opcode}"), machine, reply);
    }
    // HLT and the budget.
    for budget in [1, 2, 3, 4, u32::MAX] {
        let machine = base(0).with(|m| {
            m.put(16, Instruction { opcode: LDI, ..Instruction::default() });
            m.put(17, Instruction { opcode: LDI, ..Instruction::default() });
            m.put(18, Instruction { opcode: HLT, ..Instruction::default() });
            m.budget = budget;
        });
        cases.add(format!("HLT third, budget {budget}"), machine, if budget < 3 { spent(budget) } else { halted(3) });
    }
}

fn chains(cases: &mut Cases) {
    for opcode in [LDA, STA, CNT, AOS, EAP, SPP, TRA, TZE, CALL, RETURN, LDBR, RCU] {
        for chain in [0_u16, 1, 2, 63, 64, 65, 66] {
            let machine = base(0).with(|m| {
                m.memory.resize(256, 0);
                m.describe(TARGET, segment(32, 128, [0, 7, 7]));
                m.put(16, Instruction { i: chain > 0, ..by_pr2(opcode) });
                for word in 0..chain {
                    m.point(32 + usize::from(word), pointer(0, TARGET, word + 1), word + 1 < chain);
                }
            });
            let read = u64::from(chain.min(64));
            let reply = match chain {
                0..=64 => Reply::Spent { count: 1, pointer_words: read },
                _ => fault(31, 0, pointer(0, TARGET, 64)),
            };
            cases.add_reading(format!("opcode {opcode}, {chain} pointer words"), machine.clone(), reply, read);
            // 31 before 11: the pointer word in question is in no segment.
            if chain > 0 {
                let machine = machine.with(|m| m.point(31 + usize::from(chain), pointer(0, 4095, 7), true));
                let number = if chain < 64 { 11 } else { 31 };
                let at = if chain <= 64 { pointer(0, 4095, 7) } else { pointer(0, TARGET, 64) };
                cases.add_reading(
                    format!("opcode {opcode}, after {chain} a pointer to nowhere"),
                    machine,
                    fault(number, 0, at),
                    read,
                );
            }
        }
        let machine = base(2).with(|m| {
            m.put(16, indirect(opcode));
            m.point(32, pointer(5, TARGET, 0), true);
        });
        let (number, at, read) = match opcode {
            LDBR | RCU => (33, pointer(2, CODE, 0), 0),
            _ => (31, pointer(5, TARGET, 0), 64),
        };
        cases.add_reading(format!("opcode {opcode}, a pointer to itself"), machine, fault(number, 0, at), read);
    }
    // The effective ring: the largest of TPR's, the pointer's and R1, W on or off.
    for rings in 0..4096_u32 {
        let [ring, pr_ring, pointer_ring, r1] = [9, 6, 3, 0].map(|low| (rings >> low & 7) as u8);
        if pr_ring < ring {
            continue;
        }
        // A segment that isn't readable shows the ring in its fault.
        let machine = base(ring).with(|m| {
            m.registers.pr[2].ring = pr_ring;
            m.describe(TARGET, Descriptor { w: rings % 5 < 2, ..segment(32, 8, [r1, 7, 7]) });
            m.describe(3, Descriptor { r: false, ..segment(40, 8, [7, 7, 7]) });
            m.put(16, Instruction { reg: 5, ..indirect(EAP) });
            m.put(17, indirect(LDA));
            m.point(32, pointer(pointer_ring, 3, 1), false);
            m.budget = 2;
        });
        let effective = pr_ring.max(pointer_ring).max(r1);
        let name = format!("effective ring of {ring} {pr_ring} {pointer_ring} {r1}");
        // EAP has read one, and so has the LDA that faults.
        let fault = Fault { number: 22, at: pointer(effective, 3, 1) };
        cases.add_reading(name, machine, Reply::Fault { fault, count: 1, pointer_words: 1 }, 1);
    }
}

fn wraps(cases: &mut Cases) {
    for (word, offset, sum) in
        [(65_535, 1, 0), (65_535, 65_535, 65_534), (1, 65_535, 0), (65_530, 13, 7), (0, 65_535, 65_535), (7, 1, 8)]
    {
        let machine = base(4).with(|m| {
            m.registers.pr[2].wordno = word;
            m.describe(TARGET, segment(32, 8, [4, 7, 7]));
            m.put(16, Instruction { offset, ..by_pr2(STA) });
        });
        let reply = if sum < 8 { spent(1) } else { fault(15, 0, pointer(4, TARGET, sum)) };
        cases.add(format!("by PR: {word} + {offset}"), machine.clone(), reply);
        let machine = machine.with(|m| m.put(16, Instruction { offset, reg: 3, ..by_pr2(EAP) }));
        cases.add(format!("EAP by PR: {word} + {offset}"), machine, spent(1));
    }
    for (word, offset, sum) in [(5, 65_535, 4), (5, 65_531, 0), (5, 65_530, 65_535), (5, 2, 7), (5, 3, 8)] {
        let machine = base(4).with(|m| {
            m.registers.ipr.wordno = word;
            m.put(16 + usize::from(word), Instruction { opcode: LDA, offset, ..Instruction::default() });
        });
        let reply = if sum < 8 { spent(1) } else { fault(15, 0, pointer(4, CODE, sum)) };
        cases.add(format!("by IPR: {word} + {offset}"), machine, reply);
    }
    // The longest segment, and IPR at its end: 65,535 is reached and is no word. No step completes there, so IPR's own
    // advance never goes round.
    for (opcode, reply) in [
        (LDI, fault(15, 1, pointer(4, CODE, 65_535))),
        (LDA, fault(15, 0, pointer(4, CODE, 65_535))),
        (TRA, fault(15, 0, pointer(4, CODE, 65_535))),
        (EAP, fault(15, 1, pointer(4, CODE, 65_535))),
    ] {
        let machine = base(4).with(|m| {
            m.memory.resize(65_600, 0);
            m.describe(CODE, segment(65, 65_535, [0, 7, 7]));
            m.registers.ipr.wordno = 65_534;
            m.put(65_599, Instruction { opcode, offset: 1, ..Instruction::default() });
            m.budget = 3;
        });
        cases.add(format!("the longest segment: {opcode}"), machine.clone(), reply);
        let machine = machine.with(|m| {
            m.put(65_599, Instruction { opcode: TRA, offset: 2, ..Instruction::default() });
            m.put(65, Instruction { opcode: TRA, offset: 65_534, ..Instruction::default() });
        });
        cases.add("transfers round the longest segment", machine, spent(3));
    }
}

fn overlaps(cases: &mut Cases) {
    // TARGET overlaps CODE from its word 1 on: the next instruction is stored, then performed.
    let machine = base(0).with(|m| {
        m.describe(TARGET, segment(17, 8, [0, 0, 0]));
        m.put(16, by_pr2(STA));
        m.registers.a = Instruction { opcode: HLT, ..Instruction::default() }.to_word();
        m.budget = 9;
    });
    cases.add("an instruction stored through another segment", machine, halted(2));
    let machine = base(3).with(|m| {
        m.describe(TARGET, segment(16, 8, [3, 3, 3]));
        m.put(16, by_pr2(AOS));
        m.put(17, Instruction { opcode: TRA, offset: 65_535, ..Instruction::default() });
        m.budget = 40;
    });
    // AOS counts its own OFFSET up; then TRA's, from 65,535 on into PRNUM: TRA goes to itself from then on.
    cases.add("AOS of itself", machine, spent(40));
    // TARGET is the descriptor segment.
    let over = |word: u16, a: u64| {
        base(3).with(|m| {
            m.describe(TARGET, segment(0, 8, [3, 3, 3]));
            m.registers.pr[2].wordno = word;
            m.registers.a = a;
            m.put(16, by_pr2(STA));
            m.put(17, by_pr2(LDA));
            m.budget = 9;
        })
    };
    let code = segment(16, 8, [0, 7, 7]);
    for (name, word, a, reply) in [
        ("its code's V", CODE, Descriptor { v: false, ..code }.to_word(), fault(12, 1, pointer(3, CODE, 1))),
        ("its code's E", CODE, Descriptor { e: false, ..code }.to_word(), fault(21, 1, pointer(3, CODE, 1))),
        ("its code's rings", CODE, Descriptor { r1: 4, ..code }.to_word(), fault(21, 1, pointer(3, CODE, 1))),
        ("its code's LENGTH", CODE, Descriptor { length: 1, ..code }.to_word(), fault(15, 1, pointer(3, CODE, 1))),
        ("its code's ADDRESS", CODE, Descriptor { address: 57, ..code }.to_word(), fault(14, 1, pointer(3, CODE, 1))),
        // STA is now word 1 and performed again; LDA is word 2.
        ("its code's place", CODE, Descriptor { address: 15, ..code }.to_word(), fault(32, 3, pointer(3, CODE, 3))),
        (
            "its own R",
            TARGET,
            Descriptor { r: false, ..segment(0, 8, [3, 3, 3]) }.to_word(),
            fault(22, 1, pointer(3, TARGET, 2)),
        ),
        ("itself", TARGET, 0, fault(12, 1, pointer(3, TARGET, 2))),
    ] {
        cases.add(format!("a store over {name}"), over(word, a), reply);
    }
    // LDBR into the middle of the descriptor segment, over the code, and to the end.
    for (name, word, reply) in [
        ("one up: CODE is TARGET's descriptor", 1 | 7 << 24, fault(32, 1, pointer(0, CODE, 1))),
        ("its own address", 8 << 24, halted(2)),
        ("too short for CODE", 1 << 24, fault(11, 1, pointer(0, CODE, 1))),
        ("just long enough", 2 << 24, halted(2)),
        ("empty, at the end", 64, fault(11, 1, pointer(0, CODE, 1))),
        ("empty, after the end", 65, fault(34, 0, pointer(0, TARGET, 0))),
        ("to the end", 56 | 8 << 24, fault(12, 1, pointer(0, CODE, 1))),
        ("past the end", 57 | 8 << 24, fault(34, 0, pointer(0, TARGET, 0))),
        ("bits above 36", 8 << 24 | !0 << 37, halted(2)),
        ("bit 36", 8 << 24 | 1 << 36, fault(34, 0, pointer(0, TARGET, 0))),
        ("the largest", (1 << 37) - 1, fault(34, 0, pointer(0, TARGET, 0))),
    ] {
        let machine = base(0).with(|m| {
            m.put(16, by_pr2(LDBR));
            m.put(17, Instruction { opcode: HLT, ..Instruction::default() });
            m.memory[32] = word;
            m.budget = 5;
        });
        cases.add(format!("LDBR, {name}"), machine, reply);
    }
    for (words, address, length, reply) in [
        (4200, 0, 4096, spent(1)),
        (4200, 0, 4097, fault(34, 0, pointer(0, TARGET, 0))),
        (4200, 104, 4096, spent(1)),
        (4200, 105, 4096, fault(34, 0, pointer(0, TARGET, 0))),
        (8192, 0, 8191, fault(34, 0, pointer(0, TARGET, 0))),
        (8192, 4096, 4096, spent(1)),
        (8193, 4096, 4097, fault(34, 0, pointer(0, TARGET, 0))),
    ] {
        let machine = base(0).with(|m| {
            m.memory.resize(words, 0);
            m.put(16, by_pr2(LDBR));
            m.memory[32] = address | length << 24;
        });
        cases.add(format!("LDBR {address} {length} in {words}"), machine, reply);
    }
}

fn control(cases: &mut Cases) {
    // CALL in its own segment needs no gate, but everything else.
    let own = |ring: u8, tpr_ring: u8, rings: [u8; 3]| {
        base(ring).with(|m| {
            m.describe(CODE, Descriptor { gate: 0, ..segment(16, 8, rings) });
            m.registers.pr[2] = pointer(tpr_ring, CODE, 5);
            m.put(16, by_pr2(CALL));
        })
    };
    cases.add("CALL in its own segment", own(3, 3, [2, 5, 7]), spent(1));
    cases.add("CALL in its own segment, 30", own(3, 4, [2, 5, 7]), fault(30, 0, pointer(4, CODE, 5)));
    cases.add("CALL in its own segment, 30 just yes", own(5, 6, [2, 5, 7]), spent(1));
    cases.add("CALL in its own segment, 28", own(3, 6, [2, 5, 5]), fault(28, 0, pointer(6, CODE, 5)));
    let machine = base(3).with(|m| {
        m.describe(TARGET, Descriptor { gate: 5, ..segment(16, 8, [0, 7, 7]) });
        m.registers.pr[2].wordno = 5;
        m.put(16, by_pr2(CALL));
    });
    cases.add("the same words by another segment: 27", machine.clone(), fault(27, 0, pointer(3, TARGET, 5)));
    let machine = machine.with(|m| m.describe(TARGET, Descriptor { gate: 6, ..segment(16, 8, [0, 7, 7]) }));
    cases.add("27 just yes", machine, spent(1));
    // Transfers not taken ask nothing of the target, but every pointer word.
    for (opcode, a) in [(TZE, 1), (TMI, i64::MAX as u64), (EAP, 0)] {
        let machine = base(3).with(|m| {
            m.registers.a = a;
            m.registers.pr[2] = pointer(6, 4095, 65_535);
            m.put(16, by_pr2(opcode));
        });
        cases.add(format!("{opcode} to nowhere, not taken"), machine.clone(), spent(1));
        let machine = machine.with(|m| m.put(16, indirect(opcode)));
        cases.add(format!("{opcode} by a pointer word nowhere"), machine, fault(11, 0, pointer(6, 4095, 65_535)));
    }
    for (opcode, a, taken) in [
        (TRA, 5, true),
        (TZE, 0, true),
        (TZE, 1, false),
        (TZE, 1 << 63, false),
        (TZE, 1 << 32, false),
        (TMI, 1 << 63, true),
        (TMI, u64::MAX, true),
        (TMI, i64::MAX as u64, false),
        (TMI, 0, false),
    ] {
        let machine = base(3).with(|m| {
            m.registers.a = a;
            m.put(16, by_pr2(opcode));
            m.budget = 2;
        });
        let at = if taken { pointer(3, TARGET, 0) } else { pointer(3, CODE, 1) };
        cases.add(format!("{opcode} with {a}"), machine, fault(32, 1, at));
    }
    // RETURN raises the PRs, and PR rings stay where they are higher.
    for ring in 0..8 {
        let machine = base(0).with(|m| {
            for pr in 0..8 {
                m.registers.pr[pr].ring = pr as u8;
            }
            m.registers.pr[2] = pointer(ring, TARGET, 3);
            m.put(16, by_pr2(RETURN));
            m.put(35, Instruction { opcode: LDI, ..Instruction::default() });
            m.budget = 2;
        });
        cases.add(format!("RETURN to ring {ring}"), machine, spent(2));
    }
    // CALL's new ring is R2 where that is below; what becomes of PR7 is in `stacks`.
    for ring in 0..8 {
        for r2 in 0..8 {
            let machine = base(ring).with(|m| {
                m.describe(TARGET, segment(32, 8, [0, r2, 7]));
                m.put(16, by_pr2(CALL));
            });
            cases.add(format!("CALL from {ring} to at most {r2}"), machine, spent(1));
        }
    }
}

/// Every directed case through both, against the reply it should have.
pub fn cases(comparer: &mut Comparer) -> Result<usize, Box<Failure>> {
    let mut cases = Cases(Vec::new());
    refusals(&mut cases);
    fetches(&mut cases);
    chains(&mut cases);
    wraps(&mut cases);
    overlaps(&mut cases);
    control(&mut cases);
    largest_memories(&mut cases);
    let count = cases.0.len();
    for (name, machine, expected, last) in cases.0 {
        match comparer.machine(&machine) {
            Ok(Outcome { run, last_step }) if run == expected && last_step.map_or(0, Reply::pointer_words) == last => {}
            Ok(outcome) => {
                let text = format!("both answer {outcome:?}, the paper {expected:?}, the last step with {last}");
                return Err(Box::new((name, machine, Difference(text))));
            }
            Err(difference) => return Err(Box::new((name, machine, difference))),
        }
    }
    Ok(count)
}

/// The library's directed machines for pointer words; answers how many they are.
pub fn pointer_words(comparer: &mut Comparer) -> Result<usize, Box<Failure>> {
    let cases = pointers::cases();
    let count = cases.len();
    for case in cases {
        by_hand(comparer, &case)?;
    }
    Ok(count)
}

/// The library's directed machines for delivered faults and opcode 42, with what they leave; answers how many they are.
pub fn deliveries(comparer: &mut Comparer) -> Result<usize, Box<Failure>> {
    with_what_they_leave(comparer, delivery::cases())
}

/// Those for the stack base of CALL.
pub fn stack_bases(comparer: &mut Comparer) -> Result<usize, Box<Failure>> {
    with_what_they_leave(comparer, stacks::cases())
}

fn with_what_they_leave(comparer: &mut Comparer, cases: Vec<delivery::Case>) -> Result<usize, Box<Failure>> {
    let count = cases.len();
    for delivery::Case { run: case, registers: after, memory: memory_after } in cases {
        by_hand(comparer, &case)?;
        // The comparison has shown that both leave the same.
        let Image { mut registers, mut memory, budget } = case.machine.clone();
        second::run(&mut registers, &mut memory, budget);
        if (registers, &memory) != (after, &memory_after) {
            let text = format!("both leave {registers:?}, the papers {after:?}; or memory is different");
            return Err(Box::new((case.name, machine(case.machine), Difference(text))));
        }
    }
    Ok(count)
}

/// The library's directed pointers for the check of CALL, and all brackets and rings; answers how many of each.
pub fn checks(comparer: &mut Comparer) -> Result<(usize, usize), Box<Failure>> {
    let cases: Vec<calls::Case> = calls::cases().into_iter().chain(calls::largest_memories()).collect();
    let count = cases.len();
    for case in &cases {
        check(comparer, case)?;
    }
    let mut brackets = 0;
    for case in calls::brackets() {
        check(comparer, &case)?;
        brackets += 1;
    }
    Ok((count, brackets))
}

/// One of them, and its CALL, which answers by the check.
fn check(comparer: &mut Comparer, case: &calls::Case) -> Result<(), Box<Failure>> {
    let differs = |image: &Image, difference| Box::new((case.name.clone(), machine(image.clone()), difference));
    match comparer.check(&case.machine.registers, &case.machine.memory, case.pointer) {
        Ok(check) if check == case.answer => {}
        Ok(check) => {
            let text = format!("of {:?} both answer {check:?}, the papers {:?}", case.pointer, case.answer);
            return Err(differs(&case.machine, Difference(text)));
        }
        Err(difference) => return Err(differs(&case.machine, difference)),
    }
    let Some((call, reply)) = case.call() else { return Ok(()) };
    match comparer.machine(&machine(call.clone())) {
        Ok(Outcome { run, .. }) if run == reply => Ok(()),
        Ok(Outcome { run, .. }) => {
            Err(differs(&call, Difference(format!("both answer {run:?}, the papers {reply:?}"))))
        }
        Err(difference) => Err(differs(&call, difference)),
    }
}

/// The library's directed steps for the claim that only gates lead down: by a call through a door both come to where it
/// leads, and what is against the claim neither leaves. Answers how many they are.
pub fn ring_steps(comparer: &mut Comparer) -> Result<usize, Box<Failure>> {
    let steps = door_cases::steps();
    let count = steps.len();
    for Step { name, before, after, verdict } in steps {
        let differs = |difference| Box::new((name.clone(), machine(before.clone()), difference));
        comparer.machine(&machine(before.clone())).map_err(differs)?;
        let Image { mut registers, mut memory, .. } = before.clone();
        second::step(&mut registers, &mut memory);
        let is_right = match verdict {
            Ok(Change::Called { .. }) => registers.ipr == after.registers.ipr,
            Ok(_) => true,
            Err(_) => (registers, memory) != (after.registers, after.memory),
        };
        if !is_right {
            return Err(differs(Difference(format!("both leave {registers:?}; of this or another: {verdict:?}"))));
        }
    }
    Ok(count)
}

fn machine(Image { registers, memory, budget }: Image) -> Machine {
    Machine { registers, memory, budget }
}

/// One of them, as a machine and, where there is one, as an image.
fn by_hand(comparer: &mut Comparer, case: &pointers::Case) -> Result<(), Box<Failure>> {
    let machine = machine(case.machine.clone());
    let expected = Outcome { run: case.reply(), last_step: last_step(case) };
    let differs = match comparer.machine(&machine) {
        Ok(outcome) if outcome != expected => {
            Some(Difference(format!("both answer {outcome:?}, the papers {expected:?}")))
        }
        Ok(_) if machine.memory.len() > ME_LIMIT as usize => None,
        Ok(_) => listed(comparer, &machine, &case.text()).err(),
        Err(difference) => Some(difference),
    };
    match differs {
        Some(difference) => Err(Box::new((case.name.clone(), machine, difference))),
        None => Ok(()),
    }
}

/// What the last of the steps answers that the budget allows.
fn last_step(case: &pointers::Case) -> Option<Reply> {
    if case.machine.budget > 0 {
        case.step_replies().pop()
    } else {
        None
    }
}

/// Does the machine's image give this text?
fn listed(comparer: &mut Comparer, machine: &Machine, text: &str) -> Result<(), Difference> {
    let image = describe::image(machine);
    comparer.image(&image, 64 * (machine.budget as usize + 1), 0x99)?;
    let mut mine = Vec::new();
    if second::list(&image, &mut mine).is_ok() && mine == text.as_bytes() {
        return Ok(());
    }
    let mine = String::from_utf8_lossy(&mine);
    Err(Difference(format!("both list\n{mine}where the papers give\n{text}")))
}

/// The uses of a segment, each with its questions in order.
pub const USES: [(&str, &[u8]); 10] = [
    ("fetch", &[11, 12, 13, 14, 15, 21, 32, 33]),
    ("pointer word", &[31, 11, 12, 13, 14, 15, 22]),
    ("read", &[11, 12, 13, 14, 15, 22]),
    ("write", &[11, 12, 13, 14, 15, 23]),
    ("AOS", &[11, 12, 13, 14, 15, 22, 23]),
    ("transfer", &[11, 12, 13, 14, 15, 24, 25]),
    ("RETURN", &[11, 12, 13, 14, 15, 25]),
    ("CALL", &[11, 12, 13, 14, 15, 26, 27, 28, 29, 30]),
    ("LDBR", &[11, 12, 13, 14, 15, 22, 34]),
    ("RCU", &[11, 12, 13, 14, 15, 22, 34, 52]),
];

/// How often two questions of a use were both no, by use and places in its order.
pub struct Pairs([[[u64; 10]; 10]; 10]);

impl Pairs {
    pub fn new() -> Pairs {
        Pairs([[[0; 10]; 10]; 10])
    }

    fn count(&mut self, which: usize, no: &[bool; 10]) {
        for first in 0..10 {
            for second in first..10 {
                self.0[which][first][second] += u64::from(no[first] && no[second]);
            }
        }
    }

    /// Prints the pairs that were never both no; 28 with 29, for one, can't be.
    pub fn print(&self) {
        for ((name, questions), pairs) in USES.iter().zip(&self.0) {
            let mut met = 0;
            let mut fewest = u64::MAX;
            let mut never = String::new();
            for (first, question) in questions.iter().enumerate() {
                for (second, other) in questions.iter().enumerate().skip(first + 1) {
                    match pairs[first][second] {
                        0 => never += &format!(" {question}+{other}"),
                        count => {
                            met += 1;
                            fewest = fewest.min(count);
                        }
                    }
                }
            }
            let never = if never.is_empty() { " none".to_string() } else { never };
            println!("  {name}: {met} pairs of questions both no, each at least {fewest} times; never both:{never}");
        }
    }
}

/// For each use: all R1, R2, R3, all rings of IPR and TPR, all of R, W, E; and, drawn, the switch, V, the boundaries of
/// 11, 14, 15, 27, 31 to 34, 52. What is no is worked out apart from the order, and the first in the order is expected.
pub fn grid(comparer: &mut Comparer, random: &mut Random, pairs: &mut Pairs) -> Result<u64, Box<Failure>> {
    let mut machine = base(0);
    let mut count = 0;
    for (which, (name, questions)) in USES.iter().enumerate() {
        for rings in 0..512_u32 {
            let r = [(rings >> 6) as u8, (rings >> 3 & 7) as u8, (rings & 7) as u8];
            for ipr_ring in 0..8 {
                if matches!(*name, "LDBR" | "RCU") && ipr_ring > 0 {
                    continue;
                }
                for tpr_ring in ipr_ring..8 {
                    if *name == "fetch" && tpr_ring != ipr_ring {
                        continue;
                    }
                    for flags in 0..8 {
                        let (expected, chain, no) = shape(&mut machine, random, name, r, ipr_ring, tpr_ring, flags);
                        count += 1;
                        let mut in_order = [false; 10];
                        for (place, question) in questions.iter().enumerate() {
                            in_order[place] = no(*question);
                        }
                        pairs.count(which, &in_order);
                        let first = questions.iter().copied().find(|question| no(*question));
                        // A pointer word that passes is read as well.
                        let read = chain + u64::from(*name == "pointer word" && first.is_none());
                        let got = match comparer.machine(&machine) {
                            Ok(outcome) => seen(&machine, outcome),
                            Err(difference) => return Err(Box::new((format!("grid, {name}"), machine, difference))),
                        };
                        if got != (first.map(|number| (number, expected)), read) {
                            let text = format!(
                                "both answer {got:?}, the paper {first:?} at {expected:?} after {read} pointer words"
                            );
                            return Err(Box::new((format!("grid, {name}"), machine, Difference(text))));
                        }
                    }
                }
            }
        }
    }
    Ok(count)
}

/// The fault of a machine of one step, delivered or not, and the step's pointer words.
fn seen(machine: &Machine, Outcome { run, last_step }: Outcome) -> (Option<(u8, Pointer)>, u64) {
    let fault = match run {
        Reply::Fault { fault, .. } => Some(fault),
        Reply::Spent { .. } if machine.registers.fault_switch == 1 => {
            let Machine { mut registers, mut memory, .. } = machine.clone();
            second::step_and_fault(&mut registers, &mut memory).1
        }
        _ => None,
    };
    (fault.map(|fault| (fault.number, fault.at)), last_step.map_or(0, Reply::pointer_words))
}

/// How many pointer words lead to the use in question: mostly none. To the 65th pointer word 64 lead.
fn chain_before(random: &mut Random, name: &str, no_31: bool) -> u16 {
    match name {
        "fetch" => 0,
        "pointer word" if no_31 => 64,
        _ if random.chance(750) => 0,
        "pointer word" => random.pick(&[1, 2, 32, 62, 63]),
        _ => random.pick(&[1, 2, 3, 63, 64]),
    }
}

/// Makes one machine of the grid; answers the address under question, how many pointer words lead to it, and which
/// questions are no.
fn shape(
    machine: &mut Machine,
    random: &mut Random,
    name: &str,
    [r1, r2, r3]: [u8; 3],
    ipr_ring: u8,
    tpr_ring: u8,
    flags: u8,
) -> (Pointer, u64, impl Fn(u8) -> bool) {
    let no_11 = random.chance(150);
    let no_12 = random.chance(150);
    let no_14 = random.chance(150);
    let no_15 = random.chance(150);
    let no_27 = random.chance(300);
    let no_31 = name == "pointer word" && random.chance(100);
    let no_34 = random.chance(300);
    let no_52 = random.chance(300);
    let (fr, fw, fe) = (flags & 1 != 0, flags & 2 != 0, flags & 4 != 0);
    // The segment in question is segment 7, the last or the one after the last, at the memory's end.
    let is_pointer = name == "pointer word";
    let chain = chain_before(random, name, no_31);
    let words = if chain > 0 { 160 } else { 64 };
    // Opcode 42 uses thirteen words.
    let used = if name == "RCU" { 13 } else { 1 };
    let length = used - 1 + random.between(1, 8) as u16;
    let wordno = if no_15 { length - used + 1 } else { length - used };
    let target = Descriptor {
        address: words - u32::from(length) + u32::from(no_14),
        length,
        r1,
        r2,
        r3,
        r: fr,
        w: fw,
        e: fe,
        v: !no_12,
        gate: if no_27 { wordno } else { wordno + 1 },
    };
    machine.memory.clear();
    machine.memory.resize(words as usize, 0);
    machine.budget = 1;
    machine.registers = Registers {
        a: random.next(),
        dbr: Dbr { address: 0, length: if no_11 { 7 } else { 8 } },
        ipr: pointer(ipr_ring, CODE, 0),
        pr: [pointer(7, 9, 9); 8],
        fault_switch: u16::from(random.chance(500)),
        save_segment: SAVE,
        handler_segment: random.below(4096) as u16,
    };
    machine.describe(CODE, segment(16, 8, [0, 7, 7]));
    machine.describe(SAVE, segment(24, 13, [0, 0, 0]));
    machine.describe(7, target);
    let tpr = pointer(tpr_ring, 7, wordno);
    machine.registers.pr[2] = tpr;
    let opcode = match name {
        "fetch" if ipr_ring == 0 => random.pick(&[LDI, HLT, 0, 11, 43, 255]),
        "fetch" => random.pick(&[LDI, HLT, LDBR, RCU, 0, 11, 43, 255]),
        // With A 1, neither transfer is taken: nothing follows the pointer word.
        "pointer word" => random.pick(&[EAP, TZE, TMI]),
        "read" => random.pick(&[1, 3, 4, 5, 6, 7, 8]),
        "write" => random.pick(&[STA, SPP]),
        "AOS" => AOS,
        "transfer" => random.pick(&[TRA, TZE, TMI]),
        "RETURN" => RETURN,
        "CALL" => CALL,
        "LDBR" => LDBR,
        _ => RCU,
    };
    match (name, opcode) {
        ("pointer word", _) => machine.registers.a = 1,
        (_, TZE) => machine.registers.a = 0,
        (_, TMI) => machine.registers.a |= 1 << 63,
        _ => {}
    }
    if chain > 0 {
        // Pointer words of segments 5 and 6 in turn lead to the word in question.
        machine.describe(5, segment(64, 64, [0, 7, 7]));
        machine.describe(6, segment(64, 64, [0, 7, 7]));
        machine.registers.pr[2] = pointer(tpr_ring, 6, 0);
        for word in 0..chain - 1 {
            machine.point(64 + usize::from(word), pointer(0, 5 + word % 2, word + 1), true);
        }
        machine.point(63 + usize::from(chain), Pointer { ring: 0, ..tpr }, is_pointer);
    }
    // What has no operand, or faults before it, reads nothing even with I on.
    let i = is_pointer || chain > 0 || name == "fetch" && random.chance(500);
    let instruction = Instruction { i, reg: random.below(8) as u8, ..by_pr2(opcode) };
    let in_question = target.address as usize + usize::from(wordno);
    let dbr = u64::from(words - 8 + u32::from(no_34)) | 8 << 24 | random.next() << 37;
    let word = match name {
        "fetch" => instruction.to_word(),
        "pointer word" => random.next() & !(1 << 31),
        "LDBR" => dbr,
        _ => random.next(),
    };
    if name == "fetch" {
        machine.registers.ipr = tpr;
    } else {
        machine.memory[16] = instruction.to_word();
    }
    if !no_14 && !no_15 {
        machine.memory[in_question] = word;
    }
    if name == "RCU" {
        // What there is of the frame, number and address being nobody's concern.
        let frame = frame(random, dbr, no_52);
        let behind = &mut machine.memory[in_question..];
        let words = behind.len().min(13);
        behind[..words].copy_from_slice(&frame[..words]);
    }
    let new_ring = tpr_ring.min(r2);
    let no = move |question: u8| match question {
        11 => no_11,
        12 => no_12,
        13 => r1 > r2 || r2 > r3,
        14 => no_14,
        15 => no_15,
        21 | 25 => !fe || tpr_ring < r1 || tpr_ring > r2,
        22 => !fr || tpr_ring > r2,
        23 => !fw || tpr_ring > r1,
        24 => tpr_ring != ipr_ring,
        26 => !fe,
        27 => no_27,
        28 => tpr_ring > r3,
        29 => tpr_ring < r1,
        30 => new_ring > ipr_ring,
        31 => no_31,
        32 => matches!(opcode, 0 | 11 | 43 | 255),
        33 => matches!(opcode, LDBR | HLT | RCU) && ipr_ring > 0,
        34 => no_34,
        _ => no_52,
    };
    (tpr, u64::from(chain), no)
}

/// A frame with this DBR; IPR's ring is at most that of the PRs, or above that of one.
fn frame(random: &mut Random, dbr: u64, no_52: bool) -> [u64; 13] {
    let mut frame = [(); 13].map(|_| random.next());
    frame[3] = dbr;
    let ring = random.between(usize::from(no_52), 7) as u64;
    let lower = random.below(8);
    for (place, word) in frame[4..].iter_mut().enumerate() {
        let pr_ring = match place {
            0 => ring,
            pr if no_52 && pr - 1 == lower => random.below(ring as usize) as u64,
            _ => random.between(ring as usize, 7) as u64,
        };
        *word = *word & !(7 << 28) | pr_ring << 28;
    }
    frame
}
