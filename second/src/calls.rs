//! Directed cases for the check of CALL, and inputs of the program that asks it: answers and texts were worked out by
//! hand.

use crate::image::{Image, ME_LIMIT};
use crate::machine::{fetch, Check, Fault, Registers, Reply};
use crate::opcodes::CALL;
use crate::words::{Dbr, Descriptor, Instruction, Pointer};

/// A machine, a pointer, and what the check answers.
pub struct Case {
    pub name: String,
    /// Its budget has no part in this.
    pub machine: Image,
    pub pointer: Pointer,
    pub answer: Check,
}

impl Case {
    /// What the program reads, if an image can have this machine: as many words, and a switch that is a byte.
    pub fn input(&self) -> Option<Vec<u8>> {
        let Image { registers, memory, budget } = &self.machine;
        let switch = u8::try_from(registers.fault_switch).ok()?;
        if memory.len() > ME_LIMIT as usize {
            return None;
        }
        let mut bytes = pointer_bytes(self.pointer).to_vec();
        bytes.extend(me(memory.len() as u32));
        for (address, word) in memory.iter().enumerate().filter(|(_, word)| **word != 0) {
            bytes.extend(wd(address as u32, *word));
        }
        bytes.extend(b"ST");
        bytes.extend(registers.a.to_be_bytes());
        bytes.extend(registers.dbr.address.to_be_bytes());
        bytes.extend(registers.dbr.length.to_be_bytes());
        bytes.extend(pointer_bytes(registers.ipr));
        bytes.extend(registers.pr.into_iter().flat_map(pointer_bytes));
        bytes.push(switch);
        bytes.extend(registers.save_segment.to_be_bytes());
        bytes.extend(registers.handler_segment.to_be_bytes());
        bytes.extend(rn(*budget));
        Some(bytes)
    }

    /// The machine whose step is a CALL with the pointer, raised, as its TPR, and what that step answers: the check's
    /// fault, or it completes. Nothing where the check is refused or no CALL can be fetched at IPR.
    pub fn call(&self) -> Option<(Image, Reply)> {
        let reply = match self.answer {
            Check::Refused { .. } => return None,
            Check::Fault(fault) => Reply::Fault { fault, count: 0, pointer_words: 0 },
            Check::Passes { .. } => Reply::Spent { count: 1, pointer_words: 0 },
        };
        let machine = self.machine.clone().with(|m| {
            m.registers.pr[2] = Pointer { ring: self.pointer.ring.max(m.registers.ipr.ring), ..self.pointer };
            m.registers.fault_switch = 0;
            m.budget = 1;
        });
        let fetched = fetch(&machine.registers, &machine.memory);
        fetched.is_ok_and(|instruction| instruction.opcode == CALL).then_some((machine, reply))
    }

    /// What the program prints.
    pub fn text(&self) -> String {
        match self.answer {
            Check::Refused { number } => format!("refused {number}\n"),
            Check::Fault(Fault { number, at: Pointer { ring, segno, wordno } }) => {
                format!("fault {number} {ring} {segno} {wordno}\n")
            }
            Check::Passes { ring } => format!("passes {ring}\n"),
        }
    }
}

/// Bytes for the program, and what it prints.
pub struct Input {
    pub name: String,
    pub bytes: Vec<u8>,
    pub text: String,
}

/// DBR: words 0 to 7. Segment 8 is the first without a descriptor.
const SEGMENTS: u16 = 8;
const WORDS: u32 = 64;
/// Words 16 to 23, where IPR is.
const CODE: u16 = 1;
/// Words 32 to 39.
const TARGET: u16 = 2;

fn pointer(ring: u8, segno: u16, wordno: u16) -> Pointer {
    Pointer { ring, segno, wordno }
}

/// Word 0 of TARGET.
fn first(ring: u8) -> Pointer {
    pointer(ring, TARGET, 0)
}

fn refused(number: u8) -> Check {
    Check::Refused { number }
}

fn fault(number: u8, at: Pointer) -> Check {
    Check::Fault(Fault { number, at })
}

fn passes(ring: u8) -> Check {
    Check::Passes { ring }
}

/// A segment that may only be executed, all of its words gates.
fn target(r1: u8, r2: u8, r3: u8) -> Descriptor {
    Descriptor { address: 32, length: 8, r1, r2, r3, e: true, v: true, gate: 8, ..Descriptor::default() }
}

/// IPR at word 3 of CODE, where a CALL by PR2 stands; TARGET open to all rings; PRs in ring 7, to no segment.
fn machine(ring: u8) -> Image {
    let mut machine = Image {
        registers: Registers {
            dbr: Dbr { address: 0, length: SEGMENTS },
            ipr: pointer(ring, CODE, 3),
            pr: [pointer(7, 4_000, 9); 8],
            ..Registers::default()
        },
        memory: vec![0; WORDS as usize],
        budget: 1,
    };
    machine.describe(CODE, Descriptor { address: 16, gate: 0, ..target(0, 7, 7) });
    machine.describe(TARGET, target(0, 7, 7));
    machine.put(3, Instruction { opcode: CALL, p: true, prnum: 2, ..Instruction::default() });
    machine
}

/// TARGET is this.
fn to(ring: u8, descriptor: Descriptor) -> Image {
    machine(ring).with(|m| m.describe(TARGET, descriptor))
}

struct Cases(Vec<Case>);

impl Cases {
    fn add(&mut self, name: impl Into<String>, machine: Image, pointer: Pointer, answer: Check) {
        self.0.push(Case { name: name.into(), machine, pointer, answer });
    }
}

pub fn cases() -> Vec<Case> {
    let mut cases = Cases(Vec::new());
    pointers_in_range(&mut cases);
    registers_in_range(&mut cases);
    pr_rings(&mut cases);
    descriptor_segments(&mut cases);
    refusals_in_order(&mut cases);
    raised_rings(&mut cases);
    segments(&mut cases);
    executable(&mut cases);
    gates(&mut cases);
    rings(&mut cases);
    faults_in_order(&mut cases);
    not_asked(&mut cases);
    cases.0
}

// ---- 1 to 4.

/// 1, with 128 MB of memory each.
pub fn largest_memories() -> Vec<Case> {
    let large = |words: usize| {
        let small = machine(4);
        let mut memory = vec![0; words];
        memory[..small.memory.len()].copy_from_slice(&small.memory);
        Image { memory, ..small }
    };
    let most = 16_777_216;
    let mut cases = Cases(Vec::new());
    cases.add("1 just yes", large(most), first(4), passes(4));
    cases.add("1 just no", large(most + 1), first(4), refused(1));
    let machine = large(most + 1).with(|m| {
        m.registers.ipr.ring = 7;
        m.registers.pr[0].ring = 6;
        m.registers.pr[1].segno = 4_096;
        m.registers.dbr.length = 4_097;
    });
    cases.add("1, 2, 3 and 4 no", machine, pointer(8, 4_096, 0), refused(1));
    let machine =
        large(most).with(|m| m.describe(TARGET, Descriptor { address: 16_777_215, length: 1, ..target(0, 7, 7) }));
    cases.add("14 just yes at the end of all", machine.clone(), first(4), passes(4));
    let machine =
        machine.with(|m| m.describe(TARGET, Descriptor { address: 16_777_215, length: 2, ..target(0, 7, 7) }));
    cases.add("14 just no at the end of all", machine, first(4), fault(14, first(4)));
    cases.0
}

/// 2 of the pointer handed in.
fn pointers_in_range(cases: &mut Cases) {
    for ring in [0, 4, 7] {
        for above in [8, 9, 12, 15, 16, 127, 128, 132, 255] {
            cases.add(format!("2: ring {above}, IPR's {ring}"), machine(ring), first(above), refused(2));
        }
        // Some are segment 2 in their lower 12 bits, or have no descriptor anyway.
        for segno in [4_096, 4_097, 4_098, 8_191, 8_194, 32_770, 65_535] {
            cases.add(
                format!("2: SEGNO {segno}, IPR's ring {ring}"),
                machine(ring),
                pointer(ring, segno, 0),
                refused(2),
            );
        }
        let name = |what: &str| format!("2 just yes: {what}, IPR's ring {ring}");
        cases.add(name("SEGNO 4095"), machine(ring), pointer(ring, 4_095, 0), fault(11, pointer(ring, 4_095, 0)));
        let last = pointer(ring, TARGET, 65_535);
        cases.add(name("WORDNO 65535"), machine(ring), last, fault(15, last));
        let all = pointer(7, 4_095, 65_535);
        cases.add(name("all three"), machine(ring), all, fault(11, all));
        // To ring 7 of all rings, only ring 7 may call.
        let answer = if ring == 7 { passes(7) } else { fault(30, first(7)) };
        cases.add(name("ring 7"), machine(ring), first(7), answer);
        cases.add(name("ring 0"), machine(ring), first(0), passes(ring));
    }
    for (name, bad) in [("ring", pointer(8, TARGET, 0)), ("SEGNO", pointer(4, 4_096, 0))] {
        let other_no = |what: &str| format!("2: {name} of the pointer, {what} too");
        let fields = |m: &mut Image| m.registers.pr[7].ring = 8;
        cases.add(other_no("a PR's ring"), machine(4).with(fields), bad, refused(2));
        cases.add(other_no("3"), machine(4).with(|m| m.registers.pr[0].ring = 3), bad, refused(2));
        cases.add(other_no("4"), machine(4).with(|m| m.registers.dbr.length = 65), bad, refused(2));
        cases.add(other_no("11"), machine(4).with(|m| m.registers.dbr.length = 0), bad, refused(2));
        cases.add(other_no("12"), to(4, Descriptor::default()), bad, refused(2));
    }
}

/// 2 of the registers.
fn registers_in_range(cases: &mut Cases) {
    fn at(registers: &mut Registers, place: usize) -> &mut Pointer {
        match place {
            0 => &mut registers.ipr,
            pr => &mut registers.pr[pr - 1],
        }
    }
    for place in 0..9 {
        let name = if place == 0 { "IPR".to_string() } else { format!("PR{}", place - 1) };
        let with = |change: &dyn Fn(&mut Pointer)| machine(7).with(|m| change(at(&mut m.registers, place)));
        for ring in [8, 15, 128, 255] {
            cases.add(format!("2: ring {ring} of {name}"), with(&|p| p.ring = ring), first(7), refused(2));
        }
        for segno in [4_096, 4_097, 32_768, 65_535] {
            cases.add(format!("2: SEGNO {segno} of {name}"), with(&|p| p.segno = segno), first(7), refused(2));
        }
        // IPR is asked nothing else, wherever it is.
        cases.add(format!("2 just yes: {name}"), with(&|p| *p = pointer(7, 4_095, 65_535)), first(7), passes(7));
    }
    type Set = fn(&mut Registers, u16);
    let fields: [(&str, Set, u16, &[u16]); 3] = [
        ("switch", |r, value| r.fault_switch = value, 1, &[2, 3, 128, 255, 256, 257, 65_535]),
        ("save segment", |r, value| r.save_segment = value, 4_095, &[4_096, 4_098, 32_768, 65_535]),
        ("handler segment", |r, value| r.handler_segment = value, 4_095, &[4_096, 4_098, 32_768, 65_535]),
    ];
    for (name, set, most, above) in fields {
        let with = |value: u16| machine(4).with(|m| set(&mut m.registers, value));
        cases.add(format!("2 just yes: {name} {most}"), with(most), first(4), passes(4));
        for &value in above {
            cases.add(format!("2: {name} {value}"), with(value), first(4), refused(2));
            let machine = with(value).with(|m| m.registers.pr[5].ring = 3);
            cases.add(format!("2: {name} {value}, 3 no too"), machine, first(4), refused(2));
            let machine = with(value).with(|m| m.registers.dbr.address = WORDS);
            cases.add(format!("2: {name} {value}, 4 no too"), machine, first(4), refused(2));
        }
    }
}

/// 3 of each PR. The pointer isn't under it: its ring is raised.
fn pr_rings(cases: &mut Cases) {
    for pr in 0..8 {
        for ring in 1..8 {
            let with = |pr_ring: u8| machine(ring).with(|m| m.registers.pr[pr].ring = pr_ring);
            cases.add(
                format!("3: PR{pr} in ring {}, IPR in {ring}", ring - 1),
                with(ring - 1),
                first(ring),
                refused(3),
            );
            cases.add(format!("3 just yes: PR{pr} and IPR in ring {ring}"), with(ring), first(ring), passes(ring));
        }
        let machine = machine(4).with(|m| {
            m.registers.pr[pr].ring = 3;
            m.registers.dbr.length = 65;
        });
        cases.add(format!("3 of PR{pr} and 4 no"), machine, first(4), refused(3));
    }
    cases.add("3 isn't asked of the pointer", machine(7), first(0), passes(7));
}

/// 4: where the descriptor segment lies and ends.
fn descriptor_segments(cases: &mut Cases) {
    // Words of memory, DBR's ADDRESS and LENGTH. Where it is wide enough, it describes TARGET.
    for (words, address, length, answer) in [
        (64, 0, 64, passes(4)),
        (64, 0, 65, refused(4)),
        (64, 56, 8, passes(4)),
        (64, 57, 8, refused(4)),
        (64, 61, 3, passes(4)),
        (64, 62, 3, refused(4)),
        (64, 62, 2, fault(11, first(4))),
        (64, 64, 0, fault(11, first(4))),
        (64, 64, 1, refused(4)),
        (64, 65, 0, refused(4)),
        (64, 0, 0, fault(11, first(4))),
        (64, 0, 2, fault(11, first(4))),
        (64, 0, 3, passes(4)),
        (64, 16_777_215, 0, refused(4)),
        (64, 16_777_215, 65_535, refused(4)),
        (64, 16_777_216, 0, refused(2)),
        (64, 16_777_216, 3, refused(2)),
        (64, u32::MAX, 0, refused(2)),
        (64, u32::MAX, 65_535, refused(2)),
        (4_095, 0, 4_096, refused(4)),
        (4_096, 0, 4_096, passes(4)),
        (8_192, 0, 4_096, passes(4)),
        (8_192, 4_096, 4_096, passes(4)),
        (8_192, 4_097, 4_096, refused(4)),
        (8_192, 0, 4_097, refused(4)),
        (8_192, 0, 65_535, refused(4)),
        (70_000, 0, 4_097, refused(4)),
        (70_000, 0, 65_535, refused(4)),
        (0, 0, 0, fault(11, first(4))),
        (0, 0, 1, refused(4)),
        (0, 1, 0, refused(4)),
    ] {
        let machine = machine(4).with(|m| {
            m.memory.resize(words, 0);
            m.registers.dbr = Dbr { address, length };
            if let Some(word) = m.memory.get_mut((address as usize).saturating_add(usize::from(TARGET))) {
                *word = target(0, 7, 7).to_word();
            }
        });
        cases.add(format!("4: DBR {address} and {length} in {words} words"), machine, first(4), answer);
    }
}

/// 2 of the pointer, 2 of a register, 3 and 4 in every mixture, where 12 is no as well.
fn refusals_in_order(cases: &mut Cases) {
    for no in 0..16 {
        let [of_pointer, of_register, is_3, is_4] = [1, 2, 4, 8].map(|bit| no & bit != 0);
        let machine = to(4, Descriptor::default()).with(|m| {
            if of_register {
                m.registers.save_segment = 4_096;
            }
            if is_3 {
                m.registers.pr[3].ring = 0;
            }
            if is_4 {
                m.registers.dbr.address = WORDS - 7;
            }
        });
        let answer = match (of_pointer || of_register, is_3, is_4) {
            (true, _, _) => refused(2),
            (false, true, _) => refused(3),
            (false, false, true) => refused(4),
            (false, false, false) => fault(12, first(5)),
        };
        let asked = if of_pointer { first(13) } else { first(5) };
        cases.add(format!("2 {of_pointer}, {of_register}, 3 {is_3}, 4 {is_4} no"), machine, asked, answer);
    }
}

// ---- The pointer's ring.

/// Each ring of IPR with each of the pointer: what is asked about has the larger one.
fn raised_rings(cases: &mut Cases) {
    for ipr in 0..8 {
        for ring in 0..8 {
            let larger = if ring > ipr { ring } else { ipr };
            let name = |what: &str| format!("{what}: IPR's ring {ipr}, the pointer's {ring}");
            let of = |r1, r2, r3| to(ipr, target(r1, r2, r3));
            // Inside the bracket the ring stays what it is, so that it may not be above IPR's.
            let answer = if ring <= ipr { passes(ipr) } else { fault(30, first(ring)) };
            cases.add(name("all rings"), of(0, 7, 7), first(ring), answer);
            // From above ring 0, all come down to it.
            cases.add(name("gates of ring 0"), of(0, 0, 7), first(ring), passes(0));
            // Ring 0 alone.
            let answer = if larger == 0 { passes(0) } else { fault(28, first(larger)) };
            cases.add(name("ring 0 only"), of(0, 0, 0), first(ring), answer);
            // Ring 7 alone: who only asks for it gets past 29 and not past 30.
            let answer = match (ipr, ring) {
                (7, _) => passes(7),
                (_, 7) => fault(30, first(7)),
                _ => fault(29, first(larger)),
            };
            cases.add(name("ring 7 only"), of(7, 7, 7), first(ring), answer);
            let machine = to(ipr, Descriptor { v: false, ..target(0, 7, 7) });
            cases.add(name("12"), machine, first(ring), fault(12, first(larger)));
        }
    }
}

// ---- 11 to 15.

fn segments(cases: &mut Cases) {
    // IPR's ring, the pointer's, and that under question; R2 is 4, so that all of them come to ring 4.
    for (ipr, ring, asked) in [(4, 4, 4), (4, 1, 4), (4, 6, 6), (7, 4, 7)] {
        let good = target(0, 4, 7);
        let mut add = |name: &str, machine: Image, segno: u16, wordno: u16, number: u8| {
            let name = format!("{name}; IPR's ring {ipr}, the pointer's {ring}");
            let answer = if number == 0 { passes(4) } else { fault(number, pointer(asked, segno, wordno)) };
            cases.add(name, machine, pointer(ring, segno, wordno), answer);
        };
        let with = |descriptor: Descriptor| to(ipr, descriptor);
        let at = |segno: u16| machine(ipr).with(|m| m.describe(segno, good));
        add("11 just yes, the last segment", at(SEGMENTS - 1), SEGMENTS - 1, 7, 0);
        add("11 just no, a descriptor behind the last", at(SEGMENTS), SEGMENTS, 7, 11);
        add("11 no, segment 4095", machine(ipr), 4_095, 0, 11);
        // Segment 258 is segment 2 in its lower byte.
        add("11 no, segment 258", machine(ipr), 258, 0, 11);
        let short = |length: u16| with(good).with(|m| m.registers.dbr.length = length);
        add("11 just yes, LENGTH 3", short(3), TARGET, 0, 0);
        add("11 just no, LENGTH 2", short(2), TARGET, 0, 11);
        let many = |length: u16| {
            machine(ipr).with(|m| {
                m.memory.resize(4_200, 0);
                m.registers.dbr = Dbr { address: 100, length };
                m.describe(4_095, good);
            })
        };
        add("11 just yes, segment 4095", many(4_096), 4_095, 0, 0);
        add("11 just no, segment 4095", many(4_095), 4_095, 0, 11);
        let moved = with(Descriptor { v: false, ..good }).with(|m| {
            m.registers.dbr.address = 8;
            m.describe(TARGET, good);
        });
        add("DBR's ADDRESS 8", moved, TARGET, 0, 0);
        add("12 no", with(Descriptor { v: false, ..good }), TARGET, 0, 12);
        add("12 no, zeros", with(Descriptor::default()), TARGET, 0, 12);
        let all_else = Descriptor { v: false, r: true, w: true, gate: 2_047, ..target(0, 7, 7) };
        add("12 no, all else on", with(all_else), TARGET, 0, 12);
        for (r1, r2, r3, number) in [
            (5, 4, 7, 13),
            (7, 4, 7, 13),
            (0, 4, 3, 13),
            (0, 4, 0, 13),
            (7, 6, 5, 13),
            (1, 0, 7, 13),
            (0, 1, 0, 13),
            (4, 4, 7, 0),
            (0, 4, 7, 0),
            (1, 4, 7, 0),
        ] {
            add(&format!("13: rings {r1} {r2} {r3}"), with(target(r1, r2, r3)), TARGET, 0, number);
        }
        for (address, length, wordno, number) in [
            // 14
            (56, 8, 7, 0),
            (57, 8, 7, 14),
            (57, 8, 8, 14),
            (32, 32, 7, 0),
            (32, 33, 7, 14),
            (0, 64, 0, 0),
            (0, 65, 0, 14),
            (63, 1, 0, 0),
            (64, 1, 0, 14),
            (65, 0, 0, 14),
            (0xff_ffff, 1, 0, 14),
            (0xff_ffff, 65_535, 0, 14),
            (0xff_ffff, 0, 0, 14),
            (0, 65_535, 0, 14),
            // 15
            (64, 0, 0, 15),
            (0, 0, 0, 15),
            (32, 0, 0, 15),
            (32, 1, 0, 0),
            (32, 1, 1, 15),
            (32, 7, 7, 15),
            (32, 8, 7, 0),
            (32, 8, 8, 15),
            (32, 8, 256, 15),
            (32, 8, 32_775, 15),
            (32, 8, 65_535, 15),
        ] {
            let name = format!("{length} words from word {address} on, word {wordno}");
            add(&name, with(Descriptor { address, length, ..good }), TARGET, wordno, number);
        }
        let memory = |words: usize| with(good).with(|m| m.memory.truncate(words));
        add("14 just yes, 40 words of memory", memory(40), TARGET, 7, 0);
        add("14 just no, 39 words of memory", memory(39), TARGET, 0, 14);
        // The longest segment is IPR's own, so that 27 lets all of its words pass.
        let longest = |words: usize| {
            machine(ipr).with(|m| {
                m.memory.resize(words, 0);
                m.describe(CODE, Descriptor { address: 65, length: 65_535, ..good });
            })
        };
        add("15 just yes, word 65534", longest(65_600), CODE, 65_534, 0);
        add("15 just no, word 65535", longest(65_600), CODE, 65_535, 15);
        add("14 just no, the longest segment", longest(65_599), CODE, 0, 14);
    }
}

// ---- 26 and 27.

/// 26: E on? R and W have no part in it.
fn executable(cases: &mut Cases) {
    for flags in 0..8 {
        let [r, w, e] = [1, 2, 4].map(|bit| flags & bit != 0);
        for (segno, address, name) in [(TARGET, 32, "another segment"), (CODE, 16, "its own segment")] {
            let machine = machine(4).with(|m| m.describe(segno, Descriptor { address, r, w, e, ..target(0, 7, 7) }));
            let asked = pointer(2, segno, 1);
            let answer = if e { passes(4) } else { fault(26, pointer(4, segno, 1)) };
            cases.add(format!("26: R {r}, W {w}, E {e}, {name}"), machine, asked, answer);
        }
    }
}

/// 27: from another segment to the words below GATE, in IPR's own to every word.
fn gates(cases: &mut Cases) {
    for gate in 0..10 {
        for wordno in 0..8 {
            for ring in [1, 4] {
                let descriptor = Descriptor { gate, ..target(0, 7, 7) };
                let at = pointer(4, TARGET, wordno);
                let answer = if wordno < gate { passes(4) } else { fault(27, at) };
                let name = format!("27: word {wordno} and GATE {gate}, ring {ring}");
                cases.add(name, to(4, descriptor), Pointer { ring, ..at }, answer);
                let name = format!("27: word {wordno} and GATE {gate} of its own segment, ring {ring}");
                let machine = machine(4).with(|m| m.describe(CODE, Descriptor { address: 16, ..descriptor }));
                cases.add(name, machine, pointer(ring, CODE, wordno), passes(4));
            }
        }
    }
    // The largest GATE.
    let large = |gate: u16| {
        machine(4).with(|m| {
            m.memory.resize(3_000, 0);
            m.describe(TARGET, Descriptor { length: 2_900, gate, ..target(0, 7, 7) });
        })
    };
    for (gate, wordno, is_gate) in [
        (2_047, 2_046, true),
        (2_047, 2_047, false),
        (2_047, 2_048, false),
        (2_046, 2_045, true),
        (2_046, 2_046, false),
        (1_024, 1_023, true),
        (1_024, 1_024, false),
        (256, 255, true),
        (256, 256, false),
        (255, 511, false),
    ] {
        let at = pointer(4, TARGET, wordno);
        let answer = if is_gate { passes(4) } else { fault(27, at) };
        cases.add(format!("27: word {wordno} and GATE {gate}"), large(gate), at, answer);
    }
    // The segment is the same by its number, all of it, and by nothing else.
    let no_gate = || to(4, Descriptor { gate: 0, ..target(0, 7, 7) });
    for bit in 0..12 {
        let machine = no_gate().with(|m| m.registers.ipr.segno = TARGET ^ 1 << bit);
        cases.add(format!("27: IPR in segment {}", TARGET ^ 1 << bit), machine, first(4), fault(27, first(4)));
    }
    cases.add("27: IPR in the segment", no_gate().with(|m| m.registers.ipr.segno = TARGET), first(4), passes(4));
    let machine = no_gate().with(|m| m.registers.pr = [first(7); 8]);
    cases.add("27: PRs in the segment", machine, first(4), fault(27, first(4)));
    let machine = no_gate().with(|m| m.registers.handler_segment = TARGET);
    cases.add("27: the handler in the segment", machine, first(4), fault(27, first(4)));
    let machine = no_gate().with(|m| m.describe(TARGET, Descriptor { address: 16, gate: 3, ..target(0, 7, 7) }));
    let at = pointer(4, TARGET, 3);
    cases.add("27: IPR's own word by another segment", machine, at, fault(27, at));
    own_segment(cases);
}

/// A call within IPR's segment needs no gate, but everything else.
fn own_segment(cases: &mut Cases) {
    for (ipr, ring, answer) in [
        (4, 4, passes(4)),
        (5, 5, passes(4)),
        (5, 6, passes(4)),
        (7, 0, fault(28, pointer(7, CODE, 0))),
        (1, 0, fault(29, pointer(1, CODE, 0))),
        (3, 4, fault(30, pointer(4, CODE, 0))),
        (3, 5, fault(30, pointer(5, CODE, 0))),
    ] {
        let machine = machine(ipr).with(|m| m.describe(CODE, Descriptor { address: 16, gate: 0, ..target(2, 4, 6) }));
        let name = format!("its own segment, IPR's ring {ipr}, the pointer's {ring}");
        cases.add(name, machine, pointer(ring, CODE, 0), answer);
    }
}

// ---- 28 to 30.

fn rings(cases: &mut Cases) {
    let no = |number: u8, ring: u8| fault(number, first(ring));
    // R1, R2, R3; IPR's ring, the pointer's, the answer.
    let table = [
        // 28, at R3 and one above, raised or not.
        ([2, 4, 6], 6, 6, passes(4)),
        ([2, 4, 6], 6, 0, passes(4)),
        ([2, 4, 6], 4, 6, passes(4)),
        ([2, 4, 6], 7, 7, no(28, 7)),
        ([2, 4, 6], 7, 0, no(28, 7)),
        ([2, 4, 6], 4, 7, no(28, 7)),
        ([2, 4, 6], 6, 7, no(28, 7)),
        ([0, 0, 0], 0, 0, passes(0)),
        ([0, 0, 0], 0, 1, no(28, 1)),
        ([0, 0, 0], 1, 0, no(28, 1)),
        ([3, 3, 3], 3, 3, passes(3)),
        ([3, 3, 3], 4, 3, no(28, 4)),
        ([3, 3, 3], 3, 4, no(28, 4)),
        // 29, at R1 and one below, raised or not.
        ([2, 4, 6], 2, 2, passes(2)),
        ([2, 4, 6], 2, 1, passes(2)),
        ([2, 4, 6], 2, 0, passes(2)),
        ([2, 4, 6], 1, 1, no(29, 1)),
        ([2, 4, 6], 1, 0, no(29, 1)),
        ([2, 4, 6], 0, 0, no(29, 0)),
        ([3, 3, 3], 2, 2, no(29, 2)),
        ([7, 7, 7], 7, 0, passes(7)),
        ([7, 7, 7], 6, 6, no(29, 6)),
        // 29 before 30, which would be no too.
        ([2, 4, 6], 0, 1, no(29, 1)),
        // 30, inside the bracket: a ring above IPR's.
        ([2, 4, 6], 1, 2, no(30, 2)),
        ([2, 4, 6], 2, 3, no(30, 3)),
        ([2, 4, 6], 3, 3, passes(3)),
        ([2, 4, 6], 3, 4, no(30, 4)),
        ([2, 4, 6], 4, 4, passes(4)),
        ([2, 4, 6], 4, 3, passes(4)),
        ([7, 7, 7], 6, 7, no(30, 7)),
        // 30, in the gate extension: R2 above IPR's ring.
        ([2, 4, 6], 3, 5, no(30, 5)),
        ([2, 4, 6], 3, 6, no(30, 6)),
        ([2, 4, 6], 0, 5, no(30, 5)),
        ([2, 4, 6], 4, 5, passes(4)),
        ([2, 4, 6], 5, 5, passes(4)),
        ([2, 4, 6], 5, 0, passes(4)),
        ([2, 4, 6], 5, 6, passes(4)),
        ([0, 0, 1], 0, 1, passes(0)),
        ([0, 1, 2], 0, 2, no(30, 2)),
        ([0, 1, 2], 1, 2, passes(1)),
        // 28 before 30, which would be no too.
        ([2, 4, 6], 3, 7, no(28, 7)),
        // A gate extension of no ring.
        ([2, 4, 4], 4, 4, passes(4)),
        ([2, 4, 4], 4, 5, no(28, 5)),
        ([2, 4, 4], 5, 4, no(28, 5)),
    ];
    for ([r1, r2, r3], ipr, ring, answer) in table {
        let name = format!("rings {r1} {r2} {r3}, IPR's {ipr}, the pointer's {ring}");
        cases.add(name, to(ipr, target(r1, r2, r3)), first(ring), answer);
    }
    // 01's cases 3 to 7.
    for (number, rings, ipr, ring, wordno, answer) in [
        (3, [4, 4, 6], 5, 5, 1, passes(4)),
        (4, [4, 4, 6], 5, 5, 2, fault(27, pointer(5, TARGET, 2))),
        (5, [4, 4, 6], 7, 7, 1, fault(28, pointer(7, TARGET, 1))),
        (6, [4, 4, 6], 3, 3, 1, fault(29, pointer(3, TARGET, 1))),
        (7, [2, 5, 5], 3, 4, 1, fault(30, pointer(4, TARGET, 1))),
    ] {
        let [r1, r2, r3] = rings;
        let machine = to(ipr, Descriptor { gate: 2, ..target(r1, r2, r3) });
        cases.add(format!("case {number}"), machine, pointer(ring, TARGET, wordno), answer);
    }
}

/// All brackets with all rings of IPR and of the pointer, E on and off. Of the larger of the two rings: 13, 26; above R3 it
/// is 28, below R1 29. From R1 to R2 the new ring is that ring, which is IPR's own unless the pointer's is above it: then
/// 30. Above R2 the new ring is R2: 30 where IPR's is below that.
pub fn brackets() -> impl Iterator<Item = Case> {
    (0..512 * 64 * 2_u32).map(|draw| {
        let [r1, r2, r3, ipr, ring] = [12, 9, 6, 3, 0].map(|low| (draw >> low & 7) as u8);
        let e = draw >> 15 == 0;
        let larger = if ring > ipr { ring } else { ipr };
        let is_ordered = [r1, r2, r3].is_sorted();
        let answer = match larger {
            _ if !is_ordered => fault(13, first(larger)),
            _ if !e => fault(26, first(larger)),
            above if above > r3 => fault(28, first(larger)),
            below if below < r1 => fault(29, first(larger)),
            extended if extended > r2 && r2 <= ipr => passes(r2),
            inside if inside <= r2 && ring <= ipr => passes(ipr),
            _ => fault(30, first(larger)),
        };
        let name = format!("brackets {r1} {r2} {r3}, E {e}, IPR's ring {ipr}, the pointer's {ring}");
        Case { name, machine: to(ipr, Descriptor { e, ..target(r1, r2, r3) }), pointer: first(ring), answer }
    })
}

// ---- Order, and what isn't asked.

/// Every mixture of 11 to 15, 26, 27 and of what rings can do: the first no is the answer.
fn faults_in_order(cases: &mut Cases) {
    // For rings 3 5 6: IPR's, the pointer's, the larger; which of 28 to 30 are no.
    let rings: [(u8, u8, u8, &[u8]); 8] = [
        (4, 2, 4, &[]),
        (5, 6, 6, &[]),
        (7, 0, 7, &[28]),
        (4, 7, 7, &[28, 30]),
        (2, 1, 2, &[29]),
        (1, 2, 2, &[29, 30]),
        (4, 5, 5, &[30]),
        (4, 6, 6, &[30]),
    ];
    for mixture in 0..128_u8 {
        let questions = [11, 12, 13, 14, 15, 26, 27];
        let noes: Vec<u8> = (0..7).filter(|place| mixture >> place & 1 == 1).map(|place| questions[place]).collect();
        let is_no = |number: u8| noes.contains(&number);
        for (ipr, ring, larger, ring_noes) in rings {
            let descriptor = Descriptor {
                address: if is_no(14) { 57 } else { 56 },
                r2: if is_no(13) { 7 } else { 5 },
                e: !is_no(26),
                v: !is_no(12),
                gate: if is_no(27) { 7 } else { 9 },
                ..target(3, 5, 6)
            };
            let machine = to(ipr, descriptor).with(|m| {
                if is_no(11) {
                    m.registers.dbr.length = TARGET;
                }
            });
            let wordno = if is_no(15) { 8 } else { 7 };
            let answer = match noes.first().or(ring_noes.first()) {
                Some(number) => fault(*number, pointer(larger, TARGET, wordno)),
                // Inside the bracket, and above it.
                None if larger == 4 => passes(4),
                None => passes(5),
            };
            let name = format!("{noes:?} and {ring_noes:?} no, IPR's ring {ipr}, the pointer's {ring}");
            cases.add(name, machine, pointer(ring, TARGET, wordno), answer);
        }
    }
}

/// The check is as if a CALL stood at IPR: the fetch and what is at IPR aren't asked about, nor is a fault delivered.
fn not_asked(cases: &mut Cases) {
    let code = Descriptor { address: 16, gate: 0, ..target(0, 7, 7) };
    for (name, descriptor) in [
        ("V off", Descriptor { v: false, ..code }),
        ("no rings in order", Descriptor { r1: 7, r2: 0, ..code }),
        ("after memory", Descriptor { address: 57, ..code }),
        ("no words", Descriptor { length: 0, ..code }),
        ("E off", Descriptor { e: false, ..code }),
        ("only for ring 0", Descriptor { r2: 0, r3: 0, ..code }),
        ("only for ring 7", Descriptor { r1: 7, ..code }),
    ] {
        for (ring, answer) in [(4, passes(4)), (6, fault(30, first(6)))] {
            let machine = machine(4).with(|m| m.describe(CODE, descriptor));
            cases.add(format!("IPR's segment: {name}; ring {ring}"), machine, first(ring), answer);
        }
    }
    for (name, ipr) in [
        ("no segment", pointer(4, SEGMENTS, 0)),
        ("segment 4095, word 65535", pointer(4, 4_095, 65_535)),
        ("no word", pointer(4, CODE, 8)),
        ("word 65535", pointer(4, CODE, 65_535)),
        ("no instruction", pointer(4, CODE, 0)),
    ] {
        for (ring, answer) in [(4, passes(4)), (6, fault(30, first(6)))] {
            let machine = machine(4).with(|m| m.registers.ipr = ipr);
            cases.add(format!("IPR at {name}; ring {ring}"), machine, first(ring), answer);
        }
    }
    // Segment 3 would take a frame.
    let saved = |machine: Image| {
        machine.with(|m| {
            m.registers.fault_switch = 1;
            m.registers.save_segment = 3;
            m.registers.handler_segment = CODE;
            m.describe(3, Descriptor { length: 13, w: true, v: true, ..Descriptor::default() });
        })
    };
    cases.add("switch on", saved(machine(4)), first(4), passes(4));
    cases.add("switch on, 30", saved(machine(4)), first(5), fault(30, first(5)));
    cases.add("switch on, 12", saved(to(4, Descriptor::default())), first(3), fault(12, first(4)));
    cases.add("switch on, 3", saved(machine(4).with(|m| m.registers.pr[1].ring = 1)), first(4), refused(3));
    for a in [1, u64::MAX] {
        cases.add(format!("A {a}"), machine(4).with(|m| m.registers.a = a), first(4), passes(4));
    }
    for budget in [0, 2, u32::MAX] {
        cases.add(format!("budget {budget}"), machine(4).with(|m| m.budget = budget), first(4), passes(4));
    }
}

// ---- The program.

fn pointer_bytes(pointer: Pointer) -> [u8; 5] {
    let [segno, wordno] = [pointer.segno, pointer.wordno].map(u16::to_be_bytes);
    [pointer.ring, segno[0], segno[1], wordno[0], wordno[1]]
}

pub(crate) fn me(words: u32) -> Vec<u8> {
    [&b"ME"[..], &words.to_be_bytes()].concat()
}

pub(crate) fn wd(address: u32, word: u64) -> Vec<u8> {
    [&b"WD"[..], &address.to_be_bytes(), &word.to_be_bytes()].concat()
}

pub(crate) fn rn(budget: u32) -> Vec<u8> {
    [&b"RN"[..], &budget.to_be_bytes()].concat()
}

/// A 0, DBR 0 and `length`; IPR in ring 4, segment 1, word 0; PR0 in ring `pr`, the others in ring 4; the switch.
fn st(length: u8, pr: u8, switch: u8) -> Vec<u8> {
    let mut record = b"ST".to_vec();
    record.extend([0; 13]);
    record.push(length);
    record.extend([4, 0, 1, 0, 0]);
    record.extend([pr, 0, 0, 0, 0]);
    record.extend([4, 0, 0, 0, 0].repeat(7));
    record.extend([switch, 0, 0, 0, 0]);
    record
}

/// Segment 2 is words 4 to 11, all gates, open to all rings.
fn open() -> Vec<u8> {
    wd(2, Descriptor { address: 4, ..target(0, 7, 7) }.to_word())
}

pub fn inputs() -> Vec<Input> {
    let mut inputs = Vec::new();
    let mut add = |name: &str, parts: &[&[u8]], text: &str| {
        inputs.push(Input { name: name.to_string(), bytes: parts.concat(), text: format!("{text}\n") });
    };
    let (me, st, open, rn) = (me(32), st(3, 4, 0), open(), rn(0));
    let image = [&me[..], &st, &open, &rn].concat();
    // Segment 2, word 0.
    let [good, no_ring, no_segment]: [&[u8]; 3] = [&[4, 0, 2, 0, 0], &[8, 0, 2, 0, 0], &[4, 16, 2, 0, 0]];

    add("ring 4", &[good, &image], "passes 4");
    add("ring 0", &[&[0, 0, 2, 0, 0], &image], "passes 4");
    add("ring 5", &[&[5, 0, 2, 0, 0], &image], "fault 30 5 2 0");
    add("word 7", &[&[4, 0, 2, 0, 7], &image], "passes 4");
    add("word 8", &[&[4, 0, 2, 0, 8], &image], "fault 15 4 2 8");
    // 512, not 2, and 256, not 1.
    add("word 512", &[&[4, 0, 2, 2, 0], &image], "fault 15 4 2 512");
    add("segment 512", &[&[4, 2, 0, 0, 0], &image], "fault 11 4 512 0");
    add("high bytes first", &[&[0, 1, 2, 3, 4], &image], "fault 11 4 258 772");
    add("segment 0", &[&[1, 0, 0, 0, 0], &image], "fault 12 4 0 0");
    add("the largest numbers", &[&[7, 15, 255, 255, 255], &image], "fault 11 7 4095 65535");
    add("2: ring 8", &[no_ring, &image], "refused 2");
    add("2: ring 255", &[&[255, 0, 2, 0, 0], &image], "refused 2");
    add("2: segment 4098", &[no_segment, &image], "refused 2");
    add("2: segment 65535", &[&[4, 255, 255, 0, 0], &image], "refused 2");

    // Only a budget that isn't the whole of RN matters.
    for budget in [1, 0x0101_0101, u32::MAX] {
        let rn = [&b"RN"[..], &budget.to_be_bytes()].concat();
        add("another budget", &[good, &me, &st, &open, &rn], "passes 4");
    }

    // Every beginning of it: a record's end is 42, all else 41.
    let whole = [good, &image].concat();
    for end in 0..whole.len() {
        let text = if matches!(end, 5 | 11 | 77 | 91) { "refused 42" } else { "refused 41" };
        add(&format!("the first {end} bytes"), &[&whole[..end]], text);
    }
    add("nothing but a pointer that 2 refuses", &[no_ring], "refused 42");
    add("four bytes of one that 2 refuses", &[&no_ring[..4]], "refused 41");
    add("no pointer", &[&image], "refused 41");
    add("the pointer twice", &[good, &whole], "refused 41");
    add("the pointer behind the image", &[&image, good], "refused 41");

    // What the records are refused for comes first; then 2, of the pointer as well; then 3 and 4.
    let numbers: [(&str, &[&[u8]], u8); 9] = [
        ("another mark", &[&me, &st, b"me\0\0\0\x20", &rn], 41),
        ("ST of 59 bytes", &[&me, &st[..61], &open, &rn], 41),
        ("no ME", &[&st, &open, &rn], 42),
        ("no ST", &[&me, &open, &rn], 42),
        ("two ST", &[&me, &st, &st, &rn], 42),
        ("a byte behind RN", &[&me, &st, &open, &rn, &[0]], 42),
        ("ME 8193", &[b"ME\0\0\x20\x01", &st, &open, &rn], 43),
        ("a WD behind memory", &[&me, &st, b"WD\0\0\0\x20\0\0\0\0\0\0\0\0", &rn], 44),
        ("two WDs of an address", &[&me, &st, &open, &open, &rn], 51),
    ];
    for (name, image, number) in numbers {
        let image = image.concat();
        for (which, pointer) in [("", good), (", 2 of the ring", no_ring), (", 2 of SEGNO", no_segment)] {
            add(&format!("{name}{which}"), &[pointer, &image], &format!("refused {number}"));
        }
    }
    for (name, length, pr, switch, number, with_bad_pointer) in [
        ("2 no: a ring", 3, 8, 0, 2, 2),
        ("2 no: the switch", 3, 4, 2, 2, 2),
        ("3 no", 3, 3, 0, 3, 2),
        ("4 no", 33, 4, 0, 4, 2),
        ("3 and 4 no", 33, 3, 0, 3, 2),
        ("2, 3 and 4 no", 33, 3, 2, 2, 2),
    ] {
        let image = [&me[..], &self::st(length, pr, switch), &open, &rn].concat();
        add(name, &[good, &image], &format!("refused {number}"));
        add(&format!("{name}, ring 8"), &[no_ring, &image], &format!("refused {with_bad_pointer}"));
        add(&format!("{name}, segment 4098"), &[no_segment, &image], &format!("refused {with_bad_pointer}"));
        let image = [&me[..], &self::st(length, pr, switch), &open, &open, &rn].concat();
        add(&format!("{name}, 51 first"), &[good, &image], "refused 51");
    }
    add("ME 8192", &[good, b"ME\0\0\x20\0", &st, &open, &rn], "passes 4");
    add("ST last but for RN", &[good, &me, &open, &st, &rn], "passes 4");

    case_12(&mut add);
    inputs
}

/// Pointers into the segments of 01's case 12, asked of its start: ring 4, segment 4, word 0.
fn case_12(add: &mut impl FnMut(&str, &[&[u8]], &str)) {
    let segment = |address, length, r1, r2, r3| Descriptor { address, length, gate: 0, r: true, ..target(r1, r2, r3) };
    let mut image = me(64);
    image.extend(b"ST");
    image.extend([0; 13]);
    image.push(6);
    for segno in [4, 0, 0, 5, 3, 0, 0, 0, 0] {
        image.extend([4, 0, segno, 0, 0]);
    }
    image.extend([0; 5]);
    for (address, word) in [
        (3, Descriptor { w: true, e: false, ..segment(32, 4, 1, 1, 1) }.to_word()),
        (4, segment(16, 8, 4, 4, 4).to_word()),
        (5, Descriptor { gate: 1, ..segment(24, 8, 1, 1, 5) }.to_word()),
        // LDI 7, CALL by PR2, STA by PR3.
        (16, 7 << 32 | 10 << 24),
        (17, 32 << 24 | 1 << 19 | 2 << 16),
        (24, 2 << 24 | 1 << 19 | 3 << 16),
    ] {
        image.extend(wd(address, word));
    }
    image.extend(rn(9));
    for (ring, segno, wordno, text) in [
        (4, 5, 0, "passes 1"),
        (0, 5, 0, "passes 1"),
        (5, 5, 0, "passes 1"),
        (6, 5, 0, "fault 28 6 5 0"),
        (7, 5, 0, "fault 28 7 5 0"),
        (4, 5, 1, "fault 27 4 5 1"),
        (4, 5, 7, "fault 27 4 5 7"),
        (4, 5, 8, "fault 15 4 5 8"),
        (0, 4, 0, "passes 4"),
        (4, 4, 7, "passes 4"),
        (5, 4, 7, "fault 28 5 4 7"),
        (4, 4, 8, "fault 15 4 4 8"),
        (0, 3, 0, "fault 26 4 3 0"),
        (7, 3, 3, "fault 26 7 3 3"),
        (7, 3, 4, "fault 15 7 3 4"),
        (4, 2, 0, "fault 12 4 2 0"),
        (4, 6, 0, "fault 11 4 6 0"),
        (8, 5, 0, "refused 2"),
    ] {
        let name = format!("case 12, ring {ring}, segment {segno}, word {wordno}");
        add(&name, &[&[ring, 0, segno, 0, wordno], &image], text);
    }
}

#[cfg(test)]
mod tests {
    use super::*;
    use crate::{may_call, may_call_text, step};

    fn all() -> impl Iterator<Item = Case> {
        cases().into_iter().chain(brackets())
    }

    #[test]
    fn answers() {
        for Case { name, machine, pointer, answer } in all() {
            assert_eq!(may_call(&machine.registers, &machine.memory, &pointer), answer, "{name}");
        }
    }

    #[test]
    fn answers_of_largest_memories() {
        for Case { name, machine, pointer, answer } in largest_memories() {
            assert_eq!(may_call(&machine.registers, &machine.memory, &pointer), answer, "{name}");
        }
    }

    #[test]
    fn texts() {
        for case in all() {
            if let Some(bytes) = case.input() {
                assert_eq!(may_call_text(&bytes), case.text(), "{}", case.name);
            }
        }
        for Input { name, bytes, text } in inputs() {
            assert_eq!(may_call_text(&bytes), text, "{name}");
        }
    }

    /// A CALL of the pointer answers by the check and moves by its ring.
    #[test]
    fn steps() {
        let mut steps = 0;
        for case in all() {
            let Some((Image { mut registers, mut memory, .. }, reply)) = case.call() else { continue };
            steps += 1;
            assert_eq!(step(&mut registers, &mut memory), reply, "{}", case.name);
            if let Check::Passes { ring } = case.answer {
                assert_eq!(registers.ipr, Pointer { ring, ..case.pointer }, "{}", case.name);
                // PR6 is in no segment that has a ring's number.
                let Registers { ipr, pr, .. } = case.machine.registers;
                let segno = if ring < ipr.ring { u16::from(ring) } else { pr[6].segno };
                assert_eq!(registers.pr[7], pointer(ring, segno, 0), "{}", case.name);
            }
        }
        assert!(steps > 67_000, "{steps}");
    }

    /// Each number of the check is the answer of some case, and so is each new ring.
    #[test]
    fn every_answer() {
        let [mut numbers, mut rings] = [[false; 64], [false; 64]];
        for case in cases().into_iter().chain(largest_memories()) {
            match case.answer {
                Check::Refused { number } | Check::Fault(Fault { number, .. }) => numbers[usize::from(number)] = true,
                Check::Passes { ring } => rings[usize::from(ring)] = true,
            }
        }
        for number in 0..64 {
            assert_eq!(numbers[number], matches!(number, 1..=4 | 11..=15 | 26..=30), "{number}");
            assert_eq!(rings[number], number < 8, "{number}");
        }
    }
}
