//! What clears the marks: LDBR and opcode 42 that are completed, and writes to descriptor words.

use super::*;
use crate::opcodes::*;

pub(super) fn add(cases: &mut Cases) {
    stores(cases);
    same_values(cases);
    refused_stores(cases);
    through_records(cases);
    frames(cases);
    new_words(cases);
    loading(cases);
    loading_faults(cases);
    restoring(cases);
    restoring_faults(cases);
    other_tables(cases);
    many_segments(cases);
}

/// CODE, then TABLE.
fn code_and_table(k: &mut Kept) {
    k.miss(0, CODE);
    k.miss(1, TABLE);
}

fn cleared(look_ups: impl FnOnce(&mut Kept)) -> impl FnOnce(&mut Kept) {
    |k| {
        look_ups(k);
        k.cleared();
    }
}

/// By PR0, which leads to TABLE.
fn into_table(opcode: u8, word: u16) -> Image {
    one(by_pr(opcode, 0, word)).with(|m| m.registers.pr[0].segno = TABLE)
}

/// Some marks that a clear makes 0, and that else stay; none of them is of a segment in use.
fn marked() -> Vec<Record> {
    let mut lent = invalid();
    (lent[4].valid, lent[5].valid, lent[6].valid, lent[15].valid) = (1, 2, 255, 1);
    lent
}

/// What STA, AOS and SPP by `into_table` leave.
fn stored(m: &mut Image, opcode: u8, address: usize) {
    m.memory[address] = match opcode {
        STA => A,
        AOS => m.memory[address] + 1,
        _ => 0x4009_0000,
    };
}

/// Each descriptor word, and the words just before and behind.
fn stores(cases: &mut Cases) {
    for (name, opcode) in [("STA", STA), ("AOS", AOS), ("SPP", SPP)] {
        for word in 0..26 {
            let address = 39 + usize::from(word);
            let machine = into_table(opcode, word);
            if (1..25).contains(&word) {
                let course = Course::new(format!("{name} clears, its word {word} of TABLE"), machine, marked());
                let look_ups = cleared(code_and_table);
                cases.spent(course.completes(0, look_ups, |m| stored(m, opcode, address)));
            } else {
                let course = Course::new(format!("{name} doesn't clear, its word {word} of TABLE"), machine, marked());
                cases.spent(course.completes(0, code_and_table, |m| stored(m, opcode, address)));
            }
        }
    }
    // Reads don't.
    let course = Course::new("LDA of a descriptor word doesn't clear", into_table(LDA, 1), marked());
    cases.spent(course.completes(0, code_and_table, |m| m.registers.a = 0));
}

/// The same value written is a write.
fn same_values(cases: &mut Cases) {
    for word in [1, 5, 24] {
        let machine = into_table(STA, word).with(|m| m.registers.a = m.memory[39 + usize::from(word)]);
        let course = Course::new(format!("STA of the same value clears, word {word}"), machine, marked());
        cases.spent(course.completes(0, cleared(code_and_table), |_| {}));
    }
    let machine = into_table(SPP, 1).with(|m| m.memory[40] = 0x4009_0000);
    let course = Course::new("SPP of the same value clears", machine, marked());
    cases.spent(course.completes(0, cleared(code_and_table), |_| {}));
}

/// A store that faults clears nothing, delivered or not.
fn refused_stores(cases: &mut Cases) {
    for (name, opcode) in [("STA", STA), ("AOS", AOS), ("SPP", SPP)] {
        let machine = into_table(opcode, 3).with(|m| m.describe(TABLE, Descriptor { w: false, ..open(39, 26) }));
        let fault = (23, pointer(4, TABLE, 3));
        let course = Course::new(format!("23 of {name} doesn't clear"), machine.clone(), marked());
        cases.faults(course, fault, 0, code_and_table);
        let course = Course::new(format!("23 of {name}, delivered, doesn't clear"), switched_on(machine), marked());
        cases.spent(course.delivers(fault, 0, |k| {
            code_and_table(k);
            k.miss(2, SAVE);
        }));
    }
}

/// It is where the write lands that decides.
fn through_records(cases: &mut Cases) {
    for (name, opcode) in [("STA", STA), ("AOS", AOS), ("SPP", SPP)] {
        let into_data = |word: u16| one(by_pr(opcode, 0, word));
        let with_data = |machine: &Image, address: u32| {
            let mut lent = keeping(machine, &[CODE, DATA]);
            lent[1].descriptor = open(address, 4).to_word();
            lent[9].valid = 1;
            lent
        };
        let both = |k: &mut Kept| {
            k.hit(0);
            k.hit(1);
        };
        for (address, word, clears) in
            [(40, 0, true), (62, 1, true), (62, 2, false), (36, 3, false), (37, 3, true), (64, 0, false)]
        {
            let machine = into_data(word);
            let lent = with_data(&machine, address);
            let name = format!("{name} through a false record to word {}", address + u32::from(word));
            let course = Course::new(name, machine, lent);
            let change = |m: &mut Image| stored(m, opcode, address as usize + usize::from(word));
            if clears {
                cases.spent(course.completes(0, cleared(both), change));
            } else {
                cases.spent(course.completes(0, both, change));
            }
        }
        // Memory's TABLE would be hit; the record's isn't.
        let machine = into_table(opcode, 3);
        let mut lent = keeping(&machine, &[CODE, TABLE]);
        lent[1].descriptor = open(150, 9).to_word();
        let course = Course::new(format!("{name} through a false record of TABLE"), machine, lent);
        cases.spent(course.completes(0, both, |m| stored(m, opcode, 153)));
    }
}

/// A frame clears if one of its thirteen words is a descriptor word.
fn frames(cases: &mut Cases) {
    let fault = (32, pointer(4, CODE, 0));
    let look_ups = |k: &mut Kept| {
        k.miss(0, CODE);
        k.miss(1, SAVE);
    };
    for (address, clears) in
        [(27, false), (28, true), (29, true), (40, true), (45, true), (51, true), (63, true), (64, false), (65, false)]
    {
        let machine = switched_on(one(plain(0))).with(|m| m.describe(SAVE, Descriptor { address, ..save() }));
        let name = format!("a frame from word {address} on, clears: {clears}");
        let course = Course::new(name, machine, marked());
        let address = address as usize;
        if clears {
            cases.spent(course.delivers_to(address, fault, 0, cleared(look_ups)));
        } else {
            cases.spent(course.delivers_to(address, fault, 0, look_ups));
        }
    }
    // Only the first thirteen words of the segment are written.
    let machine = switched_on(one(plain(0))).with(|m| m.describe(SAVE, open(27, 40)));
    let course = Course::new("a save segment over descriptor words, a frame before them", machine, marked());
    cases.spent(course.delivers_to(27, fault, 0, look_ups));
    // By a record of the save segment.
    for (address, clears) in [(28, true), (27, false)] {
        let machine = switched_on(one(plain(0)));
        let mut lent = keeping(&machine, &[CODE, SAVE]);
        lent[1].descriptor = Descriptor { address, ..save() }.to_word();
        let course = Course::new(format!("a frame through a false record, from word {address} on"), machine, lent);
        let both = |k: &mut Kept| {
            k.hit(0);
            k.hit(1);
        };
        if clears {
            cases.spent(course.delivers_to(28, fault, 0, cleared(both)));
        } else {
            cases.spent(course.delivers_to(27, fault, 0, both));
        }
    }
    // Memory's save segment is over descriptor words, the record's isn't.
    let machine = switched_on(one(plain(0))).with(|m| m.describe(SAVE, Descriptor { address: 45, ..save() }));
    let mut lent = keeping(&machine, &[CODE, SAVE]);
    lent[1].descriptor = save().to_word();
    let course = Course::new("a frame beside the descriptor words, by a false record", machine, lent);
    cases.spent(course.delivers(fault, 0, |k| {
        k.hit(0);
        k.hit(1);
    }));
}

/// After a store over a descriptor the next use has the new word; without one that clears, the old.
fn new_words(cases: &mut Cases) {
    let moved = open(150, 9).to_word();
    let machine = program(4, &[by_pr(LDA, 0, 1), by_pr(LDA, 1, 0), by_pr(STA, 2, 5), by_pr(LDA, 0, 1)]).with(|m| {
        m.registers.pr[2].segno = TABLE;
        m.memory[104] = moved;
    });
    let course = Course::new("a descriptor moved", machine, invalid());
    let course = course.completes(
        0,
        |k| {
            k.miss(0, CODE);
            k.miss(1, DATA);
        },
        |m| m.registers.a = 101 << 32,
    );
    let course = course.completes(
        0,
        |k| {
            k.hit(0);
            k.miss(2, DATA + 1);
        },
        |m| m.registers.a = moved,
    );
    let course = course.completes(
        0,
        cleared(|k: &mut Kept| {
            k.hit(0);
            k.miss(3, TABLE);
        }),
        |m| m.memory[44] = moved,
    );
    // Order of counts now: 4 to 15, 1, 2, 0, 3.
    let look_ups = |k: &mut Kept| {
        k.miss(4, CODE);
        k.miss(5, DATA);
    };
    cases.spent(course.completes(0, look_ups, |m| m.registers.a = 151 << 32));
}

/// Ring 0, by PR0, which leads to FRAME.
fn privileged(opcode: u8, word: u16) -> Image {
    program(0, &[by_pr(opcode, 0, word), plain(LDI)]).with(|m| m.registers.pr[0].segno = FRAME)
}

fn code_and_frame(k: &mut Kept) {
    k.miss(0, CODE);
    k.miss(1, FRAME);
}

/// LDBR's word for an address and a length.
fn dbr_word(Dbr { address, length }: Dbr) -> u64 {
    u64::from(length) << 24 | u64::from(address)
}

/// LDBR clears, the same DBR too; the next step reads by the new one.
fn loading(cases: &mut Cases) {
    let same = Dbr { address: TABLE_AT, length: SEGMENTS };
    let machine = privileged(LDBR, 3).with(|m| m.memory[73] = dbr_word(same) | !0 << 37);
    let course = Course::new("LDBR of the same DBR clears", machine, marked());
    let course = course.completes(0, cleared(code_and_frame), |_| {});
    cases.spent(course.completes(0, |k| k.miss(2, CODE), |m| m.registers.a = 0));
    // Segment 1 is described by word 42 now.
    let machine = privileged(LDBR, 3).with(|m| {
        m.memory[73] = dbr_word(Dbr { address: 41, length: 2 });
        m.memory[42] = code(0, 39).to_word();
    });
    let course = Course::new("LDBR of another DBR clears", machine, marked());
    let loaded = |m: &mut Image| m.registers.dbr = Dbr { address: 41, length: 2 };
    let course = course.completes(0, cleared(code_and_frame), loaded);
    cases.spent(course.completes(0, |k| k.miss(2, CODE), |m| m.registers.a = 0));
    let machine = privileged(LDBR, 3).with(|m| m.memory[73] = 200);
    let course = Course::new("LDBR of LENGTH 0 clears", machine, marked());
    let course = course.completes(0, cleared(code_and_frame), |m| m.registers.dbr = Dbr { address: 200, length: 0 });
    cases.faults(course, (11, pointer(0, CODE, 1)), 0, |_| {});
}

/// An LDBR that faults clears nothing, but its frame may.
fn loading_faults(cases: &mut Cases) {
    let machine = |number: u8| {
        privileged(LDBR, 3).with(|m| match number {
            34 => m.memory[73] = dbr_word(Dbr { address: 177, length: 24 }),
            22 => m.describe(FRAME, Descriptor { r: false, ..open(70, 13) }),
            _ => m.describe(FRAME, open(70, 3)),
        })
    };
    for number in [15, 22, 34] {
        fails(cases, &format!("{number} of LDBR"), machine(number), (number, pointer(0, FRAME, 3)));
    }
}

/// It isn't delivered, it is, and it is with its frame over descriptor words, the last of which is descriptor word 0.
fn fails(cases: &mut Cases, name: &str, machine: Image, fault: (u8, Pointer)) {
    let saved = |k: &mut Kept| {
        code_and_frame(k);
        k.miss(2, SAVE);
    };
    let course = Course::new(format!("{name} doesn't clear"), machine.clone(), marked());
    cases.faults(course, fault, 0, code_and_frame);
    let course = Course::new(format!("{name}, delivered, doesn't clear"), switched_on(machine.clone()), marked());
    cases.spent(course.delivers(fault, 0, saved));
    let over = switched_on(machine).with(|m| m.describe(SAVE, Descriptor { address: 28, ..save() }));
    let course = Course::new(format!("{name}, delivered over descriptor words, clears"), over, marked());
    cases.spent(course.delivers_to(28, fault, 0, cleared(saved)));
}

/// A frame at word 70, for ring 4, word 6 of CODE.
fn frame_at_70(m: &mut Image) -> Registers {
    let saved = Registers {
        a: 77,
        ipr: pointer(4, CODE, 6),
        pr: [0, 1, 2, 3, 4, 5, 6, 7].map(|number| pointer(4, 30 + number, number)),
        ..m.registers
    };
    m.memory[72] = saved.a;
    m.memory[73] = dbr_word(saved.dbr);
    for (word, to) in m.memory[74..].iter_mut().zip([saved.ipr].iter().chain(&saved.pr)) {
        *word = leading_to(*to, false);
    }
    saved
}

fn restoring(cases: &mut Cases) {
    let machine = privileged(RCU, 0).with(|m| {
        frame_at_70(m);
        m.memory[6] = Instruction { lit: 3, ..plain(LDI) }.to_word();
    });
    let saved = frame_at_70(&mut machine.clone());
    let course = Course::new("opcode 42 clears", machine.clone(), marked());
    let course = course.step(0, cleared(code_and_frame), |m| m.registers = saved);
    cases.spent(course.completes(0, |k| k.miss(2, CODE), |m| m.registers.a = 3));
    // A record of FRAME, false: the frame is elsewhere.
    let elsewhere = machine.with(|m| {
        let words: Vec<u64> = m.memory[70..83].to_vec();
        m.memory[150..163].copy_from_slice(&words);
        m.memory[70..83].fill(0);
    });
    let mut lent = keeping(&elsewhere, &[CODE, FRAME]);
    lent[1].descriptor = open(150, 13).to_word();
    let course = Course::new("opcode 42 by a false record", elsewhere, lent);
    let both = |k: &mut Kept| {
        k.hit(0);
        k.hit(1);
    };
    cases.spent(course.step(0, cleared(both), |m| m.registers = saved));
}

/// An opcode 42 that faults clears nothing, but its frame may.
fn restoring_faults(cases: &mut Cases) {
    let machine = |number: u8| {
        privileged(RCU, 0).with(|m| {
            frame_at_70(m);
            match number {
                15 => m.describe(FRAME, open(70, 12)),
                22 => m.describe(FRAME, Descriptor { r: false, ..open(70, 13) }),
                34 => m.memory[73] = dbr_word(Dbr { address: 177, length: 24 }),
                _ => m.memory[82] = leading_to(pointer(3, 37, 7), false),
            }
        })
    };
    for number in [15, 22, 34, 52] {
        fails(cases, &format!("{number} of opcode 42"), machine(number), (number, pointer(0, FRAME, 0)));
    }
}

/// The DBR of the step decides which words are descriptor words.
fn other_tables(cases: &mut Cases) {
    // After LDBR with LENGTH 22 the words 62 and 63 aren't any more.
    for (word, clears) in [(22, true), (23, false), (24, false)] {
        let machine = program(0, &[by_pr(LDBR, 0, 3), by_pr(STA, 1, word)]).with(|m| {
            m.registers.pr[0].segno = FRAME;
            m.registers.pr[1].segno = TABLE;
            m.memory[73] = dbr_word(Dbr { address: TABLE_AT, length: 22 });
        });
        let course = Course::new(format!("after LDBR a store to word {word} of TABLE"), machine, marked());
        let course = course.completes(0, cleared(code_and_frame), |m| m.registers.dbr.length = 22);
        let look_ups = |k: &mut Kept| {
            k.miss(2, CODE);
            k.miss(3, TABLE);
        };
        let change = |m: &mut Image| m.memory[39 + usize::from(word)] = A;
        if clears {
            cases.spent(course.completes(0, cleared(look_ups), change));
        } else {
            cases.spent(course.completes(0, look_ups, change));
        }
    }
}

/// The last of 4,096 descriptor words clears, the words beside them don't.
fn many_segments(cases: &mut Cases) {
    for (name, opcode) in [("STA", STA), ("AOS", AOS), ("SPP", SPP)] {
        for (word, clears) in [(0, false), (1, true), (256, true), (257, true), (4_096, true), (4_097, false)] {
            let machine = with_many_segments(into_table(opcode, word)).with(|m| m.describe(TABLE, open(199, 4_098)));
            let course = Course::new(format!("{name} to word {word} of a large TABLE"), machine, marked());
            let change = |m: &mut Image| stored(m, opcode, 199 + usize::from(word));
            if clears {
                cases.spent(course.completes(0, cleared(code_and_table), change));
            } else {
                cases.spent(course.completes(0, code_and_table, change));
            }
        }
    }
}
