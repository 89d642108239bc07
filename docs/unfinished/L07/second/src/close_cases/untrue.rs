//! False records: their words are put to the questions like words of memory, and say where an access goes.

use super::*;
use crate::opcodes::*;

pub(super) fn add(cases: &mut Cases) {
    refusing(cases);
    letting_through(cases);
    elsewhere(cases);
    refusing_fetches(cases);
    targets(cases);
    untrue_saves(cases);
    overwritten(cases);
}

/// CODE's record is true, DATA's is this one.
fn with_data(machine: &Image, word: Descriptor) -> Vec<Record> {
    let mut lent = keeping(machine, &[CODE, DATA]);
    lent[1].descriptor = word.to_word();
    lent
}

/// Both are hits.
fn both(k: &mut Kept) {
    k.hit(0);
    k.hit(1);
}

/// Words of a record of DATA that fail for word 1 in ring 4, where memory's passes; reads and writes.
fn refused_words() -> Vec<(u8, &'static str, Descriptor)> {
    let good = data(DATA);
    vec![
        (12, "V off", Descriptor { v: false, ..good }),
        (12, "zeros", Descriptor::default()),
        (13, "R1 above R2", Descriptor { r1: 7, r2: 6, ..good }),
        (13, "R2 above R3", Descriptor { r1: 5, r2: 6, r3: 5, ..good }),
        (14, "one word too far", Descriptor { address: 197, ..good }),
        (14, "the largest", Descriptor { address: 0xff_ffff, length: 65_535, ..good }),
        (15, "one word", Descriptor { length: 1, ..good }),
        (15, "no word", Descriptor { length: 0, ..good }),
    ]
}

fn refusing(cases: &mut Cases) {
    let at = pointer(4, DATA, 1);
    let unreadable = [
        (22, "R off", Descriptor { r: false, ..data(DATA) }),
        (22, "R2 below", Descriptor { r1: 3, r2: 3, ..data(DATA) }),
    ];
    let unwritable =
        [(23, "W off", Descriptor { w: false, ..data(DATA) }), (23, "R1 below", Descriptor { r1: 3, ..data(DATA) })];
    let each = |opcode: u8| match opcode {
        LDA | CNT => [refused_words(), unreadable.to_vec()].concat(),
        STA | SPP => [refused_words(), unwritable.to_vec()].concat(),
        _ => [refused_words(), unreadable.to_vec(), unwritable.to_vec()].concat(),
    };
    for opcode in [LDA, CNT, STA, SPP, AOS] {
        for (number, name, word) in each(opcode) {
            let machine = one(by_pr(opcode, 0, 1));
            let lent = with_data(&machine, word);
            let course = Course::new(format!("{number} by a record, {name}, of {opcode}"), machine.clone(), lent);
            cases.faults(course, (number, at), 0, both);
            let lent = with_data(&machine, word);
            let name = format!("{number} by a record, {name}, of {opcode}, delivered");
            let course = Course::new(name, switched_on(machine), lent);
            cases.spent(course.delivers((number, at), 0, |k| {
                both(k);
                k.miss(2, SAVE);
            }));
        }
    }
    for (number, name, word) in [refused_words(), unreadable.to_vec()].concat() {
        let machine = one(Instruction { i: true, ..by_pr(EAP, 0, 1) });
        let lent = with_data(&machine, word);
        let course = Course::new(format!("{number} by a record of a pointer word, {name}"), machine, lent);
        cases.faults(course, (number, at), 0, both);
    }
}

/// Memory's word would fail, the record's doesn't.
fn letting_through(cases: &mut Cases) {
    let failing = [refused_words(), vec![(22, "R off", Descriptor { r: false, ..data(DATA) })]].concat();
    for (number, name, word) in failing {
        let machine = one(by_pr(LDA, 0, 1)).with(|m| m.describe(DATA, word));
        let lent = with_data(&machine, data(DATA));
        let course = Course::new(format!("a record lets by what would be {number}, {name}"), machine, lent);
        cases.spent(course.completes(0, both, |m| m.registers.a = 101 << 32));
    }
    for (name, word) in
        [("W off", Descriptor { w: false, ..data(DATA) }), ("R1 below", Descriptor { r1: 3, ..data(DATA) })]
    {
        let machine = one(by_pr(STA, 0, 1)).with(|m| m.describe(DATA, word));
        let lent = with_data(&machine, data(DATA));
        let course = Course::new(format!("a record lets by what would be 23, {name}"), machine, lent);
        cases.spent(course.completes(0, both, |m| m.memory[101] = A));
    }
    // R1 of the record raises the ring, not memory's.
    let machine = one(through(EAP)).with(|m| m.memory[100] = leading_to(pointer(1, OTHER, 3), false));
    let lent = with_data(&machine, Descriptor { r1: 5, ..data(DATA) });
    let course = Course::new("R1 of the record raises the ring", machine, lent);
    cases.spent(course.completes(1, both, |m| m.registers.pr[5] = pointer(5, OTHER, 3)));
}

/// The access goes where the record says.
fn elsewhere(cases: &mut Cases) {
    let there = open(150, 9);
    for word in [0, 1, 8] {
        let read = one(by_pr(LDA, 0, word));
        let course = Course::new(format!("word {word} is read elsewhere"), read.clone(), with_data(&read, there));
        let value = (150 + u64::from(word)) << 32;
        cases.spent(course.completes(0, both, |m| m.registers.a = value));
        let written = one(by_pr(STA, 0, word));
        let lent = with_data(&written, there);
        let course = Course::new(format!("word {word} is written elsewhere"), written, lent);
        cases.spent(course.completes(0, both, |m| m.memory[150 + usize::from(word)] = A));
    }
    let added = one(by_pr(AOS, 0, 2));
    let course = Course::new("AOS elsewhere", added.clone(), with_data(&added, there));
    cases.spent(course.completes(0, both, |m| m.memory[152] += 1));
    let stored = one(by_pr(SPP, 0, 2));
    let course = Course::new("SPP elsewhere", stored.clone(), with_data(&stored, there));
    cases.spent(course.completes(0, both, |m| m.memory[152] = 0x4009_0000));
    let chain = one(through(LDA)).with(|m| m.memory[150] = leading_to(pointer(0, DATA, 3), false));
    let course = Course::new("a pointer word elsewhere, and its target", chain.clone(), with_data(&chain, there));
    let look_ups = |k: &mut Kept| {
        both(k);
        k.hit(1);
    };
    cases.spent(course.completes(1, look_ups, |m| m.registers.a = 153 << 32));
    // A program elsewhere; the machine's own has no opcode.
    let machine = one(plain(0)).with(|m| {
        m.memory[150] = Instruction { lit: 5, ..plain(LDI) }.to_word();
        m.memory[151] = by_pr(STA, 0, 0).to_word();
    });
    let mut lent = keeping(&machine, &[CODE]);
    lent[0].descriptor = code(150, 2).to_word();
    let course = Course::new("a program elsewhere", machine, lent);
    let course = course.completes(0, |k| k.hit(0), |m| m.registers.a = 5);
    let look_ups = |k: &mut Kept| {
        k.hit(0);
        k.miss(1, DATA);
    };
    let course = course.completes(0, look_ups, |m| m.memory[100] = 5);
    cases.faults(course, (15, pointer(4, CODE, 2)), 0, |k| k.hit(0));
    // LDBR and opcode 42 read elsewhere.
    let machine = program(0, &[by_pr(LDBR, 0, 1)]).with(|m| m.memory[151] = 23 << 24 | 41);
    let course = Course::new("LDBR elsewhere", machine.clone(), with_data(&machine, there));
    let look_ups = |k: &mut Kept| {
        both(k);
        k.cleared();
    };
    cases.spent(course.completes(0, look_ups, |m| m.registers.dbr = Dbr { address: 41, length: 23 }));
}

fn refusing_fetches(cases: &mut Cases) {
    let at = pointer(4, CODE, 0);
    let good = code(0, 39);
    let words: [(u8, &str, Descriptor); 8] = [
        (12, "V off", Descriptor { v: false, ..good }),
        (13, "R1 above R2", Descriptor { r1: 5, r2: 4, ..good }),
        (14, "too long", Descriptor { length: 201, ..good }),
        (15, "no word", Descriptor { length: 0, ..good }),
        (21, "E off", Descriptor { e: false, ..good }),
        (21, "R1 above", Descriptor { r1: 5, ..good }),
        (21, "R2 below", Descriptor { r2: 3, ..good }),
        (21, "all but E", Descriptor { e: false, w: true, ..good }),
    ];
    for (number, name, word) in words {
        let machine = one(plain(LDI));
        let mut lent = keeping(&machine, &[DATA, CODE]);
        lent[1].descriptor = word.to_word();
        let course = Course::new(format!("{number} of a fetch by a record, {name}"), machine.clone(), lent.clone());
        cases.faults(course, (number, at), 0, |k| k.hit(1));
        let name = format!("{number} of a fetch by a record, {name}, delivered");
        let course = Course::new(name, switched_on(machine), lent);
        // The first record has count 0.
        cases.spent(course.delivers((number, at), 0, |k| {
            k.hit(1);
            k.miss(0, SAVE);
        }));
    }
}

/// 25 to 30 of a record.
fn targets(cases: &mut Cases) {
    let to_other = |opcode: u8, ring: u8, word: Descriptor| {
        let machine = one(by_pr(opcode, 0, 2)).with(|m| m.registers.pr[0] = pointer(ring, OTHER, 0));
        let mut lent = keeping(&machine, &[CODE, OTHER]);
        lent[1].descriptor = word.to_word();
        (machine, lent)
    };
    let good = code(84, 8);
    let rings = |r1: u8, r2: u8, r3: u8| Descriptor { r1, r2, r3, ..good };
    let refused: [(u8, u8, u8, Descriptor); 9] = [
        (12, TRA, 4, Descriptor { v: false, ..good }),
        (15, RETURN, 4, Descriptor { length: 2, ..good }),
        (25, TRA, 4, Descriptor { e: false, ..good }),
        (25, RETURN, 4, rings(0, 3, 7)),
        (26, CALL, 4, Descriptor { e: false, ..good }),
        (27, CALL, 4, Descriptor { gate: 2, ..good }),
        (28, CALL, 4, rings(1, 2, 3)),
        (29, CALL, 4, rings(5, 6, 7)),
        (30, CALL, 5, rings(1, 5, 7)),
    ];
    for (number, opcode, ring, word) in refused {
        let (machine, lent) = to_other(opcode, ring, word);
        let course = Course::new(format!("{number} of opcode {opcode} by a record"), machine, lent);
        cases.faults(course, (number, pointer(ring, OTHER, 2)), 0, both);
    }
    // The new ring is R2 of the record, and the next fetch goes by it too.
    let (machine, lent) = to_other(CALL, 4, Descriptor { gate: 3, address: 150, ..rings(1, 2, 5) });
    let course = Course::new("the new ring is R2 of the record", machine, lent);
    let course = course.step(0, both, |m| {
        m.registers.ipr = pointer(2, OTHER, 2);
        m.registers.pr[7] = pointer(2, 2, 0);
    });
    cases.faults(course, (32, pointer(2, OTHER, 2)), 0, |k| k.hit(1));
    // Memory's would be no code at all.
    let (machine, lent) = to_other(TRA, 4, good);
    let machine = machine.with(|m| m.describe(OTHER, Descriptor::default()));
    let course = Course::new("a record lets a transfer by", machine, lent);
    cases.spent(course.step(0, both, |m| m.registers.ipr = pointer(4, OTHER, 2)));
}

/// The frame goes where a record of the save segment says, if that will do.
fn untrue_saves(cases: &mut Cases) {
    let fault = (32, pointer(4, CODE, 0));
    let machine = switched_on(one(plain(0)));
    let with_save = |machine: &Image, word: Descriptor| {
        let mut lent = keeping(machine, &[CODE, SAVE]);
        lent[1].descriptor = word.to_word();
        lent
    };
    let lent = with_save(&machine, Descriptor { address: 150, ..save() });
    let course = Course::new("the frame goes elsewhere", machine.clone(), lent);
    cases.spent(course.delivers_to(150, fault, 0, both));
    let lacks: [(&str, Descriptor); 5] = [
        ("12", Descriptor { v: false, ..save() }),
        ("13", Descriptor { r1: 1, ..save() }),
        ("14", Descriptor { address: 188, ..save() }),
        ("a word", Descriptor { length: 12, ..save() }),
        ("W", Descriptor { w: false, ..save() }),
    ];
    for (lack, word) in lacks {
        let course = Course::new(
            format!("a record of the save segment lacks {lack}"),
            machine.clone(),
            with_save(&machine, word),
        );
        cases.faults(course, fault, 0, both);
        let lacking = machine.clone().with(|m| m.describe(SAVE, word));
        let lent = with_save(&lacking, save());
        let course = Course::new(format!("the save segment lacks {lack}, its record doesn't"), lacking, lent);
        cases.spent(course.delivers(fault, 0, both));
    }
}

/// A false record is gone once a miss has overwritten it; memory's word is read then.
fn overwritten(cases: &mut Cases) {
    let machine = program(4, &[by_pr(LDA, 0, 1), by_pr(LDA, 1, 1), by_pr(LDA, 0, 1)]);
    let others: Vec<u16> = [CODE, DATA].into_iter().chain(DATA + 2..DATA + 16).collect();
    let mut lent = keeping(&machine, &others);
    lent[1].descriptor = open(150, 9).to_word();
    // DATA's has count 0.
    (lent[0].count, lent[1].count) = (1, 0);
    let course = Course::new("a false record is overwritten", machine, lent);
    let course = course.completes(0, both, |m| m.registers.a = 151 << 32);
    // The place with count 0 is 2 now.
    let look_ups = |k: &mut Kept| {
        k.hit(0);
        k.miss(2, DATA + 1);
    };
    let course = course.completes(0, look_ups, |m| m.registers.a = 105 << 32);
    cases.spent(course.completes(0, both, |m| m.registers.a = 151 << 32));
    // With nothing else between, it is the one.
    let machine = program(4, &[by_pr(LDA, 1, 1), by_pr(LDA, 0, 1)]);
    let mut lent = keeping(&machine, &others);
    lent[1].descriptor = open(150, 9).to_word();
    (lent[0].count, lent[1].count) = (1, 0);
    let course = Course::new("a false record with count 0 is overwritten first", machine, lent);
    let look_ups = |k: &mut Kept| {
        k.hit(0);
        k.miss(1, DATA + 1);
    };
    let course = course.completes(0, look_ups, |m| m.registers.a = 105 << 32);
    let look_ups = |k: &mut Kept| {
        k.hit(0);
        k.miss(2, DATA);
    };
    cases.spent(course.completes(0, look_ups, |m| m.registers.a = 101 << 32));
}
