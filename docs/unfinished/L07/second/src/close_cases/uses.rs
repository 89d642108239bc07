//! What a step looks up: each opcode, each fault, and the save segment.

use super::*;
use crate::opcodes::*;

pub(super) fn add(cases: &mut Cases) {
    operands(cases);
    without_operand(cases);
    transfers(cases);
    calls(cases);
    faults_after_look_ups(cases);
    save_segments(cases);
    unsaved(cases);
    handlers(cases);
}

/// CODE, then the first of DATA.
fn code_and_data(k: &mut Kept) {
    k.miss(0, CODE);
    k.miss(1, DATA);
}

/// CODE, then OTHER.
fn code_and_other(k: &mut Kept) {
    k.miss(0, CODE);
    k.miss(1, OTHER);
}

/// Reads and writes of word 100, by PR0.
fn operands(cases: &mut Cases) {
    type Change = fn(&mut Image);
    const WORD: u64 = 100 << 32;
    let opcodes: [(&str, u8, Change); 10] = [
        ("LDA", 1, |m| m.registers.a = WORD),
        ("STA", 2, |m| m.memory[100] = A),
        ("ADA", 3, |m| m.registers.a = A + WORD),
        ("SBA", 4, |m| m.registers.a = A - WORD),
        ("ANA", 5, |m| m.registers.a = A & WORD),
        ("ORA", 6, |m| m.registers.a = A | WORD),
        ("XRA", 7, |m| m.registers.a = A ^ WORD),
        // 100 is 1100100.
        ("CNT", 8, |m| m.registers.a = 3),
        ("AOS", 9, |m| m.memory[100] = WORD + 1),
        // PR5 is ring 4, segment 9, word 0.
        ("SPP", 17, |m| m.memory[100] = 0x4009_0000),
    ];
    for (name, opcode, change) in opcodes {
        let machine = one(by_pr(opcode, 0, 0));
        let course = Course::new(format!("{name} looks up its operand"), machine.clone(), invalid());
        cases.spent(course.completes(0, code_and_data, change));
        let lent = keeping(&machine, &[DATA + 9, DATA, CODE]);
        let course = Course::new(format!("{name} finds its operand"), machine.clone(), lent);
        let look_ups = |k: &mut Kept| {
            k.hit(2);
            k.hit(1);
        };
        cases.spent(course.completes(0, look_ups, change));
        // The segment of the instruction: one record, used twice.
        let own = machine.with(|m| {
            m.describe(CODE, Descriptor { w: true, r1: 7, ..code(0, 39) });
            m.memory[0] = Instruction { offset: 30, reg: 5, ..plain(opcode) }.to_word();
            m.memory[30] = WORD;
            // R1 is 7, and no ring below may fetch here.
            m.registers.ipr.ring = 7;
            m.registers.pr.iter_mut().for_each(|pr| pr.ring = 7);
        });
        let course = Course::new(format!("{name} in its own segment"), own, invalid());
        cases.spent(course.completes(
            0,
            |k| k.miss(0, CODE),
            |m| {
                change(m);
                let word = std::mem::replace(&mut m.memory[100], WORD);
                m.memory[30] = if opcode == SPP { 0x7009_0000 } else { word };
            },
        ));
    }
}

/// What has no operand, or doesn't use it: EAP, transfers not taken.
fn without_operand(cases: &mut Cases) {
    let at = pointer(4, CODE, 0);
    for i in [false, true] {
        let ldi = one(Instruction { i, lit: 9, ..by_pr(LDI, 0, 0) });
        let course = Course::new(format!("LDI looks up no operand, I {i}"), ldi, invalid());
        cases.spent(course.completes(0, |k| k.miss(0, CODE), |m| m.registers.a = 9));
        let hlt = program(0, &[Instruction { i, ..by_pr(HLT, 0, 0) }]);
        let course = Course::new(format!("HLT looks up no operand, I {i}"), hlt, invalid());
        cases.halted(course.completes(0, |k| k.miss(0, CODE), |_| {}));
        let none = one(Instruction { i, ..by_pr(99, 0, 0) });
        let course = Course::new(format!("32 looks up no operand, I {i}"), none, invalid());
        cases.faults(course, (32, at), 0, |k| k.miss(0, CODE));
        for opcode in [LDBR, HLT, RCU] {
            let privileged = one(Instruction { i, ..by_pr(opcode, 0, 0) });
            let course = Course::new(format!("33 of {opcode} looks up no operand, I {i}"), privileged, invalid());
            cases.faults(course, (33, at), 0, |k| k.miss(0, CODE));
        }
    }
    // PR5 gets the first word of DATA, which isn't looked up; nor is a segment without a descriptor.
    for segno in [DATA, SEGMENTS] {
        let eap = one(by_pr(EAP, 0, 1)).with(|m| m.registers.pr[0].segno = segno);
        let course = Course::new(format!("EAP of segment {segno} looks up no target"), eap, invalid());
        cases.spent(course.completes(0, |k| k.miss(0, CODE), |m| m.registers.pr[5] = pointer(4, segno, 1)));
        for (name, opcode, a) in [("TZE", TZE, A), ("TMI", TMI, !0 >> 1)] {
            let not_taken = one(by_pr(opcode, 0, 0)).with(|m| {
                m.registers.pr[0].segno = segno;
                m.registers.a = a;
            });
            let course =
                Course::new(format!("{name} not taken to segment {segno} looks up nothing"), not_taken, invalid());
            cases.spent(course.completes(0, |k| k.miss(0, CODE), |_| {}));
        }
    }
    // Their pointer words are.
    let chain = |opcode: u8| one(through(opcode)).with(|m| m.memory[100] = leading_to(pointer(1, OTHER, 3), false));
    let course = Course::new("EAP looks up its pointer word", chain(EAP), invalid());
    cases.spent(course.completes(1, code_and_data, |m| m.registers.pr[5] = pointer(7, OTHER, 3)));
    let course = Course::new("TZE not taken looks up its pointer word", chain(TZE), invalid());
    cases.spent(course.completes(1, code_and_data, |_| {}));
}

/// Transfers that are taken, CALL and RETURN use their target.
fn transfers(cases: &mut Cases) {
    let to_other = |opcode: u8, a: u64| {
        one(by_pr(opcode, 0, 2)).with(|m| {
            m.registers.pr[0].segno = OTHER;
            m.registers.a = a;
        })
    };
    for (name, opcode, a) in [("TRA", TRA, A), ("TZE", TZE, 0), ("TMI", TMI, 1 << 63), ("RETURN", RETURN, A)] {
        let course = Course::new(format!("{name} looks up its target"), to_other(opcode, a), invalid());
        let course = course.step(0, code_and_other, |m| m.registers.ipr = pointer(4, OTHER, 2));
        // The next fetch finds it there.
        cases.faults(course, (32, pointer(4, OTHER, 2)), 0, |k| k.hit(1));
        let within = one(Instruction { offset: 5, ..plain(opcode) }).with(|m| m.registers.a = a);
        let course = Course::new(format!("{name} within its segment"), within, invalid());
        cases.spent(course.step(0, |k| k.miss(0, CODE), |m| m.registers.ipr.wordno = 5));
        let number = 25;
        let no_code = to_other(opcode, a).with(|m| m.describe(OTHER, Descriptor { e: false, ..code(84, 8) }));
        let course = Course::new(format!("{name} looks up a target that it may not execute"), no_code, invalid());
        cases.faults(course, (number, pointer(4, OTHER, 2)), 0, code_and_other);
    }
    let above = to_other(TRA, A).with(|m| m.registers.pr[0].ring = 5);
    let course = Course::new("24 comes after the look-up", above, invalid());
    cases.faults(course, (24, pointer(5, OTHER, 2)), 0, code_and_other);
}

fn calls(cases: &mut Cases) {
    let call = |rings: [u8; 3], gate: u16| {
        one(by_pr(CALL, 0, 2)).with(|m| {
            let [r1, r2, r3] = rings;
            m.registers.pr[0].segno = OTHER;
            m.describe(OTHER, Descriptor { r1, r2, r3, gate, ..code(84, 8) });
        })
    };
    let course = Course::new("CALL looks up its target", call([1, 1, 5], 3), invalid());
    let course = course.step(0, code_and_other, |m| {
        m.registers.ipr = pointer(1, OTHER, 2);
        m.registers.pr[7] = pointer(1, 1, 0);
    });
    cases.faults(course, (32, pointer(1, OTHER, 2)), 0, |k| k.hit(1));
    for (number, machine) in [
        (26, call([1, 1, 5], 3).with(|m| m.describe(OTHER, Descriptor { e: false, ..code(84, 8) }))),
        (27, call([1, 1, 5], 2)),
        (28, call([1, 1, 3], 3)),
        (29, call([5, 5, 5], 3)),
    ] {
        let course = Course::new(format!("{number} of CALL comes after the look-up"), machine, invalid());
        cases.faults(course, (number, pointer(4, OTHER, 2)), 0, code_and_other);
    }
    let raising = call([1, 5, 5], 3).with(|m| m.registers.pr[0].ring = 5);
    let course = Course::new("30 of CALL comes after the look-up", raising, invalid());
    cases.faults(course, (30, pointer(5, OTHER, 2)), 0, code_and_other);
}

/// A no to 11 isn't looked up; after any other the record is there, whatever its word says.
fn faults_after_look_ups(cases: &mut Cases) {
    let good = data(DATA);
    let broken: [(u8, &str, Descriptor); 7] = [
        (12, "12", Descriptor { v: false, ..good }),
        (12, "12, zeros", Descriptor::default()),
        (13, "13", Descriptor { r1: 7, r2: 6, ..good }),
        (14, "14", Descriptor { address: 197, ..good }),
        (15, "15", Descriptor { length: 1, ..good }),
        (22, "22", Descriptor { r: false, ..good }),
        (22, "22, by ring", Descriptor { r1: 3, r2: 3, ..good }),
    ];
    let at = pointer(4, DATA, 1);
    for (number, name, segment) in broken {
        let machine = one(by_pr(LDA, 0, 1)).with(|m| m.describe(DATA, segment));
        let course = Course::new(format!("{name} after two look-ups"), machine.clone(), invalid());
        cases.faults(course, (number, at), 0, code_and_data);
        let course = Course::new(format!("{name} after two look-ups, delivered"), switched_on(machine), invalid());
        cases.spent(course.delivers((number, at), 0, |k| {
            code_and_data(k);
            k.miss(2, SAVE);
        }));
    }
    let lost = one(by_pr(LDA, 0, 1)).with(|m| m.registers.pr[0].segno = SEGMENTS);
    let course = Course::new("11 of the operand, one look-up", lost.clone(), invalid());
    cases.faults(course, (11, pointer(4, SEGMENTS, 1)), 0, |k| k.miss(0, CODE));
    let course = Course::new("11 of the operand, delivered", switched_on(lost), invalid());
    cases.spent(course.delivers((11, pointer(4, SEGMENTS, 1)), 0, |k| {
        k.miss(0, CODE);
        k.miss(1, SAVE);
    }));
    for (number, name, segment) in
        [(23, "23", Descriptor { w: false, ..good }), (23, "23, by ring", Descriptor { r1: 3, ..good })]
    {
        for (opcode, of) in [(STA, "STA"), (AOS, "AOS"), (SPP, "SPP")] {
            let machine = one(by_pr(opcode, 0, 1)).with(|m| m.describe(DATA, segment));
            let course = Course::new(format!("{name} of {of} after two look-ups"), machine, invalid());
            cases.faults(course, (number, at), 0, code_and_data);
        }
    }
    let fetched: [(u8, Descriptor); 5] = [
        (12, Descriptor { v: false, ..code(0, 39) }),
        (13, Descriptor { r2: 6, r3: 5, ..code(0, 39) }),
        (14, code(0, 201)),
        (15, code(0, 0)),
        (21, Descriptor { e: false, ..code(0, 39) }),
    ];
    for (number, segment) in fetched {
        let machine = one(plain(LDI)).with(|m| m.describe(CODE, segment));
        let course = Course::new(format!("{number} of a fetch after its look-up"), machine, invalid());
        cases.faults(course, (number, pointer(4, CODE, 0)), 0, |k| k.miss(0, CODE));
    }
}

/// No opcode of the table: 32, after the look-up of CODE.
fn no_opcode() -> Image {
    switched_on(one(plain(0)))
}

const FAULT: (u8, Pointer) = (32, Pointer { ring: 4, segno: CODE, wordno: 0 });

/// The save segment is looked up after CODE, and used by its record.
fn save_segments(cases: &mut Cases) {
    let course = Course::new("the save segment is looked up", no_opcode(), invalid());
    cases.spent(course.delivers(FAULT, 0, |k| {
        k.miss(0, CODE);
        k.miss(1, SAVE);
    }));
    let lent = keeping(&no_opcode(), &[DATA, SAVE, CODE]);
    let course = Course::new("the save segment is found", no_opcode(), lent);
    cases.spent(course.delivers(FAULT, 0, |k| {
        k.hit(2);
        k.hit(1);
    }));
    let course = Course::new("switch off, no look-up of the save segment", one(plain(0)), invalid());
    cases.faults(course, FAULT, 0, |k| k.miss(0, CODE));
    let course = Course::new("switch off, the save segment isn't found", one(plain(0)), keeping(&no_opcode(), &[SAVE]));
    cases.faults(course, FAULT, 0, |k| {
        // The first record, of SAVE, has count 0.
        k.miss(0, CODE);
    });
    // CODE itself, and a fetch without a look-up.
    let own = no_opcode().with(|m| {
        m.registers.save_segment = CODE;
        m.describe(CODE, Descriptor { w: true, ..code(0, 39) });
    });
    let course = Course::new("the save segment is the instruction's", own, invalid());
    cases.spent(course.delivers_to(0, FAULT, 0, |k| k.miss(0, CODE)));
    let lost = no_opcode().with(|m| m.registers.ipr.segno = 4_095);
    let course = Course::new("11 of the fetch: the save segment alone is looked up", lost, invalid());
    cases.spent(course.delivers((11, pointer(4, 4_095, 0)), 0, |k| k.miss(0, SAVE)));
    // A step without a fault doesn't look it up.
    let course = Course::new("no fault, no look-up of the save segment", switched_on(one(plain(LDI))), invalid());
    cases.spent(course.completes(0, |k| k.miss(0, CODE), |m| m.registers.a = 0));
}

/// A save segment that won't do has been looked up, if it isn't for 11.
fn unsaved(cases: &mut Cases) {
    let lacks: [(&str, Descriptor); 6] = [
        ("12", Descriptor { v: false, ..save() }),
        ("13", Descriptor { r1: 1, ..save() }),
        ("14", Descriptor { address: 188, ..save() }),
        ("a word", Descriptor { length: 12, ..save() }),
        ("W", Descriptor { w: false, ..save() }),
        ("everything", Descriptor::default()),
    ];
    for (lack, segment) in lacks {
        let machine = no_opcode().with(|m| m.describe(SAVE, segment));
        let course = Course::new(format!("the save segment lacks {lack}"), machine.clone(), invalid());
        cases.faults(course, FAULT, 0, |k| {
            k.miss(0, CODE);
            k.miss(1, SAVE);
        });
        let course = Course::new(
            format!("the save segment lacks {lack}, kept"),
            machine.clone(),
            keeping(&machine, &[SAVE, CODE]),
        );
        cases.faults(course, FAULT, 0, |k| {
            k.hit(1);
            k.hit(0);
        });
    }
    for segno in [SEGMENTS, 4_095] {
        let machine = no_opcode().with(|m| m.registers.save_segment = segno);
        let course = Course::new(format!("save segment {segno}, no look-up"), machine.clone(), invalid());
        cases.faults(course, FAULT, 0, |k| k.miss(0, CODE));
        let mut lent = keeping(&machine, &[DATA, SAVE]);
        lent[1].segment = segno;
        let course = Course::new(format!("save segment {segno}, no look-up though there is a record"), machine, lent);
        cases.faults(course, FAULT, 0, |k| k.miss(0, CODE));
    }
}

/// The handler's segment is looked up by its fetch, not at delivery.
fn handlers(cases: &mut Cases) {
    let halting = no_opcode().with(|m| m.memory[183] = plain(HLT).to_word());
    let delivery = |k: &mut Kept| {
        k.miss(0, CODE);
        k.miss(1, SAVE);
    };
    let course = Course::new("the handler halts", halting.clone(), invalid()).delivers(FAULT, 0, delivery);
    cases.halted(course.completes(0, |k| k.miss(2, HANDLER), |_| {}));
    let lent = keeping(&halting, &[HANDLER]);
    let course = Course::new("no look-up of the handler's segment at delivery", halting, lent);
    // Its record has count 0, and so is overwritten by CODE's.
    let course = course.delivers(FAULT, 0, delivery);
    cases.halted(course.completes(0, |k| k.miss(2, HANDLER), |_| {}));
    let lost = no_opcode().with(|m| m.registers.handler_segment = 4_095);
    let course = Course::new("a handler's segment without a descriptor", lost, invalid()).delivers(FAULT, 0, delivery);
    let again = (11, pointer(0, 4_095, 0));
    cases.spent(course.delivers(again, 0, |k| k.hit(1)).delivers(again, 0, |k| k.hit(1)));
}
