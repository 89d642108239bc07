//! 63, the order of the refusals, counts that are put in order, hits and misses.

use super::*;
use crate::opcodes::*;

pub(super) fn add(cases: &mut Cases) {
    refusals(cases);
    counts_put_in_order(cases);
    counts_in_order(cases);
    misses(cases);
    hits(cases);
    marks(cases);
    two_of_one_segment(cases);
    other_segments(cases);
    large_numbers(cases);
    segments_in_turn(cases);
    chains(cases);
}

/// LDI, which uses CODE and nothing else.
fn ldi() -> Image {
    one(Instruction { lit: 7, ..plain(LDI) })
}

/// LDI is performed.
fn loads(course: Course, look_ups: impl FnOnce(&mut Kept)) -> Course {
    course.completes(0, look_ups, |m| m.registers.a = 7)
}

/// Records whose counts aren't 0 to 15, each once. Some are valid: true and untrue, of CODE; some have other marks.
fn disordered() -> Vec<(&'static str, Vec<Record>)> {
    let with = |change: &dyn Fn(&mut [Record])| {
        let mut records = keeping(&ldi(), &[CODE, DATA, CODE]);
        records[2].descriptor = 0;
        (records[5].valid, records[6].valid) = (255, 2);
        change(&mut records);
        records
    };
    vec![
        ("two have 3", with(&|r| r[9].count = 3)),
        ("two have 0", with(&|r| r[1].count = 0)),
        ("two have 15", with(&|r| r[0].count = 15)),
        ("one has 16", with(&|r| r[15].count = 16)),
        ("one has 16 in place of 0", with(&|r| r[0].count = 16)),
        ("one has 255", with(&|r| r[7].count = 255)),
        ("one has 23 in place of 7", with(&|r| r[7].count = 23)),
        ("all are one too high", with(&|r| r.iter_mut().for_each(|record| record.count += 1))),
        ("all have 0", with(&|r| r.iter_mut().for_each(|record| record.count = 0))),
        ("all have 15", with(&|r| r.iter_mut().for_each(|record| record.count = 15))),
        ("their sum is right", with(&|r| (r[4].count, r[6].count) = (5, 5))),
        ("only one that isn't valid is wrong", with(&|r| r[15].count = 14)),
    ]
}

/// 63 comes first, then 1 to 4; whatever the records hold, they stay.
fn refusals(cases: &mut Cases) {
    type Change = fn(&mut Image);
    let refused: [(u8, &str, Change); 7] = [
        (2, "2 no", |m| m.registers.ipr.ring = 8),
        (2, "2 no, by the switch", |m| m.registers.fault_switch = 2),
        (2, "2 no, by the save segment", |m| m.registers.save_segment = 4_096),
        (3, "3 no", |m| m.registers.pr[6].ring = 3),
        (4, "4 no", |m| m.registers.dbr.address = 177),
        (4, "4 no, by LENGTH", |m| m.registers.dbr.length = 4_097),
        (2, "2 to 4 no", |m| {
            m.registers.pr[7] = pointer(0, 4_096, 0);
            m.registers.dbr.address = 200;
        }),
    ];
    let mut lent = disordered();
    lent.push(("in order", keeping(&ldi(), &[CODE, DATA])));
    for count in [0, 1, 15, 17, 32] {
        for (what, records) in &lent {
            let records: Vec<Record> = records.iter().copied().cycle().take(count).collect();
            cases.refused(&format!("63, {count} records, {what}"), &ldi(), &records, 63);
            for (_, name, change) in refused {
                cases.refused(&format!("63, {count} records, {what}, {name}"), &ldi().with(change), &records, 63);
            }
        }
    }
    for (number, name, change) in refused {
        for (what, records) in &lent {
            cases.refused(&format!("{name}, {what}"), &ldi().with(change), records, number);
        }
    }
}

/// 1 with 128 MB of memory: 63 is asked before it, and it leaves the records alone. They aren't in `cases`.
pub fn largest() -> Vec<fn() -> Case> {
    fn large(name: &str, words: usize, lent: Vec<Record>, number: u8) -> Case {
        let machine = ldi().with(|m| m.memory.resize(words, 0));
        let course = delivery::Course::new(name, machine);
        let run = course.part(name.to_string(), 0, 0, 1, End::Refused(number));
        Case { run, records: lent.clone(), lent }
    }
    vec![|| large("63 comes before 1", 16_777_217, vec![unused(0); 15], 63), || {
        large("1 leaves the records alone", 16_777_217, vec![unused(0); 16], 1)
    }]
}

/// The marks become 0 and the counts 0 to 15 in order, with budget 0 as well; segments and words stay.
fn counts_put_in_order(cases: &mut Cases) {
    for (what, lent) in disordered() {
        let mut ready = lent.clone();
        for (count, record) in (0..).zip(&mut ready) {
            (record.valid, record.count) = (0, count);
        }
        let course = Course::new(format!("counts put in order: {what}"), ldi(), lent.clone());
        cases.spent(loads(course.starting_with(ready.clone()), |k| k.miss(0, CODE)));
        // The next step finds them in order.
        let again = program(4, &[plain(LDI), by_pr(LDA, 0, 1)]);
        let course = Course::new(format!("counts put in order once: {what}"), again, lent.clone());
        let course = course.starting_with(ready.clone()).completes(0, |k| k.miss(0, CODE), |m| m.registers.a = 0);
        let look_ups = |k: &mut Kept| {
            k.hit(0);
            k.miss(1, DATA);
        };
        cases.spent(course.completes(0, look_ups, |m| m.registers.a = 101 << 32));
        // A fault without a look-up, and a save segment that is looked up alone.
        let lost = ldi().with(|m| m.registers.ipr.segno = SEGMENTS);
        let at = pointer(4, SEGMENTS, 0);
        let course = Course::new(format!("counts put in order, then 11: {what}"), lost.clone(), lent.clone());
        cases.faults(course.starting_with(ready.clone()), (11, at), 0, |_| {});
        let course = Course::new(format!("counts put in order, 11 delivered: {what}"), switched_on(lost), lent);
        cases.spent(course.starting_with(ready).delivers((11, at), 0, |k| k.miss(0, SAVE)));
    }
}

/// Counts that are 0 to 15 in some order stay, and so do the marks.
fn counts_in_order(cases: &mut Cases) {
    let orders: [(&str, [u8; 16]); 4] = [
        ("downwards", [15, 14, 13, 12, 11, 10, 9, 8, 7, 6, 5, 4, 3, 2, 1, 0]),
        ("by sevens", [0, 7, 14, 5, 12, 3, 10, 1, 8, 15, 6, 13, 4, 11, 2, 9]),
        ("the first two exchanged", [1, 0, 2, 3, 4, 5, 6, 7, 8, 9, 10, 11, 12, 13, 14, 15]),
        ("the last two exchanged", [0, 1, 2, 3, 4, 5, 6, 7, 8, 9, 10, 11, 12, 13, 15, 14]),
    ];
    for (what, counts) in orders {
        let mut lent = keeping(&ldi(), &[DATA, DATA + 1, CODE]);
        for (record, count) in lent.iter_mut().zip(counts) {
            record.count = count;
        }
        let course = Course::new(format!("counts in order, {what}"), ldi(), lent);
        cases.spent(loads(course, |k| k.hit(2)));
    }
}

/// The record with count 0 is overwritten wherever it is, and whatever it holds.
fn misses(cases: &mut Cases) {
    for place in 0..16 {
        let turned = |mut records: Vec<Record>| {
            for (other, record) in records.iter_mut().enumerate() {
                record.count = ((16 + other - place) % 16) as u8;
            }
            records
        };
        let course = Course::new(format!("a miss, count 0 at place {place}"), ldi(), turned(invalid()));
        cases.spent(loads(course, |k| k.miss(place, CODE)));
        let others: Vec<u16> = (DATA..DATA + 16).collect();
        let full = turned(keeping(&ldi(), &others));
        let course = Course::new(format!("a miss among valid ones, count 0 at place {place}"), ldi(), full);
        cases.spent(loads(course, |k| k.miss(place, CODE)));
    }
    // Records that are free aren't preferred to one that is valid.
    let mut lent = keeping(&ldi(), &[DATA]);
    lent[0].descriptor = !0;
    let course = Course::new("a miss overwrites a valid record, others being free", ldi(), lent);
    cases.spent(loads(course, |k| k.miss(0, CODE)));
}

/// A hit at each place and with each count; the word isn't read again.
fn hits(cases: &mut Cases) {
    for place in 0..16 {
        for count in 0..16 {
            let mut lent = invalid();
            (lent[place].valid, lent[place].segment) = (1, CODE);
            // True but for GATE, which nobody asks here.
            lent[place].descriptor = Descriptor { gate: 9, ..code(0, 39) }.to_word();
            // The others have the rest of the counts, in order.
            let mut others = (0..16).filter(|other| *other != count);
            for (other, record) in lent.iter_mut().enumerate() {
                record.count = if other == place { count } else { others.next().unwrap_or(0) };
            }
            let course = Course::new(format!("a hit at place {place}, count {count}"), ldi(), lent);
            cases.spent(loads(course, |k| k.hit(place)));
        }
    }
}

/// A mark is valid if it is 1, and only then; no other is changed on the way.
fn marks(cases: &mut Cases) {
    for mark in [0, 2, 3, 127, 128, 129, 254, 255] {
        for place in [0, 3, 15] {
            let mut lent = invalid();
            lent[place] = Record { valid: mark, segment: CODE, descriptor: code(0, 39).to_word(), ..lent[place] };
            let course = Course::new(format!("mark {mark} at place {place} isn't valid"), ldi(), lent.clone());
            cases.spent(loads(course, |k| k.miss(0, CODE)));
            // Nor with a word that would fail.
            lent[place].descriptor = 0;
            let course = Course::new(format!("mark {mark} at place {place} isn't valid, untrue"), ldi(), lent);
            cases.spent(loads(course, |k| k.miss(0, CODE)));
        }
        // Before one with mark 1.
        let mut lent = keeping(&ldi(), &[CODE, CODE]);
        lent[0] = Record { valid: mark, descriptor: 0, ..lent[0] };
        let course = Course::new(format!("mark {mark}, and a valid one behind it"), ldi(), lent);
        cases.spent(loads(course, |k| k.hit(1)));
    }
}

/// The first is used, whichever is true and whichever was used last.
fn two_of_one_segment(cases: &mut Cases) {
    for [first, second] in [[0, 1], [0, 15], [4, 9], [14, 15]] {
        for is_exchanged in [false, true] {
            let mut lent = invalid();
            for place in [first, second] {
                lent[place] = Record { valid: 1, segment: CODE, descriptor: code(0, 39).to_word(), ..lent[place] };
            }
            if is_exchanged {
                (lent[first].count, lent[second].count) = (lent[second].count, lent[first].count);
            }
            let name = format!("two of one segment at {first} and {second}, exchanged: {is_exchanged}");
            let with = |place: usize, descriptor: u64| {
                let mut lent = lent.clone();
                lent[place].descriptor = descriptor;
                lent
            };
            let course = Course::new(name.clone(), ldi(), lent.clone());
            cases.spent(loads(course, |k| k.hit(first)));
            let course = Course::new(format!("{name}, the second untrue"), ldi(), with(second, 0));
            cases.spent(loads(course, |k| k.hit(first)));
            let course = Course::new(format!("{name}, the first untrue"), ldi(), with(first, 0));
            cases.faults(course, (12, pointer(4, CODE, 0)), 0, |k| k.hit(first));
        }
    }
}

/// A record of another segment isn't one of this, be its number ever so near.
fn other_segments(cases: &mut Cases) {
    for bit in 0..16 {
        let mut lent = keeping(&ldi(), &[CODE; 16]);
        lent.iter_mut().for_each(|record| record.segment ^= 1 << bit);
        let course = Course::new(format!("sixteen records of segment {}", CODE ^ 1 << bit), ldi(), lent);
        cases.spent(loads(course, |k| k.miss(0, CODE)));
    }
    // 11 comes before the look-up: a record above LENGTH isn't used.
    for segno in [SEGMENTS, SEGMENTS + 1, 4_095] {
        let lost = ldi().with(|m| m.registers.ipr.segno = segno);
        let mut lent = keeping(&lost, &[CODE]);
        lent[0].segment = segno;
        let course = Course::new(format!("a record of segment {segno}, which has no descriptor"), lost, lent);
        cases.faults(course, (11, pointer(4, segno, 0)), 0, |_| {});
    }
    let last = ldi().with(|m| {
        m.describe(SEGMENTS - 1, code(0, 39));
        m.registers.ipr.segno = SEGMENTS - 1;
    });
    let course = Course::new("the last segment with a descriptor", last, invalid());
    cases.spent(loads(course, |k| k.miss(0, SEGMENTS - 1)));
}

/// All twelve bits of a segment's number are looked for and kept.
fn large_numbers(cases: &mut Cases) {
    for segno in [255, 256, 257, 512, 1_024, 2_048, 4_094, 4_095] {
        let machine = with_many_segments(program(4, &[plain(LDI), plain(LDI)])).with(|m| {
            m.describe(segno, code(0, 39));
            m.registers.ipr.segno = segno;
        });
        let mut near = invalid();
        for (bit, record) in (0..16).zip(&mut near) {
            (record.valid, record.segment) = (1, segno ^ 1 << bit);
        }
        for (which, lent) in [("", invalid()), (", the others near it", near)] {
            let name = format!("segment {segno} is looked up{which}");
            let course = Course::new(name, machine.clone(), lent);
            let course = course.completes(0, |k| k.miss(0, segno), |m| m.registers.a = 0);
            cases.spent(course.completes(0, |k| k.hit(0), |_| {}));
        }
    }
}

/// Seventeen segments beside CODE: the sixteenth overwrites the first, and the first is looked up anew.
fn segments_in_turn(cases: &mut Cases) {
    let loads: Vec<Instruction> = (0..18).map(|_| Instruction { offset: 20, i: true, ..plain(LDA) }).collect();
    let segments: Vec<u16> = (DATA..DATA + 17).chain([DATA]).collect();
    let machine = program(4, &loads).with(|m| {
        for (word, segno) in m.memory[20..].iter_mut().zip(&segments) {
            *word = leading_to(pointer(0, *segno, 2), false);
        }
    });
    let places = [1, 2, 3, 4, 5, 6, 7, 8, 9, 10, 11, 12, 13, 14, 15, 1, 2, 3];
    let mut course = Course::new("seventeen segments in turn", machine, invalid());
    for (number, (place, segno)) in places.into_iter().zip(segments).enumerate() {
        let look_ups = |k: &mut Kept| {
            if number == 0 {
                k.miss(0, CODE);
            }
            k.hit(0);
            k.miss(place, segno);
        };
        let address = 102 + 4 * u64::from(segno - DATA);
        course = course.completes(1, look_ups, |m| m.registers.a = address << 32);
    }
    cases.spent(course);
}

/// Each pointer word is a use of its segment.
fn chains(cases: &mut Cases) {
    let machine = one(through(LDA)).with(|m| {
        m.memory[100] = leading_to(pointer(0, DATA + 1, 1), true);
        m.memory[105] = leading_to(pointer(0, DATA + 2, 2), true);
        m.memory[110] = leading_to(pointer(0, DATA + 3, 3), false);
    });
    let course = Course::new("a chain over three segments", machine.clone(), invalid());
    let look_ups = |k: &mut Kept| {
        k.miss(0, CODE);
        k.miss(1, DATA);
        k.miss(2, DATA + 1);
        k.miss(3, DATA + 2);
        k.miss(4, DATA + 3);
    };
    cases.spent(course.completes(3, look_ups, |m| m.registers.a = 115 << 32));
    let lent = keeping(&machine, &[DATA + 3, DATA + 2, DATA + 1, DATA, CODE]);
    let course = Course::new("a chain over three segments, all there", machine.clone(), lent);
    let look_ups = |k: &mut Kept| [4, 3, 2, 1, 0].into_iter().for_each(|place| k.hit(place));
    cases.spent(course.completes(3, look_ups, |m| m.registers.a = 115 << 32));
    // Back and forth.
    let back = machine.clone().with(|m| {
        m.memory[105] = leading_to(pointer(0, DATA, 2), true);
        m.memory[102] = leading_to(pointer(0, DATA + 1, 3), false);
    });
    let course = Course::new("a chain back and forth", back, invalid());
    let look_ups = |k: &mut Kept| {
        k.miss(0, CODE);
        k.miss(1, DATA);
        k.miss(2, DATA + 1);
        k.hit(1);
        k.hit(2);
    };
    cases.spent(course.completes(3, look_ups, |m| m.registers.a = 107 << 32));
    // Stopped on the way: at the second pointer word, whose segment was looked up or not.
    for (number, second) in [(12, Descriptor { v: false, ..data(DATA + 1) }), (15, open(104, 1))] {
        let broken = machine.clone().with(|m| m.describe(DATA + 1, second));
        let course = Course::new(format!("{number} at the second pointer word"), broken, invalid());
        cases.faults(course, (number, pointer(7, DATA + 1, 1)), 1, |k| {
            k.miss(0, CODE);
            k.miss(1, DATA);
            k.miss(2, DATA + 1);
        });
    }
    let lost = machine.with(|m| m.memory[100] = leading_to(pointer(0, 4_000, 1), true));
    let course = Course::new("11 at the second pointer word", lost, invalid());
    cases.faults(course, (11, pointer(7, 4_000, 1)), 1, |k| {
        k.miss(0, CODE);
        k.miss(1, DATA);
    });
    sixty_four(cases);
}

/// The 65th pointer word isn't looked up; what the 64th leads to is.
fn sixty_four(cases: &mut Cases) {
    let machine = |i: bool| {
        one(through(LDA)).with(|m| {
            m.describe(DATA, open(100, 64));
            for word in 0..63 {
                m.memory[100 + usize::from(word)] = leading_to(pointer(0, DATA, word + 1), true);
            }
            m.memory[163] = leading_to(pointer(0, FRAME, 2), i);
        })
    };
    let course = Course::new("64 pointer words", machine(false), invalid());
    let look_ups = |k: &mut Kept| {
        k.miss(0, CODE);
        k.miss(1, DATA);
        k.miss(2, FRAME);
    };
    cases.spent(course.completes(64, look_ups, |m| m.registers.a = 72 << 32));
    let course = Course::new("no look-up for the 65th pointer word", machine(true), invalid());
    cases.faults(course, (31, pointer(7, FRAME, 2)), 64, |k| {
        k.miss(0, CODE);
        k.miss(1, DATA);
    });
}
