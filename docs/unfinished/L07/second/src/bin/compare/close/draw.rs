//! Records for drawn machines: true, untrue or invalid, in some order, some with other marks, counts or numbers.

use super::CloseMachine;
use crate::generator::{budget, Generator};
use crate::random::Random;
use second::close::{Close, Record, RECORDS};
use second::{Dbr, Descriptor, Registers};

/// How records are drawn.
#[derive(Clone, Copy, PartialEq, Eq)]
enum Plan {
    Untrue,
    True,
    Invalid,
}

/// A machine with records: a third have untrue ones.
pub fn draw(random: &mut Random, generator: &mut Generator, drawn: &mut CloseMachine) {
    let CloseMachine { machine, records } = drawn;
    generator.draw(random, machine, 0);
    let plan = match random.below(9) {
        0..=2 => Plan::Untrue,
        3..=6 => Plan::True,
        _ => Plan::Invalid,
    };
    records.clear();
    records.resize(RECORDS, Record::default());
    counts(random, records);
    let mut is_untrue = [false; RECORDS];
    for (record, is_untrue) in records.iter_mut().zip(&mut is_untrue) {
        fill(random, plan, &machine.registers, &machine.memory, record);
        *is_untrue = plan == Plan::Untrue && random.chance(500);
        if *is_untrue {
            record.descriptor = near(random, record.descriptor, &machine.registers, &machine.memory);
        }
    }
    let budget = budget(random);
    // Code is drawn where the records lead. Where they are refused it needn't be.
    match Close::of_call(records, &machine.registers, machine.memory.len()) {
        Ok(close) => generator.code_by(close, random, machine, budget),
        Err(_) => machine.budget = budget,
    }
    // It may have changed descriptor words.
    for (record, is_untrue) in records.iter_mut().zip(is_untrue) {
        if !is_untrue {
            make_true(&machine.registers, &machine.memory, record);
        }
    }
    match random.below(100) {
        0..=5 => spoil_counts(random, records),
        6 | 7 => {
            let count = random.pick(&[0, 1, 8, 15, 15, 17, 17, 18, 32]);
            let last = records[RECORDS - 1];
            records.resize(count, last);
        }
        _ => {}
    }
}

/// 0 to 15 in some order, mostly in this one or after some steps of a run.
fn counts(random: &mut Random, records: &mut [Record]) {
    let turn = random.below(RECORDS);
    for (place, record) in records.iter_mut().enumerate() {
        record.count = ((place + turn) % RECORDS) as u8;
    }
    if random.chance(600) {
        for last in (1..RECORDS).rev() {
            let other = random.below(last + 1);
            (records[last].count, records[other].count) = (records[other].count, records[last].count);
        }
    }
}

/// A segment that the machine has, or few others; its word; a mark.
fn fill(random: &mut Random, plan: Plan, registers: &Registers, memory: &[u64], record: &mut Record) {
    let segments = usize::from(registers.dbr.length.clamp(1, 24));
    record.segment = match random.below(40) {
        0 => random.below(4_096) as u16,
        1 => (random.below(segments) | 4_096) as u16,
        2 => registers.dbr.length,
        3..=5 => registers.ipr.segno,
        6 => registers.save_segment,
        _ => random.below(segments) as u16,
    };
    record.descriptor = random.next();
    make_true(registers, memory, record);
    record.valid = match (plan, random.below(20)) {
        (_, 0) => random.pick(&[2, 3, 128, 254, 255]),
        (Plan::Invalid, _) => 0,
        (_, 1..=4) => 0,
        _ => 1,
    };
}

/// Where the segment has a descriptor.
fn make_true(registers: &Registers, memory: &[u64], record: &mut Record) {
    let Dbr { address, length } = registers.dbr;
    if record.segment < length {
        let word = memory.get(address as usize + usize::from(record.segment)).copied();
        record.descriptor = word.unwrap_or(record.descriptor);
    }
}

/// A word that might be this one's: mostly a descriptor with one thing changed.
fn near(random: &mut Random, word: u64, registers: &Registers, memory: &[u64]) -> u64 {
    let words = memory.len();
    let old = Descriptor::from_word(word);
    let within = |address: usize| address.min(words.saturating_sub(usize::from(old.length))) as u32;
    let changed = match random.below(24) {
        0..=6 => Descriptor { address: within(old.address as usize + random.between(1, 9)), ..old },
        7 | 8 => Descriptor { address: random.below(words) as u32, ..old },
        9 | 10 => {
            // Over the descriptor words, or just beside them.
            let table = registers.dbr.address as usize + usize::from(registers.dbr.length);
            Descriptor { address: within(table.saturating_sub(random.below(12))), ..old }
        }
        11 => Descriptor { length: old.length.wrapping_add(random.pick(&[1, 2, 65_535, 65_534])), ..old },
        12 => Descriptor { length: random.below(14) as u16, ..old },
        13 => Descriptor { v: false, ..old },
        14 => Descriptor { r: !old.r, ..old },
        15 | 16 => Descriptor { w: !old.w, ..old },
        17 => Descriptor { e: !old.e, ..old },
        18 => Descriptor { r1: random.below(8) as u8, ..old },
        19 => Descriptor { r2: random.below(8) as u8, r3: 7, ..old },
        20 => Descriptor { r3: random.below(8) as u8, gate: random.below(9) as u16, ..old },
        21 => return word ^ 1 << random.below(64),
        22 => return memory[random.below(words)],
        _ => return random.next(),
    };
    changed.to_word()
}

/// Counts that aren't 0 to 15, each once.
fn spoil_counts(random: &mut Random, records: &mut [Record]) {
    let place = random.below(RECORDS);
    match random.below(6) {
        0 => records[place].count = records[(place + 1) % RECORDS].count,
        1 => records[place].count |= 16,
        2 => records[place].count = random.next() as u8,
        3 => records.iter_mut().for_each(|record| record.count = place as u8),
        4 => records.iter_mut().for_each(|record| record.count += 1),
        _ => records.iter_mut().for_each(|record| record.count = random.below(17) as u8),
    }
}
