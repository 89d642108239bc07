//! The records beside the plain processor: what holds of every run with them.

use crate::close::{run_close, step_close, Record, RECORDS};
use crate::image::Image;
use crate::machine::{refusal, Registers, Reply};
use crate::words::{Dbr, Descriptor, Instruction, Opcode, Pointer, PointerWord};
use crate::{close_cases, delivery, pointers, run, stacks};

/// Numbers by splitmix64.
struct Numbers(u64);

impl Numbers {
    fn next(&mut self) -> u64 {
        self.0 = self.0.wrapping_add(0x9e37_79b9_7f4a_7c15);
        let mut mixed = self.0;
        mixed = (mixed ^ mixed >> 30).wrapping_mul(0xbf58_476d_1ce4_e5b9);
        mixed = (mixed ^ mixed >> 27).wrapping_mul(0x94d0_49bb_1331_11eb);
        mixed ^ mixed >> 31
    }

    fn below(&mut self, end: u64) -> u64 {
        self.next() % end
    }
}

/// A small machine of open segments, some of them over the descriptor words, with code in most words.
fn drawn(numbers: &mut Numbers) -> Image {
    let (words, segments) = (64, 12);
    let memory = (0..words).map(|_| match numbers.below(8) {
        0 | 1 => {
            let pointer = Pointer { ring: 0, segno: numbers.below(13) as u16, wordno: numbers.below(20) as u16 };
            PointerWord { pointer, i: numbers.below(4) == 0 }.to_word()
        }
        2 => 12 << 24,
        _ => {
            let (opcode, _) = Opcode::TABLE[numbers.below(20) as usize];
            let (offset, prnum) = (numbers.below(6) as u16, numbers.below(8) as u8);
            let [p, i] = [numbers.below(4) > 0, numbers.below(4) == 0];
            Instruction { offset, prnum, p, i, reg: prnum, opcode, lit: numbers.below(3) as u32 }.to_word()
        }
    });
    let mut memory: Vec<u64> = memory.collect();
    for word in &mut memory[..segments] {
        let length = 13 + numbers.below(10) as u16;
        let address = numbers.below(words + 1 - u64::from(length)) as u32;
        let [r, w, e, v] = [0; 4].map(|_| numbers.below(16) > 0);
        *word = Descriptor { address, length, r1: 4, r2: 4, r3: 4, r, w, e, v, gate: 30 }.to_word();
    }
    let mut at = || Pointer { ring: 4, segno: numbers.below(12) as u16, wordno: numbers.below(12) as u16 };
    let (ipr, pr) = (at(), [0; 8].map(|_| at()));
    let registers = Registers {
        a: 0,
        dbr: Dbr { address: 0, length: 12 },
        ipr,
        pr,
        fault_switch: numbers.below(2) as u16,
        save_segment: numbers.below(13) as u16,
        handler_segment: numbers.below(13) as u16,
    };
    Image { registers, memory, budget: numbers.below(40) as u32 }
}

/// Records that are invalid or true, with counts that mostly are in order. One of a segment without a descriptor may be
/// anything.
fn true_records(numbers: &mut Numbers, machine: &Image) -> [Record; RECORDS] {
    let Dbr { address, length } = machine.registers.dbr;
    let mut records = [Record::default(); RECORDS];
    let turn = numbers.below(16) as usize;
    for place in 0..RECORDS {
        let segment = numbers.below(u64::from(length.min(20)) + 2) as u16;
        let word = machine.memory.get(address as usize + usize::from(segment)).copied();
        let is_true = segment < length && word.is_some();
        let descriptor = if is_true { word.unwrap_or(0) } else { numbers.next() };
        let valid = [0, 1, 1, 1, 2, 255][numbers.below(6) as usize];
        records[place] = Record { valid, segment, descriptor, count: (place * 7 + turn) as u8 % 16 };
    }
    if numbers.below(10) == 0 {
        records[turn].count = numbers.next() as u8;
    }
    records
}

/// Directed machines and drawn ones, none of them refused.
fn machines() -> Vec<Image> {
    let with_what_they_leave = delivery::cases().into_iter().chain(stacks::cases()).map(|case| case.run);
    let directed = pointers::cases().into_iter().chain(with_what_they_leave).map(|case| case.machine);
    let numbers = &mut Numbers(7);
    directed
        .chain((0..20_000).map(|_| drawn(numbers)))
        .filter(|m| refusal(&m.registers, m.memory.len()).is_ok())
        .collect()
}

fn counts_are_0_to_15(records: &[Record]) -> bool {
    let mut counts: Vec<u8> = records.iter().map(|record| record.count).collect();
    counts.sort_unstable();
    counts == (0..16).collect::<Vec<u8>>()
}

/// Are the valid ones true by this DBR?
fn are_true(records: &[Record], registers: &Registers, memory: &[u64]) -> bool {
    let Dbr { address, length } = registers.dbr;
    let table = &memory[address as usize..][..usize::from(length)];
    let is_true =
        |record: &Record| table.get(usize::from(record.segment)).is_none_or(|word| *word == record.descriptor);
    records.iter().filter(|record| record.is_valid()).all(is_true)
}

#[test]
fn from_true_records_as_the_plain_processor() {
    let numbers = &mut Numbers(1);
    for machine in machines() {
        let (mut registers, mut memory) = (machine.registers, machine.memory.clone());
        let reply = run(&mut registers, &mut memory, machine.budget);
        let mut records = true_records(numbers, &machine);
        let Image { registers: mut by_records, memory: mut memory_by_records, budget } = machine;
        assert_eq!(run_close(&mut by_records, &mut memory_by_records, &mut records, budget), reply);
        assert_eq!(by_records, registers);
        assert!(memory_by_records == memory);
        assert!(are_true(&records, &registers, &memory), "{records:?}");
    }
}

#[test]
fn counts_are_in_order_after_each_call() {
    let numbers = &mut Numbers(2);
    for Image { mut registers, mut memory, budget } in machines() {
        let mut records = [0; RECORDS].map(|_| Record {
            valid: numbers.below(3) as u8,
            segment: numbers.below(14) as u16,
            descriptor: memory[numbers.below(memory.len() as u64) as usize],
            count: numbers.below(17) as u8,
        });
        for _ in 0..budget.min(50) {
            let reply = step_close(&mut registers, &mut memory, &mut records);
            assert!(counts_are_0_to_15(&records), "{records:?}");
            assert!(!matches!(reply, Reply::Refused { .. }));
        }
        run_close(&mut registers, &mut memory, &mut records, 0);
        assert!(counts_are_0_to_15(&records), "{records:?}");
    }
}

/// Of directed cases as well, those that are refused excepted: they keep their records.
#[test]
fn a_refused_call_keeps_the_records() {
    for case in close_cases::cases() {
        match case.run.run.end {
            pointers::End::Refused(_) => assert_eq!(case.records, case.lent),
            _ => assert!(counts_are_0_to_15(&case.records), "{}", case.run.run.name),
        }
    }
}

/// Steps one by one give what the run does.
#[test]
fn steps_and_runs() {
    let numbers = &mut Numbers(3);
    for machine in machines().into_iter().rev().take(20_000) {
        let mut records = true_records(numbers, &machine);
        // Some are untrue.
        for record in records.iter_mut().take(numbers.below(5) as usize) {
            record.descriptor ^= 1 << numbers.below(64);
        }
        let Image { mut registers, mut memory, budget } = machine.clone();
        let mut by_steps = records;
        let reply = run_close(&mut registers, &mut memory, &mut records, budget);
        let Image { registers: mut registers_by_steps, memory: mut memory_by_steps, .. } = machine;
        let (mut count, mut total, mut last) = (0, 0, None);
        while count < budget && !matches!(last, Some(Reply::Halted { .. } | Reply::Fault { .. })) {
            let step = step_close(&mut registers_by_steps, &mut memory_by_steps, &mut by_steps);
            if !matches!(step, Reply::Fault { .. }) {
                count += 1;
                total += step.pointer_words();
            }
            last = Some(step);
        }
        let of_steps = match last {
            Some(Reply::Fault { fault, .. }) => Reply::Fault { fault, count, pointer_words: total },
            Some(Reply::Halted { .. }) => Reply::Halted { count, pointer_words: total },
            _ => Reply::Spent { count, pointer_words: total },
        };
        assert_eq!(of_steps, reply);
        assert_eq!(registers_by_steps, registers);
        assert!(memory_by_steps == memory);
        assert!(budget == 0 || by_steps == records);
    }
}
