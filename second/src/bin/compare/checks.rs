//! Pointers to put to the check of CALL: the machine's own, those it forms, and others near what is asked.

use crate::random::Random;
use second::{Descriptor, Opcode, Pointer, Registers};

/// So many pointers for a machine, which may be one that is refused.
pub fn draw(random: &mut Random, registers: &Registers, memory: &[u64], count: usize, pointers: &mut Vec<Pointer>) {
    pointers.clear();
    for place in 0..count {
        let pointer = match random.below(20) {
            0..=2 => registers.pr[random.below(8)],
            3 => registers.ipr,
            // The same address again would be asked in vain.
            4..=6 if place < 3 => formed(registers, memory).unwrap_or(registers.ipr),
            7 => out_of_range(random, registers),
            8 => {
                let draw = random.next();
                Pointer { ring: (draw & 7) as u8, segno: (draw >> 8 & 0xfff) as u16, wordno: (draw >> 32) as u16 }
            }
            _ => near(random, registers, memory),
        };
        pointers.push(pointer);
    }
}

/// TPR of the instruction at IPR, if it gets that far.
pub fn formed(registers: &Registers, memory: &[u64]) -> Option<Pointer> {
    second::machine::refusal(registers, memory.len()).ok()?;
    let instruction = second::machine::fetch(registers, memory).ok()?;
    let opcode = second::machine::decode(&instruction, &registers.ipr).ok()?;
    if matches!(opcode, Opcode::Ldi | Opcode::Hlt) {
        return None;
    }
    second::machine::form_address(registers, memory, &instruction).tpr.ok()
}

/// Around the boundaries of 2, two of its fields in most cases as they might be.
fn out_of_range(random: &mut Random, registers: &Registers) -> Pointer {
    let segno = random.below(usize::from(registers.dbr.length.clamp(1, 4_096))) as u16;
    let mut pointer = Pointer { ring: random.below(8) as u8, segno, wordno: random.below(8) as u16 };
    if random.chance(600) {
        pointer.ring = random.pick(&[7, 8, 9, 15, 16, 127, 128, 255, pointer.ring | 8, pointer.ring | 128]);
    }
    if random.chance(600) {
        pointer.segno = random.pick(&[4_094, 4_095, 4_096, 4_097, 65_535, segno | 4_096, segno | 32_768]);
    }
    if random.chance(300) {
        pointer.wordno = random.pick(&[65_534, 65_535]);
    }
    pointer
}

/// A segment with a descriptor, or the one after the last; one of its boundary words; a ring around its brackets or IPR's.
fn near(random: &mut Random, registers: &Registers, memory: &[u64]) -> Pointer {
    let length = usize::from(registers.dbr.length.min(4_095));
    let segno = match random.below(12) {
        0 => length,
        1 => usize::from(registers.ipr.segno),
        // Descriptors that were drawn stand at the front.
        _ => random.below(length.clamp(1, 24)),
    };
    let word = memory.get((registers.dbr.address as usize).saturating_add(segno)).copied().unwrap_or(0);
    let Descriptor { length, gate, r1, r2, r3, .. } = Descriptor::from_word(word);
    let wordno = match random.below(10) {
        0 => length,
        1 => length.wrapping_sub(1),
        2 => gate,
        3 => random.below(usize::from(length).max(1)) as u16,
        4 => 0,
        _ => gate.wrapping_sub(1).min(length.wrapping_sub(1)),
    };
    let ipr = registers.ipr.ring;
    let rings =
        [0, 7, ipr, ipr, ipr.wrapping_sub(1), ipr.wrapping_add(1), r1, r1.wrapping_sub(1), r2, r2 + 1, r3, r3 + 1];
    Pointer { ring: random.pick(&rings), segno: segno as u16, wordno }
}
