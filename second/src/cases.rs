//! The thirteen proved cases of document 01.

use crate::machine::{step, Fault, Registers, Reply};
use crate::opcodes::*;
use crate::words::{Dbr, Descriptor, Instruction, Pointer, PointerWord};
use crate::{bench, list};

/// The instruction's segment: words 16 to 23, open to every ring.
const CODE: u16 = 1;
/// The segment in question: words 32 to 39.
const TARGET: u16 = 2;

fn pointer(ring: u8, segno: u16, wordno: u16) -> Pointer {
    Pointer { ring, segno, wordno }
}

/// A segment of 8 words at word 32, with V on.
fn target(r1: u8, r2: u8, r3: u8) -> Descriptor {
    Descriptor { address: 32, length: 8, r1, r2, r3, v: true, ..Descriptor::default() }
}

/// A machine in `ring` that performs `opcode` by PR2, which points to `word` of `segment`.
fn machine(opcode: u8, ring: u8, word: u16, segment: Descriptor) -> (Registers, Vec<u64>) {
    let mut memory = vec![0; 64];
    let code = Descriptor { address: 16, length: 8, r2: 7, r3: 7, r: true, e: true, v: true, ..Descriptor::default() };
    memory[usize::from(CODE)] = code.to_word();
    memory[usize::from(TARGET)] = segment.to_word();
    memory[16] = Instruction { opcode, p: true, prnum: 2, ..Instruction::default() }.to_word();
    let mut registers = Registers {
        dbr: Dbr { address: 0, length: 3 },
        ipr: pointer(ring, CODE, 0),
        pr: [pointer(ring, 0, 0); 8],
        ..Registers::default()
    };
    registers.pr[2] = pointer(ring, TARGET, word);
    (registers, memory)
}

/// Where no pointer word was read.
fn fault(number: u8, at: Pointer) -> Reply {
    Reply::Fault { fault: Fault { number, at }, count: 0, pointer_words: 0 }
}

/// Without a pointer word.
const COMPLETED: Reply = completed(0);

const fn completed(pointer_words: u64) -> Reply {
    Reply::Spent { count: 1, pointer_words }
}

#[test]
fn case_1_pointer_word() {
    let pointer_word = PointerWord::from_word(0x4005_0000);
    assert_eq!(pointer_word, PointerWord { pointer: pointer(4, 5, 0), i: false });
    assert_eq!(pointer_word.to_word(), 0x4005_0000);
}

#[test]
fn case_2_length_0() {
    let (mut registers, mut memory) = machine(LDA, 4, 0, Descriptor { length: 0, r: true, ..target(4, 4, 4) });
    assert_eq!(step(&mut registers, &mut memory), fault(15, pointer(4, TARGET, 0)));
}

#[test]
fn cases_3_to_6_call() {
    let segment = Descriptor { e: true, gate: 2, ..target(4, 4, 6) };
    for (ring, word, number) in [(5, 1, 0), (5, 2, 27), (7, 1, 28), (3, 1, 29)] {
        let (mut registers, mut memory) = machine(CALL, ring, word, segment);
        let reply = step(&mut registers, &mut memory);
        if number == 0 {
            assert_eq!(reply, COMPLETED);
            assert_eq!(registers.ipr, pointer(4, TARGET, word));
            assert_eq!(registers.pr[7], pointer(4, 4, 0));
        } else {
            assert_eq!(reply, fault(number, pointer(ring, TARGET, word)));
        }
    }
}

#[test]
fn case_7_call_that_would_raise_the_ring() {
    let segment = Descriptor { e: true, gate: 1, ..target(2, 5, 5) };
    let (mut registers, mut memory) = machine(CALL, 3, 0, segment);
    registers.pr[2].ring = 4;
    assert_eq!(step(&mut registers, &mut memory), fault(30, pointer(4, TARGET, 0)));
}

#[test]
fn case_8_write_bracket() {
    let segment = Descriptor { w: true, ..target(4, 5, 5) };
    let (mut registers, mut memory) = machine(STA, 4, 3, segment);
    registers.a = 99;
    assert_eq!(step(&mut registers, &mut memory), COMPLETED);
    assert_eq!(memory[35], 99);
    let (mut registers, mut memory) = machine(STA, 5, 3, segment);
    assert_eq!(step(&mut registers, &mut memory), fault(23, pointer(5, TARGET, 3)));
}

#[test]
fn case_9_read_bracket() {
    let segment = Descriptor { r: true, ..target(4, 5, 5) };
    let (mut registers, mut memory) = machine(LDA, 5, 3, segment);
    memory[35] = 99;
    assert_eq!(step(&mut registers, &mut memory), COMPLETED);
    assert_eq!(registers.a, 99);
    let (mut registers, mut memory) = machine(LDA, 6, 3, segment);
    assert_eq!(step(&mut registers, &mut memory), fault(22, pointer(6, TARGET, 3)));
}

#[test]
fn case_10_effective_ring() {
    let (mut registers, mut memory) = machine(EAP, 2, 0, Descriptor { r: true, ..target(3, 3, 3) });
    memory[16] = Instruction { opcode: EAP, p: true, prnum: 2, i: true, reg: 4, ..Instruction::default() }.to_word();
    memory[32] = PointerWord { pointer: pointer(1, 9, 8), i: false }.to_word();
    assert_eq!(step(&mut registers, &mut memory), completed(1));
    assert_eq!(registers.pr[4], pointer(3, 9, 8));
}

#[test]
fn case_11_return_raises_the_prs() {
    let (mut registers, mut memory) = machine(RETURN, 1, 5, Descriptor { e: true, ..target(4, 4, 4) });
    registers.pr[2].ring = 4;
    registers.pr[3].ring = 2;
    registers.pr[5].ring = 6;
    assert_eq!(step(&mut registers, &mut memory), COMPLETED);
    assert_eq!(registers.ipr, pointer(4, TARGET, 5));
    assert_eq!(registers.pr[3].ring, 4);
    assert_eq!(registers.pr[5].ring, 6);
}

/// Case 12's image: ME, ST, the six words that aren't zero, RN.
fn case_12() -> Vec<u8> {
    let mut image = b"ME\0\0\0\x40".to_vec();
    image.extend(b"ST");
    image.extend(0_u64.to_be_bytes());
    image.extend(0_u32.to_be_bytes());
    image.extend(6_u16.to_be_bytes());
    image.extend([4, 0, 4, 0, 0]);
    for pr in 0..8 {
        let segment = match pr {
            2 => 5,
            3 => 3,
            _ => 0,
        };
        image.extend([4, 0, segment, 0, 0]);
    }
    // The switch and both segments.
    image.extend([0; 5]);
    let segment = |address, length, r1, r2, r3| Descriptor {
        address,
        length,
        r1,
        r2,
        r3,
        r: true,
        v: true,
        ..Descriptor::default()
    };
    let words = [
        (3, Descriptor { w: true, ..segment(32, 4, 1, 1, 1) }.to_word()),
        (4, Descriptor { e: true, ..segment(16, 8, 4, 4, 4) }.to_word()),
        (5, Descriptor { e: true, gate: 1, ..segment(24, 8, 1, 1, 5) }.to_word()),
        (16, Instruction { opcode: LDI, lit: 7, ..Instruction::default() }.to_word()),
        (17, Instruction { opcode: CALL, p: true, prnum: 2, ..Instruction::default() }.to_word()),
        (24, Instruction { opcode: STA, p: true, prnum: 3, ..Instruction::default() }.to_word()),
    ];
    for (address, word) in words {
        image.extend(b"WD");
        image.extend(u32::to_be_bytes(address));
        image.extend(u64::to_be_bytes(word));
    }
    image.extend(b"RN\0\0\0\x09");
    image
}

const CASE_12_LISTING: &str = "1 4 4 1 0\n2 1 5 0 0\nfault 23 2 4 3 0 0\n";

#[test]
fn case_12_listing() {
    let mut text = Vec::new();
    assert!(list(&case_12(), &mut text).is_ok());
    assert_eq!(text, CASE_12_LISTING.as_bytes());
}

#[test]
fn case_12_bench() {
    let mut text = [0xee; 641];
    assert_eq!(bench(&case_12(), &mut text[..639]), -45);
    assert_eq!(text, [0xee; 641]);
    let length = CASE_12_LISTING.len();
    assert_eq!(bench(&case_12(), &mut text), length as i64);
    assert_eq!(&text[..length], CASE_12_LISTING.as_bytes());
    assert_eq!(text[length..], [0xee; 641][length..]);
    let image = case_12();
    assert_eq!(bench(&image[..image.len() - 1], &mut text), -41);
}

#[test]
fn case_13_pointer_words() {
    for (chain, number) in [(64, 0), (65, 31)] {
        let segment = Descriptor { length: 128, r: true, ..target(4, 4, 4) };
        let (mut registers, mut memory) = machine(EAP, 4, 0, segment);
        memory.resize(160, 0);
        memory[16] = Instruction { opcode: EAP, p: true, prnum: 2, i: true, ..Instruction::default() }.to_word();
        for word in 0..chain {
            let next = PointerWord { pointer: pointer(0, TARGET, word + 1), i: word + 1 < chain };
            memory[32 + usize::from(word)] = next.to_word();
        }
        let reply = step(&mut registers, &mut memory);
        if number == 0 {
            assert_eq!(reply, completed(64));
            assert_eq!(registers.pr[0], pointer(4, TARGET, 64));
        } else {
            let fault = Fault { number: 31, at: pointer(4, TARGET, 64) };
            assert_eq!(reply, Reply::Fault { fault, count: 0, pointer_words: 64 });
        }
    }
}
