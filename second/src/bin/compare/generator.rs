//! Structured random machines: mostly valid descriptors, and code that is drawn while it runs, so that runs are long.

use crate::compare::Machine;
use crate::random::Random;
use second::opcodes::RCU;
use second::{frame, Dbr, Descriptor, Fault, Instruction, Opcode, Pointer, PointerWord, Registers, Reply};

pub struct Generator {
    current: Vec<u64>,
    decided: Vec<bool>,
}

/// Opcodes and how often they are drawn.
const WEIGHTS: [(u8, usize); 20] = [
    (1, 6),
    (2, 6),
    (3, 4),
    (4, 4),
    (5, 3),
    (6, 3),
    (7, 3),
    (8, 3),
    (9, 5),
    (10, 4),
    (16, 10),
    (17, 6),
    (24, 4),
    (25, 5),
    (26, 5),
    (32, 10),
    (33, 9),
    (40, 3),
    (41, 1),
    (42, 4),
];

/// Each opcode as often as its weight.
const DRAW: [u8; 98] = {
    let mut draw = [0; 98];
    let mut filled = 0;
    let mut entry = 0;
    while entry < WEIGHTS.len() {
        let mut times = 0;
        while times < WEIGHTS[entry].1 {
            draw[filled] = WEIGHTS[entry].0;
            filled += 1;
            times += 1;
        }
        entry += 1;
    }
    assert!(filled == draw.len());
    draw
};

impl Generator {
    pub fn new() -> Generator {
        Generator { current: Vec::new(), decided: Vec::new() }
    }

    /// A machine with descriptors, registers and data; its code is still to be drawn. `lowest` is the least ring of IPR.
    pub fn draw(&mut self, random: &mut Random, machine: &mut Machine, lowest: u8) {
        let size = random.below(1000);
        let words = match size {
            0 => 8192,
            1..=4 => random.between(4090, 4300),
            5..=60 => random.between(257, 600),
            61..=300 => random.between(97, 256),
            _ => random.between(24, 96),
        };
        let memory = &mut machine.memory;
        memory.clear();
        memory.resize(words, 0);
        let segments = random.between(2, if words > 100 { 24 } else { 9 });
        let table = match random.below(8) {
            0 => random.below(words - segments + 1),
            1 => words - segments,
            2..=4 => 0,
            _ => random.below(9),
        };
        let registers = &mut machine.registers;
        registers.dbr = Dbr { address: table as u32, length: segments as u16 };
        if random.chance(10) && words > 4096 {
            registers.dbr.length = 4096.min(words - table) as u16;
        }
        registers.a = data(random);

        // Data: pointer words, instructions, numbers.
        let mut address = 0;
        while address < words {
            let draw = random.next();
            memory[address] = match draw & 15 {
                0..=4 => {
                    let to = Pointer {
                        ring: (draw >> 8 & draw >> 16 & 7) as u8,
                        segno: ((draw >> 24 & 0xff) as usize % segments) as u16,
                        wordno: (draw >> 32 & 15) as u16,
                    };
                    PointerWord { pointer: to, i: draw >> 40 & 7 == 0 }.to_word() | (draw >> 43 & 1) << 50
                }
                5..=7 => candidate(random, segments).to_word(),
                8 => draw >> 4 & 0xff,
                9 => draw,
                10 if draw >> 60 == 0 => u64::MAX,
                // As LDBR reads it.
                11 => match draw >> 62 {
                    0 | 1 => table as u64 | (segments as u64) << 24 | draw & !0 << 37,
                    2 => (table as u64 + (draw >> 8 & draw >> 30 & 31)) | (draw >> 20 & 31) << 24 | draw & !0 << 36,
                    _ => (words as u64 + (draw >> 8 & 1)) | (draw >> 9 & draw >> 10 & 1) << 24 | draw & !0 << 37,
                },
                _ => 0,
            };
            address += if words > 1000 && draw >> 63 == 0 { 37 } else { 1 };
        }

        // Descriptors.
        for segno in 0..segments {
            memory[table + segno] = descriptor(random, words, table + segments).to_word();
        }
        if random.chance(60) {
            let segno = random.below(segments);
            memory[table + segno] = damaged(random, memory[table + segno], words);
        }

        // IPR, in a segment that may mostly be executed.
        let ring = match random.below(3) {
            0 => lowest,
            1 => random.between(usize::from(lowest), 7) as u8,
            _ => random.between(usize::from(lowest), usize::from(lowest.max(4))) as u8,
        };
        let segno = random.below(segments);
        let mut code = Descriptor::from_word(memory[table + segno]);
        if random.chance(970) {
            code.e = true;
            code.r1 = code.r1.min(ring);
            code.r2 = code.r2.max(ring);
            code.r3 = code.r3.max(code.r2);
            memory[table + segno] = code.to_word();
        }
        let word = random.below(usize::from(code.length.max(1))) as u16;
        registers.ipr = Pointer { ring, segno: segno as u16, wordno: word };

        // PRs.
        for pr in &mut registers.pr {
            let draw = random.next();
            let segno = (draw >> 8 & 0xff) as usize % segments;
            let length = (memory[table + segno] >> 24 & 0xffff) as usize;
            pr.ring = if draw & 3 == 0 { ((draw >> 2 & 7) as u8).max(ring) } else { ring };
            pr.segno = segno as u16;
            pr.wordno = ((draw >> 20 & 0xffff) as usize % length.max(1)) as u16;
            if draw >> 58 == 0 {
                pr.wordno = (draw >> 40 & 0xffff) as u16;
            } else if draw >> 58 == 1 {
                pr.segno = (draw >> 40 & 0xfff) as u16;
            }
        }
        stack_pointer(random, registers);
        fault_program(random, machine, segments);
        if words > 120 && random.chance(50) {
            chain(random, machine);
        }
        if random.chance(4) {
            spoil(random, machine);
        }
    }

    /// Draws the code of a machine while it runs, up to `budget` steps, and sets its budget.
    pub fn code(&mut self, random: &mut Random, machine: &mut Machine, budget: u32) {
        machine.budget = budget;
        if second::machine::refusal(&machine.registers, machine.memory.len()).is_err() {
            return;
        }
        self.current.clear();
        self.current.extend_from_slice(&machine.memory);
        self.decided.clear();
        self.decided.resize(machine.memory.len(), false);
        let mut registers = machine.registers;
        let mut since_new = 0;
        for count in 0..budget {
            // Code that is there already, or a fetch that faults, which may be delivered.
            let Some((address, is_last_word)) = self.undecided(&registers) else {
                let (reply, fault) = second::step_and_fault(&mut registers, &mut self.current);
                if !matches!(reply, Reply::Spent { .. }) {
                    break;
                }
                since_new += 1;
                if since_new > 300 && random.chance(2) || fault.is_some() && random.chance(100) {
                    machine.budget = count + 1 + random.below(3) as u32;
                    break;
                }
                continue;
            };
            self.decided[address] = true;
            since_new = 0;
            let is_kept_anyway = random.chance(20);
            let may_fault = registers.fault_switch == 1 && random.chance(80);
            let mut is_done = false;
            for _ in 0..20 {
                let instruction = self.sensible(random, &registers);
                let halts = instruction.opcode == 41 && registers.ipr.ring == 0;
                if halts && !random.chance(100) || is_last_word && matches!(instruction.opcode, 2 | 9 | 17) {
                    continue;
                }
                self.current[address] = instruction.to_word();
                machine.memory[address] = instruction.to_word();
                if instruction.opcode == RCU && registers.ipr.ring == 0 {
                    self.plant(random, machine, &registers, &instruction);
                }
                let before = registers;
                // A fault that isn't delivered leaves everything as it was.
                registers.fault_switch = 0;
                is_done = matches!(second::step(&mut registers, &mut self.current), Reply::Spent { .. });
                registers.fault_switch = before.fault_switch;
                if !is_done && !halts && (is_kept_anyway || may_fault) {
                    is_done = matches!(second::step(&mut registers, &mut self.current), Reply::Spent { .. });
                    break;
                }
                if is_kept_anyway || halts {
                    break;
                }
                // What wrote nothing is taken back if it leads nowhere.
                let wrote = matches!(instruction.opcode, 2 | 9 | 17);
                if is_done && !wrote && second::machine::fetch(&registers, &self.current).is_err() {
                    registers = before;
                    is_done = false;
                }
                if is_done {
                    break;
                }
            }
            if !is_done {
                // The handler would go through the same again and again.
                if registers.fault_switch == 1 {
                    machine.budget = budget.min(count + 1 + random.below(20) as u32);
                }
                break;
            }
        }
    }

    /// The address of IPR's word, if it can be fetched and wasn't drawn yet, and whether it is its segment's last.
    fn undecided(&self, registers: &Registers) -> Option<(usize, bool)> {
        second::machine::fetch(registers, &self.current).ok()?;
        let word = self.current[registers.dbr.address as usize + usize::from(registers.ipr.segno)];
        let code = Descriptor::from_word(word);
        let address = code.address as usize + usize::from(registers.ipr.wordno);
        (!self.decided[address]).then_some((address, registers.ipr.wordno + 1 >= code.length))
    }

    /// An instruction that has a chance to complete.
    fn sensible(&self, random: &mut Random, registers: &Registers) -> Instruction {
        let segments = usize::from(registers.dbr.length).max(1);
        let mut instruction = candidate(random, segments);
        let words = if instruction.opcode == RCU { frame::WORDS } else { 1 };
        if instruction.opcode == RCU && random.chance(900) {
            let roomy = |pr: &usize| self.length(registers, &registers.pr[*pr]) >= frame::WORDS;
            let roomy: Vec<usize> = (0..8).filter(roomy).collect();
            instruction.p = !roomy.is_empty();
            if instruction.p {
                instruction.prnum = random.pick(&roomy) as u8;
            }
        }
        if random.chance(850) {
            // An offset to a word of the segment.
            let from = if instruction.p { registers.pr[usize::from(instruction.prnum)] } else { registers.ipr };
            if from.segno < registers.dbr.length {
                let length = self.length(registers, &from);
                let one_more = usize::from(random.chance(5));
                let to = random.below(length.saturating_sub(words - 1).max(1) + one_more) as u16;
                instruction.offset = to.wrapping_sub(from.wordno);
            }
        }
        instruction
    }

    /// LENGTH of the segment of a pointer, 0 if it has no descriptor.
    fn length(&self, registers: &Registers, pointer: &Pointer) -> usize {
        if pointer.segno >= registers.dbr.length {
            return 0;
        }
        let word = self.current[registers.dbr.address as usize + usize::from(pointer.segno)];
        usize::from(Descriptor::from_word(word).length)
    }

    /// Puts a frame where opcode 42 will find it, if it will find thirteen words, and none of them was performed.
    fn plant(&mut self, random: &mut Random, machine: &mut Machine, registers: &Registers, instruction: &Instruction) {
        let Ok(tpr) = second::machine::form_address(registers, &self.current, instruction).tpr else { return };
        let length = self.length(registers, &tpr);
        if usize::from(tpr.wordno) + frame::WORDS > length || random.chance(100) {
            return;
        }
        let word = self.current[registers.dbr.address as usize + usize::from(tpr.segno)];
        let first = Descriptor::from_word(word).address as usize + usize::from(tpr.wordno);
        let places = first..first + frame::WORDS;
        if places.end > self.current.len() || self.decided[places.clone()].contains(&true) {
            return;
        }
        let frame = some_frame(random, registers, &self.current);
        self.current[places.clone()].copy_from_slice(&frame);
        machine.memory[places].copy_from_slice(&frame);
    }
}

/// A frame that is mostly whole, with the DBR there is, and mostly leads to where its ring may execute.
fn some_frame(random: &mut Random, registers: &Registers, memory: &[u64]) -> [u64; frame::WORDS] {
    let Dbr { address, length } = registers.dbr;
    let table = &memory[address as usize..][..usize::from(length)];
    let executable = |segno: &usize| {
        let segment = Descriptor::from_word(table[*segno]);
        segment.v && segment.e && segment.r1 <= segment.r2 && segment.length > 0
    };
    let fit: Vec<usize> = (0..table.len().min(24)).filter(executable).collect();
    let mut saved = Registers { a: data(random), dbr: registers.dbr, ..Registers::default() };
    saved.ipr = Pointer { ring: random.below(8) as u8, segno: random.below(30) as u16, wordno: random.below(8) as u16 };
    if !fit.is_empty() && random.chance(950) {
        let segno = random.pick(&fit);
        let segment = Descriptor::from_word(table[segno]);
        saved.ipr.segno = segno as u16;
        saved.ipr.wordno = random.below(usize::from(segment.length)) as u16;
        saved.ipr.ring = random.between(usize::from(segment.r1), usize::from(segment.r2)) as u8;
    }
    for pr in &mut saved.pr {
        let ring = saved.ipr.ring.max(if random.chance(300) { random.below(8) as u8 } else { 0 });
        *pr = Pointer {
            ring,
            segno: random.below(usize::from(length).clamp(1, 24)) as u16,
            wordno: random.below(16) as u16,
        };
    }
    match random.below(100) {
        0..=3 => saved.pr[random.below(8)].ring = saved.ipr.ring.saturating_sub(1),
        4..=6 => saved.dbr.address = memory.len() as u32 - u32::from(length) + random.below(2) as u32,
        7 => saved.dbr.length = random.pick(&[0, 1, 4096, 4097]),
        8 => saved.dbr = Dbr { address: random.below(memory.len()) as u32, length: random.below(9) as u16 },
        _ => {}
    }
    let fault = Fault { number: random.next() as u8, at: saved.ipr };
    let mut frame = frame::of_fault(&fault, &saved);
    // What is ignored.
    if random.chance(500) {
        frame[0] = random.next();
        frame[1] = random.next();
        frame[3] |= random.next() << 37;
        for word in &mut frame[4..] {
            *word |= random.next() << 31;
        }
    }
    frame
}

fn candidate(random: &mut Random, segments: usize) -> Instruction {
    let draw = random.next();
    let opcode = if draw >> 56 == 0 { (draw >> 48) as u8 } else { DRAW[(draw >> 40 & 0xffff) as usize % DRAW.len()] };
    Instruction {
        offset: (draw & 7) as u16,
        prnum: (draw >> 3 & 7) as u8,
        p: draw >> 6 & 3 != 0,
        i: draw >> 8 & 3 == 0,
        reg: (draw >> 10 & 7) as u8,
        opcode,
        lit: match draw >> 13 & 3 {
            0 => 0,
            1 => (draw >> 15) as u32,
            _ => (draw >> 15) as u32 % (2 * segments as u32),
        },
    }
}

fn data(random: &mut Random) -> u64 {
    let draw = random.next();
    match draw & 3 {
        0 => 0,
        1 => draw >> 2 & 0xff,
        2 => draw,
        _ => 1 << (draw >> 2 & 63),
    }
}

fn descriptor(random: &mut Random, words: usize, table_end: usize) -> Descriptor {
    let draw = random.next();
    let mut rings = [(draw & 7) as u8, (draw >> 3 & 7) as u8, (draw >> 6 & 7) as u8];
    rings.sort_unstable();
    if draw >> 9 & 3 == 0 {
        rings[0] = 0;
    }
    if draw >> 11 & 3 == 0 {
        rings[2] = 7;
    }
    if draw >> 13 & 7 == 0 {
        rings[1] = 7;
        rings[2] = 7;
    }
    let length = 1 + (draw >> 16 & 0xffff) as usize % (words / 2).min(40);
    // Mostly behind the descriptors.
    let first = if draw >> 60 != 0 && table_end + length < words { table_end } else { 0 };
    let address = first + random.below(words - length - first + 1);
    Descriptor {
        address: address as u32,
        length: length as u16,
        r1: rings[0],
        r2: rings[1],
        r3: rings[2],
        r: draw >> 32 & 7 != 0,
        w: draw >> 35 & 3 != 0,
        e: draw >> 37 & 3 != 0,
        v: true,
        gate: ((draw >> 40 & 0xffff) as usize % (length + 2)) as u16,
    }
}

/// PR6, whose segment a call within the ring hands on to PR7. It mostly stays as drawn, and so is mostly another than the
/// ring's own; in some machines it is that of IPR's ring or of a lower one, in some a number at a boundary.
fn stack_pointer(random: &mut Random, registers: &mut Registers) {
    let after_the_last = registers.dbr.length.min(4095);
    let pr6 = &mut registers.pr[6];
    pr6.segno = match random.below(32) {
        0..=3 => random.below(usize::from(registers.ipr.ring) + 1) as u16,
        4 => random.pick(&[0, 255, 256, 2047, 2048, 4094, 4095, after_the_last]),
        _ => pr6.segno,
    };
}

/// The switch, on in half of the machines, with a save segment that mostly will do and a handler's segment that ring 0 may
/// mostly execute.
fn fault_program(random: &mut Random, machine: &mut Machine, segments: usize) {
    let words = machine.memory.len();
    let registers = &mut machine.registers;
    let table = registers.dbr.address as usize;
    registers.fault_switch = u16::from(random.chance(500));
    let other = |random: &mut Random, than: u16| match random.below(segments) {
        segno if segno == usize::from(than) => random.below(segments) as u16,
        segno => segno as u16,
    };
    registers.save_segment = other(random, registers.ipr.segno);
    registers.handler_segment = other(random, registers.save_segment);
    if registers.fault_switch == 0 {
        return;
    }
    let handler = &mut machine.memory[table + usize::from(registers.handler_segment)];
    if random.chance(930) {
        *handler = Descriptor { e: true, r1: 0, ..Descriptor::from_word(*handler) }.to_word();
    }
    let length = random.between(13, 20).min(words);
    let behind = table + segments;
    let first = if behind + length <= words && random.chance(900) { behind } else { 0 };
    let place = &mut machine.memory[table + usize::from(registers.save_segment)];
    let drawn = Descriptor::from_word(*place);
    let fit = Descriptor {
        address: random.between(first, words - length) as u32,
        length: length as u16,
        r2: drawn.r2.max(drawn.r1),
        r3: drawn.r3.max(drawn.r2).max(drawn.r1),
        w: true,
        v: true,
        ..drawn
    };
    let save = match random.below(40) {
        0 => Descriptor { v: false, ..fit },
        1 => Descriptor { r1: fit.r2 + 1 & 7, ..fit },
        2 => Descriptor { address: (words - length + 1) as u32, ..fit },
        3 => Descriptor { length: random.between(0, 12) as u16, ..fit },
        4 => Descriptor { w: false, ..fit },
        5 => drawn,
        _ => fit,
    };
    *place = save.to_word();
    match random.below(60) {
        0 => registers.save_segment = registers.dbr.length.min(4095),
        1 => registers.save_segment = random.below(4096) as u16,
        2 => registers.handler_segment = registers.dbr.length.min(4095),
        3 => registers.handler_segment = random.below(4096) as u16,
        _ => {}
    }
}

/// A segment with about 64 pointer words, each pointing to the next, and a PR to it. Some chains go from one segment to
/// another over the same words and back, and some lead elsewhere from one of their words.
fn chain(random: &mut Random, machine: &mut Machine) {
    let dbr = machine.registers.dbr;
    let length = random.between(62, 70);
    let address = random.between(0, machine.memory.len() - length);
    let segno = random.below(usize::from(dbr.length));
    let descriptor = Descriptor {
        address: address as u32,
        length: length as u16,
        r1: random.below(3) as u8,
        r2: 7,
        r3: 7,
        r: true,
        w: random.chance(500),
        e: random.chance(500),
        v: true,
        gate: 3,
    };
    let other = if random.chance(300) { random.below(usize::from(dbr.length)) } else { segno };
    for word in 0..length {
        let segno = if word % 2 == 1 { segno } else { other };
        let next = Pointer { ring: 0, segno: segno as u16, wordno: word as u16 + 1 };
        machine.memory[address + word] = PointerWord { pointer: next, i: word + 2 < length }.to_word();
    }
    if random.chance(300) {
        let segno = random.below(usize::from(dbr.length) + 1);
        let next =
            Pointer { ring: random.below(8) as u8, segno: segno as u16, wordno: random.below(length + 1) as u16 };
        let word = random.below(length);
        machine.memory[address + word] = PointerWord { pointer: next, i: random.chance(700) }.to_word();
    }
    machine.memory[dbr.address as usize + other] = descriptor.to_word();
    machine.memory[dbr.address as usize + segno] = descriptor.to_word();
    let pr = &mut machine.registers.pr[random.below(8)];
    (pr.segno, pr.wordno) = (segno as u16, random.below(8) as u16);
}

/// A descriptor with one thing changed.
fn damaged(random: &mut Random, word: u64, words: usize) -> u64 {
    let descriptor = Descriptor::from_word(word);
    let changed = match random.below(7) {
        0 => Descriptor { v: false, ..descriptor },
        1 => Descriptor { r1: random.below(8) as u8, ..descriptor },
        2 => Descriptor { r2: random.below(8) as u8, ..descriptor },
        3 => Descriptor { length: 0, address: (words + random.below(3) - 1) as u32, ..descriptor },
        4 => Descriptor { address: random.next() as u32 & 0xff_ffff, ..descriptor },
        5 => Descriptor { length: random.next() as u16, ..descriptor },
        _ => return random.next(),
    };
    changed.to_word()
}

/// Registers with one thing changed, so that 2, 3 or 4 may be no.
fn spoil(random: &mut Random, machine: &mut Machine) {
    let words = machine.memory.len();
    let registers = &mut machine.registers;
    let pr = random.below(8);
    match random.below(12) {
        0 => registers.pr[pr].ring = random.below(256) as u8,
        1 => registers.pr[pr].segno = random.between(4094, 4098) as u16,
        2 => registers.ipr.ring = random.below(256) as u8,
        3 => registers.ipr.segno = random.between(4094, 4098) as u16,
        4 => registers.dbr.address = random.pick(&[16_777_215, 16_777_216, u32::MAX, 1 << 31]),
        5 => registers.dbr.length = random.pick(&[4095, 4096, 4097, 65_535]),
        6 => registers.dbr.address = (words - usize::from(registers.dbr.length)) as u32 + random.below(3) as u32,
        7 => registers.pr[pr].ring = registers.ipr.ring.saturating_sub(1),
        8 => registers.fault_switch = random.pick(&[0, 1, 2, 3, 255, 256, 257, 65_535]),
        9 => registers.save_segment = random.between(4094, 4098) as u16,
        10 => registers.handler_segment = random.between(4094, 4098) as u16,
        _ => registers.ipr.wordno = 65_535,
    }
}

/// A budget: mostly small, some long.
pub fn budget(random: &mut Random) -> u32 {
    let budget = match random.below(1000) {
        0..=3 => random.between(1000, 4000),
        4..=24 => random.between(100, 999),
        25..=180 => random.between(17, 99),
        181..=190 => 0,
        _ => random.between(1, 16),
    };
    budget as u32
}

/// Every opcode of the table has its weight.
const _: () = {
    assert!(WEIGHTS.len() == Opcode::TABLE.len());
    let mut entry = 0;
    while entry < WEIGHTS.len() {
        assert!(WEIGHTS[entry].0 == Opcode::TABLE[entry].0);
        entry += 1;
    }
};
