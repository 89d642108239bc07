//! The registers, the questions in the paper's order, a step, and a run under a budget.

use crate::frame;
use crate::words::{Dbr, Descriptor, Instruction, Opcode, Pointer, PointerWord};

/// PR6 is the stack pointer, PR7 the stack base. With the switch at 1, a fault is saved and its handler goes on.
#[derive(Clone, Copy, Debug, Default, PartialEq, Eq)]
pub struct Registers {
    pub a: u64,
    pub dbr: Dbr,
    pub ipr: Pointer,
    pub pr: [Pointer; 8],
    pub fault_switch: u16,
    pub save_segment: u16,
    pub handler_segment: u16,
}

/// What a run or a single step answers. A run's pointer words are those of its completed steps; a single step's are its
/// own, faulting or not.
#[derive(Clone, Copy, Debug, PartialEq, Eq)]
pub enum Reply {
    Refused { number: u8 },
    Spent { count: u32, pointer_words: u64 },
    Halted { count: u32, pointer_words: u64 },
    Fault { fault: Fault, count: u32, pointer_words: u64 },
}

impl Reply {
    /// A refusal has read none.
    pub fn pointer_words(self) -> u64 {
        match self {
            Reply::Refused { .. } => 0,
            Reply::Spent { pointer_words, .. }
            | Reply::Halted { pointer_words, .. }
            | Reply::Fault { pointer_words, .. } => pointer_words,
        }
    }
}

/// A no to a question from 11 on: its number, and the address and ring under question.
#[derive(Clone, Copy, Debug, PartialEq, Eq)]
pub struct Fault {
    pub number: u8,
    pub at: Pointer,
}

/// What the check of CALL answers: a fault has the pointer that was asked about, its ring raised to at least IPR's; one
/// that passes has the new ring.
#[derive(Clone, Copy, Debug, PartialEq, Eq)]
pub enum Check {
    Refused { number: u8 },
    Fault(Fault),
    Passes { ring: u8 },
}

/// What a completed step leaves to do.
#[derive(Clone, Copy, Debug, PartialEq, Eq)]
enum Completed {
    GoOn,
    Halt,
    /// What it met was delivered; the handler goes on.
    Delivered(Fault),
}

/// What forming an address gives: TPR, or the fault of a pointer word; and how many pointer words were read, 0 to 64.
#[derive(Clone, Copy, Debug, PartialEq, Eq)]
pub struct Address {
    pub tpr: Result<Pointer, Fault>,
    pub pointer_words: u32,
}

/// What performing an instruction gives, and the pointer words that were read for it.
struct Performed {
    result: Result<Completed, Fault>,
    pointer_words: u32,
}

/// The most words that memory may have.
pub const MEMORY_LIMIT: usize = 16_777_216;

// ---- Before a run or step: a no refuses the call.

/// The number of the first question of 1 to 4 that is answered no.
pub fn refusal(registers: &Registers, words: usize) -> Result<(), u8> {
    refusal_with(registers, &[], words)
}

/// The same where pointers are handed in beside the registers: they are under 2 as well, and under nothing else.
fn refusal_with(registers: &Registers, handed_in: &[Pointer], words: usize) -> Result<(), u8> {
    // 1
    if !memory_is_allowed(words) {
        return Err(1);
    }
    // 2
    if !fields_are_in_range(registers) || !handed_in.iter().all(pointer_is_in_range) {
        return Err(2);
    }
    // 3
    if !prs_are_at_or_above_ipr(registers) {
        return Err(3);
    }
    // 4
    if !descriptor_segment_is_allowed(registers.dbr, words) {
        return Err(4);
    }
    Ok(())
}

/// 1: has memory at most 16,777,216 words?
pub(crate) fn memory_is_allowed(words: usize) -> bool {
    words <= MEMORY_LIMIT
}

/// 2: are rings ≤ 7, SEGNO ≤ 4,095, WORDNO ≤ 65,535, DBR ADDRESS ≤ 16,777,215, the switch ≤ 1, save and handler segment
/// ≤ 4,095?
fn fields_are_in_range(registers: &Registers) -> bool {
    pointer_is_in_range(&registers.ipr)
        && registers.pr.iter().all(pointer_is_in_range)
        && registers.dbr.address <= 16_777_215
        && registers.fault_switch <= 1
        && registers.save_segment <= 4_095
        && registers.handler_segment <= 4_095
}

/// 2 of a pointer. (A u16 is never above 65,535.)
fn pointer_is_in_range(pointer: &Pointer) -> bool {
    pointer.ring <= 7 && pointer.segno <= 4_095
}

/// 3, and 52 of a frame's registers: is every PR's RING ≥ IPR.RING?
pub(crate) fn prs_are_at_or_above_ipr(registers: &Registers) -> bool {
    registers.pr.iter().all(|pr| pr.ring >= registers.ipr.ring)
}

/// 4, and 34 of the DBR that LDBR or opcode 42 reads: is LENGTH ≤ 4,096 and ADDRESS + LENGTH within memory?
pub(crate) fn descriptor_segment_is_allowed(dbr: Dbr, words: usize) -> bool {
    dbr.length <= 4_096 && is_within_memory(dbr.address, dbr.length, words)
}

fn is_within_memory(address: u32, length: u16, words: usize) -> bool {
    address as usize + usize::from(length) <= words
}

// ---- Whenever a segment is used.

/// 11: SEGNO < DBR LENGTH?
fn has_descriptor(at: &Pointer, dbr: &Dbr) -> bool {
    at.segno < dbr.length
}

/// 12: V on?
fn is_valid(segment: &Descriptor) -> bool {
    segment.v
}

/// 13: R1 ≤ R2 ≤ R3?
fn rings_are_ordered(segment: &Descriptor) -> bool {
    segment.r1 <= segment.r2 && segment.r2 <= segment.r3
}

/// 14: ADDRESS + LENGTH within memory?
fn segment_is_within_memory(segment: &Descriptor, words: usize) -> bool {
    is_within_memory(segment.address, segment.length, words)
}

/// 15: WORDNO < LENGTH? Of several words it is asked of each, and they don't go round.
fn words_exist(at: &Pointer, words: usize, segment: &Descriptor) -> bool {
    usize::from(at.wordno) + words <= usize::from(segment.length)
}

// ---- By use.

/// 21 of IPR's ring, 25 of TPR's: E on, R1 ≤ ring ≤ R2?
fn may_execute(segment: &Descriptor, ring: u8) -> bool {
    segment.e && segment.r1 <= ring && ring <= segment.r2
}

/// 22: R on, TPR.RING ≤ R2?
fn may_read(segment: &Descriptor, ring: u8) -> bool {
    segment.r && ring <= segment.r2
}

/// 23: W on, TPR.RING ≤ R1?
fn may_write(segment: &Descriptor, ring: u8) -> bool {
    segment.w && ring <= segment.r1
}

/// 24: TPR.RING = IPR.RING?
fn keeps_the_ring(tpr: &Pointer, ipr: &Pointer) -> bool {
    tpr.ring == ipr.ring
}

/// 26: E on?
fn is_executable(segment: &Descriptor) -> bool {
    segment.e
}

/// 27: same segment as the instruction, or WORDNO < GATE?
fn enters_at_a_gate(segment: &Descriptor, tpr: &Pointer, ipr: &Pointer) -> bool {
    tpr.segno == ipr.segno || tpr.wordno < segment.gate
}

/// 28: TPR.RING ≤ R3?
fn is_within_gate_extension(segment: &Descriptor, tpr: &Pointer) -> bool {
    tpr.ring <= segment.r3
}

/// 29: TPR.RING ≥ R1?
fn is_not_below_execute_bracket(segment: &Descriptor, tpr: &Pointer) -> bool {
    tpr.ring >= segment.r1
}

/// 30: new ring ≤ IPR.RING?
fn does_not_raise_the_ring(new_ring: u8, ipr: &Pointer) -> bool {
    new_ring <= ipr.ring
}

/// 31: is the pointer word among the instruction's first 64?
fn is_among_the_first(pointer_words_read: u32) -> bool {
    pointer_words_read < 64
}

/// 33: ring 0, if privileged?
fn has_the_privilege(opcode: Opcode, ipr: &Pointer) -> bool {
    !opcode.is_privileged() || ipr.ring == 0
}

/// A no is a fault, with the address and ring under question.
#[inline]
fn ask(number: u8, yes: bool, at: &Pointer) -> Result<(), Fault> {
    if yes {
        Ok(())
    } else {
        Err(Fault { number, at: *at })
    }
}

/// The descriptor of the segment of `at`: 11 to 14.
#[inline]
pub(crate) fn descriptor_of(dbr: &Dbr, memory: &[u64], at: &Pointer) -> Result<Descriptor, Fault> {
    ask(11, has_descriptor(at, dbr), at)?;
    let descriptor_segment = &memory[dbr.address as usize..][..usize::from(dbr.length)];
    let segment = Descriptor::from_word(descriptor_segment[usize::from(at.segno)]);
    ask(12, is_valid(&segment), at)?;
    ask(13, rings_are_ordered(&segment), at)?;
    ask(14, segment_is_within_memory(&segment, memory.len()), at)?;
    Ok(segment)
}

/// The descriptor of the segment of which so many words from `at` on are used: 11 to 15.
#[inline]
fn use_words(dbr: &Dbr, memory: &[u64], at: &Pointer, words: usize) -> Result<Descriptor, Fault> {
    let segment = descriptor_of(dbr, memory, at)?;
    ask(15, words_exist(at, words, &segment), at)?;
    Ok(segment)
}

/// The descriptor of the segment that `at` uses: 11 to 15.
#[inline]
fn use_segment(dbr: &Dbr, memory: &[u64], at: &Pointer) -> Result<Descriptor, Fault> {
    use_words(dbr, memory, at, 1)
}

/// The words of a segment whose descriptor has passed.
pub(crate) fn words_of<'m>(segment: &Descriptor, memory: &'m [u64]) -> &'m [u64] {
    &memory[segment.address as usize..][..usize::from(segment.length)]
}

fn words_of_mut<'m>(segment: &Descriptor, memory: &'m mut [u64]) -> &'m mut [u64] {
    &mut memory[segment.address as usize..][..usize::from(segment.length)]
}

// ---- One step.

/// 1. Fetch at IPR: 11 to 15, 21. The questions 32 and 33 of the instruction follow in `decode`.
#[inline]
pub fn fetch(registers: &Registers, memory: &[u64]) -> Result<Instruction, Fault> {
    let ipr = &registers.ipr;
    let segment = use_segment(&registers.dbr, memory, ipr)?;
    ask(21, may_execute(&segment, ipr.ring), ipr)?;
    Ok(Instruction::from_word(words_of(&segment, memory)[usize::from(ipr.wordno)]))
}

/// 32: opcode in the table? Then 33.
#[inline]
pub fn decode(instruction: &Instruction, ipr: &Pointer) -> Result<Opcode, Fault> {
    let Some(opcode) = Opcode::from_number(instruction.opcode) else {
        return Err(Fault { number: 32, at: *ipr });
    };
    ask(33, has_the_privilege(opcode, ipr), ipr)?;
    Ok(opcode)
}

/// 2. TPR before any pointer word.
#[inline]
fn direct(registers: &Registers, instruction: &Instruction) -> Pointer {
    let ipr = &registers.ipr;
    let mut tpr = if instruction.p {
        let pr = &registers.pr[usize::from(instruction.prnum)];
        Pointer { ring: ipr.ring.max(pr.ring), ..*pr }
    } else {
        *ipr
    };
    tpr.wordno = tpr.wordno.wrapping_add(instruction.offset);
    tpr
}

/// 3. Reads the pointer word at TPR, before which so many were read: 31, 11 to 15, 22. Gives the next TPR and I.
#[inline]
fn follow(
    registers: &Registers,
    memory: &[u64],
    tpr: &Pointer,
    pointer_words_read: u32,
) -> Result<(Pointer, bool), Fault> {
    ask(31, is_among_the_first(pointer_words_read), tpr)?;
    let segment = use_segment(&registers.dbr, memory, tpr)?;
    ask(22, may_read(&segment, tpr.ring), tpr)?;
    let PointerWord { pointer, i } = PointerWord::from_word(words_of(&segment, memory)[usize::from(tpr.wordno)]);
    Ok((Pointer { ring: tpr.ring.max(pointer.ring).max(segment.r1), ..pointer }, i))
}

/// 2. and 3. Form TPR, the address with its effective ring. A pointer word counts once it has been read.
#[inline]
pub fn form_address(registers: &Registers, memory: &[u64], instruction: &Instruction) -> Address {
    let mut tpr = direct(registers, instruction);
    let mut i = instruction.i;
    let mut pointer_words = 0;
    while i {
        match follow(registers, memory, &tpr, pointer_words) {
            Ok(next) => (tpr, i) = next,
            Err(fault) => return Address { tpr: Err(fault), pointer_words },
        }
        pointer_words += 1;
    }
    Address { tpr: Ok(tpr), pointer_words }
}

/// Reads the word at TPR: 11 to 15, 22.
fn read(registers: &Registers, memory: &[u64], tpr: &Pointer) -> Result<u64, Fault> {
    let segment = use_segment(&registers.dbr, memory, tpr)?;
    ask(22, may_read(&segment, tpr.ring), tpr)?;
    Ok(words_of(&segment, memory)[usize::from(tpr.wordno)])
}

/// Writes the word at TPR: 11 to 15, 23.
fn write(registers: &Registers, memory: &mut [u64], tpr: &Pointer, word: u64) -> Result<(), Fault> {
    let segment = use_segment(&registers.dbr, memory, tpr)?;
    ask(23, may_write(&segment, tpr.ring), tpr)?;
    words_of_mut(&segment, memory)[usize::from(tpr.wordno)] = word;
    Ok(())
}

/// AOS: 11 to 15, 22, then 23; only then is anything stored.
fn add_one_to_storage(registers: &Registers, memory: &mut [u64], tpr: &Pointer) -> Result<(), Fault> {
    let segment = use_segment(&registers.dbr, memory, tpr)?;
    ask(22, may_read(&segment, tpr.ring), tpr)?;
    ask(23, may_write(&segment, tpr.ring), tpr)?;
    let word = &mut words_of_mut(&segment, memory)[usize::from(tpr.wordno)];
    *word = word.wrapping_add(1);
    Ok(())
}

/// A transfer that is taken: 11 to 15, 24, 25. It keeps the ring.
fn transfer(registers: &mut Registers, memory: &[u64], tpr: &Pointer) -> Result<(), Fault> {
    let segment = use_segment(&registers.dbr, memory, tpr)?;
    ask(24, keeps_the_ring(tpr, &registers.ipr), tpr)?;
    ask(25, may_execute(&segment, tpr.ring), tpr)?;
    registers.ipr = *tpr;
    Ok(())
}

/// CALL's check gives the new ring: 11 to 15, 26 to 30.
fn check_call(registers: &Registers, memory: &[u64], tpr: &Pointer) -> Result<u8, Fault> {
    let segment = use_segment(&registers.dbr, memory, tpr)?;
    let new_ring = tpr.ring.min(segment.r2);
    ask(26, is_executable(&segment), tpr)?;
    ask(27, enters_at_a_gate(&segment, tpr, &registers.ipr), tpr)?;
    ask(28, is_within_gate_extension(&segment, tpr), tpr)?;
    ask(29, is_not_below_execute_bracket(&segment, tpr), tpr)?;
    ask(30, does_not_raise_the_ring(new_ring, &registers.ipr), tpr)?;
    Ok(new_ring)
}

/// The stack base that a call leaves. Where the ring is as it was, the caller's stack goes on, and a ring may have
/// several: its segment is the stack pointer's. Where the ring falls, nothing is taken over from the outer one: the
/// segment is that of the new ring's number.
fn stack_base(ipr: &Pointer, new_ring: u8, stack_pointer: &Pointer) -> Pointer {
    let segno = if new_ring == ipr.ring { stack_pointer.segno } else { u16::from(new_ring) };
    Pointer { ring: new_ring, segno, wordno: 0 }
}

/// CALL's move, by the ring of a check that passed. The stack base goes by IPR as it was before.
fn move_by_call(registers: &mut Registers, tpr: &Pointer, new_ring: u8) {
    registers.pr[7] = stack_base(&registers.ipr, new_ring, &registers.pr[6]);
    registers.ipr = Pointer { ring: new_ring, ..*tpr };
}

/// RETURN: 11 to 15, 25.
fn return_to(registers: &mut Registers, memory: &[u64], tpr: &Pointer) -> Result<(), Fault> {
    let segment = use_segment(&registers.dbr, memory, tpr)?;
    ask(25, may_execute(&segment, tpr.ring), tpr)?;
    registers.ipr = *tpr;
    for pr in &mut registers.pr {
        pr.ring = pr.ring.max(tpr.ring);
    }
    Ok(())
}

/// LDBR: 11 to 15, 22, 34.
fn load_dbr(registers: &mut Registers, memory: &[u64], tpr: &Pointer) -> Result<(), Fault> {
    let dbr = Dbr::from_word(read(registers, memory, tpr)?);
    ask(34, descriptor_segment_is_allowed(dbr, memory.len()), tpr)?;
    registers.dbr = dbr;
    Ok(())
}

/// Opcode 42, from a frame at TPR: 11 to 15, 22, 34, 52. The frame's IPR is asked nothing: the next fetch asks.
fn restore(registers: &mut Registers, memory: &[u64], tpr: &Pointer) -> Result<(), Fault> {
    let segment = use_words(&registers.dbr, memory, tpr, frame::WORDS)?;
    ask(22, may_read(&segment, tpr.ring), tpr)?;
    let mut words = [0; frame::WORDS];
    words.copy_from_slice(&words_of(&segment, memory)[usize::from(tpr.wordno)..][..frame::WORDS]);
    let restored = frame::registers(&words, registers);
    ask(34, descriptor_segment_is_allowed(restored.dbr, memory.len()), tpr)?;
    ask(52, prs_are_at_or_above_ipr(&restored), tpr)?;
    *registers = restored;
    Ok(())
}

/// 1., 32 and 33.
#[inline]
fn next_instruction(registers: &Registers, memory: &[u64]) -> Result<(Instruction, Opcode), Fault> {
    let instruction = fetch(registers, memory)?;
    let opcode = decode(&instruction, &registers.ipr)?;
    Ok((instruction, opcode))
}

/// The instruction at IPR, when 1 to 4 have passed. A fault leaves registers and memory as they were.
#[inline]
fn perform(registers: &mut Registers, memory: &mut [u64]) -> Performed {
    let (instruction, opcode) = match next_instruction(registers, memory) {
        Ok(decoded) => decoded,
        Err(fault) => return Performed { result: Err(fault), pointer_words: 0 },
    };
    // No operand, no address.
    match opcode {
        Opcode::Ldi => {
            registers.a = u64::from(instruction.lit);
            advance(registers);
            return Performed { result: Ok(Completed::GoOn), pointer_words: 0 };
        }
        Opcode::Hlt => {
            advance(registers);
            return Performed { result: Ok(Completed::Halt), pointer_words: 0 };
        }
        _ => {}
    }
    // Whatever is asked after the address, its pointer words have been read.
    let Address { tpr, pointer_words } = form_address(registers, memory, &instruction);
    let result = tpr.and_then(|tpr| use_operand(registers, memory, &instruction, opcode, &tpr));
    Performed { result, pointer_words }
}

/// 4. Perform, with TPR. Where control moves, IPR isn't advanced.
#[inline]
fn use_operand(
    registers: &mut Registers,
    memory: &mut [u64],
    instruction: &Instruction,
    opcode: Opcode,
    tpr: &Pointer,
) -> Result<Completed, Fault> {
    let reg = usize::from(instruction.reg);
    match opcode {
        Opcode::Lda => registers.a = read(registers, memory, tpr)?,
        Opcode::Sta => write(registers, memory, tpr, registers.a)?,
        Opcode::Ada => registers.a = registers.a.wrapping_add(read(registers, memory, tpr)?),
        Opcode::Sba => registers.a = registers.a.wrapping_sub(read(registers, memory, tpr)?),
        Opcode::Ana => registers.a &= read(registers, memory, tpr)?,
        Opcode::Ora => registers.a |= read(registers, memory, tpr)?,
        Opcode::Xra => registers.a ^= read(registers, memory, tpr)?,
        Opcode::Cnt => registers.a = u64::from(read(registers, memory, tpr)?.count_ones()),
        Opcode::Aos => add_one_to_storage(registers, memory, tpr)?,
        Opcode::Eap => registers.pr[reg] = *tpr,
        Opcode::Spp => {
            let pointer_word = PointerWord { pointer: registers.pr[reg], i: false };
            write(registers, memory, tpr, pointer_word.to_word())?;
        }
        Opcode::Tra | Opcode::Tze | Opcode::Tmi => {
            let is_taken = match opcode {
                Opcode::Tze => registers.a == 0,
                Opcode::Tmi => registers.a >> 63 == 1,
                _ => true,
            };
            if is_taken {
                transfer(registers, memory, tpr)?;
                return Ok(Completed::GoOn);
            }
        }
        Opcode::Call => {
            let new_ring = check_call(registers, memory, tpr)?;
            move_by_call(registers, tpr, new_ring);
            return Ok(Completed::GoOn);
        }
        Opcode::Return => {
            return_to(registers, memory, tpr)?;
            return Ok(Completed::GoOn);
        }
        Opcode::Ldbr => load_dbr(registers, memory, tpr)?,
        Opcode::Rcu => {
            restore(registers, memory, tpr)?;
            return Ok(Completed::GoOn);
        }
        // Performed before, without an operand.
        Opcode::Ldi | Opcode::Hlt => {}
    }
    advance(registers);
    Ok(Completed::GoOn)
}

/// IPR.WORDNO goes up by one modulo 65,536.
fn advance(registers: &mut Registers) {
    registers.ipr.wordno = registers.ipr.wordno.wrapping_add(1);
}

// ---- The check of CALL as a call of its own.

/// Would a call of this pointer pass, as if a CALL stood at IPR? 1 to 4, the pointer being under 2 as well; then its ring
/// is raised to at least IPR's, and CALL's check follows. The fetch at IPR isn't asked about, and no fault is delivered.
pub fn may_call(registers: &Registers, memory: &[u64], pointer: &Pointer) -> Check {
    if let Err(number) = refusal_with(registers, std::slice::from_ref(pointer), memory.len()) {
        return Check::Refused { number };
    }
    let raised = Pointer { ring: pointer.ring.max(registers.ipr.ring), ..*pointer };
    match check_call(registers, memory, &raised) {
        Ok(ring) => Check::Passes { ring },
        Err(fault) => Check::Fault(fault),
    }
}

// ---- Faults that are delivered.

/// The save segment, if a frame can be written there: 11 to 14, then LENGTH ≥ 13 and W on. No ring is asked.
pub(crate) fn save_segment(registers: &Registers, memory: &[u64]) -> Option<Descriptor> {
    let first = Pointer { segno: registers.save_segment, ..Pointer::default() };
    let segment = descriptor_of(&registers.dbr, memory, &first).ok()?;
    (usize::from(segment.length) >= frame::WORDS && segment.w).then_some(segment)
}

/// With the switch on and a save segment that will do, the frame is written and IPR becomes the handler's first word.
/// Else nothing changes. Answers whether it was so.
fn deliver(registers: &mut Registers, memory: &mut [u64], fault: &Fault) -> bool {
    if registers.fault_switch == 0 {
        return false;
    }
    let Some(segment) = save_segment(registers, memory) else {
        return false;
    };
    words_of_mut(&segment, memory)[..frame::WORDS].copy_from_slice(&frame::of_fault(fault, registers));
    registers.ipr = Pointer { ring: 0, segno: registers.handler_segment, wordno: 0 };
    true
}

/// The instruction at IPR, when 1 to 4 have passed. A fault that is delivered is a completed step, with the pointer words
/// that were read.
#[inline]
fn perform_or_deliver(registers: &mut Registers, memory: &mut [u64]) -> Performed {
    let performed = perform(registers, memory);
    match performed.result {
        Err(fault) if deliver(registers, memory, &fault) => {
            Performed { result: Ok(Completed::Delivered(fault)), ..performed }
        }
        _ => performed,
    }
}

// ---- A run.

/// One step. It answers with its own pointer words, even where it faults.
pub fn step(registers: &mut Registers, memory: &mut [u64]) -> Reply {
    let (reply, _) = step_and_fault(registers, memory);
    reply
}

/// One step, and the fault that it met, delivered or not.
pub fn step_and_fault(registers: &mut Registers, memory: &mut [u64]) -> (Reply, Option<Fault>) {
    if let Err(number) = refusal(registers, memory.len()) {
        return (Reply::Refused { number }, None);
    }
    let Performed { result, pointer_words } = perform_or_deliver(registers, memory);
    let pointer_words = u64::from(pointer_words);
    match result {
        Ok(Completed::GoOn) => (Reply::Spent { count: 1, pointer_words }, None),
        Ok(Completed::Delivered(fault)) => (Reply::Spent { count: 1, pointer_words }, Some(fault)),
        Ok(Completed::Halt) => (Reply::Halted { count: 1, pointer_words }, None),
        Err(fault) => (Reply::Fault { fault, count: 0, pointer_words }, Some(fault)),
    }
}

/// Steps until HLT, a fault that isn't delivered, or the budget is spent. The count is the number of completed steps, and
/// the pointer words are theirs: a faulting step isn't in either, a delivered one is in both.
pub fn run(registers: &mut Registers, memory: &mut [u64], budget: u32) -> Reply {
    if let Err(number) = refusal(registers, memory.len()) {
        return Reply::Refused { number };
    }
    let mut total: u64 = 0;
    for count in 0..budget {
        let Performed { result, pointer_words } = perform_or_deliver(registers, memory);
        let with_this = total + u64::from(pointer_words);
        match result {
            Ok(Completed::GoOn | Completed::Delivered(_)) => total = with_this,
            Ok(Completed::Halt) => return Reply::Halted { count: count + 1, pointer_words: with_this },
            Err(fault) => return Reply::Fault { fault, count, pointer_words: total },
        }
    }
    Reply::Spent { count: budget, pointer_words: total }
}
