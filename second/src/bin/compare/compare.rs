//! One machine, one image, one table of brackets or one segment of descriptors through both implementations.

use crate::checks;
use crate::images::shuffle;
use crate::library::{Answer, CheckAnswer, Lent, NeedsAnswer};
use crate::random::Random;
use crate::reach::{self, Place, Reach, Unsaved};
use second::doors::{self, State};
use second::old_cases::Segment;
use second::opcodes::CALL;
use second::tables::Table;
use second::{
    Check, Descriptor, Direction, Fault, Image, Instruction, Needs, OldAnswer, Pointer, Registers, Reply, Row,
};

/// What a call is handed.
#[derive(Clone, Debug, Default, PartialEq, Eq)]
pub struct Machine {
    pub registers: Registers,
    pub memory: Vec<u64>,
    pub budget: u32,
}

/// What both answer.
#[derive(Clone, Copy, Debug, PartialEq, Eq)]
pub struct Outcome {
    pub run: Reply,
    /// Of the last of the single steps, which may have faulted; none was tried with a budget of 0.
    pub last_step: Option<Reply>,
}

/// The first thing that differs.
#[derive(Clone, Debug)]
pub struct Difference(pub String);

pub struct Comparer {
    pub reach: Reach,
    pub machines: u64,
    pub images: u64,
    pub checks: u64,
    pub tables: u64,
    pub segments: u64,
    mine: Vec<u64>,
    after_run: Vec<u64>,
    reordered: Vec<Row>,
    lent: Lent,
    image: Vec<u8>,
    texts: [Vec<u8>; 2],
    /// The pointers that are asked about: how many, and of which draw.
    pointers: Vec<Pointer>,
    pointer_count: usize,
    draw: Random,
    is_always_same_draw: bool,
}

/// Bytes behind a buffer, which the library must leave alone like those before it.
const BEHIND: usize = 64;
/// What a conversion is lent behind the image: room for what ST gains.
const ROOM: usize = 5;
/// The largest budget for which a converted image is run.
const BUDGET: u32 = 4000;
/// How many pointers are asked about before a machine's run and after it; and how many if it is to be made smaller.
const POINTERS: usize = 5;
const MORE_POINTERS: usize = 300;
/// With more words than this, memory takes long to compare: two pointers are enough.
const MANY_WORDS: usize = 1 << 20;
/// How many segments of an image's start are called.
const SEGMENTS: u16 = 4;

impl Comparer {
    pub fn new() -> Comparer {
        Comparer {
            reach: Reach::new(),
            machines: 0,
            images: 0,
            checks: 0,
            tables: 0,
            segments: 0,
            mine: Vec::new(),
            after_run: Vec::new(),
            reordered: Vec::new(),
            lent: Lent::new(0),
            image: Vec::new(),
            texts: [Vec::new(), Vec::new()],
            pointers: Vec::new(),
            pointer_count: POINTERS,
            draw: Random::new(3),
            is_always_same_draw: false,
        }
    }

    /// For making a failing machine smaller: it is asked about many pointers, and again about the same.
    pub fn for_smaller() -> Comparer {
        Comparer { pointer_count: MORE_POINTERS, is_always_same_draw: true, ..Comparer::new() }
    }

    /// A run with the budget, and then the same steps one by one: reply, registers, every word of memory; of each step that
    /// the library completes, what it did to the ring. Before the run and after the steps, some pointers through the check
    /// of CALL; before each CALL, its TPR.
    pub fn machine(&mut self, machine: &Machine) -> Result<Outcome, Difference> {
        self.machines += 1;

        // The runs.
        let mut registers = self.lend(&machine.registers, &machine.memory);
        self.some_pointers(&registers)?;
        let run_reply = second::run(&mut registers, &mut self.mine, machine.budget);
        let answer = self.lent.run(machine.budget);
        let is_refused = matches!(run_reply, Reply::Refused { .. });
        if !is_refused {
            self.ring_after_run(machine, answer)?;
        }
        self.agree("kuzhlemor_run", run_reply, answer, &registers)?;
        let run_registers = registers;
        std::mem::swap(&mut self.mine, &mut self.after_run);

        // The steps.
        let mut registers = self.lend(&machine.registers, &machine.memory);
        let mut reply = match run_reply {
            Reply::Refused { number } => Reply::Refused { number },
            _ => Reply::Spent { count: 0, pointer_words: 0 },
        };
        let mut last_step = None;
        // Over the completed steps.
        let mut total = 0;
        for count in 0..machine.budget {
            let opcode = opcode_at_ipr(&registers, &self.mine);
            let call = if opcode == Some(CALL) { self.check_of_call(&registers)? } else { None };
            let before = registers;
            let answer = self.lent.step();
            // Registers and memory are still as they were before it.
            if !is_refused && answer.count == 1 {
                let before = State { registers: &before, memory: &self.mine };
                let change = self.lent.change_since(before).map_err(|text| at_step(count, text))?;
                self.reach.change(opcode, before.registers.ipr.ring, change);
            }
            let (step_reply, fault) = second::step_and_fault(&mut registers, &mut self.mine);
            self.agree("kuzhlemor_step", step_reply, answer, &registers)
                .map_err(|Difference(text)| at_step(count, text))?;
            if let Some((tpr, check)) = call {
                answers_by_check(tpr, check, fault, registers.ipr)?;
                self.reach.call(&before, tpr, check);
            }
            match (fault, step_reply) {
                (Some(fault), Reply::Spent { .. }) => self.reach.delivered(opcode, fault, step_reply),
                _ => self.reach.step(opcode, step_reply),
            }
            match step_reply {
                Reply::Spent { pointer_words, .. } => {
                    total += pointer_words;
                    reply = Reply::Spent { count: count + 1, pointer_words: total };
                }
                Reply::Halted { pointer_words, .. } => {
                    total += pointer_words;
                    reply = Reply::Halted { count: count + 1, pointer_words: total };
                }
                Reply::Fault { fault, .. } => {
                    self.reach.fault(opcode, step_reply, fault_place(&registers, &self.mine));
                    self.reach.undelivered(fault, unsaved(&registers, &self.mine));
                    reply = Reply::Fault { fault, count, pointer_words: total };
                }
                Reply::Refused { number } => reply = Reply::Refused { number },
            }
            last_step = Some(step_reply);
            if answer.kind != Answer::SPENT {
                break;
            }
        }
        if reply != run_reply || registers != run_registers || self.mine != self.after_run {
            return Err(Difference(format!("second's own steps and run: {reply:?} and {run_reply:?}")));
        }
        self.some_pointers(&registers)?;
        self.reach.run(run_reply);
        if !is_refused {
            self.reach.changes(machine, &registers, &self.mine);
        }
        Ok(Outcome { run: run_reply, last_step })
    }

    /// What the library's run of a machine, which isn't refused, did to the ring, if it was one step; after any run, no
    /// PR's ring is below IPR's.
    fn ring_after_run(&self, machine: &Machine, answer: Answer) -> Result<(), Difference> {
        let before = State { registers: &machine.registers, memory: &machine.memory };
        let holds = match answer.count {
            1 => self.lent.change_since(before).map(|_| ()),
            _ if doors::no_pr_is_low(&self.lent.registers()) => Ok(()),
            _ => Err(format!("a PR's ring is below IPR's: {:?}", self.lent.registers())),
        };
        holds.map_err(|text| Difference(format!("after kuzhlemor_run: {text}")))
    }

    /// Both get this machine.
    fn lend(&mut self, registers: &Registers, memory: &[u64]) -> Registers {
        self.mine.clear();
        self.mine.extend_from_slice(memory);
        self.lent.set(registers, memory);
        *registers
    }

    /// A machine and one pointer. Answers what both do.
    pub fn check(&mut self, registers: &Registers, memory: &[u64], pointer: Pointer) -> Result<Check, Difference> {
        self.lend(registers, memory);
        self.may_call(registers, pointer)
    }

    /// Some pointers, of the machine that both have now.
    fn some_pointers(&mut self, registers: &Registers) -> Result<(), Difference> {
        if self.is_always_same_draw {
            self.draw = Random::new(3);
        }
        let count = if self.mine.len() > MANY_WORDS { 2 } else { self.pointer_count };
        let mut pointers = std::mem::take(&mut self.pointers);
        checks::draw(&mut self.draw, registers, &self.mine, count, &mut pointers);
        let result = pointers.iter().try_for_each(|pointer| self.may_call(registers, *pointer).map(|_| ()));
        self.pointers = pointers;
        result
    }

    /// The check of one pointer: the answer, field by field; record, padding and memory stay as they are.
    fn may_call(&mut self, registers: &Registers, pointer: Pointer) -> Result<Check, Difference> {
        self.checks += 1;
        let mine = second::may_call(registers, &self.mine, &pointer);
        let (answer, record_stays) = self.lent.may_call(pointer);
        let memory_stays = self.lent.memory() == self.mine && self.lent.guards_stand();
        if answer == CheckAnswer::of(mine) && record_stays && memory_stays {
            self.reach.check(registers, self.mine.len(), pointer, mine);
            return Ok(mine);
        }
        let Pointer { ring, segno, wordno } = pointer;
        let mut text = format!("kuzhlemor_may_call, ring {ring} segment {segno} word {wordno}");
        text +=
            &format!(", IPR's ring {}:\n  answer: second {mine:?}\n          library {answer:?}", registers.ipr.ring);
        if !record_stays {
            text += "\n  the record was written, or its padding";
        }
        if !memory_stays {
            text += "\n  memory was written, or words outside of it";
        }
        Err(Difference(text))
    }

    /// A table of brackets. An accepted one leaves the same memory with its rows in another order. Answers what both do.
    pub fn table(&mut self, table: &Table, random: &mut Random) -> Result<u32, Difference> {
        self.tables += 1;
        let answer = self.set_brackets(table, &table.rows)?;
        self.reach.table(table, answer);
        if answer != 0 {
            return Ok(answer);
        }
        std::mem::swap(&mut self.mine, &mut self.after_run);
        let mut rows = std::mem::take(&mut self.reordered);
        rows.clone_from(&table.rows);
        shuffle(random, &mut rows);
        let result = match self.set_brackets(table, &rows) {
            Ok(0) if self.mine == self.after_run => Ok(0),
            Ok(again) => Err(format!("second's own answers are 0 and {again}, or the memories differ")),
            Err(Difference(text)) => Err(text),
        };
        let result = result.map_err(|text| Difference(format!("{text}\n  with the rows in this order: {rows:?}")));
        self.reordered = rows;
        result
    }

    /// What a table has left in memory, or a conversion of descriptors.
    pub fn memory(&self) -> &[u64] {
        &self.mine
    }

    /// These rows for a table's memory and DBR: the answer and every word; the words around memory and the rows stay.
    fn set_brackets(&mut self, Table { memory, dbr, .. }: &Table, rows: &[Row]) -> Result<u32, Difference> {
        self.mine.clone_from(memory);
        self.lent.set_memory(memory);
        let mine = second::set_brackets(&mut self.mine, *dbr, rows);
        let (answer, rows_stay) = self.lent.set_brackets(*dbr, rows);
        if answer == mine && rows_stay && self.lent.memory() == self.mine && self.lent.guards_stand() {
            return Ok(mine);
        }
        let mut text = format!("kuzhlemor_set_brackets with {} rows: second {mine}, library {answer}", rows.len());
        text += &self.memory_differs();
        if !rows_stay {
            text += "\n  the rows were written, or those around them";
        }
        Err(Difference(text))
    }

    /// A segment of descriptors, converted where it stands. An accepted one comes back the same. Answers what both do.
    pub fn segment(&mut self, segment: &Segment) -> Result<OldAnswer, Difference> {
        let Segment { direction, words } = segment;
        self.segments += 1;
        self.mine.clone_from(words);
        self.lent.set_memory(words);
        let answer = self.convert_old(*direction)?;
        self.reach.segment(segment, answer);
        if answer.number != 0 {
            return Ok(answer);
        }
        self.after_run.clone_from(&self.mine);
        let back = self
            .convert_old(direction.back())
            .map_err(|Difference(text)| Difference(format!("{text}\n  on the way back")))?;
        if back != answer || self.mine != *words {
            return Err(Difference(format!("second's own way back answers {back:?}, or the words differ")));
        }
        std::mem::swap(&mut self.mine, &mut self.after_run);
        Ok(answer)
    }

    /// The conversion of what both have: the answer and every word; the words around them stay.
    fn convert_old(&mut self, direction: Direction) -> Result<OldAnswer, Difference> {
        let mine = direction.convert(&mut self.mine);
        let answer = self.lent.convert_old(direction);
        if answer == mine && self.lent.memory() == self.mine && self.lent.guards_stand() {
            return Ok(mine);
        }
        let text = format!(
            "{direction:?} with {} words:\n  answer: second {mine:?}\n          library {answer:?}",
            self.mine.len()
        );
        Err(Difference(text + &self.memory_differs()))
    }

    /// If the CALL at IPR forms its TPR: TPR, and what both answer of it.
    fn check_of_call(&mut self, registers: &Registers) -> Result<Option<(Pointer, Check)>, Difference> {
        match checks::formed(registers, &self.mine) {
            Some(tpr) => self.may_call(registers, tpr).map(|check| Some((tpr, check))),
            None => Ok(None),
        }
    }

    /// Is the library's state now the second implementation's?
    fn agree(&self, call: &str, reply: Reply, answer: Answer, registers: &Registers) -> Result<(), Difference> {
        let same = answer == Answer::of(reply)
            && self.lent.registers() == *registers
            && self.lent.memory() == self.mine
            && self.lent.guards_stand();
        if same {
            return Ok(());
        }
        let mut text = format!("after {call}:");
        if answer != Answer::of(reply) {
            text += &format!("\n  reply: second {reply:?}\n         library {answer:?}");
        }
        if self.lent.registers() != *registers {
            text += &format!("\n  registers: second {registers:?}\n             library {:?}", self.lent.registers());
        }
        text += &self.memory_differs();
        Err(Difference(text))
    }

    /// The words that differ, at most 100 of them, in words.
    fn memory_differs(&self) -> String {
        let mut text = String::new();
        let words = self.mine.iter().zip(self.lent.memory()).enumerate();
        for (address, (mine, theirs)) in words.filter(|(_, (mine, theirs))| mine != theirs).take(100) {
            text += &format!("\n  memory word {address}: second {mine:#018x}, library {theirs:#018x}");
        }
        if !self.lent.guards_stand() {
            text += "\n  words outside of the memory lent were written";
        }
        text
    }

    /// The bench's call, what the image will need, the doors of its start, and the conversion of the same bytes. Answers what
    /// the bench's call does.
    pub fn image(&mut self, image: &[u8], text_length: usize, filler: u8) -> Result<i64, Difference> {
        self.images += 1;
        let answer = self.bench(image, text_length, filler)?;
        self.needs(image, answer, filler)?;
        if answer >= 0 || answer == -45 {
            if let Ok(image) = second::read_image(image) {
                self.doors(&image, filler)?;
            }
        }
        self.conversion(image, filler)?;
        Ok(answer)
    }

    /// The bench's call: the answer, and every byte of the buffer. `filler` is what the buffer holds before.
    fn bench(&mut self, image: &[u8], text_length: usize, filler: u8) -> Result<i64, Difference> {
        // Image and buffer start anywhere.
        let start = usize::from(filler % 8);
        self.image.clear();
        self.image.resize(start, 0);
        self.image.extend_from_slice(image);
        let [mine, theirs] = &mut self.texts;
        for text in [&mut *mine, &mut *theirs] {
            text.clear();
            text.resize(start + text_length + BEHIND, filler);
        }
        let my_answer = second::bench(image, &mut mine[start..start + text_length]);
        let answer = crate::library::bench(&self.image[start..], &mut theirs[start..start + text_length]);
        if my_answer == answer && mine == theirs {
            self.reach.image(answer, &theirs[start..]);
            return Ok(answer);
        }
        let mut text = format!("kuzhlemor_bench with {text_length} bytes: second {my_answer}, library {answer}");
        if let Some(first) = mine.iter().zip(&*theirs).position(|(mine, theirs)| mine != theirs) {
            let part = |bytes: &[u8]| String::from_utf8_lossy(&bytes[..(first + 40).min(bytes.len())]).into_owned();
            text += &format!("\n  the texts differ from byte {first} on");
            text += &format!("\n  second:\n{}\n  library:\n{}", part(mine), part(theirs));
        }
        Err(Difference(text))
    }

    /// What the image will need, where it stands for the bench's call, which has answered this: number and figures; the
    /// image stays. The number is that of loading, and what was listed has no more lines and pointer words.
    fn needs(&mut self, image: &[u8], answer: i64, filler: u8) -> Result<(), Difference> {
        let start = usize::from(filler % 8);
        let mine = NeedsAnswer::of(second::needs(image));
        let theirs = crate::library::needs(&mut self.image[start..]);
        if mine != theirs || self.image[start..] != *image {
            let text = format!("kuzhlemor_needs:\n  second  {mine:?}\n  library {theirs:?}, or the image was written");
            return Err(Difference(text));
        }
        // 45 has no place here.
        let by_loading = if answer >= 0 || answer == -45 { 0 } else { answer.unsigned_abs() };
        let text = usize::try_from(answer).ok().map(|length| &self.texts[1][start..start + length]);
        let Needs { lines, pointers, .. } = theirs.needs;
        let listed = text.map(reach::listed);
        if theirs.number != by_loading || listed.is_some_and(|listed| listed.lines > lines || listed.total > pointers) {
            return Err(Difference(format!("kuzhlemor_needs: {theirs:?}, but kuzhlemor_bench: {answer}, {listed:?}")));
        }
        self.reach.needs(theirs, listed);
        Ok(())
    }

    /// Calls from other segments to some segments of an image's start: by its doors they come down, and not otherwise.
    fn doors(&mut self, Image { registers, memory, .. }: &Image, filler: u8) -> Result<(), Difference> {
        self.reach.doors(registers, &doors::doors(registers, memory));
        self.lend(registers, memory);
        let length = registers.dbr.length;
        for segno in (0..length.min(SEGMENTS)).map(|place| (u16::from(filler) + place) % length) {
            for doors::Call { registers, pointer, says } in doors::calls(registers, memory, segno) {
                self.lent.set_registers(&registers);
                let check = self.may_call(&registers, pointer)?;
                if !says.is(check) {
                    let door = doors::door(&registers, memory, segno);
                    let text =
                        format!("{door:?}: a call of {pointer:?} from {:?}: {check:?}, not {says:?}", registers.ipr);
                    return Err(Difference(text));
                }
                self.reach.called(says, check);
            }
        }
        Ok(())
    }

    /// The conversion, in place: the answer, every byte of the image and the bytes around it, refused or not. What comes
    /// out is looked at as well: it is no stored image, and it means what the stored one did.
    fn conversion(&mut self, image: &[u8], filler: u8) -> Result<(), Difference> {
        let mine = second::convert(image);
        self.convert("kuzhlemor_convert", image, &mine, filler)?;
        self.reach.conversion(image, &mine);
        let Ok(new) = mine else { return Ok(()) };
        self.convert("kuzhlemor_convert of what it gave", &new, &Err(41), !filler)?;
        self.listing_stays(image, &new, filler)
    }

    /// Is this the library's answer, and are these the bytes? Behind what it gives they stay as they were.
    fn convert(&mut self, call: &str, image: &[u8], mine: &Result<Vec<u8>, u8>, filler: u8) -> Result<(), Difference> {
        let start = usize::from(filler >> 3) % 8;
        // Whatever the room holds, it isn't read as records.
        let room: &[u8; ROOM] = match filler % 4 {
            0 => &[0; ROOM],
            1 => b"RN\0\0\0",
            2 => b"WD\0\0\0",
            _ => &[filler; ROOM],
        };
        let [expected, lent] = &mut self.texts;
        for bytes in [&mut *expected, &mut *lent] {
            bytes.clear();
            bytes.resize(start, filler);
            bytes.extend_from_slice(image);
            bytes.extend_from_slice(room);
            bytes.resize(start + image.len() + ROOM + BEHIND, filler);
        }
        let my_answer = match mine {
            Ok(new) => {
                expected[start..start + new.len()].copy_from_slice(new);
                new.len() as i64
            }
            Err(number) => -i64::from(*number),
        };
        let answer = crate::library::convert(&mut lent[start..start + image.len() + ROOM]);
        self.converted(&format!("{call}, {} bytes", image.len()), start, [my_answer, answer])
    }

    /// A conversion with fewer bytes than its room: an empty image.
    pub fn less_than_room(&mut self, length: usize, filler: u8) -> Result<(), Difference> {
        let start = usize::from(filler >> 3) % 8;
        let [expected, lent] = &mut self.texts;
        for bytes in [&mut *expected, &mut *lent] {
            bytes.clear();
            bytes.resize(start + length + BEHIND, filler);
        }
        let answer = crate::library::convert(&mut lent[start..start + length]);
        self.converted(&format!("kuzhlemor_convert with {length} bytes"), start, [-42, answer])
    }

    /// Are the answers equal, and the bytes that are expected those that were lent?
    fn converted(&self, call: &str, start: usize, [mine, theirs]: [i64; 2]) -> Result<(), Difference> {
        let [expected, lent] = &self.texts;
        if mine == theirs && expected == lent {
            return Ok(());
        }
        let mut text = format!("{call}: second {mine}, library {theirs}");
        if let Some(first) = expected.iter().zip(lent).position(|(mine, theirs)| mine != theirs) {
            let end = (first + 16).min(lent.len());
            text += &format!("\n  from byte {} of the image on:", first as i64 - start as i64);
            text += &format!("\n  second  {:02x?}\n  library {:02x?}", &expected[first..end], &lent[first..end]);
        }
        Err(Difference(text))
    }

    /// Is the listing of `new`, which the library has given, what `old` means by the stored rules?
    fn listing_stays(&mut self, old: &[u8], new: &[u8], filler: u8) -> Result<(), Difference> {
        let stored = match second::read_stored_image(old) {
            Ok(stored) if stored.budget <= BUDGET => stored,
            _ => return Ok(()),
        };
        let [mine, theirs] = &mut self.texts;
        theirs.clear();
        theirs.resize(64 * (stored.budget as usize + 1), filler);
        mine.clear();
        if second::listing::list_run(stored, mine).is_err() {
            return Err(Difference("second's own listing".to_string()));
        }
        let length = mine.len();
        mine.resize(theirs.len(), filler);
        let answer = crate::library::bench(new, theirs);
        if answer == length as i64 && mine == theirs {
            self.reach.listed();
            return Ok(());
        }
        let shown = |text: &[u8]| String::from_utf8_lossy(&text[..text.len().min(200)]).into_owned();
        Err(Difference(format!(
            "kuzhlemor_bench of what kuzhlemor_convert gave: second {length}, library {answer}\n  second:\n{}\n  \
             library:\n{}",
            shown(mine),
            shown(theirs)
        )))
    }
}

fn at_step(before: u32, text: String) -> Difference {
    Difference(format!("step {}: {text}", before + 1))
}

/// A CALL has met this fault, delivered or not, or has moved IPR here: is that its check?
fn answers_by_check(tpr: Pointer, check: Check, fault: Option<Fault>, ipr: Pointer) -> Result<(), Difference> {
    let is_answer = match check {
        Check::Refused { .. } => false,
        Check::Fault(by_check) => fault == Some(by_check),
        Check::Passes { ring } => fault.is_none() && ipr == Pointer { ring, ..tpr },
    };
    if is_answer {
        return Ok(());
    }
    Err(Difference(format!("a CALL of {tpr:?} with {check:?} gave {fault:?} and IPR {ipr:?}")))
}

/// Where a step has faulted. It left registers and memory as they were, so that its address can be formed again.
fn fault_place(registers: &Registers, memory: &[u64]) -> Place {
    match second::machine::fetch(registers, memory) {
        Ok(instruction) if second::machine::decode(&instruction, &registers.ipr).is_ok() => {
            match second::machine::form_address(registers, memory, &instruction).tpr {
                Ok(_) => Place::Operand,
                Err(_) => Place::PointerWord,
            }
        }
        Ok(instruction) if instruction.i => Place::InstructionWithI,
        _ => Place::Before,
    }
}

/// Why a fault wasn't saved.
fn unsaved(registers: &Registers, memory: &[u64]) -> Unsaved {
    if registers.fault_switch == 0 {
        return Unsaved::SwitchOff;
    }
    if registers.save_segment >= registers.dbr.length {
        return Unsaved::No(11);
    }
    let word = memory[registers.dbr.address as usize + usize::from(registers.save_segment)];
    let save = Descriptor::from_word(word);
    match save {
        Descriptor { v: false, .. } => Unsaved::No(12),
        _ if save.r1 > save.r2 || save.r2 > save.r3 => Unsaved::No(13),
        _ if save.address as usize + usize::from(save.length) > memory.len() => Unsaved::No(14),
        _ if save.length < 13 => Unsaved::Short,
        _ => Unsaved::NotWritable,
    }
}

/// The opcode that a step will perform, if it gets that far.
fn opcode_at_ipr(registers: &Registers, memory: &[u64]) -> Option<u8> {
    second::machine::refusal(registers, memory.len()).ok()?;
    second::machine::fetch(registers, memory).ok().map(|Instruction { opcode, .. }| opcode)
}
