//! What calls with descriptors close by reached.

use crate::compare::Machine;
use crate::reach::print_row;
use second::close::{Close, Record, RECORDS};
use second::machine::{fetch_by, form_address_by, refusal};
use second::opcodes::*;
use second::{Dbr, Descriptor, Fault, Registers, Reply};

/// What a step does with the records, in order; what it is comes first.
#[derive(Clone, Copy, Debug)]
pub enum Event {
    /// The opcode, if it is fetched; whether TPR is formed; how many words memory has.
    Before {
        opcode: Option<u8>,
        is_formed: bool,
        words: usize,
    },
    LookUp(LookUp),
    Written(Place),
    DbrLoaded,
}

#[derive(Clone, Copy, Debug)]
pub struct LookUp {
    segno: u16,
    word: u64,
    found: Found,
    is_true: bool,
    /// A record of the segment has another mark than 0 and 1.
    is_near: bool,
}

#[derive(Clone, Copy, Debug)]
enum Found {
    /// With the count it had, and whether there is another behind it.
    Hit { count: u8, is_first_of_several: bool },
    /// With the mark that was overwritten.
    Miss { mark: u8 },
}

/// Where words were written.
#[derive(Clone, Copy, Debug, PartialEq, Eq)]
pub enum Place {
    Descriptors,
    JustBefore,
    JustBehind,
    Elsewhere,
}

impl Event {
    pub fn before(registers: &Registers, close: &Close, memory: &[u64]) -> Event {
        let mut close = close.clone();
        let instruction = fetch_by(&mut close, registers, memory).ok();
        let is_formed = instruction
            .is_some_and(|instruction| form_address_by(&mut close, registers, memory, &instruction).tpr.is_ok());
        Event::Before { opcode: instruction.map(|instruction| instruction.opcode), is_formed, words: memory.len() }
    }

    /// By the records before it.
    pub fn look_up(before: &Close, found: Option<usize>, segno: u16, word: u64, is_true: bool) -> Event {
        let of_segment = || before.records().iter().filter(move |record| record.segment == segno);
        let found = match found {
            Some(place) => Found::Hit {
                count: before.records()[place].count,
                is_first_of_several: of_segment().filter(|record| record.is_valid()).count() > 1,
            },
            None => {
                let overwritten = before.records().iter().find(|record| record.count == 0);
                Found::Miss { mark: overwritten.map_or(0, |record| record.valid) }
            }
        };
        Event::LookUp(LookUp { segno, word, found, is_true, is_near: of_segment().any(|record| record.valid > 1) })
    }

    pub fn written(dbr: &Dbr, address: usize, words: usize) -> Event {
        let (first, behind) = (dbr.address as usize, dbr.address as usize + usize::from(dbr.length));
        Event::Written(match address {
            _ if address + words == first => Place::JustBefore,
            _ if address == behind => Place::JustBehind,
            _ if address < behind && address + words > first => Place::Descriptors,
            _ => Place::Elsewhere,
        })
    }
}

/// What segments are used for.
const USES: [&str; 11] =
    ["fetch", "pointer word", "read", "write", "AOS", "transfer", "CALL", "RETURN", "LDBR", "RCU", "save segment"];
const FETCH: usize = 0;
const POINTER_WORD: usize = 1;
const SAVE: usize = 10;

/// The use of an operand.
fn use_by(opcode: u8) -> usize {
    match opcode {
        STA | SPP => 3,
        AOS => 4,
        TRA | TZE | TMI => 5,
        CALL => 6,
        RETURN => 7,
        LDBR => 8,
        RCU => 9,
        _ => 2,
    }
}

/// A step and its look-ups, each with its use.
pub struct Step {
    opcode: Option<u8>,
    is_formed: bool,
    words: usize,
    look_ups: Vec<(usize, LookUp)>,
    written: Option<Place>,
    is_loaded: bool,
    fault: Option<Fault>,
    reply: Reply,
    switch: bool,
}

impl Step {
    /// None if these can't be a step's look-ups: CODE, its pointer words, the operand, the save segment.
    pub fn of(before: &Registers, events: &[Event], fault: Option<Fault>, reply: Reply) -> Option<Step> {
        let (&Event::Before { opcode, is_formed, words }, events) = events.split_first()? else { return None };
        let mut found = events.iter().filter_map(|event| match event {
            Event::LookUp(look_up) => Some(*look_up),
            _ => None,
        });
        let mut look_ups = Vec::new();
        let length = before.dbr.length;
        if before.ipr.segno < length {
            look_ups.push((FETCH, found.next().filter(|fetch| fetch.segno == before.ipr.segno)?));
        }
        for _ in 0..reply.pointer_words() {
            look_ups.push((POINTER_WORD, found.next()?));
        }
        let mut rest: Vec<LookUp> = found.collect();
        let switch = before.fault_switch == 1;
        let save = if fault.is_some() && switch && before.save_segment < length { Some(rest.pop()?) } else { None };
        if save.is_some_and(|save| save.segno != before.save_segment) || rest.len() > 1 {
            return None;
        }
        if let Some(operand) = rest.pop() {
            look_ups.push((if is_formed { use_by(opcode?) } else { POINTER_WORD }, operand));
        }
        look_ups.extend(save.map(|save| (SAVE, save)));
        let written = events.iter().find_map(|event| match event {
            Event::Written(place) => Some(*place),
            _ => None,
        });
        let is_loaded = events.iter().any(|event| matches!(event, Event::DbrLoaded));
        Some(Step { opcode, is_formed, words, look_ups, written, is_loaded, fault, reply, switch })
    }

    fn is_delivered(&self) -> bool {
        self.fault.is_some() && matches!(self.reply, Reply::Spent { .. })
    }

    /// The last look-up that isn't the save segment's.
    fn last(&self) -> Option<&(usize, LookUp)> {
        self.look_ups.iter().rfind(|(by, _)| *by != SAVE)
    }
}

/// The faults that a descriptor word decides.
const WORD_QUESTIONS: [u8; 13] = [12, 13, 14, 15, 21, 22, 23, 25, 26, 27, 28, 29, 30];
const CLEARS: [&str; 6] = ["STA", "AOS", "SPP", "a frame", "LDBR", "opcode 42"];
const SAVES: [&str; 6] = ["delivers", "12 no", "13 no", "14 no", "too short", "W off"];
const LOOK_UPS: [&str; 4] = ["no look-up", "1 look-up", "2 look-ups", "3 and more"];
const REPLIES: [&str; 4] = ["refused", "spent", "halted", "fault"];

fn reply_cell(reply: Reply) -> usize {
    match reply {
        Reply::Refused { .. } => 0,
        Reply::Spent { .. } => 1,
        Reply::Halted { .. } => 2,
        Reply::Fault { .. } => 3,
    }
}

#[derive(Default)]
pub struct Reach {
    /// Hits and misses, by use; of the hits those on a false record, and of these those of a completed step.
    uses: [[u64; 2]; USES.len()],
    untrue: [u64; USES.len()],
    untrue_completed: [u64; USES.len()],
    /// By the old count: 0, 1 to 14, 15.
    hit_counts: [u64; 3],
    first_of_several: u64,
    /// Records of the segment with another mark: beside a hit, and where there is a miss.
    near: [u64; 2],
    /// By the mark that a miss overwrites: 0, 1, another.
    overwritten: [u64; 3],
    clears: [u64; CLEARS.len()],
    /// Through a false record: a store, a frame.
    untrue_clears: [u64; 2],
    just_before: u64,
    just_behind: u64,
    /// By number, decided by a false record.
    untrue_faults: [[u64; 8]; 8],
    /// Hits and misses of the save segment, by outcome; without a look-up; by a false record, delivered or not.
    saves: [[u64; SAVES.len()]; 2],
    unsaved: [u64; 2],
    untrue_saves: [u64; 2],
    /// LDBR and opcode 42 that faulted and were delivered: without a clear and with one.
    not_loaded: [[u64; 2]; 2],
    /// No look-up: EAP, a transfer not taken, 31, and 11 of fetch, pointer word and operand.
    without: [u64; 6],
    /// By the look-ups of a faulting step, undelivered and delivered.
    faulting: [[u64; LOOK_UPS.len()]; 2],
    /// Counts put in order: by a double and by one above 15; each with budget 0 and more.
    ordered: [[u64; 2]; 2],
    ordered_marks: u64,
    /// 63: none, fewer, more; where 1 is no too, and 2 to 4.
    not_sixteen: [u64; 3],
    not_sixteen_and: [u64; 2],
    /// 1 to 4, with counts in order and not.
    refused: [[u64; 2]; 4],
    /// By reply: from true records as the plain processor; from false ones.
    plain: [u64; REPLIES.len()],
    others: [u64; REPLIES.len()],
}

impl Reach {
    /// A run with these records and its reply.
    pub fn call(&mut self, machine: &Machine, records: &[Record], reply: Reply) {
        let in_order = (0..RECORDS).all(|count| records.iter().any(|record| usize::from(record.count) == count));
        self.others[reply_cell(reply)] += u64::from(!super::are_true(machine, records));
        match reply {
            Reply::Refused { number: 63 } => {
                self.not_sixteen[usize::from(!records.is_empty()) + usize::from(records.len() > RECORDS)] += 1;
                match refusal(&machine.registers, machine.memory.len()) {
                    Ok(()) => {}
                    Err(number) => self.not_sixteen_and[usize::from(number != 1)] += 1,
                }
            }
            Reply::Refused { number } => {
                self.refused[usize::from(number.clamp(1, 4)) - 1][usize::from(!in_order)] += 1;
            }
            _ if in_order => {}
            _ => {
                let is_above = records.iter().any(|record| record.count > 15);
                self.ordered[usize::from(is_above)][usize::from(machine.budget > 0)] += 1;
                self.ordered_marks += u64::from(records.iter().any(Record::is_valid));
            }
        }
    }

    /// A run from true records.
    pub fn plain(&mut self, reply: Reply) {
        self.plain[reply_cell(reply)] += 1;
    }

    pub fn step(&mut self, step: &Step) {
        for (by, look_up) in &step.look_ups {
            self.look_up(*by, look_up, step.fault.is_none());
        }
        self.write(step);
        self.no_look_up(step);
        if let Some(fault) = step.fault {
            self.fault(step, fault);
        }
    }

    fn look_up(&mut self, by: usize, look_up: &LookUp, is_completed: bool) {
        match look_up.found {
            Found::Hit { count, is_first_of_several } => {
                self.uses[by][0] += 1;
                self.hit_counts[usize::from(count > 0) + usize::from(count == 15)] += 1;
                self.first_of_several += u64::from(is_first_of_several);
                self.untrue[by] += u64::from(!look_up.is_true);
                self.untrue_completed[by] += u64::from(!look_up.is_true && is_completed);
                self.near[0] += u64::from(look_up.is_near);
            }
            Found::Miss { mark } => {
                self.uses[by][1] += 1;
                self.overwritten[usize::from(mark.min(2))] += 1;
                self.near[1] += u64::from(look_up.is_near);
            }
        }
    }

    fn write(&mut self, step: &Step) {
        let is_untrue = step.look_ups.last().is_some_and(|(_, look_up)| !look_up.is_true);
        match (step.written, step.opcode) {
            (Some(Place::Descriptors), _) if step.is_delivered() => {
                self.clears[3] += 1;
                self.untrue_clears[1] += u64::from(is_untrue);
            }
            (Some(Place::Descriptors), Some(opcode)) => {
                self.clears[[STA, AOS].iter().position(|other| *other == opcode).unwrap_or(2)] += 1;
                self.untrue_clears[0] += u64::from(is_untrue);
            }
            (Some(Place::JustBefore), _) => self.just_before += 1,
            (Some(Place::JustBehind), _) => self.just_behind += 1,
            _ => {}
        }
        if step.is_loaded {
            self.clears[if step.opcode == Some(LDBR) { 4 } else { 5 }] += 1;
        }
    }

    fn no_look_up(&mut self, step: &Step) {
        let operands = step.look_ups.iter().filter(|(by, _)| !matches!(*by, FETCH | POINTER_WORD | SAVE)).count();
        if step.is_formed && operands == 0 && step.fault.is_none() {
            match step.opcode {
                Some(EAP) => self.without[0] += 1,
                Some(TZE | TMI) => self.without[1] += 1,
                _ => {}
            }
        }
        match step.fault {
            Some(Fault { number: 31, .. }) => self.without[2] += 1,
            Some(Fault { number: 11, .. }) => match (step.last(), step.is_formed) {
                (None, _) => self.without[3] += 1,
                (_, false) => self.without[4] += 1,
                (_, true) => self.without[5] += 1,
            },
            _ => {}
        }
    }

    fn fault(&mut self, step: &Step, Fault { number, .. }: Fault) {
        let is_delivered = usize::from(step.is_delivered());
        let look_ups = step.look_ups.iter().filter(|(by, _)| *by != SAVE).count();
        self.faulting[is_delivered][look_ups.min(3)] += 1;
        if WORD_QUESTIONS.contains(&number) && step.last().is_some_and(|(_, look_up)| !look_up.is_true) {
            self.untrue_faults[usize::from(number / 8)][usize::from(number % 8)] += 1;
        }
        let is_after_address = step.is_formed && !matches!(number, 32 | 33);
        if let (Some(opcode @ (LDBR | RCU)), true, 1) = (step.opcode, is_after_address, is_delivered) {
            let clears = usize::from(step.written == Some(Place::Descriptors));
            self.not_loaded[usize::from(opcode == RCU)][clears] += 1;
        }
        match step.look_ups.last() {
            Some((SAVE, look_up)) => self.save(look_up, step.words),
            _ => self.unsaved[usize::from(step.switch)] += 1,
        }
    }

    fn save(&mut self, look_up: &LookUp, words: usize) {
        let save = Descriptor::from_word(look_up.word);
        let outcome = match save {
            Descriptor { v: false, .. } => 1,
            _ if save.r1 > save.r2 || save.r2 > save.r3 => 2,
            _ if save.address as usize + usize::from(save.length) > words => 3,
            _ if save.length < 13 => 4,
            Descriptor { w: false, .. } => 5,
            _ => 0,
        };
        self.saves[usize::from(matches!(look_up.found, Found::Miss { .. }))][outcome] += 1;
        if !look_up.is_true {
            self.untrue_saves[usize::from(outcome > 0)] += 1;
        }
    }

    /// Prints the tables; answers what was never reached.
    pub fn print(&self) -> Vec<String> {
        let missed = &mut Vec::new();
        self.print_look_ups(missed);
        println!("descriptors close by, what clears the marks:");
        let clears = CLEARS.map(|by| format!("cleared by {by}")).into_iter().zip(self.clears);
        let untrue = [("a store", self.untrue_clears[0]), ("a frame", self.untrue_clears[1])];
        let beside = [("just before", self.just_before), ("just behind", self.just_behind)];
        let untrue = untrue.map(|(by, count)| (format!("cleared by {by} through a false record"), count));
        let beside = beside.map(|(place, count)| (format!("written {place} the descriptor words"), count));
        print_row(clears.chain(untrue).chain(beside), missed);
        self.print_faults(missed);
        self.print_calls(missed);
        std::mem::take(missed)
    }

    fn print_look_ups(&self, missed: &mut Vec<String>) {
        println!("descriptors close by, look-ups by use:");
        let uses = USES
            .into_iter()
            .zip(self.uses)
            .flat_map(|(by, [hits, misses])| [(format!("{by}, hit"), hits), (format!("{by}, miss"), misses)]);
        print_row(uses, missed);
        print_row(USES.map(|by| format!("{by} by a false record")).into_iter().zip(self.untrue), missed);
        let completed = USES.map(|by| format!("{by} by a false record, completed")).into_iter();
        // The save segment is looked up by faulting steps alone.
        print_row(completed.zip(self.untrue_completed).take(SAVE), missed);
        let hits = ["hit, count 0", "hit, count 1 to 14", "hit, count 15"].map(str::to_string);
        let misses = ["over an invalid record", "over a valid one", "over another mark"];
        let others = [
            ("hit, another behind it".to_string(), self.first_of_several),
            ("hit, another mark beside it".to_string(), self.near[0]),
            ("miss, another mark".to_string(), self.near[1]),
        ];
        let misses = misses.map(|over| format!("miss {over}")).into_iter().zip(self.overwritten);
        print_row(hits.into_iter().zip(self.hit_counts).chain(others).chain(misses), missed);
        println!("descriptors close by, no look-up:");
        let without = ["EAP's target", "a transfer not taken", "31", "11 of a fetch", "11 of a pointer word"];
        let names = without.into_iter().chain(["11 of an operand"]).map(|name| format!("{name} isn't looked up"));
        print_row(names.zip(self.without), missed);
    }

    fn print_faults(&self, missed: &mut Vec<String>) {
        println!("descriptors close by, faults:");
        let untrue = WORD_QUESTIONS.map(|number| {
            let count = self.untrue_faults[usize::from(number / 8)][usize::from(number % 8)];
            (format!("{number} by a false record"), count)
        });
        print_row(untrue.into_iter(), missed);
        for (what, counts) in ["undelivered", "delivered"].into_iter().zip(self.faulting) {
            print_row(LOOK_UPS.map(|count| format!("{count}, {what}")).into_iter().zip(counts), missed);
        }
        for (found, counts) in ["hit", "miss"].into_iter().zip(self.saves) {
            print_row(SAVES.map(|what| format!("save segment {found}, {what}")).into_iter().zip(counts), missed);
        }
        let others = [
            ("no look-up of the save segment, switch off", self.unsaved[0]),
            ("no look-up of the save segment, 11", self.unsaved[1]),
            ("saved by a false record", self.untrue_saves[0]),
            ("not saved by a false record", self.untrue_saves[1]),
            ("LDBR delivered, no clear", self.not_loaded[0][0]),
            ("LDBR delivered, its frame clears", self.not_loaded[0][1]),
            ("opcode 42 delivered, no clear", self.not_loaded[1][0]),
            ("opcode 42 delivered, its frame clears", self.not_loaded[1][1]),
        ];
        print_row(others.into_iter().map(|(name, count)| (name.to_string(), count)), missed);
    }

    fn print_calls(&self, missed: &mut Vec<String>) {
        println!("descriptors close by, calls:");
        let ordered = ["a double", "one above 15"].into_iter().zip(self.ordered).flat_map(|(by, [none, more])| {
            let name = |budget: &str| format!("counts put in order, {by}, {budget}");
            [(name("budget 0"), none), (name("a budget"), more)]
        });
        print_row(ordered.chain([("counts put in order, a valid mark".to_string(), self.ordered_marks)]), missed);
        let not_sixteen =
            ["63, no record", "63, fewer", "63, more"].map(str::to_string).into_iter().zip(self.not_sixteen);
        let and = ["63 and 1", "63 and one of 2 to 4"].map(str::to_string).into_iter().zip(self.not_sixteen_and);
        let refused = (1..).zip(self.refused).flat_map(|(number, [in_order, not])| {
            let name = |counts: &str| format!("{number} with counts {counts}");
            [(name("in order"), in_order), (name("not in order"), not)]
        });
        // 1 takes 128 MB: it is tried with counts that aren't.
        print_row(not_sixteen.chain(and).chain(refused.skip(1)), missed);
        let plain = REPLIES.map(|reply| format!("as the plain processor, {reply}")).into_iter().zip(self.plain);
        let others = REPLIES.map(|reply| format!("from false records, {reply}")).into_iter().zip(self.others);
        print_row(plain.chain(others), missed);
    }
}
