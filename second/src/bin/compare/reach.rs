//! What the inputs reached.

use std::collections::BTreeMap;

use crate::compare::Machine;
use crate::library::NeedsAnswer;
use second::doors::{Change, Door, Says};
use second::image::{self, Record};
use second::old_cases::Segment;
use second::opcodes::RCU;
use second::tables::Table;
use second::{Check, Descriptor, Direction, Fault, OldAnswer, Opcode, Pointer, Registers, Reply, Row, Rules};

/// The questions of a machine, and those of an image: a memory of at most 8,192 words has no 1.
pub const QUESTIONS: [u8; 24] =
    [1, 2, 3, 4, 11, 12, 13, 14, 15, 21, 22, 23, 24, 25, 26, 27, 28, 29, 30, 31, 32, 33, 34, 52];
pub const IMAGE_QUESTIONS: [u8; 29] =
    [41, 42, 43, 44, 51, 2, 3, 4, 45, 11, 12, 13, 14, 15, 21, 22, 23, 24, 25, 26, 27, 28, 29, 30, 31, 32, 33, 34, 52];
/// Those of a step.
const STEP_QUESTIONS: [u8; 20] = [11, 12, 13, 14, 15, 21, 22, 23, 24, 25, 26, 27, 28, 29, 30, 31, 32, 33, 34, 52];

const TOTALS: [&str; 5] = ["total 0", "total 1 to 9", "total 10 to 99", "total 100 to 999", "total 1000 and more"];

/// How runs ended, and how far they went.
#[derive(Default)]
struct Runs {
    answered_no: BTreeMap<u8, u64>,
    spent: u64,
    halted: u64,
    longest: u32,
    /// Runs of at least 1, 10, 100 and 1000 completed steps.
    longer: [u64; 4],
    /// By the total of pointer words, in the order of `TOTALS`.
    totals: [u64; 5],
}

impl Runs {
    fn ended(&mut self, reply: Reply) {
        let count = match reply {
            Reply::Refused { number } => {
                self.no(number);
                0
            }
            Reply::Fault { fault, count, .. } => {
                self.no(fault.number);
                count
            }
            Reply::Spent { count, .. } => {
                self.spent += 1;
                count
            }
            Reply::Halted { count, .. } => {
                self.halted += 1;
                count
            }
        };
        self.longest = self.longest.max(count);
        let places = [0, 1, 10, 100, 1000].into_iter().filter(|least| *least <= reply.pointer_words()).count();
        self.totals[places - 1] += u64::from(!matches!(reply, Reply::Refused { .. }));
        for (longer, least) in self.longer.iter_mut().zip([1, 10, 100, 1000]) {
            *longer += u64::from(count >= least);
        }
    }

    fn no(&mut self, number: u8) {
        *self.answered_no.entry(number).or_default() += 1;
    }

    fn print(&self, questions: &[u8], missed: &mut Vec<String>) {
        let no =
            questions.iter().map(|number| (number.to_string(), self.answered_no.get(number).copied().unwrap_or(0)));
        let others = [("spent".to_string(), self.spent), ("halted".to_string(), self.halted)];
        print_row(no.chain(others), missed);
        let [one, ten, hundred, thousand] = self.longer;
        println!(
            "  of at least 1, 10, 100, 1000 steps: {one} {ten} {hundred} {thousand}; the longest: {}",
            self.longest
        );
        println!("  by the total of their pointer words:");
        print_row(TOTALS.iter().map(|name| name.to_string()).zip(self.totals), missed);
    }
}

/// Where a step faults.
#[derive(Clone, Copy, Debug, PartialEq, Eq)]
pub enum Place {
    /// Before the instruction is there, or at 32 and 33 without I.
    Before,
    /// At 32 and 33, with I on.
    InstructionWithI,
    /// At a pointer word.
    PointerWord,
    /// After the chain, if there is one.
    Operand,
}

/// The questions of a pointer word after 31, and those that follow a chain.
const POINTER_QUESTIONS: [u8; 6] = [11, 12, 13, 14, 15, 22];
const OPERAND_QUESTIONS: [u8; 16] = [11, 12, 13, 14, 15, 22, 23, 24, 25, 26, 27, 28, 29, 30, 34, 52];
/// Those of opcode 42.
const FRAME_QUESTIONS: [u8; 8] = [11, 12, 13, 14, 15, 22, 34, 52];

/// Counts of pointer words.
const COUNTS: [&str; 4] = ["0", "1", "2 to 63", "64"];

fn count_cell(pointer_words: u64) -> usize {
    match pointer_words {
        0 | 1 => pointer_words as usize,
        2..=63 => 2,
        _ => 3,
    }
}

/// The pointer words of single steps.
struct PointerWords {
    completed: [u64; 4],
    /// By number and by the pointer words read before: 0, 1 to 62, 63, 64.
    at_pointer_word: [[u64; 4]; 64],
    /// By number and count.
    at_operand: [[u64; 4]; 64],
    /// 32 and 33, of an instruction with I on.
    with_i: [u64; 64],
}

impl PointerWords {
    fn fault(&mut self, number: u8, pointer_words: u64, place: Place) {
        let number = usize::from(number);
        match place {
            Place::Before => {}
            Place::InstructionWithI => self.with_i[number] += 1,
            Place::PointerWord => {
                let cell = [0, 1, 63, 64].iter().filter(|least| **least <= pointer_words).count() - 1;
                self.at_pointer_word[number][cell] += 1;
            }
            Place::Operand => self.at_operand[number][count_cell(pointer_words)] += 1,
        }
    }

    fn print(&self, missed: &mut Vec<String>) {
        println!("steps completed, by their pointer words:");
        print_row(COUNTS.iter().map(|name| format!("{name} read")).zip(self.completed), missed);
        println!("faults at a pointer word, by the number of those read before it:");
        let at = |number: u8, name: &str, cell: usize| {
            (format!("{number} at {name}"), self.at_pointer_word[usize::from(number)][cell])
        };
        let each = POINTER_QUESTIONS.into_iter().flat_map(|number| {
            ["0", "1 to 62", "63"].into_iter().enumerate().map(move |(cell, name)| at(number, name, cell))
        });
        print_row(each.chain([at(31, "64", 3)]), missed);
        println!("faults after the address, by its pointer words:");
        let each = OPERAND_QUESTIONS.into_iter().flat_map(|number| {
            let counts = COUNTS.into_iter().zip(self.at_operand[usize::from(number)]);
            counts.map(move |(name, count)| (format!("{number} after {name}"), count))
        });
        let with_i = [32, 33].map(|number: u8| (format!("{number} with I on"), self.with_i[usize::from(number)]));
        print_row(each.chain(with_i), missed);
    }
}

/// Why a fault wasn't delivered.
#[derive(Clone, Copy, Debug, PartialEq, Eq)]
pub enum Unsaved {
    SwitchOff,
    /// Of 11 to 14, of the save segment.
    No(u8),
    Short,
    NotWritable,
}

/// What became of faults, by number.
struct Deliveries {
    delivered: [u64; 64],
    switch_off: [u64; 64],
    unsaved: [u64; 64],
    /// Delivered, by the pointer words read.
    pointer_words: [u64; 4],
    /// Not delivered, by what the save segment lacks: 11 to 14, words, W.
    lacks: [u64; 6],
    /// Of opcode 42, delivered or not; those at a pointer word aren't in the latter.
    restoring_delivered: [u64; 64],
    restoring_undelivered: [u64; 64],
}

impl Deliveries {
    fn new() -> Deliveries {
        Deliveries {
            delivered: [0; 64],
            switch_off: [0; 64],
            unsaved: [0; 64],
            pointer_words: [0; 4],
            lacks: [0; 6],
            restoring_delivered: [0; 64],
            restoring_undelivered: [0; 64],
        }
    }

    fn undelivered(&mut self, number: u8, why: Unsaved) {
        let lack = match why {
            Unsaved::SwitchOff => {
                self.switch_off[usize::from(number)] += 1;
                return;
            }
            Unsaved::No(number) => usize::from(number) - 11,
            Unsaved::Short => 4,
            Unsaved::NotWritable => 5,
        };
        self.unsaved[usize::from(number)] += 1;
        self.lacks[lack] += 1;
    }

    fn print(&self, missed: &mut Vec<String>) {
        let row = |name: &'static str, numbers: &[u8], counts: &[u64; 64], missed: &mut Vec<String>| {
            println!("{name}:");
            let cells = numbers.iter().map(|number| (format!("{number} {name}"), counts[usize::from(*number)]));
            print_row(cells, missed);
        };
        row("delivered", &STEP_QUESTIONS, &self.delivered, missed);
        row("undelivered, switch off", &STEP_QUESTIONS, &self.switch_off, missed);
        row("undelivered, switch on", &STEP_QUESTIONS, &self.unsaved, missed);
        println!("undelivered by the save segment, which lacks:");
        let lacks = ["a yes to 11", "a yes to 12", "a yes to 13", "a yes to 14", "words", "W"];
        print_row(lacks.into_iter().map(str::to_string).zip(self.lacks), missed);
        println!("delivered, by their pointer words:");
        print_row(COUNTS.iter().map(|name| format!("{name} read and delivered")).zip(self.pointer_words), missed);
        let with_33 = [&FRAME_QUESTIONS[..], &[31, 33]].concat();
        row("of opcode 42, delivered", &with_33, &self.restoring_delivered, missed);
        row("of opcode 42 after its address, undelivered", &FRAME_QUESTIONS, &self.restoring_undelivered, missed);
    }
}

/// The questions of the check of CALL that refuse it, and those that are faults.
const CHECK_REFUSALS: [u8; 4] = [1, 2, 3, 4];
const CHECK_FAULTS: [u8; 10] = [11, 12, 13, 14, 15, 26, 27, 28, 29, 30];

/// What pointers were answered.
struct Checks {
    /// By number; of the faults, those with the pointer's own ring and those with IPR's, which is above it.
    refused: [u64; 64],
    own_ring: [u64; 64],
    raised: [u64; 64],
    /// 2, where the registers are in range and the pointer isn't.
    pointer_out_of_range: u64,
    /// Passed in a ring of the bracket, and through the gate extension to R2; with the pointer's own ring, and raised.
    inside: [u64; 2],
    extension: [u64; 2],
    /// Passed with another segment than IPR's, and with the same.
    other_segment: u64,
    same_segment: u64,
    /// CALLs that formed their TPR, by the number of their fault; and those that moved.
    calls: [u64; 64],
    moved: u64,
}

impl Checks {
    fn new() -> Checks {
        Checks {
            refused: [0; 64],
            own_ring: [0; 64],
            raised: [0; 64],
            pointer_out_of_range: 0,
            inside: [0; 2],
            extension: [0; 2],
            other_segment: 0,
            same_segment: 0,
            calls: [0; 64],
            moved: 0,
        }
    }

    fn answered(&mut self, registers: &Registers, words: usize, pointer: Pointer, check: Check) {
        let is_raised = pointer.ring < registers.ipr.ring;
        match check {
            Check::Refused { number } => {
                self.refused[usize::from(number)] += 1;
                let is_of_pointer = number == 2 && second::machine::refusal(registers, words) != Err(2);
                self.pointer_out_of_range += u64::from(is_of_pointer);
            }
            Check::Fault(Fault { number, .. }) => {
                let counts = if is_raised { &mut self.raised } else { &mut self.own_ring };
                counts[usize::from(number)] += 1;
            }
            Check::Passes { ring } => {
                // Through the gate extension the ring falls; inside the bracket it is the pointer's.
                let is_inside = ring == pointer.ring.max(registers.ipr.ring);
                let counts = if is_inside { &mut self.inside } else { &mut self.extension };
                counts[usize::from(is_raised)] += 1;
                let is_same = pointer.segno == registers.ipr.segno;
                self.same_segment += u64::from(is_same);
                self.other_segment += u64::from(!is_same);
            }
        }
    }

    fn print(&self, missed: &mut Vec<String>) {
        let cells = |numbers: &'static [u8], name: &'static str, counts: &[u64; 64]| {
            let counts = *counts;
            numbers.iter().map(move |number| (format!("{number} {name}"), counts[usize::from(*number)]))
        };
        let refused = cells(&CHECK_REFUSALS, "refuses a check", &self.refused);
        print_row(refused.chain([("2 of the pointer".to_string(), self.pointer_out_of_range)]), missed);
        print_row(cells(&CHECK_FAULTS, "of a pointer as it is", &self.own_ring), missed);
        // Raised to IPR's ring, the new ring isn't above it.
        print_row(cells(&CHECK_FAULTS[..9], "of a raised pointer", &self.raised), missed);
        let passes = [
            ("passes inside the bracket", self.inside[0]),
            ("passes inside the bracket, raised", self.inside[1]),
            ("passes through the gate extension", self.extension[0]),
            ("passes through the gate extension, raised", self.extension[1]),
            ("passes to another segment", self.other_segment),
            ("passes within IPR's segment", self.same_segment),
        ];
        print_row(passes.into_iter().map(|(name, count)| (name.to_string(), count)), missed);
        println!("CALLs that answered by the check of their TPR:");
        let moved = [("moved by its ring".to_string(), self.moved)];
        print_row(cells(&CHECK_FAULTS, "of a CALL", &self.calls).chain(moved), missed);
    }
}

/// The CALLs that moved, by what decides on PR7's segment.
#[derive(Default)]
struct StackBases {
    /// The ring as it was: by TPR's, IPR's or above it; by PR6's segment, that of the new ring's number or another.
    same_ring: [[u64; 2]; 2],
    /// The ring fell: by the same.
    lower_ring: [[u64; 2]; 2],
}

impl StackBases {
    fn moved(&mut self, before: &Registers, tpr: Pointer, new_ring: u8) {
        let counts = if new_ring == before.ipr.ring { &mut self.same_ring } else { &mut self.lower_ring };
        let is_above = tpr.ring > before.ipr.ring;
        let is_elsewhere = before.pr[6].segno != u16::from(new_ring);
        counts[usize::from(is_above)][usize::from(is_elsewhere)] += 1;
    }

    fn print(&self, missed: &mut Vec<String>) {
        for (ring, counts) in [("ring as it was", self.same_ring), ("ring falls", self.lower_ring)] {
            let cells = ["", ", TPR's above IPR's"].into_iter().zip(counts).flat_map(|(tpr, [own, elsewhere])| {
                let name = |pr6: &str| format!("{ring}{tpr}, PR6 {pr6}");
                [(name("in its segment"), own), (name("elsewhere"), elsewhere)]
            });
            print_row(cells, missed);
        }
    }
}

/// What completed steps did to the ring.
#[derive(Default)]
struct Changes {
    /// It stayed, or rose.
    kept: u64,
    rose: u64,
    /// The same of opcode 42.
    restored: [u64; 2],
    /// It fell, by how far: through a door, and by a delivered fault.
    called: [u64; 7],
    delivered: [u64; 7],
    /// Through a door: by IPR's ring among the door's, by TPR's word, the order being that of `PARTS`; and with TPR's ring
    /// above IPR's.
    rings: [u64; PARTS.len()],
    words: [u64; PARTS.len()],
    tpr_above: u64,
}

const PARTS: [&str; 4] = ["the only", "the first", "between", "the last"];

fn part<T: PartialEq>(first: T, last: T, this: T) -> usize {
    match (this == first, this == last) {
        (true, true) => 0,
        (true, false) => 1,
        (false, false) => 2,
        (false, true) => 3,
    }
}

impl Changes {
    fn count(&mut self, opcode: Option<u8>, ring: u8, change: Change) {
        match change {
            Change::Kept | Change::Rose => {
                let is_rise = usize::from(change == Change::Rose);
                *[&mut self.kept, &mut self.rose][is_rise] += 1;
                self.restored[is_rise] += u64::from(opcode == Some(RCU));
            }
            Change::Called { tpr, door } => {
                self.called[usize::from(ring - door.new) - 1] += 1;
                self.rings[part(door.from, door.to, ring)] += 1;
                self.words[part(0, door.last, tpr.wordno)] += 1;
                self.tpr_above += u64::from(tpr.ring > ring);
            }
            Change::Delivered => self.delivered[usize::from(ring) - 1] += 1,
        }
    }

    fn print(&self, missed: &mut Vec<String>) {
        let [kept, rose] = self.restored;
        let others = [("stayed", self.kept), ("rose", self.rose), ("stayed by 42", kept), ("rose by 42", rose)];
        print_row(others.into_iter().map(|(name, count)| (format!("the ring {name}"), count)), missed);
        for (by, counts) in [("through a door", self.called), ("delivered", self.delivered)] {
            print_row((1..8).map(|far| format!("fell by {far}, {by}")).zip(counts), missed);
        }
        for (what, counts) in [("ring", self.rings), ("word", self.words)] {
            print_row(PARTS.iter().map(|part| format!("{what} of a door, {part}")).zip(counts), missed);
        }
        print_row([("through a door with TPR's ring above IPR's".to_string(), self.tpr_above)].into_iter(), missed);
    }
}

/// The starts of images: what leads down, and what calls were answered.
#[derive(Default)]
struct Doors {
    /// By how many doors there are: none, one, several; and with the switch off and on.
    images: [[u64; 2]; 3],
    passed: u64,
    /// Behind the last gate: 15 and 27.
    no_word: u64,
    no_gate: u64,
    above_r3: u64,
    /// To a segment that is no door: a fault, or the ring stayed.
    no_door: u64,
}

impl Doors {
    fn called(&mut self, says: Says, check: Check) {
        let count = match (says, check) {
            (Says::Passes(_), _) => &mut self.passed,
            (Says::NoGate, Check::Fault(Fault { number: 15, .. })) => &mut self.no_word,
            (Says::NoGate, _) => &mut self.no_gate,
            (Says::AboveR3, _) => &mut self.above_r3,
            (Says::NotBelow(_), _) => &mut self.no_door,
        };
        *count += 1;
    }

    fn print(&self, missed: &mut Vec<String>) {
        let images = ["no door", "one door", "several doors"].into_iter().zip(self.images);
        let images =
            images.flat_map(|(doors, [off, on])| [(doors.to_string(), off), (format!("{doors}, switch on"), on)]);
        let calls = [
            ("come by a door", self.passed),
            ("behind its gates, 15", self.no_word),
            ("behind its gates, 27", self.no_gate),
            ("above its rings, 28", self.above_r3),
            ("to no door", self.no_door),
        ];
        print_row(images.chain(calls.map(|(name, count)| (name.to_string(), count))), missed);
    }
}

/// How far a listing went.
#[derive(Clone, Copy, Debug)]
pub struct Listed {
    pub lines: u64,
    pub total: u64,
}

/// The total is a listing's last number.
pub fn listed(text: &[u8]) -> Listed {
    let lines = text.iter().filter(|byte| **byte == b'\n').count();
    let total = text.trim_ascii_end().rsplit(|byte| *byte == b' ').next().unwrap_or_default();
    let total = total.iter().fold(0, |total, digit| 10 * total + u64::from(digit.wrapping_sub(b'0')));
    Listed { lines: lines as u64, total }
}

/// The questions of an image that loading asks.
const LOADING_QUESTIONS: [u8; 8] = [41, 42, 43, 44, 51, 2, 3, 4];

/// What images will need.
#[derive(Default)]
struct ImageNeeds {
    refused: BTreeMap<u64, u64>,
    /// By the number of WDs, in the order of `RECORDS`.
    records: [u64; RECORDS.len()],
    /// 45: not listed.
    unlisted: u64,
    /// Listings that have fewer lines than there may be, and as many; and the same of pointer words, where there may be some.
    lines: [u64; 2],
    pointers: [u64; 2],
    /// Pointer words of more than 32 bits.
    many: u64,
}

const RECORDS: [&str; 5] = ["no WD", "1 WD", "2 to 999 WDs", "1000 to 8191 WDs", "8192 WDs"];

impl ImageNeeds {
    fn answered(&mut self, NeedsAnswer { number, needs }: NeedsAnswer, listed: Option<Listed>) {
        if number != 0 {
            *self.refused.entry(number).or_default() += 1;
            return;
        }
        self.records[[1, 2, 1_000, 8_192].iter().filter(|least| **least <= needs.records).count()] += 1;
        self.many += u64::from(needs.pointers >> 32 != 0);
        match listed {
            Some(Listed { lines, total }) => {
                self.lines[usize::from(lines == needs.lines)] += 1;
                if needs.pointers > 0 {
                    self.pointers[usize::from(total == needs.pointers)] += 1;
                }
            }
            None => self.unlisted += 1,
        }
    }

    fn print(&self, missed: &mut Vec<String>) {
        let refused = LOADING_QUESTIONS.iter().map(|number| {
            (format!("{number} before loading"), self.refused.get(&u64::from(*number)).copied().unwrap_or(0))
        });
        let [fewer_lines, all_lines] = self.lines;
        let [fewer_pointers, all_pointers] = self.pointers;
        let others = [
            ("no room for a listing", self.unlisted),
            ("fewer lines", fewer_lines),
            ("as many lines", all_lines),
            ("fewer pointer words", fewer_pointers),
            ("as many pointer words", all_pointers),
            ("pointer words of more than 32 bits", self.many),
        ];
        let records = RECORDS.iter().map(|name| name.to_string()).zip(self.records);
        print_row(refused.chain(records).chain(others.map(|(name, count)| (name.to_string(), count))), missed);
    }
}

/// What refuses a table of brackets before its segments are looked at: a number, why, and whether it is so.
type Cause = (u32, &'static str, fn(&Table) -> bool);

const CAUSES: [Cause; 9] = [
    (1, "words", |table| table.memory.len() > 16_777_216),
    (4, "LENGTH above 4096", |table| table.dbr.length > 4_096),
    (4, "the end behind memory", |table| {
        u64::from(table.dbr.address) + u64::from(table.dbr.length) > table.memory.len() as u64
    }),
    (53, "more than 32 rows", |table| table.rows.len() > 32),
    (53, "first above last", |table| table.rows.iter().any(|row| row.first > row.last)),
    (53, "last not below LENGTH", |table| table.rows.iter().any(|row| row.last >= table.dbr.length)),
    (53, "R1 above R2", |table| table.rows.iter().any(|row| row.r1 > row.r2)),
    (53, "R2 above R3", |table| table.rows.iter().any(|row| row.r2 > row.r3)),
    (53, "R3 above 7", |table| table.rows.iter().any(|row| row.r3 > 7)),
];

/// What tables of brackets were answered.
#[derive(Default)]
struct Tables {
    /// Refused by this cause and no other of its number.
    causes: [u64; CAUSES.len()],
    /// Refused by 1 where 4 and 53 are no as well, and by 4 where 53 is.
    before_others: [u64; 2],
    /// Refused by 53 where 54, 55 or nothing would be next.
    after_53: [u64; 3],
    /// 54 and 55: alone, and with a segment above that the other is for.
    in_no_row: [u64; 2],
    in_several: [u64; 2],
    in_three: u64,
    /// Accepted, by the number of rows: 0, 1, 2 to 31, 32.
    accepted: [u64; 4],
}

impl Tables {
    fn answered(&mut self, table: &Table, answer: u32) {
        match answer {
            0 => self.accepted[[1, 2, 32].iter().filter(|least| **least <= table.rows.len()).count()] += 1,
            1 | 4 | 53 => self.by_cause(table, answer),
            _ => {}
        }
        // With 1 or 4 there may be no descriptors.
        if !matches!(answer, 53..=55) {
            return;
        }
        let AtFault { in_none, in_several, in_three } = at_fault(table);
        let is_none_first = in_none.is_some_and(|segno| in_several.is_none_or(|other| segno < other));
        match answer {
            53 if is_none_first => self.after_53[0] += 1,
            53 => self.after_53[1 + usize::from(in_several.is_none())] += 1,
            54 => self.in_no_row[usize::from(in_several.is_some())] += 1,
            _ => {
                self.in_several[usize::from(in_none.is_some())] += 1;
                self.in_three += u64::from(in_three);
            }
        }
    }

    fn by_cause(&mut self, table: &Table, answer: u32) {
        let is_so = CAUSES.map(|(_, _, is_so)| is_so(table));
        let of_number =
            |number| CAUSES.iter().zip(is_so).filter(move |((of, ..), is_so)| *is_so && *of == number).count();
        for (count, ((number, ..), is_so)) in self.causes.iter_mut().zip(CAUSES.iter().zip(is_so)) {
            *count += u64::from(is_so && *number == answer && of_number(answer) == 1);
        }
        self.before_others[0] += u64::from(answer == 1 && of_number(4) > 0 && of_number(53) > 0);
        self.before_others[1] += u64::from(answer == 4 && of_number(53) > 0);
    }

    fn print(&self, missed: &mut Vec<String>) {
        let causes = CAUSES.iter().map(|(number, name, _)| format!("{number} of a table, {name}")).zip(self.causes);
        let [before_4_and_53, before_53] = self.before_others;
        let [before_54, before_55, last] = self.after_53;
        let others = [
            ("1 before 4 and 53", before_4_and_53),
            ("4 before 53", before_53),
            ("53 before 54", before_54),
            ("53 before 55", before_55),
            ("53 where all segments fit", last),
            ("54 alone", self.in_no_row[0]),
            ("54 below 55", self.in_no_row[1]),
            ("55 alone", self.in_several[0]),
            ("55 below 54", self.in_several[1]),
            ("55, some in three rows", self.in_three),
            ("0 rows accepted", self.accepted[0]),
            ("1 row accepted", self.accepted[1]),
            ("2 to 31 rows accepted", self.accepted[2]),
            ("32 rows accepted", self.accepted[3]),
        ];
        print_row(causes.chain(others.map(|(name, count)| (name.to_string(), count))), missed);
    }
}

/// The lowest segment in no row, the lowest in several, and whether any is in three.
struct AtFault {
    in_none: Option<u16>,
    in_several: Option<u16>,
    in_three: bool,
}

fn at_fault(table: &Table) -> AtFault {
    let mut at_fault = AtFault { in_none: None, in_several: None, in_three: false };
    for segno in 0..table.dbr.length {
        let is_in = |row: &&Row| (row.first..=row.last).contains(&segno);
        let rows = table.rows.iter().filter(is_in).count();
        let lowest = match rows {
            0 => &mut at_fault.in_none,
            1 => continue,
            _ => &mut at_fault.in_several,
        };
        lowest.get_or_insert(segno);
        at_fault.in_three |= rows > 2;
    }
    at_fault
}

/// What segments of descriptors were answered, one way.
struct Segments {
    direction: Direction,
    /// Accepted, in the order of `LENGTHS`.
    accepted: [u64; LENGTHS.len()],
    /// Words of accepted segments, by R, W, E and user as the old ones have them.
    flags: [u64; 16],
    /// The first word that fails, by what is wrong with it: the cells of `FailsBy`.
    causes: [u64; FailsBy::CELLS],
    /// The same, by its place: the order of `PLACES`.
    places: [u64; PLACES.len()],
}

const LENGTHS: [&str; 5] = ["0 words", "1 word", "2 to 4095 words", "4096 words", "more words"];
const PLACES: [&str; 6] =
    ["the only word", "the first", "the first of several", "one between", "the first of several, between", "the last"];

/// What is wrong with a word, and nothing else.
#[derive(Clone, Copy, Debug, PartialEq, Eq)]
enum FailsBy {
    /// 56, or GATE: this bit.
    Bit(u32),
    /// 56, or GATE.
    Bits,
    VOff,
    /// Rings: this one, the other two being 0 or 4; three equal ones; others.
    OneRing(usize),
    EqualRings,
    Rings,
    /// Several of V, GATE and rings.
    Several,
}

impl FailsBy {
    const CELLS: usize = 28;

    fn of(direction: Direction, word: u64) -> Option<FailsBy> {
        let bits = |bits: u64| if bits.is_power_of_two() { FailsBy::Bit(bits.trailing_zeros()) } else { FailsBy::Bits };
        match direction {
            Direction::FromOld => {
                let above = word & 0xffff_f000_0000_0000;
                (above != 0).then(|| bits(above))
            }
            Direction::ToOld => {
                let today = Descriptor::from_word(word);
                let v = (!today.v).then_some(FailsBy::VOff);
                let gate = (today.gate != 0).then(|| bits(word & 0xffe0_0000_0000_0000));
                let rings = match [today.r1, today.r2, today.r3] {
                    [0, 0, 0] | [4, 4, 4] => None,
                    [_, 0, 0] | [_, 4, 4] => Some(FailsBy::OneRing(0)),
                    [0, _, 0] | [4, _, 4] => Some(FailsBy::OneRing(1)),
                    [0, 0, _] | [4, 4, _] => Some(FailsBy::OneRing(2)),
                    [r1, r2, r3] if r1 == r2 && r2 == r3 => Some(FailsBy::EqualRings),
                    _ => Some(FailsBy::Rings),
                };
                let mut all = [v, gate, rings].into_iter().flatten();
                let first = all.next()?;
                Some(if all.next().is_some() { FailsBy::Several } else { first })
            }
        }
    }

    /// Bits 44 to 63, and the others behind them.
    fn cell(self) -> usize {
        match self {
            FailsBy::Bit(number) => number as usize - 44,
            FailsBy::Bits => 20,
            FailsBy::VOff => 21,
            FailsBy::OneRing(number) => 22 + number,
            FailsBy::EqualRings => 25,
            FailsBy::Rings => 26,
            FailsBy::Several => 27,
        }
    }

    fn name(self) -> String {
        match self {
            FailsBy::Bit(number) => format!("bit {number}"),
            FailsBy::Bits => "several bits".to_string(),
            FailsBy::VOff => "V off".to_string(),
            FailsBy::OneRing(number) => format!("R{} alone", number + 1),
            FailsBy::EqualRings => "equal rings".to_string(),
            FailsBy::Rings => "other rings".to_string(),
            FailsBy::Several => "several of V, GATE and rings".to_string(),
        }
    }

    fn all(direction: Direction) -> Vec<FailsBy> {
        let bits = |first| (first..64).map(FailsBy::Bit).chain([FailsBy::Bits]);
        let others = [FailsBy::VOff, FailsBy::EqualRings, FailsBy::Rings, FailsBy::Several];
        match direction {
            Direction::FromOld => bits(44).collect(),
            Direction::ToOld => bits(53).chain((0..3).map(FailsBy::OneRing)).chain(others).collect(),
        }
    }
}

impl Segments {
    fn new(direction: Direction) -> Segments {
        Segments {
            direction,
            accepted: [0; LENGTHS.len()],
            flags: [0; 16],
            causes: [0; FailsBy::CELLS],
            places: [0; PLACES.len()],
        }
    }

    fn answered(&mut self, words: &[u64], answer: OldAnswer) {
        if answer.number == 0 {
            self.accepted[[1, 2, 4_096, 4_097].iter().filter(|least| **least <= words.len()).count()] += 1;
            for word in words {
                let flags = match self.direction {
                    Direction::FromOld => word >> 40,
                    // R, W and E; R1's upper bit, which only a user's has on.
                    Direction::ToOld => (word >> 49 & 7) | (word >> 42 & 1) << 3,
                };
                self.flags[(flags & 15) as usize] += 1;
            }
            return;
        }
        let index = answer.index as usize;
        if let Some(fails_by) = FailsBy::of(self.direction, words[index]) {
            self.causes[fails_by.cell()] += 1;
        }
        let is_one_of_several = words[index + 1..].iter().any(|word| FailsBy::of(self.direction, *word).is_some());
        let place = match (index, words.len() - index) {
            (0, 1) => 0,
            (_, 1) => 5,
            (0, _) => 1 + usize::from(is_one_of_several),
            _ => 3 + usize::from(is_one_of_several),
        };
        self.places[place] += 1;
    }

    fn print(&self, missed: &mut Vec<String>) {
        let (number, way) = match self.direction {
            Direction::FromOld => (56, "from old"),
            Direction::ToOld => (57, "to old"),
        };
        print_row(LENGTHS.map(|length| format!("{length} {way}")).into_iter().zip(self.accepted), missed);
        print_row((0..16).map(|flags| format!("user E W R {flags:04b} {way}")).zip(self.flags), missed);
        let causes = FailsBy::all(self.direction).into_iter();
        print_row(causes.map(|by| (format!("{number}, {}", by.name()), self.causes[by.cell()])), missed);
        print_row(PLACES.map(|place| format!("{number}, {place}")).into_iter().zip(self.places), missed);
    }
}

/// The questions of a stored image.
const STORED_QUESTIONS: [u8; 7] = [41, 42, 43, 44, 2, 3, 4];

/// How conversions went, and what the images were like of which something was dropped.
#[derive(Default)]
struct Conversions {
    refused: BTreeMap<u8, u64>,
    nothing_dropped: u64,
    dropped: u64,
    /// ST stood between two WDs of an address.
    st_between: u64,
    /// An address had three WDs or more.
    three: u64,
    /// Two WDs of an address were equal.
    equal: u64,
    /// The addresses of the WDs kept don't go up.
    in_no_order: u64,
    /// There were 1,000 records or more.
    long: u64,
    /// What came out was run.
    listed: u64,
}

impl Conversions {
    /// An image of which the second of these is left.
    fn dropped(&mut self, old: &[u8], new: &[u8]) {
        self.dropped += 1;
        // By address: how many, how many of them before ST, and the first word.
        let mut seen: Vec<(u32, u32, u64)> = Vec::new();
        let (mut records, mut st, mut st_between, mut three, mut equal) = (0, false, false, false, false);
        for (record, _) in image::records(old, Rules::Stored) {
            records += 1;
            match record {
                Record::Me { words } => seen.resize(words as usize, (0, 0, 0)),
                Record::St { .. } => st = true,
                Record::Wd { address, word } => {
                    let (count, before_st, first) = &mut seen[address as usize];
                    if *count == 0 {
                        *first = word;
                    }
                    equal |= *count > 0 && *first == word;
                    three |= *count > 1;
                    st_between |= st && *before_st > 0;
                    *count += 1;
                    *before_st += u32::from(!st);
                }
                Record::Rn { .. } => {}
            }
        }
        let kept = image::records(new, Rules::Today).filter_map(|(record, _)| match record {
            Record::Wd { address, .. } => Some(address),
            _ => None,
        });
        self.st_between += u64::from(st_between);
        self.three += u64::from(three);
        self.equal += u64::from(equal);
        self.in_no_order += u64::from(!kept.is_sorted());
        self.long += u64::from(records >= 1000);
    }

    fn print(&self, missed: &mut Vec<String>) {
        let refused = STORED_QUESTIONS
            .iter()
            .map(|number| (format!("refused {number}"), self.refused.get(number).copied().unwrap_or(0)));
        let others = [
            ("nothing dropped", self.nothing_dropped),
            ("something dropped", self.dropped),
            ("ST between two of an address", self.st_between),
            ("three of an address", self.three),
            ("two equal", self.equal),
            ("kept in no order of addresses", self.in_no_order),
            ("of 1,000 records", self.long),
            ("run after it", self.listed),
        ];
        print_row(refused.chain(others.map(|(name, count)| (name.to_string(), count))), missed);
    }
}

pub struct Reach {
    steps: u64,
    completed: [u64; 256],
    pointer_words: PointerWords,
    deliveries: Deliveries,
    machines: Runs,
    images: Runs,
    conversions: Conversions,
    checks: Checks,
    stack_bases: StackBases,
    ring_changes: Changes,
    doors: Doors,
    needs: ImageNeeds,
    tables: Tables,
    segments: [Segments; 2],
    changed_memory: u64,
    changed_descriptors: u64,
    changed_dbr: u64,
}

impl Reach {
    pub fn new() -> Reach {
        Reach {
            steps: 0,
            completed: [0; 256],
            pointer_words: PointerWords {
                completed: [0; 4],
                at_pointer_word: [[0; 4]; 64],
                at_operand: [[0; 4]; 64],
                with_i: [0; 64],
            },
            deliveries: Deliveries::new(),
            machines: Runs::default(),
            images: Runs::default(),
            conversions: Conversions::default(),
            checks: Checks::new(),
            stack_bases: StackBases::default(),
            ring_changes: Changes::default(),
            doors: Doors::default(),
            needs: ImageNeeds::default(),
            tables: Tables::default(),
            segments: Direction::BOTH.map(Segments::new),
            changed_memory: 0,
            changed_descriptors: 0,
            changed_dbr: 0,
        }
    }

    pub fn step(&mut self, opcode: Option<u8>, reply: Reply) {
        if let (Reply::Spent { .. } | Reply::Halted { .. }, Some(opcode)) = (reply, opcode) {
            self.steps += 1;
            self.completed[usize::from(opcode)] += 1;
            self.pointer_words.completed[count_cell(reply.pointer_words())] += 1;
        }
    }

    /// A single step's fault.
    pub fn fault(&mut self, opcode: Option<u8>, reply: Reply, place: Place) {
        if let Reply::Fault { fault, pointer_words, .. } = reply {
            self.pointer_words.fault(fault.number, pointer_words, place);
            if opcode == Some(RCU) && place == Place::Operand {
                self.deliveries.restoring_undelivered[usize::from(fault.number)] += 1;
            }
        }
    }

    /// A single step that delivered this.
    pub fn delivered(&mut self, opcode: Option<u8>, fault: Fault, reply: Reply) {
        let number = usize::from(fault.number);
        self.steps += 1;
        self.deliveries.delivered[number] += 1;
        self.deliveries.pointer_words[count_cell(reply.pointer_words())] += 1;
        self.deliveries.restoring_delivered[number] += u64::from(opcode == Some(RCU));
    }

    /// A fault that ended a run.
    pub fn undelivered(&mut self, fault: Fault, why: Unsaved) {
        self.deliveries.undelivered(fault.number, why);
    }

    pub fn run(&mut self, reply: Reply) {
        self.machines.ended(reply);
    }

    /// What a run that wasn't refused changed.
    pub fn changes(&mut self, machine: &Machine, registers: &Registers, memory: &[u64]) {
        let dbr = machine.registers.dbr;
        let table = dbr.address as usize..dbr.address as usize + usize::from(dbr.length);
        self.changed_memory += u64::from(machine.memory != memory);
        self.changed_descriptors += u64::from(machine.memory[table.clone()] != memory[table]);
        self.changed_dbr += u64::from(dbr != registers.dbr);
    }

    /// The bench's answer, and its text where there is one.
    pub fn image(&mut self, answer: i64, text: &[u8]) {
        let reply = match usize::try_from(answer) {
            Ok(length) => last_line(&text[..length]),
            Err(_) => Reply::Refused { number: answer.unsigned_abs() as u8 },
        };
        self.images.ended(reply);
    }

    pub fn conversion(&mut self, old: &[u8], result: &Result<Vec<u8>, u8>) {
        match result {
            Err(number) => *self.conversions.refused.entry(*number).or_default() += 1,
            // ST gains five bytes.
            Ok(new) if new.len() < old.len() + 5 => self.conversions.dropped(old, new),
            Ok(_) => self.conversions.nothing_dropped += 1,
        }
    }

    /// What a conversion gave was run.
    pub fn listed(&mut self) {
        self.conversions.listed += 1;
    }

    /// What the check of CALL answered of a pointer, with so many words of memory.
    pub fn check(&mut self, registers: &Registers, words: usize, pointer: Pointer, check: Check) {
        self.checks.answered(registers, words, pointer, check);
    }

    /// A CALL that answered by its check, with the registers before it.
    pub fn call(&mut self, before: &Registers, tpr: Pointer, check: Check) {
        match check {
            Check::Refused { .. } => {}
            Check::Fault(Fault { number, .. }) => self.checks.calls[usize::from(number)] += 1,
            Check::Passes { ring } => {
                self.checks.moved += 1;
                self.stack_bases.moved(before, tpr, ring);
            }
        }
    }

    /// What an image will need, and how far it went if it was listed.
    pub fn needs(&mut self, answer: NeedsAnswer, listed: Option<Listed>) {
        self.needs.answered(answer, listed);
    }

    /// What a completed step from this ring did to it.
    pub fn change(&mut self, opcode: Option<u8>, ring: u8, change: Change) {
        self.ring_changes.count(opcode, ring, change);
    }

    /// What leads down at an image's start.
    pub fn doors(&mut self, registers: &Registers, doors: &[Door]) {
        self.doors.images[doors.len().min(2)][usize::from(registers.fault_switch)] += 1;
    }

    /// A call at an image's start.
    pub fn called(&mut self, says: Says, check: Check) {
        self.doors.called(says, check);
    }

    /// What a table of brackets was answered.
    pub fn table(&mut self, table: &Table, answer: u32) {
        self.tables.answered(table, answer);
    }

    /// What a segment of descriptors was answered.
    pub fn segment(&mut self, Segment { direction, words }: &Segment, answer: OldAnswer) {
        for segments in self.segments.iter_mut().filter(|segments| segments.direction == *direction) {
            segments.answered(words, answer);
        }
    }

    /// Prints the tables; answers what was never reached.
    pub fn print(&self) -> Vec<String> {
        let mut missed = Vec::new();
        println!("steps completed, by opcode ({} in all):", self.steps);
        let rows = Opcode::TABLE.iter().map(|&(number, opcode)| {
            (format!("{number} {}", format!("{opcode:?}").to_uppercase()), self.completed[usize::from(number)])
        });
        print_row(rows, &mut missed);
        self.pointer_words.print(&mut missed);
        println!("faults, each by what became of it:");
        self.deliveries.print(&mut missed);
        println!("runs of machines, by the question answered no:");
        self.machines.print(&QUESTIONS, &mut missed);
        println!(
            "  that changed memory: {}; a descriptor word: {}; DBR: {}",
            self.changed_memory, self.changed_descriptors, self.changed_dbr
        );
        println!("images, by the question answered no:");
        self.images.print(&IMAGE_QUESTIONS, &mut missed);
        println!("conversions of the same images:");
        self.conversions.print(&mut missed);
        println!("pointers through the check of CALL:");
        self.checks.print(&mut missed);
        println!("CALLs that moved, by what decides on PR7's segment:");
        self.stack_bases.print(&mut missed);
        println!("steps completed, by what they did to the ring:");
        self.ring_changes.print(&mut missed);
        println!("starts of images by their doors, and calls from other segments there:");
        self.doors.print(&mut missed);
        println!("what images will need, by what decides, and what their listings took of it:");
        self.needs.print(&mut missed);
        println!("tables of brackets, by what decides:");
        self.tables.print(&mut missed);
        println!("segments of descriptors, by what decides:");
        for segments in &self.segments {
            segments.print(&mut missed);
        }
        missed
    }
}

/// The reply that a listing ends with.
fn last_line(text: &[u8]) -> Reply {
    let text = std::str::from_utf8(text).unwrap_or_default().trim_end();
    let line = text.rsplit('\n').next().unwrap_or_default();
    let mut words = line.split(' ');
    let kind = words.next();
    let numbers: Vec<u64> = words.filter_map(|number| number.parse().ok()).collect();
    let number = |place: usize| numbers.get(place).copied().unwrap_or(0);
    // The total comes last.
    let pointer_words = numbers.last().copied().unwrap_or(0);
    match kind {
        Some("spent") => Reply::Spent { count: number(0) as u32, pointer_words },
        Some("halted") => Reply::Halted { count: number(0) as u32, pointer_words },
        _ => {
            let fault = Fault { number: number(0) as u8, at: Pointer::default() };
            Reply::Fault { fault, count: number(1) as u32, pointer_words }
        }
    }
}

pub fn print_row(cells: impl Iterator<Item = (String, u64)>, missed: &mut Vec<String>) {
    let mut line = String::new();
    for (name, count) in cells {
        let cell = format!("  {name}: {count}");
        if line.len() + cell.len() > 118 {
            println!("{line}");
            line.clear();
        }
        line += &cell;
        if count == 0 {
            missed.push(name);
        }
    }
    println!("{line}");
}
