//! Machines with descriptors close by through both implementations: directed, drawn, made smaller, and in words.

mod draw;
mod reach;

use crate::compare::{Difference, Machine};
use crate::describe::{self, attempt};
use crate::library::close::LentRecords;
use crate::library::{Answer, Lent};
use second::close::{Close, Record, RECORDS};
use second::close_cases::{self, Case};
use second::machine::{step_by, Descriptors};
use second::{delivery, Dbr, Descriptor, Fault, Image, Registers, Reply};

pub use draw::draw;
use reach::{Event, Reach, Step};

/// What a call is handed.
#[derive(Clone, Debug, Default, PartialEq, Eq)]
pub struct CloseMachine {
    pub machine: Machine,
    pub records: Vec<Record>,
}

/// The name of a machine, the machine, and what differs.
pub type Failure = (String, CloseMachine, Difference);

/// What both answer and leave, beside memory.
#[derive(Clone, Debug, PartialEq, Eq)]
struct Outcome {
    run: Reply,
    last_step: Option<Reply>,
    registers: Registers,
    records: Vec<Record>,
}

/// Records while a step looks some of them up, and what it did.
struct Watched<'c> {
    close: &'c mut Close,
    events: &'c mut Vec<Event>,
}

impl Descriptors for Watched<'_> {
    fn word(&mut self, dbr: &Dbr, memory: &[u64], segno: u16) -> u64 {
        let before = self.close.clone();
        let found = before.find(segno);
        let word = self.close.word(dbr, memory, segno);
        let is_true = word == second::machine::InMemory.word(dbr, memory, segno);
        self.events.push(Event::look_up(&before, found, segno, word, is_true));
        word
    }

    fn written(&mut self, dbr: &Dbr, address: usize, words: usize) {
        self.close.written(dbr, address, words);
        self.events.push(Event::written(dbr, address, words));
    }

    fn dbr_loaded(&mut self) {
        self.close.dbr_loaded();
        self.events.push(Event::DbrLoaded);
    }
}

pub struct CloseComparer {
    reach: Reach,
    pub machines: u64,
    /// Those that were compared with the plain processor as well.
    pub plain: u64,
    mine: Vec<u64>,
    after_run: Vec<u64>,
    records: Vec<Record>,
    events: Vec<Event>,
    lent: Lent,
    lent_records: LentRecords,
}

impl CloseComparer {
    pub fn new() -> CloseComparer {
        CloseComparer {
            reach: Reach::default(),
            machines: 0,
            plain: 0,
            mine: Vec::new(),
            after_run: Vec::new(),
            records: Vec::new(),
            events: Vec::new(),
            lent: Lent::new(7),
            lent_records: LentRecords::default(),
        }
    }

    /// A run with the budget, and then the same steps one by one: reply, registers, every word of memory and every record.
    /// From records that are invalid or true, the plain library's run as well.
    pub fn machine(&mut self, machine: &CloseMachine) -> Result<(), Difference> {
        self.outcome(machine).map(|_| ())
    }

    fn outcome(&mut self, CloseMachine { machine, records }: &CloseMachine) -> Result<Outcome, Difference> {
        self.machines += 1;
        // The runs.
        let mut registers = self.lend(machine, records);
        let run = second::run_close(&mut registers, &mut self.mine, &mut self.records, machine.budget);
        let answer = self.lent.run_close(&mut self.lent_records, machine.budget);
        self.agree("kuzhlemor_run_close", run, answer, &registers)?;
        let outcome = Outcome { run, last_step: None, registers, records: self.records.clone() };
        std::mem::swap(&mut self.mine, &mut self.after_run);
        self.reach.call(machine, records, run);
        if records.len() == RECORDS && are_true(machine, records) {
            self.as_plain(machine, &outcome)?;
        }
        // The steps.
        let last_step = self.steps(machine, records, &outcome)?;
        Ok(Outcome { last_step, ..outcome })
    }

    /// Both get this machine.
    fn lend(&mut self, machine: &Machine, records: &[Record]) -> Registers {
        self.mine.clone_from(&machine.memory);
        self.records.clear();
        self.records.extend_from_slice(records);
        self.lent.set(&machine.registers, &machine.memory);
        self.lent_records.set(records);
        machine.registers
    }

    /// The plain processor's run gives the same reply, registers and memory, second's and the library's.
    fn as_plain(&mut self, machine: &Machine, outcome: &Outcome) -> Result<(), Difference> {
        self.plain += 1;
        self.reach.plain(outcome.run);
        let mut registers = self.lend(machine, &[]);
        let run = second::run(&mut registers, &mut self.mine, machine.budget);
        let answer = self.lent.run(machine.budget);
        self.agree("kuzhlemor_run", run, answer, &registers)?;
        if (run, registers) == (outcome.run, outcome.registers) && self.mine == self.after_run {
            return Ok(());
        }
        Err(Difference(format!(
            "from true records: {:?}, the plain processor: {run:?}; or what they leave",
            outcome.run
        )))
    }

    /// The steps of a run that has left this.
    fn steps(&mut self, machine: &Machine, records: &[Record], outcome: &Outcome) -> Result<Option<Reply>, Difference> {
        let mut registers = self.lend(machine, records);
        let mut last_step = None;
        let (mut count, mut total) = (0, 0);
        while count < machine.budget {
            let reply = self.step(&mut registers).map_err(|Difference(text)| {
                let number = count + 1;
                Difference(format!("step {number}: {text}"))
            })?;
            last_step = Some(reply);
            if let Reply::Spent { pointer_words, .. } | Reply::Halted { pointer_words, .. } = reply {
                (count, total) = (count + 1, total + pointer_words);
            }
            if !matches!(reply, Reply::Spent { .. }) {
                break;
            }
        }
        let reply = match last_step {
            Some(Reply::Refused { number }) => Reply::Refused { number },
            Some(Reply::Halted { .. }) => Reply::Halted { count, pointer_words: total },
            Some(Reply::Fault { fault, .. }) => Reply::Fault { fault, count, pointer_words: total },
            _ => Reply::Spent { count, pointer_words: total },
        };
        // With a budget of 0 no step was tried.
        let is_same = (reply, registers) == (outcome.run, outcome.registers)
            && self.records == outcome.records
            && self.mine == self.after_run;
        if is_same || machine.budget == 0 {
            return Ok(last_step);
        }
        Err(Difference(format!("second's own steps and run: {reply:?} and {:?}, or what they leave", outcome.run)))
    }

    /// One step of both.
    fn step(&mut self, registers: &mut Registers) -> Result<Reply, Difference> {
        let before = *registers;
        let (reply, fault) = match Close::of_call(&self.records, registers, self.mine.len()) {
            Ok(close) => self.watched_step(&before, close, registers),
            Err(number) => (Reply::Refused { number }, None),
        };
        let answer = self.lent.step_close(&mut self.lent_records);
        self.agree("kuzhlemor_step_close", reply, answer, registers)?;
        if !matches!(reply, Reply::Refused { .. }) {
            let Some(step) = Step::of(&before, &self.events, fault, reply) else {
                return Err(Difference(format!("second's look-ups: {:?}", self.events)));
            };
            self.reach.step(&step);
        }
        Ok(reply)
    }

    fn watched_step(
        &mut self,
        before: &Registers,
        mut close: Close,
        registers: &mut Registers,
    ) -> (Reply, Option<Fault>) {
        self.events.clear();
        self.events.push(Event::before(before, &close, &self.mine));
        let mut watched = Watched { close: &mut close, events: &mut self.events };
        let answer = step_by(&mut watched, registers, &mut self.mine);
        self.records.copy_from_slice(close.records());
        answer
    }

    /// Is the library's state now the second implementation's?
    fn agree(&self, call: &str, reply: Reply, answer: Answer, registers: &Registers) -> Result<(), Difference> {
        let same = answer == Answer::of(reply)
            && self.lent.registers() == *registers
            && self.lent.memory() == self.mine
            && self.lent.guards_stand()
            && self.lent_records.are(&self.records)
            && self.lent_records.guards_stand();
        if same {
            return Ok(());
        }
        let mut text = format!("after {call}:");
        if answer != Answer::of(reply) {
            text += &format!("\n  reply: second {reply:?}\n         library {answer:?}");
        }
        if self.lent.registers() != *registers {
            text += &format!("\n  registers: second {registers:?}\n             library {:?}", self.lent.registers());
        }
        let words = self.mine.iter().zip(self.lent.memory()).enumerate();
        for (address, (mine, theirs)) in words.filter(|(_, (mine, theirs))| mine != theirs).take(100) {
            text += &format!("\n  memory word {address}: second {mine:#018x}, library {theirs:#018x}");
        }
        let records = self.records.iter().zip(self.lent_records.get()).enumerate();
        for (place, (mine, theirs)) in records.filter(|(_, (mine, theirs))| *mine != theirs) {
            text += &format!("\n  record {place}: second {mine:x?}\n            library {theirs:x?}");
        }
        if !self.lent.guards_stand() || !self.lent_records.guards_stand() {
            text += "\n  words or records outside of those lent were written";
        }
        Err(Difference(text))
    }

    /// Prints the tables; answers what was never reached.
    pub fn print(&self) -> Vec<String> {
        self.reach.print()
    }
}

/// Are the valid ones of segments that have a descriptor true? Counts that aren't in order make all invalid.
fn are_true(Machine { registers, memory, .. }: &Machine, records: &[Record]) -> bool {
    let Dbr { address, length } = registers.dbr;
    records.iter().all(|record| {
        let word = memory.get(address as usize + usize::from(record.segment));
        !record.is_valid() || record.segment >= length || word == Some(&record.descriptor)
    })
}

/// The library's directed machines, with what they leave; answers how many they are.
pub fn directed(comparer: &mut CloseComparer) -> Result<usize, Box<Failure>> {
    let mut count = 0;
    for case in close_cases::cases().into_iter().chain(close_cases::largest().into_iter().map(|case| case())) {
        by_hand(comparer, case)?;
        count += 1;
    }
    Ok(count)
}

fn by_hand(comparer: &mut CloseComparer, Case { run, lent, records }: Case) -> Result<(), Box<Failure>> {
    let delivery::Case { run: case, registers, memory } = run;
    let (expected, steps) = (case.reply(), case.step_replies());
    let Image { registers: start, memory: lent_memory, budget } = case.machine;
    let last_step = if budget > 0 { steps.last().copied() } else { None };
    let expected = Outcome { run: expected, last_step, registers, records };
    let machine = CloseMachine { machine: Machine { registers: start, memory: lent_memory, budget }, records: lent };
    let difference = match comparer.outcome(&machine) {
        Ok(outcome) if outcome == expected && comparer.after_run == memory => return Ok(()),
        Ok(outcome) => Difference(format!("both answer {outcome:?}\nthe papers {expected:?}\nor memory is different")),
        Err(difference) => difference,
    };
    Err(Box::new((case.name, machine, difference)))
}

// ---- A failing machine.

/// Makes a failing machine smaller while it still fails: its records, and then itself.
pub fn shrink(mut failing: CloseMachine, fails: &mut dyn FnMut(&CloseMachine) -> bool) -> CloseMachine {
    shrink_records(&mut failing, fails);
    let CloseMachine { machine, records } = failing;
    let mut with_records =
        |machine: &Machine| fails(&CloseMachine { machine: machine.clone(), records: records.clone() });
    let machine = describe::shrink(machine, &mut with_records);
    failing = CloseMachine { machine, records };
    shrink_records(&mut failing, fails);
    failing
}

fn shrink_records(failing: &mut CloseMachine, fails: &mut dyn FnMut(&CloseMachine) -> bool) {
    for place in 0..failing.records.len() {
        attempt(failing, fails, &|m| m.records[place] = Record { count: place as u8, ..Record::default() });
        attempt(failing, fails, &|m| m.records[place].valid = 0);
        attempt(failing, fails, &|m| {
            let word = m.machine.registers.dbr.address as usize + usize::from(m.records[place].segment);
            m.records[place].descriptor = m.machine.memory.get(word).copied().unwrap_or(0);
        });
        attempt(failing, fails, &|m| {
            // Its count is exchanged with that of the record that should have it.
            let count = m.records[place].count;
            let other = m.records.iter().position(|record| usize::from(record.count) == place);
            if let Some(other) = other {
                (m.records[place].count, m.records[other].count) = (place as u8, count);
            }
        });
    }
}

/// The machine in words.
pub fn describe(CloseMachine { machine, records }: &CloseMachine) -> String {
    let mut text = format!("{} records\n", records.len());
    for (place, record) in records.iter().enumerate() {
        let Record { valid, segment, descriptor, count } = record;
        text += &format!("record {place}: valid {valid}, count {count}, segment {segment}: {descriptor:#018x} ");
        text += &format!("{:?}\n", Descriptor::from_word(*descriptor));
    }
    text + &describe::describe(machine)
}
