//! Two memories that differ in words hidden from ring n, each through the library along its stretch: same reply with the
//! same pointer words, same registers after each step, and the words that aren't hidden still agree; and so the listings
//! are equal texts. A stretch ends with the first step below ring n, or before the first that delivers a fault. Of each
//! step that was completed, what it did to the ring.

use crate::compare::{Difference, Machine};
use crate::describe;
use crate::generator::{budget, Generator};
use crate::library::{bench, Answer, Lent};
use crate::random::Random;
use second::doors::Change;
use second::{Descriptor, Registers};

/// The descriptors that pass questions 11 to 14.
fn passing<'m>(registers: &'m Registers, memory: &'m [u64]) -> impl Iterator<Item = Descriptor> + 'm {
    let table = registers.dbr.address as usize;
    let descriptors = &memory[table..table + usize::from(registers.dbr.length)];
    descriptors
        .iter()
        .map(|word| Descriptor::from_word(*word))
        .filter(|d| d.v && d.r1 <= d.r2 && d.r2 <= d.r3 && d.address as usize + usize::from(d.length) <= memory.len())
}

fn covered(descriptor: &Descriptor) -> std::ops::Range<usize> {
    let address = descriptor.address as usize;
    address..address + usize::from(descriptor.length)
}

/// All ones for each word that isn't hidden from ring n: the descriptor words, and those readable or executable from
/// some ring at or above n. Nothing if a descriptor word is writable from such a ring.
fn seen(registers: &Registers, memory: &[u64], n: u8, mask: &mut Vec<u64>) -> Option<()> {
    let table = registers.dbr.address as usize;
    let table = table..table + usize::from(registers.dbr.length);
    mask.clear();
    mask.resize(memory.len(), 0);
    mask[table.clone()].fill(u64::MAX);
    for descriptor in passing(registers, memory) {
        let covered = covered(&descriptor);
        if descriptor.w && descriptor.r1 >= n && covered.start.max(table.start) < covered.end.min(table.end) {
            return None;
        }
        if (descriptor.r || descriptor.e) && descriptor.r2 >= n {
            mask[covered].fill(u64::MAX);
        }
    }
    Some(())
}

pub struct Secrecy {
    machine: Machine,
    other: Vec<u64>,
    mask: Vec<u64>,
    lent: [Lent; 2],
    /// The memories before a step.
    before: [Vec<u64>; 2],
    pub pairs: u64,
    pub steps: u64,
    pub ended_below: u64,
    pub ended_before_delivery: u64,
    /// Steps through a door.
    pub called: u64,
    pub faults: u64,
    pub hidden_words: u64,
    pub by_ring: [u64; 8],
    pub wrote_hidden: u64,
    /// Stretches that read pointer words, and those that faulted at or after some.
    pub read_pointers: u64,
    pub faults_after_pointers: u64,
    pub listings: u64,
}

/// What differs, n, and the two machines.
pub type Leak = (Difference, u8, Machine, Machine);

impl Secrecy {
    pub fn new() -> Secrecy {
        Secrecy {
            machine: Machine::default(),
            other: Vec::new(),
            mask: Vec::new(),
            lent: [Lent::new(1), Lent::new(2)],
            before: [Vec::new(), Vec::new()],
            pairs: 0,
            steps: 0,
            ended_below: 0,
            ended_before_delivery: 0,
            called: 0,
            faults: 0,
            hidden_words: 0,
            by_ring: [0; 8],
            wrote_hidden: 0,
            read_pointers: 0,
            faults_after_pointers: 0,
            listings: 0,
        }
    }

    /// Draws a pair and checks it. One that has nothing hidden, or a writable descriptor word, is drawn again.
    pub fn pair(&mut self, random: &mut Random, generator: &mut Generator) -> Result<(), Box<Leak>> {
        loop {
            let n = random.between(1, 7) as u8;
            if self.draw(random, generator, n).is_some() {
                let differs = |Difference(text)| {
                    let other = Machine { memory: self.other.clone(), ..self.machine.clone() };
                    Box::new((Difference(text), n, self.machine.clone(), other))
                };
                let (lent, before) = (&mut self.lent, &mut self.before);
                let done = check(&self.machine, &self.other, &self.mask, n, lent, before).map_err(differs)?;
                // What the counts say of the listings is tried on every eighth pair.
                if self.pairs % 8 == 7 {
                    same_listing(&self.machine, &self.other, &done).map_err(differs)?;
                    self.listings += 1;
                }
                self.pairs += 1;
                self.read_pointers += u64::from(done.pointer_words > 0);
                self.faults_after_pointers += u64::from(done.pointers_of_fault > 0);
                self.by_ring[usize::from(n)] += 1;
                self.steps += u64::from(done.steps);
                self.ended_below += u64::from(done.ended_below);
                self.ended_before_delivery += u64::from(done.ended_before_delivery);
                self.called += done.called;
                self.faults += u64::from(done.faulted);
                let after = self.lent[0].memory().iter().zip(&self.machine.memory).zip(&self.mask);
                self.wrote_hidden +=
                    u64::from(after.into_iter().any(|((now, before), seen)| (now ^ before) & !seen != 0));
                return Ok(());
            }
        }
    }

    fn draw(&mut self, random: &mut Random, generator: &mut Generator, n: u8) -> Option<()> {
        let machine = &mut self.machine;
        generator.draw(random, machine, n);
        let registers = machine.registers;
        if second::machine::refusal(&registers, machine.memory.len()).is_err() || registers.ipr.ring < n {
            return None;
        }
        // Some segments for inner rings only, and no segment over the descriptors that may be written from ring n on.
        let table = registers.dbr.address as usize;
        for segno in 0..usize::from(registers.dbr.length) {
            let mut descriptor = Descriptor::from_word(machine.memory[table + segno]);
            let is_code = segno == usize::from(registers.ipr.segno);
            if !is_code && random.chance(400) {
                descriptor.r2 = random.below(usize::from(n)) as u8;
                descriptor.r1 = descriptor.r1.min(descriptor.r2);
            } else if !is_code && random.chance(250) {
                // A letter box: written from every ring, read from none.
                (descriptor.r, descriptor.w, descriptor.e) = (false, true, false);
                (descriptor.r1, descriptor.r2, descriptor.r3) = (7, 7, 7);
            }
            let covered = covered(&descriptor);
            if covered.start < table + usize::from(registers.dbr.length) && covered.end > table && descriptor.r1 >= n {
                descriptor.w = false;
            }
            machine.memory[table + segno] = descriptor.to_word();
        }
        let budget = budget(random);
        generator.code(random, machine, budget);
        seen(&registers, &machine.memory, n, &mut self.mask)?;
        let hidden = self.mask.iter().filter(|seen| **seen == 0).count();
        if hidden == 0 {
            return None;
        }
        self.hidden_words += hidden as u64;
        self.other.clear();
        self.other.extend_from_slice(&self.machine.memory);
        let always = random.chance(500);
        for (word, seen) in self.other.iter_mut().zip(&self.mask) {
            if *seen == 0 && (always || random.chance(300)) {
                *word = match random.below(3) {
                    0 => !*word,
                    1 => *word ^ 1 << random.below(64),
                    _ => random.next(),
                };
            }
        }
        Some(())
    }
}

#[derive(Default)]
struct Done {
    steps: u32,
    ended_below: bool,
    ended_before_delivery: bool,
    called: u64,
    faulted: bool,
    /// Over the completed steps.
    pointer_words: u64,
    /// Of the step that faulted.
    pointers_of_fault: u64,
    /// Of the stretch.
    budget: u32,
}

/// The two stretches, step by step and then as runs.
fn check(
    machine: &Machine,
    other: &[u64],
    mask: &[u64],
    n: u8,
    lent: &mut [Lent; 2],
    before: &mut [Vec<u64>; 2],
) -> Result<Done, Difference> {
    let [one, two] = lent;
    one.set(&machine.registers, &machine.memory);
    two.set(&machine.registers, other);
    let mut done = Done { budget: machine.budget, ..Done::default() };
    let mut after_steps = machine.registers;
    while done.steps < machine.budget {
        let at_step = |text: String| Difference(format!("step {}: {text}", done.steps + 1));
        let (one_answer, one_change) = one.step_and_change(&mut before[0]).map_err(at_step)?;
        let (two_answer, two_change) = two.step_and_change(&mut before[1]).map_err(at_step)?;
        let (answers, changes) = ([one_answer, two_answer], [one_change, two_change]);
        let delivers = changes.map(|change| change == Some(Change::Delivered));
        if delivers[0] != delivers[1] {
            return Err(at_step("only one of them delivers a fault".to_string()));
        }
        if delivers[0] {
            done.ended_before_delivery = true;
            break;
        }
        agree(answers, one, two, mask).map_err(|Difference(text)| at_step(text))?;
        after_steps = one.registers();
        let [answer, _] = answers;
        done.called += u64::from(matches!(one_change, Some(Change::Called { .. })));
        done.steps += answer.count;
        done.faulted = answer.kind == Answer::FAULT;
        if done.faulted {
            done.pointers_of_fault = answer.pointer_words;
        } else {
            done.pointer_words += answer.pointer_words;
        }
        done.ended_below = answer.count == 1 && after_steps.ipr.ring < n;
        if answer.kind != Answer::SPENT || done.ended_below {
            break;
        }
    }
    if done.ended_below || done.ended_before_delivery {
        done.budget = done.steps;
    }
    let budget = done.budget;
    one.set(&machine.registers, &machine.memory);
    two.set(&machine.registers, other);
    let answers = [one.run(budget), two.run(budget)];
    agree(answers, one, two, mask).map_err(|Difference(text)| Difference(format!("run of {budget}: {text}")))?;
    if one.registers() != after_steps || answers[0].count != done.steps {
        return Err(Difference(format!("the run of {budget} doesn't end where its steps do")));
    }
    if answers[0].pointer_words != done.pointer_words {
        let (run, steps) = (answers[0].pointer_words, done.pointer_words);
        return Err(Difference(format!("the run of {budget} answers {run} pointer words, its steps {steps}")));
    }
    Ok(done)
}

/// The two stretches as images: the bench's call gives one text.
fn same_listing(machine: &Machine, other: &[u64], done: &Done) -> Result<(), Difference> {
    let texts = [&machine.memory, other].map(|memory: &[u64]| {
        let machine = Machine { registers: machine.registers, memory: memory.to_vec(), budget: done.budget };
        let mut text = vec![0; 64 * (done.budget as usize + 1)];
        let answer = bench(&describe::image(&machine), &mut text);
        (answer, text)
    });
    let [(answer, one), (_, two)] = &texts;
    if texts[0] != texts[1] {
        let [one, two] = [one, two].map(|text| String::from_utf8_lossy(text).trim_end_matches('\0').to_string());
        return Err(Difference(format!("the listings tell the memories apart:\n{one}and\n{two}")));
    }
    if *answer <= 0 {
        return Err(Difference(format!("the bench's call refuses the stretch: {answer}")));
    }
    Ok(())
}

fn agree(answers: [Answer; 2], one: &Lent, two: &Lent, mask: &[u64]) -> Result<(), Difference> {
    if answers[0] != answers[1] {
        return Err(Difference(format!("the replies tell the memories apart: {answers:?}")));
    }
    if one.registers() != two.registers() {
        let text = format!("the registers tell them apart:\n  {:?}\n  {:?}", one.registers(), two.registers());
        return Err(Difference(text));
    }
    let words = one.memory().iter().zip(two.memory()).zip(mask);
    if words.clone().fold(0, |differ, ((one, two), seen)| differ | (one ^ two) & seen) != 0 {
        let address = words.into_iter().position(|((one, two), seen)| (one ^ two) & seen != 0);
        return Err(Difference(format!("word {address:?} isn't hidden and now differs")));
    }
    Ok(())
}
