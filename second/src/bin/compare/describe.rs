//! A failing input: made smaller, written as an image, and in words.

use crate::compare::Machine;
use second::image::Record;
use second::{Descriptor, Instruction, Pointer, Registers, Rules};

/// The machine as an image: ME, ST, the words that aren't zero, RN.
pub fn image(machine: &Machine) -> Vec<u8> {
    second::image::write_image(&machine.registers, &machine.memory, machine.budget)
}

/// An image's whole records, by the rules under which they go further, and the bytes behind them.
pub fn split(image: &[u8]) -> (Rules, Vec<&[u8]>, &[u8]) {
    let whole = |rules| second::image::records(image, rules).map(|(_, bytes)| bytes.len()).sum::<usize>();
    let rules = if whole(Rules::Stored) > whole(Rules::Today) { Rules::Stored } else { Rules::Today };
    (rules, second::image::records(image, rules).map(|(_, bytes)| bytes).collect(), &image[whole(rules)..])
}

/// An image's first records in words, in order.
pub fn records(image: &[u8]) -> String {
    let (rules, ..) = split(image);
    let names = second::image::records(image, rules).map(|(record, bytes)| match record {
        Record::Me { words } => format!("ME {words}"),
        Record::St { .. } => format!("ST of {} bytes", bytes.len() - 2),
        Record::Wd { address, word } => format!("WD {address} {word:#x}"),
        Record::Rn { budget } => format!("RN {budget}"),
    });
    let names: Vec<String> = names.take(100).collect();
    format!("records, at most 100 of them: {}", names.join(", "))
}

/// The machine in words.
pub fn describe(machine: &Machine) -> String {
    let Registers { a, dbr, ipr, pr, fault_switch, save_segment, handler_segment } = machine.registers;
    let pointer = |pointer: Pointer| format!("ring {} segment {} word {}", pointer.ring, pointer.segno, pointer.wordno);
    let mut text = format!(
        "{} words of memory, budget {}\nswitch {fault_switch}, save segment {save_segment}, handler segment \
         {handler_segment}\nA {a:#x}\nDBR {} and {}\nIPR {}\n",
        machine.memory.len(),
        machine.budget,
        dbr.address,
        dbr.length,
        pointer(ipr)
    );
    if machine.memory.len() > 8192 {
        text += "(an image can't have this much memory: 43)\n";
    }
    for (number, pr) in pr.into_iter().enumerate() {
        text += &format!("PR{number} {}\n", pointer(pr));
    }
    let table = dbr.address as usize..dbr.address as usize + usize::from(dbr.length);
    for (address, word) in machine.memory.iter().enumerate().filter(|(_, word)| **word != 0) {
        text += &format!("word {address}: {word:#018x}");
        if table.contains(&address) {
            text += &format!(" segment {}: {:?}", address - table.start, Descriptor::from_word(*word));
        } else {
            text += &format!(" {:?}", Instruction::from_word(*word));
        }
        text += "\n";
    }
    text
}

/// Changes a failing input if it then still fails.
pub fn attempt<T: Clone + PartialEq>(
    input: &mut T,
    fails: &mut dyn FnMut(&T) -> bool,
    change: &dyn Fn(&mut T),
) -> bool {
    let mut changed = input.clone();
    change(&mut changed);
    let is_smaller = changed != *input && fails(&changed);
    if is_smaller {
        *input = changed;
    }
    is_smaller
}

/// Makes a failing machine smaller while it still fails.
pub fn shrink(mut machine: Machine, fails: &mut dyn FnMut(&Machine) -> bool) -> Machine {
    let mut attempt = |machine: &mut Machine, change: &dyn Fn(&mut Machine)| attempt(machine, fails, change);
    // The shortest budget; then from the state just before, one step.
    let mut less = machine.budget / 2;
    while less > 0 {
        while machine.budget >= less && attempt(&mut machine, &|m| m.budget -= less) {}
        less /= 2;
    }
    attempt(&mut machine, &|m| m.budget = m.budget.saturating_sub(1));
    if machine.budget > 1 {
        attempt(&mut machine, &|m| {
            second::run(&mut m.registers, &mut m.memory, m.budget - 1);
            m.budget = 1;
        });
    }
    // Fewer words.
    let mut less = machine.memory.len() / 2;
    while less > 0 {
        while machine.memory.len() >= less && attempt(&mut machine, &|m| m.memory.truncate(m.memory.len() - less)) {}
        less /= 2;
    }
    loop {
        let mut is_smaller = false;
        let used: Vec<usize> = (0..machine.memory.len()).filter(|address| machine.memory[*address] != 0).collect();
        for address in used.into_iter().take(20_000) {
            if attempt(&mut machine, &|m| m.memory[address] = 0) {
                is_smaller = true;
                continue;
            }
            for bit in 0..64 {
                is_smaller |= attempt(&mut machine, &|m| m.memory[address] &= !(1 << bit));
            }
        }
        is_smaller |= attempt(&mut machine, &|m| m.registers.a = 0);
        is_smaller |= attempt(&mut machine, &|m| m.registers.dbr.address = 0);
        is_smaller |= attempt(&mut machine, &|m| m.registers.fault_switch = 0);
        is_smaller |= attempt(&mut machine, &|m| m.registers.save_segment = 0);
        is_smaller |= attempt(&mut machine, &|m| m.registers.handler_segment = 0);
        for pr in 0..8 {
            is_smaller |= attempt(&mut machine, &|m| {
                m.registers.pr[pr] = Pointer { ring: m.registers.ipr.ring, ..Pointer::default() }
            });
            is_smaller |= attempt(&mut machine, &|m| m.registers.pr[pr].wordno = 0);
            is_smaller |= attempt(&mut machine, &|m| m.registers.pr[pr].segno = 0);
        }
        if !is_smaller {
            return machine;
        }
    }
}
