//! What an image will need, from its records alone: its memory isn't built, and no step is taken; and the program that says
//! it.

use crate::image::{read_each, Given, Read, Rules};
use crate::machine::refusal;

/// What loading an image takes, and the most that any run of it does.
#[derive(Clone, Copy, Debug, Default, PartialEq, Eq)]
pub struct Needs {
    /// Words.
    pub memory: u64,
    /// WDs.
    pub records: u64,
    /// Steps.
    pub budget: u64,
    /// Of the listing: one for each step, and the last.
    pub lines: u64,
    /// Pointer words: 64 for each step.
    pub pointers: u64,
}

/// Of the WDs it is kept which addresses have come, and how many there were; of their words none.
struct Addresses {
    came: Vec<bool>,
    records: u64,
}

impl Given for Addresses {
    fn none(words: u32) -> Self {
        Addresses { came: vec![false; words as usize], records: 0 }
    }

    fn give(&mut self, address: u32, _: u64) -> bool {
        self.records += 1;
        std::mem::replace(&mut self.came[address as usize], true)
    }
}

/// The needs of an image, or the number by which loading refuses it.
pub fn needs(bytes: &[u8]) -> Result<Needs, u8> {
    let Read { words, given: Addresses { records, .. }, registers, budget } = read_each(bytes, Rules::Today)?;
    // 1 to 4
    refusal(&registers, words as usize)?;
    let budget = u64::from(budget);
    Ok(Needs { memory: u64::from(words), records, budget, lines: budget + 1, pointers: 64 * budget })
}

// ---- The program.

/// What the program prints, a line for each figure.
pub fn needs_text(bytes: &[u8]) -> String {
    match needs(bytes) {
        Ok(Needs { memory, records, budget, lines, pointers }) => {
            format!("memory {memory}\nrecords {records}\nbudget {budget}\nlines {lines}\npointers {pointers}\n")
        }
        Err(number) => format!("refused {number}\n"),
    }
}
