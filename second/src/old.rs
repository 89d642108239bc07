//! The descriptors of the old benches, which have no rings: made into today's and back; and the program for both.

use std::fmt;

use crate::words::{bit, bits, Descriptor};

/// Number and index of the first word that fails; 0 and 0 where all have passed.
#[derive(Clone, Copy, Debug, Default, PartialEq, Eq)]
pub struct OldAnswer {
    pub number: u64,
    pub index: u64,
}

/// Which way words are converted.
#[derive(Clone, Copy, Debug, Default, PartialEq, Eq)]
pub enum Direction {
    #[default]
    FromOld,
    ToOld,
}

impl Direction {
    pub const BOTH: [Direction; 2] = [Direction::FromOld, Direction::ToOld];

    /// As the program reads it.
    pub fn from_byte(byte: u8) -> Direction {
        if byte == 0 {
            Direction::FromOld
        } else {
            Direction::ToOld
        }
    }

    pub fn back(self) -> Direction {
        match self {
            Direction::FromOld => Direction::ToOld,
            Direction::ToOld => Direction::FromOld,
        }
    }

    pub fn convert(self, words: &mut [u64]) -> OldAnswer {
        match self {
            Direction::FromOld => from_old(words),
            Direction::ToOld => to_old(words),
        }
    }
}

/// Makes old descriptors into today's.
pub fn from_old(words: &mut [u64]) -> OldAnswer {
    all_or_none(words, |word| OldDescriptor::from_word(word).map(|old| old.to_today().to_word()))
}

/// Makes today's descriptors into old ones.
pub fn to_old(words: &mut [u64]) -> OldAnswer {
    all_or_none(words, |word| OldDescriptor::from_today(Descriptor::from_word(word)).map(OldDescriptor::to_word))
}

/// Every word converted; or, where a word gets a number instead, none.
fn all_or_none(words: &mut [u64], convert: impl Fn(u64) -> Result<u64, u64>) -> OldAnswer {
    let mut converted = Vec::with_capacity(words.len());
    for (index, word) in (0..).zip(&*words) {
        match convert(*word) {
            Ok(word) => converted.push(word),
            Err(number) => return OldAnswer { number, index },
        }
    }
    words.copy_from_slice(&converted);
    OldAnswer { number: 0, index: 0 }
}

/// A descriptor without rings.
#[derive(Clone, Copy)]
struct OldDescriptor {
    address: u32,
    length: u16,
    r: bool,
    w: bool,
    e: bool,
    user: bool,
}

/// R1, R2 and R3 of user on, and of user off.
const USER: [u8; 3] = [4, 4, 4];
const NO_USER: [u8; 3] = [0, 0, 0];

impl OldDescriptor {
    fn from_word(word: u64) -> Result<OldDescriptor, u64> {
        // 56: are bits 44 to 63 off?
        if bits(word, 44, 63) != 0 {
            return Err(56);
        }
        Ok(OldDescriptor {
            address: bits(word, 0, 23) as u32,
            length: bits(word, 24, 39) as u16,
            r: bit(word, 40),
            w: bit(word, 41),
            e: bit(word, 42),
            user: bit(word, 43),
        })
    }

    fn to_word(self) -> u64 {
        u64::from(self.address)
            | u64::from(self.length) << 24
            | u64::from(self.r) << 40
            | u64::from(self.w) << 41
            | u64::from(self.e) << 42
            | u64::from(self.user) << 43
    }

    fn from_today(today: Descriptor) -> Result<OldDescriptor, u64> {
        let Descriptor { address, length, r1, r2, r3, r, w, e, v, gate } = today;
        // 57: is V on, is GATE 0, and are the rings a user's or nobody's?
        let user = match [r1, r2, r3] {
            USER => true,
            NO_USER => false,
            _ => return Err(57),
        };
        if !v || gate > 0 {
            return Err(57);
        }
        Ok(OldDescriptor { address, length, r, w, e, user })
    }

    fn to_today(self) -> Descriptor {
        let OldDescriptor { address, length, r, w, e, user } = self;
        let [r1, r2, r3] = if user { USER } else { NO_USER };
        Descriptor { address, length, r1, r2, r3, r, w, e, v: true, gate: 0 }
    }
}

// ---- The program.

/// The most words that it takes.
pub const MOST_WORDS: usize = 4_096;

/// Bytes of a word.
const WORD_BYTES: usize = 8;

/// Why the program writes nothing but an error.
#[derive(Clone, Copy, Debug, PartialEq, Eq)]
pub enum Unread {
    NoDirection,
    TooLong,
    Cut,
}

impl fmt::Display for Unread {
    fn fmt(&self, formatter: &mut fmt::Formatter) -> fmt::Result {
        match self {
            Unread::NoDirection => write!(formatter, "no direction"),
            Unread::TooLong => write!(formatter, "more than {MOST_WORDS} words"),
            Unread::Cut => write!(formatter, "the last word isn't whole"),
        }
    }
}

/// What the program writes for a direction and words, high byte first: the words converted, or which one is refused.
pub fn old_words_output(bytes: &[u8]) -> Result<Vec<u8>, Unread> {
    let (direction, bytes) = bytes.split_first().ok_or(Unread::NoDirection)?;
    if bytes.len() > WORD_BYTES * MOST_WORDS {
        return Err(Unread::TooLong);
    }
    let (words, cut) = bytes.as_chunks::<WORD_BYTES>();
    if !cut.is_empty() {
        return Err(Unread::Cut);
    }
    let mut words: Vec<u64> = words.iter().map(|word| u64::from_be_bytes(*word)).collect();
    match Direction::from_byte(*direction).convert(&mut words) {
        OldAnswer { number: 0, .. } => Ok(words.into_iter().flat_map(u64::to_be_bytes).collect()),
        OldAnswer { number, index } => Ok(format!("refused {number} {index}\n").into_bytes()),
    }
}
