//! A second implementation of the ring processor, written from document 01 and requests L1, L2, L4, L5, L6, L8 to L10
//! and L12 of document 02 alone, to be compared with the first.
//!
//! It reads like the paper: `words` has the descriptor, the pointer word and the instruction; `machine` the registers,
//! the questions, a step, a run and the check of CALL; `frame` what a delivered fault leaves; `image` the records;
//! `listing` the text; `bench` the call of the bench's firmware; `convert` the program for stored images; `may_call`
//! the program that asks the check; `brackets` the table for who may do what and its program; `old` the descriptors of
//! the old benches and the program that converts them; `doors` the gates that lead down, the program that lists them
//! and the claim that nothing else does; `needs` what an image will need and the program that says it. `repeats` and
//! `states` have directed images, `pointers`, `delivery` and `stacks` directed machines with what each of them asks
//! for, `calls` pointers for the check with its answers, `tables` tables of brackets with what each of them leaves,
//! `old_cases` descriptors with what becomes of them, `door_cases` images with their doors and steps with what the
//! claim says of them, `need_cases` images with their needs, and `opcodes` the numbers that they use; they are for the
//! tests and the comparison. A comment that starts with a number is the question of that number.

#![forbid(unsafe_code)]

pub mod bench;
pub mod brackets;
pub mod calls;
pub mod convert;
pub mod delivery;
pub mod door_cases;
pub mod doors;
pub mod frame;
pub mod image;
pub mod listing;
pub mod machine;
pub mod may_call;
pub mod need_cases;
pub mod needs;
pub mod old;
pub mod old_cases;
pub mod opcodes;
pub mod pointers;
pub mod repeats;
pub mod stacks;
pub mod states;
pub mod tables;
pub mod words;

pub use bench::bench;
pub use brackets::{brackets_output, set_brackets, Row};
pub use convert::{convert, converted};
pub use doors::doors_text;
pub use image::{read_image, read_stored_image, Image, Rules};
pub use listing::list;
pub use machine::{may_call, run, step, step_and_fault, Check, Fault, Registers, Reply};
pub use may_call::may_call_text;
pub use needs::{needs, needs_text, Needs};
pub use old::{from_old, old_words_output, to_old, Direction, OldAnswer};
pub use words::{Dbr, Descriptor, Instruction, Opcode, Pointer, PointerWord};

#[cfg(test)]
mod cases;
