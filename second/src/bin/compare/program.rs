//! The laptop's programs that ask whether a call would pass, that set brackets, that convert descriptors, that list doors
//! and that say what an image will need, against what the second implementation writes.

use std::ffi::OsStr;
use std::io::{self, Write};
use std::process::{Command, Output, Stdio};

use crate::checks;
use crate::compare::{Difference, Machine};
use crate::describe;
use crate::generator::Generator;
use crate::images;
use crate::old;
use crate::random::Random;
use crate::tables;
use second::image::pointer_bytes;
use second::old::MOST_WORDS;
use second::old_cases::{self, segment_bytes, Segment};
use second::tables::{cases, inputs, rows_bytes, Input};
use second::{calls, door_cases, need_cases, Direction};

/// The name of an input, its bytes, and what differs.
pub type Failure = (String, Vec<u8>, Difference);

/// How many are drawn beside the directed ones; and how many of descriptors.
const DRAWN: usize = 2_000;
const DRAWN_WORDS: usize = 1_000;

/// A program, and how many inputs it has had.
struct Asked<'p> {
    program: &'p OsStr,
    inputs: usize,
}

impl<'p> Asked<'p> {
    fn new(program: &'p OsStr) -> Asked<'p> {
        Asked { program, inputs: 0 }
    }

    /// Does the program write this and no error? Or, where there is nothing to write, some error and nothing else?
    fn ask(&mut self, name: String, input: Vec<u8>, expected: Option<&[u8]>) -> Result<(), Failure> {
        self.inputs += 1;
        let mine = expected.unwrap_or_default();
        let difference = match output(self.program, &input) {
            Ok(Output { stdout, stderr, .. }) if stdout == mine && stderr.is_empty() == expected.is_some() => {
                return Ok(())
            }
            Ok(Output { stdout, stderr, .. }) if stdout == mine => {
                let text = if expected.is_some() { "no error" } else { "an error" };
                format!("second has {text}, the program \"{}\"", stderr.escape_ascii())
            }
            Ok(Output { stdout, .. }) => differs(mine, &stdout),
            Err(error) => format!("{}: {error}", self.program.to_string_lossy()),
        };
        Err((name, input, Difference(difference)))
    }

    /// Does the program write what this gives, for drawn images?
    fn drawn_images(
        &mut self,
        random: &mut Random,
        generator: &mut Generator,
        text: fn(&[u8]) -> String,
    ) -> Result<(), Failure> {
        for number in 0..DRAWN {
            let machine = drawn_machine(random, generator);
            let image = drawn_image(random, &machine);
            let text = text(&image);
            self.ask(format!("drawn input {number}"), image, Some(text.as_bytes()))?;
        }
        Ok(())
    }
}

/// Both outputs around the first byte that differs.
fn differs(mine: &[u8], theirs: &[u8]) -> String {
    let first = mine.iter().zip(theirs).take_while(|(mine, theirs)| mine == theirs).count();
    let start = first.saturating_sub(40);
    let shown = |bytes: &[u8]| bytes[start..(first + 40).min(bytes.len())].escape_ascii().to_string();
    format!(
        "second writes {} bytes, the program {}; from byte {start} on\n  second  \"{}\"\n  program \"{}\"",
        mine.len(),
        theirs.len(),
        shown(mine),
        shown(theirs)
    )
}

/// The directed inputs with the texts that were worked out by hand, and drawn ones; answers how many.
pub fn may_call(program: &OsStr, random: &mut Random, generator: &mut Generator) -> Result<usize, Failure> {
    let mut asked = Asked::new(program);
    for calls::Input { name, bytes, text } in calls::inputs() {
        asked.ask(name, bytes, Some(text.as_bytes()))?;
    }
    for case in calls::cases() {
        if let Some(input) = case.input() {
            let text = case.text();
            asked.ask(case.name, input, Some(text.as_bytes()))?;
        }
    }
    for number in 0..DRAWN {
        let input = drawn_pointer(random, generator);
        let text = second::may_call_text(&input);
        asked.ask(format!("drawn input {number}"), input, Some(text.as_bytes()))?;
    }
    Ok(asked.inputs)
}

/// The same for tables of brackets. What is written for an accepted one must also mean what it should.
pub fn brackets(program: &OsStr, random: &mut Random, generator: &mut Generator) -> Result<usize, Failure> {
    let mut asked = Asked::new(program);
    for Input { name, bytes, output } in inputs().into_iter().chain(cases().iter().filter_map(|case| case.input())) {
        asked.ask(name, bytes, Some(&output))?;
    }
    for number in 0..DRAWN {
        let input = drawn_table(random, generator);
        let written = second::brackets_output(&input);
        let name = format!("drawn input {number}");
        if let Ok(image) = second::brackets::with_brackets(&input) {
            if second::read_image(&written) != Ok(image) {
                let difference = Difference("what second writes doesn't load as it should".to_string());
                return Err((name, input, difference));
            }
        }
        asked.ask(name, input, Some(&written))?;
    }
    Ok(asked.inputs)
}

/// The same of descriptors, some of which the program can't take.
pub fn old_words(program: &OsStr, random: &mut Random, _: &mut Generator) -> Result<usize, Failure> {
    let mut asked = Asked::new(program);
    let of_cases = old_cases::cases().into_iter().map(|case| case.input());
    for old_cases::Input { name, bytes, output } in old_cases::inputs().into_iter().chain(of_cases) {
        asked.ask(name, bytes, output.ok().as_deref())?;
    }
    for number in 0..DRAWN_WORDS {
        let input = drawn_words(random);
        let written = second::old_words_output(&input);
        asked.ask(format!("drawn input {number}"), input, written.ok().as_deref())?;
    }
    Ok(asked.inputs)
}

/// The doors of images.
pub fn doors(program: &OsStr, random: &mut Random, generator: &mut Generator) -> Result<usize, Failure> {
    let mut asked = Asked::new(program);
    for calls::Input { name, bytes, text } in door_cases::inputs() {
        asked.ask(name, bytes, Some(text.as_bytes()))?;
    }
    asked.drawn_images(random, generator, second::doors_text)?;
    Ok(asked.inputs)
}

/// What images will need.
pub fn needs(program: &OsStr, random: &mut Random, generator: &mut Generator) -> Result<usize, Failure> {
    let mut asked = Asked::new(program);
    for case in need_cases::cases() {
        let text = case.text();
        asked.ask(case.name, case.image, Some(text.as_bytes()))?;
    }
    asked.drawn_images(random, generator, second::needs_text)?;
    Ok(asked.inputs)
}

/// A machine without code, which isn't run.
fn drawn_machine(random: &mut Random, generator: &mut Generator) -> Machine {
    let mut machine = Machine::default();
    generator.draw(random, &mut machine, 0);
    machine.budget = random.pick(&[0, 1, 1_000_000, u32::MAX]);
    machine
}

/// Its image: as it is, with its records in some order, or damaged.
fn drawn_image(random: &mut Random, machine: &Machine) -> Vec<u8> {
    match random.below(4) {
        0 => images::damaged_image(random, machine),
        1 => images::records(random, machine).concat(),
        _ => describe::image(machine),
    }
}

/// A pointer and an image. Few end in the pointer.
fn drawn_pointer(random: &mut Random, generator: &mut Generator) -> Vec<u8> {
    let machine = drawn_machine(random, generator);
    let mut pointers = Vec::new();
    checks::draw(random, &machine.registers, &machine.memory, 1, &mut pointers);
    let mut input = pointer_bytes(pointers[0]).to_vec();
    input.extend(drawn_image(random, &machine));
    if random.chance(10) {
        input.truncate(random.below(6));
    }
    input
}

/// A table, which mostly fits, and an image. Few end in the table or somewhere else.
fn drawn_table(random: &mut Random, generator: &mut Generator) -> Vec<u8> {
    let machine = drawn_machine(random, generator);
    let length = machine.registers.dbr.length;
    let mut rows = Vec::new();
    tables::cover(random, length, &mut rows);
    if random.chance(400) {
        tables::damage(random, length, &mut rows);
    }
    let mut input = rows_bytes(&rows);
    let table_length = input.len();
    input.extend(drawn_image(random, &machine));
    match random.below(50) {
        0 => input.truncate(random.below(table_length + 1)),
        1 => input.truncate(random.below(input.len())),
        _ => {}
    }
    input
}

/// A direction and words. Few are as many as there may be, or more, or end in a word.
fn drawn_words(random: &mut Random) -> Vec<u8> {
    let mut segment = Segment::default();
    old::draw(random, &mut segment);
    let Segment { direction, mut words } = segment;
    if random.chance(50) && !words.is_empty() {
        let length = match random.below(4) {
            0 | 1 => MOST_WORDS,
            2 => MOST_WORDS + 1,
            _ => random.between(4_000, 5_000),
        };
        words = words.into_iter().cycle().take(length).collect();
    }
    let direction = match direction {
        Direction::FromOld => 0,
        Direction::ToOld if random.chance(800) => random.pick(&[1, 2, 255]),
        Direction::ToOld => random.between(1, 255) as u8,
    };
    let mut input = segment_bytes(direction, &words);
    match random.below(20) {
        0 => input.truncate(random.below(input.len())),
        1 => input.extend((0..random.between(1, 7)).map(|_| random.next() as u8)),
        _ => {}
    }
    input
}

/// What the program writes for this input.
fn output(program: &OsStr, input: &[u8]) -> io::Result<Output> {
    let mut command = Command::new(program);
    let mut child = command.stdin(Stdio::piped()).stdout(Stdio::piped()).stderr(Stdio::piped()).spawn()?;
    if let Some(mut stdin) = child.stdin.take() {
        match stdin.write_all(input) {
            // It may have seen enough.
            Err(error) if error.kind() != io::ErrorKind::BrokenPipe => return Err(error),
            _ => {}
        }
    }
    let output = child.wait_with_output()?;
    match output.status.code() {
        Some(_) => Ok(output),
        None => Err(io::Error::other(output.status.to_string())),
    }
}
