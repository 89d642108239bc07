//! Compares the second implementation with libkuzhlemor.a: `compare quick`, or `compare long N [SEED]`, which draws
//! N machines, N images, N tables of brackets and N segments of descriptors beside the directed ones. `compare draw N [SEED]`
//! compares nothing: it prints N images of the same kind, each after its length in four bytes, for other tests.

mod checks;
mod compare;
mod describe;
mod directed;
mod generator;
mod images;
mod kept;
mod library;
mod old;
mod program;
mod random;
mod reach;
mod repeats;
mod secrecy;
mod tables;

use std::ffi::OsStr;
use std::io::{BufWriter, Write};
use std::path::Path;
use std::process::ExitCode;
use std::time::Instant;

use compare::{Comparer, Machine};
use directed::Pairs;
use generator::{budget, Generator};
use kept::Input;
use random::Random;
use second::old_cases::Segment;
use second::tables::{rows_bytes, Table};
use second::Registers;
use secrecy::{Leak, Secrecy};

/// How much of each kind to compare.
struct Plan {
    seed: u64,
    grids: u32,
    machines: u64,
    pairs: u64,
    images: u64,
    damaged: u64,
    /// Images with few addresses, and images of thousands of records.
    few: u64,
    large: u64,
    tables: u64,
    segments: u64,
    depth: usize,
}

const USAGE: &str = "compare quick\ncompare long N [SEED]\ncompare draw N [SEED]";

fn main() -> ExitCode {
    let arguments: Vec<String> = std::env::args().skip(1).collect();
    let number = |place: usize| arguments.get(place).and_then(|number| number.replace([',', '_'], "").parse().ok());
    let plan = match (arguments.first().map(String::as_str), arguments.len()) {
        (Some("quick"), 1) => Plan {
            seed: 1,
            grids: 3,
            machines: 1_500_000,
            pairs: 250_000,
            images: 100_000,
            damaged: 60,
            few: 100_000,
            large: 400,
            tables: 1_000_000,
            segments: 2_000_000,
            depth: 4,
        },
        (Some("draw"), 2 | 3) => match number(1) {
            Some(many) => return print_images(many, number(2).unwrap_or(1)),
            None => {
                eprintln!("{USAGE}");
                return ExitCode::from(2);
            }
        },
        (Some("long"), 2 | 3) => match (number(1), number(2)) {
            (Some(many), seed) if arguments.len() == 2 || seed.is_some() => Plan {
                seed: seed.unwrap_or(1),
                grids: 1,
                machines: many,
                pairs: many / 10,
                images: many,
                damaged: 60,
                few: many / 5,
                large: 2_000,
                tables: many,
                segments: many,
                depth: 5,
            },
            _ => {
                eprintln!("{USAGE}");
                return ExitCode::from(2);
            }
        },
        _ => {
            eprintln!("{USAGE}");
            return ExitCode::from(2);
        }
    };
    match carry_out(&plan) {
        Ok(()) => ExitCode::SUCCESS,
        Err(text) => {
            println!("{text}");
            ExitCode::FAILURE
        }
    }
}

/// Says what a part compared and how long it took.
struct Clock(Instant);

impl Clock {
    fn part(&mut self, text: &str) {
        println!("{text} ({:.1} s)", self.0.elapsed().as_secs_f64());
        self.0 = Instant::now();
    }
}

fn carry_out(plan: &Plan) -> Result<(), String> {
    println!("seed {}", plan.seed);
    let mut clock = Clock(Instant::now());
    let mut comparer = Comparer::new();
    let mut generator = Generator::new();

    let count = directed::cases(&mut comparer).map_err(|failure| machine_differs(plan, *failure))?;
    clock.part(&format!("directed: {count} machines with the reply that 01 gives"));

    let count = directed::pointer_words(&mut comparer).map_err(|failure| machine_differs(plan, *failure))?;
    clock.part(&format!("directed: {count} machines for pointer words, with the replies and texts that 02 gives"));

    let count = directed::deliveries(&mut comparer).map_err(|failure| machine_differs(plan, *failure))?;
    clock.part(&format!("directed: {count} machines for delivered faults and opcode 42, with all that 02 gives"));

    let count = directed::stack_bases(&mut comparer).map_err(|failure| machine_differs(plan, *failure))?;
    clock.part(&format!("directed: {count} machines for the stack base of CALL, with all that 02 gives"));

    let (count, brackets) = directed::checks(&mut comparer).map_err(|failure| machine_differs(plan, *failure))?;
    clock.part(&format!(
        "directed: {count} pointers for the check of CALL, {brackets} over all brackets and rings, with the answers that 02 \
         gives"
    ));

    let count = directed::ring_steps(&mut comparer).map_err(|failure| machine_differs(plan, *failure))?;
    clock.part(&format!("directed: {count} steps for the claim that only gates lead down, with what is said of each"));

    // Each part has its own numbers, so that no other part changes what it draws.
    let mut random = Random::new(plan.seed.rotate_left(24));
    let (count, rings) =
        tables::directed(&mut comparer, &mut random).map_err(|failure| table_differs(plan, *failure))?;
    clock.part(&format!(
        "directed: {count} tables of brackets, {rings} over all rings, with the answers and memories that 02 gives"
    ));

    let (count, rings) = old::directed(&mut comparer).map_err(|failure| segment_differs(plan, *failure))?;
    clock.part(&format!(
        "directed: {count} segments of descriptors to convert, {rings} over all rings, with the answers and words that 02 gives"
    ));

    let count = repeats::directed(&mut comparer).map_err(|(name, (image, length, difference))| {
        image_differs(plan, &mut Comparer::new(), &name, image, length, difference)
    })?;
    clock.part(&format!("directed: {count} images for 51, ST and the conversion, with the answers that 02 gives"));

    let count = images::needs(&mut comparer).map_err(|(name, (image, length, difference))| {
        image_differs(plan, &mut Comparer::new(), &name, image, length, difference)
    })?;
    clock
        .part(&format!("directed: {count} images for what they will need, with the figures and numbers that 02 gives"));

    kept_inputs(plan, &mut comparer, &mut clock)?;

    let mut random = Random::new(plan.seed);
    let mut pairs = Pairs::new();
    let mut count = 0;
    for _ in 0..plan.grids {
        count += directed::grid(&mut comparer, &mut random, &mut pairs).map_err(|f| machine_differs(plan, *f))?;
    }
    clock.part(&format!("directed: {count} machines over all rings, brackets and flags, with the reply that 01 gives"));
    pairs.print();

    all_images(plan, &mut comparer, &mut generator, &mut clock)?;

    let mut random = Random::new(!plan.seed);
    let mut machine = Machine::default();
    for count in 0..plan.machines {
        let mut random = Random::new(random.next());
        generator.draw(&mut random, &mut machine, 0);
        let budget = budget(&mut random);
        generator.code(&mut random, &mut machine, budget);
        if let Err(difference) = comparer.machine(&machine) {
            return Err(machine_differs(plan, (format!("machine {count}"), machine, difference)));
        }
    }
    clock.part(&format!("random: {} machines", plan.machines));

    drawn_tables(plan, &mut comparer, &mut clock)?;

    drawn_segments(plan, &mut comparer, &mut clock)?;

    programs(plan, &mut generator, &mut clock)?;

    let mut random = Random::new(plan.seed.rotate_left(16));
    let mut secrecy = Secrecy::new();
    for _ in 0..plan.pairs {
        secrecy.pair(&mut random, &mut generator).map_err(|leak| leaks(plan, *leak))?;
    }
    clock.part(&format!(
        "secrecy: {} pairs of machines, {} steps, {} through a door, {} words hidden; {} stretches end below ring n, {} before \
         a delivered fault, {} with a fault; {} wrote a hidden word; {} read pointer words, {} faulted at or after some; {} pairs \
         of listings; by n from 1: {:?}",
        secrecy.pairs,
        secrecy.steps,
        secrecy.called,
        secrecy.hidden_words,
        secrecy.ended_below,
        secrecy.ended_before_delivery,
        secrecy.faults,
        secrecy.wrote_hidden,
        secrecy.read_pointers,
        secrecy.faults_after_pointers,
        secrecy.listings,
        &secrecy.by_ring[1..]
    ));

    let missed = comparer.reach.print();
    if !missed.is_empty() {
        return Err(format!("compare: none different, but never reached: {}", missed.join(", ")));
    }
    let Comparer { images, checks, tables, segments, .. } = comparer;
    let machines = comparer.machines + 2 * secrecy.pairs;
    println!(
        "compare: {machines} machines, {images} images, {checks} checks, {tables} tables, {segments} segments, none different"
    );
    Ok(())
}

/// The fuzzer's inputs.
fn kept_inputs(plan: &Plan, comparer: &mut Comparer, clock: &mut Clock) -> Result<(), String> {
    let folder = Path::new(env!("CARGO_MANIFEST_DIR")).join("../tests/fuzz/inputs");
    let inputs = kept::inputs(&folder).map_err(|error| format!("compare: {}: {error}", folder.display()))?;
    if inputs.is_empty() {
        return Err(format!("compare: no inputs in {}", folder.display()));
    }
    let count = inputs.len();
    for (name, input) in inputs {
        match input {
            Input::Machine(machine) => {
                if let Err(difference) = comparer.machine(&machine) {
                    return Err(machine_differs(plan, (format!("kept input {name}"), machine, difference)));
                }
            }
            Input::Image { image, text_length } => {
                if let Err(difference) = comparer.image(&image, text_length, 0xa5) {
                    let name = format!("kept input {name}");
                    return Err(image_differs(plan, comparer, &name, image, text_length, difference));
                }
            }
        }
    }
    clock.part(&format!("kept: {count} inputs of the fuzzer"));
    Ok(())
}

/// A machine for an image, with a budget of so many steps at most.
fn image_machine(generator: &mut Generator, random: &mut Random, most: u32) -> Machine {
    let mut machine = Machine::default();
    generator.draw(random, &mut machine, 0);
    let budget = budget(random).min(most);
    generator.code(random, &mut machine, budget);
    machine
}

fn print_images(many: u64, seed: u64) -> ExitCode {
    let mut generator = Generator::new();
    let random = &mut Random::new(seed.rotate_left(32));
    let mut output = BufWriter::new(std::io::stdout().lock());
    for _ in 0..many {
        let machine = image_machine(&mut generator, random, u32::MAX);
        let image = images::records(random, &machine).concat();
        let length = (image.len() as u32).to_be_bytes();
        if output.write_all(&length).and_then(|()| output.write_all(&image)).is_err() {
            return ExitCode::FAILURE;
        }
    }
    match output.flush() {
        Ok(()) => ExitCode::SUCCESS,
        Err(_) => ExitCode::FAILURE,
    }
}

fn all_images(
    plan: &Plan,
    comparer: &mut Comparer,
    generator: &mut Generator,
    clock: &mut Clock,
) -> Result<(), String> {
    let random = &mut Random::new(plan.seed.rotate_left(32));
    let differs = |comparer: &mut Comparer, (image, length, difference): images::Failure| {
        image_differs(plan, comparer, "an image", image, length, difference)
    };
    let mut draw = |random: &mut Random, most: u32| image_machine(generator, random, most);
    let count = images::sequences(comparer, random, plan.depth).map_err(|failure| differs(comparer, failure))?;
    clock.part(&format!("images: {count}, every sequence of at most {} records", plan.depth));

    let depth = plan.depth + 2;
    let count = repeats::sequences(comparer, random, depth).map_err(|failure| differs(comparer, failure))?;
    clock.part(&format!("images: {count}, every sequence of at most {depth} ST and WD over three addresses"));

    for _ in 0..plan.few {
        repeats::few(comparer, random).map_err(|failure| differs(comparer, failure))?;
    }
    clock.part(&format!("images: {}, up to 40 WDs over few addresses", plan.few));

    for _ in 0..plan.large {
        repeats::many(comparer, random).map_err(|failure| differs(comparer, failure))?;
    }
    clock.part(&format!("images: {}, thousands of WDs", plan.large));

    let count = images::numbers(comparer, random).map_err(|failure| differs(comparer, failure))?;
    clock.part(&format!("images: {count}, numbers of every length"));

    let mut count = 0;
    for _ in 0..plan.damaged {
        let mut machine = draw(random, 20);
        machine.memory.truncate(128);
        count += images::all_damages(comparer, random, &machine).map_err(|failure| differs(comparer, failure))?;
    }
    clock.part(&format!("images: {count}, every damage of {} images", plan.damaged));

    for _ in 0..plan.images / 2 {
        let machine = draw(random, u32::MAX);
        images::whole(comparer, random, &machine).map_err(|failure| differs(comparer, failure))?;
        let machine = draw(random, 100);
        images::damaged(comparer, random, &machine).map_err(|failure| differs(comparer, failure))?;
    }
    clock.part(&format!("images: {}, drawn, one half damaged", plan.images / 2 * 2));
    Ok(())
}

fn drawn_tables(plan: &Plan, comparer: &mut Comparer, clock: &mut Clock) -> Result<(), String> {
    let mut random = Random::new(plan.seed.rotate_left(8));
    let mut table = Table::default();
    for count in 0..plan.tables {
        let mut random = Random::new(random.next());
        tables::draw(&mut random, &mut table);
        if let Err(difference) = comparer.table(&table, &mut random) {
            return Err(table_differs(plan, (format!("table {count}"), table, difference)));
        }
    }
    clock.part(&format!("random: {} tables of brackets", plan.tables));
    Ok(())
}

fn drawn_segments(plan: &Plan, comparer: &mut Comparer, clock: &mut Clock) -> Result<(), String> {
    let mut random = Random::new(plan.seed.rotate_left(56));
    let mut segment = Segment::default();
    for count in 0..plan.segments {
        let mut random = Random::new(random.next());
        old::draw(&mut random, &mut segment);
        if let Err(difference) = comparer.segment(&segment) {
            return Err(segment_differs(plan, (format!("segment {count}"), segment, difference)));
        }
    }
    clock.part(&format!("random: {} segments of descriptors, converted", plan.segments));
    Ok(())
}

/// The laptop's programs that the environment names.
fn programs(plan: &Plan, generator: &mut Generator, clock: &mut Clock) -> Result<(), String> {
    type Compare = fn(&OsStr, &mut Random, &mut Generator) -> Result<usize, program::Failure>;
    let programs: [(&str, &str, u32, Compare); 5] = [
        ("may_call", "KUZHLEMOR_MAY_CALL", 48, program::may_call),
        ("brackets", "KUZHLEMOR_BRACKETS", 40, program::brackets),
        ("old_words", "KUZHLEMOR_OLD_WORDS", 12, program::old_words),
        ("doors", "KUZHLEMOR_DOORS", 20, program::doors),
        ("needs", "KUZHLEMOR_NEEDS", 28, program::needs),
    ];
    for (name, variable, rotation, compare) in programs {
        let Some(path) = std::env::var_os(variable) else { continue };
        let mut random = Random::new(plan.seed.rotate_left(rotation));
        let count = compare(&path, &mut random, generator).map_err(|failure| program_differs(plan, name, failure))?;
        clock.part(&format!("the program {name}: {count} inputs"));
    }
    Ok(())
}

/// Writes a failing input's image and description; answers the text.
fn write_out(name: &str, images: &[(&str, Vec<u8>)], text: String) -> String {
    let mut text = text;
    for (suffix, image) in images {
        let path = format!("{name}{suffix}.img");
        match std::fs::write(&path, image) {
            Ok(()) => text += &format!("\nwritten to {path}"),
            Err(error) => text += &format!("\n{path}: {error}"),
        }
    }
    let path = format!("{name}.txt");
    match std::fs::write(&path, format!("{text}\n")) {
        Ok(()) => text + &format!(" and {path}"),
        Err(error) => text + &format!("\n{path}: {error}"),
    }
}

fn machine_differs(plan: &Plan, (name, machine, first): directed::Failure) -> String {
    let mut comparer = Comparer::for_smaller();
    // Where both agree and only the paper differs, nothing fails here, and the machine stays as it is.
    let smaller = describe::shrink(machine, &mut |machine| comparer.machine(machine).is_err());
    let difference = comparer.machine(&smaller).err().unwrap_or(first);
    let text = format!("compare: DIFFERENT, in {name}\n{}\n{}", difference.0, describe::describe(&smaller));
    write_out(&format!("failing-{}", plan.seed), &[("", describe::image(&smaller))], text)
}

fn program_differs(plan: &Plan, program: &str, (name, input, difference): program::Failure) -> String {
    let text = format!("compare: {program} DIFFERENT, in {name}, of {} bytes\n{}", input.len(), difference.0);
    write_out(&format!("failing-{}", plan.seed), &[(&format!("-{program}"), input)], text)
}

/// It is written as the program's input.
fn table_differs(plan: &Plan, (name, table, first): tables::Failure) -> String {
    let mut comparer = Comparer::new();
    let mut compare = |table: &Table| comparer.table(table, &mut Random::new(3));
    let smaller = tables::shrink(table, &mut |table| compare(table).is_err());
    let difference = compare(&smaller).err().unwrap_or(first);
    let text = format!("compare: DIFFERENT, in {name}\n{}\n{}", difference.0, tables::describe(&smaller));
    let Table { memory, dbr, rows } = smaller;
    let machine = Machine { registers: Registers { dbr, ..Registers::default() }, memory, budget: 0 };
    let input = [rows_bytes(&rows), describe::image(&machine)].concat();
    write_out(&format!("failing-{}", plan.seed), &[("-table", input)], text)
}

/// It is written as the program's input.
fn segment_differs(plan: &Plan, (name, segment, first): old::Failure) -> String {
    let mut comparer = Comparer::new();
    let smaller = old::shrink(segment, &mut |segment| comparer.segment(segment).is_err());
    let difference = comparer.segment(&smaller).err().unwrap_or(first);
    let text = format!("compare: DIFFERENT, in {name}\n{}\n{}", difference.0, old::describe(&smaller));
    write_out(&format!("failing-{}", plan.seed), &[("-segment", smaller.bytes())], text)
}

fn leaks(plan: &Plan, (difference, n, one, two): Leak) -> String {
    let mut text = format!("compare: A LEAK to ring {n}\n{}\n{}", difference.0, describe::describe(&one));
    for (address, (one, two)) in one.memory.iter().zip(&two.memory).enumerate() {
        if one != two {
            text += &format!("hidden word {address}: {one:#018x} or {two:#018x}\n");
        }
    }
    let images = [("-one", describe::image(&one)), ("-other", describe::image(&two))];
    write_out(&format!("failing-{}", plan.seed), &images, text)
}

fn image_differs(
    plan: &Plan,
    comparer: &mut Comparer,
    name: &str,
    image: Vec<u8>,
    length: usize,
    first: compare::Difference,
) -> String {
    let smaller = images::shrink(comparer, image, length);
    let difference = comparer.image(&smaller, length, 0xee).err().unwrap_or(first);
    let mut text = format!("compare: DIFFERENT, in {name}, of {} bytes below\n{}", smaller.len(), difference.0);
    if let Err(number) = second::read_image(&smaller) {
        text += &format!("\nsecond refuses it: {number}");
    }
    text += &format!("\n{}", describe::records(&smaller));
    let read = second::read_image(&smaller).or_else(|_| second::read_stored_image(&smaller));
    if let Ok(second::Image { registers, memory, budget }) = read {
        text += &format!("\n{}", describe::describe(&Machine { registers, memory, budget }));
    }
    write_out(&format!("failing-{}", plan.seed), &[("", smaller)], text)
}
