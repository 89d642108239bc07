//! Images for the bench's call: whole, damaged, and every short sequence of records.

use crate::compare::{Comparer, Difference, Machine};
use crate::describe;
use crate::random::Random;
use second::image::{pointer_bytes, st, stored_st};
use second::need_cases::{self, Case};
use second::{Dbr, Descriptor, Instruction, Pointer, PointerWord, Rules};

/// An image, the buffer's length, and what differs.
pub type Failure = (Vec<u8>, usize, Difference);

fn needed(budget: u32) -> usize {
    64 * (budget as usize + 1)
}

fn record(mark: &[u8; 2], numbers: &[&[u8]]) -> Vec<u8> {
    let mut record = mark.to_vec();
    for number in numbers {
        record.extend_from_slice(number);
    }
    record
}

pub fn me(words: u32) -> Vec<u8> {
    record(b"ME", &[&words.to_be_bytes()])
}

pub fn wd(address: u32, word: u64) -> Vec<u8> {
    record(b"WD", &[&address.to_be_bytes(), &word.to_be_bytes()])
}

pub fn rn(budget: u32) -> Vec<u8> {
    record(b"RN", &[&budget.to_be_bytes()])
}

/// A machine's records: ME, ST somewhere, its words in some order, RN. In some images addresses come twice, and some are
/// as they were stored.
pub fn records(random: &mut Random, machine: &Machine) -> Vec<Vec<u8>> {
    let rules = if random.chance(300) { Rules::Stored } else { Rules::Today };
    let mut words = Vec::new();
    for (address, word) in machine.memory.iter().enumerate() {
        if *word != 0 || random.chance(10) {
            words.push(wd(address as u32, *word));
        }
    }
    if random.chance(300) {
        shuffle(random, &mut words);
    }
    if random.chance(if rules == Rules::Today { 100 } else { 400 }) {
        // Records before those with the words that count, so that the machine stays what the stored image means.
        for _ in 0..random.between(1, 8).min(words.len()) {
            let place = random.below(words.len());
            let mut again = words[place].clone();
            another_word(random, &mut again);
            words.insert(random.below(place + 1), again);
        }
    }
    let st = match rules {
        Rules::Today => st(&machine.registers),
        Rules::Stored => stored_st(&machine.registers),
    };
    words.insert(random.below(words.len() + 1), st);
    words.insert(0, me(machine.memory.len() as u32));
    words.push(rn(machine.budget));
    words
}

/// Mostly gives a WD record another word.
fn another_word(random: &mut Random, wd: &mut [u8]) {
    if random.chance(700) {
        wd[6..].copy_from_slice(&random.next().to_be_bytes());
    }
}

/// Any order, each as likely.
pub fn shuffle<T>(random: &mut Random, list: &mut [T]) {
    for end in (1..list.len()).rev() {
        list.swap(end, random.below(end + 1));
    }
}

pub fn compare(comparer: &mut Comparer, random: &mut Random, image: &[u8], length: usize) -> Result<i64, Failure> {
    comparer.image(image, length, random.next() as u8).map_err(|difference| (image.to_vec(), length, difference))
}

/// The library's directed images for what they will need, with figures and numbers that were worked out by hand, at every
/// alignment; answers how many they are.
pub fn needs(comparer: &mut Comparer) -> Result<usize, (String, Failure)> {
    let cases = need_cases::cases();
    let count = cases.len();
    for Case { name, image, answer: by_papers } in cases {
        // 45 comes last.
        let expected = by_papers.map_or_else(|number| -i64::from(number), |_| -45);
        for filler in 0..8 {
            let difference = match comparer.image(&image, 0, filler) {
                Ok(answer) if answer == expected && second::needs(&image) == by_papers => continue,
                Ok(answer) => Difference(format!(
                    "both answer {answer} and {:?}, the papers {by_papers:?}",
                    second::needs(&image)
                )),
                Err(difference) => difference,
            };
            return Err((name, (image, 0, difference)));
        }
    }
    Ok(count)
}

/// An image as it is, with a buffer that is large enough, or just or well too small.
pub fn whole(comparer: &mut Comparer, random: &mut Random, machine: &Machine) -> Result<(), Failure> {
    let image = records(random, machine).concat();
    let length = match random.below(10) {
        0 => needed(machine.budget) - 1,
        1 => random.below(needed(machine.budget)),
        2 => needed(machine.budget) + random.below(100),
        _ => needed(machine.budget),
    };
    compare(comparer, random, &image, length).map(|_| ())
}

/// One damage, drawn.
pub fn damaged(comparer: &mut Comparer, random: &mut Random, machine: &Machine) -> Result<(), Failure> {
    let image = damaged_image(random, machine);
    compare(comparer, random, &image, needed(machine.budget)).map(|_| ())
}

/// A machine's image with one damage.
pub fn damaged_image(random: &mut Random, machine: &Machine) -> Vec<u8> {
    let mut records = records(random, machine);
    let (one, other) = (random.below(records.len()), random.below(records.len()));
    let mut image = match random.below(6) {
        0 => {
            records.swap(one, other);
            records.concat()
        }
        1 => {
            records.remove(one);
            records.concat()
        }
        2 => {
            let again = records[one].clone();
            records.insert(other, again);
            records.concat()
        }
        _ => records.concat(),
    };
    match random.below(4) {
        0 => image.truncate(random.below(image.len() + 1)),
        1 => {
            let place = random.below(image.len().max(1));
            if let Some(byte) = image.get_mut(place) {
                *byte = random.next() as u8;
            }
        }
        2 => {
            // Among the first 72 bytes: ME, and mostly ST.
            let place = random.below(image.len().clamp(1, 72));
            if let Some(byte) = image.get_mut(place) {
                *byte ^= 1 << random.below(8);
            }
        }
        _ => image.push(random.next() as u8),
    }
    image
}

/// Every damage of one image: each truncation, each byte changed, records exchanged, doubled, dropped.
pub fn all_damages(comparer: &mut Comparer, random: &mut Random, machine: &Machine) -> Result<u64, Failure> {
    let records = records(random, machine);
    let image = records.concat();
    let length = needed(machine.budget);
    let before = comparer.images;
    for end in 0..=image.len() {
        compare(comparer, random, &image[..end], length)?;
    }
    for place in 0..image.len() {
        for value in [0, 1, 7, 8, 127, 255, image[place] ^ 1, image[place] ^ 32, image[place].wrapping_add(1)] {
            let mut image = image.clone();
            image[place] = value;
            compare(comparer, random, &image, length)?;
        }
    }
    for one in 0..records.len() {
        let mut dropped = records.clone();
        dropped.remove(one);
        compare(comparer, random, &dropped.concat(), length)?;
        for other in 0..=records.len() {
            let mut again = records[one].clone();
            if again.starts_with(b"WD") {
                // 51 wherever it goes: some of the places are enough.
                if !random.chance(300) {
                    continue;
                }
                another_word(random, &mut again);
            }
            let mut doubled = records.clone();
            doubled.insert(other, again);
            compare(comparer, random, &doubled.concat(), length)?;
        }
        for other in one + 1..records.len() {
            let mut exchanged = records.clone();
            exchanged.swap(one, other);
            compare(comparer, random, &exchanged.concat(), length)?;
        }
    }
    for length in [0, 1, 63, 64, length - 64, length - 1, length, length + 1, length + 64] {
        compare(comparer, random, &image, length)?;
    }
    Ok(comparer.images - before)
}

/// ST with this DBR, IPR in segment 1 and the PRs nowhere; the switch off.
pub fn state(address: u32, length: u16, ipr: u8, pr: u8) -> Vec<u8> {
    let mut record = b"ST".to_vec();
    record.extend(7_u64.to_be_bytes());
    record.extend(address.to_be_bytes());
    record.extend(length.to_be_bytes());
    record.extend(pointer_bytes(Pointer { ring: ipr, segno: 1, wordno: 0 }));
    for _ in 0..8 {
        record.extend(pointer_bytes(Pointer { ring: pr, segno: 4095, wordno: 65_535 }));
    }
    record.extend([0; 5]);
    record
}

/// ST with its last five bytes these.
fn with_fields(mut st: Vec<u8>, fields: [u8; 5]) -> Vec<u8> {
    st.truncate(61);
    st.extend(fields);
    st
}

/// A record as stored images have it: ST without its last five bytes.
pub fn stored(mut record: Vec<u8>) -> Vec<u8> {
    if record.starts_with(b"ST") {
        record.truncate(61);
    }
    record
}

/// Every sequence of at most `depth` records, good and bad, with a buffer of 256 bytes: enough for a budget of 3.
pub fn sequences(comparer: &mut Comparer, random: &mut Random, depth: usize) -> Result<u64, Failure> {
    let before = comparer.images;
    // Word 1 describes words 4 to 7, which the WD fills with LDI.
    let code = Descriptor { address: 4, length: 4, r2: 7, r3: 7, e: true, v: true, ..Default::default() };
    let tokens: Vec<Vec<u8>> = vec![
        me(8),
        me(8192),
        me(8193),
        me(0),
        state(0, 2, 3, 4),
        with_fields(state(0, 2, 3, 4), [1, 0, 0, 0, 1]), // the save segment's V is off
        state(1 << 24, 2, 3, 4),                         // 2
        state(0, 2, 4, 3),                               // 3
        state(0, 9000, 3, 4),                            // 4
        with_fields(state(9000, 0, 3, 4), [2, 0, 0, 0, 0]), // 2, then 4
        wd(1, code.to_word()),
        wd(7, 10 << 24),
        wd(7, 9 << 24), // the same address
        wd(8, 1),
        rn(3),
        rn(4), // 45
        rn(u32::MAX),
        rn(0),
        b"R".to_vec(),
        b"me\0\0\0\x08".to_vec(),
        b"ME\0\0\0".to_vec(),
        b"ST\0\0\0\0\0\0".to_vec(),
        b"WD\0\0\0\x01\0\0\0".to_vec(),
        b"RN\0\0\0".to_vec(),
    ];
    // With one of the other kind among them: today's, and then as they were stored.
    let today = [&tokens[..], &[stored(state(0, 2, 3, 4))]].concat();
    let mut old: Vec<Vec<u8>> = tokens.into_iter().map(stored).collect();
    old.dedup();
    old.push(state(0, 2, 3, 4));
    for tokens in [today, old] {
        every_sequence(comparer, random, &tokens, &mut Vec::new(), &[], depth)?;
    }
    Ok(comparer.images - before)
}

/// Every sequence of at most `depth` tokens, between `image` and `end`.
pub fn every_sequence(
    comparer: &mut Comparer,
    random: &mut Random,
    tokens: &[Vec<u8>],
    image: &mut Vec<u8>,
    end: &[u8],
    depth: usize,
) -> Result<(), Failure> {
    let length = image.len();
    image.extend_from_slice(end);
    compare(comparer, random, image, 256)?;
    image.truncate(length);
    if depth == 0 {
        return Ok(());
    }
    for token in tokens {
        image.extend_from_slice(token);
        every_sequence(comparer, random, tokens, image, end, depth - 1)?;
        image.truncate(length);
    }
    Ok(())
}

/// Numbers of every length in the listing's lines: rings, segments, words, counts, pointer words and their totals.
pub fn numbers(comparer: &mut Comparer, random: &mut Random) -> Result<u64, Failure> {
    let before = comparer.images;
    let all = Descriptor { address: 4096, length: 4096, r2: 7, r3: 7, e: true, v: true, ..Descriptor::default() };
    for segno in [0, 1, 9, 10, 99, 100, 999, 1000, 4095] {
        for wordno in [0, 8, 9, 10, 98, 99, 100, 998, 999, 1000, 4094] {
            for ring in 0..8 {
                // LDI, then LDA of a word that doesn't exist.
                let mut machine = Machine { memory: vec![0; 8192], budget: 2, ..Machine::default() };
                machine.registers.dbr = Dbr { address: 0, length: 4096 };
                machine.registers.ipr = Pointer { ring, segno, wordno };
                let far = random.pick(&[0, 9, 10, 99, 100, 999, 1000, 9999, 10_000, 65_534, 65_535]);
                let near = random.pick(&[0, 9, 10, 99, 100, 999, 1000, 4095]);
                machine.registers.pr = [Pointer { ring: 7, segno: near, wordno: far }; 8];
                machine.memory[usize::from(segno)] = all.to_word();
                let lda = Instruction { opcode: 1, p: true, ..Instruction::default() };
                machine.memory[4096 + usize::from(wordno)] = 10 << 24;
                machine.memory[4097 + usize::from(wordno)] = lda.to_word();
                compare(comparer, random, &describe::image(&machine), needed(2))?;
            }
        }
    }
    // A transfer to itself, for a count of seven digits.
    for budget in [9, 10, 99, 100, 999, 1000, 9999, 10_000, 99_999, 100_000, 1_000_001] {
        let mut machine = Machine { memory: vec![0; 8], budget, ..Machine::default() };
        machine.registers.dbr.length = 1;
        machine.memory[0] = Descriptor { address: 4, length: 1, ..all }.to_word();
        machine.memory[4] = 24 << 24;
        compare(comparer, random, &describe::image(&machine), needed(budget))?;
    }
    // A transfer to itself through a chain, for a total of seven digits.
    for chain in [1, 9, 10, 11, 63, 64] {
        for budget in [0, 1, 2, 9, 10, 11, 99, 100, 999, 1000, 1001, 9999, 20_000] {
            let machine = round(chain, budget);
            compare(comparer, random, &describe::image(&machine), needed(budget))?;
        }
    }
    Ok(comparer.images - before)
}

/// A transfer in word 4 to itself, through so many pointer words behind it.
fn round(chain: u16, budget: u32) -> Machine {
    let mut machine = Machine { memory: vec![0; 72], budget, ..Machine::default() };
    machine.registers.dbr.length = 1;
    let all = Descriptor { address: 4, length: 65, r2: 7, r3: 7, r: true, e: true, v: true, ..Descriptor::default() };
    machine.memory[0] = all.to_word();
    machine.memory[4] = Instruction { opcode: 24, i: true, offset: 1, ..Instruction::default() }.to_word();
    for word in 1..=chain {
        let (wordno, i) = if word < chain { (word + 1, true) } else { (0, false) };
        let next = PointerWord { pointer: Pointer { wordno, ..Pointer::default() }, i };
        machine.memory[4 + usize::from(word)] = next.to_word();
    }
    machine
}

/// Makes a failing image smaller while it still fails: fewer records, fewer bytes, then more zeros.
pub fn shrink(comparer: &mut Comparer, image: Vec<u8>, length: usize) -> Vec<u8> {
    let mut fails = |image: &[u8]| comparer.image(image, length, 0xee).is_err();
    let mut image = fewer_records(image, &mut fails);
    // With so many records left, going by bytes takes too long.
    if image.len() > 5_000 {
        return image;
    }
    let mut size = image.len();
    while size > 0 {
        let mut place = 0;
        while place + size <= image.len() {
            let mut smaller = image.clone();
            smaller.drain(place..place + size);
            if fails(&smaller) {
                image = smaller;
            } else {
                place += 1;
            }
        }
        // Whole records are 14 bytes or more; below that, halves.
        size = if size > 14 { (size / 2).max(14) } else { size / 2 };
    }
    for place in 0..image.len() {
        let mut simpler = image.clone();
        simpler[place] = 0;
        if image[place] != 0 && fails(&simpler) {
            image = simpler;
        }
    }
    image
}

/// Leaves out records while the image still fails, many at a time and then fewer.
fn fewer_records(image: Vec<u8>, fails: &mut dyn FnMut(&[u8]) -> bool) -> Vec<u8> {
    let (_, mut records, behind) = describe::split(&image);
    records.push(behind);
    let mut size = records.len();
    while size > 0 {
        let mut place = 0;
        while place + size <= records.len() {
            let fewer = [&records[..place], &records[place + size..]].concat();
            if fails(&fewer.concat()) {
                records = fewer;
            } else {
                place += size;
            }
        }
        size /= 2;
    }
    records.concat()
}
