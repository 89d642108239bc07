//! Images in which addresses come several times: directed, every short sequence, few addresses, thousands of records.

use crate::compare::{Comparer, Difference};
use crate::images::{compare, every_sequence, me, rn, shuffle, state, stored, wd, Failure};
use crate::random::Random;
use second::repeats::{cases, TEXT};
use second::{states, Descriptor};

/// The library's directed images, with the answers that were worked out by hand; answers how many they are.
pub fn directed(comparer: &mut Comparer) -> Result<usize, (String, Failure)> {
    let repeated = cases();
    for case in &repeated {
        // 45 comes last.
        let without_text = case.refused.map_or(-45, |number| -i64::from(number));
        for (length, answer) in [(TEXT, case.answer()), (0, without_text)] {
            answers(comparer, case.name, &case.image(), length, Some(answer))?;
        }
        let stored = case.stored_image();
        answers(comparer, case.name, &stored, TEXT, None)?;
        converts(case.name, stored, case.converted())?;
    }
    let states = states::cases();
    for case in &states {
        answers(comparer, &case.name, &case.image, states::TEXT, Some(case.answer()))?;
        converts(&case.name, case.image.clone(), case.converted.clone())?;
    }
    no_image(comparer)?;
    Ok(repeated.len() + states.len())
}

/// In every alignment, this is what both answer, if it is known.
fn answers(
    comparer: &mut Comparer,
    name: &str,
    image: &[u8],
    length: usize,
    expected: Option<i64>,
) -> Result<(), (String, Failure)> {
    for filler in (0..64).map(|filler| filler * 3) {
        let difference = match (comparer.image(image, length, filler), expected) {
            (Ok(answer), Some(expected)) if answer != expected => {
                Difference(format!("both answer {answer}, the paper {expected}"))
            }
            (Ok(_), _) => continue,
            (Err(difference), _) => difference,
        };
        return Err((name.to_string(), (image.to_vec(), length, difference)));
    }
    Ok(())
}

fn converts(name: &str, image: Vec<u8>, expected: Result<Vec<u8>, u8>) -> Result<(), (String, Failure)> {
    if second::convert(&image) == expected {
        return Ok(());
    }
    let difference = Difference("both convert it alike, the paper otherwise".to_string());
    Err((name.to_string(), (image, TEXT, difference)))
}

/// A conversion without its five bytes of room is that of an empty image.
fn no_image(comparer: &mut Comparer) -> Result<(), (String, Failure)> {
    for length in 0..5 {
        for filler in 0..=255 {
            if let Err(difference) = comparer.less_than_room(length, filler) {
                return Err((format!("a conversion with {length} bytes"), (vec![], 0, difference)));
            }
        }
    }
    Ok(())
}

/// A segment for IPR, open to all rings.
fn code(address: u32, length: u16) -> u64 {
    Descriptor { address, length, r1: 0, r2: 7, r3: 7, r: true, w: true, e: true, v: true, gate: 0 }.to_word()
}

const AOS: u64 = 9 << 24;
const LDI: u64 = 10 << 24;
const TRA: u64 = 24 << 24;
const HLT: u64 = 41 << 24;

/// ME, every sequence of at most `depth` records with three addresses and ST, and RN.
pub fn sequences(comparer: &mut Comparer, random: &mut Random, depth: usize) -> Result<u64, Failure> {
    let before = comparer.images;
    let tokens = [
        state(0, 2, 3, 4),
        // Word 1 says where the code is; in its words the code goes on, stays or ends.
        wd(1, code(4, 4)),
        wd(1, code(5, 2)),
        wd(4, LDI),
        wd(4, TRA),
        wd(5, LDI),
    ];
    for tokens in [tokens.clone(), tokens.map(stored)] {
        every_sequence(comparer, random, &tokens, &mut me(8), &rn(3), depth)?;
    }
    Ok(comparer.images - before)
}

/// Up to 40 WDs over 1 to 6 addresses, with ST anywhere among them; some with a fault of another kind.
pub fn few(comparer: &mut Comparer, random: &mut Random) -> Result<(), Failure> {
    let size = random.pick(&[8, 8, 64, 300, 8192]);
    let mut addresses = vec![1, 4, 5, 6, random.below(size) as u32, size as u32 - 1];
    shuffle(random, &mut addresses);
    addresses.truncate(random.between(1, 6));
    let words = [code(4, 4), code(5, 2), LDI, LDI, TRA, AOS, HLT, 0, random.next()];
    // Few records as well, so that sometimes no address comes twice.
    let most = random.pick(&[3, 6, 40]);
    let mut records: Vec<Vec<u8>> =
        (0..random.between(1, most)).map(|_| wd(random.pick(&addresses), random.pick(&words))).collect();
    let ring = random.pick(&[0, 0, 3, 7]);
    let st = match random.below(20) {
        0 => state(0, 2, ring, 8),               // 2
        1 => state(0, 2, 1, 0),                  // 3
        2 => state(size as u32 - 1, 2, ring, 7), // 4
        _ => state(0, 2, ring, 7),
    };
    records.insert(random.below(records.len() + 1), st);
    if random.chance(100) {
        let record = match random.below(4) {
            0 => wd(size as u32 + random.below(2) as u32, LDI), // 44
            1 => state(0, 2, ring, 7),                          // 42
            2 => me(8),                                         // 42
            _ => b"WD\0".to_vec(),                              // 41, and sometimes others
        };
        records.insert(random.below(records.len() + 1), record);
    }
    records.insert(0, me(size as u32));
    records.push(rn(random.below(9) as u32));
    let image = in_some_form(random, records);
    compare(comparer, random, &image, 64 * 9).map(|_| ())
}

/// Thousands of WDs in any order: each address once, some twice, or drawn freely.
pub fn many(comparer: &mut Comparer, random: &mut Random) -> Result<(), Failure> {
    let size = random.pick(&[2, 100, 4096, 8191, 8192, 8192]);
    let mut addresses: Vec<u32> = match random.below(4) {
        0 => (0..random.between(1000, 12_000)).map(|_| random.below(size) as u32).collect(),
        _ => (0..size as u32).collect(),
    };
    for _ in 0..random.pick(&[0, 1, 1, 2, 100]) {
        addresses.push(random.pick(&addresses));
    }
    shuffle(random, &mut addresses);
    let words = [LDI, 0, random.next()];
    let mut records: Vec<Vec<u8>> = addresses.into_iter().map(|address| wd(address, random.pick(&words))).collect();
    records.insert(random.below(records.len() + 1), state(0, 1, 3, 4));
    records.insert(0, me(size as u32));
    records.push(rn(3));
    let image = in_some_form(random, records);
    compare(comparer, random, &image, 256).map(|_| ())
}

/// One half today's, one half as they were stored.
fn in_some_form(random: &mut Random, records: Vec<Vec<u8>>) -> Vec<u8> {
    if random.chance(500) {
        records.concat()
    } else {
        records.into_iter().flat_map(stored).collect()
    }
}
