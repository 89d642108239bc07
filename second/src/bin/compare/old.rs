//! Descriptors of the old benches and of today's: directed, drawn, made smaller, and in words.

use crate::compare::{Comparer, Difference};
use crate::describe::attempt;
use crate::random::Random;
use second::old_cases::{cases, largest, rings, Case, Segment};
use second::{Descriptor, Direction, OldAnswer};

/// The name of a segment, the segment, and what differs.
pub type Failure = (String, Segment, Difference);

/// The library's directed segments, with answers and words that were worked out by hand, and those over all rings; answers
/// how many of each.
pub fn directed(comparer: &mut Comparer) -> Result<(usize, usize), Box<Failure>> {
    let mut count = 0;
    for case in cases().into_iter().chain(largest().into_iter().map(|case| case())) {
        by_hand(comparer, case)?;
        count += 1;
    }
    let rings = rings();
    let ring_count = rings.len();
    for case in rings {
        by_hand(comparer, case)?;
    }
    Ok((count, ring_count))
}

fn by_hand(comparer: &mut Comparer, Case { name, segment, answer: expected }: Case) -> Result<(), Box<Failure>> {
    let (by_papers, words) = match &expected {
        Ok(after) => (OldAnswer { number: 0, index: 0 }, after),
        Err(refused) => (*refused, &segment.words),
    };
    let difference = match comparer.segment(&segment) {
        Ok(answer) if answer == by_papers && comparer.memory() == words => return Ok(()),
        Ok(answer) => Difference(format!("both answer {answer:?}, the papers {by_papers:?}; or words are different")),
        Err(difference) => difference,
    };
    Err(Box::new((name, segment, difference)))
}

// ---- Drawn.

/// In four of ten all words pass, in three one fails, in one some do; in two each word is of any kind.
pub fn draw(random: &mut Random, segment: &mut Segment) {
    let Segment { direction, words } = segment;
    *direction = random.pick(&Direction::BOTH);
    let length = match random.below(2000) {
        0 => 4_096,
        1 => random.between(4_090, 4_100),
        2..=40 => 0,
        41..=140 => random.between(13, 200),
        141..=500 => 1,
        _ => random.between(2, 12),
    };
    let plan = random.below(10);
    words.clear();
    words.extend((0..length).map(|_| match plan {
        0..=6 => passing(random, *direction),
        7 if random.chance(700) => passing(random, *direction),
        7 => failing(random, *direction),
        _ => any(random, *direction),
    }));
    if matches!(plan, 4..=6) && length > 0 {
        let place = if random.chance(200) { length - 1 } else { random.below(length) };
        words[place] = failing(random, *direction);
    }
}

/// A word that passes: any ADDRESS, LENGTH, R, W and E, a user's or not.
fn passing(random: &mut Random, direction: Direction) -> u64 {
    let draw = random.next();
    let mut fields = Descriptor { address: draw as u32 >> 8, length: (draw >> 32) as u16, ..Descriptor::default() };
    if random.chance(150) {
        fields.address = random.pick(&[0, 1, 1 << 23, 0xff_ffff]);
        fields.length = random.pick(&[0, 1, 1 << 15, 0xffff]);
    }
    let [r, w, e, user] = [48, 49, 50, 51].map(|place| draw >> place & 1 == 1);
    match direction {
        // Bits 40 to 43.
        Direction::FromOld => fields.to_word() | (draw >> 48 & 15) << 40,
        Direction::ToOld => {
            let ring = if user { 4 } else { 0 };
            Descriptor { r1: ring, r2: ring, r3: ring, r, w, e, v: true, ..fields }.to_word()
        }
    }
}

/// A word with mostly one thing wrong; with few it is none.
fn failing(random: &mut Random, direction: Direction) -> u64 {
    let word = passing(random, direction);
    if direction == Direction::FromOld {
        let above = 1 << random.between(44, 63);
        return if random.chance(800) { word | above } else { word | above | random.next() };
    }
    let mut today = Descriptor::from_word(word);
    let rings = [&mut today.r1, &mut today.r2, &mut today.r3];
    match random.below(9) {
        0 | 1 => today.v = false,
        2 => today.gate = 1 << random.below(11),
        3 => today.gate = random.between(1, 2_047) as u16,
        4 => {
            let ring = random.below(3);
            *rings[ring] = random.below(8) as u8;
        }
        5 => {
            let ring = random.below(3);
            *rings[ring] ^= 1 << random.below(3);
        }
        6 => {
            let ring = random.pick(&[1, 2, 3, 5, 6, 7]);
            rings.into_iter().for_each(|of_three| *of_three = ring);
        }
        7 => rings.into_iter().for_each(|ring| *ring = random.below(8) as u8),
        _ => {
            today.v = random.chance(500);
            today.gate = random.pick(&[0, 1, 1 << 10]);
            today.r3 = random.below(8) as u8;
        }
    }
    today.to_word()
}

/// A word that passes or fails, that does so the other way, or with any bits.
fn any(random: &mut Random, direction: Direction) -> u64 {
    match random.below(6) {
        0..=2 => passing(random, direction),
        3 => failing(random, direction),
        4 if random.chance(500) => failing(random, direction.back()),
        4 => passing(random, direction.back()),
        _ => random.next(),
    }
}

// ---- A failing segment.

/// Makes a failing segment smaller while it still fails: fewer words, then more zeros.
pub fn shrink(mut segment: Segment, fails: &mut dyn FnMut(&Segment) -> bool) -> Segment {
    let mut attempt = |segment: &mut Segment, change: &dyn Fn(&mut Segment)| attempt(segment, fails, change);
    let mut less = segment.words.len() / 2 + 1;
    while less > 0 {
        while segment.words.len() >= less && attempt(&mut segment, &|s| s.words.truncate(s.words.len() - less)) {}
        while segment.words.len() >= less && attempt(&mut segment, &|s| drop(s.words.drain(..less))) {}
        less /= 2;
    }
    // With so many left, all else takes too long.
    if segment.words.len() > 1_000 {
        return segment;
    }
    for place in (0..segment.words.len()).rev() {
        attempt(&mut segment, &|s| {
            s.words.remove(place);
        });
    }
    for place in 0..segment.words.len() {
        for bit in 0..64 {
            attempt(&mut segment, &|s| s.words[place] &= !(1 << bit));
        }
    }
    segment
}

/// The segment in words; of a long one the first.
pub fn describe(Segment { direction, words }: &Segment) -> String {
    let mut text = format!("{direction:?}, {} words, at most 100 of them below\n", words.len());
    for (index, word) in words.iter().take(100).enumerate() {
        text += &format!("word {index}: {word:#018x} as one of today's: {:?}\n", Descriptor::from_word(*word));
    }
    text
}
