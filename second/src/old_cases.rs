//! Directed descriptors of the old benches and of today's, and inputs of the program that converts them: answers, words
//! and outputs were worked out by hand.

use crate::old::Direction::{self, FromOld, ToOld};
use crate::old::{OldAnswer, Unread, MOST_WORDS};

/// What a call is handed, and which call it is.
#[derive(Clone, Debug, Default, PartialEq, Eq)]
pub struct Segment {
    pub direction: Direction,
    pub words: Vec<u64>,
}

/// A segment, and what becomes of it.
pub struct Case {
    pub name: String,
    pub segment: Segment,
    /// The words that it is made into, or what refuses it.
    pub answer: Result<Vec<u64>, OldAnswer>,
}

/// Bytes for the program, and what it writes.
pub struct Input {
    pub name: String,
    pub bytes: Vec<u8>,
    pub output: Result<Vec<u8>, Unread>,
}

impl Case {
    /// The same for the program.
    pub fn input(&self) -> Input {
        let output = match &self.answer {
            _ if self.segment.words.len() > MOST_WORDS => Err(Unread::TooLong),
            Ok(after) => Ok(words_bytes(after)),
            Err(OldAnswer { number, index }) => Ok(refusal(*number, *index)),
        };
        Input { name: self.name.clone(), bytes: self.segment.bytes(), output }
    }
}

impl Segment {
    /// What the program reads, with a direction of 0 or 1.
    pub fn bytes(&self) -> Vec<u8> {
        segment_bytes(u8::from(self.direction == ToOld), &self.words)
    }
}

/// A segment as the program reads it: the direction 1; each word 8, high byte first.
pub fn segment_bytes(direction: u8, words: &[u64]) -> Vec<u8> {
    [&[direction][..], &words_bytes(words)].concat()
}

fn words_bytes(words: &[u64]) -> Vec<u8> {
    words.iter().flat_map(|word| word.to_be_bytes()).collect()
}

fn refusal(number: u64, index: u64) -> Vec<u8> {
    format!("refused {number} {index}\n").into_bytes()
}

/// An old word, and what it is today.
type Pair = (u64, u64);

/// R, W, E and user, ADDRESS and LENGTH 0. V is bit 52; R, W and E go to bits 49 to 51; rings 4 4 4 are bits 42, 45 and 48.
const FLAGS: [Pair; 16] = [
    (0x0000_0000_0000_0000, 0x0010_0000_0000_0000),
    (0x0000_0100_0000_0000, 0x0012_0000_0000_0000), // R
    (0x0000_0200_0000_0000, 0x0014_0000_0000_0000), // W
    (0x0000_0300_0000_0000, 0x0016_0000_0000_0000), // R W
    (0x0000_0400_0000_0000, 0x0018_0000_0000_0000), // E
    (0x0000_0500_0000_0000, 0x001a_0000_0000_0000), // R E
    (0x0000_0600_0000_0000, 0x001c_0000_0000_0000), // W E
    (0x0000_0700_0000_0000, 0x001e_0000_0000_0000), // R W E
    (0x0000_0800_0000_0000, 0x0011_2400_0000_0000), // user
    (0x0000_0900_0000_0000, 0x0013_2400_0000_0000), // R user
    (0x0000_0a00_0000_0000, 0x0015_2400_0000_0000), // W user
    (0x0000_0b00_0000_0000, 0x0017_2400_0000_0000), // R W user
    (0x0000_0c00_0000_0000, 0x0019_2400_0000_0000), // E user
    (0x0000_0d00_0000_0000, 0x001b_2400_0000_0000), // R E user
    (0x0000_0e00_0000_0000, 0x001d_2400_0000_0000), // W E user
    (0x0000_0f00_0000_0000, 0x001f_2400_0000_0000), // R W E user
];

const ADDRESSES_AND_LENGTHS: [Pair; 24] = [
    // ADDRESS 16,777,215; LENGTH 65,535; both.
    (0x0000_0000_00ff_ffff, 0x0010_0000_00ff_ffff),
    (0x0000_00ff_ff00_0000, 0x0010_00ff_ff00_0000),
    (0x0000_00ff_ffff_ffff, 0x0010_00ff_ffff_ffff),
    (0x0000_0800_00ff_ffff, 0x0011_2400_00ff_ffff),
    (0x0000_08ff_ff00_0000, 0x0011_24ff_ff00_0000),
    (0x0000_08ff_ffff_ffff, 0x0011_24ff_ffff_ffff),
    // With all else as well.
    (0x0000_0700_00ff_ffff, 0x001e_0000_00ff_ffff),
    (0x0000_07ff_ff00_0000, 0x001e_00ff_ff00_0000),
    (0x0000_07ff_ffff_ffff, 0x001e_00ff_ffff_ffff),
    (0x0000_0f00_00ff_ffff, 0x001f_2400_00ff_ffff),
    (0x0000_0fff_ff00_0000, 0x001f_24ff_ff00_0000),
    (0x0000_0fff_ffff_ffff, 0x001f_24ff_ffff_ffff),
    // ADDRESS 8,388,607 and 8,388,608, LENGTH 32,767 and 32,768.
    (0x0000_017f_ff7f_ffff, 0x0012_007f_ff7f_ffff),
    (0x0000_0280_0080_0000, 0x0014_0080_0080_0000),
    (0x0000_0c7f_ff80_0000, 0x0019_247f_ff80_0000),
    (0x0000_0a80_007f_ffff, 0x0015_2480_007f_ffff),
    // Each digit another.
    (0x0000_0512_3456_789a, 0x001a_0012_3456_789a),
    (0x0000_0612_3456_789a, 0x001c_0012_3456_789a),
    (0x0000_0bfe_dcba_9876, 0x0017_24fe_dcba_9876),
    (0x0000_0dfe_dcba_9876, 0x001b_24fe_dcba_9876),
    (0x0000_0555_5555_5555, 0x001a_0055_5555_5555),
    (0x0000_0aaa_aaaa_aaaa, 0x0015_24aa_aaaa_aaaa),
    // Segments 3 and 4 of case 12, as far as they can be had: 32 and 4, R W; 16 and 8, R E user.
    (0x0000_0300_0400_0020, 0x0016_0000_0400_0020),
    (0x0000_0d00_0800_0010, 0x001b_2400_0800_0010),
];

/// Bits 44 to 63, one in each; the last eleven are GATE's.
const ABOVE: [u64; 20] = [
    0x0000_1000_0000_0000,
    0x0000_2000_0000_0000,
    0x0000_4000_0000_0000,
    0x0000_8000_0000_0000,
    0x0001_0000_0000_0000,
    0x0002_0000_0000_0000,
    0x0004_0000_0000_0000,
    0x0008_0000_0000_0000,
    0x0010_0000_0000_0000,
    0x0020_0000_0000_0000,
    0x0040_0000_0000_0000,
    0x0080_0000_0000_0000,
    0x0100_0000_0000_0000,
    0x0200_0000_0000_0000,
    0x0400_0000_0000_0000,
    0x0800_0000_0000_0000,
    0x1000_0000_0000_0000,
    0x2000_0000_0000_0000,
    0x4000_0000_0000_0000,
    0x8000_0000_0000_0000,
];

/// Two that pass: R E; R W user.
const NO_USER: Pair = (0x0000_0512_3456_789a, 0x001a_0012_3456_789a);
const USER: Pair = (0x0000_0bfe_dcba_9876, 0x0017_24fe_dcba_9876);

const V: u64 = 0x0010_0000_0000_0000;
const ONES: u64 = u64::MAX;

/// Words that fail, with the bits on that decide: five each way.
const FAILING_OLD: [u64; 5] = [
    0x0000_1000_0000_0000,
    0x8000_0000_0000_0000,
    0x0010_0000_0000_0000, // today's, without user
    0x001b_2400_0800_0010, // today's, with user
    ONES,
];
const FAILING_TODAY: [u64; 5] = [
    0x0001_2400_0800_0010, // V off
    0x8011_2400_0800_0010, // GATE 1,024
    0x0011_6400_0800_0010, // rings 4 4 5
    0x0010_2400_0800_0010, // rings 4 4 0
    0x0000_0d00_0800_0010, // an old one
];

fn failing(direction: Direction) -> [u64; 5] {
    match direction {
        FromOld => FAILING_OLD,
        ToOld => FAILING_TODAY,
    }
}

/// The word that a pair has for this direction.
fn given(direction: Direction, (old, today): Pair) -> u64 {
    match direction {
        FromOld => old,
        ToOld => today,
    }
}

struct Cases(Vec<Case>);

impl Cases {
    fn add(
        &mut self,
        name: impl Into<String>,
        direction: Direction,
        words: &[u64],
        answer: Result<Vec<u64>, OldAnswer>,
    ) {
        self.0.push(Case { name: name.into(), segment: Segment { direction, words: words.to_vec() }, answer });
    }

    /// Both ways round.
    fn converted(&mut self, name: impl Into<String>, pairs: &[Pair]) {
        let name = name.into();
        let (old, today): (Vec<u64>, Vec<u64>) = pairs.iter().copied().unzip();
        self.add(format!("{name}, from old"), FromOld, &old, Ok(today.clone()));
        self.add(format!("{name}, to old"), ToOld, &today, Ok(old));
    }

    /// The word of this index is the first that fails.
    fn refused(&mut self, name: impl Into<String>, direction: Direction, words: &[u64], index: u64) {
        let number = match direction {
            FromOld => 56,
            ToOld => 57,
        };
        self.add(name, direction, words, Err(OldAnswer { number, index }));
    }

    /// By itself, and first, between and last among words that pass.
    fn refused_anywhere(&mut self, name: &str, direction: Direction, word: u64) {
        let [one, two] = [NO_USER, USER].map(|pair| given(direction, pair));
        self.refused(format!("{name}, alone"), direction, &[word], 0);
        self.refused(format!("{name}, first"), direction, &[word, one, two], 0);
        self.refused(format!("{name}, between"), direction, &[one, word, two], 1);
        self.refused(format!("{name}, last"), direction, &[one, two, word], 2);
    }
}

pub fn cases() -> Vec<Case> {
    let mut cases = Cases(Vec::new());
    single_words(&mut cases);
    several_words(&mut cases);
    bits_above(&mut cases);
    not_of_old(&mut cases);
    of_the_other_kind(&mut cases);
    first_decides(&mut cases);
    lengths(&mut cases);
    far_places(&mut cases);
    cases.0
}

// ---- Converted.

/// All the pairs, with their names.
fn pairs() -> Vec<(String, Pair)> {
    let mut pairs = Vec::new();
    for pair in FLAGS.into_iter().chain(ADDRESSES_AND_LENGTHS) {
        pairs.push((format!("{:#x}", pair.0), pair));
    }
    // ADDRESS and LENGTH stay where they are.
    for number in 0..40 {
        let bit = 1_u64 << number;
        pairs.push((format!("bit {number} on"), (bit, 0x0010_0000_0000_0000 | bit)));
        pairs.push((format!("bit {number} on, user"), (0x0000_0800_0000_0000 | bit, 0x0011_2400_0000_0000 | bit)));
        pairs.push((format!("bit {number} off"), (0x0000_0fff_ffff_ffff & !bit, 0x001f_24ff_ffff_ffff & !bit)));
    }
    pairs
}

fn single_words(cases: &mut Cases) {
    for (name, pair) in pairs() {
        cases.converted(name, &[pair]);
    }
}

fn several_words(cases: &mut Cases) {
    cases.converted("no word", &[]);
    let mut pairs: Vec<Pair> = pairs().into_iter().map(|(_, pair)| pair).collect();
    cases.converted("all words", &pairs);
    pairs.reverse();
    cases.converted("all words, downwards", &pairs);
    cases.converted("two words, user second", &[NO_USER, USER]);
    cases.converted("two words, user first", &[USER, NO_USER]);
    for count in 1..=5 {
        cases.converted(format!("{count} times no user"), &vec![NO_USER; count]);
        cases.converted(format!("{count} times user"), &vec![USER; count]);
        cases.converted(format!("{count} times nothing"), &vec![FLAGS[0]; count]);
    }
}

/// So many pairs, no two of them equal: R, W, E and user in turn, ADDRESS going up and LENGTH down.
fn many(count: u64) -> Vec<Pair> {
    let pair = |number: u64| {
        let (old, today) = FLAGS[(number % 16) as usize];
        let stays = (65_535 - number % 65_536) << 24 | number;
        (old | stays, today | stays)
    };
    (0..count).map(pair).collect()
}

fn lengths(cases: &mut Cases) {
    for count in [
        1, 2, 3, 4, 5, 7, 8, 9, 15, 16, 17, 31, 32, 33, 63, 64, 65, 127, 128, 129, 255, 256, 257, 511, 512, 513, 1_023,
        1_024, 1_025, 4_095, 4_096, 4_097, 8_191, 8_192, 8_193, 65_535, 65_536, 65_537, 100_000,
    ] {
        cases.converted(format!("{count} words"), &many(count));
    }
}

/// One word more than memory may have: 1 isn't asked. With 128 MB of words each.
pub fn largest() -> [fn() -> Case; 2] {
    let all_pass = || {
        let mut cases = Cases(Vec::new());
        cases.add("16777217 words, from old", FromOld, &vec![0; 16_777_217], Ok(vec![V; 16_777_217]));
        cases.0.remove(0)
    };
    let last_fails = || {
        let mut cases = Cases(Vec::new());
        let mut words = vec![V; 16_777_217];
        words[16_777_216] = 0;
        cases.refused("57: the last of 16777217 words", ToOld, &words, 16_777_216);
        cases.0.remove(0)
    };
    [all_pass, last_fails]
}

// ---- 56 and 57.

/// 56.
fn bits_above(cases: &mut Cases) {
    for (number, above) in (44..).zip(ABOVE) {
        cases.refused_anywhere(&format!("56: bit {number}"), FromOld, above);
        // With user; with all that may be on.
        cases.refused(format!("56: bit {number}, user"), FromOld, &[0x0000_0800_0000_0000 | above], 0);
        cases.refused_anywhere(&format!("56: bit {number}, all below"), FromOld, 0x0000_0fff_ffff_ffff | above);
    }
    for (name, word) in [
        ("all bits", ONES),
        ("bits 44 to 63", 0xffff_f000_0000_0000),
        ("bits 44 and 63", 0x8000_1000_0000_0000),
        ("bits 44 to 47", 0x0000_f000_0000_0000),
        ("bits 60 to 63", 0xf000_0000_0000_0000),
        ("bits 48 to 63", 0xffff_0000_0000_0000),
        ("all but 44", 0xffff_efff_ffff_ffff),
        ("all but 63", 0x7fff_ffff_ffff_ffff),
        ("every other bit", 0x5555_5555_5555_5555),
        ("the other bits", 0xaaaa_aaaa_aaaa_aaaa),
    ] {
        cases.refused_anywhere(&format!("56: {name}"), FromOld, word);
    }
}

/// 57, but for single rings.
fn not_of_old(cases: &mut Cases) {
    for (_, today) in FLAGS.into_iter().chain(ADDRESSES_AND_LENGTHS) {
        cases.refused_anywhere(&format!("57: {today:#x} with V off"), ToOld, today & 0xffef_ffff_ffff_ffff);
    }
    for (number, gate) in (44..).zip(ABOVE).skip(9) {
        for word in [0x0010_0000_0000_0000, 0x001b_2400_0800_0010, 0x001f_24ff_ffff_ffff, 0x001a_0012_3456_789a] {
            cases.refused_anywhere(&format!("57: {word:#x} with bit {number}"), ToOld, word | gate);
            let without_v = (word | gate) & 0xffef_ffff_ffff_ffff;
            cases.refused(format!("57: {word:#x} with bit {number}, V off"), ToOld, &[without_v], 0);
        }
    }
    for (name, word) in [
        ("all bits", ONES),
        ("GATE 2047", 0xfff1_2400_0000_0000),
        ("GATE 2047, no user", 0xfff0_0000_0000_0000),
        ("GATE 1025", 0x8031_2400_0000_0000),
        ("rings 5 5 5", 0x0011_6d00_0000_0000),
        ("rings 7 7 7", 0x0011_ff00_0000_0000),
        ("rings 3 3 3", 0x0010_db00_0000_0000),
        ("rings 4 4 5", 0x0011_6400_0000_0000),
        ("rings 4 4 7", 0x0011_e400_0000_0000),
        ("rings 4 4 0", 0x0010_2400_0000_0000),
        ("rings 4 0 0", 0x0010_0400_0000_0000),
        ("rings 0 4 4", 0x0011_2000_0000_0000),
        ("rings 0 0 4", 0x0011_0000_0000_0000),
        ("rings 4 0 4", 0x0011_0400_0000_0000),
        ("rings 0 4 0", 0x0010_2000_0000_0000),
        ("rings 1 1 5, GATE 1", 0x003b_4900_0800_0018),
        ("rings 4 4 5, V off", 0x0001_6400_0000_0000),
        ("rings 4 4 5, GATE 1", 0x0031_6400_0000_0000),
        ("rings 4 4 5, GATE 1, V off", 0x0021_6400_0000_0000),
        ("V off, GATE 1", 0x0021_2400_0000_0000),
        ("every other bit", 0x5555_5555_5555_5555),
        ("the other bits", 0xaaaa_aaaa_aaaa_aaaa),
    ] {
        cases.refused_anywhere(&format!("57: {name}"), ToOld, word);
    }
}

/// All rings, V on and GATE 0, then V off or GATE 1: of these 2,048 four pass.
pub fn rings() -> Vec<Case> {
    let mut cases = Cases(Vec::new());
    for number in 0..512 {
        let [r1, r2, r3] = [number & 7, number >> 3 & 7, number >> 6];
        let name = |what: &str| format!("rings {r1} {r2} {r3}{what}");
        let rings = number << 40;
        // By themselves, and between two others with all that may be on.
        let old = match [r1, r2, r3] {
            [0, 0, 0] => Some((0x0000_0000_0000_0000, 0x0000_07ff_ffff_ffff)),
            [4, 4, 4] => Some((0x0000_0800_0000_0000, 0x0000_0fff_ffff_ffff)),
            _ => None,
        };
        let alone = [0x0010_0000_0000_0000 | rings];
        let between = [USER.1, 0x001e_00ff_ffff_ffff | rings, NO_USER.1];
        match old {
            Some((bare, full)) => {
                cases.add(name(""), ToOld, &alone, Ok(vec![bare]));
                cases.add(name(", R W E"), ToOld, &between, Ok(vec![USER.0, full, NO_USER.0]));
            }
            None => {
                cases.refused(name(""), ToOld, &alone, 0);
                cases.refused(name(", R W E"), ToOld, &between, 1);
            }
        }
        cases.refused(name(", V off"), ToOld, &[rings], 0);
        cases.refused(name(", GATE 1"), ToOld, &[USER.1, 0x003e_00ff_ffff_ffff | rings, NO_USER.1], 1);
    }
    cases.0
}

/// What one has converted isn't for it again.
fn of_the_other_kind(cases: &mut Cases) {
    for (old, today) in FLAGS.into_iter().chain(ADDRESSES_AND_LENGTHS) {
        cases.refused(format!("56: {today:#x}, today's"), FromOld, &[today], 0);
        cases.refused(format!("57: {old:#x}, an old one"), ToOld, &[old], 0);
    }
    let (old, today): (Vec<u64>, Vec<u64>) = FLAGS.into_iter().unzip();
    cases.refused("56: all of today's", FromOld, &today, 0);
    cases.refused("57: all old", ToOld, &old, 0);
    for half in [1, 8, 15] {
        let index = half as u64;
        let old_first = [&old[..half], &today[half..]].concat();
        let today_first = [&today[..half], &old[half..]].concat();
        cases.refused(format!("56: from word {half} on today's"), FromOld, &old_first, index);
        cases.refused(format!("57: up to word {half} old"), ToOld, &old_first, 0);
        cases.refused(format!("56: up to word {half} today's"), FromOld, &today_first, 0);
        cases.refused(format!("57: from word {half} on old"), ToOld, &today_first, index);
    }
}

/// Up to five words, of which some fail, in every mixture.
fn first_decides(cases: &mut Cases) {
    for direction in Direction::BOTH {
        let passing = [FLAGS[9], FLAGS[2], FLAGS[0], FLAGS[15], FLAGS[4]].map(|pair| given(direction, pair));
        for shift in 0..5 {
            let mut failing = failing(direction);
            failing.rotate_left(shift);
            for count in 1..=5 {
                for mixture in 1_u64..1 << count {
                    let word = |place: usize| if mixture >> place & 1 == 1 { failing[place] } else { passing[place] };
                    let words: Vec<u64> = (0..count).map(word).collect();
                    let name = format!("words {mixture:#b} of {count} fail, {direction:?}, {shift}");
                    cases.refused(name, direction, &words, u64::from(mixture.trailing_zeros()));
                }
            }
        }
    }
}

/// Indices that need more than a byte, or two; some with a word behind it, or all, that fails as well.
fn far_places(cases: &mut Cases) {
    for direction in Direction::BOTH {
        for (count, index) in [
            (256, 255),
            (257, 256),
            (300, 258),
            (4_096, 0),
            (4_096, 1),
            (4_096, 2_047),
            (4_096, 2_048),
            (4_096, 4_094),
            (4_096, 4_095),
            (4_097, 4_095),
            (4_097, 4_096),
            (65_536, 65_535),
            (65_537, 65_535),
            (65_537, 65_536),
            (100_000, 0),
            (100_000, 4_096),
            (100_000, 65_535),
            (100_000, 65_536),
            (100_000, 65_539),
            (100_000, 99_998),
            (100_000, 99_999),
        ] {
            let mut words: Vec<u64> = many(count).into_iter().map(|pair| given(direction, pair)).collect();
            let place = index as usize;
            let failing = failing(direction);
            let name = |what: &str| format!("word {index} of {count} fails{what}, {direction:?}");
            words[place] = failing[0];
            cases.refused(name(""), direction, &words, index);
            let last = words.len() - 1;
            words[last] = failing[1];
            cases.refused(name(", and the last"), direction, &words, index);
            for (word, failing) in words[place..].iter_mut().zip(failing.into_iter().cycle()) {
                *word = failing;
            }
            cases.refused(name(", and all behind it"), direction, &words, index);
        }
    }
}

// ---- The program.

struct Inputs(Vec<Input>);

impl Inputs {
    fn add(&mut self, name: impl Into<String>, bytes: &[&[u8]], output: Result<&[u8], Unread>) {
        self.0.push(Input { name: name.into(), bytes: bytes.concat(), output: output.map(<[u8]>::to_vec) });
    }
}

/// An old word, R E user at 16 and 8, and what it is today; the same of R W at 1,193,046 and 30,875.
const OLD: &[u8] = b"\0\0\x0d\0\x08\0\0\x10";
const TODAY: &[u8] = b"\0\x1b\x24\0\x08\0\0\x10";
const OTHER_OLD: &[u8] = b"\0\0\x03\x78\x9b\x12\x34\x56";
const OTHER_TODAY: &[u8] = b"\0\x16\0\x78\x9b\x12\x34\x56";

pub fn inputs() -> Vec<Input> {
    let mut inputs = Inputs(Vec::new());
    directions(&mut inputs);
    beginnings(&mut inputs);
    limits(&mut inputs);
    indices(&mut inputs);
    inputs.0
}

/// 0 is from old, all else to old.
fn directions(inputs: &mut Inputs) {
    inputs.add("no byte", &[], Err(Unread::NoDirection));
    for direction in 0..=255_u8 {
        let (converted, refused) = match direction {
            0 => ([OLD, TODAY], [TODAY, b"refused 56 0\n"]),
            _ => ([TODAY, OLD], [OLD, b"refused 57 0\n"]),
        };
        let name = |what: &str| format!("direction {direction}, {what}");
        inputs.add(name("a word"), &[&[direction], converted[0]], Ok(converted[1]));
        if direction < 4 || direction.count_ones() == 1 || direction == 255 {
            inputs.add(name("no word"), &[&[direction]], Ok(b""));
            inputs.add(name("a word of the other kind"), &[&[direction], refused[0]], Ok(refused[1]));
        }
    }
    for direction in [1, 2, 128, 255] {
        inputs.add("two words to old", &[&[direction], TODAY, OTHER_TODAY], Ok(&[OLD, OTHER_OLD].concat()));
        inputs.add("two words to old, exchanged", &[&[direction], OTHER_TODAY, TODAY], Ok(&[OTHER_OLD, OLD].concat()));
        inputs.add("an old word second", &[&[direction], TODAY, OTHER_OLD], Ok(b"refused 57 1\n"));
        inputs.add("two old words", &[&[direction], OLD, OTHER_OLD], Ok(b"refused 57 0\n"));
    }
    inputs.add("two words from old", &[&[0], OLD, OTHER_OLD], Ok(&[TODAY, OTHER_TODAY].concat()));
    inputs.add("two words from old, exchanged", &[&[0], OTHER_OLD, OLD], Ok(&[OTHER_TODAY, TODAY].concat()));
    inputs.add("a word of today's second", &[&[0], OLD, OTHER_TODAY], Ok(b"refused 56 1\n"));
    inputs.add("two words of today's", &[&[0], TODAY, OTHER_TODAY], Ok(b"refused 56 0\n"));
    // Read low byte first, they would pass.
    inputs.add("low byte first, from old", &[&[0], b"\x10\0\0\x08\0\x0d\0\0"], Ok(b"refused 56 0\n"));
    inputs.add("low byte first, to old", &[&[1], b"\x10\0\0\x08\0\x24\x1b\0"], Ok(b"refused 57 0\n"));
}

/// Every beginning of three words, all of which pass, or of which the first or the last fails.
fn beginnings(inputs: &mut Inputs) {
    let accepted = [TODAY, OTHER_TODAY, TODAY].concat();
    let back = [OLD, OTHER_OLD, OLD].concat();
    for end in 0..=25 {
        let is_whole = matches!(end, 1 | 9 | 17 | 25);
        let unread = if end == 0 { Unread::NoDirection } else { Unread::Cut };
        let mut add = |name: &str, words: &[&[u8]], output: &[u8]| {
            let output = if is_whole { Ok(output) } else { Err(unread) };
            inputs.add(format!("{name}, {end} bytes"), &[&words.concat()[..end]], output);
        };
        let length = end.saturating_sub(1);
        add("from old", &[&[0], &back], &accepted[..length]);
        add("to old", &[&[1], &accepted], &back[..length]);
        let refused_first = |text: &'static [u8]| if end < 9 { &[] } else { text };
        add("from old, the first fails", &[&[0], TODAY, OLD, OLD], refused_first(b"refused 56 0\n"));
        add("to old, the first fails", &[&[255], OLD, TODAY, TODAY], refused_first(b"refused 57 0\n"));
        // Before the last is there, the others pass.
        let last = |text: &'static [u8], others: &'static [u8]| match end {
            25 => text.to_vec(),
            _ => others.repeat(2)[..length.min(16)].to_vec(),
        };
        add("from old, the last fails", &[&[0], OLD, OLD, TODAY], &last(b"refused 56 2\n", TODAY));
        add("to old, the last fails", &[&[2], TODAY, TODAY, OLD], &last(b"refused 57 2\n", OLD));
    }
}

/// At most 4,096 words, which are 32,768 bytes.
fn limits(inputs: &mut Inputs) {
    for (direction, word, converted, number) in [(0_u8, OLD, TODAY, 56), (1, TODAY, OLD, 57), (255, TODAY, OLD, 57)] {
        let text = format!("refused {number} 0\n");
        for (words, more, output) in [
            (4_094, 7, Err(Unread::Cut)),
            (4_095, 0, Ok(())),
            (4_095, 1, Err(Unread::Cut)),
            (4_095, 7, Err(Unread::Cut)),
            (4_096, 0, Ok(())),
            (4_096, 1, Err(Unread::TooLong)),
            (4_096, 7, Err(Unread::TooLong)),
            (4_097, 0, Err(Unread::TooLong)),
            (4_097, 1, Err(Unread::TooLong)),
            (4_100, 3, Err(Unread::TooLong)),
            (8_191, 7, Err(Unread::TooLong)),
            (8_192, 0, Err(Unread::TooLong)),
            (8_193, 0, Err(Unread::TooLong)),
            (65_536, 0, Err(Unread::TooLong)),
            (65_537, 5, Err(Unread::TooLong)),
            (200_000, 0, Err(Unread::TooLong)),
        ] {
            let bytes = word.repeat(words + 1);
            let bytes = &bytes[..8 * words + more];
            let written = converted.repeat(words);
            let name = |what: &str| format!("{words} words and {more} bytes, direction {direction}{what}");
            inputs.add(name(""), &[&[direction], bytes], output.map(|()| &written[..]));
            // The first is what it should become.
            let bytes = [converted, &bytes[8..]].concat();
            inputs.add(name(", the first fails"), &[&[direction], &bytes], output.map(|()| text.as_bytes()));
        }
    }
}

/// Indices of one to four digits, of 4,096 words.
fn indices(inputs: &mut Inputs) {
    for (direction, word, failing, number) in [(0_u8, OLD, TODAY, "56"), (1, TODAY, OLD, "57")] {
        for (place, index) in [
            (0, "0"),
            (1, "1"),
            (9, "9"),
            (10, "10"),
            (11, "11"),
            (99, "99"),
            (100, "100"),
            (101, "101"),
            (255, "255"),
            (256, "256"),
            (999, "999"),
            (1_000, "1000"),
            (1_010, "1010"),
            (4_090, "4090"),
            (4_095, "4095"),
        ] {
            let text = format!("refused {number} {index}\n");
            let before = [&[direction], &word.repeat(place)[..]].concat();
            let name = |what: &str| format!("word {place} fails{what}, direction {direction}");
            let behind = 4_095 - place;
            inputs.add(name(""), &[&before, failing, &word.repeat(behind)], Ok(text.as_bytes()));
            inputs.add(name(", and all behind it"), &[&before, failing, &failing.repeat(behind)], Ok(text.as_bytes()));
            inputs.add(name(", the last of all"), &[&before, failing], Ok(text.as_bytes()));
        }
    }
}

#[cfg(test)]
mod tests {
    use super::*;
    use crate::old_words_output;

    fn all() -> impl Iterator<Item = Case> {
        cases().into_iter().chain(rings())
    }

    /// The answer, and every word: a refusal writes none. What is converted comes back the same.
    fn becomes_what_it_should(Case { name, segment, answer }: Case) {
        let Segment { direction, mut words } = segment;
        let before = words.clone();
        let found = direction.convert(&mut words);
        match answer {
            Ok(after) => {
                assert_eq!(found, OldAnswer { number: 0, index: 0 }, "{name}");
                assert!(words == after, "{name}: words");
                assert_eq!(direction.back().convert(&mut words), OldAnswer { number: 0, index: 0 }, "{name}, back");
            }
            Err(refused) => assert_eq!(found, refused, "{name}"),
        }
        assert!(words == before, "{name}: words, in the end");
    }

    #[test]
    fn answers() {
        all().for_each(becomes_what_it_should);
    }

    #[test]
    fn answers_of_largest() {
        for case in largest() {
            becomes_what_it_should(case());
        }
    }

    #[test]
    fn outputs() {
        for Input { name, bytes, output } in all().map(|case| case.input()).chain(inputs()) {
            let written = old_words_output(&bytes);
            let shown = written.as_ref().map(|written| written.escape_ascii().to_string());
            assert!(written == output, "{name}: {shown:?}");
        }
    }

    /// Of all triples of rings two pass, twice each.
    #[test]
    fn two_triples() {
        assert_eq!(rings().len(), 4 * 512);
        assert_eq!(rings().iter().filter(|case| case.answer.is_ok()).count(), 4);
    }
}
