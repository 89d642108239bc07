//! Directed images for the list of doors, and directed steps for the claim that nothing else leads down: texts and verdicts
//! were worked out by hand.

use crate::calls::{me, rn, wd, Input};
use crate::doors::{Breach, Change, Door};
use crate::image::Image;
use crate::machine::Registers;
use crate::opcodes::*;
use crate::pointers::pointer;
use crate::tables::st;
use crate::words::{Dbr, Pointer};

/// Words 32 to 39, rings 1 2 5, E and V on, GATE 3.
const GOOD: u64 = 0x0079_5100_0800_0020;
/// The same with rings 1 2 2.
const SHUT: u64 = 0x0078_9100_0800_0020;

/// What is printed where nothing leads down.
const NONE: &str = "doors 0\n";

struct Inputs(Vec<Input>);

impl Inputs {
    fn add(&mut self, name: impl Into<String>, parts: &[&[u8]], text: impl Into<String>) {
        self.0.push(Input { name: name.into(), bytes: parts.concat(), text: text.into() });
    }

    /// Descriptors by segment, from word 0 of so many words; the switch off.
    fn segments(
        &mut self,
        name: impl Into<String>,
        words: u32,
        length: u16,
        segments: &[(u16, u64)],
        text: impl Into<String>,
    ) {
        let given: Vec<u8> = segments.iter().flat_map(|(segno, word)| wd(u32::from(*segno), *word)).collect();
        self.add(name, &[&me(words), &st(Dbr { address: 0, length }, 4, 0), &given, &rn(9)], text);
    }

    /// Segment 2 of four in 64 words is this; it is a door with this last word, these rings and this new one, or none.
    fn one(&mut self, name: impl Into<String>, word: u64, door: Option<[u16; 4]>) {
        self.of(name, 64, word, door);
    }

    /// The same with so many words.
    fn of(&mut self, name: impl Into<String>, words: u32, word: u64, door: Option<[u16; 4]>) {
        let text = match door {
            Some([last, from, to, new]) => format!("door 2 {last} {from} {to} {new}\ndoors 1\n"),
            None => NONE.to_string(),
        };
        self.segments(name, words, 4, &[(2, word)], text);
    }

    fn refused(&mut self, name: impl Into<String>, parts: &[&[u8]], number: u8) {
        self.add(name, parts, format!("refused {number}\n"));
    }
}

pub fn inputs() -> Vec<Input> {
    let mut inputs = Inputs(Vec::new());
    conditions(&mut inputs);
    gates(&mut inputs);
    rings(&mut inputs);
    orders(&mut inputs);
    tables_of_any_length(&mut inputs);
    switches(&mut inputs);
    not_asked(&mut inputs);
    refusals(&mut inputs);
    case_12(&mut inputs);
    inputs.0
}

// ---- One segment.

/// Each condition alone missing.
fn conditions(inputs: &mut Inputs) {
    let door = Some([2, 3, 5, 2]);
    inputs.one("a door", 0x0079_5100_0800_0020, door);
    // 12
    inputs.one("V off", 0x0069_5100_0800_0020, None);
    // 13
    inputs.one("R1 above R2", 0x0079_5300_0800_0020, None);
    inputs.one("R1 above R2 and R3", 0x0079_5600_0800_0020, None);
    inputs.one("R1 7", 0x0079_5700_0800_0020, None);
    inputs.one("R2 above R3", 0x0079_7100_0800_0020, None);
    inputs.one("R1 is R2", 0x0079_5200_0800_0020, door);
    inputs.one("R1 0", 0x0079_5000_0800_0020, door);
    // 14
    inputs.one("14 just yes", 0x0079_5100_0800_0038, door);
    inputs.one("14 just no", 0x0079_5100_0800_0039, None);
    inputs.one("14 just yes, 32 words", 0x0079_5100_2000_0020, door);
    inputs.one("14 just no, 33 words", 0x0079_5100_2100_0020, None);
    inputs.one("64 words, all", 0x0079_5100_4000_0000, door);
    inputs.one("65 words", 0x0079_5100_4100_0000, None);
    inputs.one("the first word behind memory", 0x0079_5100_0100_0040, None);
    // Cut to 16 or 8 bits they would be within.
    inputs.one("ADDRESS 65568", 0x0079_5100_0801_0020, None);
    inputs.one("ADDRESS 8388640", 0x0079_5100_0880_0020, None);
    inputs.one("the last address", 0x0079_5100_08ff_ffff, None);
    inputs.one("the last address, one word", 0x0079_5100_01ff_ffff, None);
    inputs.one("LENGTH 264", 0x0079_5101_0800_0020, None);
    inputs.one("LENGTH 65535", 0x0079_51ff_ff00_0020, None);
    // E, GATE, LENGTH, R2 below R3.
    inputs.one("E off", 0x0071_5100_0800_0020, None);
    inputs.one("E off, R and W on", 0x0077_5100_0800_0020, None);
    inputs.one("GATE 0", 0x0019_5100_0800_0020, None);
    inputs.one("LENGTH 0", 0x0079_5100_0000_0020, None);
    inputs.one("LENGTH 0 at memory's end", 0x0079_5100_0000_0040, None);
    inputs.one("R2 is R3", 0x0079_6900_0800_0020, None);
    inputs.one("R2 is R3, by R3", SHUT, None);
    inputs.one("R2 and R3 are 7", 0x0079_f900_0800_0020, None);
    // Not asked.
    inputs.one("R on", 0x007b_5100_0800_0020, door);
    inputs.one("W on", 0x007d_5100_0800_0020, door);
    inputs.one("R and W on", 0x007f_5100_0800_0020, door);
    inputs.one("over the descriptors", 0x0079_5100_0800_0000, door);
    inputs.one("no bit on", 0, None);
    inputs.one("all bits on", u64::MAX, None);
    // Nothing but what is asked, each at its least.
    inputs.one("rings 0 0 1, one word, one gate", 0x0038_4000_0100_0000, Some([0, 1, 1, 0]));
    inputs.one("rings 6 6 7, one word, one gate", 0x0039_f600_0100_003f, Some([0, 7, 7, 6]));
    inputs.one("rings 0 0 7, 2047 gates", 0xfff9_c000_4000_0000, Some([63, 1, 7, 0]));
}

/// The smaller of GATE and LENGTH.
fn gates(inputs: &mut Inputs) {
    for (length, gate, word, last) in [
        (8, 1, 0x0039_5100_0800_0020, 0),
        (8, 2, 0x0059_5100_0800_0020, 1),
        (8, 7, 0x00f9_5100_0800_0020, 6),
        (8, 8, 0x0119_5100_0800_0020, 7),
        (8, 9, 0x0139_5100_0800_0020, 7),
        (8, 2_047, 0xfff9_5100_0800_0020, 7),
        (1, 3, 0x0079_5100_0100_0020, 0),
        (2, 3, 0x0079_5100_0200_0020, 1),
        (3, 3, 0x0079_5100_0300_0020, 2),
        (4, 3, 0x0079_5100_0400_0020, 2),
        (1, 1, 0x0039_5100_0100_003f, 0),
        (1, 2_047, 0xfff9_5100_0100_0020, 0),
        (255, 2_047, 0xfff9_5100_ff00_0020, 254),
        (256, 2_047, 0xfff9_5101_0000_0020, 255),
        (257, 2_047, 0xfff9_5101_0100_0020, 256),
        (2_046, 2_047, 0xfff9_5107_fe00_0020, 2_045),
        (2_047, 2_047, 0xfff9_5107_ff00_0020, 2_046),
        (2_048, 2_047, 0xfff9_5108_0000_0020, 2_046),
        (8_160, 2_047, 0xfff9_511f_e000_0020, 2_046),
        (8_160, 2_046, 0xffd9_511f_e000_0020, 2_045),
        // Each bit of GATE.
        (8_160, 1, 0x0039_511f_e000_0020, 0),
        (8_160, 2, 0x0059_511f_e000_0020, 1),
        (8_160, 4, 0x0099_511f_e000_0020, 3),
        (8_160, 8, 0x0119_511f_e000_0020, 7),
        (8_160, 16, 0x0219_511f_e000_0020, 15),
        (8_160, 32, 0x0419_511f_e000_0020, 31),
        (8_160, 64, 0x0819_511f_e000_0020, 63),
        (8_160, 128, 0x1019_511f_e000_0020, 127),
        (8_160, 256, 0x2019_511f_e000_0020, 255),
        (8_160, 512, 0x4019_511f_e000_0020, 511),
        (8_160, 1_024, 0x8019_511f_e000_0020, 1_023),
        // Each bit of LENGTH.
        (4, 2_047, 0xfff9_5100_0400_0020, 3),
        (16, 2_047, 0xfff9_5100_1000_0020, 15),
        (32, 2_047, 0xfff9_5100_2000_0020, 31),
        (64, 2_047, 0xfff9_5100_4000_0020, 63),
        (128, 2_047, 0xfff9_5100_8000_0020, 127),
        (512, 2_047, 0xfff9_5102_0000_0020, 511),
        (1_024, 2_047, 0xfff9_5104_0000_0020, 1_023),
        (4_096, 2_047, 0xfff9_5110_0000_0020, 2_046),
    ] {
        inputs.of(format!("LENGTH {length}, GATE {gate}"), 8_192, word, Some([last, 3, 5, 2]));
    }
    inputs.of("LENGTH 8161", 8_192, 0xfff9_511f_e100_0020, None);
    inputs.of("LENGTH 8192, all of memory", 8_192, 0xfff9_5120_0000_0000, Some([2_046, 3, 5, 2]));
}

/// All rings, R1 × 64 + R2 × 8 + R3 being the segment: 84 of the 512 have R1 up to R2 and R2 below R3.
fn rings(inputs: &mut Inputs) {
    // E and V on, GATE 1, words 600 to 607.
    let word = |r1: u64, r2: u64, r3: u64| 0x0038_0000_0800_0258 | (r1 + 8 * r2 + 64 * r3) << 40;
    let all: Vec<(u16, u64)> = (0_u16..512)
        .map(|rings| (rings, word(u64::from(rings / 64), u64::from(rings / 8 % 8), u64::from(rings % 8))))
        .collect();
    let mut text = String::new();
    for r1 in 0..8 {
        for r2 in r1..8 {
            for r3 in r2 + 1..8 {
                text += &format!("door {} 0 {} {r3} {r2}\n", r1 * 64 + r2 * 8 + r3, r2 + 1);
            }
        }
    }
    inputs.segments("all rings", 1_024, 512, &all, text + "doors 84\n");
    // Some of them by themselves.
    for (rings, door) in [
        ([0, 0, 0], None),
        ([0, 0, 1], Some([0, 1, 1, 0])),
        ([0, 0, 7], Some([0, 1, 7, 0])),
        ([0, 6, 7], Some([0, 7, 7, 6])),
        ([0, 7, 7], None),
        ([1, 1, 5], Some([0, 2, 5, 1])),
        ([1, 0, 7], None),
        ([3, 4, 4], None),
        ([3, 4, 5], Some([0, 5, 5, 4])),
        ([4, 3, 5], None),
        ([4, 4, 6], Some([0, 5, 6, 4])),
        ([5, 5, 6], Some([0, 6, 6, 5])),
        ([6, 5, 7], None),
        ([6, 7, 6], None),
        ([7, 7, 7], None),
    ] {
        let [r1, r2, r3] = rings;
        inputs.of(format!("rings {r1} {r2} {r3}"), 1_024, word(r1, r2, r3), door);
    }
}

// ---- Several segments.

/// Four doors of eight segments: 1, 2, 4 and 7. Segment 0 has V off, 3 no gates, 5 no gate extension, 6 nothing.
const EIGHT: [u64; 8] = [
    0x0069_5100_0800_0020,
    0x0039_c000_0100_0010, // word 16, rings 0 0 7, GATE 1
    GOOD,
    0x0019_5100_0800_0020,
    0x0219_f400_0400_003c, // words 60 to 63, rings 4 6 7, GATE 16
    SHUT,
    0,
    0x0059_1800_0800_0020, // words 32 to 39, rings 0 3 4, GATE 2
];
const FOUR_DOORS: &str = "door 1 0 1 7 0\ndoor 2 2 3 5 2\ndoor 4 3 7 7 6\ndoor 7 1 4 4 3\ndoors 4\n";
const THREE_DOORS: &str = "door 1 0 1 7 0\ndoor 2 2 3 5 2\ndoor 4 3 7 7 6\ndoors 3\n";

/// The eight from this word on.
fn eight(address: u32) -> Vec<Vec<u8>> {
    (address..).zip(EIGHT).map(|(address, word)| wd(address, word)).collect()
}

/// In the order of the segments, whatever that of the records.
fn orders(inputs: &mut Inputs) {
    let (me, st, rn) = (me(64), st(Dbr { address: 0, length: 8 }, 4, 0), rn(9));
    let upwards = eight(0);
    let downwards: Vec<Vec<u8>> = upwards.iter().rev().cloned().collect();
    let [upwards, downwards] = [upwards, downwards].map(|records| records.concat());
    inputs.add("four doors", &[&me, &st, &upwards, &rn], FOUR_DOORS);
    inputs.add("four doors, ST last", &[&me, &upwards, &st, &rn], FOUR_DOORS);
    inputs.add("four doors, records downwards", &[&me, &st, &downwards, &rn], FOUR_DOORS);
    inputs.add("four doors, ST between", &[&me, &upwards[..42], &st, &upwards[42..], &rn], FOUR_DOORS);
    inputs.add(
        "without the first three",
        &[&me, &st, &upwards[42..], &rn],
        "door 4 3 7 7 6\ndoor 7 1 4 4 3\ndoors 2\n",
    );
    // Two numbers for the same words.
    let twice = [(0, GOOD), (1, SHUT), (3, GOOD)];
    inputs.segments("one door twice", 64, 4, &twice, "door 0 2 3 5 2\ndoor 3 2 3 5 2\ndoors 2\n");
    let some = [0, 1, 8, 9, 10, 11, 98, 99, 100, 101, 998, 999, 1_000, 1_001, 4_093].map(|segno| (segno, GOOD));
    let text: String = [
        "door 0 2 3 5 2\ndoor 1 2 3 5 2\ndoor 8 2 3 5 2\ndoor 9 2 3 5 2\ndoor 10 2 3 5 2\n",
        "door 11 2 3 5 2\ndoor 98 2 3 5 2\ndoor 99 2 3 5 2\ndoor 100 2 3 5 2\ndoor 101 2 3 5 2\n",
        "door 998 2 3 5 2\ndoor 999 2 3 5 2\ndoor 1000 2 3 5 2\ndoor 1001 2 3 5 2\ndoor 4093 2 3 5 2\ndoors 15\n",
    ]
    .concat();
    inputs.segments("numbers of one to four digits", 8_192, 4_096, &some, text);
}

/// Where the descriptor segment lies and ends.
fn tables_of_any_length(inputs: &mut Inputs) {
    let mut at = |address: u32, length: u16, first: u32, text: &str| {
        let parts = [me(64), st(Dbr { address, length }, 4, 0), eight(first).concat(), rn(9)];
        inputs.add(
            format!("DBR {address} and {length}, words from {first}"),
            &parts.each_ref().map(|part| &part[..]),
            text,
        );
    };
    for address in [0, 1, 5, 30, 56] {
        at(address, 8, address, FOUR_DOORS);
        at(address, 7, address, THREE_DOORS);
        at(address, 5, address, THREE_DOORS);
        at(address, 4, address, "door 1 0 1 7 0\ndoor 2 2 3 5 2\ndoors 2\n");
        at(address, 2, address, "door 1 0 1 7 0\ndoors 1\n");
        at(address, 1, address, NONE);
        at(address, 0, address, NONE);
    }
    // Other words before and behind.
    at(2, 6, 1, "door 0 0 1 7 0\ndoor 1 2 3 5 2\ndoor 3 3 7 7 6\ndoors 3\n");
    at(0, 10, 1, "door 2 0 1 7 0\ndoor 3 2 3 5 2\ndoor 5 3 7 7 6\ndoor 8 1 4 4 3\ndoors 4\n");
    at(5, 3, 1, "door 0 3 7 7 6\ndoors 1\n");
    at(0, 64, 56, "door 57 0 1 7 0\ndoor 58 2 3 5 2\ndoor 60 3 7 7 6\ndoor 63 1 4 4 3\ndoors 4\n");
    at(64, 0, 56, NONE);
    let one = [(4_095, GOOD)];
    inputs.segments("the last segment", 8_192, 4_096, &one, "door 4095 2 3 5 2\ndoors 1\n");
    inputs.segments("the last segment, LENGTH 4095", 8_192, 4_095, &one, NONE);
    let two = [(0, GOOD), (4_095, GOOD)];
    inputs.segments("the first and the last", 4_096, 4_096, &two, "door 0 2 3 5 2\ndoor 4095 2 3 5 2\ndoors 2\n");
    let all: Vec<(u16, u64)> = (0..4_096).map(|segno| (segno, GOOD)).collect();
    let text: String = (0..4_096).map(|segno| format!("door {segno} 2 3 5 2\n")).collect();
    inputs.segments("4096 doors", 4_096, 4_096, &all, text + "doors 4096\n");
    inputs.segments("4096 segments, all zero", 8_192, 4_096, &[], NONE);
    inputs.segments("no memory", 0, 0, &[], NONE);
}

// ---- What else there is.

/// ST of two segments, with the switch, the save segment and the handler segment.
fn with_fields(switch: u8, save: u16, handler: u16) -> Vec<u8> {
    let mut record = st(Dbr { address: 0, length: 2 }, 4, switch);
    record.truncate(62);
    record.extend(save.to_be_bytes());
    record.extend(handler.to_be_bytes());
    record
}

/// `faults` stands between the doors and their count, with the switch on and not otherwise. Nothing is asked of the two
/// segments.
fn switches(inputs: &mut Inputs) {
    for (save, handler, faults) in [
        (0, 0, "faults 0 0\n"),
        (1, 0, "faults 1 0\n"),
        (0, 1, "faults 0 1\n"),
        (3, 2, "faults 3 2\n"),
        (10, 99, "faults 10 99\n"),
        (256, 1_000, "faults 256 1000\n"),
        (4_095, 258, "faults 4095 258\n"),
        (4_094, 4_095, "faults 4094 4095\n"),
        (4_095, 4_095, "faults 4095 4095\n"),
    ] {
        let mut add = |name: &str, switch: u8, words: &[u8], text: String| {
            let name = format!("{name}, save segment {save}, handler segment {handler}");
            inputs.add(name, &[&me(64), &with_fields(switch, save, handler), words, &rn(9)], text);
        };
        add("switch off", 0, &wd(1, GOOD), "door 1 2 3 5 2\ndoors 1\n".to_string());
        add("switch on", 1, &wd(1, GOOD), format!("door 1 2 3 5 2\n{faults}doors 1\n"));
        add("switch off, no door", 0, &wd(1, SHUT), NONE.to_string());
        add("switch on, no door", 1, &wd(1, SHUT), format!("{faults}doors 0\n"));
        // A save segment that will do: words 40 to 52, W and V on.
        let both = [wd(0, 0x0014_0000_0d00_0028), wd(1, GOOD)].concat();
        add("switch on, one that will do", 1, &both, format!("door 1 2 3 5 2\n{faults}doors 1\n"));
    }
    let four = [me(64), st(Dbr { address: 0, length: 8 }, 4, 1), eight(0).concat(), rn(9)].concat();
    let text = "door 1 0 1 7 0\ndoor 2 2 3 5 2\ndoor 4 3 7 7 6\ndoor 7 1 4 4 3\nfaults 4095 258\ndoors 4\n";
    inputs.add("four doors, switch on", &[&four], text);
    let nothing = [me(0), st(Dbr { address: 0, length: 0 }, 4, 1), rn(0)].concat();
    inputs.add("no memory, switch on", &[&nothing], "faults 4095 258\ndoors 0\n");
}

/// The budget, IPR, the PRs and the other words don't matter.
fn not_asked(inputs: &mut Inputs) {
    let door = "door 2 2 3 5 2\ndoors 1\n";
    let usual = st(Dbr { address: 0, length: 4 }, 4, 0);
    for budget in [0, 1, 0x0102_0304, u32::MAX] {
        inputs.add(format!("budget {budget}"), &[&me(64), &usual, &wd(2, GOOD), &rn(budget)], door);
    }
    // Everything in this ring, everywhere in this segment.
    for (ring, segno) in [(0, 0), (7, 0), (0, 2), (2, 2), (3, 2), (5, 2), (6, 1), (7, 2)] {
        let record = [b"ST", &[0; 13][..], &[4], &[ring, 0, segno, 0, 0].repeat(9), &[0; 5]].concat();
        inputs.add(format!("ring {ring}, segment {segno}"), &[&me(64), &record, &wd(2, GOOD), &rn(9)], door);
    }
    // A CALL of the door at IPR, HLT at its gates, and a frame: no step is taken.
    let words = [wd(32, 0x2900_0000), wd(33, 0x2900_0000), wd(48, 0x200a_0000), wd(63, u64::MAX)].concat();
    inputs.add("code and data", &[&me(64), &usual, &wd(2, GOOD), &words, &rn(9)], door);
    inputs.add("zeros given", &[&me(64), &wd(0, 0), &usual, &wd(2, GOOD), &wd(1, 0), &wd(3, 0), &rn(9)], door);
}

/// Each number that refuses an image, and whatever doors it has.
fn refusals(inputs: &mut Inputs) {
    let of = |address, length| Dbr { address, length };
    let four = of(0, 4);
    let (me, st, good, rn) = (me(64), st(four, 4, 0), wd(2, GOOD), rn(9));
    let state = self::st;
    let whole = [&me[..], &st, &good, &rn].concat();
    // Every beginning: where a record ends it is 42, all else 41.
    for end in 0..whole.len() {
        let number = if matches!(end, 0 | 6 | 72 | 86) { 42 } else { 41 };
        inputs.refused(format!("the first {end} bytes"), &[&whole[..end]], number);
    }
    inputs.refused("41: another mark", &[&me, &st, &good, b"DR\0\0\0\0", &rn], 41);
    inputs.refused("41: ST of 59 bytes", &[&me, &st[..61], &good, &rn], 41);
    inputs.refused("42: a byte behind RN", &[&whole, &[0]], 42);
    inputs.refused("42: twice", &[&whole, &whole], 42);
    inputs.refused("42: no ME", &[&st, &good, &rn], 42);
    inputs.refused("42: two ME", &[&me, &me, &st, &good, &rn], 42);
    inputs.refused("42: no ST", &[&me, &good, &rn], 42);
    inputs.refused("42: two ST", &[&me, &st, &good, &st, &rn], 42);
    inputs.refused("43: ME 8193", &[b"ME\0\0\x20\x01", &st, &good, &rn], 43);
    inputs.refused("43: ME 4294967295", &[b"ME\xff\xff\xff\xff", &st, &good, &rn], 43);
    inputs.refused("44: a WD behind memory", &[&me, &st, &good, &wd(64, GOOD), &rn], 44);
    inputs.refused("51: the door twice", &[&me, &st, &good, &good, &rn], 51);
    inputs.refused("51: two zeros", &[&me, &wd(9, 0), &st, &good, &wd(9, 0), &rn], 51);
    for (name, st, number) in [
        ("2: ring 8 of PR0", state(four, 8, 0), 2),
        ("2: switch 2", state(four, 4, 2), 2),
        ("2: switch 255", state(four, 4, 255), 2),
        ("2: ADDRESS 16777216", state(of(16_777_216, 4), 4, 0), 2),
        ("2: save segment 4096", with_fields(0, 4_096, 0), 2),
        ("2: handler segment 4096", with_fields(1, 0, 4_096), 2),
        ("2, 3 and 4", state(of(16_777_216, 65), 3, 2), 2),
        ("3: PR0 in ring 3", state(four, 3, 0), 3),
        ("3, switch on", state(four, 3, 1), 3),
        ("3 and 4", state(of(61, 4), 3, 0), 3),
        ("4: one word behind memory", state(of(61, 4), 4, 0), 4),
        ("4: LENGTH 65", state(of(0, 65), 4, 0), 4),
        ("4: LENGTH 4097", state(of(0, 4_097), 4, 0), 4),
        ("4: ADDRESS 65, LENGTH 0", state(of(65, 0), 4, 0), 4),
        ("4, switch on", state(of(61, 4), 4, 1), 4),
    ] {
        inputs.refused(name, &[&me, &st, &good, &rn], number);
        inputs.refused(format!("{name}, 51 first"), &[&me, &st, &good, &good, &rn], 51);
    }
    let long = [b"ME\0\0\x20\0", &state(of(0, 4_097), 4, 0)[..], &good, &rn].concat();
    inputs.refused("4: LENGTH 4097 within memory", &[&long], 4);
}

/// 01's case 12, whose formula has one gate.
fn case_12(inputs: &mut Inputs) {
    inputs.add("case 12", &[&case_12_image()], "door 5 0 2 5 1\ndoors 1\n");
}

/// Its image, with six words and a budget of 9.
pub(crate) fn case_12_image() -> Vec<u8> {
    let mut image = me(64);
    image.extend(b"ST");
    image.extend([0; 13]);
    image.push(6);
    for segno in [4, 0, 0, 5, 3, 0, 0, 0, 0] {
        image.extend([4, 0, segno, 0, 0]);
    }
    image.extend([0; 5]);
    for (address, word) in [
        (3, 0x0016_4900_0400_0020), // words 32 to 35, rings 1 1 1, R W V
        (4, 0x001b_2400_0800_0010), // words 16 to 23, rings 4 4 4, R E V
        (5, 0x003b_4900_0800_0018), // words 24 to 31, rings 1 1 5, R E V, GATE 1
        (16, 0x0000_0007_0a00_0000),
        (17, 0x0000_0000_200a_0000),
        (24, 0x0000_0000_020b_0000),
    ] {
        image.extend(wd(address, word));
    }
    image.extend(rn(9));
    image
}

// ---- Steps.

/// A machine before a step and after it, and what the claim says of that. Most of those after it no step leaves.
pub struct Step {
    pub name: String,
    pub before: Image,
    pub after: Image,
    pub verdict: Result<Change, Breach>,
}

struct Steps(Vec<Step>);

impl Steps {
    fn add(&mut self, name: impl Into<String>, before: Image, after: Image, verdict: Result<Change, Breach>) {
        self.0.push(Step { name: name.into(), before, after, verdict });
    }

    /// From this machine IPR comes here, PR7 with it.
    fn comes(&mut self, name: impl Into<String>, before: Image, ipr: Pointer, verdict: Result<Change, Breach>) {
        let after = arrived(&before, ipr);
        self.add(name, before, after, verdict);
    }
}

/// DBR: words 0 to 7. Segment 1, where IPR is: words 16 to 23, rings 0 7 7, R E V. Segment 2, the door, is GOOD. Segment 3,
/// for frames: words 40 to 52, rings 0 0 0, W V. Segment 5, with pointer words: words 24 to 31, rings 3 7 7, R V.
const SEGMENTS: [u64; 8] = [0, 0x001b_f800_0800_0010, GOOD, 0x0014_0000_0d00_0028, 0, 0x0013_fb00_0800_0018, 0, 0];

/// By PR2.
const CALL_WORD: u64 = 0x200a_0000;

/// A CALL in ring 4 of the door's last gate; the switch off, save segment 3, handler segment 4.
fn calling() -> Image {
    let mut memory = SEGMENTS.to_vec();
    memory.resize(64, 0);
    memory[16] = CALL_WORD;
    let mut registers = Registers {
        a: 0x0123_4567_89ab_cdef,
        dbr: Dbr { address: 0, length: 8 },
        ipr: pointer(4, 1, 0),
        pr: [0, 1, 2, 3, 4, 5, 6, 7].map(|number: u16| pointer(4, 0x300 + number, 0x1000 + number)),
        fault_switch: 0,
        save_segment: 3,
        handler_segment: 4,
    };
    registers.pr[2] = pointer(4, 2, 2);
    Image { registers, memory, budget: 1 }
}

/// As a CALL leaves it.
fn arrived(before: &Image, ipr: Pointer) -> Image {
    before.clone().with(|m| {
        m.registers.ipr = ipr;
        m.registers.pr[7] = Pointer { segno: u16::from(ipr.ring), wordno: 0, ..ipr };
    })
}

const GOOD_DOOR: Door = Door { segno: 2, last: 2, from: 3, to: 5, new: 2 };

fn called(tpr: Pointer) -> Result<Change, Breach> {
    Ok(Change::Called { tpr, door: GOOD_DOOR })
}

pub fn steps() -> Vec<Step> {
    let mut steps = Steps(Vec::new());
    through_the_door(&mut steps);
    other_rings(&mut steps);
    other_targets(&mut steps);
    other_instructions(&mut steps);
    other_places(&mut steps);
    low_prs(&mut steps);
    no_falls(&mut steps);
    deliveries(&mut steps);
    steps.0
}

/// Each gate, from each ring, by each ring; the claim has room for rings 3 to 5.
fn through_the_door(steps: &mut Steps) {
    for ring in 3..8 {
        for tpr_ring in ring..8 {
            for wordno in 0..4 {
                let tpr = pointer(tpr_ring, 2, wordno);
                let before = calling().with(|m| {
                    m.registers.ipr.ring = ring;
                    for pr in &mut m.registers.pr {
                        pr.ring = 7;
                    }
                    m.registers.pr[2] = tpr;
                });
                let verdict = match (wordno, tpr_ring) {
                    (3, _) => Err(Breach::NoGate),
                    (_, 6 | 7) => Err(Breach::AboveR3),
                    _ => called(tpr),
                };
                let name = format!("word {wordno} from ring {ring} by ring {tpr_ring}");
                steps.comes(name, before, pointer(2, 2, wordno), verdict);
            }
        }
    }
    // Through a pointer word, whose ring is 0: its segment's R1, 3, counts as well.
    let indirect = |ring: u8, pr: u8, of_word: u64| {
        calling().with(|m| {
            m.registers.ipr.ring = ring;
            m.registers.pr[2] = pointer(pr, 5, 0);
            m.memory[16] = 0x201a_0000;
            m.memory[24] = of_word << 28 | 0x0002_0001;
        })
    };
    steps.comes("by a pointer word", indirect(4, 4, 0), pointer(2, 2, 1), called(pointer(4, 2, 1)));
    steps.comes("by a pointer word of ring 5", indirect(4, 4, 5), pointer(2, 2, 1), called(pointer(5, 2, 1)));
    steps.comes("by a pointer word of ring 6", indirect(4, 4, 6), pointer(2, 2, 1), Err(Breach::AboveR3));
    let low = indirect(2, 4, 0).with(|m| m.memory[2] = 0x0078_5000_0800_0020);
    // Rings 0 2 1 in the door: 13 is no.
    steps.comes("by a pointer word, rings 0 2 1", low.clone(), pointer(1, 2, 1), Err(Breach::NoSegment));
    // Rings 0 1 2 and 0 1 3: the ring is 3, by the pointer's segment, though IPR's and the PR's are 2.
    let of_two = |word: u64| indirect(2, 2, 0).with(|m| m.memory[2] = word);
    let two = of_two(0x0078_8800_0800_0020);
    steps.comes("by R1 of a pointer's segment, R3 2", two, pointer(1, 2, 1), Err(Breach::AboveR3));
    let three = of_two(0x0078_c800_0800_0020);
    let door = Door { segno: 2, last: 2, from: 2, to: 3, new: 1 };
    let verdict = Ok(Change::Called { tpr: pointer(3, 2, 1), door });
    steps.comes("by R1 of a pointer's segment, R3 3", three, pointer(1, 2, 1), verdict);
    // An unreadable pointer word: no TPR.
    let unread = indirect(4, 4, 0).with(|m| m.memory[5] = 0x0011_fb00_0800_0018);
    steps.comes("by a pointer word without R", unread, pointer(2, 2, 1), Err(Breach::NoCall));
}

/// The new ring is R2 and no other that is lower.
fn other_rings(steps: &mut Steps) {
    for (ring, verdict) in [
        (0, Err(Breach::OtherRing)),
        (1, Err(Breach::OtherRing)),
        (2, called(pointer(4, 2, 2))),
        (3, Err(Breach::OtherRing)),
        // What doesn't fall isn't spoken of.
        (4, Ok(Change::Kept)),
    ] {
        steps.comes(format!("into ring {ring}"), calling(), pointer(ring, 2, 2), verdict);
    }
}

/// The door with something else about it.
fn other_targets(steps: &mut Steps) {
    let mut of = |name: &str, word: u64, ring: u8, breach: Breach| {
        let before = calling().with(|m| m.memory[2] = word);
        steps.comes(name, before, pointer(ring, 2, 2), Err(breach));
    };
    of("V off", 0x0069_5100_0800_0020, 2, Breach::NoSegment);
    of("R1 above R2", 0x0079_5300_0800_0020, 2, Breach::NoSegment);
    of("past memory", 0x0079_5100_0800_0039, 2, Breach::NoSegment);
    of("E off", 0x0071_5100_0800_0020, 2, Breach::NoDoor);
    of("LENGTH 2", 0x0079_5100_0200_0020, 2, Breach::NoDoor);
    of("LENGTH 0", 0x0079_5100_0000_0020, 2, Breach::NoDoor);
    of("GATE 2", 0x0059_5100_0800_0020, 2, Breach::NoGate);
    of("GATE 0", 0x0019_5100_0800_0020, 2, Breach::NoGate);
    of("rings 1 2 3", 0x0078_d100_0800_0020, 2, Breach::AboveR3);
    of("rings 1 2 2", SHUT, 2, Breach::AboveR3);
    of("rings 1 4 5", 0x0079_6100_0800_0020, 2, Breach::NotAboveR2);
    of("rings 1 4 5, R1", 0x0079_6100_0800_0020, 1, Breach::NotAboveR2);
    of("rings 1 5 5", 0x0079_6900_0800_0020, 3, Breach::NotAboveR2);
    of("rings 1 3 5", 0x0079_5900_0800_0020, 2, Breach::OtherRing);
    let beyond = calling().with(|m| m.registers.dbr.length = 2);
    steps.comes("no descriptor", beyond, pointer(2, 2, 2), Err(Breach::NoSegment));
    // IPR's own segment: words 16 to 23, rings 0 4 7, GATE 3, E V.
    let own = calling().with(|m| {
        m.memory[1] = 0x0079_e000_0800_0010;
        m.registers.pr[2] = pointer(4, 1, 2);
    });
    steps.comes("its own segment", own, pointer(3, 1, 2), Err(Breach::SameSegment));
}

/// Only CALL leads down; the others are no more than that they were fetched.
fn other_instructions(steps: &mut Steps) {
    for opcode in 0..=255 {
        let before = calling().with(|m| m.memory[16] = u64::from(opcode) << 24 | 0x000a_0000);
        let verdict = if opcode == CALL { called(pointer(4, 2, 2)) } else { Err(Breach::NoCall) };
        steps.comes(format!("opcode {opcode}"), before, pointer(2, 2, 2), verdict);
    }
    // Opcode 42, in ring 0, can't lower the ring.
    let restoring = calling().with(|m| m.memory[16] = u64::from(RCU) << 24 | 0x000a_0000);
    steps.comes("opcode 42 into ring 0", restoring, pointer(0, 2, 2), Err(Breach::NoCall));
    for (name, word) in [
        ("IPR's segment with V off", 0x000b_f800_0800_0010),
        ("IPR's segment with E off", 0x0013_f800_0800_0010),
        ("IPR's segment with rings 0 3 7", 0x001b_d800_0800_0010),
        ("IPR's segment with rings 5 7 7", 0x001b_fd00_0800_0010),
        ("IPR's segment with LENGTH 0", 0x001b_f800_0000_0010),
        ("IPR's segment past memory", 0x001b_f800_0800_0039),
    ] {
        let before = calling().with(|m| m.memory[1] = word);
        steps.comes(name, before, pointer(2, 2, 2), Err(Breach::NoCall));
    }
}

/// IPR is where TPR was.
fn other_places(steps: &mut Steps) {
    for (segno, wordno) in [(2, 0), (2, 1), (2, 3), (3, 2), (1, 2), (0, 0), (4, 0)] {
        let name = format!("to segment {segno}, word {wordno}");
        steps.comes(name, calling(), pointer(2, segno, wordno), Err(Breach::NoDoor));
    }
}

/// No PR is below IPR, whatever the ring does.
fn low_prs(steps: &mut Steps) {
    for (what, ring) in [("falls", 2), ("stays", 4), ("rises", 6)] {
        for number in 0..8 {
            let mut add = |name: &str, pr: u8, verdict| {
                let after = arrived(&calling(), pointer(ring, 2, 2)).with(|m| {
                    for pr in &mut m.registers.pr {
                        pr.ring = ring;
                    }
                    m.registers.pr[number].ring = pr;
                });
                steps.add(format!("the ring {what}, PR{number} {name}"), calling(), after, verdict);
            };
            let holds = match ring {
                2 => called(pointer(4, 2, 2)),
                4 => Ok(Change::Kept),
                _ => Ok(Change::Rose),
            };
            add("one below", ring - 1, Err(Breach::LowPr));
            add("in ring 0", 0, Err(Breach::LowPr));
            add("as high", ring, holds);
            add("above", 7, holds);
        }
    }
}

/// Where the ring stays or rises nothing is asked of the step.
fn no_falls(steps: &mut Steps) {
    let any = calling().with(|m| m.memory[16] = 0);
    steps.comes("any step that stays", any.clone(), pointer(4, 1, 1), Ok(Change::Kept));
    let mut rises = |ring: u8| {
        let after = arrived(&any, pointer(ring, 9, 9)).with(|m| {
            for pr in &mut m.registers.pr {
                pr.ring = 7;
            }
        });
        steps.add(format!("any step into ring {ring}"), any.clone(), after, Ok(Change::Rose));
    };
    (5..8).for_each(&mut rises);
}

/// The fault of a CALL to word 3, which is no gate, delivered: its frame is in words 40 to 52.
fn delivered() -> (Image, Image) {
    let before = calling().with(|m| {
        m.registers.fault_switch = 1;
        m.registers.pr[2].wordno = 3;
    });
    let after = before.clone().with(|m| {
        m.registers.ipr = pointer(0, 4, 0);
        m.memory[40..53].copy_from_slice(&[
            27,
            0x4002_0003,
            0x0123_4567_89ab_cdef,
            0x0800_0000,
            0x4001_0000,
            0x4300_1000,
            0x4301_1001,
            0x4002_0003,
            0x4303_1003,
            0x4304_1004,
            0x4305_1005,
            0x4306_1006,
            0x4307_1007,
        ]);
    });
    (before, after)
}

fn deliveries(steps: &mut Steps) {
    let (before, after) = delivered();
    steps.add("a delivered fault", before.clone(), after.clone(), Ok(Change::Delivered));
    // Without its frame it is the CALL's fall, at a word that is no gate.
    let no_gate = Err(Breach::NoGate);
    let mut changed = |name: String, verdict, change: &dyn Fn(&mut Image)| {
        steps.add(name, before.clone(), after.clone().with(change), verdict);
    };
    for number in 0..=300 {
        let is_of_a_step = matches!(number, 11..=15 | 21..=34 | 52);
        let verdict = if is_of_a_step { Ok(Change::Delivered) } else { no_gate };
        changed(format!("fault {number}"), verdict, &|m| m.memory[40] = number);
    }
    for word in 0..13 {
        // The address under question may be any pointer.
        let verdict = if word == 1 { Ok(Change::Delivered) } else { no_gate };
        changed(format!("another word {word} of the frame"), verdict, &|m| m.memory[40 + word] ^= 1 << 6);
        changed(format!("a bit too many in word {word} of the frame"), no_gate, &|m| m.memory[40 + word] ^= 1 << 31);
    }
    changed("a fault into ring 1".to_string(), no_gate, &|m| m.registers.ipr.ring = 1);
    changed("to another segment".to_string(), no_gate, &|m| m.registers.ipr.segno = 3);
    changed("to word 1".to_string(), no_gate, &|m| m.registers.ipr.wordno = 1);
    changed("no frame".to_string(), no_gate, &|m| m.memory[40..53].fill(0));
    let mut from = |name: &str, change: &dyn Fn(&mut Image)| {
        let (before, after) = (before.clone().with(change), after.clone().with(change));
        steps.add(name, before, after, no_gate);
    };
    from("the switch off", &|m| m.registers.fault_switch = 0);
    from("another handler segment", &|m| m.registers.handler_segment = 5);
    from("another save segment", &|m| m.registers.save_segment = 2);
    from("no save segment", &|m| m.registers.save_segment = 8);
    from("a save segment with V off", &|m| m.memory[3] = 0x0004_0000_0d00_0028);
    from("a save segment with W off", &|m| m.memory[3] = 0x0010_0000_0d00_0028);
    from("a save segment of 12 words", &|m| m.memory[3] = 0x0014_0000_0c00_0028);
    from("a save segment past memory", &|m| m.memory[3] = 0x0014_0000_1900_0028);
    from("a save segment with R1 above R2", &|m| m.memory[3] = 0x0014_0100_0d00_0028);
    // A PR isn't lowered with IPR; in ring 0 there is nothing to fall.
    let (before, after) = delivered();
    let zero = |mut m: Image| {
        m.registers.ipr.ring = 0;
        m
    };
    steps.add("a fault delivered in ring 0", zero(before), zero(after), Ok(Change::Kept));
}

#[cfg(test)]
mod tests {
    use super::*;
    use crate::doors::{calls, change, door, doors, Call, Says, State};
    use crate::machine::{may_call, step, Check, Fault, Reply};
    use crate::words::Descriptor;
    use crate::{delivery, doors_text, pointers, read_image, stacks};

    #[test]
    fn texts() {
        for Input { name, bytes, text } in inputs() {
            assert_eq!(doors_text(&bytes), text, "{name}");
        }
    }

    #[test]
    fn verdicts() {
        for Step { name, before, after, verdict } in steps() {
            let [before, after] = [&before, &after].map(state);
            assert_eq!(change(before, after), verdict, "{name}");
        }
    }

    fn state(Image { registers, memory, .. }: &Image) -> State<'_> {
        State { registers, memory }
    }

    /// Each number that refuses an image is some input's; each breach is some step's.
    #[test]
    fn every_answer() {
        let mut numbers: Vec<u8> = inputs().iter().filter_map(|input| read_image(&input.bytes).err()).collect();
        numbers.sort_unstable();
        numbers.dedup();
        assert_eq!(numbers, [2, 3, 4, 41, 42, 43, 44, 51]);
        let mut breaches: Vec<Breach> = steps().iter().filter_map(|step| step.verdict.err()).collect();
        breaches.sort_unstable_by_key(|breach| *breach as u8);
        breaches.dedup();
        assert_eq!(breaches.len(), 9);
    }

    /// Two of one name would be a slip.
    #[test]
    fn names() {
        let inputs = inputs().into_iter().map(|input| input.name);
        let steps = steps().into_iter().map(|step| step.name);
        for mut names in [inputs.collect::<Vec<String>>(), steps.collect()] {
            names.sort();
            let count = names.len();
            names.dedup();
            assert_eq!(names.len(), count);
        }
    }

    /// The check of CALL says of each door and of each other segment what it should.
    #[test]
    fn checks() {
        for Input { name, bytes, .. } in inputs() {
            let Ok(Image { registers, memory, .. }) = read_image(&bytes) else { continue };
            for segno in 0..registers.dbr.length {
                for Call { registers, pointer, says } in calls(&registers, &memory, segno) {
                    let check = may_call(&registers, &memory, &pointer);
                    assert!(says.is(check), "{name}: {pointer:?} from {:?}: {check:?}, {says:?}", registers.ipr);
                }
            }
        }
    }

    /// A segment's door is all that the check of CALL lets down, from every ring by every ring to every word.
    #[test]
    fn nothing_but_doors() {
        let Image { mut registers, mut memory, .. } = calling();
        registers.pr = [pointer(7, 0, 0); 8];
        let mut down = 0;
        for rings in 0..512 {
            let [r1, r2, r3] = [rings / 64, rings / 8 % 8, rings % 8].map(|ring| ring as u8);
            for (length, gate) in (0..4).flat_map(|length| (0..4).map(move |gate| (length, gate))) {
                for (e, v) in [(true, true), (false, true), (true, false)] {
                    let target = Descriptor { address: 32, length, r1, r2, r3, e, v, gate, ..Descriptor::default() };
                    memory[2] = target.to_word();
                    down += let_down(&mut registers, &memory);
                }
            }
        }
        // From each ring by each up to R3, with R1 up to R2: 462. The smaller of LENGTH and GATE, over all of them: 14.
        assert_eq!(down, 462 * 14);
    }

    /// How many calls of segment 2 the check of CALL lets down; each is by its door.
    fn let_down(registers: &mut Registers, memory: &[u64]) -> u32 {
        let door = door(registers, memory, 2);
        let mut down = 0;
        for ring in 0..8 {
            registers.ipr.ring = ring;
            for tpr in (ring..8).flat_map(|ring| (0..4).map(move |wordno| pointer(ring, 2, wordno))) {
                let new = match may_call(registers, memory, &tpr) {
                    Check::Passes { ring: new } if new < ring => Some(new),
                    _ => None,
                };
                let by_door = door.filter(|door| door.from <= ring && tpr.ring <= door.to && tpr.wordno <= door.last);
                assert_eq!(by_door.map(|door| door.new), new, "from {ring} by {tpr:?}, {door:?}");
                down += u32::from(new.is_some());
            }
        }
        down
    }

    /// Through GOOD_DOOR, from rings 3 to 5 by such rings at words 0 to 2 into ring 2.
    #[test]
    fn good_door() {
        let mut count = 0;
        for (ring, tpr_ring) in (0..8).flat_map(|ring| (0..8).map(move |tpr_ring| (ring, tpr_ring))) {
            for (segno, wordno) in [(2, 0), (2, 1), (2, 2), (2, 3), (1, 0), (3, 2)] {
                let tpr = pointer(tpr_ring, segno, wordno);
                for ipr in [pointer(2, segno, wordno), pointer(1, segno, wordno), pointer(3, segno, wordno)] {
                    let is_so = matches!((ring, tpr_ring), (3..=5, 3..=5)) && segno == 2 && wordno < 3 && ipr.ring == 2;
                    assert_eq!(GOOD_DOOR.leads(ring, &tpr, &ipr), is_so, "from {ring} by {tpr:?} to {ipr:?}");
                    count += u32::from(is_so);
                }
                for ipr in [pointer(2, segno, wordno + 1), pointer(2, segno + 1, wordno), pointer(2, 2, 9)] {
                    assert!(!GOOD_DOOR.leads(ring, &tpr, &ipr));
                }
            }
        }
        assert_eq!(count, 9 * 3);
    }

    /// Which answers are what is said.
    #[test]
    fn said() {
        let fault = |number| Check::Fault(Fault { number, at: Pointer::default() });
        let answers = [
            Check::Passes { ring: 2 },
            Check::Passes { ring: 3 },
            Check::Passes { ring: 4 },
            fault(15),
            fault(27),
            fault(28),
            fault(30),
            Check::Refused { number: 4 },
        ];
        for (says, so) in [
            (Says::Passes(3), [false, true, false, false, false, false, false, false]),
            (Says::NoGate, [false, false, false, true, true, false, false, false]),
            (Says::AboveR3, [false, false, false, false, false, true, false, false]),
            (Says::NotBelow(3), [false, true, true, true, true, true, true, false]),
        ] {
            assert_eq!(answers.map(|answer| says.is(answer)), so, "{says:?}");
        }
    }

    /// The claim holds of the second implementation's own steps; they are of every kind.
    #[test]
    fn own_steps() {
        let machines = pointers::cases().into_iter().map(|case| case.machine);
        let others = [delivery::cases(), stacks::cases()].into_iter().flatten().map(|case| case.run.machine);
        let mut counts = [0; 4];
        for Image { mut registers, mut memory, budget } in machines.chain(others) {
            for _ in 0..budget {
                let (before, memory_before) = (registers, memory.clone());
                if !matches!(step(&mut registers, &mut memory), Reply::Spent { .. } | Reply::Halted { .. }) {
                    break;
                }
                let before = State { registers: &before, memory: &memory_before };
                let change = change(before, State { registers: &registers, memory: &memory });
                let kind = match change {
                    Ok(Change::Kept) => 0,
                    Ok(Change::Rose) => 1,
                    Ok(Change::Called { .. }) => 2,
                    Ok(Change::Delivered) => 3,
                    Err(breach) => panic!("{breach:?} of {before:?}"),
                };
                counts[kind] += 1;
            }
        }
        assert!(counts.iter().all(|count| *count > 100), "{counts:?}");
    }

    /// 14 at the end of the largest memory.
    #[test]
    fn largest_memory() {
        let mut memory = vec![0; 16_777_216];
        memory[0] = 0x0039_5100_01ff_ffff;
        memory[1] = 0x0039_5100_02ff_ffff;
        memory[2] = 0x0039_5100_02ff_fffe;
        let registers = Registers { dbr: Dbr { address: 0, length: 3 }, ..Registers::default() };
        let door = |segno, last| Door { segno, last, from: 3, to: 5, new: 2 };
        assert_eq!(doors(&registers, &memory), [door(0, 0), door(2, 0)]);
    }
}
