//! Directed images for what an image will need: figures and numbers were worked out by hand.

use crate::calls::{me, rn, wd};
use crate::door_cases::case_12_image;
use crate::needs::Needs;
use crate::tables::st;
use crate::words::Dbr;

/// An image, and what it will need or the number that refuses it.
pub struct Case {
    pub name: String,
    pub image: Vec<u8>,
    pub answer: Result<Needs, u8>,
}

impl Case {
    /// What the program prints.
    pub fn text(&self) -> String {
        match self.answer {
            Ok(Needs { memory, records, budget, lines, pointers }) => [
                format!("memory {memory}\n"),
                format!("records {records}\n"),
                format!("budget {budget}\n"),
                format!("lines {lines}\n"),
                format!("pointers {pointers}\n"),
            ]
            .concat(),
            Err(number) => format!("refused {number}\n"),
        }
    }
}

struct Cases(Vec<Case>);

impl Cases {
    fn add(&mut self, name: impl Into<String>, parts: &[&[u8]], answer: Result<Needs, u8>) {
        self.0.push(Case { name: name.into(), image: parts.concat(), answer });
    }

    /// Memory, WDs, budget, lines, pointer words.
    fn needs(&mut self, name: impl Into<String>, parts: &[&[u8]], figures: [u64; 5]) {
        let [memory, records, budget, lines, pointers] = figures;
        self.add(name, parts, Ok(Needs { memory, records, budget, lines, pointers }));
    }

    fn refused(&mut self, name: impl Into<String>, parts: &[&[u8]], number: u8) {
        self.add(name, parts, Err(number));
    }
}

pub fn cases() -> Vec<Case> {
    let mut cases = Cases(Vec::new());
    budgets(&mut cases);
    sizes(&mut cases);
    record_counts(&mut cases);
    addresses(&mut cases);
    twice(&mut cases);
    descriptor_segments(&mut cases);
    registers(&mut cases);
    beginnings(&mut cases);
    orders(&mut cases);
    of_the_paper(&mut cases);
    cases.0
}

/// DBR 0 and 4, all well.
fn good() -> Vec<u8> {
    st(Dbr { address: 0, length: 4 }, 4, 0)
}

// ---- Figures.

fn budgets(cases: &mut Cases) {
    for (budget, lines, pointers) in [
        (0, 1, 0),
        (1, 2, 64),
        (2, 3, 128),
        (3, 4, 192),
        (9, 10, 576),
        (10, 11, 640),
        (99, 100, 6_336),
        (100, 101, 6_400),
        (255, 256, 16_320),
        (256, 257, 16_384),
        (1_000, 1_001, 64_000),
        (65_535, 65_536, 4_194_240),
        (65_536, 65_537, 4_194_304),
        (16_777_215, 16_777_216, 1_073_741_760),
        (16_777_216, 16_777_217, 1_073_741_824),
        (0x0102_0304, 16_909_061, 1_082_179_840),
        // Just below 32 bits of pointer words, and just above.
        (67_108_863, 67_108_864, 4_294_967_232),
        (67_108_864, 67_108_865, 4_294_967_296),
        (2_147_483_647, 2_147_483_648, 137_438_953_408),
        (2_147_483_648, 2_147_483_649, 137_438_953_472),
        (4_294_967_294, 4_294_967_295, 274_877_906_816),
        (4_294_967_295, 4_294_967_296, 274_877_906_880),
    ] {
        let figures = [64, 1, u64::from(budget), lines, pointers];
        cases.needs(format!("budget {budget}"), &[&me(64), &good(), &wd(9, 1), &rn(budget)], figures);
    }
}

/// 43.
fn sizes(cases: &mut Cases) {
    let empty = st(Dbr { address: 0, length: 0 }, 4, 0);
    for words in [0, 1, 2, 9, 10, 255, 256, 257, 4_095, 4_096, 8_000, 8_191, 8_192] {
        let figures = [u64::from(words), 0, 3, 4, 192];
        cases.needs(format!("ME {words}"), &[&me(words), &empty, &rn(3)], figures);
    }
    for words in [8_193, 8_194, 16_384, 65_536, 73_728, 16_777_216, 16_777_217, 0x8000_0000, u32::MAX] {
        cases.refused(format!("43: ME {words}"), &[&me(words), &empty, &rn(3)], 43);
        // The record is judged before the next.
        cases.refused(format!("43: ME {words}, then no mark"), &[&me(words), b"xx"], 43);
        cases.refused(format!("43: ME {words} and no more"), &[&me(words)], 43);
    }
    // ME behind another record isn't asked 43.
    cases.refused("42: ME 8193 last", &[&empty, &me(8_193)], 42);
    cases.refused("42: ME 8193 as a second", &[&me(64), &me(8_193)], 42);
}

/// WDs alone count, zeros and all, wherever ST stands.
fn record_counts(cases: &mut Cases) {
    for count in [0, 1, 2, 3, 9, 10, 11, 99, 100, 255, 256, 257, 1_000, 4_096, 8_191, 8_192] {
        let records: Vec<Vec<u8>> = (0..count).map(|address| wd(address, u64::from(address % 3))).collect();
        let upwards = records.concat();
        let downwards = records.iter().rev().cloned().collect::<Vec<_>>().concat();
        let (before, behind) = upwards.split_at(upwards.len() / 28 * 14);
        let figures = [8_192, u64::from(count), 7, 8, 448];
        let (me, st, rn) = (me(8_192), good(), rn(7));
        cases.needs(format!("{count} WDs"), &[&me, &st, &upwards, &rn], figures);
        cases.needs(format!("{count} WDs downwards"), &[&me, &st, &downwards, &rn], figures);
        cases.needs(format!("{count} WDs before ST"), &[&me, &upwards, &st, &rn], figures);
        cases.needs(format!("{count} WDs, ST between"), &[&me, before, &st, behind, &rn], figures);
    }
    let zeros: Vec<u8> = (0..64).flat_map(|address| wd(address, 0)).collect();
    cases.needs("64 zeros", &[&me(64), &zeros, &good(), &rn(7)], [64, 64, 7, 8, 448]);
}

// ---- 44 and 51.

fn addresses(cases: &mut Cases) {
    let st = st(Dbr { address: 0, length: 0 }, 4, 0);
    for words in [0, 1, 64, 256, 8_192] {
        let mut at = |address: u32| {
            let name = format!("a WD at {address} of {words}");
            let parts: [&[u8]; 4] = [&me(words), &st, &wd(address, 1), &rn(1)];
            if address < words {
                cases.needs(name, &parts, [u64::from(words), 1, 1, 2, 64]);
            } else {
                cases.refused(format!("44: {name}"), &parts, 44);
            }
        };
        // Some would be below it in 16 or 24 bits.
        for address in [words, words + 1, 65_536, 65_537, 16_777_216, 0x8000_0000, u32::MAX] {
            at(address);
        }
        if words > 0 {
            at(words - 1);
        }
        if words > 1 {
            at(0);
        }
    }
    // As a second one it is 44 as well: the first is refused already.
    cases.refused("44: twice behind memory", &[&me(64), &st, &wd(64, 1), &wd(64, 1), &rn(1)], 44);
}

fn twice(cases: &mut Cases) {
    let (me, st, rn) = (me(8_192), good(), rn(3));
    for address in [0, 1, 63, 255, 256, 4_095, 4_096, 8_191] {
        let (one, other) = (wd(address, 1), wd(address, 2));
        let mut refused = |name: &str, parts: &[&[u8]]| {
            cases.refused(format!("51: {address}, {name}"), &[&me, &parts.concat(), &rn], 51)
        };
        refused("neighbours", &[&st, &one, &other]);
        refused("equal", &[&st, &one, &one]);
        refused("zeros", &[&st, &wd(address, 0), &wd(address, 0)]);
        refused("ST between", &[&one, &st, &other]);
        refused("both before ST", &[&one, &other, &st]);
        refused("another between", &[&st, &one, &wd(7, 1), &other]);
        refused("three", &[&st, &one, &other, &one]);
        // Equal in some of their bits.
        for bit in 0..13 {
            let near = address ^ 1 << bit;
            if near < 8_192 {
                let name = format!("{address} and {near}");
                cases.needs(name, &[&me, &st, &one, &wd(near, 1), &rn], [8_192, 2, 3, 4, 192]);
            }
        }
    }
    let all: Vec<u8> = (0..8_192).flat_map(|address| wd(address, 1)).collect();
    for address in [0, 4_095, 8_191] {
        let name = format!("51: all, and {address} again");
        cases.refused(name, &[&me, &st, &all, &wd(address, 1), &rn], 51);
    }
}

// ---- 1 to 4, with ME's number of words.

fn descriptor_segments(cases: &mut Cases) {
    for (words, address, length, is_yes) in [
        (0, 0, 0, true),
        (0, 0, 1, false),
        (0, 1, 0, false),
        (1, 0, 1, true),
        (1, 0, 2, false),
        (64, 0, 64, true),
        (64, 0, 65, false),
        (64, 60, 4, true),
        (64, 60, 5, false),
        (64, 61, 4, false),
        (64, 64, 0, true),
        (64, 65, 0, false),
        (64, 8_000, 4, false),
        (64, 8_188, 4, false),
        (64, 16_777_215, 1, false),
        (4_095, 0, 4_096, false),
        (4_096, 0, 4_096, true),
        (4_096, 0, 4_097, false),
        (8_192, 0, 4_096, true),
        (8_192, 0, 4_097, false),
        (8_192, 4_096, 4_096, true),
        (8_192, 4_097, 4_096, false),
        (8_192, 8_192, 0, true),
        (8_192, 8_193, 0, false),
        (8_192, 0, 65_535, false),
    ] {
        let name = format!("DBR {address} and {length} in {words}");
        let st = st(Dbr { address, length }, 4, 0);
        for (order, parts) in [("", [me(words), st.clone()].concat()), (", a WD", [me(words), wd(0, 9), st].concat())] {
            let records = u64::from(!order.is_empty());
            let name = format!("{name}{order}");
            match (words, records) {
                (0, 1) => cases.refused(format!("44: {name}"), &[&parts, &rn(2)], 44),
                _ if is_yes => cases.needs(name, &[&parts, &rn(2)], [u64::from(words), records, 2, 3, 128]),
                _ => cases.refused(format!("4: {name}"), &[&parts, &rn(2)], 4),
            }
        }
    }
}

fn registers(cases: &mut Cases) {
    let of = |address, length| Dbr { address, length };
    let four = of(0, 4);
    let with = |place: usize, byte: u8| {
        let mut record = good();
        record[place] = byte;
        record
    };
    let mut refused = |name: &str, st: Vec<u8>, number: u8| {
        cases.refused(name, &[&me(64), &st, &wd(3, 1), &rn(2)], number);
        cases.refused(format!("{name}, a WD behind memory first"), &[&me(64), &st, &wd(64, 1), &rn(2)], 44);
        cases.refused(format!("{name}, an address twice first"), &[&me(64), &st, &wd(3, 1), &wd(3, 1), &rn(2)], 51);
        cases.refused(format!("{name}, no RN first"), &[&me(64), &st, &wd(3, 1)], 42);
    };
    // Mark 2, A 8, DBR 6; then IPR.
    refused("2: ring 8 of IPR", with(16, 8), 2);
    refused("2: segment 4096 of IPR", with(17, 16), 2);
    refused("2: ring 8 of PR0", st(four, 8, 0), 2);
    refused("2: ring 255 of PR7", with(56, 255), 2);
    refused("2: a segment above 4095 of PR7", with(57, 255), 2);
    refused("2: ADDRESS 16777216", st(of(16_777_216, 4), 4, 0), 2);
    refused("2: ADDRESS 4294967295", st(of(u32::MAX, 0), 4, 0), 2);
    refused("2: switch 2", st(four, 4, 2), 2);
    refused("2: switch 255", st(four, 4, 255), 2);
    refused("2: save segment 4096 and more", with(62, 16), 2);
    refused("2: handler segment 4096 and more", with(64, 16), 2);
    refused("2, 3 and 4", st(of(u32::MAX, 4_097), 3, 2), 2);
    refused("3: PR0 in ring 3", st(four, 3, 0), 3);
    refused("3: PR0 in ring 0, switch on", st(four, 0, 1), 3);
    refused("3: IPR in ring 5", with(16, 5), 3);
    refused("3 and 4", st(of(61, 4), 3, 0), 3);
    refused("4", st(of(61, 4), 4, 0), 4);
    refused("4, switch on", st(of(61, 4), 4, 1), 4);
    for (pr, switch) in [(4, 0), (5, 0), (7, 1)] {
        let name = format!("PR0 in ring {pr}, switch {switch}");
        cases.needs(name, &[&me(64), &st(four, pr, switch), &wd(3, 1), &rn(2)], [64, 1, 2, 3, 128]);
    }
}

// ---- 41 and 42.

/// Every beginning: where a record ends it is 42, all else 41.
fn beginnings(cases: &mut Cases) {
    let whole = [me(64), good(), wd(9, 1), wd(63, 0), rn(7)].concat();
    for end in 0..whole.len() {
        let number = if matches!(end, 0 | 6 | 72 | 86 | 100) { 42 } else { 41 };
        cases.refused(format!("the first {end} bytes"), &[&whole[..end]], number);
    }
    cases.needs("all 106 bytes", &[&whole], [64, 2, 7, 8, 448]);
    for (name, behind) in [("a byte", &[0][..]), ("M", b"M"), ("ME", &me(64)), ("RN", &rn(7)), ("a WD", &wd(9, 1))] {
        cases.refused(format!("42: {name} behind it"), &[&whole, behind], 42);
    }
    cases.refused("42: twice", &[&whole, &whole], 42);
}

/// A record's number comes before anything that a later one would get.
fn orders(cases: &mut Cases) {
    let (me, st, one, rn) = (me(64), good(), wd(9, 1), rn(7));
    let (far, cut) = (wd(64, 1), &wd(9, 1)[..13]);
    for (name, parts, number) in [
        ("another mark", &[&me[..], &st, b"me\0\0\0\x40", &rn][..], 41),
        ("ST of 59 bytes", &[&me, &st[..61], &one, &rn], 41),
        ("no ME", &[&st, &one, &rn], 42),
        ("ME last", &[&st, &one, &me, &rn], 42),
        ("two ME", &[&me, &me, &st, &rn], 42),
        ("no ST", &[&me, &one, &rn], 42),
        ("two ST", &[&me, &st, &one, &st, &rn], 42),
        ("RN first", &[&rn, &me, &st], 42),
        ("RN before ST", &[&me, &rn, &st], 42),
        ("a WD first", &[&one, &me, &st, &rn], 42),
        ("44, then 41", &[&me, &st, &far, cut], 44),
        ("41, then 44", &[&me, &st, b"XX", &far], 41),
        ("44, then 51", &[&me, &st, &one, &far, &one, &rn], 44),
        ("51, then 44", &[&me, &st, &one, &one, &far, &rn], 51),
        ("51, then 41", &[&me, &st, &one, &one, cut], 51),
        ("51, then 42", &[&me, &st, &one, &one, &st, &rn], 51),
        ("42, then 51", &[&me, &st, &one, &st, &one, &rn], 42),
        ("42, then 44", &[&me, &st, &st, &far, &rn], 42),
        ("51, without ST", &[&me, &one, &one, &rn], 51),
        ("44, without ST", &[&me, &far, &rn], 44),
    ] {
        cases.refused(name, parts, number);
    }
}

/// 01's case 12: six words, budget 9.
fn of_the_paper(cases: &mut Cases) {
    cases.needs("case 12", &[&case_12_image()], [64, 6, 9, 10, 576]);
}

#[cfg(test)]
mod tests {
    use super::*;
    use crate::{door_cases, needs, needs_text, read_image, repeats, states};

    #[test]
    fn answers() {
        for case in cases() {
            assert_eq!(needs(&case.image), case.answer, "{}", case.name);
            assert_eq!(needs_text(&case.image), case.text(), "{}", case.name);
        }
    }

    /// Some texts in full.
    #[test]
    fn texts() {
        for (name, text) in [
            ("case 12", "memory 64\nrecords 6\nbudget 9\nlines 10\npointers 576\n"),
            ("ME 0", "memory 0\nrecords 0\nbudget 3\nlines 4\npointers 192\n"),
            ("8192 WDs", "memory 8192\nrecords 8192\nbudget 7\nlines 8\npointers 448\n"),
            ("budget 4294967295", "memory 64\nrecords 1\nbudget 4294967295\nlines 4294967296\npointers 274877906880\n"),
            ("the first 0 bytes", "refused 42\n"),
        ] {
            let Some(case) = cases().into_iter().find(|case| case.name == name) else { panic!("{name}") };
            assert_eq!(needs_text(&case.image), text, "{name}");
        }
    }

    /// It refuses as loading does, these and the images of other cases; else the figures are what loading gives.
    #[test]
    fn as_loading() {
        let images = cases().into_iter().map(|case| (case.name, case.image));
        let doors = door_cases::inputs().into_iter().map(|input| (input.name, input.bytes));
        let repeated = repeats::cases().into_iter().map(|case| (case.name.to_string(), case.image()));
        let states = states::cases().into_iter().map(|case| (case.name, case.image));
        for (name, image) in images.chain(doors).chain(repeated).chain(states) {
            match (needs(&image), read_image(&image)) {
                (Ok(needs), Ok(loaded)) => {
                    assert_eq!(needs.memory, loaded.memory.len() as u64, "{name}");
                    assert_eq!(needs.budget, u64::from(loaded.budget), "{name}");
                    // ME, ST and RN have 78 bytes, each WD 14.
                    assert_eq!(needs.records, (image.len() as u64 - 78) / 14, "{name}");
                }
                (needs, loaded) => assert_eq!(needs.err(), loaded.err(), "{name}"),
            }
        }
    }

    /// Two cases of one name would be a slip; each number refuses some.
    #[test]
    fn names_and_numbers() {
        let mut names: Vec<String> = cases().into_iter().map(|case| case.name).collect();
        names.sort();
        for pair in names.windows(2) {
            assert!(pair[0] != pair[1], "{}", pair[0]);
        }
        let mut numbers: Vec<u8> = cases().into_iter().filter_map(|case| case.answer.err()).collect();
        numbers.sort_unstable();
        numbers.dedup();
        assert_eq!(numbers, [2, 3, 4, 41, 42, 43, 44, 51]);
    }
}
