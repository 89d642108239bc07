//! Directed images for 51 and for the program of stored images, with answers that were worked out by hand.

use crate::words::Descriptor;

/// An image and what it asks for.
pub struct Case {
    pub name: &'static str,
    pub records: Vec<Vec<u8>>,
    /// The question by which it is refused, if one is answered no.
    pub refused: Option<u8>,
    pub stored: Stored,
}

/// What the stored rules make of an image: the records that are kept, by their places from 0, and the listing; or the
/// question that refuses it.
pub type Stored = Result<(&'static [usize], &'static str), u8>;

/// Bytes of text that are enough for every case that isn't refused.
pub const TEXT: usize = 64 * 10;

impl Case {
    pub fn image(&self) -> Vec<u8> {
        self.records.concat()
    }

    /// As it would have been stored: ST without its last five bytes.
    pub fn stored_image(&self) -> Vec<u8> {
        let stored = |record: &Vec<u8>| if record.starts_with(b"ST") { record[..61].to_vec() } else { record.clone() };
        self.records.iter().flat_map(stored).collect()
    }

    /// What the program gives for the stored image.
    pub fn converted(&self) -> Result<Vec<u8>, u8> {
        let (kept, _) = self.stored?;
        Ok(kept.iter().flat_map(|&place| self.records[place].clone()).collect())
    }

    /// What the bench's call answers with `TEXT` bytes.
    pub fn answer(&self) -> i64 {
        match (self.refused, self.stored) {
            (Some(number), _) | (None, Err(number)) => -i64::from(number),
            (None, Ok((_, text))) => text.len() as i64,
        }
    }
}

fn record(mark: &[u8; 2], numbers: &[&[u8]]) -> Vec<u8> {
    [&mark[..], &numbers.concat()].concat()
}

fn me(words: u32) -> Vec<u8> {
    record(b"ME", &[&words.to_be_bytes()])
}

fn wd(address: u32, word: u64) -> Vec<u8> {
    record(b"WD", &[&address.to_be_bytes(), &word.to_be_bytes()])
}

fn rn(budget: u32) -> Vec<u8> {
    record(b"RN", &[&budget.to_be_bytes()])
}

/// Segment 0, word 0; PR0 in ring `pr`, all else in ring `ring`; switch and both segments 0.
fn state(length: u16, ring: u8, pr: u8) -> Vec<u8> {
    let mut record = record(b"ST", &[&[0; 12], &length.to_be_bytes()]);
    for ring in [ring, pr, ring, ring, ring, ring, ring, ring, ring] {
        record.extend([ring, 0, 0, 0, 0]);
    }
    record.extend([0; 5]);
    record
}

/// Ring 4 everywhere, DBR 0 and 1.
fn st() -> Vec<u8> {
    state(1, 4, 4)
}

/// Word 0 as these cases use it: segment 0 is words 2 to 5.
fn segment() -> u64 {
    let segment = Descriptor { address: 2, length: 4, r1: 4, r2: 4, r3: 4, ..Descriptor::default() };
    Descriptor { r: true, e: true, v: true, ..segment }.to_word()
}

/// As word 2 it completes.
const LDI: u64 = 10 << 24;

/// Word 0 is zero: V is off.
const NO_SEGMENT: &str = "fault 12 0 4 0 0 0\n";
/// Word 2 is zero: no opcode of the table.
const NO_OPCODE: &str = "fault 32 0 4 0 0 0\n";
/// Word 2 is LDI, word 3 zero, and the budget 2 or more.
const ONE_STEP: &str = "1 4 0 1 0\nfault 32 1 4 0 1 0\n";

pub fn cases() -> Vec<Case> {
    [accepted(), repeated(), first_no(), refused_alike()].into_iter().flatten().collect()
}

/// No address twice: loaded as ever, and not changed.
fn accepted() -> Vec<Case> {
    let case = |name, records, kept, text| Case { name, records, refused: None, stored: Ok((kept, text)) };
    vec![
        case("no WD", vec![me(8), st(), rn(2)], &[0, 1, 2], NO_SEGMENT),
        case("budget 0", vec![me(1), st(), rn(0)], &[0, 1, 2], "spent 0 0\n"),
        case("no memory", vec![me(0), state(0, 4, 4), rn(2)], &[0, 1, 2], "fault 11 0 4 0 0 0\n"),
        case("one WD", vec![me(8), st(), wd(0, segment()), rn(2)], &[0, 1, 2, 3], NO_OPCODE),
        case(
            "two addresses, in no order, ST between",
            vec![me(8), wd(2, LDI), st(), wd(0, segment()), rn(2)],
            &[0, 1, 2, 3, 4],
            ONE_STEP,
        ),
        case("one word at two addresses", vec![me(8), wd(6, 9), wd(7, 9), st(), rn(2)], &[0, 1, 2, 3, 4], NO_SEGMENT),
        case(
            "zeros at every address",
            vec![me(3), wd(2, 0), wd(1, 0), wd(0, 0), st(), rn(2)],
            &[0, 1, 2, 3, 4, 5],
            NO_SEGMENT,
        ),
        case(
            "addresses that are equal in some bits",
            vec![me(8192), wd(1, 5), wd(257, 5), wd(4097, 5), wd(8191, 5), wd(4095, 5), st(), wd(255, 5), rn(2)],
            &[0, 1, 2, 3, 4, 5, 6, 7, 8],
            NO_SEGMENT,
        ),
        case(
            "an address that is another's word",
            vec![me(8), st(), wd(3, 4), wd(4, 3), wd(5, 3), rn(2)],
            &[0, 1, 2, 3, 4, 5],
            NO_SEGMENT,
        ),
    ]
}

/// An address twice or more, and nothing else against it: 51, and the last of each is kept.
fn repeated() -> Vec<Case> {
    let case = |name, records, kept, text| Case { name, records, refused: Some(51), stored: Ok((kept, text)) };
    vec![
        case(
            "51: neighbours; the last word counts",
            vec![me(8), st(), wd(0, 7), wd(0, segment()), rn(2)],
            &[0, 1, 3, 4],
            NO_OPCODE,
        ),
        case(
            "51: neighbours; the last word counts, though zero",
            vec![me(8), st(), wd(0, segment()), wd(0, 0), rn(2)],
            &[0, 1, 3, 4],
            NO_SEGMENT,
        ),
        case("51: equal words", vec![me(8), st(), wd(0, segment()), wd(0, segment()), rn(2)], &[0, 1, 3, 4], NO_OPCODE),
        case("51: zero twice", vec![me(8), st(), wd(0, 0), wd(0, 0), rn(2)], &[0, 1, 3, 4], NO_SEGMENT),
        case("51: zero first", vec![me(8), st(), wd(0, 0), wd(0, segment()), rn(2)], &[0, 1, 3, 4], NO_OPCODE),
        case("51: before ST", vec![me(8), wd(7, 1), wd(7, 2), st(), rn(2)], &[0, 2, 3, 4], NO_SEGMENT),
        case(
            "51: ST between; its place stays",
            vec![me(8), wd(0, 3), st(), wd(0, segment()), rn(2)],
            &[0, 2, 3, 4],
            NO_OPCODE,
        ),
        case(
            "51: ST between, equal words",
            vec![me(8), wd(0, segment()), st(), wd(0, segment()), rn(2)],
            &[0, 2, 3, 4],
            NO_OPCODE,
        ),
        case(
            "51: far apart",
            vec![me(8), wd(0, 1), wd(1, 1), wd(2, LDI), wd(3, 0), st(), wd(4, 4), wd(5, 5), wd(0, segment()), rn(9)],
            &[0, 2, 3, 4, 5, 6, 7, 8, 9],
            ONE_STEP,
        ),
        case(
            "51: the first of all is dropped",
            vec![me(8), wd(2, 0), wd(0, segment()), st(), wd(2, LDI), rn(9)],
            &[0, 2, 3, 4, 5],
            ONE_STEP,
        ),
        case(
            "51: one in the middle is dropped",
            vec![me(8), wd(0, segment()), st(), wd(2, 0), wd(3, 0), wd(2, LDI), rn(9)],
            &[0, 1, 2, 4, 5, 6],
            ONE_STEP,
        ),
        case(
            "51: the one before the last is dropped",
            vec![me(8), wd(0, segment()), wd(3, 0), st(), wd(2, 0), wd(2, LDI), rn(9)],
            &[0, 1, 2, 3, 5, 6],
            ONE_STEP,
        ),
        case(
            "51: three of one address",
            vec![me(8), wd(2, 1), wd(0, segment()), wd(2, 2), st(), wd(2, LDI), rn(2)],
            &[0, 2, 4, 5, 6],
            ONE_STEP,
        ),
        case(
            "51: three of one address, the first as the last",
            vec![me(8), st(), wd(0, segment()), wd(2, LDI), wd(2, 0), wd(2, LDI), rn(2)],
            &[0, 1, 2, 5, 6],
            ONE_STEP,
        ),
        case(
            "51: all of two addresses, by turns",
            vec![me(8), wd(2, 1), wd(0, 1), wd(2, LDI), wd(0, 2), wd(2, 0), st(), wd(0, segment()), rn(2)],
            &[0, 5, 6, 7, 8],
            NO_OPCODE,
        ),
        case(
            "51: the order is the last ones', not the addresses'",
            vec![me(8), st(), wd(0, 1), wd(2, 1), wd(5, 1), wd(5, 2), wd(2, LDI), wd(0, segment()), rn(2)],
            &[0, 1, 5, 6, 7, 8],
            ONE_STEP,
        ),
        case(
            "51: the order is the last ones', not the first ones'",
            vec![me(8), st(), wd(7, 1), wd(0, segment()), wd(6, 1), wd(7, 2), rn(2)],
            &[0, 1, 3, 4, 5, 6],
            NO_OPCODE,
        ),
        case(
            "51: the largest address",
            vec![me(8192), wd(8191, 1), wd(0, 1), st(), wd(8191, 1), rn(0)],
            &[0, 2, 3, 4, 5],
            "spent 0 0\n",
        ),
        case("51: a memory of one word", vec![me(1), wd(0, 1), wd(0, 0), st(), rn(1)], &[0, 2, 3, 4], NO_SEGMENT),
        // 51 comes before 45: no buffer has 2^38 bytes.
        case("51: the budget stays", vec![me(8), st(), wd(0, 1), wd(0, 0), rn(u32::MAX)], &[0, 1, 3, 4], NO_SEGMENT),
    ]
}

/// An address twice, and other questions answered no: the first bad record decides, and 51 comes before 1 to 4. The
/// stored rules find the other one.
fn first_no() -> Vec<Case> {
    let case = |name, records, refused, stored| Case { name, records, refused: Some(refused), stored: Err(stored) };
    let twice = |more: &[Vec<u8>]| [&[me(8), wd(3, 1), wd(3, 2)], more].concat();
    vec![
        case("51 before a later 41, a mark", twice(&[b"XX".to_vec(), st(), rn(2)]), 51, 41),
        case("51 before a later 41, a byte", twice(&[b"W".to_vec()]), 51, 41),
        case("51 before a later 41, a WD that isn't whole", twice(&[wd(3, 1)[..13].to_vec()]), 51, 41),
        case("51 before a later 42, no more records", twice(&[]), 51, 42),
        case("51 before a later 42, ME", twice(&[me(8), st(), rn(2)]), 51, 42),
        case("51 before a later 42, ST twice", twice(&[st(), st(), rn(2)]), 51, 42),
        case("51 before a later 42, no ST", twice(&[rn(2)]), 51, 42),
        case("51 before a later 42, no RN", twice(&[st()]), 51, 42),
        case("51 before a later 42, a byte after RN", twice(&[st(), rn(2), vec![0]]), 51, 42),
        case("51 before a later 42, a WD after RN", twice(&[st(), rn(2), wd(3, 3)]), 51, 42),
        case("51 before a later 44", twice(&[wd(8, 1), st(), rn(2)]), 51, 44),
        case("51 before 2", twice(&[state(1, 8, 8), rn(2)]), 51, 2),
        case("51 before 3", twice(&[state(1, 4, 3), rn(2)]), 51, 3),
        case("51 before 4", twice(&[state(9, 4, 4), rn(2)]), 51, 4),
        case("51 before 2, with the bad ST before", vec![me(8), state(1, 8, 8), wd(3, 1), wd(3, 2), rn(2)], 51, 2),
    ]
}

/// Refused by the same question before and after.
fn refused_alike() -> Vec<Case> {
    let case = |name, records, number| Case { name, records, refused: Some(number), stored: Err(number) };
    vec![
        case("an empty file", vec![], 42),
        case("41", vec![me(8), b"XX".to_vec(), st(), rn(2)], 41),
        case("42, ST twice", vec![me(8), st(), wd(3, 1), st(), rn(2)], 42),
        case("42, no ME", vec![wd(3, 1), wd(3, 1), st(), rn(2)], 42),
        case("42, the second WD after RN", vec![me(8), wd(3, 1), st(), rn(2), wd(3, 1)], 42),
        case("43", vec![me(8193), st(), rn(2)], 43),
        case("43 before a later 51", vec![me(8193), wd(3, 1), wd(3, 1), st(), rn(2)], 43),
        case("44", vec![me(8), st(), wd(8, 1), rn(2)], 44),
        case("44, an address outside of memory twice", vec![me(8), st(), wd(8, 1), wd(8, 1), rn(2)], 44),
        case(
            "44, an address that is an earlier one but for its high byte",
            vec![me(8), wd(1, 1), wd(1 << 24 | 1, 1)],
            44,
        ),
        case("44, no memory", vec![me(0), wd(0, 1), wd(0, 1)], 44),
        case("44 before a later 51", vec![me(8), wd(3, 1), wd(9, 1), wd(3, 1), st(), rn(2)], 44),
        case("41 before a later 51", vec![me(8), wd(3, 1), b"wd".to_vec(), wd(3, 1), st(), rn(2)], 41),
        case("41 of the record that would be 51", vec![me(8), st(), wd(3, 1), wd(3, 1)[..13].to_vec()], 41),
        case("42 before a later 51", vec![me(8), st(), wd(3, 1), me(8), wd(3, 1), rn(2)], 42),
        case("2", vec![me(8), state(1, 8, 8), wd(3, 1), rn(2)], 2),
        case("3", vec![me(8), state(1, 4, 3), wd(3, 1), rn(2)], 3),
        case("4", vec![me(8), state(9, 4, 4), wd(3, 1), rn(2)], 4),
    ]
}

#[cfg(test)]
mod tests {
    use super::*;
    use crate::listing::list_run;
    use crate::{bench, convert, converted, list, read_image, read_stored_image};

    fn listing(image: &[u8]) -> String {
        let mut text = Vec::new();
        assert!(list(image, &mut text).is_ok());
        String::from_utf8_lossy(&text).into_owned()
    }

    #[test]
    fn loading() {
        for case in cases() {
            let image = case.image();
            let text = match (case.refused, case.stored) {
                (None, Ok((_, text))) => text.to_string(),
                (None, Err(number)) | (Some(number), _) => format!("refused {number}\n"),
            };
            assert_eq!(listing(&image), text, "{}", case.name);
            assert_eq!(bench(&image, &mut [0; TEXT]), case.answer(), "{}", case.name);
            // 45 comes last.
            let answer = case.refused.unwrap_or(45);
            assert_eq!(bench(&image, &mut []), -i64::from(answer), "{}", case.name);
        }
    }

    #[test]
    fn loading_stored() {
        for case in cases() {
            let text = read_stored_image(&case.stored_image()).map(|image| {
                let mut text = Vec::new();
                assert!(list_run(image, &mut text).is_ok());
                String::from_utf8_lossy(&text).into_owned()
            });
            assert_eq!(text, case.stored.map(|(_, text)| text.to_string()), "{}", case.name);
        }
    }

    #[test]
    fn converting() {
        for case in cases() {
            let image = case.stored_image();
            assert_eq!(convert(&image), case.converted(), "{}", case.name);
            match case.converted() {
                Ok(new) => {
                    assert_eq!(converted(&image), new, "{}", case.name);
                    assert_eq!(read_image(&new), read_stored_image(&image), "{}", case.name);
                    // No stored image any more: after 59 bytes of ST comes no mark.
                    assert_eq!(convert(&new), Err(41), "{}", case.name);
                }
                Err(number) => assert_eq!(converted(&image), format!("refused {number}\n").as_bytes(), "{}", case.name),
            }
        }
    }

    /// The records that are kept are in order, and some are dropped just where 51 is answered no.
    #[test]
    fn kept_places() {
        for case in cases() {
            let Ok((kept, _)) = case.stored else { continue };
            assert!(kept.is_sorted(), "{}", case.name);
            assert_eq!(kept.len() < case.records.len(), case.refused == Some(51), "{}", case.name);
        }
    }
}
