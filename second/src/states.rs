//! Directed images for the bytes of ST, with answers that were worked out by hand.

use crate::words::Descriptor;

/// An image and what it asks for.
pub struct Case {
    pub name: String,
    pub image: Vec<u8>,
    /// The listing, or the question by which the image is refused.
    pub listing: Result<&'static str, u8>,
    /// What the program for stored images gives, or the question by which it refuses.
    pub converted: Result<Vec<u8>, u8>,
}

/// Bytes of text that are enough for every case that isn't refused.
pub const TEXT: usize = 64 * 3;

impl Case {
    /// What the bench's call answers with `TEXT` bytes.
    pub fn answer(&self) -> i64 {
        match self.listing {
            Ok(text) => text.len() as i64,
            Err(number) => -i64::from(number),
        }
    }
}

const ME: &[u8] = b"ME\0\0\0\x20";
const RN: &[u8] = b"RN\0\0\0\x02";

/// The first 59 bytes: A 0, DBR 0 and `length`; segment 0, word 0; PR7 in ring `pr`, all else in ring 4.
fn registers(length: u8, pr: u8) -> Vec<u8> {
    let mut bytes = vec![0; 13];
    bytes.push(length);
    for ring in [4, 4, 4, 4, 4, 4, 4, 4, pr] {
        bytes.extend([ring, 0, 0, 0, 0]);
    }
    bytes
}

/// The mark, the first 59 bytes, and these.
fn st(rest: &[u8]) -> Vec<u8> {
    [b"ST", &registers(2, 4)[..], rest].concat()
}

/// Today's.
fn state(switch: u8, save: u16, handler: u16) -> Vec<u8> {
    let [[save_high, save_low], [handler_high, handler_low]] = [save, handler].map(u16::to_be_bytes);
    st(&[switch, save_high, save_low, handler_high, handler_low])
}

fn wd(address: u32, word: u64) -> Vec<u8> {
    [&b"WD"[..], &address.to_be_bytes(), &word.to_be_bytes()].concat()
}

/// Segment 0, the code, is words 2 to 5, all zero; segment 1 words 16 to 28, which may be written.
fn segments() -> Vec<u8> {
    let code = Descriptor { address: 2, length: 4, r1: 4, r2: 4, r3: 4, e: true, v: true, ..Descriptor::default() };
    let save = Descriptor { address: 16, length: 13, w: true, v: true, ..Descriptor::default() };
    [wd(0, code.to_word()), wd(1, save.to_word())].concat()
}

/// The first word is zero: no opcode of the table.
const UNDELIVERED: &str = "fault 32 0 4 0 0 0\n";

pub fn cases() -> Vec<Case> {
    [fields(), lengths()].into_iter().flatten().collect()
}

/// ST of 64 bytes. As a stored image it goes on after 59 with bytes that are no mark.
fn fields() -> Vec<Case> {
    let segments = segments();
    let case = |name: &str, st: Vec<u8>, listing| {
        let image = [ME, &st, &segments, RN].concat();
        Case { name: name.to_string(), image, listing, converted: Err(41) }
    };
    let with = |length, pr, rest: &[u8]| [b"ST", &registers(length, pr)[..], rest].concat();
    vec![
        case("all zero", state(0, 0, 0), Ok(UNDELIVERED)),
        case("switch off", state(0, 1, 0), Ok(UNDELIVERED)),
        // The code's segment has four words.
        case("switch on, save segment 0", state(1, 0, 0), Ok(UNDELIVERED)),
        // Ring 0 may not execute it: 21, delivered as well.
        case("switch on, save segment 1, handler segment 0", state(1, 1, 0), Ok("1 0 0 0 0\n2 0 0 0 0\nspent 2 0\n")),
        case("handler segment 258", state(1, 1, 258), Ok("1 0 258 0 0\n2 0 258 0 0\nspent 2 0\n")),
        case("handler segment 4095", state(1, 1, 4_095), Ok("1 0 4095 0 0\n2 0 4095 0 0\nspent 2 0\n")),
        case("handler segment 4096", state(1, 1, 4_096), Err(2)),
        case("handler segment 4096, switch off", state(0, 1, 4_096), Err(2)),
        case("handler segment 65535", state(1, 1, 65_535), Err(2)),
        case("save segment 2", state(1, 2, 0), Ok(UNDELIVERED)),
        // Its low byte is a good one's.
        case("save segment 257", state(1, 257, 0), Ok(UNDELIVERED)),
        case("save segment 4095", state(1, 4_095, 0), Ok(UNDELIVERED)),
        case("save segment 4096", state(1, 4_096, 0), Err(2)),
        case("save segment 4097, switch off", state(0, 4_097, 0), Err(2)),
        case("save segment 65535", state(1, 65_535, 0), Err(2)),
        case("switch 2", state(2, 1, 0), Err(2)),
        case("switch 128", state(128, 1, 0), Err(2)),
        case("switch 255", state(255, 1, 0), Err(2)),
        case("switch 2 and 3 no", with(2, 3, &[2, 0, 1, 0, 0]), Err(2)),
        case("switch 2 and 4 no", with(33, 4, &[2, 0, 1, 0, 0]), Err(2)),
        case("switch 1 and 3 no", with(2, 3, &[1, 0, 1, 0, 0]), Err(3)),
        case("switch 1 and 4 no", with(33, 4, &[1, 0, 1, 0, 0]), Err(4)),
        case("51 before a switch of 2", [state(2, 1, 0), wd(9, 0), wd(9, 0)].concat(), Err(51)),
        case("44 before a switch of 2", [state(2, 1, 0), wd(32, 0)].concat(), Err(44)),
        case("42, a second ST, before a switch of 2", [state(2, 1, 0), state(0, 0, 0)].concat(), Err(42)),
    ]
}

/// ST of other lengths: only 59 bytes are a stored image's.
fn lengths() -> Vec<Case> {
    let segments = segments();
    let image = |st: &[u8], end: &[u8]| [ME, st, &segments, end].concat();
    let case = |name: &str, image, listing, converted| Case { name: name.to_string(), image, listing, converted };
    let stored = image(&st(&[]), RN);
    let new = image(&state(0, 0, 0), RN);
    let mut cases = vec![
        case("59 bytes", stored, Err(41), Ok(new)),
        case(
            "59 bytes, then RN",
            [ME, &segments, &st(&[]), RN].concat(),
            Err(41),
            Ok([ME, &segments, &state(0, 0, 0), RN].concat()),
        ),
        // Five bytes of the second are the first one's: then comes no mark.
        case("59 bytes twice", [ME, &st(&[]), &st(&[]), RN].concat(), Err(41), Err(42)),
        case("59 bytes and no more", [ME, &st(&[])].concat(), Err(41), Err(42)),
        case("64 bytes and no more", [ME, &state(0, 0, 0)].concat(), Err(42), Err(41)),
        case("59 bytes, refused 2", [ME, b"ST", &registers(2, 8), RN].concat(), Err(41), Err(2)),
        case("59 bytes, refused 3", [ME, b"ST", &registers(2, 3), RN].concat(), Err(41), Err(3)),
        case("59 bytes, refused 4", [ME, b"ST", &registers(33, 4), RN].concat(), Err(41), Err(4)),
        // The five bytes are as a WD starts; what is left of it has a WD's mark as well.
        case(
            "59 bytes, then a WD that holds a mark",
            [ME, &st(&[]), &wd(0x57, 0x44 << 56), RN].concat(),
            Err(41),
            Err(44),
        ),
    ];
    for more in [1, 2, 3, 4, 6, 7, 64] {
        let name = format!("{} bytes", 59 + more);
        cases.push(case(&name, image(&st(&vec![0; more]), RN), Err(41), Err(41)));
    }
    for bytes in 0..59 {
        let name = format!("{bytes} bytes and no more");
        cases.push(case(&name, [ME, &st(&[])[..2 + bytes]].concat(), Err(41), Err(41)));
    }
    for more in 1..5 {
        let name = format!("{} bytes and no more", 59 + more);
        cases.push(case(&name, [ME, &st(&vec![0; more])].concat(), Err(41), Err(41)));
    }
    cases
}

#[cfg(test)]
mod tests {
    use super::*;
    use crate::{bench, convert, converted, list, read_image, read_stored_image};

    #[test]
    fn loading() {
        for case in cases() {
            let text = case.listing.map_or_else(|number| format!("refused {number}\n"), str::to_string);
            let mut listing = Vec::new();
            assert!(list(&case.image, &mut listing).is_ok());
            assert_eq!(String::from_utf8_lossy(&listing), text, "{}", case.name);
            assert_eq!(bench(&case.image, &mut [0; TEXT]), case.answer(), "{}", case.name);
        }
    }

    #[test]
    fn converting() {
        for case in cases() {
            assert_eq!(convert(&case.image), case.converted, "{}", case.name);
            match case.converted {
                Ok(new) => assert_eq!(read_image(&new), read_stored_image(&case.image), "{}", case.name),
                Err(number) => assert_eq!(converted(&case.image), format!("refused {number}\n").as_bytes()),
            }
        }
    }
}
