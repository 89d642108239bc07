//! Directed tables of brackets, and inputs of the program that sets them: answers, memories and outputs were worked out by
//! hand.

use crate::brackets::Row;
use crate::calls::{me, rn, wd};
use crate::image::ME_LIMIT;
use crate::words::Dbr;

/// What a call is handed.
#[derive(Clone, Debug, Default, PartialEq, Eq)]
pub struct Table {
    pub memory: Vec<u64>,
    pub dbr: Dbr,
    pub rows: Vec<Row>,
}

/// A table, and what becomes of it.
pub struct Case {
    pub name: String,
    pub table: Table,
    /// The memory that it leaves, or the number that refuses it.
    pub answer: Result<Vec<u64>, u32>,
}

/// Bytes for the program, and what it writes.
pub struct Input {
    pub name: String,
    pub bytes: Vec<u8>,
    pub output: Vec<u8>,
}

impl Case {
    /// The same for the program, if its input can have as many words and rows, and 2 lets the DBR by.
    pub fn input(&self) -> Option<Input> {
        let Table { memory, dbr, rows } = &self.table;
        if memory.len() > ME_LIMIT as usize || rows.len() > 65_535 || dbr.address > 16_777_215 {
            return None;
        }
        let [me, st, rn] = [me(memory.len() as u32), st(*dbr, 4, 1), rn(9)];
        // Downwards, so that it has something to put in order.
        let mut given = wds(memory);
        given.reverse();
        let output = match &self.answer {
            Ok(after) => [&me[..], &st, &wds(after).concat(), &rn].concat(),
            Err(number) => refusal(*number),
        };
        let bytes = [&rows_bytes(rows)[..], &me, &given.concat(), &st, &rn].concat();
        Some(Input { name: self.name.clone(), bytes, output })
    }
}

/// A table as the program reads it: the count of rows 2; each row's first 2, last 2, rings and flags 1 each.
pub fn rows_bytes(rows: &[Row]) -> Vec<u8> {
    let mut bytes = (rows.len() as u16).to_be_bytes().to_vec();
    for row in rows {
        bytes.extend(row.first.to_be_bytes());
        bytes.extend(row.last.to_be_bytes());
        bytes.extend([row.r1, row.r2, row.r3, row.read, row.write, row.execute]);
    }
    bytes
}

/// A WD for each word that isn't zero.
fn wds(memory: &[u64]) -> Vec<Vec<u8>> {
    let words = memory.iter().enumerate().filter(|(_, word)| **word != 0);
    words.map(|(address, word)| wd(address as u32, *word)).collect()
}

fn refusal(number: u32) -> Vec<u8> {
    format!("refused {number}\n").into_bytes()
}

/// Rings, flags, and what they are in a descriptor's bits 40 to 51: R1 + 8 × R2 + 64 × R3, and R 512, W 1,024, E 2,048.
type Setting = ([u8; 3], [u8; 3], u64);

const NONE: Setting = ([0, 0, 0], [0, 0, 0], 0x000);
const ALL: Setting = ([7, 7, 7], [1, 1, 1], 0xfff);
const STAIRS: Setting = ([1, 2, 3], [1, 1, 0], 0x6d1);
const GATES: Setting = ([0, 0, 7], [0, 0, 1], 0x9c0);
const FOURS: Setting = ([4, 4, 4], [1, 0, 1], 0xb24);
const OPEN: Setting = ([0, 7, 7], [0, 1, 0], 0x5f8);
const UPPER: Setting = ([2, 5, 6], [1, 0, 0], 0x3aa);
const SIXES: Setting = ([6, 6, 7], [0, 1, 1], 0xdf6);
const SETTINGS: [Setting; 8] = [NONE, ALL, STAIRS, GATES, FOURS, OPEN, UPPER, SIXES];

fn row(first: u16, last: u16, ([r1, r2, r3], [read, write, execute], _): Setting) -> Row {
    Row { first, last, r1, r2, r3, read, write, execute }
}

/// Bits 52 to 63, V and GATE; 40 to 51, the six fields; 0 to 39, ADDRESS and LENGTH.
const fn word(above: u64, fields: u64, below: u64) -> u64 {
    above << 52 | fields << 40 | below
}

const ONES: u64 = u64::MAX;
const FRONT: u64 = 0x0123_4567_89ab_cdef;
const BEHIND: u64 = 0xfedc_ba98_7654_3210;

/// Words 3 to 6 are four descriptors: all bits on, none, and every other.
const MEMORY: [u64; 10] = [ONES, 0, FRONT, ONES, 0, 0x5555_5555_5555_5555, 0xaaaa_aaaa_aaaa_aaaa, ONES, 0, BEHIND];
const DBR: Dbr = Dbr { address: 3, length: 4 };

/// The same with these six fields.
fn with_fields([f0, f1, f2, f3]: [u64; 4]) -> Vec<u64> {
    let [d0, d1] = [word(0xfff, f0, 0xff_ffff_ffff), word(0, f1, 0)];
    let [d2, d3] = [word(0x555, f2, 0x55_5555_5555), word(0xaaa, f3, 0xaa_aaaa_aaaa)];
    vec![ONES, 0, FRONT, d0, d1, d2, d3, ONES, 0, BEHIND]
}

/// Every order of a few rows.
fn orders(rows: &[Row]) -> Vec<Vec<Row>> {
    if rows.is_empty() {
        return vec![Vec::new()];
    }
    let mut all = Vec::new();
    for place in 0..rows.len() {
        let rest = [&rows[..place], &rows[place + 1..]].concat();
        all.extend(orders(&rest).into_iter().map(|order| [&rows[place..=place], &order].concat()));
    }
    all
}

struct Cases(Vec<Case>);

impl Cases {
    fn add(&mut self, name: impl Into<String>, table: Table, answer: Result<Vec<u64>, u32>) {
        self.0.push(Case { name: name.into(), table, answer });
    }

    /// Of the four descriptors.
    fn four(&mut self, name: impl Into<String>, rows: Vec<Row>, answer: Result<[u64; 4], u32>) {
        self.add(name, Table { memory: MEMORY.to_vec(), dbr: DBR, rows }, answer.map(with_fields));
    }

    /// The same in every order of the rows, which are given by first, last and setting.
    fn in_every_order(&mut self, name: &str, rows: &[(u16, u16, Setting)], answer: Result<[u64; 4], u32>) {
        let rows: Vec<Row> = rows.iter().map(|&(first, last, setting)| row(first, last, setting)).collect();
        for (number, order) in orders(&rows).into_iter().enumerate() {
            self.four(format!("{name}, order {number}"), order, answer);
        }
    }
}

pub fn cases() -> Vec<Case> {
    let mut cases = Cases(Vec::new());
    descriptor_segments(&mut cases);
    numbers_in_order(&mut cases);
    row_counts(&mut cases);
    bad_rows_in_places(&mut cases);
    accepted(&mut cases);
    in_no_row(&mut cases);
    in_several_rows(&mut cases);
    lowest_decides(&mut cases);
    no_segments(&mut cases);
    flags(&mut cases);
    single_bits(&mut cases);
    overlaps(&mut cases);
    all_segments(&mut cases);
    cases.0
}

// ---- 1 and 4.

/// 1, with 128 MB of memory each.
pub fn largest_memories() -> Vec<Case> {
    let most = 16_777_216;
    let mut cases = Cases(Vec::new());
    // 2 would be no.
    let table = Table { memory: vec![0; most], dbr: Dbr { address: 16_777_216, length: 0 }, rows: Vec::new() };
    cases.add("1 just yes, 4 at the end of all", table.clone(), Ok(table.memory));
    let rows = vec![row(1, 0, ALL); 33];
    let table = Table { memory: vec![0; most + 1], dbr: Dbr { address: 0, length: 4_097 }, rows };
    cases.add("1 just no, 4 and 53 no", table, Err(1));
    cases.0
}

/// 4: where the descriptor segment lies and ends. One row for all of it.
fn descriptor_segments(cases: &mut Cases) {
    for (words, address, length, is_yes) in [
        (10, 0, 4, true),
        (10, 6, 4, true),
        (10, 7, 4, false),
        (10, 0, 10, true),
        (10, 0, 11, false),
        (10, 1, 10, false),
        (10, 9, 1, true),
        (10, 10, 1, false),
        (10, 10, 0, true),
        (10, 11, 0, false),
        (10, 0, 65_535, false),
        // Cut to 8, 16 or 24 bits, they would be within.
        (10, 259, 4, false),
        (10, 65_539, 4, false),
        (10, 65_536, 0, false),
        (10, 16_777_215, 1, false),
        (10, 16_777_216, 0, false),
        (10, 16_777_219, 4, false),
        (10, 0x8000_0000, 4, false),
        // The sum goes beyond 32 bits.
        (10, u32::MAX, 0, false),
        (10, u32::MAX, 1, false),
        (10, u32::MAX, 2, false),
        (10, u32::MAX - 3, 4, false),
        (10, u32::MAX - 3, 8, false),
        (10, u32::MAX, 4_096, false),
        (10, u32::MAX, 65_535, false),
        (0, 0, 0, true),
        (0, 0, 1, false),
        (0, 1, 0, false),
        (0, u32::MAX, 0, false),
        (1, 0, 1, true),
        (1, 1, 0, true),
        (4_095, 0, 4_096, false),
        (4_096, 0, 4_096, true),
        (4_096, 1, 4_095, true),
        (4_096, 1, 4_096, false),
        (4_097, 0, 4_097, false),
        (8_192, 0, 4_097, false),
        (8_192, 4_096, 4_096, true),
        (8_192, 4_097, 4_096, false),
        (70_000, 0, 4_097, false),
        (70_000, 0, 65_535, false),
        (70_000, 65_904, 4_096, true),
        (70_000, 65_905, 4_096, false),
    ] {
        let rows = if length > 0 { vec![row(0, length - 1, STAIRS)] } else { Vec::new() };
        let table = Table { memory: vec![ONES; words], dbr: Dbr { address, length }, rows };
        let answer = if is_yes {
            let mut after = vec![ONES; words];
            after[address as usize..][..usize::from(length)].fill(word(0xfff, 0x6d1, 0xff_ffff_ffff));
            Ok(after)
        } else {
            Err(4)
        };
        cases.add(format!("4: DBR {address} and {length} in {words} words"), table, answer);
    }
}

/// 4 before 53, and 53 before 54 and 55, whatever else is no.
fn numbers_in_order(cases: &mut Cases) {
    let fits = row(0, 3, FOURS);
    let (empty, ring) = (row(2, 1, FOURS), Row { r3: 8, ..fits });
    let (low, high) = (row(0, 0, ALL), row(2, 3, NONE));
    let tables = [
        ("a table that fits", vec![fits], Ok([0xb24; 4])),
        ("33 rows", vec![fits; 33], Err(53)),
        ("33 rows, none for segment 0", vec![high; 33], Err(53)),
        ("an empty row", vec![fits, empty], Err(53)),
        ("nothing but an empty row", vec![empty], Err(53)),
        ("ring 8", vec![ring], Err(53)),
        ("ring 8, segment 0 in several", vec![ring, fits], Err(53)),
        ("ring 8, segments 1 in none and 0 in several", vec![low, Row { last: 0, ..ring }, high], Err(53)),
        ("no row", vec![], Err(54)),
        ("segment 1 in no row", vec![low, high], Err(54)),
        ("segment 0 in several", vec![low, fits], Err(55)),
        ("segments 0 in several, 1 in none", vec![low, low, high], Err(55)),
        ("segments 1 in none, 2 in several", vec![low, high, high], Err(54)),
    ];
    for (name, rows, answer) in tables {
        cases.four(format!("4 yes, {name}"), rows.clone(), answer);
        // One past the end, too long, and both.
        for (address, length) in [(7, 4), (3, 8), (0, 4_097), (u32::MAX, 4), (u32::MAX, 4_097)] {
            let table = Table { memory: MEMORY.to_vec(), dbr: Dbr { address, length }, rows: rows.clone() };
            cases.add(format!("4 no: DBR {address} and {length}, {name}"), table, Err(4));
        }
    }
}

// ---- 53.

/// So many segments, each in a row of its own, with two words before and behind.
fn one_each(segments: u16) -> Table {
    let mut memory = vec![0; usize::from(segments) + 4];
    memory[1] = ONES;
    memory[usize::from(segments) + 2] = ONES;
    let rows = (0..segments).map(|segment| row(segment, segment, SETTINGS[usize::from(segment % 8)])).collect();
    Table { memory, dbr: Dbr { address: 2, length: segments }, rows }
}

/// What one of them leaves: the settings' bits, again and again.
fn after_one_each(segments: usize) -> Vec<u64> {
    let fields = [0x000, 0xfff, 0x6d1, 0x9c0, 0xb24, 0x5f8, 0x3aa, 0xdf6];
    let descriptors: Vec<u64> = (0..segments).map(|segment| word(0, fields[segment % 8], 0)).collect();
    [&[0, ONES], &descriptors[..], &[ONES, 0]].concat()
}

/// At most 32 rows.
fn row_counts(cases: &mut Cases) {
    for segments in [1, 2, 8, 31, 32] {
        let table = one_each(segments);
        let after = after_one_each(usize::from(segments));
        let mut reversed = table.clone();
        reversed.rows.reverse();
        let mut turned = table.clone();
        turned.rows.rotate_left(usize::from(segments) / 2);
        for (order, table) in [("", table), (", downwards", reversed), (", the second half first", turned)] {
            cases.add(format!("{segments} rows that fit{order}"), table, Ok(after.clone()));
        }
    }
    for segments in [33, 34, 40, 64, 255, 256, 257] {
        cases.add(format!("53: {segments} rows that fit"), one_each(segments), Err(53));
    }
    let changed = |segments: u16, change: &dyn Fn(&mut Vec<Row>)| {
        let mut table = one_each(segments);
        change(&mut table.rows);
        table
    };
    // The last two segments, 31 and 32, would have got settings 7 and 0.
    let table = changed(33, &|rows| {
        rows.truncate(32);
        rows[31].last = 32;
    });
    let mut after = after_one_each(33);
    after[34] = word(0, 0xdf6, 0);
    cases.add("32 rows for 33 segments", table, Ok(after));
    cases.add("54: 32 rows, the 33rd segment in none", changed(33, &|rows| rows.truncate(32)), Err(54));
    let without_first = changed(33, &|rows| *rows = rows.split_off(1));
    cases.add("54: 32 rows, the first segment in none", without_first, Err(54));
    cases.add("55: 32 rows, the last twice", changed(31, &|rows| rows.push(rows[30])), Err(55));
    cases.add("55: 32 rows, the first twice", changed(31, &|rows| rows.push(rows[0])), Err(55));
    for place in [0, 15, 31] {
        let name = |what: &str| format!("53: {what} of 32 rows at place {place}");
        cases.add(name("ring 8"), changed(32, &|rows| rows[place].r3 = 8), Err(53));
        cases.add(name("last 32"), changed(32, &|rows| rows[place].last = 32), Err(53));
        cases.add(name("first above last"), changed(32, &|rows| rows[place].first += 1), Err(53));
        cases.add(name("a bad row as a 33rd"), changed(32, &|rows| rows.insert(place, row(1, 0, ALL))), Err(53));
        cases.add(name("a good row as a 33rd"), changed(32, &|rows| rows.insert(place, row(9, 9, ALL))), Err(53));
    }
    cases.add("53: 33 rows, two segments in none", changed(35, &|rows| rows.truncate(33)), Err(53));
    for (name, place) in [("first", 0), ("last", 32)] {
        cases.add(format!("53: 33 rows, the {name} bad"), changed(33, &|rows| rows[place].r1 = 8), Err(53));
    }
    // Cut to 8 or 16 bits, these counts are 0, 1 and 32; the first rows alone would fit.
    for count in [33, 256, 257, 288, 65_536, 65_537, 65_568] {
        let mut rows = one_each(32).rows;
        rows.resize(count, row(0, 31, ALL));
        cases.add(format!("53: {count} rows, the first 32 fit"), Table { rows, ..one_each(32) }, Err(53));
        let rows = vec![row(0, 3, STAIRS); count];
        cases.four(format!("53: {count} equal rows"), rows, Err(53));
        let table =
            Table { memory: vec![ONES; 3], dbr: Dbr { address: 1, length: 0 }, rows: vec![row(0, 0, ALL); count] };
        cases.add(format!("53: {count} rows for no segment"), table, Err(53));
    }
}

/// Rows that are no rows of a table with four segments.
fn bad_rows() -> Vec<Row> {
    let ranges = [
        // First above last.
        (1, 0),
        (2, 1),
        (3, 2),
        (4, 3),
        (2, 0),
        (3, 0),
        (4, 0),
        (65_535, 0),
        (65_535, 3),
        // Last not below LENGTH; some would be in 8 or 12 bits.
        (0, 4),
        (1, 4),
        (3, 4),
        (4, 4),
        (0, 5),
        (1, 258),
        (257, 258),
        (1, 4_095),
        (1, 4_096),
        (1, 4_098),
        (1, 32_770),
        (1, 65_535),
        (0, 65_535),
        (65_535, 65_535),
        // Both.
        (5, 4),
        (65_535, 65_534),
    ];
    let rings = [
        // R3 above 7; some would be in order in 3 bits.
        [0, 0, 8],
        [0, 7, 8],
        [7, 7, 8],
        [0, 8, 8],
        [7, 8, 8],
        [8, 8, 8],
        [9, 9, 9],
        [1, 9, 10],
        [16, 16, 16],
        [0, 0, 64],
        [128, 128, 128],
        [0, 0, 255],
        [7, 7, 255],
        [0, 255, 255],
        [255, 255, 255],
        // R1 above R2.
        [1, 0, 0],
        [1, 0, 7],
        [5, 4, 5],
        [7, 0, 7],
        [7, 6, 7],
        [8, 0, 0],
        [8, 7, 7],
        [255, 0, 0],
        [255, 7, 7],
        // R2 above R3.
        [0, 1, 0],
        [0, 7, 0],
        [0, 7, 6],
        [4, 5, 4],
        [7, 7, 6],
        [0, 8, 0],
        [0, 8, 7],
        [7, 8, 7],
        [0, 255, 7],
        [8, 8, 7],
        // Both.
        [2, 1, 0],
        [7, 6, 5],
        [255, 254, 253],
    ];
    let ranges = ranges.map(|(first, last)| row(first, last, STAIRS));
    let rings = rings.map(|rings| row(1, 2, (rings, [1, 1, 0], 0)));
    [&ranges[..], &rings].concat()
}

/// Each bad row at the first, a middle and the last place: in a row's stead, so that 54 would be next, and beside rows
/// that fit, so that 55 would be.
fn bad_rows_in_places(cases: &mut Cases) {
    let [low, middle, high] = [row(0, 0, FOURS), row(1, 2, STAIRS), row(3, 3, ALL)];
    cases.four("three rows that fit", vec![low, middle, high], Ok([0xb24, 0x6d1, 0x6d1, 0xfff]));
    for bad in bad_rows() {
        let Row { first, last, r1, r2, r3, .. } = bad;
        for (which, rows) in [("in a row's stead", vec![low, high]), ("beside three rows", vec![low, middle, high])] {
            for place in [0, 1, rows.len()] {
                let mut rows = rows.clone();
                rows.insert(place, bad);
                let name = format!("53: {first} to {last}, rings {r1} {r2} {r3}, {which} at place {place}");
                cases.four(name, rows, Err(53));
            }
        }
        // Segments 0 in no row, 3 in several; and the other way round.
        cases.four("53 before 54 and 55", vec![middle, high, bad, high], Err(53));
        cases.four("53 before 55 and 54", vec![low, bad, low, middle], Err(53));
    }
}

/// All rings from 0 to 8 in one row: a table is accepted if they are in order and R3 isn't 8.
pub fn rings() -> Vec<Case> {
    let mut cases = Cases(Vec::new());
    for number in 0..729 {
        let [r1, r2, r3] = [number / 81, number / 9 % 9, number % 9];
        let rings = [r1, r2, r3].map(|ring| ring as u8);
        let is_in_order = r1 <= r2 && r2 <= r3 && r3 != 8;
        // R and E on.
        let answer = if is_in_order { Ok([0xa00 + 64 * r3 + 8 * r2 + r1; 4]) } else { Err(53) };
        cases.four(format!("rings {r1} {r2} {r3}"), vec![row(0, 3, (rings, [1, 0, 1], 0))], answer);
    }
    cases.0
}

// ---- Accepted, 54 and 55.

fn accepted(cases: &mut Cases) {
    let mut fits = |rows: &[(u16, u16, Setting)], fields| cases.in_every_order("that fits", rows, Ok(fields));
    for (setting, fields) in SETTINGS.into_iter().zip([0x000, 0xfff, 0x6d1, 0x9c0, 0xb24, 0x5f8, 0x3aa, 0xdf6]) {
        fits(&[(0, 3, setting)], [fields; 4]);
    }
    fits(&[(0, 0, NONE), (1, 3, ALL)], [0x000, 0xfff, 0xfff, 0xfff]);
    fits(&[(0, 1, FOURS), (2, 3, OPEN)], [0xb24, 0xb24, 0x5f8, 0x5f8]);
    fits(&[(0, 2, GATES), (3, 3, UPPER)], [0x9c0, 0x9c0, 0x9c0, 0x3aa]);
    // What they get is the same.
    fits(&[(0, 1, SIXES), (2, 3, SIXES)], [0xdf6; 4]);
    fits(&[(0, 0, STAIRS), (1, 2, NONE), (3, 3, ALL)], [0x6d1, 0x000, 0x000, 0xfff]);
    fits(&[(0, 1, ALL), (2, 2, SIXES), (3, 3, NONE)], [0xfff, 0xfff, 0xdf6, 0x000]);
    fits(&[(0, 0, NONE), (1, 1, ALL), (2, 2, STAIRS), (3, 3, GATES)], [0x000, 0xfff, 0x6d1, 0x9c0]);
    fits(&[(0, 0, FOURS), (1, 1, OPEN), (2, 2, UPPER), (3, 3, SIXES)], [0xb24, 0x5f8, 0x3aa, 0xdf6]);
}

fn in_no_row(cases: &mut Cases) {
    let mut hole = |rows: &[(u16, u16, Setting)]| cases.in_every_order("54", rows, Err(54));
    hole(&[]);
    // Segment 0, 1, 2, 3.
    hole(&[(1, 3, ALL)]);
    hole(&[(0, 0, ALL), (2, 3, NONE)]);
    hole(&[(0, 1, ALL), (3, 3, NONE)]);
    hole(&[(0, 2, ALL)]);
    hole(&[(1, 1, NONE), (2, 2, ALL), (3, 3, STAIRS)]);
    hole(&[(0, 0, NONE), (2, 2, ALL), (3, 3, STAIRS)]);
    hole(&[(0, 0, NONE), (1, 1, ALL), (3, 3, STAIRS)]);
    hole(&[(0, 0, NONE), (1, 1, ALL), (2, 2, STAIRS)]);
    // Several.
    hole(&[(1, 2, ALL)]);
    hole(&[(0, 0, ALL)]);
    hole(&[(1, 1, ALL)]);
    hole(&[(2, 2, ALL)]);
    hole(&[(3, 3, ALL)]);
    hole(&[(0, 0, ALL), (3, 3, ALL)]);
    hole(&[(1, 1, ALL), (3, 3, ALL)]);
}

fn in_several_rows(cases: &mut Cases) {
    let mut several = |rows: &[(u16, u16, Setting)]| cases.in_every_order("55", rows, Err(55));
    // Segment 0, 1, 2, 3.
    several(&[(0, 0, ALL), (0, 3, NONE)]);
    several(&[(0, 1, ALL), (1, 3, NONE)]);
    several(&[(0, 2, ALL), (2, 3, NONE)]);
    several(&[(0, 3, ALL), (3, 3, NONE)]);
    several(&[(0, 3, ALL), (1, 1, NONE)]);
    several(&[(0, 3, ALL), (1, 2, NONE)]);
    // Equal rows, too.
    several(&[(0, 3, ALL), (0, 3, ALL)]);
    several(&[(0, 3, ALL), (0, 3, NONE)]);
    several(&[(0, 2, ALL), (3, 3, NONE), (3, 3, NONE)]);
    several(&[(0, 0, ALL), (0, 0, ALL), (1, 3, NONE)]);
    // In three and in four.
    several(&[(0, 3, ALL), (0, 3, NONE), (0, 3, GATES)]);
    several(&[(0, 1, ALL), (1, 2, NONE), (1, 3, GATES)]);
    several(&[(0, 3, ALL), (3, 3, NONE), (3, 3, GATES), (3, 3, OPEN)]);
    several(&[(0, 0, ALL), (0, 1, NONE), (0, 2, GATES), (0, 3, OPEN)]);
    several(&[(0, 3, ALL), (0, 0, NONE), (1, 2, GATES), (3, 3, OPEN)]);
}

/// Where some segment is in no row and another in several.
fn lowest_decides(cases: &mut Cases) {
    for (rows, number) in [
        (&[(1, 2, ALL), (2, 3, NONE)][..], 54),
        (&[(1, 1, ALL), (1, 3, NONE)], 54),
        (&[(3, 3, ALL), (3, 3, NONE)], 54),
        (&[(0, 0, ALL), (2, 3, NONE), (3, 3, GATES)], 54),
        (&[(0, 0, ALL), (2, 2, NONE), (2, 3, GATES)], 54),
        (&[(0, 1, ALL), (3, 3, NONE), (3, 3, GATES)], 54),
        // In two, and in none as well.
        (&[(1, 3, ALL), (1, 3, NONE), (1, 3, GATES)], 54),
        (&[(0, 0, ALL), (2, 2, NONE), (2, 2, GATES)], 54),
        (&[(0, 0, ALL), (0, 0, NONE)], 55),
        (&[(0, 0, ALL), (0, 2, NONE)], 55),
        (&[(0, 1, ALL), (1, 2, NONE)], 55),
        (&[(0, 2, ALL), (2, 2, NONE)], 55),
        (&[(0, 0, ALL), (0, 0, NONE), (2, 3, GATES)], 55),
        (&[(0, 0, ALL), (0, 1, NONE), (3, 3, GATES)], 55),
        (&[(0, 1, ALL), (1, 1, NONE), (3, 3, GATES)], 55),
        (&[(0, 0, ALL), (0, 0, NONE), (0, 0, GATES)], 55),
        (&[(0, 0, ALL), (0, 0, NONE), (2, 2, GATES), (2, 2, OPEN)], 55),
        (&[(0, 0, ALL), (0, 0, NONE), (0, 0, GATES), (2, 3, OPEN)], 55),
    ] {
        cases.in_every_order(&format!("{number} of the lowest"), rows, Err(number));
    }
}

/// LENGTH 0 and 1.
fn no_segments(cases: &mut Cases) {
    let table = |address, length, rows: &[Row]| Table {
        memory: MEMORY.to_vec(),
        dbr: Dbr { address, length },
        rows: rows.to_vec(),
    };
    let [first, second] = [row(0, 0, GATES), row(1, 1, ALL)];
    for address in [0, 3, 10] {
        let name = |what: &str| format!("LENGTH 0 at {address}, {what}");
        cases.add(name("no row"), table(address, 0, &[]), Ok(MEMORY.to_vec()));
        cases.add(name("a row"), table(address, 0, &[first]), Err(53));
        cases.add(name("two rows"), table(address, 0, &[first, second]), Err(53));
        cases.add(name("a row with first above last"), table(address, 0, &[row(1, 0, GATES)]), Err(53));
        cases.add(name("a row up to 65535"), table(address, 0, &[row(0, 65_535, GATES)]), Err(53));
        cases.add(name("a row of 65535"), table(address, 0, &[row(65_535, 65_535, GATES)]), Err(53));
    }
    cases.add("LENGTH 1, no row", table(3, 1, &[]), Err(54));
    let mut after = MEMORY.to_vec();
    after[3] = word(0xfff, 0x9c0, 0xff_ffff_ffff);
    cases.add("LENGTH 1, a row", table(3, 1, &[first]), Ok(after));
    cases.add("LENGTH 1, the row twice", table(3, 1, &[first, first]), Err(55));
    cases.add("LENGTH 1, a row for the second segment", table(3, 1, &[second]), Err(53));
    cases.add("LENGTH 1, a row for both", table(3, 1, &[row(0, 1, ALL)]), Err(53));
    cases.add("LENGTH 1, two rows", table(3, 1, &[first, second]), Err(53));
}

// ---- What is written.

/// A flag is on at any value but 0.
fn flags(cases: &mut Cases) {
    for on in [1, 2, 3, 4, 8, 16, 32, 64, 128, 254, 255] {
        for ([read, write, execute], fields) in [
            ([0, 0, 0], 0x124),
            ([on, 0, 0], 0x324),
            ([0, on, 0], 0x524),
            ([on, on, 0], 0x724),
            ([0, 0, on], 0x924),
            ([on, 0, on], 0xb24),
            ([0, on, on], 0xd24),
            ([on, on, on], 0xf24),
        ] {
            let rows = vec![row(0, 3, ([4, 4, 4], [read, write, execute], 0))];
            cases.four(format!("flags {read} {write} {execute}"), rows, Ok([fields; 4]));
        }
    }
}

/// Descriptors with a single bit on, and with a single bit off.
fn single_bits(cases: &mut Cases) {
    let bit = |number: u32| 1_u64 << number;
    let add = |cases: &mut Cases, name: &str, setting, memory: Vec<u64>, after: Vec<u64>| {
        let table = Table { memory, dbr: Dbr { address: 0, length: 64 }, rows: vec![row(0, 63, setting)] };
        cases.add(name, table, Ok(after));
    };
    let after = |number: u32| match number {
        40..=51 => word(0, 0x6d1, 0),
        _ => word(0, 0x6d1, 0) | bit(number),
    };
    add(cases, "a single bit on", STAIRS, (0..64).map(bit).collect(), (0..64).map(after).collect());
    let after = |number: u32| match number {
        40..=51 => word(0xfff, 0x000, 0xff_ffff_ffff),
        _ => word(0xfff, 0x000, 0xff_ffff_ffff) & !bit(number),
    };
    add(cases, "a single bit off", NONE, (0..64).map(|number| !bit(number)).collect(), (0..64).map(after).collect());
}

/// What a descriptor covers, and whether it passes 12 to 14, isn't asked.
fn overlaps(cases: &mut Cases) {
    // DBR 2 and 4. Segment 0: the descriptors themselves, V on, rings 7 7 7, R W E. Segment 1: ADDRESS 0, LENGTH 65,535,
    // GATE 2,047, V off. Segment 2: the last address, rings 7 0 0, V on. Segment 3: empty, behind memory.
    let memory = vec![
        1,
        2,
        word(0x001, 0xfff, 0x00_0400_0002),
        word(0xffe, 0x000, 0xff_ff00_0000),
        word(0x001, 0x007, 0x00_01ff_ffff),
        word(0x003, 0x1ff, 0x00_0000_0009),
        3,
        4,
    ];
    let after = vec![
        1,
        2,
        word(0x001, 0x9c0, 0x00_0400_0002),
        word(0xffe, 0xfff, 0xff_ff00_0000),
        word(0x001, 0xfff, 0x00_01ff_ffff),
        word(0x003, 0x3aa, 0x00_0000_0009),
        3,
        4,
    ];
    let rows = [row(1, 2, ALL), row(0, 0, GATES), row(3, 3, UPPER)];
    for rows in orders(&rows) {
        let table = Table { memory: memory.clone(), dbr: Dbr { address: 2, length: 4 }, rows };
        cases.add("segments over descriptors, and bad ones", table, Ok(after.clone()));
    }
}

/// All 4,096 segments, with two words before and behind; each descriptor has its segment's number where it must stay.
fn all_segments(cases: &mut Cases) {
    let memory = |fields: &dyn Fn(u64) -> u64| {
        let descriptors: Vec<u64> = (0..4_096).map(|segno| word(segno, fields(segno), segno << 24 | segno)).collect();
        [&[ONES, 0], &descriptors[..], &[0, ONES]].concat()
    };
    let table = |rows: &[Row]| Table {
        memory: memory(&|_| 0x5a5),
        dbr: Dbr { address: 2, length: 4_096 },
        rows: rows.to_vec(),
    };
    cases.add("4096 segments in one row", table(&[row(0, 4_095, UPPER)]), Ok(memory(&|_| 0x3aa)));
    // Rows of 128 segments, the settings again and again.
    let rows: Vec<Row> =
        (0..32).map(|number| row(128 * number, 128 * number + 127, SETTINGS[usize::from(number % 8)])).collect();
    let fields = [0x000, 0xfff, 0x6d1, 0x9c0, 0xb24, 0x5f8, 0x3aa, 0xdf6];
    let after = memory(&|segno| fields[(segno / 128 % 8) as usize]);
    let reversed: Vec<Row> = rows.iter().rev().copied().collect();
    let (even, odd): (Vec<Row>, Vec<Row>) = rows.iter().partition(|row| row.first % 256 == 0);
    for (order, rows) in [("", &rows), (", downwards", &reversed), (", every other first", &[odd, even].concat())] {
        cases.add(format!("4096 segments in 32 rows{order}"), table(rows), Ok(after.clone()));
    }
    let changed = |place: usize, change: &dyn Fn(&mut Row)| {
        let mut rows = rows.clone();
        change(&mut rows[place]);
        table(&rows)
    };
    cases.add("54: 4096 segments, not 4095", changed(31, &|row| row.last = 4_094), Err(54));
    cases.add("54: 4096 segments, not 0", changed(0, &|row| row.first = 1), Err(54));
    cases.add("54: 4096 segments, not 2048", changed(16, &|row| row.first = 2_049), Err(54));
    cases.add("54: 4096 segments, not 2047", changed(15, &|row| row.last = 2_046), Err(54));
    cases.add("55: 4096 segments, 2047 twice", changed(16, &|row| row.first = 2_047), Err(55));
    cases.add("55: 4096 segments, 2048 twice", changed(15, &|row| row.last = 2_048), Err(55));
    let moved = changed(0, &|row| (row.first, row.last) = (4_095, 4_095));
    cases.add("54: 4096 segments, not 0 to 127, 4095 twice", moved, Err(54));
    cases.add("53: 4096 segments, last 4096", changed(31, &|row| row.last = 4_096), Err(53));
    let rows = [&rows[..30], &[row(3_840, 4_095, ALL), row(4_095, 4_095, ALL)]].concat();
    cases.add("55: 4096 segments, 4095 twice", table(&rows), Err(55));
    let dbr = Dbr { address: 2, length: 4_095 };
    cases.add("53: LENGTH 4095, last 4095", Table { dbr, ..table(&[row(0, 4_095, ALL)]) }, Err(53));
}

// ---- The program.

/// A and all pointers have bytes of their own; IPR in ring 4, PR0 in ring `pr`, the others at 4 or above; save segment
/// 4,095, handler segment 258.
pub(crate) fn st(dbr: Dbr, pr: u8, switch: u8) -> Vec<u8> {
    let mut record = b"ST\x11\x22\x33\x44\x55\x66\x77\x88".to_vec();
    record.extend(dbr.address.to_be_bytes());
    record.extend(dbr.length.to_be_bytes());
    record.extend([4, 0x0a, 0xbc, 0x12, 0x34]);
    record.extend([pr, 0, 1, 0xff, 0xfe]);
    for number in 1..8 {
        record.extend([4 + number % 4, number, 0xa0 + number, 0xb0 + number, 0xc0 + number]);
    }
    record.extend([switch, 0x0f, 0xff, 0x01, 0x02]);
    record
}

struct Inputs(Vec<Input>);

impl Inputs {
    fn accepted(&mut self, name: impl Into<String>, bytes: &[&[u8]], output: &[&[u8]]) {
        self.0.push(Input { name: name.into(), bytes: bytes.concat(), output: output.concat() });
    }

    fn refused(&mut self, name: impl Into<String>, bytes: &[&[u8]], number: u32) {
        self.accepted(name, bytes, &[&refusal(number)]);
    }
}

/// Two rows: segments 0 and 1 get rings 1 2 3, R and W; segment 2 gets nothing at all.
const TWO_ROWS: &[u8] = b"\0\x02\0\0\0\x01\x01\x02\x03\x01\x01\0\0\x02\0\x02\0\0\0\0\0\0";
/// Words 2 to 4 are the descriptors.
const THREE: Dbr = Dbr { address: 2, length: 3 };

// Words of that image. Descriptor 0 has no bit on before, descriptor 2 none after.

fn first_word() -> Vec<u8> {
    wd(0, FRONT)
}

fn descriptor_1(fields: u64) -> Vec<u8> {
    wd(3, word(0x803, fields, 0x45_6789_abcd))
}

fn descriptor_2() -> Vec<u8> {
    wd(4, word(0, 0xabc, 0))
}

fn last_word() -> Vec<u8> {
    wd(15, 1)
}

pub fn inputs() -> Vec<Input> {
    let mut inputs = Inputs(Vec::new());
    beginnings(&mut inputs);
    written_anew(&mut inputs);
    tables(&mut inputs);
    counts(&mut inputs);
    image_before_table(&mut inputs);
    sizes(&mut inputs);
    inputs.0
}

/// Every beginning of a small input: where a record ends it is 42, all else 41.
fn beginnings(inputs: &mut Inputs) {
    let image = [me(16), st(THREE, 4, 1), descriptor_1(0x123), descriptor_2(), rn(7)].concat();
    let whole = [TWO_ROWS, &image].concat();
    for end in 0..whole.len() {
        let number = if matches!(end, 22 | 28 | 94 | 108 | 122) { 42 } else { 41 };
        inputs.refused(format!("the first {end} bytes"), &[&whole[..end]], number);
    }
    let output = [me(16), st(THREE, 4, 1), wd(2, 0x0006_d100_0000_0000), descriptor_1(0x6d1), rn(7)].concat();
    inputs.accepted("all 128 bytes", &[&whole], &[&output]);
    inputs.refused("a byte behind it", &[&whole, &[0]], 42);
    inputs.refused("twice", &[&whole, &whole], 42);
    inputs.refused("no table", &[&image], 41);
    inputs.refused("the table behind the image", &[&image, TWO_ROWS], 41);
    inputs.refused("the table twice", &[TWO_ROWS, &whole], 41);
    inputs.refused("what it writes", &[&output], 41);
    // It passes again, and now is as it was.
    inputs.accepted("the table again, of what it writes", &[TWO_ROWS, &output], &[&output]);
}

/// Whatever the order of the records, and with zeros among them.
fn written_anew(inputs: &mut Inputs) {
    let (me, st, rn) = (me(16), st(THREE, 4, 1), rn(7));
    let [w0, w3, w4, w15] = [first_word(), descriptor_1(0x123), descriptor_2(), last_word()];
    let set = wd(2, 0x0006_d100_0000_0000);
    let output = [&me[..], &st, &w0, &set, &descriptor_1(0x6d1), &w15, &rn].concat();
    let mut accepted = |name: &str, records: &[&[u8]]| {
        inputs.accepted(name, &[TWO_ROWS, &me, &records.concat(), &rn], &[&output]);
    };
    accepted("ST first", &[&st, &w0, &w3, &w4, &w15]);
    accepted("ST last", &[&w0, &w3, &w4, &w15, &st]);
    accepted("ST between", &[&w0, &w3, &st, &w4, &w15]);
    accepted("WDs downwards", &[&w15, &w4, &w3, &w0, &st]);
    accepted("WDs in no order", &[&w4, &w15, &st, &w0, &w3]);
    accepted("a zero in front", &[&wd(1, 0), &st, &w0, &w3, &w4, &w15]);
    accepted("zeros everywhere", &[&w0, &wd(14, 0), &w3, &wd(1, 0), &w4, &st, &wd(2, 0), &wd(9, 0), &w15]);
    // A descriptor with bits on in its six fields alone is as one that isn't given.
    accepted("bits that go", &[&st, &w0, &wd(2, 0x000f_ff00_0000_0000), &w3, &w4, &w15]);
    accepted("other bits that go", &[&st, &w0, &wd(2, 0x0008_0000_0000_0000), &descriptor_1(0xfff), &w15]);
    for budget in [0, 1, 0x0102_0304, u32::MAX] {
        let rn = self::rn(budget);
        let input = [TWO_ROWS, &me, &st, &w0, &w3, &w4, &w15, &rn];
        let output: [&[u8]; 7] = [&me, &st, &w0, &set, &descriptor_1(0x6d1), &w15, &rn];
        inputs.accepted(format!("budget {budget}"), &input, &output);
    }
    for (pr, switch) in [(4, 0), (7, 1)] {
        let st = self::st(THREE, pr, switch);
        let output: [&[u8]; 5] = [&me, &st, &set, &descriptor_1(0x6d1), &rn];
        inputs.accepted(format!("PR0 in ring {pr}, switch {switch}"), &[TWO_ROWS, &me, &w3, &st, &rn], &output);
    }
}

/// Rows for the image of three descriptors, in bytes.
fn tables(inputs: &mut Inputs) {
    let (me, st, rn) = (me(16), st(THREE, 4, 1), rn(7));
    let image = [&me[..], &st, &descriptor_1(0x123), &rn].concat();
    let written = |d0: u64, d1: u64, d2: u64| {
        let descriptors = [wd(2, word(0, d0, 0)), descriptor_1(d1), wd(4, word(0, d2, 0))].concat();
        [&me[..], &st, &descriptors, &rn].concat()
    };
    let row = |first, last, rest: &[u8]| [&[0, first, 0, last], rest].concat();
    let [one, two, three]: [&[u8]; 3] = [&[0, 1], &[0, 2], &[0, 3]];
    let all: &[u8] = &[0, 0, 7, 0, 0, 1];
    inputs.accepted("one row", &[one, &row(0, 2, all), &image], &[&written(0x9c0, 0x9c0, 0x9c0)]);
    for (flags, fields) in [([2, 0, 255], 0xa49), ([128, 255, 0], 0x649), ([0, 4, 0], 0x449), ([0, 16, 64], 0xc49)] {
        let rows = row(0, 2, &[&[1, 1, 1][..], &flags].concat());
        inputs.accepted(format!("flags {flags:?}"), &[one, &rows, &image], &[&written(fields, fields, fields)]);
    }
    let [r0, r1, r2] = [row(0, 0, &[7, 7, 7, 1, 1, 1]), row(1, 1, &[0, 7, 7, 0, 1, 0]), row(2, 2, &[2, 5, 6, 1, 0, 0])];
    for order in [[&r0, &r1, &r2], [&r0, &r2, &r1], [&r1, &r0, &r2], [&r1, &r2, &r0], [&r2, &r0, &r1], [&r2, &r1, &r0]]
    {
        let rows = order.map(|row| &row[..]).concat();
        inputs.accepted("three rows", &[three, &rows, &image], &[&written(0xfff, 0x5f8, 0x3aa)]);
    }
    inputs.refused("54: two rows", &[two, &r0, &r2, &image], 54);
    inputs.refused("54: the first two rows", &[two, &r0, &r1, &image], 54);
    inputs.refused("55: a row twice", &[three, &r0, &r0, &row(1, 2, all), &image], 55);
    inputs.refused("55 below 54", &[two, &r0, &r0, &image], 55);
    inputs.refused("54 below 55", &[two, &r1, &r1, &image], 54);
    inputs.refused("53: last 3", &[one, &row(0, 3, all), &image], 53);
    inputs.refused("53: first 3, last 2", &[two, &row(0, 2, all), &row(3, 2, all), &image], 53);
    for rings in [[0, 0, 8], [0, 8, 8], [8, 8, 8], [1, 0, 7], [0, 1, 0], [255, 255, 255]] {
        let rest = [&rings[..], &[1, 1, 1]].concat();
        inputs.refused(format!("53: rings {rings:?}"), &[one, &row(0, 2, &rest), &image], 53);
    }
    // 258 and 514 are 2 in their lower byte.
    inputs.refused("53: last 258", &[one, &[0, 0, 1, 2], all, &image], 53);
    inputs.refused("53: last 512", &[one, &[0, 0, 2, 0], all, &image], 53);
    inputs.refused("53: first 512", &[two, &row(0, 2, all), &[2, 0, 0, 2], all, &image], 53);
}

/// Counts of rows: 0, more than 32, and others than there are.
fn counts(inputs: &mut Inputs) {
    let image = |dbr| [me(16), st(dbr, 4, 1), last_word(), rn(7)].concat();
    let good = image(THREE);
    let empty = image(Dbr { address: 9, length: 0 });
    let twice = [me(16), st(THREE, 4, 1), last_word(), last_word(), rn(7)].concat();
    inputs.accepted("no row, LENGTH 0", &[&[0, 0], &empty], &[&empty]);
    inputs.refused("no row, LENGTH 3", &[&[0, 0], &good], 54);
    inputs.refused("no row, no image", &[&[0, 0]], 42);
    inputs.refused("no row, a byte", &[&[0, 0, 0]], 41);
    inputs.refused("a row, LENGTH 0", &[&[0, 1], &[0; 10], &empty], 53);
    // 256 rows, not one.
    inputs.refused("a count with its low byte first", &[&[1, 0], &[0, 0, 0, 2, 0, 0, 0, 0, 0, 0], &good], 41);
    inputs.refused("one row more than counted", &[&[0, 1], &[0, 0, 0, 2, 0, 0, 0, 0, 0, 0], &[0; 10], &good], 41);
    // The image's first ten bytes are taken for a row; then comes A.
    inputs.refused("one row less than counted", &[&[0, 2], &[0, 0, 0, 2, 0, 0, 0, 0, 0, 0], &good], 41);
    for count in [33_u16, 34, 256, 257, 65_535] {
        let counted = count.to_be_bytes();
        // The first would do by itself.
        let rows = [&[0, 0, 0, 2, 0, 0, 0, 0, 0, 0], &vec![0; 10 * (usize::from(count) - 1)][..]].concat();
        let name = |what: &str| format!("{count} rows, {what}");
        inputs.refused(name("a good image"), &[&counted, &rows, &good], 53);
        inputs.refused(name("LENGTH 0"), &[&counted, &rows, &empty], 53);
        inputs.refused(name("an image with an address twice"), &[&counted, &rows, &twice], 51);
        inputs.refused(name("an image that is cut"), &[&counted, &rows, &good[..good.len() - 1]], 41);
        inputs.refused(name("no image"), &[&counted, &rows], 42);
        inputs.refused(name("one byte less"), &[&counted, &rows[1..]], 41);
        inputs.refused(name("one row less"), &[&counted, &rows[10..]], 41);
        inputs.refused(name("none there"), &[&counted], 41);
    }
    inputs.refused("65535 rows, one there and the image", &[&[255, 255], &[0; 10], &good], 41);
}

/// What refuses an image comes before what refuses a table.
fn image_before_table(inputs: &mut Inputs) {
    let (me, st, rn) = (me(16), st(THREE, 4, 1), rn(7));
    let (w3, w15) = (descriptor_1(0x123), last_word());
    let with = |dbr: Dbr, pr: u8, switch: u8| [&me[..], &self::st(dbr, pr, switch), &w3, &rn].concat();
    let of = |address, length| Dbr { address, length };
    let images = [
        ("another mark", [&me[..], &st, b"me\0\0\0\x10", &rn].concat(), 41),
        ("ST of 59 bytes", [&me[..], &st[..61], &w3, &rn].concat(), 41),
        ("RN that is cut", [&me[..], &st, &w3, &rn[..5]].concat(), 41),
        ("no image", vec![], 42),
        ("no ME", [&st[..], &w3, &rn].concat(), 42),
        ("two ME", [&me[..], &me, &st, &rn].concat(), 42),
        ("no ST", [&me[..], &w3, &rn].concat(), 42),
        ("two ST", [&me[..], &st, &st, &rn].concat(), 42),
        ("no RN", [&me[..], &st, &w3].concat(), 42),
        ("a byte behind RN", [&me[..], &st, &w3, &rn, &[0]].concat(), 42),
        ("ME 8193", [b"ME\0\0\x20\x01", &st[..], &w3, &rn].concat(), 43),
        ("a WD behind memory", [&me[..], &st, &wd(16, 0), &rn].concat(), 44),
        ("two WDs of an address", [&me[..], &st, &w15, &w3, &w15, &rn].concat(), 51),
        ("two zeros of an address", [&me[..], &wd(9, 0), &st, &wd(9, 0), &rn].concat(), 51),
        ("2: ring 8 of PR0", with(THREE, 8, 1), 2),
        ("2: switch 2", with(THREE, 4, 2), 2),
        ("2: ADDRESS 16777216", with(of(16_777_216, 3), 4, 1), 2),
        ("2: ADDRESS 4294967295, LENGTH 0", with(of(u32::MAX, 0), 4, 1), 2),
        ("2, 3 and 4", with(of(u32::MAX, 4_097), 3, 2), 2),
        ("3: PR0 in ring 3", with(THREE, 3, 1), 3),
        ("3 and 4", with(of(14, 3), 3, 1), 3),
        ("4: one word behind memory", with(of(14, 3), 4, 1), 4),
        ("4: LENGTH 4097", with(of(0, 4_097), 4, 1), 4),
        ("4: ADDRESS 17, LENGTH 0", with(of(17, 0), 4, 1), 4),
        ("4: ADDRESS 16777215", with(of(16_777_215, 3), 4, 1), 4),
    ];
    let fits = row(0, 2, FOURS);
    let tables = [
        ("a table that fits", vec![fits], None),
        ("33 rows", vec![fits; 33], Some(53)),
        ("first above last", vec![fits, row(2, 1, FOURS)], Some(53)),
        ("last 3", vec![row(0, 3, FOURS)], Some(53)),
        ("rings 0 0 8", vec![row(0, 2, ([0, 0, 8], [0, 0, 0], 0))], Some(53)),
        ("no row", vec![], Some(54)),
        ("no row for segment 1", vec![row(0, 0, FOURS), row(2, 2, FOURS)], Some(54)),
        ("two rows for segment 1", vec![fits, row(1, 1, FOURS)], Some(55)),
    ];
    let good = [&me[..], &st, &w3, &rn].concat();
    for (table, rows, table_number) in &tables {
        let rows = rows_bytes(rows);
        if let Some(number) = table_number {
            inputs.refused(*table, &[&rows, &good], *number);
        }
        for (name, image, number) in &images {
            inputs.refused(format!("{name}, {table}"), &[&rows, image], *number);
        }
    }
}

/// ME 0, ME 8192, and numbers that need both bytes.
fn sizes(inputs: &mut Inputs) {
    let nothing = [me(0), st(Dbr { address: 0, length: 0 }, 4, 0), rn(0)].concat();
    inputs.accepted("ME 0", &[&[0, 0], &nothing], &[&nothing]);
    inputs.refused("ME 0, a row", &[&[0, 1], &[0; 10], &nothing], 53);
    let one = [me(0), st(Dbr { address: 0, length: 1 }, 4, 0), rn(0)].concat();
    inputs.refused("ME 0, LENGTH 1", &[&[0, 1], &[0; 10], &one], 4);

    // The last two words are the descriptors.
    let start = [me(8_192), st(Dbr { address: 8_190, length: 2 }, 4, 0), wd(8_189, ONES)].concat();
    let table: &[u8] = b"\0\x01\0\0\0\x01\x04\x04\x04\x01\0\x01";
    let given = [wd(8_190, ONES), rn(u32::MAX)].concat();
    let set = [wd(8_190, 0xfffb_24ff_ffff_ffff), wd(8_191, 0x000b_2400_0000_0000), rn(u32::MAX)].concat();
    inputs.accepted("ME 8192", &[table, &start, &given], &[&start, &set]);

    let start = [me(8_192), st(Dbr { address: 4_096, length: 4_096 }, 4, 0)].concat();
    let table: &[u8] = b"\0\x01\0\0\x0f\xff\0\0\x07\0\0\x01";
    let set: Vec<u8> = (4_096..8_192).flat_map(|address| wd(address, 0x0009_c000_0000_0000)).collect();
    inputs.accepted("LENGTH 4096, all set", &[table, &start, &rn(1)], &[&start, &set, &rn(1)]);
    let zeros: &[u8] = b"\0\x01\0\0\x0f\xff\0\0\0\0\0\0";
    inputs.accepted("LENGTH 4096, all to zero", &[zeros, &start, &set, &rn(1)], &[&start, &rn(1)]);

    // LENGTH 259; segments 0 to 257, and 258.
    let start = [me(600), st(Dbr { address: 300, length: 259 }, 4, 0)].concat();
    let table: &[u8] = b"\0\x02\0\0\x01\x01\0\0\x07\0\0\x01\x01\x02\x01\x02\x01\x02\x03\x01\x01\0";
    let set: Vec<u8> = (300..558).flat_map(|address| wd(address, 0x0009_c000_0000_0000)).collect();
    let last = [wd(558, 0x0006_d100_0000_0000), rn(1)].concat();
    inputs.accepted("segment 258", &[table, &start, &rn(1)], &[&start, &set, &last]);
}

#[cfg(test)]
mod tests {
    use super::*;
    use crate::brackets::with_brackets;
    use crate::{brackets_output, read_image, set_brackets};

    fn all() -> impl Iterator<Item = Case> {
        cases().into_iter().chain(rings())
    }

    /// The answer, and every word: a refusal writes none.
    fn leaves_what_it_should(Case { name, table, answer }: Case) {
        let Table { mut memory, dbr, rows } = table;
        let before = memory.clone();
        let number = set_brackets(&mut memory, dbr, &rows);
        let (expected, after) = match answer {
            Ok(after) => (0, after),
            Err(number) => (number, before),
        };
        assert_eq!(number, expected, "{name}");
        assert!(memory == after, "{name}: memory");
    }

    #[test]
    fn answers() {
        all().for_each(leaves_what_it_should);
    }

    #[test]
    fn answers_of_largest_memories() {
        largest_memories().into_iter().for_each(leaves_what_it_should);
    }

    #[test]
    fn outputs() {
        for Input { name, bytes, output } in all().filter_map(|case| case.input()).chain(inputs()) {
            let written = brackets_output(&bytes);
            assert!(written == output, "{name}: {}", written.escape_ascii());
            // It is an image that means the same.
            if let Ok(image) = with_brackets(&bytes) {
                assert_eq!(read_image(&written), Ok(image), "{name}");
            }
        }
    }

    /// Each number of the table is the answer of some case and of some input.
    #[test]
    fn every_answer() {
        let numbers = |answers: &mut dyn Iterator<Item = u32>| {
            let mut numbers: Vec<u32> = answers.collect();
            numbers.sort_unstable();
            numbers.dedup();
            numbers
        };
        let mut answers = cases().into_iter().chain(largest_memories()).map(|case| case.answer.err().unwrap_or(0));
        assert_eq!(numbers(&mut answers), [0, 1, 4, 53, 54, 55]);
        let mut answers = inputs().into_iter().map(|input| with_brackets(&input.bytes).err().unwrap_or(0));
        assert_eq!(numbers(&mut answers), [0, 2, 3, 4, 41, 42, 43, 44, 51, 53, 54, 55]);
    }
}
