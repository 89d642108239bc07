//! Tables of brackets: directed, drawn, made smaller, and in words.

use crate::compare::{Comparer, Difference};
use crate::describe::attempt;
use crate::images::shuffle;
use crate::random::Random;
use second::brackets::MOST_ROWS;
use second::tables::{cases, largest_memories, rings, Case, Table};
use second::{Dbr, Descriptor, Row};

/// The name of a table, the table, and what differs.
pub type Failure = (String, Table, Difference);

/// The library's directed tables, with answers and memories that were worked out by hand, and those over all rings;
/// answers how many of each.
pub fn directed(comparer: &mut Comparer, random: &mut Random) -> Result<(usize, usize), Box<Failure>> {
    let mut count = 0;
    for case in cases().into_iter().chain(largest_memories()) {
        by_hand(comparer, random, case)?;
        count += 1;
    }
    let rings = rings();
    let ring_count = rings.len();
    for case in rings {
        by_hand(comparer, random, case)?;
    }
    Ok((count, ring_count))
}

fn by_hand(comparer: &mut Comparer, random: &mut Random, case: Case) -> Result<(), Box<Failure>> {
    let Case { name, table, answer: expected } = case;
    let (number, memory) = match &expected {
        Ok(after) => (0, after),
        Err(number) => (*number, &table.memory),
    };
    let difference = match comparer.table(&table, random) {
        Ok(answer) if answer == number && comparer.memory() == memory => return Ok(()),
        Ok(answer) => Difference(format!("both answer {answer}, the papers {number}; or memory is different")),
        Err(difference) => difference,
    };
    Err(Box::new((name, table, difference)))
}

// ---- Drawn.

/// One in ten has no plan. Of the others one half fits, and one half has some damage.
pub fn draw(random: &mut Random, table: &mut Table) {
    if random.chance(100) {
        return without_plan(random, table);
    }
    let length = match random.below(2000) {
        0 => 4_096,
        1 => random.between(4_090, 4_096),
        2..=60 => 0,
        61..=200 => random.between(41, 200),
        201..=500 => random.between(31, 40),
        _ => random.between(1, 12),
    };
    around(random, table, length);
    cover(random, length as u16, &mut table.rows);
    if random.chance(500) {
        for _ in 0..random.pick(&[1, 1, 1, 2, 3]) {
            if random.chance(150) {
                move_dbr(random, table);
            } else {
                damage(random, table.dbr.length, &mut table.rows);
            }
        }
    }
}

/// Memory for so many descriptors, with some words before and behind: drawn freely, or with all bits on or off.
fn around(random: &mut Random, table: &mut Table, length: usize) {
    let address = random.below(5);
    let words = address + length + random.below(4);
    table.dbr = Dbr { address: address as u32, length: length as u16 };
    let kind = random.below(10);
    table.memory.clear();
    table.memory.extend((0..words).map(|_| match kind {
        0 => 0,
        1 => u64::MAX,
        _ => random.next(),
    }));
}

/// Rows for so many segments, each segment in one, in any order.
pub fn cover(random: &mut Random, length: u16, rows: &mut Vec<Row>) {
    rows.clear();
    let most = usize::from(length).min(MOST_ROWS);
    let count = if random.chance(200) { most } else { random.between(1, most.max(1)) };
    // Between each two segments that are neighbours a row may end; each choice is as likely.
    let mut ends = count - 1;
    let mut first = 0;
    for last in 0..length {
        let places = usize::from(length - 1 - last);
        if places == 0 || random.below(places) < ends {
            rows.push(row(random, first, last));
            first = last + 1;
            ends = ends.saturating_sub(1);
        }
    }
    shuffle(random, rows);
}

/// With rings in order and any flags.
fn row(random: &mut Random, first: u16, last: u16) -> Row {
    let draw = random.next();
    let mut rings = [draw, draw >> 3, draw >> 6].map(|ring| (ring & 7) as u8);
    rings.sort_unstable();
    let flag = |draw: u64| match draw & 15 {
        0..=6 => 0,
        7..=12 => 1,
        13 => 255,
        14 => 2,
        _ => (draw >> 4) as u8,
    };
    let [r1, r2, r3] = rings;
    Row { first, last, r1, r2, r3, read: flag(draw >> 16), write: flag(draw >> 32), execute: flag(draw >> 48) }
}

/// One thing about the rows of so many segments is changed.
pub fn damage(random: &mut Random, length: u16, rows: &mut Vec<Row>) {
    if rows.is_empty() {
        let first = random.below(2) as u16;
        return rows.push(row(random, first, 0));
    }
    let place = random.below(rows.len());
    let at = &mut rows[place];
    match random.below(9) {
        0 => {
            rows.remove(place);
        }
        1 => {
            let again = if random.chance(500) { *at } else { row(random, at.first, at.last) };
            rows.insert(random.below(rows.len() + 1), again);
        }
        2 => at.first = if random.chance(500) { at.first.wrapping_sub(1) } else { at.first.wrapping_add(1) },
        3 => at.last = if random.chance(500) { at.last.wrapping_sub(1) } else { at.last.wrapping_add(1) },
        4 => {
            let ring = match random.below(3) {
                0 => &mut at.r1,
                1 => &mut at.r2,
                _ => &mut at.r3,
            };
            *ring = random.pick(&[ring.wrapping_add(1), *ring | 8, 7, 8, 9, 128, 255]);
        }
        5 => match random.below(3) {
            0 => std::mem::swap(&mut at.r1, &mut at.r2),
            1 => std::mem::swap(&mut at.r2, &mut at.r3),
            _ => std::mem::swap(&mut at.r1, &mut at.r3),
        },
        6 => at.last = random.pick(&[length, length, length.wrapping_add(1), at.last | 256, at.last | 4_096, 65_535]),
        7 => {
            let last = random.below(usize::from(length).max(1)) as u16;
            let empty = row(random, last + 1, last);
            rows.insert(random.below(rows.len() + 1), empty);
        }
        _ => more_rows(random, rows),
    }
}

/// At least 33 rows: those there in parts, so that all still fits if it did, or some of them again.
fn more_rows(random: &mut Random, rows: &mut Vec<Row>) {
    let count = random.pick(&[33, 33, 33, 34, 64, 257]);
    while rows.len() < count {
        match rows.iter().position(|row| row.first < row.last) {
            Some(place) => {
                let row = rows[place];
                rows[place].last = row.first;
                rows.push(Row { first: row.first + 1, ..row });
            }
            // So far it fits, or as nearly as it did.
            None if rows.len() > MOST_ROWS => break,
            None => rows.push(random.pick(rows)),
        }
    }
    shuffle(random, rows);
}

/// DBR at a boundary of 4.
fn move_dbr(random: &mut Random, table: &mut Table) {
    let Dbr { address, length } = table.dbr;
    let words = table.memory.len() as u32;
    let one_more = random.below(2) as u32;
    match random.below(6) {
        // The end within memory, or one behind it.
        0 => table.dbr.address = words.saturating_sub(u32::from(length)) + one_more,
        1 => table.dbr.length = (words.saturating_sub(address) + one_more) as u16,
        2 => table.memory.truncate((address as usize + usize::from(length)).saturating_sub(1)),
        3 => table.dbr.length = random.pick(&[4_096, 4_097, 32_768, 65_535]),
        4 => {
            let wraps_to_0 = 0_u32.wrapping_sub(u32::from(length));
            table.dbr.address =
                random.pick(&[u32::MAX, wraps_to_0, 1 << 31 | address, 1 << 24 | address, 1 << 16 | address]);
        }
        _ if random.chance(30) => {
            table.memory.resize(5_000, random.next());
            table.dbr.length = random.pick(&[4_096, 4_097, 4_500]);
        }
        _ => table.dbr.length = length.wrapping_add(1),
    }
}

/// Few segments, and rows and rings of any sort.
fn without_plan(random: &mut Random, table: &mut Table) {
    let length = random.below(6);
    around(random, table, length);
    table.rows.clear();
    for _ in 0..random.pick(&[0, 1, 1, 2, 2, 3, 4, 5, 31, 32, 33]) {
        let [first, last] = [(); 2].map(|()| random.below(length + 1) as u16);
        let mut row = row(random, first.min(last), last);
        if random.chance(30) {
            row.first = first;
        }
        if random.chance(50) {
            [row.r1, row.r2, row.r3] = [(); 3].map(|()| random.pick(&[0, 1, 6, 7, 8, 255]));
        }
        if random.chance(20) {
            [row.first, row.last] = [(); 2].map(|()| random.next() as u16);
        }
        table.rows.push(row);
    }
}

// ---- A failing table.

/// Makes a failing table smaller while it still fails: fewer rows, words and segments, then more zeros.
pub fn shrink(mut table: Table, fails: &mut dyn FnMut(&Table) -> bool) -> Table {
    let mut attempt = |table: &mut Table, change: &dyn Fn(&mut Table)| attempt(table, fails, change);
    loop {
        let mut is_smaller = false;
        let mut less = table.rows.len() / 2 + 1;
        while less > 0 {
            while table.rows.len() >= less && attempt(&mut table, &|t| t.rows.truncate(t.rows.len() - less)) {}
            less /= 2;
        }
        let mut less = table.memory.len() / 2 + 1;
        while less > 0 {
            while table.memory.len() >= less && attempt(&mut table, &|t| t.memory.truncate(t.memory.len() - less)) {}
            less /= 2;
        }
        // With so much left, all else takes too long.
        if table.memory.len() > 100_000 || table.rows.len() > 1_000 {
            return table;
        }
        for place in (0..table.rows.len()).rev() {
            is_smaller |= attempt(&mut table, &|t| {
                t.rows.remove(place);
            });
        }
        while attempt(&mut table, &without_last_segment) {}
        is_smaller |= attempt(&mut table, &|t| t.dbr.address = 0);
        for address in 0..table.memory.len() {
            is_smaller |= attempt(&mut table, &|t| t.memory[address] = 0);
        }
        for place in 0..table.rows.len() {
            let Row { first, last, .. } = table.rows[place];
            is_smaller |= attempt(&mut table, &|t| t.rows[place] = Row { first, last, ..Row::default() });
            let fields: [fn(&mut Row) -> &mut u8; 6] = [
                |row| &mut row.r1,
                |row| &mut row.r2,
                |row| &mut row.r3,
                |row| &mut row.read,
                |row| &mut row.write,
                |row| &mut row.execute,
            ];
            for field in fields {
                is_smaller |= attempt(&mut table, &|t| *field(&mut t.rows[place]) = 0);
            }
        }
        if !is_smaller {
            return table;
        }
    }
}

/// One segment less, and no row for it.
fn without_last_segment(table: &mut Table) {
    let Some(length) = table.dbr.length.checked_sub(1) else { return };
    table.dbr.length = length;
    table.rows.retain(|row| row.first != length || row.last != length);
    for row in table.rows.iter_mut().filter(|row| row.first < length && row.last == length) {
        row.last -= 1;
    }
}

/// The table in words.
pub fn describe(table: &Table) -> String {
    let Table { memory, dbr, rows } = table;
    let mut text = format!("{} words of memory\nDBR {} and {}\n", memory.len(), dbr.address, dbr.length);
    for Row { first, last, r1, r2, r3, read, write, execute } in rows {
        text += &format!("row: {first} to {last}, rings {r1} {r2} {r3}, flags {read} {write} {execute}\n");
    }
    for (address, word) in memory.iter().enumerate().filter(|(_, word)| **word != 0) {
        text += &format!("word {address}: {word:#018x}");
        match (address as u64).checked_sub(u64::from(dbr.address)) {
            Some(segno) if segno < u64::from(dbr.length) => {
                text += &format!(" segment {segno}: {:?}\n", Descriptor::from_word(*word));
            }
            _ => text += "\n",
        }
    }
    text
}
