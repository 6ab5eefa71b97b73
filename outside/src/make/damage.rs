//! Damage to tables, of every sort that the rules speak of.

use super::layout::entry_place;
use crate::reference::table::{Table, CELL, HEAD};
use crate::reference::{APOSTROPHE, ENTRY_LIMIT, SYMBOLS};
use crate::rng::Rng;
use std::collections::BTreeSet;

/// What of a table is reached.
pub struct Reached {
    /// Bases from which a path goes on, or tries to.
    pub bases: Vec<usize>,
    /// Cells that match.
    pub cells: Vec<usize>,
    /// Entries in chains from those cells.
    pub entries: Vec<usize>,
}

/// Finds what is reached, whatever the lengths of the paths.
pub fn reached(bytes: &[u8]) -> Reached {
    let table = Table::new(bytes).expect("a table with a good head");
    let mut bases = BTreeSet::new();
    let mut cells = BTreeSet::new();
    let mut entries = BTreeSet::new();
    let mut waiting = vec![0];
    while let Some(base) = waiting.pop() {
        if !bases.insert(base) {
            continue;
        }
        for symbol in 1..=SYMBOLS {
            if let Some(cell) = table.matching(base, symbol) {
                cells.insert(base + symbol as usize);
                entries.extend(chain_of(&table, bytes, cell.output));
                if cell.link != 0 {
                    waiting.push(cell.link);
                }
            }
        }
    }
    Reached {
        bases: bases.into_iter().collect(),
        cells: cells.into_iter().collect(),
        entries: entries.into_iter().collect(),
    }
}

/// The numbers of a chain's entries.
fn chain_of(table: &Table<'_>, bytes: &[u8], output: usize) -> Vec<usize> {
    let mut numbers = Vec::new();
    let mut at = output;
    while at != 0 && at <= table.entries() {
        numbers.push(at);
        let place = table.entry_start(at);
        let next = bytes[place + 3] as usize * 256 + bytes[place + 4] as usize;
        if next >= at {
            break;
        }
        at = next;
    }
    numbers
}

/// Puts two bytes into a table.
fn put(bytes: &mut [u8], place: usize, number: usize) {
    bytes[place..place + 2].copy_from_slice(&(number as u16).to_be_bytes());
}

/// A random element, or 0 if there is none.
fn any_of(rng: &mut Rng, numbers: &[usize]) -> usize {
    if numbers.is_empty() {
        0
    } else {
        *rng.pick(numbers)
    }
}

/// A number of two bytes that is likely to matter.
fn number(rng: &mut Rng, near: usize) -> usize {
    match rng.below(6) {
        0 => rng.below(near + 4),
        1 => near,
        2 => near + 1,
        3 => *rng.pick(&[
            0, 1, 255, 256, 32_767, 32_768, 65_508, 65_509, 65_510, 65_534, 65_535,
        ]),
        4 => rng.bits() as u16 as usize,
        _ => rng.below(40),
    }
}

/// Damages a table with a good head once. The damage may by chance do no
/// harm; the reference decides.
pub fn damage(rng: &mut Rng, bytes: &mut [u8]) {
    let table = Table::new(bytes).expect("a table with a good head");
    let (cells, entries) = (table.cells(), table.entries());
    let reached = reached(bytes);
    let sort = rng.below(20);
    let inner = rng.below(bytes.len() - HEAD) + HEAD;
    if sort == 0 {
        bytes[inner] = rng.byte();
        return;
    }
    if sort == 1 {
        bytes[inner] ^= 1 << rng.below(8);
        return;
    }
    if sort < 12 || entries == 0 {
        damage_cell(rng, bytes, cells, entries, &reached);
    } else {
        damage_entry(rng, bytes, cells, entries, &reached);
    }
}

/// Damages a cell, mostly one that a path reaches.
fn damage_cell(rng: &mut Rng, bytes: &mut [u8], cells: usize, entries: usize, reached: &Reached) {
    let cell = if rng.once_in(4) {
        rng.below(cells)
    } else {
        any_of(rng, &reached.cells)
    };
    let place = HEAD + CELL * cell;
    match rng.below(11) {
        0 => bytes[place] = *rng.pick(&[0, 1, 3, 4, 255]),
        1 => bytes[place + 1] = *rng.pick(&[0, 1, 26, 27, 28, 29, 255]),
        2 => put(bytes, place + 2, 0),
        3 => {
            let link = number(rng, cells);
            put(bytes, place + 2, link);
        }
        // A link to a base in use: circles, and paths that no pattern has.
        4 | 5 => {
            let link = any_of(rng, &reached.bases);
            put(bytes, place + 2, link);
        }
        6 => put(bytes, place + 4, 0),
        7 => {
            let output = number(rng, entries);
            put(bytes, place + 4, output);
        }
        8 => {
            let base = any_of(rng, &reached.bases);
            let symbol = rng.range(1, SYMBOLS as usize);
            extra_path(rng, bytes, (cells, entries), base, symbol);
        }
        9 => {
            let symbol = APOSTROPHE as usize;
            let free = |base: &usize| !reached.cells.contains(&(base + symbol));
            let bases: Vec<usize> = reached.bases.iter().copied().filter(free).collect();
            let base = any_of(rng, &bases);
            extra_path(rng, bytes, (cells, entries), base, symbol);
        }
        _ => swap_cells(rng, bytes, cells, cell),
    }
}

/// Lets a cell match from a base in use, so that a path comes in addition, if
/// the table has this cell.
fn extra_path(
    rng: &mut Rng,
    bytes: &mut [u8],
    (cells, entries): (usize, usize),
    base: usize,
    symbol: usize,
) {
    let cell = base + symbol;
    if cell >= cells {
        return;
    }
    let place = HEAD + CELL * cell;
    bytes[place + 1] = symbol as u8;
    put(bytes, place + 2, 0);
    let output = if rng.once_in(2) {
        0
    } else {
        rng.range(0, entries)
    };
    put(bytes, place + 4, output);
}

/// Swaps two cells' bodies.
fn swap_cells(rng: &mut Rng, bytes: &mut [u8], cells: usize, cell: usize) {
    let other = rng.below(cells);
    for byte in 1..CELL {
        bytes.swap(HEAD + CELL * cell + byte, HEAD + CELL * other + byte);
    }
}

/// Damages an entry, mostly one that a chain has.
fn damage_entry(rng: &mut Rng, bytes: &mut [u8], cells: usize, entries: usize, reached: &Reached) {
    let entry = match any_of(rng, &reached.entries) {
        0 => rng.range(1, entries),
        _ if rng.once_in(4) => rng.range(1, entries),
        found => found,
    };
    let place = entry_place(cells, entry);
    match rng.below(8) {
        0 => bytes[place] = *rng.pick(&[0, 1, 2, 4, 255]),
        1 => bytes[place + 1] = rng.range(0, 18) as u8,
        2 => bytes[place + 1] = *rng.pick(&[16, 17, 27, 128, 255]),
        3 => bytes[place + 2] = *rng.pick(&[0, 10, 11, 128, 255]),
        4 => bytes[place + 2] = rng.range(0, 10) as u8,
        // Itself, a higher one, over the end: all are faults.
        5 => put(bytes, place + 3, entry),
        6 => {
            let next = number(rng, entries);
            put(bytes, place + 3, next);
        }
        _ => put(bytes, place + 3, rng.below(entry)),
    }
}

/// Damages the head or the length.
pub fn damage_head(rng: &mut Rng, bytes: &mut Vec<u8>) {
    match rng.below(9) {
        0 => bytes[0] = *rng.pick(&[0, 2, 3, 255]),
        1 => bytes[1] = *rng.pick(&[0, 2, 3, 255]),
        2 => put(bytes, 2, *rng.pick(&[0, 8_193, 16_384, 65_535])),
        3 => put(bytes, 4, *rng.pick(&[2_049, 4_096, 65_535])),
        4 => bytes.push(rng.byte()),
        5 => {
            bytes.pop();
        }
        6 => bytes.truncate(rng.below(13)),
        7 => {
            let byte = rng.below(HEAD.min(bytes.len()));
            bytes[byte] = rng.byte();
        }
        _ => trade_cells_for_entries(bytes),
    }
}

/// Five cells are as long as six entries: the length stays right while the
/// records no longer stand where the head says.
fn trade_cells_for_entries(bytes: &mut [u8]) {
    if bytes.len() < HEAD {
        return;
    }
    let cells = bytes[2] as usize * 256 + bytes[3] as usize;
    let entries = bytes[4] as usize * 256 + bytes[5] as usize;
    if cells > 5 && entries + 6 <= ENTRY_LIMIT {
        put(bytes, 2, cells - 5);
        put(bytes, 4, entries + 6);
    }
}

#[cfg(test)]
mod tests {
    use super::*;
    use crate::make::lists::{good, Shape};
    use crate::reference::fit::first_fit;
    use crate::reference::right::Judge;

    /// Often enough a damage does nothing but add a path by an apostrophe, which
    /// only a judge of all symbols sees.
    #[test]
    fn apostrophes_come_in() {
        let mut rng = Rng::new(39);
        let mut found = 0;
        for _ in 0..20_000 {
            let shape = Shape::any(&mut rng);
            let list = good(&mut rng, &shape);
            let mut bytes = first_fit(&list).bytes();
            damage(&mut rng, &mut bytes);
            let table = Table::new(&bytes).expect("a table with a good head");
            let fewer = Judge::over(&list, APOSTROPHE - 1).accepts(&table);
            found += usize::from(fewer && !Judge::new(&list).accepts(&table));
        }
        assert!(found > 50, "{} paths by an apostrophe", found);
    }
}
