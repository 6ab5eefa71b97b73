//! Any bytes taken as a packed table: reading its records, walking it.

use super::liang::row_of;
use super::{CELL_LIMIT, ENTRY_LIMIT, LONGEST};

/// Bytes of the head, and of the steps between cells and between entries.
pub const HEAD: usize = 6;
/// Bytes from one cell to the next.
pub const CELL: usize = 6;
/// Bytes from one entry to the next.
pub const ENTRY: usize = 5;

/// A table whose length and head are right; the rest may be anything.
#[derive(Clone, Copy, Debug)]
pub struct Table<'a> {
    bytes: &'a [u8],
    cells: usize,
    entries: usize,
}

/// What a cell holds.
#[derive(Clone, Copy, Debug, PartialEq, Eq)]
pub struct Cell {
    /// The symbol byte.
    pub symbol: u8,
    /// The next base.
    pub link: usize,
    /// The first entry of the output.
    pub output: usize,
}

/// What an entry holds.
#[derive(Clone, Copy, Debug, PartialEq, Eq, Hash)]
pub struct Entry {
    /// How many symbols back from the path's end.
    pub distance: usize,
    /// The level.
    pub level: u8,
    /// The next entry's number.
    pub next: usize,
}

/// Why a chain isn't one that a right table could have.
#[derive(Clone, Copy, Debug, PartialEq, Eq)]
pub enum Fault {
    /// A number over E.
    Over,
    /// A kind other than 3.
    Kind,
    /// A level outside 1 to 9.
    Level,
    /// A distance over the path's length.
    Distance,
    /// A next number that isn't lower.
    Next,
}

/// Two bytes, the high one first.
fn number(bytes: &[u8], place: usize) -> usize {
    bytes[place] as usize * 256 + bytes[place + 1] as usize
}

impl<'a> Table<'a> {
    /// Takes bytes as a table if length and head allow it.
    pub fn new(bytes: &'a [u8]) -> Option<Table<'a>> {
        if bytes.len() < HEAD || bytes[0] != 1 || bytes[1] != 1 {
            return None;
        }
        let cells = number(bytes, 2);
        let entries = number(bytes, 4);
        let fits = (1..=CELL_LIMIT).contains(&cells)
            && entries <= ENTRY_LIMIT
            && bytes.len() == HEAD + CELL * cells + ENTRY * entries;
        if !fits {
            return None;
        }
        Some(Table {
            bytes,
            cells,
            entries,
        })
    }

    /// How many cells.
    pub fn cells(&self) -> usize {
        self.cells
    }

    /// How many entries.
    pub fn entries(&self) -> usize {
        self.entries
    }

    /// Where cell `number` begins.
    pub fn cell_start(&self, number: usize) -> usize {
        HEAD + CELL * number
    }

    /// Where entry `number`, counted from 1, begins.
    pub fn entry_start(&self, number: usize) -> usize {
        HEAD + CELL * self.cells + ENTRY * (number - 1)
    }

    /// The kind byte of a cell.
    pub fn cell_kind(&self, number: usize) -> u8 {
        self.bytes[self.cell_start(number)]
    }

    /// The kind byte of an entry.
    pub fn entry_kind(&self, number: usize) -> u8 {
        self.bytes[self.entry_start(number)]
    }

    /// The cell with this number if it exists and is of kind 2.
    pub fn cell(&self, number_of_cell: usize) -> Option<Cell> {
        if number_of_cell >= self.cells || self.cell_kind(number_of_cell) != 2 {
            return None;
        }
        let start = self.cell_start(number_of_cell);
        Some(Cell {
            symbol: self.bytes[start + 1],
            link: number(self.bytes, start + 2),
            output: number(self.bytes, start + 4),
        })
    }

    /// The cell that matches a symbol from a base, if any.
    pub fn matching(&self, base: usize, symbol: u8) -> Option<Cell> {
        self.cell(base + symbol as usize)
            .filter(|cell| cell.symbol == symbol)
    }

    /// The body of an entry from 1 to E.
    fn entry(&self, number_of_entry: usize) -> Entry {
        let start = self.entry_start(number_of_entry);
        Entry {
            distance: self.bytes[start + 1] as usize,
            level: self.bytes[start + 2],
            next: number(self.bytes, start + 3),
        }
    }

    /// Follows an output's chain on a path of this length. Hands every
    /// distance and level that it sets to `set`, and every fault to `fault`.
    pub fn follow(
        &self,
        output: usize,
        length: usize,
        mut set: impl FnMut(usize, u8),
        mut fault: impl FnMut(Fault),
    ) {
        let mut at = output;
        while at != 0 {
            if at > self.entries {
                fault(Fault::Over);
                return;
            }
            if self.entry_kind(at) != 3 {
                fault(Fault::Kind);
                return;
            }
            let entry = self.entry(at);
            let level_fits = (1..=9).contains(&entry.level);
            let distance_fits = entry.distance <= length;
            if !level_fits {
                fault(Fault::Level);
            }
            if !distance_fits {
                fault(Fault::Distance);
            }
            if level_fits && distance_fits {
                set(entry.distance, entry.level);
            }
            if entry.next >= at {
                fault(Fault::Next);
                return;
            }
            at = entry.next;
        }
    }

    /// Walks from one place of the row, raises the inner gaps' levels and
    /// tells how many cells it looked at.
    fn walk(&self, row: &[u8], place: usize, levels: &mut [u8]) -> u32 {
        let letters = row.len() - 2;
        let mut base = 0;
        let mut looks = 0;
        for matched in 1..=LONGEST {
            let here = place + matched - 1;
            looks += 1;
            let cell = match self.matching(base, row[here]) {
                Some(cell) => cell,
                None => break,
            };
            // The path ends behind row place `here`, which is gap `here`.
            let raise = |distance: usize, level: u8| {
                if distance < here && here - distance < letters {
                    let gap = here - distance;
                    levels[gap] = levels[gap].max(level);
                }
            };
            self.follow(cell.output, matched, raise, |_| ());
            if cell.link == 0 || here + 1 == row.len() {
                break;
            }
            base = cell.link;
        }
        looks
    }

    /// Levels of gaps 0 to n (those that aren't inner stay 0) and the count of
    /// looks, by walks from all places of the row.
    pub fn levels(&self, letters: &[u8]) -> (Vec<u8>, u32) {
        let row = row_of(letters);
        let mut levels = vec![0; letters.len() + 1];
        let mut looks = 0;
        for place in 0..row.len() {
            looks += self.walk(&row, place, &mut levels);
        }
        (levels, looks)
    }
}
