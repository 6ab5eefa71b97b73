//! Whether a table is right for a list, by listing the table's paths.

use super::table::{Cell, Table};
use super::text::Pattern;
use super::{LONGEST, SYMBOLS};
use std::collections::HashMap;

/// A list in the form in which tables are judged by it: every beginning of a
/// pattern, and the pattern itself where the beginning is a whole one.
pub struct Judge {
    beginnings: HashMap<Vec<u8>, Option<Pattern>>,
    symbols: u8,
}

impl Judge {
    /// Makes the judge of a good list.
    pub fn new(list: &[Pattern]) -> Judge {
        Judge::over(list, SYMBOLS)
    }

    /// A judge that takes the strings of 1 to `symbols` for paths and no others,
    /// so that a test can tell which tables one with fewer symbols lets pass.
    pub fn over(list: &[Pattern], symbols: u8) -> Judge {
        let mut beginnings = HashMap::new();
        for pattern in list {
            let symbols = pattern.symbols();
            for length in 1..symbols.len() {
                let beginning = &symbols[..length];
                if !beginnings.contains_key(beginning) {
                    beginnings.insert(beginning.to_vec(), None);
                }
            }
            beginnings.insert(symbols.to_vec(), Some(*pattern));
        }
        Judge {
            beginnings,
            symbols,
        }
    }

    /// Whether the table is right for the list.
    pub fn accepts(&self, table: &Table<'_>) -> bool {
        kinds_are_right(table)
            && self.paths(table, &mut Vec::new(), 0) == Some(self.beginnings.len())
    }

    /// How many paths begin with `path` and one more symbol; `None` as soon as
    /// one of them isn't as the list wants it. A path that is no beginning of
    /// a pattern ends the search, so links in a circle can't keep it going.
    fn paths(&self, table: &Table<'_>, path: &mut Vec<u8>, base: usize) -> Option<usize> {
        let mut count = 0;
        for symbol in 1..=self.symbols {
            let cell = match table.matching(base, symbol) {
                Some(cell) => cell,
                None => continue,
            };
            path.push(symbol);
            let pattern = self.beginnings.get(path.as_slice())?;
            if !output_is_right(table, &cell, path.len(), pattern) {
                return None;
            }
            count += 1;
            if cell.link != 0 && path.len() < LONGEST {
                count += self.paths(table, path, cell.link)?;
            }
            path.pop();
        }
        Some(count)
    }
}

/// Every cell of kind 2, every entry of kind 3, reached or not.
fn kinds_are_right(table: &Table<'_>) -> bool {
    (0..table.cells()).all(|number| table.cell_kind(number) == 2)
        && (1..=table.entries()).all(|number| table.entry_kind(number) == 3)
}

/// A pattern's path must set exactly its levels without any fault; a path that
/// is only a beginning must have output 0.
fn output_is_right(
    table: &Table<'_>,
    cell: &Cell,
    length: usize,
    pattern: &Option<Pattern>,
) -> bool {
    let pattern = match pattern {
        Some(pattern) => pattern,
        None => return cell.output == 0,
    };
    let mut levels = [0u8; LONGEST + 1];
    let mut faults = 0;
    table.follow(
        cell.output,
        length,
        |distance, level| levels[distance] = levels[distance].max(level),
        |_| faults += 1,
    );
    faults == 0 && (0..=length).all(|distance| levels[distance] == pattern.level_at(distance))
}

#[cfg(test)]
mod tests {
    use super::super::fit::first_fit;
    use super::super::text::read_patterns;
    use super::*;

    #[test]
    fn a_circle_may_be_right() {
        // Sixteen patterns a1, aa1, ... and one cell that links to itself.
        let mut text = Vec::new();
        for length in 1..=16 {
            text.extend(vec![b'a'; length]);
            text.extend(b"1\n");
        }
        let judge = Judge::new(&read_patterns(&text).unwrap());
        // Bases 0 and 1: cell 1 is the root's "a", cell 2 the circle's.
        let table = [
            1, 1, 0, 3, 0, 1, 2, 0, 0, 0, 0, 0, 2, 1, 0, 1, 0, 1, 2, 1, 0, 1, 0, 1, 3, 0, 1, 0, 0,
        ];
        assert!(judge.accepts(&Table::new(&table).unwrap()));
        let shorter = Judge::new(&read_patterns(&text[..text.len() - 18]).unwrap());
        assert!(!shorter.accepts(&Table::new(&table).unwrap()));
    }

    /// A path by an apostrophe counts as any other: one too many is wrong, and
    /// so is one too few.
    #[test]
    fn apostrophes() {
        let list = read_patterns(b"a1\nb1\n").unwrap();
        let mut bytes = first_fit(&list).bytes();
        // Free cells up to 28, before the only entry.
        bytes.splice(24..24, [2, 0, 0, 0, 0, 0].repeat(26));
        bytes[3] = 29;
        let extra = 6 + 6 * 28 + 1;
        let fewer = Judge::over(&list, SYMBOLS - 1);
        let judge = Judge::new(&list);
        assert!(judge.accepts(&Table::new(&bytes).unwrap()));
        bytes[extra] = 28;
        assert!(!judge.accepts(&Table::new(&bytes).unwrap()));
        assert!(fewer.accepts(&Table::new(&bytes).unwrap()));

        let list = read_patterns(b"a'1\n'a1\n").unwrap();
        let mut bytes = first_fit(&list).bytes();
        let judge = Judge::new(&list);
        assert!(judge.accepts(&Table::new(&bytes).unwrap()));
        assert_eq!(bytes[extra], 28);
        bytes[extra] = 0;
        assert!(!judge.accepts(&Table::new(&bytes).unwrap()));
    }

    #[test]
    fn first_fit_is_right_for_its_list_only() {
        let list = read_patterns(b"a1b\nab2\n").unwrap_or_default();
        assert!(list.is_empty(), "equal symbols don't ascend");
        let list = read_patterns(b"a1b\nab2c\n.c1a\n").unwrap();
        let bytes = first_fit(&list).bytes();
        let table = Table::new(&bytes).unwrap();
        assert!(Judge::new(&list).accepts(&table));
        assert!(!Judge::new(&list[1..]).accepts(&table));
        assert!(!Judge::new(&[]).accepts(&table));
    }
}
