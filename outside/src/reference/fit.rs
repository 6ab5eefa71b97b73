//! First fit, by its definition.

use super::table::{Entry, CELL, ENTRY, HEAD};
use super::text::Pattern;
use super::{CELL_LIMIT, ENTRY_LIMIT, SYMBOLS};
use std::collections::{BTreeMap, BTreeSet, HashMap};

/// The finished layout, before it is written as bytes.
#[derive(Clone, Debug, Default)]
pub struct Layout {
    /// Used cells by number: symbol, link, output.
    pub cells: BTreeMap<usize, (u8, usize, usize)>,
    /// The entries; number k stands at k - 1.
    pub entries: Vec<Entry>,
    /// The base of every path with continuations, the root's too.
    pub bases: HashMap<Vec<u8>, usize>,
}

impl Layout {
    /// C: the highest used cell and one more, or 1 if none is used.
    pub fn cell_count(&self) -> usize {
        match self.cells.keys().next_back() {
            Some(highest) => highest + 1,
            None => 1,
        }
    }

    /// Whether a table can hold it.
    pub fn fits(&self) -> bool {
        self.cell_count() <= CELL_LIMIT && self.entries.len() <= ENTRY_LIMIT
    }

    /// The table's bytes; only for a layout that fits.
    pub fn bytes(&self) -> Vec<u8> {
        let count = self.cell_count();
        let mut bytes = Vec::with_capacity(HEAD + CELL * count + ENTRY * self.entries.len());
        bytes.extend([1, 1]);
        push_number(&mut bytes, count);
        push_number(&mut bytes, self.entries.len());
        for number in 0..count {
            let (symbol, link, output) = self.cells.get(&number).copied().unwrap_or((0, 0, 0));
            bytes.extend([2, symbol]);
            push_number(&mut bytes, link);
            push_number(&mut bytes, output);
        }
        for entry in &self.entries {
            bytes.extend([3, entry.distance as u8, entry.level]);
            push_number(&mut bytes, entry.next);
        }
        bytes
    }
}

/// Writes two bytes, the high one first.
fn push_number(bytes: &mut Vec<u8>, number: usize) {
    bytes.extend([(number / 256) as u8, (number % 256) as u8]);
}

/// For each beginning of a pattern, the root too, the symbols that may follow
/// it. Ordered by length, then by symbols.
fn continuations(list: &[Pattern]) -> BTreeMap<(usize, Vec<u8>), BTreeSet<u8>> {
    let mut found: BTreeMap<(usize, Vec<u8>), BTreeSet<u8>> = BTreeMap::new();
    for pattern in list {
        for (length, &symbol) in pattern.symbols().iter().enumerate() {
            let beginning = pattern.symbols()[..length].to_vec();
            found.entry((length, beginning)).or_default().insert(symbol);
        }
    }
    found
}

/// Bases and cells that are taken while first fit goes on. All bases below
/// `low` are taken; the search may begin there.
struct Taken {
    bases: Vec<bool>,
    cells: Vec<bool>,
    low: usize,
    symbols: u8,
}

/// Those of the symbols 1 to `symbols` that may follow a path.
fn among(symbols: u8, needed: &BTreeSet<u8>) -> impl Iterator<Item = u8> + '_ {
    (1..=symbols).filter(move |symbol| needed.contains(symbol))
}

/// Whether a mark is set; marks past the end aren't.
fn is_set(marks: &[bool], place: usize) -> bool {
    marks.get(place).copied().unwrap_or(false)
}

/// Sets a mark, making room for it.
fn set(marks: &mut Vec<bool>, place: usize) {
    if marks.len() <= place {
        marks.resize(place + 1, false);
    }
    marks[place] = true;
}

impl Taken {
    /// Takes a base and the cells it needs.
    fn take(&mut self, base: usize, needed: &BTreeSet<u8>) {
        set(&mut self.bases, base);
        for symbol in among(self.symbols, needed) {
            set(&mut self.cells, base + symbol as usize);
        }
        while is_set(&self.bases, self.low) {
            self.low += 1;
        }
    }

    /// The smallest base from 1 up that no path has and whose cells are free.
    fn smallest(&self, needed: &BTreeSet<u8>) -> usize {
        let offsets: Vec<usize> = among(self.symbols, needed)
            .map(|symbol| symbol as usize)
            .collect();
        let mut base = self.low;
        while is_set(&self.bases, base) || offsets.iter().any(|o| is_set(&self.cells, base + o)) {
            base += 1;
        }
        base
    }
}

/// Gives each path with continuations its base, in the order asked for.
fn give_bases(
    following: &BTreeMap<(usize, Vec<u8>), BTreeSet<u8>>,
    symbols: u8,
) -> HashMap<Vec<u8>, usize> {
    let mut taken = Taken {
        bases: Vec::new(),
        cells: Vec::new(),
        low: 1,
        symbols,
    };
    let mut bases = HashMap::new();
    for ((length, path), needed) in following {
        let base = if *length == 0 {
            0
        } else {
            taken.smallest(needed)
        };
        taken.take(base, needed);
        bases.insert(path.clone(), base);
    }
    bases
}

/// Makes the entries in list order; the output number of each pattern's
/// symbols comes back.
pub fn make_entries(list: &[Pattern]) -> (Vec<Entry>, HashMap<Vec<u8>, usize>) {
    let mut entries = Vec::new();
    let mut known: HashMap<Entry, usize> = HashMap::new();
    let mut outputs = HashMap::new();
    for pattern in list {
        let mut last = 0;
        for distance in 0..=pattern.symbols().len() {
            let level = pattern.level_at(distance);
            if level == 0 {
                continue;
            }
            let entry = Entry {
                distance,
                level,
                next: last,
            };
            last = *known.entry(entry).or_insert_with(|| {
                entries.push(entry);
                entries.len()
            });
        }
        outputs.insert(pattern.symbols().to_vec(), last);
    }
    (entries, outputs)
}

/// Lays a good list out by first fit.
pub fn first_fit(list: &[Pattern]) -> Layout {
    first_fit_over(list, SYMBOLS)
}

/// First fit that knows the symbols 1 to `symbols` and no others, so that a test
/// can lay lists out as it was done with fewer.
pub fn first_fit_over(list: &[Pattern], symbols: u8) -> Layout {
    let following = continuations(list);
    let bases = give_bases(&following, symbols);
    let (entries, outputs) = make_entries(list);
    let mut cells = BTreeMap::new();
    for ((_, path), needed) in &following {
        for symbol in among(symbols, needed) {
            let mut longer = path.clone();
            longer.push(symbol);
            let link = bases.get(&longer).copied().unwrap_or(0);
            let output = outputs.get(&longer).copied().unwrap_or(0);
            cells.insert(bases[path] + symbol as usize, (symbol, link, output));
        }
    }
    Layout {
        cells,
        entries,
        bases,
    }
}

#[cfg(test)]
mod tests {
    use super::super::text::read_patterns;
    use super::*;

    #[test]
    fn knuths_example() {
        let list =
            read_patterns(b"he2n\nhena4\nhen5at\nhy3ph\n2io\n1na\nn2at\no2n\n1tio\n").unwrap();
        let layout = first_fit(&list);
        assert_eq!((layout.cell_count(), layout.entries.len()), (32, 7));
        assert_eq!(layout.bytes().len(), 233);
        let expected: [(&[u8], usize); 13] = [
            (b"", 0),
            (b"h", 1),
            (b"i", 2),
            (b"n", 3),
            (b"o", 4),
            (b"t", 7),
            (b"he", 5),
            (b"hy", 6),
            (b"na", 8),
            (b"ti", 9),
            (b"hen", 10),
            (b"hyp", 13),
            (b"hena", 11),
        ];
        assert_eq!(layout.bases.len(), expected.len());
        for (path, base) in expected {
            let symbols: Vec<u8> = path.iter().map(|byte| byte - b'a' + 1).collect();
            assert_eq!(layout.bases[&symbols], base);
        }
    }

    /// The root has cell 12, "l" gets base 1 and cell 29, "l'" base 2 and cell 7.
    #[test]
    fn an_apostrophe() {
        let layout = first_fit(&read_patterns(b"l'1e\n").unwrap());
        let cells: Vec<_> = layout.cells.into_iter().collect();
        let expected = [(7, (5, 0, 1)), (12, (12, 1, 0)), (29, (28, 2, 0))];
        assert_eq!(cells, expected);
    }

    #[test]
    fn fewer_symbols() {
        let without = read_patterns(b"a1b\nab2c\n.c1a\n").unwrap();
        let fewer = first_fit_over(&without, SYMBOLS - 1);
        assert_eq!(fewer.bytes(), first_fit(&without).bytes());
        let with = read_patterns(b"a1b\na'1\n").unwrap();
        let fewer = first_fit_over(&with, SYMBOLS - 1);
        assert_ne!(fewer.bytes(), first_fit(&with).bytes());
    }

    #[test]
    fn empty_list() {
        assert_eq!(first_fit(&[]).bytes(), [1, 1, 0, 1, 0, 0, 2, 0, 0, 0, 0, 0]);
    }
}
