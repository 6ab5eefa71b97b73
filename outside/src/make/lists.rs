//! Pattern lists, good and bad.

use super::words::{alphabet, part_apostrophes};
use crate::reference::text::{is_legal, write_pattern, write_patterns, write_symbol};
use crate::reference::{Pattern, APOSTROPHE, EDGE, LONGEST};
use crate::rng::Rng;
use std::collections::BTreeMap;

/// Lines about edges and apostrophes, most of them bad.
const ODD_LINES: [&[u8]; 26] = [
    b"1.a", b"a.1", b".1", b"1", b".", b"..", b".1.", b".a.", b".a1.", b"..a1", b"a..1", b"a.b1",
    b"'1", b"1'", b"''1", b".'a1", b"a1'.", b"''a1", b"a'1'b", b".'1", b"'1.", b"a'.1", b"'a1",
    b"a1'", b"'a'1", b"a'1b",
];

/// What a random list looks like.
#[derive(Clone, Debug)]
pub struct Shape {
    /// Symbols of the letters used, the apostrophe at times among them.
    pub alphabet: Vec<u8>,
    /// How many patterns are tried; equal ones count once.
    pub count: usize,
    /// The most symbols of a pattern.
    pub longest: usize,
    /// One pattern in so many begins or ends with the edge; 0 for none.
    pub edges: usize,
    /// One gap in so many has a digit; 1 for every gap.
    pub digits: usize,
    /// The highest digit.
    pub highest: usize,
    /// One pattern in so many goes on from an earlier one.
    pub extend: usize,
}

impl Shape {
    /// A shape at random, of small lists.
    pub fn any(rng: &mut Rng) -> Shape {
        Shape {
            alphabet: alphabet(rng),
            count: match rng.below(6) {
                0 => rng.range(0, 2),
                1..=3 => rng.range(1, 12),
                _ => rng.range(5, 60),
            },
            longest: *rng.pick(&[1, 2, 3, 4, 5, 6, 8, 16, 16]),
            edges: *rng.pick(&[0, 2, 3, 6]),
            digits: *rng.pick(&[1, 2, 2, 3, 8]),
            highest: *rng.pick(&[1, 2, 5, 9, 9]),
            extend: *rng.pick(&[2, 4, 100]),
        }
    }
}

/// Random symbols for a pattern; now and then the beginning of an earlier one
/// and something behind it. They may be illegal, which the caller sorts out.
fn symbols(rng: &mut Rng, shape: &Shape, earlier: &[Vec<u8>]) -> Vec<u8> {
    let length = rng.range(1, shape.longest);
    let mut made = Vec::new();
    if !earlier.is_empty() && rng.once_in(shape.extend) {
        let other: &Vec<u8> = rng.pick(earlier);
        made.extend(&other[..rng.range(1, other.len())]);
    }
    while made.len() < length {
        made.push(*rng.pick(&shape.alphabet));
    }
    if shape.edges > 0 && rng.once_in(shape.edges) {
        made[0] = EDGE;
    }
    if shape.edges > 0 && rng.once_in(shape.edges) {
        let last = made.len() - 1;
        made[last] = EDGE;
    }
    part_apostrophes(rng, &mut made, &shape.alphabet);
    made
}

/// Random levels for symbols, keeping to the rules about edges.
pub fn levels(rng: &mut Rng, shape: &Shape, symbols: &[u8]) -> Vec<u8> {
    let first = if symbols[0] == EDGE { 1 } else { 0 };
    let last = if symbols[symbols.len() - 1] == EDGE {
        symbols.len() - 1
    } else {
        symbols.len()
    };
    let mut made = vec![0; symbols.len() + 1];
    for level in &mut made[first..=last] {
        if rng.once_in(shape.digits) {
            *level = rng.range(1, shape.highest) as u8;
        }
    }
    if made.iter().all(|&level| level == 0) {
        made[rng.range(first, last)] = rng.range(1, shape.highest) as u8;
    }
    made
}

/// A good list of this shape, in order.
pub fn good(rng: &mut Rng, shape: &Shape) -> Vec<Pattern> {
    let mut found: BTreeMap<Vec<u8>, Pattern> = BTreeMap::new();
    let mut earlier: Vec<Vec<u8>> = Vec::new();
    for _ in 0..shape.count {
        let symbols = symbols(rng, shape, &earlier);
        let levels = levels(rng, shape, &symbols);
        if is_legal(&symbols, &levels) {
            found.insert(symbols.clone(), Pattern::new(&symbols, &levels));
            earlier.push(symbols);
        }
    }
    found.into_values().collect()
}

/// Cuts a text into its lines, without line feeds.
pub fn split(text: &[u8]) -> Vec<Vec<u8>> {
    let mut lines: Vec<Vec<u8>> = text.split(|&b| b == b'\n').map(|l| l.to_vec()).collect();
    lines.pop();
    lines
}

/// Joins lines, each with a line feed.
pub fn join(lines: &[Vec<u8>]) -> Vec<u8> {
    let mut text = Vec::new();
    for line in lines {
        text.extend(line);
        text.push(b'\n');
    }
    text
}

/// A list with a fault in it, mostly; the reference decides.
pub fn bad(rng: &mut Rng, list: &[Pattern]) -> Vec<u8> {
    let mut lines = split(&write_patterns(list));
    if lines.is_empty() {
        lines.push(b"a1".to_vec());
    }
    let place = rng.below(lines.len());
    spoil(rng, &mut lines, place);
    spoil_text(rng, join(&lines), b"\n.'0123456789-Aaz \r")
}

/// Now and then spoils a text that isn't empty by one byte: the last left out,
/// or one changed, added (one of `odd`) or removed anywhere.
pub fn spoil_text(rng: &mut Rng, mut text: Vec<u8>, odd: &[u8]) -> Vec<u8> {
    match rng.below(8) {
        0 => {
            text.pop();
        }
        1 => {
            let place = rng.below(text.len());
            text[place] = rng.byte();
        }
        2 => {
            let place = rng.range(0, text.len());
            text.insert(place, *rng.pick(odd));
        }
        3 => {
            let place = rng.below(text.len());
            text.remove(place);
        }
        _ => (),
    }
    text
}

/// Spoils one of the lines, or their order.
fn spoil(rng: &mut Rng, lines: &mut Vec<Vec<u8>>, place: usize) {
    let inside = rng.range(0, lines[place].len());
    match rng.below(18) {
        0 => {
            let other = rng.below(lines.len());
            lines.swap(place, other);
        }
        1 => {
            let mut again = lines[place].clone();
            if rng.once_in(2) {
                again.insert(inside, b'3');
            }
            lines.insert(place, again);
        }
        2 => lines.insert(place, Vec::new()),
        3 => lines[place].insert(inside, b'0'),
        4 => lines[place].insert(inside, b'A' + rng.below(26) as u8),
        5 => lengthen(rng, &mut lines[place], LONGEST + 1),
        6 => lengthen(rng, &mut lines[place], LONGEST),
        7 => lines[place].insert(inside, b'.'),
        8 => {
            let digit = b'1' + rng.below(9) as u8;
            lines[place].insert(inside, digit);
        }
        9 => lines[place].retain(|byte| !byte.is_ascii_digit()),
        10 => lines[place].retain(|byte| !byte.is_ascii_lowercase()),
        11 => lines[place].insert(inside, b'\n'),
        12 => lines[place].push(b'\r'),
        13 | 14 => lines[place] = rng.pick(&ODD_LINES).to_vec(),
        15 | 16 => lines[place].insert(inside, b'\''),
        _ => lines[place].insert(inside, rng.byte()),
    }
}

/// Adds letters until the line has so many symbols.
fn lengthen(rng: &mut Rng, line: &mut Vec<u8>, symbols: usize) {
    let count = |line: &[u8]| line.iter().filter(|byte| !byte.is_ascii_digit()).count();
    while count(line) < symbols {
        line.push(b'a' + rng.below(3) as u8);
    }
}

/// A good list whose text has exactly so many bytes (some hundreds at least).
/// The last line begins with the last symbol that the list has, the apostrophe
/// or the edge, and sorts behind all others; its length makes the sum right.
pub fn exact(rng: &mut Rng, shape: &Shape, bytes: usize) -> Vec<u8> {
    let mut found: BTreeMap<Vec<u8>, Vec<u8>> = BTreeMap::new();
    let mut size = 0;
    let mut earlier: Vec<Vec<u8>> = Vec::new();
    let highest = match shape.alphabet.contains(&APOSTROPHE) {
        true => APOSTROPHE,
        false => EDGE,
    };
    while bytes - size > 33 {
        let symbols = symbols(rng, shape, &earlier);
        let levels = levels(rng, shape, &symbols);
        let begins_last = symbols.starts_with(&[highest, 26]);
        if begins_last || found.contains_key(&symbols) || !is_legal(&symbols, &levels) {
            continue;
        }
        let mut line = Vec::new();
        write_pattern(&Pattern::new(&symbols, &levels), &mut line);
        if size + line.len() + 4 > bytes {
            continue;
        }
        size += line.len();
        found.insert(symbols.clone(), line);
        earlier.push(symbols);
    }
    let mut text: Vec<u8> = found.into_values().flatten().collect();
    text.extend(last_line(write_symbol(highest), bytes - size));
    text
}

/// A line ".z..." or "'z..." of 4 to 33 bytes with its line feed.
fn last_line(first: u8, bytes: usize) -> Vec<u8> {
    assert!((4..=33).contains(&bytes));
    let symbols = (bytes - 2).min(LONGEST);
    let mut digits = bytes - 1 - symbols;
    let mut line = vec![first];
    for _ in 1..symbols {
        if digits > 0 {
            line.push(b'1');
            digits -= 1;
        }
        line.push(b'z');
    }
    if digits > 0 {
        line.push(b'1');
    }
    line.push(b'\n');
    line
}

#[cfg(test)]
mod tests {
    use super::*;
    use crate::make::words::all_symbols;
    use crate::reference::text::read_patterns;

    #[test]
    fn lists_are_good() {
        let mut rng = Rng::new(1);
        for _ in 0..300 {
            let shape = Shape::any(&mut rng);
            let list = good(&mut rng, &shape);
            assert_eq!(read_patterns(&write_patterns(&list)).as_ref(), Ok(&list));
        }
    }

    /// Patterns have apostrophes at the front, at the end and inside.
    #[test]
    fn lists_have_apostrophes() {
        let mut rng = Rng::new(39);
        let (mut first, mut last, mut inside) = (0, 0, 0);
        for _ in 0..2_000 {
            let shape = Shape::any(&mut rng);
            for pattern in good(&mut rng, &shape) {
                let symbols = pattern.symbols();
                let end = symbols.len() - 1;
                first += usize::from(symbols[0] == APOSTROPHE);
                last += usize::from(symbols[end] == APOSTROPHE);
                inside += usize::from(symbols[1..end.max(1)].contains(&APOSTROPHE));
            }
        }
        let least = first.min(last).min(inside);
        assert!(least > 500, "{}, {}, {}", first, last, inside);
    }

    #[test]
    fn exact_lists_are_good_and_exact() {
        let mut rng = Rng::new(2);
        for bytes in (300..340).chain([32_768]) {
            let mut alphabet = all_symbols();
            alphabet.truncate(rng.range(26, 27));
            let shape = Shape {
                alphabet,
                count: 0,
                longest: 8,
                edges: 4,
                digits: 3,
                highest: 9,
                extend: 4,
            };
            let text = exact(&mut rng, &shape, bytes);
            assert_eq!(text.len(), bytes);
            assert!(read_patterns(&text).is_ok());
        }
    }

    #[test]
    fn last_lines() {
        for bytes in 4..=33 {
            for first in [b'.', b'\''] {
                let line = last_line(first, bytes);
                assert_eq!(line.len(), bytes);
                assert!(read_patterns(&line).is_ok(), "{:?}", line);
            }
        }
    }
}
