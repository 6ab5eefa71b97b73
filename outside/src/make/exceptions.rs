//! Exception lists, good and bad.

use super::lists::{join, split, spoil_text};
use super::words::{self, small};
use crate::reference::{APOSTROPHE, WORD_LIMIT};
use crate::rng::Rng;
use std::collections::BTreeMap;

/// A line for letters given as symbols, with hyphens at random gaps.
pub fn line(rng: &mut Rng, letters: &[u8]) -> Vec<u8> {
    let often = *rng.pick(&[1, 2, 3, 1_000]);
    let mut made = Vec::new();
    for (place, &symbol) in letters.iter().enumerate() {
        if place > 0 && rng.once_in(often) {
            made.push(b'-');
        }
        made.push(small(symbol));
    }
    made
}

/// A length of letters, at times at the limit.
fn length(rng: &mut Rng) -> usize {
    match rng.below(12) {
        0 => *rng.pick(&[62, 63, 63]),
        1 => rng.range(1, WORD_LIMIT),
        _ => rng.range(1, 9),
    }
}

/// A good list of about `count` lines.
pub fn good(rng: &mut Rng, alphabet: &[u8], count: usize) -> Vec<u8> {
    let mut found = BTreeMap::new();
    for _ in 0..count {
        let length = length(rng);
        let letters = words::symbols(rng, alphabet, length);
        let line = line(rng, &letters);
        found.insert(letters, line);
    }
    let lines: Vec<Vec<u8>> = found.into_values().collect();
    join(&lines)
}

/// A good list that also holds the given words, spelt in small letters.
pub fn with_words(rng: &mut Rng, alphabet: &[u8], count: usize, words: &[Vec<u8>]) -> Vec<u8> {
    let mut found = BTreeMap::new();
    for other in split(&good(rng, alphabet, count)) {
        found.insert(letters_of(&other), other);
    }
    for word in words {
        let letters = letters_of(&word.to_ascii_lowercase());
        let line = line(rng, &letters);
        found.insert(letters, line);
    }
    let lines: Vec<Vec<u8>> = found.into_values().collect();
    join(&lines)
}

/// The symbols of a good line's letters, by which lines are sorted.
pub fn letters_of(line: &[u8]) -> Vec<u8> {
    let letters = line.iter().filter(|&&byte| byte != b'-');
    letters
        .map(|&byte| match byte {
            b'\'' => APOSTROPHE,
            _ => byte - b'a' + 1,
        })
        .collect()
}

/// A list with a fault in it, mostly; the reference decides.
pub fn bad(rng: &mut Rng, good: &[u8]) -> Vec<u8> {
    let mut lines = split(good);
    if lines.is_empty() {
        lines.push(b"a-b".to_vec());
    }
    let place = rng.below(lines.len());
    spoil(rng, &mut lines, place);
    spoil_text(rng, join(&lines), b"\n-'.1Aaz \r")
}

/// Spoils one of the lines, or their order.
fn spoil(rng: &mut Rng, lines: &mut Vec<Vec<u8>>, place: usize) {
    let inside = rng.range(0, lines[place].len());
    match rng.below(18) {
        0 => {
            let other = rng.below(lines.len());
            lines.swap(place, other);
        }
        1 => {
            let mut again = lines[place].clone();
            again.retain(|&byte| byte != b'-');
            lines.insert(place, again);
        }
        2 => lines.insert(place, Vec::new()),
        3 => lines[place].insert(0, b'-'),
        4 => lines[place].push(b'-'),
        5 => lines[place].insert(inside, b'-'),
        6 => lines[place].extend(vec![b'z'; WORD_LIMIT + 1]),
        7 => lengthen(rng, &mut lines[place]),
        8 => lines[place] = vec![b'-'],
        9 => lines[place].make_ascii_uppercase(),
        10 => lines[place].insert(inside, b'\n'),
        11 | 12 => lines[place].insert(inside, b'\''),
        13 => lines[place].insert(0, b'\''),
        14 => lines[place].push(b'\''),
        15 => drop(lines[place].splice(inside..inside, *b"'-'")),
        16 => drop(lines[place].splice(inside..inside, *b"-'")),
        _ => lines[place].insert(inside, rng.byte()),
    }
}

/// Adds letters until the line has 63, 64 or 65 of them.
fn lengthen(rng: &mut Rng, line: &mut Vec<u8>) {
    let wanted = rng.range(63, 65);
    let count = |line: &[u8]| line.iter().filter(|&&byte| byte != b'-').count();
    while count(line) < wanted {
        line.push(b'a' + rng.below(2) as u8);
    }
}

/// A good list of exactly so many bytes (at least some hundreds) over some
/// symbols, a z not among them: the last line is of these, sorts behind the
/// others and makes the sum right.
pub fn exact(rng: &mut Rng, alphabet: &[u8], bytes: usize) -> Vec<u8> {
    let mut found: BTreeMap<Vec<u8>, Vec<u8>> = BTreeMap::new();
    let mut size = 0;
    while bytes - size > 64 {
        let length = length(rng);
        let letters = words::symbols(rng, alphabet, length);
        let line = line(rng, &letters);
        if found.contains_key(&letters) || size + line.len() + 3 > bytes {
            continue;
        }
        size += line.len() + 1;
        found.insert(letters, line);
    }
    let mut lines: Vec<Vec<u8>> = found.into_values().collect();
    lines.push(vec![b'z'; bytes - size - 1]);
    join(&lines)
}

#[cfg(test)]
mod tests {
    use super::*;
    use crate::reference::text::read_exceptions;

    #[test]
    fn lists_are_good() {
        let mut rng = Rng::new(3);
        for round in 0..200 {
            assert!(read_exceptions(&good(&mut rng, &[1, 2, 3], round % 30)).is_ok());
            assert!(read_exceptions(&good(&mut rng, &[1, 2, 28], round % 30)).is_ok());
            let bytes = 8_000 + round;
            let text = exact(&mut rng, &[1, 2, 25, APOSTROPHE], bytes);
            assert_eq!(text.len(), bytes);
            assert!(read_exceptions(&text).is_ok());
        }
    }
    /// Lines have apostrophes with a hyphen before them, behind them and on both
    /// sides.
    #[test]
    fn lines_have_apostrophes() {
        let mut rng = Rng::new(39);
        let mut found = [0; 4];
        for _ in 0..300 {
            let text = good(&mut rng, &[1, 2, APOSTROPHE], 20);
            for three in text.windows(3).filter(|three| three[1] == b'\'') {
                let before = usize::from(three[0] == b'-');
                let behind = usize::from(three[2] == b'-');
                found[before + 2 * behind] += 1;
            }
        }
        assert!(found.iter().all(|&count| count > 300), "{:?}", found);
    }
}
