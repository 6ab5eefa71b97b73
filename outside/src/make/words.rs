//! Words, good and bad.

use crate::reference::text::write_symbol;
use crate::reference::{Pattern, APOSTROPHE, EDGE, LETTERS, WORD_LIMIT};
use crate::rng::Rng;

/// Bytes that stand next to the letters or to the apostrophe, or look like part
/// of a list.
const NEAR_MISSES: [u8; 19] = [
    b'@', b'[', b'`', b'{', b'.', b'-', b'&', b'(', b'"', b'0', b'1', b'9', b'\n', b'\r', b' ', 0,
    0x80, 0x92, 0xff,
];

/// A small letter, or the apostrophe, for a symbol.
pub fn small(symbol: u8) -> u8 {
    write_symbol(symbol)
}

/// The letters and the apostrophe.
pub fn all_symbols() -> Vec<u8> {
    (1..=LETTERS).chain([APOSTROPHE]).collect()
}

/// Symbols of a random alphabet, with the apostrophe or without.
pub fn alphabet(rng: &mut Rng) -> Vec<u8> {
    let mut symbols = letters(rng);
    if rng.once_in(3) {
        symbols.push(APOSTROPHE);
    }
    symbols
}

/// Symbols of some of the 26 letters, often of very few, so that patterns and
/// words overlap much.
pub fn letters(rng: &mut Rng) -> Vec<u8> {
    let mut letters: Vec<u8> = (1..=LETTERS).collect();
    rng.shuffle(&mut letters);
    let size = match rng.below(8) {
        0 => 1,
        1..=3 => 2,
        4 | 5 => 3,
        6 => rng.range(4, 8),
        _ => 26,
    };
    letters.truncate(size);
    letters.sort_unstable();
    letters
}

/// One of the letters of an alphabet, which are never none, but no apostrophe.
fn letter(rng: &mut Rng, alphabet: &[u8]) -> u8 {
    loop {
        let symbol = *rng.pick(alphabet);
        if symbol != APOSTROPHE {
            return symbol;
        }
    }
}

/// Puts letters in place of apostrophes beside something that is no letter, so
/// that none stands where a pattern line may not have it.
pub fn part_apostrophes(rng: &mut Rng, symbols: &mut [u8], alphabet: &[u8]) {
    for place in 0..symbols.len() {
        let no_letter = |other: Option<&u8>| other.map_or(false, |&other| other > LETTERS);
        let before = place.checked_sub(1).and_then(|at| symbols.get(at));
        let stray = no_letter(before) || no_letter(symbols.get(place + 1));
        if symbols[place] == APOSTROPHE && stray {
            symbols[place] = letter(rng, alphabet);
        }
    }
}

/// The same for a word, which can't begin or end with one either.
fn settle_apostrophes(rng: &mut Rng, symbols: &mut [u8], alphabet: &[u8]) {
    part_apostrophes(rng, symbols, alphabet);
    if let Some(last) = symbols.len().checked_sub(1) {
        for end in [0, last] {
            if symbols[end] == APOSTROPHE {
                symbols[end] = letter(rng, alphabet);
            }
        }
    }
}

/// The symbols of a good word of a given length over an alphabet.
pub fn symbols(rng: &mut Rng, alphabet: &[u8], length: usize) -> Vec<u8> {
    let mut symbols: Vec<u8> = (0..length).map(|_| *rng.pick(alphabet)).collect();
    settle_apostrophes(rng, &mut symbols, alphabet);
    symbols
}

/// The bytes of a word, given as symbols, with capitals at times.
fn spelt(rng: &mut Rng, symbols: &[u8]) -> Vec<u8> {
    let mut word: Vec<u8> = symbols.iter().map(|&symbol| small(symbol)).collect();
    with_capitals(rng, &mut word);
    word
}

/// A length from 1 to 63, often short, at times at the end.
pub fn length(rng: &mut Rng) -> usize {
    match rng.below(10) {
        0..=4 => rng.range(1, 12),
        5..=7 => rng.range(8, 30),
        8 => rng.range(1, WORD_LIMIT),
        _ => *rng.pick(&[1, 2, 15, 16, 17, 62, 63, 63]),
    }
}

/// Makes some letters capitals.
pub fn with_capitals(rng: &mut Rng, word: &mut [u8]) {
    match rng.below(6) {
        0 => word.make_ascii_uppercase(),
        1 => {
            for byte in word.iter_mut() {
                if rng.once_in(2) {
                    byte.make_ascii_uppercase();
                }
            }
        }
        _ => (),
    }
}

/// A good word of a given length over an alphabet of symbols.
pub fn good(rng: &mut Rng, alphabet: &[u8], length: usize) -> Vec<u8> {
    let symbols = symbols(rng, alphabet, length);
    spelt(rng, &symbols)
}

/// A good word put together from pieces of patterns, so that long paths and
/// overlapping patterns are met.
pub fn from_patterns(rng: &mut Rng, list: &[Pattern], alphabet: &[u8]) -> Vec<u8> {
    let wanted = length(rng);
    let mut word = Vec::new();
    while word.len() < wanted {
        if list.is_empty() || rng.once_in(5) {
            word.push(*rng.pick(alphabet));
            continue;
        }
        let symbols = rng.pick(list).symbols();
        let kept = if rng.once_in(3) {
            rng.range(1, symbols.len())
        } else {
            symbols.len()
        };
        word.extend(symbols[..kept].iter().filter(|&&symbol| symbol != EDGE));
    }
    word.truncate(wanted);
    settle_apostrophes(rng, &mut word, alphabet);
    spelt(rng, &word)
}

/// A word that is refused, mostly.
pub fn bad(rng: &mut Rng, alphabet: &[u8]) -> Vec<u8> {
    match rng.below(7) {
        0 => Vec::new(),
        1 => {
            let length = rng.range(64, 70);
            let mut word = good(rng, alphabet, length);
            if rng.once_in(2) {
                spoil(rng, &mut word);
            }
            word
        }
        2 if rng.once_in(8) => {
            let length = rng.range(71, 5_000);
            good(rng, alphabet, length)
        }
        3 | 4 => {
            let length = length(rng);
            let mut word = good(rng, alphabet, length);
            for _ in 0..rng.range(1, 3) {
                stray(rng, &mut word);
            }
            word
        }
        _ => {
            let length = length(rng);
            let mut word = good(rng, alphabet, length);
            for _ in 0..rng.range(1, 3) {
                spoil(rng, &mut word);
            }
            word
        }
    }
}

/// Puts an apostrophe somewhere, mostly where it is none of the word's letters:
/// at an end, beside another, or beside a byte that is no letter. The length
/// stays.
fn stray(rng: &mut Rng, word: &mut [u8]) {
    let last = word.len() - 1;
    let place = rng.below(word.len());
    match rng.below(5) {
        0 => word[0] = b'\'',
        1 => word[last] = b'\'',
        2 => {
            word[place] = b'\'';
            word[last.min(place + 1)] = b'\'';
        }
        3 => {
            word[place] = b'\'';
            let beside = if rng.once_in(2) {
                place + 1
            } else {
                place.max(1) - 1
            };
            word[last.min(beside)] = *rng.pick(&NEAR_MISSES);
        }
        _ => word[place] = b'\'',
    }
}

/// A byte that no word has at this place, if all its other bytes are letters: an
/// apostrophe at either end, or one that is never a letter.
pub fn foreign(rng: &mut Rng, place: usize, length: usize) -> u8 {
    if (place == 0 || place + 1 == length) && rng.once_in(3) {
        b'\''
    } else {
        *rng.pick(&NEAR_MISSES)
    }
}

/// Puts a byte that is likely no letter somewhere.
fn spoil(rng: &mut Rng, word: &mut [u8]) {
    let place = rng.below(word.len());
    word[place] = if rng.once_in(2) {
        rng.byte()
    } else {
        *rng.pick(&NEAR_MISSES)
    };
}

#[cfg(test)]
mod tests {
    use super::*;
    use crate::reference::text::read_word;

    /// Good words are good, and many have apostrophes; strays are refused at an
    /// apostrophe often enough.
    #[test]
    fn words_have_apostrophes() {
        let mut rng = Rng::new(39);
        let (mut with, mut strays) = (0, 0);
        for _ in 0..10_000 {
            let alphabet = alphabet(&mut rng);
            let length = length(&mut rng);
            let word = good(&mut rng, &alphabet, length);
            assert!(word.len() == length && read_word(&word).is_ok());
            with += usize::from(word.contains(&b'\''));
            let bad = bad(&mut rng, &alphabet);
            if let Err(refusal) = read_word(&bad) {
                let at_apostrophe = refusal.number == 3 && bad[refusal.place] == b'\'';
                strays += usize::from(at_apostrophe);
            }
            let byte = foreign(&mut rng, length - 1, length);
            let mut word = vec![b'a'; length];
            word[length - 1] = byte;
            assert!(read_word(&word).is_err());
        }
        assert!(with > 2_000, "{} words with an apostrophe", with);
        assert!(strays > 1_500, "{} strays", strays);
    }

    #[test]
    fn words_from_patterns_are_good() {
        let mut rng = Rng::new(40);
        let list = [
            Pattern::new(&[APOSTROPHE, 1], &[0, 0, 1]),
            Pattern::new(&[1, APOSTROPHE], &[0, 1, 0]),
            Pattern::new(&[EDGE, 2, APOSTROPHE, 3], &[0, 0, 1, 0, 0]),
        ];
        let mut with = 0;
        for _ in 0..2_000 {
            let word = from_patterns(&mut rng, &list, &[1, 2]);
            assert!(read_word(&word).is_ok(), "{:?}", word);
            with += usize::from(word.contains(&b'\''));
        }
        assert!(with > 1_500, "{} words with an apostrophe", with);
    }
}
