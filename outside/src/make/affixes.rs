//! Words for the table machine of 1980: put together from beginnings, middles
//! and endings that its tables know, and from letters that they ask for.

use super::words;
use crate::reference::tables1980::{Prefix, Suffix, PREFIX, SUFFIX};
use crate::reference::LETTERS_1980;
use crate::rng::Rng;

/// What the prefix machine knows.
pub const BEGINNINGS: [&str; 38] = [
    "be", "com", "con", "dis", "dish", "disy", "equi", "equiv", "ex", "hand", "horse", "hyper",
    "im", "in", "inte", "inter", "intr", "intro", "lexi", "macro", "mathe", "maxi", "mini",
    "multi", "non", "out", "over", "pseudo", "quad", "semi", "some", "sub", "super", "there",
    "trans", "tri", "un", "under",
];

/// What the suffix machine knows.
pub const ENDINGS: [&str; 62] = [
    "able", "ableable", "age", "al", "ary", "ble", "cal", "cate", "cial", "cient", "cious",
    "ckling", "dent", "ed", "enary", "er", "ess", "est", "ful", "ics", "ied", "ing", "ional",
    "ionary", "ious", "ission", "ize", "kling", "late", "less", "ling", "lize", "ly", "ment",
    "nal", "nary", "ness", "ntable", "ogy", "onary", "ous", "rapher", "raphy", "rtable", "s",
    "scious", "scope", "scopic", "sional", "sion", "sphere", "ss", "ssing", "table", "tal", "tate",
    "tial", "tient", "tion", "tional", "tive", "ture",
];

/// What stands between them: pairs of consonants of every kind, and vowels.
pub const MIDDLES: [&str; 56] = [
    "a", "e", "i", "o", "u", "y", "ea", "ou", "b", "g", "l", "n", "t", "bl", "ck", "cr", "ch",
    "chr", "dg", "ft", "gh", "ght", "kn", "ld", "lk", "ll", "llt", "mp", "nch", "nd", "ng", "ns",
    "nt", "nx", "ph", "phr", "que", "qui", "rg", "rk", "rm", "rn", "rt", "rth", "sh", "sp", "squ",
    "ss", "st", "tch", "th", "thr", "tt", "wh", "zz", "lph",
];

/// Letters that the tables ask for most.
pub const TELLING: [u8; 13] = *b"aeiluhstcrdng";

/// Drops letters on one side at times, or changes one.
fn bent(rng: &mut Rng, part: &str, from_left: bool) -> Vec<u8> {
    let mut letters = part.as_bytes().to_vec();
    match rng.below(8) {
        0 if letters.len() > 1 => {
            let dropped = rng.range(1, letters.len() - 1);
            if from_left {
                letters.drain(..dropped);
            } else {
                letters.truncate(letters.len() - dropped);
            }
        }
        1 => {
            let place = rng.below(letters.len());
            letters[place] = words::small(rng.range(1, 26) as u8);
        }
        _ => (),
    }
    letters
}

/// A word of parts that the tables know, some of them bent.
pub fn word(rng: &mut Rng) -> Vec<u8> {
    let mut word = Vec::new();
    for _ in 0..*rng.pick(&[0, 1, 1, 2, 2, 3]) {
        let part = *rng.pick(&BEGINNINGS);
        word.extend(bent(rng, part, false));
    }
    for _ in 0..*rng.pick(&[0, 1, 2, 2, 3, 4, 5]) {
        let part = *rng.pick(&MIDDLES);
        word.extend(bent(rng, part, false));
    }
    for _ in 0..*rng.pick(&[0, 1, 1, 1, 2, 2, 3, 6]) {
        let part = *rng.pick(&ENDINGS);
        word.extend(bent(rng, part, true));
    }
    finish(rng, word)
}

/// Not empty and not too long, with capitals at times.
fn finish(rng: &mut Rng, mut word: Vec<u8>) -> Vec<u8> {
    if word.is_empty() {
        word.push(b'e');
    }
    if word.len() > LETTERS_1980 {
        // The end matters as much as the beginning.
        let half = LETTERS_1980 / 2;
        word.drain(half..word.len() - (LETTERS_1980 - half));
    }
    words::with_capitals(rng, &mut word);
    word
}

/// Vowels and runs of consonants in turn, for the pairs.
pub fn syllables(rng: &mut Rng) -> Vec<u8> {
    let vowels = *rng.pick(&[&b"aeiouy"[..], b"ae", b"u"]);
    let consonants = *rng.pick(&[
        &b"bcdfghjklmnpqrstvwxz"[..],
        b"hcgpst",
        b"lshtn",
        b"rnlmgdst",
        b"qckl",
    ]);
    let mut word = Vec::new();
    let wanted = words::length(rng);
    while word.len() < wanted {
        for _ in 0..*rng.pick(&[1, 1, 1, 2]) {
            word.push(*rng.pick(vowels));
        }
        for _ in 0..*rng.pick(&[1, 2, 2, 2, 3, 4]) {
            word.push(*rng.pick(consonants));
        }
    }
    if rng.once_in(2) {
        let last = *rng.pick(&[
            "er", "est", "age", "ages", "ers", "este", "ed", "aged", "ered",
        ]);
        word.extend(last.bytes());
    }
    let shift = rng.below(3).min(word.len() - 1);
    word.drain(..shift);
    finish(rng, word)
}

/// One part over and over, so that a machine is entered many times.
pub fn stack(rng: &mut Rng) -> Vec<u8> {
    let parts: &[&str] = if rng.once_in(2) {
        &BEGINNINGS
    } else {
        &ENDINGS
    };
    let few = [*rng.pick(parts), *rng.pick(parts)];
    let wanted = words::length(rng);
    let mut word = Vec::new();
    while word.len() < wanted {
        word.extend(rng.pick(&few).bytes());
    }
    word.truncate(wanted);
    word.extend(rng.pick(&["", "", "s", "ed", "d", "ly"]).bytes());
    finish(rng, word)
}

/// The word with a part put in, a stretch left out or a letter changed.
pub fn changed(rng: &mut Rng, word: &[u8]) -> Vec<u8> {
    let mut word = word.to_vec();
    let place = rng.below(word.len());
    match rng.below(4) {
        0 => {
            let end = (place + rng.range(1, 6)).min(word.len());
            word.drain(place..end);
        }
        1 => word[place] = words::small(rng.range(1, 26) as u8),
        2 => drop(word.splice(place..place, rng.pick(&BEGINNINGS).bytes())),
        _ => drop(word.splice(place..place, rng.pick(&ENDINGS).bytes())),
    }
    finish(rng, word)
}

/// Letters that lead through the rows of a table: at each row one that it asks
/// for, or now and then another. The suffix rows are read from the right.
pub fn walk(rng: &mut Rng) -> Vec<u8> {
    let mut head = Vec::new();
    if rng.once_in(2) {
        head = walk_prefix(rng);
    }
    let mut tail = Vec::new();
    if head.is_empty() || rng.once_in(2) {
        tail = walk_suffix(rng);
        tail.reverse();
    }
    for _ in 0..*rng.pick(&[0, 0, 1, 2, 3, 6]) {
        head.push(words::small(rng.range(1, 26) as u8));
    }
    head.extend(tail);
    finish(rng, head)
}

/// One of the letters, or another one now and then.
fn asked(rng: &mut Rng, letters: &[u8]) -> u8 {
    if letters.is_empty() || rng.once_in(5) {
        words::small(rng.range(1, 26) as u8)
    } else {
        *rng.pick(letters)
    }
}

fn walk_prefix(rng: &mut Rng) -> Vec<u8> {
    let mut letters = vec![words::small(rng.range(1, 26) as u8)];
    let mut row = (letters[0] - b'a') as usize + 1;
    loop {
        match PREFIX[row] {
            Prefix::Scan(letter, yes, _) if !rng.once_in(3) => {
                letters.push(letter);
                row = yes;
            }
            Prefix::Scan(_, _, no) => row = no,
            Prefix::Table(among) => {
                letters.push(asked(rng, among));
                return letters;
            }
            _ => return letters,
        }
    }
}

fn walk_suffix(rng: &mut Rng) -> Vec<u8> {
    let mut letters = vec![words::small(rng.range(1, 26) as u8)];
    let mut row = (letters[0] - b'a') as usize + 1;
    loop {
        row = match SUFFIX[row] {
            Suffix::Scan(letter, yes, _) if !rng.once_in(3) => {
                letters.push(letter);
                yes
            }
            Suffix::Table(mask, yes, _) if !rng.once_in(3) => {
                if let Suffix::Letters(among) = SUFFIX[mask] {
                    letters.push(asked(rng, &among[usize::from(among[0] == 0)..]));
                }
                yes
            }
            Suffix::Double(yes, _) => {
                let letter = words::small(rng.range(1, 26) as u8);
                letters.extend([letter, letter]);
                yes
            }
            Suffix::Scan(_, _, no) | Suffix::Table(_, _, no) => no,
            Suffix::Check(yes, _) => yes,
            Suffix::Mark(_, on) | Suffix::Again(on) => on,
            _ => return letters,
        };
    }
}

/// Random letters, few or many of them.
pub fn random(rng: &mut Rng) -> Vec<u8> {
    let alphabet = words::letters(rng);
    let length = words::length(rng);
    let word = words::good(rng, &alphabet, length);
    finish(rng, word)
}

/// A word of any of these makers.
pub fn any(rng: &mut Rng) -> Vec<u8> {
    match rng.below(8) {
        0..=2 => word(rng),
        3 => syllables(rng),
        4 => stack(rng),
        5 | 6 => walk(rng),
        _ => random(rng),
    }
}

#[cfg(test)]
mod tests {
    use super::*;
    use crate::reference::{archive, Seen};

    #[test]
    fn good_ones_are_good() {
        let mut rng = Rng::new(1980);
        for _ in 0..40_000 {
            let word = any(&mut rng);
            let answer = archive(&word, &mut [0; 64], &mut Seen::default());
            assert_eq!(answer >> 48, 0, "{:?}", word);
        }
    }
}
