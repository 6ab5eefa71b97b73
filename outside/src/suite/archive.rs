//! The table machine of 1980: words that go through every row of its tables and
//! every turn of its scan, known ones, grounds and rooms.

use super::real::data;
use crate::run::{demand, Run};

use outside::fence::Place;
use outside::lab::{Lab, Mismatch};
use outside::make::{affixes, words};
use outside::reference::seen1980::TURNS;
use outside::reference::tables1980::{Prefix, Suffix, PREFIX, SUFFIX};
use outside::reference::Seen;
use outside::rng::Rng;
use std::collections::BTreeSet;
use tteolmigu::{archive, Archived, Ground};

/// A good word: it is answered, and within what a word of so many letters may
/// execute.
fn good(lab: &mut Lab, word: &[u8], seen: &mut Seen) -> Result<u64, Mismatch> {
    let answer = lab.archive(word, 64, seen)?;
    let most = match word.len() {
        0..=4 => 0,
        letters => 32 * letters as u64 + 8,
    };
    demand(answer >> 48 == 0 && answer & 0xffff_ffff <= most, || {
        format!("{:?} gives {:#x}", word, answer)
    })?;
    Ok(answer)
}

/// A word with a hyphen at each break, as a printer of 1980 would show it.
fn shown(word: &[u8], room: &[u8]) -> String {
    let mut text = String::new();
    for (gap, &letter) in word.iter().enumerate() {
        if room[gap] == 1 {
            text.push('-');
        }
        text.push(letter as char);
    }
    text
}

/// Words with their hyphens and the instructions that they execute.
const KNOWN: [(&str, u64); 88] = [
    // Under five letters nothing is executed.
    ("a", 0),
    ("on", 0),
    ("late", 0),
    ("tion", 0),
    // Liang's thesis says of the rules that they don't split "program", that they
    // break between a vowel and "q" and behind "ck", and that they don't break
    // certain pairs before "er" and "ers" at the end.
    ("program", 3),
    ("programs", 7),
    ("li-quid", 4),
    ("an-ti-quity", 6),
    ("tick-et-ing", 11),
    ("jock-ey-ing", 8),
    ("master", 8),
    ("masters", 12),
    ("mas-tery", 10),
    // The program of 1980 names "bl" as a strong pair and "ft" as a weak one.
    ("tablet", 5),
    ("softer", 7),
    ("softest", 6),
    ("sof-ten", 6),
    // Words that its dictionary puts right, as the rules alone have them.
    ("ca-tion", 7),
    ("me-tal", 9),
    ("darl-ing", 9),
    ("eul-ogy", 7),
    ("al-gorithm", 2),
    ("center", 5),
    ("bet-ween", 4),
    ("be-ckon", 5),
    ("pa-late", 9),
    ("lu-scious", 9),
    // Double consonants, and pairs with "h".
    ("sum-mer", 9),
    ("bag-gage", 10),
    ("fal-len", 3),
    ("caller", 5),
    ("callers", 9),
    ("pas-sage", 10),
    ("passer", 5),
    ("or-phans", 9),
    ("pitcher", 6),
    ("benches", 14),
    ("lengthen", 5),
    ("bishops", 7),
    // Weak pairs before "age" and "est", whose final "e" may be hidden.
    ("vantage", 9),
    ("vantages", 13),
    ("van-taged", 12),
    ("har-vest", 5),
    // Prefixes.
    ("un-der-state-ment", 15),
    ("hy-per-bola", 8),
    ("horse-back", 7),
    ("uniform", 5),
    ("uniden-tified", 14),
    ("disyl-labic", 8),
    ("dishes", 16),
    ("dishonest", 6),
    ("math-e-matics", 13),
    ("max-i-mal", 12),
    ("pseu-do-nym", 7),
    ("trans-form", 7),
    ("transpose", 14),
    ("tri-angle", 9),
    ("tribune", 13),
    ("equa-tion", 9),
    ("equi-librium", 6),
    // Suffixes, one behind the other too.
    ("na-tion", 7),
    ("na-tional", 10),
    ("hyphena-tion", 11),
    ("agree-able", 16),
    ("agree-abled", 20),
    ("in-ter-change-able", 21),
    ("end-lessly", 11),
    ("care-less-ness", 23),
    ("spe-cial-ized", 17),
    ("weight-ings", 13),
    ("crack-ling", 10),
    ("tick-ling", 11),
    ("spar-kling", 12),
    ("puff-ing", 8),
    ("bring", 6),
    ("micro-scope", 15),
    ("at-mo-sphere", 13),
    ("photog-rapher", 8),
    ("vi-sion-ary", 14),
    ("mer-cen-ary", 12),
    ("or-di-nary", 11),
    ("com-fort-able", 12),
    ("veritable", 8),
    ("suf-fi-cient", 13),
    // The suffix machine goes below the sheet.
    ("lated", 9),
    ("lately", 10),
    // The most for one letter, and the most for a word, as far as known.
    ("supeed", 26),
    ("in-in-in-in-in-in-in-in-in-in-in-in-in-in-in-in-in-in-in-in-in-in-in-in-in-in-in-in-intreed", 142),
];

/// Known words, in small letters and in capitals.
pub fn figures(run: &mut Run) -> Result<(), Mismatch> {
    run.once(|lab, _| {
        let mut seen = Seen::default();
        for (hyphened, executed) in KNOWN {
            let word = hyphened.replace('-', "");
            for word in [word.to_ascii_uppercase(), word] {
                let answer = good(lab, word.as_bytes(), &mut seen)?;
                let text = shown(word.as_bytes(), lab.room()).to_ascii_lowercase();
                let breaks = hyphened.len() - word.len();
                let expected = (breaks as u64) << 32 | executed;
                demand(answer == expected && text == hyphened, || {
                    format!("{} gives {} and {:#x}", hyphened, text, answer)
                })?;
            }
        }
        Ok(())
    })
}

/// Words for which a machine leaves the sheet on its left.
pub fn below_the_sheet(run: &mut Run) -> Result<(), Mismatch> {
    run.once(|lab, _| {
        for word in ["lated", "lately", "cated", "cately"] {
            let mut seen = Seen::default();
            good(lab, word.as_bytes(), &mut seen)?;
            demand(seen.lowest == -1, || {
                format!("{} comes to {}", word, seen.lowest)
            })?;
        }
        // No ending leads further down, whatever few letters stand before it.
        let mut seen = Seen::default();
        for ending in affixes::ENDINGS {
            for more in ["", "d", "ed", "s", "ly", "er", "ing", "able"] {
                for before in all_words(b"aelt", 2) {
                    let word = [&before[..], ending.as_bytes(), more.as_bytes()].concat();
                    good(lab, &word, &mut seen)?;
                }
            }
        }
        demand(seen.lowest == -1, || format!("a place of {}", seen.lowest))
    })
}

/// The words of up to so many letters over an alphabet, the empty one too.
fn all_words(alphabet: &[u8], most: usize) -> Vec<Vec<u8>> {
    let mut found = vec![Vec::new()];
    let mut from = 0;
    for _ in 0..most {
        let until = found.len();
        for at in from..until {
            for &letter in alphabet {
                let mut longer = found[at].clone();
                longer.push(letter);
                found.push(longer);
            }
        }
        from = until;
    }
    found
}

/// Whether a suffix row may be executed with this outcome.
fn suffix_may(row: &Suffix, yes: bool) -> bool {
    match row {
        // A go begins with a letter that no hyphen has taken yet, so never with
        // row 0; and no row leads to letters.
        Suffix::Letters(_) => false,
        // No row leads there.
        Suffix::Success(3) => false,
        Suffix::Success(_) | Suffix::Fail => yes,
        // One that is some places off is set in every go.
        Suffix::Mark(off, _) => yes || *off == 0,
        _ => true,
    }
}

/// Whether a prefix row may be executed with this outcome.
fn prefix_may(row: &Prefix, yes: bool) -> bool {
    match row {
        Prefix::Scan(..) => true,
        // Two places back and one on stands a letter that was just read.
        Prefix::Repeat(2) => yes,
        Prefix::Repeat(_) => true,
        Prefix::Table(letters) => !yes || !letters.is_empty(),
        Prefix::Mark(_) | Prefix::Fail | Prefix::Vow | Prefix::Cons => yes,
    }
}

/// Every row was executed with each outcome that it may have, and with no other.
fn all_rows(seen: &Seen) -> Result<(), Mismatch> {
    for yes in [true, false] {
        for (number, row) in SUFFIX.iter().enumerate() {
            demand(seen.suffix(number, yes) == suffix_may(row, yes), || {
                format!("suffix row {} with {}: {:?}", number, yes, row)
            })?;
        }
        for (number, row) in PREFIX.iter().enumerate() {
            demand(seen.prefix(number, yes) == prefix_may(row, yes), || {
                format!("prefix row {} with {}: {:?}", number, yes, row)
            })?;
        }
    }
    Ok(())
}

/// Every turn was taken.
fn all_turns(seen: &Seen) -> Result<(), Mismatch> {
    let missing: Vec<_> = TURNS.iter().filter(|&&turn| !seen.turn(turn)).collect();
    demand(missing.is_empty(), || format!("{:?} were not met", missing))
}

/// Rounds with a maker of good words. What they went through comes back.
fn made(run: &mut Run, rounds: u64, make: impl Fn(&mut Rng) -> Vec<u8>) -> Result<Seen, Mismatch> {
    let mut seen = Seen::default();
    run.rounds(rounds, |lab, rng| {
        for _ in 0..4 {
            good(lab, &make(rng), &mut seen)?;
        }
        Ok(())
    })?;
    Ok(seen)
}

/// Words of parts that the tables know. They go through all rows and turns.
pub fn parts(run: &mut Run) -> Result<(), Mismatch> {
    let seen = made(run, 900_000, affixes::word)?;
    if !run.is_whole() {
        return Ok(());
    }
    all_rows(&seen)?;
    all_turns(&seen)
}

/// Words led by the rows themselves, through all of them.
pub fn walks(run: &mut Run) -> Result<(), Mismatch> {
    let seen = made(run, 700_000, affixes::walk)?;
    if !run.is_whole() {
        return Ok(());
    }
    all_rows(&seen)
}

/// Vowels and runs of consonants, through all turns.
pub fn pairs(run: &mut Run) -> Result<(), Mismatch> {
    let seen = made(run, 700_000, affixes::syllables)?;
    if !run.is_whole() {
        return Ok(());
    }
    all_turns(&seen)
}

/// One part over and over, so that both machines are entered often.
pub fn stacks(run: &mut Run) -> Result<(), Mismatch> {
    made(run, 300_000, affixes::stack).map(|_| ())
}

/// Random letters, few or many of them.
pub fn random(run: &mut Run) -> Result<(), Mismatch> {
    made(run, 600_000, affixes::random).map(|_| ())
}

/// Every word of up to five letters over those that the tables ask for most, and
/// longer ones over fewer letters or with an ending.
pub fn short(run: &mut Run) -> Result<(), Mismatch> {
    run.once(|lab, _| {
        let mut seen = Seen::default();
        for word in &all_words(&affixes::TELLING, 5)[1..] {
            good(lab, word, &mut seen)?;
        }
        for word in &all_words(b"aetds", 7)[1..] {
            good(lab, word, &mut seen)?;
        }
        for word in all_words(&affixes::TELLING, 3) {
            for ending in ["er", "est", "age", "ed", "ing", "tion"] {
                let word = [b"be", &word[..], ending.as_bytes()].concat();
                good(lab, &word, &mut seen)?;
            }
        }
        Ok(())
    })
}

/// Every pair of consonants between vowels, with "h" behind one or both, before
/// what matters behind it.
pub fn all_pairs(run: &mut Run) -> Result<(), Mismatch> {
    run.once(|lab, _| {
        let mut seen = Seen::default();
        for first in b'a'..=b'z' {
            for second in b'a'..=b'z' {
                for middle in [
                    vec![first, second],
                    vec![first, b'h', second],
                    vec![first, second, b'h'],
                    vec![first, b'h', second, b'h'],
                    vec![first, first, second],
                ] {
                    for begin in ["ba", "po", "e"] {
                        for end in [
                            "ena", "er", "ers", "erta", "est", "ests", "esta", "age", "aged",
                            "ages", "agely", "l", "", "e",
                        ] {
                            let word = [begin.as_bytes(), &middle, end.as_bytes()].concat();
                            good(lab, &word, &mut seen)?;
                        }
                    }
                }
            }
        }
        all_turns(&seen)
    })
}

/// Every beginning with every ending, close together and as far apart as a word
/// allows.
pub fn beginnings_and_endings(run: &mut Run) -> Result<(), Mismatch> {
    run.once(|lab, _| {
        let mut seen = Seen::default();
        for beginning in affixes::BEGINNINGS {
            for ending in affixes::ENDINGS {
                for middle in ["", "a", "t", "at", "ta", "tat", "abba", "st", "on"] {
                    for more in ["", "s", "ed", "d"] {
                        let word = [beginning, middle, ending, more].concat();
                        good(lab, word.as_bytes(), &mut seen)?;
                    }
                }
                for filler in [b'a', b't'] {
                    let mut word = beginning.as_bytes().to_vec();
                    word.resize(63 - ending.len(), filler);
                    word.extend(ending.bytes());
                    good(lab, &word, &mut seen)?;
                    word.push(b's');
                    let answer = lab.archive(&word, 64, &mut seen)?;
                    demand(answer == 4 << 56, || format!("{:?}", word))?;
                }
            }
        }
        Ok(())
    })
}

/// Words that execute much, found by changes that don't make it less. None runs
/// out; the most that is known stands among the known words.
pub fn most(run: &mut Run) -> Result<(), Mismatch> {
    let mut greatest = 0;
    let mut seen = Seen::default();
    run.rounds(250, |lab, rng| {
        let mut word = affixes::stack(rng);
        let mut executed = good(lab, &word, &mut seen)? as u32;
        for _ in 0..4_000 {
            let changed = affixes::changed(rng, &word);
            let then = good(lab, &changed, &mut seen)? as u32;
            if then >= executed {
                word = changed;
                executed = then;
            }
        }
        greatest = greatest.max(executed);
        Ok(())
    })?;
    demand(!run.is_whole() || greatest > 100, || {
        format!("no more than {} instructions", greatest)
    })
}

/// Every set of faults that can come together: the first ground is told.
pub fn grounds(run: &mut Run) -> Result<(), Mismatch> {
    let mut seen = Seen::default();
    run.rounds(30_000, |lab, rng| {
        for faults in 0..1 << 4 {
            let has = |fault: u32| faults >> fault & 1 == 1;
            let (short, empty, long, bad_byte) = (has(0), has(1), has(2), has(3));
            if empty && (long || bad_byte) {
                continue;
            }
            let mut word = match (empty, long) {
                (true, _) => Vec::new(),
                (_, true) => {
                    let length = *rng.pick(&[64, 65, 70, 128, 256 + 5, 300]);
                    words::good(rng, &[1, 5, 12, 26], length)
                }
                _ => affixes::any(rng),
            };
            let place = rng.below(word.len().max(1));
            if bad_byte {
                word[place] = *rng.pick(b"@[`{-'0\0\x80\xff\xe9");
            }
            let size = match short {
                true => *rng.pick(&[0, 1, 5, 32, 62, 63]),
                false => *rng.pick(&[64, 65, 80, 127, 128, 300]),
            };
            let answer = lab.archive(&word, size, &mut seen)?;
            let expected = match (short, empty, long, bad_byte) {
                (true, ..) => 5 << 56,
                (_, true, ..) => 2 << 56,
                (_, _, true, _) => 4 << 56,
                (.., true) => 3 << 56 | place as u64,
                _ => answer & 0xffff_ffff_ffff,
            };
            demand(answer == expected, || {
                format!("faults {:#b}: {:#x}", faults, answer)
            })?;
        }
        Ok(())
    })
}

/// Every byte at every place of some words, every length of a word and every
/// size of a room.
pub fn bytes_and_sizes(run: &mut Run) -> Result<(), Mismatch> {
    run.once(|lab, _| {
        let mut seen = Seen::default();
        for place in [Place::Middle(9), Place::End, Place::Start] {
            lab.lend_at(place);
            for word in ["internationally", "beckon", "lated", "tion", "equivalences"] {
                for at in 0..word.len() {
                    let mut bytes = word.as_bytes().to_vec();
                    for byte in 0..=255 {
                        bytes[at] = byte;
                        lab.archive(&bytes, 64, &mut seen)?;
                    }
                }
            }
            let long = "overagreeable".repeat(6);
            for length in 0..=70 {
                for size in 0..=140 {
                    lab.archive(&long.as_bytes()[..length], size, &mut seen)?;
                    lab.archive(&[b'1'; 70][..length], size, &mut seen)?;
                }
                // Cut on the other side, the end stays.
                let rest = &long.as_bytes()[long.len() - length..];
                for size in [63, 64, 65, 4_096, 65_536] {
                    lab.archive(rest, size, &mut seen)?;
                }
            }
        }
        Ok(())
    })
}

/// An apostrophe is refused wherever it stands, at its place, also between two
/// letters.
pub fn apostrophes(run: &mut Run) -> Result<(), Mismatch> {
    let mut seen = Seen::default();
    run.once(|lab, rng| {
        for length in 1..=66 {
            for place in 0..length {
                lab.settle(rng);
                let mut word: Vec<u8> = b"interchangeable".repeat(5);
                word.truncate(length);
                words::with_capitals(rng, &mut word);
                if length <= 63 {
                    good(lab, &word, &mut seen)?;
                }
                word[place] = b'\'';
                let expected = match length {
                    0..=63 => 3 << 56 | place as u64,
                    _ => 4 << 56,
                };
                let answer = lab.archive(&word, 64, &mut seen)?;
                demand(answer == expected, || format!("{:?}", word))?;
                let short = lab.archive(&word, 63, &mut seen)?;
                demand(short == 5 << 56, || format!("{:?}", word))?;
                // The first of two is told.
                word[rng.range(place, length - 1)] = *rng.pick(b"'1-");
                word[place] = b'\'';
                let answer = lab.archive(&word, 64, &mut seen)?;
                demand(answer == expected, || format!("{:?}", word))?;
            }
        }
        Ok(())
    })
}

/// Bad words, and bytes of any kind.
pub fn hostile(run: &mut Run) -> Result<(), Mismatch> {
    let mut seen = Seen::default();
    run.rounds(150_000, |lab, rng| {
        lab.lock_inputs(rng.once_in(50));
        let word = match rng.below(3) {
            0 => {
                let length = rng.range(0, 80);
                (0..length).map(|_| rng.byte()).collect()
            }
            1 => {
                let mut word = affixes::any(rng);
                let place = rng.below(word.len());
                word[place] = rng.byte();
                word
            }
            _ => words::bad(rng, &[1, 5, 20]),
        };
        let size = *rng.pick(&[64, 64, 64, 63, 65, 71, 0, 1_000]);
        lab.archive(&word, size, &mut seen)?;
        lab.lock_inputs(false);
        Ok(())
    })
}

/// Every word of the repository's own prose, with what stands between as the
/// ends of words.
pub fn prose(run: &mut Run) -> Result<(), Mismatch> {
    let mut texts = data("../README.md")?;
    for name in [
        "ARCHITECTURE",
        "CHANGES",
        "DECISIONS",
        "FORMATS",
        "PERFORMANCE",
        "PROVING",
    ] {
        texts.push(b'\n');
        texts.extend(data(&format!("../docs/{}.md", name))?);
    }
    let runs = texts.split(|byte| !byte.is_ascii_alphabetic());
    let all: BTreeSet<&[u8]> = runs.filter(|word| !word.is_empty()).collect();
    demand(all.len() > 1_500, || format!("{} words", all.len()))?;
    run.once(|lab, rng| {
        let mut breaks = 0;
        let mut seen = Seen::default();
        for word in &all {
            lab.settle(rng);
            breaks += good(lab, word, &mut seen)? >> 32;
        }
        demand(breaks > all.len() as u64 / 5, || {
            format!("{} breaks", breaks)
        })
    })
}

/// Capitals don't matter, nor the room's size or what it held.
pub fn same(run: &mut Run) -> Result<(), Mismatch> {
    let mut seen = Seen::default();
    run.rounds(150_000, |lab, rng| {
        let word = affixes::any(rng);
        let answer = good(lab, &word, &mut seen)?;
        let marks = lab.room().to_vec();
        for word in [word.to_ascii_lowercase(), word.to_ascii_uppercase()] {
            lab.settle(rng);
            let again = lab.archive(&word, 64 + rng.below(80), &mut seen)?;
            let same = again == answer && lab.room()[..64] == marks[..];
            demand(same, || format!("{:?} gives {:#x}", word, again))?;
        }
        let count = marks.iter().filter(|&&mark| mark == 1).count();
        demand(count as u64 == answer >> 32, || {
            format!("{} marks for {:#x}", count, answer)
        })
    })
}

/// The safe function says what the 64 bits and the room say.
pub fn wrapper(run: &mut Run) -> Result<(), Mismatch> {
    let mut seen = Seen::default();
    run.rounds(150_000, |lab, rng| {
        let word = match rng.once_in(4) {
            true => words::bad(rng, &[1, 5]),
            false => affixes::any(rng),
        };
        let answer = lab.archive(&word, 64, &mut seen)?;
        let found = archive::hyphenate(&word);
        let marked = (0..64).filter(|&gap| lab.room()[gap] == 1);
        let positions = match found {
            Ok(Archived::Found { breaks, .. }) => breaks.iter().eq(marked),
            _ => true,
        };
        demand(bits_of(found) == answer && positions, || {
            format!("{:?} for {:#x}", found, answer)
        })
    })
}

/// A wrapper's result, put together again as bits.
fn bits_of(found: Result<Archived, Ground>) -> u64 {
    match found {
        Ok(Archived::Found { breaks, executed }) => (breaks.len() as u64) << 32 | executed as u64,
        Ok(Archived::RanOut) => 1 << 48,
        Err(ground) => (ground.number() as u64) << 56 | ground.place(),
    }
}
