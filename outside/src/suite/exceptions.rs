//! Exception lists in the hyphenating call and the lookup.

use super::patterns::all_texts;
use super::words::breaks_everywhere;
use super::{Packed, NINE};
use crate::run::{demand, Run};
use outside::lab::{margins, Lab, Mismatch};
use outside::make::{exceptions as make, words};
use outside::reference::text::read_word;
use outside::reference::EXCEPTION_TEXT_LIMIT;
use outside::rng::Rng;

/// Both calls with both lists.
fn both_calls(
    lab: &mut Lab,
    rng: &mut Rng,
    word: &[u8],
    customer: &[u8],
    house: &[u8],
    table: &[u8],
) -> Result<(), Mismatch> {
    let (left, right) = margins(rng);
    lab.lookup(word, customer, house)?;
    lab.hyphenate(left, right, word, customer, house, table, 64)?;
    Ok(())
}

/// Good lists; words that stand in one, in both, in none.
pub fn random_lists(run: &mut Run) -> Result<(), Mismatch> {
    let table = Packed::of_text(NINE).table;
    run.rounds(75_000, |lab, rng| {
        let alphabet = words::alphabet(rng);
        let size = *rng.pick(&[0, 1, 2, 5, 20]);
        let wanted: Vec<Vec<u8>> = (0..4)
            .map(|_| {
                let length = words::length(rng);
                words::good(rng, &alphabet, length)
            })
            .collect();
        let (mine, theirs) = (rng.range(0, 2), rng.range(1, 3));
        let customer = make::with_words(rng, &alphabet, size, &wanted[..mine]);
        let house = make::with_words(rng, &alphabet, size, &wanted[1..theirs]);
        for word in &wanted {
            both_calls(lab, rng, word, &customer, &house, &table)?;
            let mut near = word.clone();
            match rng.below(3) {
                0 => near.push(b'a'),
                1 => {
                    near.pop();
                }
                _ => near[0] = b'b',
            }
            both_calls(lab, rng, &near, &customer, &house, &table)?;
        }
        Ok(())
    })
}

/// Every line of up to ten letters under all margins around them, as the
/// customer's line and as the house's. Levels and the other list would break
/// the word everywhere, so that a line which doesn't decide shows.
pub fn line_margins(run: &mut Run) -> Result<(), Mismatch> {
    let table = breaks_everywhere().table;
    run.once(|lab, _| {
        for letters in 1..=10 {
            let word = &b"abcdefghij"[..letters];
            let rival = hyphened(word, u64::MAX);
            for hyphens in 0..1u64 << (letters - 1) {
                let line = hyphened(word, hyphens);
                lab.lookup(word, &line, &rival)?;
                for left in 1..=letters as u64 + 1 {
                    for right in 1..=letters as u64 + 1 {
                        let mine = lab.hyphenate(left, right, word, &line, &rival, &table, 64)?;
                        demand(mine as u32 == 0, || "a count of 0".to_string())?;
                        lab.hyphenate(left, right, word, b"", &line, &table, 64)?;
                    }
                }
            }
        }
        Ok(())
    })
}

/// The longest word with a hyphen in every gap, under all margins.
pub fn long_line_margins(run: &mut Run) -> Result<(), Mismatch> {
    let table = breaks_everywhere().table;
    run.once(|lab, _| {
        for letters in [62, 63] {
            let word = vec![b'w'; letters];
            let line = hyphened(&word, u64::MAX);
            for left in 1..=63 {
                for right in 1..=63 {
                    let both = [(&line[..], &b""[..]), (b"", &line)];
                    for (customer, house) in both {
                        let answer =
                            lab.hyphenate(left, right, &word, customer, house, &table, 64)?;
                        let breaks = (letters as u64 + 1).saturating_sub(left + right);
                        demand(answer == breaks << 32, || {
                            format!("{} breaks with margins {}, {}", breaks, left, right)
                        })?;
                    }
                }
            }
        }
        Ok(())
    })
}

/// A word's line with a hyphen in each gap whose bit is set, the first gap's
/// lowest.
fn hyphened(word: &[u8], gaps: u64) -> Vec<u8> {
    let mut line = Vec::new();
    for (place, &letter) in word.iter().enumerate() {
        if place > 0 && gaps >> (place - 1) & 1 == 1 {
            line.push(b'-');
        }
        line.push(letter);
    }
    line.push(b'\n');
    line
}

/// Every word of up to five letters out of two, small or capital, against every
/// line of up to five of these letters with every set of hyphens.
pub fn all_words_and_lines(run: &mut Run) -> Result<(), Mismatch> {
    run.once(|lab, _| {
        all_texts(b"ab", 5, |letters| {
            for hyphens in 0..1u64 << letters.len().saturating_sub(1) {
                let line = hyphened(letters, hyphens);
                all_texts(b"abAB", 5, |word| lab.lookup(word, &line, b"").map(drop))?;
            }
            Ok(())
        })
    })
}

/// The longest words, with another letter or a capital at each place, and cut
/// there, against their line with no hyphen, with one there, and with all.
pub fn long_words_and_lines(run: &mut Run) -> Result<(), Mismatch> {
    run.once(|lab, _| {
        for letters in [62, 63] {
            let whole: Vec<u8> = (0..letters).map(|place| b'a' + place % 26).collect();
            for place in 0..whole.len() {
                let (mut other, mut capital) = (whole.clone(), whole.clone());
                other[place] = b'a' + (other[place] - b'a' + 13) % 26;
                capital[place].make_ascii_uppercase();
                for gaps in [0, 1 << place, u64::MAX] {
                    let line = hyphened(&whole, gaps);
                    for word in [&whole, &other, &capital, &whole[..place].to_vec()] {
                        lab.lookup(word, &line, b"")?;
                        lab.lookup(word, b"", &line)?;
                    }
                    let shorter = hyphened(&whole[..place.max(1)], gaps);
                    lab.lookup(&whole, &shorter, &line)?;
                }
            }
        }
        Ok(())
    })
}

/// All short texts over the bytes that matter, as either list.
pub fn all_short_texts(run: &mut Run) -> Result<(), Mismatch> {
    let table = Packed::of_text(b"").table;
    run.once(|lab, _| {
        all_texts(b"ab-\n", 7, |text| {
            lab.lookup(b"ab", text, b"")?;
            lab.hyphenate(1, 1, b"aB", b"", text, &table, 64)?;
            lab.hyphenate(1, 1, b"b", text, b"a\nb-\n", &table, 64)?;
            Ok(())
        })?;
        all_texts(b"aA-.1\n", 5, |text| {
            lab.lookup(b"a", b"", text)?;
            lab.hyphenate(1, 1, b"aa", text, b"a\n", &table, 64)?;
            Ok(())
        })?;
        all_texts(b"a'-\n", 7, |text| {
            lab.lookup(b"a'a", text, b"")?;
            lab.hyphenate(1, 1, b"A'A", b"", text, &table, 64)?;
            lab.hyphenate(1, 1, b"a", text, b"a-'a\n", &table, 64)?;
            Ok(())
        })
    })
}

/// Every byte at every place of a good list, put in and put instead.
pub fn all_bytes(run: &mut Run) -> Result<(), Mismatch> {
    let table = Packed::of_text(b"").table;
    let mut list = b"a\nab-c\na'-b\nb-a\nba-a-b\n".to_vec();
    list.extend([b'c'; 63]);
    list.extend(b"\nc'c\nz-z\n");
    run.once(|lab, _| {
        for place in 0..list.len() {
            for byte in 0..=255 {
                let mut other = list.clone();
                other[place] = byte;
                lab.lookup(b"abc", &other, b"")?;
                lab.lookup(b"a'b", &other, b"")?;
                lab.hyphenate(1, 1, b"zz", b"", &other, &table, 64)?;
                other[place] = list[place];
                other.insert(place, byte);
                lab.lookup(b"zz", b"", &other)?;
                lab.hyphenate(1, 1, b"baab", &other, b"", &table, 64)?;
            }
        }
        Ok(())
    })
}

/// Texts of exactly the most bytes, and one byte more, as either list.
pub fn text_limit(run: &mut Run) -> Result<(), Mismatch> {
    let table = Packed::of_text(NINE).table;
    let mut alphabet = words::all_symbols();
    alphabet.retain(|&symbol| words::small(symbol) != b'z');
    run.rounds(1_200, |lab, rng| {
        let bytes = EXCEPTION_TEXT_LIMIT + rng.below(2);
        let full = make::exact(rng, &alphabet, bytes);
        let other = match rng.below(4) {
            0 => make::exact(rng, &alphabet, EXCEPTION_TEXT_LIMIT),
            1 => make::exact(rng, &alphabet, EXCEPTION_TEXT_LIMIT + 1),
            2 => b"b\na\n".to_vec(),
            _ => Vec::new(),
        };
        let mut wanted: Vec<Vec<u8>> = vec![b"evening".to_vec()];
        for text in [&full, &other] {
            let lines: Vec<&[u8]> = text.split(|&byte| byte == b'\n').collect();
            for line in [
                lines[0],
                lines[lines.len() / 2],
                lines[lines.len().saturating_sub(2)],
            ] {
                wanted.push(line.iter().copied().filter(|&byte| byte != b'-').collect());
            }
        }
        for word in &wanted {
            both_calls(lab, rng, word, &full, &other, &table)?;
            both_calls(lab, rng, word, &other, &full, &table)?;
        }
        Ok(())
    })
}

/// Bad lists at random, as either list or both.
pub fn bad_lists(run: &mut Run) -> Result<(), Mismatch> {
    let table = Packed::of_text(NINE).table;
    run.rounds(240_000, |lab, rng| {
        let alphabet = words::alphabet(rng);
        let length = rng.range(1, 9);
        let word = words::good(rng, &alphabet, length);
        let size = rng.range(0, 9);
        let good = make::with_words(rng, &alphabet, size, std::slice::from_ref(&word));
        let bad = make::bad(rng, &good);
        let other = if rng.once_in(3) {
            make::bad(rng, &good)
        } else {
            good
        };
        both_calls(lab, rng, &word, &bad, &other, &table)?;
        both_calls(lab, rng, &word, &other, &bad, &table)
    })
}

/// Lines for other words change nothing.
pub fn other_lines(run: &mut Run) -> Result<(), Mismatch> {
    let nine = Packed::of_text(NINE);
    run.rounds(30_000, |lab, rng| {
        let alphabet = words::alphabet(rng);
        let word = words::from_patterns(rng, &nine.list, &alphabet);
        let letters = read_word(&word).expect("a good word");
        let line = make::line(rng, &letters);
        let (left, right) = margins(rng);
        let mut answers = Vec::new();
        let in_list = rng.once_in(2);
        for _ in 0..3 {
            let size = rng.range(0, 12);
            let house = around(rng, &alphabet, size, &letters, &line, in_list);
            let customer = around(rng, &alphabet, size, &letters, &line, false);
            let answer = lab.hyphenate(left, right, &word, &customer, &house, &nine.table, 64)?;
            answers.push((answer, lab.room().to_vec()));
        }
        demand(answers[0] == answers[1] && answers[1] == answers[2], || {
            format!("the same answer for {:?} whatever the other lines", word)
        })
    })
}

/// A random list with or without one given line.
fn around(
    rng: &mut Rng,
    alphabet: &[u8],
    size: usize,
    letters: &[u8],
    line: &[u8],
    with_line: bool,
) -> Vec<u8> {
    let text = make::good(rng, alphabet, size);
    let mut lines = outside::make::lists::split(&text);
    lines.retain(|other| make::letters_of(other) != letters);
    if with_line {
        lines.push(line.to_vec());
        lines.sort_by_key(|line| make::letters_of(line));
    }
    outside::make::lists::join(&lines)
}
