//! Judging words and margins.

use super::{Packed, NINE};
use crate::run::Run;
use outside::lab::{Lab, Mismatch};
use outside::make::words as make;

/// A list under which every inner gap has an odd level.
pub fn breaks_everywhere() -> Packed {
    let text: Vec<u8> = (b'a'..=b'z')
        .flat_map(|letter| [b'1', letter, b'\n'])
        .collect();
    Packed::of_text(&text)
}

/// All three calls that take a word.
fn all_calls(lab: &mut Lab, word: &[u8], table: &[u8]) -> Result<(), Mismatch> {
    let house = b"aaa\naab\nb-a-a\n";
    lab.levels(word, table, 64)?;
    lab.hyphenate(1, 1, word, b"", house, table, 64)?;
    lab.lookup(word, house, b"aa-a\n")?;
    Ok(())
}

/// Every byte at every place of words of several lengths.
pub fn all_bytes(run: &mut Run) -> Result<(), Mismatch> {
    let table = breaks_everywhere().table;
    run.once(|lab, _| {
        for length in [1, 2, 3, 16, 62, 63, 64, 65] {
            for place in 0..length {
                let mut word = vec![b'a'; length];
                for byte in 0..=255 {
                    word[place] = byte;
                    all_calls(lab, &word, &table)?;
                }
            }
        }
        Ok(())
    })
}

/// Words of all lengths up to 300 and some far longer ones, good and bad.
pub fn all_lengths(run: &mut Run) -> Result<(), Mismatch> {
    let tables = [breaks_everywhere().table, Packed::of_text(NINE).table];
    run.once(|lab, _| {
        let lengths = (0..300).chain([1_000, 4_096, 65_535, 65_536, 65_537, 65_599]);
        for length in lengths {
            for letter in [b'a', b'Z', b'n', b'1'] {
                for table in &tables {
                    all_calls(lab, &vec![letter; length], table)?;
                }
            }
        }
        Ok(())
    })
}

/// Bad words at random.
pub fn bad(run: &mut Run) -> Result<(), Mismatch> {
    let table = breaks_everywhere().table;
    run.rounds(240_000, |lab, rng| {
        let alphabet = make::alphabet(rng);
        let word = make::bad(rng, &alphabet);
        all_calls(lab, &word, &table)
    })
}

/// All margins around the allowed ones, and far larger ones that would look
/// small if they were cut to fewer bits.
pub fn margins(run: &mut Run) -> Result<(), Mismatch> {
    let table = breaks_everywhere().table;
    let large: Vec<u64> = [8, 16, 31, 32, 33, 48, 56, 63]
        .iter()
        .flat_map(|&bit| [1 << bit, (1 << bit) + 2, (1 << bit) - 1])
        .chain([u64::MAX, u64::MAX - 60])
        .collect();
    run.once(|lab, _| {
        for length in [1, 2, 3, 5, 11, 62, 63] {
            let word = vec![b'e'; length];
            for left in 0..=66 {
                for right in 0..=66 {
                    lab.hyphenate(left, right, &word, b"", b"", &table, 64)?;
                }
            }
        }
        for &margin in &large {
            for word in [&b"aaa"[..], b"bbbb", b"", b"a1"] {
                lab.hyphenate(margin, 1, word, b"", b"a-aa\n", &table, 64)?;
                lab.hyphenate(1, margin, word, b"", b"a-aa\n", &table, 64)?;
                lab.hyphenate(margin, margin, word, b"", b"", &table, 63)?;
            }
        }
        Ok(())
    })
}
