//! Pattern texts: judging, packing, checking what was packed.

use super::{words_by_list, Packed, NINE};
use crate::run::{demand, Run};
use outside::lab::{Lab, Mismatch};
use outside::make::lists::{self, Shape};
use outside::reference::text::{read_patterns, write_patterns};
use outside::reference::{Pattern, APOSTROPHE, PACK_ROOM, PATTERN_TEXT_LIMIT};
use outside::rng::Rng;

/// Packs a good list, has the packing checked, and tries words over it. A
/// list that needs too much only has its refusal compared.
fn pack_and_use(
    lab: &mut Lab,
    rng: &mut Rng,
    list: &[Pattern],
    alphabet: &[u8],
    count: usize,
) -> Result<(), Mismatch> {
    let text = write_patterns(list);
    let length = lab.pack(&text, PACK_ROOM + rng.below(3))?;
    if length >> 56 != 0 {
        return Ok(());
    }
    let table = lab.room()[..length as usize].to_vec();
    let accepted = lab.check(&text, &table)?;
    demand(accepted == 0, || {
        "a packing is right for its list".to_string()
    })?;
    words_by_list(lab, rng, list, alphabet, &table, count)
}

/// Small lists whose patterns overlap much.
pub fn pack_small(run: &mut Run) -> Result<(), Mismatch> {
    run.rounds(90_000, |lab, rng| {
        let shape = Shape::any(rng);
        let list = lists::good(rng, &shape);
        pack_and_use(lab, rng, &list, &shape.alphabet, 4)
    })
}

/// The alphabet with the apostrophe, every second time.
fn with_apostrophe(rng: &mut Rng, mut alphabet: Vec<u8>) -> Vec<u8> {
    if rng.once_in(2) {
        alphabet.push(APOSTROPHE);
    }
    alphabet
}

/// Lists of hundreds of patterns over many letters.
pub fn pack_wide(run: &mut Run) -> Result<(), Mismatch> {
    run.rounds(250, |lab, rng| {
        let letters = rng.range(3, 26) as u8;
        let shape = Shape {
            alphabet: with_apostrophe(rng, (1..=letters).collect()),
            count: rng.range(100, 2_500),
            longest: rng.range(3, 9),
            edges: *rng.pick(&[0, 4, 10]),
            digits: rng.range(2, 5),
            highest: 9,
            extend: rng.range(2, 5),
        };
        let list = lists::good(rng, &shape);
        pack_and_use(lab, rng, &list, &shape.alphabet, 10)
    })
}

/// Bad lists: packer and checker refuse at the same line.
pub fn pack_bad(run: &mut Run) -> Result<(), Mismatch> {
    let table = Packed::of_text(NINE).table;
    run.rounds(320_000, |lab, rng| {
        let shape = Shape::any(rng);
        let list = lists::good(rng, &shape);
        let text = lists::bad(rng, &list);
        lab.check(&text, &table)?;
        if rng.once_in(4) {
            lab.pack(&text, PACK_ROOM)?;
        }
        Ok(())
    })
}

/// Counts up through all texts over some bytes, up to a length.
pub fn all_texts(
    bytes: &[u8],
    longest: usize,
    mut body: impl FnMut(&[u8]) -> Result<(), Mismatch>,
) -> Result<(), Mismatch> {
    for length in 0..=longest {
        let count = bytes.len().pow(length as u32);
        let mut text = vec![0; length];
        for number in 0..count {
            let mut rest = number;
            for byte in &mut text {
                *byte = bytes[rest % bytes.len()];
                rest /= bytes.len();
            }
            body(&text)?;
        }
    }
    Ok(())
}

/// All short texts over the bytes that matter. The empty table makes the
/// checker stop right behind its judgement of the lines.
pub fn all_short_texts(run: &mut Run) -> Result<(), Mismatch> {
    run.once(|lab, _| {
        let empty = Packed::of_text(b"").table;
        all_texts(b"ab.120\n", 6, |text| lab.check(text, b"").map(|_| ()))?;
        all_texts(b"a.1\n", 8, |text| lab.check(text, b"").map(|_| ()))?;
        all_texts(b"ab1\n", 8, |text| lab.check(text, b"").map(|_| ()))?;
        all_texts(b"az.9\n", 6, |text| lab.check(text, &empty).map(|_| ()))?;
        all_texts(b"a'1\n", 8, |text| lab.check(text, b"").map(|_| ()))?;
        all_texts(b"a.1\n", 5, |text| lab.pack(text, PACK_ROOM).map(|_| ()))?;
        all_texts(b"a'1\n", 5, |text| lab.pack(text, PACK_ROOM).map(|_| ()))
    })
}

/// Every byte at every place of a good list, put in, put instead, left out.
pub fn all_bytes(run: &mut Run) -> Result<(), Mismatch> {
    let full = b"a1bcdefghijklmnop\n1b.\n1c1d1\n9z\n.a1b.\n.b1cdefghijklmnop\n";
    let apostrophes = b"a'1b\nb'c'd1\n1b1'\n.c'1d.\n'a1.\n'b'1\n'c'defghijklmnop'1\n";
    run.once(|lab, _| {
        for text in [NINE, full, apostrophes] {
            for place in 0..text.len() {
                for byte in 0..=255 {
                    let mut other = text.to_vec();
                    other[place] = byte;
                    lab.check(&other, b"")?;
                    other[place] = text[place];
                    other.insert(place, byte);
                    lab.check(&other, b"")?;
                }
                let mut shorter = text.to_vec();
                shorter.remove(place);
                lab.check(&shorter, b"")?;
                lab.check(&text[..place], b"")?;
                lab.check(&text[place..], b"")?;
            }
        }
        Ok(())
    })
}

/// Texts of exactly the most bytes, and one byte more.
pub fn text_limit(run: &mut Run) -> Result<(), Mismatch> {
    run.rounds(20, |lab, rng| {
        let letters = rng.range(4, 26) as u8;
        let shape = Shape {
            alphabet: with_apostrophe(rng, (1..=letters).collect()),
            count: 0,
            longest: rng.range(9, 16),
            edges: *rng.pick(&[0, 5]),
            digits: rng.range(1, 4),
            highest: 9,
            extend: rng.range(2, 4),
        };
        for bytes in [PATTERN_TEXT_LIMIT, PATTERN_TEXT_LIMIT + 1] {
            let mut text = lists::exact(rng, &shape, bytes);
            lab.pack(&text, PACK_ROOM)?;
            lab.check(&text, b"")?;
            // The same size with the last line bad.
            text[bytes - 1] = b'z';
            lab.pack(&text, PACK_ROOM)?;
            lab.check(&text, b"")?;
        }
        crowded(lab, rng)
    })
}

/// A full text of short strings over few letters: they share most of their
/// beginnings, so that it packs.
fn crowded(lab: &mut Lab, rng: &mut Rng) -> Result<(), Mismatch> {
    let letters = (1..=rng.range(5, 7) as u8).collect();
    let shape = Shape {
        alphabet: with_apostrophe(rng, letters),
        count: 0,
        longest: 5,
        edges: 6,
        digits: 4,
        highest: 2,
        extend: 3,
    };
    let text = lists::exact(rng, &shape, PATTERN_TEXT_LIMIT);
    let length = lab.pack(&text, PACK_ROOM)?;
    demand(length >> 56 == 0, || {
        "a crowded full text packs".to_string()
    })?;
    let table = lab.room()[..length as usize].to_vec();
    let accepted = lab.check(&text, &table)?;
    demand(accepted == 0, || {
        "a full text's packing is right".to_string()
    })?;
    let list = read_patterns(&text).expect("a good list");
    words_by_list(lab, rng, &list, &shape.alphabet, &table, 5)?;
    // Without its last lines, or with one cut off, the text is another list.
    let last = text.len() - 1;
    let above = text[..last].iter().rposition(|&byte| byte == b'\n');
    lab.check(&text[..above.map_or(0, |place| place + 1)], &table)?;
    lab.check(&text[..last], &table)?;
    Ok(())
}
