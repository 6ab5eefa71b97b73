//! The figures that the scope document gives, and what the change request on
//! apostrophes names.

use super::{Packed, NINE};
use crate::run::{demand, Run};
use outside::lab::{Lab, Mismatch};
use outside::reference::PACK_ROOM;

/// A refusal's bits.
fn refusal(number: u64, list: u64, place: u64) -> u64 {
    number << 56 | list << 48 | place
}

/// Demands an answer that was worked out by hand.
fn same(what: &str, found: u64, wanted: u64) -> Result<(), Mismatch> {
    demand(found == wanted, || {
        format!("{}: {:#x}, wanted {:#x}", what, found, wanted)
    })
}

/// All figures, each with the number it gives.
pub fn figures(run: &mut Run) -> Result<(), Mismatch> {
    run.once(|lab, _| {
        packing(lab)?;
        let table = Packed::of_text(NINE).table;
        nine_patterns(lab, &table)?;
        exception_lines(lab, &table)?;
        word_lengths(lab, &table)?;
        pattern_lengths(lab)?;
        apostrophes(lab, &table)
    })
}

fn packing(lab: &mut Lab) -> Result<(), Mismatch> {
    same("length of the nine", lab.pack(NINE, PACK_ROOM)?, 233)?;
    let room = lab.room().to_vec();
    demand(room[..6] == [1, 1, 0, 32, 0, 7], || {
        "head of the nine".to_string()
    })?;
    // Link of the cell at base + symbol, for each path that has a base.
    let bases: [(usize, u8, u8); 12] = [
        (0, b'h', 1),
        (0, b'i', 2),
        (0, b'n', 3),
        (0, b'o', 4),
        (0, b't', 7),
        (1, b'e', 5),
        (1, b'y', 6),
        (3, b'a', 8),
        (7, b'i', 9),
        (5, b'n', 10),
        (6, b'p', 13),
        (10, b'a', 11),
    ];
    for (base, letter, link) in bases {
        let place = 6 + 6 * (base + (letter - b'a' + 1) as usize);
        demand(
            room[place..place + 4] == [2, letter - b'a' + 1, 0, link],
            || format!("base behind {}", letter as char),
        )?;
    }
    same("the nine are checked", lab.check(NINE, &room[..233])?, 0)?;
    same("length of the empty list", lab.pack(b"", PACK_ROOM)?, 12)?;
    let empty = lab.room()[..12].to_vec();
    demand(empty[..6] == [1, 1, 0, 1, 0, 0], || {
        "head of the empty list".to_string()
    })?;
    same("the empty list is checked", lab.check(b"", &empty)?, 0)
}

fn nine_patterns(lab: &mut Lab, table: &[u8]) -> Result<(), Mismatch> {
    same(
        "levels",
        lab.levels(b"hyphenation", table, 64)?,
        6 << 32 | 27,
    )?;
    demand(lab.room()[1..11] == [0, 3, 0, 0, 2, 5, 4, 2, 0, 2], || {
        "levels of hyphenation".to_string()
    })?;
    let answer = lab.hyphenate(2, 3, b"hyphenation", b"", b"", table, 64)?;
    same("breaks", answer, 2 << 32 | 27)?;
    demand(lab.room()[2] == 1 && lab.room()[6] == 1, || {
        "breaks of hyphenation".to_string()
    })?;
    same("levels of on", lab.levels(b"on", table, 64)?, 1 << 32 | 6)?;
    demand(lab.room()[1] == 2, || "level of on".to_string())?;
    same("on", lab.hyphenate(2, 3, b"on", b"", b"", table, 64)?, 6)?;
    let na = lab.levels(b"na", table, 64)?;
    same("marks of na", na >> 32, 0)
}

fn exception_lines(lab: &mut Lab, table: &[u8]) -> Result<(), Mismatch> {
    let metal = lab.hyphenate(2, 3, b"metal", b"", b"met-al\n", table, 64)?;
    same("metal with margins 2, 3", metal, 0)?;
    demand(lab.room()[..64] == [0; 64], || {
        "no break of metal".to_string()
    })?;
    let metal = lab.hyphenate(2, 2, b"metal", b"", b"met-al\n", table, 64)?;
    same("metal with margins 2, 2", metal, 1 << 32)?;
    demand(lab.room()[3] == 1, || "break of metal".to_string())?;
    let line = lab.lookup(b"metal", b"", b"met-al\n")?;
    same("line of metal", line, 2 << 48 | 6)?;
    let metal = lab.hyphenate(2, 3, b"metal", b"met-al\n", b"me-tal\n", table, 64)?;
    same("metal by the customer's line", metal, 0)?;
    let idler = lab.hyphenate(2, 3, b"idler", b"idler\n", b"id-ler\n", table, 64)?;
    same("idler", idler, 0)?;
    let line = lab.lookup(b"IDLER", b"idler\n", b"id-ler\n")?;
    same("line of idler", line, 1 << 48 | 5)?;
    let line = lab.lookup(b"idler", b"", b"a\nid-ler\n")?;
    same("house line of idler", line, 2 << 48 | 2 << 16 | 6)?;
    let evening = lab.hyphenate(2, 3, b"evening", b"", b"eve-ning\n", table, 64)?;
    same("evening", evening, 1 << 32)?;
    let bad = lab.hyphenate(2, 3, b"a", b"a\n-b\n", b"", table, 64)?;
    same("a bad customer line", bad, refusal(6, 1, 2))?;
    let bad = lab.hyphenate(2, 3, b"a", b"", b"a\nb\nb\n", table, 64)?;
    same("a bad house line", bad, refusal(6, 2, 4))
}

fn word_lengths(lab: &mut Lab, table: &[u8]) -> Result<(), Mismatch> {
    let long = [b'q'; 64];
    let answered = lab.hyphenate(2, 3, &long[..63], b"", b"", table, 64)?;
    same("63 letters", answered >> 56, 0)?;
    let refused = lab.hyphenate(2, 3, &long, b"", b"", table, 64)?;
    same("64 letters", refused, refusal(4, 0, 0))?;
    let mut digit = long;
    digit[5] = b'7';
    let refused = lab.hyphenate(2, 3, &digit, b"", b"", table, 64)?;
    same("64 bytes with a digit", refused, refusal(4, 0, 0))?;
    let refused = lab.hyphenate(2, 3, b"a1", b"", b"", table, 64)?;
    same("a1", refused, refusal(3, 0, 1))?;
    let refused = lab.levels(b"", table, 64)?;
    same("empty word", refused, refusal(2, 0, 0))
}

fn pattern_lengths(lab: &mut Lab) -> Result<(), Mismatch> {
    let full = lab.pack(b"1abcdefghijklmnop\n", PACK_ROOM)?;
    same("16 symbols", full >> 56, 0)?;
    let over = lab.pack(b"b1\n1abcdefghijklmnopq\n", PACK_ROOM)?;
    same("17 symbols", over, refusal(7, 0, 3))?;
    let good = lab.pack(b".1a\n", PACK_ROOM)?;
    same("a digit behind the edge", good >> 56, 0)?;
    let bad = lab.pack(b"1.a\n", PACK_ROOM)?;
    same("a digit before the edge", bad, refusal(7, 0, 0))?;
    let order = lab.pack(b"za1\n.a1\n", PACK_ROOM)?;
    same("the edge sorts last", order >> 56, 0)?;
    let order = lab.pack(b".a1\nza1\n", PACK_ROOM)?;
    same("the edge doesn't sort first", order, refusal(7, 0, 4))?;
    let short = lab.pack(NINE, PACK_ROOM - 1)?;
    same("room too small", short, refusal(10, 0, 0))
}

/// Where an apostrophe may stand in a word, a pattern and an exception.
fn apostrophes(lab: &mut Lab, table: &[u8]) -> Result<(), Mismatch> {
    for word in ["l'entrata", "L'Entrata", "A'B", "a'b'c"] {
        let answer = lab.levels(word.as_bytes(), table, 64)?;
        same(word, answer >> 56, 0)?;
    }
    for (word, place) in [("a'1", 1), ("a''b", 1), ("a'", 1), ("'a", 0), ("a1'b", 1)] {
        let answer = lab.levels(word.as_bytes(), table, 64)?;
        same(word, answer, refusal(3, 0, place))?;
    }
    for line in ["'a1", "'a'1", "'a1.", "a'1", "a1'", "l'1e"] {
        let answer = lab.pack(format!("{}\n", line).as_bytes(), PACK_ROOM)?;
        same(line, answer >> 56, 0)?;
    }
    for line in [".'a1", "a1'.", "''a1", "a'1'b", "'1"] {
        let answer = lab.pack(format!("{}\n", line).as_bytes(), PACK_ROOM)?;
        same(line, answer, refusal(7, 0, 0))?;
    }
    let order = lab.pack(b"z1\n.a1\n'a1\n", PACK_ROOM)?;
    same("the apostrophe sorts last", order >> 56, 0)?;
    let order = lab.pack(b"'a1\n.a1\n", PACK_ROOM)?;
    same("the edge sorts before it", order, refusal(7, 0, 4))?;
    for line in ["l'en", "l'-en", "l-'en", "l-'-en"] {
        let text = format!("{}\n", line);
        let found = lab.lookup(b"L'en", b"", text.as_bytes())?;
        same(line, found, 2 << 48 | line.len() as u64)?;
    }
    for line in ["a'-'b", "l'", "'l", "l-'", "a''b"] {
        let text = format!("{}\n", line);
        let answer = lab.hyphenate(1, 1, b"on", text.as_bytes(), b"", table, 64)?;
        same(line, answer, refusal(6, 1, 0))?;
    }
    Ok(())
}
