//! Sizes of rooms, the order of refusals, fences, and the safe wrapper.

use super::{Packed, NINE};
use crate::run::{demand, Run};
use outside::fence::Place;
use outside::lab::{Lab, Mismatch};
use outside::make::{damage, exceptions, gauges, lists, words};
use outside::reference::{
    self, Gauge, APOSTROPHE, EXCEPTION_TEXT_LIMIT, PACK_ROOM, PATTERN_TEXT_LIMIT, WIDTHS,
};
use outside::rng::Rng;
use tteolmigu::{any, Breaks, Exceptions, Ground, Levels, Line, List, Margins, Table};

/// Every size that could matter for a room.
fn sizes_of_rooms() -> impl Iterator<Item = usize> {
    (0..=140).chain([255, 256, 257, 4_096, 59_397, 59_398, 59_399, 65_535, 65_536])
}

/// Every call that has a room, with rooms of many sizes.
pub fn sizes(run: &mut Run) -> Result<(), Mismatch> {
    let nine = Packed::of_text(NINE);
    run.once(|lab, _| {
        for place in [Place::Middle(5), Place::End, Place::Start] {
            lab.lend_at(place);
            for size in sizes_of_rooms() {
                one_size(lab, &nine, size)?;
            }
            for size in 59_390..59_410 {
                for text in [NINE, b"", b"a1", b"a1\na2\n"] {
                    lab.pack(text, size)?;
                }
            }
        }
        Ok(())
    })
}

/// Answers and refusals with a room of one size.
fn one_size(lab: &mut Lab, nine: &Packed, size: usize) -> Result<(), Mismatch> {
    let longest = [b'n'; 63];
    for word in [&b"hyphenation"[..], b"on", b"a", b"", b"a1", &longest] {
        lab.levels(word, &nine.table, size)?;
        lab.levels(word, &nine.table[1..], size)?;
        lab.hyphenate(2, 3, word, b"", b"o-n\n", &nine.table, size)?;
        lab.hyphenate(2, 3, word, b"o-n\n", b"", b"", size)?;
        lab.hyphenate(0, 3, word, b"", b"o-n\n", &nine.table, size)?;
        lab.hyphenate(2, 3, word, b"", b"o--n\n", &nine.table, size)?;
    }
    lab.pack(NINE, size)?;
    Ok(())
}

/// An exception text that is good, bad or over its limit.
fn any_exceptions(rng: &mut Rng) -> Vec<u8> {
    let count = rng.range(0, 6);
    let good = exceptions::good(rng, &[1, 2, APOSTROPHE], count);
    match rng.below(6) {
        0 | 1 => exceptions::bad(rng, &good),
        2 if rng.once_in(3) => vec![*rng.pick(b"a\n"); EXCEPTION_TEXT_LIMIT + 1],
        _ => good,
    }
}

/// A pattern text that is good, bad or over its limit.
fn any_patterns(rng: &mut Rng) -> Vec<u8> {
    let shape = lists::Shape::any(rng);
    let list = lists::good(rng, &shape);
    match rng.below(6) {
        0 | 1 => lists::bad(rng, &list),
        2 if rng.once_in(3) => vec![*rng.pick(b"a\n1"); PATTERN_TEXT_LIMIT + 1],
        _ => reference::text::write_patterns(&list),
    }
}

/// A word that is good or bad.
fn any_word(rng: &mut Rng) -> Vec<u8> {
    if rng.once_in(3) {
        words::bad(rng, &[1, 2])
    } else {
        let length = rng.range(1, 6);
        words::good(rng, &[1, 2, APOSTROPHE], length)
    }
}

/// Widths that are good, or of which one isn't.
fn any_gauge(rng: &mut Rng) -> Gauge {
    let mut gauge = gauges::gauge(rng);
    if rng.once_in(3) {
        gauges::put(
            &mut gauge,
            rng.below(gauges::PLACES),
            gauges::bad_width(rng),
        );
    }
    gauge
}

/// Many grounds at once: the answer shows which is judged first.
pub fn refusal_order(run: &mut Run) -> Result<(), Mismatch> {
    let nine = Packed::of_text(b"a1b\nb2a\n");
    run.rounds(240_000, |lab, rng| {
        let margin = |rng: &mut Rng| *rng.pick(&[1, 2, 63, 1, 2, 0, 64, 1 << 32]);
        let word = any_word(rng);
        let (customer, house) = (any_exceptions(rng), any_exceptions(rng));
        let mut table = nine.table.clone();
        if rng.once_in(3) {
            damage::damage_head(rng, &mut table);
        }
        let size = *rng.pick(&[64, 64, 65, 100, 63, 0]);
        let (left, right) = (margin(rng), margin(rng));
        lab.hyphenate(left, right, &word, &customer, &house, &table, size)?;
        lab.levels(&word, &table, size)?;
        lab.lookup(&word, &customer, &house)?;
        lab.fit(&any_gauge(rng), &word, &[1; 100][..size])?;
        let patterns = any_patterns(rng);
        lab.check(&patterns, &table)?;
        if rng.once_in(4) {
            lab.pack(&patterns, *rng.pick(&[PACK_ROOM, PACK_ROOM - 1]))?;
        }
        Ok(())
    })
}

/// Everything that may be lent, cut at every length, right before and right
/// behind forbidden memory.
pub fn fences(run: &mut Run) -> Result<(), Mismatch> {
    let nine = Packed::of_text(NINE);
    run.once(|lab, _| {
        for place in [Place::End, Place::Start] {
            lab.lend_at(place);
            for length in 0..=nine.table.len() {
                let cut = &nine.table[..length];
                lab.check(NINE, cut)?;
                lab.levels(b"hyphenation", cut, 64)?;
                lab.hyphenate(2, 3, b"hyphenation", b"", b"", cut, 64)?;
            }
            for length in 0..=NINE.len() {
                lab.check(&NINE[..length], &nine.table)?;
                lab.pack(&NINE[..length], PACK_ROOM)?;
            }
            let list = b"a-b\nab-c\na'-b\nb\nba-b-a\nhyphenatio\nhy-phenation\n";
            for length in 0..=list.len() {
                for word in [
                    &b"hyphenation"[..],
                    b"ab",
                    b"b",
                    b"zz",
                    b"a'b",
                    b"a'",
                    b"'b",
                ] {
                    lab.lookup(word, &list[..length], b"")?;
                    lab.lookup(word, b"", &list[..length])?;
                    lab.hyphenate(1, 1, word, &list[..length], list, &nine.table, 64)?;
                }
            }
            elisions(lab)?;
            for length in 0..=64 {
                let gauge = Gauge {
                    hyphen: 0.5,
                    line: 9.5,
                    letters: [1.0; WIDTHS],
                };
                lab.fit(&gauge, &[b'z'; 64][..length], &[1; 64])?;
                lab.fit(&gauge, b"hyphenation", &[1; 64][..length])?;
            }
            past_ends(lab)?;
        }
        Ok(())
    })
}

/// Words that end with an apostrophe or right behind one: what would decide
/// about it may not be read.
fn elisions(lab: &mut Lab) -> Result<(), Mismatch> {
    let elision = Packed::of_text(b"l'1e\n");
    let word = b"l'entrata'x";
    for begin in 0..3 {
        for end in begin..=word.len() {
            let part = &word[begin..end];
            lab.levels(part, &elision.table, 64)?;
            lab.hyphenate(1, 1, part, b"", b"l-'en\n", &elision.table, 64)?;
            lab.lookup(part, b"l-'en\n", b"")?;
        }
    }
    for text in [&b"l'1e\n'a1\n"[..], b"a1'\n", b"'a'1\n", b"''1\n"] {
        for begin in 0..text.len() {
            for end in begin..=text.len() {
                lab.check(&text[begin..end], &elision.table)?;
                lab.lookup(b"a", &text[begin..end], b"")?;
            }
        }
    }
    Ok(())
}

/// Links and outputs that lead out of tables of many small sizes.
fn past_ends(lab: &mut Lab) -> Result<(), Mismatch> {
    for cells in 2..40u8 {
        for entries in 0..4u8 {
            let mut table = vec![1, 1, 0, cells, 0, entries];
            for cell in 0..cells {
                let link = [0, 1, 255, cells][cell as usize % 4];
                table.extend([2, cell.min(28), 0, link, 0, cell % 6]);
            }
            for entry in 1..=entries {
                table.extend([3, entry, 3, 0, entry - 1]);
            }
            for word in [
                &b"abcdefghijklmnopqrstuvwxyz"[..],
                b"zyxwvutsrqponm",
                b"a'b'c'z",
                b"a",
                b"ll",
            ] {
                lab.levels(word, &table, 64)?;
                lab.hyphenate(1, 1, word, b"", b"", &table, 64)?;
            }
            lab.check(b"a1\nb1\n", &table)?;
        }
    }
    Ok(())
}

/// Inputs that can't be written at all, so that not even a write that is
/// undone would pass.
pub fn locked_inputs(run: &mut Run) -> Result<(), Mismatch> {
    run.rounds(8_000, |lab, rng| {
        lab.lock_inputs(true);
        let patterns = any_patterns(rng);
        let mut table = Packed::of_text(NINE).table;
        if rng.once_in(2) {
            damage::damage(rng, &mut table);
        }
        let word = any_word(rng);
        let (customer, house) = (any_exceptions(rng), any_exceptions(rng));
        lab.pack(&patterns, PACK_ROOM)?;
        lab.check(NINE, &table)?;
        lab.check(&patterns, &table)?;
        lab.levels(&word, &table, 64)?;
        lab.hyphenate(1, 1, &word, &customer, &house, &table, 64)?;
        lab.hyphenate(1, 1, b"hyphenation", b"", &house, &table, 64)?;
        lab.lookup(&word, &customer, &house)?;
        lab.fit(&any_gauge(rng), &word, &[1; 64])?;
        lab.fit(&gauges::gauge(rng), b"hyphenation", &[1; 64])?;
        Ok(())
    })
}

/// The safe functions say what the 64 bits and the room say.
pub fn wrapper(run: &mut Run) -> Result<(), Mismatch> {
    let small = Packed::of_text(b"a1b\nb2a\n");
    run.rounds(60_000, |lab, rng| {
        let word = any_word(rng);
        let (customer, house) = (any_exceptions(rng), any_exceptions(rng));
        let lists = Exceptions {
            customer: &customer,
            house: &house,
        };
        let answer = lab.lookup(&word, &customer, &house)?;
        let line = lists.lookup(&word);
        demand(line == line_by_answer(answer, lists), || {
            format!("lookup of {:?} gives {:?}", word, line)
        })?;
        // One text lent as both lists is allowed, since nothing writes to it.
        let both = tteolmigu::raw::lookup(&word, &house, &house);
        demand(both == reference::lookup(&word, &house, &house), || {
            format!("lookup of {:?} in one list lent twice", word)
        })?;
        let mut table = small.table.clone();
        match rng.below(8) {
            0 => damage::damage_head(rng, &mut table),
            1 => damage::damage(rng, &mut table),
            _ => (),
        }
        let margin = |rng: &mut Rng| *rng.pick(&[1, 1, 1, 2, 2, 3, 63, 0, 64]);
        let (left, right) = (margin(rng), margin(rng));
        let size = *rng.pick(&[80, 63]);
        let answer = lab.hyphenate(left, right, &word, &customer, &house, &table, size)?;
        same_refusal(answer)?;
        let answer = lab.hyphenate(left, right, &word, &customer, &house, &table, 64)?;
        let margins = Margins::new(left, right);
        let breaks = margins.and_then(|margins| any::hyphenate(margins, &word, lists, &table));
        same_breaks(&breaks, answer, lab.room())?;
        let answer = lab.levels(&word, &table, 64)?;
        let levels = any::levels(&word, &table);
        same_levels(&levels, answer, lab.room(), word.len())?;

        let patterns = if rng.once_in(2) {
            small.text.clone()
        } else {
            any_patterns(rng)
        };
        let answer = lab.check(&patterns, &table)?;
        let checked = Table::check(&patterns, &table);
        demand(bits_of(checked.map(|_| 0)) == answer, || {
            format!("{:?}", checked)
        })?;
        if let (Ok(checked), Ok(margins)) = (checked, margins) {
            let same = checked.bytes() == table
                && checked.levels(&word) == levels
                && checked.hyphenate(margins, &word, lists) == breaks;
            demand(same, || format!("{:?} beside unchecked bytes", checked))?;
        }
        if rng.once_in(10) {
            let size = PACK_ROOM + rng.below(4) - 1;
            let answer = lab.pack(&patterns, size)?;
            let mut room = vec![0; size];
            let packed = Table::pack(&patterns, &mut room);
            let bits = bits_of(packed.map(|table| table.bytes().len() as u64));
            demand(bits == answer, || format!("{:?}", packed))?;
            if let Ok(packed) = packed {
                let same = lab.room().starts_with(packed.bytes());
                demand(same, || format!("{:?} and the room", packed))?;
            }
        }
        Ok(())
    })
}

/// Lengths that would look small if they were cut to 32 bits. Such lengths
/// are refused before anything far away is read.
#[cfg(target_pointer_width = "64")]
pub fn huge_lengths(run: &mut Run) -> Result<(), Mismatch> {
    use outside::fence::Huge;
    use tteolmigu::raw;
    let nine = Packed::of_text(NINE);
    let over = 1usize << 32;
    run.once(|lab, _| {
        let (word, table, text) = match (
            Huge::new(b"hyphenation"),
            Huge::new(&nine.table),
            Huge::new(NINE),
        ) {
            (Some(word), Some(table), Some(text)) => (word, table, text),
            // The system gives no such memory, so there is nothing to try.
            _ => return Ok(()),
        };
        let mut room = [7u8; 64];
        let mut try_one = |what: &str, number: u64, answer: u64| {
            lab.count_one();
            demand(answer == number << 56, || {
                format!("{}: {:#x}", what, answer)
            })
        };
        for more in [0, 1, 11, 63, 64] {
            let long = word.lend(over + more);
            let answer = raw::levels(long, &nine.table, &mut room);
            try_one("word of the levels call", 4, answer)?;
            let answer = raw::hyphenate(2, 3, long, b"", b"", &nine.table, &mut room);
            try_one("word of the hyphenating call", 4, answer)?;
            try_one("word of the lookup", 0, raw::lookup(long, b"", b""))?;
            let answer = raw::fit(0.0, 1.0, &[1.0; WIDTHS], long, &room);
            try_one("word of the call on widths", 4, answer)?;
            try_one("word of 1980", 4, raw::archive(long, &mut room))?;
            // A room so long is none too short, and what is refused comes later.
            let answer = raw::fit(0.0, -1.0, &[1.0; WIDTHS], b"on", long);
            try_one("room of the call on widths", 13, answer)?;
        }
        for more in [0, 12, 233] {
            let long = table.lend(over + more);
            let answer = raw::levels(b"on", long, &mut room);
            try_one("table of the levels call", 9, answer)?;
            let answer = raw::hyphenate(2, 3, b"on", b"", b"", long, &mut room);
            try_one("table of the hyphenating call", 9, answer)?;
            try_one("table of the checker", 9, raw::check(NINE, long))?;
        }
        let mut store = vec![7; PACK_ROOM];
        for more in [0, NINE.len()] {
            let long = text.lend(over + more);
            try_one("patterns of the checker", 8, raw::check(long, &nine.table))?;
            try_one("patterns of the packer", 8, raw::pack(long, &mut store))?;
            let answer = raw::hyphenate(2, 3, b"on", long, b"", &nine.table, &mut room);
            try_one("customer's list", 8, answer)?;
            let answer = raw::hyphenate(2, 3, b"on", b"", long, &nine.table, &mut room);
            try_one("house list", 8, answer)?;
            try_one("house list of the lookup", 0, raw::lookup(b"on", b"", long))?;
        }
        let untouched = room == [7; 64] && store.iter().all(|&byte| byte == 7);
        demand(untouched, || "refusals leave the rooms alone".to_string())
    })
}

/// A wrapper's result, put together again as bits.
fn bits_of(result: Result<u64, Ground>) -> u64 {
    match result {
        Ok(finding) => finding,
        Err(ground) => {
            (ground.number() as u64) << 56 | (ground.list() as u64) << 48 | ground.place()
        }
    }
}

/// A refusal is read from an answer as it stands there.
fn same_refusal(answer: u64) -> Result<(), Mismatch> {
    let ground = Ground::of_answer(answer);
    let bits = ground.map_or(0, |ground| bits_of(Err(ground)));
    let expected = if answer >> 56 == 0 { 0 } else { answer };
    demand(bits == expected, || {
        format!("{:?} of {:#x}", ground, answer)
    })
}

/// The breaks are those of the answer and of the room.
fn same_breaks(breaks: &Result<Breaks, Ground>, answer: u64, room: &[u8]) -> Result<(), Mismatch> {
    let bits = bits_of(breaks.map(|found| (found.len() as u64) << 32 | found.looks() as u64));
    let marked = (0..room.len()).filter(|&at| room[at] == 1);
    let positions = match breaks {
        Ok(found) => found.iter().eq(marked),
        Err(_) => true,
    };
    demand(bits == answer && positions, || format!("{:?}", breaks))
}

/// The levels are those of the answer and of the room.
fn same_levels(
    levels: &Result<Levels, Ground>,
    answer: u64,
    room: &[u8],
    letters: usize,
) -> Result<(), Mismatch> {
    let marks = |found: &Levels| found.as_slice().iter().filter(|&&level| level != 0).count();
    let bits = bits_of(levels.map(|found| (marks(&found) as u64) << 32 | found.looks() as u64));
    let same = match levels {
        Ok(found) => found.as_slice() == &room[1..letters],
        Err(_) => true,
    };
    demand(bits == answer && same, || format!("{:?}", levels))
}

/// The line that an answer names.
fn line_by_answer(answer: u64, lists: Exceptions<'_>) -> Option<Line<'_>> {
    let offset = (answer >> 16) as u32 as usize;
    let length = answer as u16 as usize;
    let (list, text) = match answer >> 48 {
        1 => (List::Customer, lists.customer),
        2 => (List::House, lists.house),
        _ => return None,
    };
    Some(Line {
        list,
        offset,
        bytes: &text[offset..offset + length],
    })
}
