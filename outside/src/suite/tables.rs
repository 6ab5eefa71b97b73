//! Tables of every sort: right ones laid out otherwise, damaged ones, random
//! ones.

use super::{words_by_list, words_by_walk, Packed, NINE};
use crate::run::{demand, Run};
use outside::lab::{Lab, Mismatch};
use outside::make::layout::{render, Machine, Style};
use outside::make::lists::{self, Shape};
use outside::make::{damage, derive, random, words};
use outside::reference::right::Judge;
use outside::reference::text::{read_patterns, write_patterns};
use outside::reference::{
    Pattern, APOSTROPHE, CELL_LIMIT, EDGE, ENTRY_LIMIT, PATTERN_TEXT_LIMIT, SYMBOLS,
};
use outside::rng::Rng;

/// Has a table checked for a list; then words go over it, by the list if it
/// was accepted, else by the walk. Tells whether it was accepted.
fn check_and_use(
    lab: &mut Lab,
    rng: &mut Rng,
    list: &[Pattern],
    alphabet: &[u8],
    table: &[u8],
    count: usize,
) -> Result<bool, Mismatch> {
    let accepted = lab.check(&write_patterns(list), table)? == 0;
    if accepted {
        words_by_list(lab, rng, list, alphabet, table, count)?;
    } else {
        words_by_walk(lab, rng, list, alphabet, table, count)?;
    }
    Ok(accepted)
}

/// Right tables that first fit wouldn't make.
pub fn other_layouts(run: &mut Run) -> Result<(), Mismatch> {
    run.rounds(72_000, |lab, rng| {
        let shape = Shape::any(rng);
        let list = lists::good(rng, &shape);
        let mut machine = Machine::of_list(&list);
        if rng.once_in(2) {
            machine = machine.shared();
        }
        let style = Style::any(rng);
        let table = match render(rng, &machine, &style) {
            Some(table) => table,
            None => return Ok(()),
        };
        let accepted = check_and_use(lab, rng, &list, &shape.alphabet, &table, 4)?;
        demand(accepted, || "a right table is accepted".to_string())
    })
}

/// Tables whose links run in circles, right for all paths up to sixteen.
pub fn circles(run: &mut Run) -> Result<(), Mismatch> {
    run.rounds(24_000, |lab, rng| {
        let machine = Machine::with_circles(rng);
        let style = Style::any(rng);
        let table = match render(rng, &machine, &style) {
            Some(table) => table,
            None => return Ok(()),
        };
        let alphabet = [1, 2, 3, APOSTROPHE];
        match machine.list() {
            Some(list) if write_patterns(&list).len() <= 32_768 => {
                check_and_use(lab, rng, &list, &alphabet, &table, 3)?;
                // One pattern less: its path is now one too many.
                let mut less = list;
                if !less.is_empty() {
                    less.remove(rng.below(less.len()));
                    check_and_use(lab, rng, &less, &alphabet, &table, 1)?;
                }
            }
            _ => {
                lab.check(b"a1\nb1\n", &table)?;
                words_by_walk(lab, rng, &[], &alphabet, &table, 3)?;
            }
        }
        Ok(())
    })?;
    run.once(|lab, _| letters_in_a_circle(lab))
}

/// a1, aa1, ... up to sixteen times a, over one cell that links to itself;
/// and the list cut at each length.
fn letters_in_a_circle(lab: &mut Lab) -> Result<(), Mismatch> {
    let table = [
        1, 1, 0, 3, 0, 1, 2, 0, 0, 0, 0, 0, 2, 1, 0, 1, 0, 1, 2, 1, 0, 1, 0, 1, 3, 0, 1, 0, 0,
    ];
    let mut text = Vec::new();
    for length in 1..=16 {
        text.extend(vec![b'a'; length]);
        text.extend(b"1\n");
        let accepted = lab.check(&text, &table)? == 0;
        demand(accepted == (length == 16), || {
            format!("circle at length {}", length)
        })?;
    }
    let list = read_patterns(&text).expect("a good list");
    for length in 1..=63 {
        lab.word_by_list(&list, &vec![b'a'; length], &table, (1, 1))?;
    }
    for place in 0..table.len() {
        for byte in 0..=255 {
            let mut other = table;
            other[place] = byte;
            lab.check(&text, &other)?;
            lab.levels(b"aaaaaaaaaaaaaaaaaaaab", &other, 64)?;
        }
    }
    Ok(())
}

/// A table in which every string whatever is a path, or every one without
/// apostrophes: 28 or 27 cells that all lead to the same ones. A checker that
/// listed all paths would never end.
pub fn all_symbols_in_a_circle(run: &mut Run) -> Result<(), Mismatch> {
    run.rounds(2_000, |lab, rng| {
        let mut table = blank(57, 1);
        for cell in 1..=*rng.pick(&[EDGE, SYMBOLS]) {
            for base in [0, 28] {
                let place = 6 + 6 * (base + cell as usize);
                table[place + 1] = cell;
                table[place + 3] = 28;
                table[place + 5] = rng.below(2) as u8;
            }
        }
        let entry = table.len() - 5;
        table[entry + 1..].copy_from_slice(&[rng.range(0, 2) as u8, 3, 0, 0]);
        let alphabet = words::all_symbols();
        for count in [0, 1, 20] {
            let shape = Shape {
                alphabet: alphabet.clone(),
                count,
                longest: 16,
                ..Shape::any(rng)
            };
            let list = lists::good(rng, &shape);
            check_and_use(lab, rng, &list, &alphabet, &table, 1)?;
        }
        Ok(())
    })
}

/// A right table of a random list, first fit or otherwise.
fn any_right(rng: &mut Rng, list: &[Pattern]) -> Vec<u8> {
    let first_fit = || Packed::of_list(list.to_vec()).table;
    if rng.once_in(2) {
        return first_fit();
    }
    let machine = Machine::of_list(list).shared();
    let low = rng.range(1, 40);
    let style = Style {
        low,
        high: low + 60,
        ..Style::any(rng)
    };
    render(rng, &machine, &style).unwrap_or_else(first_fit)
}

/// Tables with up to three damages.
pub fn damaged(run: &mut Run) -> Result<(), Mismatch> {
    run.rounds(56_000, |lab, rng| {
        let shape = Shape::any(rng);
        let list = lists::good(rng, &shape);
        let right = any_right(rng, &list);
        for _ in 0..6 {
            let mut table = right.clone();
            for _ in 0..*rng.pick(&[1, 1, 1, 2, 3]) {
                damage::damage(rng, &mut table);
            }
            check_and_use(lab, rng, &list, &shape.alphabet, &table, 1)?;
        }
        Ok(())
    })
}

/// A table that nobody planned: damaged, with circles, with shared bases, or
/// random.
fn unplanned(rng: &mut Rng) -> Option<Vec<u8>> {
    let shape = Shape {
        count: rng.range(1, 12),
        ..Shape::any(rng)
    };
    let list = lists::good(rng, &shape);
    let style = Style {
        same_bases: rng.once_in(2),
        low: 1,
        high: 30,
        ..Style::any(rng)
    };
    match rng.below(8) {
        0 => {
            let machine = Machine::with_circles(rng);
            render(rng, &machine, &style)
        }
        1 => Some(random::table(rng, 2)),
        2 | 3 => render(rng, &Machine::of_list(&list).shared(), &style),
        _ => {
            let mut table = any_right(rng, &list);
            for _ in 0..rng.range(1, 3) {
                damage::damage(rng, &mut table);
            }
            Some(table)
        }
    }
}

/// Unplanned tables with the lists that they themselves suggest. Many of them
/// are right, in ways that no packer would choose.
pub fn derived_lists(run: &mut Run) -> Result<(), Mismatch> {
    run.rounds(120_000, |lab, rng| {
        let table = match unplanned(rng) {
            Some(table) => table,
            None => return Ok(()),
        };
        let list = match derive::list(&table) {
            Some(list) => list,
            None => return Ok(()),
        };
        if write_patterns(&list).len() > PATTERN_TEXT_LIMIT {
            return Ok(());
        }
        let alphabet = [1, 2, 3, APOSTROPHE];
        let accepted = check_and_use(lab, rng, &list, &alphabet, &table, 1)?;
        // No other list can be right for it.
        let shape = Shape {
            alphabet: alphabet.to_vec(),
            ..Shape::any(rng)
        };
        let mut other = list.clone();
        change_list(rng, &shape, &mut other);
        if other != list {
            let text = write_patterns(&other);
            let also = lab.check(&text, &table)? == 0;
            demand(!also, || format!("right for two lists, {}", accepted))?;
        }
        Ok(())
    })
}

/// Tables in which two paths share a base because their cells don't collide:
/// each reads the other's cells.
pub fn same_bases(run: &mut Run) -> Result<(), Mismatch> {
    run.rounds(48_000, |lab, rng| {
        let shape = Shape::any(rng);
        let list = lists::good(rng, &shape);
        let machine = if rng.once_in(2) {
            Machine::of_list(&list)
        } else {
            Machine::of_list(&list).shared()
        };
        let style = Style {
            low: 1,
            high: rng.range(1, 30),
            same_bases: true,
            ..Style::any(rng)
        };
        match render(rng, &machine, &style) {
            Some(table) => {
                check_and_use(lab, rng, &list, &shape.alphabet, &table, 2)?;
                Ok(())
            }
            None => Ok(()),
        }
    })
}

/// Tables of nearly the same list: a pattern more, a pattern less, a level
/// changed, a symbol changed.
pub fn other_lists(run: &mut Run) -> Result<(), Mismatch> {
    run.rounds(60_000, |lab, rng| {
        let shape = Shape::any(rng);
        let list = lists::good(rng, &shape);
        let table = any_right(rng, &list);
        for _ in 0..3 {
            let mut other = list.clone();
            change_list(rng, &shape, &mut other);
            let accepted = check_and_use(lab, rng, &other, &shape.alphabet, &table, 1)?;
            demand(accepted == (other == list), || {
                "a table is accepted for one list only".to_string()
            })?;
        }
        Ok(())
    })
}

/// Changes a list a little; it stays good.
fn change_list(rng: &mut Rng, shape: &Shape, list: &mut Vec<Pattern>) {
    if list.is_empty() || rng.once_in(4) {
        let more = lists::good(
            rng,
            &Shape {
                count: 1,
                ..shape.clone()
            },
        );
        for pattern in more {
            list.retain(|old| old.symbols() != pattern.symbols());
            list.push(pattern);
        }
        list.sort_by(|one, other| one.symbols().cmp(other.symbols()));
        return;
    }
    let place = rng.below(list.len());
    if rng.once_in(2) {
        list.remove(place);
    } else {
        let symbols = list[place].symbols().to_vec();
        let levels = lists::levels(rng, shape, &symbols);
        list[place] = Pattern::new(&symbols, &levels);
    }
}

/// Every byte of a table set to every value.
fn every_byte(lab: &mut Lab, text: &[u8], right: &[u8], words: &[&[u8]]) -> Result<(), Mismatch> {
    let list = read_patterns(text).expect("a good list");
    let judge = Judge::new(&list);
    let mut table = right.to_vec();
    for place in 0..right.len() {
        for byte in 0..=255 {
            table[place] = byte;
            let accepted = lab.check_with(&judge, text, &table)? == 0;
            for word in words {
                if accepted {
                    lab.word_by_list(&list, word, &table, (1, 1))?;
                } else {
                    lab.levels(word, &table, 64)?;
                    lab.hyphenate(1, 1, word, b"", b"", &table, 64)?;
                }
            }
        }
        table[place] = right[place];
    }
    Ok(())
}

/// Every damage of one byte to the first-fit table of the nine patterns.
pub fn every_byte_of_nine(run: &mut Run) -> Result<(), Mismatch> {
    let nine = Packed::of_text(NINE);
    run.once(|lab, _| {
        let words: [&[u8]; 3] = [b"hyphenation", b"on", b"hyphenathionat"];
        every_byte(lab, NINE, &nine.table, &words)
    })
}

/// Every damage of one byte to the first-fit table of patterns with apostrophes.
pub fn every_byte_of_elisions(run: &mut Run) -> Result<(), Mismatch> {
    let packed = Packed::of_text(b"l'1e\nt2.\nt'1\n'2e\n'e1n'\n");
    run.once(|lab, _| {
        let words: [&[u8]; 3] = [b"l'entrat", b"t'en't'l", b"len"];
        every_byte(lab, &packed.text, &packed.table, &words)
    })
}

/// Every damage of one byte to random tables laid out otherwise.
pub fn every_byte_of_odd_ones(run: &mut Run) -> Result<(), Mismatch> {
    run.rounds(36, |lab, rng| {
        let alphabet = *rng.pick(&[&[1, 2][..], &[1, APOSTROPHE], &[1, 2, APOSTROPHE]]);
        let shape = Shape {
            alphabet: alphabet.to_vec(),
            count: rng.range(3, 9),
            longest: 4,
            edges: 3,
            digits: 2,
            highest: 9,
            extend: 3,
        };
        let list = lists::good(rng, &shape);
        let style = Style {
            low: 1,
            high: 12,
            spare_cells: rng.below(3),
            spare_entries: rng.below(3),
            ..Style::any(rng)
        };
        let machine = Machine::of_list(&list).shared();
        let table = match render(rng, &machine, &style) {
            Some(table) => table,
            None => return Ok(()),
        };
        let word = words::from_patterns(rng, &list, alphabet);
        every_byte(lab, &write_patterns(&list), &table, &[&word])
    })
}

/// Tables of random bytes behind a good head.
pub fn random_tables(run: &mut Run) -> Result<(), Mismatch> {
    run.rounds(420_000, |lab, rng| {
        let letters = rng.range(1, 4);
        let alphabet: Vec<u8> = (1..=letters as u8).chain([APOSTROPHE]).collect();
        let table = random::table(rng, letters);
        words_by_walk(lab, rng, &[], &alphabet, &table, 3)?;
        let shape = Shape {
            alphabet: alphabet.clone(),
            count: rng.range(0, 4),
            ..Shape::any(rng)
        };
        let list = lists::good(rng, &shape);
        lab.check(&write_patterns(&list), &table)?;
        Ok(())
    })
}

/// A head for so many cells and entries.
fn head(cells: usize, entries: usize) -> Vec<u8> {
    let mut bytes = vec![1, 1];
    bytes.extend((cells as u16).to_be_bytes());
    bytes.extend((entries as u16).to_be_bytes());
    bytes
}

/// A table of free cells and of entries without meaning.
fn blank(cells: usize, entries: usize) -> Vec<u8> {
    let mut bytes = head(cells, entries);
    for _ in 0..cells {
        bytes.extend([2, 0, 0, 0, 0, 0]);
    }
    for _ in 0..entries {
        bytes.extend([3, 0, 0, 0, 0]);
    }
    bytes
}

/// All calls that judge a head.
fn all_calls(lab: &mut Lab, table: &[u8]) -> Result<(), Mismatch> {
    lab.levels(b"abc", table, 64)?;
    lab.hyphenate(1, 1, b"abc", b"a\n", b"a-b-c\n", table, 64)?;
    lab.hyphenate(1, 1, b"abc", b"", b"", table, 64)?;
    lab.check(b"", table)?;
    lab.check(b"a1\n", table)?;
    Ok(())
}

/// Heads around every limit, with right lengths and with lengths one off.
pub fn heads(run: &mut Run) -> Result<(), Mismatch> {
    run.once(|lab, _| {
        let small = blank(3, 2);
        for place in 0..6 {
            for byte in 0..=255 {
                let mut table = small.clone();
                table[place] = byte;
                all_calls(lab, &table)?;
            }
        }
        for length in 0..=small.len() + 20 {
            let mut table = small.clone();
            table.resize(length, 0);
            all_calls(lab, &table)?;
            all_calls(lab, &vec![1; length])?;
        }
        for cells in [0, 1, 2, 8_190, 8_191, 8_192, 8_193, 8_194, 16_385] {
            for entries in [0, 1, 2_047, 2_048, 2_049, 2_050, 4_097] {
                let mut table = blank(cells, entries);
                all_calls(lab, &table)?;
                table.push(2);
                all_calls(lab, &table)?;
                table.truncate(table.len() - 2);
                all_calls(lab, &table)?;
            }
        }
        // Lengths that would fit if numbers were cut to fewer bits.
        for (cells, entries) in [(32_768, 0), (65_535, 0), (1, 65_535), (32_769, 32_768)] {
            let mut table = head(cells, entries);
            for length in [6, 12, 12 + 5, (6 + 6 * cells + 5 * entries) % 65_536] {
                table.resize(length, 2);
                all_calls(lab, &table)?;
            }
        }
        Ok(())
    })
}

/// Damaged heads and lengths of random tables.
pub fn damaged_heads(run: &mut Run) -> Result<(), Mismatch> {
    run.rounds(40_000, |lab, rng| {
        let shape = Shape::any(rng);
        let list = lists::good(rng, &shape);
        let mut table = any_right(rng, &list);
        damage::damage_head(rng, &mut table);
        if rng.once_in(4) && table.len() > 6 {
            damage::damage_head(rng, &mut table);
        }
        check_and_use(lab, rng, &list, &shape.alphabet, &table, 1)?;
        Ok(())
    })
}

/// Chains as long as a table allows, whole and with a fault somewhere.
pub fn long_chains(run: &mut Run) -> Result<(), Mismatch> {
    run.rounds(6_000, |lab, rng| {
        let entries = *rng.pick(&[1, 2, 300, 2_047, ENTRY_LIMIT]);
        let mut table = blank(8, entries);
        // a, and b behind a: both with a chain.
        table[12..18].copy_from_slice(&[2, 1, 0, 3, (entries >> 8) as u8, entries as u8]);
        let second = rng.range(0, entries);
        table[36..42].copy_from_slice(&[2, 2, 0, 0, (second >> 8) as u8, second as u8]);
        for entry in 1..=entries {
            let next = if rng.once_in(400) {
                rng.below(entry)
            } else {
                entry - 1
            };
            let place = 6 + 48 + 5 * (entry - 1);
            let distance = *rng.pick(&[0, 1, 2, 2, 3]);
            table[place + 1] = distance;
            table[place + 2] = rng.range(1, 9) as u8;
            table[place + 3..place + 5].copy_from_slice(&(next as u16).to_be_bytes());
            if rng.once_in(2_000) {
                table[place] = rng.byte();
            }
            if rng.once_in(2_000) {
                let next = rng.range(entry, entries + 1) as u16;
                table[place + 3..place + 5].copy_from_slice(&next.to_be_bytes());
            }
        }
        for word in [&b"ab"[..], b"abab", b"aab", b"ba", b"a"] {
            lab.levels(word, &table, 64)?;
            lab.hyphenate(1, 1, word, b"", b"", &table, 64)?;
        }
        lab.check(b"9a9\n9a9b9\n", &table)?;
        lab.check(b"9a9\n", &table)?;
        Ok(())
    })
}

/// Links near the highest number of two bytes: sums beyond it mustn't come
/// back to the first cells, where a cell waits that would match.
pub fn high_links(run: &mut Run) -> Result<(), Mismatch> {
    run.rounds(48_000, |lab, rng| {
        let cells = *rng.pick(&[28, 29, 60, CELL_LIMIT - 1, CELL_LIMIT]);
        let mut table = blank(cells, 3);
        for entry in 1..=3usize {
            let place = 6 + 6 * cells + 5 * (entry - 1);
            table[place..place + 5].copy_from_slice(&[3, 0, entry as u8, 0, 0]);
        }
        let first = rng.range(2, 26);
        let second = match rng.below(4) {
            0 => APOSTROPHE as usize,
            _ => rng.range(1, 26),
        };
        let link = match rng.below(4) {
            0 => 65_536 - rng.range(1, 28),
            1 => 32_768 - rng.range(0, 28),
            2 => cells.saturating_sub(rng.range(0, 28)).max(1),
            _ => 8_192 - rng.range(0, 28),
        };
        let mut put = |cell: usize, symbol: usize, link: usize, output: u8| {
            let place = 6 + 6 * cell;
            let link = (link as u16).to_be_bytes();
            let body = [2, symbol as u8, link[0], link[1], 0, output];
            table[place..place + 6].copy_from_slice(&body);
        };
        let bits = *rng.pick(&[8, 13, 14, 15, 16]);
        let wrapped = (link + second) & ((1 << bits) - 1);
        if wrapped < cells {
            put(wrapped, second, 0, 2);
        }
        put(first, first, link, 1);
        let letters = [words::small(first as u8), words::small(second as u8)];
        for word in [
            [letters[0], letters[1], letters[0]],
            [letters[1], letters[0], letters[1]],
        ] {
            lab.levels(&word, &table, 64)?;
            lab.hyphenate(1, 1, &word, b"", b"", &table, 64)?;
        }
        let alone = [letters[0], b'1', b'\n'];
        let both = [alone.to_vec(), vec![letters[0], letters[1], b'2', b'\n']].concat();
        lab.check(&alone, &table)?;
        lab.check(&both, &table)?;
        Ok(())
    })
}

/// Entries whose bytes look like cells: a cell number of C or more doesn't
/// exist, even where such bytes stand.
pub fn past_the_cells(run: &mut Run) -> Result<(), Mismatch> {
    run.rounds(100_000, |lab, rng| {
        let cells = rng.range(2, 30);
        let entries = rng.range(6, 60);
        let mut table = head(cells, entries);
        let length = 6 + 6 * cells + 5 * entries;
        let mut cell = 0;
        while table.len() < length {
            let symbol = rng.range(1, 3) as u8;
            let link = match rng.below(3) {
                0 => 0,
                1 => cells.saturating_sub(rng.below(4)) as u8,
                _ => rng.below(cells + entries) as u8,
            };
            let symbol = if cell < 4 { cell as u8 } else { symbol };
            table.extend([2, symbol, 0, link, 0, rng.range(0, 3) as u8]);
            cell += 1;
        }
        table.truncate(length);
        words_by_walk(lab, rng, &[], &[1, 2, 3], &table, 2)?;
        lab.check(b"a1\nb1\nc1\n", &table)?;
        Ok(())
    })
}

/// Long paths around the sixteenth symbol: what stands behind it is neither
/// followed nor judged.
pub fn sixteen_symbols(run: &mut Run) -> Result<(), Mismatch> {
    run.rounds(24_000, |lab, rng| {
        let alphabet = *rng.pick(&[&[1][..], &[1, 2], &[1, APOSTROPHE]]);
        let shape = Shape {
            alphabet: alphabet.to_vec(),
            count: rng.range(1, 12),
            longest: 16,
            edges: *rng.pick(&[0, 2]),
            digits: *rng.pick(&[1, 4]),
            highest: 9,
            extend: 2,
        };
        let list: Vec<Pattern> = lists::good(rng, &shape)
            .into_iter()
            .filter(|pattern| pattern.symbols().len() > 12 || rng.once_in(4))
            .collect();
        let right = any_right(rng, &list);
        check_and_use(lab, rng, &list, &shape.alphabet, &right, 3)?;
        // Change the links of cells at random: harmless only at the sixteenth
        // symbol or where nothing matches.
        let reached = damage::reached(&right);
        for _ in 0..3 {
            let mut table = right.clone();
            if let Some(&last) = reached.cells.last() {
                let cell = if rng.once_in(2) {
                    last
                } else {
                    *rng.pick(&reached.cells)
                };
                let link = *rng.pick(&reached.bases) as u16;
                table[8 + 6 * cell..10 + 6 * cell].copy_from_slice(&link.to_be_bytes());
            }
            check_and_use(lab, rng, &list, &shape.alphabet, &table, 2)?;
        }
        Ok(())
    })
}
