//! Real lists from the `data` folder, and what the command line names.

use super::Packed;
use crate::run::{demand, Run};
use outside::lab::{margins, Lab, Mismatch};
use outside::make::layout::{render, Machine, Style};
use outside::make::words;
use outside::reference::right::Judge;
use outside::reference::text::{read_pattern, read_word};
use outside::reference::{Pattern, Seen, APOSTROPHE, EDGE, PACK_ROOM, WORD_LIMIT};
use outside::rng::Rng;

/// A data file; without it the test fails and says so.
pub fn data(name: &str) -> Result<Vec<u8>, Mismatch> {
    outside::data(name).map_err(|why| format!("  data/{}: {}", name, why))
}

/// A real list, packed by the reference.
fn packed(name: &str) -> Result<Packed, Mismatch> {
    let text = data(name)?;
    let packed = Packed::of_text(&text);
    demand(packed.text == text, || {
        format!("{} is written as read", name)
    })?;
    Ok(packed)
}

/// Packs and checks one list; its numbers of cells and entries are known.
fn pack_one(lab: &mut Lab, name: &str, cells: usize, entries: usize) -> Result<(), Mismatch> {
    let text = data(name)?;
    let answer = lab.pack(&text, PACK_ROOM)?;
    let wanted = (6 + 6 * cells + 5 * entries) as u64;
    demand(answer == wanted, || format!("{}: {:#x}", name, answer))?;
    let table = lab.room()[..answer as usize].to_vec();
    let head = [
        1,
        1,
        (cells >> 8) as u8,
        cells as u8,
        (entries >> 8) as u8,
        entries as u8,
    ];
    demand(table[..6] == head, || format!("head of {}", name))?;
    demand(lab.check(&text, &table)? == 0, || {
        format!("{} is accepted", name)
    })
}

/// Packs all lists; two are refused.
pub fn pack(run: &mut Run) -> Result<(), Mismatch> {
    run.once(|lab, _| {
        pack_one(lab, "en-us.pat", 7_131, 181)?;
        pack_one(lab, "it.pat", 436, 34)?;
        pack_one(lab, "it-elisions.pat", 457, 34)?;
        pack_one(lab, "la.pat", 506, 25)?;
        let over = lab.pack(&data("en-us-max.pat")?, PACK_ROOM + 9)?;
        demand(over == 11 << 56, || format!("en-us-max.pat: {:#x}", over))?;
        let zeros = lab.room()[..PACK_ROOM].iter().all(|&byte| byte == 0);
        demand(zeros, || "a room of zeros after ground 11".to_string())?;
        let over = lab.pack(&data("lv.pat")?, PACK_ROOM)?;
        demand(over == 8 << 56, || format!("lv.pat: {:#x}", over))?;
        let over = lab.check(&data("lv.pat")?, b"")?;
        demand(over == 8 << 56, || format!("lv.pat: {:#x}", over))
    })
}

/// Words over one of our lists.
fn words_of(run: &mut Run, name: &str, rounds: u64) -> Result<(), Mismatch> {
    words_over(run, &packed(name)?, rounds)
}

/// Words from a list's own pieces, by the list.
fn words_over(run: &mut Run, packed: &Packed, rounds: u64) -> Result<(), Mismatch> {
    let alphabet = words::all_symbols();
    run.rounds(rounds, |lab, rng| {
        let word = words::from_patterns(rng, &packed.list, &alphabet);
        lab.word_by_list(&packed.list, &word, &packed.table, margins(rng))
    })?;
    // Every beginning of every pattern as a word by itself.
    run.once(|lab, _| {
        for pattern in &packed.list {
            let letters: Vec<u8> = pattern
                .symbols()
                .iter()
                .copied()
                .filter(|&s| s != EDGE)
                .collect();
            for length in 1..=letters.len() {
                let word: Vec<u8> = letters[..length].iter().map(|&s| words::small(s)).collect();
                lab.levels(&word, &packed.table, 64)?;
                lab.hyphenate(1, 1, &word, b"", b"", &packed.table, 64)?;
            }
        }
        Ok(())
    })
}

/// Words over the US English list.
pub fn words_en_us(run: &mut Run) -> Result<(), Mismatch> {
    words_of(run, "en-us.pat", 80_000)
}

/// Words over the Italian list.
pub fn words_it(run: &mut Run) -> Result<(), Mismatch> {
    words_of(run, "it.pat", 160_000)
}

/// Words over the Italian list with elisions.
pub fn words_elisions(run: &mut Run) -> Result<(), Mismatch> {
    words_of(run, "it-elisions.pat", 160_000)
}

/// Words over the Latin list.
pub fn words_la(run: &mut Run) -> Result<(), Mismatch> {
    words_of(run, "la.pat", 160_000)
}

/// The US English exceptions: their lines, and neighbours that have none.
pub fn exceptions(run: &mut Run) -> Result<(), Mismatch> {
    let packed = packed("en-us.pat")?;
    let house = data("en-us.exc")?;
    run.rounds(40, |lab, rng| {
        let mut lines = 0;
        let mut start = 0;
        for line in house
            .split(|&byte| byte == b'\n')
            .filter(|line| !line.is_empty())
        {
            let mut word: Vec<u8> = line.iter().copied().filter(|&byte| byte != b'-').collect();
            words::with_capitals(rng, &mut word);
            let place = (start as u64) << 16 | line.len() as u64;
            let found = lab.lookup(&word, b"", &house)?;
            demand(found == 2 << 48 | place, || {
                format!("house line of {:?}", line)
            })?;
            let found = lab.lookup(&word, &house, &house)?;
            demand(found == 1 << 48 | place, || {
                format!("customer line of {:?}", line)
            })?;
            let (left, right) = margins(rng);
            lab.hyphenate(left, right, &word, b"", &house, &packed.table, 64)?;
            lab.hyphenate(left, right, &word, &house, b"", &packed.table, 64)?;
            lab.hyphenate(left, right, &word, b"", b"", &packed.table, 64)?;
            word.push(b's');
            lab.lookup(&word, b"", &house)?;
            lab.hyphenate(left, right, &word, b"", &house, &packed.table, 64)?;
            start += line.len() + 1;
            lines += 1;
        }
        demand(lines == 14, || format!("{} lines in en-us.exc", lines))
    })
}

/// One damaged byte in the US English table.
pub fn damage_en_us(run: &mut Run) -> Result<(), Mismatch> {
    let packed = packed("en-us.pat")?;
    let judge = Judge::new(&packed.list);
    let alphabet = words::all_symbols();
    run.rounds(8_000, |lab, rng| {
        let mut table = packed.table.clone();
        let place = rng.below(table.len());
        table[place] = if rng.once_in(2) {
            rng.byte()
        } else {
            table[place] ^ 1 << rng.below(8)
        };
        let accepted = lab.check_with(&judge, &packed.text, &table)? == 0;
        for _ in 0..2 {
            let word = words::from_patterns(rng, &packed.list, &alphabet);
            if accepted {
                lab.word_by_list(&packed.list, &word, &table, (2, 3))?;
            } else {
                lab.levels(&word, &table, 64)?;
                lab.hyphenate(2, 3, &word, b"", b"", &table, 64)?;
            }
        }
        Ok(())
    })
}

/// The US English list laid out otherwise: shared endings, odd chains, dead
/// links, rubbish.
pub fn layouts_en_us(run: &mut Run) -> Result<(), Mismatch> {
    let packed = packed("en-us.pat")?;
    let judge = Judge::new(&packed.list);
    let machine = Machine::of_list(&packed.list).shared();
    let alphabet = words::all_symbols();
    run.rounds(25, |lab, rng| {
        let style = Style {
            low: 1,
            high: *rng.pick(&[1, 1_000, 5_000]),
            share_entries: true,
            odd_chains: rng.once_in(2),
            spare_cells: rng.below(200),
            ..Style::any(rng)
        };
        let table = match render(rng, &machine, &style) {
            Some(table) => table,
            None => return Ok(()),
        };
        let accepted = lab.check_with(&judge, &packed.text, &table)? == 0;
        demand(accepted, || "another right layout is accepted".to_string())?;
        for _ in 0..20 {
            let word = words::from_patterns(rng, &packed.list, &alphabet);
            lab.word_by_list(&packed.list, &word, &table, margins(rng))?;
        }
        let mut other = table.clone();
        outside::make::damage::damage(rng, &mut other);
        lab.check_with(&judge, &packed.text, &other)?;
        Ok(())
    })
}

/// Whether a line is runs of letters with one apostrophe between each two, and
/// not too long.
fn is_word(line: &[u8]) -> bool {
    let letters = |part: &[u8]| !part.is_empty() && part.iter().all(u8::is_ascii_alphabetic);
    line.len() <= WORD_LIMIT && line.split(|&byte| byte == b'\'').all(letters)
}

/// One line of a word file through both calls. A word with an apostrophe is as
/// good as any, but not for the machine of 1980.
fn one_word(lab: &mut Lab, packed: &Packed, house: &[u8], word: &[u8]) -> Result<(), Mismatch> {
    if read_word(word).is_ok() {
        lab.word_by_list(&packed.list, word, &packed.table, (2, 3))?;
    } else {
        lab.levels(word, &packed.table, 64)?;
    }
    lab.lookup(word, b"", house)?;
    let answer = lab.hyphenate(2, 3, word, b"", house, &packed.table, 64)?;
    demand((answer >> 56 == 0) == is_word(word), || {
        format!("{:?} gives {:#x}", word, answer)
    })?;
    let answer = lab.archive(word, 64, &mut Seen::default())?;
    let taken = is_word(word) && !word.contains(&b'\'');
    demand((answer >> 56 == 0) == taken, || {
        format!("{:?} gives {:#x} in 1980", word, answer)
    })
}

/// The lines of somebody's pattern file that a list can hold, in order; of two
/// with the same symbols the first.
fn held(text: &[u8]) -> Vec<Pattern> {
    let lines = text.split(|&byte| byte == b'\n');
    let mut list: Vec<Pattern> = lines.filter_map(read_pattern).collect();
    list.sort_by(|one, other| one.symbols().cmp(other.symbols()));
    list.dedup_by(|later, first| later.symbols() == first.symbols());
    list
}

/// Every pattern file given: what a list can hold of it is packed, accepted and
/// walked. Some of its lines have to have apostrophes.
pub fn pattern_files(run: &mut Run) -> Result<(), Mismatch> {
    for text in run.patterns() {
        let packed = Packed::of_list(held(text));
        let has = |pattern: &&Pattern| pattern.symbols().contains(&APOSTROPHE);
        let elided = packed.list.iter().filter(has).count();
        println!(
            "{} patterns, {} of them with apostrophes",
            packed.list.len(),
            elided
        );
        run.once(|lab, _| {
            demand(elided > 0, || "a pattern with an apostrophe".to_string())?;
            let answer = lab.pack(&packed.text, PACK_ROOM)?;
            demand(answer == packed.table.len() as u64, || {
                format!("packed: {:#x}", answer)
            })?;
            demand(lab.check(&packed.text, &packed.table)? == 0, || {
                "the table is accepted".to_string()
            })
        })?;
        words_over(run, &packed, 100_000)?;
    }
    Ok(())
}

/// Every second line of the word file.
fn word_file(run: &mut Run, part: usize) -> Result<(), Mismatch> {
    let packed = packed("en-us.pat")?;
    let house = data("en-us.exc")?;
    let text = run.words();
    run.once(|lab, rng: &mut Rng| {
        let mut lines: Vec<&[u8]> = text.split(|&byte| byte == b'\n').collect();
        if lines.last().map_or(false, |line| line.is_empty()) {
            lines.pop();
        }
        for line in lines.into_iter().skip(part).step_by(2) {
            lab.settle(rng);
            // A line too long for the lent memory is cut; it stays too long
            // for a word.
            one_word(lab, &packed, &house, &line[..line.len().min(65_536)])?;
        }
        Ok(())
    })
}

/// The first, third, ... line of the word file.
pub fn word_file_even(run: &mut Run) -> Result<(), Mismatch> {
    word_file(run, 0)
}

/// The second, fourth, ... line of the word file.
pub fn word_file_odd(run: &mut Run) -> Result<(), Mismatch> {
    word_file(run, 1)
}
