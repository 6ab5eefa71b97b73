//! Apostrophes: which words, pattern lines and exception lines may have them
//! where, how lines with them are sorted, and that they count as letters.

use super::patterns::all_texts;
use super::real::data;
use super::{Kinds, Packed};
use crate::run::{demand, Run};
use outside::lab::{Lab, Mismatch};
use outside::reference::text::{read_exceptions, read_pattern, write_symbol};
use outside::reference::{APOSTROPHE, EDGE, LONGEST, PACK_ROOM, WORD_LIMIT};

/// A list with apostrophes at the front, at the end and inside.
const ELISIONS: &[u8] = b"1a\na1'\na'2b\n1b\n'1b\n";

/// Where a word is refused, found by cutting it at its apostrophes: each part
/// must be a run of letters that isn't empty.
fn fault(word: &[u8]) -> Option<usize> {
    let mut start = 0;
    for (number, part) in word.split(|&byte| byte == b'\'').enumerate() {
        match part.iter().position(|byte| !byte.is_ascii_alphabetic()) {
            // Then it is the apostrophe before that has no letter behind it.
            Some(0) if number > 0 => return Some(start - 1),
            Some(place) => return Some(start + place),
            None if part.is_empty() => return Some(start.max(1) - 1),
            None => start += part.len() + 1,
        }
    }
    None
}

/// The calls that judge a word, by hand and by the reference.
fn judge_word(lab: &mut Lab, word: &[u8], table: &[u8], kinds: &mut Kinds) -> Result<(), Mismatch> {
    let house = b"aa\naba\na'a\na'-b\na-'b-'a\nb'a\nz'-z\n";
    let levels = lab.levels(word, table, 64)?;
    let breaks = lab.hyphenate(1, 1, word, b"", house, table, 64)?;
    let line = lab.lookup(word, b"", house)?;
    let has = word.contains(&b'\'');
    let expected = match fault(word) {
        _ if word.is_empty() => 2 << 56,
        Some(place) => 3 << 56 | place as u64,
        None => 0,
    };
    kinds.note(match fault(word) {
        _ if word.is_empty() => "empty",
        Some(place) if word[place] == b'\'' => "refused at an apostrophe",
        Some(_) if has => "refused at another byte, with an apostrophe",
        Some(_) => "refused without an apostrophe",
        None if has && line != 0 => "found with an apostrophe",
        None if has => "answered with an apostrophe",
        None => "answered without an apostrophe",
    });
    for answer in [levels, breaks] {
        let refusal = if answer >> 56 == 0 { 0 } else { answer };
        demand(refusal == expected, || {
            format!("{:?} gives {:#x}", word, answer)
        })?;
    }
    demand(expected == 0 || line == 0, || {
        format!("a line for {:?}", word)
    })
}

/// Every word of up to seven bytes over few, an apostrophe among them.
pub fn words(run: &mut Run) -> Result<(), Mismatch> {
    let table = Packed::of_text(ELISIONS).table;
    let mut kinds = Kinds::new(&[
        "empty",
        "refused at an apostrophe",
        "refused at another byte, with an apostrophe",
        "refused without an apostrophe",
        "found with an apostrophe",
        "answered with an apostrophe",
        "answered without an apostrophe",
    ]);
    run.once(|lab, rng| {
        for bytes in [&b"aB'1"[..], b"z'-.\x92"] {
            all_texts(bytes, 7, |word| {
                lab.settle(rng);
                judge_word(lab, word, &table, &mut kinds)
            })?;
        }
        // Each byte on either side of an apostrophe, and at both.
        for byte in 0..=255 {
            for word in [
                [b'a', b'\'', byte],
                [byte, b'\'', b'a'],
                [byte, b'\'', byte],
            ] {
                judge_word(lab, &word, &table, &mut kinds)?;
            }
        }
        Ok(())
    })?;
    kinds.all_met()
}

/// The line with a letter in place of each apostrophe.
fn with_letters(line: &[u8]) -> Vec<u8> {
    let letter = |&byte: &u8| if byte == b'\'' { b'q' } else { byte };
    line.iter().map(letter).collect()
}

/// The line without these bytes.
fn without(line: &[u8], left_out: impl Fn(u8) -> bool) -> Vec<u8> {
    line.iter()
        .copied()
        .filter(|&byte| !left_out(byte))
        .collect()
}

/// Whether two bytes stand beside each other.
fn meet(line: &[u8], pair: &[u8; 2]) -> bool {
    line.windows(2).any(|two| two == pair)
}

/// What kind of line this is, and whether such a pattern is good. Apart from
/// its apostrophes it is judged with letters in their place.
fn kind_of_pattern(line: &[u8]) -> (&'static str, bool) {
    let bare = without(line, |byte| byte.is_ascii_digit());
    let good = read_pattern(&with_letters(line)).is_some();
    let first = bare.first() == Some(&b'\'');
    let last = bare.last() == Some(&b'\'');
    match () {
        _ if !bare.contains(&b'\'') => ("without an apostrophe", good),
        _ if !good => ("bad with letters", false),
        _ if meet(&bare, b"''") => ("two meet", false),
        _ if meet(&bare, b".'") => ("behind the edge", false),
        _ if meet(&bare, b"'.") => ("before the edge", false),
        _ if !bare.iter().any(u8::is_ascii_lowercase) => ("no letter", false),
        _ if first && last => ("at both ends", true),
        _ if first => ("first", true),
        _ if last => ("last", true),
        _ => ("inside", true),
    }
}

/// One pattern line as a list of its own. A good one has its table made, judged
/// and used.
fn judge_pattern(lab: &mut Lab, line: &[u8], pack: bool) -> Result<bool, Mismatch> {
    let text = [line, b"\n"].concat();
    // Behind a good list the missing table is refused.
    let good = lab.check(&text, b"")? == 9 << 56;
    if pack {
        let answer = lab.pack(&text, PACK_ROOM)?;
        let refused = answer == 7 << 56;
        demand(good != refused, || format!("{:?}: {:#x}", line, answer))?;
    }
    if !good {
        return Ok(false);
    }
    let packed = Packed::of_text(&text);
    let accepted = lab.check(&text, &packed.table)? == 0;
    let empty = lab.check(&text, &Packed::of_text(b"").table)?;
    demand(accepted && empty == 12 << 56, || {
        format!("tables for {:?}", line)
    })?;
    for word in [&b"a'aa'a'aa"[..], b"az'z'a", b"aa"] {
        lab.word_by_list(&packed.list, word, &packed.table, (1, 1))?;
    }
    Ok(true)
}

/// Every pattern line of up to seven bytes over few.
pub fn patterns(run: &mut Run) -> Result<(), Mismatch> {
    let mut kinds = Kinds::new(&[
        "without an apostrophe",
        "bad with letters",
        "two meet",
        "behind the edge",
        "before the edge",
        "no letter",
        "at both ends",
        "first",
        "last",
        "inside",
    ]);
    run.once(|lab, rng| {
        for (bytes, pack) in [(&b"a1.'-"[..], true), (b"az2'.", false)] {
            all_texts(bytes, 7, |line| {
                lab.settle(rng);
                let (kind, expected) = kind_of_pattern(line);
                kinds.note(kind);
                let good = judge_pattern(lab, line, pack)?;
                demand(good == expected, || format!("{:?} is {}", line, kind))
            })?;
        }
        Ok(())
    })?;
    kinds.all_met()
}

/// What kind of line this is, and whether such an exception is good.
fn kind_of_exception(line: &[u8]) -> (&'static str, bool) {
    let bare = without(line, |byte| byte == b'-');
    let good = read_exceptions(&[&with_letters(line)[..], b"\n"].concat()).is_ok();
    let (before, behind) = (meet(line, b"-'"), meet(line, b"'-"));
    match () {
        _ if !bare.contains(&b'\'') => ("without an apostrophe", good),
        _ if !good => ("bad with letters", false),
        _ if meet(line, b"''") => ("two meet", false),
        _ if meet(&bare, b"''") => ("two meet but for a hyphen", false),
        _ if bare[0] == b'\'' => ("first", false),
        _ if bare[bare.len() - 1] == b'\'' => ("last", false),
        _ if before && behind => ("hyphens before and behind", true),
        _ if before => ("a hyphen before", true),
        _ if behind => ("a hyphen behind", true),
        _ => ("no hyphen beside", true),
    }
}

/// One exception line as a list of its own, the customer's or the house's, for
/// its own word and for another.
fn judge_exception(lab: &mut Lab, line: &[u8], house: bool) -> Result<bool, Mismatch> {
    let table = Packed::of_text(ELISIONS).table;
    let text = [line, b"\n"].concat();
    let (customer, house, list) = match house {
        true => (&b""[..], &text[..], 2),
        false => (&text[..], &b""[..], 1),
    };
    let answer = lab.hyphenate(1, 1, b"qq", customer, house, &table, 64)?;
    let good = answer >> 56 == 0;
    demand(good || answer == 6 << 56 | list << 48, || {
        format!("{:?}: {:#x}", line, answer)
    })?;
    let word = without(line, |byte| byte == b'-');
    let found = lab.lookup(&word, customer, house)?;
    let breaks = lab.hyphenate(1, 1, &word, customer, house, &table, 64)?;
    let hyphens = (line.len() - word.len()) as u64;
    let expected = match good {
        true => (list << 48 | line.len() as u64, hyphens << 32),
        false => (0, breaks),
    };
    demand((found, breaks) == expected, || {
        format!("{:?} has line {:#x}, breaks {:#x}", word, found, breaks)
    })?;
    Ok(good)
}

/// Every exception line of up to seven bytes over few.
pub fn exceptions(run: &mut Run) -> Result<(), Mismatch> {
    let mut kinds = Kinds::new(&[
        "without an apostrophe",
        "bad with letters",
        "two meet",
        "two meet but for a hyphen",
        "first",
        "last",
        "hyphens before and behind",
        "a hyphen before",
        "a hyphen behind",
        "no hyphen beside",
    ]);
    run.once(|lab, rng| {
        all_texts(b"ab-'.", 7, |line| {
            lab.settle(rng);
            let (kind, expected) = kind_of_exception(line);
            kinds.note(kind);
            let good = judge_exception(lab, line, rng.once_in(2))?;
            demand(good == expected, || format!("{:?} is {}", line, kind))
        })
    })?;
    kinds.all_met()
}

/// Places in this row are the order of symbols.
const ORDER: &[u8] = b"abcdefghijklmnopqrstuvwxyz.'";

/// A line's bytes by their places in the order, without digits and hyphens.
fn sorted_by(line: &[u8]) -> Vec<usize> {
    let place = |byte: &u8| ORDER.iter().position(|other| other == byte);
    line.iter().filter_map(place).collect()
}

/// What decides between two lines.
fn kind_of_pair(above: &[u8], below: &[u8]) -> &'static str {
    let (one, other) = (sorted_by(above), sorted_by(below));
    let (apostrophe, edge) = (ORDER.len() - 1, ORDER.len() - 2);
    let unlike = one.iter().zip(&other).find(|(one, other)| one != other);
    match unlike {
        Some((&one, &other)) if one == apostrophe && other == edge => "apostrophe, edge",
        Some((&one, &other)) if one == edge && other == apostrophe => "edge, apostrophe",
        Some((&one, _)) if one == apostrophe => "apostrophe, letter",
        Some((_, &other)) if other == apostrophe => "letter, apostrophe",
        Some(_) => "no apostrophe decides",
        None if one.len() < other.len() => "beginning above",
        None if one.len() > other.len() => "beginning below",
        None => "equal symbols",
    }
}

/// Every pair of some good lines as a list: `judge` tells whether it is good.
fn all_pairs(
    lines: &[Vec<u8>],
    kinds: &mut Kinds,
    mut judge: impl FnMut(&[u8], usize) -> Result<bool, Mismatch>,
) -> Result<(), Mismatch> {
    for above in lines {
        for below in lines {
            let text = [&above[..], b"\n", below, b"\n"].concat();
            let good = judge(&text, above.len() + 1)?;
            kinds.note(kind_of_pair(above, below));
            let ascends = sorted_by(above) < sorted_by(below);
            demand(good == ascends, || format!("{:?} {:?}", above, below))?;
        }
    }
    Ok(())
}

/// Pairs of pattern lines and of exception lines: the apostrophe sorts last.
pub fn order(run: &mut Run) -> Result<(), Mismatch> {
    let pairs = [
        "letter, apostrophe",
        "apostrophe, letter",
        "no apostrophe decides",
        "beginning above",
        "beginning below",
        "equal symbols",
    ];
    let edges = ["edge, apostrophe", "apostrophe, edge"];
    let mut of_patterns = Kinds::new(&[&pairs[..], &edges].concat());
    let mut of_exceptions = Kinds::new(&pairs);
    run.once(|lab, _| {
        let (mut lines, mut words) = (Vec::new(), Vec::new());
        all_texts(b"az.'1", 4, |line| {
            let digits = line.iter().filter(|&&byte| byte == b'1').count();
            if digits == 1 && kind_of_pattern(line).1 {
                lines.push(line.to_vec());
            }
            Ok(())
        })?;
        all_texts(b"az'-", 4, |line| {
            if kind_of_exception(line).1 {
                words.push(line.to_vec());
            }
            Ok(())
        })?;
        all_pairs(&lines, &mut of_patterns, |text, offset| {
            let answer = lab.check(text, b"")?;
            let bad = answer == 7 << 56 | offset as u64;
            demand(bad || answer == 9 << 56, || format!("{:#x}", answer))?;
            Ok(!bad)
        })?;
        let table = Packed::of_text(b"").table;
        all_pairs(&words, &mut of_exceptions, |text, offset| {
            let answer = lab.hyphenate(1, 1, b"q", b"", text, &table, 64)?;
            let bad = answer == 6 << 56 | 2 << 48 | offset as u64;
            demand(bad || answer >> 56 == 0, || format!("{:#x}", answer))?;
            Ok(!bad)
        })
    })?;
    of_patterns.all_met()?;
    of_exceptions.all_met()
}

/// The breaks of a room.
fn marked(room: &[u8]) -> Vec<u64> {
    (0..64).filter(|&gap| room[gap as usize] == 1).collect()
}

/// Those gaps of the nine letters of l'entrata that margins leave.
fn left_over(gaps: &[u64], left: u64, right: u64) -> Vec<u64> {
    let inside = |gap: &u64| *gap >= left && gap + right <= 9;
    gaps.iter().copied().filter(inside).collect()
}

/// The word that passes need: its levels, its lines and its margins, in which
/// the apostrophe counts as a letter.
pub fn entrata(run: &mut Run) -> Result<(), Mismatch> {
    let packed = Packed::of_text(b"a1t\nl1'\nn1t\n2'1e\n");
    run.once(|lab, _| {
        for word in [&b"l'entrata"[..], b"L'Entrata", b"L'ENTRATA"] {
            lab.levels(word, &packed.table, 64)?;
            demand(lab.room()[1..9] == [2, 1, 0, 1, 0, 0, 1, 0], || {
                "levels of l'entrata".to_string()
            })?;
            let line = lab.lookup(word, b"lentrata\nl-'-en-trata\n", b"")?;
            demand(line == 1 << 48 | 9 << 16 | 12, || format!("{:#x}", line))?;
            for left in 1..=10 {
                for right in 1..=10 {
                    one_entrata(lab, &packed, word, left, right)?;
                }
            }
        }
        // It isn't the word without it, nor with another one in its place.
        for word in [&b"lentrata"[..], b"l'entrat'a", b"le'ntrata", b"l'entrat"] {
            let line = lab.lookup(word, b"l'en-trata\n", b"l'en-trata\n")?;
            demand(line == 0, || format!("a line for {:?}", word))?;
        }
        for (word, place) in [
            (&b"l''entrata"[..], 1),
            (b"l'", 1),
            (b"'entrata", 0),
            (b"l'entrata'", 9),
            (b"l\xe2\x80\x99entrata", 1),
            (b"l' entrata", 1),
        ] {
            let answer = lab.levels(word, &packed.table, 64)?;
            demand(answer == 3 << 56 | place, || format!("{:?}", word))?;
        }
        real_elisions(lab)
    })
}

/// One pair of margins: by levels, by the customer's line, by the house's.
fn one_entrata(
    lab: &mut Lab,
    packed: &Packed,
    word: &[u8],
    left: u64,
    right: u64,
) -> Result<(), Mismatch> {
    let house = b"lentrata\nl-'-en-tra-ta\n";
    let customer = b"l'e-n-trata\nl'entrat\n";
    lab.word_by_list(&packed.list, word, &packed.table, (left, right))?;
    let cases: [(&[u8], &[u8], &[u64]); 3] = [
        (b"", b"", &[2, 4, 7]),
        (b"", house, &[1, 2, 4, 7]),
        (&customer[..12], house, &[3, 4]),
    ];
    for (customer, house, gaps) in cases {
        lab.hyphenate(left, right, word, customer, house, &packed.table, 64)?;
        let expected = left_over(gaps, left, right);
        demand(marked(lab.room()) == expected, || {
            format!("margins {}, {}: {:?}", left, right, lab.room())
        })?;
    }
    // These two lines don't ascend, as a beginning comes first.
    let answer = lab.hyphenate(left, right, word, customer, house, &packed.table, 64)?;
    demand(answer == 6 << 56 | 1 << 48 | 12, || {
        format!("{:#x}", answer)
    })
}

/// Elisions over the Italian list, which has no apostrophe itself.
fn real_elisions(lab: &mut Lab) -> Result<(), Mismatch> {
    let italian = Packed::of_text(&data("it.pat")?);
    for word in [
        &b"l'entrata"[..],
        b"dell'ingresso",
        b"all'uscita",
        b"quest'anno",
        b"un'altra",
        b"sull'autobus",
        b"d'accordo",
        b"po'po",
    ] {
        for margins in [(1, 1), (2, 2), (2, 3), (3, 2), (5, 5)] {
            lab.word_by_list(&italian.list, word, &italian.table, margins)?;
        }
    }
    Ok(())
}

/// Letters with an apostrophe at this place.
fn letters_but_one(length: usize, place: usize) -> Vec<u8> {
    let mut word: Vec<u8> = (0..length).map(|at| b'a' + at as u8 % 2).collect();
    word[place] = b'\'';
    word
}

/// Letters with an apostrophe at every second place.
fn every_second(length: usize) -> Vec<u8> {
    (0..length).map(|at| b"a'b'"[at % 4]).collect()
}

/// The line with a hyphen in every gap.
fn parted(word: &[u8]) -> Vec<u8> {
    let mut line: Vec<u8> = word.iter().flat_map(|&byte| [byte, b'-']).collect();
    line.pop();
    line
}

/// Words, exception lines and patterns around their limits, with apostrophes at
/// every place.
pub fn limits(run: &mut Run) -> Result<(), Mismatch> {
    let mut kinds = Kinds::new(&[
        "good word",
        "stray in a word",
        "long word",
        "long word with a stray",
        "good line",
        "stray in a line",
        "long line",
        "good pattern",
        "stray in a pattern",
        "long pattern",
    ]);
    run.once(|lab, _| {
        let table = Packed::of_text(ELISIONS).table;
        for length in WORD_LIMIT - 2..=WORD_LIMIT + 3 {
            let mut words: Vec<Vec<u8>> = (0..length)
                .map(|place| letters_but_one(length, place))
                .collect();
            words.push(every_second(length));
            for word in &words {
                long_word(lab, word, &table, &mut kinds)?;
                long_line(lab, word, &table, &mut kinds)?;
            }
        }
        for length in LONGEST - 2..=LONGEST + 2 {
            for place in 0..length {
                long_pattern(lab, &letters_but_one(length, place), &mut kinds)?;
            }
            long_pattern(lab, &every_second(length), &mut kinds)?;
        }
        Ok(())
    })?;
    kinds.all_met()
}

/// A word around the limit in the calls that take one.
fn long_word(lab: &mut Lab, word: &[u8], table: &[u8], kinds: &mut Kinds) -> Result<(), Mismatch> {
    let expected = match fault(word) {
        _ if word.len() > WORD_LIMIT => 4 << 56,
        Some(place) => 3 << 56 | place as u64,
        None => 0,
    };
    kinds.note(match (word.len() > WORD_LIMIT, fault(word).is_some()) {
        (true, true) => "long word with a stray",
        (true, false) => "long word",
        (false, true) => "stray in a word",
        (false, false) => "good word",
    });
    let line = [&word[..word.len().min(WORD_LIMIT - 1)], b"\n"].concat();
    for answer in [
        lab.levels(word, table, 64)?,
        lab.hyphenate(1, 1, word, b"", b"", table, 64)?,
        lab.hyphenate(2, 62, word, b"", b"a'b\n", table, 64)?,
    ] {
        let refusal = if answer >> 56 == 0 { 0 } else { answer };
        demand(refusal == expected, || {
            format!("{:?} gives {:#x}", word, answer)
        })?;
    }
    lab.lookup(word, &line, b"").map(drop)
}

/// The same letters as an exception line, with and without hyphens.
fn long_line(lab: &mut Lab, word: &[u8], table: &[u8], kinds: &mut Kinds) -> Result<(), Mismatch> {
    let good = word.len() <= WORD_LIMIT && fault(word).is_none();
    kinds.note(match fault(word) {
        _ if good => "good line",
        Some(_) => "stray in a line",
        None => "long line",
    });
    for line in [word.to_vec(), parted(word)] {
        let text = [b"a\n", &line[..], b"\nz'z\n"].concat();
        let answer = lab.hyphenate(1, 1, b"z'z", b"", &text, table, 64)?;
        let expected = if good { 0 } else { 6 << 56 | 2 << 48 | 2 };
        demand(answer == expected, || {
            format!("{:?} gives {:#x}", line, answer)
        })?;
        let found = lab.lookup(word, &text, b"")?;
        let expected = match good {
            true => 1 << 48 | 2 << 16 | line.len() as u64,
            false => 0,
        };
        demand(found == expected, || format!("line of {:?}", word))?;
    }
    Ok(())
}

/// The same letters as patterns, with a digit at every gap; then with an edge
/// on either side, which counts too.
fn long_pattern(lab: &mut Lab, letters: &[u8], kinds: &mut Kinds) -> Result<(), Mismatch> {
    let symbols: Vec<u8> = letters
        .iter()
        .map(|&byte| match byte {
            b'\'' => APOSTROPHE,
            _ => byte - b'a' + 1,
        })
        .collect();
    let edge = [EDGE];
    let behind_edge = [&edge[..], &symbols].concat();
    let before_edge = [&symbols[..], &edge].concat();
    for symbols in [symbols, behind_edge, before_edge] {
        let beside = |pair: &[u8]| pair == [EDGE, APOSTROPHE] || pair == [APOSTROPHE, EDGE];
        let stray = symbols.windows(2).any(beside);
        let long = symbols.len() > LONGEST;
        for gap in 1..symbols.len() {
            kinds.note(match (long, stray) {
                (true, _) => "long pattern",
                (_, true) => "stray in a pattern",
                _ => "good pattern",
            });
            let line = written(&symbols, gap);
            let good = judge_pattern(lab, &line, gap == 1)?;
            demand(good != (long || stray), || format!("{:?}", line))?;
        }
    }
    Ok(())
}

/// Symbols with a digit at this gap, also too many of them for a pattern.
fn written(symbols: &[u8], gap: usize) -> Vec<u8> {
    let mut line = Vec::new();
    for (place, &symbol) in symbols.iter().enumerate() {
        if place == gap {
            line.push(b'1');
        }
        line.push(write_symbol(symbol));
    }
    line
}
