//! Which break fits a line: widths of all shapes and at every edge, grounds,
//! rooms, and sums that another rule would give otherwise.

use super::Kinds;
use crate::run::{demand, Run};
use outside::fence::Place;
use outside::lab::{Lab, Mismatch};
use outside::make::gauges::{self, bad_width, put, BAD, HALF, PLACES};
use outside::make::sums::{Sums, OTHERWISE};
use outside::make::words;
use outside::reference::binary64::{above, add, below};
use outside::reference::gauge::{beginnings, Arithmetic, Compiled, Integers};
use outside::reference::text::read_word;
use outside::reference::{Gauge, APOSTROPHE, WIDTHS, WIDTH_LIMIT};
use outside::rng::Rng;
use tteolmigu::{any, raw, Exceptions, Fit, Ground, Margins};

const WHOLE: u64 = 1 << 32;
const BREAK: u64 = 2 << 32;
const NONE: u64 = 3 << 32;

/// All letters as wide as each other.
fn equal(hyphen: f64, line: f64, letters: f64) -> Gauge {
    Gauge {
        hyphen,
        line,
        letters: [letters; WIDTHS],
    }
}

/// Widths for a and b; the other letters have none.
fn two(hyphen: f64, line: f64, a: f64, b: f64) -> Gauge {
    let mut gauge = equal(hyphen, line, 0.0);
    gauge.letters[0] = a;
    gauge.letters[1] = b;
    gauge
}

/// A room with breaks at these gaps.
fn room_of(gaps: &[usize]) -> [u8; 64] {
    let mut room = [0; 64];
    for &gap in gaps {
        room[gap] = 1;
    }
    room
}

/// A call whose answer is known beforehand.
fn known(
    lab: &mut Lab,
    gauge: &Gauge,
    word: &[u8],
    room: &[u8],
    answer: u64,
) -> Result<(), Mismatch> {
    let ours = lab.fit(gauge, word, room)?;
    demand(ours == answer, || {
        format!("{:?} on {:?}: {:#x} for {:#x}", gauge, word, ours, answer)
    })
}

/// Good words and widths of all shapes. All that may come out must come out.
pub fn random(run: &mut Run) -> Result<(), Mismatch> {
    let mut outcomes = [0; 4];
    run.rounds(700_000, |lab, rng| {
        let word = gauges::word(rng);
        let mut gauge = gauges::gauge(rng);
        let room = gauges::room(rng, word.len());
        for _ in 0..3 {
            let answer = lab.fit(&gauge, &word, &room)?;
            demand(answer >> 40 == 0, || "a good word is refused".to_string())?;
            outcomes[(answer >> 32) as usize % 4] += 1;
            gauges::set_line(rng, &mut gauge, &word);
        }
        Ok(())
    })?;
    let all = outcomes[0] == 0 && outcomes[1..].iter().all(|&count| count > 0);
    demand(!run.is_whole() || all, || {
        format!("whole words, breaks and none: {:?}", outcomes)
    })
}

/// A word that has the letter whose width stands at this place of the 29, and
/// one that doesn't.
fn words_of_place(place: usize) -> [Vec<u8>; 2] {
    let without = if place == 2 + 13 { b"oo" } else { b"nn" };
    let with = match place {
        0 | 1 => b"aaa".to_vec(),
        _ if place + 1 == PLACES => b"n'n".to_vec(),
        _ => vec![b'a' + place as u8 - 2; 3],
    };
    [with, without.to_vec()]
}

/// Widths that are refused, at each of the 29 places alone, and the last ones
/// that aren't.
pub fn bad_widths(run: &mut Run) -> Result<(), Mismatch> {
    let room = room_of(&[1, 2]);
    let good = [
        0.0,
        -0.0,
        f64::from_bits(1),
        WIDTH_LIMIT,
        below(WIDTH_LIMIT),
    ];
    run.once(|lab, _| {
        for place in 0..PLACES {
            let [with, without] = words_of_place(place);
            for word in [with.to_ascii_uppercase(), with, without] {
                let word = &word[..];
                for bits in BAD {
                    let mut gauge = equal(0.25, 2.5, 1.0);
                    put(&mut gauge, place, f64::from_bits(bits));
                    known(lab, &gauge, word, &room, 13 << 56)?;
                }
                for width in good {
                    let mut gauge = equal(0.25, 2.5, 1.0);
                    put(&mut gauge, place, width);
                    let answer = lab.fit(&gauge, word, &room)?;
                    demand(answer >> 56 == 0, || {
                        format!("a width of {:?} is refused", width)
                    })?;
                }
            }
        }
        Ok(())
    })?;
    run.rounds(150_000, |lab, rng| {
        let word = gauges::word(rng);
        let mut gauge = gauges::gauge(rng);
        let room = gauges::room(rng, word.len());
        for _ in 0..rng.range(1, 3) {
            put(&mut gauge, rng.below(PLACES), bad_width(rng));
        }
        known(lab, &gauge, &word, &room, 13 << 56)
    })
}

/// The lines that tell most for a word: as wide as it, and as each beginning
/// with its hyphen, one double more and one less, by sums of integers.
fn lines_at_edges(gauge: &Gauge, symbols: &[u8]) -> Vec<f64> {
    let sums = beginnings::<Integers>(gauge, symbols);
    let whole = sums[symbols.len()];
    let mut lines = Vec::new();
    for edge in sums[1..symbols.len()]
        .iter()
        .map(|&sum| add(sum, gauge.hyphen))
        .chain([whole])
    {
        lines.extend([edge, above(edge)]);
        if edge > 0.0 {
            lines.push(below(edge));
        }
    }
    lines.retain(|&line| line <= WIDTH_LIMIT);
    lines
}

/// Lines at the edge of every comparison. Each of the other rules that one
/// could think of must show in some of them.
pub fn edges(run: &mut Run) -> Result<(), Mismatch> {
    let mut telling = [0u64; OTHERWISE.len()];
    run.rounds(15_000, |lab, rng| {
        let word = gauges::word(rng);
        let symbols = read_word(&word).expect("a good word");
        let mut gauge = gauges::gauge(rng);
        let room = gauges::room(rng, word.len());
        let others = OTHERWISE.map(|rule| Sums::new(rule, &gauge, &symbols));
        for line in lines_at_edges(&gauge, &symbols) {
            gauge.line = line;
            let answer = lab.fit(&gauge, &word, &room)?;
            for (count, other) in telling.iter_mut().zip(&others) {
                *count += u64::from(other.answer(&gauge, &room) != answer);
            }
        }
        Ok(())
    })?;
    let all = telling.iter().all(|&count| count > 0);
    demand(!run.is_whole() || all, || {
        format!("no case shows a rule of {:?}: {:?}", OTHERWISE, telling)
    })
}

/// Every set of faults that can come together: the first ground is told.
pub fn grounds(run: &mut Run) -> Result<(), Mismatch> {
    run.rounds(12_000, |lab, rng| {
        for faults in 0..1 << 5 {
            let has = |fault: u32| faults >> fault & 1 == 1;
            let (short, empty, long, bad_byte, bad) = (has(0), has(1), has(2), has(3), has(4));
            if empty && (long || bad_byte) {
                continue;
            }
            let length = match (empty, long) {
                (true, _) => 0,
                (_, true) => rng.range(64, 70),
                _ => rng.range(1, 63),
            };
            let mut word = words::good(rng, &[1, 2, 26], length);
            let place = rng.below(length.max(1));
            if bad_byte {
                word[place] = words::foreign(rng, place, length);
            }
            let mut gauge = gauges::gauge(rng);
            if bad {
                put(&mut gauge, rng.below(PLACES), bad_width(rng));
            }
            let mut room = gauges::room(rng, length.min(63));
            if short {
                room.truncate(*rng.pick(&[0, 1, 32, 62, 63]));
            }
            let answer = lab.fit(&gauge, &word, &room)?;
            let expected = match (short, empty, long, bad_byte, bad) {
                (true, ..) => 5 << 56,
                (_, true, ..) => 2 << 56,
                (_, _, true, ..) => 4 << 56,
                (_, _, _, true, _) => 3 << 56 | place as u64,
                (.., true) => 13 << 56,
                _ => answer & 0xff_ffff_ffff,
            };
            demand(answer == expected, || {
                format!("faults {:#b}: {:#x}", faults, answer)
            })?;
        }
        Ok(())
    })
}

/// Every byte at every place of a short word, every length of a word and every
/// size of a room.
pub fn bytes_and_sizes(run: &mut Run) -> Result<(), Mismatch> {
    let mut gauge = equal(0.3, 3.0, 0.7);
    for (letter, width) in gauge.letters.iter_mut().enumerate() {
        *width += letter as f64 / 10.0;
    }
    let mut bad = gauge;
    bad.letters[WIDTHS - 1] = f64::NAN;
    run.once(|lab, _| {
        for place in [Place::Middle(9), Place::End, Place::Start] {
            lab.lend_at(place);
            for byte in 0..=255 {
                for length in 1..=5 {
                    for at in 0..length {
                        let mut word = *b"ration";
                        word[at] = byte;
                        lab.fit(&gauge, &word[..length], &[1; 64])?;
                        lab.fit(&bad, &word[..length], &[1; 64])?;
                    }
                }
                // The same byte as a mark, alone and among all others.
                for gap in 0..=6 {
                    for others in 0..=1 {
                        let mut room = [others; 64];
                        room[gap] = byte;
                        lab.fit(&gauge, b"nation", &room)?;
                    }
                }
            }
            for length in 0..=70 {
                for size in 0..=70 {
                    for line in [0.0, 0.9, 20.0, 40.0, 1_000.0] {
                        gauge.line = line;
                        let word = [b'b'; 70];
                        lab.fit(&gauge, &word[..length], &[1; 70][..size])?;
                    }
                    lab.fit(&bad, &[b'b'; 70][..length], &[1; 70][..size])?;
                }
            }
            gauge.line = 3.0;
        }
        Ok(())
    })
}

/// What mustn't matter: which byte marks a break, bytes that aren't read, the
/// room's size, and capitals. What must: each break by itself.
pub fn marks(run: &mut Run) -> Result<(), Mismatch> {
    run.rounds(120_000, |lab, rng| {
        let word = gauges::word(rng);
        let mut gauge = gauges::gauge(rng);
        gauges::set_line(rng, &mut gauge, &word);
        let room = gauges::room(rng, word.len());
        let answer = lab.fit(&gauge, &word, &room)?;
        let mut other = gauges::room(rng, word.len());
        for gap in 1..word.len() {
            other[gap] = match room[gap] {
                0 => 0,
                _ => gauges::mark(rng),
            };
        }
        let same = lab.fit(&gauge, &word, &other)? == answer;
        demand(same, || format!("rooms {:?} and {:?}", room, other))?;
        for word in [word.to_ascii_lowercase(), word.to_ascii_uppercase()] {
            let same = lab.fit(&gauge, &word, &room)? == answer;
            demand(same, || format!("capitals in {:?}", word))?;
        }
        if answer >> 32 == BREAK >> 32 {
            // Without later breaks the same comes out; without itself not.
            let gap = answer as u32 as usize;
            let mut fewer = room;
            fewer[gap + 1..].fill(0);
            known(lab, &gauge, &word, &fewer, answer)?;
            fewer[gap] = 0;
            let earlier = lab.fit(&gauge, &word, &fewer)?;
            demand(earlier != answer, || format!("a break at {}", gap))?;
        }
        Ok(())
    })
}

/// Each width is read for its own letter and for no other, the 27th for the
/// apostrophe. The widths are powers of two, so that sums are exact.
pub fn apostrophe(run: &mut Run) -> Result<(), Mismatch> {
    let order = b"abcdefghijklmnopqrstuvwxyz'";
    let unit = 1.0 / (1u64 << 26) as f64;
    let mut kinds = Kinds::new(&[
        "apostrophe in the word",
        "no apostrophe in the word",
        "letter in the word",
        "letter not in the word",
    ]);
    run.rounds(12_000, |lab, rng| {
        let word = gauges::word(rng);
        let small = word.to_ascii_lowercase();
        let place_of = |byte: &u8| order.iter().position(|other| other == byte);
        let places: Vec<usize> = small.iter().filter_map(place_of).collect();
        let mut gauge = equal(0.0, 0.0, 0.0);
        for (place, width) in gauge.letters.iter_mut().enumerate() {
            *width = (1u64 << (26 - place)) as f64 * unit;
        }
        let sum: u64 = places.iter().map(|&place| 1 << (26 - place)).sum();
        gauge.line = sum as f64 * unit;
        let (all, none) = ([1; 64], [0; 64]);
        known(lab, &gauge, &word, &none, WHOLE)?;
        let narrow = Gauge {
            line: below(gauge.line),
            ..gauge
        };
        known(lab, &narrow, &word, &none, NONE)?;
        let last = match word.len() {
            1 => NONE,
            letters => BREAK | (letters as u64 - 1),
        };
        known(lab, &narrow, &word, &all, last)?;
        for (place, letter) in order.iter().enumerate() {
            let mut wider = gauge;
            wider.letters[place] += unit;
            let has = small.contains(letter);
            kinds.note(match (letter, has) {
                (b'\'', true) => "apostrophe in the word",
                (b'\'', false) => "no apostrophe in the word",
                (_, true) => "letter in the word",
                (_, false) => "letter not in the word",
            });
            let answer = if has { NONE } else { WHOLE };
            known(lab, &wider, &word, &none, answer)?;
            wider.letters[place] = bad_width(rng);
            known(lab, &wider, &word, &none, 13 << 56)?;
        }
        Ok(())
    })?;
    kinds.all_met_if(run.is_whole())
}

/// Sums by hand.
pub fn figures(run: &mut Run) -> Result<(), Mismatch> {
    run.once(|lab, _| {
        let all: Vec<usize> = (0..64).collect();
        let (all, none) = (room_of(&all), room_of(&[]));

        // Ten tenths make the double right below 1.
        let ten = b"hyphenates";
        let under = below(1.0);
        known(lab, &equal(0.0, 1.0, 0.1), ten, &none, WHOLE)?;
        known(lab, &equal(0.0, under, 0.1), ten, &none, WHOLE)?;
        known(lab, &equal(0.0, below(under), 0.1), ten, &none, NONE)?;
        known(lab, &equal(0.0, below(under), 0.1), ten, &all, BREAK | 9)?;
        // Three make the one right above 0.3, also where a hyphen is the third.
        known(lab, &equal(0.0, 0.3, 0.1), b"one", &none, NONE)?;
        known(lab, &equal(0.0, above(0.3), 0.1), b"one", &none, WHOLE)?;
        known(lab, &equal(0.1, 0.3, 0.1), b"tens", &all, BREAK | 1)?;
        known(lab, &equal(0.1, above(0.3), 0.1), b"tens", &all, BREAK | 2)?;

        // Halves of the last place of 1 vanish behind it one by one, and
        // count before it.
        let (over, less) = (above(1.0), below(1.0));
        known(lab, &two(0.0, 1.0, 1.0, HALF), b"abb", &none, WHOLE)?;
        known(lab, &two(0.0, less, 1.0, HALF), b"abb", &none, NONE)?;
        known(lab, &two(0.0, 1.0, 1.0, HALF), b"bba", &none, NONE)?;
        known(lab, &two(0.0, over, 1.0, HALF), b"bba", &none, WHOLE)?;
        // So does a hyphen of this width, which is added last.
        known(lab, &two(HALF, 1.0, 1.0, HALF), b"aab", &all, BREAK | 1)?;
        known(lab, &two(HALF, 1.0, HALF, 1.0), b"abb", &all, BREAK | 2)?;
        known(lab, &two(HALF, less, HALF, 1.0), b"abb", &all, BREAK | 1)?;
        known(lab, &two(HALF, 1.0, HALF, 1.0), b"aabb", &all, BREAK | 2)?;
        known(lab, &two(HALF, over, HALF, 1.0), b"aabb", &all, BREAK | 2)?;
        known(
            lab,
            &two(HALF, above(over), HALF, 1.0),
            b"aabb",
            &all,
            BREAK | 3,
        )?;
        // A tie goes to the even neighbour, up as well as down.
        known(lab, &two(0.0, over, over, HALF), b"ab", &none, NONE)?;
        known(lab, &two(0.0, above(over), over, HALF), b"ab", &none, WHOLE)?;
        // A little more than a half is a whole place; rounded to 64 bits
        // first, it would be no more than a half.
        let bit = HALF / 2_048.0;
        known(lab, &two(0.0, 1.0, 1.0, above(HALF)), b"ab", &none, NONE)?;
        known(lab, &two(0.0, 1.0, 1.0, HALF + bit), b"ab", &none, NONE)?;
        known(lab, &two(0.0, over, 1.0, HALF + bit), b"ab", &none, WHOLE)?;

        // The whole word fits, but no break does with its hyphen.
        known(lab, &equal(9.0, 3.0, 1.0), b"one", &all, WHOLE)?;
        known(lab, &equal(9.0, below(3.0), 1.0), b"one", &all, NONE)?;
        // Nothing has a width, or only letters, or only the hyphen.
        for zero in [0.0, -0.0] {
            known(lab, &equal(zero, -zero, zero), b"one", &all, WHOLE)?;
            known(
                lab,
                &equal(zero, zero, f64::from_bits(1)),
                b"one",
                &all,
                NONE,
            )?;
            known(lab, &two(zero, -zero, zero, 1.0), b"ab", &all, BREAK | 1)?;
            known(lab, &two(1.0, zero, zero, 1.0), b"ab", &all, NONE)?;
        }
        // The smallest numbers count each.
        let least = f64::from_bits(1);
        let three = f64::from_bits(3);
        known(lab, &equal(least, three, least), b"one", &all, WHOLE)?;
        known(lab, &equal(least, three, least), b"ones", &all, BREAK | 2)?;
        known(lab, &equal(0.0, three, least), b"ones", &all, BREAK | 3)?;
        // A letter alone has no break.
        known(lab, &equal(0.0, 1.0, 1.0), b"A", &all, WHOLE)?;
        known(lab, &equal(0.0, less, 1.0), b"A", &all, NONE)?;
        // The greatest widths: sums may pass the limit of a single one.
        let most = equal(0.0, WIDTH_LIMIT, WIDTH_LIMIT);
        known(lab, &most, &[b'z'; 63], &all, BREAK | 1)?;
        known(lab, &most, b"z", &all, WHOLE)?;
        let (word, line) = ([b'm'; 63], equal(1.0, 62.5, 1.0));
        known(lab, &line, &word, &all, BREAK | 61)?;
        known(lab, &equal(0.5, 62.5, 1.0), &word, &all, BREAK | 62)?;
        known(lab, &line, &word, &room_of(&[0, 62, 63]), NONE)?;
        known(lab, &equal(0.0, 63.0, 1.0), &word, &none, WHOLE)
    })
}

/// The safe function says what the 64 bits say, with the breaks that the
/// hyphenating call gives.
pub fn wrapper(run: &mut Run) -> Result<(), Mismatch> {
    // Every gap of "a" and "b" is a break of level 1.
    let table = super::Packed::of_text(b"1a\n1b\n").table;
    run.rounds(100_000, |lab, rng| {
        let length = words::length(rng);
        let mut word = words::good(rng, &[1, 2, 3, APOSTROPHE], length);
        let right = rng.range(1, 4) as u64;
        let margins = Margins::new(1, right).expect("a good margin");
        let lists = Exceptions::NONE;
        let breaks = any::hyphenate(margins, &word, lists, &table).expect("a good word");
        lab.hyphenate(1, right, &word, b"", b"", &table, 64)?;
        let room = lab.room().to_vec();
        let mut gauge = gauges::gauge(rng);
        gauges::set_line(rng, &mut gauge, &word);
        match rng.below(6) {
            0 => put(&mut gauge, rng.below(PLACES), bad_width(rng)),
            1 => word = words::bad(rng, &[1, 2]),
            // The breaks of another word.
            2 => word = gauges::word(rng),
            _ => (),
        }
        let answer = lab.fit(&gauge, &word, &room)?;
        let safe = tteolmigu::Gauge {
            hyphen: gauge.hyphen,
            line: gauge.line,
        };
        let found = safe.fit(&gauge.letters, &word, breaks);
        demand(bits_of(found) == answer, || {
            format!("{:?} for {:#x}", found, answer)
        })?;
        // One text lent as word and as room is allowed, since nothing writes
        // to it: all its gaps are breaks.
        let text = words::good(rng, &[1, 2, 3], 64);
        let word = &text[..rng.range(1, 63)];
        let answer = raw::fit(gauge.hyphen, gauge.line, &gauge.letters, word, &text);
        let theirs = outside::reference::fit_line(&gauge, word, &text);
        demand(answer == theirs, || {
            format!("a word lent as room too: {:?} {:?}", gauge, word)
        })
    })
}

/// A wrapper's result, put together again as bits.
fn bits_of(found: Result<Fit, Ground>) -> u64 {
    match found {
        Ok(Fit::Whole) => WHOLE,
        Ok(Fit::Break(gap)) => BREAK | gap as u64,
        Ok(Fit::None) => NONE,
        Err(ground) => (ground.number() as u64) << 56 | ground.place(),
    }
}

/// Additions as this program is compiled, and those of integers, far beyond
/// what widths need: with signs, infinities and what is no number.
pub fn additions(run: &mut Run) -> Result<(), Mismatch> {
    run.rounds(1_000_000, |lab, rng| {
        let (left, right) = any_two(rng);
        let (ours, theirs) = (Compiled::add(left, right), Integers::add(left, right));
        lab.count_one();
        let same = ours.to_bits() == theirs.to_bits() || (ours.is_nan() && theirs.is_nan());
        let compared = Compiled::at_most(left, right) == Integers::at_most(left, right);
        demand(same && compared, || {
            let (left, right) = (left.to_bits(), right.to_bits());
            format!("{:#x} + {:#x}: {:?}, {:?}", left, right, ours, theirs)
        })
    })
}

/// Two doubles: any, or close to each other, or some places apart.
fn any_two(rng: &mut Rng) -> (f64, f64) {
    let left = match rng.below(4) {
        0 => {
            let shape = *rng.pick(&gauges::SHAPES);
            gauges::width(rng, shape).to_bits()
        }
        1 => rng.bits() & 0x800f_ffff_ffff_ffff,
        _ => rng.bits(),
    };
    let right = match rng.below(4) {
        0 => rng.bits(),
        1 => left ^ (rng.bits() >> rng.below(64)) ^ (rng.bits() << 63),
        2 => left.wrapping_sub(((rng.below(140) as u64) << 52) + rng.bits() % 3),
        _ => *rng.pick(&BAD),
    };
    (f64::from_bits(left), f64::from_bits(right))
}
