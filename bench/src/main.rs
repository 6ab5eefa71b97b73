//! Measures the library beside independent Rust in one run.
//!
//! Usage: bench [--words FILE] [--rounds N] [--count CASE SIDE]
//!
//! Three sides do the same work on the same bytes in alternating rounds: the
//! library, a hand-written Rust version, and the plain reference. Before any
//! clock starts, all answers and rooms of library and hand-written version are
//! compared. A ratio is the library's time over another side's, the first the
//! median of the rounds' ratios.
//!
//! With --count one side does one case once, over fewer of the same words, for
//! callgrind to count its instructions.

mod archive;
mod handmade;

use outside::make::{affixes, damage, exceptions, gauges, lists, random, words};
use outside::reference::text::{read_patterns, write_patterns};
use outside::reference::{self, Gauge, Pattern, Seen, APOSTROPHE, PACK_ROOM, WIDTHS};
use outside::rng::Rng;
use std::time::Instant;
use tteolmigu::raw;

/// How many words are made if no file is given.
const WORDS: usize = 200_000;
/// How many of the words are done where instructions are counted.
const COUNTED: usize = 10_000;
/// One in so many words goes over the full exception list, which is slow.
const FEW: usize = 10;
/// The reference, which is slow too, runs in one of so many rounds.
const SELDOM: usize = 10;
/// The seed of the words' order.
const SEED: u64 = 1_983;

/// The hyphenating call, whoever made it.
type Hyphenate = fn(u64, u64, &[u8], &[u8], &[u8], &[u8], &mut [u8]) -> u64;

/// One side's way to do a piece of work; the sum of the answers comes back.
type Work<'a> = Box<dyn FnMut() -> u64 + 'a>;

/// The names of the sides, in the order in which they are shown.
const SIDES: [&str; 3] = ["library", "handmade", "reference"];

/// A piece of work with each side's way to do it.
struct Case<'a> {
    name: &'static str,
    /// How many words are done, or nothing for a single call.
    words: Option<usize>,
    sides: [Work<'a>; 3],
}

/// What was seen of a case: the median of the rounds' ratios of the library to
/// the hand-written version, and the best seconds of each side.
struct Found {
    ratio: f64,
    best: [f64; 3],
}

/// The seconds of one side's work, and the sum of its answers.
fn clock(work: &mut Work<'_>) -> (f64, u64) {
    let start = Instant::now();
    let sum = work();
    (start.elapsed().as_secs_f64(), sum)
}

/// Runs library and hand-written version in turn; each goes first in every
/// other round, so that neither always finds the caches warm. A machine that is
/// slow for a while is so for both sides of a round, and the median of the
/// rounds' ratios hardly moves. The reference runs in one of some rounds.
fn measure(rounds: usize, sides: &mut [Work<'_>; 3]) -> Found {
    let [library, handmade, reference] = sides;
    let mut ratios = Vec::new();
    let mut best = [f64::INFINITY; 3];
    for round in 0..rounds {
        let (ours, theirs) = if round % 2 == 0 {
            let ours = clock(library);
            (ours, clock(handmade))
        } else {
            let theirs = clock(handmade);
            (clock(library), theirs)
        };
        // This also keeps the compiler from leaving work out.
        assert!(ours.1 == theirs.1, "answers differ");
        ratios.push(ours.0 / theirs.0);
        best[0] = best[0].min(ours.0);
        best[1] = best[1].min(theirs.0);
        if round % SELDOM == 0 {
            let plain = clock(reference);
            assert!(ours.1 == plain.1, "answers differ");
            best[2] = best[2].min(plain.0);
        }
    }
    ratios.sort_by(|one, other| one.total_cmp(other));
    Found {
        ratio: ratios[ratios.len() / 2],
        best,
    }
}

/// Shows a case, the ratios first.
fn show(case: &Case<'_>, found: &Found) {
    let figure = |seconds: f64| match case.words {
        Some(words) => format!("{:.0} words/s", words as f64 / seconds),
        None => format!("{:.3} ms", seconds * 1e3),
    };
    let [library, handmade, reference] = found.best;
    println!(
        "{:>10.2} {:>10.2} {:>9.2}  {:<24} {:>17} {:>17} {:>17}",
        found.ratio,
        library / handmade,
        library / reference,
        case.name,
        figure(library),
        figure(handmade),
        figure(reference)
    );
}

/// One side's work, under a name that callgrind is told to collect.
#[no_mangle]
#[inline(never)]
pub extern "C" fn bench_counted(work: &mut Work<'_>) -> u64 {
    work()
}

/// Does one side's work once and tells over how many words or calls.
fn count(case: &mut Case<'_>, side: &str) {
    let known = SIDES.iter().position(|&name| name == side);
    let place = known.unwrap_or_else(|| panic!("{} isn't a side", side));
    bench_counted(&mut case.sides[place]);
    println!("{} counted", case.words.unwrap_or(1));
}

/// Words of ordinary length, put together from pieces of the patterns.
fn make_words(list: &[Pattern]) -> Vec<Vec<u8>> {
    let mut rng = Rng::new(SEED);
    let letters: Vec<u8> = (1..=26).collect();
    let mut made = Vec::with_capacity(WORDS);
    while made.len() < WORDS {
        let mut word = words::from_patterns(&mut rng, list, &letters);
        word.truncate(rng.range(3, 14));
        made.push(word);
    }
    made
}

/// The lines of a file in an order that no processor can foresee.
fn read_words(name: &str) -> Vec<Vec<u8>> {
    let text = std::fs::read(name).unwrap_or_else(|why| panic!("{}: {}", name, why));
    let mut lines: Vec<Vec<u8>> = text.split(|&b| b == b'\n').map(|l| l.to_vec()).collect();
    if lines.last().map_or(false, |line| line.is_empty()) {
        lines.pop();
    }
    Rng::new(SEED).shuffle(&mut lines);
    lines
}

/// Adds up the answers for all words.
fn sum(words: &[Vec<u8>], mut call: impl FnMut(&[u8]) -> u64) -> u64 {
    let add = |sum: u64, word: &Vec<u8>| sum.wrapping_mul(31).wrapping_add(call(word));
    words.iter().fold(0, add)
}

/// Demands equal answers and rooms of library and hand-written version.
fn compare(words: &[Vec<u8>], house: &[u8], text: &[u8], table: &[u8]) {
    for word in words {
        let (mut ours, mut theirs) = ([7; 66], [7; 66]);
        let one = raw::hyphenate(2, 3, word, b"", house, table, &mut ours);
        let other = handmade::hyphenate(2, 3, word, b"", house, table, &mut theirs);
        assert!(one == other && ours == theirs, "hyphenate {:?}", word);
        let one = raw::levels(word, table, &mut ours);
        let other = handmade::levels(word, table, &mut theirs);
        assert!(one == other && ours == theirs, "levels {:?}", word);
    }
    let (mut ours, mut theirs) = (vec![7; PACK_ROOM + 2], vec![7; PACK_ROOM + 2]);
    let one = raw::pack(text, &mut ours);
    let other = handmade::pack(text, &mut theirs);
    assert!(one == other && ours == theirs, "pack");
    let mut rng = Rng::new(7);
    for round in 0..300 {
        let mut changed = table.to_vec();
        if round > 0 {
            let place = rng.below(changed.len());
            changed[place] ^= 1 << rng.below(8);
        }
        let one = raw::check(text, &changed);
        assert!(
            one == handmade::check(text, &changed),
            "check, round {}",
            round
        );
    }
}

/// Demands that the hand-written version refuses and answers like the
/// reference on random small cases, so that it does the whole job.
fn compare_random(rounds: usize) {
    let mut rng = Rng::new(1_962);
    let (mut ours, mut theirs) = (vec![7; PACK_ROOM + 1], vec![7; PACK_ROOM + 1]);
    for round in 0..rounds {
        let shape = lists::Shape::any(&mut rng);
        let list = lists::good(&mut rng, &shape);
        let text = if rng.once_in(3) {
            lists::bad(&mut rng, &list)
        } else {
            write_patterns(&list)
        };
        let one = handmade::pack(&text, &mut ours);
        let other = reference::pack(&text, &mut theirs);
        assert!(one == other && ours == theirs, "pack, round {}", round);
        let mut table = match one >> 56 {
            0 => ours[..one as usize].to_vec(),
            _ => random::table(&mut rng, 3),
        };
        match rng.below(4) {
            0 => damage::damage_head(&mut rng, &mut table),
            1 | 2 => damage::damage(&mut rng, &mut table),
            _ => (),
        }
        let one = handmade::check(&text, &table);
        assert!(
            one == reference::check(&text, &table),
            "check, round {}",
            round
        );
        compare_word(&mut rng, &shape.alphabet, &list, &table, round);
    }
}

/// The calls on one word for `compare_random`.
fn compare_word(rng: &mut Rng, letters: &[u8], list: &[Pattern], table: &[u8], round: usize) {
    let word = if rng.once_in(4) {
        words::bad(rng, letters)
    } else {
        words::from_patterns(rng, list, letters)
    };
    let wanted: Vec<Vec<u8>> = match reference::text::read_word(&word) {
        Ok(_) => vec![word.clone()],
        Err(_) => Vec::new(),
    };
    let size = rng.range(0, 9);
    let mut customer = exceptions::good(rng, letters, size);
    let mut house = exceptions::with_words(rng, letters, size, &wanted);
    if rng.once_in(3) {
        customer = exceptions::bad(rng, &house);
    }
    if rng.once_in(3) {
        house = exceptions::bad(rng, &house);
    }
    let margin = |rng: &mut Rng| *rng.pick(&[1, 2, 3, 63, 0, 64]);
    let (left, right) = (margin(rng), margin(rng));
    let size = *rng.pick(&[63, 64, 70, 70]);
    let (mut ours, mut theirs) = (vec![7; size], vec![7; size]);
    let one = handmade::hyphenate(left, right, &word, &customer, &house, table, &mut ours);
    let other = reference::hyphenate(left, right, &word, &customer, &house, table, &mut theirs);
    assert!(one == other && ours == theirs, "hyphenate, round {}", round);
    let one = handmade::levels(&word, table, &mut ours);
    let other = reference::levels(&word, table, &mut theirs);
    assert!(one == other && ours == theirs, "levels, round {}", round);
}

/// Widths like those of a small print: letters of 1 to 3 mm, a hyphen of 1.2,
/// and a line that some words fit whole, some by a break, and some not.
fn small_print() -> Gauge {
    let mut rng = Rng::new(44);
    let mut gauge = Gauge {
        hyphen: 1.2,
        line: 14.3,
        letters: [0.0; WIDTHS],
    };
    for letter in &mut gauge.letters {
        *letter = rng.range(10, 30) as f64 / 10.0;
    }
    gauge
}

/// Demands equal answers of all three sides on widths, for the words with their
/// breaks, and on random widths, good and bad.
fn compare_widths(words: &[Vec<u8>], rooms: &[[u8; 64]]) {
    let mut rng = Rng::new(1_980);
    for (word, room) in words.iter().zip(rooms) {
        let mut gauge = match rng.below(4) {
            0 => gauges::gauge(&mut rng),
            _ => small_print(),
        };
        if rng.once_in(8) {
            let place = rng.below(gauges::PLACES);
            gauges::put(&mut gauge, place, gauges::bad_width(&mut rng));
        }
        let room = &room[..64 - rng.below(60) / 59];
        let one = raw::fit(gauge.hyphen, gauge.line, &gauge.letters, word, room);
        let other = handmade::fit(gauge.hyphen, gauge.line, &gauge.letters, word, room);
        let plain = reference::fit_line(&gauge, word, room);
        assert!(one == other && one == plain, "fit {:?} {:?}", gauge, word);
    }
}

/// The call on widths over all words, each with its breaks.
fn fit<'a>(words: &'a [Vec<u8>], rooms: &'a [[u8; 64]]) -> Case<'a> {
    let side = |call: fn(&Gauge, &[u8], &[u8]) -> u64| -> Work<'a> {
        let gauge = small_print();
        Box::new(move || {
            let mut next = rooms.iter();
            sum(words, |word| {
                call(&gauge, word, next.next().expect("a room for each word"))
            })
        })
    };
    Case {
        name: "fit",
        words: Some(words.len()),
        sides: [
            side(|gauge, word, room| {
                raw::fit(gauge.hyphen, gauge.line, &gauge.letters, word, room)
            }),
            side(|gauge, word, room| {
                handmade::fit(gauge.hyphen, gauge.line, &gauge.letters, word, room)
            }),
            side(reference::fit_line),
        ],
    }
}

/// Demands equal answers and rooms of all three sides of the machine of 1980.
fn compare_archive(words: &[Vec<u8>]) {
    let mut rng = Rng::new(2_004);
    let made = (0..200_000).map(|_| affixes::any(&mut rng));
    let all: Vec<Vec<u8>> = words.iter().cloned().chain(made).collect();
    for word in &all {
        let mut rooms = [[7; 64]; 3];
        let [ours, hand, plain] = &mut rooms;
        let one = raw::archive(word, ours);
        let other = archive::archive(word, hand);
        let clear = reference::archive(word, plain, &mut Seen::default());
        assert!(one == other && one == clear, "1980 {:?}", word);
        assert!(
            rooms[0] == rooms[1] && rooms[0] == rooms[2],
            "1980 {:?}",
            word
        );
    }
}

/// The machine of 1980 over all words.
fn reprint(words: &[Vec<u8>]) -> Case<'_> {
    let side = |call: fn(&[u8], &mut [u8]) -> u64| -> Work<'_> {
        Box::new(move || {
            let mut room = [0; 64];
            sum(words, |word| call(word, &mut room))
        })
    };
    Case {
        name: "1980",
        words: Some(words.len()),
        sides: [
            side(raw::archive),
            side(archive::archive),
            side(|word, room| reference::archive(word, room, &mut Seen::default())),
        ],
    }
}

/// The hyphenating call over all words.
fn hyphenate<'a>(
    name: &'static str,
    words: &'a [Vec<u8>],
    house: &'a [u8],
    table: &'a [u8],
) -> Case<'a> {
    let side = |call: Hyphenate| -> Work<'a> {
        Box::new(move || {
            let mut room = [0; 64];
            sum(words, |word| call(2, 3, word, b"", house, table, &mut room))
        })
    };
    Case {
        name,
        words: Some(words.len()),
        sides: [
            side(raw::hyphenate),
            side(handmade::hyphenate),
            side(reference::hyphenate),
        ],
    }
}

/// The levels call over all words.
fn levels<'a>(words: &'a [Vec<u8>], table: &'a [u8]) -> Case<'a> {
    let side = |call: fn(&[u8], &[u8], &mut [u8]) -> u64| -> Work<'a> {
        Box::new(move || {
            let mut room = [0; 64];
            sum(words, |word| call(word, table, &mut room))
        })
    };
    Case {
        name: "levels",
        words: Some(words.len()),
        sides: [
            side(raw::levels),
            side(handmade::levels),
            side(reference::levels),
        ],
    }
}

/// Packing one list.
fn pack(text: &[u8]) -> Case<'_> {
    let side = |call: fn(&[u8], &mut [u8]) -> u64| -> Work<'_> {
        let mut room = vec![0; PACK_ROOM];
        Box::new(move || call(text, &mut room))
    };
    Case {
        name: "pack",
        words: None,
        sides: [side(raw::pack), side(handmade::pack), side(reference::pack)],
    }
}

/// Checking one table.
fn check<'a>(text: &'a [u8], table: &'a [u8]) -> Case<'a> {
    let side = |call: fn(&[u8], &[u8]) -> u64| -> Work<'a> { Box::new(move || call(text, table)) };
    Case {
        name: "check",
        words: None,
        sides: [
            side(raw::check),
            side(handmade::check),
            side(reference::check),
        ],
    }
}

fn main() {
    let mut file = None;
    let mut rounds = 51;
    let mut counted = None;
    let mut arguments = std::env::args().skip(1);
    while let Some(name) = arguments.next() {
        let mut value = || arguments.next().expect("each option has its values");
        match name.as_str() {
            "--words" => file = Some(value()),
            "--rounds" => rounds = value().parse().expect("a number of rounds"),
            "--count" => counted = Some((value(), value())),
            _ => panic!("{} isn't known; --words, --rounds, --count", name),
        }
    }
    let text = outside::data("en-us.pat").expect("data/en-us.pat");
    let house = outside::data("en-us.exc").expect("data/en-us.exc");
    let list = read_patterns(&text).expect("a good list");
    let mut words = match &file {
        Some(name) => read_words(name),
        None => make_words(&list),
    };
    if counted.is_some() {
        words.truncate(COUNTED);
    }
    let few = &words[..(words.len() + FEW - 1) / FEW];
    let mut letters: Vec<u8> = (1..=25).collect();
    let full = exceptions::exact(&mut Rng::new(8_192), &letters, 8_192);
    letters.push(APOSTROPHE);
    let elided = exceptions::exact(&mut Rng::new(8_192), &letters, 8_192);
    let mut table = vec![0; PACK_ROOM];
    let length = raw::pack(&text, &mut table);
    assert!(length >> 56 == 0, "the list isn't packed");
    table.truncate(length as usize);

    let mut rooms = vec![[0; 64]; words.len()];
    for (word, room) in words.iter().zip(&mut rooms) {
        raw::hyphenate(2, 3, word, b"", b"", &table, room);
    }

    let mut cases = [
        levels(&words, &table),
        hyphenate("hyphenate, empty lists", &words, b"", &table),
        hyphenate("hyphenate, en-us.exc", &words, &house, &table),
        hyphenate("hyphenate, 8,192 bytes", few, &full, &table),
        hyphenate("hyphenate, apostrophes", few, &elided, &table),
        pack(&text),
        check(&text, &table),
        fit(&words, &rooms),
        reprint(&words),
    ];
    if let Some((name, side)) = counted {
        let case = cases.iter_mut().find(|case| case.name == name);
        return count(case.expect("a case"), &side);
    }

    compare_random(40_000);
    compare(&words, &house, &text, &table);
    compare(few, &full, &text, &table);
    compare(few, &elided, &text, &table);
    compare_widths(&words, &rooms);
    compare_archive(&words);
    println!("{} words, {} rounds, answers agree", words.len(), rounds);
    println!(
        "{:>10} {:>10} {:>9}  {:<24} {:>17} {:>17} {:>17}",
        "time/hand", "best/best", "best/ref", "best times", SIDES[0], SIDES[1], SIDES[2]
    );
    for case in &mut cases {
        let found = measure(rounds, &mut case.sides);
        show(case, &found);
    }
}
