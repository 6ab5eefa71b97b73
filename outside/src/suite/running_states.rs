//! The state of a running text, whatever bytes it has; totals around their
//! bounds; rooms of all sizes; the order of refusals; and figures by hand.

use super::running::{everywhere, only};
use super::{Kinds, Packed, NINE};
use crate::run::{demand, Run};
use outside::fence::Place;
use outside::lab::{Lab, Mismatch};
use outside::make::{damage, exceptions, random, running as make, words};
use outside::reference::running::{least_room, Open, State};
use outside::reference::{
    Given, APOSTROPHE, EXCEPTION_TEXT_LIMIT, ROOM_PER_BYTE, RUNNING_TEXT, STATE, WORD_LIMIT,
};
use outside::rng::Rng;
use tteolmigu::{raw, Ground};

/// The state with something open.
fn state(open: Open, total: usize) -> [u8; STATE] {
    State { open, total }.bytes()
}

/// A word held.
fn word(held: &[u8]) -> Open {
    Open::Word(held.to_vec())
}

/// What may be open, with the longest words too.
fn opens() -> Vec<Open> {
    let longest = vec![b'y'; WORD_LIMIT];
    vec![
        Open::Nothing,
        word(b"a"),
        word(b"a'"),
        word(b"l'E"),
        word(b"l'E'"),
        word(&longest[1..]),
        word(&[&longest[1..], b"'"].concat()),
        word(&longest),
        word(&[&longest[..], b"'"].concat()),
        Open::Run { apostrophe: false },
        Open::Run { apostrophe: true },
    ]
}

/// Whether bytes are a state that can be left.
fn can_be_left(bytes: &[u8; STATE]) -> bool {
    State::read(bytes).bytes() == *bytes
}

/// A piece and the end over some bytes as a state, with rooms that suffice.
fn both_calls(
    lab: &mut Lab,
    given: &Given<'_>,
    bytes: &[u8; STATE],
    piece: &[u8],
) -> Result<(), Mismatch> {
    let mut state = *bytes;
    let least = least_room(bytes, piece.len());
    lab.piece(&mut state, given, piece, least)?;
    let mut state = *bytes;
    let answer = lab.end(&mut state, given, least_room(bytes, 0))?;
    demand(answer >> 56 == 0 && state == [0; STATE], || {
        format!("the end gives {:#x}", answer)
    })
}

/// Every byte at every place of states of every kind.
pub fn every_byte(run: &mut Run) -> Result<(), Mismatch> {
    let table = everywhere().table;
    let mut kinds = Kinds::new(&["can be left", "can't be left"]);
    run.once(|lab, rng| {
        for open in opens() {
            let total = open.text().len() + 1;
            for place in 0..STATE {
                lab.settle(rng);
                for byte in 0..=255 {
                    let mut bytes = state(open.clone(), total);
                    bytes[place] = byte;
                    kinds.note(match can_be_left(&bytes) {
                        true => "can be left",
                        false => "can't be left",
                    });
                    both_calls(lab, &only(&table), &bytes, b"'b ")?;
                }
            }
        }
        Ok(())
    })?;
    kinds.all_met()
}

/// Held bytes of every length up to the most, alone and with apostrophes or a
/// digit at each place; and every number that may be told of them.
pub fn lengths(run: &mut Run) -> Result<(), Mismatch> {
    let table = everywhere().table;
    run.once(|lab, rng| {
        for length in 0..=WORD_LIMIT + 1 {
            lab.settle(rng);
            let mut bytes = [0; STATE];
            bytes[8..8 + length].fill(b'Q');
            bytes[0] = length as u8;
            bytes[5] = length as u8;
            for place in 0..=length {
                for odd in [&b"'"[..], b"''", b"'Q'", b"1", b"\0"] {
                    let mut other = bytes;
                    let held = other[8 + place..8 + length].iter_mut();
                    held.zip(odd).for_each(|(to, &byte)| *to = byte);
                    both_calls(lab, &only(&table), &other, b"q'")?;
                }
            }
            for told in 0..=255 {
                bytes[0] = told;
                bytes[4] = 1;
                both_calls(lab, &only(&table), &bytes, b"''")?;
            }
        }
        Ok(())
    })
}

/// States that were left, that nearly could be, and bytes of any kind; a text
/// goes on from each.
pub fn any_states(run: &mut Run) -> Result<(), Mismatch> {
    let table = everywhere().table;
    let mut kinds = Kinds::new(&[
        "left, answered",
        "left, short room",
        "left, too long",
        "not left, answered",
        "not left, short room",
    ]);
    run.rounds(80_000, |lab, rng| {
        let bytes = match rng.below(4) {
            0 | 1 => make::near_state(rng),
            2 => make::state(rng),
            _ => make::any_state(rng),
        };
        let piece = match rng.below(8) {
            0 => make::run(rng),
            _ => {
                let length = rng.range(0, 5);
                make::short(rng, length)
            }
        };
        let mut state = bytes;
        let size = any_size(rng, &bytes, piece.len());
        let answer = lab.piece(&mut state, &only(&table), &piece, size)?;
        kinds.note(match (can_be_left(&bytes), answer >> 56) {
            (true, 0) => "left, answered",
            (true, 14) => "left, short room",
            (true, _) => "left, too long",
            (false, 0) => "not left, answered",
            (false, _) => "not left, short room",
        });
        let least = least_room(&state, 2);
        lab.piece(&mut state, &only(&table), b"a'", least)?;
        let mut state = bytes;
        let size = any_size(rng, &bytes, 0);
        lab.end(&mut state, &only(&table), size)?;
        Ok(())
    })?;
    kinds.all_met_if(run.is_whole())
}

/// A room for so many bytes: just enough, a byte less, more, or what the first
/// byte of the state would ask for.
fn any_size(rng: &mut Rng, bytes: &[u8; STATE], piece: usize) -> usize {
    let least = least_room(bytes, piece);
    let told = ROOM_PER_BYTE * (bytes[0] as usize + piece);
    *rng.pick(&[
        least,
        least,
        least + 1,
        least + 9,
        least.max(1) - 1,
        0,
        told,
        told.max(1) - 1,
    ])
}

/// Totals around every bound, for everything that may be open.
pub fn totals(run: &mut Run) -> Result<(), Mismatch> {
    let table = everywhere().table;
    let mut kinds = Kinds::new(&["taken", "too long", "not left"]);
    run.once(|lab, rng| {
        for open in opens() {
            let least = open.text().len();
            let around = |total: usize| total.max(3) - 3..total + 4;
            let sums = around(least)
                .chain(around(WORD_LIMIT))
                .chain(around(RUNNING_TEXT - 3))
                .chain(around(RUNNING_TEXT + 3))
                .chain([255, 256, 65_535, 65_536, 1 << 24, (1 << 24) + 70, 1 << 31])
                .chain([u32::MAX as usize, u32::MAX as usize - RUNNING_TEXT]);
            for total in sums {
                lab.settle(rng);
                let left = (least..=RUNNING_TEXT).contains(&total);
                for length in 0..=7 {
                    let piece = make::short(rng, length);
                    let bytes = state(open.clone(), total);
                    let long = left && total + length > RUNNING_TEXT;
                    kinds.note(match (left, long) {
                        (true, true) => "too long",
                        (true, false) => "taken",
                        (false, _) => "not left",
                    });
                    one_total(lab, &only(&table), &bytes, &piece, long)?;
                }
            }
        }
        Ok(())
    })?;
    kinds.all_met()
}

/// One piece over a state, with enough room and with too little.
fn one_total(
    lab: &mut Lab,
    given: &Given<'_>,
    bytes: &[u8; STATE],
    piece: &[u8],
    long: bool,
) -> Result<(), Mismatch> {
    let least = least_room(bytes, piece.len());
    for size in [least, least.max(1) - 1, 0] {
        let mut state = *bytes;
        let answer = lab.piece(&mut state, given, piece, size)?;
        let number = match (long, size < least) {
            (true, _) => 21,
            (false, true) => 14,
            (false, false) => 0,
        };
        demand(answer >> 56 == number, || {
            format!("{:#x}, and not ground {}", answer, number)
        })?;
    }
    both_calls(lab, given, bytes, piece)
}

/// Large pieces that reach the most bytes exactly, or go one past.
pub fn large_totals(run: &mut Run) -> Result<(), Mismatch> {
    let table = everywhere().table;
    run.rounds(60, |lab, rng| {
        let length = rng.range(1_000, 40_000);
        let mut piece = Vec::new();
        while piece.len() < length {
            piece.extend(make::text(rng, 4_000, make::run));
        }
        piece.truncate(length);
        let open = make::open(rng);
        for more in 0..3 {
            let total = RUNNING_TEXT - piece.len() + more;
            let mut bytes = state(open.clone(), total);
            let least = least_room(&bytes, piece.len());
            let answer = lab.piece(&mut bytes, &only(&table), &piece, least)?;
            let expected = if more == 0 { 0 } else { 21 };
            demand(answer >> 56 == expected, || {
                format!("{} bytes behind {}: {:#x}", piece.len(), total, answer)
            })?;
        }
        Ok(())
    })
}

/// Rooms of every size up to more than enough.
pub fn rooms(run: &mut Run) -> Result<(), Mismatch> {
    let tables = [everywhere().table, Packed::of_text(b"").table];
    let pieces: [&[u8]; 12] = [
        b"", b"a", b"'", b" ", b"ab", b"a ", b"''", b"b'a", b"b' ", b" a'", b"ab'ab ", b"a1a-a'",
    ];
    run.once(|lab, _| {
        for place in [Place::Middle(5), Place::End, Place::Start] {
            lab.lend_at(place);
            for table in &tables {
                for open in opens() {
                    for piece in pieces {
                        every_room(lab, &only(table), &open, piece)?;
                    }
                }
            }
        }
        Ok(())
    })
}

/// Both calls with rooms around the least one, and with all below if few bytes
/// are held.
fn every_room(lab: &mut Lab, given: &Given<'_>, open: &Open, piece: &[u8]) -> Result<(), Mismatch> {
    let before = state(open.clone(), 500);
    let held = open.held().len();
    let least = ROOM_PER_BYTE * (held + piece.len());
    let from = if held < 9 { 0 } else { least - 3 };
    let right = |answer: u64, size: usize, least: usize, state: &[u8; STATE]| {
        let good = match size < least {
            true => answer == 14 << 56 && *state == before,
            false => answer >> 56 == 0,
        };
        demand(good, || format!("{:#x} with a room of {}", answer, size))
    };
    for size in from..=least + 2 {
        let mut state = before;
        let answer = lab.piece(&mut state, given, piece, size)?;
        right(answer, size, least, &state)?;
    }
    let least = ROOM_PER_BYTE * held;
    for size in least.max(4) - 4..=least + 2 {
        let mut state = before;
        let answer = lab.end(&mut state, given, size)?;
        right(answer, size, least, &state)?;
    }
    Ok(())
}

/// Margins, lists and a table of which some are bad, a bit for each, and what
/// that is refused with.
fn some_bad<'a>(grounds: usize, long: &'a [u8], table: &'a [u8]) -> (Given<'a>, u64) {
    let has = |ground: usize| grounds >> ground & 1 == 1;
    let given = Given {
        left: if has(0) { 0 } else { 1 },
        right: if has(0) { 64 } else { 63 },
        customer: match (has(1), has(2)) {
            (true, _) => long,
            (_, true) => b"a\na-a\n\n",
            _ => b"a\na-a\n",
        },
        house: match (has(3), has(4)) {
            (true, _) => long,
            (_, true) => b"y\ny-'-\n",
            _ => b"y\ny'-a\n",
        },
        table: if has(5) { &table[1..] } else { table },
    };
    let told = match () {
        _ if has(0) => 1 << 56,
        _ if has(1) || has(3) => 8 << 56,
        _ if has(2) => 6 << 56 | 1 << 48 | 6,
        _ if has(4) => 6 << 56 | 2 << 48 | 2,
        _ if has(5) => 9 << 56,
        _ => 0,
    };
    (given, told)
}

/// Every set of grounds at once: the first of them is told, and nothing is
/// written, whatever the state is.
pub fn refusal_order(run: &mut Run) -> Result<(), Mismatch> {
    let table = everywhere().table;
    let long = vec![b'\n'; EXCEPTION_TEXT_LIMIT + 1];
    let mut numbers = [0u64; 22];
    run.once(|lab, rng| {
        for open in opens() {
            for grounds in 0..1 << 9 {
                lab.settle(rng);
                let has = |ground: usize| grounds >> ground & 1 == 1;
                let (given, told) = some_bad(grounds, &long, &table);
                let total = if has(6) { RUNNING_TEXT } else { 500 };
                let mut bytes = state(open.clone(), total);
                // This can't be left, so it is a new text's, which isn't full.
                if has(8) {
                    bytes[7] = 9;
                }
                let full = has(6) && !has(8);
                let answer = by_order(lab, &given, &bytes, told, full, has(7))?;
                numbers[(answer >> 56) as usize] += 1;
            }
        }
        Ok(())
    })?;
    let met = [0, 1, 6, 8, 9, 14, 21].map(|number| numbers[number]);
    demand(met.iter().all(|&count| count > 0), || {
        format!("some ground is missing: {:?}", numbers)
    })
}

/// Both calls; `told` is what margins, lists and table are refused with, if they
/// are. The answer to the piece comes back.
fn by_order(
    lab: &mut Lab,
    given: &Given<'_>,
    bytes: &[u8; STATE],
    told: u64,
    full: bool,
    short: bool,
) -> Result<u64, Mismatch> {
    let size = |least: usize| if short { least.max(1) - 1 } else { least };
    let mut state = *bytes;
    let answer = lab.piece(&mut state, given, b"e", size(least_room(bytes, 1)))?;
    let expected = match told {
        0 if full => 21 << 56,
        0 if short => 14 << 56,
        _ => told,
    };
    refuses(answer, expected, state == *bytes)?;
    let held = least_room(bytes, 0);
    let mut state = *bytes;
    let end = lab.end(&mut state, given, size(held))?;
    let expected = match told {
        0 if short && held > 0 => 14 << 56,
        _ => told,
    };
    refuses(end, expected, state == *bytes)?;
    Ok(answer)
}

/// Demands a refusal that keeps the state, or an answer where 0 is expected.
fn refuses(answer: u64, expected: u64, kept: bool) -> Result<(), Mismatch> {
    let number = Ground::of_answer(answer).map_or(0, Ground::number);
    let same = match expected {
        0 => answer >> 56 == 0,
        _ => answer == expected && kept,
    };
    demand(same && number as u64 == answer >> 56, || {
        format!("{:#x} for {:#x}, state kept: {}", answer, expected, kept)
    })
}

/// Many grounds at random, over states of any kind.
pub fn hostile(run: &mut Run) -> Result<(), Mismatch> {
    let good = everywhere().table;
    run.rounds(25_000, |lab, rng| {
        let (customer, house) = (any_list(rng), any_list(rng));
        let margin = |rng: &mut Rng| *rng.pick(&[1, 1, 2, 2, 3, 63, 0, 64, 1 << 32]);
        let mut table = good.clone();
        match rng.below(6) {
            0 => damage::damage_head(rng, &mut table),
            1 | 2 => damage::damage(rng, &mut table),
            3 => table = random::table(rng, 3),
            _ => (),
        }
        let given = Given {
            left: margin(rng),
            right: margin(rng),
            customer: &customer,
            house: &house,
            table: &table,
        };
        let mut state = match rng.below(3) {
            0 => make::near_state(rng),
            _ => make::state(rng),
        };
        lab.lock_inputs(rng.once_in(50));
        for _ in 0..3 {
            let piece = make::text(rng, 30, |rng| {
                let length = words::length(rng);
                words::good(rng, &[1, 2, 3, APOSTROPHE], length)
            });
            let size = any_size(rng, &state, piece.len());
            lab.piece(&mut state, &given, &piece, size)?;
        }
        let size = any_size(rng, &state, 0);
        lab.end(&mut state, &given, size)?;
        lab.lock_inputs(false);
        Ok(())
    })
}

/// An exception text that is mostly good.
fn any_list(rng: &mut Rng) -> Vec<u8> {
    let count = rng.below(4);
    let good = exceptions::good(rng, &[1, 2, APOSTROPHE], count);
    match rng.below(8) {
        0 => exceptions::bad(rng, &good),
        1 if rng.once_in(4) => vec![b'a'; EXCEPTION_TEXT_LIMIT + 1],
        _ => good,
    }
}

/// Lengths that would look small if they were cut to 32 bits.
#[cfg(target_pointer_width = "64")]
pub fn huge_lengths(run: &mut Run) -> Result<(), Mismatch> {
    use outside::fence::Huge;
    let table = Packed::of_text(NINE).table;
    let over = 1usize << 32;
    run.once(|lab, _| {
        let (text, long) = match (Huge::new(b"a\n"), Huge::new(&table)) {
            (Some(text), Some(long)) => (text, long),
            // The system gives no such memory, so there is nothing to try.
            _ => return Ok(()),
        };
        let before = state(word(b"on"), 100);
        let good = only(&table);
        for more in [0, 1, 2, 100_000] {
            let piece = text.lend(over + more);
            one_huge(lab, &good, piece, &before, 21)?;
            one_huge(lab, &Given { left: 0, ..good }, piece, &before, 1)?;
        }
        for more in [0, 2, 233] {
            let (list, cells) = (text.lend(over + more), long.lend(over + more));
            let bad = [
                (
                    Given {
                        customer: list,
                        ..good
                    },
                    8,
                ),
                (
                    Given {
                        house: list,
                        ..good
                    },
                    8,
                ),
                (
                    Given {
                        table: cells,
                        ..good
                    },
                    9,
                ),
            ];
            for (given, number) in bad {
                one_huge(lab, &given, b"a", &before, number)?;
            }
        }
        Ok(())
    })
}

/// One piece with something huge, and the end where that isn't the piece: the
/// ground, and that nothing is written.
#[cfg(target_pointer_width = "64")]
fn one_huge(
    lab: &mut Lab,
    given: &Given<'_>,
    piece: &[u8],
    before: &[u8; STATE],
    number: u64,
) -> Result<(), Mismatch> {
    let (mut state, mut room) = (*before, [7; 99]);
    let Given {
        left,
        right,
        customer,
        house,
        table,
    } = *given;
    let answer = raw::piece(
        &mut state, left, right, customer, house, table, piece, &mut room,
    );
    let end = match number {
        21 => 21 << 56,
        _ => raw::end(&mut state, left, right, customer, house, table, &mut room),
    };
    lab.count_one();
    let told = answer == number << 56 && end == answer;
    demand(told && state == *before && room == [7; 99], || {
        format!("ground {}: {:#x}, {:#x}", number, answer, end)
    })
}

/// One step of a text, written out by hand: the piece, or `None` for the end;
/// what it writes, how many looks it takes, and what is open then.
type Step<'a> = (Option<&'a [u8]>, &'a [u8], u64, Open);

/// Goes through such steps from a new text.
fn by_hand(lab: &mut Lab, given: &Given<'_>, steps: &[Step<'_>]) -> Result<(), Mismatch> {
    let mut bytes = [0; STATE];
    let mut total = 0;
    for (piece, written, looks, open) in steps {
        let length = piece.map_or(0, <[u8]>::len);
        let least = least_room(&bytes, length);
        let answer = match piece {
            Some(piece) => lab.piece(&mut bytes, given, piece, least)?,
            None => lab.end(&mut bytes, given, least)?,
        };
        total = if piece.is_some() { total + length } else { 0 };
        demand(answer == (written.len() as u64) << 32 | looks, || {
            format!("{:?} gives {:#x}", piece, answer)
        })?;
        demand(lab.room().starts_with(written), || {
            format!("{:?} writes {:?}", piece, lab.room())
        })?;
        demand(bytes == state(open.clone(), total), || {
            format!("{:?} leaves {:?}", piece, bytes)
        })?;
    }
    Ok(())
}

/// Texts worked out by hand, step by step.
pub fn figures(run: &mut Run) -> Result<(), Mismatch> {
    let nine = Packed::of_text(NINE).table;
    let none = Packed::of_text(b"").table;
    let nine = Given {
        right: 3,
        left: 2,
        ..only(&nine)
    };
    let lists = Given {
        left: 2,
        right: 2,
        customer: b"idler\n",
        house: b"id-ler\nl'-en-tra-ta\nmet-al\n",
        table: &none,
    };
    let (long, nothing) = (vec![b'x'; WORD_LIMIT], Open::Nothing);
    let (gone, trailing) = (
        Open::Run { apostrophe: false },
        Open::Run { apostrophe: true },
    );
    run.once(|lab, _| {
        by_hand(
            lab,
            &nine,
            &[
                (Some(b"On hyphen"), b"On ", 6, word(b"hyphen")),
                (Some(b"a"), b"", 0, word(b"hyphena")),
                (Some(b""), b"", 0, word(b"hyphena")),
                (Some(b"tion: o"), b"hy\\-phen\\-ation: ", 27, word(b"o")),
                (Some(b"n"), b"", 0, word(b"on")),
                (None, b"on", 6, nothing.clone()),
                (None, b"", 0, nothing.clone()),
                (Some(b"\\-on-"), b"\\-on-", 6, nothing.clone()),
            ],
        )?;
        by_hand(
            lab,
            &lists,
            &[
                (Some(b"A me"), b"A ", 3, word(b"me")),
                (Some(b"tal. L"), b"met\\-al. ", 0, word(b"L")),
                (Some(b"'"), b"", 0, word(b"L'")),
                (Some(b"Entrata'"), b"", 0, word(b"L'Entrata'")),
                (Some(b"'Idler"), b"L'\\-En\\-tra\\-ta''", 0, word(b"Idler")),
                (Some(b"'\xe9"), b"Idler'\xe9", 0, nothing.clone()),
                (Some(b"'"), b"'", 0, nothing.clone()),
                (Some(b"IDLER'"), b"", 0, word(b"IDLER'")),
                (None, b"IDLER'", 0, nothing.clone()),
            ],
        )?;
        let full = [&long[..], b"'"].concat();
        let over = [&long[..], b"'x"].concat();
        by_hand(
            lab,
            &nine,
            &[
                (Some(&long), b"", 0, word(&long)),
                (Some(b"'"), b"", 0, word(&full)),
                (Some(b"x"), &over, 0, gone.clone()),
                (Some(b"'"), b"'", 0, trailing.clone()),
                (Some(b"x"), b"x", 0, gone.clone()),
                (Some(b"x'"), b"x'", 0, trailing.clone()),
                (Some(b"'"), b"'", 0, nothing.clone()),
                (Some(b"on"), b"", 0, word(b"on")),
                (Some(b"'"), b"", 0, word(b"on'")),
                (None, b"on'", 6, nothing.clone()),
                (Some(&long), b"", 0, word(&long)),
                (
                    Some(b"x'on "),
                    &[&long[..], b"x'on "].concat(),
                    0,
                    nothing.clone(),
                ),
                (Some(&long), b"", 0, word(&long)),
                (Some(b"'"), b"", 0, word(&full)),
                (None, &full, WORD_LIMIT as u64 + 2, nothing.clone()),
            ],
        )
    })
}
