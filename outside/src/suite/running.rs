//! Running text in pieces: short texts in all their cuts, runs around the word
//! limit, exception words, real lists, and texts of as many bytes as there may
//! be.

use super::patterns::all_texts;
use super::real::data;
use super::{Kinds, Packed, NINE};
use crate::run::{demand, Run};
use outside::lab::{margins, Lab, Mismatch};
use outside::make::{exceptions, running as make, words};
use outside::reference::running::{least_room, whole, State};
use outside::reference::{
    self, Given, Pattern, APOSTROPHE, EXCEPTION_TEXT_LIMIT, RUNNING_TEXT, STATE, WORD_LIMIT,
};
use outside::rng::Rng;
use tteolmigu::raw;

/// A list under which a word breaks in every gap, beside an apostrophe too.
pub fn everywhere() -> Packed {
    let letters = (b'a'..=b'z').flat_map(|letter| vec![b'1', letter, b'\n']);
    let elisions = (b'a'..=b'z').flat_map(|letter| vec![b'1', b'\'', letter, b'\n']);
    let text: Vec<u8> = letters.chain(elisions).collect();
    Packed::of_text(&text)
}

/// The least margins and no exceptions.
pub fn only(table: &[u8]) -> Given<'_> {
    Given {
        left: 1,
        right: 1,
        customer: b"",
        house: b"",
        table,
    }
}

/// Margins and lists of few lines over the letters of short texts.
struct Lists {
    margins: (u64, u64),
    customer: Vec<u8>,
    house: Vec<u8>,
}

impl Lists {
    /// Such lists at random.
    fn any(rng: &mut Rng) -> Lists {
        let mut list = || {
            let count = rng.below(5);
            exceptions::good(rng, &[1, 2, 1, 2, APOSTROPHE], count)
        };
        let (customer, house) = (list(), list());
        Lists {
            margins: margins(rng),
            customer,
            house,
        }
    }

    /// All that comes with a call.
    fn with<'a>(&'a self, table: &'a [u8]) -> Given<'a> {
        Given {
            left: self.margins.0,
            right: self.margins.1,
            customer: &self.customer,
            house: &self.house,
            table,
        }
    }
}

/// What a whole text gives, by the reference.
fn expected(given: &Given<'_>, text: &[u8]) -> Result<(Vec<u8>, u64), Mismatch> {
    whole(given, text).map_err(|refusal| format!("  good lists are refused: {:?}", refusal))
}

/// A text on its way: its state, and what came out so far.
struct Flow {
    state: [u8; STATE],
    output: Vec<u8>,
    looks: u64,
}

impl Flow {
    /// A new text.
    fn new() -> Flow {
        Flow {
            state: [0; STATE],
            output: Vec::new(),
            looks: 0,
        }
    }

    /// Takes what an answered call wrote.
    fn take(&mut self, lab: &Lab, answer: u64) -> Result<(), Mismatch> {
        demand(answer >> 56 == 0, || {
            format!("a good piece is refused: {:#x}", answer)
        })?;
        let written = &lab.room()[..(answer >> 32) as usize];
        self.output.extend(written);
        self.looks += answer & 0xffff_ffff;
        Ok(())
    }

    /// One piece, with so many bytes more in the room than it needs.
    fn piece(
        &mut self,
        lab: &mut Lab,
        given: &Given<'_>,
        piece: &[u8],
        more: usize,
    ) -> Result<(), Mismatch> {
        let size = least_room(&self.state, piece.len()) + more;
        let answer = lab.piece(&mut self.state, given, piece, size)?;
        self.take(lab, answer)
    }

    /// The end, likewise.
    fn end(&mut self, lab: &mut Lab, given: &Given<'_>, more: usize) -> Result<(), Mismatch> {
        let size = least_room(&self.state, 0) + more;
        let answer = lab.end(&mut self.state, given, size)?;
        self.take(lab, answer)
    }

    /// Demands that all that came out is this.
    fn gave(&self, whole: &(Vec<u8>, u64)) -> Result<(), Mismatch> {
        let same = self.output == whole.0 && self.looks == whole.1;
        demand(same && self.state == [0; STATE], || {
            let both = self.output.iter().zip(&whole.0);
            let agreeing = both.take_while(|(came, byte)| came == byte).count();
            format!(
                "{} bytes with {} looks for {} with {}, of which {} agree",
                self.output.len(),
                self.looks,
                whole.0.len(),
                whole.1,
                agreeing
            )
        })
    }
}

/// Pieces from a new text to its end, which must give what the whole text does.
fn pieces(
    lab: &mut Lab,
    given: &Given<'_>,
    pieces: &[&[u8]],
    whole: &(Vec<u8>, u64),
) -> Result<(), Mismatch> {
    let mut flow = Flow::new();
    for piece in pieces {
        flow.piece(lab, given, piece, piece.len() % 3)?;
    }
    flow.end(lab, given, 1)?;
    flow.gave(whole)
}

/// A text as one piece, cut in two at every place, and cut into single bytes.
fn every_cut_in_two(lab: &mut Lab, given: &Given<'_>, text: &[u8]) -> Result<(), Mismatch> {
    let whole = expected(given, text)?;
    pieces(lab, given, &[text], &whole)?;
    for place in 0..text.len() {
        let (before, behind) = text.split_at(place);
        pieces(lab, given, &[before, behind], &whole)?;
    }
    byte_by_byte(lab, given, text, &whole)
}

/// A text in single bytes.
fn byte_by_byte(
    lab: &mut Lab,
    given: &Given<'_>,
    text: &[u8],
    whole: &(Vec<u8>, u64),
) -> Result<(), Mismatch> {
    let bytes: Vec<&[u8]> = text.chunks(1).collect();
    pieces(lab, given, &bytes, whole)
}

/// Every short text over few bytes, in every cut into two and into single bytes.
pub fn short_texts(run: &mut Run) -> Result<(), Mismatch> {
    let table = everywhere().table;
    let lists = Given {
        customer: b"aa\naz-a\n",
        house: b"a-a-a\nz\nz'-a\n",
        ..only(&table)
    };
    run.once(|lab, rng| {
        for (bytes, longest) in [(&b"aZ' 1\xe9-\\"[..], 5), (b"aZ'-", 6), (b"a'", 9)] {
            all_texts(bytes, longest, |text| {
                lab.settle(rng);
                every_cut_in_two(lab, &lists, text)
            })?;
        }
        Ok(())
    })
}

/// Each byte alone, and on either side of a letter and of an apostrophe.
pub fn all_bytes(run: &mut Run) -> Result<(), Mismatch> {
    let table = everywhere().table;
    run.once(|lab, rng| {
        for byte in 0..=255 {
            lab.settle(rng);
            for text in [
                &[byte][..],
                &[byte, byte],
                &[b'a', byte],
                &[byte, b'a'],
                &[b'a', byte, b'a'],
                &[b'a', b'\'', byte],
                &[byte, b'\'', b'a'],
                &[b'a', byte, b'\''],
                &[b'\'', byte, b'a'],
                &[b'a', b'\'', b'a', byte, b'a'],
            ] {
                every_cut_in_two(lab, &only(&table), text)?;
            }
            for length in [WORD_LIMIT - 1, WORD_LIMIT, WORD_LIMIT + 1] {
                for behind in [&[byte][..], &[byte, b'a'], &[b'\'', byte, b'a']] {
                    let text = [&vec![b'a'; length], behind].concat();
                    let whole = expected(&only(&table), &text)?;
                    byte_by_byte(lab, &only(&table), &text, &whole)?;
                    pieces(lab, &only(&table), &[&text], &whole)?;
                }
            }
        }
        Ok(())
    })
}

/// Makes something of what comes with a call bad, or nothing; tells what, and
/// the ground.
fn spoil(rng: &mut Rng, given: &mut Given<'_>) -> (&'static str, u64) {
    static LONG: [u8; EXCEPTION_TEXT_LIMIT + 1] = [b'a'; EXCEPTION_TEXT_LIMIT + 1];
    let list = match rng.once_in(2) {
        true => &mut given.customer,
        false => &mut given.house,
    };
    match rng.below(6) {
        0 => {
            given.left = *rng.pick(&[0, 64, 1 << 32, u64::MAX]);
            ("left margin", 1)
        }
        1 => {
            given.right = *rng.pick(&[0, 64, 1 << 32, u64::MAX]);
            ("right margin", 1)
        }
        2 => {
            *list = &LONG;
            ("long list", 8)
        }
        3 => {
            let bad = *rng.pick(&[&b"\n"[..], b"a", b"b\na\n", b"a'\n", b"A\n"]);
            *list = bad;
            ("bad list", 6)
        }
        4 => {
            let bad = *rng.pick(&[&b""[..], &[1, 1, 0, 1, 0], &[1, 2, 0, 1, 0, 0]]);
            given.table = bad;
            ("bad table", 9)
        }
        _ => ("short room", 14),
    }
}

/// A call that is refused on a ground of its own; it changes nothing.
fn refused(
    lab: &mut Lab,
    rng: &mut Rng,
    flow: &mut Flow,
    good: &Given<'_>,
    kinds: &mut Kinds,
) -> Result<(), Mismatch> {
    if rng.once_in(8) {
        kinds.note("long piece");
        return long_piece(lab, flow, good);
    }
    let mut given = *good;
    let (name, number) = spoil(rng, &mut given);
    kinds.note(name);
    let before = flow.state;
    let held = least_room(&before, 0);
    // Where nothing is held no room is too short for the end.
    let answer = if rng.once_in(2) || number == 14 && held == 0 {
        let length = rng.range(1, 4);
        let piece = make::short(rng, length);
        let size = rng.below(least_room(&before, length));
        lab.piece(&mut flow.state, &given, &piece, size)?
    } else {
        let size = if number == 14 { rng.below(held) } else { held };
        lab.end(&mut flow.state, &given, size)?
    };
    demand(answer >> 56 == number && flow.state == before, || {
        format!("{}: {:#x}", name, answer)
    })
}

/// A piece that takes the text one byte too far.
fn long_piece(lab: &mut Lab, flow: &Flow, given: &Given<'_>) -> Result<(), Mismatch> {
    static LONG: [u8; RUNNING_TEXT + 1] = [0; RUNNING_TEXT + 1];
    let (mut state, mut room) = (flow.state, [7; 9]);
    let piece = &LONG[State::read(&state).total..];
    let answer = send(&mut state, given, piece, &mut room);
    lab.count_one();
    demand(answer == 21 << 56, || format!("too long: {:#x}", answer))?;
    demand(state == flow.state && room == [7; 9], || {
        "a piece too long leaves state and room".to_string()
    })
}

/// The library's call, with memory as it comes.
fn send(state: &mut [u8; STATE], given: &Given<'_>, piece: &[u8], room: &mut [u8]) -> u64 {
    raw::piece(
        state,
        given.left,
        given.right,
        given.customer,
        given.house,
        given.table,
        piece,
        room,
    )
}

/// Short texts in all their cuts, with refused calls between.
pub fn all_cuts(run: &mut Run) -> Result<(), Mismatch> {
    let tables = [everywhere().table, Packed::of_text(b"a1b\nb'1a\n").table];
    let mut kinds = Kinds::new(&[
        "left margin",
        "right margin",
        "long list",
        "bad list",
        "bad table",
        "long piece",
        "short room",
    ]);
    run.rounds(1_200, |lab, rng| {
        let lists = Lists {
            margins: *rng.pick(&[(1, 1), (1, 2), (2, 1), (2, 2)]),
            ..Lists::any(rng)
        };
        let table = rng.pick(&tables);
        let given = lists.with(table);
        let length = rng.range(1, 8);
        let text = make::short(rng, length);
        let whole = expected(&given, &text)?;
        for gaps in 0..1 << (length - 1) {
            let mut flow = Flow::new();
            for piece in make::cut_at(&text, gaps) {
                while rng.once_in(4) {
                    refused(lab, rng, &mut flow, &given, &mut kinds)?;
                }
                flow.piece(lab, &given, piece, rng.below(3))?;
            }
            if rng.once_in(4) {
                refused(lab, rng, &mut flow, &given, &mut kinds)?;
            }
            flow.end(lab, &given, rng.below(3))?;
            flow.gave(&whole)?;
        }
        Ok(())
    })?;
    kinds.all_met_if(run.is_whole())
}

/// Longer texts with runs of all lengths, cut at random.
pub fn random_cuts(run: &mut Run) -> Result<(), Mismatch> {
    let tables = [everywhere().table, Packed::of_text(NINE).table];
    run.rounds(2_000, |lab, rng| {
        let lists = Lists::any(rng);
        let table = rng.pick(&tables);
        let given = lists.with(table);
        let text = make::text(rng, 400, make::run);
        let whole = expected(&given, &text)?;
        lab.lock_inputs(rng.once_in(30));
        let cut = make::pieces(rng, &text, 150);
        let result = pieces(lab, &given, &cut, &whole);
        lab.lock_inputs(false);
        result
    })
}

/// So many letters, no two beside each other being the same.
fn letters(length: usize) -> Vec<u8> {
    (0..length).map(|at| b"abCd"[at % 4]).collect()
}

/// Puts bytes in place of as many others, as far as there are some.
fn put(text: &mut [u8], place: usize, bytes: &[u8]) {
    for (to, &byte) in text[place..].iter_mut().zip(bytes) {
        *to = byte;
    }
}

/// A run around the limit in every cut that could tell: right at apostrophes and
/// where the limit is passed, and in single bytes; in all cuts if asked for.
fn long_run(
    lab: &mut Lab,
    given: &Given<'_>,
    text: &[u8],
    all: bool,
    kinds: &mut Kinds,
) -> Result<(), Mismatch> {
    let whole = expected(given, text)?;
    let longest = reference::running::words(text)
        .into_iter()
        .map(|word| word.len())
        .max();
    kinds.note(match longest.unwrap_or(0) {
        length if length < WORD_LIMIT => "shorter",
        WORD_LIMIT => "just in the limit",
        length if length == WORD_LIMIT + 1 => "just over the limit",
        _ => "longer",
    });
    byte_by_byte(lab, given, text, &whole)?;
    for place in 1..text.len() {
        let beside = text[place - 1] == b'\'' || text[place] == b'\'';
        let near = (WORD_LIMIT - 1..=WORD_LIMIT + 3).contains(&place);
        if all || beside || near {
            let (before, behind) = text.split_at(place);
            pieces(lab, given, &[before, behind], &whole)?;
        }
    }
    Ok(())
}

/// Runs around the word limit with apostrophes everywhere, and with all that may
/// stand behind them.
pub fn long_runs(run: &mut Run) -> Result<(), Mismatch> {
    let packed = everywhere();
    let given = only(&packed.table);
    let tails: [&[u8]; 8] = [b"", b"'", b"''", b"'a", b"''a", b" a", b"'a'", b"' 'a"];
    let mut kinds = Kinds::new(&[
        "shorter",
        "just in the limit",
        "just over the limit",
        "longer",
    ]);
    run.once(|lab, rng| {
        for length in WORD_LIMIT - 2..=WORD_LIMIT + 3 {
            for tail in tails {
                let text = [&letters(length), tail].concat();
                long_run(lab, &given, &text, true, &mut kinds)?;
            }
            for place in 0..length {
                lab.settle(rng);
                for apostrophes in [&b"'"[..], b"''", b"'a'"] {
                    let mut text = letters(length);
                    put(&mut text, place, apostrophes);
                    long_run(lab, &given, &text, apostrophes.len() == 1, &mut kinds)?;
                    text.extend(*rng.pick(&tails));
                    long_run(lab, &given, &text, false, &mut kinds)?;
                    let text = [&b"b''"[..], &text].concat();
                    let whole = expected(&given, &text)?;
                    byte_by_byte(lab, &given, &text, &whole)?;
                }
            }
        }
        Ok(())
    })?;
    kinds.all_met()
}

/// Two apostrophes at any two places of a run around the limit, in single bytes
/// and in a cut at random.
pub fn two_apostrophes(run: &mut Run) -> Result<(), Mismatch> {
    let packed = everywhere();
    let given = only(&packed.table);
    run.rounds(1_800, |lab, rng| {
        let length = rng.range(WORD_LIMIT - 2, WORD_LIMIT + 4);
        let mut text = letters(length);
        let first = rng.below(length);
        put(&mut text, first, b"'");
        put(&mut text, rng.range(first, length - 1), b"'");
        text.extend(*rng.pick(&[&b""[..], b"'", b" ", b"a", b"'a"]));
        let whole = expected(&given, &text)?;
        byte_by_byte(lab, &given, &text, &whole)?;
        let cut = make::pieces(rng, &text, 64);
        pieces(lab, &given, &cut, &whole)
    })
}

/// Texts of words that stand in one list, in both or in none.
pub fn exception_words(run: &mut Run) -> Result<(), Mismatch> {
    let table = everywhere().table;
    run.rounds(2_500, |lab, rng| {
        let alphabet = words::alphabet(rng);
        let known: Vec<Vec<u8>> = (0..6)
            .map(|_| {
                let length = words::length(rng);
                words::good(rng, &alphabet, length)
            })
            .collect();
        let lists = Lists {
            margins: margins(rng),
            customer: exceptions::with_words(rng, &alphabet, 2, &known[..2]),
            house: exceptions::with_words(rng, &alphabet, 2, &known[1..4]),
        };
        let given = lists.with(&table);
        let text = make::text(rng, 200, |rng| {
            let mut word = rng.pick(&known).clone();
            words::with_capitals(rng, &mut word);
            word
        });
        let whole = expected(&given, &text)?;
        let cut = make::pieces(rng, &text, 70);
        pieces(lab, &given, &cut, &whole)
    })
}

/// Lists, margins and tables that change from call to call: a word that is held
/// is judged by those of the call that finishes it.
pub fn changed_lists(run: &mut Run) -> Result<(), Mismatch> {
    let tables = [everywhere().table, Packed::of_text(b"").table];
    run.once(|lab, rng| {
        let all = [
            only(&tables[0]),
            only(&tables[1]),
            Given {
                house: b"l-'en-trata\nme-tal\n",
                ..only(&tables[0])
            },
            Given {
                customer: b"l'entrata\nmet-al\n",
                house: b"l-'en-trata\nme-tal\n",
                ..only(&tables[0])
            },
            Given {
                left: 3,
                right: 4,
                ..only(&tables[0])
            },
        ];
        for word in [&b"metal"[..], b"Metal", b"l'entrata", b"L'ENTRATA", b"z"] {
            for text in [word.to_vec(), [word, b"'"].concat()] {
                for begin in &all {
                    for finish in &all {
                        lab.settle(rng);
                        one_change(lab, begin, finish, &text)?;
                    }
                }
            }
        }
        Ok(())
    })?;
    run.rounds(4_000, |lab, rng| {
        let text = make::text(rng, 60, make::run);
        let mut flow = Flow::new();
        for piece in make::pieces(rng, &text, 30) {
            let lists = Lists::any(rng);
            let table = rng.pick(&tables);
            flow.piece(lab, &lists.with(table), piece, 0)?;
        }
        flow.end(lab, &only(&tables[0]), 0)
    })
}

/// One word that begins under some lists and is finished under others, by a
/// piece or by the end.
fn one_change(
    lab: &mut Lab,
    begin: &Given<'_>,
    finish: &Given<'_>,
    text: &[u8],
) -> Result<(), Mismatch> {
    for place in 1..=text.len() {
        let (before, behind) = text.split_at(place);
        for space in [&b""[..], b" "] {
            let mut flow = Flow::new();
            flow.piece(lab, begin, before, 0)?;
            demand(flow.output.is_empty(), || {
                format!("{:?} isn't held", before)
            })?;
            flow.piece(lab, finish, &[behind, space].concat(), 0)?;
            flow.end(lab, finish, 0)?;
            flow.gave(&expected(finish, &[text, space].concat())?)?;
        }
    }
    Ok(())
}

/// Prose and words that the repository has.
fn prose() -> Result<Vec<u8>, Mismatch> {
    Ok([data("../README.md")?, data("words")?, data("parole")?].concat())
}

/// A text that breaks in some words and not in others.
fn broken(given: &Given<'_>, text: &[u8]) -> Result<(Vec<u8>, u64), Mismatch> {
    let whole = expected(given, text)?;
    demand(whole.0.len() > text.len() + text.len() / 50, || {
        format!("{} bytes of {}", whole.0.len(), text.len())
    })?;
    Ok(whole)
}

/// Texts over one of the real lists: prose, and words from the list's own
/// pieces.
fn texts_over(
    run: &mut Run,
    name: &str,
    customer: &[u8],
    house: &[u8],
    rounds: u64,
) -> Result<(), Mismatch> {
    let packed = Packed::of_text(&data(name)?);
    let prose = prose()?;
    let given = Given {
        left: 2,
        right: 3,
        customer,
        house,
        table: &packed.table,
    };
    run.once(|lab, rng| {
        let whole = broken(&given, &prose)?;
        for size in [1, 7, 64, 1_000, 40_000] {
            let cut: Vec<&[u8]> = prose.chunks(size).collect();
            pieces(lab, &given, &cut, &whole)?;
        }
        let cut = make::pieces(rng, &prose, 300);
        pieces(lab, &given, &cut, &whole)
    })?;
    run.rounds(rounds, |lab, rng| {
        let text = natural(rng, &packed.list, 2_000);
        let whole = expected(&given, &text)?;
        let cut = make::pieces(rng, &text, 60);
        pieces(lab, &given, &cut, &whole)
    })
}

/// A text of words from a list's own pieces.
fn natural(rng: &mut Rng, list: &[Pattern], size: usize) -> Vec<u8> {
    let alphabet = words::all_symbols();
    make::text(rng, size, |rng| words::from_patterns(rng, list, &alphabet))
}

/// Texts over the real lists.
pub fn real_texts(run: &mut Run) -> Result<(), Mismatch> {
    let house = data("en-us.exc")?;
    let customer = b"ad-mis-sion\ngate\nta-bl-e\n";
    texts_over(run, "en-us.pat", customer, &house, 60)?;
    texts_over(run, "it-elisions.pat", b"l'ac-ces-so\n", b"", 60)?;
    texts_over(run, "la.pat", b"", b"", 60)
}

/// Sends a text in pieces of such sizes, and one byte too many before the end;
/// every answer, state and room is the reference's. What came out comes back.
fn send_all(
    lab: &mut Lab,
    given: &Given<'_>,
    text: &[u8],
    mut size: impl FnMut() -> usize,
) -> Result<(Vec<u8>, u64), Mismatch> {
    let mut flow = Flow::new();
    let mut rest = text;
    while !rest.is_empty() {
        let (piece, behind) = rest.split_at(size().min(rest.len()));
        let least = least_room(&flow.state, piece.len());
        let mut room = vec![7; least + 9];
        let mut expected = room.clone();
        let mut state = flow.state;
        let answer = send(&mut state, given, piece, &mut room[..least]);
        let theirs = reference::piece(&mut flow.state, given, piece, &mut expected[..least]);
        lab.count_one();
        let same = answer == theirs && room == expected && state == flow.state;
        demand(same && answer >> 56 == 0, || {
            let taken = text.len() - behind.len();
            format!("{:#x} for {:#x} behind {} bytes", answer, theirs, taken)
        })?;
        flow.output.extend(&room[..(answer >> 32) as usize]);
        flow.looks += answer & 0xffff_ffff;
        rest = behind;
    }
    full(lab, given, &mut flow.state)?;
    flow.end(lab, given, 0)?;
    Ok((flow.output, flow.looks))
}

/// A text of the most bytes takes no more, but an empty piece.
fn full(lab: &mut Lab, given: &Given<'_>, state: &mut [u8; STATE]) -> Result<(), Mismatch> {
    let before = *state;
    for (piece, expected) in [(&b"a"[..], 21 << 56), (b"", 0), (b" ", 21 << 56)] {
        let least = least_room(&before, piece.len());
        let answer = lab.piece(state, given, piece, least)?;
        demand(answer == expected && *state == before, || {
            format!("{:?} behind a full text: {:#x}", piece, answer)
        })?;
    }
    Ok(())
}

/// A text of exactly as many bytes as there may be, in pieces of several sizes.
pub fn full_texts(run: &mut Run) -> Result<(), Mismatch> {
    let packed = Packed::of_text(&data("en-us.pat")?);
    let prose = prose()?;
    let given = Given {
        left: 2,
        right: 3,
        customer: b"ad-mis-sion\n",
        house: b"pass-es\n",
        table: &packed.table,
    };
    run.once(|lab, rng| {
        let mut text = Vec::new();
        while text.len() < RUNNING_TEXT {
            text.extend(&prose);
            text.extend(natural(rng, &packed.list, 20_000));
        }
        text.truncate(RUNNING_TEXT);
        let whole = broken(&given, &text)?;
        let same = |what: &str, came: (Vec<u8>, u64)| {
            demand(came == whole, || format!("another text in {}", what))
        };
        same("one piece", send_all(lab, &given, &text, || RUNNING_TEXT)?)?;
        same("large pieces", send_all(lab, &given, &text, || 300_001)?)?;
        same("4,096 bytes", send_all(lab, &given, &text, || 4_096)?)?;
        same(
            "some bytes",
            send_all(lab, &given, &text, || rng.below(1_000))?,
        )?;
        same("single bytes", send_all(lab, &given, &text, || 1)?)
    })
}

/// A run of as many bytes as there may be, and texts that end within one.
pub fn full_runs(run: &mut Run) -> Result<(), Mismatch> {
    let table = everywhere().table;
    let given = only(&table);
    run.once(|lab, rng| {
        let mut text = vec![b'a'; RUNNING_TEXT];
        for ending in [&b""[..], b"'", b"''", b" a", b" a'", b" a'a"] {
            let place = RUNNING_TEXT - ending.len();
            text[place..].copy_from_slice(ending);
            let came = send_all(lab, &given, &text, || rng.range(1, 200_000))?;
            demand(came == expected(&given, &text)?, || {
                format!("a run that ends with {:?}", ending)
            })?;
        }
        Ok(())
    })
}
