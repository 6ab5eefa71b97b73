//! Running text in pieces: which bytes are words, what of a text that isn't at
//! its end is settled, what stays open, and the two calls.
//!
//! No byte is followed on its way. What was left open is made a text again, the
//! piece is put behind it, and the whole is judged from its beginning.

use super::calls::{settle, Judged};
use super::text::read_word;
use super::{Refusal, WORD_LIMIT};
use std::ops::Range;

/// Bytes of the state: eight, the longest word and an apostrophe behind it.
pub const STATE: usize = 8 + WORD_LIMIT + 1;
/// The most bytes of a running text.
pub const RUNNING_TEXT: usize = 1_048_576;
/// How many bytes the room must have for each byte held or in the piece.
pub const ROOM_PER_BYTE: usize = 3;

/// What comes with each call beside the text.
#[derive(Clone, Copy, Debug)]
pub struct Given<'a> {
    /// The left margin.
    pub left: u64,
    /// The right margin.
    pub right: u64,
    /// The customer's exceptions.
    pub customer: &'a [u8],
    /// The house's exceptions.
    pub house: &'a [u8],
    /// The table.
    pub table: &'a [u8],
}

impl<'a> Given<'a> {
    /// Judges all of it: grounds 1, 8, 6 and 9.
    fn judge(&self) -> Result<Judged<'a>, Refusal> {
        Judged::read(self.left, self.right, self.customer, self.house, self.table)
    }
}

/// Whether there is a letter at this place of a text.
fn letter_at(text: &[u8], place: usize) -> bool {
    text.get(place).map_or(false, u8::is_ascii_alphabetic)
}

/// Whether a byte of a text belongs to a word: it is a letter, or an apostrophe
/// with a letter right before it and one right behind.
fn in_word(text: &[u8], place: usize) -> bool {
    let between = place > 0 && letter_at(text, place - 1) && letter_at(text, place + 1);
    letter_at(text, place) || text[place] == b'\'' && between
}

/// The words of a text that is at its end: the longest runs of bytes that
/// belong to one, also those over the word limit.
pub fn words(text: &[u8]) -> Vec<Range<usize>> {
    let mut found = Vec::new();
    let mut from = 0;
    while from < text.len() {
        let run = (from..text.len()).take_while(|&place| in_word(text, place));
        let length = run.count();
        if length > 0 {
            found.push(from..from + length);
        }
        from += length.max(1);
    }
    found
}

/// Writes one word with a backslash and a hyphen in each break, and tells the
/// looks. One over the word limit goes through as it is, and without a look.
fn write_word(judged: &Judged<'_>, word: &[u8], output: &mut Vec<u8>) -> u64 {
    if word.len() > WORD_LIMIT {
        output.extend(word);
        return 0;
    }
    let letters = read_word(word).expect("a run of letters and inner apostrophes");
    let (breaks, looks) = judged.breaks(&letters);
    for (gap, &byte) in word.iter().enumerate() {
        if breaks.contains(&gap) {
            output.extend(b"\\-");
        }
        output.push(byte);
    }
    looks as u64
}

/// A text as it goes out if all its words are finished, and their looks.
fn write_text(judged: &Judged<'_>, text: &[u8]) -> (Vec<u8>, u64) {
    let (mut output, mut looks, mut from) = (Vec::new(), 0, 0);
    for word in words(text) {
        output.extend(&text[from..word.start]);
        from = word.end;
        looks += write_word(judged, &text[word], &mut output);
    }
    output.extend(&text[from..]);
    (output, looks)
}

/// Writes a word that may be empty, and empties it.
fn finish(judged: &Judged<'_>, word: &mut Vec<u8>, output: &mut Vec<u8>) -> u64 {
    let finished = std::mem::take(word);
    if finished.is_empty() {
        return 0;
    }
    write_word(judged, &finished, output)
}

/// A whole text at once, found in the plainest way: it is cut behind every byte
/// that no word has, each part then at its apostrophes. What is left are runs of
/// letters, and two of them with one apostrophe between belong together unless
/// one is empty. The answer is the text as it goes out, and the looks.
pub fn whole(given: &Given<'_>, text: &[u8]) -> Result<(Vec<u8>, u64), Refusal> {
    let judged = given.judge()?;
    let (mut output, mut looks) = (Vec::new(), 0);
    let ends = |byte: &u8| !byte.is_ascii_alphabetic() && *byte != b'\'';
    for part in text.split_inclusive(ends) {
        let (part, end) = match part.split_last() {
            Some((last, before)) if ends(last) => (before, &part[before.len()..]),
            _ => (part, &b""[..]),
        };
        let mut word = Vec::new();
        for (number, letters) in part.split(|&byte| byte == b'\'').enumerate() {
            if number > 0 && !word.is_empty() && !letters.is_empty() {
                word.push(b'\'');
            } else if number > 0 {
                looks += finish(&judged, &mut word, &mut output);
                output.push(b'\'');
            }
            word.extend(letters);
        }
        looks += finish(&judged, &mut word, &mut output);
        output.extend(end);
    }
    Ok((output, looks))
}

/// What a text that isn't at its end leaves open.
#[derive(Clone, Debug, PartialEq, Eq)]
pub enum Open {
    /// Nothing: what comes next can't belong to anything before.
    Nothing,
    /// An unfinished word, with the apostrophe right behind it if there is one.
    Word(Vec<u8>),
    /// A run over the word limit. All of it is let go, also the apostrophe right
    /// behind it if there is one.
    Run {
        /// Whether there is one.
        apostrophe: bool,
    },
}

impl Open {
    /// What a text leaves open, and how many bytes before that are settled. An
    /// apostrophe at the very end, right behind a letter, isn't known to be
    /// inner.
    pub fn of_text(text: &[u8]) -> (Open, usize) {
        let apostrophe = text.ends_with(b"'") && text.len() > 1 && letter_at(text, text.len() - 2);
        let known = &text[..text.len() - usize::from(apostrophe)];
        match words(known).pop() {
            Some(run) if run.end < known.len() => (Open::Nothing, text.len()),
            Some(run) if run.len() > WORD_LIMIT => (Open::Run { apostrophe }, text.len()),
            Some(run) => (Open::Word(text[run.start..].to_vec()), run.start),
            None => (Open::Nothing, text.len()),
        }
    }

    /// The shortest text that leaves this open, if any does. Of a run over the
    /// limit nothing but its being one matters.
    pub fn text(&self) -> Vec<u8> {
        match self {
            Open::Nothing => Vec::new(),
            Open::Word(bytes) => bytes.clone(),
            Open::Run { apostrophe } => {
                let mut text = vec![b'a'; WORD_LIMIT + 1];
                text.extend(&b"'"[..usize::from(*apostrophe)]);
                text
            }
        }
    }

    /// The bytes that are held.
    pub fn held(&self) -> &[u8] {
        match self {
            Open::Word(bytes) => bytes,
            Open::Nothing | Open::Run { .. } => b"",
        }
    }
}

/// What is kept from one call to the next.
#[derive(Clone, Debug, PartialEq, Eq)]
pub struct State {
    /// What is open.
    pub open: Open,
    /// How many bytes were taken since the text began.
    pub total: usize,
}

impl State {
    /// The state of a new text.
    pub const NEW: State = State {
        open: Open::Nothing,
        total: 0,
    };

    /// The bytes of a state. Its total has four bytes, and a held word fits.
    pub fn bytes(&self) -> [u8; STATE] {
        let held = self.open.held();
        let mut bytes = [0; STATE];
        bytes[0] = held.len() as u8;
        bytes[1] = match self.open {
            Open::Nothing | Open::Word(_) => 0,
            Open::Run { apostrophe: false } => 1,
            Open::Run { apostrophe: true } => 2,
        };
        bytes[2..6].copy_from_slice(&(self.total as u32).to_be_bytes());
        bytes[8..8 + held.len()].copy_from_slice(held);
        bytes
    }

    /// Reads a state. One that these calls couldn't leave is a new text's.
    pub fn read(bytes: &[u8; STATE]) -> State {
        match State::told(bytes) {
            Some(state) if state.can_be_left() && state.bytes() == *bytes => state,
            _ => State::NEW,
        }
    }

    /// What the bytes tell by themselves, if anything.
    fn told(bytes: &[u8; STATE]) -> Option<State> {
        let held = bytes[8..].get(..bytes[0] as usize)?;
        let open = match bytes[1] {
            0 if held.is_empty() => Open::Nothing,
            0 => Open::Word(held.to_vec()),
            1 => Open::Run { apostrophe: false },
            2 => Open::Run { apostrophe: true },
            _ => return None,
        };
        let total = bytes[2..6]
            .iter()
            .fold(0, |sum, &byte| 256 * sum + byte as usize);
        Some(State { open, total })
    }

    /// Whether some text leaves this state: the shortest that could does, and the
    /// total isn't less than its length. Spaces before it make the rest.
    fn can_be_left(&self) -> bool {
        let shortest = self.open.text();
        let left = Open::of_text(&shortest).0 == self.open;
        left && (shortest.len()..=RUNNING_TEXT).contains(&self.total)
    }
}

/// An answer that isn't a refusal.
fn wrote(output: &[u8], looks: u64, room: &mut [u8]) -> u64 {
    room[..output.len()].copy_from_slice(output);
    (output.len() as u64) << 32 | looks
}

/// The room that a call needs with so many bytes in its piece.
pub fn least_room(state: &[u8; STATE], piece: usize) -> usize {
    ROOM_PER_BYTE * (State::read(state).open.held().len() + piece)
}

/// The call for one piece.
pub fn piece(state: &mut [u8; STATE], given: &Given<'_>, piece: &[u8], room: &mut [u8]) -> u64 {
    settle(try_piece(state, given, piece, room))
}

fn try_piece(
    state: &mut [u8; STATE],
    given: &Given<'_>,
    piece: &[u8],
    room: &mut [u8],
) -> Result<u64, Refusal> {
    let judged = given.judge()?;
    let past = State::read(state);
    if past.total + piece.len() > RUNNING_TEXT {
        return Err(Refusal::plain(21));
    }
    if room.len() < least_room(state, piece.len()) {
        return Err(Refusal::plain(14));
    }
    let before = past.open.text();
    let text = [&before[..], piece].concat();
    let (open, settled) = Open::of_text(&text);
    let (output, looks) = write_text(&judged, &text[..settled]);
    // A run that was let go before is written already, as it was.
    let written = before.len() - past.open.held().len();
    let total = past.total + piece.len();
    *state = State { open, total }.bytes();
    Ok(wrote(&output[written..], looks, room))
}

/// The call that ends a text.
pub fn end(state: &mut [u8; STATE], given: &Given<'_>, room: &mut [u8]) -> u64 {
    settle(try_end(state, given, room))
}

fn try_end(state: &mut [u8; STATE], given: &Given<'_>, room: &mut [u8]) -> Result<u64, Refusal> {
    let judged = given.judge()?;
    if room.len() < least_room(state, 0) {
        return Err(Refusal::plain(14));
    }
    let (output, looks) = write_text(&judged, State::read(state).open.held());
    *state = State::NEW.bytes();
    Ok(wrote(&output, looks, room))
}

#[cfg(test)]
mod tests {
    use super::super::{pack, PACK_ROOM};
    use super::*;
    use crate::make::running as make;
    use crate::rng::Rng;

    const NINE: &[u8] = b"he2n\nhena4\nhen5at\nhy3ph\n2io\n1na\nn2at\no2n\n1tio\n";
    const EMPTY: [u8; 12] = [1, 1, 0, 1, 0, 0, 2, 0, 0, 0, 0, 0];

    fn packed(patterns: &[u8]) -> Vec<u8> {
        let mut room = vec![0; PACK_ROOM];
        let length = pack(patterns, &mut room) as usize;
        room.truncate(length);
        room
    }

    fn given(table: &[u8]) -> Given<'_> {
        Given {
            left: 2,
            right: 3,
            customer: b"",
            house: b"",
            table,
        }
    }

    /// All pieces with rooms that just suffice, and the end.
    fn joined(given: &Given<'_>, pieces: &[&[u8]]) -> (Vec<u8>, u64) {
        let mut state = State::NEW.bytes();
        let (mut output, mut looks) = (Vec::new(), 0);
        let mut take = |answer: u64, room: &[u8]| {
            assert_eq!(answer >> 56, 0);
            output.extend(&room[..(answer >> 32) as usize]);
            looks += answer & 0xffff_ffff;
        };
        for bytes in pieces {
            let mut room = vec![7; least_room(&state, bytes.len())];
            let answer = piece(&mut state, given, bytes, &mut room);
            take(answer, &room);
        }
        let mut room = vec![7; least_room(&state, 0)];
        let answer = end(&mut state, given, &mut room);
        take(answer, &room);
        assert_eq!(state, [0; STATE]);
        (output, looks)
    }

    /// The state with these bytes held.
    fn holding(held: &[u8], total: usize) -> [u8; STATE] {
        let open = match held {
            b"" => Open::Nothing,
            _ => Open::Word(held.to_vec()),
        };
        State { open, total }.bytes()
    }

    /// A run that was let go.
    fn let_go(apostrophe: bool, total: usize) -> [u8; STATE] {
        let open = Open::Run { apostrophe };
        State { open, total }.bytes()
    }

    #[test]
    fn words_of_a_text() {
        let found = |text: &[u8]| -> Vec<Vec<u8>> {
            let ranges = words(text).into_iter();
            ranges.map(|word| text[word].to_vec()).collect()
        };
        assert_eq!(
            found(b"Go to l'entrata."),
            [&b"Go"[..], b"to", b"l'entrata"]
        );
        assert_eq!(found(b"a''b 'c' d'1 2'e"), [b"a", b"b", b"c", b"d", b"e"]);
        assert_eq!(found(b"a'b'c''"), [b"a'b'c"]);
        assert_eq!(
            found(b"caf\xc3\xa9 no-one\\-x"),
            [&b"caf"[..], b"no", b"one", b"x"]
        );
        assert_eq!(found(b"l\xe2\x80\x99e"), [b"l", b"e"]);
        assert!(found(b"").is_empty() && found(b"' '' - \xff").is_empty());
    }

    #[test]
    fn a_text_in_two_pieces() {
        let mut state = [0; STATE];
        let mut room = [7; 27];
        let given = Given {
            right: 2,
            house: b"met-al\n",
            ..given(&EMPTY)
        };
        assert_eq!(piece(&mut state, &given, b"A me", &mut room), 2 << 32 | 3);
        assert_eq!(&room[..3], b"A \x07");
        assert_eq!(state, holding(b"me", 4));
        assert_eq!(state[..10], [2, 0, 0, 0, 0, 4, 0, 0, b'm', b'e']);
        assert_eq!(piece(&mut state, &given, b"tal.", &mut room), 8 << 32);
        assert_eq!(&room[..9], b"met\\-al.\x07");
        assert_eq!(state, holding(b"", 8));
        assert_eq!(end(&mut state, &given, &mut []), 0);
        assert_eq!(state, [0; STATE]);
    }

    #[test]
    fn an_end_needs_its_room() {
        let mut state = [0; STATE];
        let mut room = [7; 6];
        let given = given(&EMPTY);
        assert_eq!(piece(&mut state, &given, b"on", &mut room), 0);
        assert_eq!(end(&mut state, &given, &mut room[..5]), 14 << 56);
        assert_eq!((state, room), (holding(b"on", 2), [7; 6]));
        assert_eq!(end(&mut state, &given, &mut room), 2 << 32 | 4);
        assert_eq!((state, &room), ([0; STATE], b"on\x07\x07\x07\x07"));
    }

    /// Knuth's word has 27 looks, and "on" six.
    #[test]
    fn hyphenation() {
        let table = packed(NINE);
        let text = b"On Hyphenation: on-hyphenation\\-'on'";
        let expected = b"On Hy\\-phen\\-ation: on-hy\\-phen\\-ation\\-'on'";
        let (output, looks) = whole(&given(&table), text).unwrap();
        assert_eq!((&output[..], looks), (&expected[..], 3 * 6 + 2 * 27));
        for cut in 0..=text.len() {
            let (before, behind) = text.split_at(cut);
            let result = joined(&given(&table), &[before, behind]);
            assert_eq!(result, (expected.to_vec(), looks));
        }
    }

    #[test]
    fn what_is_left_open() {
        let open = |text: &[u8]| Open::of_text(text);
        let word = |held: &[u8]| Open::Word(held.to_vec());
        let run = |apostrophe| Open::Run { apostrophe };
        assert_eq!(open(b""), (Open::Nothing, 0));
        assert_eq!(open(b"a "), (Open::Nothing, 2));
        assert_eq!(open(b"a l"), (word(b"l"), 2));
        assert_eq!(open(b"a l'"), (word(b"l'"), 2));
        assert_eq!(open(b"a l'e"), (word(b"l'e"), 2));
        assert_eq!(open(b"a l''"), (Open::Nothing, 5));
        assert_eq!(open(b"a l''e"), (word(b"e"), 5));
        assert_eq!(open(b"'"), (Open::Nothing, 1));
        assert_eq!(open(b"'e"), (word(b"e"), 1));
        assert_eq!(open(b"\xe9'"), (Open::Nothing, 2));
        let letters = |count: usize, more: &[u8]| [&vec![b'x'; count], more].concat();
        let full = WORD_LIMIT;
        for held in [
            letters(full, b""),
            letters(full, b"'"),
            letters(full - 2, b"'x"),
            letters(full - 2, b"'x'"),
            letters(full - 1, b"'"),
        ] {
            assert_eq!(open(&held), (word(&held), 0));
        }
        for gone in [
            letters(full + 1, b""),
            letters(full + 2, b""),
            letters(full, b"'x"),
            letters(full - 1, b"'x"),
            letters(full + 1, b"'x"),
        ] {
            assert_eq!(open(&gone), (run(false), gone.len()));
            let trailing = [&gone[..], b"'"].concat();
            assert_eq!(open(&trailing), (run(true), trailing.len()));
            let behind = [&trailing[..], b"'"].concat();
            assert_eq!(open(&behind), (Open::Nothing, behind.len()));
            let behind = [&trailing[..], b" x"].concat();
            assert_eq!(open(&behind), (word(b"x"), behind.len() - 1));
        }
        assert_eq!(open(&letters(full, b"''")), (Open::Nothing, full + 2));
    }

    /// Behind a run that was let go: a letter goes out and belongs to it, also
    /// behind its apostrophe, but not behind two.
    #[test]
    fn a_run_that_was_let_go() {
        let given = given(&EMPTY);
        let step = |state: [u8; STATE], bytes: &[u8]| {
            let (mut state, mut room) = (state, [7; 60]);
            let answer = piece(&mut state, &given, bytes, &mut room);
            (answer, state, room[..(answer >> 32) as usize].to_vec())
        };
        let (plain, trailing) = (let_go(false, 200), let_go(true, 200));
        assert_eq!(
            step(plain, b"x"),
            (1 << 32, let_go(false, 201), b"x".to_vec())
        );
        assert_eq!(
            step(plain, b"'"),
            (1 << 32, let_go(true, 201), b"'".to_vec())
        );
        assert_eq!(
            step(trailing, b"x"),
            (1 << 32, let_go(false, 201), b"x".to_vec())
        );
        assert_eq!(
            step(trailing, b"'"),
            (1 << 32, holding(b"", 201), b"'".to_vec())
        );
        assert_eq!(
            step(trailing, b"'x"),
            (1 << 32, holding(b"x", 202), b"'".to_vec())
        );
        assert_eq!(
            step(plain, b"' x"),
            (2 << 32, holding(b"x", 203), b"' ".to_vec())
        );
        assert_eq!(step(plain, b""), (0, plain, Vec::new()));
        assert_eq!(step(trailing, b""), (0, trailing, Vec::new()));
        for mut state in [plain, trailing] {
            assert_eq!(end(&mut state, &given, &mut []), 0);
            assert_eq!(state, [0; STATE]);
        }
    }

    #[test]
    fn refusals_in_order() {
        let good = given(&EMPTY);
        let long = vec![b'a'; 8_193];
        let mut state = holding(b"ab", RUNNING_TEXT);
        let mut refused = |given: &Given<'_>, bytes: &[u8], size: usize| {
            let before = state;
            let mut room = vec![7; size];
            let answer = piece(&mut state, given, bytes, &mut room);
            assert!(state == before && room == vec![7; size]);
            answer
        };
        assert_eq!(refused(&good, b"", 5), 14 << 56);
        assert_eq!(refused(&good, b"a", 0), 21 << 56);
        let bad = Given { table: b"", ..good };
        assert_eq!(refused(&bad, b"a", 0), 9 << 56);
        let bad = Given {
            house: b"b\na\n",
            ..bad
        };
        assert_eq!(refused(&bad, b"a", 0), 6 << 56 | 2 << 48 | 2);
        let bad = Given {
            customer: b"-",
            ..bad
        };
        assert_eq!(refused(&bad, b"a", 0), 6 << 56 | 1 << 48);
        let bad = Given {
            house: &long,
            ..bad
        };
        assert_eq!(refused(&bad, b"a", 0), 8 << 56);
        let bad = Given { left: 64, ..bad };
        assert_eq!(refused(&bad, b"a", 0), 1 << 56);
    }

    /// What the papers say of each kind of state, field by field.
    fn by_the_papers(bytes: &[u8; STATE]) -> bool {
        let (held, run) = (bytes[0] as usize, bytes[1]);
        let total = u32::from_be_bytes([bytes[2], bytes[3], bytes[4], bytes[5]]) as usize;
        if bytes[6] != 0 || bytes[7] != 0 || total > RUNNING_TEXT || held > WORD_LIMIT + 1 {
            return false;
        }
        if bytes[8 + held..].iter().any(|&byte| byte != 0) {
            return false;
        }
        let word = &bytes[8..8 + held];
        let good = match word.split_last() {
            Some((b'\'', before)) => read_word(before).is_ok(),
            _ => read_word(word).is_ok(),
        };
        match run {
            0 if held == 0 => true,
            0 => good && total >= held,
            1 => held == 0 && total > WORD_LIMIT,
            2 => held == 0 && total > WORD_LIMIT + 1,
            _ => false,
        }
    }

    #[test]
    fn states_are_read_by_the_papers() {
        let mut rng = Rng::new(72);
        let (mut left, mut others) = (0, 0);
        for _ in 0..60_000 {
            let bytes = match rng.below(3) {
                0 => make::state(&mut rng),
                1 => make::near_state(&mut rng),
                _ => make::any_state(&mut rng),
            };
            let state = State::read(&bytes);
            let can_be_left = by_the_papers(&bytes);
            assert_eq!(state.bytes() == bytes, can_be_left, "{:?}", bytes);
            assert!(can_be_left || state == State::NEW, "{:?}", bytes);
            left += usize::from(can_be_left);
            others += usize::from(!can_be_left);
        }
        assert!(left > 20_000 && others > 20_000, "{} {}", left, others);
    }

    #[test]
    fn totals_of_states() {
        let read = |bytes: [u8; STATE]| State::read(&bytes).bytes() == bytes;
        let word = vec![b'w'; WORD_LIMIT];
        let trailing = [&word[..], b"'"].concat();
        for (least, state) in [
            (
                0,
                &(|total| holding(b"", total)) as &dyn Fn(usize) -> [u8; STATE],
            ),
            (1, &|total| holding(b"w", total)),
            (2, &|total| holding(b"w'", total)),
            (3, &|total| holding(b"w'w", total)),
            (WORD_LIMIT, &|total| holding(&word, total)),
            (WORD_LIMIT + 1, &|total| holding(&trailing, total)),
            (WORD_LIMIT + 1, &|total| let_go(false, total)),
            (WORD_LIMIT + 2, &|total| let_go(true, total)),
        ] {
            for total in (0..200).chain(RUNNING_TEXT - 2..RUNNING_TEXT + 3) {
                let left = (least..=RUNNING_TEXT).contains(&total);
                assert_eq!(read(state(total)), left, "{} {}", least, total);
            }
        }
    }

    /// Every state that short pieces leave is one that can be left, and is what
    /// the whole text leaves.
    #[test]
    fn states_that_are_left() {
        let given = given(&EMPTY);
        let mut rng = Rng::new(65);
        for _ in 0..3_000 {
            let text = make::text(&mut rng, 150, make::run);
            let mut state = [0; STATE];
            let mut taken = 0;
            for bytes in make::pieces(&mut rng, &text, 40) {
                let mut room = vec![7; least_room(&state, bytes.len())];
                assert_eq!(piece(&mut state, &given, bytes, &mut room) >> 56, 0);
                taken += bytes.len();
                assert!(by_the_papers(&state));
                let open = Open::of_text(&text[..taken]).0;
                assert_eq!(State::read(&state), State { open, total: taken });
            }
        }
    }

    #[test]
    fn whole_texts_are_any_cut() {
        let table = packed(b"1a\n1b\n1'a\n1'b\n");
        let given = Given {
            left: 1,
            right: 1,
            customer: b"ab-b\n",
            house: b"a'-b\nb'a\n",
            ..given(&table)
        };
        let mut rng = Rng::new(6);
        for _ in 0..300 {
            let length = rng.range(0, 8);
            let text = make::short(&mut rng, length);
            let whole = whole(&given, &text).unwrap();
            for cuts in 0..1usize << length.saturating_sub(1) {
                let pieces = make::cut_at(&text, cuts);
                assert_eq!(joined(&given, &pieces), whole, "{:?}", pieces);
            }
        }
        for _ in 0..2_000 {
            let text = make::text(&mut rng, 300, make::run);
            let whole = whole(&given, &text).unwrap();
            let pieces = make::pieces(&mut rng, &text, 90);
            assert_eq!(joined(&given, &pieces), whole, "{:?}", pieces);
            let bytes: Vec<&[u8]> = text.chunks(1).collect();
            assert_eq!(joined(&given, &bytes), whole, "{:?}", text);
        }
    }

    /// No output is longer than what the room has to have.
    #[test]
    fn rooms_suffice() {
        let table = packed(b"1a\n1b\n1'a\n1'b\n");
        let given = Given {
            left: 1,
            right: 1,
            ..given(&table)
        };
        let longest = vec![b'a'; WORD_LIMIT];
        let (output, _) = whole(&given, &longest).unwrap();
        assert_eq!(output.len(), ROOM_PER_BYTE * WORD_LIMIT - 2);
        let (output, _) = whole(&given, &[&longest[..], b"a"].concat()).unwrap();
        assert_eq!(output.len(), WORD_LIMIT + 1);
    }
}
