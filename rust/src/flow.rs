//! Running text that comes in pieces.

#![forbid(unsafe_code)]

use crate::{
    any, raw, Exceptions, Ground, Margins, Table, MARGIN_LEAST, ROOM_PER_BYTE, STATE, WORD_LIMIT,
};
use core::fmt;

/// Where the held bytes begin in a state. Before them stand their number, the
/// run, the total in four bytes, and two zeros.
const HELD: usize = 8;

// A word of full length and an apostrophe behind it have their places.
const _: () = assert!(HELD + WORD_LIMIT + 1 == STATE);

/// A running text that comes in pieces of any size and goes out with a backslash
/// and a hyphen in each break.
///
/// A word of such a text is a run of letters and of apostrophes that each stand
/// between two letters, as long as it can be. One of at most
/// [`WORD_LIMIT`] bytes is broken as [`Table::hyphenate`] breaks it. A longer
/// one, and every byte outside a word, goes through as it is.
///
/// A piece may end inside a word. Then this word is held, and an apostrophe
/// right behind it too, until a later piece or the end shows how it goes on. A
/// word that grows past the limit is let go at once. So what is written and
/// counted doesn't depend on where the text was cut:
///
/// ```
/// use tteolmigu::{Exceptions, Flow, Ground, Margins, Table, PACK_ROOM};
///
/// let mut room = [0; PACK_ROOM];
/// let table = Table::pack(b"1na\n1ti\n", &mut room)?;
/// let text = b"'Nations' and nation's";
/// for size in 1..=text.len() {
///     let (mut flow, mut room) = (Flow::new(), [0; 256]);
///     let (mut printed, mut looks) = (Vec::new(), 0);
///     for piece in text.chunks(size) {
///         let written = flow.piece(table, Margins::USUAL, Exceptions::NONE, piece, &mut room)?;
///         printed.extend_from_slice(written.text);
///         looks += written.looks;
///     }
///     let written = flow.end(table, Margins::USUAL, Exceptions::NONE, &mut room)?;
///     printed.extend_from_slice(written.text);
///     looks += written.looks;
///     assert_eq!(printed, b"'Na\\-tions' and na\\-tion's");
///     assert_eq!(looks, 31);
/// }
/// # Ok::<(), Ground>(())
/// ```
///
/// Nothing else is kept from call to call. Margins, lists and table come with
/// each of them and may change; a held word is judged by those of the call that
/// finishes it. A clone goes on from the same place of the same text.
#[derive(Clone, PartialEq, Eq, Hash)]
pub struct Flow {
    /// As a call leaves it, or [`Flow::from_bytes`], which has one judge it.
    state: [u8; STATE],
}

impl Flow {
    /// A new text.
    ///
    /// ```
    /// use tteolmigu::Flow;
    ///
    /// let flow = Flow::new();
    /// assert_eq!((flow.held(), flow.total()), (&b""[..], 0));
    /// assert_eq!(flow, Flow::default());
    /// ```
    pub const fn new() -> Flow {
        Flow { state: [0; STATE] }
    }

    /// A text as [`Flow::bytes`] once told it, from a file for example.
    ///
    /// Bytes that no text has are read as a new text's, as in every call of the
    /// library.
    ///
    /// ```
    /// use tteolmigu::{Exceptions, Flow, Ground, Margins, Table, PACK_ROOM};
    ///
    /// let mut room = [0; PACK_ROOM];
    /// let table = Table::pack(b"1na\n1ti\n", &mut room)?;
    /// let mut flow = Flow::new();
    /// flow.piece(table, Margins::USUAL, Exceptions::NONE, b"na", &mut [0; 6])?;
    /// let stored = *flow.bytes();
    ///
    /// let mut flow = Flow::from_bytes(&stored);
    /// let mut room = [0; 18];
    /// let written = flow.piece(table, Margins::USUAL, Exceptions::NONE, b"tion", &mut room)?;
    /// assert_eq!(written.text, b"");
    /// assert_eq!(flow.held(), b"nation");
    ///
    /// let mut spoilt = stored;
    /// spoilt[8] = b'1'; // no letter
    /// assert_eq!(Flow::from_bytes(&spoilt), Flow::new());
    /// # Ok::<(), Ground>(())
    /// ```
    pub fn from_bytes(bytes: &[u8; STATE]) -> Flow {
        // The library judges them itself: a piece of no bytes leaves the state
        // as it was read. Nothing is refused here, for the table has just a
        // head and a free cell and the room is enough for any state.
        let mut state = *bytes;
        let table = [1, 1, 0, 1, 0, 0, 2, 0, 0, 0, 0, 0];
        let mut room = [0; ROOM_PER_BYTE * (WORD_LIMIT + 1)];
        let (left, right) = (MARGIN_LEAST, MARGIN_LEAST);
        match raw::piece(&mut state, left, right, b"", b"", &table, b"", &mut room) {
            0 => Flow { state },
            _ => Flow::new(),
        }
    }

    /// The next piece of the text. What is settled with it is written to the
    /// room's beginning; the room's later bytes stay.
    ///
    /// The room has [`ROOM_PER_BYTE`] bytes for each byte of the piece and for
    /// each that is held, which [`Flow::room_for`] tells. It must have them even
    /// where less would do.
    ///
    /// ```
    /// use tteolmigu::{Exceptions, Flow, Ground, Margins, Table, PACK_ROOM};
    ///
    /// let mut room = [0; PACK_ROOM];
    /// let table = Table::pack(b"1na\n1ti\n", &mut room)?;
    /// let lists = Exceptions { house: b"met-al\n", ..Exceptions::NONE };
    /// let (margins, mut flow, mut room) = (Margins::new(2, 2)?, Flow::new(), [0; 64]);
    ///
    /// let written = flow.piece(table, margins, lists, b"A nation, met", &mut room)?;
    /// assert_eq!(written.text, b"A na\\-tion, ");
    /// assert_eq!(written.looks, 14); // 3 for "A", 11 for "nation"
    /// assert_eq!(flow.held(), b"met");
    /// let written = flow.piece(table, margins, lists, b"al.", &mut room)?;
    /// assert_eq!((written.text, written.looks), (&b"met\\-al."[..], 0));
    /// # Ok::<(), Ground>(())
    /// ```
    ///
    /// # Errors
    ///
    /// Grounds 8, 6, 21 and 14, judged in this order. Margins and table were
    /// judged before. Where it refuses, nothing of the piece is taken, and text
    /// and room are as they were: after ground 21 a shorter piece or the end may
    /// follow.
    pub fn piece<'r>(
        &mut self,
        table: Table<'_>,
        margins: Margins,
        exceptions: Exceptions<'_>,
        piece: &[u8],
        room: &'r mut [u8],
    ) -> Result<Written<'r>, Ground> {
        any::piece(self, margins, exceptions, table.bytes(), piece, room)
    }

    /// The end of the text. What is held is written to the room's beginning, as
    /// a piece's text is, and the next piece begins a new text.
    ///
    /// The room has [`ROOM_PER_BYTE`] bytes for each byte that is held, so that
    /// 192 are enough for any end.
    ///
    /// ```
    /// use tteolmigu::{Exceptions, Flow, Ground, Margins, Table, PACK_ROOM};
    ///
    /// let mut room = [0; PACK_ROOM];
    /// let table = Table::pack(b"1na\n1ti\n", &mut room)?;
    /// let (mut flow, mut room) = (Flow::new(), [0; 64]);
    /// flow.piece(table, Margins::USUAL, Exceptions::NONE, b"the nation'", &mut room)?;
    /// assert_eq!(flow.held(), b"nation'");
    /// let written = flow.end(table, Margins::USUAL, Exceptions::NONE, &mut room)?;
    /// assert_eq!((written.text, written.looks), (&b"na\\-tion'"[..], 11));
    /// assert_eq!(flow, Flow::new());
    /// # Ok::<(), Ground>(())
    /// ```
    ///
    /// # Errors
    ///
    /// Grounds 8, 6 and 14, judged in this order. Where it refuses, the text
    /// isn't ended.
    pub fn end<'r>(
        &mut self,
        table: Table<'_>,
        margins: Margins,
        exceptions: Exceptions<'_>,
        room: &'r mut [u8],
    ) -> Result<Written<'r>, Ground> {
        any::end(self, margins, exceptions, table.bytes(), room)
    }

    /// The bytes that are held, as they were read: the unfinished word, and an
    /// apostrophe right behind it. There are at most [`WORD_LIMIT`] + 1.
    ///
    /// ```
    /// # use tteolmigu::{Exceptions, Flow, Ground, Margins, Table, PACK_ROOM};
    /// # let mut room = [0; PACK_ROOM];
    /// # let table = Table::pack(b"", &mut room)?;
    /// let (mut flow, mut room) = (Flow::new(), [0; 256]);
    /// let mut held = |piece: &[u8]| {
    ///     flow.piece(table, Margins::USUAL, Exceptions::NONE, piece, &mut room)?;
    ///     Ok::<_, Ground>(flow.held().to_vec())
    /// };
    /// assert_eq!(held(b"All'")?, b"All'");
    /// assert_eq!(held(b"E")?, b"All'E");
    /// assert_eq!(held(b" ")?, b"");
    /// assert_eq!(held(&[b'a'; 63])?, [b'a'; 63]);
    /// assert_eq!(held(b"a")?, b""); // 64 letters are too many for a word
    /// # Ok::<(), Ground>(())
    /// ```
    pub fn held(&self) -> &[u8] {
        let count = usize::from(self.state[0]);
        self.state.get(HELD..HELD + count).unwrap_or(&[])
    }

    /// How many bytes the text has so far, those held among them. It never has
    /// more than [`RUNNING_TEXT`](crate::RUNNING_TEXT).
    ///
    /// ```
    /// # use tteolmigu::{Exceptions, Flow, Ground, Margins, Table, PACK_ROOM};
    /// # let mut room = [0; PACK_ROOM];
    /// # let table = Table::pack(b"", &mut room)?;
    /// let (mut flow, mut room) = (Flow::new(), [0; 64]);
    /// flow.piece(table, Margins::USUAL, Exceptions::NONE, b"on", &mut room)?;
    /// flow.piece(table, Margins::USUAL, Exceptions::NONE, b"e, two", &mut room)?;
    /// assert_eq!(flow.total(), 8);
    /// flow.end(table, Margins::USUAL, Exceptions::NONE, &mut room)?;
    /// assert_eq!(flow.total(), 0);
    /// # Ok::<(), Ground>(())
    /// ```
    pub fn total(&self) -> usize {
        let [_, _, a, b, c, d, ..] = self.state;
        u32::from_be_bytes([a, b, c, d]) as usize
    }

    /// The least room in bytes for a next piece of so many bytes, and with 0 for
    /// the end.
    ///
    /// ```
    /// # use tteolmigu::{Exceptions, Flow, Ground, Margins, Table, PACK_ROOM};
    /// # let mut room = [0; PACK_ROOM];
    /// # let table = Table::pack(b"", &mut room)?;
    /// let mut flow = Flow::new();
    /// assert_eq!(flow.room_for(5), 15);
    /// flow.piece(table, Margins::USUAL, Exceptions::NONE, b"by on", &mut [0; 15])?;
    /// assert_eq!(flow.room_for(5), 21); // "on" is held
    /// assert_eq!(flow.room_for(0), 6);
    /// let mut end = |size| {
    ///     let mut room = vec![0; size];
    ///     let written = flow.end(table, Margins::USUAL, Exceptions::NONE, &mut room);
    ///     written.map(|written| written.text.to_vec())
    /// };
    /// assert_eq!(end(5), Err(Ground::TextRoomShort));
    /// assert_eq!(end(6), Ok(b"on".to_vec()));
    /// # Ok::<(), Ground>(())
    /// ```
    pub fn room_for(&self, piece: usize) -> usize {
        // No machine has a room for a piece at the end of what it can count to.
        let bytes = self.held().len().saturating_add(piece);
        bytes.saturating_mul(ROOM_PER_BYTE)
    }

    /// The text's state, as for a file: `docs/FORMATS.md` has its bytes.
    ///
    /// ```
    /// # use tteolmigu::{Exceptions, Flow, Ground, Margins, Table, PACK_ROOM};
    /// # let mut room = [0; PACK_ROOM];
    /// # let table = Table::pack(b"", &mut room)?;
    /// let mut flow = Flow::new();
    /// flow.piece(table, Margins::USUAL, Exceptions::NONE, b"by on", &mut [0; 15])?;
    /// assert_eq!(flow.bytes()[..10], [2, 0, 0, 0, 0, 5, 0, 0, b'o', b'n']);
    /// assert_eq!(flow.bytes()[10..], [0; 62]);
    /// # Ok::<(), Ground>(())
    /// ```
    pub fn bytes(&self) -> &[u8; STATE] {
        &self.state
    }

    /// The state for a call that writes it.
    pub(crate) fn state(&mut self) -> &mut [u8; STATE] {
        &mut self.state
    }
}

impl Default for Flow {
    fn default() -> Flow {
        Flow::new()
    }
}

/// What is held, the run (1 or 2 inside a word that was let go) and the total.
impl fmt::Debug for Flow {
    fn fmt(&self, out: &mut fmt::Formatter<'_>) -> fmt::Result {
        out.debug_struct("Flow")
            .field("held", &core::str::from_utf8(self.held()).unwrap_or(""))
            .field("run", &self.state[1])
            .field("total", &self.total())
            .finish()
    }
}

/// What a call wrote of a running text, as a part of the room. See
/// [`Flow::piece`] and [`Flow::end`].
///
/// ```
/// use tteolmigu::{Exceptions, Flow, Ground, Margins, Table, PACK_ROOM};
///
/// let mut room = [0; PACK_ROOM];
/// let table = Table::pack(b"", &mut room)?;
/// let mut room = [b'#'; 12];
/// let written = Flow::new().piece(table, Margins::USUAL, Exceptions::NONE, b"on 1", &mut room)?;
/// assert_eq!((written.text, written.looks), (&b"on 1"[..], 4));
/// assert_eq!(&room, b"on 1########"); // what lies behind the text stays
/// # Ok::<(), Ground>(())
/// ```
#[derive(Clone, Copy, Debug, PartialEq, Eq, Hash)]
pub struct Written<'r> {
    /// The text.
    pub text: &'r [u8],
    /// How many cells of the table were looked at for the words that the call
    /// finished: 0 for one that an exception line decides, and for one that was
    /// let go.
    pub looks: u32,
}

#[cfg(test)]
mod tests {
    use super::*;
    use crate::{PACK_ROOM, RUNNING_TEXT};
    use std::format;
    use std::vec;
    use std::vec::Vec;

    /// Knuth's example.
    const NINE: &[u8] = b"he2n\nhena4\nhen5at\nhy3ph\n2io\n1na\nn2at\no2n\n1tio\n";

    const LISTS: Exceptions<'static> = Exceptions {
        customer: b"l'en-tra-ta\n",
        house: b"eve-ning\n",
    };

    fn with_table<T>(patterns: &[u8], job: impl FnOnce(Table<'_>) -> T) -> T {
        job(Table::pack(patterns, &mut vec![0; PACK_ROOM]).unwrap())
    }

    /// One piece, in a room of just the size that it needs.
    fn take(flow: &mut Flow, table: Table<'_>, piece: &[u8]) -> (Vec<u8>, u32) {
        let mut room = vec![7; flow.room_for(piece.len())];
        let written = flow.piece(table, Margins::USUAL, LISTS, piece, &mut room);
        let Written { text, looks } = written.unwrap();
        (text.to_vec(), looks)
    }

    fn finish(flow: &mut Flow, table: Table<'_>) -> (Vec<u8>, u32) {
        let mut room = vec![7; flow.room_for(0)];
        let written = flow.end(table, Margins::USUAL, LISTS, &mut room);
        let Written { text, looks } = written.unwrap();
        (text.to_vec(), looks)
    }

    /// A whole text, cut at these places.
    fn cut(table: Table<'_>, text: &[u8], places: &[usize]) -> (Vec<u8>, u32) {
        let (mut flow, mut all, mut count, mut from) = (Flow::new(), Vec::new(), 0, 0);
        for &to in places.iter().chain([&text.len()]) {
            let (written, looks) = take(&mut flow, table, &text[from..to]);
            all.extend(written);
            count += looks;
            from = to;
            assert_eq!(flow.total(), to);
            assert!(text[..to].ends_with(flow.held()));
        }
        let (written, looks) = finish(&mut flow, table);
        all.extend(written);
        assert_eq!(flow, Flow::new());
        (all, count + looks)
    }

    /// The same by the hyphenating call on each word. A word goes up to where no
    /// letter follows, neither at once nor behind one apostrophe.
    fn by_words(table: Table<'_>, text: &[u8]) -> (Vec<u8>, u32) {
        let letter = |at: usize| text.get(at).map_or(false, u8::is_ascii_alphabetic);
        let (mut all, mut count, mut at) = (Vec::new(), 0, 0);
        while at < text.len() {
            let mut end = at;
            while letter(end) || end > at && text.get(end) == Some(&b'\'') && letter(end + 1) {
                end += 1;
            }
            let word = &text[at..end];
            match table.hyphenate(Margins::USUAL, word, LISTS) {
                Ok(breaks) => {
                    for (gap, &letter) in word.iter().enumerate() {
                        if breaks.contains(gap) {
                            all.extend(b"\\-");
                        }
                        all.push(letter);
                    }
                    count += breaks.looks();
                }
                Err(Ground::WordLong) => all.extend(word),
                Err(ground) => {
                    assert_eq!(ground, Ground::WordEmpty);
                    all.push(text[at]);
                    end = at + 1;
                }
            }
            at = end;
        }
        (all, count)
    }

    #[test]
    fn cuts_change_nothing() {
        let texts: [&[u8]; 8] = [
            b"",
            b"'",
            b"Hyphenation, on hyphenation; EVENING\n",
            b"l'entrata L'Entrata 'l'entrata' l''entrata",
            b"on'1 on''on' 'on on'",
            b"hyphenation\\-hyphen\\-ation- \0\xff\xe2\x80\x99on",
            b"'''a'b'''c'",
            b"o'o'o'o'n'",
        ];
        with_table(NINE, |table| {
            for text in texts {
                let whole = by_words(table, text);
                assert_eq!(cut(table, text, &[]), whole);
                let each: Vec<usize> = (0..text.len()).collect();
                assert_eq!(cut(table, text, &each), whole);
                for first in 0..=text.len() {
                    for second in first..=text.len() {
                        assert_eq!(cut(table, text, &[first, second]), whole);
                    }
                }
            }
        });
    }

    #[test]
    fn long_words_go_through_however_they_are_cut() {
        with_table(NINE, |table| {
            for letters in WORD_LIMIT - 2..=WORD_LIMIT + 3 {
                for apostrophe in 0..letters {
                    let mut text = vec![b'n'; letters];
                    text[apostrophe] = b'\'';
                    text.extend(b"'' hyphenation");
                    let whole = by_words(table, &text);
                    assert_eq!(cut(table, &text, &[]), whole);
                    let each: Vec<usize> = (0..text.len()).collect();
                    assert_eq!(cut(table, &text, &each), whole);
                    for place in WORD_LIMIT - 3..WORD_LIMIT + 4 {
                        assert_eq!(cut(table, &text, &[place]), whole);
                    }
                }
            }
        });
    }

    #[test]
    fn a_long_word_is_let_go_at_once() {
        with_table(NINE, |table| {
            let mut flow = Flow::new();
            let full = [b'a'; WORD_LIMIT];
            assert_eq!(take(&mut flow, table, &full), (vec![], 0));
            assert_eq!(take(&mut flow, table, b"'"), (vec![], 0));
            assert_eq!(flow.held().len(), WORD_LIMIT + 1);
            assert_eq!(flow.room_for(0), 3 * (WORD_LIMIT + 1));
            let mut out = full.to_vec();
            out.extend(b"'b");
            assert_eq!(take(&mut flow, table, b"b"), (out, 0));
            for (piece, run) in [("c", 1), ("'", 2), ("d", 1), ("'", 2), ("'", 0)] {
                assert_eq!(flow.held(), b"");
                let written = take(&mut flow, table, piece.as_bytes());
                assert_eq!(written, (piece.into(), 0));
                assert_eq!(flow.bytes()[1], run);
            }
            assert_eq!(take(&mut flow, table, b"on."), (b"on.".to_vec(), 6));
        });
    }

    #[test]
    fn a_held_word_is_judged_by_the_call_that_finishes_it() {
        let none = Exceptions::NONE;
        let house = Exceptions {
            house: b"met-al\n",
            ..none
        };
        let narrow = Margins::new(2, 2).unwrap();
        with_table(NINE, |table| {
            let finished = |before, margins, lists| {
                let (mut flow, mut room) = (Flow::new(), [7; 64]);
                let taken = flow.piece(table, Margins::USUAL, before, b"metal", &mut room);
                assert_eq!(taken.unwrap().text, b"");
                let mut other = flow.clone();
                let written = flow.piece(table, margins, lists, b".", &mut room).unwrap();
                let mut text = written.text.to_vec();
                let looks = written.looks;
                assert_eq!(text.pop(), Some(b'.'));
                let ended = other.end(table, margins, lists, &mut room).unwrap();
                assert_eq!((ended.text, ended.looks), (&text[..], looks));
                (text, looks)
            };
            assert_eq!(finished(none, narrow, house), (b"met\\-al".to_vec(), 0));
            assert_eq!(finished(house, narrow, none), (b"metal".to_vec(), 8));
            let usual = finished(house, Margins::USUAL, house);
            assert_eq!(usual, (b"metal".to_vec(), 0));
        });
    }

    #[test]
    fn what_is_refused_changes_nothing() {
        with_table(NINE, |table| {
            let mut flow = Flow::new();
            take(&mut flow, table, b"so on'");
            let before = flow.clone();
            let long = vec![b'.'; RUNNING_TEXT - 5];
            let list = [b'a'; 8_193];
            let over = Exceptions {
                customer: &list,
                house: b"a--b\n",
            };
            let bad = Exceptions {
                customer: b"",
                house: b"a\nb--c\n",
            };
            let mut room = vec![7; flow.room_for(long.len())];
            let mut refused = |lists, piece: &[u8], size: usize| {
                let told = flow.piece(table, Margins::USUAL, lists, piece, &mut room[..size]);
                let told = told.err().unwrap();
                assert_eq!(flow, before);
                if piece.is_empty() {
                    let ended = flow.end(table, Margins::USUAL, lists, &mut room[..size]);
                    assert_eq!(ended.err(), Some(told));
                    assert_eq!(flow, before);
                }
                assert!(room.iter().all(|&byte| byte == 7));
                (told.number(), told.list(), told.place())
            };
            assert_eq!(refused(over, b"", 0), (8, 0, 0));
            assert_eq!(refused(bad, b"", 0), (6, 2, 2));
            assert_eq!(refused(LISTS, &long, 0), (21, 0, 0));
            assert_eq!(refused(LISTS, b"", 8), (14, 0, 0));
            assert_eq!(refused(LISTS, b".", 11), (14, 0, 0));
            assert_eq!(refused(LISTS, &long[1..], 3 * long.len() + 5), (14, 0, 0));
            // One byte fewer just fits, and nothing goes behind it.
            take(&mut flow, table, &long[1..]);
            assert_eq!(flow.total(), RUNNING_TEXT);
            let refused = flow.piece(table, Margins::USUAL, LISTS, b".", &mut room[..3]);
            assert_eq!(refused.err(), Some(Ground::RunningLong));
            assert_eq!(take(&mut flow, table, b""), (vec![], 0));
            assert_eq!(finish(&mut flow, table), (vec![], 0));
            assert_eq!(flow, Flow::new());
        });
    }

    /// The state of a text with this total that holds these bytes.
    fn state(held: &[u8], run: u8, total: usize) -> [u8; STATE] {
        let mut state = [0; STATE];
        state[0] = held.len() as u8;
        state[1] = run;
        state[2..6].copy_from_slice(&(total as u32).to_be_bytes());
        state[HELD..HELD + held.len()].copy_from_slice(held);
        state
    }

    #[test]
    fn bytes_that_no_text_has_are_a_new_text() {
        let reads = |bytes: &[u8; STATE]| {
            let flow = Flow::from_bytes(bytes);
            assert!(flow.bytes() == bytes || flow == Flow::new());
            flow.bytes() == bytes
        };
        let (most, full) = (RUNNING_TEXT, &[b'Z'; WORD_LIMIT + 1]);
        let mut waiting = *full;
        waiting[WORD_LIMIT] = b'\'';
        for (held, run, least) in [
            (&b""[..], 0, 0),
            (b"a", 0, 1),
            (b"l'E", 0, 3),
            (b"l'", 0, 2),
            (&full[1..], 0, WORD_LIMIT),
            (&waiting, 0, WORD_LIMIT + 1),
            (b"", 1, WORD_LIMIT + 1),
            (b"", 2, WORD_LIMIT + 2),
        ] {
            for total in [least, least + 1, most - 1, most] {
                assert!(reads(&state(held, run, total)));
            }
            for total in [most + 1, 1 << 24 | least, 0xffff_ffff] {
                assert!(!reads(&state(held, run, total)));
            }
            assert!(least == 0 || !reads(&state(held, run, least - 1)));
            // Any other byte before or behind what is held.
            for place in [6, 7].into_iter().chain(HELD + held.len()..STATE) {
                let mut other = state(held, run, most);
                other[place] = b'a';
                assert!(!reads(&other));
            }
        }
        for held in ["1", "'", "'a", "a''", "a''b", "a b", "a\0"].map(str::as_bytes) {
            assert!(!reads(&state(held, 0, most)));
        }
        for held in [&full[..], b"\xe9"] {
            assert!(!reads(&state(held, 0, most)));
        }
        for (held, run) in [(&b"a"[..], 1), (b"a", 2), (b"a'", 2), (b"", 3), (b"", 255)] {
            assert!(!reads(&state(held, run, most)));
        }
        for count in [1, 65, 255] {
            let mut other = state(b"", 0, most);
            other[0] = count;
            assert!(!reads(&other));
        }
    }

    #[test]
    fn no_room_is_too_great_to_tell() {
        let flow = Flow::from_bytes(&state(b"on", 0, 2));
        assert_eq!(flow.room_for(0), 6);
        assert_eq!(flow.room_for(RUNNING_TEXT), 3 * RUNNING_TEXT + 6);
        assert_eq!(flow.room_for(usize::MAX / 3), usize::MAX);
        assert_eq!(flow.room_for(usize::MAX), usize::MAX);
    }

    #[test]
    fn a_flow_is_shown_by_what_it_holds() {
        let shown = format!("{:?}", Flow::from_bytes(&state(b"l'E", 0, 70_000)));
        assert_eq!(shown, "Flow { held: \"l'E\", run: 0, total: 70000 }");
        let shown = format!("{:?}", Flow::from_bytes(&state(b"", 2, 65)));
        assert_eq!(shown, "Flow { held: \"\", run: 2, total: 65 }");
    }
}
