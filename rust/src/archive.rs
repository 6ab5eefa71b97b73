//! Breaks as the table machine of 1980 gives them, for archive reprints.
//!
//! It has its tables inside, so the call takes neither lists nor margins.
//! Whoever lends rooms of other sizes has it in [`raw`].

#![forbid(unsafe_code)]

use crate::answer::{executed, finding};
use crate::{raw, Breaks, Ground, ROOM, ROOM_1980};

// Its breaks have their places among those of the other calls.
const _: () = assert!(ROOM_1980 <= ROOM);

/// Breaks a word as the table machine of 1980 does.
///
/// Words of fewer than five letters have no break. No break has fewer than two
/// letters before it or fewer than three behind it.
///
/// ```
/// use tteolmigu::{archive, Archived, Ground};
///
/// match archive::hyphenate(b"Interchangeable")? {
///     Archived::Found { breaks, executed } => {
///         assert_eq!(breaks.iter().collect::<Vec<_>>(), [2, 5, 11]); // In-ter-change-able
///         assert_eq!(executed, 21);
///     }
///     Archived::RanOut => panic!("more than 20,000 instructions"),
/// }
///
/// let refused = archive::hyphenate(b"n\xb0 1980");
/// assert_eq!(refused, Err(Ground::NotLetter { place: 1 }));
/// # Ok::<(), Ground>(())
/// ```
///
/// # Errors
///
/// Grounds 2, 4 and 3, judged in this order. The room is the call's own.
pub fn hyphenate(word: &[u8]) -> Result<Archived, Ground> {
    let mut room = [0; ROOM];
    let found = finding(raw::archive(word, &mut room[..ROOM_1980]))?;
    Ok(match executed(found) {
        Some(executed) => Archived::Found {
            breaks: Breaks::of_room(&room, 0),
            executed,
        },
        None => Archived::RanOut,
    })
}

/// What the machine of 1980 finds for a word. See [`hyphenate`].
///
/// ```
/// use tteolmigu::{archive, Archived, Fit, Gauge, Ground, WIDTHS};
///
/// // Its breaks fit a line as those of a table do.
/// let word = b"nation";
/// if let Archived::Found { breaks, .. } = archive::hyphenate(word)? {
///     let gauge = Gauge { hyphen: 1.0, line: 5.0 };
///     assert_eq!(gauge.fit(&[1.0; WIDTHS], word, breaks)?, Fit::Break(2));
/// }
/// # Ok::<(), Ground>(())
/// ```
#[derive(Clone, Copy, Debug, PartialEq, Eq, Hash)]
pub enum Archived {
    /// It came to its end.
    Found {
        /// Where the word may be broken. No cell of a table was looked at.
        breaks: Breaks,
        /// How many instructions were executed, those of the suffix table and
        /// of the prefix table together.
        executed: u32,
    },
    /// It would have executed more than 20,000 instructions.
    RanOut,
}

impl Archived {
    /// The breaks, if it came to its end.
    ///
    /// ```
    /// use tteolmigu::{archive, Ground};
    ///
    /// let breaks = archive::hyphenate(b"typesetting")?.breaks();
    /// assert_eq!(breaks.map(|breaks| breaks.len()), Some(1)); // typeset-ting
    /// # Ok::<(), Ground>(())
    /// ```
    pub fn breaks(self) -> Option<Breaks> {
        match self {
            Archived::Found { breaks, .. } => Some(breaks),
            Archived::RanOut => None,
        }
    }
}

#[cfg(test)]
mod tests {
    use super::*;
    use crate::LETTERS_1980;
    use std::string::String;
    use std::vec::Vec;

    /// A word with a hyphen at each break, and the instructions executed.
    fn told(word: &str) -> (String, u32) {
        let (breaks, executed) = match hyphenate(word.as_bytes()) {
            Ok(Archived::Found { breaks, executed }) => (breaks, executed),
            other => panic!("{:?}", other),
        };
        assert_eq!(breaks.looks(), 0);
        let mut text = String::new();
        for (gap, letter) in word.chars().enumerate() {
            if breaks.contains(gap) {
                text.push('-');
            }
            text.push(letter);
        }
        (text, executed)
    }

    #[test]
    fn words_are_broken_as_in_1980() {
        for (text, executed) in [
            ("hyphena-tion", 11),
            ("Con-catena-tion", 9),
            ("un-der-state-ment", 15),
            ("agree-abled", 20),
            ("program", 3),
            ("LATELY", 10),
            ("late", 0),
            ("a", 0),
        ] {
            let word = text.replace('-', "");
            assert_eq!(told(&word), (String::from(text), executed));
        }
    }

    #[test]
    fn the_longest_word_has_a_break_near_each_end() {
        let mut word = String::from("in");
        word += &"e".repeat(LETTERS_1980 - 7);
        word += "table";
        assert_eq!(word.len(), LETTERS_1980);
        let breaks = hyphenate(word.as_bytes()).unwrap().breaks().unwrap();
        let last = breaks.iter().next_back();
        assert_eq!(breaks.iter().next(), Some(2));
        assert!(last < Some(LETTERS_1980 - 2), "{:?}", breaks);
    }

    #[test]
    fn a_word_is_refused() {
        let long = [b'a'; LETTERS_1980 + 1];
        assert_eq!(hyphenate(b""), Err(Ground::WordEmpty));
        assert_eq!(hyphenate(&long), Err(Ground::WordLong));
        assert!(hyphenate(&long[1..]).is_ok());
        assert_eq!(hyphenate(b"ab1"), Err(Ground::NotLetter { place: 2 }));
    }

    #[test]
    fn only_the_room_asked_for_is_written() {
        for size in 0..2 * ROOM_1980 {
            let mut room: Vec<u8> = (0..size).map(|_| 7).collect();
            let answer = raw::archive(b"nation", &mut room);
            if size < ROOM_1980 {
                assert_eq!(Ground::of_answer(answer), Some(Ground::RoomShort));
                assert!(room.iter().all(|&byte| byte == 7));
            } else {
                assert_eq!(answer, 1 << 32 | 7);
                assert_eq!(room[..4], [0, 0, 1, 0]);
                assert!(room[4..ROOM_1980].iter().all(|&byte| byte == 0));
                assert!(room[ROOM_1980..].iter().all(|&byte| byte == 7));
            }
        }
    }
}
