//! Why a call refuses.

#![forbid(unsafe_code)]

use crate::answer::bits;
use crate::{
    List, CELL_LIMIT, ENTRY_LIMIT, MARGIN_LEAST, MARGIN_LIMIT, PACK_ROOM, ROOM, ROOM_PER_BYTE,
    RUNNING_TEXT, WIDTH_LEAST, WIDTH_LIMIT, WORD_LIMIT,
};
use core::fmt;

/// Why a call refuses, with the place where it tells one.
///
/// The names are those of the header. Later versions of the library have more
/// grounds, so a `match` needs an arm for those.
///
/// ```
/// use tteolmigu::{Exceptions, Ground, List, Margins, Table, PACK_ROOM};
///
/// let mut room = [0; PACK_ROOM];
/// let table = Table::pack(b"a1b\n", &mut room)?;
/// let lists = Exceptions { house: b"met-al\nme-tal\n", ..Exceptions::NONE };
/// match table.hyphenate(Margins::USUAL, b"abba", lists) {
///     Err(Ground::BadException { list: List::House, offset }) => assert_eq!(offset, 7),
///     Err(ground) => panic!("{}", ground),
///     Ok(_) => panic!("the second line has the letters of the first"),
/// }
/// # Ok::<(), Ground>(())
/// ```
#[derive(Clone, Copy, Debug, PartialEq, Eq, Hash)]
#[non_exhaustive]
pub enum Ground {
    /// 1: a margin outside 1 to 63.
    Margin,
    /// 2: the word is empty.
    WordEmpty,
    /// 3: a byte of the word is no letter and no apostrophe between two
    /// letters.
    NotLetter {
        /// The number of the first such byte, from 0.
        place: usize,
    },
    /// 4: the word has 64 bytes or more.
    WordLong,
    /// 5: the break or level room has fewer than 64 bytes.
    RoomShort,
    /// 6: a bad exception line.
    BadException {
        /// The list that has it.
        list: List,
        /// The offset of the first bad line.
        offset: usize,
    },
    /// 7: a bad pattern line.
    BadPattern {
        /// The offset of the first bad line.
        offset: usize,
    },
    /// 8: a text is over its limit.
    TextLong,
    /// 9: the table's length or its first record is wrong.
    TableForm,
    /// 10: the pack room has fewer than 59,398 bytes.
    PackRoomShort,
    /// 11: the table of this list would need more than 8,192 cells or 2,048
    /// entries.
    NoFit,
    /// 12: the table isn't right for the list.
    NotRight,
    /// 13: a width outside 0 to 1,000, or not a number: the hyphen's, the
    /// line's, one of the 26 letters' or the apostrophe's.
    BadWidth,
    /// 14: the room for running text has fewer than three bytes for each byte
    /// held or in the piece.
    TextRoomShort,
    /// 21: the piece takes the running text past 1,048,576 bytes.
    RunningLong,
    /// A refusal that this version doesn't know. The library that the crate
    /// was made with never gives one.
    #[non_exhaustive]
    Unknown {
        /// The ground's number.
        number: u8,
        /// The number of the list, 0 where none is told.
        list: u8,
        /// The place, 0 where none is told.
        place: u64,
    },
}

impl Ground {
    /// The ground on which an answer of [`raw`](crate::raw) refuses; `None`
    /// where the answer is a finding.
    ///
    /// ```
    /// use tteolmigu::{raw, Ground};
    ///
    /// let table = [1, 1, 0, 1, 0, 0, 2, 0, 0, 0, 0, 0];
    /// let answer = raw::levels(b"on", &table, &mut [0; 63]);
    /// assert_eq!(Ground::of_answer(answer), Some(Ground::RoomShort));
    /// let answer = raw::levels(b"on", &table, &mut [0; 64]);
    /// assert_eq!(Ground::of_answer(answer), None);
    /// ```
    pub fn of_answer(answer: u64) -> Option<Ground> {
        let number = bits(answer, 56, 64) as u8;
        let list = bits(answer, 48, 56) as u8;
        let place = bits(answer, 0, 48);
        match number {
            0 => None,
            _ => Some(Ground::told(number, list, place)),
        }
    }

    /// The ground with these three. What no ground tells is kept as it is, so
    /// that [`Ground::number`], [`Ground::list`] and [`Ground::place`] always
    /// give back what the library told.
    fn told(number: u8, list: u8, place: u64) -> Ground {
        let unknown = Ground::Unknown {
            number,
            list,
            place,
        };
        let at = match usize::try_from(place) {
            Ok(at) => at,
            Err(_) => return unknown,
        };
        match (number, list, at) {
            (1, 0, 0) => Ground::Margin,
            (2, 0, 0) => Ground::WordEmpty,
            (3, 0, place) => Ground::NotLetter { place },
            (4, 0, 0) => Ground::WordLong,
            (5, 0, 0) => Ground::RoomShort,
            (6, crate::CUSTOMER_LIST, offset) => Ground::BadException {
                list: List::Customer,
                offset,
            },
            (6, crate::HOUSE_LIST, offset) => Ground::BadException {
                list: List::House,
                offset,
            },
            (7, 0, offset) => Ground::BadPattern { offset },
            (8, 0, 0) => Ground::TextLong,
            (9, 0, 0) => Ground::TableForm,
            (10, 0, 0) => Ground::PackRoomShort,
            (11, 0, 0) => Ground::NoFit,
            (12, 0, 0) => Ground::NotRight,
            (13, 0, 0) => Ground::BadWidth,
            (14, 0, 0) => Ground::TextRoomShort,
            (21, 0, 0) => Ground::RunningLong,
            _ => unknown,
        }
    }

    /// The ground's number, as in the header.
    ///
    /// ```
    /// use tteolmigu::Ground;
    ///
    /// assert_eq!(Ground::Margin.number(), 1);
    /// assert_eq!(Ground::NotLetter { place: 5 }.number(), 3);
    /// assert_eq!(Ground::RunningLong.number(), 21);
    /// ```
    pub const fn number(self) -> u8 {
        match self {
            Ground::Margin => 1,
            Ground::WordEmpty => 2,
            Ground::NotLetter { .. } => 3,
            Ground::WordLong => 4,
            Ground::RoomShort => 5,
            Ground::BadException { .. } => 6,
            Ground::BadPattern { .. } => 7,
            Ground::TextLong => 8,
            Ground::TableForm => 9,
            Ground::PackRoomShort => 10,
            Ground::NoFit => 11,
            Ground::NotRight => 12,
            Ground::BadWidth => 13,
            Ground::TextRoomShort => 14,
            Ground::RunningLong => 21,
            Ground::Unknown { number, .. } => number,
        }
    }

    /// The number of the exception list that the ground speaks of, 0 where it
    /// speaks of none.
    ///
    /// ```
    /// use tteolmigu::{Ground, List};
    ///
    /// assert_eq!(Ground::BadException { list: List::House, offset: 7 }.list(), 2);
    /// assert_eq!(Ground::BadPattern { offset: 7 }.list(), 0);
    /// ```
    pub const fn list(self) -> u8 {
        match self {
            Ground::BadException { list, .. } => list.number(),
            Ground::Unknown { list, .. } => list,
            _ => 0,
        }
    }

    /// The place that the ground tells, a byte of the word or the offset of a
    /// line; 0 where it tells none.
    ///
    /// With these numbers a program can write what the project's own write for
    /// a refused word:
    ///
    /// ```
    /// use tteolmigu::Ground;
    ///
    /// let ground = Ground::NotLetter { place: 1 };
    /// assert_eq!(format!("? {} {}", ground.number(), ground.place()), "? 3 1");
    /// assert_eq!(Ground::TextLong.place(), 0);
    /// ```
    pub const fn place(self) -> u64 {
        match self {
            Ground::NotLetter { place } => place as u64,
            Ground::BadException { offset, .. } => offset as u64,
            Ground::BadPattern { offset } => offset as u64,
            Ground::Unknown { place, .. } => place,
            _ => 0,
        }
    }
}

/// The ground in words, with its number and place.
impl fmt::Display for Ground {
    fn fmt(&self, out: &mut fmt::Formatter<'_>) -> fmt::Result {
        write!(out, "ground {}: ", self.number())?;
        match self {
            Ground::Margin => {
                write!(out, "a margin outside {} to {}", MARGIN_LEAST, MARGIN_LIMIT)
            }
            Ground::WordEmpty => write!(out, "the word is empty"),
            Ground::NotLetter { place } => write!(out, "byte {} of the word is no letter", place),
            Ground::WordLong => write!(out, "the word has {} bytes or more", WORD_LIMIT + 1),
            Ground::RoomShort => {
                write!(out, "the break or level room has fewer than {} bytes", ROOM)
            }
            Ground::BadException { list, offset } => {
                write!(out, "a bad line in {}, at offset {}", list, offset)
            }
            Ground::BadPattern { offset } => {
                write!(out, "a bad pattern line, at offset {}", offset)
            }
            Ground::TextLong => write!(out, "a text is over its limit"),
            Ground::TableForm => write!(out, "the table's length or its first record is wrong"),
            Ground::PackRoomShort => {
                write!(out, "the pack room has fewer than {} bytes", PACK_ROOM)
            }
            Ground::NoFit => write!(
                out,
                "the table of this list would need more than {} cells or {} entries",
                CELL_LIMIT, ENTRY_LIMIT
            ),
            Ground::NotRight => write!(out, "the table isn't right for the list"),
            Ground::BadWidth => write!(
                out,
                "a width outside {} to {}, or not a number",
                WIDTH_LEAST, WIDTH_LIMIT
            ),
            Ground::TextRoomShort => write!(
                out,
                "the room has fewer than {} bytes for each byte held or in the piece",
                ROOM_PER_BYTE
            ),
            Ground::RunningLong => {
                write!(out, "the piece takes the text past {} bytes", RUNNING_TEXT)
            }
            Ground::Unknown { list, place, .. } => {
                write!(out, "unknown here, with list {} and place {}", list, place)
            }
        }
    }
}

#[cfg(feature = "std")]
impl std::error::Error for Ground {}

#[cfg(test)]
mod tests {
    use super::*;
    use crate::limits::tests::HEADER;
    use std::format;
    use std::string::{String, ToString};
    use std::vec::Vec;

    fn answer(number: u64, list: u64, place: u64) -> u64 {
        number << 56 | list << 48 | place
    }

    /// `NOT_LETTER` as `NotLetter`.
    fn in_rust(name: &str) -> String {
        let parts = name.split('_').map(|part| part.split_at(1));
        parts
            .map(|(first, rest)| first.to_string() + &rest.to_lowercase())
            .collect()
    }

    #[test]
    fn the_names_and_numbers_are_the_headers() {
        let grounds = HEADER.split("enum tteolmigu_ground {").nth(1).unwrap();
        let grounds = grounds.split('}').next().unwrap();
        let mut numbers = Vec::new();
        for line in grounds.split(',') {
            let (name, number) = line.trim().split_once(" = ").unwrap();
            let number: u8 = number.parse().unwrap();
            let list = u64::from(number == 6);
            let ground = Ground::of_answer(answer(number.into(), list, 0)).unwrap();
            let shown = format!("{:?}", ground);
            let variant = shown.split(' ').next().unwrap();
            assert_eq!(variant, in_rust(name.strip_prefix("TTEOLMIGU_").unwrap()));
            assert_eq!(ground.number(), number);
            numbers.push(number);
        }
        assert_eq!(numbers, (1..=14).chain([21]).collect::<Vec<u8>>());
    }

    #[test]
    fn nothing_told_is_lost() {
        for number in 1..=255 {
            for list in [0, 1, 2, 3, 255] {
                for place in [0, 1, 8_191, 0xffff_ffff, 0xffff_ffff_ffff] {
                    let told = answer(number, list, place);
                    let ground = Ground::of_answer(told).unwrap();
                    let again = (ground.number().into(), ground.list().into(), ground.place());
                    assert_eq!(again, (number, list, place));
                }
            }
        }
    }

    #[test]
    fn findings_have_no_ground() {
        for finding in [
            0,
            1,
            27,
            59_398,
            3 << 32,
            2 << 32 | 27,
            answer(0, 2, 8 << 16 | 6),
        ] {
            assert_eq!(Ground::of_answer(finding), None);
        }
    }

    #[test]
    fn what_no_ground_tells_is_unknown() {
        let known = |number, list, place| {
            let ground = Ground::of_answer(answer(number, list, place)).unwrap();
            !matches!(ground, Ground::Unknown { .. })
        };
        for number in [1, 2, 4, 5, 8, 9, 10, 11, 12, 13, 14, 21] {
            assert!(known(number, 0, 0));
            assert!(!known(number, 0, 1) && !known(number, 1, 0));
        }
        for number in [3, 7] {
            assert!(known(number, 0, 0) && known(number, 0, 9));
            assert!(!known(number, 1, 9));
        }
        assert!(known(6, 1, 0) && known(6, 2, 9));
        assert!(!known(6, 0, 9) && !known(6, 3, 9));
        for number in [15, 16, 17, 18, 19, 20, 22, 255] {
            assert!(!known(number, 0, 0));
        }
    }

    #[test]
    fn a_ground_is_said_in_words() {
        let said = |number, list, place| {
            let ground = Ground::of_answer(answer(number, list, place)).unwrap();
            ground.to_string()
        };
        assert_eq!(said(1, 0, 0), "ground 1: a margin outside 1 to 63");
        assert_eq!(said(3, 0, 1), "ground 3: byte 1 of the word is no letter");
        assert_eq!(said(4, 0, 0), "ground 4: the word has 64 bytes or more");
        assert_eq!(
            said(6, 1, 8_190),
            "ground 6: a bad line in the customer's list, at offset 8190"
        );
        assert_eq!(
            said(6, 2, 0),
            "ground 6: a bad line in the house's list, at offset 0"
        );
        assert_eq!(said(7, 0, 5), "ground 7: a bad pattern line, at offset 5");
        assert_eq!(
            said(13, 0, 0),
            "ground 13: a width outside 0 to 1000, or not a number"
        );
        assert_eq!(
            said(14, 0, 0),
            "ground 14: the room has fewer than 3 bytes for each byte held or in the piece"
        );
        assert_eq!(
            said(21, 0, 0),
            "ground 21: the piece takes the text past 1048576 bytes"
        );
        assert_eq!(
            said(15, 4, 5),
            "ground 15: unknown here, with list 4 and place 5"
        );
    }

    #[cfg(feature = "std")]
    #[test]
    fn a_ground_is_an_error() {
        let error: std::boxed::Box<dyn std::error::Error> = Ground::WordEmpty.into();
        assert_eq!(error.to_string(), "ground 2: the word is empty");
    }
}
