//! The version, and every limit that a caller meets. Each has its name in
//! `include/tteolmigu.h`, there with `TTEOLMIGU_` before it. A name here can't
//! begin with a year, so it ends with one.

#![forbid(unsafe_code)]

/// The first number of the version, which is also the package's.
///
/// ```
/// assert_eq!(tteolmigu::VERSION_MAJOR, 2);
/// ```
pub const VERSION_MAJOR: u32 = 2;

/// The second number of the version.
///
/// ```
/// assert!(tteolmigu::VERSION_MINOR < 1_000);
/// ```
pub const VERSION_MINOR: u32 = 1;

/// The third number of the version.
///
/// ```
/// assert!(tteolmigu::VERSION_PATCH < 1_000);
/// ```
pub const VERSION_PATCH: u32 = 0;

/// The version as one number, greater for a later one.
///
/// ```
/// assert!(tteolmigu::VERSION >= 1_000_000);
/// ```
pub const VERSION: u32 = VERSION_MAJOR * 1_000_000 + VERSION_MINOR * 1_000 + VERSION_PATCH;

// Beyond these a greater number would no longer be a later version.
const _: () = assert!(VERSION_MINOR < 1_000 && VERSION_PATCH < 1_000);

/// The least room in bytes for the breaks or levels of a word, where one is
/// lent.
///
/// ```
/// use tteolmigu::{raw, Ground, ROOM};
///
/// let table = [1, 1, 0, 1, 0, 0, 2, 0, 0, 0, 0, 0];
/// let answer = raw::levels(b"on", &table, &mut [0; ROOM]);
/// assert_eq!(Ground::of_answer(answer), None);
/// let answer = raw::levels(b"on", &table, &mut [0; ROOM - 1]);
/// assert_eq!(Ground::of_answer(answer), Some(Ground::RoomShort));
/// ```
pub const ROOM: usize = 64;

/// The least room in bytes for packing.
///
/// ```
/// use tteolmigu::{Ground, Table, PACK_ROOM};
///
/// let mut room = [0; PACK_ROOM];
/// assert!(Table::pack(b"", &mut room).is_ok());
/// assert_eq!(Table::pack(b"", &mut room[1..]), Err(Ground::PackRoomShort));
/// ```
pub const PACK_ROOM: usize = 59_398;

/// The most letters of a word, its apostrophes among them.
///
/// ```
/// use tteolmigu::{Ground, Table, PACK_ROOM, WORD_LIMIT};
///
/// let mut room = [0; PACK_ROOM];
/// let table = Table::pack(b"", &mut room)?;
/// assert!(table.levels(&[b'a'; WORD_LIMIT]).is_ok());
/// assert_eq!(table.levels(&[b'a'; WORD_LIMIT + 1]), Err(Ground::WordLong));
/// # Ok::<(), Ground>(())
/// ```
pub const WORD_LIMIT: usize = 63;

/// The least room in bytes for the breaks that the machine of 1980 gives, where
/// one is lent. It is a number of its own, beside [`ROOM`].
///
/// ```
/// use tteolmigu::{raw, Ground, ROOM_1980};
///
/// let answer = raw::archive(b"on", &mut [0; ROOM_1980]);
/// assert_eq!(Ground::of_answer(answer), None);
/// let answer = raw::archive(b"on", &mut [0; ROOM_1980 - 1]);
/// assert_eq!(Ground::of_answer(answer), Some(Ground::RoomShort));
/// ```
pub const ROOM_1980: usize = 64;

/// The most letters of a word for the machine of 1980.
///
/// ```
/// use tteolmigu::{archive, Ground, LETTERS_1980};
///
/// assert!(archive::hyphenate(&[b'a'; LETTERS_1980]).is_ok());
/// let longer = archive::hyphenate(&[b'a'; LETTERS_1980 + 1]);
/// assert_eq!(longer, Err(Ground::WordLong));
/// ```
pub const LETTERS_1980: usize = 63;

/// The bytes of a running text's state: 8, and one for each letter of a word
/// and for an apostrophe behind it.
///
/// ```
/// use tteolmigu::{Flow, STATE, WORD_LIMIT};
///
/// assert_eq!(STATE, 8 + WORD_LIMIT + 1);
/// assert_eq!(Flow::new().bytes(), &[0; STATE]);
/// ```
pub const STATE: usize = 72;

/// The most bytes of a running text.
///
/// ```
/// use tteolmigu::{raw, Ground, RUNNING_TEXT, STATE};
///
/// // A text that lacks one byte of it, which now comes.
/// let table = [1, 1, 0, 1, 0, 0, 2, 0, 0, 0, 0, 0];
/// let mut state = [0; STATE];
/// state[2..6].copy_from_slice(&(RUNNING_TEXT as u32 - 1).to_be_bytes());
/// let mut take = || raw::piece(&mut state, 2, 3, b"", b"", &table, b".", &mut [0; 3]);
/// assert_eq!(Ground::of_answer(take()), None);
/// assert_eq!(Ground::of_answer(take()), Some(Ground::RunningLong));
/// ```
pub const RUNNING_TEXT: usize = 1_048_576;

/// The least room in bytes for each byte of a running text that is held or in
/// the piece.
///
/// ```
/// use tteolmigu::{raw, Ground, ROOM_PER_BYTE, STATE};
///
/// let table = [1, 1, 0, 1, 0, 0, 2, 0, 0, 0, 0, 0];
/// let mut room = [0; 4 * ROOM_PER_BYTE];
/// let answer = raw::piece(&mut [0; STATE], 2, 3, b"", b"", &table, b"On a", &mut room);
/// assert_eq!(Ground::of_answer(answer), None);
/// let answer = raw::piece(&mut [0; STATE], 2, 3, b"", b"", &table, b"On a", &mut room[1..]);
/// assert_eq!(Ground::of_answer(answer), Some(Ground::TextRoomShort));
/// ```
pub const ROOM_PER_BYTE: usize = 3;

/// The least margin.
///
/// ```
/// use tteolmigu::{Ground, Margins, MARGIN_LEAST};
///
/// assert!(Margins::new(MARGIN_LEAST, MARGIN_LEAST).is_ok());
/// assert_eq!(Margins::new(MARGIN_LEAST, MARGIN_LEAST - 1), Err(Ground::Margin));
/// ```
pub const MARGIN_LEAST: u64 = 1;

/// The greatest margin.
///
/// ```
/// use tteolmigu::{Ground, Margins, MARGIN_LIMIT};
///
/// assert!(Margins::new(MARGIN_LIMIT, MARGIN_LIMIT).is_ok());
/// assert_eq!(Margins::new(MARGIN_LIMIT, MARGIN_LIMIT + 1), Err(Ground::Margin));
/// ```
pub const MARGIN_LIMIT: u64 = 63;

/// The most cells that are looked at for a word.
///
/// ```
/// use tteolmigu::{LOOK_LIMIT, PATTERN_LIMIT, WORD_LIMIT};
///
/// assert_eq!(LOOK_LIMIT as usize, PATTERN_LIMIT * (WORD_LIMIT + 2));
/// ```
pub const LOOK_LIMIT: u32 = 1_040;

/// How many letter widths there are: one for each letter, a to z, and behind
/// them the apostrophe's.
///
/// ```
/// assert_eq!(tteolmigu::WIDTHS, (b'a'..=b'z').count() + 1);
/// ```
pub const WIDTHS: usize = 27;

/// Where the apostrophe's width stands among the letters'.
///
/// ```
/// use tteolmigu::{raw, APOSTROPHE_WIDTH, WIDTHS};
///
/// let mut widths = [1.0; WIDTHS];
/// widths[APOSTROPHE_WIDTH] = 0.5;
/// assert_eq!(raw::fit(0.0, 2.5, &widths, b"l'a", &[0; 64]), 1 << 32); // whole
/// ```
pub const APOSTROPHE_WIDTH: usize = 26;

/// The least width, in millimetres.
///
/// ```
/// use tteolmigu::{raw, Ground, WIDTHS, WIDTH_LEAST};
///
/// let judge = |width| Ground::of_answer(raw::fit(0.0, width, &[1.0; WIDTHS], b"on", &[0; 64]));
/// assert_eq!(judge(WIDTH_LEAST), None);
/// assert_eq!(judge(-WIDTH_LEAST), None); // -0.0 is 0
/// assert_eq!(judge(WIDTH_LEAST - f64::MIN_POSITIVE), Some(Ground::BadWidth));
/// ```
pub const WIDTH_LEAST: f64 = 0.0;

/// The greatest width, in millimetres.
///
/// ```
/// use tteolmigu::{raw, Ground, WIDTHS, WIDTH_LIMIT};
///
/// let judge = |width| Ground::of_answer(raw::fit(0.0, width, &[1.0; WIDTHS], b"on", &[0; 64]));
/// assert_eq!(judge(WIDTH_LIMIT), None);
/// let above = f64::from_bits(WIDTH_LIMIT.to_bits() + 1);
/// assert_eq!(judge(above), Some(Ground::BadWidth));
/// ```
pub const WIDTH_LIMIT: f64 = 1_000.0;

/// The most bytes of a pattern list.
///
/// ```
/// use tteolmigu::{Ground, Table, PACK_ROOM, PATTERN_TEXT};
///
/// // Letters without a line feed are one bad line.
/// let (mut room, text) = ([0; PACK_ROOM], [b'a'; PATTERN_TEXT + 1]);
/// let within = Table::pack(&text[1..], &mut room);
/// assert_eq!(within, Err(Ground::BadPattern { offset: 0 }));
/// assert_eq!(Table::pack(&text, &mut room), Err(Ground::TextLong));
/// ```
pub const PATTERN_TEXT: usize = 32_768;

/// The most symbols of a pattern.
///
/// ```
/// use tteolmigu::{Ground, Table, PACK_ROOM, PATTERN_LIMIT};
///
/// let mut room = [0; PACK_ROOM];
/// let line = |symbols| "a".repeat(symbols) + "1\n";
/// assert!(Table::pack(line(PATTERN_LIMIT).as_bytes(), &mut room).is_ok());
/// let longer = Table::pack(line(PATTERN_LIMIT + 1).as_bytes(), &mut room);
/// assert_eq!(longer, Err(Ground::BadPattern { offset: 0 }));
/// ```
pub const PATTERN_LIMIT: usize = 16;

/// The highest level.
///
/// ```
/// use tteolmigu::{Ground, Table, LEVEL_LIMIT, PACK_ROOM};
///
/// let mut room = [0; PACK_ROOM];
/// let table = Table::pack(b"a9b\n", &mut room)?;
/// assert_eq!(table.levels(b"ab")?.at(1), Some(LEVEL_LIMIT));
/// # Ok::<(), Ground>(())
/// ```
pub const LEVEL_LIMIT: u8 = 9;

/// The most bytes of an exception list; each of the two has this limit for
/// itself.
///
/// ```
/// use tteolmigu::{any, Exceptions, Ground, Margins, EXCEPTION_TEXT};
///
/// let table = [1, 1, 0, 1, 0, 0, 2, 0, 0, 0, 0, 0];
/// let text = [b'a'; EXCEPTION_TEXT + 1];
/// let refused = |house| {
///     let lists = Exceptions { house, ..Exceptions::NONE };
///     any::hyphenate(Margins::USUAL, b"on", lists, &table).unwrap_err()
/// };
/// assert_eq!(refused(&text[1..]).number(), 6);
/// assert_eq!(refused(&text), Ground::TextLong);
/// ```
pub const EXCEPTION_TEXT: usize = 8_192;

/// The most letters of an exception line and its apostrophes, without its
/// hyphens.
///
/// ```
/// use tteolmigu::{Exceptions, EXCEPTION_LIMIT};
///
/// let found = |letters| {
///     let list = format!("a-a\n{}\n", "b".repeat(letters));
///     let lists = Exceptions { customer: list.as_bytes(), house: b"" };
///     lists.lookup(b"aa").is_some()
/// };
/// assert!(found(EXCEPTION_LIMIT));
/// assert!(!found(EXCEPTION_LIMIT + 1));
/// ```
pub const EXCEPTION_LIMIT: usize = 63;

/// The number of the customer's list in an answer.
///
/// ```
/// let ground = tteolmigu::Ground::of_answer(6 << 56 | 1 << 48).unwrap();
/// assert_eq!(ground.list(), tteolmigu::CUSTOMER_LIST);
/// ```
pub const CUSTOMER_LIST: u8 = 1;

/// The number of the house's list in an answer.
///
/// ```
/// let ground = tteolmigu::Ground::of_answer(6 << 56 | 2 << 48).unwrap();
/// assert_eq!(ground.list(), tteolmigu::HOUSE_LIST);
/// ```
pub const HOUSE_LIST: u8 = 2;

/// The edition that a table's head tells.
///
/// ```
/// use tteolmigu::{any, Ground, EDITION};
///
/// let table = |edition| [1, edition, 0, 1, 0, 0, 2, 0, 0, 0, 0, 0];
/// assert!(any::levels(b"on", &table(EDITION)).is_ok());
/// assert_eq!(any::levels(b"on", &table(EDITION + 1)), Err(Ground::TableForm));
/// ```
pub const EDITION: u8 = 1;

/// The bytes of a table's head.
///
/// ```
/// use tteolmigu::{Ground, Table, CELL_SIZE, ENTRY_SIZE, HEAD_SIZE, PACK_ROOM};
///
/// let mut room = [0; PACK_ROOM];
/// let table = Table::pack(b"a1b\n1c\n", &mut room)?;
/// let parts = HEAD_SIZE + CELL_SIZE * table.cells() + ENTRY_SIZE * table.entries();
/// assert_eq!(table.bytes().len(), parts);
/// # Ok::<(), Ground>(())
/// ```
pub const HEAD_SIZE: usize = 6;

/// The bytes of a cell.
///
/// ```
/// use tteolmigu::{Ground, Table, CELL_SIZE, HEAD_SIZE, PACK_ROOM};
///
/// let mut room = [0; PACK_ROOM];
/// let table = Table::pack(b"a1b\n", &mut room)?;
/// let cell = &table.bytes()[HEAD_SIZE + CELL_SIZE..][..CELL_SIZE];
/// assert_eq!(cell, [2, 1, 0, 1, 0, 0]); // cell 1: the symbol of "a", base 1
/// # Ok::<(), Ground>(())
/// ```
pub const CELL_SIZE: usize = 6;

/// The bytes of an entry.
///
/// ```
/// use tteolmigu::{Ground, Table, ENTRY_SIZE, PACK_ROOM};
///
/// let mut room = [0; PACK_ROOM];
/// let table = Table::pack(b"a1b\n", &mut room)?;
/// let entry = &table.bytes()[table.bytes().len() - ENTRY_SIZE..];
/// assert_eq!(entry, [3, 1, 1, 0, 0]); // level 1, one symbol back
/// # Ok::<(), Ground>(())
/// ```
pub const ENTRY_SIZE: usize = 5;

/// The most cells of a table. It has at least one.
///
/// ```
/// use tteolmigu::{any, Ground, CELL_LIMIT, CELL_SIZE, HEAD_SIZE};
///
/// let judge = |cells: usize| {
///     let mut table = vec![0; HEAD_SIZE + CELL_SIZE * cells];
///     let [high, low] = (cells as u16).to_be_bytes();
///     table[..HEAD_SIZE].copy_from_slice(&[1, 1, high, low, 0, 0]);
///     any::levels(b"on", &table).map(|_| ())
/// };
/// assert_eq!(judge(CELL_LIMIT), Ok(()));
/// assert_eq!(judge(CELL_LIMIT + 1), Err(Ground::TableForm));
/// ```
pub const CELL_LIMIT: usize = 8_192;

/// The most entries of a table.
///
/// ```
/// use tteolmigu::{any, Ground, ENTRY_LIMIT, ENTRY_SIZE, TABLE_LEAST};
///
/// let judge = |entries: usize| {
///     let mut table = vec![0; TABLE_LEAST + ENTRY_SIZE * entries];
///     let [high, low] = (entries as u16).to_be_bytes();
///     table[..6].copy_from_slice(&[1, 1, 0, 1, high, low]);
///     any::levels(b"on", &table).map(|_| ())
/// };
/// assert_eq!(judge(ENTRY_LIMIT), Ok(()));
/// assert_eq!(judge(ENTRY_LIMIT + 1), Err(Ground::TableForm));
/// ```
pub const ENTRY_LIMIT: usize = 2_048;

/// The bytes of the smallest table: a head and one cell.
///
/// ```
/// use tteolmigu::{Ground, Table, PACK_ROOM, TABLE_LEAST};
///
/// let mut room = [0; PACK_ROOM];
/// assert_eq!(Table::pack(b"", &mut room)?.bytes().len(), TABLE_LEAST);
/// # Ok::<(), Ground>(())
/// ```
pub const TABLE_LEAST: usize = 12;

/// The bytes of the largest table.
///
/// ```
/// use tteolmigu::{CELL_LIMIT, CELL_SIZE, ENTRY_LIMIT, ENTRY_SIZE, HEAD_SIZE, TABLE_LIMIT};
///
/// assert_eq!(TABLE_LIMIT, HEAD_SIZE + CELL_SIZE * CELL_LIMIT + ENTRY_SIZE * ENTRY_LIMIT);
/// ```
pub const TABLE_LIMIT: usize = PACK_ROOM;

/// The bytes of stack that any call but packing, the machine of 1980 and those of
/// a running text takes at most in the library.
/// The functions here add a room and some slices to it.
pub const STACK: usize = 1_024;

/// The bytes of stack that packing takes at most in the library.
pub const PACK_STACK: usize = 20_480;

/// The bytes of stack that a piece of a running text, and its end, take at most
/// in the library.
pub const PIECE_STACK: usize = 2_048;

/// The bytes of stack that the machine of 1980 takes at most in the library.
pub const STACK_1980: usize = 1_536;

#[cfg(test)]
pub(crate) mod tests {
    use super::*;
    use std::collections::BTreeMap;
    use std::string::{String, ToString};

    /// The header, as a C program reads it.
    pub(crate) const HEADER: &str = include_str!("../../include/tteolmigu.h");

    /// A name of the header as it is here.
    fn in_rust(name: &str) -> String {
        match name.strip_prefix("1980_") {
            Some(rest) => rest.to_string() + "_1980",
            None => name.to_string(),
        }
    }

    /// Each constant here with its name. They are all far below 2^53, so that as
    /// doubles they are what they are.
    macro_rules! named {
        ($($name:ident)*) => { BTreeMap::from([$((stringify!($name).to_string(), $name as f64)),*]) };
    }

    /// The value of a number, a name, or a sum of products of these.
    fn value(text: &str, names: &BTreeMap<String, f64>) -> f64 {
        let one = |text: &str| match text.trim().strip_prefix("TTEOLMIGU_") {
            Some(name) => names[&in_rust(name)],
            None => text.trim().trim_end_matches('u').parse().expect(text),
        };
        let text = text.trim_start_matches('(').trim_end_matches(')');
        let products = text
            .split('+')
            .map(|text| text.split('*').map(one).product::<f64>());
        products.sum()
    }

    /// Each constant that the header defines.
    fn header() -> BTreeMap<String, f64> {
        let mut names = BTreeMap::new();
        for line in HEADER.lines() {
            let line = line.split("/*").next().unwrap_or("");
            let define = line.strip_prefix("#define TTEOLMIGU_");
            if let Some((name, text)) = define.and_then(|rest| rest.split_once(' ')) {
                let value = value(text, &names);
                let before = names.insert(in_rust(name), value);
                assert_eq!(before, None, "{} is defined twice", name);
            }
        }
        names
    }

    #[test]
    fn the_constants_are_the_headers() {
        let ours = named!(
            VERSION_MAJOR VERSION_MINOR VERSION_PATCH VERSION ROOM PACK_ROOM WORD_LIMIT MARGIN_LEAST
            MARGIN_LIMIT LOOK_LIMIT WIDTHS APOSTROPHE_WIDTH WIDTH_LEAST WIDTH_LIMIT PATTERN_TEXT
            PATTERN_LIMIT LEVEL_LIMIT EXCEPTION_TEXT EXCEPTION_LIMIT CUSTOMER_LIST HOUSE_LIST EDITION HEAD_SIZE
            CELL_SIZE ENTRY_SIZE CELL_LIMIT ENTRY_LIMIT TABLE_LEAST TABLE_LIMIT STACK PACK_STACK
            ROOM_1980 LETTERS_1980 STACK_1980 STATE RUNNING_TEXT ROOM_PER_BYTE PIECE_STACK
        );
        assert_eq!(ours, header());
    }

    #[test]
    fn the_version_is_the_packages() {
        let number = |text: &str| text.parse::<u32>().unwrap();
        assert_eq!(VERSION_MAJOR, number(env!("CARGO_PKG_VERSION_MAJOR")));
        assert_eq!(VERSION_MINOR, number(env!("CARGO_PKG_VERSION_MINOR")));
        assert_eq!(VERSION_PATCH, number(env!("CARGO_PKG_VERSION_PATCH")));
    }
}
