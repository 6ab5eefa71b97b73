//! The rules of the scope document and of the change requests, written a
//! second time and from their words alone.
//!
//! Nothing here is clever: lists are read into vectors, levels come from
//! trying every pattern at every place, the checker lists the table's paths,
//! first fit tries one base after the other, the width of each beginning of a
//! word is summed from its first letter on, the machine of 1980 goes from row to
//! row, and a piece of a running text is read together with all that was left
//! open before it.

pub mod binary64;
pub mod calls;
pub mod fit;
pub mod gauge;
pub mod liang;
pub mod machine1980;
pub mod right;
pub mod running;
pub mod seen1980;
pub mod table;
pub mod tables1980;
pub mod text;

pub use calls::{check, hyphenate, levels, lookup, pack};
pub use gauge::{fit_line, fit_line_by_integers, Gauge, WIDTHS, WIDTH_LIMIT};
pub use machine1980::{archive, LETTERS_1980};
pub use running::{end, piece, Given, ROOM_PER_BYTE, RUNNING_TEXT, STATE};
pub use seen1980::Seen;
pub use text::{Exception, Pattern};

/// How many letters there are, capitals like small ones. Their symbols are 1 to
/// this number.
pub const LETTERS: u8 = 26;
/// The symbol of the word's edge.
pub const EDGE: u8 = 27;
/// The symbol of an apostrophe, which counts as a letter of a word.
pub const APOSTROPHE: u8 = 28;
/// How many symbols there are: a path is a string of 1 to this number.
pub const SYMBOLS: u8 = 28;
/// The most symbols of a pattern, and so of a walk.
pub const LONGEST: usize = 16;
/// The most letters of a word or an exception line, apostrophes too.
pub const WORD_LIMIT: usize = 63;
/// The most bytes of a pattern text.
pub const PATTERN_TEXT_LIMIT: usize = 32_768;
/// The most bytes of an exception text.
pub const EXCEPTION_TEXT_LIMIT: usize = 8_192;
/// The most cells of a table.
pub const CELL_LIMIT: usize = 8_192;
/// The most entries of a table.
pub const ENTRY_LIMIT: usize = 2_048;
/// The least room for breaks or levels.
pub const MARK_ROOM: usize = 64;
/// The least room for packing: the length of the largest table.
pub const PACK_ROOM: usize = 6 + 6 * CELL_LIMIT + 5 * ENTRY_LIMIT;

/// A refusal: the ground's number, the list (0 if none), the place (0 if none).
#[derive(Clone, Copy, Debug, PartialEq, Eq)]
pub struct Refusal {
    /// The ground's number.
    pub number: u8,
    /// 1 for the customer's list, 2 for the house's, else 0.
    pub list: u8,
    /// A byte in the word or a line's offset.
    pub place: usize,
}

impl Refusal {
    /// A refusal without list and place.
    pub fn plain(number: u8) -> Refusal {
        Refusal {
            number,
            list: 0,
            place: 0,
        }
    }

    /// A refusal that tells a place.
    pub fn at(number: u8, place: usize) -> Refusal {
        Refusal {
            number,
            list: 0,
            place,
        }
    }

    /// The 64 bits that the C interface gives for it.
    pub fn answer(&self) -> u64 {
        (self.number as u64) << 56 | (self.list as u64) << 48 | self.place as u64
    }
}
