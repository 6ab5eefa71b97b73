//! The nine calls as the C interface answers them: one number of 64 bits,
//! not yet taken apart.
//!
//! They are safe to use, because every pointer and length comes from a slice.
//! Any bytes may be lent as texts, tables and states, any numbers as margins and
//! widths, and rooms of any size. `include/tteolmigu.h` says what the bits are
//! and what each call leaves in its room;
//! [`Ground::of_answer`](crate::Ground::of_answer) reads a refusal. Most
//! programs want [`Table`](crate::Table) instead; these are for rooms that
//! somebody else lends, and for tests that compare each bit.
//!
//! This is the only module with `unsafe` in it.

#![allow(unsafe_code)]

use crate::{STATE, WIDTHS};

mod c {
    extern "C" {
        pub fn tteolmigu_hyphenate(
            left: u64,
            right: u64,
            word: *const u8,
            word_length: usize,
            customer: *const u8,
            customer_length: usize,
            house: *const u8,
            house_length: usize,
            table: *const u8,
            table_length: usize,
            room: *mut u8,
            room_length: usize,
        ) -> u64;

        pub fn tteolmigu_levels(
            word: *const u8,
            word_length: usize,
            table: *const u8,
            table_length: usize,
            room: *mut u8,
            room_length: usize,
        ) -> u64;

        pub fn tteolmigu_pack(
            patterns: *const u8,
            patterns_length: usize,
            room: *mut u8,
            room_length: usize,
        ) -> u64;

        pub fn tteolmigu_check(
            patterns: *const u8,
            patterns_length: usize,
            table: *const u8,
            table_length: usize,
        ) -> u64;

        pub fn tteolmigu_lookup(
            word: *const u8,
            word_length: usize,
            customer: *const u8,
            customer_length: usize,
            house: *const u8,
            house_length: usize,
        ) -> u64;

        pub fn tteolmigu_fit(
            hyphen: f64,
            line: f64,
            widths: *const f64,
            word: *const u8,
            word_length: usize,
            room: *const u8,
            room_length: usize,
        ) -> u64;

        pub fn tteolmigu_1980(
            word: *const u8,
            word_length: usize,
            room: *mut u8,
            room_length: usize,
        ) -> u64;

        pub fn tteolmigu_piece(
            state: *mut u8,
            left: u64,
            right: u64,
            customer: *const u8,
            customer_length: usize,
            house: *const u8,
            house_length: usize,
            table: *const u8,
            table_length: usize,
            piece: *const u8,
            piece_length: usize,
            room: *mut u8,
            room_length: usize,
        ) -> u64;

        pub fn tteolmigu_end(
            state: *mut u8,
            left: u64,
            right: u64,
            customer: *const u8,
            customer_length: usize,
            house: *const u8,
            house_length: usize,
            table: *const u8,
            table_length: usize,
            room: *mut u8,
            room_length: usize,
        ) -> u64;
    }
}

/// Marks the breaks of a word in `room`, those that an exception line names and
/// those of the levels alike inside the margins. Grounds 1, 5, 2, 4, 3, 8, 6 and
/// 9, in this order.
///
/// ```
/// use tteolmigu::raw;
///
/// let table = [1, 1, 0, 1, 0, 0, 2, 0, 0, 0, 0, 0];
/// let mut room = [7; 64];
/// let answer = raw::hyphenate(2, 2, b"metal", b"", b"met-al\n", &table, &mut room);
/// assert_eq!(answer, 1 << 32); // one break, no looks
/// assert_eq!(room[..6], [0, 0, 0, 1, 0, 0]);
/// let answer = raw::hyphenate(2, 3, b"metal", b"", b"met-al\n", &table, &mut room);
/// assert_eq!(answer, 0); // only two letters stand behind the hyphen
/// assert_eq!(room, [0; 64]);
/// ```
pub fn hyphenate(
    left: u64,
    right: u64,
    word: &[u8],
    customer: &[u8],
    house: &[u8],
    table: &[u8],
    room: &mut [u8],
) -> u64 {
    // Safety: each pointer and length is that of a live slice. The library
    // writes only to the room, which is borrowed for writing.
    unsafe {
        c::tteolmigu_hyphenate(
            left,
            right,
            word.as_ptr(),
            word.len(),
            customer.as_ptr(),
            customer.len(),
            house.as_ptr(),
            house.len(),
            table.as_ptr(),
            table.len(),
            room.as_mut_ptr(),
            room.len(),
        )
    }
}

/// Writes the levels of a word's gaps to `room`. Grounds 5, 2, 4, 3 and 9, in
/// this order.
///
/// ```
/// use tteolmigu::raw;
///
/// let table = [1, 1, 0, 1, 0, 0, 2, 0, 0, 0, 0, 0];
/// let mut room = [7; 64];
/// assert_eq!(raw::levels(b"on", &table, &mut room), 4); // four looks
/// assert_eq!(room, [0; 64]);
/// assert_eq!(raw::levels(b"o1", &table, &mut room), 3 << 56 | 1);
/// ```
pub fn levels(word: &[u8], table: &[u8], room: &mut [u8]) -> u64 {
    // Safety: as in `hyphenate`.
    unsafe {
        c::tteolmigu_levels(
            word.as_ptr(),
            word.len(),
            table.as_ptr(),
            table.len(),
            room.as_mut_ptr(),
            room.len(),
        )
    }
}

/// Packs a pattern list into `room`. Grounds 10, 8, 7 and 11, in this order.
///
/// ```
/// use tteolmigu::{raw, PACK_ROOM};
///
/// let mut room = [7; PACK_ROOM];
/// assert_eq!(raw::pack(b"", &mut room), 12); // the table's length
/// assert_eq!(raw::pack(b"a", &mut room), 7 << 56);
/// ```
pub fn pack(patterns: &[u8], room: &mut [u8]) -> u64 {
    // Safety: as in `hyphenate`.
    unsafe {
        c::tteolmigu_pack(
            patterns.as_ptr(),
            patterns.len(),
            room.as_mut_ptr(),
            room.len(),
        )
    }
}

/// Judges whether a table is right for a list. Grounds 8, 7, 9 and 12, in this
/// order.
///
/// ```
/// use tteolmigu::raw;
///
/// let table = [1, 1, 0, 1, 0, 0, 2, 0, 0, 0, 0, 0];
/// assert_eq!(raw::check(b"", &table), 0); // accepted
/// assert_eq!(raw::check(b"a1\n", &table), 12 << 56);
/// ```
pub fn check(patterns: &[u8], table: &[u8]) -> u64 {
    // Safety: as in `hyphenate`; nothing at all is written.
    unsafe {
        c::tteolmigu_check(
            patterns.as_ptr(),
            patterns.len(),
            table.as_ptr(),
            table.len(),
        )
    }
}

/// Finds a word's exception line. It never refuses.
///
/// ```
/// use tteolmigu::raw;
///
/// let answer = raw::lookup(b"metal", b"", b"idler\nmet-al\n");
/// assert_eq!(answer, 2 << 48 | 6 << 16 | 6); // list, offset, length
/// assert_eq!(raw::lookup(b"on", b"", b"met-al\n"), 0);
/// ```
pub fn lookup(word: &[u8], customer: &[u8], house: &[u8]) -> u64 {
    // Safety: as in `hyphenate`; nothing at all is written.
    unsafe {
        c::tteolmigu_lookup(
            word.as_ptr(),
            word.len(),
            customer.as_ptr(),
            customer.len(),
            house.as_ptr(),
            house.len(),
        )
    }
}

/// Finds which break of a word fits a line: the whole word, else the last break
/// in `room` that fits with its hyphen, else none. `widths` are those of a to z.
/// Of the room the bytes 1 to n - 1 are read for a word of n letters, and any
/// but 0 is a break; nothing is written. Grounds 5, 2, 4, 3 and 13, in this
/// order.
///
/// ```
/// use tteolmigu::{raw, WIDTHS};
///
/// let mut room = [0; 64];
/// room[2] = 1; // na-tion
/// let widths = [1.5; WIDTHS];
/// assert_eq!(raw::fit(1.0, 9.0, &widths, b"nation", &room), 1 << 32); // whole
/// assert_eq!(raw::fit(1.0, 8.5, &widths, b"nation", &room), 2 << 32 | 2); // "na-"
/// assert_eq!(raw::fit(1.0, 3.5, &widths, b"nation", &room), 3 << 32); // none
/// assert_eq!(raw::fit(1.0, -1.0, &widths, b"nation", &room), 13 << 56);
/// ```
pub fn fit(hyphen: f64, line: f64, widths: &[f64; WIDTHS], word: &[u8], room: &[u8]) -> u64 {
    // Safety: as in `hyphenate`, and the library reads just so many widths;
    // nothing at all is written.
    unsafe {
        c::tteolmigu_fit(
            hyphen,
            line,
            widths.as_ptr(),
            word.as_ptr(),
            word.len(),
            room.as_ptr(),
            room.len(),
        )
    }
}

/// Marks in `room` the breaks that the table machine of 1980 gives a word. An
/// answer has the number of breaks in bits 32 to 47 and that of the instructions
/// executed in bits 0 to 31, or bit 48 alone if the budget of 20,000 ran out; the
/// room is untouched then. Grounds 5, 2, 4 and 3, in this order.
///
/// ```
/// use tteolmigu::raw;
///
/// let mut room = [7; 64];
/// assert_eq!(raw::archive(b"nation", &mut room), 1 << 32 | 7); // one break, 7 executed
/// assert_eq!(room[..6], [0, 0, 1, 0, 0, 0]); // na-tion
/// assert_eq!(raw::archive(b"on", &mut room), 0);
/// assert_eq!(raw::archive(b"o1", &mut room), 3 << 56 | 1);
/// ```
pub fn archive(word: &[u8], room: &mut [u8]) -> u64 {
    // Safety: as in `hyphenate`.
    unsafe { c::tteolmigu_1980(word.as_ptr(), word.len(), room.as_mut_ptr(), room.len()) }
}

/// Takes the next piece of a running text and writes what is settled of it to
/// `room`, with a backslash and a hyphen in each break. An answer has the length
/// of the text written in bits 32 to 55 and the count of looks in bits 0 to 31.
/// Grounds 1, 8, 6, 9, 21 and 14, in this order; refused, state and room keep
/// every byte.
///
/// ```
/// use tteolmigu::{raw, STATE};
///
/// let table = [1, 1, 0, 1, 0, 0, 2, 0, 0, 0, 0, 0];
/// let mut state = [0; STATE]; // a new text
/// let mut room = [7; 27];
/// let answer = raw::piece(&mut state, 2, 2, b"", b"met-al\n", &table, b"A me", &mut room);
/// assert_eq!(answer, 2 << 32 | 3); // "A " is written, after three looks
/// assert_eq!(state[..10], [2, 0, 0, 0, 0, 4, 0, 0, b'm', b'e']); // "me" is held
/// let answer = raw::piece(&mut state, 2, 2, b"", b"met-al\n", &table, b"tal.", &mut room);
/// assert_eq!(answer, 8 << 32);
/// assert_eq!(&room[..9], b"met\\-al.\x07");
/// ```
#[allow(clippy::too_many_arguments)]
pub fn piece(
    state: &mut [u8; STATE],
    left: u64,
    right: u64,
    customer: &[u8],
    house: &[u8],
    table: &[u8],
    piece: &[u8],
    room: &mut [u8],
) -> u64 {
    // Safety: as in `hyphenate`, and the library reads and writes just so many
    // bytes of the state, which is borrowed for writing.
    unsafe {
        c::tteolmigu_piece(
            state.as_mut_ptr(),
            left,
            right,
            customer.as_ptr(),
            customer.len(),
            house.as_ptr(),
            house.len(),
            table.as_ptr(),
            table.len(),
            piece.as_ptr(),
            piece.len(),
            room.as_mut_ptr(),
            room.len(),
        )
    }
}

/// Ends a running text: writes what is held, and the next piece begins a new
/// text. It answers as [`piece`] does. Grounds 1, 8, 6, 9 and 14, in this order.
///
/// ```
/// use tteolmigu::{raw, STATE};
///
/// let table = [1, 1, 0, 1, 0, 0, 2, 0, 0, 0, 0, 0];
/// let mut state = [0; STATE];
/// let mut room = [7; 6];
/// assert_eq!(raw::piece(&mut state, 2, 3, b"", b"", &table, b"on", &mut room), 0);
/// assert_eq!(raw::end(&mut state, 2, 3, b"", b"", &table, &mut room[..5]), 14 << 56);
/// assert_eq!(raw::end(&mut state, 2, 3, b"", b"", &table, &mut room), 2 << 32 | 4);
/// assert_eq!((state, &room), ([0; STATE], b"on\x07\x07\x07\x07"));
/// ```
pub fn end(
    state: &mut [u8; STATE],
    left: u64,
    right: u64,
    customer: &[u8],
    house: &[u8],
    table: &[u8],
    room: &mut [u8],
) -> u64 {
    // Safety: as in `piece`.
    unsafe {
        c::tteolmigu_end(
            state.as_mut_ptr(),
            left,
            right,
            customer.as_ptr(),
            customer.len(),
            house.as_ptr(),
            house.len(),
            table.as_ptr(),
            table.len(),
            room.as_mut_ptr(),
            room.len(),
        )
    }
}
