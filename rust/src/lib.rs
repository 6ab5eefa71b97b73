//! Hyphenation of words after Liang's patterns, over packed tables: safe calls
//! for the library's C interface.
//!
//! Words, lists and tables may hold any bytes. Each call ends with a finding or
//! with the [`Ground`] on which it refuses. A [`Table`] is only to be had by
//! packing a list or by checking somebody's bytes with one, so that nobody
//! hyphenates over a wrong table unawares. A word has letters, a to z and A to
//! Z, and apostrophes, each between two letters, that count as letters.
//!
//! ```
//! use tteolmigu::{Exceptions, Fit, Flow, Gauge, Ground, Margins, Table, PACK_ROOM, WIDTHS};
//!
//! // Pack a list. The table lies at the beginning of the room.
//! let patterns = b"he2n\nhena4\nhen5at\nhy3ph\n2io\n1na\nn2at\no2n\n1tio\n";
//! let mut room = [0; PACK_ROOM];
//! let packed = Table::pack(patterns, &mut room)?;
//! assert_eq!((packed.cells(), packed.entries()), (32, 7));
//!
//! // Check a stranger's table with the list that it should be right for.
//! let stranger = packed.bytes().to_vec();
//! let table = Table::check(patterns, &stranger)?;
//!
//! // Break a word, with at least 2 letters before each break and 3 behind it.
//! let margins = Margins::new(2, 3)?;
//! let lists = Exceptions { customer: b"", house: b"eve-ning\n" };
//! let word = "hyphenation";
//! let breaks = table.hyphenate(margins, word.as_bytes(), lists)?;
//! assert_eq!(breaks.iter().collect::<Vec<_>>(), [2, 6]);
//! assert_eq!(breaks.looks(), 27);
//!
//! // Write it with a hyphen at every break.
//! let mut written = String::new();
//! let mut from = 0;
//! for at in &breaks {
//!     written += &word[from..at];
//!     written += "-";
//!     from = at;
//! }
//! written += &word[from..];
//! assert_eq!(written, "hy-phen-ation");
//!
//! // Find the last break that fits a line of 15 mm, where a hyphen is 1 mm wide
//! // and each letter 2 mm.
//! let gauge = Gauge { hyphen: 1.0, line: 15.0 };
//! let widths = [2.0; WIDTHS];
//! assert_eq!(gauge.fit(&widths, word.as_bytes(), breaks)?, Fit::Break(6));
//!
//! // An apostrophe between two letters is one of the word's.
//! let lists = Exceptions { customer: b"l'en-tra-ta\n", house: b"" };
//! let breaks = table.hyphenate(margins, b"L'Entrata", lists)?;
//! assert_eq!(breaks.iter().collect::<Vec<_>>(), [4]);
//!
//! // A running text comes in pieces of any size and goes out with a backslash and
//! // a hyphen in each break. The unfinished word is held until the next piece.
//! let (mut flow, mut room) = (Flow::new(), [0; 192]);
//! let mut printed = Vec::new();
//! for piece in ["On hyphen", "ation, l'en", "trata"] {
//!     let written = flow.piece(table, margins, lists, piece.as_bytes(), &mut room)?;
//!     printed.extend_from_slice(written.text);
//! }
//! assert_eq!(printed, b"On hy\\-phen\\-ation, ");
//! printed.extend_from_slice(flow.end(table, margins, lists, &mut room)?.text);
//! assert_eq!(printed, b"On hy\\-phen\\-ation, l'en\\-trata");
//!
//! // Look at a refusal: its ground and place, its number, its words.
//! let ground = table.hyphenate(margins, b"a1", lists).unwrap_err();
//! assert_eq!(ground, Ground::NotLetter { place: 1 });
//! assert_eq!(ground.number(), 3);
//! assert_eq!(ground.to_string(), "ground 3: byte 1 of the word is no letter");
//!
//! // A table with one byte wrong is refused, and so is one cut short.
//! let mut spoilt = stranger.clone();
//! spoilt[232] = 9;
//! assert_eq!(Table::check(patterns, &spoilt), Err(Ground::NotRight));
//! assert_eq!(Table::check(patterns, &spoilt[..9]), Err(Ground::TableForm));
//! # Ok::<(), Ground>(())
//! ```
//!
//! The crate needs `core` alone and asks for no memory. The limits at its root
//! have the names that the header has. Over bytes that nobody checked there are
//! the calls of [`any`], for archive reprints there are the breaks of 1980 in
//! [`archive`], and [`raw`] has all nine calls with the answers' 64 bits as they
//! come.
//!
//! With the feature `std`, which isn't on by default, [`Ground`] is a
//! `std::error::Error`.

#![no_std]
#![warn(missing_docs, missing_debug_implementations)]
// `forbid` stands in every module but `raw`.
#![deny(unsafe_code)]

#[cfg(any(test, feature = "std"))]
extern crate std;

mod answer;
pub mod any;
pub mod archive;
mod breaks;
mod exceptions;
mod flow;
mod gauge;
mod ground;
mod levels;
mod limits;
mod margins;
pub mod raw;
mod table;

pub use archive::Archived;
pub use breaks::{Breaks, Positions};
pub use exceptions::{Exceptions, Line, List};
pub use flow::{Flow, Written};
pub use gauge::{Fit, Gauge};
pub use ground::Ground;
pub use levels::Levels;
pub use limits::*;
pub use margins::Margins;
pub use table::Table;
