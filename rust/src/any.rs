//! The calls on a word and on a running text over any bytes as table, also over
//! bytes that nobody checked.
//!
//! Each call ends with a finding or a refusal whatever the bytes are, and
//! reads nothing but what it is lent. But of such a table no more is judged
//! than its length and its first record. What it says of a word need not be
//! what any list says: only a [`Table`](crate::Table) is known to be right.
//! Whoever lends rooms of other sizes, margins of any size, or a state of any
//! bytes, has them in [`raw`].

#![forbid(unsafe_code)]

use crate::answer::{finding, looks, written};
use crate::{raw, Breaks, Exceptions, Flow, Ground, Levels, Margins, Written, ROOM};

/// Breaks a word over any bytes as table.
///
/// As [`Table::hyphenate`](crate::Table::hyphenate), but that the table may be
/// refused too.
///
/// ```
/// use tteolmigu::{any, Exceptions, Ground, Margins};
///
/// // A head, and a cell that says nothing.
/// let table = [1, 1, 0, 1, 0, 0, 2, 0, 0, 0, 0, 0];
/// let breaks = any::hyphenate(Margins::USUAL, b"on", Exceptions::NONE, &table)?;
/// assert!(breaks.is_empty());
///
/// let cut = any::hyphenate(Margins::USUAL, b"on", Exceptions::NONE, &table[..11]);
/// assert_eq!(cut, Err(Ground::TableForm));
/// # Ok::<(), Ground>(())
/// ```
///
/// # Errors
///
/// Grounds 2, 4, 3, 8, 6 and 9, judged in this order.
pub fn hyphenate(
    margins: Margins,
    word: &[u8],
    exceptions: Exceptions<'_>,
    table: &[u8],
) -> Result<Breaks, Ground> {
    let mut room = [0; ROOM];
    let found = finding(raw::hyphenate(
        margins.left(),
        margins.right(),
        word,
        exceptions.customer,
        exceptions.house,
        table,
        &mut room,
    ))?;
    Ok(Breaks::of_room(&room, looks(found)))
}

/// The levels of a word over any bytes as table.
///
/// As [`Table::levels`](crate::Table::levels), but that the table may be
/// refused too.
///
/// ```
/// use tteolmigu::{any, Ground};
///
/// // Cell 1 holds "a" and leads back to itself, over and over.
/// let table = [1, 1, 0, 3, 0, 0, 2, 0, 0, 0, 0, 0, 2, 1, 0, 1, 0, 0, 2, 1, 0, 1, 0, 0];
/// let levels = any::levels(b"aa", &table)?;
/// assert_eq!(levels.as_slice(), [0]);
/// assert_eq!(levels.looks(), 7);
///
/// assert_eq!(any::levels(b"aa", b"no table"), Err(Ground::TableForm));
/// # Ok::<(), Ground>(())
/// ```
///
/// # Errors
///
/// Grounds 2, 4, 3 and 9, judged in this order.
pub fn levels(word: &[u8], table: &[u8]) -> Result<Levels, Ground> {
    let mut room = [0; ROOM];
    let found = finding(raw::levels(word, table, &mut room))?;
    Ok(Levels::of_room(room, word.len(), looks(found)))
}

/// The next piece of a running text over any bytes as table.
///
/// As [`Flow::piece`], but that the table may be refused too.
///
/// ```
/// use tteolmigu::{any, Exceptions, Flow, Ground, Margins};
///
/// // A head, and a cell that says nothing.
/// let table = [1, 1, 0, 1, 0, 0, 2, 0, 0, 0, 0, 0];
/// let mut flow = Flow::new();
/// let (margins, lists) = (Margins::USUAL, Exceptions::NONE);
/// let mut room = [0; 15];
/// let refused = any::piece(&mut flow, margins, lists, &table[..11], b"on an", &mut room);
/// assert_eq!(refused, Err(Ground::TableForm));
/// assert_eq!(flow, Flow::new());
/// let written = any::piece(&mut flow, margins, lists, &table, b"on an", &mut room)?;
/// assert_eq!((written.text, written.looks), (&b"on "[..], 4));
/// assert_eq!(flow.held(), b"an");
/// # Ok::<(), Ground>(())
/// ```
///
/// # Errors
///
/// Grounds 8, 6, 9, 21 and 14, judged in this order.
pub fn piece<'r>(
    flow: &mut Flow,
    margins: Margins,
    exceptions: Exceptions<'_>,
    table: &[u8],
    piece: &[u8],
    room: &'r mut [u8],
) -> Result<Written<'r>, Ground> {
    let found = finding(raw::piece(
        flow.state(),
        margins.left(),
        margins.right(),
        exceptions.customer,
        exceptions.house,
        table,
        piece,
        room,
    ))?;
    written(found, room)
}

/// The end of a running text over any bytes as table.
///
/// As [`Flow::end`], but that the table may be refused too.
///
/// ```
/// use tteolmigu::{any, Exceptions, Flow, Ground, Margins};
///
/// let table = [1, 1, 0, 1, 0, 0, 2, 0, 0, 0, 0, 0];
/// let mut flow = Flow::new();
/// let (margins, lists) = (Margins::USUAL, Exceptions::NONE);
/// any::piece(&mut flow, margins, lists, &table, b"on", &mut [0; 6])?;
/// let refused = any::end(&mut flow, margins, lists, b"no table", &mut [0; 6]).err();
/// assert_eq!(refused, Some(Ground::TableForm));
/// assert_eq!(any::end(&mut flow, margins, lists, &table, &mut [0; 6])?.text, b"on");
/// # Ok::<(), Ground>(())
/// ```
///
/// # Errors
///
/// Grounds 8, 6, 9 and 14, judged in this order.
pub fn end<'r>(
    flow: &mut Flow,
    margins: Margins,
    exceptions: Exceptions<'_>,
    table: &[u8],
    room: &'r mut [u8],
) -> Result<Written<'r>, Ground> {
    let found = finding(raw::end(
        flow.state(),
        margins.left(),
        margins.right(),
        exceptions.customer,
        exceptions.house,
        table,
        room,
    ))?;
    written(found, room)
}
