//! The levels of a word's gaps.

#![forbid(unsafe_code)]

use crate::ROOM;
use core::fmt;

/// The levels of a word's inner gaps, whatever exception lists and margins
/// say.
///
/// ```
/// use tteolmigu::{Ground, Table, PACK_ROOM};
///
/// let mut room = [0; PACK_ROOM];
/// let table = Table::pack(b"he2n\nhena4\nhen5at\nhy3ph\n2io\n1na\nn2at\no2n\n1tio\n", &mut room)?;
/// let levels = table.levels(b"hyphenation")?;
/// assert_eq!(levels.as_slice(), [0, 3, 0, 0, 2, 5, 4, 2, 0, 2]);
/// # Ok::<(), Ground>(())
/// ```
#[derive(Clone, Copy, PartialEq, Eq, Hash)]
pub struct Levels {
    room: [u8; ROOM],
    letters: usize,
    looks: u32,
}

impl Levels {
    /// What the levels call leaves in its room for a word of so many letters.
    pub(crate) fn of_room(room: [u8; ROOM], letters: usize, looks: u32) -> Levels {
        Levels {
            room,
            letters,
            looks,
        }
    }

    /// The levels in the gaps' order: one fewer than the word has letters, the
    /// first of them for the gap behind the first letter.
    ///
    /// ```
    /// # use tteolmigu::{Ground, Table, PACK_ROOM};
    /// # let mut room = [0; PACK_ROOM];
    /// let table = Table::pack(b"o2n\n", &mut room)?;
    /// assert_eq!(table.levels(b"on")?.as_slice(), [2]);
    /// assert_eq!(table.levels(b"once")?.as_slice(), [2, 0, 0]);
    /// assert_eq!(table.levels(b"o")?.as_slice(), []);
    /// # Ok::<(), Ground>(())
    /// ```
    pub fn as_slice(&self) -> &[u8] {
        self.room.get(1..self.letters).unwrap_or(&[])
    }

    /// The level of the gap that has so many letters before it; `None` where
    /// that is no gap inside the word.
    ///
    /// ```
    /// # use tteolmigu::{Ground, Table, PACK_ROOM};
    /// # let mut room = [0; PACK_ROOM];
    /// let table = Table::pack(b"o2n\n", &mut room)?;
    /// let levels = table.levels(b"once")?;
    /// assert_eq!((levels.at(1), levels.at(3)), (Some(2), Some(0)));
    /// assert_eq!((levels.at(0), levels.at(4)), (None, None));
    /// # Ok::<(), Ground>(())
    /// ```
    pub fn at(&self, gap: usize) -> Option<u8> {
        self.as_slice().get(gap.checked_sub(1)?).copied()
    }

    /// How many cells of the table were looked at. It is never more than
    /// [`LOOK_LIMIT`](crate::LOOK_LIMIT).
    ///
    /// ```
    /// # use tteolmigu::{Ground, Table, PACK_ROOM};
    /// # let mut room = [0; PACK_ROOM];
    /// let table = Table::pack(b"o2n\n", &mut room)?;
    /// // The edge, "o" and then "n", "n", the edge.
    /// assert_eq!(table.levels(b"on")?.looks(), 5);
    /// # Ok::<(), Ground>(())
    /// ```
    pub fn looks(&self) -> u32 {
        self.looks
    }
}

impl AsRef<[u8]> for Levels {
    fn as_ref(&self) -> &[u8] {
        self.as_slice()
    }
}

impl fmt::Debug for Levels {
    fn fmt(&self, out: &mut fmt::Formatter<'_>) -> fmt::Result {
        out.debug_struct("Levels")
            .field("levels", &self.as_slice())
            .field("looks", &self.looks)
            .finish()
    }
}

#[cfg(test)]
mod tests {
    use super::*;
    use crate::WORD_LIMIT;
    use std::format;

    fn levels_of(letters: usize) -> Levels {
        let mut room = [0; ROOM];
        for (gap, level) in room.iter_mut().enumerate() {
            *level = gap as u8;
        }
        Levels::of_room(room, letters, 27)
    }

    #[test]
    fn inner_gaps_alone_have_a_level() {
        for letters in 1..=WORD_LIMIT {
            let levels = levels_of(letters);
            assert_eq!(levels.as_slice().len(), letters - 1);
            assert_eq!(levels.as_ref(), levels.as_slice());
            for gap in 0..=2 * ROOM {
                let inner = 0 < gap && gap < letters;
                assert_eq!(levels.at(gap), inner.then_some(gap as u8));
            }
        }
    }

    #[test]
    fn a_length_that_no_word_has_gives_no_levels() {
        assert_eq!(levels_of(0).as_slice(), b"");
        assert_eq!(levels_of(ROOM + 1).as_slice(), b"");
        assert_eq!(levels_of(usize::MAX).at(1), None);
    }

    #[test]
    fn levels_are_shown_without_the_room() {
        let shown = format!("{:?}", levels_of(4));
        assert_eq!(shown, "Levels { levels: [1, 2, 3], looks: 27 }");
    }
}
