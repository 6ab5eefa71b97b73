//! Where a word may be broken.

#![forbid(unsafe_code)]

use crate::ROOM;
use core::fmt;
use core::iter::FusedIterator;

/// Gaps of a word: bit i is gap i, which has i letters before it.
type Gaps = u64;

// Each byte of a room has its bit.
const _: () = assert!(ROOM <= Gaps::BITS as usize);

/// The breaks of a word, as positions: the number of letters before each.
///
/// ```
/// use tteolmigu::{Exceptions, Ground, Margins, Table, PACK_ROOM};
///
/// let mut room = [0; PACK_ROOM];
/// let table = Table::pack(b"1na\n1ti\n", &mut room)?;
/// let breaks = table.hyphenate(Margins::USUAL, b"nation", Exceptions::NONE)?;
/// for at in &breaks {
///     assert_eq!(at, 2); // na-tion
/// }
/// assert_eq!(breaks.into_iter().len(), 1);
/// # Ok::<(), Ground>(())
/// ```
#[derive(Clone, Copy, PartialEq, Eq, Hash)]
pub struct Breaks {
    gaps: Gaps,
    looks: u32,
}

impl Breaks {
    /// What the hyphenating call leaves in its room.
    pub(crate) fn of_room(room: &[u8; ROOM], looks: u32) -> Breaks {
        let mut gaps = 0;
        for (gap, &mark) in room.iter().enumerate() {
            gaps |= Gaps::from(mark != 0) << gap;
        }
        Breaks { gaps, looks }
    }

    /// What the hyphenating call leaves in its room, again.
    pub(crate) fn to_room(self) -> [u8; ROOM] {
        let mut room = [0; ROOM];
        for (gap, mark) in room.iter_mut().enumerate() {
            *mark = (self.gaps >> gap & 1) as u8;
        }
        room
    }

    /// The positions, ascending.
    ///
    /// From the other end one finds the last break that leaves no more letters
    /// on the line than it holds:
    ///
    /// ```
    /// use tteolmigu::{Exceptions, Ground, Margins, Table, PACK_ROOM};
    ///
    /// let mut room = [0; PACK_ROOM];
    /// let table = Table::pack(b"1di\n1ti\n", &mut room)?;
    /// let breaks = table.hyphenate(Margins::USUAL, b"conditions", Exceptions::NONE)?;
    /// assert_eq!(breaks.iter().collect::<Vec<_>>(), [3, 5]); // con-di-tions
    /// assert_eq!(breaks.iter().rev().find(|&at| at <= 4), Some(3));
    /// # Ok::<(), Ground>(())
    /// ```
    ///
    /// Where letters differ in width, [`Gauge::fit`](crate::Gauge::fit) finds it.
    pub fn iter(&self) -> Positions {
        Positions { gaps: self.gaps }
    }

    /// How many breaks there are.
    ///
    /// ```
    /// # use tteolmigu::{Exceptions, Ground, Margins, Table, PACK_ROOM};
    /// # let mut room = [0; PACK_ROOM];
    /// # let table = Table::pack(b"", &mut room)?;
    /// let house = Exceptions { house: b"eve-ning\n", ..Exceptions::NONE };
    /// let breaks = table.hyphenate(Margins::USUAL, b"evening", house)?;
    /// assert_eq!(breaks.len(), 1);
    /// # Ok::<(), Ground>(())
    /// ```
    pub fn len(&self) -> usize {
        self.iter().len()
    }

    /// Whether the word must not be broken.
    ///
    /// ```
    /// # use tteolmigu::{Exceptions, Ground, Margins, Table, PACK_ROOM};
    /// # let mut room = [0; PACK_ROOM];
    /// # let table = Table::pack(b"", &mut room)?;
    /// let house = Exceptions { house: b"evening\n", ..Exceptions::NONE };
    /// assert!(table.hyphenate(Margins::USUAL, b"evening", house)?.is_empty());
    /// # Ok::<(), Ground>(())
    /// ```
    pub fn is_empty(&self) -> bool {
        self.gaps == 0
    }

    /// Whether a break has so many letters before it.
    ///
    /// ```
    /// # use tteolmigu::{Exceptions, Ground, Margins, Table, PACK_ROOM};
    /// # let mut room = [0; PACK_ROOM];
    /// # let table = Table::pack(b"", &mut room)?;
    /// let house = Exceptions { house: b"eve-ning\n", ..Exceptions::NONE };
    /// let breaks = table.hyphenate(Margins::USUAL, b"evening", house)?;
    /// assert!(breaks.contains(3));
    /// assert!(!breaks.contains(2) && !breaks.contains(1_000));
    /// # Ok::<(), Ground>(())
    /// ```
    pub fn contains(&self, position: usize) -> bool {
        position < ROOM && self.gaps >> position & 1 == 1
    }

    /// How many cells of the table were looked at, 0 where an exception line
    /// decides. It is never more than [`LOOK_LIMIT`](crate::LOOK_LIMIT).
    ///
    /// ```
    /// # use tteolmigu::{Exceptions, Ground, Margins, Table, PACK_ROOM};
    /// # let mut room = [0; PACK_ROOM];
    /// # let table = Table::pack(b"", &mut room)?;
    /// let house = Exceptions { house: b"eve-ning\n", ..Exceptions::NONE };
    /// assert_eq!(table.hyphenate(Margins::USUAL, b"evening", house)?.looks(), 0);
    /// // Without patterns one cell is looked at for each letter and each edge.
    /// assert_eq!(table.hyphenate(Margins::USUAL, b"on", house)?.looks(), 4);
    /// # Ok::<(), Ground>(())
    /// ```
    pub fn looks(&self) -> u32 {
        self.looks
    }
}

impl fmt::Debug for Breaks {
    fn fmt(&self, out: &mut fmt::Formatter<'_>) -> fmt::Result {
        out.debug_struct("Breaks")
            .field("positions", &self.iter())
            .field("looks", &self.looks)
            .finish()
    }
}

impl IntoIterator for Breaks {
    type Item = usize;
    type IntoIter = Positions;

    fn into_iter(self) -> Positions {
        self.iter()
    }
}

impl IntoIterator for &Breaks {
    type Item = usize;
    type IntoIter = Positions;

    fn into_iter(self) -> Positions {
        self.iter()
    }
}

/// The positions of [`Breaks`], ascending.
///
/// ```
/// use tteolmigu::{Exceptions, Ground, Margins, Positions, Table, PACK_ROOM};
///
/// let mut room = [0; PACK_ROOM];
/// let table = Table::pack(b"1di\n1ti\n", &mut room)?;
/// let breaks = table.hyphenate(Margins::USUAL, b"conditions", Exceptions::NONE)?;
/// let mut positions: Positions = breaks.iter();
/// assert_eq!((positions.len(), positions.next()), (2, Some(3)));
/// assert_eq!((positions.len(), positions.next_back()), (1, Some(5)));
/// assert_eq!((positions.len(), positions.next()), (0, None));
/// # Ok::<(), Ground>(())
/// ```
#[derive(Clone)]
pub struct Positions {
    gaps: Gaps,
}

impl Iterator for Positions {
    type Item = usize;

    fn next(&mut self) -> Option<usize> {
        if self.gaps == 0 {
            return None;
        }
        let gap = self.gaps.trailing_zeros();
        self.gaps &= self.gaps - 1;
        Some(gap as usize)
    }

    fn size_hint(&self) -> (usize, Option<usize>) {
        let left = self.gaps.count_ones() as usize;
        (left, Some(left))
    }
}

impl DoubleEndedIterator for Positions {
    fn next_back(&mut self) -> Option<usize> {
        if self.gaps == 0 {
            return None;
        }
        let gap = Gaps::BITS - 1 - self.gaps.leading_zeros();
        self.gaps &= !(1 << gap);
        Some(gap as usize)
    }
}

impl ExactSizeIterator for Positions {}

impl FusedIterator for Positions {}

impl fmt::Debug for Positions {
    fn fmt(&self, out: &mut fmt::Formatter<'_>) -> fmt::Result {
        out.debug_list().entries(self.clone()).finish()
    }
}

#[cfg(test)]
mod tests {
    use super::*;
    use std::format;
    use std::vec::Vec;

    /// A room with marks at these places.
    fn breaks_at(places: &[usize]) -> Breaks {
        let mut room = [0; ROOM];
        for &place in places {
            room[place] = 1;
        }
        Breaks::of_room(&room, 27)
    }

    #[test]
    fn every_byte_of_a_room_has_its_position() {
        for place in 0..ROOM {
            let breaks = breaks_at(&[place]);
            assert_eq!(breaks.iter().collect::<Vec<_>>(), [place]);
            assert_eq!(breaks.iter().rev().collect::<Vec<_>>(), [place]);
            for other in 0..=2 * ROOM {
                assert_eq!(breaks.contains(other), other == place);
            }
        }
        let all: Vec<usize> = (0..ROOM).collect();
        assert_eq!(breaks_at(&all).iter().collect::<Vec<_>>(), all);
    }

    #[test]
    fn a_room_comes_back() {
        let places = [0, 1, 2, 6, 31, 32, 62, 63];
        let room = breaks_at(&places).to_room();
        for (place, &mark) in room.iter().enumerate() {
            assert_eq!(mark, u8::from(places.contains(&place)));
        }
        assert_eq!(Breaks::of_room(&room, 27), breaks_at(&places));
    }

    #[test]
    fn positions_come_from_both_ends() {
        let places = [1, 2, 6, 31, 32, 62];
        let breaks = breaks_at(&places);
        assert_eq!(breaks.len(), 6);
        assert!(!breaks.is_empty());
        assert_eq!(breaks.into_iter().collect::<Vec<_>>(), places);
        assert!(breaks.iter().rev().eq(places.iter().rev().copied()));
        let mut positions = breaks.iter();
        for left in (0..3).rev() {
            assert!(positions.next() < positions.next_back());
            assert_eq!(positions.len(), 2 * left);
        }
        assert_eq!((positions.next(), positions.next_back()), (None, None));
    }

    #[test]
    fn no_mark_is_no_break() {
        let breaks = breaks_at(&[]);
        assert!(breaks.is_empty());
        assert_eq!((breaks.len(), breaks.iter().next()), (0, None));
        assert_eq!(breaks.looks(), 27);
    }

    #[test]
    fn breaks_are_shown_by_their_positions() {
        let shown = format!("{:?}", breaks_at(&[2, 6]));
        assert_eq!(shown, "Breaks { positions: [2, 6], looks: 27 }");
    }
}
