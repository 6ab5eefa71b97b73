//! Tables that are known to be right.

#![forbid(unsafe_code)]

use crate::answer::{finding, size};
use crate::{any, raw, Breaks, Exceptions, Ground, Levels, Margins};
use core::fmt;

/// A packed table that is right for a pattern list.
///
/// There are two ways to have one: [`Table::check`] for bytes that anybody
/// made, and [`Table::pack`]. Over it every word has the levels that the list
/// says, and the breaks that follow from them, so that nothing is left to be
/// checked.
///
/// It borrows the bytes. Nobody can change them while it lives, so that what
/// was checked is what is used:
///
/// ```compile_fail,E0506
/// use tteolmigu::Table;
///
/// let mut bytes = [1, 1, 0, 1, 0, 0, 2, 0, 0, 0, 0, 0];
/// let table = Table::check(b"", &bytes).unwrap();
/// bytes[1] = 2;
/// table.levels(b"on").unwrap();
/// ```
///
/// For bytes that nobody checked there is [`any`].
#[derive(Clone, Copy, PartialEq, Eq, Hash)]
pub struct Table<'a> {
    bytes: &'a [u8],
}

impl<'a> Table<'a> {
    /// Accepts a table, whoever made it, exactly when it is right for the
    /// pattern list.
    ///
    /// ```
    /// use tteolmigu::{Ground, Table};
    ///
    /// // The table of a list without patterns: a head and a free cell.
    /// let bytes = [1, 1, 0, 1, 0, 0, 2, 0, 0, 0, 0, 0];
    /// let table = Table::check(b"", &bytes)?;
    /// assert_eq!(table.cells(), 1);
    /// assert_eq!(Table::check(b"a1b\n", &bytes), Err(Ground::NotRight));
    /// # Ok::<(), Ground>(())
    /// ```
    ///
    /// # Errors
    ///
    /// Grounds 8, 7, 9 and 12, judged in this order.
    pub fn check(patterns: &[u8], bytes: &'a [u8]) -> Result<Table<'a>, Ground> {
        finding(raw::check(patterns, bytes))?;
        Ok(Table { bytes })
    }

    /// Packs a pattern list into its first-fit table, at the room's beginning.
    ///
    /// The room has [`PACK_ROOM`](crate::PACK_ROOM) bytes or more. Those behind
    /// the table become 0 up to this number; later ones stay as they are.
    /// Ground 11 sets all of the first [`PACK_ROOM`](crate::PACK_ROOM) bytes to
    /// 0; the other refusals leave the room as it was.
    ///
    /// ```
    /// use tteolmigu::{Ground, Table, PACK_ROOM};
    ///
    /// let mut room = [0; PACK_ROOM];
    /// let table = Table::pack(b"a1b\n", &mut room)?;
    /// assert_eq!((table.cells(), table.entries()), (4, 1));
    /// assert_eq!(Table::check(b"a1b\n", table.bytes()), Ok(table));
    ///
    /// let refused = Table::pack(b"a1b\nA1c\n", &mut room);
    /// assert_eq!(refused, Err(Ground::BadPattern { offset: 4 }));
    /// # Ok::<(), Ground>(())
    /// ```
    ///
    /// # Errors
    ///
    /// Grounds 10, 8, 7 and 11, judged in this order.
    pub fn pack(patterns: &[u8], room: &'a mut [u8]) -> Result<Table<'a>, Ground> {
        let length = size(finding(raw::pack(patterns, room))?);
        // That every table which the packer finishes is accepted with its list
        // is proved, so it isn't checked again. A length past the room, which
        // can't be, is told as what it would be: a wrong one.
        match room.get(..length) {
            Some(bytes) => Ok(Table { bytes }),
            None => Err(Ground::TableForm),
        }
    }

    /// Breaks a word.
    ///
    /// The customer's exception line decides, else the house line, else the odd
    /// levels of the table. The margins bind all three: no break has fewer
    /// letters before it or behind it than they say. A line decides even if
    /// none of its hyphens is left so. The library judges both exception lists
    /// in every call, so that long ones cost more than the word.
    ///
    /// ```
    /// use tteolmigu::{Exceptions, Ground, Margins, Table, PACK_ROOM};
    ///
    /// let mut room = [0; PACK_ROOM];
    /// let table = Table::pack(b"1na\n1ti\n", &mut room)?;
    /// let lists = Exceptions { customer: b"", house: b"met-al\n" };
    /// let breaks = table.hyphenate(Margins::USUAL, b"Nation", lists)?;
    /// assert!(breaks.iter().eq([2]));
    /// let breaks = table.hyphenate(Margins::new(2, 2)?, b"Metal", lists)?;
    /// assert!(breaks.iter().eq([3]));
    /// let breaks = table.hyphenate(Margins::USUAL, b"Metal", lists)?;
    /// assert!(breaks.is_empty()); // "al" is too short for a right margin of 3
    ///
    /// let refused = table.hyphenate(Margins::USUAL, b"", lists);
    /// assert_eq!(refused, Err(Ground::WordEmpty));
    /// # Ok::<(), Ground>(())
    /// ```
    ///
    /// # Errors
    ///
    /// Grounds 2, 4, 3, 8 and 6, judged in this order. Margins and table were
    /// judged before, and the room is the call's own.
    pub fn hyphenate(
        &self,
        margins: Margins,
        word: &[u8],
        exceptions: Exceptions<'_>,
    ) -> Result<Breaks, Ground> {
        any::hyphenate(margins, word, exceptions, self.bytes)
    }

    /// The levels of a word's inner gaps: at each the highest that a pattern of
    /// the list sets there, or 0 if none does.
    ///
    /// ```
    /// use tteolmigu::{Ground, Table, PACK_ROOM};
    ///
    /// let mut room = [0; PACK_ROOM];
    /// let table = Table::pack(b"1na\n1ti\n", &mut room)?;
    /// assert_eq!(table.levels(b"nation")?.as_slice(), [0, 1, 0, 0, 0]);
    /// assert_eq!(table.levels(b"nation'"), Err(Ground::NotLetter { place: 6 }));
    /// # Ok::<(), Ground>(())
    /// ```
    ///
    /// # Errors
    ///
    /// Grounds 2, 4 and 3, judged in this order.
    pub fn levels(&self, word: &[u8]) -> Result<Levels, Ground> {
        any::levels(word, self.bytes)
    }

    /// The table's bytes, as for a file.
    ///
    /// ```
    /// use tteolmigu::{Ground, Table, PACK_ROOM};
    ///
    /// let mut room = [7; PACK_ROOM];
    /// let table = Table::pack(b"", &mut room)?;
    /// assert_eq!(table.bytes(), [1, 1, 0, 1, 0, 0, 2, 0, 0, 0, 0, 0]);
    /// # Ok::<(), Ground>(())
    /// ```
    pub fn bytes(&self) -> &'a [u8] {
        self.bytes
    }

    /// How many cells the table has.
    ///
    /// ```
    /// # use tteolmigu::{Ground, Table, PACK_ROOM};
    /// # let mut room = [0; PACK_ROOM];
    /// // The last cell that is used is that of "z", whose symbol is 26.
    /// assert_eq!(Table::pack(b"z1\n", &mut room)?.cells(), 27);
    /// # Ok::<(), Ground>(())
    /// ```
    pub fn cells(&self) -> usize {
        self.number_at(2)
    }

    /// How many entries the table has.
    ///
    /// ```
    /// # use tteolmigu::{Ground, Table, PACK_ROOM};
    /// # let mut room = [0; PACK_ROOM];
    /// // Patterns with equal levels share their entries.
    /// assert_eq!(Table::pack(b"a1b2\nc1d2\n", &mut room)?.entries(), 2);
    /// # Ok::<(), Ground>(())
    /// ```
    pub fn entries(&self) -> usize {
        self.number_at(4)
    }

    /// The number that stands in two bytes of the head, the high byte first.
    fn number_at(&self, place: usize) -> usize {
        match self.bytes.get(place..) {
            Some([high, low, ..]) => usize::from(u16::from_be_bytes([*high, *low])),
            _ => 0,
        }
    }
}

impl AsRef<[u8]> for Table<'_> {
    fn as_ref(&self) -> &[u8] {
        self.bytes
    }
}

/// The numbers of cells and entries; all the bytes would fill a screen.
impl fmt::Debug for Table<'_> {
    fn fmt(&self, out: &mut fmt::Formatter<'_>) -> fmt::Result {
        out.debug_struct("Table")
            .field("cells", &self.cells())
            .field("entries", &self.entries())
            .finish_non_exhaustive()
    }
}

#[cfg(test)]
mod tests {
    use super::*;
    use crate::{CELL_SIZE, ENTRY_SIZE, HEAD_SIZE, PACK_ROOM, ROOM};
    use std::format;
    use std::vec;
    use std::vec::Vec;

    /// Knuth's example.
    const NINE: &[u8] = b"he2n\nhena4\nhen5at\nhy3ph\n2io\n1na\nn2at\no2n\n1tio\n";

    fn nine() -> Vec<u8> {
        let mut room = vec![7; PACK_ROOM];
        Table::pack(NINE, &mut room).unwrap().bytes().to_vec()
    }

    #[test]
    fn a_packed_table_is_the_rooms_beginning() {
        let mut room = vec![7; PACK_ROOM + 2];
        let table = Table::pack(NINE, &mut room).unwrap();
        assert_eq!((table.cells(), table.entries()), (32, 7));
        assert_eq!(table.bytes().len(), 233);
        assert_eq!(table.as_ref(), table.bytes());
        let told = HEAD_SIZE + CELL_SIZE * table.cells() + ENTRY_SIZE * table.entries();
        assert_eq!(table.bytes().len(), told);
        assert_eq!(Table::check(NINE, table.bytes()), Ok(table));
        assert!(room[233..PACK_ROOM].iter().all(|&byte| byte == 0));
        assert_eq!(room[PACK_ROOM..], [7, 7]);
    }

    #[test]
    fn a_table_that_is_refused_is_none() {
        let bytes = nine();
        let check = |patterns, table| Table::check(patterns, table).err();
        assert_eq!(check(NINE, &bytes), None);
        assert_eq!(check(&NINE[5..], &bytes), Some(Ground::NotRight));
        assert_eq!(check(NINE, &bytes[..232]), Some(Ground::TableForm));
        let cut = Some(Ground::BadPattern { offset: 41 });
        assert_eq!(check(&NINE[..45], &bytes), cut);
        assert_eq!(check(&[b'a'; 32_769], &bytes), Some(Ground::TextLong));
        // One byte of an entry's level.
        let mut other = bytes.clone();
        other[6 + 6 * 32 + 2] += 1;
        assert_eq!(check(NINE, &other), Some(Ground::NotRight));
    }

    #[test]
    fn a_packing_that_is_refused_is_none() {
        let pack = |patterns, size| Table::pack(patterns, &mut vec![0; size]).err();
        assert_eq!(pack(NINE, PACK_ROOM - 1), Some(Ground::PackRoomShort));
        assert_eq!(pack(&[b'a'; 32_769], PACK_ROOM), Some(Ground::TextLong));
        let bad = Some(Ground::BadPattern { offset: 4 });
        assert_eq!(pack(b"a1b\na1\n", PACK_ROOM), bad);
        // Sixteen letters a line, of which thirteen need cells of their own.
        let mut many = Vec::new();
        for line in 0..800 {
            let letter = |number: u32| b'a' + (number % 26) as u8;
            many.extend([letter(line / 26 / 26), letter(line / 26), letter(line)]);
            many.extend(b"aaaaaaaaaaaaa1\n");
        }
        assert_eq!(pack(&many, PACK_ROOM), Some(Ground::NoFit));
    }

    #[test]
    fn a_word_is_broken_as_the_library_breaks_it() {
        let bytes = nine();
        let table = Table::check(NINE, &bytes).unwrap();
        let lists = Exceptions {
            customer: b"idler\n",
            house: b"id-ler\nmet-al\n",
        };
        for word in [
            "hyphenation",
            "Hyphenation",
            "on",
            "na",
            "metal",
            "IDLER",
            "x",
        ] {
            for (left, right) in [(1, 1), (2, 3), (3, 2), (63, 1)] {
                let word = word.as_bytes();
                let margins = Margins::new(left, right).unwrap();
                let breaks = table.hyphenate(margins, word, lists).unwrap();
                let mut room = [7; ROOM];
                let answer = raw::hyphenate(
                    left,
                    right,
                    word,
                    lists.customer,
                    lists.house,
                    &bytes,
                    &mut room,
                );
                let told = (breaks.len() as u64) << 32 | u64::from(breaks.looks());
                assert_eq!(told, answer);
                let marked = (0..ROOM).filter(|&at| room[at] == 1);
                assert!(breaks.iter().eq(marked));
                let levels = table.levels(word).unwrap();
                let answer = raw::levels(word, &bytes, &mut room);
                assert_eq!(levels.as_slice(), &room[1..word.len()]);
                assert_eq!(u64::from(levels.looks()), answer & 0xffff_ffff);
            }
        }
    }

    #[test]
    fn margins_and_lists_go_where_they_belong() {
        let bytes = nine();
        let table = Table::check(NINE, &bytes).unwrap();
        let found = |left, right, lists| {
            let margins = Margins::new(left, right).unwrap();
            let breaks = table.hyphenate(margins, b"hyphenation", lists).unwrap();
            breaks.iter().collect::<Vec<_>>()
        };
        assert_eq!(found(2, 3, Exceptions::NONE), [2, 6]);
        assert_eq!(found(3, 2, Exceptions::NONE), [6]);
        assert_eq!(found(2, 6, Exceptions::NONE), [2]);
        let (customer, house) = (&b"hyphen-ation\n"[..], &b"hy-phenation\n"[..]);
        assert_eq!(found(2, 3, Exceptions { customer, house }), [6]);
        let customer = b"";
        assert_eq!(found(2, 3, Exceptions { customer, house }), [2]);
    }

    #[test]
    fn margins_bind_exception_lines() {
        let bytes = nine();
        let table = Table::check(NINE, &bytes).unwrap();
        let found = |left, right, customer, house| {
            let margins = Margins::new(left, right).unwrap();
            let lists = Exceptions { customer, house };
            let breaks = table.hyphenate(margins, b"hyphenation", lists).unwrap();
            assert_eq!(breaks.looks(), 0);
            breaks.iter().collect::<Vec<_>>()
        };
        let line: &[u8] = b"hy-phe-na-ti-on\n";
        let rival: &[u8] = b"h-yphenatio-n\n";
        for (left, right, breaks) in [
            (1, 1, &[2, 5, 7, 9][..]),
            (2, 2, &[2, 5, 7, 9]),
            (2, 3, &[2, 5, 7]),
            (3, 2, &[5, 7, 9]),
            (5, 4, &[5, 7]),
            (6, 5, &[]),
            (63, 63, &[]),
        ] {
            assert_eq!(found(left, right, line, rival), breaks);
            assert_eq!(found(left, right, b"", line), breaks);
        }
        // A line decides even where the margins leave none of its hyphens.
        assert_eq!(found(2, 2, rival, line), []);
        let lists = Exceptions {
            customer: rival,
            house: line,
        };
        let shown = lists.lookup(b"hyphenation").unwrap();
        assert_eq!(shown.bytes, b"h-yphenatio-n");
    }

    #[test]
    fn a_word_or_list_is_refused() {
        let bytes = nine();
        let table = Table::check(NINE, &bytes).unwrap();
        let refused = |word, lists| table.hyphenate(Margins::USUAL, word, lists).err();
        let none = Exceptions::NONE;
        assert_eq!(refused(b"", none), Some(Ground::WordEmpty));
        assert_eq!(refused(&[b'a'; 64], none), Some(Ground::WordLong));
        assert_eq!(refused(b"ab1", none), Some(Ground::NotLetter { place: 2 }));
        let long = [b'a'; 8_193];
        let house = Exceptions {
            customer: b"",
            house: &long,
        };
        assert_eq!(refused(b"on", house), Some(Ground::TextLong));
        let customer = Exceptions {
            customer: b"on\no--n\n",
            house: b"",
        };
        let ground = refused(b"on", customer).unwrap();
        assert_eq!((ground.number(), ground.list(), ground.place()), (6, 1, 3));
        assert_eq!(table.levels(b"ab1"), Err(Ground::NotLetter { place: 2 }));
        assert_eq!(table.levels(b""), Err(Ground::WordEmpty));
    }

    #[test]
    fn a_table_is_shown_by_its_numbers() {
        let bytes = nine();
        let shown = format!("{:?}", Table::check(NINE, &bytes).unwrap());
        assert_eq!(shown, "Table { cells: 32, entries: 7, .. }");
    }
}
