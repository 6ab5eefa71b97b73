//! The five calls on lists and tables: grounds in their order, findings, and
//! what is left in the room. Answers are the 64 bits that the C interface gives.

use super::fit::first_fit;
use super::liang::{breaks, inside};
use super::right::Judge;
use super::table::Table;
use super::text::{read_exceptions, read_patterns, read_word, Exception, Pattern};
use super::{Refusal, EXCEPTION_TEXT_LIMIT, MARK_ROOM, PACK_ROOM, PATTERN_TEXT_LIMIT, WORD_LIMIT};

/// Both exception lists, read.
struct Exceptions {
    customer: Vec<Exception>,
    house: Vec<Exception>,
}

impl Exceptions {
    /// Judges both texts: sizes first, then lines, the customer's before the
    /// house's.
    fn read(customer: &[u8], house: &[u8]) -> Result<Exceptions, Refusal> {
        if customer.len() > EXCEPTION_TEXT_LIMIT || house.len() > EXCEPTION_TEXT_LIMIT {
            return Err(Refusal::plain(8));
        }
        let bad_line = |list: u8| {
            move |place: usize| Refusal {
                number: 6,
                list,
                place,
            }
        };
        Ok(Exceptions {
            customer: read_exceptions(customer).map_err(bad_line(1))?,
            house: read_exceptions(house).map_err(bad_line(2))?,
        })
    }

    /// The line for a word with its list's number, the customer's first.
    fn find(&self, letters: &[u8]) -> Option<(u8, &Exception)> {
        let in_list = |list: u8, lines: &'_ [Exception]| -> Option<(u8, usize)> {
            let place = lines.iter().position(|line| line.letters == letters)?;
            Some((list, place))
        };
        let (list, place) = in_list(1, &self.customer).or_else(|| in_list(2, &self.house))?;
        let lines = if list == 1 {
            &self.customer
        } else {
            &self.house
        };
        Some((list, &lines[place]))
    }
}

/// Judges both margins.
fn judge_margins(left: u64, right: u64) -> Result<(), Refusal> {
    let margins = 1..=WORD_LIMIT as u64;
    if !margins.contains(&left) || !margins.contains(&right) {
        return Err(Refusal::plain(1));
    }
    Ok(())
}

/// Margins, both exception lists and a table that were judged and found good.
pub(super) struct Judged<'a> {
    left: u64,
    right: u64,
    exceptions: Exceptions,
    table: Table<'a>,
}

impl<'a> Judged<'a> {
    /// Judges the margins, then both lists, then the table's length and head.
    pub(super) fn read(
        left: u64,
        right: u64,
        customer: &[u8],
        house: &[u8],
        table: &'a [u8],
    ) -> Result<Judged<'a>, Refusal> {
        judge_margins(left, right)?;
        Ok(Judged {
            left,
            right,
            exceptions: Exceptions::read(customer, house)?,
            table: Table::new(table).ok_or_else(|| Refusal::plain(9))?,
        })
    }

    /// The breaks of a word, given as symbols, and the count of looks.
    pub(super) fn breaks(&self, letters: &[u8]) -> (Vec<usize>, u32) {
        let (left, right) = (self.left, self.right);
        match self.exceptions.find(letters) {
            Some((_, line)) => (inside(&line.hyphens, letters.len(), left, right), 0),
            None => {
                let (levels, looks) = self.table.levels(letters);
                (breaks(&levels, left, right), looks)
            }
        }
    }
}

/// Clears the first 64 bytes and puts the marks in.
fn fill(room: &mut [u8], marks: impl Iterator<Item = (usize, u8)>) {
    room[..MARK_ROOM].fill(0);
    for (gap, mark) in marks {
        room[gap] = mark;
    }
}

/// A finding of the calls on one word.
fn found(marks: usize, looks: u32) -> u64 {
    (marks as u64) << 32 | looks as u64
}

/// Turns a refusal into its answer.
pub(super) fn settle(result: Result<u64, Refusal>) -> u64 {
    result.unwrap_or_else(|refusal| refusal.answer())
}

/// The hyphenating call.
pub fn hyphenate(
    left: u64,
    right: u64,
    word: &[u8],
    customer: &[u8],
    house: &[u8],
    table: &[u8],
    room: &mut [u8],
) -> u64 {
    settle(try_hyphenate(
        left, right, word, customer, house, table, room,
    ))
}

fn try_hyphenate(
    left: u64,
    right: u64,
    word: &[u8],
    customer: &[u8],
    house: &[u8],
    table: &[u8],
    room: &mut [u8],
) -> Result<u64, Refusal> {
    judge_margins(left, right)?;
    if room.len() < MARK_ROOM {
        return Err(Refusal::plain(5));
    }
    let letters = read_word(word)?;
    let judged = Judged::read(left, right, customer, house, table)?;
    let (gaps, looks) = judged.breaks(&letters);
    fill(room, gaps.iter().map(|&gap| (gap, 1)));
    Ok(found(gaps.len(), looks))
}

/// The levels call.
pub fn levels(word: &[u8], table: &[u8], room: &mut [u8]) -> u64 {
    settle(try_levels(word, table, room))
}

fn try_levels(word: &[u8], table: &[u8], room: &mut [u8]) -> Result<u64, Refusal> {
    if room.len() < MARK_ROOM {
        return Err(Refusal::plain(5));
    }
    let letters = read_word(word)?;
    let table = Table::new(table).ok_or_else(|| Refusal::plain(9))?;
    let (levels, looks) = table.levels(&letters);
    let marks = levels.iter().filter(|&&level| level != 0).count();
    fill(room, levels.into_iter().enumerate());
    Ok(found(marks, looks))
}

/// Judges a pattern text: its size, then its lines.
pub fn judge_patterns(text: &[u8]) -> Result<Vec<Pattern>, Refusal> {
    if text.len() > PATTERN_TEXT_LIMIT {
        return Err(Refusal::plain(8));
    }
    read_patterns(text).map_err(|offset| Refusal::at(7, offset))
}

/// The packer.
pub fn pack(patterns: &[u8], room: &mut [u8]) -> u64 {
    settle(try_pack(patterns, room))
}

fn try_pack(patterns: &[u8], room: &mut [u8]) -> Result<u64, Refusal> {
    if room.len() < PACK_ROOM {
        return Err(Refusal::plain(10));
    }
    let list = judge_patterns(patterns)?;
    let layout = first_fit(&list);
    room[..PACK_ROOM].fill(0);
    if !layout.fits() {
        return Err(Refusal::plain(11));
    }
    let bytes = layout.bytes();
    room[..bytes.len()].copy_from_slice(&bytes);
    Ok(bytes.len() as u64)
}

/// The checker.
pub fn check(patterns: &[u8], table: &[u8]) -> u64 {
    settle(judge_patterns(patterns).and_then(|list| try_check(&Judge::new(&list), table)))
}

/// The checker over a list that was read before, for many tables on one list.
pub fn check_with(judge: &Judge, table: &[u8]) -> u64 {
    settle(try_check(judge, table))
}

fn try_check(judge: &Judge, table: &[u8]) -> Result<u64, Refusal> {
    let table = Table::new(table).ok_or_else(|| Refusal::plain(9))?;
    if judge.accepts(&table) {
        Ok(0)
    } else {
        Err(Refusal::plain(12))
    }
}

/// The lookup.
pub fn lookup(word: &[u8], customer: &[u8], house: &[u8]) -> u64 {
    let letters = match read_word(word) {
        Ok(letters) => letters,
        Err(_) => return 0,
    };
    match Exceptions::read(customer, house) {
        Ok(exceptions) => match exceptions.find(&letters) {
            Some((list, line)) => {
                (list as u64) << 48 | (line.offset as u64) << 16 | line.length as u64
            }
            None => 0,
        },
        Err(_) => 0,
    }
}

#[cfg(test)]
mod tests {
    use super::*;

    const NINE: &[u8] = b"he2n\nhena4\nhen5at\nhy3ph\n2io\n1na\nn2at\no2n\n1tio\n";

    fn table() -> Vec<u8> {
        let mut room = vec![7; PACK_ROOM + 1];
        assert_eq!(pack(NINE, &mut room), 233);
        assert!(room[233..PACK_ROOM].iter().all(|&byte| byte == 0));
        assert_eq!(room[PACK_ROOM], 7);
        room.truncate(233);
        room
    }

    #[test]
    fn figures() {
        let table = table();
        let mut room = [9; 65];
        let call = |word: &[u8], customer: &[u8], house: &[u8], room: &mut [u8]| {
            hyphenate(2, 3, word, customer, house, &table, room)
        };
        assert_eq!(call(b"hyphenation", b"", b"", &mut room), 2 << 32 | 27);
        assert_eq!((room[2], room[6], room[64]), (1, 1, 9));
        assert_eq!(call(b"on", b"", b"", &mut room), 6);
        assert_eq!(levels(b"on", &table, &mut room), 1 << 32 | 6);
        assert_eq!(call(b"metal", b"", b"met-al\n", &mut room), 0);
        assert_eq!(room[1..5], [0; 4]);
        let wide = hyphenate(2, 2, b"metal", b"", b"met-al\n", &table, &mut room);
        assert_eq!((wide, room[3]), (1 << 32, 1));
        assert_eq!(lookup(b"metal", b"", b"met-al\n"), 2 << 48 | 6);
        assert_eq!(call(b"metal", b"met-al\n", b"me-tal\n", &mut room), 0);
        assert_eq!(call(b"idler", b"idler\n", b"id-ler\n", &mut room), 0);
        assert_eq!(lookup(b"Idler", b"", b"a\nid-ler\n"), 2 << 48 | 2 << 16 | 6);
        assert_eq!(call(&[b'a'; 64], b"", b"", &mut room), 4 << 56);
        assert_eq!(call(b"a1", b"", b"", &mut room), 3 << 56 | 1);
        assert_eq!(check(NINE, &table), 0);
        assert_eq!(check(b"", &table), 12 << 56);
    }

    #[test]
    fn apostrophes() {
        let mut room = vec![7; PACK_ROOM];
        // 30 cells and an entry; the walks of "l'en" look at 1, 3, 1, 1, 1 and
        // 1 cells.
        assert_eq!(pack(b"l'1e\n", &mut room), 191);
        let table = room[..191].to_vec();
        assert_eq!(check(b"l'1e\n", &table), 0);
        assert_eq!(levels(b"L'en", &table, &mut room), 1 << 32 | 8);
        assert_eq!(room[..5], [0, 0, 1, 0, 0]);
        let house = b"len\nl-'en-trata\n";
        let call = |left, right, word: &[u8], room: &mut [u8]| {
            hyphenate(left, right, word, b"", house, &table, room)
        };
        assert_eq!(call(1, 5, b"l'entrata", &mut room), 2 << 32);
        assert_eq!((room[1], room[4]), (1, 1));
        assert_eq!(call(2, 5, b"l'entrata", &mut room), 1 << 32);
        assert_eq!(call(2, 6, b"l'entrata", &mut room), 0);
        assert_eq!(call(2, 2, b"l'en", &mut room), 1 << 32 | 8);
        assert_eq!(call(3, 1, b"l'en", &mut room), 8);
        assert_eq!(call(1, 1, b"l'", &mut room), 3 << 56 | 1);
        assert_eq!(lookup(b"L'Entrata", b"", house), 2 << 48 | 4 << 16 | 11);
        assert_eq!(lookup(b"lentrata", b"", house), 0);
        assert_eq!(lookup(b"len", b"l'\n", house), 0);
        assert_eq!(pack(b"a1\n'1\n", &mut room), 7 << 56 | 3);
    }
}
