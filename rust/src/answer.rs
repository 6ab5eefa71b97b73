//! How the 64 bits of an answer are read, as `include/tteolmigu.h` lays them
//! out.

#![forbid(unsafe_code)]

use crate::{Exceptions, Fit, Ground, Line, List, Written};

/// The bits `from` up to, but without, `to` of an answer.
pub(crate) fn bits(answer: u64, from: u32, to: u32) -> u64 {
    (answer >> from) & ((1 << (to - from)) - 1)
}

/// The same as a size. One that the machine can't count to is none that
/// anything here could have, and so is the greatest.
fn size_bits(answer: u64, from: u32, to: u32) -> usize {
    usize::try_from(bits(answer, from, to)).unwrap_or(usize::MAX)
}

/// Parts findings from refusals.
pub(crate) fn finding(answer: u64) -> Result<u64, Ground> {
    match Ground::of_answer(answer) {
        Some(ground) => Err(ground),
        None => Ok(answer),
    }
}

/// Of a finding of hyphenate, levels, piece or end: how many cells were looked
/// at.
pub(crate) fn looks(finding: u64) -> u32 {
    bits(finding, 0, 32) as u32
}

/// Of a finding of pack: the table's length.
pub(crate) fn size(finding: u64) -> usize {
    size_bits(finding, 0, 48)
}

/// Of a finding of piece or end: what was written at the room's beginning. The
/// length is checked, not trusted: one past the room, which can't be, is told as
/// what it would be, a room too short.
pub(crate) fn written(finding: u64, room: &[u8]) -> Result<Written<'_>, Ground> {
    match room.get(..size_bits(finding, 32, 56)) {
        Some(text) => Ok(Written {
            text,
            looks: looks(finding),
        }),
        None => Err(Ground::TextRoomShort),
    }
}

/// Of a finding of fit on a word of so many letters: what came out. A gap is
/// checked, not trusted: where it lies outside the word, and for what no
/// finding tells, nothing fits.
pub(crate) fn fit(finding: u64, letters: usize) -> Fit {
    match (bits(finding, 32, 64), size_bits(finding, 0, 32)) {
        (1, 0) => Fit::Whole,
        (2, gap) if 0 < gap && gap < letters => Fit::Break(gap),
        _ => Fit::None,
    }
}

/// Of a finding of the machine of 1980: how many instructions were executed;
/// `None` where it ran out. What no finding tells is taken for that too.
pub(crate) fn executed(finding: u64) -> Option<u32> {
    match bits(finding, 48, 64) {
        0 => Some(bits(finding, 0, 32) as u32),
        _ => None,
    }
}

/// The line that a lookup's answer names. Offset and length are checked, not
/// trusted: where they don't fit the list, there is no line.
pub(crate) fn line(answer: u64, exceptions: Exceptions<'_>) -> Option<Line<'_>> {
    let (list, text) = match bits(answer, 48, 64) {
        1 => (List::Customer, exceptions.customer),
        2 => (List::House, exceptions.house),
        _ => return None,
    };
    let offset = size_bits(answer, 16, 48);
    let end = offset.checked_add(size_bits(answer, 0, 16))?;
    let bytes = text.get(offset..end)?;
    Some(Line {
        list,
        offset,
        bytes,
    })
}

#[cfg(test)]
mod tests {
    use super::*;

    #[test]
    fn a_finding_is_taken_apart() {
        let answer = (7 << 32) | 1_000;
        assert_eq!(finding(answer), Ok(answer));
        assert_eq!(looks(answer), 1_000);
        assert_eq!(looks(7 << 32 | 0xffff_ffff), 0xffff_ffff);
        assert_eq!(size(59_398), 59_398);
        assert_eq!(size(0xffff_ffff_ffff), 0xffff_ffff_ffff);
    }

    #[test]
    fn a_refusal_is_no_finding() {
        assert_eq!(finding(2 << 56), Err(Ground::WordEmpty));
        assert_eq!(
            finding((6 << 56) | (2 << 48) | 8_190),
            Err(Ground::BadException {
                list: List::House,
                offset: 8_190
            })
        );
    }

    #[test]
    fn a_text_past_its_room_is_never_cut() {
        let told = |length: u64, looks: u64| written(length << 32 | looks, b"on.");
        let text = |text| Ok(Written { text, looks: 4 });
        assert_eq!(told(0, 4), text(&b""[..]));
        assert_eq!(told(2, 4), text(&b"on"[..]));
        assert_eq!(told(3, 4), text(&b"on."[..]));
        for length in [4, 5, 0xffff, 0x10000, 0xff_ffff] {
            assert_eq!(told(length, 4), Err(Ground::TextRoomShort));
        }
        // Every bit of both numbers is theirs.
        let long = std::vec![0; 3_145_728];
        let whole = written(3_145_728 << 32 | 0xffff_ffff, &long).unwrap();
        assert_eq!((whole.text.len(), whole.looks), (3_145_728, 0xffff_ffff));
    }

    #[test]
    fn a_gap_outside_its_word_never_fits() {
        assert_eq!(fit(1 << 32, 5), Fit::Whole);
        assert_eq!(fit(2 << 32 | 1, 5), Fit::Break(1));
        assert_eq!(fit(2 << 32 | 4, 5), Fit::Break(4));
        assert_eq!(fit(3 << 32, 5), Fit::None);
        for gap in [0, 5, 6, 63, 64, 0xffff_ffff] {
            assert_eq!(fit(2 << 32 | gap, 5), Fit::None);
        }
        // What no finding tells.
        for finding in [0, 4, 1 << 32 | 4, 4 << 32, 0x101 << 32, 1 << 48 | 1 << 32] {
            assert_eq!(fit(finding, 5), Fit::None);
        }
    }

    #[test]
    fn a_machine_that_ran_out_tells_nothing() {
        assert_eq!(executed(0), Some(0));
        assert_eq!(executed(3 << 32 | 20_000), Some(20_000));
        assert_eq!(executed(60 << 32 | 0xffff_ffff), Some(0xffff_ffff));
        assert_eq!(executed(1 << 48), None);
        // What no finding tells.
        assert_eq!(executed(2 << 48 | 7), None);
        assert_eq!(executed(1 << 55 | 1 << 32 | 7), None);
    }

    #[test]
    fn a_line_outside_its_list_is_never_cut() {
        let lists = Exceptions {
            customer: b"ab\n",
            house: b"a-b\nc\n",
        };
        let answer = |list: u64, start: u64, length: u64| list << 48 | start << 16 | length;
        let told = |list, start, length| {
            line(answer(list, start, length), lists)
                .map(|line| (line.list, line.offset, line.bytes))
        };
        assert_eq!(told(1, 0, 2), Some((List::Customer, 0, &b"ab"[..])));
        assert_eq!(told(2, 0, 3), Some((List::House, 0, &b"a-b"[..])));
        assert_eq!(told(2, 4, 1), Some((List::House, 4, &b"c"[..])));
        assert_eq!(told(2, 4, 3), None);
        assert_eq!(told(1, 4, 1), None);
        assert_eq!(told(1, 1 << 31, 2), None);
        assert_eq!(told(1, 0xffff_ffff, 0xffff), None);
        assert_eq!(told(3, 0, 2), None);
        assert_eq!(told(0, 0, 2), None);
        assert_eq!(line(1 << 56 | answer(1, 0, 2), lists), None);
    }
}
