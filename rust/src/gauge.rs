//! Which break of a word fits a line.

#![forbid(unsafe_code)]

use crate::answer::{finding, fit};
use crate::{raw, Breaks, Ground, WIDTHS};

/// The widths of a hyphen and of a line, in millimetres.
///
/// They may be any numbers: they are judged in every call, with the letters'
/// widths.
///
/// ```
/// use tteolmigu::{Exceptions, Fit, Gauge, Ground, Margins, Table, PACK_ROOM, WIDTHS};
///
/// let mut room = [0; PACK_ROOM];
/// let table = Table::pack(b"1di\n1ti\n", &mut room)?;
/// let word = b"conditions";
/// let breaks = table.hyphenate(Margins::USUAL, word, Exceptions::NONE)?;
///
/// // An "i" is half as wide as another letter.
/// let mut widths = [2.0; WIDTHS];
/// widths[usize::from(b'i' - b'a')] = 1.0;
/// let on_line = |line| Gauge { hyphen: 1.5, line }.fit(&widths, word, breaks);
/// assert_eq!(on_line(18.0)?, Fit::Whole);
/// assert_eq!(on_line(17.9)?, Fit::Break(5)); // "condi-"
/// assert_eq!(on_line(10.4)?, Fit::Break(3)); // "con-"
/// assert_eq!(on_line(7.4)?, Fit::None);
/// # Ok::<(), Ground>(())
/// ```
#[derive(Clone, Copy, Debug, Default, PartialEq)]
pub struct Gauge {
    /// The hyphen's width.
    pub hyphen: f64,
    /// The line's width.
    pub line: f64,
}

impl Gauge {
    /// The whole word if it fits the line, else the last of its breaks that fits
    /// with its hyphen, else none.
    ///
    /// `widths` are those of the letters a to z, then the apostrophe's; a capital
    /// is as wide as its small letter. A width is the sum from the left, starting at 0, each
    /// addition rounded once, and for a break the hyphen's is added last. It
    /// fits where it isn't above the line's. Breaks that lie outside the word,
    /// as those of a longer one, don't count. Somebody's break room of bytes
    /// goes through [`raw::fit`].
    ///
    /// ```
    /// use tteolmigu::{Exceptions, Fit, Gauge, Ground, Margins, Table, PACK_ROOM, WIDTHS};
    ///
    /// let mut room = [0; PACK_ROOM];
    /// let table = Table::pack(b"1na\n1ti\n", &mut room)?;
    /// let breaks = table.hyphenate(Margins::USUAL, b"Nation", Exceptions::NONE)?;
    /// let gauge = Gauge { hyphen: 0.5, line: 3.0 };
    /// assert_eq!(gauge.fit(&[0.5; WIDTHS], b"Nation", breaks), Ok(Fit::Whole));
    /// assert_eq!(gauge.fit(&[0.6; WIDTHS], b"Nation", breaks), Ok(Fit::Break(2)));
    /// assert_eq!(gauge.fit(&[1.3; WIDTHS], b"Nation", breaks), Ok(Fit::None));
    ///
    /// // Every width is judged, also that of a letter which the word hasn't.
    /// let mut widths = [0.5; WIDTHS];
    /// widths[usize::from(b'z' - b'a')] = f64::NAN;
    /// assert_eq!(gauge.fit(&widths, b"Nation", breaks), Err(Ground::BadWidth));
    /// # Ok::<(), Ground>(())
    /// ```
    ///
    /// # Errors
    ///
    /// Grounds 2, 4, 3 and 13, judged in this order. The room is the call's own.
    pub fn fit(self, widths: &[f64; WIDTHS], word: &[u8], breaks: Breaks) -> Result<Fit, Ground> {
        let room = breaks.to_room();
        let found = finding(raw::fit(self.hyphen, self.line, widths, word, &room))?;
        Ok(fit(found, word.len()))
    }
}

/// What of a word fits a line. See [`Gauge::fit`].
///
/// ```
/// use tteolmigu::Fit;
///
/// // What stands on this line, and what is left for the next one.
/// let cut = |fit| match fit {
///     Fit::Whole => ("nation", ""),
///     Fit::Break(at) => "nation".split_at(at),
///     Fit::None => ("", "nation"),
/// };
/// assert_eq!(cut(Fit::Break(2)), ("na", "tion"));
/// ```
#[derive(Clone, Copy, Debug, PartialEq, Eq, Hash)]
pub enum Fit {
    /// The whole word.
    Whole,
    /// The whole word doesn't, but its letters up to this break with a hyphen
    /// behind them do: the number of letters before it. No later break does.
    Break(usize),
    /// Neither the whole word nor a break.
    None,
}

#[cfg(test)]
mod tests {
    use super::*;
    use crate::limits::tests::HEADER;
    use crate::{ROOM, WIDTH_LIMIT, WORD_LIMIT};
    use std::vec::Vec;

    /// Breaks at these gaps.
    fn breaks_at(gaps: &[usize]) -> Breaks {
        let mut room = [0; ROOM];
        for &gap in gaps {
            room[gap] = 1;
        }
        Breaks::of_room(&room, 0)
    }

    /// The widths of a to z and of the apostrophe: 1, 2, 3 and so on.
    fn counting() -> [f64; WIDTHS] {
        let mut widths = [0.0; WIDTHS];
        for (letter, width) in widths.iter_mut().enumerate() {
            *width = letter as f64 + 1.0;
        }
        widths
    }

    fn gauge(hyphen: f64, line: f64) -> Gauge {
        Gauge { hyphen, line }
    }

    #[test]
    fn each_width_goes_where_it_belongs() {
        let (widths, breaks) = (counting(), breaks_at(&[1, 2, 3]));
        // Beginnings of 1, 3, 6 and 10 mm, and a hyphen of half a one.
        let fit = |line| gauge(0.5, line).fit(&widths, b"aBcD", breaks);
        assert_eq!(fit(10.0), Ok(Fit::Whole));
        assert_eq!(fit(9.9), Ok(Fit::Break(3)));
        assert_eq!(fit(6.5), Ok(Fit::Break(3)));
        assert_eq!(fit(6.4), Ok(Fit::Break(2)));
        assert_eq!(fit(3.4), Ok(Fit::Break(1)));
        assert_eq!(fit(1.5), Ok(Fit::Break(1)));
        assert_eq!(fit(1.4), Ok(Fit::None));
        for (letter, width) in (b'a'..=b'z').zip(widths) {
            let none = breaks_at(&[]);
            let whole = gauge(0.0, width).fit(&widths, &[letter], none);
            assert_eq!(whole, Ok(Fit::Whole));
            let narrow = gauge(0.0, width - 0.1).fit(&widths, &[letter], none);
            assert_eq!(narrow, Ok(Fit::None));
        }
        // "a'b" has 1, 27 and 2 mm.
        let fit = |line| gauge(0.0, line).fit(&widths, b"a'b", breaks);
        assert_eq!(fit(30.0), Ok(Fit::Whole));
        assert_eq!(fit(29.9), Ok(Fit::Break(2)));
        assert_eq!(fit(27.9), Ok(Fit::Break(1)));
    }

    #[test]
    fn each_addition_is_rounded_once() {
        let half = 1.0 / (1u64 << 53) as f64;
        let mut widths = [half; WIDTHS];
        widths[0] = 1.0;
        let breaks = breaks_at(&[1, 3]);
        // The sum stays 1, though two halves of its last place make a whole one.
        assert_eq!(gauge(0.0, 1.0).fit(&widths, b"abb", breaks), Ok(Fit::Whole));
        let narrow = gauge(half, 1.0 - half);
        assert_eq!(narrow.fit(&widths, b"abb", breaks), Ok(Fit::None));
        // So it does with a half, 1 and then a hyphen of a half, which comes last.
        let mut widths = [1.0; WIDTHS];
        widths[0] = half;
        let last = gauge(half, 1.0).fit(&widths, b"abb", breaks_at(&[1, 2]));
        assert_eq!(last, Ok(Fit::Break(2)));
        // Three tenths are more than 0.3, and ten are less than 1.
        let tenths = [0.1; WIDTHS];
        assert_eq!(
            gauge(0.0, 0.3).fit(&tenths, b"one", breaks),
            Ok(Fit::Break(1))
        );
        let line = f64::from_bits(1f64.to_bits() - 1);
        assert_eq!(
            gauge(0.0, line).fit(&tenths, b"hyphenates", breaks),
            Ok(Fit::Whole)
        );
    }

    #[test]
    fn breaks_outside_the_word_do_not_count() {
        let all: Vec<usize> = (0..ROOM).collect();
        let breaks = breaks_at(&all);
        for letters in 1..=WORD_LIMIT {
            let word = &[b'a'; WORD_LIMIT][..letters];
            let found = gauge(0.0, letters as f64 - 0.5).fit(&[1.0; WIDTHS], word, breaks);
            let last = match letters {
                1 => Fit::None,
                _ => Fit::Break(letters - 1),
            };
            assert_eq!(found, Ok(last));
        }
    }

    #[test]
    fn a_word_or_width_is_refused() {
        let none = breaks_at(&[]);
        let refused = |word: &[u8], width| {
            let refused = |gauge: Gauge, widths| gauge.fit(&widths, word, none).err();
            let mut widths = [1.0; WIDTHS];
            let told = refused(gauge(width, 1.0), widths);
            assert_eq!(told, refused(gauge(1.0, width), widths));
            for letter in 0..WIDTHS {
                widths = [1.0; WIDTHS];
                widths[letter] = width;
                assert_eq!(told, refused(gauge(1.0, 1.0), widths));
            }
            told
        };
        for width in [0.0, -0.0, 1.0, WIDTH_LIMIT] {
            assert_eq!(refused(b"on", width), None);
        }
        let above = f64::from_bits(WIDTH_LIMIT.to_bits() + 1);
        for width in [-1.0, above, f64::NAN, f64::INFINITY, f64::NEG_INFINITY] {
            assert_eq!(refused(b"on", width), Some(Ground::BadWidth));
            assert_eq!(refused(b"", width), Some(Ground::WordEmpty));
            assert_eq!(refused(&[b'a'; 64], width), Some(Ground::WordLong));
            let place = Some(Ground::NotLetter { place: 2 });
            assert_eq!(refused(b"ab1", width), place);
            assert_eq!(refused(b"ab'", width), place);
        }
    }

    /// Each name and number of what comes out is the header's.
    #[test]
    fn what_comes_out_is_the_headers() {
        let fittings = HEADER.split("enum tteolmigu_fitting {").nth(1).unwrap();
        let fittings = fittings.split('}').next().unwrap();
        let mut told = Vec::new();
        for line in fittings.lines() {
            if let Some((name, rest)) = line.split_once(" = ") {
                let number = rest.split([',', ' ']).next();
                let number: u64 = number.unwrap().parse().unwrap();
                let gap = u64::from(number == 2);
                told.push((name.trim(), fit(number << 32 | gap, 2)));
            }
        }
        let expected = [
            ("TTEOLMIGU_WHOLE", Fit::Whole),
            ("TTEOLMIGU_BREAK", Fit::Break(1)),
            ("TTEOLMIGU_NONE", Fit::None),
        ];
        assert_eq!(told, expected);
    }
}
