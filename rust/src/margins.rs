//! Margins that were judged once.

#![forbid(unsafe_code)]

use crate::{Ground, MARGIN_LEAST, MARGIN_LIMIT};

/// How many letters stand at least before a break and behind it, whether an
/// exception line names it or the patterns do.
///
/// Both are within [`MARGIN_LEAST`] and [`MARGIN_LIMIT`], so that no call
/// refuses them.
///
/// ```
/// use tteolmigu::{Ground, Margins};
///
/// let margins = Margins::new(2, 2)?;
/// assert_ne!(margins, Margins::default());
/// # Ok::<(), Ground>(())
/// ```
#[derive(Clone, Copy, Debug, PartialEq, Eq, Hash)]
pub struct Margins {
    left: u64,
    right: u64,
}

impl Margins {
    /// Left 2 and right 3, as is usual in TeX.
    ///
    /// ```
    /// use tteolmigu::Margins;
    ///
    /// assert_eq!(Margins::new(2, 3), Ok(Margins::USUAL));
    /// assert_eq!(Margins::default(), Margins::USUAL);
    /// ```
    pub const USUAL: Margins = Margins { left: 2, right: 3 };

    /// The left margin, before a break, and the right one, behind it.
    ///
    /// They are numbers of 64 bits, as in the C interface, so that a great
    /// number is refused and never cut to a small one on its way here.
    ///
    /// ```
    /// use tteolmigu::{Ground, Margins};
    ///
    /// const NARROW: Result<Margins, Ground> = Margins::new(1, 63);
    /// assert!(NARROW.is_ok());
    /// assert_eq!(Margins::new(0, 3), Err(Ground::Margin));
    /// assert_eq!(Margins::new(2, 1 << 32 | 3), Err(Ground::Margin));
    /// ```
    ///
    /// # Errors
    ///
    /// Ground 1.
    pub const fn new(left: u64, right: u64) -> Result<Margins, Ground> {
        if is_margin(left) && is_margin(right) {
            Ok(Margins { left, right })
        } else {
            Err(Ground::Margin)
        }
    }

    /// The least number of letters before a break.
    ///
    /// ```
    /// assert_eq!(tteolmigu::Margins::USUAL.left(), 2);
    /// ```
    pub const fn left(self) -> u64 {
        self.left
    }

    /// The least number of letters behind a break.
    ///
    /// ```
    /// assert_eq!(tteolmigu::Margins::USUAL.right(), 3);
    /// ```
    pub const fn right(self) -> u64 {
        self.right
    }
}

impl Default for Margins {
    fn default() -> Margins {
        Margins::USUAL
    }
}

const fn is_margin(margin: u64) -> bool {
    MARGIN_LEAST <= margin && margin <= MARGIN_LIMIT
}

#[cfg(test)]
mod tests {
    use super::*;
    use crate::{raw, ROOM};

    /// A head and one cell that says nothing.
    const TABLE: [u8; 12] = [1, 1, 0, 1, 0, 0, 2, 0, 0, 0, 0, 0];

    /// Ground 1 is the library's; the judgement here is a copy.
    #[test]
    fn margins_are_judged_as_the_library_judges_them() {
        let some = [0, 1, 2, 3, 31, 62, 63, 64, 65, 127, 255, 256, 257, 319];
        let great = [1 << 16 | 2, 1 << 32 | 2, 1 << 63 | 2, u64::MAX];
        for left in some.into_iter().chain(great) {
            for right in some.into_iter().chain(great) {
                let answer = raw::hyphenate(left, right, b"on", b"", b"", &TABLE, &mut [0; ROOM]);
                let told = Margins::new(left, right).map(|margins| (margins.left, margins.right));
                let expected = match Ground::of_answer(answer) {
                    Some(ground) => Err(ground),
                    None => Ok((left, right)),
                };
                assert_eq!(told, expected);
            }
        }
    }
}
