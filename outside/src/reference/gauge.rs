//! Which break of a word fits a line: the call of the second change request.
//!
//! The rule stands here once. It is worked out twice, with additions and
//! comparisons as the compiler makes them, and with those of [`binary64`],
//! which are made of integers.

use super::binary64;
use super::calls::settle;
use super::text::read_word;
use super::{Refusal, APOSTROPHE, LETTERS, MARK_ROOM};

/// How many letters have a width: a to z, and the apostrophe.
pub const WIDTHS: usize = 27;
/// The greatest width that may be given.
pub const WIDTH_LIMIT: f64 = 1_000.0;

/// All widths that a call is given.
#[derive(Clone, Copy, Debug)]
pub struct Gauge {
    /// The hyphen's.
    pub hyphen: f64,
    /// The line's.
    pub line: f64,
    /// Those of a to z, then the apostrophe's.
    pub letters: [f64; WIDTHS],
}

impl Gauge {
    /// The width of a letter of a word, given as its symbol. The edge has none,
    /// so the apostrophe's stands right behind that of z.
    pub fn width_of(&self, symbol: u8) -> f64 {
        let place = match symbol {
            APOSTROPHE => LETTERS,
            letter => letter - 1,
        };
        self.letters[place as usize]
    }
}

/// How widths are added and compared.
pub trait Arithmetic {
    /// The sum, rounded once.
    fn add(left: f64, right: f64) -> f64;
    /// Whether the first isn't above the second.
    fn at_most(left: f64, right: f64) -> bool;
}

/// Arithmetic as the compiler makes it.
pub struct Compiled;

impl Arithmetic for Compiled {
    fn add(left: f64, right: f64) -> f64 {
        left + right
    }

    fn at_most(left: f64, right: f64) -> bool {
        left <= right
    }
}

/// Arithmetic with integers alone.
pub struct Integers;

impl Arithmetic for Integers {
    fn add(left: f64, right: f64) -> f64 {
        binary64::add(left, right)
    }

    fn at_most(left: f64, right: f64) -> bool {
        binary64::at_most(left, right)
    }
}

/// Whether a width may be given. What is no number is neither at least 0 nor
/// at most anything.
fn is_width<A: Arithmetic>(width: f64) -> bool {
    A::at_most(0.0, width) && A::at_most(width, WIDTH_LIMIT)
}

/// The width of letters, given as symbols: the sum from the left, starting at
/// zero.
fn width_of<A: Arithmetic>(gauge: &Gauge, symbols: &[u8]) -> f64 {
    let mut sum = 0.0;
    for &symbol in symbols {
        sum = A::add(sum, gauge.width_of(symbol));
    }
    sum
}

/// The widths of a word's beginnings: at i that of the first i letters.
pub fn beginnings<A: Arithmetic>(gauge: &Gauge, symbols: &[u8]) -> Vec<f64> {
    (0..=symbols.len())
        .map(|letters| width_of::<A>(gauge, &symbols[..letters]))
        .collect()
}

/// What comes out for a word of so many letters: the whole word if it fits,
/// else the last break of the room that does, else none.
pub fn outcome(
    letters: usize,
    room: &[u8],
    whole_fits: bool,
    break_fits: impl Fn(usize) -> bool,
) -> u64 {
    if whole_fits {
        return 1 << 32;
    }
    for gap in (1..letters).rev() {
        if room[gap] != 0 && break_fits(gap) {
            return 2 << 32 | gap as u64;
        }
    }
    3 << 32
}

fn try_fit_line<A: Arithmetic>(gauge: &Gauge, word: &[u8], room: &[u8]) -> Result<u64, Refusal> {
    if room.len() < MARK_ROOM {
        return Err(Refusal::plain(5));
    }
    let symbols = read_word(word)?;
    let given = [gauge.hyphen, gauge.line];
    for &width in given.iter().chain(&gauge.letters) {
        if !is_width::<A>(width) {
            return Err(Refusal::plain(13));
        }
    }
    let whole_fits = A::at_most(width_of::<A>(gauge, &symbols), gauge.line);
    let break_fits = |gap: usize| {
        let letters = width_of::<A>(gauge, &symbols[..gap]);
        A::at_most(A::add(letters, gauge.hyphen), gauge.line)
    };
    Ok(outcome(symbols.len(), room, whole_fits, break_fits))
}

/// The call, with sums as the compiler makes them.
pub fn fit_line(gauge: &Gauge, word: &[u8], room: &[u8]) -> u64 {
    settle(try_fit_line::<Compiled>(gauge, word, room))
}

/// The call, with sums made of integers.
pub fn fit_line_by_integers(gauge: &Gauge, word: &[u8], room: &[u8]) -> u64 {
    settle(try_fit_line::<Integers>(gauge, word, room))
}

#[cfg(test)]
mod tests {
    use super::*;

    fn gauge(hyphen: f64, line: f64, letters: f64) -> Gauge {
        Gauge {
            hyphen,
            line,
            letters: [letters; WIDTHS],
        }
    }

    /// The answer, which both ways of adding must give.
    fn answer(gauge: &Gauge, word: &[u8], room: &[u8]) -> u64 {
        let compiled = fit_line(gauge, word, room);
        assert_eq!(compiled, fit_line_by_integers(gauge, word, room));
        compiled
    }

    #[test]
    fn figures() {
        let mut room = [0; 64];
        room[2] = 1;
        room[4] = 200;
        let fit = |line| answer(&gauge(0.5, line, 1.0), b"Nation", &room);
        assert_eq!(fit(6.0), 1 << 32);
        assert_eq!(fit(5.9), 2 << 32 | 4);
        assert_eq!(fit(4.5), 2 << 32 | 4);
        assert_eq!(fit(4.4), 2 << 32 | 2);
        assert_eq!(fit(2.5), 2 << 32 | 2);
        assert_eq!(fit(2.4), 3 << 32);
        // Ten tenths make the double below 1, and three the one above 0.3.
        let ten = |line| answer(&gauge(0.0, line, 0.1), b"hyphenates", &[0; 64]);
        assert_eq!(ten(1.0), 1 << 32);
        assert_eq!(ten(binary64::below(1.0)), 1 << 32);
        assert_eq!(ten(binary64::below(binary64::below(1.0))), 3 << 32);
        let three = |line| answer(&gauge(0.0, line, 0.1), b"one", &[0; 64]);
        assert_eq!(three(0.3), 3 << 32);
        assert_eq!(three(binary64::above(0.3)), 1 << 32);
    }

    /// The 27th width is the apostrophe's and no other's.
    #[test]
    fn apostrophes() {
        let narrow = |line| {
            let mut narrow = gauge(0.5, line, 1.0);
            narrow.letters[26] = 0.25;
            narrow
        };
        let fit = |line, word: &[u8]| answer(&narrow(line), word, &[1; 64]);
        assert_eq!(fit(3.25, b"L'En"), 1 << 32);
        assert_eq!(fit(3.0, b"l'en"), 2 << 32 | 3);
        assert_eq!(fit(2.5, b"l'en"), 2 << 32 | 2);
        assert_eq!(fit(1.75, b"l'en"), 2 << 32 | 2);
        assert_eq!(fit(1.5, b"l'en"), 2 << 32 | 1);
        assert_eq!(fit(3.25, b"lzen"), 2 << 32 | 2);
        let mut bad = narrow(4.0);
        bad.letters[26] = f64::NAN;
        assert_eq!(answer(&bad, b"l'en", &[1; 64]), 13 << 56);
        assert_eq!(answer(&bad, b"len", &[1; 64]), 13 << 56);
        assert_eq!(answer(&bad, b"l'", &[1; 64]), 3 << 56 | 1);
    }

    #[test]
    fn grounds() {
        let good = gauge(0.0, 1.0, 1.0);
        let mut bad = good;
        bad.letters[25] = f64::NAN;
        assert_eq!(answer(&bad, b"", &[0; 63]), 5 << 56);
        assert_eq!(answer(&bad, b"", &[0; 64]), 2 << 56);
        assert_eq!(answer(&bad, &[b'1'; 64], &[0; 64]), 4 << 56);
        assert_eq!(answer(&bad, b"a1", &[0; 64]), 3 << 56 | 1);
        assert_eq!(answer(&bad, b"a", &[0; 64]), 13 << 56);
        assert_eq!(answer(&good, b"a", &[0; 64]), 1 << 32);
        for (width, ground) in [(-0.0, 0), (1_000.0, 0), (1_000.1, 13), (-0.1, 13)] {
            assert_eq!(
                answer(&gauge(width, 1.0, 1.0), b"a", &[0; 64]) >> 56,
                ground
            );
            assert_eq!(
                answer(&gauge(1.0, width, 1.0), b"a", &[0; 64]) >> 56,
                ground
            );
            assert_eq!(
                answer(&gauge(1.0, 1.0, width), b"a", &[0; 64]) >> 56,
                ground
            );
        }
    }
}
