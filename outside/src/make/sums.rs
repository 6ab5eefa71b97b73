//! Sums of widths as they would be by other rules, so that a test can count
//! how often these rules would give another answer.

use crate::reference::binary64::{add, Magnitude};
use crate::reference::gauge::{outcome, Gauge};
use std::cmp::Ordering;

/// Pieces of 64 bits that hold a sum: the last place of the smallest double is
/// bit 0, and 64 widths of 1,000 have 1,090 bits.
const PIECES: usize = 18;

/// A sum of widths with all its bits, as a multiple of 2^-1074.
#[derive(Clone, Copy, Debug, PartialEq, Eq)]
pub struct Wide([u64; PIECES]);

impl Wide {
    /// 0.
    pub const ZERO: Wide = Wide([0; PIECES]);

    /// The width itself.
    pub fn of(width: f64) -> Wide {
        Wide::ZERO.plus(width)
    }

    /// The exact sum with a width.
    pub fn plus(self, width: f64) -> Wide {
        let Magnitude { significand, scale } = Magnitude::of(width).expect("a finite width");
        self.plus_bits(significand, scale as usize)
    }

    /// The exact sum with an integer that begins at this bit.
    fn plus_bits(mut self, number: u64, bit: usize) -> Wide {
        let shifted = u128::from(number) << (bit % 64);
        let mut carry = 0;
        for (number, piece) in self.0[bit / 64..].iter_mut().enumerate() {
            let more = match number {
                0 => shifted as u64,
                1 => (shifted >> 64) as u64,
                _ if carry == 0 => break,
                _ => 0,
            };
            let sum = u128::from(*piece) + u128::from(more) + carry;
            *piece = sum as u64;
            carry = sum >> 64;
        }
        assert_eq!(carry, 0, "a sum of widths has fewer bits");
        self
    }

    /// Whether a bit is set.
    fn bit(&self, place: usize) -> bool {
        self.0[place / 64] >> (place % 64) & 1 == 1
    }

    /// How many bits there are up to the highest that is set.
    fn length(&self) -> usize {
        match self.0.iter().rposition(|&piece| piece != 0) {
            Some(piece) => 64 * (piece + 1) - self.0[piece].leading_zeros() as usize,
            None => 0,
        }
    }

    /// Rounded to so many bits, to nearest, ties to even.
    pub fn rounded(mut self, bits: usize) -> Wide {
        let dropped = match self.length().checked_sub(bits) {
            None | Some(0) => return self,
            Some(dropped) => dropped,
        };
        let half = self.bit(dropped - 1);
        let more = (0..dropped - 1).any(|place| self.bit(place));
        let odd = self.bit(dropped);
        for place in 0..dropped {
            self.0[place / 64] &= !(1 << (place % 64));
        }
        match half && (more || odd) {
            true => self.plus_bits(1, dropped),
            false => self,
        }
    }

    /// Whether it isn't above another.
    fn at_most(&self, other: &Wide) -> bool {
        self.0.iter().rev().cmp(other.0.iter().rev()) != Ordering::Greater
    }
}

/// A rule that isn't the one demanded.
#[derive(Clone, Copy, Debug, PartialEq, Eq)]
pub enum Otherwise {
    /// The sum starts with the hyphen.
    HyphenFirst,
    /// Letters are summed from the right.
    FromTheRight,
    /// Sums are kept with 64 bits, as in a register of 80.
    Extended,
    /// Each sum is rounded to 64 bits and then to those of a double.
    RoundedTwice,
    /// Sums are exact and rounded once at their end.
    RoundedOnce,
    /// Subnormal numbers are taken for 0 where they are given.
    Flushed,
    /// The hyphen is taken from the line.
    LineLessHyphen,
}

/// All of them.
pub const OTHERWISE: [Otherwise; 7] = [
    Otherwise::HyphenFirst,
    Otherwise::FromTheRight,
    Otherwise::Extended,
    Otherwise::RoundedTwice,
    Otherwise::RoundedOnce,
    Otherwise::Flushed,
    Otherwise::LineLessHyphen,
];

/// A number, or 0 in place of a subnormal one.
fn flush(number: f64) -> f64 {
    if number < f64::MIN_POSITIVE {
        0.0
    } else {
        number
    }
}

/// What a word and its beginnings measure by another rule.
pub struct Sums {
    rule: Otherwise,
    whole: Wide,
    /// At i the first i letters with their hyphen.
    breaks: Vec<Wide>,
}

impl Sums {
    /// Measures a word, given as symbols, by a rule.
    pub fn new(rule: Otherwise, gauge: &Gauge, symbols: &[u8]) -> Sums {
        let widths: Vec<f64> = symbols
            .iter()
            .map(|&symbol| gauge.width_of(symbol))
            .collect();
        let hyphen = gauge.hyphen;
        // The sums of all beginnings, each from the one before.
        let grown = |start: Wide, step: &dyn Fn(Wide, f64) -> Wide| -> Vec<Wide> {
            let mut sums = vec![start];
            for &width in &widths {
                sums.push(step(sums[sums.len() - 1], width));
            }
            sums
        };
        let with_hyphens = |sums: Vec<Wide>, step: &dyn Fn(Wide, f64) -> Wide| Sums {
            rule,
            whole: sums[widths.len()],
            breaks: sums.iter().map(|&sum| step(sum, hyphen)).collect(),
        };
        let once = |sum: Wide, width: f64| sum.plus(width).rounded(53);
        match rule {
            Otherwise::HyphenFirst => Sums {
                rule,
                whole: grown(Wide::ZERO, &once)[widths.len()],
                breaks: grown(Wide::of(hyphen), &once),
            },
            Otherwise::FromTheRight => {
                let back = |gap: usize| widths[..gap].iter().rev().fold(0.0, |a, &b| add(a, b));
                let sums = (0..=widths.len()).map(|gap| Wide::of(back(gap)));
                with_hyphens(sums.collect(), &once)
            }
            Otherwise::Extended => {
                let step = |sum: Wide, width: f64| sum.plus(width).rounded(64);
                with_hyphens(grown(Wide::ZERO, &step), &step)
            }
            Otherwise::RoundedTwice => {
                let step = |sum: Wide, width: f64| sum.plus(width).rounded(64).rounded(53);
                with_hyphens(grown(Wide::ZERO, &step), &step)
            }
            Otherwise::RoundedOnce => {
                let sums = grown(Wide::ZERO, &Wide::plus);
                Sums {
                    rule,
                    whole: sums[widths.len()].rounded(53),
                    breaks: sums.iter().map(|&sum| once(sum, hyphen)).collect(),
                }
            }
            Otherwise::Flushed => {
                let step = |sum: Wide, width: f64| once(sum, flush(width));
                with_hyphens(grown(Wide::ZERO, &step), &step)
            }
            Otherwise::LineLessHyphen => Sums {
                rule,
                whole: grown(Wide::ZERO, &once)[widths.len()],
                breaks: grown(Wide::ZERO, &once),
            },
        }
    }

    /// What would come out by this rule on a line.
    pub fn answer(&self, gauge: &Gauge, room: &[u8]) -> u64 {
        let line = match self.rule {
            Otherwise::Flushed => flush(gauge.line),
            _ => gauge.line,
        };
        let for_breaks = match self.rule {
            Otherwise::LineLessHyphen => add(line, -gauge.hyphen),
            _ => line,
        };
        let whole_fits = self.whole.at_most(&Wide::of(line));
        let widest = Wide::of(for_breaks);
        let break_fits = |gap: usize| for_breaks >= 0.0 && self.breaks[gap].at_most(&widest);
        outcome(self.breaks.len() - 1, room, whole_fits, break_fits)
    }
}

#[cfg(test)]
mod tests {
    use super::*;
    use crate::make::gauges::{width, HALF, SHAPES};
    use crate::reference::{fit_line_by_integers, WIDTHS};
    use crate::rng::Rng;

    /// Exact sums that are rounded at each step are those of binary64.
    #[test]
    fn wide_sums_rounded_to_53_bits_are_doubles() {
        let mut rng = Rng::new(80);
        for _ in 0..3_000 {
            let (mut sum, mut wide) = (0.0, Wide::ZERO);
            let shapes = [*rng.pick(&SHAPES), *rng.pick(&SHAPES)];
            for _ in 0..rng.range(1, 64) {
                let shape = *rng.pick(&shapes);
                let width = width(&mut rng, shape);
                sum = add(sum, width);
                wide = wide.plus(width).rounded(53);
                assert_eq!(wide, Wide::of(sum));
            }
        }
    }

    /// Each rule tells in a case of its own.
    #[test]
    fn other_rules_answer_otherwise() {
        let least = f64::from_bits(1);
        for (rule, hyphen, line, a, b) in [
            // 1 and two halves of its last place are 1 from the left, and more
            // in any other way.
            (Otherwise::FromTheRight, 0.0, 1.0, 1.0, HALF),
            (Otherwise::Extended, 0.0, 1.0, 1.0, HALF),
            (Otherwise::RoundedOnce, 0.0, 1.0, 1.0, HALF),
            // A little more than a half counts, unless it is rounded to one.
            (
                Otherwise::RoundedTwice,
                0.0,
                1.0,
                1.0,
                HALF + HALF / 2_048.0,
            ),
            // So are a half, 1 and a half, but not if both halves come first.
            (Otherwise::HyphenFirst, HALF, 1.0, HALF, 1.0),
            // 1 and a half are 1, but 1 without a half isn't.
            (Otherwise::LineLessHyphen, HALF, 1.0, 1.0, 1.0),
            // The smallest number isn't 0.
            (Otherwise::Flushed, 0.0, 0.0, least, least),
        ] {
            let mut gauge = Gauge {
                hyphen,
                line,
                letters: [0.0; WIDTHS],
            };
            gauge.letters[..2].copy_from_slice(&[a, b]);
            let room = [1; 64];
            let right = fit_line_by_integers(&gauge, b"abb", &room);
            let other = Sums::new(rule, &gauge, &[1, 2, 2]).answer(&gauge, &room);
            assert_ne!(right, other, "{:?}", rule);
        }
    }
}
