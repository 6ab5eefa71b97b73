//! IEEE 754's binary64 with integers alone: an addition from the bits of two
//! doubles, and how two of them compare.
//!
//! It is here so that a sum which a compiler has made machine code of is held
//! to the standard and not to itself. Nothing in it would change if the
//! processor kept more bits, rounded twice or took small numbers for 0.

/// Bits of a significand behind its first one.
const FRACTION: u32 = 52;
/// The exponent field of infinities and of what is no number.
const SPECIAL: u64 = 2_047;
/// The bit of the sign.
const SIGN: u64 = 1 << 63;
/// The bits of infinity.
const INFINITE: u64 = SPECIAL << FRACTION;
/// What is no number, as we give it; the standard leaves its lower bits open.
const NO_NUMBER: u64 = INFINITE | 1 << (FRACTION - 1);
/// How far apart two exponents are at most for the sum to be taken whole.
const APART: u32 = 70;

/// A finite number without its sign: the significand times 2^(scale - 1074).
#[derive(Clone, Copy, Debug, PartialEq, Eq)]
pub struct Magnitude {
    /// At most 53 bits.
    pub significand: u64,
    /// 0 for the smallest numbers, up to 2,045.
    pub scale: u32,
}

impl Magnitude {
    /// Of a double; `None` where it isn't finite.
    pub fn of(number: f64) -> Option<Magnitude> {
        let field = number.to_bits() >> FRACTION & SPECIAL;
        let fraction = number.to_bits() & ((1 << FRACTION) - 1);
        match field {
            SPECIAL => None,
            0 => Some(Magnitude {
                significand: fraction,
                scale: 0,
            }),
            _ => Some(Magnitude {
                significand: 1 << FRACTION | fraction,
                scale: field as u32 - 1,
            }),
        }
    }
}

/// Whether the sign bit is set.
fn is_negative(number: f64) -> bool {
    number.to_bits() & SIGN != 0
}

/// Whether these bits are those of no number.
fn is_no_number(number: f64) -> bool {
    number.to_bits() & !SIGN > INFINITE
}

/// The sum, rounded once to nearest, ties to even.
pub fn add(left: f64, right: f64) -> f64 {
    if is_no_number(left) || is_no_number(right) {
        return f64::from_bits(NO_NUMBER);
    }
    match (Magnitude::of(left), Magnitude::of(right)) {
        (None, None) if is_negative(left) != is_negative(right) => f64::from_bits(NO_NUMBER),
        (None, _) => left,
        (_, None) => right,
        (Some(a), Some(b)) => add_finite(is_negative(left), a, is_negative(right), b),
    }
}

/// The sum of two finite numbers.
fn add_finite(a_negative: bool, a: Magnitude, b_negative: bool, b: Magnitude) -> f64 {
    if a.scale < b.scale {
        return add_finite(b_negative, b, a_negative, a);
    }
    let signed = |negative: bool, magnitude: u128| match negative {
        true => -(magnitude as i128),
        false => magnitude as i128,
    };
    let apart = a.scale - b.scale;
    let (sum, scale) = if apart <= APART {
        let a = signed(a_negative, u128::from(a.significand) << apart);
        (a + signed(b_negative, b.significand.into()), b.scale)
    } else {
        // Whatever the smaller one is, it is far less than a quarter of the
        // greater one's last place. So only its sign tells, and that it
        // isn't 0.
        let least = u128::from(b.significand != 0);
        let a_shifted = signed(a_negative, u128::from(a.significand) << APART);
        (a_shifted + signed(b_negative, least), a.scale - APART)
    };
    if sum == 0 {
        // Two zeros with a minus keep it; else a sum of 0 has none.
        return f64::from_bits(if a_negative && b_negative { SIGN } else { 0 });
    }
    let sign = if sum < 0 { SIGN } else { 0 };
    f64::from_bits(sign | rounded(sum.unsigned_abs(), scale))
}

/// The bits of a number above 0 that is `magnitude` times 2^(scale - 1074).
fn rounded(magnitude: u128, scale: u32) -> u64 {
    let length = 128 - magnitude.leading_zeros();
    let (mut significand, mut scale) = if length <= FRACTION + 1 {
        // It stays whole; the smallest numbers keep the smallest scale.
        let shift = (FRACTION + 1 - length).min(scale);
        ((magnitude << shift) as u64, scale - shift)
    } else {
        let dropped = length - (FRACTION + 1);
        let kept = (magnitude >> dropped) as u64;
        let rest = magnitude & ((1 << dropped) - 1);
        let half = 1 << (dropped - 1);
        let up = rest > half || (rest == half && kept & 1 == 1);
        (kept + u64::from(up), scale + dropped)
    };
    if significand == 1 << (FRACTION + 1) {
        significand >>= 1;
        scale += 1;
    }
    if significand < 1 << FRACTION {
        return significand;
    }
    let field = u64::from(scale) + 1;
    match field {
        SPECIAL.. => INFINITE,
        _ => field << FRACTION | (significand & ((1 << FRACTION) - 1)),
    }
}

/// The place of a number among all, so that these are ordered as the numbers
/// are. Both zeros have place 0.
fn place(number: f64) -> i64 {
    let distance = (number.to_bits() & !SIGN) as i64;
    if is_negative(number) {
        -distance
    } else {
        distance
    }
}

/// Whether the first isn't above the second. What is no number compares with
/// nothing.
pub fn at_most(left: f64, right: f64) -> bool {
    !is_no_number(left) && !is_no_number(right) && place(left) <= place(right)
}

/// The next greater double of one that is finite and not below 0.
pub fn above(number: f64) -> f64 {
    f64::from_bits(place(number) as u64 + 1)
}

/// The next smaller double of one that is above 0.
pub fn below(number: f64) -> f64 {
    f64::from_bits(place(number) as u64 - 1)
}

#[cfg(test)]
mod tests {
    use super::super::gauge::{Arithmetic, Compiled};
    use super::*;
    use crate::rng::Rng;

    /// The bits of a sum.
    fn sum(left: u64, right: u64) -> u64 {
        add(f64::from_bits(left), f64::from_bits(right)).to_bits()
    }

    const ONE: u64 = 0x3ff0_0000_0000_0000;
    /// Half of the last place of 1.
    const HALF: u64 = 0x3ca0_0000_0000_0000;
    /// The greatest finite number, and half of its last place.
    const MOST: u64 = 0x7fef_ffff_ffff_ffff;
    const MOST_HALF: u64 = 0x7c90_0000_0000_0000;

    /// By hand from the standard.
    #[test]
    fn sums_by_hand() {
        assert_eq!(sum(ONE, ONE), 0x4000_0000_0000_0000);
        // Ties go to the even neighbour, down and up.
        assert_eq!(sum(ONE, HALF), ONE);
        assert_eq!(sum(ONE + 1, HALF), ONE + 2);
        assert_eq!(sum(ONE, HALF + 1), ONE + 1);
        assert_eq!(sum(ONE + 1, HALF - 1), ONE + 1);
        // Below a power of two the last place is half as large.
        assert_eq!(sum(ONE, SIGN | HALF), ONE - 1);
        assert_eq!(sum(ONE, SIGN | (HALF - (1 << FRACTION))), ONE);
        assert_eq!(sum(ONE, SIGN | (HALF - (1 << FRACTION) + 1)), ONE - 1);
        // A carry through all places.
        assert_eq!(sum(ONE + (1 << FRACTION) - 1, HALF), ONE + (1 << FRACTION));
        // The smallest numbers are kept, and grow into the normal ones.
        assert_eq!(sum(1, 1), 2);
        assert_eq!(sum((1 << FRACTION) - 1, 1), 1 << FRACTION);
        assert_eq!(sum((1 << FRACTION) + 1, SIGN | 1 << FRACTION), 1);
        assert_eq!(sum(ONE, 1), ONE);
        assert_eq!(sum(ONE, SIGN | 1), ONE);
        // Past the greatest number.
        assert_eq!(sum(MOST, MOST_HALF), INFINITE);
        assert_eq!(sum(MOST, MOST_HALF - 1), MOST);
        assert_eq!(sum(SIGN | MOST, SIGN | MOST), SIGN | INFINITE);
        // Zeros.
        assert_eq!(sum(0, 0), 0);
        assert_eq!(sum(SIGN, SIGN), SIGN);
        assert_eq!(sum(0, SIGN), 0);
        assert_eq!(sum(SIGN, 0), 0);
        assert_eq!(sum(SIGN, ONE), ONE);
        assert_eq!(sum(ONE, SIGN | ONE), 0);
        assert_eq!(sum(SIGN | ONE, ONE), 0);
        // What isn't finite.
        assert_eq!(sum(INFINITE, SIGN | MOST), INFINITE);
        assert_eq!(sum(ONE, SIGN | INFINITE), SIGN | INFINITE);
        assert_eq!(sum(INFINITE, INFINITE), INFINITE);
        assert_eq!(sum(INFINITE, SIGN | INFINITE), NO_NUMBER);
        assert_eq!(sum(INFINITE | 1, ONE), NO_NUMBER);
        assert_eq!(sum(ONE, SIGN | NO_NUMBER), NO_NUMBER);
    }

    /// The compiled addition does the same, far apart and close by.
    #[test]
    fn sums_as_compiled() {
        let mut rng = Rng::new(64);
        for _ in 0..400_000 {
            let left = rng.bits();
            let right = match rng.below(3) {
                0 => rng.bits(),
                1 => left ^ (rng.bits() >> rng.below(64)) ^ (rng.bits() & SIGN),
                _ => left.wrapping_sub(rng.below(140) as u64 * (1 << FRACTION) + rng.bits() % 3),
            };
            let ours = sum(left, right);
            let compiled = Compiled::add(f64::from_bits(left), f64::from_bits(right));
            let agrees = compiled.to_bits() == ours || (compiled.is_nan() && ours == NO_NUMBER);
            assert!(agrees, "{:#x} + {:#x}", left, right);
        }
    }

    #[test]
    fn numbers_compare_as_compiled() {
        let some = [0, 1, 2, HALF, ONE, MOST, INFINITE, NO_NUMBER, INFINITE | 1];
        let both = some.iter().flat_map(|&bits| [bits, SIGN | bits]);
        for left in both.clone().map(f64::from_bits) {
            for right in both.clone().map(f64::from_bits) {
                assert_eq!(at_most(left, right), Compiled::at_most(left, right));
            }
        }
    }

    #[test]
    fn neighbours() {
        assert_eq!(above(0.0).to_bits(), 1);
        assert_eq!(above(-0.0).to_bits(), 1);
        assert_eq!(below(above(1_000.0)), 1_000.0);
        assert_eq!(above(1.0).to_bits(), ONE + 1);
        assert_eq!(below(1.0).to_bits(), ONE - 1);
    }
}
