//! Widths, and break rooms that somebody filled.

use super::words;
use crate::reference::binary64::{above, below};
use crate::reference::gauge::{beginnings, Compiled};
use crate::reference::text::read_word;
use crate::reference::{Gauge, WIDTHS, WIDTH_LIMIT};
use crate::rng::Rng;

/// 2^-53, half of the last place of 1.
pub const HALF: f64 = 1.0 / 9_007_199_254_740_992.0;

/// Of what shape widths are.
#[derive(Clone, Copy, Debug, PartialEq, Eq)]
pub enum Shape {
    /// Some tenths of a millimetre, which no double is.
    Tenths,
    /// Small whole numbers, whose sums are exact.
    Whole,
    /// About 1, and some halves of its last place, so that sums tie.
    Halves,
    /// Random places over some powers of two.
    Near,
    /// Any bits that are allowed, so that most are tiny.
    Bits,
    /// Subnormal numbers and their neighbours.
    Tiny,
    /// Both zeros.
    Zero,
    /// At the limit or right below it.
    Greatest,
}

/// All shapes.
pub const SHAPES: [Shape; 8] = [
    Shape::Tenths,
    Shape::Whole,
    Shape::Halves,
    Shape::Near,
    Shape::Bits,
    Shape::Tiny,
    Shape::Zero,
    Shape::Greatest,
];

/// A good width of a shape.
pub fn width(rng: &mut Rng, shape: Shape) -> f64 {
    match shape {
        Shape::Tenths => rng.below(60) as f64 / 10.0,
        Shape::Whole => rng.below(20) as f64,
        Shape::Halves => match rng.below(6) {
            0 | 1 => 1.0 + rng.below(4) as f64 * 2.0 * HALF,
            // A little more than a half: no more with 64 bits.
            2 => HALF + HALF / 2_048.0,
            _ => rng.below(7) as f64 * HALF / *rng.pick(&[1.0, 1.0, 2.0]),
        },
        Shape::Near => {
            // A fraction of 52 random bits, under one of some exponents.
            let exponent = 1_023 + rng.below(13) as u64 - 6;
            f64::from_bits(exponent << 52 | rng.bits() >> 12)
        }
        Shape::Bits => f64::from_bits(rng.bits() % (WIDTH_LIMIT.to_bits() + 1)),
        Shape::Tiny => {
            let least_normal = 1u64 << 52;
            f64::from_bits(match rng.below(4) {
                0 => rng.below(5) as u64,
                1 => least_normal - 2 + rng.below(5) as u64,
                2 => least_normal / 2 + rng.below(3) as u64,
                _ => rng.bits() % least_normal,
            })
        }
        Shape::Zero => *rng.pick(&[0.0, -0.0]),
        Shape::Greatest => f64::from_bits(WIDTH_LIMIT.to_bits() - rng.below(4) as u64),
    }
}

/// Good widths of one shape, or of two, or of many, with some line.
pub fn gauge(rng: &mut Rng) -> Gauge {
    let (first, second) = (*rng.pick(&SHAPES), *rng.pick(&SHAPES));
    let kind = rng.below(4);
    let one = |rng: &mut Rng| {
        let shape = match kind {
            0 | 1 => first,
            2 if rng.once_in(2) => first,
            2 => second,
            _ => *rng.pick(&SHAPES),
        };
        width(rng, shape)
    };
    let mut gauge = Gauge {
        hyphen: one(rng),
        line: one(rng),
        letters: [0.0; WIDTHS],
    };
    for letter in &mut gauge.letters {
        *letter = one(rng);
    }
    gauge
}

/// Gives the gauge a line about as wide as some beginning of a good word, with
/// its hyphen or without, so that all that may come out does.
pub fn set_line(rng: &mut Rng, gauge: &mut Gauge, word: &[u8]) {
    let symbols = read_word(word).expect("a good word");
    let sums = beginnings::<Compiled>(gauge, &symbols);
    let sum = match rng.below(3) {
        0 => sums[symbols.len()],
        1 => *rng.pick(&sums),
        _ => *rng.pick(&sums) + gauge.hyphen,
    };
    let mut line = if sum > WIDTH_LIMIT { WIDTH_LIMIT } else { sum };
    for _ in 0..rng.below(3) {
        line = match rng.below(2) {
            0 if line > 0.0 => below(line),
            1 if line < WIDTH_LIMIT => above(line),
            _ => line,
        };
    }
    gauge.line = line;
}

/// A good word of any length, over few letters or many.
pub fn word(rng: &mut Rng) -> Vec<u8> {
    let alphabet = words::alphabet(rng);
    let length = words::length(rng);
    words::good(rng, &alphabet, length)
}

/// A break room: with few breaks or many, any bytes but 0 as marks, and noise
/// where nothing is read.
pub fn room(rng: &mut Rng, letters: usize) -> Vec<u8> {
    let size = *rng.pick(&[64, 64, 64, 65, 71, 128, 300]);
    let one_in = *rng.pick(&[1, 2, 3, 8, 60]);
    let mut room = vec![0; size];
    for (gap, byte) in room.iter_mut().enumerate() {
        *byte = match (1..letters).contains(&gap) {
            true if rng.once_in(one_in) => mark(rng),
            true => 0,
            false => *rng.pick(&[0, 1, 255, gap as u8]),
        };
    }
    room
}

/// A byte that marks a break.
pub fn mark(rng: &mut Rng) -> u8 {
    match rng.below(3) {
        0 => 1,
        1 => *rng.pick(&[2, 128, 255]),
        _ => 1 + rng.byte() % 255,
    }
}

/// Numbers that are no widths: beside the limits, far away, not finite, and
/// what is no number, quiet and signalling, with and without a sign.
pub const BAD: [u64; 26] = [
    0x408f_4000_0000_0001, // the neighbour of 1,000
    0x408f_4800_0000_0000, // 1,001
    0x4090_0000_0000_0000, // 1,024
    0x7fef_ffff_ffff_ffff, // the greatest number
    0x8000_0000_0000_0001, // the neighbour of 0
    0x8000_0000_0000_0002,
    0x800f_ffff_ffff_ffff, // the least subnormal number
    0x8010_0000_0000_0000,
    0xbca0_0000_0000_0000, // -2^-53
    0xbff0_0000_0000_0000, // -1
    0xc08f_4000_0000_0000, // -1,000
    0xc08f_4000_0000_0001,
    0xffef_ffff_ffff_ffff, // the least number
    0x7ff0_0000_0000_0000, // infinity
    0xfff0_0000_0000_0000,
    0x7ff0_0000_0000_0001, // signalling
    0x7ff4_0000_0000_0000,
    0x7ff7_ffff_ffff_ffff,
    0xfff0_0000_0000_0001,
    0xfff7_ffff_ffff_ffff,
    0x7ff8_0000_0000_0000, // quiet
    0x7ff8_0000_0000_0001,
    0x7fff_ffff_ffff_ffff,
    0xfff8_0000_0000_0000,
    0xfff8_408f_4000_0000,
    0xffff_ffff_ffff_ffff,
];

/// A number that is no width.
pub fn bad_width(rng: &mut Rng) -> f64 {
    let limit = WIDTH_LIMIT.to_bits();
    f64::from_bits(match rng.below(5) {
        0 => limit + 1 + rng.bits() % ((1 << 63) - 1 - limit),
        1 => 1 << 63 | (1 + rng.bits() % ((1 << 63) - 1)),
        2 => 0x7ff0_0000_0000_0000 | rng.bits(),
        _ => *rng.pick(&BAD),
    })
}

/// Puts a width at one of the 29 places: the hyphen's, the line's, then those
/// of a to z and the apostrophe's.
pub fn put(gauge: &mut Gauge, place: usize, width: f64) {
    match place {
        0 => gauge.hyphen = width,
        1 => gauge.line = width,
        _ => gauge.letters[place - 2] = width,
    }
}

/// How many places there are.
pub const PLACES: usize = 2 + WIDTHS;

#[cfg(test)]
mod tests {
    use super::*;
    use crate::reference::fit_line;

    #[test]
    fn good_ones_are_good_and_bad_ones_bad() {
        let mut rng = Rng::new(13);
        for _ in 0..20_000 {
            let mut gauge = gauge(&mut rng);
            let word = word(&mut rng);
            let room = room(&mut rng, word.len());
            assert_eq!(fit_line(&gauge, &word, &room) >> 56, 0);
            set_line(&mut rng, &mut gauge, &word);
            assert_eq!(fit_line(&gauge, &word, &room) >> 56, 0);
            assert_ne!(mark(&mut rng), 0);
            put(&mut gauge, rng.below(PLACES), bad_width(&mut rng));
            assert_eq!(fit_line(&gauge, &word, &room), 13 << 56);
        }
        for bits in BAD {
            let mut gauge = gauge(&mut rng);
            gauge.hyphen = f64::from_bits(bits);
            assert_eq!(fit_line(&gauge, b"a", &[0; 64]), 13 << 56);
        }
    }
}
