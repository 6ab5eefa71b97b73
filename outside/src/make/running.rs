//! Running texts, their cuts, and states that the calls left or couldn't.

use super::words;
use crate::reference::running::{Open, State};
use crate::reference::{APOSTROPHE, RUNNING_TEXT, STATE, WORD_LIMIT};
use crate::rng::Rng;

/// What stands in short texts: small letters, a capital, an apostrophe, and
/// bytes that no word has.
pub const BYTES: &[u8] = b"abB' 1\xe9-\\";

/// What stands between words, with letters and the apostrophe close by.
const BETWEEN: [&[u8]; 24] = [
    b" ",
    b" ",
    b" ",
    b" ",
    b"\n",
    b", ",
    b"'",
    b"''",
    b" '",
    b"' ",
    b"'''",
    b"-",
    b"\\-",
    b"\\",
    b"1",
    b"'1'",
    b"\xe9",
    b"\xe2\x80\x99",
    b"\x92",
    b"\0",
    b"@",
    b"[",
    b"`{",
    b"&(",
];

/// A text of so many bytes, any of few.
pub fn short(rng: &mut Rng, length: usize) -> Vec<u8> {
    (0..length).map(|_| *rng.pick(BYTES)).collect()
}

/// A run of letters and inner apostrophes over few letters, at times around the
/// word limit or far over it.
pub fn run(rng: &mut Rng) -> Vec<u8> {
    let length = match rng.below(16) {
        0 => rng.range(WORD_LIMIT - 2, WORD_LIMIT + 3),
        1 => rng.range(WORD_LIMIT, 3 * WORD_LIMIT),
        _ => rng.range(1, 9),
    };
    words::good(rng, &[1, 2, 1, 2, APOSTROPHE], length)
}

/// A text of about so many bytes: words as `word` makes them, and something
/// between each two.
pub fn text(rng: &mut Rng, size: usize, mut word: impl FnMut(&mut Rng) -> Vec<u8>) -> Vec<u8> {
    let wanted = rng.range(0, size);
    let mut text = Vec::new();
    while text.len() < wanted {
        if !rng.once_in(8) {
            text.extend(word(rng));
        }
        text.extend(*rng.pick(&BETWEEN));
    }
    text.truncate(wanted);
    text
}

/// Cuts a text at random, some pieces being empty and none over `longest`.
pub fn pieces<'a>(rng: &mut Rng, text: &'a [u8], longest: usize) -> Vec<&'a [u8]> {
    let usual = *rng.pick(&[1, 3, longest]);
    let mut pieces = Vec::new();
    let mut rest = text;
    while !rest.is_empty() {
        let length = match rng.below(6) {
            0 => 0,
            1 => 1,
            _ => rng.range(1, usual),
        };
        let (piece, behind) = rest.split_at(length.min(rest.len()));
        pieces.push(piece);
        rest = behind;
    }
    pieces
}

/// Cuts a text in each gap whose bit is set, the first gap's lowest.
pub fn cut_at(text: &[u8], gaps: usize) -> Vec<&[u8]> {
    let mut pieces = Vec::new();
    let mut from = 0;
    for gap in 1..text.len() {
        if gaps >> (gap - 1) & 1 == 1 {
            pieces.push(&text[from..gap]);
            from = gap;
        }
    }
    pieces.push(&text[from..]);
    pieces
}

/// Something open, of every kind.
pub fn open(rng: &mut Rng) -> Open {
    let length = match rng.below(4) {
        0 => *rng.pick(&[1, 2, WORD_LIMIT - 1, WORD_LIMIT, WORD_LIMIT]),
        1 => rng.range(1, WORD_LIMIT),
        _ => rng.range(1, 9),
    };
    let mut word = words::good(rng, &[1, 2, 26, APOSTROPHE], length);
    match rng.below(6) {
        0 => Open::Nothing,
        1 => Open::Run { apostrophe: false },
        2 => Open::Run { apostrophe: true },
        3 => {
            word.push(b'\'');
            Open::Word(word)
        }
        _ => Open::Word(word),
    }
}

/// A total for what is open, often the least or the most that there can be.
fn total(rng: &mut Rng, open: &Open) -> usize {
    let least = open.text().len();
    match rng.below(6) {
        0 => least,
        1 => least + 1,
        2 => RUNNING_TEXT - rng.below(4),
        3 => RUNNING_TEXT - rng.below(300),
        4 => rng.range(least, 400),
        _ => rng.range(least, RUNNING_TEXT),
    }
}

/// A state that the calls can leave.
pub fn state(rng: &mut Rng) -> [u8; STATE] {
    let open = open(rng);
    let total = total(rng, &open);
    State { open, total }.bytes()
}

/// A state with one thing changed, so that mostly it can't be left.
pub fn near_state(rng: &mut Rng) -> [u8; STATE] {
    let mut bytes = state(rng);
    let held = bytes[0] as usize;
    let place = rng.below(STATE);
    let step = *rng.pick(&[1, 255]);
    match rng.below(10) {
        0 => bytes[place] = rng.byte(),
        1 => bytes[place] ^= 1 << rng.below(8),
        2 => bytes[0] = bytes[0].wrapping_add(step),
        3 => bytes[0] = rng.byte(),
        4 => bytes[1] = *rng.pick(&[0, 1, 2, 3, 4, 128, 255]),
        5 => bytes[2..6].copy_from_slice(&odd_total(rng, held).to_be_bytes()),
        6 => bytes[rng.range(6, 7)] = rng.byte(),
        7 => bytes[(8 + held).min(STATE - 1)] = *rng.pick(b"a'\x01 "),
        8 if held > 0 => bytes[8 + rng.below(held)] = *rng.pick(b"'' 1\0@[`{&(-\xc1\xe1"),
        _ => bytes[rng.range(8, STATE - 1)] = rng.byte(),
    }
    bytes
}

/// A total that is too small or too large, or just not.
fn odd_total(rng: &mut Rng, held: usize) -> u32 {
    let limit = RUNNING_TEXT as u32;
    match rng.below(6) {
        0 => held.max(1) as u32 - 1,
        1 => rng.range(WORD_LIMIT - 1, WORD_LIMIT + 3) as u32,
        2 => limit + rng.below(3) as u32,
        3 => *rng.pick(&[0, 1, 255, 256, 65_535, 65_536, u32::MAX, 1 << 24, 1 << 31]),
        4 => (1 << 24) * rng.range(1, 255) as u32 + held as u32,
        _ => rng.bits() as u32,
    }
}

/// Bytes of any kind.
pub fn any_state(rng: &mut Rng) -> [u8; STATE] {
    let mut bytes = [0; STATE];
    match rng.below(3) {
        0 => bytes.fill_with(|| rng.byte()),
        1 => {
            let often = rng.range(1, STATE);
            bytes.fill_with(|| if rng.once_in(often) { rng.byte() } else { 0 });
        }
        _ => {
            bytes[8..].fill_with(|| *rng.pick(b"abZ'\0"));
            bytes[0] = rng.below(STATE) as u8;
            bytes[5] = rng.byte();
        }
    }
    bytes
}

#[cfg(test)]
mod tests {
    use super::*;

    #[test]
    fn pieces_are_the_text() {
        let mut rng = Rng::new(11);
        for _ in 0..500 {
            let length = rng.range(0, 9);
            let text = short(&mut rng, length);
            assert_eq!(pieces(&mut rng, &text, 5).concat(), text);
            for gaps in 0..1 << length.saturating_sub(1) {
                let cut = cut_at(&text, gaps);
                assert_eq!(cut.len() as u32, gaps.count_ones() + 1);
                assert_eq!(cut.concat(), text);
            }
        }
    }

    #[test]
    fn states_can_be_left() {
        let mut rng = Rng::new(12);
        let mut other = 0;
        for _ in 0..5_000 {
            let bytes = state(&mut rng);
            assert_eq!(State::read(&bytes).bytes(), bytes);
            let near = near_state(&mut rng);
            other += usize::from(State::read(&near).bytes() != near);
        }
        assert!(other > 2_500, "{} states that can't be left", other);
    }
}
