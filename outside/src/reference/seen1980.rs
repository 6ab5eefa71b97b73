//! What words go through in the table machine of 1980, so that a test can tell
//! whether its words left anything out.

/// The ways that the scan for pairs of consonants can take, named after what
/// is met there.
#[derive(Clone, Copy, Debug, PartialEq, Eq)]
pub enum Turn {
    /// No hyphen, as only one letter would stand behind it.
    OneLetterLeft,
    /// A hyphen.
    Hyphen,
    /// A consonant where a vowel is looked for.
    NoVowelYet,
    /// An empty place where a vowel is looked for.
    NoVowelLeft,
    /// A vowel behind a vowel.
    VowelAgain,
    /// An empty place behind a vowel.
    NothingBehindVowel,
    /// "q" and "u" behind a vowel.
    Qu,
    /// A consonant between vowels.
    OneConsonant,
    /// A consonant at the end.
    LastConsonant,
    /// A double consonant that is always parted.
    Double,
    /// "ll" or "ss" at the end.
    DoubleAtEnd,
    /// "ll" or "ss" before a vowel.
    DoubleBeforeVowel,
    /// "ll" or "ss" before a consonant.
    DoubleBeforeConsonant,
    /// The first consonant is one with "h".
    FirstWithH,
    /// A first consonant that isn't one with the "h" behind it.
    FirstBesideH,
    /// "ck".
    Ck,
    /// The second consonant is one with "h".
    SecondWithH,
    /// A second consonant that isn't one with the "h" behind it.
    SecondBesideH,
    /// Two consonants at the end.
    PairAtEnd,
    /// Three consonants.
    Three,
    /// A pair that is parted.
    Parted,
    /// A strong pair.
    Strong,
    /// A weak pair before "age" at the end.
    Age,
    /// A weak pair before "age", whose "e" isn't the final one.
    AgeWithin,
    /// A weak pair before "est" at the end.
    Est,
    /// A weak pair before "est" and more.
    EstWithin,
    /// A weak pair before something else.
    Weak,
    /// "er" at the end.
    Er,
    /// "er" and more.
    ErWithin,
    /// Anything but "er".
    NoEr,
}

/// All turns.
pub const TURNS: [Turn; 30] = [
    Turn::OneLetterLeft,
    Turn::Hyphen,
    Turn::NoVowelYet,
    Turn::NoVowelLeft,
    Turn::VowelAgain,
    Turn::NothingBehindVowel,
    Turn::Qu,
    Turn::OneConsonant,
    Turn::LastConsonant,
    Turn::Double,
    Turn::DoubleAtEnd,
    Turn::DoubleBeforeVowel,
    Turn::DoubleBeforeConsonant,
    Turn::FirstWithH,
    Turn::FirstBesideH,
    Turn::Ck,
    Turn::SecondWithH,
    Turn::SecondBesideH,
    Turn::PairAtEnd,
    Turn::Three,
    Turn::Parted,
    Turn::Strong,
    Turn::Age,
    Turn::AgeWithin,
    Turn::Est,
    Turn::EstWithin,
    Turn::Weak,
    Turn::Er,
    Turn::ErWithin,
    Turn::NoEr,
];

/// What words have gone through so far: each row with its yes or its no, and
/// each turn. A row without a question only has a yes.
#[derive(Clone, Copy, Debug, Default, PartialEq, Eq)]
pub struct Seen {
    suffix: [u128; 2],
    prefix: [u128; 2],
    turns: u64,
    /// The lowest place that the suffix machine came to, 0 if it was none below.
    pub lowest: isize,
}

impl Seen {
    pub(super) fn note_suffix(&mut self, row: usize, yes: bool) {
        self.suffix[usize::from(yes)] |= 1 << row;
    }

    pub(super) fn note_prefix(&mut self, row: usize, yes: bool) {
        self.prefix[usize::from(yes)] |= 1 << row;
    }

    pub(super) fn note_turn(&mut self, turn: Turn) {
        self.turns |= 1 << turn as u32;
    }

    pub(super) fn note_place(&mut self, place: isize) {
        self.lowest = self.lowest.min(place);
    }

    /// Whether a row of the suffix machine was executed with this outcome.
    pub fn suffix(&self, row: usize, yes: bool) -> bool {
        self.suffix[usize::from(yes)] >> row & 1 == 1
    }

    /// Whether a row of the prefix machine was executed with this outcome.
    pub fn prefix(&self, row: usize, yes: bool) -> bool {
        self.prefix[usize::from(yes)] >> row & 1 == 1
    }

    /// Whether a turn was taken.
    pub fn turn(&self, turn: Turn) -> bool {
        self.turns >> turn as u32 & 1 == 1
    }
}

#[cfg(test)]
mod tests {
    use super::*;

    #[test]
    fn every_turn_has_its_own_bit() {
        for (number, &turn) in TURNS.iter().enumerate() {
            assert_eq!(turn as usize, number);
        }
    }
}
