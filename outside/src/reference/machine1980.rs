//! The table machine of 1980: the call of the fourth change request.
//!
//! A word lies on a sheet, letter k at place k, with an empty place before and
//! behind it. One machine takes suffixes off, another prefixes, and then pairs
//! of consonants are looked for in what is left. A place before which a hyphen
//! comes is emptied.

use super::calls::settle;
use super::seen1980::{Seen, Turn};
use super::tables1980::{Pairs, Prefix, Suffix, PAIRS, PREFIX, SUFFIX, VOWELS};
use super::Refusal;

/// The least room for this call. It is a number of its own.
pub const ROOM_1980: usize = 64;
/// The most letters of a word for this call, likewise.
pub const LETTERS_1980: usize = 63;
/// How many instructions a call may execute.
pub const BUDGET: u32 = 20_000;
/// Words with fewer letters have no break and execute nothing.
const LEAST_LETTERS: usize = 5;

/// What came out for a word.
#[derive(Clone, Debug, PartialEq, Eq)]
pub struct Reprint {
    /// The gaps that have a break, ascending.
    pub breaks: Vec<usize>,
    /// How many rows of both machines were executed.
    pub executed: u32,
}

/// The budget was too small.
#[derive(Clone, Copy, Debug, PartialEq, Eq)]
pub struct RanOut;

/// Whether the letters have one with this code.
fn has(letters: &[u8], code: u8) -> bool {
    letters.iter().any(|&letter| code_of(letter) == code)
}

/// The five bits of a letter.
fn code_of(letter: u8) -> u8 {
    letter & 0x1f
}

/// Whether a code is a vowel's. That of an empty place is.
fn is_vowel(code: u8) -> bool {
    has(VOWELS, code)
}

/// The pairs that begin with a code.
fn pairs_of(code: u8) -> &'static Pairs {
    &PAIRS[code as usize - 2]
}

/// A word laid out. Outside of it every place is empty and stays so.
struct Sheet {
    places: Vec<u8>,
}

impl Sheet {
    fn new(codes: &[u8]) -> Sheet {
        let mut places = vec![0; codes.len() + 2];
        places[1..=codes.len()].copy_from_slice(codes);
        Sheet { places }
    }

    fn at(&self, place: isize) -> u8 {
        let code = usize::try_from(place)
            .ok()
            .and_then(|at| self.places.get(at));
        code.copied().unwrap_or(0)
    }

    /// Whether this letter stands there.
    fn is(&self, place: isize, letter: u8) -> bool {
        self.at(place) == code_of(letter)
    }

    fn is_empty(&self, place: isize) -> bool {
        self.at(place) == 0
    }

    fn clear(&mut self, place: isize) {
        if let Ok(at) = usize::try_from(place) {
            if let Some(code) = self.places.get_mut(at) {
                *code = 0;
            }
        }
    }
}

/// What is known of a final "e": no hyphen shows before it or before one of the
/// two letters on its left.
#[derive(Clone, Copy, PartialEq, Eq)]
enum FinalE {
    /// There is none.
    No,
    /// The "ed" has just been taken off.
    InEd,
    /// It stands at this place.
    At(isize),
}

/// What the scan for pairs looks for next.
enum Next {
    /// A hyphen at this place if it may be, then a vowel.
    Mark(isize),
    /// A vowel, from this place on.
    Vowel(isize),
    /// A vowel, from this place on, where this code stood.
    VowelFrom(isize, u8),
    /// A consonant, from this place on, as a vowel stands before it.
    Consonant(isize),
    /// Two consonants, the first of this code before this place.
    Second(isize, u8),
    /// A hyphen at this place but before a final "er".
    MarkUnlessEr(isize),
    /// Nothing more.
    Done,
}

/// Both machines and the scan, at work on one word.
struct Machine<'a> {
    sheet: Sheet,
    last: isize,
    final_e: FinalE,
    budget: u32,
    executed: u32,
    seen: &'a mut Seen,
}

impl Machine<'_> {
    /// Takes one instruction from the budget.
    fn execute(&mut self) -> Result<(), RanOut> {
        if self.executed == self.budget {
            return Err(RanOut);
        }
        self.executed += 1;
        Ok(())
    }

    /// Notes what a row of the suffix machine finds, and gives it back.
    fn suffix(&mut self, row: usize, yes: bool) -> bool {
        self.seen.note_suffix(row, yes);
        yes
    }

    /// The same for the prefix machine.
    fn prefix(&mut self, row: usize, yes: bool) -> bool {
        self.seen.note_prefix(row, yes);
        yes
    }

    /// Takes suffixes off, from the last letter to the left.
    fn take_suffixes(&mut self) -> Result<(), RanOut> {
        let mut first_time = true;
        // The letter at the place behind chooses the row to begin with.
        let mut next = Some(self.last - 1);
        while let Some(place) = next {
            if !first_time && place < 3 {
                return Ok(());
            }
            let row = self.sheet.at(place + 1);
            self.final_e = match self.final_e {
                _ if row == code_of(b'e') => FinalE::At(place + 1),
                FinalE::InEd => FinalE::At(place + 2),
                _ => FinalE::No,
            };
            next = self.take_suffix(place, row as usize, first_time)?;
            first_time = false;
        }
        Ok(())
    }

    /// One go of the suffix machine. It gives the place from which another one
    /// is to be tried.
    fn take_suffix(
        &mut self,
        mut place: isize,
        mut row: usize,
        first_time: bool,
    ) -> Result<Option<isize>, RanOut> {
        loop {
            self.execute()?;
            self.seen.note_place(place);
            let here = self.sheet.at(place);
            let (question, yes, no) = match SUFFIX[row] {
                Suffix::Scan(letter, yes, no) => (here == code_of(letter), yes, no),
                Suffix::Double(yes, no) => (here == self.sheet.at(place - 1), yes, no),
                Suffix::Table(mask, yes, no) => (is_one_of(mask, here), yes, no),
                Suffix::Check(yes, no) => {
                    row = if self.suffix(row, place > 3) { yes } else { no };
                    continue;
                }
                Suffix::Mark(off, on) => {
                    if self.suffix(row, off > 0 || first_time) {
                        self.sheet.clear(place + off + 1);
                    }
                    row = on;
                    continue;
                }
                Suffix::Again(on) => {
                    if self.suffix(row, first_time) {
                        return Ok(Some(self.last - 2));
                    }
                    row = on;
                    continue;
                }
                Suffix::Repeat(off) => {
                    let again = place + off - 1;
                    self.suffix(row, again >= 3);
                    self.sheet.clear(again + 2);
                    return Ok(Some(again));
                }
                Suffix::Efail => return Ok(self.take_ed(row)),
                Suffix::Success(off) => {
                    self.suffix(row, true);
                    self.sheet.clear(place + off + 1);
                    return Ok(None);
                }
                // Letters are no instruction and stop the machine too.
                Suffix::Fail | Suffix::Letters(_) => {
                    self.suffix(row, true);
                    return Ok(None);
                }
            };
            row = if self.suffix(row, question) {
                place -= 1;
                yes
            } else {
                no
            };
        }
    }

    /// Takes a final "ed" off, unless that was done.
    fn take_ed(&mut self, row: usize) -> Option<isize> {
        let ed = self.sheet.is(self.last - 1, b'e') && self.sheet.is(self.last, b'd');
        if !self.suffix(row, ed) {
            return None;
        }
        self.final_e = FinalE::InEd;
        self.sheet.clear(self.last - 1);
        Some(self.last - 3)
    }

    /// Takes prefixes off, from the first letter to the right, and tells where
    /// the scan for pairs begins.
    fn take_prefixes(&mut self) -> Result<Next, RanOut> {
        let mut place = 2;
        // Where the prefix begins, and the letter there, which chooses the row.
        let mut begins = (1, self.sheet.at(1));
        let mut row = begins.1 as usize;
        loop {
            self.execute()?;
            match PREFIX[row] {
                Prefix::Scan(letter, yes, no) => {
                    let is_letter = self.sheet.is(place, letter);
                    row = if self.prefix(row, is_letter) {
                        place += 1;
                        yes
                    } else {
                        no
                    };
                }
                Prefix::Repeat(back) => {
                    place += 1 - back;
                    let more = !self.sheet.is_empty(place);
                    if !self.prefix(row, more) {
                        return Ok(Next::Done);
                    }
                    begins = (place - 1, self.sheet.at(place - 1));
                    self.sheet.clear(place - 1);
                    row = begins.1 as usize;
                }
                Prefix::Mark(back) => {
                    self.prefix(row, true);
                    if back > 0 {
                        self.sheet.clear(place - back);
                    }
                    return Ok(Next::Mark(place));
                }
                Prefix::Table(letters) => {
                    let may = has(letters, self.sheet.at(place));
                    return Ok(match self.prefix(row, may) {
                        true => Next::Mark(place),
                        false => Next::VowelFrom(begins.0, begins.1),
                    });
                }
                Prefix::Fail => {
                    self.prefix(row, true);
                    return Ok(Next::Done);
                }
                Prefix::Vow => {
                    self.prefix(row, true);
                    return Ok(Next::Consonant(place));
                }
                Prefix::Cons => {
                    self.prefix(row, true);
                    return Ok(Next::Vowel(place));
                }
            }
        }
    }

    /// Looks for pairs of consonants between vowels.
    fn scan(&mut self, mut next: Next) {
        loop {
            next = match next {
                Next::Mark(place) => self.mark(place),
                Next::Vowel(place) => self.find_vowel(place, self.sheet.at(place)),
                Next::VowelFrom(place, code) => self.find_vowel(place, code),
                Next::Consonant(place) => self.find_consonant(place),
                Next::Second(place, first) => self.judge_second(place, first),
                Next::MarkUnlessEr(place) => self.mark_unless_er(place),
                Next::Done => return,
            };
        }
    }

    fn mark(&mut self, place: isize) -> Next {
        if self.sheet.is_empty(place + 1) {
            self.seen.note_turn(Turn::OneLetterLeft);
            return Next::Done;
        }
        self.seen.note_turn(Turn::Hyphen);
        let code = self.sheet.at(place);
        self.sheet.clear(place);
        Next::VowelFrom(place, code)
    }

    fn mark_unless_er(&mut self, place: isize) -> Next {
        if !(self.sheet.is(place + 1, b'e') && self.sheet.is(place + 2, b'r')) {
            self.seen.note_turn(Turn::NoEr);
        } else if self.sheet.is_empty(place + 3) {
            self.seen.note_turn(Turn::Er);
            return Next::Done;
        } else {
            self.seen.note_turn(Turn::ErWithin);
        }
        Next::Mark(place)
    }

    /// Goes on behind a place if a vowel stood there.
    fn find_vowel(&mut self, place: isize, code: u8) -> Next {
        if !is_vowel(code) {
            self.seen.note_turn(Turn::NoVowelYet);
            return Next::Vowel(place + 1);
        }
        if code == 0 {
            self.seen.note_turn(Turn::NoVowelLeft);
            return Next::Done;
        }
        Next::Consonant(place + 1)
    }

    fn find_consonant(&mut self, place: isize) -> Next {
        let code = self.sheet.at(place);
        if code == 0 {
            self.seen.note_turn(Turn::NothingBehindVowel);
            return Next::Done;
        }
        if is_vowel(code) {
            self.seen.note_turn(Turn::VowelAgain);
            return Next::Consonant(place + 1);
        }
        Next::Second(place + 1, code)
    }

    /// A consonant behind a vowel is known, and what stands behind it is not.
    fn judge_second(&mut self, place: isize, first: u8) -> Next {
        let second = self.sheet.at(place);
        if first == code_of(b'q') && second == code_of(b'u') {
            self.seen.note_turn(Turn::Qu);
            return Next::Mark(place - 1);
        }
        if second == 0 {
            self.seen.note_turn(Turn::LastConsonant);
            return Next::Done;
        }
        if is_vowel(second) {
            self.seen.note_turn(Turn::OneConsonant);
            return Next::Consonant(place + 1);
        }
        if first == second {
            return self.judge_double(place, second);
        }
        if second == code_of(b'h') {
            if let Some(letter) = pairs_of(first).with_h {
                self.seen.note_turn(Turn::FirstWithH);
                return Next::Second(place + 1, code_of(letter));
            }
            self.seen.note_turn(Turn::FirstBesideH);
        }
        if first == code_of(b'c') && second == code_of(b'k') {
            self.seen.note_turn(Turn::Ck);
            return Next::Mark(place + 1);
        }
        self.judge_pair(place, first, second)
    }

    fn judge_double(&mut self, place: isize, code: u8) -> Next {
        if !has(b"ls", code) {
            self.seen.note_turn(Turn::Double);
            return Next::Mark(place);
        }
        let behind = self.sheet.at(place + 1);
        if behind == 0 {
            self.seen.note_turn(Turn::DoubleAtEnd);
            return Next::Done;
        }
        if is_vowel(behind) {
            self.seen.note_turn(Turn::DoubleBeforeVowel);
            return Next::MarkUnlessEr(place);
        }
        self.seen.note_turn(Turn::DoubleBeforeConsonant);
        Next::Vowel(place + 2)
    }

    fn judge_pair(&mut self, place: isize, first: u8, mut second: u8) -> Next {
        let mut behind = place + 1;
        if self.sheet.is(behind, b'h') {
            match pairs_of(second).with_h {
                Some(letter) => {
                    self.seen.note_turn(Turn::SecondWithH);
                    second = code_of(letter);
                    behind += 1;
                }
                None => self.seen.note_turn(Turn::SecondBesideH),
            }
        }
        if self.sheet.is_empty(behind) {
            self.seen.note_turn(Turn::PairAtEnd);
            return Next::Done;
        }
        if !is_vowel(self.sheet.at(behind)) {
            self.seen.note_turn(Turn::Three);
            return Next::Vowel(behind + 1);
        }
        let pairs = pairs_of(first);
        if has(pairs.weak, second) {
            return self.judge_weak(behind - 1);
        }
        if has(pairs.strong, second) {
            self.seen.note_turn(Turn::Strong);
            return Next::Consonant(behind + 1);
        }
        self.seen.note_turn(Turn::Parted);
        Next::Mark(place)
    }

    /// A weak pair isn't parted before "age", "est" and "er" at the end.
    fn judge_weak(&mut self, place: isize) -> Next {
        let ends = self.sheet.is_empty(place + 4);
        let is = |off: isize, letter: u8| self.sheet.is(place + off, letter);
        let age = is(1, b'a') && is(2, b'g');
        let est = is(1, b'e') && is(2, b's') && is(3, b't');
        let final_age = age && ends && self.final_e == FinalE::At(place + 3);
        match (age, est) {
            (true, _) if final_age => self.seen.note_turn(Turn::Age),
            (true, _) => self.seen.note_turn(Turn::AgeWithin),
            (_, true) if ends => self.seen.note_turn(Turn::Est),
            (_, true) => self.seen.note_turn(Turn::EstWithin),
            _ => self.seen.note_turn(Turn::Weak),
        }
        if final_age || (est && ends) {
            return Next::Done;
        }
        Next::MarkUnlessEr(place)
    }

    /// The gaps whose hyphens are shown: those before letters 3 to n - 2, but
    /// for a final "e" and the two letters before it.
    fn shown(&self) -> Vec<usize> {
        let near_final_e = |letter: isize| match self.final_e {
            FinalE::At(place) => (place - 2..=place).contains(&letter),
            _ => false,
        };
        let shows = |letter: &isize| self.sheet.is_empty(*letter) && !near_final_e(*letter);
        (3..=self.last - 2)
            .filter(shows)
            .map(|letter| letter as usize - 1)
            .collect()
    }
}

/// Whether the row of letters with this number has a code.
fn is_one_of(mask: usize, code: u8) -> bool {
    match SUFFIX[mask] {
        Suffix::Letters(letters) => has(letters, code),
        _ => unreachable!("a table row names letters"),
    }
}

/// The breaks of a word that was judged, given as codes. What it goes through
/// is added to `seen`.
pub fn reprint(codes: &[u8], budget: u32, seen: &mut Seen) -> Result<Reprint, RanOut> {
    if codes.len() < LEAST_LETTERS {
        return Ok(Reprint {
            breaks: Vec::new(),
            executed: 0,
        });
    }
    let mut machine = Machine {
        sheet: Sheet::new(codes),
        last: codes.len() as isize,
        final_e: FinalE::No,
        budget,
        executed: 0,
        seen,
    };
    machine.take_suffixes()?;
    let begin = machine.take_prefixes()?;
    machine.scan(begin);
    Ok(Reprint {
        breaks: machine.shown(),
        executed: machine.executed,
    })
}

/// The codes of a word's letters, or the ground to refuse it. This machine
/// takes the 26 letters alone, and no apostrophe.
fn read(word: &[u8]) -> Result<Vec<u8>, Refusal> {
    if word.is_empty() {
        return Err(Refusal::plain(2));
    }
    if word.len() > LETTERS_1980 {
        return Err(Refusal::plain(4));
    }
    match word.iter().position(|byte| !byte.is_ascii_alphabetic()) {
        Some(place) => Err(Refusal::at(3, place)),
        None => Ok(word.iter().map(|&letter| code_of(letter)).collect()),
    }
}

/// The call. What the word goes through is added to `seen`.
pub fn archive(word: &[u8], room: &mut [u8], seen: &mut Seen) -> u64 {
    settle(try_archive(word, room, BUDGET, seen))
}

fn try_archive(word: &[u8], room: &mut [u8], budget: u32, seen: &mut Seen) -> Result<u64, Refusal> {
    if room.len() < ROOM_1980 {
        return Err(Refusal::plain(5));
    }
    let codes = read(word)?;
    let found = match reprint(&codes, budget, seen) {
        Ok(found) => found,
        Err(RanOut) => return Ok(1 << 48),
    };
    room[..ROOM_1980].fill(0);
    for &gap in &found.breaks {
        room[gap] = 1;
    }
    Ok((found.breaks.len() as u64) << 32 | found.executed as u64)
}

#[cfg(test)]
mod tests {
    use super::*;

    /// The answer to a word and the gaps that are marked.
    fn call(word: &[u8], budget: u32) -> (u64, Vec<usize>) {
        let mut room = [9; ROOM_1980 + 1];
        let answer = settle(try_archive(word, &mut room, budget, &mut Seen::default()));
        assert_eq!(room[ROOM_1980], 9);
        if answer >> 48 != 0 {
            assert_eq!(room, [9; ROOM_1980 + 1]);
        }
        (
            answer,
            (0..ROOM_1980).filter(|&gap| room[gap] == 1).collect(),
        )
    }

    /// Each row by hand: 14, 77, 78, 80 and 27, then 14 and 6.
    #[test]
    fn nation() {
        assert_eq!(call(b"Nation", 7), (1 << 32 | 7, vec![2]));
        assert_eq!(call(b"nation", 6), (1 << 48, vec![]));
        assert_eq!(call(b"nation", 0), (1 << 48, vec![]));
    }

    /// 25 and 31, then 5, 38, 40, 42, 45, 108 and 28 at place -1, which empties
    /// the first; so 0.
    #[test]
    fn below_the_sheet() {
        let mut seen = Seen::default();
        let found = archive(b"lately", &mut [0; ROOM_1980], &mut seen);
        assert_eq!((found, seen.lowest), (10, -1));
        assert!(seen.prefix(0, true) && seen.suffix(108, true));
    }

    #[test]
    fn short_words_execute_nothing() {
        for word in [&b"a"[..], b"on", b"ion", b"tion"] {
            assert_eq!(call(word, 0), (0, vec![]));
        }
        assert_eq!(call(b"ation", 0).0, 1 << 48);
    }

    #[test]
    fn grounds() {
        let short = |word| archive(word, &mut [0; ROOM_1980 - 1], &mut Seen::default());
        assert_eq!(short(b""), 5 << 56);
        assert_eq!(short(b"nation"), 5 << 56);
        assert_eq!(call(b"", 0).0, 2 << 56);
        assert_eq!(call(&[b'1'; 64], 0).0, 4 << 56);
        assert_eq!(call(b"na\xefon", 0).0, 3 << 56 | 2);
        assert_eq!(call(b"l'entrata", 0).0, 3 << 56 | 1);
        assert_eq!(call(b"nation'", 0).0, 3 << 56 | 6);
        for byte in 0..=255u8 {
            let expected = match byte {
                b'A'..=b'Z' | b'a'..=b'z' => 0,
                _ => 3 << 56 | 1,
            };
            assert_eq!(call(&[b'a', byte], 0).0, expected);
        }
    }
}
