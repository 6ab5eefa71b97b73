//! Measures the comparison of a word with an exception line as it was and as it
//! is, and what becomes of a search in a full list. `bench/compare` builds both
//! sides and this program.
//!
//! Usage: compare [--rounds N] [--count FUNCTION]
//!
//! Before a clock starts, both sides have to answer alike: on all pairs that
//! are measured, and on pairs of short texts of any other bytes than
//! apostrophes. Then they go in turn over the same pairs, and each goes first in
//! every other round. A ratio is the time now over the time before, as the
//! median of the rounds' ratios.
//!
//! With --count one function of one side goes once over fewer of the same, for
//! callgrind to count.

use std::collections::BTreeMap;
use std::time::Instant;

type Compared = unsafe extern "C" fn(*const u8, usize, *const u8, usize) -> bool;
type Found = unsafe extern "C" fn(*const u8, usize, *const u8, usize) -> usize;

#[link(name = "before_compared", kind = "static")]
#[link(name = "before_searched", kind = "static")]
#[link(name = "before_looked_up", kind = "static")]
#[link(name = "now_compared", kind = "static")]
#[link(name = "now_searched", kind = "static")]
#[link(name = "now_looked_up", kind = "static")]
extern "C" {
    fn before_compared(word: *const u8, size: usize, line: *const u8, length: usize) -> bool;
    fn before_searched(word: *const u8, size: usize, text: *const u8, length: usize) -> usize;
    fn before_looked_up(word: *const u8, size: usize, text: *const u8, length: usize) -> usize;
    fn now_compared(word: *const u8, size: usize, line: *const u8, length: usize) -> bool;
    fn now_searched(word: *const u8, size: usize, text: *const u8, length: usize) -> usize;
    fn now_looked_up(word: *const u8, size: usize, text: *const u8, length: usize) -> usize;
}

/// How many pairs of the mix, and of each kind by itself, are compared.
const PAIRS: usize = 1_000_000;
/// How many pairs, and how many words, are done where callgrind counts.
const COUNTED: usize = 100_000;
const COUNTED_WORDS: usize = 200;
/// How many pairs of any bytes both sides have to answer alike.
const HOSTILE: usize = 4_000_000;
/// The bytes of a full list, and how many words are looked up in it.
const FULL: usize = 8_192;
const WORDS: usize = 2_000;

/// How a line stands to a word.
#[derive(Clone, Copy, PartialEq)]
enum Kind {
    /// Their first letters differ.
    First,
    /// They part behind one to three letters.
    Early,
    /// They part behind more letters.
    Late,
    /// They have the same letters.
    Equal,
    /// The line ends while the word goes on.
    Shorter,
    /// The word ends while the line goes on.
    Longer,
}

/// The kinds, and how many of `OUT_OF` pairs of the mix are of each: what
/// `data/en-us.exc` has if each of its words is held against each of its lines
/// (151, 29, none, 14, 3 and 3 of 200), with some long common beginnings in
/// place of short ones.
const MIX: [(Kind, usize, &str); 6] = [
    (Kind::First, 151, "another first letter"),
    (Kind::Early, 21, "parting behind 1 to 3 letters"),
    (Kind::Late, 8, "parting behind more"),
    (Kind::Equal, 14, "the word's own line"),
    (Kind::Shorter, 3, "a shorter line"),
    (Kind::Longer, 3, "a longer line"),
];
const OUT_OF: usize = 200;

/// A xorshift generator.
struct Rng(u64);

impl Rng {
    fn below(&mut self, limit: usize) -> usize {
        self.0 ^= self.0 >> 12;
        self.0 ^= self.0 << 25;
        self.0 ^= self.0 >> 27;
        let bits = self.0.wrapping_mul(0x2545_f491_4f6c_dd1d);
        (bits >> 32).wrapping_mul(limit as u64) as usize >> 32
    }

    fn once_in(&mut self, times: usize) -> bool {
        self.below(times) == 0
    }

    /// A small letter, about as often as English has it.
    fn letter(&mut self) -> u8 {
        let letters = b"eeeettttaaaooooiiiinnnsssrrrhhllddcuumfpgwybvkxjqz";
        letters[self.below(letters.len())]
    }

    fn letters(&mut self, count: usize) -> Vec<u8> {
        (0..count).map(|_| self.letter()).collect()
    }

    /// A letter other than one given.
    fn other(&mut self, letter: u8) -> u8 {
        loop {
            let found = self.letter();
            if found != letter {
                return found;
            }
        }
    }

    /// Four to twelve letters.
    fn word(&mut self) -> Vec<u8> {
        let count = 4 + self.below(9);
        self.letters(count)
    }
}

/// A line for some letters: hyphens behind two letters or more and before two
/// or more, at one gap in four, and the line feed.
fn line_of(rng: &mut Rng, letters: &[u8]) -> Vec<u8> {
    let mut line = Vec::new();
    for (place, &letter) in letters.iter().enumerate() {
        if place >= 2 && place + 2 <= letters.len() && rng.once_in(4) {
            line.push(b'-');
        }
        line.push(letter);
    }
    line.push(b'\n');
    line
}

/// As a word is printed: one in eight begins with a capital, one in forty has
/// capitals only.
fn printed(rng: &mut Rng, mut word: Vec<u8>) -> Vec<u8> {
    if rng.once_in(40) {
        word.make_ascii_uppercase();
    } else if rng.once_in(8) {
        word[0].make_ascii_uppercase();
    }
    word
}

/// The letters of a line that stands to a word as wanted.
fn letters_for(rng: &mut Rng, word: &[u8], kind: Kind) -> Vec<u8> {
    let size = word.len();
    match kind {
        Kind::First => parting(rng, word, 0),
        Kind::Early => {
            let shared = 1 + rng.below(3);
            parting(rng, word, shared)
        }
        Kind::Late => {
            let shared = 4 + rng.below(size - 4);
            parting(rng, word, shared)
        }
        Kind::Equal => word.to_vec(),
        Kind::Shorter => word[..size - 1 - rng.below(2)].to_vec(),
        Kind::Longer => {
            let more = 1 + rng.below(2);
            [word, &rng.letters(more)].concat()
        }
    }
}

/// Another word, with so many letters of this one at its beginning.
fn parting(rng: &mut Rng, word: &[u8], shared: usize) -> Vec<u8> {
    let mut letters = rng.word();
    while letters.len() <= shared {
        letters = rng.word();
    }
    letters[..shared].copy_from_slice(&word[..shared]);
    letters[shared] = rng.other(word[shared]);
    letters
}

/// Words with a line for each, as they lie in memory one behind the other.
struct Pairs {
    bytes: Vec<u8>,
    /// Where a word begins, where its line does, and where that ends.
    places: Vec<[usize; 3]>,
}

impl Pairs {
    fn new() -> Pairs {
        Pairs {
            bytes: Vec::new(),
            places: Vec::new(),
        }
    }

    fn push(&mut self, word: &[u8], line: &[u8]) {
        let start = self.bytes.len();
        self.bytes.extend_from_slice(word);
        self.bytes.extend_from_slice(line);
        self.places
            .push([start, start + word.len(), self.bytes.len()]);
    }

    /// Pairs of one kind, or of all in the shares of the mix.
    fn made(rng: &mut Rng, count: usize, only: Option<Kind>) -> Pairs {
        let mut pairs = Pairs::new();
        for _ in 0..count {
            let kind = only.unwrap_or_else(|| {
                let mut at = rng.below(OUT_OF);
                let mut kinds = MIX.iter();
                loop {
                    let (kind, share, _) = kinds.next().expect("the shares make OUT_OF");
                    if at < *share {
                        return *kind;
                    }
                    at -= share;
                }
            });
            // A word that can part behind four letters has five.
            let mut word = rng.word();
            while kind == Kind::Late && word.len() < 5 {
                word = rng.word();
            }
            let letters = letters_for(rng, &word, kind);
            let line = line_of(rng, &letters);
            let word = printed(rng, word);
            pairs.push(&word, &line);
        }
        pairs
    }

    /// Short texts of a few bytes, with letters, hyphens and dots among them, or
    /// of any: most pairs are nothing that a list or a word can be. Without
    /// apostrophes: since CR 5 they are symbols, which they weren't before.
    fn hostile(rng: &mut Rng, count: usize) -> Pairs {
        let bytes = b"abzABZ--..\n`{@[\x0d\x0e\x4d\x6d\x00\x80\xc1\xe1\xff";
        let mut pairs = Pairs::new();
        for _ in 0..count {
            let (few, any) = (2 + rng.below(bytes.len() - 1), rng.once_in(4));
            let byte = |rng: &mut Rng| match any {
                true => match rng.below(256) as u8 {
                    b'\'' => b'-',
                    byte => byte,
                },
                false => bytes[rng.below(few)],
            };
            let text = |rng: &mut Rng| -> Vec<u8> {
                let size = rng.below(7);
                (0..size).map(|_| byte(rng)).collect()
            };
            let (word, line) = (text(rng), text(rng));
            pairs.push(&word, &line);
        }
        pairs
    }

    /// How many pairs a side finds equal.
    fn count(&self, side: Compared) -> usize {
        let pair = |&[start, middle, end]: &[usize; 3]| {
            compare(side, &self.bytes[start..middle], &self.bytes[middle..end]) as usize
        };
        self.places.iter().map(pair).sum()
    }

    /// Demands that both sides answer alike, pair by pair.
    fn agree(&self) {
        for &[start, middle, end] in &self.places {
            let (word, line) = (&self.bytes[start..middle], &self.bytes[middle..end]);
            let one = compare(before_compared, word, line);
            let other = compare(now_compared, word, line);
            assert!(one == other, "{:?} and {:?}: {}", word, line, one);
        }
    }
}

fn compare(side: Compared, word: &[u8], line: &[u8]) -> bool {
    // SAFETY: the side reads the two slices and nothing else.
    unsafe { side(word.as_ptr(), word.len(), line.as_ptr(), line.len()) }
}

fn find(side: Found, word: &[u8], text: &[u8]) -> usize {
    // SAFETY: the side reads the two slices and nothing else.
    unsafe { side(word.as_ptr(), word.len(), text.as_ptr(), text.len()) }
}

/// Adds up where a side finds the words' lines.
fn sum(side: Found, words: &[Vec<u8>], text: &[u8]) -> usize {
    words.iter().map(|word| find(side, word, text)).sum()
}

/// A good list of exactly `FULL` bytes. Its last line sorts behind the others,
/// which begin with no z, and makes the sum right.
fn full_list(rng: &mut Rng) -> Vec<u8> {
    let mut lines: BTreeMap<Vec<u8>, Vec<u8>> = BTreeMap::new();
    let mut size = 0;
    while FULL - size > 60 {
        let letters = rng.word();
        if letters[0] != b'z' && !lines.contains_key(&letters) {
            let line = line_of(rng, &letters);
            size += line.len();
            lines.insert(letters, line);
        }
    }
    let mut text: Vec<u8> = lines.into_values().flatten().collect();
    text.resize(FULL - 1, b'z');
    text.push(b'\n');
    text
}

/// The full list, and words that hardly ever stand in it.
fn list_and_words(count: usize) -> (Vec<u8>, Vec<Vec<u8>>) {
    let mut rng = Rng(8_192);
    let text = full_list(&mut rng);
    (text, (0..count).map(|_| rng.word()).collect())
}

/// Times both sides in turn: the median of the ratios, and each side's best
/// seconds.
fn measure(
    rounds: usize,
    before: &mut dyn FnMut() -> usize,
    now: &mut dyn FnMut() -> usize,
) -> (f64, f64, f64) {
    let clock = |work: &mut dyn FnMut() -> usize| {
        let start = Instant::now();
        let sum = work();
        (start.elapsed().as_secs_f64(), sum)
    };
    let mut ratios = Vec::new();
    let mut best = [f64::INFINITY; 2];
    for round in 0..rounds {
        let (old, new) = if round % 2 == 0 {
            let old = clock(before);
            (old, clock(now))
        } else {
            let new = clock(now);
            (clock(before), new)
        };
        assert!(old.1 == new.1, "answers differ");
        ratios.push(new.0 / old.0);
        best = [best[0].min(old.0), best[1].min(new.0)];
    }
    ratios.sort_by(|one, other| one.total_cmp(other));
    (ratios[ratios.len() / 2], best[0], best[1])
}

/// Shows one measure, each of so many units.
fn show(name: &str, units: usize, (ratio, before, now): (f64, f64, f64)) {
    let each = 1e9 / units as f64;
    let (before, now) = (before * each, now * each);
    println!("{:>5.2}  {:<42} {:>9.1} {:>9.1}", ratio, name, before, now);
}

/// No comparison, for the time that the loop takes by itself.
extern "C" fn nothing(_: *const u8, _: usize, _: *const u8, _: usize) -> bool {
    false
}

fn main() {
    let mut rounds = 41;
    let mut arguments = std::env::args().skip(1);
    while let Some(name) = arguments.next() {
        let value = arguments.next().expect("each option has a value");
        match (name.as_str(), value.as_str()) {
            ("--rounds", _) => rounds = value.parse().expect("a number of rounds"),
            ("--count", "before_compared") => return count_pairs(before_compared),
            ("--count", "now_compared") => return count_pairs(now_compared),
            ("--count", "before_searched") => return count_words(before_searched),
            ("--count", "now_searched") => return count_words(now_searched),
            ("--count", "before_looked_up") => return count_words(before_looked_up),
            ("--count", "now_looked_up") => return count_words(now_looked_up),
            _ => panic!("{} {} isn't known", name, value),
        }
    }
    let mut rng = Rng(1_983);
    Pairs::hostile(&mut rng, HOSTILE).agree();
    println!("{} rounds, answers agree", rounds);
    println!("now / before, and nanoseconds a pair before and now");
    let mut over = |name: &str, only: Option<Kind>| {
        let pairs = Pairs::made(&mut rng, PAIRS, only);
        pairs.agree();
        let mut before = || pairs.count(before_compared);
        let mut now = || pairs.count(now_compared);
        show(name, PAIRS, measure(rounds, &mut before, &mut now));
        pairs
    };
    let mix = over("the mix", None);
    // SAFETY: it is read where it stands; the compiler isn't to know which it is.
    let nothing = unsafe { std::ptr::read_volatile(&(nothing as Compared)) };
    let (mut one, mut other) = (|| mix.count(nothing), || mix.count(nothing));
    let found = measure(rounds, &mut one, &mut other);
    show("the loop by itself", PAIRS, found);
    for (kind, share, name) in MIX {
        over(&format!("{:>3} of {}: {}", share, OUT_OF, name), Some(kind));
    }
    println!("the same a word, in a list of {} bytes", FULL);
    let (text, words) = list_and_words(WORDS);
    let searches: [(&str, Found, Found); 2] = [
        ("searched", before_searched, now_searched),
        ("judged and searched", before_looked_up, now_looked_up),
    ];
    for (name, before, now) in searches {
        let mut old = || sum(before, &words, &text);
        let mut new = || sum(now, &words, &text);
        show(name, WORDS, measure(rounds, &mut old, &mut new));
    }
}

/// One side over pairs of the mix.
fn count_pairs(side: Compared) {
    let pairs = Pairs::made(&mut Rng(1_983), COUNTED, None);
    pairs.count(side);
    println!("{} counted", COUNTED);
}

/// One side over words in the full list.
fn count_words(side: Found) {
    let (text, words) = list_and_words(COUNTED_WORDS);
    sum(side, &words, &text);
    println!("{} counted", COUNTED_WORDS);
}
