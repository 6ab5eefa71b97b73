//! Words, pattern lines and exception lines.

use super::{Refusal, APOSTROPHE, EDGE, LETTERS, LONGEST, WORD_LIMIT};

/// One line of a text: where it begins, its bytes, and whether a line feed
/// ended it.
#[derive(Clone, Copy, Debug, PartialEq, Eq)]
pub struct Line<'a> {
    /// Offset of the first byte.
    pub offset: usize,
    /// The bytes without the line feed.
    pub bytes: &'a [u8],
    /// False only for bytes behind the last line feed.
    pub ended: bool,
}

/// Cuts a text into lines. An empty text has none.
pub fn lines(text: &[u8]) -> Vec<Line<'_>> {
    let mut found = Vec::new();
    let mut offset = 0;
    while offset < text.len() {
        let rest = &text[offset..];
        let length = rest.iter().position(|&byte| byte == b'\n');
        let (bytes, ended) = match length {
            Some(length) => (&rest[..length], true),
            None => (rest, false),
        };
        found.push(Line {
            offset,
            bytes,
            ended,
        });
        offset += bytes.len() + 1;
    }
    found
}

/// The symbol of one of the 26 letters, capitals like small ones.
fn letter(byte: u8) -> Option<u8> {
    match byte {
        b'a'..=b'z' => Some(byte - b'a' + 1),
        b'A'..=b'Z' => Some(byte - b'A' + 1),
        _ => None,
    }
}

/// Whether a symbol is one of the 26 letters' and not that of an apostrophe or
/// of the edge.
fn is_letter(symbol: u8) -> bool {
    (1..=LETTERS).contains(&symbol)
}

/// The symbols of a word, or the ground to refuse it. An over-long word is
/// refused for its length even if it holds a bad byte too. An apostrophe is no
/// letter unless one of the 26 stands right before it and one right behind.
pub fn read_word(word: &[u8]) -> Result<Vec<u8>, Refusal> {
    if word.is_empty() {
        return Err(Refusal::plain(2));
    }
    if word.len() > WORD_LIMIT {
        return Err(Refusal::plain(4));
    }
    let letter_at = |place: usize| word.get(place).copied().and_then(letter);
    let mut symbols = Vec::with_capacity(word.len());
    for (place, &byte) in word.iter().enumerate() {
        let between = place > 0 && letter_at(place - 1).is_some() && letter_at(place + 1).is_some();
        let symbol = match byte {
            b'\'' if between => Some(APOSTROPHE),
            _ => letter(byte),
        };
        match symbol {
            Some(symbol) => symbols.push(symbol),
            None => return Err(Refusal::at(3, place)),
        }
    }
    Ok(symbols)
}

/// A pattern: up to sixteen symbols, and a level for each of the gaps before,
/// between and behind them (0 where the line has no digit). Kept inside the
/// value, so that a list lies in one piece of memory.
#[derive(Clone, Copy, Debug, PartialEq, Eq, Hash)]
pub struct Pattern {
    symbols: [u8; LONGEST],
    levels: [u8; LONGEST + 1],
    length: u8,
}

impl Pattern {
    /// Puts a pattern together; `levels` has one number more than `symbols`.
    pub fn new(symbols: &[u8], levels: &[u8]) -> Pattern {
        assert_eq!(symbols.len() + 1, levels.len());
        let mut pattern = Pattern {
            symbols: [0; LONGEST],
            levels: [0; LONGEST + 1],
            length: symbols.len() as u8,
        };
        pattern.symbols[..symbols.len()].copy_from_slice(symbols);
        pattern.levels[..levels.len()].copy_from_slice(levels);
        pattern
    }

    /// The symbols.
    pub fn symbols(&self) -> &[u8] {
        &self.symbols[..self.length as usize]
    }

    /// The levels, one more than symbols.
    pub fn levels(&self) -> &[u8] {
        &self.levels[..self.length as usize + 1]
    }

    /// Whether the pattern's symbols are the first ones here. The first
    /// symbol is compared by itself, since it settles most cases.
    pub fn stands_at(&self, rest: &[u8]) -> bool {
        rest.first() == Some(&self.symbols[0]) && rest.starts_with(self.symbols())
    }

    /// How many symbols from the front agree with those here.
    pub fn agreeing(&self, rest: &[u8]) -> usize {
        if rest.first() != Some(&self.symbols[0]) {
            return 0;
        }
        let both = self.symbols().iter().zip(rest);
        both.take_while(|(a, b)| a == b).count()
    }

    /// The level at the gap `distance` symbols back from the end.
    pub fn level_at(&self, distance: usize) -> u8 {
        self.levels[self.length as usize - distance]
    }
}

/// The symbol of a byte of a pattern line that is no digit.
fn read_symbol(byte: u8) -> Option<u8> {
    match byte {
        b'a'..=b'z' => Some(byte - b'a' + 1),
        b'.' => Some(EDGE),
        b'\'' => Some(APOSTROPHE),
        _ => None,
    }
}

/// The byte that a symbol is written as.
pub fn write_symbol(symbol: u8) -> u8 {
    match symbol {
        EDGE => b'.',
        APOSTROPHE => b'\'',
        _ => b'a' + symbol - 1,
    }
}

/// Reads one pattern line; `None` if it is bad in itself.
pub fn read_pattern(line: &[u8]) -> Option<Pattern> {
    let mut symbols = Vec::new();
    let mut levels = vec![0u8];
    for &byte in line {
        match byte {
            b'1'..=b'9' => {
                let here = levels.last_mut()?;
                if *here != 0 {
                    return None;
                }
                *here = byte - b'0';
            }
            _ => {
                symbols.push(read_symbol(byte)?);
                levels.push(0);
            }
        }
    }
    if is_legal(&symbols, &levels) {
        Some(Pattern::new(&symbols, &levels))
    } else {
        None
    }
}

/// Whether symbols and levels may stand together in a pattern line.
pub fn is_legal(symbols: &[u8], levels: &[u8]) -> bool {
    let length = symbols.len();
    if length == 0 || length > LONGEST {
        return false;
    }
    let inner_edge = length > 2 && symbols[1..length - 1].contains(&EDGE);
    let before_edge = symbols[0] == EDGE && levels[0] != 0;
    let behind_edge = symbols[length - 1] == EDGE && levels[length] != 0;
    let has_letter = symbols.iter().any(|&symbol| is_letter(symbol));
    let has_digit = levels.iter().any(|&level| level != 0);
    !inner_edge && !before_edge && !behind_edge && !has_stray(symbols) && has_letter && has_digit
}

/// Whether an apostrophe stands beside something that is none of the 26
/// letters. At either end it has nothing on one side.
fn has_stray(symbols: &[u8]) -> bool {
    symbols.windows(2).any(|both| {
        let apostrophe = both.contains(&APOSTROPHE);
        let letter = both.iter().any(|&symbol| is_letter(symbol));
        apostrophe && !letter
    })
}

/// Reads a pattern list, or tells the offset of its first bad line.
pub fn read_patterns(text: &[u8]) -> Result<Vec<Pattern>, usize> {
    let mut list: Vec<Pattern> = Vec::new();
    for line in lines(text) {
        let pattern = match read_pattern(line.bytes) {
            Some(pattern) if line.ended => pattern,
            _ => return Err(line.offset),
        };
        if let Some(above) = list.last() {
            if above.symbols() >= pattern.symbols() {
                return Err(line.offset);
            }
        }
        list.push(pattern);
    }
    Ok(list)
}

/// An exception line: where it stands, its letters' symbols (apostrophes count
/// as letters), and the gaps at which it has hyphens.
#[derive(Clone, Debug, PartialEq, Eq)]
pub struct Exception {
    /// Offset of the line in its text.
    pub offset: usize,
    /// Bytes of the line without the line feed.
    pub length: usize,
    /// The letters as symbols.
    pub letters: Vec<u8>,
    /// The gaps with a hyphen, ascending.
    pub hyphens: Vec<usize>,
}

/// Reads one exception line; `None` if it is bad in itself.
pub fn read_exception(line: &Line<'_>) -> Option<Exception> {
    let counts = |place: usize| match line.bytes.get(place) {
        Some(&byte) => byte.is_ascii_lowercase() || byte == b'\'',
        None => false,
    };
    let mut letters = Vec::new();
    let mut hyphens = Vec::new();
    for (place, &byte) in line.bytes.iter().enumerate() {
        match byte {
            b'a'..=b'z' => letters.push(byte - b'a' + 1),
            b'\'' => letters.push(APOSTROPHE),
            b'-' if place > 0 && counts(place - 1) && counts(place + 1) => {
                hyphens.push(letters.len());
            }
            _ => return None,
        }
    }
    if letters.is_empty() || letters.len() > WORD_LIMIT {
        return None;
    }
    let ends = [letters[0], letters[letters.len() - 1]];
    if ends.contains(&APOSTROPHE) || has_stray(&letters) {
        return None;
    }
    Some(Exception {
        offset: line.offset,
        length: line.bytes.len(),
        letters,
        hyphens,
    })
}

/// Reads an exception list, or tells the offset of its first bad line.
pub fn read_exceptions(text: &[u8]) -> Result<Vec<Exception>, usize> {
    let mut list: Vec<Exception> = Vec::new();
    for line in lines(text) {
        let exception = match read_exception(&line) {
            Some(exception) if line.ended => exception,
            _ => return Err(line.offset),
        };
        if let Some(above) = list.last() {
            if above.letters >= exception.letters {
                return Err(line.offset);
            }
        }
        list.push(exception);
    }
    Ok(list)
}

/// Writes a pattern as a line, with its line feed.
pub fn write_pattern(pattern: &Pattern, text: &mut Vec<u8>) {
    let digit = |level: u8, text: &mut Vec<u8>| {
        if level != 0 {
            text.push(b'0' + level);
        }
    };
    for (place, &symbol) in pattern.symbols().iter().enumerate() {
        digit(pattern.levels()[place], text);
        text.push(write_symbol(symbol));
    }
    digit(pattern.level_at(0), text);
    text.push(b'\n');
}

/// Writes a whole list.
pub fn write_patterns(list: &[Pattern]) -> Vec<u8> {
    let mut text = Vec::new();
    for pattern in list {
        write_pattern(pattern, &mut text);
    }
    text
}

#[cfg(test)]
mod tests {
    use super::*;

    #[test]
    fn pattern_lines() {
        let good: [&[u8]; 10] = [
            b"he2n",
            b".1a",
            b"a1.",
            b"1a1",
            b".a1b.",
            b"1abcdefghijklmnop",
            b".a2",
            b"9a9b9",
            b"a1",
            b".abcdefghijklmno1",
        ];
        for line in good {
            assert!(read_pattern(line).is_some(), "{:?}", line);
        }
        let bad: [&[u8]; 16] = [
            b"",
            b"1",
            b".",
            b"..",
            b"1.a",
            b"a.1",
            b"a",
            b"a0b",
            b"a12b",
            b"..a1",
            b"a.b1",
            b"A1",
            b"1abcdefghijklmnopq",
            b"a1 ",
            b"a-1",
            b"1.",
        ];
        for line in bad {
            assert!(read_pattern(line).is_none(), "{:?}", line);
        }
    }

    #[test]
    fn words_with_apostrophes() {
        let symbols = |word: &[u8]| read_word(word).expect("a good word");
        assert_eq!(symbols(b"l'e"), [12, 28, 5]);
        assert_eq!(symbols(b"L'Entrata"), symbols(b"l'entrata"));
        assert_eq!(symbols(b"a'b'c"), [1, 28, 2, 28, 3]);
        let refused: [(&[u8], usize); 14] = [
            (b"a'1", 1),
            (b"a''b", 1),
            (b"a'", 1),
            (b"'a", 0),
            (b"'", 0),
            (b"''", 0),
            (b"1'a", 0),
            (b"a1'b", 1),
            (b"ab'1", 2),
            (b"a'b'", 3),
            (b"a'b''c", 3),
            (b"a'-b", 1),
            (b"a\xe2\x80\x99b", 1),
            (b"a\x92b", 1),
        ];
        for (word, place) in refused {
            assert_eq!(read_word(word), Err(Refusal::at(3, place)), "{:?}", word);
        }
    }

    /// An apostrophe counts for the limit, and the limit comes first.
    #[test]
    fn long_words_with_apostrophes() {
        let mut word = b"a'".repeat(WORD_LIMIT / 2);
        word.push(b'a');
        assert_eq!(read_word(&word).map(|symbols| symbols.len()), Ok(63));
        word.push(b'a');
        assert_eq!(read_word(&word), Err(Refusal::plain(4)));
        word[0] = b'\'';
        assert_eq!(read_word(&word), Err(Refusal::plain(4)));
        assert_eq!(read_word(&word[..63]), Err(Refusal::at(3, 0)));
    }

    /// A word is good just when what stands between its apostrophes is, and
    /// never empty; the place is where reading from the left meets a fault.
    #[test]
    fn all_short_words() {
        let bytes = b"aB'1";
        for number in 0..4usize.pow(7) {
            // The highest 1 of the number tells the length.
            let length = (usize::BITS - 1 - (number + 1).leading_zeros()) as usize / 2;
            let word: Vec<u8> = (0..length)
                .map(|at| bytes[number >> (2 * at) & 3])
                .collect();
            let mut parts = word.split(|&byte| byte == b'\'');
            let good = parts.all(|part| !part.is_empty() && !part.contains(&b'1'));
            assert_eq!(read_word(&word).is_ok(), good, "{:?}", word);
        }
    }

    #[test]
    fn pattern_lines_with_apostrophes() {
        let good: [&[u8]; 14] = [
            b"'a1",
            b"'a'1",
            b"'a1.",
            b".a1'",
            b"a'1",
            b"a1'",
            b"l'1e",
            b"1'a",
            b"'1a",
            b"a'b'1c",
            b"1a'1b1",
            b"'abcdefghijklmn1'",
            b"a'b'c'd'e'f'g'h1'",
            b".l'1e.",
        ];
        for line in good {
            assert!(read_pattern(line).is_some(), "{:?}", line);
        }
        let bad: [&[u8]; 19] = [
            b".'a1",
            b"a1'.",
            b"''a1",
            b"a'1'b",
            b"'1",
            b"1'",
            b"'",
            b"''1",
            b"'1'",
            b".'1",
            b"'1.",
            b".1'.",
            b"a''1",
            b".'a1.",
            b"'a",
            b"'A1",
            b"'-a1",
            b"'abcdefghijklmno1'",
            b"a\x921b",
        ];
        for line in bad {
            assert!(read_pattern(line).is_none(), "{:?}", line);
        }
        let pattern = read_pattern(b"l'1e").unwrap();
        assert_eq!(pattern.symbols(), [12, APOSTROPHE, 5]);
        assert_eq!(pattern.levels(), [0, 0, 1, 0]);
    }

    #[test]
    fn exception_lines_with_apostrophes() {
        let read = |line: &[u8]| read_exceptions(&[line, b"\n"].concat());
        let good: [(&[u8], &[usize]); 7] = [
            (b"l'en", &[]),
            (b"l'-en", &[2]),
            (b"l-'en", &[1]),
            (b"l-'-en", &[1, 2]),
            (b"l'e-n", &[3]),
            (b"a'b'c", &[]),
            (b"a-'-b-'-c", &[1, 2, 3, 4]),
        ];
        for (line, hyphens) in good {
            let list = read(line).unwrap();
            assert_eq!(list[0].hyphens, hyphens, "{:?}", line);
            assert_eq!(list[0].letters[1], APOSTROPHE);
        }
        let bad: [&[u8]; 14] = [
            b"a'-'b", b"l'", b"'l", b"l-'", b"'-l", b"a''b", b"'", b"''", b"-'a", b"a'-", b"a--'b",
            b"a-'--b", b"a'.b", b"A'b",
        ];
        for line in bad {
            assert_eq!(read(line), Err(0), "{:?}", line);
        }
        let mut long = b"a-'-".repeat(31);
        long.push(b'a');
        assert_eq!(read(&long).map(|list| list[0].letters.len()), Ok(63));
        long.extend(b"-a");
        assert_eq!(read(&long), Err(0));
    }

    #[test]
    fn the_apostrophe_sorts_last() {
        let patterns = |text: &[u8]| read_patterns(text).map(|list| list.len());
        assert_eq!(patterns(b"z1\n.a1\n'a1\n"), Ok(3));
        assert_eq!(patterns(b"'a1\nz1\n"), Err(4));
        assert_eq!(patterns(b"'a1\n.a1\n"), Err(4));
        assert_eq!(patterns(b"a1\naz1\na1.\na'1\nb1\n"), Ok(5));
        assert_eq!(patterns(b"a'1\na1.\n"), Err(4));
        assert_eq!(patterns(b"a'1\na1'\n"), Err(4));
        let exceptions = |text: &[u8]| read_exceptions(text).map(|list| list.len());
        assert_eq!(exceptions(b"a\naz\na'a\na-'-b\nb\n"), Ok(5));
        assert_eq!(exceptions(b"a'a\nab\n"), Err(4));
        assert_eq!(exceptions(b"a'-a\na-'a\n"), Err(5));
    }

    #[test]
    fn order_and_ends_of_lists() {
        assert_eq!(read_patterns(b"").map(|list| list.len()), Ok(0));
        assert_eq!(read_patterns(b"\n"), Err(0));
        assert_eq!(read_patterns(b"a1\nb1"), Err(3));
        assert_eq!(read_patterns(b"za1\n.a1\n").map(|list| list.len()), Ok(2));
        assert_eq!(read_patterns(b".a1\nza1\n"), Err(4));
        assert_eq!(read_patterns(b"a1\n1a\n"), Err(3));
        assert_eq!(read_patterns(b"a1b\na1\n"), Err(4));
        assert_eq!(read_exceptions(b"a-b\nab\n"), Err(4));
        assert_eq!(read_exceptions(b"-ab\n"), Err(0));
        assert_eq!(read_exceptions(b"a--b\n"), Err(0));
        assert_eq!(read_exceptions(b"a\nab-\n"), Err(2));
    }

    #[test]
    fn lists_are_written_as_read() {
        let text = b"he2n\nhena4\nhen5at\nhy3ph\n2io\n1na\nn2at\no2n\n1tio\n.a1b.\n2'a1b'\n";
        assert_eq!(write_patterns(&read_patterns(text).unwrap()), text);
    }
}
