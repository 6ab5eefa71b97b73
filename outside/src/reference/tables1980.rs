//! The tables of the 1980 machine, as the program of that year sets them: the
//! rows of its suffix and prefix machines by number, and its pairs of
//! consonants by letter.

/// A row of the suffix machine. Where a row asks something, the row to go to
/// on yes comes before the one to go to on no.
#[derive(Clone, Copy, Debug, PartialEq, Eq)]
pub enum Suffix {
    /// No instruction: letters that a table row names.
    Letters(&'static [u8]),
    /// Is it this letter? If so, one place to the left.
    Scan(u8, usize, usize),
    /// Does the same letter stand on its left? If so, one place to the left.
    Double(usize, usize),
    /// Is it one of the letters in the row named first? If so, one place to
    /// the left.
    Table(usize, usize, usize),
    /// Are there more than three letters up to here?
    Check(usize, usize),
    /// A hyphen before the letter read last, or so many places to its right;
    /// then the end.
    Success(isize),
    /// The end.
    Fail,
    /// A hyphen as with success, then once more from the letter before it.
    Repeat(isize),
    /// Once more without the last letter, or on to this row if that was done.
    Again(usize),
    /// A hyphen as with success, then on to this row. One that is 0 places off
    /// is set in the first go alone.
    Mark(isize, usize),
    /// Once more without "ed", or the end.
    Efail,
}

/// A row of the prefix machine.
#[derive(Clone, Copy, Debug, PartialEq, Eq)]
pub enum Prefix {
    /// Is it this letter? If so, one place to the right. The rows to go to on
    /// yes and on no.
    Scan(u8, usize, usize),
    /// A hyphen so many places to the left, and once more from there.
    Repeat(isize),
    /// A hyphen so many places to the left, unless that is none, and one here.
    Mark(isize),
    /// A hyphen here before one of these letters, else the pairs from the
    /// beginning of the prefix.
    Table(&'static [u8]),
    /// The end, without the pairs.
    Fail,
    /// The pairs, behind a vowel.
    Vow,
    /// The pairs, whatever stood before.
    Cons,
}

/// The vowels; the empty place is one of them.
pub const VOWELS: &[u8] = b"\0aeiouy";

/// The rows of the suffix machine.
pub const SUFFIX: [Suffix; 109] = {
    use Suffix::*;
    [
        Letters(VOWELS),         // 0
        Fail,                    // 1, a
        Fail,                    // 2, b
        Scan(b'i', 34, 1),       // 3, c
        Again(1),                // 4, d
        Mark(0, 38),             // 5, e
        Fail,                    // 6, f
        Scan(b'n', 60, 1),       // 7, g
        Fail,                    // 8, h
        Fail,                    // 9, i
        Fail,                    // 10, j
        Fail,                    // 11, k
        Scan(b'a', 71, 72),      // 12, l
        Fail,                    // 13, m
        Scan(b'o', 77, 1),       // 14, n
        Fail,                    // 15, o
        Fail,                    // 16, p
        Fail,                    // 17, q
        Scan(b'e', 81, 1),       // 18, r
        Mark(0, 85),             // 19, s
        Scan(b'n', 94, 1),       // 20, t
        Fail,                    // 21, u
        Fail,                    // 22, v
        Fail,                    // 23, w
        Fail,                    // 24, x
        Scan(b'l', 31, 98),      // 25, y
        Efail,                   // 26, z
        Success(0),              // 27
        Success(1),              // 28
        Success(2),              // 29
        Success(3),              // 30
        Repeat(0),               // 31
        Repeat(1),               // 32
        Repeat(2),               // 33
        Scan(b'p', 35, 26),      // 34
        Scan(b'o', 36, 26),      // 35
        Scan(b'c', 37, 26),      // 36
        Scan(b's', 27, 26),      // 37
        Scan(b'l', 39, 40),      // 38
        Scan(b'b', 41, 26),      // 39
        Scan(b't', 42, 43),      // 40
        Scan(b'a', 44, 26),      // 41
        Scan(b'a', 45, 26),      // 42
        Scan(b'z', 46, 47),      // 43
        Scan(b't', 48, 49),      // 44
        Table(50, 108, 26),      // 45
        Scan(b'i', 51, 26),      // 46
        Scan(b'v', 52, 53),      // 47
        Table(54, 33, 26),       // 48
        Table(107, 32, 26),      // 49
        Letters(b"cl"),          // 50
        Scan(b'l', 32, 26),      // 51
        Scan(b'i', 55, 26),      // 52
        Scan(b'r', 56, 34),      // 53
        Letters(b"nr"),          // 54
        Scan(b't', 27, 26),      // 55
        Scan(b'u', 55, 57),      // 56
        Scan(b'e', 58, 26),      // 57
        Scan(b'h', 59, 26),      // 58
        Scan(b'p', 37, 26),      // 59
        Scan(b'i', 61, 1),       // 60
        Check(62, 1),            // 61
        Scan(b'l', 63, 64),      // 62
        Table(65, 27, 66),       // 63
        Table(67, 28, 68),       // 64
        Letters(b"bcdfgptz"),    // 65
        Scan(b'k', 69, 28),      // 66
        Letters(b"fsz"),         // 67
        Table(0, 28, 70),        // 68
        Scan(b'c', 29, 27),      // 69
        Double(27, 27),          // 70
        Scan(b'i', 73, 74),      // 71
        Scan(b'u', 75, 1),       // 72
        Scan(b't', 27, 76),      // 73
        Scan(b'n', 14, 73),      // 74
        Scan(b'f', 31, 1),       // 75
        Scan(b'c', 27, 1),       // 76
        Scan(b'i', 78, 1),       // 77
        Table(79, 80, 1),        // 78
        Letters(b"st"),          // 79
        Mark(4, 27),             // 80
        Scan(b'h', 82, 1),       // 81
        Scan(b'p', 83, 1),       // 82
        Scan(b'a', 84, 1),       // 83
        Scan(b'r', 27, 1),       // 84
        Scan(b'u', 86, 87),      // 85
        Scan(b'o', 88, 4),       // 86
        Scan(b's', 89, 4),       // 87
        Scan(b'i', 90, 4),       // 88
        Scan(b'e', 91, 4),       // 89
        Scan(b'c', 92, 4),       // 90
        Table(93, 31, 4),        // 91
        Scan(b's', 27, 27),      // 92
        Letters(b"ln"),          // 93
        Scan(b'e', 95, 1),       // 94
        Scan(b'm', 31, 96),      // 95
        Scan(b'd', 27, 97),      // 96
        Scan(b'i', 76, 1),       // 97
        Scan(b'g', 99, 100),     // 98
        Scan(b'o', 27, 1),       // 99
        Scan(b'r', 101, 81),     // 100
        Scan(b'a', 102, 1),      // 101
        Scan(b'n', 103, 1),      // 102
        Scan(b'o', 104, 105),    // 103
        Scan(b'i', 106, 28),     // 104
        Scan(b'e', 29, 27),      // 105
        Repeat(3),               // 106
        Letters(b"ehiklouvwxy"), // 107
        Table(0, 28, 26),        // 108
    ]
};

/// The rows of the prefix machine.
pub const PREFIX: [Prefix; 109] = {
    use Prefix::*;
    const VS: usize = 1;
    const CS: usize = 6;
    const TS: usize = 7;
    [
        Fail,                 // 0
        Vow,                  // 1, a
        Scan(b'e', 34, CS),   // 2, b
        Scan(b'o', 36, CS),   // 3, c
        Scan(b'i', 38, CS),   // 4, d
        Scan(b'q', 41, 44),   // 5, e
        Cons,                 // 6, f
        Table(b""),           // 7, g
        Scan(b'a', 45, 47),   // 8, h
        Scan(b'm', 27, 55),   // 9, i
        Cons,                 // 10, j
        Cons,                 // 11, k
        Scan(b'e', 61, CS),   // 12, l
        Scan(b'a', 63, 70),   // 13, m
        Scan(b'o', 76, CS),   // 14, n
        Scan(b'u', 77, 78),   // 15, o
        Scan(b's', 81, CS),   // 16, p
        Scan(b'u', 85, CS),   // 17, q
        Cons,                 // 18, r
        Scan(b'e', 87, 89),   // 19, s
        Scan(b'h', 97, 99),   // 20, t
        Scan(b'n', 106, VS),  // 21, u
        Cons,                 // 22, v
        Cons,                 // 23, w
        Cons,                 // 24, x
        Vow,                  // 25, y
        Cons,                 // 26, z
        Repeat(0),            // 27
        Repeat(1),            // 28
        Repeat(2),            // 29
        Mark(0),              // 30
        Mark(1),              // 31
        Mark(2),              // 32
        Mark(3),              // 33
        Table(b"chsw"),       // 34
        Scan(b'i', VS, 27),   // 35
        Scan(b'm', 30, 37),   // 36
        Scan(b'n', 30, VS),   // 37
        Scan(b's', 39, VS),   // 38
        Scan(b'h', TS, 40),   // 39
        Scan(b'y', VS, 27),   // 40
        Scan(b'u', 42, CS),   // 41
        Scan(b'i', 43, CS),   // 42
        Scan(b'v', 30, 30),   // 43
        Scan(b'x', 30, VS),   // 44
        Scan(b'n', 46, VS),   // 45
        Scan(b'd', 30, TS),   // 46
        Scan(b'o', 48, 51),   // 47
        Scan(b'r', 49, VS),   // 48
        Scan(b's', 50, TS),   // 49
        Scan(b'e', 30, TS),   // 50
        Scan(b'y', 52, CS),   // 51
        Scan(b'p', 53, VS),   // 52
        Scan(b'e', 54, TS),   // 53
        Scan(b'r', 33, VS),   // 54
        Scan(b'n', 56, VS),   // 55
        Scan(b't', 57, 27),   // 56
        Scan(b'e', 58, 59),   // 57
        Scan(b'r', 33, 29),   // 58
        Scan(b'r', 60, 28),   // 59
        Scan(b'o', 33, 29),   // 60
        Scan(b'x', 62, VS),   // 61
        Scan(b'i', 31, TS),   // 62
        Scan(b'c', 64, 66),   // 63
        Scan(b'r', 65, TS),   // 64
        Scan(b'o', 32, TS),   // 65
        Scan(b't', 67, 69),   // 66
        Scan(b'h', 68, TS),   // 67
        Scan(b'e', 31, TS),   // 68
        Scan(b'x', 62, VS),   // 69
        Scan(b'i', 71, 72),   // 70
        Scan(b'n', 62, VS),   // 71
        Scan(b'u', 73, CS),   // 72
        Scan(b'l', 74, VS),   // 73
        Scan(b't', 75, TS),   // 74
        Scan(b'i', 32, TS),   // 75
        Scan(b'n', 27, VS),   // 76
        Scan(b't', 30, VS),   // 77
        Scan(b'v', 79, VS),   // 78
        Scan(b'e', 80, TS),   // 79
        Scan(b'r', 27, VS),   // 80
        Scan(b'e', 82, CS),   // 81
        Scan(b'u', 83, VS),   // 82
        Scan(b'd', 84, VS),   // 83
        Scan(b'o', 32, TS),   // 84
        Scan(b'a', 86, CS),   // 85
        Scan(b'd', 30, VS),   // 86
        Scan(b'm', 88, VS),   // 87
        Scan(b'i', 30, TS),   // 88
        Scan(b'o', 90, 92),   // 89
        Scan(b'm', 91, VS),   // 90
        Scan(b'e', 30, TS),   // 91
        Scan(b'u', 93, CS),   // 92
        Scan(b'b', 30, 94),   // 93
        Scan(b'p', 95, VS),   // 94
        Scan(b'e', 96, TS),   // 95
        Scan(b'r', 33, VS),   // 96
        Scan(b'e', 98, CS),   // 97
        Scan(b'r', 91, VS),   // 98
        Scan(b'r', 100, CS),  // 99
        Scan(b'a', 101, 104), // 100
        Scan(b'n', 102, VS),  // 101
        Scan(b's', 103, TS),  // 102
        Table(b"afglm"),      // 103
        Scan(b'i', 105, CS),  // 104
        Table(b"afu"),        // 105
        Scan(b'd', 107, 35),  // 106
        Scan(b'e', 108, 28),  // 107
        Scan(b'r', 33, 29),   // 108
    ]
};

/// What may follow a consonant without a hyphen between them. Among the letters
/// "e" stands for "ch", "i" for "gh", "o" for "ph", "u" for "sh" and "y" for
/// "th".
#[derive(Clone, Copy, Debug, PartialEq, Eq)]
pub struct Pairs {
    /// The consonant.
    pub first: u8,
    /// Letters that are never parted from it.
    pub strong: &'static [u8],
    /// Letters that are parted from it but before some endings.
    pub weak: &'static [u8],
    /// The letter that stands for it with an "h" behind, if there is one.
    pub with_h: Option<u8>,
}

/// Shortens the rows below.
const fn pairs(first: u8, strong: &'static [u8], weak: &'static [u8], with_h: Option<u8>) -> Pairs {
    Pairs {
        first,
        strong,
        weak,
        with_h,
    }
}

/// The pairs of consonants, for every letter that may come first; "a" never
/// does.
pub const PAIRS: [Pairs; 25] = [
    pairs(b'b', b"lr", b"", None),
    pairs(b'c', b"lr", b"", Some(b'e')),
    pairs(b'd', b"gr", b"", None),
    pairs(b'e', b"lr", b"", None),
    pairs(b'f', b"lr", b"t", None),
    pairs(b'g', b"lr", b"", Some(b'i')),
    pairs(b'h', b"", b"", None),
    pairs(b'i', b"t", b"", None),
    pairs(b'j', b"", b"", None),
    pairs(b'k', b"n", b"", None),
    pairs(b'l', b"kq", b"d", None),
    pairs(b'm', b"", b"p", None),
    pairs(b'n', b"ekx", b"dgst", None),
    pairs(b'o', b"r", b"", None),
    pairs(b'p', b"lr", b"", Some(b'o')),
    pairs(b'q', b"", b"", None),
    pairs(b'r', b"k", b"gmnt", None),
    pairs(b's', b"pq", b"t", Some(b'u')),
    pairs(b't', b"er", b"", Some(b'y')),
    pairs(b'u', b"", b"", None),
    pairs(b'v', b"", b"", None),
    pairs(b'w', b"hlnr", b"", None),
    pairs(b'x', b"", b"", None),
    pairs(b'y', b"r", b"", None),
    pairs(b'z', b"", b"", None),
];

#[cfg(test)]
mod tests {
    use super::*;

    #[test]
    fn the_suffix_rows_lead_to_rows_that_are_no_letters() {
        let is_row = |row: usize| !matches!(SUFFIX[row], Suffix::Letters(_));
        let mut letters = Vec::new();
        for (number, row) in SUFFIX.iter().enumerate() {
            let (targets, mask) = match *row {
                Suffix::Letters(_) => {
                    letters.push(number);
                    (vec![], None)
                }
                Suffix::Scan(_, yes, no) | Suffix::Double(yes, no) | Suffix::Check(yes, no) => {
                    (vec![yes, no], None)
                }
                Suffix::Table(mask, yes, no) => (vec![yes, no], Some(mask)),
                Suffix::Again(on) | Suffix::Mark(_, on) => (vec![on], None),
                Suffix::Success(_) | Suffix::Fail | Suffix::Repeat(_) | Suffix::Efail => {
                    (vec![], None)
                }
            };
            assert!(targets.into_iter().all(is_row), "row {}", number);
            assert!(mask.map_or(true, |mask| !is_row(mask)), "row {}", number);
        }
        assert_eq!(letters, [0, 50, 54, 65, 67, 79, 93, 107]);
    }

    #[test]
    fn the_prefix_rows_lead_to_rows() {
        for row in PREFIX {
            if let Prefix::Scan(_, yes, no) = row {
                assert!(yes < PREFIX.len() && no < PREFIX.len());
            }
        }
    }

    #[test]
    fn every_letter_has_its_pairs() {
        let first: Vec<u8> = PAIRS.iter().map(|pairs| pairs.first).collect();
        assert!(first.iter().copied().eq(b'b'..=b'z'));
        for pairs in PAIRS {
            assert!(pairs
                .strong
                .iter()
                .all(|letter| !pairs.weak.contains(letter)));
        }
    }
}
