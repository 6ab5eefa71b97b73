//! Levels and breaks from a pattern list alone, without any table.

use super::text::Pattern;
use super::EDGE;

/// The row of a word: an edge, the letters, an edge.
pub fn row_of(letters: &[u8]) -> Vec<u8> {
    let mut row = Vec::with_capacity(letters.len() + 2);
    row.push(EDGE);
    row.extend_from_slice(letters);
    row.push(EDGE);
    row
}

/// The levels of gaps 0 to n (only 1 to n - 1 are inner; the others stay 0),
/// found by trying every pattern at every place of the row.
pub fn levels(list: &[Pattern], letters: &[u8]) -> Vec<u8> {
    let row = row_of(letters);
    let mut levels = vec![0; letters.len() + 1];
    for place in 0..row.len() {
        let rest = &row[place..];
        for pattern in list {
            if pattern.stands_at(rest) {
                apply(pattern, place, &mut levels);
            }
        }
    }
    levels
}

/// Raises the inner gaps that a pattern covers. The gap before row place r is
/// gap r - 1 of the word.
fn apply(pattern: &Pattern, place: usize, levels: &mut [u8]) {
    let last = levels.len() - 1;
    for (offset, &level) in pattern.levels().iter().enumerate() {
        let before = place + offset;
        if before >= 2 && before - 1 < last {
            levels[before - 1] = levels[before - 1].max(level);
        }
    }
}

/// The gaps at which a word may break by its levels and the margins.
pub fn breaks(levels: &[u8], left: u64, right: u64) -> Vec<usize> {
    let letters = levels.len() - 1;
    let odd: Vec<usize> = (1..letters).filter(|&gap| levels[gap] % 2 == 1).collect();
    inside(&odd, letters, left, right)
}

/// Those gaps of a word that have the left margin's letters before them and
/// the right margin's after them, whether levels or an exception line named
/// them (CR 1).
pub fn inside(gaps: &[usize], letters: usize, left: u64, right: u64) -> Vec<usize> {
    let fits = |gap: usize| gap as u64 >= left && (letters - gap) as u64 >= right;
    gaps.iter().copied().filter(|&gap| fits(gap)).collect()
}

/// The length of the longest beginning of a pattern that stands at a place.
pub fn longest_beginning(list: &[Pattern], rest: &[u8]) -> usize {
    let agreeing = |pattern: &Pattern| pattern.agreeing(rest);
    list.iter().map(agreeing).max().unwrap_or(0)
}

#[cfg(test)]
mod tests {
    use super::super::text::{read_patterns, read_word};
    use super::*;

    #[test]
    fn knuths_example() {
        let list =
            read_patterns(b"he2n\nhena4\nhen5at\nhy3ph\n2io\n1na\nn2at\no2n\n1tio\n").unwrap();
        let levels_of = |word: &[u8]| levels(&list, &read_word(word).unwrap());
        let found = levels_of(b"hyphenation");
        assert_eq!(found[1..11], [0, 3, 0, 0, 2, 5, 4, 2, 0, 2]);
        assert_eq!(breaks(&found, 2, 3), [2, 6]);
        assert_eq!(levels_of(b"on"), [0, 2, 0]);
        assert_eq!(levels_of(b"na"), [0, 0, 0]);
    }

    /// The apostrophe is the second of nine letters.
    #[test]
    fn an_apostrophe_counts_as_a_letter() {
        let list = read_patterns(b"a1t\nl1'\nn1t\n2'e\n'1e\n").unwrap_or_default();
        assert!(list.is_empty(), "equal symbols don't ascend");
        let list = read_patterns(b"a1t\nl1'\nn1t\n2'1e\n").unwrap();
        let found = levels(&list, &read_word(b"L'entrata").unwrap());
        assert_eq!(found[1..9], [2, 1, 0, 1, 0, 0, 1, 0]);
        assert_eq!(breaks(&found, 2, 2), [2, 4, 7]);
        assert_eq!(breaks(&found, 3, 2), [4, 7]);
        assert_eq!(breaks(&found, 2, 3), [2, 4]);
    }
}
