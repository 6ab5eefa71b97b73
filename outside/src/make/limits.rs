//! Lists whose first fit needs an exact number of cells and entries.

use crate::reference::fit::{first_fit, make_entries};
use crate::reference::{Pattern, APOSTROPHE, LONGEST};
use crate::rng::Rng;
use std::collections::BTreeSet;

/// The list of these symbols with a 1 behind each last one.
fn simple_list(strings: &BTreeSet<Vec<u8>>) -> Vec<Pattern> {
    let pattern = |symbols: &Vec<u8>| {
        let mut levels = vec![0; symbols.len() + 1];
        levels[symbols.len()] = 1;
        Pattern::new(symbols, &levels)
    };
    strings.iter().map(pattern).collect()
}

/// How many cells first fit needs for these symbols.
fn cells_of(strings: &BTreeSet<Vec<u8>>) -> usize {
    first_fit(&simple_list(strings)).cell_count()
}

/// A random string of sixteen letters, now and then with an apostrophe between
/// two of them.
fn string(rng: &mut Rng) -> Vec<u8> {
    let mut string: Vec<u8> = (0..LONGEST).map(|_| rng.range(1, 26) as u8).collect();
    if rng.once_in(3) {
        string[rng.range(1, LONGEST - 2)] = APOSTROPHE;
    }
    string
}

/// Strings whose first fit needs exactly so many cells. Nearly all their paths
/// have one continuation, so each letter more costs one cell more; what is
/// left after whole strings is made up letter by letter.
fn strings_for_cells(rng: &mut Rng, cells: usize) -> BTreeSet<Vec<u8>> {
    let mut strings = BTreeSet::new();
    while cells_of(&strings) + 8 * LONGEST < cells {
        let missing = cells - cells_of(&strings);
        for _ in 0..(missing / (2 * LONGEST)).max(1) {
            strings.insert(string(rng));
        }
    }
    loop {
        let mut more = strings.clone();
        let mut whole = string(rng);
        more.insert(whole.clone());
        let reach = cells_of(&more);
        if reach < cells {
            strings = more;
            continue;
        }
        while whole.len() > 1 {
            let mut exact = strings.clone();
            exact.insert(whole.clone());
            if cells_of(&exact) == cells {
                return exact;
            }
            whole.pop();
        }
    }
}

/// Changes levels until the list needs exactly so many entries. Equal chains
/// share entries, so the number depends on the chains alone. A digit at the
/// front of a pattern costs one entry at most, so the end is reached.
fn with_entries(rng: &mut Rng, list: &mut [Pattern], entries: usize) {
    let mut have = make_entries(list).0.len();
    while have < entries {
        let place = rng.below(list.len());
        let old = list[place];
        let mut levels = old.levels().to_vec();
        let changes = if entries - have < 40 { 1 } else { 8 };
        for _ in 0..changes {
            let gap = rng.below(levels.len());
            levels[gap] = rng.range(1, 9) as u8;
        }
        list[place] = Pattern::new(old.symbols(), &levels);
        let now = make_entries(list).0.len();
        if now > entries || now < have {
            list[place] = old;
        } else {
            have = now;
        }
    }
}

/// A list whose first fit needs exactly these numbers of cells and entries.
pub fn exact(rng: &mut Rng, cells: usize, entries: usize) -> Vec<Pattern> {
    let mut list = simple_list(&strings_for_cells(rng, cells));
    with_entries(rng, &mut list, entries);
    list
}

#[cfg(test)]
mod tests {
    use super::*;

    #[test]
    fn lists_are_exact() {
        let mut rng = Rng::new(6);
        for (cells, entries) in [(1_000, 300), (8_192, 2_048), (8_193, 2_049), (8_193, 1)] {
            let layout = first_fit(&exact(&mut rng, cells, entries));
            assert_eq!(
                (layout.cell_count(), layout.entries.len()),
                (cells, entries)
            );
        }
    }
}
