//! Tables of random bytes behind a good head.

use crate::rng::Rng;

/// A table with a good head and a random rest. Some are nothing but noise;
/// others have right kinds and numbers near to each other, so that walks and
/// chains go far.
pub fn table(rng: &mut Rng, letters: usize) -> Vec<u8> {
    let cells = match rng.below(6) {
        0 => 1,
        1 => rng.range(2, 30),
        2..=4 => rng.range(28, 90),
        _ => rng.range(90, 600),
    };
    let entries = match rng.below(4) {
        0 => 0,
        1 => 1,
        _ => rng.range(2, 40),
    };
    let mut bytes = vec![1, 1];
    bytes.extend((cells as u16).to_be_bytes());
    bytes.extend((entries as u16).to_be_bytes());
    let noise = rng.below(8);
    for cell in 0..cells {
        push_cell(rng, &mut bytes, noise, letters, cell, cells, entries);
    }
    for entry in 1..=entries {
        push_entry(rng, &mut bytes, noise, entry, entries);
    }
    bytes
}

/// One random cell; `noise` 0 is all random, 1 random with the right kind.
fn push_cell(
    rng: &mut Rng,
    bytes: &mut Vec<u8>,
    noise: usize,
    letters: usize,
    cell: usize,
    cells: usize,
    entries: usize,
) {
    let wrong_kind = noise == 0 || (noise < 5 && rng.once_in(40));
    bytes.push(if wrong_kind { rng.byte() } else { 2 });
    if noise < 2 || rng.once_in(30) {
        bytes.extend((0..5).map(|_| rng.byte()));
        return;
    }
    // Few bases, so that several cells answer to one.
    let symbol = match rng.below(5) {
        0 => *rng.pick(&[27, 28]),
        1 => cell.min(28),
        2 => rng.below(30),
        _ => rng.range(1, letters),
    };
    let link = match rng.below(8) {
        0 => 0,
        1 => rng.bits() as u16 as usize,
        2 => cells,
        3 => cell.saturating_sub(rng.range(0, 28)),
        _ => rng.below(cells.min(40)),
    };
    let output = match rng.below(4) {
        0 => 0,
        1 => rng.range(0, entries + 2),
        2 => rng.range(0, entries),
        _ => entries,
    };
    bytes.push(symbol as u8);
    bytes.extend((link as u16).to_be_bytes());
    bytes.extend((output as u16).to_be_bytes());
}

/// One random entry.
fn push_entry(rng: &mut Rng, bytes: &mut Vec<u8>, noise: usize, entry: usize, entries: usize) {
    let wrong_kind = noise == 0 || (noise < 5 && rng.once_in(30));
    bytes.push(if wrong_kind { rng.byte() } else { 3 });
    if noise < 2 || rng.once_in(30) {
        bytes.extend((0..4).map(|_| rng.byte()));
        return;
    }
    let distance = match rng.below(6) {
        0 => rng.range(0, 20),
        1 => 255,
        _ => rng.range(0, 3),
    };
    let level = match rng.below(8) {
        0 => rng.byte(),
        1 => *rng.pick(&[0, 10, 255]),
        _ => rng.range(1, 9) as u8,
    };
    let next = match rng.below(8) {
        0 => rng.range(0, entries + 2),
        1 => entry,
        2 => 0,
        _ => rng.below(entry),
    };
    bytes.extend([distance as u8, level]);
    bytes.extend((next as u16).to_be_bytes());
}

#[cfg(test)]
mod tests {
    use super::*;
    use crate::make::damage::reached;
    use crate::reference::table::{CELL, HEAD};
    use crate::reference::APOSTROPHE;

    /// Many tables have a path with an apostrophe.
    #[test]
    fn apostrophes_are_reached() {
        let mut rng = Rng::new(39);
        let mut found = 0;
        for _ in 0..2_000 {
            let bytes = table(&mut rng, 3);
            let symbol = |cell: &usize| bytes[HEAD + CELL * cell + 1];
            let cells = reached(&bytes).cells;
            found += usize::from(cells.iter().any(|cell| symbol(cell) == APOSTROPHE));
        }
        assert!(found > 400, "{} tables", found);
    }
}
