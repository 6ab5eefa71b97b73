//! Lists that need exactly as much as a table can hold, or one more.

use super::words_by_list;
use crate::run::{demand, Run};
use outside::lab::{Lab, Mismatch};
use outside::make::{limits, words};
use outside::reference::text::write_patterns;
use outside::reference::{CELL_LIMIT, ENTRY_LIMIT, PACK_ROOM};
use outside::rng::Rng;

/// Packs a list of an exact size; checks and uses it if it fits.
fn one(lab: &mut Lab, rng: &mut Rng, cells: usize, entries: usize) -> Result<(), Mismatch> {
    let list = limits::exact(rng, cells, entries);
    let text = write_patterns(&list);
    for size in [PACK_ROOM, PACK_ROOM + 1] {
        let answer = lab.pack(&text, size)?;
        let wanted = if cells > CELL_LIMIT || entries > ENTRY_LIMIT {
            11 << 56
        } else {
            (6 + 6 * cells + 5 * entries) as u64
        };
        demand(answer == wanted, || {
            format!("{} cells and {} entries: {:#x}", cells, entries, answer)
        })?;
        if answer >> 56 != 0 {
            let room = lab.room()[..PACK_ROOM].to_vec();
            demand(room.iter().all(|&byte| byte == 0), || "zeros".to_string())?;
            continue;
        }
        let table = lab.room()[..answer as usize].to_vec();
        demand(lab.check(&text, &table)? == 0, || "accepted".to_string())?;
        let alphabet = words::all_symbols();
        words_by_list(lab, rng, &list, &alphabet, &table, 40)?;
        for _ in 0..40 {
            let mut other = table.clone();
            let place = rng.below(other.len());
            other[place] ^= 1 << rng.below(8);
            lab.check(&text, &other)?;
        }
    }
    Ok(())
}

/// Entries one under, at and one over the limit.
pub fn entries(run: &mut Run) -> Result<(), Mismatch> {
    run.rounds(1, |lab, rng| {
        for entries in [ENTRY_LIMIT - 1, ENTRY_LIMIT, ENTRY_LIMIT + 1] {
            one(lab, rng, 3_000, entries)?;
        }
        Ok(())
    })
}

/// Cells one under, at and one over the limit, and far over.
pub fn cells(run: &mut Run) -> Result<(), Mismatch> {
    run.rounds(1, |lab, rng| {
        for cells in [CELL_LIMIT - 1, CELL_LIMIT, CELL_LIMIT + 1, CELL_LIMIT + 300] {
            let entries = rng.range(1, 60);
            one(lab, rng, cells, entries)?;
        }
        Ok(())
    })
}

/// Both at their limits: the largest table there is; and one of both over.
pub fn both(run: &mut Run) -> Result<(), Mismatch> {
    run.rounds(1, |lab, rng| {
        one(lab, rng, CELL_LIMIT, ENTRY_LIMIT)?;
        one(lab, rng, CELL_LIMIT + 1, ENTRY_LIMIT)?;
        one(lab, rng, CELL_LIMIT, ENTRY_LIMIT + 1)
    })
}
