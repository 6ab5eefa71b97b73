//! The list that a table itself suggests, for tables that nobody planned.

use crate::reference::table::Table;
use crate::reference::text::is_legal;
use crate::reference::{Pattern, LONGEST, SYMBOLS};

/// The patterns that a table's paths with outputs would be, in order; `None`
/// if there are very many or one of them isn't legal. The table need not be
/// right for this list, but it is right for no other.
pub fn list(bytes: &[u8]) -> Option<Vec<Pattern>> {
    let table = Table::new(bytes)?;
    let mut list = Vec::new();
    let mut budget = 2_500;
    collect(&table, 0, &mut Vec::new(), &mut list, &mut budget)?;
    Some(list)
}

fn collect(
    table: &Table<'_>,
    base: usize,
    path: &mut Vec<u8>,
    list: &mut Vec<Pattern>,
    budget: &mut usize,
) -> Option<()> {
    for symbol in 1..=SYMBOLS {
        let cell = match table.matching(base, symbol) {
            Some(cell) => cell,
            None => continue,
        };
        *budget = budget.checked_sub(1)?;
        path.push(symbol);
        if cell.output != 0 {
            list.push(pattern(table, cell.output, path)?);
        }
        if cell.link != 0 && path.len() < LONGEST {
            collect(table, cell.link, path, list, budget)?;
        }
        path.pop();
    }
    Some(())
}

/// The pattern that a path with an output would be.
fn pattern(table: &Table<'_>, output: usize, path: &[u8]) -> Option<Pattern> {
    let mut levels = vec![0u8; path.len() + 1];
    let set = |distance: usize, level: u8| {
        let place = path.len() - distance;
        levels[place] = levels[place].max(level);
    };
    table.follow(output, path.len(), set, |_| ());
    if is_legal(path, &levels) {
        Some(Pattern::new(path, &levels))
    } else {
        None
    }
}
