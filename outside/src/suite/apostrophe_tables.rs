//! Apostrophes in tables: paths that one makes or lacks, and tables without any,
//! which are as they were before there were apostrophes.

use super::real::data;
use super::{words_by_list, words_by_walk, Kinds};
use crate::run::{demand, Run};
use outside::lab::{Lab, Mismatch};
use outside::make::layout::{render, Machine, Style};
use outside::make::lists::{self, Shape};
use outside::make::words;
use outside::reference::fit::{first_fit, first_fit_over, Layout};
use outside::reference::right::Judge;
use outside::reference::table::{Table, CELL, HEAD};
use outside::reference::text::{read_patterns, write_patterns};
use outside::reference::{Pattern, APOSTROPHE, CELL_LIMIT, EDGE, LONGEST, PACK_ROOM};
use outside::rng::Rng;

/// Free cells that are put behind the last, so that every base has a cell for
/// an apostrophe.
const SPARE: usize = 2 * APOSTROPHE as usize;

/// A list with its layout, and its first-fit table with spare cells.
struct Case {
    list: Vec<Pattern>,
    text: Vec<u8>,
    judge: Judge,
    fewer: Judge,
    layout: Layout,
    right: Vec<u8>,
}

impl Case {
    fn new(list: Vec<Pattern>) -> Case {
        let layout = first_fit(&list);
        let mut right = layout.bytes();
        let cells = layout.cell_count();
        assert!(cells + SPARE <= CELL_LIMIT, "a small list");
        let end = HEAD + CELL * cells;
        right.splice(end..end, [2, 0, 0, 0, 0, 0].repeat(SPARE));
        right[2..4].copy_from_slice(&((cells + SPARE) as u16).to_be_bytes());
        Case {
            text: write_patterns(&list),
            judge: Judge::new(&list),
            fewer: Judge::over(&list, EDGE),
            list,
            layout,
            right,
        }
    }

    /// Whether the checker accepts a table for the list.
    fn accepts(&self, lab: &mut Lab, table: &[u8]) -> Result<bool, Mismatch> {
        Ok(lab.check_with(&self.judge, &self.text, table)? == 0)
    }

    /// Whether one that knows only 27 symbols would accept it.
    fn passes_with_fewer(&self, table: &[u8]) -> bool {
        self.fewer.accepts(&Table::new(table).expect("a good head"))
    }

    /// The bases from which walks go on, ascending.
    fn bases(&self) -> Vec<usize> {
        let mut bases: Vec<usize> = self.layout.bases.values().copied().collect();
        bases.sort_unstable();
        bases
    }

    /// The patterns that no other goes on from, with their cells.
    fn leaves(&self) -> Vec<(&Pattern, usize)> {
        let bases = &self.layout.bases;
        let leaf = |pattern: &&Pattern| !bases.contains_key(pattern.symbols());
        let cell = |pattern: &Pattern| {
            let last = pattern.symbols().len() - 1;
            bases[&pattern.symbols()[..last]] + pattern.symbols()[last] as usize
        };
        let leaves = self.list.iter().filter(leaf);
        leaves.map(|pattern| (pattern, cell(pattern))).collect()
    }
}

/// Puts a body into a cell.
fn put(table: &mut [u8], cell: usize, symbol: u8, link: usize, output: usize) {
    let place = HEAD + CELL * cell;
    table[place + 1] = symbol;
    table[place + 2..place + 4].copy_from_slice(&(link as u16).to_be_bytes());
    table[place + 4..place + 6].copy_from_slice(&(output as u16).to_be_bytes());
}

/// An apostrophe's cell where no path of the list has it, with any link and
/// output that a cell may have.
fn put_extra(rng: &mut Rng, case: &Case, table: &mut [u8], base: usize) {
    let link = match rng.below(3) {
        0 => *rng.pick(&case.bases()),
        _ => 0,
    };
    let output = match rng.below(3) {
        0 => 0,
        _ => rng.range(0, case.layout.entries.len()),
    };
    put(table, base + APOSTROPHE as usize, APOSTROPHE, link, output);
}

/// A path by an apostrophe that the list doesn't have is refused wherever it
/// hangs: at the root, behind any beginning, behind a dead link. Behind sixteen
/// symbols there is no path.
pub fn extra_paths(run: &mut Run) -> Result<(), Mismatch> {
    let mut kinds = Kinds::new(&[
        "at the root",
        "behind a beginning",
        "behind a dead link",
        "behind sixteen symbols",
        "taken by another path",
        "lets pass with 27 symbols",
        "beside other apostrophes",
    ]);
    run.rounds(2_500, |lab, rng| {
        let shape = Shape::any(rng);
        let case = Case::new(lists::good(rng, &shape));
        demand(case.accepts(lab, &case.right)?, || {
            "a right table with free cells is accepted".to_string()
        })?;
        for base in case.bases() {
            if case
                .layout
                .cells
                .contains_key(&(base + APOSTROPHE as usize))
            {
                kinds.note("taken by another path");
                continue;
            }
            let mut table = case.right.clone();
            put_extra(rng, &case, &mut table, base);
            kinds.note(match base {
                0 => "at the root",
                _ => "behind a beginning",
            });
            refused(lab, rng, &case, &table, &mut kinds)?;
        }
        dead_links(lab, rng, &case, &mut kinds)
    })?;
    kinds.all_met_if(run.is_whole())
}

/// Demands that a table is refused, notes what it tells, and walks it.
fn refused(
    lab: &mut Lab,
    rng: &mut Rng,
    case: &Case,
    table: &[u8],
    kinds: &mut Kinds,
) -> Result<(), Mismatch> {
    let accepted = case.accepts(lab, table)?;
    demand(!accepted, || "a path too many is refused".to_string())?;
    kinds.note(match case.passes_with_fewer(table) {
        true => "lets pass with 27 symbols",
        false => "beside other apostrophes",
    });
    if rng.once_in(8) {
        words_by_walk(lab, rng, &case.list, &[1, 2, APOSTROPHE], table, 1)?;
    }
    Ok(())
}

/// Leaves with a link to nothing, which is right, and then with an apostrophe
/// where they lead.
fn dead_links(
    lab: &mut Lab,
    rng: &mut Rng,
    case: &Case,
    kinds: &mut Kinds,
) -> Result<(), Mismatch> {
    let leaves = case.leaves();
    if leaves.is_empty() {
        return Ok(());
    }
    let (leaf, cell) = *rng.pick(&leaves);
    // Behind the last used cell nothing matches.
    let dead = case.layout.cell_count();
    let mut table = case.right.clone();
    let place = HEAD + CELL * cell + 2;
    table[place..place + 2].copy_from_slice(&(dead as u16).to_be_bytes());
    demand(case.accepts(lab, &table)?, || {
        "a link that leads to nothing is right".to_string()
    })?;
    put_extra(rng, case, &mut table, dead);
    if leaf.symbols().len() < LONGEST {
        kinds.note("behind a dead link");
        return refused(lab, rng, case, &table, kinds);
    }
    kinds.note("behind sixteen symbols");
    demand(case.accepts(lab, &table)?, || {
        "no path goes on behind sixteen symbols".to_string()
    })
}

/// A list in which apostrophes are frequent.
fn frequent(rng: &mut Rng) -> (Vec<Pattern>, Vec<u8>) {
    let mut alphabet = words::letters(rng);
    alphabet.truncate(rng.range(1, 4));
    alphabet.push(APOSTROPHE);
    let shape = Shape {
        alphabet: alphabet.clone(),
        ..Shape::any(rng)
    };
    (lists::good(rng, &shape), alphabet)
}

/// Tables that are right for lists with apostrophes, laid out in any way; and
/// the same with a path by an apostrophe missing.
pub fn missing_paths(run: &mut Run) -> Result<(), Mismatch> {
    let mut kinds = Kinds::new(&[
        "right by first fit",
        "right otherwise",
        "first symbol missing",
        "last symbol missing",
        "inner symbol missing",
        "nothing to miss",
    ]);
    run.rounds(6_000, |lab, rng| {
        let (list, alphabet) = frequent(rng);
        let case = Case::new(list);
        let mut machine = Machine::of_list(&case.list);
        if rng.once_in(2) {
            machine = machine.shared();
        }
        let style = Style::any(rng);
        if let Some(table) = render(rng, &machine, &style) {
            kinds.note("right otherwise");
            demand(case.accepts(lab, &table)?, || {
                "another right layout is accepted".to_string()
            })?;
            words_by_list(lab, rng, &case.list, &alphabet, &table, 1)?;
        }
        kinds.note("right by first fit");
        demand(case.accepts(lab, &case.right)?, || {
            "a packing is accepted".to_string()
        })?;
        words_by_list(lab, rng, &case.list, &alphabet, &case.right, 2)?;
        let mut any = false;
        for (&cell, &(symbol, link, _)) in &case.layout.cells {
            if symbol != APOSTROPHE {
                continue;
            }
            any = true;
            kinds.note(match (cell == APOSTROPHE as usize, link == 0) {
                (true, _) => "first symbol missing",
                (_, true) => "last symbol missing",
                _ => "inner symbol missing",
            });
            let mut table = case.right.clone();
            let other = *rng.pick(&[0, 1, 26, EDGE, APOSTROPHE + 1, 255]);
            table[HEAD + CELL * cell + 1] = other;
            demand(!case.accepts(lab, &table)?, || {
                format!("a path by an apostrophe is missing in cell {}", cell)
            })?;
            words_by_walk(lab, rng, &case.list, &alphabet, &table, 1)?;
        }
        if !any {
            kinds.note("nothing to miss");
        }
        Ok(())
    })?;
    kinds.all_met_if(run.is_whole())
}

/// The sum by which tables are told apart here.
fn sum(bytes: &[u8]) -> u64 {
    bytes.iter().fold(0xcbf2_9ce4_8422_2325, |sum, &byte| {
        (sum ^ u64::from(byte)).wrapping_mul(0x0100_0000_01b3)
    })
}

/// First fit over 27 symbols and over 28, and what the library packs.
fn same_table(lab: &mut Lab, list: &[Pattern]) -> Result<bool, Mismatch> {
    let (fewer, all) = (first_fit_over(list, EDGE), first_fit(list));
    lab.pack(&write_patterns(list), PACK_ROOM)?;
    Ok(fewer.cells == all.cells && fewer.entries == all.entries && fewer.bases == all.bases)
}

/// Lists without apostrophes have the tables that they had over 27 symbols, and
/// lists with them have others.
pub fn kept_tables(run: &mut Run) -> Result<(), Mismatch> {
    let mut kinds = Kinds::new(&["kept", "changed"]);
    run.rounds(20_000, |lab, rng| {
        let shape = Shape::any(rng);
        let list = lists::good(rng, &shape);
        let same = same_table(lab, &list)?;
        let without = |pattern: &Pattern| !pattern.symbols().contains(&APOSTROPHE);
        kinds.note(if same { "kept" } else { "changed" });
        demand(same == list.iter().all(without), || {
            "a table changes just where an apostrophe stands".to_string()
        })
    })?;
    run.once(|lab, _| {
        // The sums are those of the tables before there were apostrophes.
        for (name, before) in [
            ("en-us.pat", 0xc8c1_0ba4_7abc_8e4e),
            ("it.pat", 0x6d1f_a02d_e1ef_2ce6),
            ("la.pat", 0xb39c_cea2_381a_d4fd),
        ] {
            let text = data(name)?;
            let length = lab.pack(&text, PACK_ROOM)? as usize;
            let packed = sum(&lab.room()[..length]);
            demand(packed == before, || format!("{}: {:#x}", name, packed))?;
        }
        for name in ["en-us.pat", "it.pat", "la.pat", "en-us-max.pat", "lv.pat"] {
            let list = read_patterns(&data(name)?).expect("a good list");
            demand(same_table(lab, &list)?, || format!("{} is kept", name))?;
        }
        Ok(())
    })?;
    kinds.all_met_if(run.is_whole())
}
