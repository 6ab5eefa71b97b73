//! Right tables that are laid out otherwise than by first fit: other bases,
//! shared endings, circles, links that lead nowhere, chains in another order,
//! rubbish where no path comes.

use crate::reference::table::{Table, CELL, ENTRY, HEAD};
use crate::reference::text::is_legal;
use crate::reference::{Pattern, APOSTROPHE, CELL_LIMIT, EDGE, ENTRY_LIMIT, LONGEST, SYMBOLS};
use crate::rng::Rng;
use std::collections::{BTreeMap, BTreeSet, HashMap};

/// One way on from a state.
#[derive(Clone, Debug, PartialEq, Eq, Hash)]
pub struct Arrow {
    /// The symbol that is read.
    pub symbol: u8,
    /// The state it leads to, if any.
    pub to: Option<usize>,
    /// Distances and levels set by the path that ends here; empty for none.
    pub output: Vec<(u8, u8)>,
}

/// States with arrows, in symbol order; state 0 is the root, and no arrow
/// leads to it, because link 0 means none.
#[derive(Clone, Debug, Default)]
pub struct Machine {
    /// The states.
    pub states: Vec<Vec<Arrow>>,
}

/// A pattern's distances and levels, from the smallest distance up.
fn output_of(pattern: &Pattern) -> Vec<(u8, u8)> {
    (0..=pattern.symbols().len())
        .map(|distance| (distance as u8, pattern.level_at(distance)))
        .filter(|&(_, level)| level != 0)
        .collect()
}

impl Machine {
    /// The tree of a list, without any sharing.
    pub fn of_list(list: &[Pattern]) -> Machine {
        let mut machine = Machine {
            states: vec![Vec::new()],
        };
        for pattern in list {
            let mut at = 0;
            for (place, &symbol) in pattern.symbols().iter().enumerate() {
                let last = place + 1 == pattern.symbols().len();
                at = machine.step(at, symbol, if last { Some(pattern) } else { None });
            }
        }
        machine.drop_empty()
    }

    /// Finds or makes the arrow from a state and the state behind it.
    fn step(&mut self, at: usize, symbol: u8, pattern: Option<&Pattern>) -> usize {
        let found = self.states[at].iter().position(|a| a.symbol == symbol);
        let place = match found {
            Some(place) => place,
            None => {
                let to = self.states.len();
                self.states.push(Vec::new());
                self.states[at].push(Arrow {
                    symbol,
                    to: Some(to),
                    output: Vec::new(),
                });
                self.states[at].len() - 1
            }
        };
        let arrow = &mut self.states[at][place];
        if let Some(pattern) = pattern {
            arrow.output = output_of(pattern);
        }
        arrow.to.unwrap_or(0)
    }

    /// Lets arrows to states without arrows lead nowhere.
    fn drop_empty(mut self) -> Machine {
        let empty: Vec<bool> = self.states.iter().map(|state| state.is_empty()).collect();
        for arrow in self.states.iter_mut().flatten() {
            arrow.to = arrow.to.filter(|&to| !empty[to]);
        }
        self
    }

    /// The same paths with equal states made one. Later states of a tree are
    /// deeper ones, so going from the end settles all children first.
    pub fn shared(&self) -> Machine {
        let mut kept: HashMap<Vec<Arrow>, usize> = HashMap::new();
        let mut name: Vec<usize> = (0..self.states.len()).collect();
        let mut states = self.states.clone();
        for number in (0..states.len()).rev() {
            let mut arrows = states[number].clone();
            for arrow in &mut arrows {
                arrow.to = arrow.to.map(|to| name[to]);
            }
            if number > 0 {
                name[number] = *kept.entry(arrows.clone()).or_insert(number);
            }
            states[number] = arrows;
        }
        Machine { states }
    }

    /// A small machine with circles, each arrow with an output. Apostrophes lead
    /// to the last state, which has none, so that they often part letters.
    pub fn with_circles(rng: &mut Rng) -> Machine {
        let letters = rng.range(1, 3);
        let apostrophes = rng.once_in(2);
        let size = rng.range(2, 5);
        let mut states = Vec::new();
        for number in 0..size {
            let mut arrows = Vec::new();
            for symbol in 1..=letters as u8 {
                if number > 0 && rng.once_in(2) {
                    continue;
                }
                let to = if rng.once_in(4) {
                    None
                } else {
                    Some(rng.range(1, size - 1))
                };
                let output = circle_output(rng, number);
                arrows.push(Arrow { symbol, to, output });
            }
            if rng.once_in(4) {
                let to = if number == 0 { Some(size - 1) } else { None };
                // A leading edge may have its level only right behind it, a
                // trailing one only before it.
                let output = if number == 0 {
                    Vec::new()
                } else {
                    vec![(1, rng.range(1, 9) as u8)]
                };
                arrows.push(Arrow {
                    symbol: EDGE,
                    to,
                    output,
                });
            }
            if apostrophes && number + 1 < size && rng.once_in(2) {
                let to = if rng.once_in(3) { None } else { Some(size - 1) };
                // Alone it is no pattern, so it sets nothing there.
                let output = if number == 0 {
                    Vec::new()
                } else {
                    circle_output(rng, number)
                };
                arrows.push(Arrow {
                    symbol: APOSTROPHE,
                    to,
                    output,
                });
            }
            states.push(arrows);
        }
        Machine { states }.drop_empty()
    }

    /// All patterns that its paths spell, in order; `None` if there are too
    /// many or one of them isn't legal.
    pub fn list(&self) -> Option<Vec<Pattern>> {
        let mut list = Vec::new();
        let mut budget = 2_500;
        self.list_from(0, &mut Vec::new(), &mut list, &mut budget)?;
        Some(list)
    }

    fn list_from(
        &self,
        state: usize,
        path: &mut Vec<u8>,
        list: &mut Vec<Pattern>,
        budget: &mut usize,
    ) -> Option<()> {
        for arrow in &self.states[state] {
            *budget = budget.checked_sub(1)?;
            path.push(arrow.symbol);
            if !arrow.output.is_empty() {
                let mut levels = vec![0; path.len() + 1];
                for &(distance, level) in &arrow.output {
                    let place = path.len().checked_sub(distance as usize)?;
                    levels[place] = level.max(levels[place]);
                }
                if !is_legal(path, &levels) {
                    return None;
                }
                list.push(Pattern::new(path, &levels));
            }
            if let (Some(to), true) = (arrow.to, path.len() < LONGEST) {
                self.list_from(to, path, list, budget)?;
            }
            path.pop();
        }
        Some(())
    }

    /// For each state the lengths of the paths that lead to it, as bits.
    fn depths(&self) -> Vec<u32> {
        let mut depths = vec![0u32; self.states.len()];
        depths[0] = 1;
        let mut waiting = vec![(0, 0)];
        while let Some((state, depth)) = waiting.pop() {
            for to in self.states[state].iter().filter_map(|arrow| arrow.to) {
                let bit = 1 << (depth + 1);
                if depth + 1 < LONGEST && depths[to] & bit == 0 {
                    depths[to] |= bit;
                    waiting.push((to, depth + 1));
                }
            }
        }
        depths
    }
}

/// An output for a circle: distance 0 or 1 fits every path.
fn circle_output(rng: &mut Rng, state: usize) -> Vec<(u8, u8)> {
    let level = rng.range(1, 9) as u8;
    match rng.below(4) {
        0 => vec![(1, level)],
        1 => vec![(0, level), (1, rng.range(1, 9) as u8)],
        2 if state > 0 => vec![(2, level), (0, rng.range(1, 9) as u8)],
        _ => vec![(0, level)],
    }
}

/// How a machine is written as a table.
#[derive(Clone, Debug)]
pub struct Style {
    /// The lowest base tried.
    pub low: usize,
    /// The highest base tried first.
    pub high: usize,
    /// Whether equal entries are used again.
    pub share_entries: bool,
    /// Whether a chain may come in any order and name a distance twice.
    pub odd_chains: bool,
    /// Whether arrows that lead nowhere may have a link all the same.
    pub dead_links: bool,
    /// Free cells behind the last used one.
    pub spare_cells: usize,
    /// Entries that no chain has.
    pub spare_entries: usize,
    /// Whether the bodies of unreached cells hold rubbish.
    pub rubbish: bool,
    /// Whether two states that don't collide may get one base, which is an
    /// error that looks reasonable.
    pub same_bases: bool,
}

impl Style {
    /// A style at random; the table stays right.
    pub fn any(rng: &mut Rng) -> Style {
        let low = *rng.pick(&[1, 1, 1, 28, 300, 4_000, 8_000]);
        Style {
            low,
            high: low + *rng.pick(&[5, 40, 150]),
            share_entries: rng.once_in(2),
            odd_chains: rng.once_in(2),
            dead_links: rng.once_in(2),
            spare_cells: *rng.pick(&[0, 0, 1, 30, 500]),
            spare_entries: *rng.pick(&[0, 0, 1, 5, 40]),
            rubbish: rng.once_in(2),
            same_bases: false,
        }
    }
}

/// What is being written.
struct Draft {
    /// Cell number to symbol, link and output.
    cells: BTreeMap<usize, (u8, usize, usize)>,
    /// Bodies of the entries.
    entries: Vec<(u8, u8, usize)>,
    bases: Vec<usize>,
}

/// Writes a machine as a table; `None` if it doesn't fit.
pub fn render(rng: &mut Rng, machine: &Machine, style: &Style) -> Option<Vec<u8>> {
    let bases = choose_bases(rng, machine, style)?;
    let mut draft = Draft {
        cells: BTreeMap::new(),
        entries: Vec::new(),
        bases,
    };
    let depths = machine.depths();
    let mut loose = Vec::new();
    for (state, arrows) in machine.states.iter().enumerate() {
        if depths[state] == 0 {
            continue;
        }
        let only_last = depths[state] == 1 << (LONGEST - 1);
        for arrow in arrows {
            let cell = draft.bases[state] + arrow.symbol as usize;
            let link = arrow.to.map(|to| draft.bases[to]).unwrap_or(0);
            let output = chain(rng, &mut draft, style, &arrow.output);
            draft.cells.insert(cell, (arrow.symbol, link, output));
            if arrow.to.is_none() || only_last {
                loose.push((cell, only_last));
            }
        }
    }
    while draft.entries.len() < style.spare_entries {
        spare_entry(rng, &mut draft);
    }
    let mut bytes = write(rng, &draft, style)?;
    if style.dead_links {
        for (cell, only_last) in loose {
            dead_link(rng, &mut bytes, cell, only_last);
        }
    }
    Some(bytes)
}

/// Gives each state a base whose cells are free.
fn choose_bases(rng: &mut Rng, machine: &Machine, style: &Style) -> Option<Vec<usize>> {
    let depths = machine.depths();
    let mut taken = BTreeSet::new();
    let mut bases = vec![0; machine.states.len()];
    let mut used: BTreeSet<usize> = BTreeSet::new();
    for (number, arrows) in machine.states.iter().enumerate() {
        if depths[number] == 0 || (arrows.is_empty() && number > 0) {
            continue;
        }
        let mut base = if number == 0 {
            0
        } else {
            rng.range(style.low, style.high)
        };
        let collides = |base: usize| {
            let has_cell = |arrow: &Arrow| used.contains(&(base + arrow.symbol as usize));
            (taken.contains(&base) && !style.same_bases) || arrows.iter().any(has_cell)
        };
        while number > 0 && collides(base) {
            base += 1;
        }
        if base + SYMBOLS as usize >= CELL_LIMIT {
            return None;
        }
        taken.insert(base);
        used.extend(arrows.iter().map(|arrow| base + arrow.symbol as usize));
        bases[number] = base;
    }
    Some(bases)
}

/// Makes an output's chain and gives its first number.
fn chain(rng: &mut Rng, draft: &mut Draft, style: &Style, output: &[(u8, u8)]) -> usize {
    let mut items = output.to_vec();
    if style.odd_chains && !items.is_empty() {
        while rng.once_in(3) {
            let (distance, level) = *rng.pick(output);
            items.push((distance, rng.range(1, level as usize) as u8));
        }
        rng.shuffle(&mut items);
    }
    let mut last = 0;
    for (distance, level) in items {
        let body = (distance, level, last);
        let known = if style.share_entries {
            draft.entries.iter().position(|&other| other == body)
        } else {
            None
        };
        last = match known {
            Some(place) => place + 1,
            None => {
                if style.spare_entries > 0 && rng.once_in(10) {
                    spare_entry(rng, draft);
                }
                draft.entries.push(body);
                draft.entries.len()
            }
        };
    }
    last
}

/// Adds an entry with anything in it.
fn spare_entry(rng: &mut Rng, draft: &mut Draft) {
    let next = rng.bits() as u16 as usize;
    draft.entries.push((rng.byte(), rng.byte(), next));
}

/// The bytes of a draft, with rubbish in cells that no path reaches.
fn write(rng: &mut Rng, draft: &Draft, style: &Style) -> Option<Vec<u8>> {
    let highest = draft.cells.keys().next_back().copied().unwrap_or(0);
    let count = (highest + 1 + style.spare_cells).min(CELL_LIMIT);
    if draft.entries.len() > ENTRY_LIMIT {
        return None;
    }
    let live: BTreeSet<usize> = draft.bases.iter().copied().collect();
    let mut bytes = vec![1, 1];
    bytes.extend((count as u16).to_be_bytes());
    bytes.extend((draft.entries.len() as u16).to_be_bytes());
    for number in 0..count {
        let (symbol, link, output) = match draft.cells.get(&number) {
            Some(&cell) => cell,
            None if style.rubbish => rubbish(rng, number, &live),
            None => (0, 0, 0),
        };
        bytes.extend([2, symbol]);
        bytes.extend((link as u16).to_be_bytes());
        bytes.extend((output as u16).to_be_bytes());
    }
    for &(distance, level, next) in &draft.entries {
        bytes.extend([3, distance, level]);
        bytes.extend((next as u16).to_be_bytes());
    }
    Some(bytes)
}

/// A cell's body that no live base can match.
fn rubbish(rng: &mut Rng, number: usize, live: &BTreeSet<usize>) -> (u8, usize, usize) {
    let mut symbol = if rng.once_in(3) {
        rng.byte()
    } else {
        rng.range(0, 29) as u8
    };
    let reached = (1..=SYMBOLS).contains(&symbol)
        && number >= symbol as usize
        && live.contains(&(number - symbol as usize));
    if reached {
        symbol = *rng.pick(&[0, SYMBOLS + 1, 255]);
    }
    let link = rng.bits() as u16 as usize;
    (symbol, link, rng.bits() as u16 as usize)
}

/// Gives a cell a link that no path follows with success. At sixteen symbols
/// the link isn't followed at all, so it may be any number.
fn dead_link(rng: &mut Rng, bytes: &mut [u8], cell: usize, only_last: bool) {
    let limit = *rng.pick(&[30, 9_000, 65_535]);
    let link = rng.range(1, limit);
    let table = Table::new(bytes).expect("a finished table");
    let leads_on = (1..=SYMBOLS).any(|symbol| table.matching(link, symbol).is_some());
    if only_last || !leads_on {
        let place = HEAD + CELL * cell + 2;
        bytes[place..place + 2].copy_from_slice(&(link as u16).to_be_bytes());
    }
}

/// Where the entry with this number begins in a table with so many cells.
pub fn entry_place(cells: usize, number: usize) -> usize {
    HEAD + CELL * cells + ENTRY * (number - 1)
}

#[cfg(test)]
mod tests {
    use super::*;
    use crate::make::lists::{good, Shape};
    use crate::reference::right::Judge;

    #[test]
    fn other_layouts_are_right() {
        let mut rng = Rng::new(4);
        for round in 0..400 {
            let shape = Shape::any(&mut rng);
            let list = good(&mut rng, &shape);
            let mut machine = Machine::of_list(&list);
            assert_eq!(machine.list().as_ref(), Some(&list));
            if round % 2 == 1 {
                machine = machine.shared();
            }
            let style = Style::any(&mut rng);
            if let Some(bytes) = render(&mut rng, &machine, &style) {
                let table = Table::new(&bytes).unwrap();
                assert!(Judge::new(&list).accepts(&table), "round {}", round);
            }
        }
    }

    #[test]
    fn circles_are_right() {
        let mut rng = Rng::new(5);
        let (mut tables, mut with) = (0, 0);
        for _ in 0..400 {
            let machine = Machine::with_circles(&mut rng);
            let style = Style::any(&mut rng);
            if let (Some(list), Some(bytes)) = (machine.list(), render(&mut rng, &machine, &style))
            {
                let table = Table::new(&bytes).unwrap();
                let right = Judge::new(&list).accepts(&table);
                tables += right as usize;
                let has = |pattern: &Pattern| pattern.symbols().contains(&APOSTROPHE);
                with += (right && list.iter().any(has)) as usize;
            }
        }
        assert!(tables > 100, "only {} circles were right", tables);
        assert!(with > 20, "only {} had apostrophes", with);
    }
}
