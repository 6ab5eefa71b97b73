//! The same job in ordinary safe Rust, written for speed but without tricks:
//! fixed buffers instead of vectors, one pass over each text, bit sets for
//! first fit. It judges everything that the calls must judge and gives the
//! same 64 bits.

use std::collections::HashMap;

const EDGE: u8 = 27;
const APOSTROPHE: u8 = 28;
const LONGEST: usize = 16;
const CELL_LIMIT: usize = 8_192;
const ENTRY_LIMIT: usize = 2_048;
const PACK_ROOM: usize = 59_398;

/// Bits of a refusal.
fn refuse(number: u64, list: u64, place: usize) -> u64 {
    number << 56 | list << 48 | place as u64
}

/// A word's row: edge, letters, edge.
struct Row {
    symbols: [u8; 65],
    letters: usize,
}

/// A letter's number in the alphabet from 0, 26 or more for any other byte.
#[inline]
fn letter(byte: u8) -> u8 {
    (byte | 0x20).wrapping_sub(b'a')
}

/// Whether a byte of a word that is no letter is an apostrophe between two.
#[cold]
fn is_between(word: &[u8], place: usize) -> bool {
    let is_letter = |&byte: &u8| letter(byte) < 26;
    word[place] == b'\''
        && place > 0
        && is_letter(&word[place - 1])
        && word.get(place + 1).map_or(false, is_letter)
}

/// Judges a word and writes its row.
fn read_word(word: &[u8]) -> Result<Row, u64> {
    if word.is_empty() {
        return Err(refuse(2, 0, 0));
    }
    if word.len() > 63 {
        return Err(refuse(4, 0, 0));
    }
    let mut symbols = [EDGE; 65];
    for (place, &byte) in word.iter().enumerate() {
        symbols[place + 1] = match letter(byte) {
            letter if letter < 26 => letter + 1,
            _ if is_between(word, place) => APOSTROPHE,
            _ => return Err(refuse(3, 0, place)),
        };
    }
    Ok(Row {
        symbols,
        letters: word.len(),
    })
}

/// Which break of a word fits a line.
pub fn fit(hyphen: f64, line: f64, widths: &[f64; 27], word: &[u8], room: &[u8]) -> u64 {
    if room.len() < 64 {
        return refuse(5, 0, 0);
    }
    if word.is_empty() {
        return refuse(2, 0, 0);
    }
    if word.len() > 63 {
        return refuse(4, 0, 0);
    }
    for (place, &byte) in word.iter().enumerate() {
        if letter(byte) >= 26 && !is_between(word, place) {
            return refuse(3, 0, place);
        }
    }
    let is_width = |width: f64| (0.0..=1_000.0).contains(&width);
    let letters_are = widths.iter().all(|&width| is_width(width));
    if !(is_width(hyphen) && is_width(line) && letters_are) {
        return refuse(13, 0, 0);
    }
    let (mut sum, mut last) = (0.0, 0);
    for (gap, (&byte, &mark)) in word.iter().zip(room).enumerate() {
        if gap != 0 && mark != 0 && sum + hyphen <= line {
            last = gap as u64;
        }
        // Of a judged word's bytes only an apostrophe is past the letters.
        sum += widths[letter(byte).min(26) as usize];
    }
    match last {
        _ if sum <= line => 1 << 32,
        0 => 3 << 32,
        _ => 2 << 32 | last,
    }
}

/// A table whose head was judged.
struct Table<'a> {
    cells: &'a [u8],
    entries: &'a [u8],
}

/// Judges length and head.
fn read_table(bytes: &[u8]) -> Option<Table<'_>> {
    if bytes.len() < 6 || bytes[0] != 1 || bytes[1] != 1 {
        return None;
    }
    let cells = u16::from_be_bytes([bytes[2], bytes[3]]) as usize;
    let entries = u16::from_be_bytes([bytes[4], bytes[5]]) as usize;
    let sizes_fit = cells != 0 && cells <= CELL_LIMIT && entries <= ENTRY_LIMIT;
    if !sizes_fit || bytes.len() != 6 + 6 * cells + 5 * entries {
        return None;
    }
    let (cells, entries) = bytes[6..].split_at(6 * cells);
    Some(Table { cells, entries })
}

impl<'a> Table<'a> {
    /// Link and output of the cell that matches a symbol from a base.
    #[inline]
    fn matching(&self, base: usize, symbol: u8) -> Option<(usize, usize)> {
        let start = 6 * (base + symbol as usize);
        let cell = self.cells.get(start..start + 6)?;
        if cell[0] != 2 || cell[1] != symbol {
            return None;
        }
        let link = u16::from_be_bytes([cell[2], cell[3]]) as usize;
        let output = u16::from_be_bytes([cell[4], cell[5]]) as usize;
        Some((link, output))
    }

    /// The entry with this number from 1 up, if it exists and has its kind.
    #[inline]
    fn entry(&self, number: usize) -> Option<(usize, u8, usize)> {
        let start = 5 * (number - 1);
        let entry = self.entries.get(start..start + 5)?;
        if entry[0] != 3 {
            return None;
        }
        let next = u16::from_be_bytes([entry[3], entry[4]]) as usize;
        Some((entry[1] as usize, entry[2], next))
    }

    /// Levels of all gaps and the count of looks.
    fn levels(&self, row: &Row) -> ([u8; 64], u64) {
        let symbols = &row.symbols[..row.letters + 2];
        let mut levels = [0u8; 64];
        let mut looks = 0;
        for place in 0..symbols.len() {
            let mut base = 0;
            for (step, &symbol) in symbols[place..].iter().take(LONGEST).enumerate() {
                looks += 1;
                let (link, output) = match self.matching(base, symbol) {
                    Some(found) => found,
                    None => break,
                };
                if output != 0 {
                    self.raise(output, place + step, step + 1, row.letters, &mut levels);
                }
                if link == 0 {
                    break;
                }
                base = link;
            }
        }
        (levels, looks)
    }

    /// Applies an output's chain to the inner gaps.
    #[inline]
    fn raise(
        &self,
        output: usize,
        end: usize,
        length: usize,
        letters: usize,
        levels: &mut [u8; 64],
    ) {
        let mut at = output;
        while at != 0 {
            let (distance, level, next) = match self.entry(at) {
                Some(entry) => entry,
                None => return,
            };
            let gap = end.wrapping_sub(distance);
            let set = level.wrapping_sub(1) < 9 && distance <= length;
            if set && gap.wrapping_sub(1) < letters - 1 && levels[gap & 63] < level {
                levels[gap & 63] = level;
            }
            if next >= at {
                return;
            }
            at = next;
        }
    }
}

/// Judges an exception text in one pass and finds the word's line: its offset
/// and length. A bad line's offset is the error.
fn scan_exceptions(text: &[u8], row: &Row) -> Result<Option<(usize, usize)>, usize> {
    let wanted = &row.symbols[1..row.letters + 1];
    let mut above = [0u8; 64];
    let mut above_length = 0;
    let mut found = None;
    let mut start = 0;
    while start < text.len() {
        let mut length = 0;
        let mut hyphen = true;
        let mut greater = start == 0;
        let mut at = start;
        loop {
            let byte = *text.get(at).ok_or(start)?;
            at += 1;
            let symbol = match byte {
                b'a'..=b'z' => byte - b'a' + 1,
                b'\'' if length > 0 && above[length - 1] != APOSTROPHE => APOSTROPHE,
                b'-' if !hyphen => {
                    hyphen = true;
                    continue;
                }
                b'\n' if !hyphen && greater && above[length - 1] != APOSTROPHE => break,
                _ => return Err(start),
            };
            if length == 63 {
                return Err(start);
            }
            if !greater {
                if length >= above_length || symbol > above[length] {
                    greater = true;
                } else if symbol < above[length] {
                    return Err(start);
                }
            }
            above[length] = symbol;
            length += 1;
            hyphen = false;
        }
        above_length = length;
        if found.is_none() && &above[..length] == wanted {
            found = Some((start, at - 1 - start));
        }
        start = at;
    }
    Ok(found)
}

/// The hyphenating call.
pub fn hyphenate(
    left: u64,
    right: u64,
    word: &[u8],
    customer: &[u8],
    house: &[u8],
    table: &[u8],
    room: &mut [u8],
) -> u64 {
    let judged = try_hyphenate(left, right, word, customer, house, table, room);
    judged.unwrap_or_else(|refusal| refusal)
}

fn try_hyphenate(
    left: u64,
    right: u64,
    word: &[u8],
    customer: &[u8],
    house: &[u8],
    table: &[u8],
    room: &mut [u8],
) -> Result<u64, u64> {
    if left.wrapping_sub(1) >= 63 || right.wrapping_sub(1) >= 63 {
        return Err(refuse(1, 0, 0));
    }
    let marks = room.get_mut(..64).ok_or_else(|| refuse(5, 0, 0))?;
    let row = read_word(word)?;
    if customer.len() > 8_192 || house.len() > 8_192 {
        return Err(refuse(8, 0, 0));
    }
    let mine = scan_exceptions(customer, &row).map_err(|line| refuse(6, 1, line))?;
    let theirs = scan_exceptions(house, &row).map_err(|line| refuse(6, 2, line))?;
    let table = read_table(table).ok_or_else(|| refuse(9, 0, 0))?;
    marks.fill(0);
    let line = match (mine, theirs) {
        (Some((start, length)), _) => &customer[start..start + length],
        (None, Some((start, length))) => &house[start..start + length],
        (None, None) => {
            let (levels, looks) = table.levels(&row);
            let mut count = 0u64;
            let last = (row.letters as u64).saturating_sub(right);
            for gap in left..=last {
                let odd = levels[gap as usize & 63] & 1;
                marks[gap as usize & 63] = odd;
                count += odd as u64;
            }
            return Ok(count << 32 | looks);
        }
    };
    let mut gap = 0;
    let mut count = 0u64;
    let letters = row.letters as u64;
    for &byte in line {
        if byte == b'-' {
            let counts = left <= gap && gap + right <= letters;
            marks[gap as usize & 63] = counts as u8;
            count += counts as u64;
        } else {
            gap += 1;
        }
    }
    Ok(count << 32)
}

/// The levels call.
pub fn levels(word: &[u8], table: &[u8], room: &mut [u8]) -> u64 {
    try_levels(word, table, room).unwrap_or_else(|refusal| refusal)
}

fn try_levels(word: &[u8], table: &[u8], room: &mut [u8]) -> Result<u64, u64> {
    let marks = room.get_mut(..64).ok_or_else(|| refuse(5, 0, 0))?;
    let row = read_word(word)?;
    let table = read_table(table).ok_or_else(|| refuse(9, 0, 0))?;
    let (levels, looks) = table.levels(&row);
    marks.copy_from_slice(&levels);
    // In a byte, so that many levels are counted at once; Rust 1.63 does so
    // only where they go by value.
    let mut count = 0u8;
    for level in levels {
        count += (level != 0) as u8;
    }
    Ok((count as u64) << 32 | looks)
}

/// A pattern in fixed space. Symbols past the length are 0, which sorts below
/// every symbol, so whole arrays compare as the symbols do.
#[derive(Clone, Copy)]
struct Pattern {
    symbols: [u8; LONGEST],
    levels: [u8; LONGEST + 1],
    length: usize,
}

/// Reads one line; the end of the line or nothing if it is bad.
fn read_pattern(text: &[u8], start: usize) -> Option<(Pattern, usize)> {
    let mut pattern = Pattern {
        symbols: [0; LONGEST],
        levels: [0; LONGEST + 1],
        length: 0,
    };
    let (mut letters, mut digits) = (false, false);
    for (at, &byte) in text.iter().enumerate().skip(start) {
        match byte {
            b'1'..=b'9' => {
                if pattern.levels[pattern.length] != 0 {
                    return None;
                }
                pattern.levels[pattern.length] = byte - b'0';
                digits = true;
            }
            b'a'..=b'z' | b'.' | b'\'' => {
                // An edge that isn't the first symbol must be the last, and an
                // apostrophe stands beside letters alone.
                let before = match pattern.length {
                    0 => 0,
                    length => pattern.symbols[length - 1],
                };
                let behind_edge = pattern.length > 1 && before == EDGE;
                if pattern.length == LONGEST || behind_edge {
                    return None;
                }
                let symbol = match byte {
                    b'.' => EDGE,
                    b'\'' => APOSTROPHE,
                    _ => byte - b'a' + 1,
                };
                let apart = symbol < EDGE || before < EDGE;
                if !apart || (symbol == EDGE && pattern.length == 0 && digits) {
                    return None;
                }
                pattern.symbols[pattern.length] = symbol;
                letters |= symbol < EDGE;
                pattern.length += 1;
            }
            b'\n' => {
                let whole = letters && digits && pattern.length > 0;
                let ends_in_edge = whole && pattern.symbols[pattern.length - 1] == EDGE;
                if !whole || (ends_in_edge && pattern.levels[pattern.length] != 0) {
                    return None;
                }
                return Some((pattern, at + 1));
            }
            _ => return None,
        }
    }
    None
}

/// Judges a pattern text.
fn read_patterns(text: &[u8]) -> Result<Vec<Pattern>, u64> {
    if text.len() > 32_768 {
        return Err(refuse(8, 0, 0));
    }
    let mut list: Vec<Pattern> = Vec::with_capacity(text.len() / 6);
    let mut start = 0;
    while start < text.len() {
        let (pattern, end) = read_pattern(text, start).ok_or_else(|| refuse(7, 0, start))?;
        if let Some(above) = list.last() {
            if above.symbols >= pattern.symbols {
                return Err(refuse(7, 0, start));
            }
        }
        list.push(pattern);
        start = end;
    }
    Ok(list)
}

/// Cuts a stretch of the list, all with the same first `depth` symbols, into
/// groups by the next symbol. A pattern that ends here is left out.
fn groups(list: &[Pattern], from: usize, to: usize, depth: usize) -> Groups<'_> {
    let skip = from < to && list[from].length == depth;
    Groups {
        list,
        at: from + skip as usize,
        to,
        depth,
    }
}

struct Groups<'a> {
    list: &'a [Pattern],
    at: usize,
    to: usize,
    depth: usize,
}

impl<'a> Iterator for Groups<'a> {
    type Item = (u8, usize, usize);

    fn next(&mut self) -> Option<(u8, usize, usize)> {
        if self.at >= self.to || self.depth >= LONGEST {
            return None;
        }
        let from = self.at;
        let symbol = self.list[from].symbols[self.depth];
        while self.at < self.to && self.list[self.at].symbols[self.depth] == symbol {
            self.at += 1;
        }
        Some((symbol, from, self.at))
    }
}

/// Cells and bases in use, one bit each.
struct Bits {
    words: Vec<u64>,
}

impl Bits {
    fn new() -> Bits {
        Bits {
            words: vec![0; (CELL_LIMIT + 128) / 64],
        }
    }

    fn set(&mut self, place: usize) {
        self.words[place / 64] |= 1 << (place % 64);
    }

    /// 29 bits or more from a place on.
    #[inline]
    fn window(&self, place: usize) -> u64 {
        let (word, shift) = (place / 64, place % 64);
        let low = self.words[word] >> shift;
        if shift == 0 {
            low
        } else {
            low | self.words[word + 1] << (64 - shift)
        }
    }

    fn has(&self, place: usize) -> bool {
        self.words[place / 64] >> (place % 64) & 1 != 0
    }
}

/// A path with continuations: its stretch of the list, its length, and the
/// cell whose link leads to it (0 for the root, which has none).
struct Node {
    from: usize,
    to: usize,
    depth: usize,
    cell: usize,
}

/// First fit; the number of cells, or nothing if there are too many. Bases go
/// to paths by length and symbols, which is the order of a queue.
fn place_cells(list: &[Pattern], outputs: &[usize], cells: &mut [u8]) -> Option<usize> {
    let (mut used, mut bases) = (Bits::new(), Bits::new());
    let mut queue = vec![Node {
        from: 0,
        to: list.len(),
        depth: 0,
        cell: 0,
    }];
    let mut next = 0;
    let mut low = 1;
    let mut count = 1;
    while next < queue.len() {
        let Node {
            from,
            to,
            depth,
            cell,
        } = queue[next];
        next += 1;
        let mask = groups(list, from, to, depth).fold(0u64, |mask, group| mask | 1 << group.0);
        let mut base = 0;
        if depth > 0 {
            base = low;
            while base < CELL_LIMIT && (bases.has(base) || used.window(base) & mask != 0) {
                base += 1;
            }
        }
        let highest = base + 63 - (mask | 1).leading_zeros() as usize;
        if highest >= CELL_LIMIT {
            return None;
        }
        bases.set(base);
        while bases.has(low) {
            low += 1;
        }
        if depth > 0 {
            cells[6 * cell + 2..6 * cell + 4].copy_from_slice(&(base as u16).to_be_bytes());
        }
        for (symbol, from, to) in groups(list, from, to, depth) {
            let cell = base + symbol as usize;
            used.set(cell);
            count = count.max(cell + 1);
            cells[6 * cell + 1] = symbol;
            let ends = list[from].length == depth + 1;
            if ends {
                let output = (outputs[from] as u16).to_be_bytes();
                cells[6 * cell + 4..6 * cell + 6].copy_from_slice(&output);
            }
            if !ends || to - from > 1 {
                queue.push(Node {
                    from,
                    to,
                    depth: depth + 1,
                    cell,
                });
            }
        }
    }
    Some(count)
}

/// Entries in list order; outputs by pattern.
fn make_entries(list: &[Pattern]) -> (Vec<[u8; 5]>, Vec<usize>) {
    let mut entries: Vec<[u8; 5]> = Vec::new();
    let mut known: HashMap<[u8; 5], usize> = HashMap::new();
    let mut outputs = Vec::with_capacity(list.len());
    for pattern in list {
        let mut last = 0usize;
        for distance in 0..=pattern.length {
            let level = pattern.levels[pattern.length - distance];
            if level != 0 {
                let next = (last as u16).to_be_bytes();
                let body = [3, distance as u8, level, next[0], next[1]];
                last = *known.entry(body).or_insert_with(|| {
                    entries.push(body);
                    entries.len()
                });
            }
        }
        outputs.push(last);
    }
    (entries, outputs)
}

/// The packer.
pub fn pack(patterns: &[u8], room: &mut [u8]) -> u64 {
    if room.len() < PACK_ROOM {
        return refuse(10, 0, 0);
    }
    let list = match read_patterns(patterns) {
        Ok(list) => list,
        Err(refusal) => return refusal,
    };
    let room = &mut room[..PACK_ROOM];
    room.fill(0);
    let (entries, outputs) = make_entries(&list);
    if entries.len() > ENTRY_LIMIT {
        return refuse(11, 0, 0);
    }
    let cells = match place_cells(&list, &outputs, &mut room[6..]) {
        Some(cells) => cells,
        None => {
            room.fill(0);
            return refuse(11, 0, 0);
        }
    };
    room[..2].copy_from_slice(&[1, 1]);
    room[2..4].copy_from_slice(&(cells as u16).to_be_bytes());
    room[4..6].copy_from_slice(&(entries.len() as u16).to_be_bytes());
    for cell in room[6..6 + 6 * cells].chunks_exact_mut(6) {
        cell[0] = 2;
    }
    let start = 6 + 6 * cells;
    let end = start + 5 * entries.len();
    for (place, entry) in room[start..end].chunks_exact_mut(5).zip(&entries) {
        place.copy_from_slice(entry);
    }
    end as u64
}

/// The checker.
pub fn check(patterns: &[u8], table: &[u8]) -> u64 {
    let list = match read_patterns(patterns) {
        Ok(list) => list,
        Err(refusal) => return refusal,
    };
    let table = match read_table(table) {
        Some(table) => table,
        None => return refuse(9, 0, 0),
    };
    let kinds = table.cells.chunks_exact(6).all(|cell| cell[0] == 2)
        && table.entries.chunks_exact(5).all(|entry| entry[0] == 3);
    if kinds && paths_are_right(&table, &list, 0, list.len(), 0, 0) {
        0
    } else {
        refuse(12, 0, 0)
    }
}

/// Goes through list and table side by side: from each base exactly the
/// symbols match that the list has there.
fn paths_are_right(
    table: &Table<'_>,
    list: &[Pattern],
    from: usize,
    to: usize,
    depth: usize,
    base: usize,
) -> bool {
    let mut following = groups(list, from, to, depth);
    let mut group = following.next();
    for symbol in 1..=APOSTROPHE {
        let found = table.matching(base, symbol);
        match (found, group) {
            (Some((link, output)), Some((wanted, from, to))) if wanted == symbol => {
                if !cell_is_right(table, list, from, to, depth + 1, link, output) {
                    return false;
                }
                group = following.next();
            }
            (None, Some((wanted, _, _))) if wanted != symbol => (),
            (None, None) => (),
            _ => return false,
        }
    }
    true
}

/// One cell: its output, and all paths that go on from it.
fn cell_is_right(
    table: &Table<'_>,
    list: &[Pattern],
    from: usize,
    to: usize,
    length: usize,
    link: usize,
    output: usize,
) -> bool {
    let ends = list[from].length == length;
    let output_is_right = if ends {
        chain_is_right(table, output, &list[from])
    } else {
        output == 0
    };
    let goes_on = !ends || to - from > 1;
    if !output_is_right || (link == 0 && goes_on) {
        return false;
    }
    length == LONGEST || link == 0 || paths_are_right(table, list, from, to, length, link)
}

/// Whether a chain sets exactly a pattern's levels, without a fault.
fn chain_is_right(table: &Table<'_>, output: usize, pattern: &Pattern) -> bool {
    let mut levels = [0u8; LONGEST + 1];
    let mut at = output;
    while at != 0 {
        let (distance, level, next) = match table.entry(at) {
            Some(entry) => entry,
            None => return false,
        };
        if level.wrapping_sub(1) >= 9 || distance > pattern.length || next >= at {
            return false;
        }
        let place = pattern.length - distance;
        levels[place] = levels[place].max(level);
        at = next;
    }
    levels[..=pattern.length] == pattern.levels[..=pattern.length]
}
