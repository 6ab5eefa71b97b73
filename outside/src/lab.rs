//! One call of the library, compared with the reference in every respect.

use crate::fence::{Arena, Place};
use crate::reference;
use crate::reference::liang;
use crate::reference::right::Judge;
use crate::reference::text::read_word;
use crate::reference::{Gauge, Given, Pattern, Seen, LONGEST, STATE};
use crate::rng::Rng;
use tteolmigu::raw;

/// What went wrong, told so that one can repeat it.
pub type Mismatch = String;

/// Memory to lend, and a count of the calls compared.
pub struct Lab {
    word: Arena,
    customer: Arena,
    house: Arena,
    table: Arena,
    patterns: Arena,
    widths: Arena,
    state: Arena,
    room: Arena,
    place: Place,
    fill: u8,
    locked: bool,
    cases: u64,
}

/// Shows bytes so that they can be typed in again; long ones by length and sum.
fn show(bytes: &[u8]) -> String {
    if bytes.len() > 1_500 {
        let sum = bytes.iter().fold(0xcbf2_9ce4_8422_2325u64, |sum, &byte| {
            (sum ^ byte as u64).wrapping_mul(0x0100_0000_01b3)
        });
        return format!("[{} bytes, sum {:016x}]", bytes.len(), sum);
    }
    let mut text = String::from("b\"");
    for &byte in bytes {
        text.extend(std::ascii::escape_default(byte).map(char::from));
    }
    text.push('"');
    text
}

/// Shows widths by their bits, so that none is rounded; equal letters' widths
/// are shown once.
fn show_gauge(gauge: &Gauge) -> String {
    let bits = |width: f64| format!("{:#018x}", width.to_bits());
    let mut text = format!(
        "hyphen {} line {} widths",
        bits(gauge.hyphen),
        bits(gauge.line)
    );
    let mut from = 0;
    while from < gauge.letters.len() {
        let width = gauge.letters[from].to_bits();
        let rest = gauge.letters[from..].iter();
        let end = from + rest.take_while(|other| other.to_bits() == width).count();
        let letter = |place: usize| match place as u8 {
            reference::LETTERS => '\'',
            place => (b'a' + place) as char,
        };
        text += &match end - from {
            1 => format!(" {}", letter(from)),
            _ => format!(" {}..{}", letter(from), letter(end - 1)),
        };
        text += &format!(" {}", bits(gauge.letters[from]));
        from = end;
    }
    text
}

/// Shows what comes with each call on a running text.
fn show_given(given: &Given<'_>) -> String {
    format!(
        "left {} right {} customer {} house {} table {}",
        given.left,
        given.right,
        show(given.customer),
        show(given.house),
        show(given.table)
    )
}

/// Shows an answer's parts beside its bits.
fn show_answer(answer: u64) -> String {
    format!(
        "{:#018x} (top {}, list {}, upper {}, lower {})",
        answer,
        answer >> 56,
        (answer >> 48) & 0xff,
        (answer >> 32) & 0xffff,
        answer & 0xffff_ffff
    )
}

/// Says where two rooms differ first.
fn show_difference(ours: &[u8], theirs: &[u8]) -> String {
    let place = ours.iter().zip(theirs).position(|(a, b)| a != b);
    match place {
        Some(place) => format!(
            "room byte {}: reference {}, library {}",
            place, theirs[place], ours[place]
        ),
        None => "the rooms agree".to_string(),
    }
}

impl Default for Lab {
    fn default() -> Lab {
        Lab::new()
    }
}

impl Lab {
    /// A lab with all its memory.
    pub fn new() -> Lab {
        Lab {
            word: Arena::new(),
            customer: Arena::new(),
            house: Arena::new(),
            table: Arena::new(),
            patterns: Arena::new(),
            widths: Arena::new(),
            state: Arena::new(),
            room: Arena::new(),
            place: Place::Middle(0),
            fill: 0x5a,
            locked: false,
            cases: 0,
        }
    }

    /// How many calls were compared.
    pub fn cases(&self) -> u64 {
        self.cases
    }

    /// Counts a call that was compared elsewhere.
    pub fn count_one(&mut self) {
        self.cases += 1;
    }

    /// Chooses where memory is lent and what the room holds before a call.
    pub fn settle(&mut self, rng: &mut Rng) {
        self.place = match rng.below(3) {
            0 => Place::Middle(rng.below(64)),
            1 => Place::End,
            _ => Place::Start,
        };
        self.fill = rng.byte();
    }

    /// Lends memory at this place from now on.
    pub fn lend_at(&mut self, place: Place) {
        self.place = place;
    }

    /// Has inputs forbidden to be written from now on, or no longer.
    pub fn lock_inputs(&mut self, locked: bool) {
        self.locked = locked;
    }

    /// Locks the inputs before a call or frees them behind it, if asked for.
    fn turn_key(&mut self, locked: bool) {
        if self.locked {
            self.word.lock(locked);
            self.customer.lock(locked);
            self.house.lock(locked);
            self.table.lock(locked);
            self.patterns.lock(locked);
            self.widths.lock(locked);
        }
    }

    /// The same for the room, where a call only reads it.
    fn turn_key_of_room(&mut self, locked: bool) {
        if self.locked {
            self.room.lock(locked);
        }
    }

    /// What a room of this size holds before a call.
    fn before(&self, size: usize) -> Vec<u8> {
        (0..size)
            .map(|at| (at as u8).wrapping_mul(7) ^ self.fill)
            .collect()
    }

    /// Compares answer and room; `describe` tells the call.
    fn judge(
        &mut self,
        ours: u64,
        theirs: u64,
        room: Option<&[u8]>,
        inputs: bool,
        describe: impl Fn() -> String,
    ) -> Result<u64, Mismatch> {
        self.cases += 1;
        let room_agrees = match room {
            Some(expected) => self.room.holds(expected),
            None => true,
        };
        if ours == theirs && room_agrees && inputs {
            return Ok(theirs);
        }
        let mut told = format!(
            "  call      {}\n  reference {}\n  library   {}",
            describe(),
            show_answer(theirs),
            show_answer(ours)
        );
        if let Some(expected) = room {
            told += &format!("\n  {}", show_difference(self.room.lend(), expected));
            if !room_agrees {
                told += "\n  the room or the bytes around it aren't as they should be";
            }
        }
        if !inputs {
            told += "\n  an input was changed";
        }
        Err(told + &format!("\n  memory lent at {:?}", self.place))
    }

    /// The hyphenating call. The answer comes back.
    #[allow(clippy::too_many_arguments)]
    pub fn hyphenate(
        &mut self,
        left: u64,
        right: u64,
        word: &[u8],
        customer: &[u8],
        house: &[u8],
        table: &[u8],
        size: usize,
    ) -> Result<u64, Mismatch> {
        let mut expected = self.before(size);
        self.word.load(word, self.place);
        self.customer.load(customer, self.place);
        self.house.load(house, self.place);
        self.table.load(table, self.place);
        self.room.load(&expected, self.place);
        self.turn_key(true);
        let ours = raw::hyphenate(
            left,
            right,
            self.word.lend(),
            self.customer.lend(),
            self.house.lend(),
            self.table.lend(),
            self.room.lend_mut(),
        );
        self.turn_key(false);
        let theirs = reference::hyphenate(left, right, word, customer, house, table, &mut expected);
        let inputs = self.word.holds(word)
            && self.customer.holds(customer)
            && self.house.holds(house)
            && self.table.holds(table);
        self.judge(ours, theirs, Some(&expected), inputs, || {
            format!(
                "hyphenate left {} right {} word {} customer {} house {} table {} room {}",
                left,
                right,
                show(word),
                show(customer),
                show(house),
                show(table),
                size
            )
        })
    }

    /// The levels call.
    pub fn levels(&mut self, word: &[u8], table: &[u8], size: usize) -> Result<u64, Mismatch> {
        let mut expected = self.before(size);
        self.word.load(word, self.place);
        self.table.load(table, self.place);
        self.room.load(&expected, self.place);
        self.turn_key(true);
        let ours = raw::levels(self.word.lend(), self.table.lend(), self.room.lend_mut());
        self.turn_key(false);
        let theirs = reference::levels(word, table, &mut expected);
        let inputs = self.word.holds(word) && self.table.holds(table);
        self.judge(ours, theirs, Some(&expected), inputs, || {
            format!(
                "levels word {} table {} room {}",
                show(word),
                show(table),
                size
            )
        })
    }

    /// The packer.
    pub fn pack(&mut self, patterns: &[u8], size: usize) -> Result<u64, Mismatch> {
        let mut expected = self.before(size);
        self.patterns.load(patterns, self.place);
        self.room.load(&expected, self.place);
        self.turn_key(true);
        let ours = raw::pack(self.patterns.lend(), self.room.lend_mut());
        self.turn_key(false);
        let theirs = reference::pack(patterns, &mut expected);
        let inputs = self.patterns.holds(patterns);
        self.judge(ours, theirs, Some(&expected), inputs, || {
            format!("pack patterns {} room {}", show(patterns), size)
        })
    }

    /// What the last call left in the room.
    pub fn room(&self) -> &[u8] {
        self.room.lend()
    }

    /// The checker.
    pub fn check(&mut self, patterns: &[u8], table: &[u8]) -> Result<u64, Mismatch> {
        self.check_against(patterns, table, reference::check(patterns, table))
    }

    /// The checker over a good list whose judge was made before.
    pub fn check_with(
        &mut self,
        judge: &Judge,
        patterns: &[u8],
        table: &[u8],
    ) -> Result<u64, Mismatch> {
        self.check_against(patterns, table, reference::calls::check_with(judge, table))
    }

    fn check_against(
        &mut self,
        patterns: &[u8],
        table: &[u8],
        theirs: u64,
    ) -> Result<u64, Mismatch> {
        self.patterns.load(patterns, self.place);
        self.table.load(table, self.place);
        self.turn_key(true);
        let ours = raw::check(self.patterns.lend(), self.table.lend());
        self.turn_key(false);
        let inputs = self.patterns.holds(patterns) && self.table.holds(table);
        self.judge(ours, theirs, None, inputs, || {
            format!("check patterns {} table {}", show(patterns), show(table))
        })
    }

    /// The lookup.
    pub fn lookup(&mut self, word: &[u8], customer: &[u8], house: &[u8]) -> Result<u64, Mismatch> {
        self.word.load(word, self.place);
        self.customer.load(customer, self.place);
        self.house.load(house, self.place);
        self.turn_key(true);
        let ours = raw::lookup(self.word.lend(), self.customer.lend(), self.house.lend());
        self.turn_key(false);
        let theirs = reference::lookup(word, customer, house);
        let inputs =
            self.word.holds(word) && self.customer.holds(customer) && self.house.holds(house);
        self.judge(ours, theirs, None, inputs, || {
            format!(
                "lookup word {} customer {} house {}",
                show(word),
                show(customer),
                show(house)
            )
        })
    }

    /// The call on widths. It is compared with sums as they are compiled and
    /// with sums made of integers.
    pub fn fit(&mut self, gauge: &Gauge, word: &[u8], room: &[u8]) -> Result<u64, Mismatch> {
        let mut widths = [0; 8 * reference::WIDTHS];
        for (bytes, width) in widths.chunks_mut(8).zip(&gauge.letters) {
            bytes.copy_from_slice(&width.to_bits().to_ne_bytes());
        }
        self.widths.load(&widths, self.place.for_doubles());
        self.word.load(word, self.place);
        self.room.load(room, self.place);
        self.turn_key(true);
        self.turn_key_of_room(true);
        let ours = raw::fit(
            gauge.hyphen,
            gauge.line,
            self.widths.lend_doubles(),
            self.word.lend(),
            self.room.lend(),
        );
        self.turn_key_of_room(false);
        self.turn_key(false);
        let theirs = reference::fit_line_by_integers(gauge, word, room);
        let compiled = reference::fit_line(gauge, word, room);
        let inputs = self.widths.holds(&widths) && self.word.holds(word);
        let describe = || {
            let (word, room) = (show(word), show(room));
            format!("fit {} word {} room {}", show_gauge(gauge), word, room)
        };
        if compiled != theirs {
            let told = "  the reference's compiled sums aren't those of IEEE 754";
            return Err(format!("{}: {:#x}\n  {}", told, compiled, describe()));
        }
        self.judge(ours, theirs, Some(room), inputs, describe)
    }

    /// The call on the machine of 1980. What the word goes through by the
    /// reference is added to `seen`.
    pub fn archive(&mut self, word: &[u8], size: usize, seen: &mut Seen) -> Result<u64, Mismatch> {
        let mut expected = self.before(size);
        self.word.load(word, self.place);
        self.room.load(&expected, self.place);
        self.turn_key(true);
        let ours = raw::archive(self.word.lend(), self.room.lend_mut());
        self.turn_key(false);
        let theirs = reference::archive(word, &mut expected, seen);
        let inputs = self.word.holds(word);
        self.judge(ours, theirs, Some(&expected), inputs, || {
            format!("archive word {} room {}", show(word), size)
        })
    }

    /// Lends what comes with each call on a running text.
    fn load_given(&mut self, given: &Given<'_>) {
        self.customer.load(given.customer, self.place);
        self.house.load(given.house, self.place);
        self.table.load(given.table, self.place);
    }

    /// Whether it is as it was lent.
    fn holds_given(&self, given: &Given<'_>) -> bool {
        self.customer.holds(given.customer)
            && self.house.holds(given.house)
            && self.table.holds(given.table)
    }

    /// Compares the state too; `state` is as the reference left it.
    fn judge_running(
        &mut self,
        ours: u64,
        theirs: u64,
        room: &[u8],
        state: &[u8; STATE],
        inputs: bool,
        describe: impl Fn() -> String,
    ) -> Result<u64, Mismatch> {
        let result = self.judge(ours, theirs, Some(room), inputs, &describe);
        if self.state.holds(state) {
            return result;
        }
        let told = match result {
            Ok(_) => format!("  call      {}\n  answer and room agree", describe()),
            Err(told) => told,
        };
        Err(format!(
            "{}\n  state by the reference {}\n  state by the library   {}",
            told,
            show(state),
            show(self.state.lend())
        ))
    }

    /// The call on a piece of a running text. The state is left as the reference
    /// leaves it.
    pub fn piece(
        &mut self,
        state: &mut [u8; STATE],
        given: &Given<'_>,
        piece: &[u8],
        size: usize,
    ) -> Result<u64, Mismatch> {
        let before = *state;
        let mut expected = self.before(size);
        self.load_given(given);
        self.word.load(piece, self.place);
        self.state.load(&before, self.place);
        self.room.load(&expected, self.place);
        self.turn_key(true);
        let ours = raw::piece(
            self.state.lend_array_mut(),
            given.left,
            given.right,
            self.customer.lend(),
            self.house.lend(),
            self.table.lend(),
            self.word.lend(),
            self.room.lend_mut(),
        );
        self.turn_key(false);
        let theirs = reference::piece(state, given, piece, &mut expected);
        let inputs = self.holds_given(given) && self.word.holds(piece);
        self.judge_running(ours, theirs, &expected, state, inputs, || {
            format!(
                "piece {} state {} {} room {}",
                show(piece),
                show(&before),
                show_given(given),
                size
            )
        })
    }

    /// The call that ends a running text, likewise.
    pub fn end(
        &mut self,
        state: &mut [u8; STATE],
        given: &Given<'_>,
        size: usize,
    ) -> Result<u64, Mismatch> {
        let before = *state;
        let mut expected = self.before(size);
        self.load_given(given);
        self.state.load(&before, self.place);
        self.room.load(&expected, self.place);
        self.turn_key(true);
        let ours = raw::end(
            self.state.lend_array_mut(),
            given.left,
            given.right,
            self.customer.lend(),
            self.house.lend(),
            self.table.lend(),
            self.room.lend_mut(),
        );
        self.turn_key(false);
        let theirs = reference::end(state, given, &mut expected);
        let inputs = self.holds_given(given);
        self.judge_running(ours, theirs, &expected, state, inputs, || {
            format!(
                "end state {} {} room {}",
                show(&before),
                show_given(given),
                size
            )
        })
    }

    /// Levels and breaks of a good word over a table that the checker
    /// accepted for this list: both must follow from the list alone, and the
    /// count must keep to its bounds.
    pub fn word_by_list(
        &mut self,
        list: &[Pattern],
        word: &[u8],
        table: &[u8],
        margins: (u64, u64),
    ) -> Result<(), Mismatch> {
        let letters = read_word(word).map_err(|_| "a good word was expected".to_string())?;
        let expected = liang::levels(list, &letters);
        let looks = self.levels(word, table, 64)? & 0xffff_ffff;
        let told = |what: &str| format!("  {} of {} over {}", what, show(word), show(table));
        if self.room()[..expected.len()] != expected[..] {
            return Err(told("levels by the list and by the table differ: those"));
        }
        let bounds = looks_by_list(list, &letters);
        if looks < bounds.0 || looks > bounds.1 {
            return Err(told("the count of looks is out of bounds: that"));
        }
        let (left, right) = margins;
        self.hyphenate(left, right, word, b"", b"", table, 64)?;
        let mut marks = [0; 64];
        for gap in liang::breaks(&expected, left, right) {
            marks[gap] = 1;
        }
        if self.room() != marks {
            return Err(told("breaks by the list and by the table differ: those"));
        }
        Ok(())
    }
}

/// The least and the most looks over a right table: at each place as many as
/// the longest beginning of a pattern that stands there, or one more, within
/// 1 and 16.
fn looks_by_list(list: &[Pattern], letters: &[u8]) -> (u64, u64) {
    let row = liang::row_of(letters);
    let (mut least, mut most) = (0, 0);
    for place in 0..row.len() {
        let longest = liang::longest_beginning(list, &row[place..]);
        least += longest.max(1) as u64;
        most += (longest + 1).min(LONGEST) as u64;
    }
    (least, most)
}

/// Margins, mostly small ones, all within 1 to 63.
pub fn margins(rng: &mut Rng) -> (u64, u64) {
    let mut margin = || match rng.below(4) {
        0 => 1,
        1 => 2,
        2 => rng.range(1, 5) as u64,
        _ => rng.range(1, 63) as u64,
    };
    (margin(), margin())
}
