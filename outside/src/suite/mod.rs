//! The named tests.

mod apostrophe_tables;
mod apostrophes;
mod archive;
mod exceptions;
mod figures;
mod gauge;
mod limits;
mod patterns;
mod real;
mod rooms;
mod running;
mod running_states;
mod tables;
mod words;

use crate::run::{demand, Options, Test};
use outside::lab::{margins, Lab, Mismatch};
use outside::make::words as make_words;
use outside::reference::text::{read_patterns, write_patterns};
use outside::reference::{fit, Pattern};
use outside::rng::Rng;
use std::collections::BTreeMap;

/// Knuth's example, used in many fixed cases.
pub const NINE: &[u8] = b"he2n\nhena4\nhen5at\nhy3ph\n2io\n1na\nn2at\no2n\n1tio\n";

/// A list with what its text and first-fit table are.
pub struct Packed {
    /// The patterns.
    pub list: Vec<Pattern>,
    /// Its text.
    pub text: Vec<u8>,
    /// The reference's first-fit table.
    pub table: Vec<u8>,
}

impl Packed {
    /// Packs a list with the reference.
    pub fn of_list(list: Vec<Pattern>) -> Packed {
        let text = write_patterns(&list);
        let table = fit::first_fit(&list).bytes();
        Packed { list, text, table }
    }

    /// Packs a good text with the reference.
    pub fn of_text(text: &[u8]) -> Packed {
        Packed::of_list(read_patterns(text).expect("a good list"))
    }
}

/// How often each kind of case came up in a test. One that never did would show
/// nothing.
pub struct Kinds {
    counts: BTreeMap<&'static str, u64>,
}

impl Kinds {
    /// Kinds that are to come up.
    pub fn new(names: &[&'static str]) -> Kinds {
        Kinds {
            counts: names.iter().map(|&name| (name, 0)).collect(),
        }
    }

    /// Counts a case of a kind.
    pub fn note(&mut self, name: &'static str) {
        let count = self.counts.get_mut(name).expect("a kind that is known");
        *count += 1;
    }

    /// An error unless every kind came up.
    pub fn all_met(&self) -> Result<(), Mismatch> {
        let all = self.counts.values().all(|&count| count > 0);
        demand(all, || {
            format!("a kind of case is missing: {:?}", self.counts)
        })
    }

    /// The same, if enough rounds were run.
    pub fn all_met_if(&self, whole: bool) -> Result<(), Mismatch> {
        if whole {
            self.all_met()
        } else {
            Ok(())
        }
    }
}

/// Good words over a table that was accepted for a list: everything follows
/// from the list.
pub fn words_by_list(
    lab: &mut Lab,
    rng: &mut Rng,
    list: &[Pattern],
    alphabet: &[u8],
    table: &[u8],
    count: usize,
) -> Result<(), Mismatch> {
    for _ in 0..count {
        let word = make_words::from_patterns(rng, list, alphabet);
        lab.word_by_list(list, &word, table, margins(rng))?;
    }
    Ok(())
}

/// Good words over any table: both calls are as the walk says.
pub fn words_by_walk(
    lab: &mut Lab,
    rng: &mut Rng,
    list: &[Pattern],
    alphabet: &[u8],
    table: &[u8],
    count: usize,
) -> Result<(), Mismatch> {
    for _ in 0..count {
        let word = make_words::from_patterns(rng, list, alphabet);
        let (left, right) = margins(rng);
        lab.levels(&word, table, 64 + rng.below(8))?;
        let size = 64 + rng.below(8);
        lab.hyphenate(left, right, &word, b"", b"", table, size)?;
    }
    Ok(())
}

/// All tests, the long ones first so that two workers end together.
pub fn all(options: &Options) -> Vec<Test> {
    let mut tests = Vec::new();
    let mut add = |name: &'static str, body| tests.push(Test { name, body });
    if options.words.is_some() {
        add("word-file-even", real::word_file_even);
        add("word-file-odd", real::word_file_odd);
    }
    if !options.patterns.is_empty() {
        add("pattern-files", real::pattern_files);
    }
    add("real-words-en-us", real::words_en_us);
    add("real-damage-en-us", real::damage_en_us);
    add("damaged-tables", tables::damaged);
    add("random-tables", tables::random_tables);
    add("other-layouts", tables::other_layouts);
    add("pack-small-lists", patterns::pack_small);
    add("circles", tables::circles);
    add("every-byte-of-nine", tables::every_byte_of_nine);
    add("every-byte-of-elisions", tables::every_byte_of_elisions);
    add("apostrophe-extra-paths", apostrophe_tables::extra_paths);
    add("apostrophe-missing-paths", apostrophe_tables::missing_paths);
    add("apostrophe-kept-tables", apostrophe_tables::kept_tables);
    add("apostrophe-patterns", apostrophes::patterns);
    add("apostrophe-exceptions", apostrophes::exceptions);
    add("apostrophe-words", apostrophes::words);
    add("apostrophe-order", apostrophes::order);
    add("apostrophe-limits", apostrophes::limits);
    add("apostrophe-entrata", apostrophes::entrata);
    add("running-full-texts", running::full_texts);
    add("running-short-texts", running::short_texts);
    add("running-all-cuts", running::all_cuts);
    add("running-long-runs", running::long_runs);
    add("running-random-cuts", running::random_cuts);
    add("running-two-apostrophes", running::two_apostrophes);
    add("running-exceptions", running::exception_words);
    add("running-changed-lists", running::changed_lists);
    add("running-real-texts", running::real_texts);
    add("running-every-byte", running_states::every_byte);
    add("running-states", running_states::any_states);
    add("running-hostile", running_states::hostile);
    add("gauge-random", gauge::random);
    add("gauge-edges", gauge::edges);
    add("limits-both", limits::both);
    add("limits-cells", limits::cells);
    add("limits-entries", limits::entries);
    add("derived-lists", tables::derived_lists);
    add("same-bases", tables::same_bases);
    add("other-lists", tables::other_lists);
    add("every-byte-of-odd-ones", tables::every_byte_of_odd_ones);
    add("pack-wide-lists", patterns::pack_wide);
    add("pack-bad-lists", patterns::pack_bad);
    add("pattern-texts", patterns::all_short_texts);
    add("pattern-bytes", patterns::all_bytes);
    add("pattern-text-limit", patterns::text_limit);
    add("exceptions", exceptions::random_lists);
    add("exception-margins", exceptions::line_margins);
    add("exception-long-margins", exceptions::long_line_margins);
    add("exception-words", exceptions::all_words_and_lines);
    add("exception-long-words", exceptions::long_words_and_lines);
    add("exception-texts", exceptions::all_short_texts);
    add("exception-bytes", exceptions::all_bytes);
    add("exception-text-limit", exceptions::text_limit);
    add("exception-bad-lists", exceptions::bad_lists);
    add("other-lines", exceptions::other_lines);
    add("real-layouts-en-us", real::layouts_en_us);
    add("real-words-it", real::words_it);
    add("real-words-elisions", real::words_elisions);
    add("real-words-la", real::words_la);
    add("real-pack", real::pack);
    add("real-exceptions", real::exceptions);
    add("refusal-order", rooms::refusal_order);
    add("room-sizes", rooms::sizes);
    add("fences", rooms::fences);
    add("locked-inputs", rooms::locked_inputs);
    add("wrapper", rooms::wrapper);
    #[cfg(target_pointer_width = "64")]
    add("huge-lengths", rooms::huge_lengths);
    add("running-bytes", running::all_bytes);
    add("running-full-runs", running::full_runs);
    add("running-lengths", running_states::lengths);
    add("running-totals", running_states::totals);
    add("running-large-totals", running_states::large_totals);
    add("running-rooms", running_states::rooms);
    add("running-refusal-order", running_states::refusal_order);
    add("running-figures", running_states::figures);
    #[cfg(target_pointer_width = "64")]
    add("running-huge-lengths", running_states::huge_lengths);
    add("gauge-bad-widths", gauge::bad_widths);
    add("gauge-grounds", gauge::grounds);
    add("gauge-bytes-and-sizes", gauge::bytes_and_sizes);
    add("gauge-marks", gauge::marks);
    add("gauge-apostrophe", gauge::apostrophe);
    add("gauge-figures", gauge::figures);
    add("gauge-wrapper", gauge::wrapper);
    add("gauge-additions", gauge::additions);
    add("archive-parts", archive::parts);
    add("archive-walks", archive::walks);
    add("archive-pairs", archive::pairs);
    add("archive-all-pairs", archive::all_pairs);
    add("archive-affixes", archive::beginnings_and_endings);
    add("archive-stacks", archive::stacks);
    add("archive-random", archive::random);
    add("archive-short", archive::short);
    add("archive-below", archive::below_the_sheet);
    add("archive-most", archive::most);
    add("archive-grounds", archive::grounds);
    add("archive-bytes-and-sizes", archive::bytes_and_sizes);
    add("archive-apostrophes", archive::apostrophes);
    add("archive-hostile", archive::hostile);
    add("archive-prose", archive::prose);
    add("archive-same", archive::same);
    add("archive-figures", archive::figures);
    add("archive-wrapper", archive::wrapper);
    add("word-bytes", words::all_bytes);
    add("word-lengths", words::all_lengths);
    add("words-bad", words::bad);
    add("margins", words::margins);
    add("heads", tables::heads);
    add("damaged-heads", tables::damaged_heads);
    add("long-chains", tables::long_chains);
    add("high-links", tables::high_links);
    add("past-the-cells", tables::past_the_cells);
    add("sixteen-symbols", tables::sixteen_symbols);
    add("all-symbols-in-a-circle", tables::all_symbols_in_a_circle);
    add("figures", figures::figures);
    tests
}
