//! Counters of what calls with pages of one size lead to: the words that 7 names, the bits that 8 names, the pulses of
//! fills, the ends of words, what the Inspect code takes, lengths, and the bytes after the words.

use super::inspect::Inspects;
use super::length::Lengths;
use super::tail::Tails;
use crate::answer::{number, value, Answer};
use crate::call::{Call, Entry};
use crate::inspect::{walks_of, without_pairs};
use crate::page::{words_of, Words, FILLED, FIRST_ROUND, INSPECTED};
use crate::shape::{Shape, LARGE, SMALL};
use crate::word::{self, Cells};
use std::ops::RangeInclusive;

/// A counter and its name.
pub type Named = (String, u64);

/// The bits that refusal 8 of each entry must have named: the least and the most capacity of a page, and the least and the
/// most that the walks of the Inspect code take.
const ENDS: [(Entry, Shape, u64); 8] = [
    (Entry::WriteSecond, SMALL, 660),
    (Entry::WriteSecond, SMALL, 1_012),
    (Entry::WriteSecond, LARGE, 1_320),
    (Entry::WriteSecond, LARGE, 2_024),
    (Entry::WriteInspect, SMALL, 1_012),
    (Entry::WriteInspect, SMALL, 1_980),
    (Entry::WriteInspect, LARGE, 2_024),
    (Entry::WriteInspect, LARGE, 3_960),
];

/// The pulses of a page of which fill page must have answered some: the least, the most, and between them each stretch
/// of 256, which a sum in 8 bits would not tell from another.
fn page_pulses(shape: Shape) -> Vec<RangeInclusive<u64>> {
    let most = shape.pulses_most() as u64;
    let stretches = (0..most).step_by(256).map(|start| start.max(1)..=(start + 255).min(most - 1));
    [0..=0].into_iter().chain(stretches).chain([most..=most]).collect()
}

/// What is wrong with a word that 7 names.
#[derive(Clone, Copy, PartialEq, Eq)]
enum Flaw {
    NotLegal,
    NotWellFormed,
    /// On a filled page, in a word that is well formed.
    DataCellSet,
    /// On a page of the Inspect code, two neighbours that are no read pair.
    NeighboursUnread,
    /// On a page of the Inspect code, without such neighbours.
    SumTooLarge,
}

impl Flaw {
    fn name(self) -> &'static str {
        match self {
            Flaw::NotLegal => "not legal",
            Flaw::NotWellFormed => "not well formed",
            Flaw::DataCellSet => "with a data cell set",
            Flaw::NeighboursUnread => "with neighbours that are not read",
            Flaw::SumTooLarge => "with a sum too large",
        }
    }

    /// What is wrong with the word of this index.
    fn of(page: &[u8], index: usize) -> Flaw {
        match page[0] {
            FIRST_ROUND => Flaw::NotLegal,
            FILLED if word::well_formed(&words_of(page)[index]) => Flaw::DataCellSet,
            INSPECTED if word::has_neighbours(&words_read(page)[index]) => Flaw::NeighboursUnread,
            INSPECTED => Flaw::SumTooLarge,
            _ => Flaw::NotWellFormed,
        }
    }
}

/// The words of a page of the Inspect code with the read pairs put to 00.
pub fn words_read(page: &[u8]) -> Words {
    without_pairs(&words_of(page), &walks_of(page))
}

/// Each entry that gives 7, with each flaw that it gives it for.
const FLAWS: [(Entry, Flaw); 11] = [
    (Entry::ReadFirst, Flaw::NotLegal),
    (Entry::PageCapacity, Flaw::NotLegal),
    (Entry::PageCapacity, Flaw::NotWellFormed),
    (Entry::PageCapacity, Flaw::DataCellSet),
    (Entry::FillPage, Flaw::NotLegal),
    (Entry::WriteSecond, Flaw::NotWellFormed),
    (Entry::WriteSecond, Flaw::DataCellSet),
    (Entry::ReadSecond, Flaw::NotWellFormed),
    (Entry::WriteInspect, Flaw::NotLegal),
    (Entry::ReadInspect, Flaw::NeighboursUnread),
    (Entry::ReadInspect, Flaw::SumTooLarge),
];

/// What a page after its fill has at the end of one word at least.
#[derive(Clone, Copy)]
enum WordEnd {
    /// A cell 45 that only the earlier fill set.
    Earlier,
    /// Cells 44 and 45 at 0, with the data cells put to 0: before Change 6, 7 named such a word.
    Open,
}

impl WordEnd {
    const ALL: [WordEnd; 2] = [WordEnd::Earlier, WordEnd::Open];

    fn name(self) -> &'static str {
        match self {
            WordEnd::Earlier => "a cell 45 that only the earlier fill set",
            WordEnd::Open => "cells 44 and 45 at 0",
        }
    }

    /// Whether a filled or second-round page of these words has it. That only the earlier fill set a cell is told from the
    /// words of the first-round page that it filled: by the page alone, the first data may have set it.
    fn is_on(self, words: &[Cells], first: Option<&Words>) -> bool {
        match self {
            WordEnd::Earlier => {
                first.is_some_and(|first| words.iter().zip(first).any(|(cells, legal)| earlier(cells, legal)))
            }
            WordEnd::Open => words.iter().any(word::open),
        }
    }
}

/// Whether the word, but for its data, is what the earlier fill makes of this legal word, and not what the fill makes of
/// it: then it has a cell 45 that only the earlier fill set.
fn earlier(cells: &Cells, legal: &Cells) -> bool {
    let separators = word::separators(cells);
    separators == word::filled_earlier(legal) && separators != word::filled(legal)
}

/// The page of an accepted call, as it is after it.
pub fn page_after(call: &Call) -> Vec<u8> {
    let mut after = call.clone();
    if call.entry.writes_page() {
        after.perform().expect("it is accepted");
    }
    after.page
}

/// The counters of calls with pages of this shape, whose buffers lie between canary bytes.
pub struct OfShape {
    shape: Shape,
    /// For each of `FLAWS` and each word: how often 7 named it.
    words: Vec<Vec<u64>>,
    /// For each of `ENDS`: how often 8 named it.
    ends: [u64; ENDS.len()],
    /// For each of `Entry::AFTER_THE_FILL` and each of `WordEnd::ALL`: how often a page that has it was accepted.
    word_ends: [[u64; 2]; 3],
    /// For each of the shape's `page_pulses`: how often fill page answered one of them.
    pulses: Vec<u64>,
    inspects: Inspects,
    lengths: Lengths,
    tails: Tails,
}

impl OfShape {
    pub fn new(shape: Shape) -> OfShape {
        OfShape {
            shape,
            words: vec![vec![0; shape.words]; FLAWS.len()],
            ends: [0; ENDS.len()],
            word_ends: [[0; 2]; 3],
            pulses: vec![0; page_pulses(shape).len()],
            inspects: Inspects::new(shape),
            lengths: Lengths::new(shape),
            tails: Tails::new(shape),
        }
    }

    /// Counts a call with a page of the shape, as it was before it was made.
    pub fn count(&mut self, call: &Call, answer: Answer) {
        match number(answer) {
            0 => {
                self.count_pulses(call.entry, value(answer));
                self.count_word_ends(call);
            }
            7 => self.count_word(call, value(answer) as usize),
            8 => self.count_bits(call.entry, value(answer)),
            _ => self.tails.count(call, answer),
        }
        self.inspects.count(call, answer);
        self.lengths.count(call, answer);
    }

    fn count_word(&mut self, call: &Call, index: usize) {
        let flaw = (call.entry, Flaw::of(&call.page, index));
        (0..FLAWS.len()).filter(|&place| FLAWS[place] == flaw).for_each(|place| self.words[place][index] += 1);
    }

    fn count_bits(&mut self, entry: Entry, bits: u64) {
        let named = |&end: &usize| ENDS[end] == (entry, self.shape, bits);
        let named: Vec<usize> = (0..ENDS.len()).filter(named).collect();
        named.into_iter().for_each(|end| self.ends[end] += 1);
    }

    /// Counts what an accepted page has at the ends of its words; on a first-round page these tell nothing.
    fn count_word_ends(&mut self, call: &Call) {
        let Some(entry) = Entry::AFTER_THE_FILL.iter().position(|&entry| entry == call.entry) else { return };
        if call.page[0] == FIRST_ROUND {
            return;
        }
        let (words, first) = (words_of(&call.page), call.first.as_deref().map(words_of));
        for (end, met) in WordEnd::ALL.into_iter().zip(&mut self.word_ends[entry]) {
            *met += u64::from(end.is_on(&words, first.as_ref()));
        }
    }

    fn count_pulses(&mut self, entry: Entry, pulses: u64) {
        if entry == Entry::FillPage {
            let place = page_pulses(self.shape).iter().position(|stretch| stretch.contains(&pulses));
            self.pulses[place.expect("pulses of a page")] += 1;
        }
    }

    /// Every counter that must not be 0, with its name.
    pub fn wanted(&self) -> Vec<Named> {
        let words = (0..FLAWS.len()).flat_map(|place| self.wanted_words(place));
        let wanted = words.chain(self.wanted_ends()).chain(self.wanted_pulses()).chain(self.wanted_word_ends());
        let wanted = wanted.chain(self.inspects.wanted()).chain(self.lengths.wanted()).chain(self.tails.wanted());
        wanted.map(|(name, met)| (format!("{name}, on {} bytes", self.shape.bytes), met)).collect()
    }

    /// Each word is named for each flaw.
    fn wanted_words(&self, place: usize) -> Vec<Named> {
        let (entry, flaw) = FLAWS[place];
        let name = |index: usize| format!("{} 7 at word {index}, {}", entry.name(), flaw.name());
        let words = self.words[place].iter().enumerate();
        words.map(|(index, &met)| (name(index), met)).collect()
    }

    /// The shape's of `ENDS`, with their counters.
    fn of_ends(&self) -> impl Iterator<Item = (Entry, u64, u64)> + '_ {
        let ends = ENDS.into_iter().zip(self.ends).filter(|((_, shape, _), _)| *shape == self.shape);
        ends.map(|((entry, _, bits), met)| (entry, bits, met))
    }

    fn wanted_ends(&self) -> Vec<Named> {
        self.of_ends().map(|(entry, bits, met)| (format!("{} 8 with {bits}", entry.name()), met)).collect()
    }

    fn wanted_pulses(&self) -> Vec<Named> {
        let stretches = page_pulses(self.shape).into_iter().zip(&self.pulses);
        let name = |start: &u64, end: &u64| format!("fill page {start} to {end} pulses");
        stretches.map(|(stretch, &met)| (name(stretch.start(), stretch.end()), met)).collect()
    }

    /// Each entry that takes a page after its fill, with each of `WordEnd::ALL` and its counter.
    fn of_word_ends(&self) -> impl Iterator<Item = (Entry, WordEnd, u64)> {
        let entries = Entry::AFTER_THE_FILL.into_iter().zip(self.word_ends);
        entries.flat_map(|(entry, met)| WordEnd::ALL.into_iter().zip(met).map(move |(end, met)| (entry, end, met)))
    }

    fn wanted_word_ends(&self) -> Vec<Named> {
        let name = |entry: Entry, end: WordEnd| format!("{} accepted, {}", entry.name(), end.name());
        self.of_word_ends().map(|(entry, end, met)| (name(entry, end), met)).collect()
    }

    /// What is told of the entry beside its answers.
    pub fn told_of(&self, entry: Entry) -> String {
        let named = entry.refusals().contains(&7).then(|| format!("  7 at {} words", self.words_named(entry)));
        let ends = self.of_ends().filter(|(of, ..)| *of == entry);
        let ends = ends.map(|(_, bits, met)| format!("  8 with {bits}: {met}"));
        let word_ends = self.of_word_ends().filter(|(of, ..)| *of == entry);
        let word_ends = word_ends.map(|(_, end, met)| format!("  {}: {met}", end.name()));
        let told = named.into_iter().chain(self.told_of_pulses(entry)).chain(ends).chain(word_ends);
        let parts = [self.inspects.told_of(entry), self.lengths.told_of(entry), self.tails.told_of(entry)];
        told.chain(parts).collect()
    }

    fn told_of_pulses(&self, entry: Entry) -> Option<String> {
        let (least, most) = (self.pulses.first()?, self.pulses.last()?);
        let told = format!("  0 pulses: {least}  {} pulses: {most}", self.shape.pulses_most());
        (entry == Entry::FillPage).then_some(told)
    }

    /// The number of words that 7 of the entry named for each of its flaws.
    fn words_named(&self, entry: Entry) -> usize {
        let of_entry: Vec<usize> = (0..FLAWS.len()).filter(|&place| FLAWS[place].0 == entry).collect();
        (0..self.shape.words).filter(|&index| of_entry.iter().all(|&place| self.words[place][index] > 0)).count()
    }
}

#[cfg(test)]
mod tests {
    use super::*;
    use crate::cases::inspect::inspect_page;
    use crate::cases::pages::{
        filled_page, filled_page_earlier, first_page, page_of, second_page, second_page_earlier, values_with_pulses,
        with_byte, with_data_cell, with_value, with_word,
    };
    use crate::cases::words::{never_sound, END_VALUES, ODD_VALUE, OPEN_VALUES, SPARSE_VALUE};
    use crate::coverage::length::is_of_lengths;
    use crate::word::{cells_with_sum, LARGEST_SUM};
    use std::collections::HashSet;

    /// The counters that a call over this page turns from 0, by name.
    fn met_by(entry: Entry, page: Vec<u8>) -> Vec<String> {
        met_by_call(&Call::of_page(entry, page, vec![0; 127]))
    }

    /// The counters that a call turns from 0, by name without the size at the end, but for those of lengths.
    fn met_by_call(call: &Call) -> Vec<String> {
        let mut counters = OfShape::new(Shape::of(&call.page).expect("a page"));
        counters.count(call, call.clone().perform());
        let end = format!(", on {} bytes", call.page.len());
        let met = counters.wanted().into_iter().filter(|(name, met)| *met > 0 && !is_of_lengths(name));
        met.map(|(name, _)| name.strip_suffix(&end).expect("the size").to_string()).collect()
    }

    /// The ends that an accepted page of the entry counts for, by name. The page is told to be filled from this one.
    fn ends_met(entry: Entry, page: Vec<u8>, first: Option<&[u8]>) -> Vec<String> {
        let call = Call::of_page(entry, page, if entry == Entry::ReadSecond { vec![0; 253] } else { Vec::new() });
        assert!(call.clone().perform().is_ok());
        let call = first.map_or(call.clone(), |first| call.filled_from(first));
        let start = format!("{} accepted, ", entry.name());
        let named = met_by_call(&call).into_iter().filter_map(|name| name.strip_prefix(&start).map(str::to_string));
        named.collect()
    }

    /// The pages of each fill over this first-round page, as the entry takes them.
    fn pages_of_both_fills(entry: Entry, first: &[u8]) -> [Vec<u8>; 2] {
        match entry {
            Entry::ReadSecond => [second_page(first, &[0x96; 82]), second_page_earlier(first, &[0x96; 82])],
            _ => [filled_page(first), filled_page_earlier(first)],
        }
    }

    /// A page of either fill counts for the end that this fill alone leaves: on all words, or on one.
    #[test]
    fn the_ends_of_words_count() {
        let (earlier, open) = (WordEnd::Earlier.name(), WordEnd::Open.name());
        let alone =
            |shape: Shape| (0..shape.words).map(move |index| with_value(vec![SPARSE_VALUE; shape.words], index, 3));
        let all = |shape: Shape| OPEN_VALUES.map(|value| vec![value; shape.words]);
        for values in Shape::BOTH.into_iter().flat_map(|shape| all(shape).into_iter().chain(alone(shape))) {
            let first = first_page(&values);
            for entry in Entry::AFTER_THE_FILL {
                let [now, before] = pages_of_both_fills(entry, &first);
                assert_eq!(ends_met(entry, now, Some(&first)), [open]);
                assert_eq!(ends_met(entry, before.clone(), Some(&first)), [earlier]);
                // The page alone does not tell who set cell 45.
                assert_eq!(ends_met(entry, before, None), [""; 0]);
            }
        }
    }

    /// A page on which the two fills leave the same counts for no end.
    #[test]
    fn other_ends_do_not_count() {
        for value in END_VALUES.into_iter().filter(|value| !OPEN_VALUES.contains(value)) {
            let first = page_of(SMALL, value);
            for entry in Entry::AFTER_THE_FILL {
                for page in pages_of_both_fills(entry, &first) {
                    assert_eq!(ends_met(entry, page, Some(&first)), [""; 0]);
                }
            }
        }
    }

    /// A first-round page may end in an open word, which counts for nothing.
    #[test]
    fn the_ends_of_first_round_words_do_not_count() {
        for value in OPEN_VALUES {
            let first = page_of(SMALL, value);
            assert_eq!(ends_met(Entry::PageCapacity, first.clone(), Some(&first)), [""; 0]);
        }
    }

    /// Two ends for each of three entries, and it is told how often each was met.
    #[test]
    fn every_end_is_wanted() {
        for counters in Shape::BOTH.map(OfShape::new) {
            for end in WordEnd::ALL {
                let wanted = counters.wanted().into_iter().filter(|(name, _)| name.contains(end.name()));
                assert_eq!(wanted.count(), 3);
                let told = |entry: &Entry| counters.told_of(*entry).contains(&format!("  {}: 0", end.name()));
                assert_eq!(Entry::ALL.into_iter().filter(told).count(), 3);
            }
        }
    }

    #[test]
    fn the_flaw_of_a_word_counts() {
        for (shape, index) in [(SMALL, 7), (SMALL, 43), (LARGE, 7), (LARGE, 44), (LARGE, 87)] {
            let filled = filled_page(&page_of(shape, 0));
            let hole = with_word(filled.clone(), index, [false; 46]);
            let written = with_data_cell(filled, index * 23);
            for (page, flaw) in [(hole, "not well formed"), (written, "with a data cell set")] {
                for entry in Entry::OF_FILLED_PAGES {
                    let name = format!("{} 7 at word {index}, {flaw}", entry.name());
                    assert_eq!(met_by(entry, page.clone()), [name]);
                }
            }
        }
    }

    #[test]
    fn every_entry_that_gives_7_has_a_flaw() {
        for entry in Entry::ALL {
            let has_flaw = FLAWS.iter().any(|(of, _)| *of == entry);
            assert_eq!(has_flaw, entry.refusals().contains(&7), "{}", entry.name());
        }
    }

    /// Every word of each size is wanted for each flaw.
    #[test]
    fn every_word_is_wanted() {
        for (shape, wanted) in [(SMALL, 11 * 44), (LARGE, 11 * 88)] {
            let names = OfShape::new(shape).wanted().into_iter().filter(|(name, _)| name.contains(" 7 at word "));
            assert_eq!(names.map(|(name, _)| name).collect::<HashSet<_>>().len(), wanted);
        }
    }

    #[test]
    fn the_pulses_of_a_page_count() {
        let small = [(0, 0), (1, 255), (256, 511), (512, 767), (768, 1_011), (1_012, 1_012)];
        let large = [(0, 0), (1, 255), (768, 1_023), (1_024, 1_279), (1_792, 2_023), (2_024, 2_024)];
        let stretches = small.map(|stretch| (SMALL, stretch)).into_iter().chain(large.map(|stretch| (LARGE, stretch)));
        for (shape, (first, last)) in stretches {
            for pulses in [first, last] {
                let met = met_by(Entry::FillPage, first_page(&values_with_pulses(shape, pulses)));
                assert_eq!(met, [format!("fill page {first} to {last} pulses")]);
            }
        }
        assert_eq!(Shape::BOTH.map(|shape| page_pulses(shape).len()), [6, 10]);
    }

    #[test]
    fn the_capacity_that_8_names_counts() {
        for (shape, value, name) in [
            (SMALL, 0, "write second 8 with 1012"),
            (SMALL, SPARSE_VALUE, "write second 8 with 660"),
            (LARGE, 0, "write second 8 with 2024"),
            (LARGE, SPARSE_VALUE, "write second 8 with 1320"),
        ] {
            let call = Call::of_page(Entry::WriteSecond, filled_page(&page_of(shape, value)), vec![0; 300]);
            assert_eq!(met_by_call(&call), [name]);
        }
        // A capacity between the ends counts for nothing.
        let middle = filled_page(&first_page(&[vec![0; 44], vec![SPARSE_VALUE; 44]].concat()));
        assert_eq!(met_by_call(&Call::of_page(Entry::WriteSecond, middle, vec![0; 300])), [""; 0]);
    }

    /// The bits that 8 of write inspect names: zeros over the odd cells, and over no cell.
    #[test]
    fn the_bits_that_8_of_write_inspect_names_count() {
        for (shape, value, length, bits) in [
            (SMALL, ODD_VALUE, 127, 1_012),
            (SMALL, 0, 248, 1_980),
            (LARGE, ODD_VALUE, 254, 2_024),
            (LARGE, 0, 496, 3_960),
        ] {
            let call = Call::of_page(Entry::WriteInspect, page_of(shape, value), vec![0; length]);
            assert_eq!(met_by_call(&call), [format!("write inspect 8 with {bits}")]);
        }
    }

    /// What is counted apart of the Inspect code and of lengths is wanted here, and told.
    #[test]
    fn the_inspect_code_and_lengths_are_wanted() {
        for shape in Shape::BOTH {
            let counters = OfShape::new(shape);
            let names: HashSet<String> = counters.wanted().into_iter().map(|(name, _)| name).collect();
            let apart = Inspects::new(shape).wanted().into_iter().chain(Lengths::new(shape).wanted());
            assert!(apart
                .map(|(name, _)| format!("{name}, on {} bytes", shape.bytes))
                .all(|name| names.contains(&name)));
            let told = counters.told_of(Entry::ReadInspect);
            assert!(told.contains("  records end in 0 words  lengths: 0"), "{told}");
        }
    }

    #[test]
    fn the_flaw_of_a_word_of_the_inspect_code_counts() {
        for (shape, index, cells, flaw) in [
            (SMALL, 0, cells_with_sum(LARGEST_SUM), "with a sum too large"),
            (SMALL, 7, cells_with_sum(LARGEST_SUM), "with a sum too large"),
            (SMALL, 7, [true; 46], "with neighbours that are not read"),
            (LARGE, 0, cells_with_sum(LARGEST_SUM), "with a sum too large"),
            (LARGE, 44, [true; 46], "with neighbours that are not read"),
            (LARGE, 87, [true; 46], "with neighbours that are not read"),
        ] {
            let page = inspect_page(&page_of(shape, 0), &[0; 20]);
            let name = format!("read inspect 7 at word {index}, {flaw}");
            assert_eq!(met_by(Entry::ReadInspect, with_word(page, index, cells)), [name]);
        }
    }

    /// One of bytes 509 to 511 counts where nothing else is refused by the same number: over a page that is sound without
    /// it, and over one with a bad word.
    #[test]
    fn a_byte_after_the_words_counts() {
        let first = page_of(LARGE, 77);
        let pages = [
            (Entry::ReadFirst, first.clone()),
            (Entry::PageCapacity, first.clone()),
            (Entry::FillPage, first.clone()),
            (Entry::PageCapacity, filled_page(&first)),
            (Entry::WriteSecond, filled_page(&first)),
            (Entry::ReadSecond, second_page(&first, &[0x96; 20])),
            (Entry::WriteInspect, first.clone()),
            (Entry::ReadInspect, inspect_page(&first, &[0x96; 20])),
            (Entry::ReadInspect, inspect_page(&first, &[0; 300])),
        ];
        for (place, (entry, page)) in (509..512).flat_map(|place| pages.clone().map(|pair| (place, pair))) {
            let name = |without: &str| format!("{} 6 by byte {place} {without} in state 0{}", entry.name(), page[0]);
            let damaged = with_byte(page.clone(), place, 0x80);
            assert_eq!(met_by(entry, damaged.clone()), [name("alone")]);
            let bad_word = with_word(damaged.clone(), 87, never_sound());
            assert_eq!(met_by(entry, bad_word), [name("before 7")]);
            for other in [2, 509, 510, 511].into_iter().filter(|&other| other != place) {
                assert_eq!(met_by(entry, with_byte(damaged.clone(), other, 254)), [""; 0]);
            }
        }
        let blank = with_byte(vec![0; 512], 511, 1);
        let call = Call::of_page(Entry::WriteFirst, blank, vec![0; 352]);
        assert_eq!(met_by_call(&call), ["write first 4 by byte 511 alone in state 00"]);
    }

    /// Nine pairs of an entry and a state, three bytes each: alone, and but for write first before 7.
    #[test]
    fn every_byte_after_the_words_is_wanted() {
        for (shape, wanted) in [(SMALL, 0), (LARGE, 3 + 8 * 6)] {
            let counters = OfShape::new(shape);
            assert_eq!(counters.wanted().iter().filter(|(name, _)| name.contains(" by byte ")).count(), wanted);
            let told = |entry: &Entry| counters.told_of(*entry).contains("  by one of bytes 509 to 511: 0");
            assert_eq!(Entry::ALL.into_iter().filter(told).count(), if shape == LARGE { 8 } else { 0 });
        }
    }
}
