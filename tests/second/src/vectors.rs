//! The fixed calls of the vectors, and their two files.

mod block;
mod inspect;
mod large;
mod large_inspect;
mod reading;

use crate::answer::{number, value};
use crate::call::{Call, Entry};
use crate::cases::damage::{any_word_call, choices, combined};
use crate::cases::files::CONTENTS;
use crate::cases::lengths::{resized, NO_PAGE_LENGTHS};
use crate::cases::pages::*;
use crate::cases::words::{
    any_value, sum_too_large, value_with_pulses, with_bare_hole, with_hole, with_neighbours, with_one_data_cell, Hole,
    EDGE_VALUE, END_VALUES, LISTED_VALUES, ODD_VALUE, OPEN_ODD_VALUE, OPEN_SPARSE_VALUE, SPARSE_VALUE,
};
use crate::file::file_bytes;
use crate::page::{data_cells_of, words_of};
use crate::random::Random;
use crate::shape::{Shape, SMALL};
use crate::word::{cells_with_sum, legal_word, number_of, CELLS, LARGEST_SUM, LARGEST_VALUE};
use std::fmt::Write;

const SEED: u64 = 660;

/// For the calls about the ends of words.
const END_SEED: u64 = 968;

/// The longest buffer of a vector: a page more than a block.
const LENGTH_MOST: usize = 4_352;

/// The longest buffer of a vector but for those of blocks.
const FILE_LENGTH_MOST: usize = 1_024;

/// Words at the ends of a page, at the ends of a byte, and between.
const INDICES: [usize; 8] = [0, 1, 3, 4, 21, 22, 42, 43];

/// The entries that take a first-round page, but for that of the Inspect code.
const OF_FIRST_PAGES: [Entry; 3] = [Entry::ReadFirst, Entry::PageCapacity, Entry::FillPage];

/// The value whose word has cell 0 alone set, between its neighbours.
const CELL_0_VALUES: [u32; 3] = [ODD_VALUE, 2_971_215_073, EDGE_VALUE];

/// Record lengths that are too long for some code and size: about what one byte names, the longest of all, and beyond.
const LONG_RECORDS: [usize; 7] = [248, 255, 256, 257, 495, 512, 1_000];

/// Those that are longer than this.
fn records_longer_than(most: usize) -> impl Iterator<Item = usize> {
    LONG_RECORDS.into_iter().filter(move |&length| length > most)
}

/// The calls made so far.
struct Script {
    random: Random,
    calls: Vec<Call>,
}

/// The calls about the ends of words, and about pages as versions before Change 6 left them. Their bytes are drawn apart
/// from those of the other calls.
fn end_calls() -> Vec<Call> {
    let mut script = Script { random: Random::new(END_SEED), calls: Vec::new() };
    script.both_fills();
    script.cells_45();
    script.lacking();
    script.open_pages();
    script.calls
}

/// All calls of the vectors; after those of the Inspect code come those with pages of 512 bytes, then by the Inspect code and
/// about lengths of two bytes, then those of read file, and at the end those of blocks.
pub fn calls() -> Vec<Call> {
    let mut script = Script { random: Random::new(SEED), calls: Vec::new() };
    script.listed_words();
    script.listed_pages();
    script.both_rounds();
    script.capacities();
    script.record_lengths();
    script.far_records();
    script.illegal_words();
    script.holes();
    script.flaws();
    script.two_flaws();
    script.flips();
    script.data_cells();
    script.headers();
    script.not_blank();
    script.other_rounds();
    script.alike_pages();
    script.page_lengths();
    script.data_lengths();
    script.first_outputs();
    script.second_outputs();
    script.orders();
    script.words();
    script.cell_0_values();
    script.pulses();
    let before_the_files = script.calls.len();
    script.files();
    script.pages_lengths();
    script.calls.splice(before_the_files..before_the_files, end_calls());
    script.calls.extend(inspect::calls());
    script.calls.extend(large::calls());
    script.calls.extend(large_inspect::calls());
    script.calls.extend(reading::calls());
    script.calls.extend(block::calls());
    script.calls
}

impl Script {
    /// Adds the call; returns it as it is after its performance.
    fn add(&mut self, call: Call) -> Call {
        // An outcome is made from this copy; the answer is worked out again for the text.
        let (after, _) = call.performed();
        self.calls.push(call);
        after
    }

    fn page(&mut self, entry: Entry, page: &[u8], other: Vec<u8>) -> Vec<u8> {
        self.add(Call::of_page(entry, page.to_vec(), other)).page
    }

    /// A call whose other buffer holds any bytes.
    fn page_with(&mut self, entry: Entry, page: &[u8], length: usize) {
        let other = self.random.bytes(length);
        self.page(entry, page, other);
    }

    /// Writes the values on a blank page, reads them back into an output of this length, and measures the page; returns
    /// the page.
    fn first_round(&mut self, values: &[u32], output: usize) -> Vec<u8> {
        let blank = vec![0; Shape::with_words(values.len()).bytes];
        let first = self.page(Entry::WriteFirst, &blank, first_record(values));
        self.page_with(Entry::ReadFirst, &first, output);
        self.page_with(Entry::PageCapacity, &first, 0);
        first
    }

    /// Fills the page, and measures it once more; returns the filled page.
    fn filling(&mut self, first: &[u8]) -> Vec<u8> {
        let filled = self.page(Entry::FillPage, first, Vec::new());
        self.page_with(Entry::PageCapacity, &filled, 0);
        filled
    }

    /// Writes any record of the one length over the filled page, and reads it back into an output of the other.
    fn writing(&mut self, filled: &[u8], length: usize, output: usize) {
        let record = self.random.bytes(length);
        let second = self.page(Entry::WriteSecond, filled, record);
        self.page_with(Entry::ReadSecond, &second, output);
    }

    /// Fills the page, writes any record of the one length over it, and reads it back into an output of the other.
    fn second_round(&mut self, first: &[u8], length: usize, output: usize) {
        let filled = self.filling(first);
        self.writing(&filled, length, output);
    }

    fn word(&mut self, word: u64) {
        for entry in Entry::OF_WORDS {
            self.add(Call::of_word(entry, word));
        }
    }

    /// Encodes the value, and takes its word to every word entry.
    fn value(&mut self, value: u32) {
        self.add(Call::of_word(Entry::EncodeWord, u64::from(value)));
        self.word(number_of(&legal_word(value)));
    }

    /// Every marked value of document 01's list.
    fn listed_words(&mut self) {
        LISTED_VALUES.into_iter().for_each(|value| self.value(value));
        self.word(number_of(&cells_with_sum(LARGEST_SUM)));
        self.word(number_of(&with_neighbours([false; CELLS], 0)));
    }

    /// Every unmarked value of document 01's list.
    fn listed_pages(&mut self) {
        [(0, 126), (SPARSE_VALUE, 82)].into_iter().for_each(|(value, most)| self.listed_page(SMALL, value, most));
    }

    /// The page of this value in each word: over it go `most` bytes, but not one more, and none and one zero byte.
    fn listed_page(&mut self, shape: Shape, value: u32, most: usize) {
        let first = self.first_round(&vec![value; shape.words], shape.first_bytes);
        let filled = self.filling(&first);
        for record in [vec![0xFF; most], vec![0xFF; most + 1], Vec::new(), vec![0]] {
            let length = record.len();
            let after = self.page(Entry::WriteSecond, &filled, record);
            self.page_with(Entry::ReadSecond, &after, length);
        }
    }

    /// Pages of any values through both rounds, with records and outputs of every length class.
    fn both_rounds(&mut self) {
        for turn in 0..20 {
            let edges = vec![EDGE_VALUE; SMALL.words];
            let values = if turn == 0 { edges } else { any_values(&mut self.random, SMALL) };
            self.rounds_of(&values, turn);
        }
    }

    /// The page of these values through both rounds, with a record and outputs of a length class by turns.
    fn rounds_of(&mut self, values: &[u32], turn: usize) {
        let shape = Shape::with_words(values.len());
        let first = self.first_round(values, shape.first_bytes + turn % 3);
        let most = most_bytes(&first);
        let length = [most, 0, 1, most - 1, self.random.between(2, most)][turn % 5];
        self.second_round(&first, length, [length, length + 1, shape.second_bytes_most + turn][turn % 3]);
    }

    /// Capacities from the most to the least: the longest record that fits, and one byte more.
    fn capacities(&mut self) {
        for sparse in [1, 5, 11, 22, 33, 43] {
            let value = |index: usize| if index * 7 % SMALL.words < sparse { SPARSE_VALUE } else { index as u32 };
            let first = first_page(&(0..SMALL.words).map(value).collect::<Vec<u32>>());
            let most = most_bytes(&first);
            let filled = self.filling(&first);
            self.page_with(Entry::WriteSecond, &filled, most + 1);
            self.writing(&filled, most, most);
        }
    }

    /// Records about the ends of what fits, over the least and the most capacity, and records that leave no data cell.
    fn record_lengths(&mut self) {
        for value in [SPARSE_VALUE, 0] {
            let filled = filled_page(&page_of(SMALL, value));
            for length in [0, 1, 82, 83, 126, 127] {
                self.page_with(Entry::WriteSecond, &filled, length);
            }
        }
        self.exact_fits();
    }

    /// Capacities of 1,008 and of 688 bits, which a record of 126 and of 86 bytes takes whole.
    fn exact_fits(&mut self) {
        for (value, most) in [(0, 126), (SPARSE_VALUE, 86)] {
            self.exact_fit(SMALL, value, most);
        }
    }

    /// This value in each word but every 11th, which has value 1: the longest record leaves no data cell.
    fn exact_fit(&mut self, shape: Shape, value: u32, most: usize) {
        let mut values = vec![value; shape.words];
        values.iter_mut().skip(5).step_by(11).for_each(|other| *other = 1);
        let filled = filled_page(&first_page(&values));
        self.writing(&filled, most, most);
        self.page_with(Entry::WriteSecond, &filled, most + 1);
    }

    /// Records far too long.
    fn far_records(&mut self) {
        for length in records_longer_than(SMALL.second_bytes_most) {
            let filled = any_filled(&mut self.random, SMALL);
            self.page_with(Entry::WriteSecond, &filled, length);
        }
    }

    /// Neighbours and sums too large, in chosen words; the lowest of two such words counts.
    fn illegal_words(&mut self) {
        for index in INDICES {
            let first = any_first(&mut self.random, SMALL);
            let cells = words_of(&first)[index];
            // A pair that lies in two bytes.
            let byte_edge = (0..CELLS - 1).find(|cell| (CELLS * index + cell) % 8 == 7).expect("a word has byte edges");
            let pairs = [0, byte_edge, CELLS - 2].map(|cell| with_neighbours(cells, cell));
            let sums = [cells_with_sum(LARGEST_VALUE + 1), sum_too_large(&mut self.random)];
            for (turn, damaged) in pairs.into_iter().chain(sums).enumerate() {
                let page = with_word(first.clone(), index, damaged);
                let entry = OF_FIRST_PAGES[(turn + index) % 3];
                self.page_with(entry, &page, if entry == Entry::ReadFirst { SMALL.first_bytes } else { 20 });
                if turn == 1 {
                    let two = with_word(page, SMALL.words - 1, sum_too_large(&mut self.random));
                    self.page_with(Entry::PageCapacity, &two, 0);
                }
            }
        }
    }

    /// Holes at the start, in the middle and at the end of chosen words.
    fn holes(&mut self) {
        for (index, hole) in INDICES.into_iter().flat_map(|index| Hole::ALL.map(|hole| (index, hole))) {
            let second = any_second(&mut self.random, SMALL);
            let damaged = with_hole(&mut self.random, hole);
            self.page_with(Entry::ReadSecond, &with_word(second, index, damaged), 126);
        }
    }

    /// Chosen words of a filled page that are not well formed, or have a data cell set, or all of them; and the page's
    /// first or last data cell set.
    fn flaws(&mut self) {
        for (turn, index) in INDICES.into_iter().enumerate() {
            let filled = any_filled(&mut self.random, SMALL);
            let holes = Hole::ALL.map(|hole| with_bare_hole(&mut self.random, hole));
            let hole_and_data = with_hole(&mut self.random, Hole::Middle);
            let data = [with_one_data_cell(&mut self.random), [true; CELLS]];
            let flaws = holes.into_iter().chain([[false; CELLS], hole_and_data]).chain(data);
            for (place, cells) in flaws.enumerate() {
                let page = with_word(filled.clone(), index, cells);
                self.page_with(Entry::OF_FILLED_PAGES[(turn + place) % 2], &page, 20);
            }
            let last = data_cells_of(&words_of(&filled)).len() - 1;
            let page = with_data_cell(filled, if turn % 4 < 2 { 0 } else { last });
            self.page_with(Entry::OF_FILLED_PAGES[turn % 2], &page, turn);
        }
    }

    /// A hole before a set data cell, and after one: the lowest of two such words counts.
    fn two_flaws(&mut self) {
        for (turn, (hole, written)) in [(0, 1), (1, 0), (42, 43), (43, 42)].into_iter().enumerate() {
            let bare_hole = with_bare_hole(&mut self.random, Hole::ALL[turn % 3]);
            let page = with_word(any_filled(&mut self.random, SMALL), hole, bare_hole);
            let page = with_word(page, written, with_one_data_cell(&mut self.random));
            Entry::OF_FILLED_PAGES.into_iter().for_each(|entry| self.page_with(entry, &page, 20));
        }
    }

    /// Pages with one bit flipped.
    fn flips(&mut self) {
        for turn in 0..14 {
            let bit = self.random.between(24, 8 * SMALL.bytes - 1);
            let first = with_flip(any_first(&mut self.random, SMALL), bit);
            self.page_with(OF_FIRST_PAGES[turn % 3], &first, 30);
            let filled = with_flip(any_filled(&mut self.random, SMALL), bit);
            self.page_with(Entry::OF_FILLED_PAGES[turn % 2], &filled, 30);
            let second = with_flip(any_second(&mut self.random, SMALL), bit);
            self.page_with(Entry::ReadSecond, &second, 126);
        }
    }

    /// Too few data cells, and spare data cells set: the first, the last and one between.
    fn data_cells(&mut self) {
        for (value, length) in [(SPARSE_VALUE, 82), (SPARSE_VALUE, 0), (243, 1), (EDGE_VALUE, 50), (0, 126)] {
            let first = page_of(SMALL, value);
            let second = second_page(&first, &self.random.bytes(length));
            let found = data_cells_of(&words_of(&second)).len();
            for spare in [8 * length, (8 * length + found) / 2, found - 1] {
                self.page_with(Entry::ReadSecond, &with_data_cell(second.clone(), spare), 126);
            }
            for length in [found / 8, 126.min(found / 8 + 1)] {
                self.page_with(Entry::ReadSecond, &with_length(second.clone(), length), 126);
            }
        }
    }

    /// States and header bytes out of their ranges, at the ends of these.
    fn headers(&mut self) {
        let states = [(0, 0x00), (0, 0x02), (0, 0x06), (0, 0x81), (0, 0xFF)];
        let header_bytes = [(1, 1), (1, 126), (1, 127), (1, 255), (2, 1), (2, 128)];
        for (place, byte) in states.into_iter().chain(header_bytes) {
            let first = with_byte(any_first(&mut self.random, SMALL), place, byte);
            for entry in OF_FIRST_PAGES {
                self.page_with(entry, &first, 9);
            }
            let filled = with_byte(any_filled(&mut self.random, SMALL), place, byte);
            for entry in Entry::OF_FILLED_PAGES {
                self.page_with(entry, &filled, 9);
            }
            let second = with_byte(any_second(&mut self.random, SMALL), place, byte);
            self.page_with(Entry::ReadSecond, &second, 126);
        }
    }

    /// Pages that are not blank, by one byte.
    fn not_blank(&mut self) {
        for place in [0, 1, 2, 3, 255] {
            let page = with_byte(vec![0; SMALL.bytes], place, self.random.byte_from(1));
            self.page_with(Entry::WriteFirst, &page, SMALL.first_bytes);
        }
    }

    /// Valid pages of another state than the entry's.
    fn other_rounds(&mut self) {
        let pages = [blank, any_first, any_filled, any_second].map(|page| page(&mut self.random, SMALL));
        let entries = Entry::OF_PAGES.into_iter().filter(|entry| !Entry::OF_INSPECT.contains(entry));
        for (entry, page) in entries.flat_map(|entry| pages.iter().map(move |page| (entry, page))) {
            if !entry.states().contains(&page[0]) {
                self.page_with(entry, page, if entry == Entry::WriteSecond { 1 } else { SMALL.first_bytes });
            }
        }
    }

    /// Cells that are sound in states 01, 03 and 07 alike, so that the state alone decides.
    fn alike_pages(&mut self) {
        let first = first_page(&by_turns(SMALL, &[SPARSE_VALUE, ODD_VALUE]));
        for state in [0x00, 0x01, 0x02, 0x03, 0x07] {
            let page = with_byte(first.clone(), 0, state);
            for entry in [Entry::PageCapacity, Entry::FillPage, Entry::WriteSecond, Entry::ReadSecond] {
                self.page_with(entry, &page, 20);
            }
        }
    }

    /// Wrong lengths of the page.
    fn page_lengths(&mut self) {
        for length in NO_PAGE_LENGTHS {
            for entry in OF_FIRST_PAGES {
                let first = any_first(&mut self.random, SMALL);
                let page = resized(&mut self.random, first, length);
                self.page_with(entry, &page, 11);
            }
            for entry in Entry::OF_FILLED_PAGES {
                let filled = any_filled(&mut self.random, SMALL);
                let page = resized(&mut self.random, filled, length);
                self.page_with(entry, &page, length % 3);
            }
            let second = any_second(&mut self.random, SMALL);
            let page = resized(&mut self.random, second, length);
            self.page_with(Entry::ReadSecond, &page, 126);
            self.page_with(Entry::WriteFirst, &vec![0; length], SMALL.first_bytes);
        }
    }

    /// Wrong lengths of the data.
    fn data_lengths(&mut self) {
        for length in [0, 4, 175, 177, 351, 352, 353] {
            self.page_with(Entry::WriteFirst, &[0; SMALL.bytes], length);
        }
    }

    /// Outputs of read first: one short, exact and longer.
    fn first_outputs(&mut self) {
        let first = any_first(&mut self.random, SMALL);
        for length in [0, 1, 175, 176, 177, 300] {
            self.page_with(Entry::ReadFirst, &first, length);
        }
    }

    /// Outputs of read second: one short, exact and longer.
    fn second_outputs(&mut self) {
        for (record, outputs) in [(0, [0, 1, 126]), (1, [0, 1, 2]), (82, [81, 82, 83]), (126, [125, 126, 180])] {
            let second = second_page(&page_of(SMALL, 2), &self.random.bytes(record));
            for length in outputs {
                self.page_with(Entry::ReadSecond, &second, length);
            }
        }
    }

    /// Every choice of the entry's conditions at once, so that the order of refusals shows.
    fn orders_of(&mut self, entry: Entry, shape: Shape) {
        for chosen in 0..choices(entry) {
            let call = combined(&mut self.random, entry, chosen, shape);
            self.add(call);
        }
    }

    /// The orders of every entry but those of files, of blocks and of the Inspect code, whose calls come later.
    fn orders(&mut self) {
        let later = [Entry::OF_FILES, Entry::OF_BLOCKS, Entry::OF_INSPECT].concat();
        let later = |entry: &Entry| later.contains(entry);
        Entry::ALL.into_iter().filter(|entry| !later(entry)).for_each(|entry| self.orders_of(entry, SMALL));
    }

    /// Values at the ends and anywhere, and words of every kind.
    fn words(&mut self) {
        self.value(u32::MAX);
        self.word(number_of(&cells_with_sum(LARGEST_VALUE + 1)));
        for turn in 0..48 {
            let value = u64::from(any_value(&mut self.random));
            let encode = Call::of_word(Entry::EncodeWord, value);
            let word = any_word_call(&mut self.random, Entry::OF_WORDS[turn % 3]);
            self.add(if turn % 4 == 0 { encode } else { word });
        }
    }

    /// The value of cell 0 alone and its neighbours: each by itself, and all on one page through both rounds.
    fn cell_0_values(&mut self) {
        CELL_0_VALUES.into_iter().for_each(|value| self.value(value));
        let first = self.first_round(&by_turns(SMALL, &CELL_0_VALUES), SMALL.first_bytes);
        let most = most_bytes(&first);
        self.second_round(&first, most, most);
    }

    /// Words of 1 to 18 pulses (the listed values and those about cell 0 take the other numbers), and pages on which the
    /// first word, one in the middle or the last takes pulses alone.
    fn pulses(&mut self) {
        for pulses in 1..=18 {
            self.add(Call::of_word(Entry::FillWord, number_of(&legal_word(value_with_pulses(pulses)))));
        }
        for (index, pulses) in [(0, 23), (21, 1), (43, 12)] {
            let values = with_value(vec![SPARSE_VALUE; SMALL.words], index, value_with_pulses(pulses));
            self.page(Entry::FillPage, &first_page(&values), Vec::new());
        }
    }

    /// First-round pages on which the earlier fill sets a cell 45 that the fill leaves at 0: in all words, with a middle and
    /// with the least capacity, in the last word alone, and in some words.
    fn firsts_with_open_words(&mut self) -> [Vec<u8>; 5] {
        let last = with_value(vec![SPARSE_VALUE; SMALL.words], SMALL.words - 1, OPEN_ODD_VALUE);
        let ends = by_turns(SMALL, &END_VALUES);
        let any = drawn_values(&mut self.random, SMALL, any_bits);
        let [middle, least] = [3, OPEN_SPARSE_VALUE].map(|value| vec![value; SMALL.words]);
        [middle, least, last, ends, any].map(|values| first_page(&values))
    }

    /// Pages as versions before Change 6 left them: they are measured, beside the pages that the fill leaves; a record
    /// that fits and the longest are written over them and read back, and one byte more is refused.
    fn both_fills(&mut self) {
        for first in self.firsts_with_open_words() {
            for filled in FILLINGS.map(|fill| fill(&first)) {
                self.page_from(&first, Entry::PageCapacity, &filled, 0);
            }
            let (earlier, most) = (filled_page_earlier(&first), most_bytes(&first));
            let any = self.random.between(0, most - 1);
            for length in [any, most] {
                self.page_from(&first, Entry::WriteSecond, &earlier, length);
                let second = written_over(earlier.clone(), &self.random.bytes(length));
                self.page_from(&first, Entry::ReadSecond, &second, length);
            }
            self.page_from(&first, Entry::WriteSecond, &earlier, most + 1);
        }
    }

    /// A call over a page that was filled, by either fill, from this first-round page.
    fn page_from(&mut self, first: &[u8], entry: Entry, page: &[u8], length: usize) {
        let other = self.random.bytes(length);
        self.add(Call::of_page(entry, page.to_vec(), other).filled_from(first));
    }

    /// Cell 45 of chosen words flipped, of words that end in each way: on filled pages, and under records of 20 bytes; by
    /// turns, the pages are those of one fill and of the other.
    fn cells_45(&mut self) {
        for (turn, index) in INDICES.into_iter().enumerate() {
            for end in 0..END_VALUES.len() {
                let first = first_page(&with_value(any_values(&mut self.random, SMALL), index, END_VALUES[end]));
                let filled = FILLINGS[(turn + end) % 2](&first);
                let second = written_over(filled.clone(), &self.random.bytes(20));
                let entry = if turn == end { Entry::WriteSecond } else { Entry::PageCapacity };
                self.page_with(entry, &with_cell_45_flipped(filled, index), 20);
                self.page_with(Entry::ReadSecond, &with_cell_45_flipped(second, index), 20);
            }
        }
    }

    /// Filled pages of either fill that lack another cell of the fill than 45, in chosen words; and such cells under a
    /// record of zeros.
    fn lacking(&mut self) {
        for (turn, index) in INDICES.into_iter().enumerate() {
            let first = any_first(&mut self.random, SMALL);
            for filled in FILLINGS.map(|fill| fill(&first)) {
                let page = without_separator(&mut self.random, filled, index);
                self.page_with(Entry::PageCapacity, &page, 0);
                self.page_with(Entry::ReadSecond, &[&[0x07, 10, 0], &page[3..]].concat(), 10);
                if turn % 4 == 0 {
                    self.page_with(Entry::WriteSecond, &page, 10);
                }
            }
        }
    }

    /// Cells that are sound in states 01, 03 and 07 alike, with open words: the state alone decides.
    fn open_pages(&mut self) {
        let first = first_page(&by_turns(SMALL, &[OPEN_SPARSE_VALUE, OPEN_ODD_VALUE]));
        for state in [0x01, 0x03, 0x07] {
            let page = with_byte(first.clone(), 0, state);
            for entry in [Entry::PageCapacity, Entry::FillPage, Entry::WriteSecond, Entry::ReadSecond] {
                self.page_with(entry, &page, 20);
            }
        }
    }

    /// A call of write file with an output of this length, which holds any bytes; the contents go by turns.
    fn file(&mut self, device: u32, pages_length: usize, length: usize) {
        let contents = CONTENTS[self.calls.len() % CONTENTS.len()];
        let pages = contents(&mut self.random, pages_length);
        let output = self.random.bytes(length);
        self.add(Call::of_file(device, pages, output));
    }

    /// Files of 0 to 3 pages with outputs exact, longer, one short and empty, and 4 pages with the longest output of a
    /// file's vector, which is too short.
    fn files(&mut self) {
        for count in 0..4 {
            let devices = [0, 0x0102_0304, u32::MAX, self.random.draw() as u32];
            let exact = file_bytes(count);
            for (turn, length) in [exact, exact + 1 + 60 * count, exact - 1, 0].into_iter().enumerate() {
                self.file(devices[(turn + count) % 4], SMALL.bytes * count, length);
            }
        }
        self.file(1, 4 * SMALL.bytes, FILE_LENGTH_MOST);
    }

    /// Pages of a length that is no multiple of 256, with outputs long enough for the whole pages, and too short.
    fn pages_lengths(&mut self) {
        let enough = [1, 255, 257, 513, 1_023].map(|length| (length, FILE_LENGTH_MOST));
        for (length, output) in enough.into_iter().chain([(1, 0), (257, 11), (513, 270), (1_023, 788)]) {
            let device = self.random.draw() as u32;
            self.file(device, length, output);
        }
    }
}

/// The binary file: for each call a header of 13 bytes (the entry's number, the argument, and the two lengths), the page,
/// pages, file or block, and the other buffer, which has length 0 where the entry takes none.
pub fn input_of(calls: &[Call]) -> Vec<u8> {
    let mut bytes = Vec::new();
    for call in calls {
        bytes.push(call.entry.number() as u8);
        bytes.extend(call.argument.to_be_bytes());
        for buffer in [&call.page, &call.other] {
            let length = u16::try_from(buffer.len()).expect("a length of two bytes");
            bytes.extend(length.to_be_bytes());
        }
        bytes.extend(&call.page);
        bytes.extend(&call.other);
    }
    bytes
}

/// One line: index, entry, number, value, and the bytes of the buffer that the entry may write.
fn line_of(index: usize, call: &Call) -> String {
    let (after, answer) = call.performed();
    let mut line = format!("{index} {} {} {}", call.entry.number(), number(answer), value(answer));
    if let Some(written) = after.written() {
        line.push(' ');
        for byte in written {
            write!(line, "{byte:02x}").expect("a string takes text");
        }
    }
    line + "\n"
}

/// The text file: one line a call.
pub fn text_of(calls: &[Call]) -> String {
    calls.iter().enumerate().map(|(index, call)| line_of(index, call)).collect()
}

#[cfg(test)]
mod tests {
    use super::*;
    use crate::answer::{pulses_in, Answer, Refusal};
    use crate::page::{page_capacity, Words, FILLED, FIRST_ROUND};
    use crate::shape::LARGE;
    use crate::word::{pulses, read_back, separators, separators_from, unwritten, well_formed, Cells, PULSES_MOST};
    use std::collections::HashSet;
    use std::sync::OnceLock;

    /// Each call before and after its performance, and its answer.
    pub fn performed(calls: Vec<Call>) -> Vec<(Call, Call, Answer)> {
        let perform = |call: Call| {
            let (after, answer) = call.performed();
            (call, after, answer)
        };
        calls.into_iter().map(perform).collect()
    }

    #[test]
    fn size_and_variety() {
        let calls = calls();
        assert_eq!(calls.len(), 2_883);
        assert!(text_of(&calls).len() < 1_280_000);
        assert!(input_of(&calls).len() < 1_510_000);
        let longest = |call: &Call| if Entry::OF_BLOCKS.contains(&call.entry) { LENGTH_MOST } else { FILE_LENGTH_MOST };
        assert!(calls.iter().all(|call| call.page.len().max(call.other.len()) <= longest(call)));
        let of_pages = || calls.iter().filter(|call| call.entry.takes_page()).map(|call| &call.page);
        let different =
            |shape: Shape| of_pages().filter(|page| page.len() == shape.bytes).collect::<HashSet<_>>().len();
        assert_eq!(Shape::BOTH.map(different), [957, 661]);
    }

    /// Before the calls of write file come those of all other entries but the Inspect code's; after them, those about that
    /// code, those with pages of 512 bytes, then those of read file, and at the end those of blocks.
    #[test]
    fn the_order_of_the_calls() {
        let before_the_blocks = calls().len() - block::calls().len();
        let before_the_reading = before_the_blocks - reading::calls().len();
        let before_the_large = before_the_reading - large::calls().len() - large_inspect::calls().len();
        for (index, call) in calls().into_iter().enumerate() {
            assert_eq!(Entry::OF_BLOCKS.contains(&call.entry), index >= before_the_blocks, "{index}");
            let of_reading = (before_the_reading..before_the_blocks).contains(&index);
            assert_eq!(call.entry == Entry::ReadFile, of_reading, "{index}");
            assert_eq!(call.entry == Entry::WriteFile, (1_196..1_222).contains(&index), "{index}");
            assert!(index >= 1_222 || !Entry::OF_INSPECT.contains(&call.entry), "{index}");
            let large = call.page.len() == LARGE.bytes && call.entry.takes_page();
            assert!(index >= before_the_large || !large, "{index}");
        }
    }

    /// The pages' length, the output's, and the answer.
    #[test]
    fn files_of_every_length_class() {
        let files = calls().into_iter().filter(|call| call.entry == Entry::WriteFile);
        let met: Vec<_> = files.map(|mut call| (call.page.len(), call.other.len(), call.perform())).collect();
        let accepted = [(0, 12, 12), (0, 13, 12), (256, 271, 271), (512, 530, 530), (768, 789, 789), (768, 970, 789)];
        let too_short = [(0, 0), (0, 11), (256, 270), (512, 529), (768, 788), (1_024, 1_024)];
        let wrong_pages = [(1, 0), (1, 1_024), (255, 1_024), (257, 11), (513, 270), (1_023, 788), (1_023, 1_024)];
        let accepted = accepted.map(|(pages, output, length)| (pages, output, Ok(length)));
        let too_short = too_short.map(|(pages, output)| (pages, output, Err(Refusal::OUTPUT_LENGTH)));
        let wrong_pages = wrong_pages.map(|(pages, output)| (pages, output, Err(Refusal::PAGES_LENGTH)));
        for one in accepted.into_iter().chain(too_short).chain(wrong_pages) {
            assert!(met.contains(&one), "never {one:?}");
        }
    }

    /// "cell 0 is worth 2971215073": that value and its neighbours, each with its word, its filled word below the pulses,
    /// and its capacity.
    const ABOUT_CELL_0: [(u32, u64, u64, u64); 3] = [
        (2_971_215_072, 0x1555_5555_5555, 0x1555_5555_5555, 22),
        (2_971_215_073, 0x2000_0000_0000, 22 << 48 | 0x2AAA_AAAA_AAAA, 23),
        (2_971_215_074, 0x2000_0000_0001, 21 << 48 | 0x2AAA_AAAA_AAA9, 22),
    ];

    #[test]
    fn words_about_the_weight_of_cell_0() {
        let met: Vec<_> = calls().into_iter().map(|mut call| (call.entry, call.argument, call.perform())).collect();
        for (value, word, filled, capacity) in ABOUT_CELL_0 {
            let value = u64::from(value);
            let encode = (Entry::EncodeWord, value, Ok(word));
            let decode = (Entry::DecodeWord, word, Ok(value));
            let fill = (Entry::FillWord, word, Ok(filled));
            let measure = (Entry::WordCapacity, word, Ok(capacity));
            for one in [encode, decode, fill, measure] {
                assert!(met.contains(&one), "never {one:?}");
            }
        }
    }

    /// One page holds all three, and goes through both rounds.
    #[test]
    fn a_page_about_the_weight_of_cell_0() {
        let calls = calls();
        let holds = |call: &Call, value: u32| call.other.chunks(4).any(|four| four == value.to_be_bytes());
        let holds_all = |call: &Call| ABOUT_CELL_0.iter().all(|&(value, ..)| holds(call, value));
        let starts = |turns: &&[Call]| turns[0].entry == Entry::WriteFirst && holds_all(&turns[0]);
        let before = calls.windows(7).find(starts).expect("a first record with all three values");
        let mut after = before.to_vec();
        let answers: Vec<_> = after.iter_mut().map(Call::perform).collect();
        let entries: Vec<_> = before.iter().map(|call| call.entry.number()).collect();
        assert_eq!(entries, [4, 5, 6, 10, 6, 7, 8]);
        // The fill: 15 words of no pulse, 15 of 22 and 14 of 21.
        assert_eq!(answers, [Ok(0), Ok(0), Ok(983), Ok(624), Ok(983), Ok(0), Ok(122)]);
        // Each call takes the page that the call before it leaves, and both records are read back.
        assert!((1..7).all(|turn| before[turn].page == after[turn - 1].page));
        assert_eq!((&after[1].other, &after[6].other), (&before[0].other, &before[5].other));
    }

    /// What `class` tells of each call of the entry, as it is before its performance, and its answer.
    fn met<T>(entry: Entry, class: fn(&Call) -> T) -> Vec<(T, Answer)> {
        static CALLS: OnceLock<Vec<Call>> = OnceLock::new();
        let of_entry = CALLS.get_or_init(calls).iter().filter(|call| call.entry == entry);
        of_entry.map(|call| (class(call), call.clone().perform())).collect()
    }

    fn state(call: &Call) -> Option<u8> {
        call.page.first().copied()
    }

    #[test]
    fn both_capacity_ends_in_both_states() {
        let met = met(Entry::PageCapacity, state);
        for (state, capacity) in [(1, 660), (1, 1_012), (3, 660), (3, 1_012)] {
            assert!(met.contains(&(Some(state), Ok(capacity))), "never {capacity} in state {state}");
        }
    }

    #[test]
    fn every_number_of_word_pulses() {
        let met = met(Entry::FillWord, |call| call.argument);
        for pulses in 0..=PULSES_MOST {
            assert!(met.iter().any(|(_, answer)| answer.map(pulses_in) == Ok(pulses)), "never {pulses} pulses");
        }
        for (word, result) in [(0, 23 << 48 | 0x2AAA_AAAA_AAAA), (0x2492_4924_9249, 0x2492_4924_9249)] {
            assert!(met.contains(&(word, Ok(result))), "never {word:#x}");
        }
    }

    /// The words of a first-round page that take pulses, with how many.
    fn words_with_pulses(call: &Call) -> Vec<(usize, usize)> {
        let words = if call.page.len() == SMALL.bytes { words_of(&call.page) } else { Vec::new() };
        let taken = words.iter().map(pulses).enumerate();
        taken.filter(|(_, pulses)| *pulses > 0).collect()
    }

    #[test]
    fn both_ends_of_page_pulses() {
        let met = met(Entry::FillPage, |call| call.page.clone());
        for (value, pulses) in [(SPARSE_VALUE, 0), (0, 1_012)] {
            assert!(met.contains(&(page_of(SMALL, value), Ok(pulses))), "never {pulses} pulses");
        }
    }

    /// The first word, one in the middle or the last alone takes pulses, and some words do.
    #[test]
    fn pages_of_which_some_words_take_pulses() {
        let met = met(Entry::FillPage, words_with_pulses);
        for (index, pulses) in [(0, 23), (21, 1), (43, 12)] {
            assert!(met.contains(&(vec![(index, pulses)], Ok(pulses as u64))), "word {index} never alone");
        }
        let some = met.iter().filter(|(words, answer)| answer.is_ok() && (2..SMALL.words).contains(&words.len()));
        let sums: HashSet<u64> = some.filter_map(|(_, answer)| answer.ok()).collect();
        assert!(sums.len() > 5, "{sums:?}");
    }

    #[test]
    fn pages_of_another_state() {
        let (fills, writes) = (met(Entry::FillPage, state), met(Entry::WriteSecond, state));
        for other in [0x00, 0x02, 0x07] {
            assert!(fills.contains(&(Some(other), Err(Refusal::STATE))), "fill page, state {other}");
            assert!(writes.contains(&(Some(other), Err(Refusal::STATE))), "write second, state {other}");
        }
        let filled = |met: &(Option<u8>, Answer)| met.0 == Some(0x01) && met.1.is_ok();
        assert!(fills.contains(&(Some(0x03), Err(Refusal::STATE))) && fills.iter().any(filled));
        assert!(writes.contains(&(Some(0x01), Err(Refusal::STATE))) && writes.contains(&(Some(0x03), Ok(0))));
    }

    /// Records that fit the least and the most capacity, one byte more, and an empty record with an empty page.
    #[test]
    fn records_of_every_length_class() {
        let met = met(Entry::WriteSecond, |call| (call.page.len(), call.other.len()));
        let least = [(0, Ok(0)), (1, Ok(0)), (82, Ok(0)), (83, Err(Refusal::record_length(660)))];
        let most = [(83, Ok(0)), (126, Ok(0)), (127, Err(Refusal::record_length(1_012)))];
        let over_pages = least.into_iter().chain(most).map(|(length, answer)| ((SMALL.bytes, length), answer));
        let exact = [(127, 1_008), (87, 688)];
        let exact = exact.map(|(length, capacity)| ((SMALL.bytes, length), Err(Refusal::record_length(capacity))));
        for one in over_pages.chain(exact).chain([((0, 0), Err(Refusal::PAGE_LENGTH))]) {
            assert!(met.contains(&one), "never {one:?}");
        }
    }

    /// Byte 1 and byte 2 of a filled page, each by itself.
    #[test]
    fn header_bytes_of_a_filled_page() {
        for entry in Entry::OF_FILLED_PAGES {
            let met = met(entry, |call| call.page.get(..3).map(<[u8]>::to_vec));
            for header in [[3, 1, 0], [3, 126, 0], [3, 255, 0], [3, 0, 1], [3, 0, 128]] {
                assert!(met.contains(&(Some(header.to_vec()), Err(Refusal::HEADER))), "{} {header:?}", entry.name());
            }
        }
    }

    /// The words of a filled page that are not unwritten: whether each is well formed, and how many data cells are set.
    fn flaws(call: &Call) -> Vec<(bool, usize)> {
        if call.page.len() != SMALL.bytes || call.page[0] != FILLED {
            return Vec::new();
        }
        let set = |cells: &Cells| read_back(cells).into_iter().filter(|&cell| cells[cell]).count();
        let flawed = words_of(&call.page).into_iter().filter(|cells| !unwritten(cells));
        flawed.map(|cells| (well_formed(&cells), set(&cells))).collect()
    }

    /// A hole alone and a data cell set alone, in the first and the last word; and the lower of two, whichever it is.
    #[test]
    fn flaws_in_the_first_and_the_last_words() {
        let (hole, written) = ((false, 0), (true, 1));
        let one = [vec![hole], vec![written]].into_iter().flat_map(|flaws| [(flaws.clone(), 0), (flaws, 43)]);
        let two = [vec![hole, written], vec![written, hole]];
        let two = two.into_iter().flat_map(|flaws| [(flaws.clone(), 0), (flaws, 42)]);
        let met = Entry::OF_FILLED_PAGES.map(|entry| (entry, met(entry, flaws)));
        for (flaws, index) in one.chain(two) {
            let wanted = (flaws, Err(Refusal::word(index)));
            for (entry, met) in &met {
                assert!(met.contains(&wanted), "{}: never {wanted:?}", entry.name());
            }
        }
    }

    #[test]
    fn a_word_with_every_cell_set() {
        for entry in Entry::OF_FILLED_PAGES {
            let full = |(flaws, answer): (Vec<_>, Answer)| flaws == [(true, 23)] && number(answer) == 7;
            assert!(met(entry, flaws).into_iter().any(full), "{}", entry.name());
        }
    }

    /// Whether the page has a word that is as the earlier fill left it, and not as the fill leaves it.
    fn of_the_earlier_fill(call: &Call) -> bool {
        let Some(first) = call.first.as_ref().filter(|_| call.page.len() == SMALL.bytes) else { return false };
        let words: Words = words_of(&call.page).iter().map(separators).collect();
        words == words_of(&filled_page_earlier(first)) && words != words_of(&filled_page(first))
    }

    /// Five such pages: each has the capacity of its first-round page, takes two records but not one that is a byte too
    /// long, and gives two back.
    #[test]
    fn pages_of_the_earlier_fill() {
        for (entry, count) in [(Entry::PageCapacity, 5), (Entry::WriteSecond, 15), (Entry::ReadSecond, 10)] {
            let met = met(entry, Call::clone);
            let earlier: Vec<_> = met.iter().filter(|(call, _)| of_the_earlier_fill(call)).collect();
            assert_eq!(earlier.len(), count, "{}", entry.name());
            for (call, answer) in earlier {
                let capacity = page_capacity(call.first.as_ref().expect("it is told")).expect("a first-round page");
                let wanted = match entry {
                    Entry::PageCapacity => Ok(capacity),
                    Entry::WriteSecond if 8 * call.other.len() as u64 > capacity => {
                        Err(Refusal::record_length(capacity as usize))
                    }
                    Entry::WriteSecond => Ok(0),
                    _ => Ok(call.other.len() as u64),
                };
                assert_eq!(*answer, wanted, "{}", entry.name());
            }
        }
        let written = met(Entry::WriteSecond, |call| (of_the_earlier_fill(call), call.other.len()));
        let least = [(82, Ok(0)), (83, Err(Refusal::record_length(660)))];
        for (length, answer) in [(121, Ok(0)), (122, Err(Refusal::record_length(968)))].into_iter().chain(least) {
            assert!(written.contains(&((true, length), answer)), "never {length} bytes");
        }
    }

    /// The separators from cell 42 on of each word of a filled or second-round page.
    fn ends(call: &Call) -> Vec<Vec<usize>> {
        if call.page.len() != SMALL.bytes || call.page[0] == FIRST_ROUND {
            return Vec::new();
        }
        words_of(&call.page).iter().map(|cells| separators_from(cells, 42)).collect()
    }

    /// Each chosen word with each end on accepted pages, and each without the cell 45 that it needs after a separator in
    /// cell 42; the two entries of filled pages count as one.
    #[test]
    fn chosen_words_with_each_end() {
        let filled = Entry::OF_FILLED_PAGES.map(|entry| met(entry, ends)).concat();
        for met in [filled, met(Entry::ReadSecond, ends)] {
            let accepted = met.iter().filter(|(_, answer)| answer.is_ok());
            let accepted: HashSet<_> = accepted.flat_map(|(ends, _)| ends.iter().enumerate()).collect();
            for index in INDICES {
                for end in [vec![43], vec![43, 45], vec![42, 44], vec![44], vec![42, 45]] {
                    assert!(accepted.contains(&(index, &end)), "word {index} never ends in {end:?}");
                }
                let named = met.iter().filter(|(_, answer)| *answer == Err(Refusal::word(index)));
                let lacks_45 = |(ends, _): &(Vec<Vec<usize>>, Answer)| ends.get(index).is_some_and(|end| *end == [42]);
                assert!(named.into_iter().any(lacks_45), "word {index} never lacks cell 45");
            }
        }
    }

    /// Pages are filled, measured right after it, and written over.
    #[test]
    fn filled_pages_are_written() {
        let calls = calls();
        let fills = calls.windows(2).filter(|two| two[0].entry == Entry::FillPage && two[0].clone().perform().is_ok());
        let written = |page: &Vec<u8>| calls.iter().any(|call| call.entry == Entry::WriteSecond && call.page == *page);
        let chained = fills.filter(|two| two[1].entry == Entry::PageCapacity && written(&two[1].page));
        assert!(chained.count() >= 29);
    }

    /// Each entry is accepted, and refused by each of its numbers.
    #[test]
    fn every_entry_gives_every_answer() {
        let mut met = HashSet::new();
        for call in calls() {
            let number = number(call.clone().perform());
            met.insert((call.entry.number(), number));
        }
        for entry in Entry::ALL {
            for number in [0].iter().chain(entry.refusals()) {
                assert!(met.contains(&(entry.number(), *number)), "{} {number}", entry.name());
            }
        }
    }
}
