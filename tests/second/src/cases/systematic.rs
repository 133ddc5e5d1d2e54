//! The fixed part of the differential run: it walks states, header bytes, words, the ends of words, lengths and refusals of
//! pages of both sizes one by one, pages as versions before Change 6 left them, records by the Inspect code, files that are
//! written and read, and blocks.

pub mod block;
mod earlier;
mod files;
mod inspect;
mod lengths;
mod reading;
#[cfg(test)]
mod tests;

use super::damage::{choices, combined};
use super::inspect::{inspect_page, sparse};
use super::pages::*;
use super::words::{
    any_value, never_sound, sum_too_large, unwritten, with_bare_hole, with_hole, with_neighbours, with_one_data_cell,
    Hole, LISTED_VALUES, ODD_VALUE, OPEN_ODD_VALUE, OPEN_SPARSE_VALUE, SPARSE_VALUE,
};
use crate::call::{Call, Entry};
use crate::page::{data_cells_of, words_of, FIRST_ROUND};
use crate::random::Random;
use crate::shape::{Shape, LARGE, SMALL};
use crate::word::{
    cells_with_sum, data_cells, legal_word, number_of, weight, Cells, CELLS, LARGEST_SUM, LARGEST_VALUE,
};

const SEED: u64 = 1_012;

/// Values to whose words the fill adds no cell: in two of them the first data set cell 45, and two are open.
const ALIKE_VALUES: [u32; 4] = [SPARSE_VALUE, ODD_VALUE, OPEN_SPARSE_VALUE, OPEN_ODD_VALUE];

/// The calls made so far, and what they are made from.
struct Walk {
    random: Random,
    calls: Vec<Call>,
    shape: Shape,
    /// A valid page of each state; on 512 bytes, the last has a record that is longer than one byte names.
    blank: Vec<u8>,
    first: Vec<u8>,
    filled: Vec<u8>,
    second: Vec<u8>,
    inspect: Vec<u8>,
}

/// All systematic calls; the files with one byte changed and the blocks come last, and are made one by one or part by part.
pub fn calls() -> impl Iterator<Item = Call> {
    walked().into_iter().chain(reading::changes()).chain(block::calls())
}

/// The systematic calls but for those files and the blocks.
fn walked() -> Vec<Call> {
    let [mut small, mut large] = Shape::BOTH.map(Walk::new);
    small.values();
    small.words();
    for walk in [&mut small, &mut large] {
        walk.pages_of_every_kind();
        walk.pages_of_every_length();
        walk.pages_of_the_earlier_fill();
        walk.records_by_inspect();
        walk.refusals();
    }
    small.files_of_every_kind();
    small.readings_of_every_kind();
    let others = Entry::ALL.into_iter().filter(|entry| !entry.takes_page() && !Entry::OF_BLOCKS.contains(entry));
    others.for_each(|entry| small.refusals_of(entry));
    small.calls.extend(large.calls);
    small.calls
}

/// A length of the entry's other buffer that is not refused with this page.
fn sound_length(entry: Entry, page: &[u8]) -> usize {
    let shape = if page.len() <= SMALL.bytes { SMALL } else { LARGE };
    match entry {
        Entry::WriteSecond | Entry::WriteInspect => 40,
        Entry::ReadInspect => shape.inspect_bytes_most,
        _ => shape.first_bytes,
    }
}

/// Every weight as a value, the one before it and the one after it.
fn values_about_weights() -> impl Iterator<Item = u32> {
    (0..CELLS).flat_map(|cell| [0, 1, 2].map(|more| (weight(cell) - 1) as u32 + more))
}

impl Walk {
    fn new(shape: Shape) -> Walk {
        let mut random = Random::of_case(SEED, shape.bytes as u64);
        let blank = blank(&mut random, shape);
        let first = first_page(&drawn_values(&mut random, shape, any_bits));
        let filled = filled_page(&first);
        let second = second_page(&first, &random.bytes(60));
        let record = sparse(&mut random, shape.inspect_bytes_most * 5 / 8);
        let inspect = inspect_page(&first, &record);
        Walk { random, calls: Vec::new(), shape, blank, first, filled, second, inspect }
    }

    fn word(&mut self, word: u64) {
        self.calls.extend(Entry::OF_WORDS.map(|entry| Call::of_word(entry, word)));
    }

    /// A call with the other buffer of this length, which holds any bytes.
    fn page(&mut self, entry: Entry, page: &[u8], length: usize) {
        let other = self.random.bytes(length);
        self.calls.push(Call::of_page(entry, page.to_vec(), other));
    }

    /// A call over a page that was filled, by either fill, from this first-round page.
    fn page_from(&mut self, first: &[u8], entry: Entry, page: &[u8], length: usize) {
        let other = self.random.bytes(length);
        self.calls.push(Call::of_page(entry, page.to_vec(), other).filled_from(first));
    }

    /// Calls with the other buffer of a length that is not refused.
    fn pages(&mut self, entries: &[Entry], page: &[u8]) {
        for &entry in entries {
            self.page(entry, page, sound_length(entry, page));
        }
    }

    /// The first-round page of this value in each word.
    fn page_of(&self, value: u32) -> Vec<u8> {
        page_of(self.shape, value)
    }

    /// Values at every weight and beside it, listed values and the largest, and their words.
    fn values(&mut self) {
        for value in values_about_weights().chain(LISTED_VALUES).chain([u32::MAX - 1, u32::MAX]) {
            self.calls.push(Call::of_word(Entry::EncodeWord, u64::from(value)));
            self.word(number_of(&legal_word(value)));
        }
    }

    /// Every single bit, every pair of neighbours, sums about the limit, the largest sums, and the ends of 32, 46 and
    /// 64 bits.
    fn words(&mut self) {
        (0..64).for_each(|bit| self.word(1 << bit));
        (0..CELLS - 1).for_each(|cell| self.word(number_of(&with_neighbours([false; CELLS], cell))));
        (LARGEST_VALUE - 9..LARGEST_VALUE + 10).for_each(|sum| self.word(number_of(&cells_with_sum(sum))));
        (LARGEST_SUM - 9..=LARGEST_SUM).for_each(|sum| self.word(number_of(&cells_with_sum(sum))));
        [u64::MAX, (1 << CELLS) - 1, 1 << 32, LARGEST_VALUE].into_iter().for_each(|word| self.word(word));
    }

    fn pages_of_every_kind(&mut self) {
        self.headers();
        self.tails();
        self.alike_pages();
        self.illegal_words();
        self.holes();
        self.flaws();
        self.two_flaws();
        self.flips();
        self.data_cells();
        self.fills();
        self.pulses();
    }

    /// A valid page of each state.
    fn bases(&self) -> [Vec<u8>; 5] {
        [&self.blank, &self.first, &self.filled, &self.second, &self.inspect].map(Vec::clone)
    }

    /// Every value of each of bytes 0, 1 and 2, and of bytes 509 to 511, of a valid page of each state. Entries that do not
    /// take the state get a few of these pages, but for byte 0.
    fn headers(&mut self) {
        for base in self.bases() {
            let places = [0].into_iter().chain(header_places(self.shape));
            for (place, byte) in places.flat_map(|place| (0..=255).map(move |byte| (place, byte))) {
                let few = place == 0 || [1, 0x80, 0xFF].contains(&byte);
                let asked = |entry: &Entry| few || entry.states().contains(&base[0]);
                let entries: Vec<Entry> = Entry::OF_PAGES.into_iter().filter(asked).collect();
                self.pages(&entries, &with_byte(base.clone(), place, byte));
            }
        }
    }

    /// Each of bytes 509 to 511 not 0, together with another byte of the header, and with each word not sound; and all of
    /// them.
    fn tails(&mut self) {
        let tail = self.shape.tail();
        for (base, place) in self.bases().iter().flat_map(|base| tail.clone().map(move |place| (base, place))) {
            let byte = self.random.byte_from(1);
            let page = with_byte(base.clone(), place, byte);
            let words = (0..self.shape.words).map(|index| with_word(page.clone(), index, never_sound()));
            // The other is out of its range, or it and the byte are 0 together by exclusive or, or as a sum in 8 bits.
            let others = header_places(self.shape).into_iter().filter(|&other| other != place);
            let others = others.flat_map(|other| [254, byte, 0u8.wrapping_sub(byte)].map(|second| (other, second)));
            let others = others.map(|(other, second)| with_byte(page.clone(), other, second));
            // So are three of them.
            let three = [[1, 2, 3], [1, 1, 254]].map(|bytes| tail.clone().zip(bytes));
            let three = three.map(|bytes| bytes.fold(base.clone(), |page, (place, byte)| with_byte(page, place, byte)));
            for page in words.chain(others).chain(three) {
                self.pages(&Entry::taking(base[0]), &page);
            }
        }
    }

    /// Every state over cells that are sound in states 01, 03, 07 and 09 alike.
    fn alike_pages(&mut self) {
        for base in ALIKE_VALUES.map(|value| self.page_of(value)) {
            (0..=255).for_each(|state| self.pages(&Entry::OF_PAGES, &with_byte(base.clone(), 0, state)));
        }
    }

    /// Every pair of neighbours in every word, and a sum too large in every word.
    fn illegal_words(&mut self) {
        let entries = Entry::taking(FIRST_ROUND);
        for (index, &cells) in words_of(&self.first).iter().enumerate() {
            let pairs = (0..CELLS - 1).map(|cell| with_neighbours(cells, cell));
            let sums = [cells_with_sum(LARGEST_VALUE + 1), sum_too_large(&mut self.random)];
            for damaged in pairs.chain(sums) {
                self.pages(&entries, &with_word(self.first.clone(), index, damaged));
            }
        }
    }

    /// A hole at the start, in the middle and at the end of every word, and every word without any set cell.
    fn holes(&mut self) {
        for index in 0..self.shape.words {
            let empty = [false; CELLS];
            let holes = Hole::ALL.map(|hole| with_hole(&mut self.random, hole));
            for damaged in holes.into_iter().chain([empty]) {
                self.pages(&[Entry::ReadSecond], &with_word(self.second.clone(), index, damaged));
            }
        }
    }

    /// Words for a filled page, each with another flaw: holes with data and without, the first, a middle, the last and
    /// every data cell set, no cell set, and every cell set. The last word is sound, with its separators anywhere.
    fn flawed(&mut self) -> Vec<Cells> {
        let holes = Hole::ALL.map(|hole| with_hole(&mut self.random, hole));
        let bare = Hole::ALL.map(|hole| with_bare_hole(&mut self.random, hole));
        let sound = unwritten(&mut self.random);
        let data = data_cells(&sound);
        let with = |set: &[usize]| std::array::from_fn(|cell| sound[cell] || set.contains(&cell));
        let middle = data.len() / 2;
        let written = [&data[..1], &data[middle..=middle], &data[data.len() - 1..], &data].map(with);
        [&holes, &bare, &written[..], &[[false; CELLS], [true; CELLS], sound]].concat()
    }

    /// Every word of a filled page with each flaw.
    fn flaws(&mut self) {
        for index in 0..self.shape.words {
            for cells in self.flawed() {
                self.pages(&Entry::OF_FILLED_PAGES, &with_word(self.filled.clone(), index, cells));
            }
        }
    }

    /// A filled page with a hole in one word and a data cell set in another, and the other way round: every word with
    /// the next, and with the last.
    fn two_flaws(&mut self) {
        let last = self.shape.words - 1;
        let pairs = (0..last).flat_map(|low| [(low, low + 1), (low, last)]);
        for (low, high) in pairs.flat_map(|(low, high)| [(low, high), (high, low)]) {
            let hole = with_bare_hole(&mut self.random, Hole::Middle);
            let written = with_one_data_cell(&mut self.random);
            let page = with_word(with_word(self.filled.clone(), low, hole), high, written);
            self.pages(&Entry::OF_FILLED_PAGES, &page);
        }
    }

    /// Every single bit flipped of a valid page of each state, for the entries that take it.
    fn flips(&mut self) {
        for base in self.bases() {
            self.flips_of(&base, &Entry::taking(base[0]));
        }
        self.flips_of(&self.filled.clone(), &[Entry::FillPage, Entry::ReadSecond]);
    }

    /// Every single bit flipped of this page, for these entries.
    fn flips_of(&mut self, page: &[u8], entries: &[Entry]) {
        for bit in 0..8 * page.len() {
            self.pages(entries, &with_flip(page.to_vec(), bit));
        }
    }

    /// First-round pages of every value at a weight and beside it, and of any values: each is filled, by the earlier fill
    /// as well; the pages are measured, and a record is written over the filled ones.
    fn fills(&mut self) {
        for value in values_about_weights().chain(LISTED_VALUES).chain([ODD_VALUE, u32::MAX]) {
            let mut mixed = drawn_values(&mut self.random, self.shape, any_value);
            mixed.iter_mut().step_by(2).for_each(|other| *other = value);
            for first in [self.page_of(value), first_page(&mixed)] {
                self.pages(&[Entry::PageCapacity, Entry::FillPage], &first);
                FILLINGS.into_iter().for_each(|fill| self.pages(&Entry::OF_FILLED_PAGES, &fill(&first)));
            }
        }
    }

    /// Pages of every sum of pulses; and pages on which one word alone, each in turn, takes pulses, or takes none.
    fn pulses(&mut self) {
        let shape = self.shape;
        let sums = (0..=shape.pulses_most()).map(|pulses| values_with_pulses(shape, pulses));
        let kinds = [(0, SPARSE_VALUE), (SPARSE_VALUE, 0)];
        let alone = |index| kinds.map(|(one, others)| with_value(vec![others; shape.words], index, one));
        for values in sums.chain((0..shape.words).flat_map(alone)) {
            self.pages(&[Entry::FillPage], &first_page(&values));
        }
    }

    /// Every data cell set by itself, on a filled page, and in a record or spare.
    fn data_cells(&mut self) {
        self.data_cells_of(&filled_page(&self.page_of(0)), &Entry::OF_FILLED_PAGES);
        self.data_cells_of(&second_page(&self.page_of(0), &[0; 20]), &[Entry::ReadSecond]);
        self.data_cells_of(&self.second.clone(), &[Entry::ReadSecond]);
    }

    /// Every data cell of this page set by itself, for these entries.
    fn data_cells_of(&mut self, page: &[u8], entries: &[Entry]) {
        for (index, cell) in data_cells_of(&words_of(page)) {
            self.pages(entries, &with_cell(page.to_vec(), index, cell));
        }
    }

    /// Every choice of refusals of the entries that take a page.
    fn refusals(&mut self) {
        Entry::OF_PAGES.into_iter().for_each(|entry| self.refusals_of(entry));
    }

    /// Every choice of the entry's refusals, several times.
    fn refusals_of(&mut self, entry: Entry) {
        for chosen in (0..choices(entry)).cycle().take(640) {
            let call = combined(&mut self.random, entry, chosen, self.shape);
            self.calls.push(call);
        }
    }
}
