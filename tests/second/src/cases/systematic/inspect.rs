//! The calls of the Inspect code.

use super::lengths::{lengths_of_every_byte_2, record_lengths, LAST_NAMED};
use super::Walk;
use crate::call::{Call, Entry};
use crate::cases::inspect::{
    bits_in, bytes_taken, first_and_record_ending, first_taking_less, inspect_page, longest_of, naming, RECORDS,
};
use crate::cases::pages::{by_turns, first_page, with_byte, with_flip, with_word};
use crate::cases::words::{sum_too_large, with_neighbours, EDGE_VALUE, END_VALUES, ODD_VALUE, SPARSE_VALUE};
use crate::page::{length_of, words_of};
use crate::word::{cells_with_sum, CELLS, LARGEST_VALUE};

impl Walk {
    pub fn records_by_inspect(&mut self) {
        self.inspect_records();
        self.inspect_exact_fits();
        self.inspect_halves();
        self.inspect_boundaries();
        self.inspect_ends();
        self.inspect_words();
        self.inspect_two_words();
        self.inspect_named_lengths();
        self.inspect_output_lengths();
    }

    /// The first-round pages of the calls with records: words of which a zero record takes the most and the least bits and
    /// some between, words that end in each way, and any words.
    fn inspect_firsts(&self) -> [Vec<u8>; 5] {
        let [most, least, sparse] = [0, ODD_VALUE, SPARSE_VALUE].map(|value| self.page_of(value));
        [most, least, sparse, first_page(&by_turns(self.shape, &END_VALUES)), self.first.clone()]
    }

    /// Every record length with each kind of record over each of these pages.
    fn inspect_records(&mut self) {
        for (first, kind) in
            self.inspect_firsts().into_iter().flat_map(|first| RECORDS.map(|kind| (first.clone(), kind)))
        {
            for length in record_lengths(self.shape.inspect_bytes_most) {
                let record = kind(&mut self.random, length);
                self.inspect_record(&first, record);
            }
        }
    }

    /// Writes the record over the first-round page; the outcome, where it fits, is read back.
    fn inspect_record(&mut self, first: &[u8], record: Vec<u8>) {
        let fits = bytes_taken(first, &record) == record.len();
        self.calls.push(Call::of_page(Entry::WriteInspect, first.to_vec(), record.clone()));
        if fits {
            self.inspect_outcome(&inspect_page(first, &record));
        }
    }

    /// Reads the page into outputs that are empty, one short, exact and longer; and with a bit of its cells flipped, and
    /// with another header byte.
    fn inspect_outcome(&mut self, page: &[u8]) {
        let length = length_of(page);
        let (bit, byte) = (self.random.between(24, 8 * self.shape.bytes - 1), self.random.byte());
        for length in [0, length.saturating_sub(1), length, length + 1 + usize::from(byte)] {
            self.page(Entry::ReadInspect, page, length);
        }
        let damaged = [with_flip(page.to_vec(), bit), with_byte(page.to_vec(), bit % 3, byte)];
        damaged.iter().for_each(|page| self.pages(&[Entry::ReadInspect], page));
    }

    /// The longest zero record over the first-round page, and one byte more; and every length about the longest, over no
    /// record.
    fn inspect_longest(&mut self, first: &[u8]) {
        let most = bits_in(first) / 8;
        [most, most + 1].into_iter().for_each(|length| self.inspect_record(first, vec![0; length]));
        for length in most - 1..=most + 1 {
            self.pages(&[Entry::ReadInspect], &naming(first, length));
        }
    }

    /// First-round pages of which zero records take 0 to 16 bits less than of the page of zeros: the longest record leaves 0
    /// to 7 bits.
    fn inspect_exact_fits(&mut self) {
        (0..=16).for_each(|fewer| self.inspect_longest(&first_taking_less(self.shape, fewer)));
    }

    /// First-round pages of which all words take the least bits but some in the one half or in the other; on 512 bytes, so
    /// that the longest zero record is about as long as one byte names, or longer.
    fn inspect_halves(&mut self) {
        let half = self.shape.words / 2;
        let whole = vec![0; half];
        for others in [&[][..], &[0], &[0, SPARSE_VALUE], &[0, 0], &whole] {
            for start in [0, half] {
                let mut values = vec![ODD_VALUE; self.shape.words];
                values[start..start + others.len()].copy_from_slice(others);
                self.inspect_longest(&first_page(&values));
            }
        }
    }

    /// Zero records that end about the middle of the page, where words start at each place in the record's bytes: none to all
    /// of the words before it take one bit less. On 512 bytes, the middle is in the byte after the longest record of 256
    /// bytes.
    fn inspect_boundaries(&mut self) {
        let half = self.shape.words / 2;
        let middle = 45 * half / 8;
        for (fewer, length) in (0..=half).flat_map(|fewer| (middle - 1..=middle + 4).map(move |length| (fewer, length)))
        {
            let mut values = vec![0; self.shape.words];
            values[..fewer].fill(3);
            self.inspect_record(&first_page(&values), vec![0; length]);
        }
    }

    /// Records that end in each word: after its first bit, before cells 44 and 45, and after cell 45, which the first
    /// record has set or not. Each is read with its length, a byte less and a byte more.
    fn inspect_ends(&mut self) {
        let ends: [(u32, &[usize]); 6] =
            [(2, &[44]), (1, &[44]), (3, &[45]), (SPARSE_VALUE, &[45]), (2, &[46]), (EDGE_VALUE, &[46])];
        let (shape, words) = (self.shape, self.shape.words);
        // The first bit of word 0 is not the last of a byte.
        let starts = (1..words).flat_map(|index| [(index, (0, &[1][..])), (index, (EDGE_VALUE, &[2]))]);
        for (index, (value, cells)) in (0..words).flat_map(|index| ends.map(|end| (index, end))).chain(starts) {
            let (first, record) = first_and_record_ending(&mut self.random, shape, index, value, cells);
            let page = inspect_page(&first, &record);
            let length = record.len();
            self.inspect_record(&first, record);
            self.lengths_in(Entry::ReadInspect, &page, [length - 1, length + 1]);
        }
    }

    /// Every pair of neighbours and sums too large in every word: with no record, with one that ends in the page, and with
    /// the longest.
    fn inspect_words(&mut self) {
        let longest = longest_of(&self.first, self.random.bytes(self.shape.inspect_bytes_most));
        let [empty, full] = [&[][..], &longest].map(|record| inspect_page(&self.first, record));
        let words = self.shape.words;
        for (page, index) in
            [empty, self.inspect.clone(), full].iter().flat_map(|page| (0..words).map(move |index| (page, index)))
        {
            let cells = words_of(page)[index];
            let pairs = (0..CELLS - 1).map(|cell| with_neighbours(cells, cell));
            let sums =
                [cells_with_sum(LARGEST_VALUE), cells_with_sum(LARGEST_VALUE + 1), sum_too_large(&mut self.random)];
            for damaged in pairs.chain(sums) {
                self.pages(&[Entry::ReadInspect], &with_word(page.clone(), index, damaged));
            }
        }
    }

    /// A sum too large in one word and two neighbours in another, which no record reaches, and the other way round: every
    /// word with the next, with the last, and with the one half a page after it. The lower one counts.
    fn inspect_two_words(&mut self) {
        let (last, half) = (self.shape.words - 1, self.shape.words / 2);
        let pairs = (0..last).flat_map(|low| [(low, low + 1), (low, last), (low, last.min(low + half))]);
        for (sum, pair) in pairs.flat_map(|(low, high)| [(low, high), (high, low)]) {
            let sum_too_large = sum_too_large(&mut self.random);
            let neighbours = with_neighbours([false; CELLS], self.random.below(CELLS - 1));
            let page = with_word(with_word(self.first.clone(), sum, sum_too_large), pair, neighbours);
            self.pages(&[Entry::WriteInspect], &page);
            self.pages(&[Entry::ReadInspect], &naming(&page, 0));
        }
    }

    /// Every length that may be too much, with sound words and with one that is not legal, and every length after a record
    /// of ones.
    fn inspect_named_lengths(&mut self) {
        let (least, last) = (self.shape.inspect_bytes_sure() - 6, self.shape.words - 1);
        for first in self.inspect_firsts() {
            let sum = with_word(first.clone(), last, sum_too_large(&mut self.random));
            for page in [first, sum].map(|page| naming(&page, 0)) {
                self.lengths_in(Entry::ReadInspect, &page, least..=LAST_NAMED);
            }
        }
        let ones = inspect_page(&self.first, &vec![0xFF; self.shape.inspect_bytes_sure()]);
        self.lengths_in(Entry::ReadInspect, &ones, (0..=LAST_NAMED).chain(lengths_of_every_byte_2()));
    }

    /// Every output length up to some that are longer than the longest record.
    fn inspect_output_lengths(&mut self) {
        let (sure, most) = (self.shape.inspect_bytes_sure(), self.shape.inspect_bytes_most);
        let records = [(0, 0x00), (1, 0x96), (sure, 0x96), (255, 0x01), (256, 0x01), (257, 0x01), (most, 0x00)];
        let records = records.into_iter().filter(|(length, _)| *length <= most);
        let pages: Vec<_> = records.map(|(length, byte)| inspect_page(&self.page_of(0), &vec![byte; length])).collect();
        for (length, page) in (0..=most + 13).flat_map(|length| pages.iter().map(move |page| (length, page))) {
            self.page(Entry::ReadInspect, page, length);
        }
    }
}
