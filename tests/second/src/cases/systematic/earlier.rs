//! The calls about the ends of words, and about pages as versions before Change 6 left them.

use super::Walk;
use crate::call::Entry;
use crate::cases::damage::{choices, combined_by};
use crate::cases::pages::*;
use crate::cases::words::{any_value, END_VALUES, OPEN_SPARSE_VALUE, OPEN_VALUES, SPARSE_VALUE};
use crate::shape::SMALL;

impl Walk {
    pub fn pages_of_the_earlier_fill(&mut self) {
        self.both_fills();
        self.earlier_exact_fits();
        self.earlier_refusals();
        self.cells_45();
        // Versions before Change 6 left no page of 512 bytes.
        if self.shape == SMALL {
            self.earlier_record_lengths();
            self.earlier_flips();
        }
    }

    /// First-round pages on which the earlier fill sets a cell 45 that the fill leaves at 0: in all words, in each alone, and
    /// in some words.
    fn firsts_with_open_words(&mut self) -> Vec<Vec<u8>> {
        let shape = self.shape;
        let open = |index: usize| OPEN_VALUES[index % OPEN_VALUES.len()];
        let alone = |index: usize| with_value(vec![SPARSE_VALUE; shape.words], index, open(index));
        let all = OPEN_VALUES.map(|value| vec![value; shape.words]);
        let any = [(); 8].map(|()| drawn_values(&mut self.random, shape, any_value));
        all.into_iter().chain((0..shape.words).map(alone)).chain(any).map(|values| first_page(&values)).collect()
    }

    /// Such pages, filled by either fill: they are measured; records up to the longest that fits, and one byte more, are
    /// written over them; and the outcomes are read back.
    fn both_fills(&mut self) {
        for first in self.firsts_with_open_words() {
            for filled in FILLINGS.map(|fill| fill(&first)) {
                self.page_from(&first, Entry::PageCapacity, &filled, 0);
                self.records_over(&first, &filled);
            }
        }
    }

    /// Records over the page that was filled from this first-round page.
    fn records_over(&mut self, first: &[u8], filled: &[u8]) {
        let most = most_bytes(first);
        for length in [0, 1, 40, most - 1, most] {
            self.page_from(first, Entry::WriteSecond, filled, length);
            self.read_back(first, filled, length);
        }
        self.page_from(first, Entry::WriteSecond, filled, most + 1);
    }

    /// Reads any record of this length over the filled page.
    fn read_back(&mut self, first: &[u8], filled: &[u8], length: usize) {
        let second = written_over(filled.to_vec(), &self.random.bytes(length));
        self.page_from(first, Entry::ReadSecond, &second, length);
    }

    /// Every record length up to some that are too long over pages of the earlier fill, of the least and of middle
    /// capacities, each outcome read back.
    fn earlier_record_lengths(&mut self) {
        for first in [self.page_of(OPEN_SPARSE_VALUE), self.page_of(3), self.first.clone()] {
            let (filled, most) = (filled_page_earlier(&first), most_bytes(&first));
            for length in 0..=self.shape.second_bytes_most + 4 {
                self.page_from(&first, Entry::WriteSecond, &filled, length);
                if length <= most {
                    self.read_back(&first, &filled, length);
                }
            }
        }
    }

    /// Pages of the earlier fill, on which the longest record that fits leaves 0 to 7 data cells: that record, its outcome
    /// read back, and one byte more.
    fn earlier_exact_fits(&mut self) {
        for more in 0..8 {
            let value = |index: usize| if index % 6 == 1 && index / 6 < more { 0 } else { 3 };
            let first = first_page(&(0..self.shape.words).map(value).collect::<Vec<u32>>());
            let filled = filled_page_earlier(&first);
            let most = most_bytes(&first);
            self.page_from(&first, Entry::WriteSecond, &filled, most);
            self.page_from(&first, Entry::WriteSecond, &filled, most + 1);
            self.read_back(&first, &filled, most);
        }
    }

    /// Every choice of refusals over pages of the earlier fill.
    fn earlier_refusals(&mut self) {
        for entry in Entry::AFTER_THE_FILL {
            for chosen in (0..choices(entry)).cycle().take(128) {
                let call = combined_by(&mut self.random, entry, chosen, self.shape, filled_page_earlier);
                self.calls.push(call);
            }
        }
    }

    /// Cell 45 of each word flipped by itself, of words that end in each way: on filled pages of either fill, and under
    /// no record, a record of 40 bytes and the longest.
    fn cells_45(&mut self) {
        for turn in 0..END_VALUES.len() {
            let mut values = END_VALUES;
            values.rotate_left(turn);
            let first = first_page(&by_turns(self.shape, &values));
            for filled in FILLINGS.map(|fill| fill(&first)) {
                self.each_cell_45(&filled, &Entry::OF_FILLED_PAGES);
                for length in [0, 40, most_bytes(&first)] {
                    let second = written_over(filled.clone(), &self.random.bytes(length));
                    self.each_cell_45(&second, &[Entry::ReadSecond]);
                }
            }
        }
    }

    /// Cell 45 of each word of this page flipped by itself, for these entries.
    fn each_cell_45(&mut self, page: &[u8], entries: &[Entry]) {
        for index in 0..self.shape.words {
            self.pages(entries, &with_cell_45_flipped(page.to_vec(), index));
        }
    }

    /// Every single bit flipped of a filled and of a second-round page of the earlier fill.
    fn earlier_flips(&mut self) {
        let second = second_page_earlier(&self.first, &self.random.bytes(60));
        self.flips_of(&filled_page_earlier(&self.first), &Entry::OF_FILLED_PAGES);
        self.flips_of(&second, &[Entry::ReadSecond]);
    }
}
