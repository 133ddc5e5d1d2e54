//! The calls with buffers of every length: pages, data, records, outputs, and pages of the other size.

use super::Walk;
use crate::call::Entry;
use crate::cases::inspect::{any_record, inspect_page, longest_of};
use crate::cases::lengths::{resized, resized_with, AFTER_A_PAGE, END_LENGTHS, FAR_NAMED_LENGTHS, FAR_RECORD_LENGTHS};
use crate::cases::pages::*;
use crate::cases::words::{never_sound, SPARSE_VALUE};
use crate::shape::SMALL;

/// The last of the lengths that are walked one by one in bytes 1 and 2: byte 2 is 0, 1 and 2.
pub const LAST_NAMED: usize = 520;

/// Lengths with every byte 2 beyond, and byte 1 at an end.
pub fn lengths_of_every_byte_2() -> impl Iterator<Item = usize> {
    (2..256).flat_map(|byte_2| [0, 1, 126, 247, 253, 255].map(|byte_1| 256 * byte_2 + byte_1))
}

/// Every record length up to some that are longer than the most, those at the ends beyond them, and some far beyond.
pub fn record_lengths(most: usize) -> impl Iterator<Item = usize> {
    let ends = END_LENGTHS.into_iter().filter(move |&length| length > most + 9);
    (0..=most + 9).chain(ends).chain(FAR_RECORD_LENGTHS)
}

impl Walk {
    pub fn pages_of_every_length(&mut self) {
        self.lengths_in_every_state();
        self.named_lengths();
        self.record_lengths();
        self.exact_fits();
        self.output_lengths();
        self.page_lengths();
        self.other_sizes();
        self.data_lengths();
    }

    /// The lengths at the ends and beyond in bytes 1 and 2 of a valid page of each state, and the same with a word that is
    /// not sound: where 6 is for the length, it comes before 7.
    fn lengths_in_every_state(&mut self) {
        for base in self.bases() {
            let bad_word = with_word(base.clone(), self.shape.words / 2, never_sound());
            for length in END_LENGTHS.into_iter().chain(FAR_NAMED_LENGTHS) {
                for page in [&base, &bad_word].map(|page| with_length(page.clone(), length)) {
                    self.pages(&Entry::taking(base[0]), &page);
                }
            }
        }
    }

    /// Every length that may be too much over words of the most, the least and middle capacities without data.
    fn named_lengths(&mut self) {
        let least = self.shape.second_bytes_sure() - 22;
        for value in [0, 1, 3, SPARSE_VALUE] {
            let empty = second_page(&self.page_of(value), &[]);
            self.lengths_in(Entry::ReadSecond, &empty, least..=LAST_NAMED);
        }
        self.lengths_in(Entry::ReadSecond, &self.second.clone(), lengths_of_every_byte_2());
    }

    /// Each of these lengths in bytes 1 and 2 of the page.
    pub fn lengths_in(&mut self, entry: Entry, page: &[u8], lengths: impl IntoIterator<Item = usize>) {
        for length in lengths {
            self.pages(&[entry], &with_length(page.to_vec(), length));
        }
    }

    /// Every record length over the least, the most and a middle capacity, each outcome read back.
    fn record_lengths(&mut self) {
        for first in [self.page_of(SPARSE_VALUE), self.page_of(0), self.first.clone()] {
            let (filled, most) = (filled_page(&first), most_bytes(&first));
            for length in record_lengths(self.shape.second_bytes_most) {
                self.page(Entry::WriteSecond, &filled, length);
                if length <= most {
                    let outcome = written_over(filled.clone(), &self.random.bytes(length));
                    self.page(Entry::ReadSecond, &outcome, length);
                }
            }
        }
    }

    /// Up to 7 words of another capacity, so that the longest record that fits leaves 0 to 7 data cells: that record, its
    /// outcome read back, and one byte more.
    fn exact_fits(&mut self) {
        for (others, value) in (0..8).flat_map(|others| [(others, 0), (others, SPARSE_VALUE)]) {
            let mut values = vec![value; self.shape.words];
            values[..others].fill(1);
            let first = first_page(&values);
            let most = most_bytes(&first);
            let filled = filled_page(&first);
            self.page(Entry::WriteSecond, &filled, most);
            self.page(Entry::WriteSecond, &filled, most + 1);
            let outcome = second_page(&first, &self.random.bytes(most));
            self.page(Entry::ReadSecond, &outcome, most);
        }
    }

    /// Every output length up to some that are longer than the first record.
    fn output_lengths(&mut self) {
        let (most, sure) = (self.shape.second_bytes_most, self.shape.second_bytes_sure());
        let seconds = [0, 1, sure, most].map(|length| second_page(&self.page_of(0), &self.random.bytes(length)));
        for length in 0..=self.shape.first_bytes + 4 {
            self.page(Entry::ReadFirst, &self.first.clone(), length);
            for second in &seconds {
                self.page(Entry::ReadSecond, second, length);
            }
        }
    }

    /// Every page length 0 to 520, and some beyond.
    fn page_lengths(&mut self) {
        for length in (0..=520).chain([768, 1_024, 4_096]) {
            for base in self.bases() {
                let page = resized(&mut self.random, base, length);
                self.pages(&Entry::OF_PAGES, &page);
            }
        }
    }

    /// Valid pages of the other size: blank, and of the most, the least and a middle capacity in each state.
    fn pages_of_the_other_size(&mut self) -> Vec<Vec<u8>> {
        let shape = self.shape.other();
        let mut pages = vec![blank(&mut self.random, shape)];
        let any = first_page(&drawn_values(&mut self.random, shape, any_bits));
        for first in [page_of(shape, 0), page_of(shape, SPARSE_VALUE), any] {
            let filled = filled_page(&first);
            for length in [0, 1, 40, SMALL.second_bytes_sure(), most_bytes(&first)] {
                pages.push(written_over(filled.clone(), &self.random.bytes(length)));
            }
            for length in [0, 1, 40, shape.inspect_bytes_sure(), shape.inspect_bytes_most] {
                let record = any_record(&mut self.random, length);
                pages.push(inspect_page(&first, &longest_of(&first, record)));
            }
            pages.extend([filled, first]);
        }
        pages
    }

    /// The bytes of pages of the other size at this one's length: cut, or followed by zeros, by ones or by any bytes, and
    /// the same with bytes 509 to 511 at 0.
    fn other_sizes(&mut self) {
        let after = if self.shape == SMALL { &AFTER_A_PAGE[..1] } else { &AFTER_A_PAGE };
        for page in self.pages_of_the_other_size() {
            for &after in after {
                let page = resized_with(&mut self.random, page.clone(), self.shape.bytes, after);
                self.pages(&Entry::OF_PAGES, &page);
                self.pages(&Entry::OF_PAGES, &with_sound_tail(page));
            }
        }
    }

    /// Every data length 0 to 360.
    fn data_lengths(&mut self) {
        (0..=360).for_each(|length| self.page(Entry::WriteFirst, &self.blank.clone(), length));
    }
}
