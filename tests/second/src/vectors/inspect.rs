//! The fixed calls of the Inspect code with pages of 256 bytes.

use super::{records_longer_than, Script, INDICES};
use crate::call::{Call, Entry};
use crate::cases::files::{any_bytes, zeros, Contents};
use crate::cases::inspect::{
    any_inspect, bits_in, byte_ends, bytes_taken, first_and_record_ending, first_taking_less, inspect_page, naming,
    record_for, RECORDS,
};
use crate::cases::lengths::{resized, NO_PAGE_LENGTHS};
use crate::cases::pages::{
    any_filled, any_first, any_second, blank, by_turns, first_page, page_of, with_byte, with_flip, with_length,
    with_word,
};
use crate::cases::words::{sum_too_large, with_neighbours, EDGE_VALUE, ODD_VALUE, SPARSE_VALUE};
use crate::inspect::put_bits;
use crate::page::{words_of, INSPECTED};
use crate::random::Random;
use crate::shape::{Shape, SMALL};
use crate::word::{cells_with_sum, weight, Cells, CELLS, LARGEST_VALUE};

const SEED: u64 = 247;

/// Words in which records end: the first two, one in the middle, and the last.
const END_INDICES: [usize; 4] = [0, 1, 21, 43];

/// The calls of the Inspect code. Their bytes are drawn apart from those of the other calls.
pub fn calls() -> Vec<Call> {
    let mut script = Script { random: Random::new(SEED), calls: Vec::new() };
    script.figures();
    script.each_pair();
    script.each_kind();
    script.last_cells();
    script.word_ends();
    script.far_inspects();
    script.illegal_inspects();
    script.neighbours_after_the_record();
    script.sums();
    script.lengths_too_large();
    script.inspect_flips();
    script.inspect_headers();
    script.inspect_states();
    script.alike_inspects();
    script.inspect_page_lengths();
    script.inspect_outputs();
    Entry::OF_INSPECT.into_iter().for_each(|entry| script.orders_of(entry, SMALL));
    script.calls
}

/// A word whose sum is too large with its read pairs put to 00: cells 0 to 20 are by turns 1 and 0; there are the pairs of
/// a 1 among the zeros after them, and of one over the last two cells.
pub fn large_sum_with_pairs() -> Cells {
    let mut cells = std::array::from_fn(|cell| cell % 2 == 0 && cell <= 20);
    // 11 bits for the pairs 10, one for each of 8 cells 0 and of the 12 after the first pair 11.
    let bits = (0..).map(|bit| bit == 19 || bit == 32);
    put_bits(&mut cells, &mut bits.take(33));
    cells
}

impl Script {
    /// Writes the record over the first-round page; what is accepted is read back into an output of just its length.
    pub fn inspecting(&mut self, first: &[u8], record: Vec<u8>) {
        let length = record.len();
        let page = self.page(Entry::WriteInspect, first, record);
        if page[0] == INSPECTED {
            self.page_with(Entry::ReadInspect, &page, length);
        }
    }

    /// The figures of Change 7: records of zeros and of ones about the ends of what goes in, over words of which a zero
    /// record takes 45, 30, 23, 44 and 44 bits.
    fn figures(&mut self) {
        for (value, zeros) in [(0, 247), (SPARSE_VALUE, 165), (ODD_VALUE, 126), (EDGE_VALUE, 242), (3, 242)] {
            let first = page_of(SMALL, value);
            for (byte, most) in [(0x00, zeros), (0xFF, 126)] {
                [most, most + 1].into_iter().for_each(|length| self.inspecting(&first, vec![byte; length]));
            }
        }
        for value in [0, SPARSE_VALUE] {
            let first = page_of(SMALL, value);
            [vec![], vec![0], vec![0xFF]].into_iter().for_each(|record| self.inspecting(&first, record));
        }
    }

    /// A 1 and a 0 over each pair that starts a word: 00, 01 and 10.
    fn each_pair(&mut self) {
        for value in [0, weight(1) as u32, weight(0) as u32] {
            let first = page_of(SMALL, value);
            [vec![0x80], vec![0x55; 24]].into_iter().for_each(|record| self.inspecting(&first, record));
        }
    }

    /// Records of each kind over any pages: the longest that fits, one byte more, and a shorter one.
    fn each_kind(&mut self) {
        for kind in RECORDS {
            let first = any_first(&mut self.random, SMALL);
            let record = kind(&mut self.random, SMALL.inspect_bytes_most + 1);
            let most = bytes_taken(&first, &record);
            let any = self.random.between(0, most);
            [most, most + 1, any].into_iter().for_each(|length| self.inspecting(&first, record[..length].to_vec()));
        }
    }

    /// A record that ends in this word before one of these cells, over any page with this value in the word.
    pub fn ending(&mut self, shape: Shape, index: usize, value: u32, cells: &[usize]) {
        let (first, record) = first_and_record_ending(&mut self.random, shape, index, value, cells);
        self.inspecting(&first, record);
    }

    /// Records that end before cell 44, before cell 45, and after it, in words whose cell 45 the first record has set,
    /// and in words whose cell 45 it has not.
    fn last_cells(&mut self) {
        let ends = [(44, [0, 1]), (45, [3, SPARSE_VALUE]), (46, [2, EDGE_VALUE])];
        for (index, (cell, values)) in END_INDICES.into_iter().flat_map(|index| ends.map(|end| (index, end))) {
            values.into_iter().for_each(|value| self.ending(SMALL, index, value, &[cell]));
        }
    }

    /// Records whose last bit is the last of a word, and the first of the next one: over a cell 0, and over a pair 10.
    fn word_ends(&mut self) {
        for (index, next, cell) in [(0, 0, 1), (20, EDGE_VALUE, 2), (42, 0, 1)] {
            let value = self.random.draw() as u32;
            self.ending(SMALL, index, value, &[45, 46]);
            self.ending(SMALL, index + 1, next, &[cell]);
        }
    }

    /// Records far too long.
    fn far_inspects(&mut self) {
        for (turn, length) in records_longer_than(SMALL.inspect_bytes_most).enumerate() {
            let first = any_first(&mut self.random, SMALL);
            let record = RECORDS[turn % RECORDS.len()](&mut self.random, length);
            self.page(Entry::WriteInspect, &first, record);
        }
    }

    /// Neighbours and sums too large in chosen words of first-round pages, and in two words; with records that fit and
    /// with one too long.
    fn illegal_inspects(&mut self) {
        for (turn, index) in INDICES.into_iter().enumerate() {
            let first = any_first(&mut self.random, SMALL);
            let pair = with_neighbours(words_of(&first)[index], [0, 21, 44][turn % 3]);
            let sum = sum_too_large(&mut self.random);
            let page = with_word(first.clone(), index, if turn % 2 == 0 { pair } else { sum });
            self.page_with(Entry::WriteInspect, &page, [0, 20, 248][turn % 3]);
            if turn % 4 == 1 {
                self.page_with(Entry::WriteInspect, &with_word(page, SMALL.words - 1, pair), 20);
            }
        }
    }

    /// Two neighbouring cells set after the last bit of a record: right after it, at the end of its word, at the start of
    /// the next one, and in the last one; and the lower of two words.
    fn neighbours_after_the_record(&mut self) {
        for (index, cell) in [(0, 10), (1, 21), (20, 30), (42, 41)] {
            let cells = [cell, cell + 1, cell + 2];
            let (first, record) = first_and_record_ending(&mut self.random, SMALL, index, 77, &cells);
            let page = inspect_page(&first, &record);
            let end = byte_ends(&page)[record.len() - 1].1;
            for (of, cell) in [(index, end), (index, CELLS - 2), (index + 1, 0), (SMALL.words - 1, CELLS - 2)] {
                let cells = with_neighbours(words_of(&page)[of], cell);
                self.page_with(Entry::ReadInspect, &with_word(page.clone(), of, cells), 9);
            }
            let two = with_word(page, index + 1, with_neighbours([false; CELLS], 9));
            let two = with_word(two, SMALL.words - 1, sum_too_large(&mut self.random));
            self.page_with(Entry::ReadInspect, &two, 9);
        }
    }

    /// Sums too large in words that the record walks whole, ends in, and does not reach: with no pair, and with pairs in
    /// the walk.
    fn sums(&mut self) {
        let zeros = inspect_page(&page_of(SMALL, 0), &[0; 20]);
        let any = sum_too_large(&mut self.random);
        for cells in [cells_with_sum(LARGEST_VALUE + 1), any, large_sum_with_pairs()] {
            for index in [0, 3, 4, 43] {
                self.page_with(Entry::ReadInspect, &with_word(zeros.clone(), index, cells), 20);
            }
        }
        // The largest sum that is legal.
        for index in [0, 3, 43] {
            let page = with_word(zeros.clone(), index, cells_with_sum(LARGEST_VALUE));
            self.page_with(Entry::ReadInspect, &page, 20);
        }
    }

    /// Lengths that the walks reach with their last bits, and lengths that they end before, by one bit and by more; and
    /// such a length with a word that is not legal.
    fn lengths_too_large(&mut self) {
        for fewer in 4..=6 {
            let first = first_taking_less(SMALL, fewer);
            self.page(Entry::WriteInspect, &first, vec![0; 247]);
            self.page_with(Entry::ReadInspect, &naming(&first, 247), 247);
        }
        for (turn, index) in INDICES.into_iter().take(6).enumerate() {
            let first = any_first(&mut self.random, SMALL);
            let page = inspect_page(&first, &record_for(&mut self.random, &first, 0));
            let most = bits_in(&page) / 8;
            for length in [most, most + 1, SMALL.inspect_bytes_most] {
                self.page_with(Entry::ReadInspect, &with_length(page.clone(), length), 20 * turn);
            }
            let sum = with_word(page, index, sum_too_large(&mut self.random));
            self.page_with(Entry::ReadInspect, &with_length(sum, SMALL.inspect_bytes_most), 20);
        }
    }

    /// Pages with one bit flipped.
    fn inspect_flips(&mut self) {
        for _ in 0..10 {
            let bit = self.random.between(24, 8 * SMALL.bytes - 1);
            let first = with_flip(any_first(&mut self.random, SMALL), bit);
            self.page_with(Entry::WriteInspect, &first, 30);
            let page = with_flip(any_inspect(&mut self.random, SMALL), bit);
            self.page_with(Entry::ReadInspect, &page, 100);
        }
    }

    /// States and header bytes out of their ranges, at the ends of these.
    fn inspect_headers(&mut self) {
        let states = [(0, 0x00), (0, 0x02), (0, 0x08), (0, 0x0B), (0, 0x89), (0, 0xFF)];
        let header_bytes = [(1, 1), (1, 126), (1, 247), (1, 248), (1, 255), (2, 1), (2, 128)];
        for (place, byte) in states.into_iter().chain(header_bytes) {
            let first = with_byte(any_first(&mut self.random, SMALL), place, byte);
            self.page_with(Entry::WriteInspect, &first, 9);
            let page = with_byte(any_inspect(&mut self.random, SMALL), place, byte);
            self.page_with(Entry::ReadInspect, &page, 9);
        }
    }

    /// Valid pages of another state for the entries of the Inspect code, and pages of that code for the other entries.
    fn inspect_states(&mut self) {
        let pages = [blank, any_first, any_filled, any_second, any_inspect].map(|page| page(&mut self.random, SMALL));
        for (entry, page) in Entry::OF_PAGES.into_iter().flat_map(|entry| pages.iter().map(move |page| (entry, page))) {
            let inspect = Entry::OF_INSPECT.contains(&entry) || page[0] == INSPECTED;
            if inspect && !entry.states().contains(&page[0]) {
                self.page_with(entry, page, if entry == Entry::WriteFirst { SMALL.first_bytes } else { 1 });
            }
        }
    }

    /// Cells that are sound in states 01, 03, 07 and 09 alike, so that the state alone decides.
    fn alike_inspects(&mut self) {
        let first = first_page(&by_turns(SMALL, &[SPARSE_VALUE, ODD_VALUE]));
        for entry in Entry::OF_INSPECT {
            for state in [0x01, 0x03, 0x07, 0x09] {
                self.page_with(entry, &with_byte(first.clone(), 0, state), 20);
            }
        }
        let page = with_byte(first, 0, INSPECTED);
        for entry in [Entry::ReadFirst, Entry::PageCapacity, Entry::FillPage, Entry::WriteSecond, Entry::ReadSecond] {
            self.page_with(entry, &page, 20);
        }
    }

    /// Wrong lengths of the page.
    fn inspect_page_lengths(&mut self) {
        for length in NO_PAGE_LENGTHS {
            let [first, page] = [any_first, any_inspect].map(|page| page(&mut self.random, SMALL));
            let first = resized(&mut self.random, first, length);
            self.page_with(Entry::WriteInspect, &first, length % 3);
            let page = resized(&mut self.random, page, length);
            self.page_with(Entry::ReadInspect, &page, 20);
        }
    }

    /// Outputs of read inspect: one short, exact and longer.
    fn inspect_outputs(&mut self) {
        let short: [(Contents, usize, [usize; 3]); 2] = [(zeros, 0, [0, 1, 5]), (any_bytes, 1, [0, 1, 2])];
        let long: [(Contents, usize, [usize; 3]); 2] =
            [(any_bytes, 126, [125, 126, 127]), (zeros, 247, [246, 247, 250])];
        for (kind, length, outputs) in short.into_iter().chain(long) {
            let page = inspect_page(&page_of(SMALL, 2), &kind(&mut self.random, length));
            outputs.into_iter().for_each(|length| self.page_with(Entry::ReadInspect, &page, length));
        }
    }
}

#[cfg(test)]
mod tests {
    use super::*;
    use crate::answer::{number, Answer, Refusal};
    use crate::inspect::{walks_of, without_pairs, Step};
    use crate::page::{length_of, FIRST_ROUND};
    use crate::vectors::tests::performed;
    use crate::word::{has_neighbours, sum, LAST_CELL};
    use std::collections::HashSet;
    use std::sync::LazyLock;

    /// The calls, performed once for all tests.
    static PERFORMED: LazyLock<Vec<(Call, Call, Answer)>> = LazyLock::new(|| performed(calls()));

    /// The calls of the entry.
    fn of_entry(entry: Entry) -> impl Iterator<Item = &'static (Call, Call, Answer)> {
        PERFORMED.iter().filter(move |(call, ..)| call.entry == entry)
    }

    /// The pages of accepted calls of the entry with their records, as they are after the call.
    fn accepted(entry: Entry) -> impl Iterator<Item = &'static [u8]> {
        of_entry(entry).filter(|(.., answer)| answer.is_ok()).map(|(_, after, _)| &after.page[..])
    }

    /// The figures of Change 7: pages of one value, what the record is filled with, its length, and the answer.
    #[test]
    fn the_ends_of_what_goes_in() {
        let met: Vec<_> =
            of_entry(Entry::WriteInspect).map(|(call, _, answer)| (&call.page, &call.other, *answer)).collect();
        for (value, byte, most, bits) in [
            (0, 0xFF, 126, 1_012),
            (0, 0x00, 247, 1_980),
            (SPARSE_VALUE, 0xFF, 126, 1_012),
            (SPARSE_VALUE, 0x00, 165, 1_320),
            (ODD_VALUE, 0x00, 126, 1_012),
            (EDGE_VALUE, 0x00, 242, 1_936),
            (3, 0x00, 242, 1_936),
        ] {
            let first = page_of(SMALL, value);
            let refused = Err(Refusal::record_length(bits));
            for (length, answer) in [(most, Ok(0)), (most + 1, refused)] {
                assert!(met.contains(&(&first, &vec![byte; length], answer)), "{value} {byte} {length}");
            }
        }
        for length in [0, 1] {
            assert!(met.iter().any(|(_, record, answer)| record.len() == length && answer.is_ok()), "{length}");
        }
    }

    /// What is accepted by the writer is read back right after it, into an output of just its length.
    #[test]
    fn outcomes_are_read_back() {
        let pairs = PERFORMED.windows(2).filter(|two| two[0].0.entry == Entry::WriteInspect && two[0].2.is_ok());
        let back = pairs.filter(|two| two[1].0.entry == Entry::ReadInspect && two[1].0.page == two[0].1.page);
        let same: Vec<bool> = back.map(|two| two[1].1.other == two[0].0.other).collect();
        assert!(same.len() > 60 && !same.contains(&false), "{}", same.len());
    }

    /// A 1 over 00, over 01 and over 10, and a 0 over each: the pair before, and the bit.
    #[test]
    fn each_bit_over_each_pair() {
        let first_step = |(before, after, _): &(Call, Call, Answer)| {
            let (cells, steps) = (words_of(&before.page)[0], &walks_of(&after.page)[0]);
            steps.first().map(|step| (cells[0], cells[1], step.bit))
        };
        let written = of_entry(Entry::WriteInspect).filter(|(.., answer)| answer.is_ok());
        let met: HashSet<_> = written.filter_map(first_step).collect();
        assert_eq!(met.len(), 6, "{met:?}");
    }

    /// Where the record of a page ends: the word of its last bit, and the cell after this.
    fn end_of(page: &[u8]) -> Option<(usize, usize)> {
        byte_ends(page).last().copied()
    }

    /// Both entries accept records that end before cell 44, before cell 45 and after it, with cell 45 set by the first
    /// record and not; and records that end with the first bit of a word.
    #[test]
    fn records_that_end_at_the_ends_of_words() {
        let ends = |(before, after, _): &(Call, Call, Answer)| {
            end_of(&after.page).map(|(index, cell)| (index, cell, words_of(&before.page)[index][LAST_CELL]))
        };
        let met: HashSet<_> =
            of_entry(Entry::WriteInspect).filter(|(.., answer)| answer.is_ok()).filter_map(ends).collect();
        let read: HashSet<_> = accepted(Entry::ReadInspect).filter_map(end_of).collect();
        for (index, cell) in END_INDICES.into_iter().flat_map(|index| [44, 45, 46].map(|cell| (index, cell))) {
            assert!(met.contains(&(index, cell, true)) && met.contains(&(index, cell, false)), "{index} {cell}");
            assert!(read.contains(&(index, cell)), "{index} {cell}");
        }
        let alone =
            |page: &&[u8]| walks_of(page).iter().rfind(|steps| !steps.is_empty()).is_some_and(|steps| steps.len() == 1);
        assert!(accepted(Entry::ReadInspect).filter(alone).count() >= 3);
    }

    /// A read pair in the last two cells of a word, and one that a set cell 45 stands beside.
    #[test]
    fn pairs_at_the_ends_of_words() {
        for entry in Entry::OF_INSPECT {
            let last_pairs = |page: &[u8]| {
                let words = words_of(page);
                let lasts = walks_of(page).into_iter().zip(words);
                let last = |(steps, cells): (Vec<Step>, Cells)| {
                    steps.last().map(|step| (step.bit, step.cell, cells[LAST_CELL]))
                };
                lasts.filter_map(last).collect::<Vec<_>>()
            };
            let met: HashSet<_> = accepted(entry).flat_map(last_pairs).collect();
            assert!(
                met.contains(&(true, 44, true)) && met.contains(&(true, 43, true)) && met.contains(&(true, 43, false))
            );
        }
    }

    /// The word that 7 of the reader names: whether the record ends before it, in it or after it, and whether it has
    /// neighbours, or pairs that are read.
    fn flaw(page: &[u8], index: usize) -> (&'static str, bool, bool) {
        let (words, walks) = (words_of(page), walks_of(page));
        let place = match &walks[index][..] {
            [] => "before",
            [.., last] if last.next < LAST_CELL => "in",
            _ => "after",
        };
        let left = without_pairs(&words, &walks)[index];
        assert!(has_neighbours(&left) || sum(&left) > LARGEST_VALUE);
        (place, has_neighbours(&left), left != words[index])
    }

    #[test]
    fn words_that_are_not_legal_with_the_read_pairs_put_to_00() {
        let named = of_entry(Entry::ReadInspect).filter(|(.., answer)| number(*answer) == 7);
        let met: HashSet<_> =
            named.map(|(call, _, answer)| flaw(&call.page, answer.unwrap_err().index as usize)).collect();
        for one in [
            ("before", true, false),
            ("before", false, false),
            ("in", true, false),
            ("in", true, true),
            ("in", false, false),
            ("after", false, false),
            ("after", false, true),
        ] {
            assert!(met.contains(&one), "never {one:?}");
        }
    }

    /// How many bits the walks lack, up to 8, and the answer's number.
    #[test]
    fn lengths_about_what_the_walks_take() {
        let lacking = |(call, _, answer): &(Call, Call, Answer)| {
            let bits = matches!(number(*answer), 0 | 3 | 9).then(|| bits_in(&call.page) as isize);
            bits.map(|bits| (8 * length_of(&call.page) as isize - bits, number(*answer)))
        };
        let met: HashSet<_> = of_entry(Entry::ReadInspect).filter_map(lacking).collect();
        for one in [(0, 0), (1, 9), (2, 9)] {
            assert!(met.contains(&one), "never {one:?}");
        }
        let both = |(call, _, answer): &&(Call, Call, Answer)| {
            number(*answer) == 7 && 8 * length_of(&call.page) > bits_in(&call.page)
        };
        assert!(of_entry(Entry::ReadInspect).filter(both).count() >= 6);
    }

    #[test]
    fn outputs_one_short_exact_and_longer() {
        let met: HashSet<_> = of_entry(Entry::ReadInspect)
            .filter(|(call, ..)| call.page.len() == SMALL.bytes)
            .map(|(call, _, answer)| (length_of(&call.page), call.other.len(), number(*answer)))
            .collect();
        for (length, output) in [(1, 1), (126, 126), (247, 247)] {
            assert!(met.contains(&(length, output - 1, 3)) && met.contains(&(length, output, 0)), "{length}");
            assert!(
                met.iter().any(|(of, longer, number)| *of == length && *longer > output && *number == 0),
                "{length}"
            );
        }
    }

    /// Every state that another entry asks for, and unknown ones; byte 1 and byte 2 each by itself.
    #[test]
    fn states_and_header_bytes() {
        for (entry, state, most) in [(Entry::WriteInspect, FIRST_ROUND, 0), (Entry::ReadInspect, INSPECTED, 247)] {
            let whole = of_entry(entry).filter(|(call, ..)| call.page.len() == SMALL.bytes);
            let met: HashSet<_> = whole.map(|(call, _, answer)| (call.page[..3].to_vec(), number(*answer))).collect();
            for other in [0x00, 0x01, 0x03, 0x07, 0x08, 0x09, 0x0B].into_iter().filter(|other| *other != state) {
                assert!(met.iter().any(|(header, number)| header[0] == other && *number == 5), "{other}");
            }
            let byte_1 = |header: &[u8]| header[0] == state && header[1] == most + 1 && header[2] == 0;
            let byte_2 = |header: &[u8]| header[0] == state && header[1] <= most && header[2] == 1;
            assert!(met.iter().any(|(header, number)| byte_1(header) && *number == 6));
            assert!(met.iter().any(|(header, number)| byte_2(header) && *number == 6));
        }
        let others = PERFORMED.iter().filter(|(call, ..)| !Entry::OF_INSPECT.contains(&call.entry));
        let refused: HashSet<_> =
            others.map(|(call, _, answer)| (call.entry.number(), call.page[0], number(*answer))).collect();
        assert_eq!(refused, HashSet::from([(4, 9, 4), (5, 9, 5), (6, 9, 5), (7, 9, 5), (8, 9, 5), (10, 9, 5)]));
    }
}
