//! The fixed calls of the Inspect code with pages of 512 bytes, a few of each kind, and those about lengths of two bytes on
//! both sizes.

use super::inspect::large_sum_with_pairs;
use super::Script;
use crate::call::{Call, Entry};
use crate::cases::damage::{choices, combined};
use crate::cases::inspect::{any_inspect, bits_in, first_taking_less, inspect_page, naming, sparse};
use crate::cases::lengths::END_LENGTHS;
use crate::cases::pages::*;
use crate::cases::words::{sum_too_large, with_neighbours, EDGE_VALUE, ODD_VALUE, SPARSE_VALUE};
use crate::page::words_of;
use crate::random::Random;
use crate::shape::{Shape, LARGE};
use crate::word::CELLS;

const SEED: u64 = 495;

/// Words about the middle of the page, and the last: word 43 ends with byte 255, and word 44 starts with byte 256.
const INDICES: [usize; 4] = [43, 44, 45, 87];

/// Lengths for bytes 1 and 2: about each limit and what one byte names, with a byte 1 alone that a page may have, and with a
/// byte 2 that 512 bytes may have and that they may not.
const LENGTHS: [usize; 15] = [126, 127, 247, 248, 253, 254, 255, 256, 257, 382, 495, 496, 512, 0xFF00 + 126, 0xFFFF];

/// The calls. Their bytes are drawn apart from those of the other calls.
pub fn calls() -> Vec<Call> {
    let mut script = Script { random: Random::new(SEED), calls: Vec::new() };
    script.large_inspect_figures();
    script.large_inspect_records();
    script.large_inspect_ends();
    script.large_inspect_starts();
    script.large_inspect_words();
    script.large_inspect_halves();
    script.large_inspect_flips();
    script.large_inspect_outputs();
    Entry::OF_INSPECT.into_iter().for_each(|entry| script.pairs_of(entry, LARGE));
    Shape::BOTH.into_iter().for_each(|shape| script.lengths_of_two_bytes(shape));
    script.calls
}

impl Script {
    /// The figures of Change 9: records of zeros and of ones about the ends of what goes in, over words of which a zero record
    /// takes 45, 30 and 23 bits.
    fn large_inspect_figures(&mut self) {
        for (value, byte, most) in [(0, 0x00, 495), (0, 0xFF, 253), (SPARSE_VALUE, 0x00, 330), (ODD_VALUE, 0x00, 253)] {
            let first = page_of(LARGE, value);
            [most, most + 1].into_iter().for_each(|length| self.inspecting(&first, vec![byte; length]));
        }
    }

    /// Records of the lengths at the ends over any page, or over the page of zeros where it takes no others; and some too long.
    fn large_inspect_records(&mut self) {
        for length in END_LENGTHS.into_iter().filter(|&length| length < 300) {
            let record = sparse(&mut self.random, length);
            let first = first_page(&drawn_values(&mut self.random, LARGE, any_bits));
            self.inspecting(&first, record);
        }
        [494, 512, 1_000].into_iter().for_each(|length| self.inspecting(&page_of(LARGE, 0), vec![0; length]));
    }

    /// Records that end in chosen words: before cell 44, before cell 45, and after it.
    fn large_inspect_ends(&mut self) {
        for (turn, index) in INDICES.into_iter().enumerate() {
            let ends = [(44, [0, 1]), (45, [3, SPARSE_VALUE]), (46, [2, EDGE_VALUE])];
            ends.into_iter().for_each(|(cell, values)| self.ending(LARGE, index, values[turn % 2], &[cell]));
        }
        // The first bit of word 44 is the last of the record.
        self.ending(LARGE, 44, 0, &[1]);
    }

    /// Zero records of 248 and of 249 bytes, where word 44 or word 45 starts with each bit of byte 247 of the record and with
    /// some of byte 248: words before it take one bit less.
    fn large_inspect_starts(&mut self) {
        for (fewer, length) in [(0, 248), (1, 248), (2, 248), (3, 248), (4, 248), (42, 248), (43, 249), (40, 249)] {
            let mut values = vec![0; LARGE.words];
            values[..fewer].fill(3);
            self.inspecting(&first_page(&values), vec![0; length]);
        }
    }

    /// Chosen words that are not legal: for the writer, and for the reader with no record, with one that ends in word 53, and
    /// with pairs that it reads; and the lower of two words, in both halves.
    fn large_inspect_words(&mut self) {
        let zeros = inspect_page(&page_of(LARGE, 0), &[0; 300]);
        for (turn, index) in INDICES.into_iter().enumerate() {
            let first = any_first(&mut self.random, LARGE);
            let sum = sum_too_large(&mut self.random);
            let pair = with_neighbours(words_of(&first)[index], [0, 21, 44][turn % 3]);
            let bad = with_word(first.clone(), index, if turn % 2 == 0 { pair } else { sum });
            self.page_with(Entry::WriteInspect, &bad, [0, 20, 496][turn % 3]);
            for cells in [pair, sum] {
                self.page_with(Entry::ReadInspect, &naming(&with_word(first.clone(), index, cells), 0), 9);
            }
            for cells in [sum, large_sum_with_pairs()] {
                self.page_with(Entry::ReadInspect, &with_word(zeros.clone(), index, cells), 9);
            }
        }
        for (low, high) in [(0, 44), (43, 44), (43, 87), (44, 87)] {
            let two = with_word(any_first(&mut self.random, LARGE), high, with_neighbours([false; CELLS], 9));
            let two = with_word(two, low, sum_too_large(&mut self.random));
            self.page_with(Entry::WriteInspect, &two, 20);
            self.page_with(Entry::ReadInspect, &naming(&two, 0), 9);
        }
        // Two neighbours in the last word, which the record does not reach, and in one that it does.
        for index in [44, 87] {
            let neighbours = with_neighbours([false; CELLS], 20);
            self.page_with(Entry::ReadInspect, &with_word(zeros.clone(), index, neighbours), 300);
        }
    }

    /// Lengths that the walks reach with their last byte, and lengths that they end before, by one bit and by more: where all
    /// words take the least bits but some of one half, and where all but some take the most.
    fn large_inspect_halves(&mut self) {
        let half = LARGE.words / 2;
        let whole = vec![0; half];
        let others = [&[][..], &[0], &[0, SPARSE_VALUE], &whole];
        for (others, start) in others.into_iter().flat_map(|others| [(others, 0), (others, half)]) {
            let mut values = vec![ODD_VALUE; LARGE.words];
            values[start..start + others.len()].copy_from_slice(others);
            let first = first_page(&values);
            let most = bits_in(&first) / 8;
            for length in [most, most + 1] {
                self.page_with(Entry::ReadInspect, &naming(&first, length), 20);
            }
        }
        for fewer in [0, 1, 8] {
            let first = first_taking_less(LARGE, fewer);
            self.page_with(Entry::ReadInspect, &naming(&first, 495), 495);
        }
        self.page(Entry::WriteInspect, &first_taking_less(LARGE, 1), vec![0; 495]);
    }

    /// Pages with one bit flipped.
    fn large_inspect_flips(&mut self) {
        for turn in 0..8 {
            let bit = self.random.between(24, 8 * LARGE.bytes - 25);
            let page = with_flip(any_inspect(&mut self.random, LARGE), bit);
            self.page_with(Entry::ReadInspect, &page, 60);
            if turn % 4 == 0 {
                let first = with_flip(any_first(&mut self.random, LARGE), bit);
                self.page_with(Entry::WriteInspect, &first, 30);
            }
        }
    }

    /// Outputs of read inspect: empty, one short, exact and longer; of 256 bytes, byte 1 alone tells none.
    fn large_inspect_outputs(&mut self) {
        for length in [0, 1, 253, 256, 495] {
            let byte = if length == 495 { 0 } else { 1 };
            let page = inspect_page(&page_of(LARGE, 2), &vec![byte; length]);
            let outputs = [0, length.saturating_sub(1), length, length + 3];
            outputs.into_iter().for_each(|length| self.page_with(Entry::ReadInspect, &page, length));
        }
    }

    /// Every choice of none, one or two of the entry's conditions at once, so that the order of refusals shows.
    fn pairs_of(&mut self, entry: Entry, shape: Shape) {
        for chosen in (0..choices(entry)).filter(|chosen| chosen.count_ones() <= 2) {
            let call = combined(&mut self.random, entry, chosen, shape);
            self.add(call);
        }
    }

    /// Lengths in bytes 1 and 2 of second-round pages of both codes, whose cells would be sound with any of them; and on pages
    /// of the other states, bytes 1 and 2 that are 0 together by exclusive or, and as a sum in 8 bits.
    fn lengths_of_two_bytes(&mut self, shape: Shape) {
        let first = page_of(shape, 0);
        let pages = [(Entry::ReadSecond, second_page(&first, &[])), (Entry::ReadInspect, naming(&first, 0))];
        for (length, (entry, page)) in
            LENGTHS.into_iter().flat_map(|length| pages.iter().map(move |page| (length, page)))
        {
            self.page_with(*entry, &with_length(page.clone(), length), 20);
        }
        for (length, page) in
            [257, 0xFF01].into_iter().flat_map(|length| [(length, first.clone()), (length, filled_page(&first))])
        {
            self.page_with(Entry::PageCapacity, &with_length(page, length), 0);
        }
        for length in [256, 257] {
            self.page_with(Entry::WriteInspect, &with_length(first.clone(), length), 20);
            self.page_with(Entry::WriteSecond, &with_length(filled_page(&first), length), 20);
        }
    }
}

#[cfg(test)]
mod tests {
    use super::*;
    use crate::answer::{number, Answer, Refusal};
    use crate::case::Place;
    use crate::cases::inspect::byte_ends;
    use crate::coverage::Coverage;
    use crate::page::{length_of, longest_named};
    use crate::vectors::tests::performed;
    use std::collections::HashSet;
    use std::sync::LazyLock;

    /// The calls, performed once for all tests.
    static PERFORMED: LazyLock<Vec<(Call, Call, Answer)>> = LazyLock::new(|| performed(calls()));

    /// The calls of the entry with a page of this shape.
    fn of_entry(entry: Entry, shape: Shape) -> impl Iterator<Item = &'static (Call, Call, Answer)> {
        PERFORMED.iter().filter(move |(call, ..)| call.entry == entry && call.page.len() == shape.bytes)
    }

    /// Each entry of the Inspect code is accepted on 512 bytes, and refused by each of its numbers but 1.
    #[test]
    fn every_answer_on_512_bytes() {
        for entry in Entry::OF_INSPECT {
            let met: HashSet<u8> = of_entry(entry, LARGE).map(|(.., answer)| number(*answer)).collect();
            let wanted = [0].iter().chain(entry.refusals()).copied().filter(|&number| number != 1);
            assert_eq!(met, wanted.collect(), "{}", entry.name());
        }
    }

    /// "Inspect on the large page can hold 495 bytes", and "253 bytes always go in".
    #[test]
    fn the_figures_of_change_9() {
        let met: Vec<_> =
            of_entry(Entry::WriteInspect, LARGE).map(|(call, _, answer)| (&call.page, &call.other, *answer)).collect();
        for (value, byte, most, bits) in [
            (0, 0x00, 495, 3_960),
            (0, 0xFF, 253, 2_024),
            (SPARSE_VALUE, 0x00, 330, 2_640),
            (ODD_VALUE, 0x00, 253, 2_024),
        ] {
            let first = page_of(LARGE, value);
            for (length, answer) in [(most, Ok(0)), (most + 1, Err(Refusal::record_length(bits)))] {
                assert!(met.contains(&(&first, &vec![byte; length], answer)), "{value} {byte} {length}");
            }
        }
    }

    /// Records of each length at an end are written, with the length in both bytes, and read back right after it.
    #[test]
    fn records_at_the_ends() {
        let pairs = PERFORMED.windows(2).filter(|two| two[0].0.entry == Entry::WriteInspect && two[0].2.is_ok());
        let back = pairs.filter(|two| two[1].0.entry == Entry::ReadInspect && two[1].0.page == two[0].1.page);
        let read: Vec<_> = back.map(|two| (&two[0].0.other, &two[1].1.other, &two[0].1.page[..3])).collect();
        assert!(read.iter().all(|(written, read, _)| written == read));
        for length in END_LENGTHS.into_iter().filter(|&length| length <= 495) {
            let header = [0x09, (length % 256) as u8, (length / 256) as u8];
            assert!(read.iter().any(|(record, _, met)| record.len() == length && **met == header), "{length}");
        }
        let refused: HashSet<usize> = of_entry(Entry::WriteInspect, LARGE)
            .filter(|(.., answer)| number(*answer) == 8)
            .map(|(call, ..)| call.other.len())
            .collect();
        assert!([254, 496, 512, 1_000].iter().all(|length| refused.contains(length)), "{refused:?}");
    }

    /// Both entries accept records that end in each of the chosen words before cell 44, before cell 45 and after it.
    #[test]
    fn records_that_end_in_chosen_words() {
        for entry in Entry::OF_INSPECT {
            let accepted = of_entry(entry, LARGE).filter(|(.., answer)| answer.is_ok());
            let met: HashSet<_> = accepted.filter_map(|(_, after, _)| byte_ends(&after.page).last().copied()).collect();
            let wanted = INDICES.into_iter().flat_map(|index| [44, 45, 46].map(|cell| (index, cell)));
            for end in wanted.chain([(44, 1)]) {
                assert!(met.contains(&end), "{} {end:?}", entry.name());
            }
        }
    }

    /// What the coverage of a run counts of the Inspect code on 512 bytes, but each word and each bit.
    #[test]
    fn counters_of_a_run() {
        let mut coverage = Coverage::new();
        PERFORMED.iter().for_each(|(call, _, answer)| coverage.count(call, Place::Canaries, *answer));
        let met: HashSet<String> =
            coverage.wanted().into_iter().filter(|(_, met)| *met > 0).map(|(name, _)| name).collect();
        let both = ["a word of 23 bits", "a word of 45 bits"].map(|name| format!("accepted, {name}"));
        let starts = (1_976..=1_983).map(|bit| format!("accepted, a word starts with bit {bit}"));
        let halves = ["7 with a bad word in each half".to_string()];
        for name in both.into_iter().chain(starts).chain(halves) {
            for entry in Entry::OF_INSPECT {
                let name = format!("{} {name}, on 512 bytes", entry.name());
                assert!(met.contains(&name), "{name}");
            }
        }
        let outputs = ["empty", "one short", "exact", "longer"].map(|kind| format!("an output {kind}"));
        let outputs = outputs.into_iter().flat_map(|name| [format!("{name} for more than 255 bytes"), name]);
        let short = ["first", "second"].map(|half| format!("9 with fewer bits in the {half} half"));
        for name in outputs.chain(short) {
            assert!(met.contains(&format!("read inspect {name}, on 512 bytes")), "{name}");
        }
    }

    /// 7 of both entries names each of the chosen words, and the lower of two.
    #[test]
    fn every_chosen_word() {
        for (entry, index) in Entry::OF_INSPECT.into_iter().flat_map(|entry| INDICES.map(|index| (entry, index))) {
            let refused = Err(Refusal::word(index));
            assert!(of_entry(entry, LARGE).any(|(.., answer)| *answer == refused), "{} {index}", entry.name());
        }
    }

    /// The walks lack one bit, or end with the last.
    #[test]
    fn lengths_about_what_the_walks_take() {
        let lacking = |(call, _, answer): &(Call, Call, Answer)| {
            let bits = matches!(number(*answer), 0 | 3 | 9).then(|| bits_in(&call.page) as isize);
            bits.map(|bits| (length_of(&call.page), 8 * length_of(&call.page) as isize - bits, number(*answer)))
        };
        let met: HashSet<_> = of_entry(Entry::ReadInspect, LARGE).filter_map(lacking).collect();
        let reached = [(495, 0, 0), (253, 0, 3), (374, 0, 3), (255, -6, 3), (256, -5, 3)];
        let not = [(495, 1, 9), (254, 8, 9), (375, 8, 9), (256, 2, 9), (257, 3, 9)];
        for one in reached.into_iter().chain(not) {
            assert!(met.contains(&one), "never {one:?}");
        }
    }

    /// On both sizes and by both codes the limit alone divides the lengths in bytes 1 and 2.
    #[test]
    fn every_length_of_two_bytes() {
        for (shape, entry) in
            Shape::BOTH.into_iter().flat_map(|shape| [(shape, Entry::ReadSecond), (shape, Entry::ReadInspect)])
        {
            let most = longest_named(shape, entry.states()[0]);
            let met: HashSet<_> =
                of_entry(entry, shape).map(|(call, _, answer)| (length_of(&call.page), number(*answer))).collect();
            for length in LENGTHS {
                assert!(met.contains(&(length, if length <= most { 3 } else { 6 })), "{} {length}", entry.name());
            }
        }
        for (entry, shape) in Entry::with_shapes(&[Entry::PageCapacity, Entry::WriteSecond, Entry::WriteInspect]) {
            let refused = of_entry(entry, shape).filter(|(.., answer)| number(*answer) == 6);
            assert!(refused.filter(|(call, ..)| length_of(&call.page) == 257).count() >= 1, "{}", entry.name());
        }
    }
}
