//! The fixed calls with pages of 512 bytes: a few of each kind, since such a page takes twice the room. Where one call of
//! several would do, it is one that prints no page.

use super::{records_longer_than, Script};
use crate::call::{Call, Entry};
use crate::cases::inspect::{any_inspect, inspect_page};
use crate::cases::lengths::{resized, resized_with, wrong_data_lengths, AFTER_A_PAGE, NO_PAGE_LENGTHS};
use crate::cases::pages::*;
use crate::cases::words::{
    never_sound, sum_too_large, value_with_pulses, with_bare_hole, with_hole, with_neighbours, with_one_data_cell,
    Hole, EDGE_VALUE, END_VALUES, ODD_VALUE, SPARSE_VALUE,
};
use crate::page::{data_cells_of, words_of};
use crate::random::Random;
use crate::shape::{LARGE, SMALL};
use crate::word::{cells_with_sum, CELLS, LARGEST_VALUE};

const SEED: u64 = 2_024;

/// The first two words, one in the middle, those about byte 256, and the last two: word 43 ends with byte 255, and word 44
/// starts with byte 256.
const INDICES: [usize; 8] = [0, 1, 21, 43, 44, 45, 86, 87];

/// A valid page of each state.
const MAKERS: [Maker; 5] = [blank, any_first, any_filled, any_second, any_inspect];

/// For pages of each state but a blank one, an entry that takes them and prints no page.
const READERS: [(Maker, Entry); 5] = [
    (any_first, Entry::ReadFirst),
    (any_first, Entry::PageCapacity),
    (any_filled, Entry::PageCapacity),
    (any_second, Entry::ReadSecond),
    (any_inspect, Entry::ReadInspect),
];

/// The same for those that print one.
const WRITERS: [(Maker, Entry); 3] =
    [(any_first, Entry::FillPage), (any_filled, Entry::WriteSecond), (any_first, Entry::WriteInspect)];

/// The calls with pages of 512 bytes. Their bytes are drawn apart from those of the other calls.
pub fn calls() -> Vec<Call> {
    let mut script = Script { random: Random::new(SEED), calls: Vec::new() };
    script.large_figures();
    script.large_rounds();
    script.large_records();
    script.large_words();
    script.large_ends();
    script.large_data_cells();
    script.large_headers();
    script.tails();
    script.tails_and_more();
    script.large_states();
    script.large_lengths();
    script.other_sizes();
    script.large_data_lengths();
    script.large_first_outputs();
    script.large_second_outputs();
    let entries = Entry::OF_PAGES.into_iter().filter(|entry| !Entry::OF_INSPECT.contains(entry));
    entries.for_each(|entry| script.orders_of(entry, LARGE));
    script.calls
}

impl Script {
    /// The figures of Change 8: 253 bytes over 2,024 bits and 165 over 1,320 are accepted, one byte more is refused 8.
    fn large_figures(&mut self) {
        [(0, 253), (SPARSE_VALUE, 165)].into_iter().for_each(|(value, most)| self.listed_page(LARGE, value, most));
        [(0, 252), (SPARSE_VALUE, 172)].into_iter().for_each(|(value, most)| self.exact_fit(LARGE, value, most));
    }

    /// Pages of any values through both rounds, with records and outputs of every length class.
    fn large_rounds(&mut self) {
        let fixed = [vec![EDGE_VALUE; LARGE.words], by_turns(LARGE, &END_VALUES)];
        let any = [(); 5].map(|()| any_values(&mut self.random, LARGE));
        for (turn, values) in fixed.into_iter().chain(any).enumerate() {
            self.rounds_of(&values, turn);
        }
        // The words about byte 256 and the last one alone take pulses.
        for (index, pulses) in [(43, 23), (44, 1), (87, 12)] {
            let values = with_value(vec![SPARSE_VALUE; LARGE.words], index, value_with_pulses(pulses));
            self.page(Entry::FillPage, &first_page(&values), Vec::new());
        }
    }

    /// Records about what fits a page of 256 bytes, which fit the larger one too, and records far too long.
    fn large_records(&mut self) {
        let filled = filled_page(&page_of(LARGE, SPARSE_VALUE));
        [82, 83, 126, 127].into_iter().for_each(|length| self.page_with(Entry::WriteSecond, &filled, length));
        for length in records_longer_than(LARGE.second_bytes_most) {
            let filled = any_filled(&mut self.random, LARGE);
            self.page_with(Entry::WriteSecond, &filled, length);
        }
    }

    /// Chosen words that are not as the page's state asks for: neighbours and sums too large, holes and set data cells.
    fn large_words(&mut self) {
        for (turn, index) in INDICES.into_iter().enumerate() {
            let first = any_first(&mut self.random, LARGE);
            let pair = with_neighbours(words_of(&first)[index], [0, 21, 44][turn % 3]);
            for cells in [pair, cells_with_sum(LARGEST_VALUE + 1), sum_too_large(&mut self.random)] {
                let page = with_word(first.clone(), index, cells);
                self.page_with(Entry::ReadFirst, &page, 9);
                self.page_with(Entry::PageCapacity, &page, 0);
            }
            let hole = with_bare_hole(&mut self.random, Hole::ALL[turn % 3]);
            for cells in [hole, with_one_data_cell(&mut self.random), [true; CELLS]] {
                let page = with_word(any_filled(&mut self.random, LARGE), index, cells);
                self.page_with(Entry::PageCapacity, &page, 0);
            }
            for hole in Hole::ALL {
                let cells = with_hole(&mut self.random, hole);
                let page = with_word(any_second(&mut self.random, LARGE), index, cells);
                self.page_with(Entry::ReadSecond, &page, 20);
            }
        }
        self.large_words_for_writers();
    }

    /// Words that the writers refuse, and the lower of two.
    fn large_words_for_writers(&mut self) {
        for (low, high) in [(0, 87), (43, 44), (44, 45), (86, 87)] {
            let sums = [low, high].map(|index| (index, sum_too_large(&mut self.random)));
            let first = any_first(&mut self.random, LARGE);
            let page = sums.into_iter().fold(first, |page, (index, sum)| with_word(page, index, sum));
            self.page_with(Entry::FillPage, &page, 0);
            let hole = with_bare_hole(&mut self.random, Hole::Middle);
            let page = with_word(any_filled(&mut self.random, LARGE), high, hole);
            let page = with_word(page, low, with_one_data_cell(&mut self.random));
            self.page_with(Entry::WriteSecond, &page, 20);
        }
    }

    /// Cell 45 of chosen words flipped, of words that end in each way, on filled pages and under records of 20 bytes; and
    /// any bit flipped.
    fn large_ends(&mut self) {
        for (index, (turn, value)) in
            [44, 87].into_iter().flat_map(|index| (0..).zip(END_VALUES).map(move |end| (index, end)))
        {
            let first = first_page(&with_value(any_values(&mut self.random, LARGE), index, value));
            let filled = FILLINGS[turn % 2](&first);
            let second = written_over(filled.clone(), &self.random.bytes(20));
            self.page_with(Entry::PageCapacity, &with_cell_45_flipped(filled, index), 0);
            self.page_with(Entry::ReadSecond, &with_cell_45_flipped(second, index), 20);
        }
        for _ in 0..8 {
            let bit = self.random.between(24, 8 * LARGE.bytes - 1);
            for page in [any_first, any_filled].map(|page| page(&mut self.random, LARGE)) {
                self.page_with(Entry::PageCapacity, &with_flip(page, bit), 0);
            }
            let second = any_second(&mut self.random, LARGE);
            self.page_with(Entry::ReadSecond, &with_flip(second, bit), 30);
        }
    }

    /// Too few data cells, and the first and the last spare data cell set; the length at the ends of what it may be on each
    /// size, over the most and the least capacity.
    fn large_data_cells(&mut self) {
        for (value, length) in [(SPARSE_VALUE, 164), (243, 1), (0, 252)] {
            let second = second_page(&page_of(LARGE, value), &self.random.bytes(length));
            let found = data_cells_of(&words_of(&second)).len();
            for spare in [8 * length, found - 1] {
                self.page_with(Entry::ReadSecond, &with_data_cell(second.clone(), spare), 20);
            }
            self.page_with(Entry::ReadSecond, &with_length(second, (found / 8 + 1).min(253)), 20);
        }
        for (shape, value) in [(LARGE, 0), (LARGE, SPARSE_VALUE), (SMALL, 0)] {
            let second = second_page(&page_of(shape, value), &[]);
            for length in [126, 127, 165, 166, 253, 254, 255] {
                self.page_with(Entry::ReadSecond, &with_length(second.clone(), length), length);
            }
        }
    }

    /// States and header bytes out of their ranges, at the ends of these.
    fn large_headers(&mut self) {
        let states = [(0, 0x00), (0, 0x02), (0, 0x81)];
        let header_bytes = [(1, 1), (1, 254), (1, 255), (2, 1), (2, 128)];
        for (turn, (place, byte)) in states.into_iter().chain(header_bytes).enumerate() {
            for (maker, entry) in READERS.into_iter().chain([WRITERS[turn % 3]]) {
                let page = maker(&mut self.random, LARGE);
                self.page_with(entry, &with_byte(page, place, byte), 9);
            }
        }
    }

    /// Each of bytes 509 to 511 not 0, in each state, for each entry that takes it.
    fn tails(&mut self) {
        for (turn, place) in LARGE.tail().enumerate() {
            let byte = [0x01, 0x80, 0xFF][turn];
            for maker in MAKERS {
                let page = with_byte(maker(&mut self.random, LARGE), place, byte);
                for entry in Entry::taking(page[0]) {
                    self.page_with(entry, &page, if entry == Entry::WriteFirst { LARGE.first_bytes } else { 9 });
                }
            }
        }
    }

    /// The same with byte 1 or byte 2 at 254, or with another of these bytes, and with a word that is not sound: 6 comes
    /// before 7.
    fn tails_and_more(&mut self) {
        for (place, (maker, entry)) in LARGE.tail().flat_map(|place| READERS.map(|pair| (place, pair))) {
            let page = with_byte(maker(&mut self.random, LARGE), place, self.random.byte_from(1));
            for other in [1, 2, 509 + (place - 508) % 3] {
                self.page_with(entry, &with_byte(page.clone(), other, 0xFE), 9);
            }
        }
        for place in LARGE.tail() {
            for (maker, entry) in READERS.into_iter().chain(WRITERS) {
                let page = with_byte(maker(&mut self.random, LARGE), place, self.random.byte_from(1));
                let index = self.random.pick(&INDICES);
                self.page_with(entry, &with_word(page, index, never_sound()), 9);
            }
        }
    }

    /// Valid pages of another state than the entry's, and cells that are sound in states 01, 03, 07 and 09 alike.
    fn large_states(&mut self) {
        let pages = MAKERS.map(|page| page(&mut self.random, LARGE));
        let entries = Entry::OF_PAGES.into_iter().filter(|entry| *entry != Entry::WriteFirst);
        for (entry, page) in entries.flat_map(|entry| pages.iter().map(move |page| (entry, page))) {
            if !entry.states().contains(&page[0]) {
                self.page_with(entry, page, 1);
            }
        }
        let first = first_page(&by_turns(LARGE, &[SPARSE_VALUE, ODD_VALUE]));
        for state in [0x00, 0x01, 0x02, 0x03, 0x07, 0x09] {
            let page = with_byte(first.clone(), 0, state);
            let entries = [Entry::PageCapacity, Entry::ReadSecond, Entry::ReadInspect];
            entries.into_iter().for_each(|entry| self.page_with(entry, &page, 20));
        }
    }

    /// Pages of 512 bytes that are cut, or followed by other bytes, to lengths that no page has.
    fn large_lengths(&mut self) {
        for length in NO_PAGE_LENGTHS.into_iter().filter(|&length| length > SMALL.bytes) {
            for (maker, entry) in READERS {
                let page = maker(&mut self.random, LARGE);
                let page = resized(&mut self.random, page, length);
                self.page_with(entry, &page, 11);
            }
        }
        for length in [257, 511, 513] {
            self.page_with(Entry::WriteFirst, &vec![0; length], LARGE.first_bytes);
        }
    }

    /// A page of 256 bytes in a buffer of 512, before zeros, ones and any bytes, with bytes 509 to 511 at 0 and not; and a
    /// page of 512 bytes cut to 256.
    fn other_sizes(&mut self) {
        for (maker, entry) in READERS.into_iter().chain(WRITERS) {
            for after in AFTER_A_PAGE {
                let page = maker(&mut self.random, SMALL);
                let page = resized_with(&mut self.random, page, LARGE.bytes, after);
                self.page_with(entry, &page, 20);
                let length = if entry == Entry::ReadFirst { LARGE.first_bytes } else { 20 };
                self.page_with(entry, &with_sound_tail(page), length);
            }
        }
        for (maker, entry) in READERS {
            let page = maker(&mut self.random, LARGE);
            self.page_with(entry, &page[..SMALL.bytes], SMALL.first_bytes);
        }
        for length in [0, 20, 127, 200] {
            let second = second_page(&page_of(LARGE, 0), &self.random.bytes(length));
            self.page_with(Entry::ReadSecond, &second[..SMALL.bytes], 126);
        }
        for length in [20, 247, 248, 256, 300] {
            let page = inspect_page(&page_of(LARGE, 0), &vec![0; length]);
            self.page_with(Entry::ReadInspect, &page[..SMALL.bytes], 20);
        }
    }

    /// Wrong lengths of the data.
    fn large_data_lengths(&mut self) {
        for length in wrong_data_lengths(LARGE) {
            self.page_with(Entry::WriteFirst, &[0; LARGE.bytes], length);
        }
    }

    /// Outputs of read first: shorter, one short, exact and longer.
    fn large_first_outputs(&mut self) {
        let first = any_first(&mut self.random, LARGE);
        for length in [0, 176, 351, 352, 353, 400] {
            self.page_with(Entry::ReadFirst, &first, length);
        }
    }

    /// Outputs of read second: one short, exact and longer.
    fn large_second_outputs(&mut self) {
        for (record, outputs) in [(0, [0, 1, 5]), (1, [0, 1, 2]), (165, [164, 165, 166]), (253, [252, 253, 300])] {
            let second = second_page(&page_of(LARGE, 2), &self.random.bytes(record));
            outputs.into_iter().for_each(|length| self.page_with(Entry::ReadSecond, &second, length));
        }
    }
}

#[cfg(test)]
mod tests {
    use super::*;
    use crate::answer::{number, Answer, Refusal};
    use crate::case::Place;
    use crate::coverage::Coverage;
    use crate::page::length_of;
    use std::collections::HashSet;
    use std::sync::OnceLock;

    /// Each call and its answer.
    fn answered() -> &'static [(Call, Answer)] {
        static ANSWERED: OnceLock<Vec<(Call, Answer)>> = OnceLock::new();
        let with_answer = |call: Call| {
            let answer = call.clone().perform();
            (call, answer)
        };
        ANSWERED.get_or_init(|| calls().into_iter().map(with_answer).collect())
    }

    /// What `class` tells of the calls of the entry with a page of this length, and their answers.
    fn met<T>(entry: Entry, length: usize, class: impl Fn(&Call) -> T) -> Vec<(T, Answer)> {
        let of_entry = answered().iter().filter(|(call, _)| call.entry == entry && call.page.len() == length);
        of_entry.map(|(call, answer)| (class(call), *answer)).collect()
    }

    /// Each entry but those of the Inspect code, whose calls come after these, is accepted on 512 bytes, and refused by each
    /// of its numbers but 1.
    #[test]
    fn every_answer_on_512_bytes() {
        for entry in Entry::OF_PAGES.into_iter().filter(|entry| !Entry::OF_INSPECT.contains(entry)) {
            let met: HashSet<u8> = met(entry, 512, |_| ()).into_iter().map(|(_, answer)| number(answer)).collect();
            let wanted = [0].iter().chain(entry.refusals()).copied().filter(|&number| number != 1);
            assert_eq!(met, wanted.collect(), "{}", entry.name());
        }
    }

    /// The entries of the Inspect code refuse no page of 512 bytes by 1, and each state but their own by 5.
    #[test]
    fn every_state_for_the_inspect_code() {
        for entry in Entry::OF_INSPECT {
            let met = met(entry, 512, |call| call.page[0]);
            assert!(met.iter().all(|(_, answer)| number(*answer) != 1), "{}", entry.name());
            for state in [0x00, 0x01, 0x03, 0x07, 0x09].into_iter().filter(|state| !entry.states().contains(state)) {
                assert!(met.contains(&(state, Err(Refusal::STATE))), "{} {state}", entry.name());
            }
        }
    }

    /// "a record of up to 165 bytes fits each such page, and its byte 1 goes to 253".
    #[test]
    fn the_figures_of_change_8() {
        let written = met(Entry::WriteSecond, 512, |call| (call.page.clone(), call.other.len()));
        for (value, most, capacity) in [(0, 253, 2_024), (SPARSE_VALUE, 165, 1_320)] {
            let page = filled_page(&page_of(LARGE, value));
            let refused = Err(Refusal::record_length(capacity));
            for (length, answer) in [(most, Ok(0)), (most + 1, refused), (0, Ok(0)), (1, Ok(0))] {
                assert!(written.contains(&((page.clone(), length), answer)), "{value} {length}");
            }
        }
        let filled = met(Entry::FillPage, 512, |call| call.page.clone());
        for (value, pulses) in [(0, 2_024), (SPARSE_VALUE, 0)] {
            assert!(filled.contains(&(page_of(LARGE, value), Ok(pulses))), "never {pulses} pulses");
        }
        let measured = met(Entry::PageCapacity, 512, |call| call.page[0]);
        for (state, capacity) in [(1, 1_320), (1, 2_024), (3, 1_320), (3, 2_024)] {
            assert!(measured.contains(&(state, Ok(capacity))), "never {capacity} in state {state}");
        }
    }

    /// Each of bytes 509 to 511 by itself, for each entry and each state that it takes, over a sound page and before 7.
    #[test]
    fn every_byte_after_the_words() {
        let mut coverage = Coverage::new();
        answered().iter().for_each(|(call, answer)| coverage.count(call, Place::Canaries, *answer));
        let of_tails = coverage.wanted().into_iter().filter(|(name, _)| name.contains(" by byte "));
        let missing: Vec<String> = of_tails.filter(|(_, met)| *met == 0).map(|(name, _)| name).collect();
        assert_eq!(missing, [""; 0]);
    }

    /// 7 names each of the chosen words in each state.
    #[test]
    fn every_chosen_word() {
        for (entry, state) in
            [(Entry::ReadFirst, 1), (Entry::PageCapacity, 1), (Entry::PageCapacity, 3), (Entry::ReadSecond, 7)]
        {
            let met = met(entry, 512, |call| call.page[0]);
            for index in INDICES {
                assert!(met.contains(&(state, Err(Refusal::word(index)))), "{} {state} {index}", entry.name());
            }
        }
        for (entry, index) in WRITERS[..2].iter().flat_map(|(_, entry)| [0, 43, 44, 86].map(|index| (*entry, index))) {
            assert!(met(entry, 512, |_| ()).contains(&((), Err(Refusal::word(index)))), "{} {index}", entry.name());
        }
    }

    #[test]
    fn lengths_that_no_page_has() {
        for (entry, length) in READERS
            .into_iter()
            .flat_map(|(_, entry)| [257, 300, 384, 508, 509, 511, 513, 768, 1_024].map(|length| (entry, length)))
        {
            assert!(met(entry, length, |_| ()).contains(&((), Err(Refusal::PAGE_LENGTH))), "{} {length}", entry.name());
        }
        for length in [257, 511, 513] {
            let met = met(Entry::WriteFirst, length, |call| call.page.iter().all(|&byte| byte == 0));
            assert!(met.contains(&(true, Err(Refusal::PAGE_LENGTH))), "{length}");
        }
    }

    /// "2 compares with the page's own record size", and read first's 3 too.
    #[test]
    fn first_records_and_outputs() {
        let written = met(Entry::WriteFirst, 512, |call| call.other.len());
        for length in [0, 176, 351, 353] {
            assert!(written.contains(&(length, Err(Refusal::DATA_LENGTH))), "{length}");
        }
        let read = met(Entry::ReadFirst, 512, |call| call.other.len());
        let short = [0, 176, 351].map(|length| (length, Err(Refusal::OUTPUT_LENGTH)));
        let enough = [352, 353, 400].map(|length| (length, Ok(0)));
        assert!(short.iter().chain(&enough).all(|one| read.contains(one)));
    }

    #[test]
    fn outputs_of_read_second() {
        let met = met(Entry::ReadSecond, 512, |call| (length_of(&call.page), call.other.len()));
        for length in [1, 165, 253] {
            assert!(met.contains(&((length, length - 1), Err(Refusal::OUTPUT_LENGTH))), "{length}");
            assert!(met.contains(&((length, length), Ok(length as u64))), "{length}");
            assert!(met.iter().any(|((of, longer), answer)| *of == length && *longer > length && answer.is_ok()));
        }
    }

    /// The length at the ends of what it may be on each size, over pages of no record.
    #[test]
    fn every_end_of_byte_1() {
        for (shape, value, fits, most) in [(LARGE, 0, 253, 253), (LARGE, SPARSE_VALUE, 165, 253), (SMALL, 0, 126, 126)]
        {
            let cells = &second_page(&page_of(shape, value), &[])[3..];
            let met = met(Entry::ReadSecond, shape.bytes, |call| (length_of(&call.page), &call.page[3..] == cells));
            for length in [126, 127, 165, 166, 253, 254, 255] {
                let wanted = match length {
                    _ if length <= fits => Ok(length as u64),
                    _ if length <= most => Err(Refusal::DATA_CELLS),
                    _ => Err(Refusal::HEADER),
                };
                assert!(met.contains(&((length, true), wanted)), "{} {value} {length}", shape.bytes);
            }
        }
    }

    /// A page of 256 bytes before 256 others: whether these are 0, whether bytes 509 to 511 are, and the answer's number.
    #[test]
    fn pages_of_the_other_size() {
        for (entry, state, numbers) in [
            (Entry::ReadFirst, 1, [0, 6, 7]),
            (Entry::PageCapacity, 1, [0, 6, 7]),
            (Entry::PageCapacity, 3, [7, 6, 7]),
            (Entry::ReadSecond, 7, [7, 6, 9]),
            (Entry::ReadInspect, 9, [3, 6, 7]),
            (Entry::FillPage, 1, [0, 6, 7]),
            (Entry::WriteSecond, 3, [7, 6, 7]),
            (Entry::WriteInspect, 1, [0, 6, 7]),
        ] {
            let class = |call: &Call| (call.page[0], call.page[256..].to_vec());
            let met = met(entry, 512, class);
            let after = [vec![0; 256], vec![0xFF; 256], [vec![0xFF; 253], vec![0; 3]].concat()];
            for (after, wanted) in after.into_iter().zip(numbers) {
                let mut found = met.iter().filter(|(page, _)| *page == (state, after.clone()));
                assert!(found.any(|(_, answer)| number(*answer) == wanted), "{} {state} {wanted}", entry.name());
            }
        }
        let cut = met(Entry::ReadSecond, 256, |call| call.page[1]);
        assert!(cut.contains(&(20, Ok(20))) && cut.contains(&(200, Err(Refusal::HEADER))));
        let cut = met(Entry::ReadInspect, 256, |call| length_of(&call.page));
        let refused = [248, 256, 300].map(|length| (length, Err(Refusal::HEADER)));
        let sound = [(20, Ok(20)), (247, Err(Refusal::OUTPUT_LENGTH))];
        assert!(sound.iter().chain(&refused).all(|one| cut.contains(one)));
    }
}
