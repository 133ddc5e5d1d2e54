//! The Inspect code of Change 7: the walk over a word, and the page's two operations by this code, which Change 9 offers on
//! both sizes.

use crate::answer::{refuse_if, Answer, Refusal};
use crate::page::{
    bits_of, first_round_words, length_of, put_length, put_record_out, put_words, refuse_word, words_below_header,
    words_of, Words, INSPECTED,
};
use crate::word::{self, Cells};

/// "Each word walked to its end takes 23 to 45 bits".
pub const WALK_ENDS: [usize; 2] = [23, 45];

/// Walks a first-round word "from cell 0 while two cells remain", and puts the next of the bits into it; "The walk ends
/// after the record's last bit". Returns how many bits it takes.
pub fn put_bits(cells: &mut [bool], bits: &mut impl Iterator<Item = bool>) -> usize {
    let mut taken = 0;
    let mut cell = 0;
    while cell + 1 < cells.len() {
        let Some(bit) = bits.next() else { break };
        taken += 1;
        cell += match (bit, cells[cell]) {
            // "A 1 turns the next two cells into 11."
            (true, _) => {
                cells[cell] = true;
                cells[cell + 1] = true;
                2
            }
            // "A 0 over a cell 0 uses that one cell."
            (false, false) => 1,
            // "A 0 over a 1 uses the pair 10 and changes nothing."
            (false, true) => 2,
        };
    }
    taken
}

/// A bit that a walk reads.
#[derive(Clone, Copy, Debug, PartialEq, Eq)]
pub struct Step {
    pub bit: bool,
    /// The first cell that the bit takes.
    pub cell: usize,
    /// The cell after those that the bit takes.
    pub next: usize,
}

/// Walks a word as the writer does, "while two cells remain", and reads `most` bits at most: "a cell 0 is a bit 0, a pair
/// 10 is a bit 0, a pair 11 is a bit 1".
pub fn steps(cells: &[bool], most: usize) -> Vec<Step> {
    let mut steps = Vec::new();
    let mut cell = 0;
    while cell + 1 < cells.len() && steps.len() < most {
        let (bit, taken) = match (cells[cell], cells[cell + 1]) {
            (false, _) => (false, 1),
            (true, false) => (false, 2),
            (true, true) => (true, 2),
        };
        steps.push(Step { bit, cell, next: cell + taken });
        cell += taken;
    }
    steps
}

/// Puts "the read 11 pairs" of a word "to 00".
pub fn clear_pairs(cells: &mut [bool], steps: &[Step]) {
    for step in steps.iter().filter(|step| step.bit) {
        cells[step.cell..step.next].fill(false);
    }
}

/// The steps of each word's walk, until `count` bits are read. "A pair counts as read when the walk meets it before the
/// length" in bytes 1 and 2 "is reached".
pub fn walks(words: &[Cells], count: usize) -> Vec<Vec<Step>> {
    let mut left = count;
    let mut walks = Vec::new();
    for cells in words {
        let steps = steps(cells, left);
        left -= steps.len();
        walks.push(steps);
    }
    walks
}

/// The steps of each word's walk that the length of the page asks for.
pub fn walks_of(page: &[u8]) -> Vec<Vec<Step>> {
    walks(&words_of(page), 8 * length_of(page))
}

/// The words with the read 11 pairs put to 00.
pub fn without_pairs(words: &[Cells], walks: &[Vec<Step>]) -> Words {
    let mut words = words.to_vec();
    for (cells, steps) in words.iter_mut().zip(walks) {
        clear_pairs(cells, steps);
    }
    words
}

/// Puts a record over a first-round page. It refuses "8 when the last word's walk ends before the record does, with the
/// number of record bits that all the words' walks take".
pub fn write_inspect(page: &mut [u8], record: &[u8]) -> Answer {
    let mut words = first_round_words(page)?;
    let mut bits = bits_of(record);
    let taken = words.iter_mut().map(|cells| put_bits(cells, &mut bits)).sum();
    refuse_if(bits.next().is_some(), Refusal::record_length(taken))?;
    put_words(page, &words);
    put_length(page, record.len());
    page[0] = INSPECTED;
    Ok(0)
}

/// "Its reader answers as read second does and refuses 1, 5 for a state other than 09, 6" as it does too, "7 with the lowest
/// index of a word not legal so, 9 when the walk ends before that length is reached, then 3."
pub fn read_inspect(page: &[u8], output: &mut [u8]) -> Answer {
    let words = words_below_header(page, INSPECTED)?;
    let count = 8 * length_of(page);
    let walks = walks(&words, count);
    refuse_word(&without_pairs(&words, &walks), word::legal)?;
    let bits: Vec<bool> = walks.concat().iter().map(|step| step.bit).collect();
    refuse_if(bits.len() < count, Refusal::DATA_CELLS)?;
    put_record_out(&bits, output)
}

#[cfg(test)]
mod tests {
    use super::*;
    use crate::cases::inspect::{
        any_record, bits_in, first_taking_less, inspect_page, longest_of, naming, record_for, RECORDS,
    };
    use crate::cases::pages::{
        any_first, filled_page, first_page, page_of, second_page, with_byte, with_flip, with_length, with_value,
        with_word,
    };
    use crate::cases::words::{any_value, END_VALUES, LISTED_VALUES, ODD_VALUE, SPARSE_VALUE};
    use crate::page::{fill_page, known_shape, page_capacity, read_first, read_second, write_first, write_second};
    use crate::random::Random;
    use crate::shape::{Shape, LARGE, SMALL};
    use crate::word::{cells_with_sum, legal_word, CELLS, LARGEST_SUM, LARGEST_VALUE};
    use std::collections::HashSet;

    /// The cells, or bits, that a text of 0 and 1 names.
    fn of_text(text: &str) -> Vec<bool> {
        text.chars().map(|cell| cell == '1').collect()
    }

    /// The cells after the bits were put into them, and how many bits they take.
    fn with_bits(cells: &[bool], bits: &[bool]) -> (Vec<bool>, usize) {
        let mut after = cells.to_vec();
        let taken = put_bits(&mut after, &mut bits.iter().copied());
        (after, taken)
    }

    /// The bits that a walk reads, `most` at most.
    fn bits_read(cells: &[bool], most: usize) -> Vec<bool> {
        steps(cells, most).iter().map(|step| step.bit).collect()
    }

    /// Figure 4 of document 003: 38 over 112. Its last bit would take the last cell alone, which Change 7 neither writes
    /// nor reads; with a cell more it goes in.
    #[test]
    fn figure_4() {
        let (first, data, second) = (of_text("1001000010"), of_text("100110"), of_text("1101011110"));
        assert_eq!(with_bits(&first, &data), (second.clone(), 5));
        assert_eq!(bits_read(&second, 6), of_text("10011"));
        let (first, second) = (of_text("10010000100"), of_text("11010111100"));
        assert_eq!(with_bits(&first, &data), (second.clone(), 6));
        assert_eq!(bits_read(&second, 6), data);
        assert_eq!(with_bits(&first, &data[..3]), (of_text("11010000100"), 3));
    }

    #[test]
    fn each_bit_over_each_pair() {
        for (pair, bit, after, next) in [
            ("00", true, "11", 2),
            ("01", true, "11", 2),
            ("10", true, "11", 2),
            ("00", false, "00", 1),
            ("01", false, "01", 1),
            ("10", false, "10", 2),
        ] {
            assert_eq!(with_bits(&of_text(pair), &[bit]), (of_text(after), 1));
            assert_eq!(steps(&of_text(after), 1), [Step { bit, cell: 0, next }]);
        }
    }

    /// A last cell that remains alone is kept, and not read.
    #[test]
    fn a_cell_that_remains_alone() {
        for (first, bits, after, taken) in [
            ("0", "1", "0", 0),
            ("1", "0", "1", 0),
            ("001", "11", "111", 1),
            ("000", "11", "110", 1),
            ("101", "01", "101", 1),
            ("001", "00", "001", 2),
            ("0010", "000", "0010", 3),
            ("0010", "001", "0011", 3),
        ] {
            assert_eq!(with_bits(&of_text(first), &of_text(bits)), (of_text(after), taken), "{first} {bits}");
            assert_eq!(bits_read(&of_text(after), 9), of_text(&bits[..taken]), "{first} {bits}");
        }
    }

    /// Every choice of this many bits.
    fn all_bits(count: usize) -> impl Iterator<Item = Vec<bool>> {
        (0..1u32 << count).map(move |choice| (0..count).map(|place| choice >> place & 1 == 1).collect())
    }

    fn has_neighbours(cells: &[bool]) -> bool {
        cells.windows(2).any(|pair| pair[0] && pair[1])
    }

    /// Whether a walk reads as many bits, and leaves no neighbours beside the read pairs.
    fn accepts(cells: &[bool], count: usize) -> bool {
        let steps = steps(cells, count);
        let mut rest = cells.to_vec();
        clear_pairs(&mut rest, &steps);
        steps.len() == count && !has_neighbours(&rest)
    }

    /// All words of up to 8 cells without set neighbours, and all bits up to 8: what goes in is read back, no cell is
    /// cleared, and what comes out is accepted. And nothing else is.
    #[test]
    fn every_short_word() {
        for length in 0..=8 {
            let mut outcomes = HashSet::new();
            for first in all_bits(length).filter(|cells| !has_neighbours(cells)) {
                for bits in (0..=8).flat_map(all_bits) {
                    let (after, taken) = with_bits(&first, &bits);
                    assert!(first.iter().zip(&after).all(|(before, after)| !before || *after));
                    assert_eq!(bits_read(&after, taken), bits[..taken]);
                    if taken == bits.len() {
                        outcomes.insert((after, taken));
                    }
                }
            }
            for (cells, count) in all_bits(length).flat_map(|cells| (0..=8).map(move |count| (cells.clone(), count))) {
                assert_eq!(accepts(&cells, count), outcomes.contains(&(cells.clone(), count)), "{cells:?} {count}");
            }
        }
    }

    /// Words of each end, of listed values and of any, with any bits: between 23 and 45 bits, and both are met.
    #[test]
    fn the_bits_that_a_word_takes() {
        let mut random = Random::new(1);
        let mut met = HashSet::new();
        let fixed = END_VALUES.into_iter().chain(LISTED_VALUES).chain([u32::MAX, ODD_VALUE]);
        let any: Vec<u32> = (0..300).map(|_| any_value(&mut random)).collect();
        for (value, record) in fixed.chain(any).flat_map(|value| RECORDS.map(|record| (value, record))) {
            let bits: Vec<bool> = bits_of(&record(&mut random, 6)).collect();
            let first = legal_word(value);
            let (after, taken) = with_bits(&first, &bits);
            assert!((23..=45).contains(&taken));
            assert_eq!(bits_read(&after, taken), bits[..taken]);
            assert_eq!(bits_read(&after, CELLS).len(), taken);
            met.insert(taken);
        }
        assert!(met.is_superset(&HashSet::from(WALK_ENDS)), "{met:?}");
    }

    /// What read inspect gives: the record, or the refusal; output after the record is unchanged.
    fn record_of(page: &[u8]) -> Result<Vec<u8>, Refusal> {
        let mut output = vec![0xA5; LARGE.inspect_bytes_most + 1];
        let length = read_inspect(page, &mut output)? as usize;
        assert!(output[length..].iter().all(|&byte| byte == 0xA5));
        output.truncate(length);
        Ok(output)
    }

    /// Writes the record over a copy of the page and reads it back. No cell of any byte is cleared.
    fn outcome(first: &[u8], record: &[u8]) -> Vec<u8> {
        let page = inspect_page(first, record);
        assert_eq!(page[..3], [0x09, (record.len() % 256) as u8, (record.len() / 256) as u8]);
        assert!(page[known_shape(&page).tail()].iter().all(|&byte| byte == 0));
        assert!(first.iter().zip(&page).all(|(before, after)| before & !after == 0));
        assert_eq!(record_of(&page), Ok(record.to_vec()));
        page
    }

    /// The record is refused 8 with these bits, and the page stays.
    fn check_refused(first: &[u8], record: &[u8], bits: usize) {
        let mut page = first.to_vec();
        assert_eq!(write_inspect(&mut page, record), Err(Refusal::record_length(bits)));
        assert_eq!(page, first);
    }

    /// "so 126 bytes always go in", 127 not always; 247 go into some page, 248 into none. "Inspect on the large page can hold
    /// 495 bytes", "253 bytes always go in".
    #[test]
    fn the_figures_of_changes_7_and_9() {
        for (shape, sure, least, most, longest) in [(SMALL, 126, 1_012, 247, 1_980), (LARGE, 253, 2_024, 495, 3_960)] {
            let zeros = page_of(shape, 0);
            outcome(&zeros, &vec![0xFF; sure]);
            check_refused(&zeros, &vec![0xFF; sure + 1], least);
            outcome(&zeros, &vec![0; most]);
            check_refused(&zeros, &vec![0; most + 1], longest);
            assert_eq!((shape.inspect_bytes_sure(), shape.inspect_bytes_most), (sure, most));
        }
    }

    /// Pages of one value, with what a record of zeros takes of a word; a record of ones takes 23 bits of each.
    #[test]
    fn pages_of_one_value() {
        let values = [(0, 45), (1, 45), (2, 45), (3, 44), (SPARSE_VALUE, 30), (ODD_VALUE, 23)];
        for (shape, (value, bits)) in Shape::BOTH.into_iter().flat_map(|shape| values.map(|value| (shape, value))) {
            let first = page_of(shape, value);
            for (byte, bits) in [(0x00, bits), (0xFF, 23)] {
                let most = shape.words * bits / 8;
                outcome(&first, &vec![byte; most]);
                for length in [most + 1, 512, 1_000, 65_536, 65_700] {
                    check_refused(&first, &vec![byte; length], shape.words * bits);
                }
            }
        }
    }

    /// What always goes in does so over any page, of ones as well; what one byte more takes is between the ends.
    #[test]
    fn any_pages_and_records() {
        let mut random = Random::new(2);
        for (turn, shape) in Shape::BOTH.repeat(300).into_iter().enumerate() {
            let first = any_first(&mut random, shape);
            let record = RECORDS[turn / 2 % RECORDS.len()](&mut random, shape.inspect_bytes_most + 1);
            outcome(&first, &record[..shape.inspect_bytes_sure()]);
            outcome(&first, &vec![0xFF; shape.inspect_bytes_sure()]);
            let longest = longest_of(&first, record.clone());
            outcome(&first, &longest);
            let answer = write_inspect(&mut first.clone(), &record[..=longest.len()]);
            assert_eq!(answer, write_inspect(&mut first.clone(), &record));
            let taken = answer.expect_err("one byte more").index as usize;
            let [least, most] = shape.walk_ends();
            assert!(taken / 8 == longest.len() && (least..=most).contains(&taken));
        }
    }

    /// Every record length over a page that takes all of them.
    #[test]
    fn every_record_length() {
        for (shape, most) in [(SMALL, 247), (LARGE, 495)] {
            let first = page_of(shape, 0);
            (0..=most).for_each(|length| drop(outcome(&first, &vec![0; length])));
        }
    }

    /// A record that ends in the first 44 words of a large page leaves there what it leaves on a page of 256 bytes, and the
    /// other words as they were.
    #[test]
    fn records_in_the_first_half() {
        let mut random = Random::new(9);
        for _ in 0..50 {
            let first = any_first(&mut random, LARGE);
            let record = record_for(&mut random, &first[..256], 0);
            let page = outcome(&first, &record);
            assert_eq!(page[..256], outcome(&first[..256], &record));
            assert_eq!(page[256..], first[256..]);
        }
    }

    /// A record that goes into no page of 256 bytes: its bits go on in word 44, as on a page of the last 44 words.
    #[test]
    fn records_in_both_halves() {
        let mut random = Random::new(10);
        for turn in 0..50 {
            let first = any_first(&mut random, LARGE);
            let record = longest_of(&first, RECORDS[turn % RECORDS.len()](&mut random, 495));
            let words = words_of(&outcome(&first, &record));
            let mut bits = bits_of(&record);
            for (half, start) in [0, 44].into_iter().enumerate() {
                let mut wanted: Words = words_of(&first)[start..start + 44].to_vec();
                for cells in &mut wanted {
                    put_bits(cells, &mut bits);
                }
                assert_eq!(words[start..start + 44], wanted, "half {half}");
            }
            assert_eq!(bits.next(), None);
        }
    }

    /// A record of length 0 is accepted on every first-round page, and only the state changes.
    #[test]
    fn a_record_of_length_0() {
        let mut random = Random::new(3);
        for shape in Shape::BOTH.repeat(50) {
            let first = any_first(&mut random, shape);
            assert_eq!(outcome(&first, &[]), with_byte(first, 0, 0x09));
        }
    }

    /// "later cells keep their first-round contents".
    #[test]
    fn cells_after_the_last_bit() {
        let mut random = Random::new(4);
        for shape in Shape::BOTH.repeat(50) {
            let first = any_first(&mut random, shape);
            let page = outcome(&first, &record_for(&mut random, &first, 1));
            let (before, after) = (words_of(&first).concat(), words_of(&page).concat());
            let walks = walks_of(&page);
            let last = walks.iter().rposition(|steps| !steps.is_empty()).expect("a record of one byte at least");
            let end = CELLS * last + walks[last].last().expect("a bit").next;
            assert_eq!(before[end..], after[end..]);
        }
    }

    /// Records that differ, in a bit or in their length, lead to different pages.
    #[test]
    fn different_records_give_different_pages() {
        let mut random = Random::new(5);
        for shape in Shape::BOTH.repeat(20) {
            let first = any_first(&mut random, shape);
            let length = random.between(1, shape.inspect_bytes_sure());
            let record = any_record(&mut random, length);
            let others = (0..8 * record.len()).map(|bit| with_flip(record.clone(), bit));
            let shorter = record[..record.len() - 1].to_vec();
            let page = inspect_page(&first, &record);
            assert!(others.chain([shorter]).all(|other| inspect_page(&first, &other) != page));
        }
    }

    /// The page with the words of the walk put back: those of a first-round page that the same record makes the same page
    /// of.
    #[test]
    fn an_accepted_page_comes_from_a_first_round_page() {
        let mut random = Random::new(6);
        for shape in Shape::BOTH.repeat(100) {
            let first = any_first(&mut random, shape);
            let page = inspect_page(&first, &record_for(&mut random, &first, 0));
            let page = with_flip(page, random.between(24, 8 * shape.bytes - 1));
            let Ok(record) = record_of(&page) else { continue };
            let words = words_of(&page);
            let mut first = with_length(with_byte(page.clone(), 0, 0x01), 0);
            put_words(&mut first, &without_pairs(&words, &walks(&words, 8 * record.len())));
            assert_eq!(outcome(&first, &record), page);
        }
    }

    /// The writer refuses 1, 5, 6, 7 as read first does, whatever the record is, and leaves the page.
    #[test]
    fn the_writer_refuses_as_read_first() {
        for (shape, index) in [(SMALL, 20), (LARGE, 43), (LARGE, 44)] {
            let first = page_of(shape, 77);
            let pair = with_word(first.clone(), index, std::array::from_fn(|cell| cell == 8 || cell == 9));
            let sum = with_word(pair.clone(), shape.words - 1, cells_with_sum(LARGEST_SUM));
            for (page, refusal) in [
                (first[..shape.bytes - 1].to_vec(), Refusal::PAGE_LENGTH),
                ([&first[..], &[0]].concat(), Refusal::PAGE_LENGTH),
                (with_byte(sum.clone(), 0, 0x03), Refusal::STATE),
                (with_length(with_byte(sum.clone(), 0, 0x09), 1), Refusal::STATE),
                (with_byte(sum.clone(), 1, 1), Refusal::HEADER),
                (with_byte(sum.clone(), 2, 1), Refusal::HEADER),
                (with_length(sum.clone(), 0xFF01), Refusal::HEADER),
                (sum, Refusal::word(index)),
                (pair, Refusal::word(index)),
                (with_word(first.clone(), 0, cells_with_sum(LARGEST_VALUE + 1)), Refusal::word(0)),
            ] {
                check_as_read_first(&page, refusal);
            }
        }
        let first = page_of(LARGE, 77);
        (509..512).for_each(|place| check_as_read_first(&with_byte(first.clone(), place, 1), Refusal::HEADER));
    }

    /// The writer and read first refuse this page by the same, whatever the record is, and the page stays.
    fn check_as_read_first(page: &[u8], refusal: Refusal) {
        let mut random = Random::new(7);
        assert_eq!(read_first(page, &mut []), Err(refusal));
        for length in [0, 1, 126, 248, 496, 1_000] {
            let mut after = page.to_vec();
            assert_eq!(write_inspect(&mut after, &any_record(&mut random, length)), Err(refusal));
            assert_eq!(after, page);
        }
    }

    /// Each refusal of the reader before the next one, and the output stays.
    #[test]
    fn the_reader_refuses_in_order() {
        for (shape, fits) in [(SMALL, 165), (LARGE, 330)] {
            let page = inspect_page(&page_of(shape, SPARSE_VALUE), &vec![0; fits]);
            let long = with_length(page.clone(), fits + 1);
            let word = with_word(long.clone(), shape.words - 1, cells_with_sum(LARGEST_SUM));
            let header = with_byte(word.clone(), 2, 2);
            let state = with_byte(header.clone(), 0, 0x07);
            for (page, refusal) in [
                (state[..shape.bytes - 1].to_vec(), Refusal::PAGE_LENGTH),
                (state, Refusal::STATE),
                (header, Refusal::HEADER),
                (with_length(word.clone(), shape.inspect_bytes_most + 1), Refusal::HEADER),
                (word, Refusal::word(shape.words - 1)),
                (long, Refusal::DATA_CELLS),
                (page.clone(), Refusal::OUTPUT_LENGTH),
            ] {
                let mut output = vec![0xA5; fits - 1];
                assert_eq!(read_inspect(&page, &mut output), Err(refusal));
                assert_eq!(output, vec![0xA5; fits - 1]);
            }
            assert_eq!(record_of(&page), Ok(vec![0; fits]));
        }
    }

    /// The walks end one bit before the length, or reach it with their last bit.
    #[test]
    fn a_length_one_bit_too_large() {
        for (shape, most, spare) in [(SMALL, 247, 4), (LARGE, 495, 0)] {
            for (fewer, wanted) in [(spare, Ok(vec![0; most])), (spare + 1, Err(Refusal::DATA_CELLS))] {
                assert_eq!(record_of(&naming(&first_taking_less(shape, fewer), most)), wanted);
            }
            outcome(&first_taking_less(shape, spare), &vec![0; most]);
            check_refused(&first_taking_less(shape, spare + 1), &vec![0; most], 8 * most - 1);
        }
    }

    /// "a length above the limit of that code and page": every length of two bytes, over words that take all of them and over
    /// words that take the fewest.
    #[test]
    fn every_length_of_two_bytes() {
        for (shape, value, fits, most) in
            [(SMALL, 0, 247, 247), (SMALL, ODD_VALUE, 126, 247), (LARGE, 0, 495, 495), (LARGE, ODD_VALUE, 253, 495)]
        {
            let page = naming(&page_of(shape, value), 0);
            for length in (0..=1_100).chain((0..=65_535).step_by(251)).chain([65_535]) {
                let wanted = match length {
                    _ if length <= fits => Ok(vec![0; length]),
                    _ if length <= most => Err(Refusal::DATA_CELLS),
                    _ => Err(Refusal::HEADER),
                };
                assert_eq!(record_of(&with_length(page.clone(), length)), wanted, "{length}");
            }
        }
    }

    /// Bytes 509 to 511 of a large page, each with every value, under lengths of one byte and of two: 6 comes before 7.
    #[test]
    fn bytes_509_to_511() {
        for (length, word) in [(60, 87), (300, 87), (495, 0)] {
            let page = inspect_page(&page_of(LARGE, 0), &vec![0; length]);
            let bad = with_word(page.clone(), word, cells_with_sum(LARGEST_SUM));
            assert_eq!(record_of(&bad), Err(Refusal::word(word)));
            for (place, byte) in (509..512).flat_map(|place| (1..=255).map(move |byte| (place, byte))) {
                for page in [&page, &bad] {
                    assert_eq!(record_of(&with_byte(page.clone(), place, byte)), Err(Refusal::HEADER));
                }
            }
        }
    }

    /// A word that is not legal in each place, by the reader and by the writer; with one in the other half too, the lower one
    /// is told.
    #[test]
    fn every_word_of_a_large_page() {
        let first = page_of(LARGE, 77);
        for (index, cells) in (0..88).flat_map(|index| [(index, [true; CELLS]), (index, cells_with_sum(LARGEST_SUM))]) {
            let page = with_word(first.clone(), index, cells);
            let two = with_word(page.clone(), (index + 44) % 88, [true; CELLS]);
            for (page, lowest) in [(page, index), (two, index % 44)] {
                let refused = Err(Refusal::word(lowest));
                assert_eq!(write_inspect(&mut page.clone(), &[0; 496]), refused);
                assert_eq!(read_inspect(&naming(&page, 0), &mut []), refused);
            }
        }
    }

    /// Where the words of one half take fewer bits, the walks end before a length all the same as where those of the other
    /// do.
    #[test]
    fn walks_that_end_in_either_half() {
        for values in [[ODD_VALUE, 0], [0, ODD_VALUE]] {
            let first = first_page(&values.map(|value| [value; 44]).concat());
            assert_eq!(bits_in(&first), 44 * (23 + 45));
            assert_eq!(record_of(&naming(&first, 374)), Ok(vec![0; 374]));
            assert_eq!(record_of(&naming(&first, 375)), Err(Refusal::DATA_CELLS));
            outcome(&first, &[0; 374]);
            check_refused(&first, &[0; 375], 2_992);
        }
    }

    /// Over the page of zeros, 20 zero bytes end before cell 25 of word 3: two neighbours before it are a bit 1 and take a
    /// bit of the record's end with them; after it they are refused.
    #[test]
    fn neighbours_before_and_after_the_last_bit() {
        for (shape, length) in [(SMALL, 20), (LARGE, 20), (LARGE, 248), (LARGE, 256)] {
            let page = outcome(&page_of(shape, 0), &vec![0; length]);
            for (index, cell) in (0..shape.words).flat_map(|index| (0..CELLS - 1).map(move |cell| (index, cell))) {
                let place = CELLS * index + cell;
                let pair = with_flip(with_flip(page.clone(), 24 + place), 24 + place + 1);
                let read = record_of(&pair);
                // Cell 45 takes no bit.
                let bit = 45 * index + cell;
                if bit < 8 * length {
                    assert_eq!(read, Ok(with_flip(vec![0; length], bit)), "word {index}, cell {cell}");
                } else {
                    assert_eq!(read, Err(Refusal::word(index)), "word {index}, cell {cell}");
                }
            }
        }
    }

    /// A word of even cells: its sum is too large, read or not. With a pair over every two cells it is accepted when read.
    #[test]
    fn sums_too_large() {
        let even = cells_with_sum(LARGEST_SUM);
        let full: Cells = [true; CELLS];
        let small = [0, 1, 2, 3, 4, 43].map(|index| (SMALL, 20, 3, index));
        // 256 zero bytes end in word 45.
        let large = [0, 43, 44, 45, 46, 87].map(|index| (LARGE, 256, 45, index));
        for (shape, length, last, index) in small.into_iter().chain(large) {
            let page = outcome(&page_of(shape, 0), &vec![0; length]);
            assert_eq!(record_of(&with_word(page.clone(), index, even)), Err(Refusal::word(index)));
            let read = record_of(&with_word(page, index, full));
            assert_eq!(read.is_ok(), index <= last, "word {index}: {read:?}");
        }
    }

    /// A set cell 45 beside a read pair in cells 43 and 44, and a read pair in the last two cells.
    #[test]
    fn pairs_at_the_end_of_a_word() {
        let values = with_value(vec![0; SMALL.words], 0, 1);
        // 43 bits over one cell each, then a bit over two.
        let beside = outcome(&first_page(&values), &[0, 0, 0, 0, 0, 0x10]);
        assert_eq!(words_of(&beside)[0][42..], [false, true, true, true]);
        // 44 bits over one cell each, then a bit over two.
        let across = outcome(&first_page(&values), &[0, 0, 0, 0, 0, 0x08]);
        assert_eq!(words_of(&across)[0][42..], [false, false, true, true]);
        for page in [beside, across] {
            assert_eq!(record_of(&with_byte(page, 1, 5)), Err(Refusal::word(0)));
        }
    }

    /// "5 for a state other than 09", and the other operations refuse state 09 by 5.
    #[test]
    fn pages_of_other_states() {
        for first in Shape::BOTH.map(|shape| page_of(shape, SPARSE_VALUE)) {
            for state in 0..=255 {
                let other = with_byte(first.clone(), 0, state);
                let written = write_inspect(&mut other.clone(), &[0; 126]);
                assert_eq!(written, if state == 0x01 { Ok(0) } else { Err(Refusal::STATE) });
                let read = read_inspect(&other, &mut []);
                assert_eq!(read, if state == 0x09 { Ok(0) } else { Err(Refusal::STATE) });
            }
            for other in [filled_page(&first), second_page(&first, &[1; 82])] {
                assert_eq!(write_inspect(&mut other.clone(), &[]), Err(Refusal::STATE));
                assert_eq!(read_inspect(&other, &mut []), Err(Refusal::STATE));
            }
        }
    }

    /// The other operations refuse state 09 by 5, under lengths of one byte and of two.
    #[test]
    fn state_09_for_the_other_operations() {
        for (shape, length) in [(SMALL, 0), (SMALL, 247), (LARGE, 0), (LARGE, 60), (LARGE, 247), (LARGE, 300)] {
            let page = outcome(&page_of(shape, 0), &vec![0; length]);
            assert_eq!(page_capacity(&page), Err(Refusal::STATE));
            assert_eq!(fill_page(&mut page.clone()), Err(Refusal::STATE));
            assert_eq!(write_second(&mut page.clone(), &[]), Err(Refusal::STATE));
            assert_eq!(read_second(&page, &mut []), Err(Refusal::STATE));
            assert_eq!(read_first(&page, &mut [0; 352]), Err(Refusal::STATE));
            assert_eq!(write_first(&mut page.clone(), &vec![0; shape.first_bytes]), Err(Refusal::NOT_BLANK));
        }
    }

    /// The first 256 bytes of a larger page are a page of 256 bytes when its record ends there and is no longer than such a
    /// page may have; else the length is too large, for the walks or at all.
    #[test]
    fn a_large_page_that_is_cut() {
        let first = page_of(LARGE, 77);
        assert_eq!(outcome(&first, &[0x96; 126])[..256], outcome(&page_of(SMALL, 77), &[0x96; 126]));
        for (record, wanted) in [
            (vec![0; 247], Ok(vec![0; 247])),
            (vec![0; 248], Err(Refusal::HEADER)),
            (vec![0; 256], Err(Refusal::HEADER)),
            (vec![0; 300], Err(Refusal::HEADER)),
            (vec![0xFF; 127], Err(Refusal::DATA_CELLS)),
        ] {
            assert_eq!(record_of(&outcome(&page_of(LARGE, 0), &record)[..256]), wanted);
        }
    }

    /// A page of 256 bytes before zeros is one of 512 bytes with the same record; before ones it is refused, for bytes 509 to
    /// 511 or for word 44.
    #[test]
    fn a_small_page_before_others() {
        for record in [vec![], vec![0x96; 126], vec![0; 247]] {
            let page = outcome(&page_of(SMALL, 0), &record);
            let before = |after: &[u8]| record_of(&[&page[..], after].concat());
            assert_eq!(before(&[0; 256]), Ok(record.clone()));
            assert_eq!(before(&[0xFF; 256]), Err(Refusal::HEADER));
            assert_eq!(before(&[vec![0xFF; 253], vec![0; 3]].concat()), Err(Refusal::word(44)));
        }
    }

    /// "Every page written earlier has byte 2 at 0 and reads with the same length": on 256 bytes, by the rules of Change 7.
    #[test]
    fn pages_written_earlier() {
        let mut random = Random::new(8);
        for _ in 0..200 {
            let first = any_first(&mut random, SMALL);
            let record = record_for(&mut random, &first, 0);
            let page = outcome(&first, &record);
            assert_eq!((usize::from(page[1]), page[2]), (record.len(), 0));
            for byte_2 in [1, 2, 0x80, 0xFF] {
                assert_eq!(record_of(&with_byte(page.clone(), 2, byte_2)), Err(Refusal::HEADER));
            }
        }
    }
}
