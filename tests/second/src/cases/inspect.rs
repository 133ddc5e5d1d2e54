//! Records and pages of the Inspect code for the calls, of both sizes, valid and damaged.

use super::files::{any_bytes, ones, zeros, Contents};
use super::pages::{
    any_filled, any_first, any_second, any_values, first_page, flipped, of_any_cells, with_byte, with_header,
    with_length, with_value, with_word, Maker,
};
use super::words::{illegal, sum_too_large, with_neighbours, ODD_VALUE};
use crate::answer::Refusal;
use crate::inspect::{walks, walks_of, write_inspect};
use crate::page::{known_shape, length_of, words_of, INSPECTED};
use crate::random::Random;
use crate::shape::Shape;
use crate::word::{legal_word, CELLS};

/// Makes records of this many bytes, from no ones to ones alone.
pub const RECORDS: [Contents; 6] = [zeros, sparse, any_bytes, mixed, dense, ones];

/// A record of few ones.
pub fn sparse(random: &mut Random, length: usize) -> Vec<u8> {
    (0..length).map(|_| if random.one_in(4) { 1 << random.below(8) } else { 0 }).collect()
}

/// A record of mostly ones.
pub fn dense(random: &mut Random, length: usize) -> Vec<u8> {
    sparse(random, length).into_iter().map(|byte| !byte).collect()
}

/// A record of few and of mostly ones, in stretches by turns.
pub fn mixed(random: &mut Random, length: usize) -> Vec<u8> {
    let mut record = sparse(random, length);
    let stretch = random.between(1, 40);
    for turn in record.chunks_mut(stretch).skip(1).step_by(2) {
        turn.iter_mut().for_each(|byte| *byte = !*byte);
    }
    record
}

/// A record of this many bytes, of any kind.
pub fn any_record(random: &mut Random, length: usize) -> Vec<u8> {
    random.pick(&RECORDS)(random, length)
}

/// How many whole bytes of the record the walks over the first-round page take.
pub fn bytes_taken(first: &[u8], record: &[u8]) -> usize {
    match write_inspect(&mut first.to_vec(), record) {
        Err(Refusal { number: 8, index }) => index as usize / 8,
        answer => answer.map(|_| record.len()).expect("a first-round page"),
    }
}

/// The longest start of the record that fits the first-round page.
pub fn longest_of(first: &[u8], mut record: Vec<u8>) -> Vec<u8> {
    record.truncate(bytes_taken(first, &record));
    record
}

/// The outcome of a record that fits the first-round page by the Inspect code.
pub fn inspect_page(first: &[u8], record: &[u8]) -> Vec<u8> {
    let mut page = first.to_vec();
    write_inspect(&mut page, record).expect("the record fits");
    page
}

/// A first-round page of which a zero record takes so many bits less, 0 to the number of words, than the most of the page of
/// zeros: each word of value 3 takes one bit less than the 45 of one of value 0.
pub fn first_taking_less(shape: Shape, fewer: usize) -> Vec<u8> {
    let value = |index: usize| if index * 5 % shape.words < fewer { 3 } else { 0 };
    first_page(&(0..shape.words).map(value).collect::<Vec<u32>>())
}

/// The first-round page with no record by the Inspect code but this length, which its walks may not reach.
pub fn naming(first: &[u8], length: usize) -> Vec<u8> {
    with_length(with_byte(first.to_vec(), 0, INSPECTED), length)
}

/// A record of any kind and of at least `least` bytes, which always go in, that fits the first-round page.
pub fn record_for(random: &mut Random, first: &[u8], least: usize) -> Vec<u8> {
    let longest = longest_of(first, any_record(random, known_shape(first).inspect_bytes_most + 1));
    let any = random.between(least, longest.len());
    let length = random.pick(&[least, longest.len(), any, any]);
    longest[..length].to_vec()
}

/// A page of the Inspect code.
pub fn any_inspect(random: &mut Random, shape: Shape) -> Vec<u8> {
    let first = any_first(random, shape);
    inspect_page(&first, &record_for(random, &first, 0))
}

/// How many bits the walks over all words of the page take.
pub fn bits_in(page: &[u8]) -> usize {
    walks(&words_of(page), usize::MAX).concat().len()
}

/// How many words of the page the record reaches.
pub fn words_reached(page: &[u8]) -> usize {
    walks_of(page).iter().filter(|steps| !steps.is_empty()).count()
}

/// For each byte of the record of the page: the word of its last bit, and the cell after those that this bit takes.
pub fn byte_ends(page: &[u8]) -> Vec<(usize, usize)> {
    let walks = walks_of(page);
    let steps = walks.iter().enumerate().flat_map(|(index, steps)| steps.iter().map(move |step| (index, step.next)));
    steps.skip(7).step_by(8).collect()
}

/// The longest start of any record over the first-round page whose last bit is in this word, before one of these cells.
fn record_ending(random: &mut Random, first: &[u8], index: usize, cells: &[usize]) -> Option<Vec<u8>> {
    let record = longest_of(first, any_record(random, known_shape(first).inspect_bytes_most));
    let ends = byte_ends(&inspect_page(first, &record));
    let place = ends.iter().rposition(|(of, cell)| *of == index && cells.contains(cell))?;
    Some(record[..=place].to_vec())
}

/// A first-round page with this value in this word, and a record over it whose last bit is in the word, before one of these
/// cells.
pub fn first_and_record_ending(
    random: &mut Random,
    shape: Shape,
    index: usize,
    value: u32,
    cells: &[usize],
) -> (Vec<u8>, Vec<u8>) {
    let found = (0..10_000).find_map(|_| {
        let first = first_page(&with_value(any_values(random, shape), index, value));
        record_ending(random, &first, index, cells).map(|record| (first, record))
    });
    found.expect("some record ends there")
}

/// The page with a word that is not legal with the read pairs put to 00: a sum too large in any word, or two neighbours in
/// one that the record does not reach.
pub fn with_unsound_word(random: &mut Random, page: Vec<u8>) -> Vec<u8> {
    let index = random.below(known_shape(&page).words);
    let cells = if index < words_reached(&page) { sum_too_large(random) } else { illegal(random) };
    with_word(page, index, cells)
}

/// The page with a length that is more than the walks take. Walks that take as much as a page may have get a last word of
/// fewer bits before it.
pub fn with_length_too_large(random: &mut Random, page: Vec<u8>) -> Vec<u8> {
    let shape = known_shape(&page);
    let enough = bits_in(&page) >= 8 * shape.inspect_bytes_most;
    let page = if enough { with_word(page, shape.words - 1, legal_word(ODD_VALUE)) } else { page };
    let least = bits_in(&page) / 8 + 1;
    let any = random.between(least, shape.inspect_bytes_most);
    with_length(page, random.pick(&[least, least, any]))
}

fn inspect_with_unsound_word(random: &mut Random, shape: Shape) -> Vec<u8> {
    let page = any_inspect(random, shape);
    with_unsound_word(random, page)
}

fn inspect_with_two_unsound_words(random: &mut Random, shape: Shape) -> Vec<u8> {
    let page = inspect_with_unsound_word(random, shape);
    with_unsound_word(random, page)
}

fn inspect_with_length_too_large(random: &mut Random, shape: Shape) -> Vec<u8> {
    let page = any_inspect(random, shape);
    with_length_too_large(random, page)
}

fn inspect_with_header(random: &mut Random, shape: Shape) -> Vec<u8> {
    let page = any_inspect(random, shape);
    with_header(random, page)
}

/// A page of a length beside the record's.
fn inspect_of_length_beside(random: &mut Random, shape: Shape) -> Vec<u8> {
    let page = any_inspect(random, shape);
    let length = length_of(&page);
    with_length(page, random.pick(&[length.saturating_sub(1), length + 1]))
}

/// A page of another length than its record's.
fn inspect_of_other_length(random: &mut Random, shape: Shape) -> Vec<u8> {
    let length = any_length(random, shape);
    with_length(any_inspect(random, shape), length)
}

/// A page with two neighbouring cells set, which the walk reads or not.
fn inspect_with_neighbours(random: &mut Random, shape: Shape) -> Vec<u8> {
    let (page, index) = (any_inspect(random, shape), random.below(shape.words));
    let cells = with_neighbours(words_of(&page)[index], random.below(CELLS - 1));
    with_word(page, index, cells)
}

fn inspect_flipped(random: &mut Random, shape: Shape) -> Vec<u8> {
    let page = any_inspect(random, shape);
    flipped(random, page)
}

/// Any length that a page may have in state 09.
fn any_length(random: &mut Random, shape: Shape) -> usize {
    random.between(0, shape.inspect_bytes_most)
}

fn inspect_of_any_cells(random: &mut Random, shape: Shape) -> Vec<u8> {
    let length = any_length(random, shape);
    of_any_cells(random, shape, INSPECTED, length)
}

/// The cells of a page of another state under the header of the Inspect code.
fn inspect_of_another_round(random: &mut Random, shape: Shape) -> Vec<u8> {
    let page = random.pick::<Maker>(&[any_first, any_filled, any_second])(random, shape);
    naming(&page, any_length(random, shape))
}

/// Damaged pages in state 09.
const DAMAGED_KINDS: [Maker; 10] = [
    inspect_with_unsound_word,
    inspect_with_two_unsound_words,
    inspect_with_length_too_large,
    inspect_with_header,
    inspect_of_length_beside,
    inspect_of_other_length,
    inspect_with_neighbours,
    inspect_flipped,
    inspect_of_any_cells,
    inspect_of_another_round,
];

/// A page of state 09, valid or damaged.
pub fn any_inspect_kind(random: &mut Random, shape: Shape) -> Vec<u8> {
    if random.one_in(3) {
        any_inspect(random, shape)
    } else {
        random.pick(&DAMAGED_KINDS)(random, shape)
    }
}

#[cfg(test)]
mod tests {
    use super::*;
    use crate::answer::number;
    use crate::cases::pages::any_page;
    use crate::inspect::read_inspect;
    use crate::shape::{LARGE, SMALL};
    use std::collections::HashSet;

    fn read(page: &[u8]) -> u8 {
        number(read_inspect(page, &mut [0; LARGE.inspect_bytes_most]))
    }

    /// How many bits of the record are ones.
    fn ones_in(record: &[u8]) -> u32 {
        record.iter().map(|byte| byte.count_ones()).sum()
    }

    #[test]
    fn records_of_each_kind() {
        let mut random = Random::new(1);
        for length in [0, 1, 126, 248, 496] {
            let records = RECORDS.map(|record| record(&mut random, length));
            assert!(records.iter().all(|record| record.len() == length));
            let bits = 8 * length as u32;
            assert_eq!((ones_in(&records[0]), ones_in(&records[5])), (0, bits));
            assert!(ones_in(&records[1]) <= bits / 8 && ones_in(&records[4]) >= bits - bits / 8);
        }
    }

    #[test]
    fn pages_of_each_kind() {
        let mut random = Random::new(2);
        for shape in Shape::BOTH.repeat(200) {
            assert_eq!(read(&any_inspect(&mut random, shape)), 0);
            assert_eq!(read(&inspect_with_unsound_word(&mut random, shape)), 7);
            assert_eq!(read(&inspect_with_two_unsound_words(&mut random, shape)), 7);
            assert_eq!(read(&inspect_with_length_too_large(&mut random, shape)), 9);
        }
    }

    /// Valid pages of records that are longer than one byte names, and of shorter ones.
    #[test]
    fn lengths_of_one_byte_and_of_two() {
        let mut random = Random::new(2);
        let lengths: Vec<usize> = (0..500).map(|_| length_of(&any_inspect(&mut random, LARGE))).collect();
        let long = lengths.iter().filter(|&&length| length > 255).count();
        assert!((100..400).contains(&long), "{long}");
    }

    #[test]
    fn every_answer_is_met() {
        let mut random = Random::new(3);
        for shape in Shape::BOTH {
            let met: HashSet<u8> = (0..500).map(|_| read(&any_inspect_kind(&mut random, shape))).collect();
            assert!(met.is_superset(&HashSet::from([0, 6, 7, 9])), "{met:?}");
        }
    }

    /// Among pages of any kind there are pages of state 09 that reading accepts, and refuses by 6, by 7 and by 9.
    #[test]
    fn any_page_may_be_of_the_inspect_code() {
        let mut random = Random::new(5);
        for shape in Shape::BOTH {
            let pages = (0..1_000).map(|_| any_page(&mut random, shape)).filter(|page| page[0] == INSPECTED);
            let met: HashSet<u8> = pages.map(|page| read(&page)).collect();
            assert_eq!(met, HashSet::from([0, 6, 7, 9]));
        }
    }

    #[test]
    fn records_that_end_as_asked_for() {
        let mut random = Random::new(4);
        let small = [0, 1, 43].map(|index| (SMALL, index));
        let large = [0, 43, 44, 45, 87].map(|index| (LARGE, index));
        let places = small.into_iter().chain(large).flat_map(|place| [44, 45, 46].map(|cell| (place, cell)));
        for ((shape, index), cell) in places {
            let (first, record) = first_and_record_ending(&mut random, shape, index, 1, &[cell]);
            let page = inspect_page(&first, &record);
            assert_eq!(byte_ends(&page).last(), Some(&(index, cell)));
            assert_eq!(words_reached(&page), index + 1);
            assert_eq!(read(&page), 0);
        }
    }

    #[test]
    fn pages_that_take_less() {
        for (shape, fewer) in
            Shape::BOTH.into_iter().flat_map(|shape| (0..=shape.words).map(move |fewer| (shape, fewer)))
        {
            let first = first_taking_less(shape, fewer);
            assert_eq!(bits_in(&first), shape.walk_ends()[1] - fewer);
            assert_eq!(read(&naming(&first, bits_in(&first) / 8)), 0);
        }
    }
}
