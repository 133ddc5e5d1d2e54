//! Pages of both sizes for the calls: of every state, valid and damaged, and as versions before Change 6 left them.

use super::inspect::{any_inspect, any_inspect_kind};
use super::lengths::{any_named_length, resized_with, AFTER_A_PAGE};
use super::words::{self, any_value, value_with_pulses, Hole, SPARSE_VALUE};
use crate::call::Entry;
use crate::page::{self, known_shape, length_of, Words, FILLED, FIRST_ROUND, INSPECTED, SECOND_ROUND};
use crate::random::Random;
use crate::shape::Shape;
use crate::word::{self, Cells, CELLS, LAST_CELL};

pub fn blank(_: &mut Random, shape: Shape) -> Vec<u8> {
    vec![0; shape.bytes]
}

/// The first record of these values.
pub fn first_record(values: &[u32]) -> Vec<u8> {
    values.iter().flat_map(|value| value.to_be_bytes()).collect()
}

/// The first-round page of these values: of 256 bytes for 44 of them, of 512 bytes for 88.
pub fn first_page(values: &[u32]) -> Vec<u8> {
    let mut page = vec![0; Shape::with_words(values.len()).bytes];
    page::write_first(&mut page, &first_record(values)).expect("a blank page takes a first record");
    page
}

/// The first-round page with this value in each word.
pub fn page_of(shape: Shape, value: u32) -> Vec<u8> {
    first_page(&vec![value; shape.words])
}

/// The filled page of a first-round page.
pub fn filled_page(first: &[u8]) -> Vec<u8> {
    let mut page = first.to_vec();
    page::fill_page(&mut page).expect("a first-round page");
    page
}

/// The filled page of a first-round page, as versions before Change 6 left it.
pub fn filled_page_earlier(first: &[u8]) -> Vec<u8> {
    let words: Words = page::words_of(first).iter().map(word::filled_earlier).collect();
    page_of_words(FILLED, &words)
}

/// Makes the filled page of a first-round page.
pub type Filling = fn(&[u8]) -> Vec<u8>;

/// The fill, and the one before Change 6.
pub const FILLINGS: [Filling; 2] = [filled_page, filled_page_earlier];

/// The filled page after a record that fits was written over it.
pub fn written_over(mut filled: Vec<u8>, record: &[u8]) -> Vec<u8> {
    page::write_second(&mut filled, record).expect("the record fits");
    filled
}

/// The outcome of a record that fits the first-round page.
pub fn second_page(first: &[u8], record: &[u8]) -> Vec<u8> {
    written_over(filled_page(first), record)
}

/// The second-round page of a record that fits the first-round page, as versions before Change 6 left it.
pub fn second_page_earlier(first: &[u8], record: &[u8]) -> Vec<u8> {
    written_over(filled_page_earlier(first), record)
}

/// The most bytes that fit a first-round page or a filled page.
pub fn most_bytes(page: &[u8]) -> usize {
    page::page_capacity(page).expect("a first-round page or a filled page") as usize / 8
}

/// The page in this state of these words, with every other byte at 0.
fn page_of_words(state: u8, words: &[Cells]) -> Vec<u8> {
    let mut page = with_byte(vec![0; Shape::with_words(words.len()).bytes], 0, state);
    page::put_words(&mut page, words);
    page
}

/// The page with another word in this place.
pub fn with_word(mut page: Vec<u8>, index: usize, cells: Cells) -> Vec<u8> {
    let mut words = page::words_of(&page);
    words[index] = cells;
    page::put_words(&mut page, &words);
    page
}

/// The page with another byte in this place.
pub fn with_byte(mut page: Vec<u8>, place: usize, byte: u8) -> Vec<u8> {
    page[place] = byte;
    page
}

/// The page with another length in bytes 1 and 2.
pub fn with_length(mut page: Vec<u8>, length: usize) -> Vec<u8> {
    page::put_length(&mut page, length);
    page
}

/// The page with the bytes after its words at 0.
pub fn with_sound_tail(mut page: Vec<u8>) -> Vec<u8> {
    let tail = known_shape(&page).tail();
    page[tail].fill(0);
    page
}

/// The page with the bit of this number flipped, counted from the highest bit of byte 0.
pub fn with_flip(mut page: Vec<u8>, bit: usize) -> Vec<u8> {
    page[bit / 8] ^= 0x80 >> (bit % 8);
    page
}

/// The number of this cell's bit, counted from the highest bit of byte 0.
fn bit_of(index: usize, cell: usize) -> usize {
    24 + CELLS * index + cell
}

/// The page with this cell of this word set.
pub fn with_cell(mut page: Vec<u8>, index: usize, cell: usize) -> Vec<u8> {
    let bit = bit_of(index, cell);
    page[bit / 8] |= 0x80 >> (bit % 8);
    page
}

/// The page with cell 45 of this word flipped.
pub fn with_cell_45_flipped(page: Vec<u8>, index: usize) -> Vec<u8> {
    with_flip(page, bit_of(index, LAST_CELL))
}

/// The filled page without one of the separators of this word but 45.
pub fn without_separator(random: &mut Random, filled: Vec<u8>, index: usize) -> Vec<u8> {
    let cells = words::without_separator(random, page::words_of(&filled)[index]);
    with_word(filled, index, cells)
}

/// The filled or second-round page with this data cell set, counted from 0 over the page.
pub fn with_data_cell(page: Vec<u8>, place: usize) -> Vec<u8> {
    let (index, cell) = page::data_cells_of(&page::words_of(&page))[place];
    with_cell(page, index, cell)
}

/// The values with another value in this place.
pub fn with_value(mut values: Vec<u32>, index: usize, value: u32) -> Vec<u32> {
    values[index] = value;
    values
}

/// The values of a page that has these by turns.
pub fn by_turns(shape: Shape, values: &[u32]) -> Vec<u32> {
    values.iter().copied().cycle().take(shape.words).collect()
}

/// The values of a page whose fill takes this many pulses, up to the most, which its words share evenly.
pub fn values_with_pulses(shape: Shape, pulses: usize) -> Vec<u32> {
    let before = |index: usize| pulses * index / shape.words;
    (0..shape.words).map(|index| value_with_pulses(before(index + 1) - before(index))).collect()
}

/// The values of a page, each by itself from this.
pub fn drawn_values(random: &mut Random, shape: Shape, value: impl Fn(&mut Random) -> u32) -> Vec<u32> {
    (0..shape.words).map(|_| value(random)).collect()
}

/// Any 32 bits.
pub fn any_bits(random: &mut Random) -> u32 {
    random.draw() as u32
}

/// The values of a page: all alike, all different, or a mixture of the least and the most capacity.
pub fn any_values(random: &mut Random, shape: Shape) -> Vec<u32> {
    let alike = any_value(random);
    match random.below(5) {
        0 => vec![alike; shape.words],
        1 => drawn_values(random, shape, any_value),
        2 => drawn_values(random, shape, |random| random.pick(&[0, SPARSE_VALUE, alike])),
        _ => drawn_values(random, shape, any_bits),
    }
}

/// A record of zeros, of ones, or of any bytes.
pub fn any_record(random: &mut Random, length: usize) -> Vec<u8> {
    match random.below(6) {
        0 => vec![0; length],
        1 => vec![0xFF; length],
        _ => random.bytes(length),
    }
}

pub fn any_first(random: &mut Random, shape: Shape) -> Vec<u8> {
    first_page(&any_values(random, shape))
}

pub fn any_filled(random: &mut Random, shape: Shape) -> Vec<u8> {
    filled_page(&any_first(random, shape))
}

/// A first-round page, and a record of at least `least` bytes, which fit every page, that fits it.
pub fn first_and_record(random: &mut Random, shape: Shape, least: usize) -> (Vec<u8>, Vec<u8>) {
    let first = any_first(random, shape);
    let most = most_bytes(&first);
    let any = random.between(least, most);
    let length = random.pick(&[least, most, any, any]);
    let record = any_record(random, length);
    (first, record)
}

pub fn any_second(random: &mut Random, shape: Shape) -> Vec<u8> {
    let (first, record) = first_and_record(random, shape, 0);
    second_page(&first, &record)
}

/// A filled page as versions before Change 6 left it.
fn any_filled_earlier(random: &mut Random, shape: Shape) -> Vec<u8> {
    filled_page_earlier(&any_first(random, shape))
}

/// A second-round page as versions before Change 6 left it.
fn any_second_earlier(random: &mut Random, shape: Shape) -> Vec<u8> {
    let (first, record) = first_and_record(random, shape, 0);
    second_page_earlier(&first, &record)
}

/// The places of the bytes that 6 asks for: 1 and 2, and those after the words.
pub fn header_places(shape: Shape) -> Vec<usize> {
    [1, 2].into_iter().chain(shape.tail()).collect()
}

fn blank_with_byte(random: &mut Random, shape: Shape) -> Vec<u8> {
    let (any, of_header) = (random.below(shape.bytes), random.pick(&header_places(shape)));
    let place = random.pick(&[any, any, of_header]);
    with_byte(blank(random, shape), place, random.byte_from(1))
}

/// The page with any byte in place of one that 6 asks for, or with any length.
pub fn with_header(random: &mut Random, page: Vec<u8>) -> Vec<u8> {
    if random.one_in(3) {
        return with_length(page, any_named_length(random));
    }
    let place = random.pick(&header_places(known_shape(&page)));
    with_byte(page, place, random.byte())
}

fn first_with_header(random: &mut Random, shape: Shape) -> Vec<u8> {
    let page = any_first(random, shape);
    with_header(random, page)
}

fn first_with_illegal_word(random: &mut Random, shape: Shape) -> Vec<u8> {
    let (page, index) = (any_first(random, shape), random.below(shape.words));
    with_word(page, index, words::illegal(random))
}

/// An illegal word under a header that is not sound: 6 comes before 7.
fn first_with_both(random: &mut Random, shape: Shape) -> Vec<u8> {
    let page = first_with_illegal_word(random, shape);
    with_header(random, page)
}

pub fn flipped(random: &mut Random, page: Vec<u8>) -> Vec<u8> {
    let bit = random.below(8 * page.len());
    with_flip(page, bit)
}

fn first_flipped(random: &mut Random, shape: Shape) -> Vec<u8> {
    let page = any_first(random, shape);
    flipped(random, page)
}

/// Any cells under a sound header of this state and this length.
pub fn of_any_cells(random: &mut Random, shape: Shape, state: u8, length: usize) -> Vec<u8> {
    let mut page = with_length(with_byte(vec![0; shape.bytes], 0, state), length);
    page[shape.cells()].fill_with(|| random.byte());
    page
}

fn first_of_any_cells(random: &mut Random, shape: Shape) -> Vec<u8> {
    of_any_cells(random, shape, FIRST_ROUND, 0)
}

fn filled_with_header(random: &mut Random, shape: Shape) -> Vec<u8> {
    let page = any_filled(random, shape);
    with_header(random, page)
}

/// The page with a word that no filled page has.
pub fn with_flaw(random: &mut Random, page: Vec<u8>) -> Vec<u8> {
    let index = random.below(known_shape(&page).words);
    with_word(page, index, words::not_unwritten(random))
}

fn filled_with_flaw(random: &mut Random, shape: Shape) -> Vec<u8> {
    let page = any_filled(random, shape);
    with_flaw(random, page)
}

/// Two words are not as they must be, for different reasons or the same.
fn filled_with_two_flaws(random: &mut Random, shape: Shape) -> Vec<u8> {
    let page = filled_with_flaw(random, shape);
    with_flaw(random, page)
}

/// Such a word under a header that is not sound: 6 comes before 7.
fn filled_with_both(random: &mut Random, shape: Shape) -> Vec<u8> {
    let page = filled_with_flaw(random, shape);
    with_header(random, page)
}

/// A filled page with one data cell set: the first, the last, or any.
fn filled_with_data_cell(random: &mut Random, shape: Shape) -> Vec<u8> {
    let page = any_filled(random, shape);
    let most = page::data_cells_of(&page::words_of(&page)).len();
    let any = random.below(most);
    with_data_cell(page, random.pick(&[0, most - 1, any, any]))
}

/// A filled page of any unwritten words.
fn filled_of_any_words(random: &mut Random, shape: Shape) -> Vec<u8> {
    let words: Words = (0..shape.words).map(|_| words::unwritten(random)).collect();
    page_of_words(FILLED, &words)
}

/// The page with cell 45 flipped in about every other word that has a separator in cell 43, so that each of these words
/// is as one or the other fill leaves it.
fn with_either_end(random: &mut Random, page: Vec<u8>) -> Vec<u8> {
    let words = page::words_of(&page);
    let ends = |index: &usize| word::separators(&words[*index])[LAST_CELL - 2];
    let chosen: Vec<usize> = (0..words.len()).filter(|index| ends(index) && random.one_in(2)).collect();
    chosen.into_iter().fold(page, with_cell_45_flipped)
}

/// A filled page of which each word is as one or the other fill leaves it.
fn filled_of_either_end(random: &mut Random, shape: Shape) -> Vec<u8> {
    let page = any_filled(random, shape);
    with_either_end(random, page)
}

/// A second-round page of which each word is as one or the other fill leaves it.
fn second_of_either_end(random: &mut Random, shape: Shape) -> Vec<u8> {
    let page = any_second(random, shape);
    with_either_end(random, page)
}

/// A filled page of either fill with cell 45 of one word flipped: the separator goes or comes, or the data cell is set.
fn filled_with_cell_45_flipped(random: &mut Random, shape: Shape) -> Vec<u8> {
    let page = random.pick::<Maker>(&[any_filled, any_filled_earlier])(random, shape);
    with_cell_45_flipped(page, random.below(shape.words))
}

/// The same with a second-round page, where the data cell may have been set.
fn second_with_cell_45_flipped(random: &mut Random, shape: Shape) -> Vec<u8> {
    let page = random.pick::<Maker>(&[any_second, any_second_earlier])(random, shape);
    with_cell_45_flipped(page, random.below(shape.words))
}

/// A filled page of either fill that lacks another cell of the fill than 45.
fn filled_without_separator(random: &mut Random, shape: Shape) -> Vec<u8> {
    let page = random.pick::<Maker>(&[any_filled, any_filled_earlier])(random, shape);
    let index = random.below(shape.words);
    without_separator(random, page, index)
}

fn filled_flipped(random: &mut Random, shape: Shape) -> Vec<u8> {
    let page = any_filled(random, shape);
    flipped(random, page)
}

fn filled_of_any_cells(random: &mut Random, shape: Shape) -> Vec<u8> {
    of_any_cells(random, shape, FILLED, 0)
}

/// The cells of a first-round or second-round page under the header of a filled one.
fn filled_of_another_round(random: &mut Random, shape: Shape) -> Vec<u8> {
    let page = random.pick::<Maker>(&[any_first, any_second])(random, shape);
    with_length(with_byte(page, 0, FILLED), 0)
}

fn second_with_header(random: &mut Random, shape: Shape) -> Vec<u8> {
    let page = any_second(random, shape);
    with_header(random, page)
}

fn second_with_hole(random: &mut Random, shape: Shape) -> Vec<u8> {
    let (page, index) = (any_second(random, shape), random.below(shape.words));
    let hole = random.pick(&Hole::ALL);
    with_word(page, index, words::with_hole(random, hole))
}

/// A hole under a header that is not sound: 6 comes before 7.
fn second_with_both(random: &mut Random, shape: Shape) -> Vec<u8> {
    let page = second_with_hole(random, shape);
    with_header(random, page)
}

/// Any length that a page may have in state 07.
fn any_length(random: &mut Random, shape: Shape) -> usize {
    random.between(0, shape.second_bytes_most)
}

/// A second-round page of another length than its record's.
fn second_of_other_length(random: &mut Random, shape: Shape) -> Vec<u8> {
    let length = any_length(random, shape);
    with_length(any_second(random, shape), length)
}

/// A second-round page with a data cell set, in the record or spare.
fn second_with_data_cell(random: &mut Random, shape: Shape) -> Vec<u8> {
    let page = any_second(random, shape);
    let most = page::data_cells_of(&page::words_of(&page)).len();
    let spare = (8 * length_of(&page)).min(most - 1);
    let any = random.below(most);
    with_data_cell(page, random.pick(&[spare, most - 1, any]))
}

/// A second-round page of any well-formed words, with no first record behind it.
fn second_of_any_words(random: &mut Random, shape: Shape) -> Vec<u8> {
    let length = any_length(random, shape);
    let words: Words = (0..shape.words).map(|_| words::well_formed(random)).collect();
    with_length(page_of_words(SECOND_ROUND, &words), length)
}

fn second_flipped(random: &mut Random, shape: Shape) -> Vec<u8> {
    let page = any_second(random, shape);
    flipped(random, page)
}

fn second_of_any_cells(random: &mut Random, shape: Shape) -> Vec<u8> {
    let length = any_length(random, shape);
    of_any_cells(random, shape, SECOND_ROUND, length)
}

/// A valid page of one state under the state byte of another, or of none.
fn any_state(random: &mut Random, shape: Shape) -> Vec<u8> {
    let page = random.pick::<Maker>(&[blank, any_first, any_filled, any_second, any_inspect])(random, shape);
    let any = random.byte();
    with_byte(page, 0, random.pick(&[0x00, 0x01, 0x03, 0x07, 0x09, any, any, any]))
}

fn of_any_bytes(random: &mut Random, shape: Shape) -> Vec<u8> {
    random.bytes(shape.bytes)
}

/// The bytes of a valid page of the other size at this one's length: cut, or followed by zeros, by ones or by any bytes.
fn of_the_other_size(random: &mut Random, shape: Shape) -> Vec<u8> {
    let page = random.pick::<Maker>(&[blank, any_first, any_filled, any_second, any_inspect])(random, shape.other());
    let after = random.pick(&AFTER_A_PAGE);
    resized_with(random, page, shape.bytes, after)
}

/// Makes a page of some kind.
pub type Maker = fn(&mut Random, Shape) -> Vec<u8>;

const BLANK_KINDS: [Maker; 4] = [blank, blank, blank, blank_with_byte];
const FIRST_KINDS: [Maker; 8] = [
    any_first,
    any_first,
    any_first,
    first_with_header,
    first_with_illegal_word,
    first_with_both,
    first_flipped,
    first_of_any_cells,
];
const FILLED_KINDS: [Maker; 18] = [
    any_filled,
    any_filled,
    any_filled,
    any_filled_earlier,
    any_filled_earlier,
    filled_of_either_end,
    filled_of_any_words,
    filled_with_cell_45_flipped,
    filled_without_separator,
    filled_with_header,
    filled_with_flaw,
    filled_with_flaw,
    filled_with_two_flaws,
    filled_with_both,
    filled_with_data_cell,
    filled_flipped,
    filled_of_any_cells,
    filled_of_another_round,
];
const SECOND_KINDS: [Maker; 15] = [
    any_second,
    any_second,
    any_second,
    any_second_earlier,
    any_second_earlier,
    second_of_either_end,
    second_with_cell_45_flipped,
    second_with_header,
    second_with_hole,
    second_with_both,
    second_of_other_length,
    second_with_data_cell,
    second_of_any_words,
    second_flipped,
    second_of_any_cells,
];
const INSPECT_KINDS: [Maker; 1] = [any_inspect_kind];
const OTHER_KINDS: [Maker; 3] = [any_state, of_any_bytes, of_the_other_size];

/// The kinds of pages of this state, valid and damaged.
fn kinds(state: u8) -> &'static [Maker] {
    match state {
        FIRST_ROUND => &FIRST_KINDS,
        FILLED => &FILLED_KINDS,
        SECOND_ROUND => &SECOND_KINDS,
        INSPECTED => &INSPECT_KINDS,
        _ => &BLANK_KINDS,
    }
}

/// A page of any kind.
pub fn any_page(random: &mut Random, shape: Shape) -> Vec<u8> {
    let kinds: [&[Maker]; 6] = [&BLANK_KINDS, &FIRST_KINDS, &FILLED_KINDS, &SECOND_KINDS, &INSPECT_KINDS, &OTHER_KINDS];
    let kind = random.pick(&kinds);
    random.pick(kind)(random, shape)
}

/// A page mostly of a state that the entry asks for.
pub fn page_for(random: &mut Random, entry: Entry, shape: Shape) -> Vec<u8> {
    match random.below(16) {
        0 | 1 => any_page(random, shape),
        2 => of_the_other_size(random, shape),
        _ => {
            let state = random.pick(entry.states());
            random.pick(kinds(state))(random, shape)
        }
    }
}

#[cfg(test)]
mod tests {
    use super::*;
    use crate::answer::number;
    use crate::call::Call;
    use crate::inspect::read_inspect;
    use crate::page::{page_capacity, read_first, read_second, write_first, write_second};
    use crate::shape::LARGE;
    use std::collections::HashSet;

    /// The number of read second's answer, with an output that is long enough.
    fn read(page: &[u8]) -> u8 {
        number(read_second(page, &mut [0; 255]))
    }

    /// The number of the answer of read second in state 07, and of page capacity in others.
    fn judged(page: &[u8]) -> u8 {
        if page[0] == SECOND_ROUND {
            read(page)
        } else {
            number(page_capacity(page))
        }
    }

    #[test]
    fn pages_have_their_length() {
        let mut random = Random::new(5);
        for shape in Shape::BOTH.repeat(2_000) {
            assert_eq!(any_page(&mut random, shape).len(), shape.bytes);
        }
    }

    #[test]
    fn filled_pages_of_each_kind() {
        let mut random = Random::new(6);
        for shape in Shape::BOTH.repeat(100) {
            for maker in [any_filled, any_filled_earlier, filled_of_either_end, filled_of_any_words] {
                assert!(page_capacity(&maker(&mut random, shape)).is_ok());
            }
            let flawed: [Maker; 4] =
                [filled_with_flaw, filled_with_two_flaws, filled_with_data_cell, filled_without_separator];
            for maker in flawed {
                assert_eq!(number(page_capacity(&maker(&mut random, shape))), 7);
            }
        }
    }

    #[test]
    fn second_round_pages_of_each_kind() {
        let mut random = Random::new(6);
        for shape in Shape::BOTH.repeat(100) {
            for maker in [any_second, any_second_earlier, second_of_either_end] {
                assert_eq!(read(&maker(&mut random, shape)), 0);
            }
        }
    }

    /// Under a bad word, and under none: the header is sound, by chance, or 6 is for it.
    #[test]
    fn pages_with_a_header_byte() {
        let mut random = Random::new(6);
        let makers: [[Maker; 2]; 3] = [
            [first_with_header, first_with_both],
            [filled_with_header, filled_with_both],
            [second_with_header, second_with_both],
        ];
        for (shape, pair) in Shape::BOTH.into_iter().flat_map(|shape| makers.map(|pair| (shape, pair))) {
            let mut answers =
                |maker: Maker| -> HashSet<u8> { (0..2_000).map(|_| judged(&maker(&mut random, shape))).collect() };
            let [alone, both] = pair.map(&mut answers);
            assert!(alone.is_superset(&HashSet::from([0, 6])) && !alone.contains(&7), "{alone:?}");
            assert_eq!(both, HashSet::from([6, 7]));
        }
    }

    /// Each byte that 6 asks for, and some other byte, is the one that is not blank.
    #[test]
    fn blank_pages_with_a_byte() {
        let mut random = Random::new(6);
        for shape in Shape::BOTH {
            let set = |page: Vec<u8>| page.iter().position(|&byte| byte != 0).expect("a byte");
            let met: HashSet<usize> = (0..500).map(|_| set(blank_with_byte(&mut random, shape))).collect();
            assert!(header_places(shape).iter().all(|place| met.contains(place)) && met.len() > 100, "{met:?}");
        }
        assert_eq!(header_places(Shape::BOTH[0]), [1, 2]);
        assert_eq!(header_places(Shape::BOTH[1]), [1, 2, 509, 510, 511]);
    }

    /// The answers that the bytes of a page of the other size lead to.
    #[test]
    fn pages_of_the_other_size() {
        let mut random = Random::new(6);
        let answers = |page: &[u8]| {
            let first = number(read_first(page, &mut [0; 352]));
            let written = number(write_first(&mut page.to_vec(), &vec![0; known_shape(page).first_bytes]));
            let inspect = number(read_inspect(page, &mut [0; LARGE.inspect_bytes_most]));
            [(0x00, written), (0x01, first), (0x03, number(page_capacity(page))), (0x07, read(page)), (0x09, inspect)]
        };
        let before_others = [(0x00, 4), (0x01, 6), (0x03, 6), (0x03, 7), (0x07, 6), (0x07, 7), (0x09, 6)];
        for (shape, wanted) in Shape::BOTH.into_iter().zip([
            // Cut: first-round and filled pages, but not every second-round page, are pages.
            vec![(0x00, 0), (0x01, 0), (0x03, 0), (0x07, 0), (0x07, 6), (0x07, 9), (0x09, 0), (0x09, 6), (0x09, 9)],
            // Before other bytes: with zeros, a blank page, a first-round page and one of the Inspect code are pages.
            [0x00, 0x01, 0x09].map(|state| (state, 0)).into_iter().chain(before_others).collect(),
        ]) {
            let pages = (0..2_000).map(|_| of_the_other_size(&mut random, shape));
            let own = |page: Vec<u8>| answers(&page).into_iter().find(|(state, _)| *state == page[0]);
            let met: HashSet<(u8, u8)> = pages.filter_map(own).collect();
            assert_eq!(met, HashSet::from_iter(wanted), "{}", shape.bytes);
        }
    }

    /// The answers that pages with cell 45 of one word flipped lead to.
    #[test]
    fn pages_with_cell_45_flipped() {
        let mut random = Random::new(7);
        for shape in Shape::BOTH {
            let measured = (0..300).map(|_| number(page_capacity(&filled_with_cell_45_flipped(&mut random, shape))));
            assert_eq!(measured.collect::<HashSet<u8>>(), HashSet::from([0, 7]));
            let met: HashSet<u8> = (0..300).map(|_| read(&second_with_cell_45_flipped(&mut random, shape))).collect();
            assert_eq!(met, HashSet::from([0, 7, 9]));
        }
    }

    /// Where a word ends in cell 43, both ends occur on one page; the other words stay as they are.
    #[test]
    fn words_of_either_end() {
        let mut random = Random::new(8);
        let makers: [Maker; 2] = [filled_of_either_end, second_of_either_end];
        for (shape, maker) in Shape::BOTH.into_iter().flat_map(|shape| makers.map(|maker| (shape, maker))) {
            let pages: Vec<_> = (0..50).map(|_| page::words_of(&maker(&mut random, shape))).collect();
            let open_and_not = |words: &&Words| {
                let end = |cells: &Cells| (word::separators(cells)[43], word::separators(cells)[45]);
                let ends: HashSet<(bool, bool)> = words.iter().map(end).collect();
                ends.contains(&(true, false)) && ends.contains(&(true, true))
            };
            assert!(pages.iter().filter(open_and_not).count() > 25);
        }
    }

    /// Of the pages of random calls, each entry accepts many with an open word, and many without any, as the earlier fill
    /// left them.
    #[test]
    fn pages_for_the_entries_after_the_fill() {
        for (entry, shape) in
            Entry::AFTER_THE_FILL.into_iter().flat_map(|entry| Shape::BOTH.map(|shape| (entry, shape)))
        {
            let mut random = Random::new(9);
            let pages = (0..1_000).map(|_| page_for(&mut random, entry, shape));
            let pages: Vec<_> = pages.filter(|page| page[0] > 1).collect();
            let accepted = |page: &&Vec<u8>| {
                let mut call = Call::of_page(entry, page.to_vec(), Vec::new());
                // An empty output may be too short.
                matches!(number(call.perform()), 0 | 3)
            };
            let words: Vec<_> = pages.iter().filter(accepted).map(|page| page::words_of(page)).collect();
            let open = words.iter().filter(|words| words.iter().any(word::open)).count();
            assert!(open > 50 && words.len() - open > 50, "{}: {open} of {}", entry.name(), words.len());
        }
    }

    /// Among pages of any kind there are filled pages that writing accepts, and refuses by 6 and by 7.
    #[test]
    fn any_page_may_be_filled() {
        let mut random = Random::new(7);
        for shape in Shape::BOTH {
            let pages = (0..1_000).map(|_| any_page(&mut random, shape)).filter(|page| page[0] == FILLED);
            let met: HashSet<u8> = pages.map(|mut page| number(write_second(&mut page, &[]))).collect();
            assert_eq!(met, HashSet::from([0, 6, 7]));
        }
    }
}
