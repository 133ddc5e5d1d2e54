//! The page of either size and its operations, but for those of the Inspect code.

use crate::answer::{refuse_if, Answer, Refusal};
use crate::shape::Shape;
use crate::word::{self, Cells, CELLS};

pub const BLANK: u8 = 0x00;
pub const FIRST_ROUND: u8 = 0x01;
pub const FILLED: u8 = 0x03;
pub const SECOND_ROUND: u8 = 0x07;
/// Second round by the Inspect code: "The state becomes 09 (hexadecimal)".
pub const INSPECTED: u8 = 0x09;

/// The words of a page, word 0 first.
pub type Words = Vec<Cells>;

/// "the highest bit of a byte first".
pub fn bits_of(bytes: &[u8]) -> impl Iterator<Item = bool> + '_ {
    bytes.iter().flat_map(|&byte| (0..8).map(move |bit| byte >> (7 - bit) & 1 == 1))
}

/// The byte of eight bits, the highest first.
fn byte_of(bits: &[bool]) -> u8 {
    bits.iter().fold(0, |byte, &set| byte << 1 | u8::from(set))
}

/// The shape of a page, or 1: "Refusal 1 now means neither 256 nor 512 bytes".
fn shape_of(page: &[u8]) -> Result<Shape, Refusal> {
    Shape::of(page).ok_or(Refusal::PAGE_LENGTH)
}

/// The shape of bytes that are known to be a page's.
pub fn known_shape(page: &[u8]) -> Shape {
    shape_of(page).expect("a page of either size")
}

/// The words of a page of either size.
pub fn words_of(page: &[u8]) -> Words {
    let cells: Vec<bool> = bits_of(&page[known_shape(page).cells()]).collect();
    cells.chunks(CELLS).map(|word| word.try_into().expect("46 cells")).collect()
}

/// Puts the words into their bytes of a page of either size.
pub fn put_words(page: &mut [u8], words: &[Cells]) {
    let places = known_shape(page).cells();
    for (byte, bits) in page[places].iter_mut().zip(words.concat().chunks(8)) {
        *byte = byte_of(bits);
    }
}

/// "A page's capacity is the sum over its words."
fn capacity_of(words: &[Cells]) -> usize {
    words.iter().map(word::capacity).sum()
}

/// "Filling a page returns the sum over its words."
fn pulses_of(words: &[Cells]) -> usize {
    words.iter().map(word::pulses).sum()
}

/// The data cells that reading back finds on a filled or second-round page, as word and cell: "word 0 first, lower cells
/// first".
pub fn data_cells_of(words: &[Cells]) -> Vec<(usize, usize)> {
    let in_word = |index: usize| word::read_back(&words[index]).into_iter().map(move |cell| (index, cell));
    (0..words.len()).flat_map(in_word).collect()
}

/// "7 with the lowest index" of a word that is not as it must be.
pub fn refuse_word(words: &[Cells], sound: fn(&Cells) -> bool) -> Result<(), Refusal> {
    match words.iter().position(|cells| !sound(cells)) {
        Some(index) => Err(Refusal::word(index)),
        None => Ok(()),
    }
}

/// "The record length becomes two bytes, byte 1 low and byte 2 high."
pub fn length_of(page: &[u8]) -> usize {
    usize::from(u16::from_le_bytes([page[1], page[2]]))
}

/// Puts a record length into its two bytes.
pub fn put_length(page: &mut [u8], length: usize) {
    let length = u16::try_from(length).expect("a length of two bytes");
    page[1..3].copy_from_slice(&length.to_le_bytes());
}

/// The most that the length may be on a page in this state: "the limit of that code and page", and 0 in every other state.
pub fn longest_named(shape: Shape, state: u8) -> usize {
    match state {
        SECOND_ROUND => shape.second_bytes_most,
        INSPECTED => shape.inspect_bytes_most,
        _ => 0,
    }
}

/// Whether 6 is not for this page: it "means a length above the limit of that code and page", "or on 512 bytes one of
/// bytes 509 to 511 not 0".
fn header_sound(page: &[u8], shape: Shape) -> bool {
    length_of(page) <= longest_named(shape, page[0]) && page[shape.tail()].iter().all(|&byte| byte == 0)
}

/// The words, not judged, of a page in this state; or the refusals 1, 5, 6.
pub fn words_below_header(page: &[u8], state: u8) -> Result<Words, Refusal> {
    let shape = shape_of(page)?;
    refuse_if(page[0] != state, Refusal::STATE)?;
    refuse_if(!header_sound(page, shape), Refusal::HEADER)?;
    Ok(words_of(page))
}

/// The words of such a page, all of them sound; or the refusals 1, 5, 6, 7.
fn words_in(page: &[u8], state: u8, sound: fn(&Cells) -> bool) -> Result<Words, Refusal> {
    let words = words_below_header(page, state)?;
    refuse_word(&words, sound)?;
    Ok(words)
}

/// The words of a first-round page, or the refusals "as in read first".
pub fn first_round_words(page: &[u8]) -> Result<Words, Refusal> {
    words_in(page, FIRST_ROUND, word::legal)
}

/// The words of a filled page, or the refusals of writing: 7 is "for a word that is not well formed or has a data cell
/// set".
fn filled_words(page: &[u8]) -> Result<Words, Refusal> {
    words_in(page, FILLED, word::unwritten)
}

/// The words of a second-round page, or the refusals of read second.
fn second_round_words(page: &[u8]) -> Result<Words, Refusal> {
    words_in(page, SECOND_ROUND, word::well_formed)
}

/// "each four bytes, highest first, make one word's value".
fn words_of_record(data: &[u8]) -> Words {
    let value = |four: &[u8]| four.iter().fold(0, |value, &byte| value << 8 | u32::from(byte));
    data.chunks(4).map(|four| word::legal_word(value(four))).collect()
}

/// "turns a blank page into state 01"; of the refusals, "2 compares with the page's own record size".
pub fn write_first(page: &mut [u8], data: &[u8]) -> Answer {
    let shape = shape_of(page)?;
    refuse_if(data.len() != shape.first_bytes, Refusal::DATA_LENGTH)?;
    refuse_if(page.iter().any(|&byte| byte != 0), Refusal::NOT_BLANK)?;
    page[0] = FIRST_ROUND;
    put_words(page, &words_of_record(data));
    Ok(0)
}

/// Puts the first record "at the start of the output; output after them is unchanged."
pub fn read_first(page: &[u8], output: &mut [u8]) -> Answer {
    let shape = shape_of(page)?;
    let words = first_round_words(page)?;
    refuse_if(output.len() < shape.first_bytes, Refusal::OUTPUT_LENGTH)?;
    for (four, cells) in output.chunks_mut(4).zip(&words) {
        let value = word::sum(cells);
        for (place, byte) in four.iter_mut().enumerate() {
            *byte = (value >> (24 - 8 * place)) as u8;
        }
    }
    Ok(0)
}

/// "Page capacity serves both states; on a state 03 page it refuses 6 and 7 as writing does, and 5 is for any other
/// state."
pub fn page_capacity(page: &[u8]) -> Answer {
    shape_of(page)?;
    let capacity = match page[0] {
        FILLED => data_cells_of(&filled_words(page)?).len(),
        _ => capacity_of(&first_round_words(page)?),
    };
    Ok(capacity as u64)
}

/// "Filling turns a first-round page into state 03 (hexadecimal) with bytes 1 and 2 at 0." Of the pulses, "the one in the
/// state byte is not in it".
pub fn fill_page(page: &mut [u8]) -> Answer {
    let words = first_round_words(page)?;
    let filled: Words = words.iter().map(word::filled).collect();
    put_words(page, &filled);
    page[0] = FILLED;
    Ok(pulses_of(&words) as u64)
}

/// "8 times the record's length in bytes is at most the page's capacity".
pub fn fits(record: &[u8], capacity: usize) -> bool {
    8 * record.len() as u128 <= capacity as u128
}

/// "puts the record's bits (highest bit of each byte first) in the data cells, leaves the spare data cells 0".
fn put_record(words: &mut Words, data_cells: &[(usize, usize)], record: &[u8]) {
    for (&(index, cell), bit) in data_cells.iter().zip(bits_of(record)) {
        words[index][cell] = bit;
    }
}

/// "Writing puts a record over a state 03 page and gives state 07."
pub fn write_second(page: &mut [u8], record: &[u8]) -> Answer {
    let mut words = filled_words(page)?;
    let data_cells = data_cells_of(&words);
    let capacity = data_cells.len();
    refuse_if(!fits(record, capacity), Refusal::record_length(capacity))?;
    put_record(&mut words, &data_cells, record);
    put_words(page, &words);
    put_length(page, record.len());
    page[0] = SECOND_ROUND;
    Ok(0)
}

/// "Returns the length and puts the record at the start of the output, the remainder unchanged"; or refuses "3 if the
/// output is shorter than the record". The bits are the record's.
pub fn put_record_out(bits: &[bool], output: &mut [u8]) -> Answer {
    let length = bits.len() / 8;
    refuse_if(output.len() < length, Refusal::OUTPUT_LENGTH)?;
    for (byte, eight) in output.iter_mut().zip(bits.chunks(8)) {
        *byte = byte_of(eight);
    }
    Ok(length as u64)
}

/// Reads the record of a second-round page: 9 if 8 times the length "exceeds the number of data cells or a spare data cell
/// is 1".
pub fn read_second(page: &[u8], output: &mut [u8]) -> Answer {
    let words = second_round_words(page)?;
    let bits: Vec<bool> = data_cells_of(&words).into_iter().map(|(index, cell)| words[index][cell]).collect();
    let count = 8 * length_of(page);
    refuse_if(count > bits.len() || bits[count..].contains(&true), Refusal::DATA_CELLS)?;
    put_record_out(&bits[..count], output)
}

#[cfg(test)]
mod tests {
    use super::*;
    use crate::cases::pages::{
        any_first, any_record, filled_page_earlier, first_page, page_of, second_page_earlier, values_with_pulses,
        with_byte, with_cell_45_flipped, with_length, with_value, with_word, without_separator,
    };
    use crate::cases::words::{never_sound, unwritten, END_VALUES, OPEN_SPARSE_VALUE, OPEN_VALUES, SPARSE_VALUE};
    use crate::random::Random;
    use crate::shape::{LARGE, SMALL};

    /// No cell of any byte is cleared.
    fn check_cells(before: &[u8], after: &[u8]) {
        assert!(before.iter().zip(after).all(|(before, after)| before & !after == 0));
    }

    /// How many more cells are set in the bytes after than in those before.
    fn newly_set(before: &[u8], after: &[u8]) -> u64 {
        let set = |bytes: &[u8]| bytes.iter().map(|byte| u64::from(byte.count_ones())).sum::<u64>();
        set(after) - set(before)
    }

    /// Fills a copy of the page. The pulses are the newly set cells of the words; the whole page has one more. Bytes 509 to
    /// 511 stay 0.
    fn filled_page(first: &[u8]) -> Vec<u8> {
        let mut page = first.to_vec();
        let pulses = fill_page(&mut page);
        assert_eq!(pulses, Ok(newly_set(&first[3..], &page[3..])));
        assert_eq!(pulses, Ok(newly_set(first, &page) - 1));
        assert_eq!(page[..3], [0x03, 0, 0]);
        assert!(page[known_shape(&page).tail()].iter().all(|&byte| byte == 0));
        check_cells(first, &page);
        page
    }

    /// The outcome as document 01 defines it, from the first-round page, with this fill: it "fills all 44 words, puts the
    /// record's bits (highest bit of each byte first) in the data cells, leaves the spare data cells 0, and writes byte 1
    /// and state 07". On 512 bytes there are 88 words.
    fn outcome_by_the_rules(first: &[u8], record: &[u8], fill: fn(&Cells) -> Cells) -> Vec<u8> {
        let mut bits = bits_of(record);
        let written = |legal: &Cells| {
            let mut cells = fill(legal);
            word::data_cells(&cells).into_iter().for_each(|cell| cells[cell] = bits.next().unwrap_or(false));
            cells
        };
        let words: Words = words_of(first).iter().map(written).collect();
        let mut page = vec![0x07, (record.len() % 256) as u8, (record.len() / 256) as u8];
        page.resize(first.len(), 0);
        put_words(&mut page, &words);
        page
    }

    /// Fills a copy of the page, writes the record over it and reads it back.
    fn outcome(first: &[u8], record: &[u8]) -> Vec<u8> {
        let filled = filled_page(first);
        let mut page = filled.clone();
        assert_eq!(write_second(&mut page, record), Ok(0));
        check_cells(&filled, &page);
        assert_eq!(page, outcome_by_the_rules(first, record, word::filled));
        let mut output = vec![0xA5; record.len() + 1];
        assert_eq!(read_second(&page, &mut output), Ok(record.len() as u64));
        assert_eq!(output, [record, &[0xA5]].concat());
        page
    }

    /// The record is refused 8 with this capacity, and "the page remains filled".
    fn check_refused_8(filled: &[u8], record: &[u8], capacity: usize) {
        let mut page = filled.to_vec();
        assert_eq!(write_second(&mut page, record), Err(Refusal::record_length(capacity)));
        assert_eq!(page, filled);
    }

    /// The capacity in both states; `most` bytes are accepted, and one more is refused 8 with the capacity.
    fn check_capacity(first: &[u8], capacity: usize, most: usize) {
        let filled = filled_page(first);
        assert_eq!(page_capacity(first), Ok(capacity as u64));
        assert_eq!(page_capacity(&filled), Ok(capacity as u64));
        outcome(first, &vec![0x96; most]);
        check_refused_8(&filled, &vec![0x96; most + 1], capacity);
    }

    #[test]
    fn page_of_176_zero_bytes() {
        check_capacity(&page_of(SMALL, 0), 1_012, 126);
    }

    #[test]
    fn page_of_44_times_3889371024() {
        check_capacity(&page_of(SMALL, 3_889_371_024), 660, 82);
    }

    /// "Its fill-code capacity is 1,320 to 2,024 bits, both ends are met".
    #[test]
    fn page_of_352_zero_bytes() {
        check_capacity(&page_of(LARGE, 0), 2_024, 253);
        check_refused_8(&filled_page(&page_of(LARGE, 0)), &[0; 256], 2_024);
    }

    /// "a record of up to 165 bytes fits each such page": here 165 bytes leave no data cell.
    #[test]
    fn page_of_88_times_3889371024() {
        check_capacity(&page_of(LARGE, 3_889_371_024), 1_320, 165);
    }

    /// The longest record of ones over 88 words of value 0 takes every data cell: each cell of bytes 3 to 508 is set.
    #[test]
    fn a_large_page_without_a_spare_data_cell() {
        let page = outcome(&page_of(LARGE, 0), &[0xFF; 253]);
        assert_eq!(page, [&[0x07, 253, 0][..], &[0xFF; 506], &[0; 3]].concat());
    }

    /// The pulses of the fill of a page of these values.
    fn check_pulses(values: &[u32], pulses: usize) {
        let first = first_page(values);
        filled_page(&first);
        assert_eq!(fill_page(&mut first.clone()), Ok(pulses as u64));
    }

    /// Each marked value on all words: 44 or 88 times the pulses of the word.
    #[test]
    fn pulses_of_pages_of_one_value() {
        let marked = [(0, 23), (1, 22), (2, 22), (3, 21), (77, 20), (243, 19), (3_889_371_024, 0)];
        for (value, pulses) in marked {
            check_pulses(&[value; 44], 44 * pulses);
            check_pulses(&[value; 88], 88 * pulses);
        }
    }

    /// Every word counts, the first and the last included, and counts once.
    #[test]
    fn pulses_of_one_word_and_of_all_but_one() {
        for (shape, all_but_one) in [(SMALL, 989), (LARGE, 2_001)] {
            for index in 0..shape.words {
                check_pulses(&with_value(vec![SPARSE_VALUE; shape.words], index, 0), 23);
                check_pulses(&with_value(vec![0; shape.words], index, SPARSE_VALUE), all_but_one);
            }
        }
        // 44 words by turns: 15 of no pulse, 15 of 22 and 14 of 20. 88 words: 30, 29 and 29.
        let by_turns = |words: usize| -> Vec<u32> { [SPARSE_VALUE, 1, 77].into_iter().cycle().take(words).collect() };
        check_pulses(&by_turns(44), 610);
        check_pulses(&by_turns(88), 1_218);
    }

    #[test]
    fn every_sum_of_pulses() {
        for (shape, most) in [(SMALL, 1_012), (LARGE, 2_024)] {
            for pulses in 0..=most {
                check_pulses(&values_with_pulses(shape, pulses), pulses);
            }
        }
    }

    /// "Where the record fits, the outcome of the two is the old outcome".
    #[test]
    fn many_pages_through_both_steps() {
        let mut random = Random::new(3);
        for shape in Shape::BOTH.repeat(100) {
            let first = any_first(&mut random, shape);
            let capacity = capacity_of(&words_of(&first));
            assert!((shape.capacity_least()..=shape.capacity_most()).contains(&capacity));
            check_capacity(&first, capacity, capacity / 8);
            for length in [0, 1, shape.second_bytes_sure(), random.between(0, capacity / 8)] {
                outcome(&first, &any_record(&mut random, length));
            }
        }
    }

    #[test]
    fn every_record_length_over_a_few_pages() {
        let mut random = Random::new(4);
        for (shape, most) in [(SMALL, 126), (LARGE, 253)] {
            for first in [page_of(shape, 0), page_of(shape, SPARSE_VALUE), any_first(&mut random, shape)] {
                let filled = filled_page(&first);
                let capacity = capacity_of(&words_of(&first));
                for length in 0..=most + 4 {
                    let record = any_record(&mut random, length);
                    if 8 * length <= capacity {
                        outcome(&first, &record);
                    } else {
                        check_refused_8(&filled, &record, capacity);
                    }
                }
            }
        }
    }

    #[test]
    fn records_of_length_0_and_of_one_zero_byte() {
        for (shape, value) in Shape::BOTH.into_iter().flat_map(|shape| [(shape, 0), (shape, 3_889_371_024)]) {
            let first = page_of(shape, value);
            let (empty, zero) = (outcome(&first, &[]), outcome(&first, &[0]));
            assert_eq!(empty[3..], zero[3..]);
            assert_eq!(empty[3..], filled_page(&first)[3..]);
            assert_eq!((empty[1], zero[1]), (0, 1));
        }
    }

    #[test]
    fn ones_set_every_cell_of_a_word_of_value_0() {
        let page = outcome(&page_of(SMALL, 0), &[0xFF; 126]);
        assert!(words_of(&page)[..43].iter().all(|cells| *cells == [true; CELLS]));
    }

    /// "2 compares with the page's own record size", and so does read first's 3.
    #[test]
    fn the_first_record_is_read_back() {
        for (shape, length) in [(SMALL, 176), (LARGE, 352)] {
            let data: Vec<u8> = (0..length).map(|place| (place * 37 + place / 7 + 11) as u8).collect();
            let mut page = vec![0; shape.bytes];
            assert_eq!(write_first(&mut page, &data), Ok(0));
            assert_eq!(page[..3], [0x01, 0, 0]);
            assert!(page[shape.tail()].iter().all(|&byte| byte == 0));
            for longer in [0, 1, 2, 300] {
                let mut output = vec![0xA5; length + longer];
                assert_eq!(read_first(&page, &mut output), Ok(0));
                assert_eq!(output, [&data[..], &vec![0xA5; longer]].concat());
            }
            for shorter in [0, 1, 175, length - 1] {
                let mut output = vec![0xA5; shorter];
                assert_eq!(read_first(&page, &mut output), Err(Refusal::OUTPUT_LENGTH));
                assert_eq!(output, vec![0xA5; shorter]);
            }
        }
    }

    /// Data that is not the page's own record: none, a byte less or more, and the other size's.
    #[test]
    fn first_records_of_other_lengths() {
        for (bytes, lengths) in [(256, [0, 175, 177, 351, 352, 353]), (512, [0, 175, 176, 177, 351, 353])] {
            for (length, byte) in lengths.into_iter().flat_map(|length| [(length, 0), (length, 1)]) {
                // 2 comes before 4.
                let page = with_byte(vec![0; bytes], bytes - 1, byte);
                let mut after = page.clone();
                assert_eq!(write_first(&mut after, &vec![7; length]), Err(Refusal::DATA_LENGTH));
                assert_eq!(after, page);
            }
        }
    }

    /// "4 if any page byte is not 0", bytes 509 to 511 included.
    #[test]
    fn pages_that_are_not_blank() {
        for shape in Shape::BOTH {
            for place in 0..shape.bytes {
                let page = with_byte(vec![0; shape.bytes], place, 0x10);
                let mut after = page.clone();
                assert_eq!(write_first(&mut after, &vec![7; shape.first_bytes]), Err(Refusal::NOT_BLANK));
                assert_eq!(after, page);
            }
        }
    }

    /// "88 words in bytes 3 to 508": word 43 ends with byte 255, and word 44 starts with byte 256.
    #[test]
    fn the_places_of_the_words_of_a_large_page() {
        // Cell 0 and cell 45 are set.
        let value = 2_971_215_074;
        for (index, bytes) in [(0, [(3, 0x80), (8, 0x04)]), (43, [(250, 0x20), (255, 0x01)])] {
            for (size, words) in [(256, 44), (512, 88)] {
                let page = first_page(&with_value(vec![0; words], index, value));
                assert_eq!(
                    page,
                    bytes
                        .iter()
                        .fold(with_byte(vec![0; size], 0, 1), |page, &(place, byte)| { with_byte(page, place, byte) })
                );
            }
        }
        for (index, first, last) in [(44, (256, 0x80), (261, 0x04)), (87, (503, 0x20), (508, 0x01))] {
            let page = first_page(&with_value(vec![0; 88], index, value));
            let blank = with_byte(vec![0; 512], 0, 1);
            assert_eq!(page, with_byte(with_byte(blank, first.0, first.1), last.0, last.1));
        }
    }

    #[test]
    fn neighbours_in_different_words_are_legal() {
        for shape in Shape::BOTH {
            let page = page_of(shape, 2_971_215_074);
            assert!(words_of(&page).iter().all(|cells| cells[0] && cells[45]));
            assert!(page_capacity(&page).is_ok());
            assert!(page_capacity(&filled_page(&page)).is_ok());
        }
    }

    /// The fill adds nothing to such a page: only its state tells whether it is filled.
    #[test]
    fn a_page_that_the_fill_leaves_but_for_its_state() {
        for shape in Shape::BOTH {
            let first = page_of(shape, SPARSE_VALUE);
            let filled = filled_page(&first);
            assert_eq!(first[1..], filled[1..]);
            assert_eq!(fill_page(&mut filled.clone()), Err(Refusal::STATE));
            assert_eq!(write_second(&mut first.clone(), &[]), Err(Refusal::STATE));
        }
    }

    #[test]
    fn every_state_but_the_one_asked_for() {
        for (shape, state) in Shape::BOTH.into_iter().flat_map(|shape| (0..=255).map(move |state| (shape, state))) {
            let (first, filled) = (page_of(shape, SPARSE_VALUE), filled_page(&page_of(shape, SPARSE_VALUE)));
            let [mut to_fill, mut to_write] = [first, filled].map(|page| with_byte(page, 0, state));
            let refused = |asked: &[u8]| if asked.contains(&state) { Ok(0) } else { Err(Refusal::STATE) };
            assert_eq!(page_capacity(&to_fill).map(|_| 0), refused(&[0x01, 0x03]));
            assert_eq!(page_capacity(&to_write).map(|_| 0), refused(&[0x01, 0x03]));
            assert_eq!(read_first(&to_fill, &mut [0; 352]), refused(&[0x01]));
            assert_eq!(read_second(&to_write, &mut []), refused(&[0x07]));
            assert_eq!(fill_page(&mut to_fill), refused(&[0x01]));
            assert_eq!(write_second(&mut to_write, &[0; 82]), refused(&[0x03]));
        }
    }

    /// The refusals of every operation but write first and those of the Inspect code, with outputs too short and records
    /// too long as well; nothing is written.
    fn refusals_of(page: &[u8]) -> [Refusal; 5] {
        let mut output = [0xA5; 1];
        let read = [read_first(page, &mut output), read_second(page, &mut output), page_capacity(page)];
        assert_eq!(output, [0xA5; 1]);
        let (mut filled, mut written) = (page.to_vec(), page.to_vec());
        let writers = [fill_page(&mut filled), write_second(&mut written, &[0xFF; 400])];
        assert_eq!((&filled[..], &written[..]), (page, page));
        let [read_first, read_second, capacity, fill, write] =
            [read[0], read[1], read[2], writers[0], writers[1]].map(|answer| answer.expect_err("a refusal"));
        [read_first, capacity, fill, write, read_second]
    }

    /// "neither 256 nor 512 bytes": every other length of a page of either size, of each state.
    #[test]
    fn every_page_length() {
        for value in [0, SPARSE_VALUE] {
            let first = page_of(LARGE, value);
            for page in [filled_page(&first), outcome(&first, &[0x96; 20]), vec![0; 512], first] {
                let page = [&page[..], &[0; 600]].concat();
                for length in (0..page.len()).filter(|length| ![256, 512].contains(length)) {
                    assert_eq!(refusals_of(&page[..length]), [Refusal::PAGE_LENGTH; 5], "{length}");
                    let mut blank = page[..length].to_vec();
                    for data in [176, 352] {
                        assert_eq!(write_first(&mut blank, &vec![0; data]), Err(Refusal::PAGE_LENGTH));
                    }
                }
            }
        }
    }

    /// The refusals of each operation that takes a page of the state, where the state is sound; the others refuse 5.
    fn check_refused_6(page: &[u8]) {
        let (header, state) = (Refusal::HEADER, Refusal::STATE);
        let wanted = match page[0] {
            0x01 => [header, header, header, state, state],
            0x03 => [state, header, state, header, state],
            _ => [state, state, state, state, header],
        };
        assert_eq!(refusals_of(page), wanted, "{:?}", &page[..3]);
    }

    /// The page, and the same with a word that is sound in no state, 7's reason: in one of chosen words, and in all.
    fn with_bad_words(page: Vec<u8>) -> Vec<Vec<u8>> {
        let words = known_shape(&page).words;
        let one = [0, 43, words - 1].map(|index| with_word(page.clone(), index, never_sound()));
        let all = (0..words).fold(page.clone(), |page, index| with_word(page, index, never_sound()));
        [&[page], &one[..], &[all]].concat()
    }

    /// "6 covers bytes 509 to 511", in each state that has a 6: each of the bytes, with every value, alone, with byte 1 or
    /// byte 2 out of its range, and with bad words, for 6 comes before 7.
    #[test]
    fn bytes_509_to_511() {
        let first = page_of(LARGE, 77);
        for page in [filled_page(&first), outcome(&first, &[0x96; 165]), first] {
            for (place, byte) in (509..512).flat_map(|place| (1..=255).map(move |byte| (place, byte))) {
                check_refused_6(&with_byte(page.clone(), place, byte));
            }
            for (place, page) in
                (509..512).flat_map(|place| with_bad_words(page.clone()).into_iter().map(move |page| (place, page)))
            {
                let page = with_byte(page, place, 0x40);
                check_refused_6(&page);
                check_refused_6(&with_byte(page.clone(), 1, 254));
                check_refused_6(&with_byte(page, 2, 1));
            }
        }
    }

    /// "byte 1 low and byte 2 high".
    #[test]
    fn the_bytes_of_a_length() {
        for (length, bytes) in
            [(0, [0, 0]), (1, [1, 0]), (255, [255, 0]), (256, [0, 1]), (495, [239, 1]), (65_535, [255, 255])]
        {
            let mut page = vec![0xA5; 256];
            put_length(&mut page, length);
            assert_eq!(page, [&[0xA5][..], &bytes, &[0xA5; 253]].concat());
            assert_eq!(length_of(&page), length);
        }
    }

    /// "the limit of that code and page, which is 126 and 247, or 253 and 495", and 0 in other states.
    #[test]
    fn the_limits() {
        for (shape, second, inspect) in [(SMALL, 126, 247), (LARGE, 253, 495)] {
            assert_eq!((longest_named(shape, 0x07), longest_named(shape, 0x09)), (second, inspect));
            assert!([0x00, 0x01, 0x03, 0x02, 0xFF].iter().all(|&state| longest_named(shape, state) == 0));
        }
    }

    /// Byte 1 and byte 2 of each state, at the ends of their ranges: 6 comes before 7.
    #[test]
    fn header_bytes() {
        for (shape, most) in [(SMALL, 126), (LARGE, 253)] {
            let first = page_of(shape, 77);
            let second = outcome(&first, &[0x96; 82]);
            for page in [filled_page(&first), first].into_iter().flat_map(with_bad_words) {
                for (place, byte) in [(1, 1), (1, 82), (1, 126), (1, 253), (1, 255), (2, 1), (2, 0x80)] {
                    check_refused_6(&with_byte(page.clone(), place, byte));
                }
                // Together they are 0 by exclusive or, or as a sum in 8 bits.
                [0x0101, 0xFF01].into_iter().for_each(|length| check_refused_6(&with_length(page.clone(), length)));
            }
            for page in with_bad_words(second.clone()) {
                for (place, byte) in [(1, most + 1), (1, 255), (2, 1), (2, 0x80)] {
                    check_refused_6(&with_byte(page.clone(), place, byte));
                }
            }
        }
    }

    /// Every length over words of the most and of the least capacity without data: it is read as far as it fits, then there
    /// are too few data cells, then it is above the limit.
    #[test]
    fn every_length_of_a_second_round_page() {
        for (shape, value, fits, most) in [
            (SMALL, 0, 126, 126),
            (SMALL, SPARSE_VALUE, 82, 126),
            (LARGE, 0, 253, 253),
            (LARGE, SPARSE_VALUE, 165, 253),
        ] {
            let page = outcome(&page_of(shape, value), &[]);
            for length in (0..=1_100).chain((0..=65_535).step_by(251)).chain([65_535]) {
                let answer = read_second(&with_length(page.clone(), length), &mut [0; 255]);
                let wanted = match length {
                    _ if length <= fits => Ok(length as u64),
                    _ if length <= most => Err(Refusal::DATA_CELLS),
                    _ => Err(Refusal::HEADER),
                };
                assert_eq!(answer, wanted, "{length}");
            }
        }
    }

    /// Writing and page capacity refuse a page in state 03 by the same; writing does so whatever the record's length is,
    /// and leaves the page.
    fn check_refused(page: &[u8], refusal: Refusal) {
        assert_eq!(page_capacity(page), Err(refusal));
        for length in [0, 1, 127, 254, 1_000] {
            let mut after = page.to_vec();
            assert_eq!(write_second(&mut after, &vec![0xFF; length]), Err(refusal));
            assert_eq!(after, page);
        }
    }

    /// A separator that is missing, a data cell that is set, and any other cell that is set. After a separator in cell 43,
    /// cell 45 is the one that may be either, on pages of both fills.
    #[test]
    fn every_cell_of_a_filled_page_flipped() {
        for (shape, value) in [0, 77, SPARSE_VALUE, 2_971_215_074]
            .into_iter()
            .chain(OPEN_VALUES)
            .flat_map(|value| Shape::BOTH.map(|shape| (shape, value)))
        {
            let first = page_of(shape, value);
            for filled in [filled_page(&first), filled_page_earlier(&first)] {
                let capacity = page_capacity(&first);
                let after_43 = words_of(&filled)[0][43];
                for place in 0..shape.words * CELLS {
                    let mut page = filled.clone();
                    page[3 + place / 8] ^= 0x80 >> (place % 8);
                    let either = after_43 && place % CELLS == 45;
                    let refused = Err(Refusal::word(place / CELLS));
                    assert_eq!(page_capacity(&page), if either { capacity } else { refused });
                }
            }
        }
    }

    /// First-round pages of open values, on all words, on one word alone, and of any values.
    fn firsts_with_open_words(shape: Shape) -> Vec<Vec<u8>> {
        let mut random = Random::new(10);
        let alone = |index: usize| with_value(vec![SPARSE_VALUE; shape.words], index, OPEN_VALUES[index % 3]);
        let alone = (0..shape.words).map(|index| first_page(&alone(index)));
        let mut firsts: Vec<_> = OPEN_VALUES.map(|value| page_of(shape, value)).into_iter().chain(alone).collect();
        firsts.extend((0..40).map(|_| any_first(&mut random, shape)));
        firsts
    }

    /// A page that the earlier fill left is accepted with the capacity of its first-round page, takes the same records,
    /// and its outcome, which is the one that earlier versions left, gives them back. Versions before Change 6 knew no page
    /// of 512 bytes; that such a page is well formed all the same follows from the rules.
    #[test]
    fn pages_of_the_earlier_fill() {
        let mut random = Random::new(11);
        for (shape, wanted) in [(SMALL, 70), (LARGE, 110)] {
            let mut differing = 0;
            for first in firsts_with_open_words(shape) {
                let filled = filled_page_earlier(&first);
                differing += usize::from(filled != filled_page(&first));
                check_cells(&filled_page(&first), &filled);
                let capacity = capacity_of(&words_of(&first));
                assert_eq!(page_capacity(&filled), Ok(capacity as u64));
                let most = capacity / 8;
                for length in [0, 1, 82, random.between(0, most), most] {
                    check_earlier(&first, &filled, &any_record(&mut random, length));
                }
                check_refused_8(&filled, &vec![0x96; most + 1], capacity);
            }
            assert!(differing > wanted, "{differing}");
        }
    }

    /// Writes the record over the page that the earlier fill left of this first-round page, and reads it back.
    fn check_earlier(first: &[u8], filled: &[u8], record: &[u8]) {
        let mut page = filled.to_vec();
        assert_eq!(write_second(&mut page, record), Ok(0));
        check_cells(filled, &page);
        assert_eq!(page, outcome_by_the_rules(first, record, word::filled_earlier));
        assert_eq!(page, second_page_earlier(first, record));
        let mut output = vec![0xA5; record.len() + 1];
        assert_eq!(read_second(&page, &mut output), Ok(record.len() as u64));
        assert_eq!(output, [record, &[0xA5]].concat());
    }

    #[test]
    fn capacities_of_pages_of_the_earlier_fill() {
        for (shape, value, capacity) in [
            (SMALL, 3, 968),
            (SMALL, OPEN_SPARSE_VALUE, 660),
            (SMALL, 77, 968),
            (LARGE, 3, 1_936),
            (LARGE, OPEN_SPARSE_VALUE, 1_320),
            (LARGE, 77, 1_936),
        ] {
            check_capacity(&page_of(shape, value), capacity, capacity / 8);
            assert_eq!(page_capacity(&filled_page_earlier(&page_of(shape, value))), Ok(capacity as u64));
        }
    }

    /// The words without cell 0, which the fill sets again where cell 1 is 0.
    fn without_cell_0(words: &[Cells]) -> Words {
        words.iter().map(|cells| std::array::from_fn(|cell| cell > 0 && cells[cell])).collect()
    }

    /// A page of the earlier fill is also what the fill makes of some first-round page.
    #[test]
    fn pages_of_the_earlier_fill_come_from_first_round_pages() {
        for first in Shape::BOTH.into_iter().flat_map(firsts_with_open_words) {
            let filled = filled_page_earlier(&first);
            let mut page = first.clone();
            put_words(&mut page, &without_cell_0(&words_of(&filled)));
            assert_eq!(filled_page(&page), filled);
        }
    }

    /// What read second gives: the length and the record, or the refusal.
    fn record_of(page: &[u8]) -> Result<Vec<u8>, Refusal> {
        let mut output = vec![0; known_shape(page).second_bytes_most];
        let length = read_second(page, &mut output)?;
        output.truncate(length as usize);
        Ok(output)
    }

    /// The record with one bit flipped, counted over its bytes, the highest bit of a byte first.
    fn with_bit_flipped(mut record: Vec<u8>, bit: usize) -> Vec<u8> {
        record[bit / 8] ^= 0x80 >> (bit % 8);
        record
    }

    /// What there must be with cell 45 of one word flipped on this second-round page, which is sound. After a separator
    /// in cell 43 it is no data cell and not asked for: the record stays. After one in cell 44 it is a data cell: a bit of
    /// the record, or a spare one, which must not be set. After one in cell 42 it is the separator that cell 44 needs.
    fn with_cell_45(page: &[u8], index: usize, record: &[u8]) -> Result<Vec<u8>, Refusal> {
        let words = words_of(page);
        let separators = word::separators(&words[index]);
        if separators[43] {
            return Ok(record.to_vec());
        }
        if !separators[44] {
            return Err(Refusal::word(index));
        }
        let bit = data_cells_of(&words).iter().position(|&found| found == (index, 45)).expect("a data cell");
        if bit < 8 * record.len() {
            Ok(with_bit_flipped(record.to_vec(), bit))
        } else {
            Err(Refusal::DATA_CELLS)
        }
    }

    /// Pages of both sizes whose words end in each way, by turns.
    fn firsts_of_every_end() -> Vec<Vec<u8>> {
        let page = |shape: Shape, turn: usize| {
            let values: Vec<u32> = END_VALUES.into_iter().cycle().skip(turn).take(shape.words).collect();
            first_page(&values)
        };
        Shape::BOTH.into_iter().flat_map(|shape| (0..END_VALUES.len()).map(move |turn| page(shape, turn))).collect()
    }

    /// Cell 45 of each word by itself, on filled pages and on second-round pages of both fills.
    #[test]
    fn cell_45_alone() {
        let mut random = Random::new(12);
        for first in firsts_of_every_end() {
            for filled in [filled_page(&first), filled_page_earlier(&first)] {
                check_cells_45_of_filled(&filled);
                for length in [0, 40, 82, page_capacity(&first).expect("a page") as usize / 8] {
                    let record = any_record(&mut random, length);
                    let mut second = filled.clone();
                    assert_eq!(write_second(&mut second, &record), Ok(0));
                    for index in 0..known_shape(&first).words {
                        let page = with_cell_45_flipped(second.clone(), index);
                        assert_eq!(record_of(&page), with_cell_45(&second, index, &record));
                    }
                }
            }
        }
    }

    /// Cell 45 of each word of the filled page by itself: it may be either after a separator in cell 43.
    fn check_cells_45_of_filled(filled: &[u8]) {
        let capacity = page_capacity(filled);
        for (index, cells) in words_of(filled).iter().enumerate() {
            let page = with_cell_45_flipped(filled.to_vec(), index);
            assert_eq!(page_capacity(&page), if cells[43] { capacity } else { Err(Refusal::word(index)) });
        }
    }

    /// A page that lacks another cell of the fill than 45: in any word, on filled pages of both fills, and under a record
    /// of zeros, where each cell that is set is a separator.
    #[test]
    fn another_cell_of_the_fill_is_missing() {
        let mut random = Random::new(13);
        for first in firsts_of_every_end() {
            for filled in [filled_page(&first), filled_page_earlier(&first)] {
                for index in 0..known_shape(&first).words {
                    let page = without_separator(&mut random, filled.clone(), index);
                    check_refused(&page, Refusal::word(index));
                    let second = [&[SECOND_ROUND, 60, 0], &page[3..]].concat();
                    assert_eq!(record_of(&second), Err(Refusal::word(index)));
                }
            }
        }
    }

    /// Each cell but 45 that the fill sets in a word is asked for, whatever cell 45 is.
    #[test]
    fn every_other_cell_of_the_fill_is_asked_for() {
        for (value, end) in END_VALUES.into_iter().flat_map(|value| [(value, false), (value, true)]) {
            let cells = word::filled(&word::legal_word(value));
            // With cell 45 in place of cell 44, a word may be that of another fill.
            let asked_for = (0..if end { 44 } else { 45 }).filter(|&cell| cells[cell]);
            for missing in asked_for {
                let word = std::array::from_fn(|cell| cell != missing && (cells[cell] || cell == 45 && end));
                for (shape, index) in [(SMALL, 30), (LARGE, 44)] {
                    check_refused(&with_word(filled_page(&page_of(shape, 0)), index, word), Refusal::word(index));
                }
            }
        }
    }

    /// The lowest index counts, whatever is wrong with the two words.
    #[test]
    fn two_flaws_on_a_filled_page() {
        let (full, hole) = ([true; CELLS], [false; CELLS]);
        let pairs = [(0, 1), (0, 43), (20, 21), (42, 43)].map(|pair| (SMALL, pair));
        let large = [(0, 1), (0, 87), (43, 44), (44, 45), (86, 87)].map(|pair| (LARGE, pair));
        for (shape, (first, second)) in pairs.into_iter().chain(large) {
            for (low, high) in [(full, hole), (hole, full), (full, full), (hole, hole)] {
                let page = with_word(filled_page(&page_of(shape, 3)), first, low);
                check_refused(&with_word(page, second, high), Refusal::word(first));
            }
        }
    }

    /// 7 names every word of a large page: two neighbours, a sum too large, and a hole.
    #[test]
    fn every_word_of_a_large_page() {
        let (first, filled) = (page_of(LARGE, 77), filled_page(&page_of(LARGE, 77)));
        let second = outcome(&first, &[0x96; 165]);
        for index in 0..88 {
            let refused = Refusal::word(index);
            for cells in [[true; CELLS], std::array::from_fn(|cell| cell % 2 == 0)] {
                let page = with_word(first.clone(), index, cells);
                assert_eq!(read_first(&page, &mut [0; 352]), Err(refused));
                assert_eq!(page_capacity(&page), Err(refused));
                assert_eq!(fill_page(&mut page.clone()), Err(refused));
            }
            check_refused(&with_word(filled.clone(), index, [false; CELLS]), refused);
            check_refused(&with_word(filled.clone(), index, [true; CELLS]), refused);
            assert_eq!(record_of(&with_word(second.clone(), index, [false; CELLS])), Err(refused));
        }
    }

    /// "Every filled page is what the fill makes of some first-round page."
    #[test]
    fn filled_pages_of_any_words_come_from_first_round_pages() {
        let mut random = Random::new(5);
        for shape in Shape::BOTH.repeat(150) {
            let words: Words = (0..shape.words).map(|_| unwritten(&mut random)).collect();
            let mut filled = with_byte(vec![0; shape.bytes], 0, FILLED);
            put_words(&mut filled, &words);
            assert!(page_capacity(&filled).is_ok());
            let mut first = with_byte(vec![0; shape.bytes], 0, FIRST_ROUND);
            put_words(&mut first, &without_cell_0(&words));
            assert_eq!(filled_page(&first), filled);
        }
    }

    #[test]
    fn too_few_data_cells_and_a_set_spare_cell() {
        let page = outcome(&page_of(SMALL, 3_889_371_024), &[0; 82]);
        let long = with_byte(page.clone(), 1, 83);
        // Cell 43 of word 43, the last data cell.
        let spare = with_byte(page.clone(), 255, page[255] | 4);
        // 165 bytes leave no data cell of the least capacity of a large page, and 164 bytes leave 8.
        let full = outcome(&page_of(LARGE, 3_889_371_024), &[0; 165]);
        let large = with_byte(full.clone(), 1, 166);
        let shorter = with_byte(full.clone(), 1, 164);
        assert_eq!(record_of(&shorter), Ok(vec![0; 164]));
        assert_eq!(record_of(&with_byte(full.clone(), 508, full[508] | 4)).map(|record| record[164]), Ok(1));
        let large_spare = with_byte(shorter, 508, full[508] | 4);
        for damaged in [long, spare, large, large_spare] {
            assert_eq!(read_second(&damaged, &mut [0; 300]), Err(Refusal::DATA_CELLS));
        }
    }

    /// The first 256 bytes of a larger page are judged as a page of 256 bytes, whose words are the first 44: a first-round
    /// page and a filled one are such pages. A second-round page is one when its record is short enough, and else the length
    /// is too large, for the data cells or at all.
    #[test]
    fn a_large_page_that_is_cut() {
        let values: Vec<u32> = (0..88).map(|index| 1_000_003 * index).collect();
        let (first, small) = (first_page(&values), first_page(&values[..44]));
        assert_eq!(first[..256], small);
        assert_eq!(filled_page(&first)[..256], filled_page(&small));
        let most = page_capacity(&small).expect("a page") as usize / 8;
        for (length, wanted) in [(0, Ok(())), (20, Ok(())), (most, Ok(())), (most + 1, Err(Refusal::DATA_CELLS))] {
            let record = vec![0x96; length];
            let page = outcome(&first, &record);
            assert_eq!(record_of(&page[..256]), wanted.map(|()| record));
        }
        for length in [127, 165] {
            assert_eq!(record_of(&outcome(&first, &vec![0x96; length])[..256]), Err(Refusal::HEADER));
        }
    }

    /// A page of 256 bytes at the start of 512 bytes: with zeros after it, a first-round page is one of 512 bytes, whose
    /// record has 176 zero bytes after the other; a filled and a second-round page have a hole in word 44.
    #[test]
    fn a_small_page_before_zeros() {
        let first = first_page(&(0..44).map(|index| 1_000_003 * index).collect::<Vec<u32>>());
        let before_zeros = |page: &[u8]| [page, &[0; 256]].concat();
        let (mut small, mut large) = ([0xA5; 176], [0xA5; 352]);
        assert_eq!(read_first(&first, &mut small), Ok(0));
        assert_eq!(read_first(&before_zeros(&first), &mut large), Ok(0));
        assert_eq!(large[..], [&small[..], &[0; 176]].concat());
        let capacity = page_capacity(&first).expect("a page");
        assert_eq!(page_capacity(&before_zeros(&first)), Ok(capacity + 44 * 23));
        check_refused(&before_zeros(&filled_page(&first)), Refusal::word(44));
        assert_eq!(record_of(&before_zeros(&outcome(&first, &[0x96; 40]))), Err(Refusal::word(44)));
    }

    /// With ones after it, bytes 509 to 511 are not 0. With these at 0, the words after the page are full: not legal, with
    /// data cells set, or with spare data cells set.
    #[test]
    fn a_small_page_before_ones() {
        let first = page_of(SMALL, 77);
        for page in [first.clone(), filled_page(&first), outcome(&first, &[0x96; 40])] {
            check_refused_6(&[&page[..], &[0xFF; 256]].concat());
        }
        let before_ones = |page: &[u8]| [page, &[0xFF; 253], &[0; 3]].concat();
        assert_eq!(page_capacity(&before_ones(&first)), Err(Refusal::word(44)));
        check_refused(&before_ones(&filled_page(&first)), Refusal::word(44));
        assert_eq!(record_of(&before_ones(&outcome(&first, &[0x96; 40]))), Err(Refusal::DATA_CELLS));
    }
}
