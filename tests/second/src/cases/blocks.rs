//! Blocks for the calls: pages of chosen capacities, pages that are passed over, and any; marks, sources and targets.

use super::files::CONTENTS;
use super::inspect::{inspect_page, record_for};
use super::lengths::{any_block_length, resized, wrong_block_length, END_LENGTHS, FAR_RECORD_LENGTHS};
use super::pages::{
    any_first, any_page, any_record, filled_page, first_page, most_bytes, second_page, with_byte, with_word,
};
use super::words::{sum_too_large, with_neighbours};
use crate::block::{capacity_of, is_marked, places_of, BLOCK_BYTES, BLOCK_PAGES};
use crate::call::{Call, Entry};
use crate::page::{fits, words_of, BLANK, FILLED, FIRST_ROUND, INSPECTED, SECOND_ROUND};
use crate::random::Random;
use crate::shape::SMALL;
use crate::word::{self, CELLS};

/// Marks at the ends: none, the first page, the last, both, half of the pages, all but one, and all.
pub const END_MARKS: [u16; 10] = [0x0000, 0x0001, 0x8000, 0x8001, 0xA5A5, 0x5A5A, 0x00FF, 0x7FFF, 0xFFFE, 0xFFFF];

/// States that no page has: one bit, 01 with a further bit, and others.
pub const UNKNOWN_STATES: [u8; 8] = [0x02, 0x04, 0x05, 0x08, 0x0B, 0x11, 0x81, 0xFF];

/// Why a page is passed over.
#[derive(Clone, Copy, Debug, PartialEq, Eq, Hash)]
pub enum Flaw {
    /// Every byte is 0.
    Blank,
    /// State 00, and another byte is not 0.
    NotBlank,
    Filled,
    /// Second round by the fill code.
    Second,
    /// Second round by the Inspect code.
    Inspected,
    UnknownState,
    /// Of bytes 1 and 2, byte 1 alone is not 0.
    Byte1,
    /// Byte 2 alone is not 0.
    Byte2,
    BothBytes,
    /// The first word that is not legal has two neighbours set.
    Neighbours,
    /// It has too large a sum.
    Sum,
}

impl Flaw {
    pub const ALL: [Flaw; 11] = [
        Flaw::Blank,
        Flaw::NotBlank,
        Flaw::Filled,
        Flaw::Second,
        Flaw::Inspected,
        Flaw::UnknownState,
        Flaw::Byte1,
        Flaw::Byte2,
        Flaw::BothBytes,
        Flaw::Neighbours,
        Flaw::Sum,
    ];

    pub fn name(self) -> &'static str {
        match self {
            Flaw::Blank => "blank",
            Flaw::NotBlank => "in state 00 and not blank",
            Flaw::Filled => "filled",
            Flaw::Second => "with a second record by the fill code",
            Flaw::Inspected => "with a second record by the Inspect code",
            Flaw::UnknownState => "in an unknown state",
            Flaw::Byte1 => "with byte 1 set",
            Flaw::Byte2 => "with byte 2 set",
            Flaw::BothBytes => "with bytes 1 and 2 set",
            Flaw::Neighbours => "with two neighbours set",
            Flaw::Sum => "with too large a sum",
        }
    }

    /// The flaw of a page of 256 bytes, none of a first-round page.
    pub fn of(page: &[u8]) -> Option<Flaw> {
        match page[0] {
            FIRST_ROUND => Flaw::of_header(page).or_else(|| Flaw::of_words(page)),
            BLANK if page.iter().all(|&byte| byte == 0) => Some(Flaw::Blank),
            BLANK => Some(Flaw::NotBlank),
            FILLED => Some(Flaw::Filled),
            SECOND_ROUND => Some(Flaw::Second),
            INSPECTED => Some(Flaw::Inspected),
            _ => Some(Flaw::UnknownState),
        }
    }

    fn of_header(page: &[u8]) -> Option<Flaw> {
        match (page[1], page[2]) {
            (0, 0) => None,
            (_, 0) => Some(Flaw::Byte1),
            (0, _) => Some(Flaw::Byte2),
            _ => Some(Flaw::BothBytes),
        }
    }

    fn of_words(page: &[u8]) -> Option<Flaw> {
        let illegal = words_of(page).into_iter().find(|cells| !word::legal(cells))?;
        Some(if word::has_neighbours(&illegal) { Flaw::Neighbours } else { Flaw::Sum })
    }
}

/// The data cells that there would be on a page if nothing of it were refused: its words are filled whatever they are.
pub fn capacity_if_sound(page: &[u8]) -> usize {
    words_of(page).iter().map(|cells| word::read_back(&word::filled(cells)).len()).sum()
}

/// Any value with this capacity, 15 to 23. The most is that of words with no odd cell set; the separators of others start in
/// cell 1, are two or three cells apart, and end in cell 43 or 45.
pub fn value_with_capacity(random: &mut Random, capacity: usize) -> u32 {
    let mut cells = [false; CELLS];
    if capacity == 23 {
        (2..CELLS).step_by(2).for_each(|cell| cells[cell] = random.one_in(2));
        return word::sum(&cells) as u32;
    }
    // The last separator is in cell 45, without a data cell, after one more step; or it is in cell 43.
    let steps = if random.one_in(2) { capacity } else { capacity - 1 };
    let end = if steps == capacity { CELLS - 1 } else { CELLS - 3 };
    let mut threes = end - 1 - 2 * steps;
    let mut cell = 1;
    cells[cell] = true;
    for left in (1..=steps).rev() {
        let three = random.below(left) < threes;
        threes -= usize::from(three);
        cell += if three { 3 } else { 2 };
        cells[cell] = true;
    }
    word::sum(&cells) as u32
}

/// Any first-round page of 256 bytes with this capacity, 660 to 1,012, which its words share about evenly.
pub fn first_with_capacity(random: &mut Random, capacity: usize) -> Vec<u8> {
    let before = |index: usize| capacity * index / SMALL.words;
    let mut values: Vec<u32> =
        (0..SMALL.words).map(|index| value_with_capacity(random, before(index + 1) - before(index))).collect();
    values.rotate_left(random.below(SMALL.words));
    first_page(&values)
}

/// A page with this flaw, which has the cells of the first-round page, or many of them: as it were, it would fit as well.
pub fn flawed(random: &mut Random, first: &[u8], flaw: Flaw) -> Vec<u8> {
    let (page, index) = (first.to_vec(), random.below(SMALL.words));
    match flaw {
        Flaw::Blank => vec![0; SMALL.bytes],
        Flaw::NotBlank => with_byte(page, 0, BLANK),
        Flaw::Filled => filled_page(first),
        Flaw::Second => {
            let length = random.between(0, most_bytes(first));
            second_page(first, &any_record(random, length))
        }
        Flaw::Inspected => inspect_page(first, &record_for(random, first, 0)),
        Flaw::UnknownState => with_byte(page, 0, random.pick(&UNKNOWN_STATES)),
        Flaw::Byte1 => with_byte(page, 1, random.byte_from(1)),
        Flaw::Byte2 => with_byte(page, 2, random.byte_from(1)),
        Flaw::BothBytes => with_byte(with_byte(page, 1, random.byte_from(1)), 2, random.byte_from(1)),
        Flaw::Neighbours => {
            let cells = with_neighbours(words_of(first)[index], random.below(CELLS - 1));
            with_word(page, index, cells)
        }
        Flaw::Sum => with_word(page, index, sum_too_large(random)),
    }
}

/// The block with another page in this place.
pub fn with_page(mut block: Vec<u8>, index: usize, page: &[u8]) -> Vec<u8> {
    block[places_of(index)].copy_from_slice(page);
    block
}

/// The capacity of each page of a block, none of those that are passed over.
pub fn capacities_in(block: &[u8]) -> Vec<Option<usize>> {
    block.chunks(SMALL.bytes).map(capacity_of).collect()
}

/// The marked pages that the record fits.
pub fn fitting(block: &[u8], marks: u16, record: &[u8]) -> Vec<usize> {
    let capacities = capacities_in(block);
    let fits = |index: &usize| capacities[*index].is_some_and(|capacity| fits(record, capacity));
    (0..BLOCK_PAGES).filter(|&index| is_marked(marks, index)).filter(fits).collect()
}

/// A page for a block: of few capacities, so that there are equal ones, or any first-round page; with a flaw; or any.
fn page_for(random: &mut Random) -> Vec<u8> {
    let base = random.pick(&[660, 664, 700, 808, 1_008]) + random.below(5);
    let first = if random.one_in(2) { first_with_capacity(random, base) } else { any_first(random, SMALL) };
    match random.below(8) {
        0 => any_page(random, SMALL),
        1 | 2 => {
            let flaw = random.pick(&Flaw::ALL);
            flawed(random, &first, flaw)
        }
        _ => first,
    }
}

/// A block of a few different pages, each of which it may have several times.
pub fn any_block(random: &mut Random) -> Vec<u8> {
    let count = random.between(1, 7);
    let pages: Vec<Vec<u8>> = (0..count).map(|_| page_for(random)).collect();
    (0..BLOCK_PAGES).flat_map(|_| pages[random.below(pages.len())].clone()).collect()
}

/// Marks at an end, of one page, of all but one, or any.
pub fn any_marks(random: &mut Random) -> u16 {
    let one = 1 << random.below(BLOCK_PAGES);
    match random.below(8) {
        0 => random.pick(&END_MARKS),
        1 => one,
        2 => !one,
        3 => 0xFFFF,
        _ => random.draw() as u16,
    }
}

/// The length of a record: about what fits one of the pages, at an end, far beyond, or any.
fn any_record_length(random: &mut Random, block: &[u8]) -> usize {
    let known: Vec<usize> = capacities_in(block).into_iter().flatten().collect();
    let any = random.below(SMALL.second_bytes_most + 5);
    match random.below(16) {
        0 => random.pick(&FAR_RECORD_LENGTHS),
        1 => random.pick(&END_LENGTHS),
        2..=8 if !known.is_empty() => random.pick(&known) / 8 + random.pick(&[0, 0, 1]),
        _ => any,
    }
}

/// A block that takes a record: it has a first-round page, which is marked.
pub fn sound_placing(random: &mut Random) -> Call {
    let (index, first) = (random.below(BLOCK_PAGES), any_first(random, SMALL));
    let length = random.between(0, most_bytes(&first));
    let block = with_page(any_block(random), index, &first);
    let marks = any_marks(random) | 1 << index;
    Call::of_placing(block, marks, any_record(random, length))
}

/// A source of any contents, and a blank target.
pub fn sound_collecting(random: &mut Random) -> Call {
    Call::of_collecting(any_source(random), any_marks(random), vec![0; BLOCK_BYTES])
}

/// A call of place record with any length classes.
pub fn any_placing(random: &mut Random) -> Call {
    let mut block = any_block(random);
    let length = any_record_length(random, &block);
    if random.one_in(16) {
        let length = wrong_block_length(random);
        block = resized(random, block, length);
    }
    Call::of_placing(block, any_marks(random), any_record(random, length))
}

/// A block of pages as of a file, or one for records.
fn any_source(random: &mut Random) -> Vec<u8> {
    if random.one_in(4) {
        any_block(random)
    } else {
        random.pick(&CONTENTS)(random, BLOCK_BYTES)
    }
}

/// The target with one byte that is not 0: the first, the last, or any.
pub fn with_target_byte(random: &mut Random, mut target: Vec<u8>) -> Vec<u8> {
    let last = target.len().saturating_sub(1);
    let any = random.between(0, last);
    if let Some(byte) = target.get_mut(random.pick(&[0, last, any, any])) {
        *byte = random.byte_from(1);
    }
    target
}

/// A call of collect block with any length classes.
pub fn any_collecting(random: &mut Random) -> Call {
    let [source, target] = [(); 2].map(|()| any_block_length(random));
    let any = any_source(random);
    let mut call = Call::of_collecting(resized(random, any, source), any_marks(random), vec![0; target]);
    if random.one_in(4) {
        call.other = with_target_byte(random, call.other);
    }
    call
}

/// Damages a sound call of place record so that no marked page fits: the marks of those that do are taken away, or the record
/// is too long for every page, or these pages get flaws.
pub fn without_fitting(random: &mut Random, call: &mut Call) {
    let fitting = fitting(&call.page, call.marks(), &call.other);
    match random.below(3) {
        0 => fitting.into_iter().for_each(|index| call.argument &= !(1 << index)),
        1 => {
            let more = random.pick(&[1, 1, 2, 130, 1_000]);
            call.other = any_record(random, SMALL.second_bytes_most + more);
        }
        _ => {
            for index in fitting {
                let (first, flaw) = (call.page[places_of(index)].to_vec(), random.pick(&Flaw::ALL));
                let page = flawed(random, &first, flaw);
                call.page[places_of(index)].copy_from_slice(&page);
            }
        }
    }
}

/// Damages a call of blocks by another length: of the block; of the source, the target, or both.
pub fn with_wrong_lengths(random: &mut Random, call: &mut Call) {
    let which = if call.entry == Entry::CollectBlock { random.between(1, 3) } else { 1 };
    for (bit, buffer) in [(1, &mut call.page), (2, &mut call.other)] {
        if which & bit != 0 {
            let length = wrong_block_length(random);
            *buffer = resized(random, std::mem::take(buffer), length);
        }
    }
}

#[cfg(test)]
mod tests {
    use super::*;
    use crate::answer::number;
    use crate::page::page_capacity;
    use std::collections::HashSet;

    /// Values of each capacity, and many of each.
    #[test]
    fn values_of_every_capacity() {
        let mut random = Random::new(1);
        for capacity in 15..=23 {
            let values: Vec<u32> = (0..300).map(|_| value_with_capacity(&mut random, capacity)).collect();
            assert!(values.iter().all(|&value| word::capacity(&word::legal_word(value)) == capacity), "{capacity}");
            let different = HashSet::<&u32>::from_iter(&values).len();
            // With the least and the second but most, only the end of the word is free.
            assert!(different > if [15, 22].contains(&capacity) { 1 } else { 20 }, "{capacity} {different}");
        }
    }

    #[test]
    fn first_round_pages_of_every_capacity() {
        let mut random = Random::new(2);
        for capacity in 660..=1_012 {
            let pages = [(); 2].map(|()| first_with_capacity(&mut random, capacity));
            assert!(pages.iter().all(|page| page_capacity(page) == Ok(capacity as u64)), "{capacity}");
            assert_ne!(pages[0], pages[1]);
        }
    }

    /// Each flaw is the one that was asked for, and as if it were none, most such pages have the capacity of the first-round
    /// page, or less.
    #[test]
    fn pages_with_every_flaw() {
        let mut random = Random::new(3);
        for flaw in Flaw::ALL {
            let mut no_more = 0;
            for _ in 0..200 {
                let first = any_first(&mut random, SMALL);
                let page = flawed(&mut random, &first, flaw);
                assert_eq!(Flaw::of(&page), Some(flaw));
                assert_eq!((capacity_of(&page), Flaw::of(&first)), (None, None));
                no_more += usize::from(capacity_if_sound(&page) <= capacity_if_sound(&first));
            }
            assert!(no_more > if flaw == Flaw::Blank { 0 } else { 50 }, "{flaw:?} {no_more}");
        }
    }

    #[test]
    fn the_capacity_of_a_sound_page() {
        let mut random = Random::new(4);
        for _ in 0..200 {
            let first = any_first(&mut random, SMALL);
            assert_eq!(Some(capacity_if_sound(&first)), capacity_of(&first));
            assert_eq!(Some(capacity_if_sound(&filled_page(&first))), capacity_of(&first));
        }
    }

    #[test]
    fn the_flaws_of_a_header() {
        let first = first_with_capacity(&mut Random::new(5), 700);
        for (bytes, flaw) in [([1, 0], Flaw::Byte1), ([0, 1], Flaw::Byte2), ([255, 255], Flaw::BothBytes)] {
            let page = [&[0x01], &bytes[..], &first[3..]].concat();
            assert_eq!(Flaw::of(&page), Some(flaw));
        }
    }

    /// Blocks have pages of equal capacities, marked pages of each flaw, and unmarked pages; the random calls meet every answer.
    #[test]
    fn any_calls() {
        let mut random = Random::new(6);
        let mut met = HashSet::new();
        let mut flaws = HashSet::new();
        for _ in 0..2_000 {
            let call = any_placing(&mut random);
            met.insert(("placing", number(call.clone().perform())));
            if call.page.len() == BLOCK_BYTES {
                flaws.extend(call.page.chunks(SMALL.bytes).filter_map(Flaw::of));
            }
            met.insert(("collecting", number(any_collecting(&mut random).perform())));
        }
        let wanted = [("placing", 0), ("placing", 17), ("placing", 18)];
        let wanted = wanted.into_iter().chain([("collecting", 0), ("collecting", 17), ("collecting", 19)]);
        assert_eq!(met, wanted.collect());
        assert_eq!(flaws.len(), Flaw::ALL.len());
    }

    #[test]
    fn sound_calls_and_damaged_ones() {
        let mut random = Random::new(7);
        for _ in 0..500 {
            let mut call = sound_placing(&mut random);
            assert_eq!(number(call.clone().perform()), 0);
            without_fitting(&mut random, &mut call);
            assert_eq!(number(call.clone().perform()), 18);
            with_wrong_lengths(&mut random, &mut call);
            assert_eq!(number(call.perform()), 17);
            let mut call = sound_collecting(&mut random);
            assert_eq!(number(call.clone().perform()), 0);
            call.other = with_target_byte(&mut random, call.other);
            assert_eq!(number(call.clone().perform()), 19);
            with_wrong_lengths(&mut random, &mut call);
            assert_eq!(number(call.perform()), 17);
        }
    }
}
