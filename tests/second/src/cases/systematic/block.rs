//! The calls of blocks. There are many, and each is long: they are made part by part, the largest parts one by one.

use super::SEED;
use crate::block::{BLOCK_BYTES, BLOCK_PAGES};
use crate::call::{Call, Entry};
use crate::cases::blocks::{
    any_block, any_marks, first_with_capacity, flawed, with_page, with_target_byte, Flaw, END_MARKS,
};
use crate::cases::damage::{choices, combined};
use crate::cases::files::{numbered, CONTENTS};
use crate::cases::inspect::RECORDS;
use crate::cases::lengths::{resized, FAR_RECORD_LENGTHS, NO_BLOCK_LENGTHS};
use crate::cases::pages::{any_first, first_page, most_bytes, page_of, with_byte, with_flip, with_word};
use crate::cases::words::{sum_too_large, with_neighbours, END_VALUES, LISTED_VALUES, OPEN_VALUES, SPARSE_VALUE};
use crate::page::words_of;
use crate::random::Random;
use crate::shape::SMALL;
use crate::word::CELLS;

/// All pages are marked.
const ALL: u16 = 0xFFFF;

/// By how many pages the mixed block is turned, and the length of the record, with which every number goes as marks. The pages
/// of 720 bits and more take the one record, all pages the next, and those of 800 bits and more the last.
const TURNS: [(usize, usize); 3] = [(0, 90), (5, 0), (11, 92)];

/// Lengths of records with which some numbers go: about those of the pages, and about the most.
const LENGTHS_OF_SOME: [usize; 7] = [83, 89, 91, 100, 101, 126, 127];

/// Capacities from the least to the most, in no order; of some, a record takes the whole page.
const LADDER: [usize; BLOCK_PAGES] =
    [808, 1_012, 664, 900, 660, 1_008, 777, 672, 667, 960, 1_011, 720, 840, 688, 1_000, 930];

/// Makes a part of the calls.
type Part = fn(&mut Walk);

/// The parts of place record, and of collect block.
const PARTS: [Part; 16] = [
    Walk::record_lengths,
    Walk::capacities,
    Walk::equals,
    Walk::flaws,
    Walk::states,
    Walk::headers,
    Walk::words,
    Walk::flips,
    Walk::values,
    Walk::records,
    Walk::block_lengths,
    Walk::target_bytes,
    Walk::several_target_bytes,
    Walk::contents,
    Walk::collecting_lengths,
    Walk::refusals,
];

/// The calls of one part, and what they are made from.
struct Walk {
    random: Random,
    calls: Vec<Call>,
}

/// All calls of blocks but those with wide marks.
pub fn calls() -> impl Iterator<Item = Call> {
    let parts = PARTS.into_iter().enumerate().flat_map(|(number, part)| {
        let mut walk = Walk { random: Random::of_case(SEED, number as u64), calls: Vec::new() };
        part(&mut walk);
        walk.calls
    });
    every_marks().chain(every_keep()).chain(parts)
}

/// A block of first-round pages about 720 bits, which are those of a record of 90 bytes, and of pages that are passed over:
/// equal ones, one that just fits, one that lacks a bit, the most, and flaws on pages that would fit as well or better.
fn mixed_block(random: &mut Random) -> Vec<u8> {
    let pages = [
        (800, None),
        (730, Some(Flaw::Byte1)),
        (724, None),
        (700, None),
        (722, Some(Flaw::Filled)),
        (724, None),
        (720, Some(Flaw::Neighbours)),
        (1_012, None),
        (720, Some(Flaw::Blank)),
        (720, None),
        (721, Some(Flaw::Second)),
        (719, None),
        (720, Some(Flaw::Sum)),
        (800, None),
        (720, Some(Flaw::Inspected)),
        (724, None),
    ];
    let page = |(capacity, flaw): (usize, Option<Flaw>)| {
        let first = first_with_capacity(random, capacity);
        flaw.map_or(first.clone(), |flaw| flawed(random, &first, flaw))
    };
    pages.map(page).concat()
}

/// Every number as marks, over such a block in three turns; every 37th with other records, and every 61st over a block of equal
/// pages.
fn every_marks() -> impl Iterator<Item = Call> {
    let mut random = Random::new(SEED);
    let mixed = mixed_block(&mut random);
    let equal: Vec<u8> = (0..BLOCK_PAGES).flat_map(|_| first_with_capacity(&mut random, 777)).collect();
    let turned = TURNS.map(|(pages, length)| {
        let mut block = mixed.clone();
        block.rotate_left(SMALL.bytes * pages);
        (block, random.bytes(length), 1)
    });
    let some = LENGTHS_OF_SOME.map(|length| (mixed.clone(), random.bytes(length), 37));
    let equal = (equal, random.bytes(82), 61);
    turned.into_iter().chain(some).chain([equal]).flat_map(|(block, record, step)| {
        (0..=ALL).step_by(step).map(move |marks| Call::of_placing(block.clone(), marks, record.clone()))
    })
}

/// Every number as the pages to be kept of a source whose pages differ in each place.
fn every_keep() -> impl Iterator<Item = Call> {
    let source = numbered(&mut Random::new(SEED), BLOCK_BYTES);
    (0..=ALL).map(move |keep| Call::of_collecting(source.clone(), keep, vec![0; BLOCK_BYTES]))
}

/// Lengths of blocks: from none on in steps, beside every number of pages, about the right one, and beyond.
fn lengths_of_blocks() -> Vec<usize> {
    let steps = (0..=BLOCK_BYTES + SMALL.bytes).step_by(64);
    let beside = (1..=BLOCK_PAGES + 1).flat_map(|count| [SMALL.bytes * count - 1, SMALL.bytes * count + 1]);
    let about = BLOCK_BYTES - 16..=BLOCK_BYTES + 16;
    let beyond = [8_191, 8_193, 16_384, 65_536, 65_536 + BLOCK_BYTES, 2 * 65_536];
    steps.chain(beside).chain(about).chain(beyond).chain(NO_BLOCK_LENGTHS).collect()
}

impl Walk {
    /// A call of place record with any record of this length.
    fn place(&mut self, block: &[u8], marks: u16, length: usize) {
        let record = self.random.bytes(length);
        self.calls.push(Call::of_placing(block.to_vec(), marks, record));
    }

    /// A call of collect block.
    fn collect(&mut self, source: &[u8], keep: u16, target: Vec<u8>) {
        self.calls.push(Call::of_collecting(source.to_vec(), keep, target));
    }

    /// Any page of this capacity.
    fn page(&mut self, capacity: usize) -> Vec<u8> {
        first_with_capacity(&mut self.random, capacity)
    }

    /// A block of first-round pages of these capacities.
    fn block_of(&mut self, capacities: [usize; BLOCK_PAGES]) -> Vec<u8> {
        capacities.map(|capacity| self.page(capacity)).concat()
    }

    /// The block of blank pages but for these.
    fn among_blank(&mut self, pages: &[(usize, &[u8])]) -> Vec<u8> {
        pages.iter().fold(vec![0; BLOCK_BYTES], |block, (index, page)| with_page(block, *index, page))
    }

    /// Every length of a record that a page takes, and lengths beyond, with all pages marked and with some.
    fn record_lengths(&mut self) {
        let block = self.block_of(LADDER);
        let beyond = [255, 256, 257, 511, 512, 1_024, 4_096, 8_191, 8_193, 16_384, 32_768];
        for length in (0..=130).chain(beyond).chain(FAR_RECORD_LENGTHS) {
            let any = any_marks(&mut self.random);
            [ALL, 0xA5A5, 0x5A5A, any].into_iter().for_each(|marks| self.place(&block, marks, length));
        }
    }

    /// Every capacity: the longest record and one byte more, with no other page marked; and no record, with a page of one bit
    /// more marked as well, before it and after it.
    fn capacities(&mut self) {
        for capacity in SMALL.capacity_least()..=SMALL.capacity_most() {
            let more = (capacity + 1).min(SMALL.capacity_most());
            let (index, other) = (capacity % BLOCK_PAGES, (capacity / BLOCK_PAGES + 1) % BLOCK_PAGES);
            let other = if other == index { (index + 1) % BLOCK_PAGES } else { other };
            let (page, larger) = (self.page(capacity), self.page(more));
            let block = self.among_blank(&[(index, &page), (other, &larger)]);
            for length in [capacity / 8, capacity / 8 + 1] {
                self.place(&block, 1 << index, length);
                self.place(&block, ALL, length);
            }
            self.place(&block, ALL, 0);
            let swapped = self.among_blank(&[(other, &page), (index, &larger)]);
            self.place(&swapped, 1 << index | 1 << other, 0);
        }
    }

    /// Every pair of pages that are equal, and of which one has a bit less: with no other page marked, with all of them, which
    /// are larger, and with all where these are smaller and the record does not fit them.
    fn equals(&mut self) {
        for low in 0..BLOCK_PAGES {
            for high in low + 1..BLOCK_PAGES {
                for capacities in [[808, 808], [807, 808], [808, 807]] {
                    let pair = capacities.map(|capacity| self.page(capacity));
                    let others = if (low + high) % 2 == 0 { 900 } else { 700 };
                    let block = self.block_of([others; BLOCK_PAGES]);
                    let block = with_page(with_page(block, low, &pair[0]), high, &pair[1]);
                    self.place(&block, 1 << low | 1 << high, 100);
                    self.place(&block, ALL, 100);
                }
            }
        }
    }

    /// Each flaw at each index: marked alone; before a sound page that is larger, and after it; and among equal sound pages.
    fn flaws(&mut self) {
        for (flaw, index) in Flaw::ALL.into_iter().flat_map(|flaw| (0..BLOCK_PAGES).map(move |index| (flaw, index))) {
            for capacity in [700, SMALL.capacity_most()] {
                let (first, sound) = (self.page(capacity), self.page((capacity + 8).min(SMALL.capacity_most())));
                let page = flawed(&mut self.random, &first, flaw);
                for other in [(index + 1) % BLOCK_PAGES, (index + 9) % BLOCK_PAGES] {
                    let block = self.among_blank(&[(index, &page), (other, &sound)]);
                    self.place(&block, 1 << index, 40);
                    self.place(&block, 1 << index | 1 << other, 40);
                    self.place(&block, ALL, 87);
                }
                let block = with_page(first.repeat(BLOCK_PAGES), index, &page);
                self.place(&block, ALL, 82);
                self.place(&block, ALL << index, 0);
            }
        }
    }

    /// The page at each index in turn, beside a larger sound page, all marked and alone.
    fn beside_a_sound_page(&mut self, turn: usize, page: &[u8]) {
        let (index, sound) = (turn % BLOCK_PAGES, self.page(1_000));
        let block = self.among_blank(&[(index, page), ((index + 5) % BLOCK_PAGES, &sound)]);
        self.place(&block, ALL, 60);
        self.place(&block, 1 << index, 60);
    }

    /// Every state over cells that are sound in states 01, 03, 07 and 09 alike.
    fn states(&mut self) {
        for (value, state) in
            [SPARSE_VALUE, OPEN_VALUES[1]].into_iter().flat_map(|value| (0..=255).map(move |state| (value, state)))
        {
            self.beside_a_sound_page(usize::from(state), &with_byte(page_of(SMALL, value), 0, state));
        }
    }

    /// Every value of bytes 1 and 2, each by itself; and both, which are 0 together by exclusive or, or as a sum in 8 bits.
    fn headers(&mut self) {
        let first = self.page(700);
        for byte in 1..=255u8 {
            let both = [byte, byte.wrapping_neg()].map(|other| [byte, other]);
            for [byte_1, byte_2] in [[byte, 0], [0, byte]].into_iter().chain(both) {
                let page = with_byte(with_byte(first.clone(), 1, byte_1), 2, byte_2);
                self.beside_a_sound_page(usize::from(byte), &page);
            }
        }
    }

    /// Every word not legal: two neighbours at its start, in the middle and at its end, and a sum too large.
    fn words(&mut self) {
        let first = self.page(700);
        for (index, &cells) in words_of(&first).iter().enumerate() {
            let pairs = [0, 21, CELLS - 2].map(|cell| with_neighbours(cells, cell));
            for (turn, damaged) in pairs.into_iter().chain([sum_too_large(&mut self.random)]).enumerate() {
                self.beside_a_sound_page(5 * index + turn, &with_word(first.clone(), index, damaged));
            }
        }
    }

    /// Every single bit flipped of a page.
    fn flips(&mut self) {
        let first = self.page(700);
        (0..8 * SMALL.bytes).for_each(|bit| self.beside_a_sound_page(bit, &with_flip(first.clone(), bit)));
    }

    /// Pages of the listed values, of open words and of each end of a word: with the longest record, and with one more byte.
    fn values(&mut self) {
        for (turn, value) in LISTED_VALUES.into_iter().chain(OPEN_VALUES).chain(END_VALUES).enumerate() {
            let turned: Vec<u32> = END_VALUES.into_iter().cycle().skip(turn).take(SMALL.words).collect();
            for first in [page_of(SMALL, value), first_page(&turned)] {
                let block = self.among_blank(&[(turn % BLOCK_PAGES, &first)]);
                let most = most_bytes(&first);
                [0, 1, most, most + 1].into_iter().for_each(|length| self.place(&block, ALL, length));
            }
        }
    }

    /// Records of each kind and of each length, over any pages.
    fn records(&mut self) {
        for (turn, length) in (0..=SMALL.second_bytes_most).cycle().take(400).enumerate() {
            let record = RECORDS[turn % RECORDS.len()](&mut self.random, length);
            let block = any_block(&mut self.random);
            let first = any_first(&mut self.random, SMALL);
            let block = with_page(block, turn % BLOCK_PAGES, &first);
            self.calls.push(Call::of_placing(block, ALL, record));
        }
    }

    /// Blocks of every other length, with a mark on the first page or on the last one that is there, without a mark, and with a
    /// record too long; some as a block with zeros or other pages after it.
    fn block_lengths(&mut self) {
        let pages = self.block_of(LADDER);
        for length in lengths_of_blocks() {
            let block = resized(&mut self.random, pages.repeat(2), length);
            let last = (length / SMALL.bytes).clamp(1, BLOCK_PAGES) - 1;
            for (marks, record) in [(1, 20), (1 << last, 0), (ALL, 82), (0, 0), (ALL, 127)] {
                self.place(&block, marks, record);
            }
        }
    }

    /// Every byte of the target not 0, by itself, with one bit or more, and with any pages kept or none.
    fn target_bytes(&mut self) {
        let source = numbered(&mut self.random, BLOCK_BYTES);
        for place in 0..BLOCK_BYTES {
            let byte = if place % 2 == 0 { 1 << (place / 2 % 8) } else { self.random.byte_from(1) };
            let keep = if place % 3 == 0 { END_MARKS[place % END_MARKS.len()] } else { any_marks(&mut self.random) };
            self.collect(&source, keep, with_byte(vec![0; BLOCK_BYTES], place, byte));
        }
    }

    /// Two bytes of the target that are 0 together by exclusive or, or as a sum in 8 bits; and targets of any bytes.
    fn several_target_bytes(&mut self) {
        let source = numbered(&mut self.random, BLOCK_BYTES);
        for turn in 0..400 {
            let byte = self.random.byte_from(1);
            let other = if turn % 2 == 0 { byte } else { byte.wrapping_neg() };
            let places = [(); 2].map(|()| self.random.below(BLOCK_BYTES));
            let target = with_byte(with_byte(vec![0; BLOCK_BYTES], places[0], byte), places[1], other);
            let any = any_marks(&mut self.random);
            self.collect(&source, any, target);
        }
        for keep in END_MARKS {
            let any = self.random.bytes(BLOCK_BYTES);
            [source.clone(), any, vec![0xFF; BLOCK_BYTES]]
                .into_iter()
                .for_each(|target| self.collect(&source, keep, target));
        }
    }

    /// Sources of each kind of contents, with the listed marks, each page alone and all but it.
    fn contents(&mut self) {
        let single = (0..BLOCK_PAGES).flat_map(|index| [1 << index, !(1 << index)]);
        let keeps: Vec<u16> = END_MARKS.into_iter().chain(single).collect();
        for keep in keeps {
            let sources = CONTENTS.map(|contents| contents(&mut self.random, BLOCK_BYTES));
            let more = [any_block(&mut self.random), any_block(&mut self.random)];
            for source in sources.iter().chain(&more) {
                self.collect(source, keep, vec![0; BLOCK_BYTES]);
            }
        }
    }

    /// Sources and targets of every other length, one of them and both; the target blank, or with one byte that is not 0.
    fn collecting_lengths(&mut self) {
        let pages = numbered(&mut self.random, BLOCK_BYTES);
        for length in lengths_of_blocks() {
            let other = self.random.pick(&NO_BLOCK_LENGTHS);
            for (source, target) in [(length, BLOCK_BYTES), (BLOCK_BYTES, length), (length, length), (length, other)] {
                let source = resized(&mut self.random, pages.clone(), source);
                let set = with_target_byte(&mut self.random, vec![0; target]);
                let keep = any_marks(&mut self.random);
                [vec![0; target], set].into_iter().for_each(|target| self.collect(&source, keep, target));
            }
        }
    }

    /// Every choice of the refusals of both entries, several times.
    fn refusals(&mut self) {
        for entry in Entry::OF_BLOCKS {
            for chosen in (0..choices(entry)).cycle().take(640) {
                let call = combined(&mut self.random, entry, chosen, SMALL);
                self.calls.push(call);
            }
        }
    }

    /// Both entries with these marks and further bits above them: accepted where a page is marked, and each refusal.
    fn wide(&mut self, block: &[u8], marks: u16, above: u64) {
        let before = self.calls.len();
        for length in [40, 127] {
            self.place(block, marks, length);
        }
        self.place(&block[..BLOCK_BYTES - 1], marks, 0);
        self.collect(block, marks, vec![0; BLOCK_BYTES]);
        self.collect(block, marks, with_byte(vec![0; BLOCK_BYTES], BLOCK_BYTES - 1, 1));
        self.collect(block, marks, vec![0; BLOCK_BYTES + 1]);
        self.calls[before..].iter_mut().for_each(|call| call.argument |= above);
    }
}

/// Calls with an argument wider than marks: "Marks are a number of 16 bits", and what stands above them must not count. Above
/// are each bit of 64, the same marks once more, all of 32 bits, all above 32, and all.
pub fn wide() -> Vec<Call> {
    let mut walk = Walk { random: Random::of_case(SEED, PARTS.len() as u64), calls: Vec::new() };
    let block = walk.block_of(LADDER);
    for marks in [0x0000, 0x0001, 0x8000, 0xA5A5, 0xFFFF] {
        let single = (16..64).map(|bit| 1 << bit);
        let several = [u64::from(marks) << 16 | 1 << 63, 0xFFFF_0000, !0xFFFF_FFFF, !0xFFFF];
        single.chain(several).for_each(|above| walk.wide(&block, marks, above));
    }
    walk.calls
}
