//! The calls of the differential run with lengths far beyond any page, record, output, file or block.

use super::blocks::{any_marks, sound_collecting, sound_placing, with_page, with_target_byte};
use super::damage::{combined, sound};
use super::files::{any_device, any_pages, numbered};
use super::inspect::{inspect_page, RECORDS};
use super::lengths::resized;
use super::pages::{any_first, filled_page, page_of, second_page};
use super::reading::{about, any_field_of, file_of, with_field_fault, with_tail, STAGES};
use super::words::SPARSE_VALUE;
use crate::answer::{pages_in, Answer};
use crate::block::{BLOCK_BYTES, BLOCK_PAGES};
use crate::call::{Call, Entry};
use crate::file::{file_bytes, head, DEVICE_TAG, END_TAG, FILE_PAGES_MOST, PAGE_TAG};
use crate::memory::FAR_BYTES;
use crate::page::known_shape;
use crate::random::Random;
use crate::reading::{Fault, Reading, Stage};
use crate::shape::{Shape, LARGE, SMALL};

const SEED: u64 = 2_024;

/// How many bytes a writer may move at once, from the one with the next bit on: a caller's record is there whole.
const MOVED_AT_ONCE: usize = 8;

/// Far lengths are one of these and a low part; cut to fewer bits, the low part is what is left of them.
const HIGH_PARTS: [usize; 6] = [1 << 8, 1 << 16, 1 << 31, 1 << 32, 1 << 40, 1 << 45];

/// Far lengths of other kinds.
const OTHER_LENGTHS: [usize; 4] = [1 << 20, (1 << 32) - 1, 1 << 32, FAR_BYTES - 4_096];

/// Record lengths of which 8 times, cut to 31, 32, 63 or 64 bits, fits a page, or is below 0.
const WRAPPED_LENGTHS: [usize; 13] = [
    (1 << 28) + 20,
    (1 << 29) + 20,
    (1 << 60) + 20,
    1 << 61,
    (1 << 61) + 1,
    (1 << 61) + 82,
    (1 << 61) + 126,
    (1 << 61) + 165,
    (1 << 61) + 247,
    (1 << 61) + 253,
    (1 << 61) + 495,
    (1 << 62) + 20,
    isize::MAX as usize,
];

/// Lengths of pages are one of these and a low part; cut to fewer bits, in bytes or counted in pages, the low part is
/// what is left of them.
const PAGES_HIGH_PARTS: [usize; 8] = [1 << 16, 1 << 24, 1 << 31, 1 << 32, 1 << 40, 1 << 45, 1 << 56, 1 << 62];

/// The low parts of lengths of pages: none, a part of a page, one page, and the most.
const PAGES_LOW_PARTS: [usize; 4] = [0, 1, SMALL.bytes, FILE_PAGES_MOST * SMALL.bytes];

/// Lengths of blocks are one of these, or one and a block's; cut to fewer bits, in bytes or counted in pages, they are none or
/// a block's.
const BLOCK_HIGH_PARTS: [usize; 9] = [1 << 13, 1 << 16, 1 << 24, 1 << 31, 1 << 32, 1 << 40, 1 << 45, 1 << 56, 1 << 62];

/// The longest that memory can be, and the longest of whole pages.
const LONGEST: [usize; 2] = [isize::MAX as usize, isize::MAX as usize - 255];

/// A call with a far length. The rules treat all lengths alike that are too long, or long enough: the answer is that of
/// the near call, whose page, pages, data, record or block is a little too long, or whose output is long enough. A file that
/// has a fault is refused for it, whatever follows.
pub struct FarCall {
    pub near: Call,
    /// The lengths that are told in place of the near ones.
    pub page: Option<usize>,
    pub other: Option<usize>,
}

impl FarCall {
    pub fn page_length(&self) -> usize {
        self.page.unwrap_or(self.near.page.len())
    }

    pub fn other_length(&self) -> usize {
        self.other.unwrap_or(self.near.other.len())
    }

    /// The number of bytes of a far page or file that may be looked at: of a file, those that tell its fault. The rules refuse
    /// a page, pages and a block of a far length by the length alone.
    pub fn page_touched(&self) -> usize {
        let file = Some(&self.near.page).filter(|_| self.near.entry == Entry::ReadFile && self.page.is_some());
        file.map_or(0, |file| Reading::of(file).telling(file))
    }

    /// The number of bytes of the far other buffer that may be looked at: of an output, those of the record, the file or the
    /// pages; of a record for the Inspect code, those that walks could take, for what 8 names hangs on its bits, and the few
    /// bytes after them that come with the last ones where eight are moved at once. The rules refuse data, a record for the
    /// fill code and a target of a far length by the length alone.
    pub fn other_touched(&self, answer: Answer) -> usize {
        match (self.near.entry, answer) {
            (Entry::WriteInspect, _) if self.page.is_none() => self.near.other.len(),
            (Entry::ReadFirst, Ok(_)) => known_shape(&self.near.page).first_bytes,
            (Entry::ReadSecond | Entry::ReadInspect | Entry::WriteFile, Ok(length)) => length as usize,
            (Entry::ReadFile, Ok(result)) => SMALL.bytes * pages_in(result),
            _ => 0,
        }
    }
}

/// The far lengths with this low part, and others.
fn far_lengths(low: usize) -> Vec<usize> {
    HIGH_PARTS.into_iter().map(|high| high + low).chain(OTHER_LENGTHS).collect()
}

/// The far lengths of pages.
fn far_pages_lengths() -> Vec<usize> {
    let parts = PAGES_HIGH_PARTS.into_iter().flat_map(|high| PAGES_LOW_PARTS.map(|low| high + low));
    parts.chain(OTHER_LENGTHS).chain(LONGEST).collect()
}

/// The far lengths of a page; cut to fewer bits, they are the lengths of pages. The least of them is one.
fn far_page_lengths() -> Vec<usize> {
    let parts = HIGH_PARTS.into_iter().flat_map(|high| Shape::BOTH.map(|shape| high + shape.bytes));
    parts.chain(OTHER_LENGTHS).filter(|&length| length != LARGE.bytes).collect()
}

/// The far lengths of a block.
fn far_block_lengths() -> Vec<usize> {
    let parts = BLOCK_HIGH_PARTS.into_iter().flat_map(|high| [high, high + BLOCK_BYTES]);
    parts.chain(OTHER_LENGTHS).chain(LONGEST).collect()
}

/// The far lengths of a record for a block: cut, in bytes or as 8 times them, they fit a page.
fn far_placed_lengths() -> Vec<usize> {
    [0, 20].into_iter().flat_map(far_lengths).chain(WRAPPED_LENGTHS).collect()
}

/// The low part that would change the answer for the entry's other buffer.
fn low_part(entry: Entry, shape: Shape) -> usize {
    match entry {
        Entry::WriteFirst => shape.first_bytes,
        Entry::WriteSecond | Entry::WriteInspect => 20,
        _ => 0,
    }
}

/// A length of the entry's other buffer with which the answer is that of a far one.
fn near_length(entry: Entry, shape: Shape) -> usize {
    match entry {
        Entry::WriteFirst => shape.first_bytes + 1,
        Entry::WriteSecond => shape.second_bytes_most + 1,
        Entry::WriteInspect => shape.inspect_bytes_most + MOVED_AT_ONCE,
        Entry::ReadInspect => shape.inspect_bytes_most,
        _ => shape.first_bytes,
    }
}

/// The far lengths of the entry's other buffer, with a page of this shape.
fn far_other_lengths(entry: Entry, shape: Shape) -> Vec<usize> {
    let lengths = far_lengths(low_part(entry, shape)).into_iter();
    lengths.filter(|&length| length >= near_length(entry, shape)).collect()
}

/// Whether the file is refused for what is there, and not for what is missing.
fn faulty_at_its_beginning(file: &[u8]) -> bool {
    let fault = Reading::of(file).fault;
    matches!(fault, Some(Fault::Start | Fault::Tag | Fault::Sequence | Fault::Length | Fault::Tail))
}

/// None of the entry's refusals, and each by itself but those for the other buffer's length: choices for `combined`.
fn single_choices(entry: Entry) -> Vec<usize> {
    let single = |(place, number): (usize, &u8)| (!matches!(number, 2 | 3 | 8)).then_some(1 << place);
    [0].into_iter().chain(entry.refusals().iter().enumerate().filter_map(single)).collect()
}

/// The calls made so far.
struct Walk {
    random: Random,
    calls: Vec<FarCall>,
}

/// All calls with far lengths.
pub fn calls() -> Vec<FarCall> {
    let mut walk = Walk { random: Random::new(SEED), calls: Vec::new() };
    Entry::with_shapes(&Entry::OF_PAGES).for_each(|(entry, shape)| walk.pages(entry, shape));
    Entry::with_shapes(&Entry::WITH_OTHER).for_each(|(entry, shape)| walk.others(entry, shape));
    Entry::with_shapes(&Entry::WITH_OTHER).for_each(|(entry, shape)| walk.both(entry, shape));
    Shape::BOTH.into_iter().for_each(|shape| walk.second_outputs(shape));
    Shape::BOTH.into_iter().for_each(|shape| walk.inspect_outputs(shape));
    Shape::BOTH.into_iter().for_each(|shape| walk.records(shape));
    walk.file_pages();
    [0, 1, FILE_PAGES_MOST].into_iter().for_each(|count| walk.file_outputs(count));
    walk.refused_file_outputs();
    walk.file_pages_and_outputs();
    [0, 1, FILE_PAGES_MOST].into_iter().for_each(|count| walk.read_outputs(count));
    walk.refused_read_outputs();
    walk.read_files();
    walk.read_files_and_outputs();
    walk.blocks();
    walk.placed_records();
    walk.sources();
    walk.targets();
    walk.two_blocks();
    walk.calls
}

impl Walk {
    /// A sound call but for its page, which is one byte too long.
    fn long_page(&mut self, entry: Entry, shape: Shape) -> Call {
        let call = sound(&mut self.random, entry, shape);
        Call { page: resized(&mut self.random, call.page.clone(), shape.bytes + 1), ..call }
    }

    /// Pages of every far length.
    fn pages(&mut self, entry: Entry, shape: Shape) {
        for length in far_page_lengths() {
            let near = self.long_page(entry, shape);
            self.calls.push(FarCall { near, page: Some(length), other: None });
        }
    }

    /// A call that meets these conditions, with the other buffer of every far length.
    fn others_with(&mut self, entry: Entry, shape: Shape, chosen: usize) {
        for length in far_other_lengths(entry, shape) {
            let call = combined(&mut self.random, entry, chosen, shape);
            let near = Call { other: self.random.bytes(near_length(entry, shape)), ..call };
            self.calls.push(FarCall { near, page: None, other: Some(length) });
        }
    }

    /// Data, records and outputs of every far length, over sound pages and pages that are refused for any reason.
    fn others(&mut self, entry: Entry, shape: Shape) {
        single_choices(entry).into_iter().for_each(|chosen| self.others_with(entry, shape, chosen));
    }

    /// A page and the other buffer of far lengths.
    fn both(&mut self, entry: Entry, shape: Shape) {
        for high in [1 << 16, 1 << 32, 1 << 40] {
            let near = self.long_page(entry, shape);
            let (page, other) = (Some(high + shape.bytes), Some(high + low_part(entry, shape)));
            self.calls.push(FarCall { near, page, other });
        }
    }

    /// Outputs of every far length for records by the fill code of the least, a middle and the greatest length.
    fn second_outputs(&mut self, shape: Shape) {
        for record in [0, 1, shape.second_bytes_sure(), shape.second_bytes_most] {
            let second = second_page(&page_of(shape, 0), &self.random.bytes(record));
            self.outputs_of(Entry::ReadSecond, &second);
        }
    }

    /// The same for records by the Inspect code.
    fn inspect_outputs(&mut self, shape: Shape) {
        for record in [0, 1, shape.inspect_bytes_sure(), shape.inspect_bytes_most] {
            let zeros = vec![0; record];
            self.outputs_of(Entry::ReadInspect, &inspect_page(&page_of(shape, 0), &zeros));
        }
    }

    /// Outputs of every far length for the record of this page.
    fn outputs_of(&mut self, entry: Entry, page: &[u8]) {
        let shape = known_shape(page);
        for length in far_other_lengths(entry, shape) {
            let output = self.random.bytes(near_length(entry, shape));
            let near = Call::of_page(entry, page.to_vec(), output);
            self.calls.push(FarCall { near, page: None, other: Some(length) });
        }
    }

    /// Records of each kind of which 8 times the length is cut, over this page.
    fn records_over(&mut self, entry: Entry, page: &[u8]) {
        for (turn, length) in WRAPPED_LENGTHS.into_iter().enumerate() {
            let record = RECORDS[turn % RECORDS.len()](&mut self.random, near_length(entry, known_shape(page)));
            let near = Call::of_page(entry, page.to_vec(), record);
            self.calls.push(FarCall { near, page: None, other: Some(length) });
        }
    }

    /// Such records over the least, the most and a middle capacity, by each code.
    fn records(&mut self, shape: Shape) {
        let any = any_first(&mut self.random, shape);
        for first in [page_of(shape, SPARSE_VALUE), page_of(shape, 0), any] {
            self.records_over(Entry::WriteSecond, &filled_page(&first));
            self.records_over(Entry::WriteInspect, &first);
        }
    }

    /// A call of write file with any pages of this length, and an output of the other.
    fn file(&mut self, pages_length: usize, length: usize) -> Call {
        let pages = any_pages(&mut self.random, 0);
        let pages = resized(&mut self.random, pages, pages_length);
        let device = any_device(&mut self.random);
        Call::of_file(device, pages, self.random.bytes(length))
    }

    /// Pages of every far length, with an output that is too short and one that takes the most pages.
    fn file_pages(&mut self) {
        for length in far_pages_lengths() {
            for output in [0, file_bytes(FILE_PAGES_MOST)] {
                let near = self.file(FILE_PAGES_MOST * SMALL.bytes + 1, output);
                self.calls.push(FarCall { near, page: Some(length), other: None });
            }
        }
    }

    /// Outputs of every far length for a file of this many pages; cut, they are empty or one short.
    fn file_outputs(&mut self, count: usize) {
        let exact = file_bytes(count);
        let lengths = [0, exact - 1].into_iter().flat_map(far_lengths).filter(|&length| length >= exact);
        for length in lengths {
            let near = self.file(SMALL.bytes * count, exact);
            self.calls.push(FarCall { near, page: None, other: Some(length) });
        }
    }

    /// Outputs of every far length for pages that are refused.
    fn refused_file_outputs(&mut self) {
        for pages_length in [SMALL.bytes - 1, (FILE_PAGES_MOST + 1) * SMALL.bytes] {
            for length in far_lengths(0).into_iter().chain(LONGEST) {
                let near = self.file(pages_length, 0);
                self.calls.push(FarCall { near, page: None, other: Some(length) });
            }
        }
    }

    /// Pages and an output of far lengths.
    fn file_pages_and_outputs(&mut self) {
        for high in [1 << 16, 1 << 32, 1 << 40] {
            let near = self.file(FILE_PAGES_MOST * SMALL.bytes + 1, 0);
            let (page, other) = (Some(high + SMALL.bytes), Some(high + file_bytes(1)));
            self.calls.push(FarCall { near, page, other });
        }
    }

    /// Outputs of every far length for a file with this many pages; cut, they are empty or one short.
    fn read_outputs(&mut self, count: usize) {
        let exact = SMALL.bytes * count;
        let lengths = [0, exact.saturating_sub(1)].into_iter().flat_map(far_lengths).filter(|&length| length >= exact);
        for length in lengths {
            let file = file_of(any_device(&mut self.random), &numbered(&mut self.random, exact));
            let near = Call::of_reading(file, self.random.bytes(exact));
            self.calls.push(FarCall { near, page: None, other: Some(length) });
        }
    }

    /// Files that are cut, that have a fault in a field, and that have a tail.
    fn refused_files(&mut self) -> [Vec<u8>; 3] {
        let file = file_of(any_device(&mut self.random), &numbered(&mut self.random, 2 * SMALL.bytes));
        let cut = file[..file.len() - 1].to_vec();
        [cut, with_field_fault(&mut self.random, file.clone()), with_tail(&mut self.random, file)]
    }

    /// Outputs of every far length for files that are refused.
    fn refused_read_outputs(&mut self) {
        for length in far_lengths(0).into_iter().chain(LONGEST) {
            for file in self.refused_files() {
                let near = Call::of_reading(file, Vec::new());
                self.calls.push(FarCall { near, page: None, other: Some(length) });
            }
        }
    }

    /// Files that are refused for what they begin with: another start; at each stage an unknown tag, a field out of sequence
    /// and one of a wrong length; and a byte after the end field.
    fn faulty_files(&mut self) -> Vec<Vec<u8>> {
        let mut files = vec![vec![0xF0, 0xB0], vec![0xF1, 0xB1]];
        for stage in STAGES {
            let [before, _] = about(&mut self.random, stage);
            let tags =
                [0x00, 0x3F, 0x70, 0xFF, DEVICE_TAG, PAGE_TAG, END_TAG].map(|tag| any_field_of(&mut self.random, tag));
            let lengths = [head(DEVICE_TAG, 5), head(PAGE_TAG, 255), head(END_TAG, 1)].map(|head| head.to_vec());
            files.extend(tags.into_iter().chain(lengths).map(|field| [&before[..], &field].concat()));
        }
        files.extend(
            [0, 1, FILE_PAGES_MOST].map(|count| [&about(&mut self.random, Stage::End(count))[0][..], &[0]].concat()),
        );
        files.into_iter().filter(|file| faulty_at_its_beginning(file)).collect()
    }

    /// Such files of every far length; cut, they end at their start, before the fault, and right after what tells it.
    fn read_files(&mut self) {
        for file in self.faulty_files() {
            let (next, telling) = (Reading::of(&file).next, Reading::of(&file).telling(&file));
            let lengths = [0, next, telling].into_iter().flat_map(far_lengths).chain(LONGEST);
            for length in lengths.filter(|&length| length > file.len()) {
                let near = Call::of_reading(file.clone(), self.random.bytes(9));
                self.calls.push(FarCall { near, page: Some(length), other: None });
            }
        }
    }

    /// Such files and an output of far lengths.
    fn read_files_and_outputs(&mut self) {
        for (file, high) in self
            .faulty_files()
            .into_iter()
            .flat_map(|file| [1 << 16, 1 << 32, 1 << 40].map(|high| (file.clone(), high)))
        {
            let length = high + Reading::of(&file).next;
            let near = Call::of_reading(file, Vec::new());
            self.calls.push(FarCall { near, page: Some(length), other: Some(high) });
        }
    }

    /// A sound call of place record but for its block, which is one byte too long.
    fn long_block(&mut self) -> Call {
        let call = sound_placing(&mut self.random);
        Call { page: resized(&mut self.random, call.page.clone(), BLOCK_BYTES + 1), ..call }
    }

    /// Blocks of every far length, with marks and a record that fits, without a mark, and with a record that is too long.
    fn blocks(&mut self) {
        for length in far_block_lengths() {
            let near = self.long_block();
            let unmarked = Call { argument: 0, ..near.clone() };
            let too_long = Call { other: self.random.bytes(SMALL.second_bytes_most + 1), ..near.clone() };
            let calls = [near, unmarked, too_long];
            self.calls.extend(calls.map(|near| FarCall { near, page: Some(length), other: None }));
        }
    }

    /// Blocks of pages of the least capacity, of the most, and of any.
    fn roomy_blocks(&mut self) -> [Vec<u8>; 3] {
        let any = sound_placing(&mut self.random).page;
        let any = with_page(any, 7, &page_of(SMALL, 0));
        [page_of(SMALL, SPARSE_VALUE).repeat(BLOCK_PAGES), page_of(SMALL, 0).repeat(BLOCK_PAGES), any]
    }

    /// Records of every far length, with all pages marked and with any; and with a block that is too short, or empty.
    fn placed_records(&mut self) {
        let blocks = self.roomy_blocks();
        for length in far_placed_lengths() {
            let record = self.random.bytes(SMALL.second_bytes_most + 1);
            let any = any_marks(&mut self.random);
            let sound = blocks.iter().flat_map(|block| [(&block[..], 0xFFFF), (block, any)]);
            let short = [(&blocks[1][1..], 0xFFFF), (&blocks[1][..0], 0xFFFF)];
            for (block, marks) in sound.chain(short) {
                let near = Call::of_placing(block.to_vec(), marks, record.clone());
                self.calls.push(FarCall { near, page: None, other: Some(length) });
            }
        }
    }

    /// Sources of every far length, with a target that is blank, that is not, and that is empty.
    fn sources(&mut self) {
        for length in far_block_lengths() {
            let call = sound_collecting(&mut self.random);
            let near = Call { page: resized(&mut self.random, call.page.clone(), BLOCK_BYTES + 1), ..call };
            let not_blank = Call { other: with_target_byte(&mut self.random, near.other.clone()), ..near.clone() };
            let empty = Call { other: Vec::new(), ..near.clone() };
            let calls = [near, not_blank, empty];
            self.calls.extend(calls.map(|near| FarCall { near, page: Some(length), other: None }));
        }
    }

    /// Targets of every far length, with a source that is a block, that is too short, and that is empty.
    fn targets(&mut self) {
        for length in far_block_lengths() {
            let call = sound_collecting(&mut self.random);
            let near = Call { other: vec![0; BLOCK_BYTES + 1], ..call };
            let short = Call { page: near.page[1..].to_vec(), ..near.clone() };
            let empty = Call { page: Vec::new(), ..near.clone() };
            let calls = [near, short, empty];
            self.calls.extend(calls.map(|near| FarCall { near, page: None, other: Some(length) }));
        }
    }

    /// A block and a record of far lengths, and a source and a target.
    fn two_blocks(&mut self) {
        for high in [1 << 16, 1 << 32, 1 << 40] {
            let near = self.long_block();
            self.calls.push(FarCall { near, page: Some(high + BLOCK_BYTES), other: Some(high + 20) });
            let call = sound_collecting(&mut self.random);
            let page = resized(&mut self.random, call.page.clone(), BLOCK_BYTES + 1);
            let near = Call { page, other: vec![0; BLOCK_BYTES + 1], ..call };
            self.calls.push(FarCall { near, page: Some(high + BLOCK_BYTES), other: Some(high + BLOCK_BYTES) });
        }
    }
}

#[cfg(test)]
mod tests {
    use super::*;
    use crate::answer::number;

    /// Each call with its answer.
    fn answered() -> Vec<(FarCall, Answer)> {
        let with_answer = |far: FarCall| {
            let (_, answer) = far.near.performed();
            (far, answer)
        };
        calls().into_iter().map(with_answer).collect()
    }

    #[test]
    fn the_number_of_calls() {
        assert_eq!(calls().len(), 3_245);
    }

    #[test]
    fn every_call_has_a_far_length() {
        assert!(calls().iter().all(|far| far.page.is_some() || far.other.is_some()));
        assert!(calls().iter().all(|far| far.page_length().max(far.other_length()) >= 256));
    }

    /// "Refusal 1 now means neither 256 nor 512 bytes"; 13 when the pages' bytes "exceed 64 pages"; and "17 for any block,
    /// source or target, that is not 4,096 bytes".
    #[test]
    fn a_far_page_is_refused_1_and_far_pages_13_and_a_far_block_17() {
        let of_pages = |far: &FarCall| far.page.is_some() && far.near.entry != Entry::ReadFile;
        for (far, answer) in answered().into_iter().filter(|(far, _)| of_pages(far)) {
            let (wanted, most) = match far.near.entry {
                Entry::WriteFile => (13, 16_384),
                Entry::PlaceRecord | Entry::CollectBlock => (17, 4_096),
                _ => (1, 256),
            };
            assert_eq!(number(answer), wanted, "{}", far.near.entry.name());
            assert!(far.page_length() > most);
            assert_eq!(far.page_touched(), 0);
        }
    }

    /// Cut to 13, 16, 31 or 32 bits, the length of a far block, source or target is none, or a block's; the longest is the most
    /// that memory can be. Nothing of it is looked at, whatever the other buffer is.
    #[test]
    fn lengths_of_far_blocks() {
        for (entry, source) in [(Entry::PlaceRecord, true), (Entry::CollectBlock, true), (Entry::CollectBlock, false)] {
            let of_entry =
                |far: &FarCall| far.near.entry == entry && (if source { far.page } else { far.other }).is_some();
            let far: Vec<_> = answered().into_iter().filter(|(far, _)| of_entry(far)).collect();
            let lengths: Vec<usize> =
                far.iter().map(|(far, _)| if source { far.page_length() } else { far.other_length() }).collect();
            for (bits, low) in [13, 16, 31, 32].into_iter().flat_map(|bits| [(bits, 0), (bits, 4_096)]) {
                assert!(lengths.contains(&((1 << bits) + low)), "{} {bits} {low}", entry.name());
            }
            assert!(lengths.contains(&0x7FFF_FFFF_FFFF_FFFF) && !lengths.contains(&4_096));
            assert!(far.iter().all(|(far, answer)| number(*answer) == 17 && far.other_touched(*answer) == 0));
        }
    }

    /// A far record is refused 18 for every block that is one, and 17 for another.
    #[test]
    fn far_records_for_blocks() {
        let far = answered().into_iter().filter(|(far, _)| far.near.entry == Entry::PlaceRecord && far.page.is_none());
        let far: Vec<_> = far.collect();
        for (far, answer) in &far {
            assert_eq!(number(*answer), if far.near.page.len() == 4_096 { 18 } else { 17 });
            assert!(far.other_length() > 126 && far.other_touched(*answer) == 0);
        }
        for length in [(1 << 32) + 20, (1 << 29) + 20, (1 << 61) + 82, 1 << 61, 0x7FFF_FFFF_FFFF_FFFF] {
            let of_length = far.iter().filter(|(far, _)| far.other == Some(length));
            assert_eq!(of_length.clone().filter(|(_, answer)| number(*answer) == 18).count(), 6, "{length}");
            assert_eq!(of_length.filter(|(_, answer)| number(*answer) == 17).count(), 2, "{length}");
        }
    }

    /// The far calls of read file with a far file, and their answers.
    fn far_files() -> impl Iterator<Item = (FarCall, Answer)> {
        answered().into_iter().filter(|(far, _)| far.page.is_some() && far.near.entry == Entry::ReadFile)
    }

    /// A file is refused for what it begins with: no byte after that changes the answer, and one byte less does.
    #[test]
    fn a_far_file_is_refused_for_what_it_begins_with() {
        for (far, answer) in far_files() {
            let touched = far.page_touched();
            assert!(matches!(number(answer), 14..=16));
            assert!(touched <= far.near.page.len() && far.near.page.len() < far.page_length());
            let with = |page: Vec<u8>| Call { page, ..far.near.clone() }.perform();
            for more in [&[0x00][..], &[0x7F; 9], &[0xFF; 600]] {
                assert_eq!(with([&far.near.page[..touched], more].concat()), answer);
            }
            let cut = with(far.near.page[..touched - 1].to_vec());
            assert_eq!(number(cut), 14);
        }
    }

    /// Each kind of fault at each stage, and cut to 16 or 32 bits, lengths that end the file before it, and that end a sound
    /// file with its end field.
    #[test]
    fn faults_of_far_files() {
        let met: Vec<_> = far_files()
            .map(|(far, _)| {
                let reading = Reading::of(&far.near.page);
                (reading.fault, reading.stage, reading.next, far.page_length())
            })
            .collect();
        let has = |fault: Fault, stage: Stage| met.iter().any(|&(met, at, ..)| (met, at) == (Some(fault), stage));
        assert!(STAGES.into_iter().all(|stage| has(Fault::Tag, stage) && has(Fault::Sequence, stage)));
        assert!(STAGES.into_iter().all(|stage| has(Fault::Length, stage)));
        assert!(
            [0, 1, 64].into_iter().all(|count| has(Fault::Tail, Stage::End(count))) && has(Fault::Start, Stage::Start)
        );
        for &(fault, stage, next, _) in &met {
            let of_file = |bits: i32| met.iter().any(|one| *one == (fault, stage, next, (1 << bits) + next));
            assert!(of_file(32) && of_file(16), "{fault:?} {stage:?}");
        }
    }

    /// Each entry over pages of each size.
    #[test]
    fn both_sizes() {
        let calls = calls();
        for (entry, shape) in Entry::with_shapes(&Entry::WITH_OTHER) {
            let of_entry = calls.iter().filter(|far| far.near.entry == entry && far.page.is_none());
            let count = of_entry.filter(|far| far.near.page.len() == shape.bytes).count();
            assert!(count >= 10, "{} {} {count}", entry.name(), shape.bytes);
        }
    }

    /// No far page has a length that a page has; 768, which is 512 in 8 bits more, is the least.
    #[test]
    fn no_far_page_is_a_page() {
        for entry in Entry::OF_PAGES {
            let of_entry = calls().into_iter().filter(|far| far.near.entry == entry);
            assert_eq!(of_entry.filter_map(|far| far.page).min(), Some(768), "{}", entry.name());
        }
    }

    /// A far output is not refused 3; far data and records are refused, if not before, by 2 and by 8.
    #[test]
    fn a_far_other_buffer_is_told_by_its_length_alone() {
        for (far, answer) in answered().into_iter().filter(|(far, _)| far.page.is_none()) {
            let wanted: &[u8] = match far.near.entry {
                Entry::WriteFirst => &[1, 2],
                Entry::ReadFirst => &[0, 1, 5, 6, 7],
                Entry::WriteSecond | Entry::WriteInspect => &[1, 5, 6, 7, 8],
                Entry::WriteFile => &[0, 13],
                Entry::ReadFile => &[0, 14, 15, 16],
                Entry::PlaceRecord => &[17, 18],
                Entry::CollectBlock => &[17],
                _ => &[0, 1, 5, 6, 7, 9],
            };
            assert!(wanted.contains(&number(answer)), "{} {answer:?}", far.near.entry.name());
        }
    }

    /// What is not reserved is only for buffers of calls that are refused 8, or 13 and beyond, which are never looked at so far.
    #[test]
    fn lengths_that_are_not_reserved() {
        for (far, answer) in answered() {
            let lengths = far.page_length().max(far.other_length());
            let refused = matches!(number(answer), 8 | 13..=18);
            assert!(lengths <= FAR_BYTES || refused, "{} {answer:?}", far.near.entry.name());
        }
    }

    /// Of a far record for the Inspect code, all that walks could take can be touched: 8 names the same bits with any
    /// record that starts so.
    #[test]
    fn a_far_record_for_the_inspect_code() {
        let records =
            answered().into_iter().filter(|(far, _)| far.near.entry == Entry::WriteInspect && far.page.is_none());
        for (far, answer) in records {
            assert!([247 + 8, 495 + 8].contains(&far.other_touched(answer)));
            let longer = Call { other: [&far.near.other[..], &[0xFF; 9]].concat(), ..far.near.clone() };
            assert_eq!(longer.clone().perform(), answer);
            assert!(far.other_length() > longer.other.len());
        }
    }

    /// Two far buffers each take a half of what is reserved.
    #[test]
    fn two_far_buffers_do_not_overlap() {
        let both = calls().into_iter().filter(|far| far.page.is_some() && far.other.is_some());
        assert!(both.into_iter().all(|far| far.page_length().max(far.other_length()) <= FAR_BYTES / 2));
    }

    /// Cut to 32 bits, a length looks sound, or too short for an output.
    #[test]
    fn lengths_that_look_otherwise_in_32_bits() {
        let low = |length: usize| length as u32 as usize;
        let records = [(Entry::WriteSecond, 20), (Entry::WriteInspect, 20)];
        let first = Shape::BOTH.map(|shape| (Entry::WriteFirst, shape.first_bytes));
        let others = first.into_iter().chain([(Entry::ReadFirst, 0), (Entry::ReadSecond, 0), (Entry::ReadInspect, 0)]);
        for (entry, wanted) in records.into_iter().chain(others) {
            let of_entry = |far: &FarCall| far.near.entry == entry && far.page.is_none();
            let met =
                |far: FarCall| of_entry(&far) && far.other_length() > 1 << 32 && low(far.other_length()) == wanted;
            assert!(calls().into_iter().any(met), "{}", entry.name());
        }
        for (entry, bytes) in Entry::OF_PAGES.into_iter().flat_map(|entry| [(entry, 256), (entry, 512)]) {
            let met = |far: FarCall| far.near.entry == entry && far.page == Some((1 << 32) + bytes);
            assert!(calls().into_iter().any(met), "{}", entry.name());
        }
    }

    /// Cut to 16 or 32 bits, or counted in pages and cut to 8, 16 or 32, far pages look sound, and a far output of an
    /// accepted call looks too short.
    #[test]
    fn lengths_of_files_that_look_otherwise_in_fewer_bits() {
        let calls: Vec<FarCall> = calls().into_iter().filter(|far| far.near.entry == Entry::WriteFile).collect();
        for (high, low) in [16, 24, 32, 40].into_iter().flat_map(|bits| [0, 256, 16_384].map(|low| (1 << bits, low))) {
            assert!(calls.iter().any(|far| far.page == Some(high + low)), "pages of {high} + {low}");
        }
        for (count, exact) in [(0, 12), (1, 271), (64, 16_588)] {
            let of_count = |far: &&FarCall| far.near.page.len() == 256 * count;
            for (high, low) in [16, 32].into_iter().flat_map(|bits| [(1 << bits, 0), (1 << bits, exact - 1)]) {
                assert!(calls.iter().filter(of_count).any(|far| far.other == Some(high + low)), "{count} pages");
            }
        }
    }

    /// The same of outputs for the pages of accepted files.
    #[test]
    fn outputs_for_pages_that_look_too_short_in_fewer_bits() {
        let met: Vec<_> = answered()
            .into_iter()
            .filter(|(far, _)| far.near.entry == Entry::ReadFile)
            .filter_map(|(far, answer)| Some((pages_in(answer.ok()?), far.other?, far.other_touched(answer))))
            .collect();
        for count in [0, 1, 64] {
            let exact: usize = 256 * count;
            for (high, low) in
                [16, 32].into_iter().flat_map(|bits| [(1 << bits, 0), (1 << bits, exact.saturating_sub(1))])
            {
                assert!(met.contains(&(count, high + low, exact)), "{count} pages");
            }
        }
    }

    /// 8 times the length fits the least capacity in each number of bits.
    #[test]
    fn lengths_of_which_8_times_is_cut() {
        let both = [(31, (1 << 28) + 20, 160), (32, (1 << 29) + 20, 160), (64, (1 << 61) + 82, 656)];
        let more = [(165, 1_320), (247, 1_976), (253, 2_024), (495, 3_960)];
        let more = more.map(|(low, left)| (64, (1 << 61) + low, left));
        for (bits, wanted, left) in both.into_iter().chain(more) {
            assert!(WRAPPED_LENGTHS.contains(&wanted));
            assert_eq!(8 * (wanted as u128) % (1 << bits), left, "{bits} bits");
        }
    }
}
