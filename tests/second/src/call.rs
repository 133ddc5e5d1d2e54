//! A call of one entry: what goes in, and its performance by this implementation.

use crate::answer::Answer;
use crate::page::{BLANK, FILLED, FIRST_ROUND, INSPECTED, SECOND_ROUND};
use crate::shape::Shape;
use crate::{block, file, inspect, page, reading, word};

/// The entries, in the order of their numbers.
#[derive(Clone, Copy, Debug, PartialEq, Eq, Hash)]
pub enum Entry {
    EncodeWord,
    DecodeWord,
    FillWord,
    WordCapacity,
    WriteFirst,
    ReadFirst,
    PageCapacity,
    WriteSecond,
    ReadSecond,
    WriteFile,
    FillPage,
    WriteInspect,
    ReadInspect,
    ReadFile,
    PlaceRecord,
    CollectBlock,
}

impl Entry {
    pub const ALL: [Entry; 16] = [
        Entry::EncodeWord,
        Entry::DecodeWord,
        Entry::FillWord,
        Entry::WordCapacity,
        Entry::WriteFirst,
        Entry::ReadFirst,
        Entry::PageCapacity,
        Entry::WriteSecond,
        Entry::ReadSecond,
        Entry::WriteFile,
        Entry::FillPage,
        Entry::WriteInspect,
        Entry::ReadInspect,
        Entry::ReadFile,
        Entry::PlaceRecord,
        Entry::CollectBlock,
    ];
    /// The entries that take a word and may refuse it.
    pub const OF_WORDS: [Entry; 3] = [Entry::DecodeWord, Entry::FillWord, Entry::WordCapacity];
    /// The entries that take one page, in the order of a page's life.
    pub const OF_PAGES: [Entry; 8] = [
        Entry::WriteFirst,
        Entry::ReadFirst,
        Entry::PageCapacity,
        Entry::FillPage,
        Entry::WriteSecond,
        Entry::ReadSecond,
        Entry::WriteInspect,
        Entry::ReadInspect,
    ];
    /// The entries that take data, an output or a record beside one page.
    pub const WITH_OTHER: [Entry; 6] = [
        Entry::WriteFirst,
        Entry::ReadFirst,
        Entry::WriteSecond,
        Entry::ReadSecond,
        Entry::WriteInspect,
        Entry::ReadInspect,
    ];
    /// The entries that take a first-round page.
    pub const OF_FIRST_PAGES: [Entry; 4] =
        [Entry::ReadFirst, Entry::PageCapacity, Entry::FillPage, Entry::WriteInspect];
    /// The entries that take a filled page.
    pub const OF_FILLED_PAGES: [Entry; 2] = [Entry::PageCapacity, Entry::WriteSecond];
    /// The entries that take a page after its fill: a filled page, or a second-round page.
    pub const AFTER_THE_FILL: [Entry; 3] = [Entry::PageCapacity, Entry::WriteSecond, Entry::ReadSecond];
    /// The entries of the Inspect code.
    pub const OF_INSPECT: [Entry; 2] = [Entry::WriteInspect, Entry::ReadInspect];
    /// The entries of transfer files.
    pub const OF_FILES: [Entry; 2] = [Entry::WriteFile, Entry::ReadFile];
    /// The entries of blocks.
    pub const OF_BLOCKS: [Entry; 2] = [Entry::PlaceRecord, Entry::CollectBlock];

    pub fn number(self) -> usize {
        self as usize
    }

    pub fn name(self) -> &'static str {
        match self {
            Entry::EncodeWord => "encode word",
            Entry::DecodeWord => "decode word",
            Entry::FillWord => "fill word",
            Entry::WordCapacity => "word capacity",
            Entry::WriteFirst => "write first",
            Entry::ReadFirst => "read first",
            Entry::PageCapacity => "page capacity",
            Entry::WriteSecond => "write second",
            Entry::ReadSecond => "read second",
            Entry::WriteFile => "write file",
            Entry::FillPage => "fill page",
            Entry::WriteInspect => "write inspect",
            Entry::ReadInspect => "read inspect",
            Entry::ReadFile => "read file",
            Entry::PlaceRecord => "place record",
            Entry::CollectBlock => "collect block",
        }
    }

    /// What its first buffer holds.
    pub fn page_name(self) -> &'static str {
        match self {
            Entry::WriteFile => "pages",
            Entry::ReadFile => "file",
            Entry::PlaceRecord => "block",
            Entry::CollectBlock => "source",
            _ => "page",
        }
    }

    /// The numbers that the entry refuses by, in the stated order; of the first three of read file, that one comes first
    /// "which is met first in the file".
    pub fn refusals(self) -> &'static [u8] {
        match self {
            Entry::EncodeWord => &[],
            Entry::DecodeWord | Entry::FillWord | Entry::WordCapacity => &[10, 11, 12],
            Entry::WriteFirst => &[1, 2, 4],
            Entry::ReadFirst => &[1, 5, 6, 7, 3],
            Entry::PageCapacity | Entry::FillPage => &[1, 5, 6, 7],
            Entry::WriteSecond | Entry::WriteInspect => &[1, 5, 6, 7, 8],
            Entry::ReadSecond | Entry::ReadInspect => &[1, 5, 6, 7, 9, 3],
            Entry::WriteFile => &[13, 3],
            Entry::ReadFile => &[14, 15, 16, 3],
            Entry::PlaceRecord => &[17, 18],
            Entry::CollectBlock => &[17, 19],
        }
    }

    /// The states of the pages that the entry accepts; none for an entry without a page of its own.
    pub fn states(self) -> &'static [u8] {
        match self {
            Entry::WriteFirst => &[BLANK],
            Entry::ReadFirst | Entry::FillPage | Entry::WriteInspect => &[FIRST_ROUND],
            Entry::PageCapacity => &[FIRST_ROUND, FILLED],
            Entry::WriteSecond => &[FILLED],
            Entry::ReadSecond => &[SECOND_ROUND],
            Entry::ReadInspect => &[INSPECTED],
            _ => &[],
        }
    }

    /// The entries that take a page in this state, of either size.
    pub fn taking(state: u8) -> Vec<Entry> {
        Entry::OF_PAGES.into_iter().filter(|entry| entry.states().contains(&state)).collect()
    }

    /// Each of these entries, which take a page, with each shape of it.
    pub fn with_shapes(entries: &[Entry]) -> impl Iterator<Item = (Entry, Shape)> + '_ {
        entries.iter().flat_map(|&entry| Shape::BOTH.map(|shape| (entry, shape)))
    }

    /// Each entry that takes a page, with each state that it asks for.
    pub fn with_states() -> impl Iterator<Item = (Entry, u8)> {
        Entry::OF_PAGES.into_iter().flat_map(|entry| entry.states().iter().map(move |&state| (entry, state)))
    }

    pub fn takes_page(self) -> bool {
        Entry::OF_PAGES.contains(&self)
    }

    /// Whether it takes pages in files or blocks.
    fn takes_many_pages(self) -> bool {
        Entry::OF_FILES.contains(&self) || Entry::OF_BLOCKS.contains(&self)
    }

    pub fn takes_buffers(self) -> bool {
        self.takes_page() || self.takes_many_pages()
    }

    pub fn takes_other(self) -> bool {
        Entry::WITH_OTHER.contains(&self) || self.takes_many_pages()
    }

    /// Whether it writes its first buffer.
    pub fn writes_page(self) -> bool {
        let of_pages = [Entry::WriteFirst, Entry::FillPage, Entry::WriteSecond, Entry::WriteInspect];
        of_pages.contains(&self) || self == Entry::PlaceRecord
    }

    /// Whether it writes its other buffer.
    pub fn writes_output(self) -> bool {
        let of_pages = [Entry::ReadFirst, Entry::ReadSecond, Entry::ReadInspect];
        of_pages.contains(&self) || Entry::OF_FILES.contains(&self) || self == Entry::CollectBlock
    }
}

/// One call. A word entry has an argument and empty buffers; a page entry and read file have the argument 0; write file has
/// the device number as its argument, and an entry of blocks the marks. Marks have 16 bits: what the argument has above them
/// is no part of them.
#[derive(Clone, Debug)]
pub struct Call {
    pub entry: Entry,
    pub argument: u64,
    /// The page, the pages, the file, or the block, which is the source in collecting.
    pub page: Vec<u8>,
    /// The data, the output, the record, or the target.
    pub other: Vec<u8>,
    /// The first-round page that was filled for this page, by either fill, where that is told. It is no part of what
    /// goes in.
    pub first: Option<Vec<u8>>,
}

impl Call {
    pub fn of_word(entry: Entry, argument: u64) -> Call {
        Call { entry, argument, page: Vec::new(), other: Vec::new(), first: None }
    }

    /// Page capacity and fill page have no other buffer: what is given for it is left out.
    pub fn of_page(entry: Entry, page: Vec<u8>, other: Vec<u8>) -> Call {
        let other = if entry.takes_other() { other } else { Vec::new() };
        Call { entry, argument: 0, page, other, first: None }
    }

    /// The call, with the first-round page that was filled for its page.
    pub fn filled_from(self, first: &[u8]) -> Call {
        Call { first: Some(first.to_vec()), ..self }
    }

    pub fn of_file(device: u32, pages: Vec<u8>, output: Vec<u8>) -> Call {
        Call { entry: Entry::WriteFile, argument: u64::from(device), page: pages, other: output, first: None }
    }

    pub fn of_reading(file: Vec<u8>, output: Vec<u8>) -> Call {
        Call { entry: Entry::ReadFile, argument: 0, page: file, other: output, first: None }
    }

    pub fn of_placing(block: Vec<u8>, marks: u16, record: Vec<u8>) -> Call {
        Call { entry: Entry::PlaceRecord, argument: u64::from(marks), page: block, other: record, first: None }
    }

    pub fn of_collecting(source: Vec<u8>, keep: u16, target: Vec<u8>) -> Call {
        Call { entry: Entry::CollectBlock, argument: u64::from(keep), page: source, other: target, first: None }
    }

    /// The marks of a call of blocks: "a number of 16 bits".
    pub fn marks(&self) -> u16 {
        self.argument as u16
    }

    /// Performs the call; the buffers are then as they are after it.
    pub fn perform(&mut self) -> Answer {
        match self.entry {
            Entry::EncodeWord => word::encode_word(self.argument as u32),
            Entry::DecodeWord => word::decode_word(self.argument),
            Entry::FillWord => word::fill_word(self.argument),
            Entry::WordCapacity => word::word_capacity(self.argument),
            Entry::WriteFirst => page::write_first(&mut self.page, &self.other),
            Entry::ReadFirst => page::read_first(&self.page, &mut self.other),
            Entry::PageCapacity => page::page_capacity(&self.page),
            Entry::WriteSecond => page::write_second(&mut self.page, &self.other),
            Entry::ReadSecond => page::read_second(&self.page, &mut self.other),
            Entry::WriteFile => file::write_file(self.argument as u32, &self.page, &mut self.other),
            Entry::FillPage => page::fill_page(&mut self.page),
            Entry::WriteInspect => inspect::write_inspect(&mut self.page, &self.other),
            Entry::ReadInspect => inspect::read_inspect(&self.page, &mut self.other),
            Entry::ReadFile => reading::read_file(&self.page, &mut self.other),
            Entry::PlaceRecord => {
                let marks = self.marks();
                block::place_record(&mut self.page, marks, &self.other)
            }
            Entry::CollectBlock => {
                let keep = self.marks();
                block::collect_block(&self.page, keep, &mut self.other)
            }
        }
    }

    /// The call as it is after its performance, and its answer.
    pub fn performed(&self) -> (Call, Answer) {
        let mut after = self.clone();
        let answer = after.perform();
        (after, answer)
    }

    /// The buffer that the entry may write.
    pub fn written(&self) -> Option<&[u8]> {
        match self.entry {
            entry if entry.writes_page() => Some(&self.page),
            entry if entry.writes_output() => Some(&self.other),
            _ => None,
        }
    }
}

#[cfg(test)]
mod tests {
    use super::*;
    use crate::answer::Refusal;

    /// The numbers that the vectors' files use.
    #[test]
    fn numbers_are_places_in_the_list() {
        for (number, entry) in Entry::ALL.into_iter().enumerate() {
            assert_eq!(entry.number(), number);
        }
        let named = [Entry::PageCapacity, Entry::WriteSecond, Entry::ReadSecond, Entry::WriteFile, Entry::FillPage];
        assert_eq!(named.map(Entry::number), [6, 7, 8, 9, 10]);
        assert_eq!(Entry::OF_INSPECT.map(Entry::number), [11, 12]);
        assert_eq!(Entry::OF_FILES.map(Entry::number), [9, 13]);
        assert_eq!(Entry::OF_BLOCKS.map(Entry::number), [14, 15]);
    }

    #[test]
    fn the_lists_tell_the_states() {
        for entry in Entry::ALL {
            assert_eq!(entry.states().contains(&FIRST_ROUND), Entry::OF_FIRST_PAGES.contains(&entry));
            assert_eq!(entry.states().contains(&FILLED), Entry::OF_FILLED_PAGES.contains(&entry));
            let after_the_fill = [FILLED, SECOND_ROUND].iter().any(|state| entry.states().contains(state));
            assert_eq!(after_the_fill, Entry::AFTER_THE_FILL.contains(&entry));
            assert_eq!(entry.states().is_empty(), !entry.takes_page());
        }
    }

    /// "Refusal 1 there becomes neither 256 nor 512": with a page, each entry takes both sizes and no other length, so that
    /// every state of a page of zeros leads to another answer than 1.
    #[test]
    fn every_entry_with_a_page_takes_both_sizes() {
        for (entry, length) in
            Entry::OF_PAGES.into_iter().flat_map(|entry| (0..=600).map(move |length| (entry, length)))
        {
            let answer = Call::of_page(entry, vec![0; length], Vec::new()).perform();
            assert_eq!(answer == Err(Refusal::PAGE_LENGTH), ![256, 512].contains(&length), "{} {length}", entry.name());
        }
    }

    /// Placing writes the block and reads the record, collecting reads the source and writes the target.
    #[test]
    fn what_the_entries_of_blocks_write() {
        let placing = Call::of_placing(vec![1], 0xFFFF, vec![2]);
        let collecting = Call::of_collecting(vec![1], 0x8001, vec![2]);
        assert_eq!((placing.written(), placing.argument), (Some(&[1][..]), 65_535));
        assert_eq!((collecting.written(), collecting.argument), (Some(&[2][..]), 32_769));
        for entry in Entry::OF_BLOCKS {
            assert!(entry.takes_buffers() && entry.takes_other() && !entry.takes_page());
            assert_ne!(entry.writes_page(), entry.writes_output());
        }
    }

    /// What stands above 16 bits is no part of the marks.
    #[test]
    fn marks_have_16_bits() {
        for above in [1 << 16, 1 << 31, 1 << 32, 1 << 63, !0xFFFF] {
            let call = Call { argument: above | 0x8421, ..Call::of_placing(Vec::new(), 0, Vec::new()) };
            assert_eq!(call.marks(), 0x8421);
        }
    }

    #[test]
    fn the_entries_of_each_state() {
        let numbers = |state: u8| Entry::taking(state).into_iter().map(Entry::number).collect::<Vec<_>>();
        assert_eq!(
            [0x00, 0x01, 0x03, 0x07, 0x09, 0x02].map(numbers),
            [vec![4], vec![5, 6, 10, 11], vec![6, 7], vec![8], vec![12], vec![],]
        );
        assert_eq!(Entry::with_states().count(), 9);
    }
}
