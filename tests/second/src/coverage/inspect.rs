//! Counters of what the Inspect code leads to on pages of one size: the bits that a word takes, the word that a record ends
//! in, the places in a record's bytes where a word starts, bad words in both halves, and lengths that walks do not reach.

use super::shape::{page_after, words_read, Named};
use crate::answer::{number, Answer};
use crate::call::{Call, Entry};
use crate::inspect::{walks, walks_of, Step, WALK_ENDS};
use crate::page::words_of;
use crate::shape::{Shape, SMALL};
use crate::word::{self, LAST_CELL};
use std::collections::HashMap;
use std::ops::Range;

/// The bits of the two bytes after the longest record of 256 bytes, where a record of 512 bytes goes on.
const BITS_BEYOND: Range<usize> = 8 * SMALL.inspect_bytes_most..8 * (SMALL.inspect_bytes_most + 2);

/// The halves of a page's words.
const HALVES: [&str; 2] = ["first", "second"];

/// What a call counts for.
#[derive(Clone, Copy, PartialEq, Eq, Hash)]
enum Met {
    /// Accepted: a word that is walked to its end takes so many bits.
    Word(usize),
    /// Accepted: the record ends in this word.
    End(usize),
    /// Accepted: a word starts with this bit of the record, one of `BITS_BEYOND`.
    Start(usize),
    /// 7 names a word of the first half, and one of the second is not sound either.
    BothHalves,
    /// 9, where this half takes fewer bits than the other.
    ShortHalf(usize),
}

impl Met {
    fn name(self) -> String {
        match self {
            Met::Word(bits) => format!("accepted, a word of {bits} bits"),
            Met::End(index) => format!("accepted, the record ends in word {index}"),
            Met::Start(bit) => format!("accepted, a word starts with bit {bit}"),
            Met::BothHalves => "7 with a bad word in each half".to_string(),
            Met::ShortHalf(half) => format!("9 with fewer bits in the {} half", HALVES[half]),
        }
    }
}

/// What the accepted page of the Inspect code counts for.
fn accepted(page: &[u8]) -> Vec<Met> {
    let walks = walks_of(page);
    let ended = |steps: &Vec<Step>| steps.last().is_some_and(|step| step.next >= LAST_CELL);
    let words = WALK_ENDS.into_iter().filter(|&bits| walks.iter().any(|steps| steps.len() == bits && ended(steps)));
    let end = walks.iter().rposition(|steps| !steps.is_empty());
    words.map(Met::Word).chain(end.map(Met::End)).chain(starts(&walks).into_iter().map(Met::Start)).collect()
}

/// The bits of the record, of `BITS_BEYOND`, that words start with.
fn starts(walks: &[Vec<Step>]) -> Vec<usize> {
    let mut next = 0;
    let mut starts = Vec::new();
    for steps in walks.iter().filter(|steps| !steps.is_empty()) {
        starts.extend(BITS_BEYOND.contains(&next).then_some(next));
        next += steps.len();
    }
    starts
}

/// Whether a word of each half is not legal, with the read pairs put to 00 on a page that is read.
fn bad_in_both_halves(call: &Call) -> bool {
    let words = if call.entry == Entry::ReadInspect { words_read(&call.page) } else { words_of(&call.page) };
    words.chunks(words.len() / 2).all(|half| half.iter().any(|cells| !word::legal(cells)))
}

/// The half of the page whose walks take fewer bits.
fn short_half(page: &[u8]) -> Option<usize> {
    let words = words_of(page);
    let taken: Vec<usize> = words.chunks(words.len() / 2).map(|half| walks(half, usize::MAX).concat().len()).collect();
    (taken[0] != taken[1]).then(|| usize::from(taken[1] < taken[0]))
}

pub struct Inspects {
    shape: Shape,
    met: HashMap<(Entry, Met), u64>,
}

impl Inspects {
    pub fn new(shape: Shape) -> Inspects {
        Inspects { shape, met: HashMap::new() }
    }

    /// Counts a call with a page of the shape.
    pub fn count(&mut self, call: &Call, answer: Answer) {
        if !Entry::OF_INSPECT.contains(&call.entry) {
            return;
        }
        let met = match number(answer) {
            0 => accepted(&page_after(call)),
            7 => bad_in_both_halves(call).then_some(Met::BothHalves).into_iter().collect(),
            9 => short_half(&call.page).map(Met::ShortHalf).into_iter().collect(),
            _ => Vec::new(),
        };
        met.into_iter().for_each(|met| *self.met.entry((call.entry, met)).or_default() += 1);
    }

    fn all_wanted(&self) -> Vec<(Entry, Met)> {
        let ends = WALK_ENDS.map(Met::Word).into_iter().chain((0..self.shape.words).map(Met::End));
        let longer = self.shape.inspect_bytes_most > SMALL.inspect_bytes_most;
        let both = ends.chain(BITS_BEYOND.filter(|_| longer).map(Met::Start)).chain([Met::BothHalves]);
        let both: Vec<Met> = both.collect();
        let of_both = Entry::OF_INSPECT.into_iter().flat_map(|entry| both.iter().map(move |&met| (entry, met)));
        of_both.chain([0, 1].map(|half| (Entry::ReadInspect, Met::ShortHalf(half)))).collect()
    }

    fn counter(&self, key: &(Entry, Met)) -> u64 {
        self.met.get(key).copied().unwrap_or(0)
    }

    /// Every counter that must not be 0, with its name.
    pub fn wanted(&self) -> Vec<Named> {
        let name = |(entry, met): &(Entry, Met)| format!("{} {}", entry.name(), met.name());
        self.all_wanted().iter().map(|key| (name(key), self.counter(key))).collect()
    }

    /// How often each end of what a word takes was met, and how many words records ended in.
    pub fn told_of(&self, entry: Entry) -> String {
        if !Entry::OF_INSPECT.contains(&entry) {
            return String::new();
        }
        let bits =
            WALK_ENDS.map(|bits| format!("  a word of {bits} bits: {}", self.counter(&(entry, Met::Word(bits)))));
        let ends = (0..self.shape.words).filter(|&index| self.counter(&(entry, Met::End(index))) > 0).count();
        bits.concat() + &format!("  records end in {ends} words")
    }
}

#[cfg(test)]
mod tests {
    use super::*;
    use crate::cases::inspect::{inspect_page, naming};
    use crate::cases::pages::{first_page, page_of, with_word};
    use crate::cases::words::ODD_VALUE;
    use crate::shape::LARGE;
    use crate::word::CELLS;
    use std::collections::HashSet;

    /// The counters that a call turns from 0, by name without the entry's.
    fn met_by(entry: Entry, page: &[u8], other: Vec<u8>) -> Vec<String> {
        let call = Call::of_page(entry, page.to_vec(), other);
        let mut counters = Inspects::new(Shape::of(page).expect("a page"));
        counters.count(&call, call.clone().perform());
        let met = counters.wanted().into_iter().filter(|(_, met)| *met > 0);
        met.map(|(name, _)| name.strip_prefix(entry.name()).expect("the entry").trim_start().to_string()).collect()
    }

    /// What both entries count for with this record over the first-round page, the one before it is written and the other
    /// before it is read.
    fn met_by_both(first: &[u8], record: Vec<u8>) -> Vec<String> {
        let written = met_by(Entry::WriteInspect, first, record.clone());
        assert_eq!(met_by(Entry::ReadInspect, &inspect_page(first, &record), record), written);
        written
    }

    /// An accepted page counts for the bits that its words take. A word in which the record ends does not.
    #[test]
    fn the_bits_of_words_count() {
        for (shape, (byte, length, bits, end)) in Shape::BOTH.into_iter().flat_map(|shape| {
            [(0x00, 6, Some(45), 1), (0xFF, 3, Some(23), 1), (0x00, 5, None, 0), (0xFF, 2, None, 0)]
                .map(|record| (shape, record))
        }) {
            let bits = bits.map(|bits| format!("accepted, a word of {bits} bits"));
            let end = format!("accepted, the record ends in word {end}");
            let met = met_by_both(&page_of(shape, 0), vec![byte; length]);
            assert_eq!(met, bits.into_iter().chain([end]).collect::<Vec<_>>());
        }
    }

    /// Over the page of zeros, word 44 starts with bit 1,980; each word before it that takes one bit less moves it.
    #[test]
    fn the_bits_that_words_start_with_count() {
        for (fewer, length, wanted) in
            [(0, 248, Some(1_980)), (0, 247, None), (4, 248, Some(1_976)), (0, 250, Some(1_980))]
        {
            let values = [vec![3; fewer], vec![0; LARGE.words - fewer]].concat();
            let met = met_by_both(&first_page(&values), vec![0; length]);
            let start = met.iter().find(|name| name.contains("starts with"));
            assert_eq!(start.cloned(), wanted.map(|bit| format!("accepted, a word starts with bit {bit}")));
        }
    }

    /// 7 counts with bad words in both halves alone.
    #[test]
    fn bad_words_in_both_halves_count() {
        for (shape, low, high, both) in [
            (SMALL, 0, 43, true),
            (SMALL, 21, 22, true),
            (SMALL, 22, 43, false),
            (LARGE, 43, 44, true),
            (LARGE, 0, 43, false),
        ] {
            let page =
                [low, high].into_iter().fold(page_of(shape, 0), |page, index| with_word(page, index, [true; CELLS]));
            let wanted: &[&str] = if both { &["7 with a bad word in each half"] } else { &[] };
            assert_eq!(met_by(Entry::WriteInspect, &page, Vec::new()), wanted);
            assert_eq!(met_by(Entry::ReadInspect, &naming(&page, 0), Vec::new()), wanted);
        }
    }

    /// 9 counts for the half that takes fewer bits.
    #[test]
    fn the_shorter_half_counts() {
        for shape in Shape::BOTH {
            for (values, half) in [([ODD_VALUE, 0], "first"), ([0, ODD_VALUE], "second")] {
                let first = first_page(&values.map(|value| vec![value; shape.words / 2]).concat());
                let met = met_by(Entry::ReadInspect, &naming(&first, shape.inspect_bytes_most), Vec::new());
                assert_eq!(met, [format!("9 with fewer bits in the {half} half")]);
            }
        }
    }

    /// Each word for both entries, and on 512 bytes each bit of bytes 247 and 248.
    #[test]
    fn every_end_and_every_start_is_wanted() {
        assert_eq!(BITS_BEYOND, 1_976..1_992);
        for (shape, starts) in [(SMALL, 0), (LARGE, 2 * 16)] {
            let names: HashSet<String> = Inspects::new(shape).wanted().into_iter().map(|(name, _)| name).collect();
            let count = |part: &str| names.iter().filter(|name| name.contains(part)).count();
            assert_eq!((count("ends in word"), count("starts with"), count("a word of")), (2 * shape.words, starts, 4));
            assert_eq!((count("in each half"), count("fewer bits")), (2, 2));
        }
    }

    #[test]
    fn what_is_told() {
        for shape in Shape::BOTH {
            let told = |entry: Entry| Inspects::new(shape).told_of(entry);
            let text = "  a word of 23 bits: 0  a word of 45 bits: 0  records end in 0 words";
            assert_eq!(Entry::ALL.into_iter().filter(|entry| told(*entry) == text).count(), 2);
            assert_eq!(told(Entry::ReadSecond), "");
        }
    }
}
