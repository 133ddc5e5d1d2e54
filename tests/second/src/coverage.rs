//! Counters of the calls that a run has made, and of their answers. A run is wrong unless it has met each that is wanted:
//! each answer of each entry on each size of page that it can be met on; among them, accepted pages as only versions before
//! Change 6 left them, pages that only Change 6 lets be accepted, both ends of what a word takes by the Inspect code, each
//! word that a record by it ends in, each limit of a length, pages of 512 bytes that are refused for one of bytes 509 to 511
//! alone, each fault of a file at each place, each page of a block that is chosen, passed over or kept, and marks wider than
//! 16 bits.

mod block;
mod inspect;
mod length;
mod reading;
mod shape;
mod tail;

use crate::answer::{number, pulses_in, value, Answer};
use crate::call::{Call, Entry};
use crate::case::Place;
use crate::memory::Side;
use crate::page::{FILLED, FIRST_ROUND};
use crate::shape::{Shape, LARGE, SMALL};
use crate::word::PULSES_MOST;
use block::Blocks;
use reading::Readings;
use shape::{Named, OfShape};
use std::collections::HashMap;

/// The states that page capacity serves, with their names.
const MEASURED: [(u8, &str); 2] = [(FIRST_ROUND, "in state 01"), (FILLED, "in state 03")];

const ENTRIES: usize = Entry::ALL.len();

/// The numbers of an answer: 0 for acceptance, and 19 refusals.
const NUMBERS: usize = 20;

/// For each entry and each number: how often it was answered.
type Numbers = [[u64; NUMBERS]; ENTRIES];

/// The size of a call's page: one of both, or none for a page of another length, and for a call without a page.
type Size = Option<Shape>;

const SIZES: [Size; 3] = [None, Some(SMALL), Some(LARGE)];

/// Its place in `SIZES`.
fn size_number(size: Size) -> usize {
    size.map_or(0, |shape| 1 + shape.number())
}

fn size_of(call: &Call) -> Size {
    Shape::of(&call.page).filter(|_| call.entry.takes_page())
}

/// The end of a counter's name.
fn size_name(size: Size) -> String {
    size.map_or(String::new(), |shape| format!(", on {} bytes", shape.bytes))
}

/// Whether an entry can give this answer, acceptance among them, on this size: with a page it gives 1 on neither size, and
/// every other one on each.
fn can_give(entry: Entry, size: Size, number: u8) -> bool {
    let given = number == 0 || entry.refusals().contains(&number);
    given && size.is_some() == (entry.takes_page() && number != 1)
}

/// Every answer of the entry, 0 for acceptance, on each size that it can be met on, in the stated order.
fn answers(entry: Entry) -> Vec<(Size, u8)> {
    let numbers = || [0].into_iter().chain(entry.refusals().iter().copied());
    let all = SIZES.into_iter().flat_map(|size| numbers().map(move |number| (size, number)));
    all.filter(|&(size, number)| can_give(entry, size, number)).collect()
}

pub struct Coverage {
    /// For each place of the buffers and each of `SIZES`.
    places: [[Numbers; 3]; 6],
    /// For each place, each of `SIZES`, each of `MEASURED` and each number: how often page capacity answered it.
    measured: [[[[u64; NUMBERS]; 2]; 3]; 6],
    /// For each of `Shape::BOTH`.
    shapes: [OfShape; 2],
    /// For each number of pulses, 0 to 23: how often fill word answered it.
    word_pulses: [u64; PULSES_MOST + 1],
    readings: Readings,
    blocks: Blocks,
    /// For each entry of blocks and each number: how often it was answered to marks wider than 16 bits.
    wide: HashMap<(Entry, u8), u64>,
}

impl Coverage {
    pub fn new() -> Coverage {
        Coverage {
            places: [[[[0; NUMBERS]; ENTRIES]; 3]; 6],
            measured: [[[[0; NUMBERS]; 2]; 3]; 6],
            shapes: Shape::BOTH.map(OfShape::new),
            word_pulses: [0; PULSES_MOST + 1],
            readings: Readings::new(),
            blocks: Blocks::new(),
            wide: HashMap::new(),
        }
    }

    /// Counts a call, as it was before it was made with its buffers in this place.
    pub fn count(&mut self, call: &Call, place: Place, answer: Answer) {
        let size = size_of(call);
        let numbers = &mut self.places[place.number()][size_number(size)];
        numbers[call.entry.number()][usize::from(number(answer))] += 1;
        if call.entry == Entry::PageCapacity {
            self.count_measured(call, place, answer);
        }
        if place == Place::Canaries {
            self.count_value(call, size, answer);
        }
    }

    fn count_measured(&mut self, call: &Call, place: Place, answer: Answer) {
        let of_size = &mut self.measured[place.number()][size_number(size_of(call))];
        for (state, numbers) in of_size.iter_mut().enumerate() {
            numbers[usize::from(number(answer))] += u64::from(call.page.first() == Some(&MEASURED[state].0));
        }
    }

    /// Counts the result, or the refusal's index.
    fn count_value(&mut self, call: &Call, size: Size, answer: Answer) {
        if let Some(shape) = size {
            self.shapes[shape.number()].count(call, answer);
        } else if call.entry == Entry::FillWord && answer.is_ok() {
            self.word_pulses[pulses_in(value(answer))] += 1;
        } else if call.entry == Entry::ReadFile {
            self.readings.count(call, answer);
        } else if Entry::OF_BLOCKS.contains(&call.entry) {
            self.count_block(call, answer);
        }
    }

    fn count_block(&mut self, call: &Call, answer: Answer) {
        self.blocks.count(call, answer);
        if call.argument > u64::from(u16::MAX) {
            *self.wide.entry((call.entry, number(answer))).or_default() += 1;
        }
    }

    /// How often the entry, with its buffers in this place and a page of this size, gave this number.
    fn met(&self, entry: Entry, place: Place, size: Size, number: u8) -> u64 {
        self.places[place.number()][size_number(size)][entry.number()][usize::from(number)]
    }

    /// Treats the acceptances of the first entry as never met.
    pub fn forget_one(&mut self) {
        self.places[0][0][0][0] = 0;
    }

    /// Every counter that must not be 0, with its name.
    pub fn wanted(&self) -> Vec<Named> {
        let answers = Entry::ALL.into_iter().flat_map(|entry| self.wanted_of(entry));
        let measured = (0..MEASURED.len()).flat_map(|state| self.wanted_measured(state));
        let buffers = Entry::ALL.into_iter().filter(|entry| entry.takes_buffers());
        let places = buffers.flat_map(|entry| self.wanted_places(entry));
        let shapes = self.shapes.iter().flat_map(OfShape::wanted);
        let others = shapes.chain(self.wanted_pulses()).chain(self.readings.wanted());
        let others = others.chain(self.blocks.wanted()).chain(self.wanted_wide());
        answers.chain(measured).chain(places).chain(others).collect()
    }

    fn wanted_of(&self, entry: Entry) -> Vec<Named> {
        let name = |size: Size, number: u8| format!("{} {}{}", entry.name(), answer_name(number), size_name(size));
        let count = |size: Size, number: u8| self.met(entry, Place::Canaries, size, number);
        answers(entry).into_iter().map(|(size, number)| (name(size, number), count(size, number))).collect()
    }

    /// In both states, page capacity accepts the page and refuses it 1, 6 and 7, in each place but far ones.
    fn wanted_measured(&self, state: usize) -> Vec<Named> {
        let answers = answers(Entry::PageCapacity).into_iter().filter(|(_, number)| *number != 5);
        let wanted = answers.flat_map(|(size, number)| {
            let places = [Place::Canaries].into_iter().chain(guarded_places(number));
            places.map(move |place| (place, size, number))
        });
        wanted.map(|(place, size, number)| self.wanted_in_state(state, place, size, number)).collect()
    }

    fn wanted_in_state(&self, state: usize, place: Place, size: Size, number: u8) -> Named {
        let (answer, size_name, place_name) = (answer_name(number), size_name(size), place.name());
        let name = format!("page capacity {answer} {}{size_name}, {place_name}", MEASURED[state].1);
        (name, self.measured[place.number()][size_number(size)][state][usize::from(number)])
    }

    /// Every number of pulses of a word.
    fn wanted_pulses(&self) -> Vec<Named> {
        let pulses = self.word_pulses.iter().enumerate();
        pulses.map(|(pulses, &met)| (format!("fill word {pulses} pulses"), met)).collect()
    }

    /// Every answer of the entries of blocks to marks wider than 16 bits.
    fn wanted_wide(&self) -> Vec<Named> {
        let answers =
            Entry::OF_BLOCKS.into_iter().flat_map(|entry| answers(entry).into_iter().map(move |of| (entry, of)));
        let met = |entry: Entry, number: u8| self.wide.get(&(entry, number)).copied().unwrap_or(0);
        let name = |entry: Entry, number: u8| format!("{} {} to wide marks", entry.name(), answer_name(number));
        answers.map(|(entry, (_, number))| (name(entry, number), met(entry, number))).collect()
    }

    /// On both sides of untouchable memory the entry is accepted, and each refusal is given with read-only buffers; and
    /// a far length is told.
    fn wanted_places(&self, entry: Entry) -> Vec<Named> {
        let guarded = answers(entry).into_iter().flat_map(|(size, number)| {
            let places = guarded_places(number);
            places.into_iter().map(move |place| (place, size, number))
        });
        let far = far_answers(entry).into_iter().map(|(size, number)| (Place::Far, size, number));
        guarded.chain(far).map(|(place, size, number)| self.wanted_place(entry, place, size, number)).collect()
    }

    fn wanted_place(&self, entry: Entry, place: Place, size: Size, number: u8) -> Named {
        let name = format!("{} {}{}, {}", entry.name(), answer_name(number), size_name(size), place.name());
        (name, self.met(entry, place, size, number))
    }

    /// For each entry one line a size on which it answers something: its name, the size, acceptances, and each refusal's
    /// number and count.
    pub fn table(&self) -> String {
        let lines = Entry::ALL.into_iter().flat_map(|entry| SIZES.map(|size| self.line_of(entry, size)));
        lines.flatten().collect()
    }

    fn line_of(&self, entry: Entry, size: Size) -> Option<String> {
        let answers: Vec<u8> =
            answers(entry).into_iter().filter(|(of, _)| *of == size).map(|(_, number)| number).collect();
        let size_name = size.map_or(String::new(), |shape| format!("{} bytes", shape.bytes));
        let counts = answers.iter().map(|&number| self.count_in_words(entry, size, number));
        let line = format!("{:13} {size_name:9}", entry.name()) + &counts.collect::<String>();
        (!answers.is_empty()).then(|| line + &self.told_of(entry, size) + "\n")
    }

    fn count_in_words(&self, entry: Entry, size: Size, number: u8) -> String {
        let met = self.met(entry, Place::Canaries, size, number);
        if number == 0 {
            format!("  accepted: {met:6}")
        } else {
            format!("  {number}: {met:5}")
        }
    }

    /// What is told of the entry's results and indices.
    fn told_of(&self, entry: Entry, size: Size) -> String {
        match (entry, size) {
            (Entry::FillWord, _) => {
                let met = self.word_pulses.iter().filter(|&&met| met > 0).count();
                let [least, .., most] = self.word_pulses;
                format!("  {met} numbers of pulses  0 pulses: {least}  23 pulses: {most}")
            }
            (Entry::PageCapacity, Some(shape)) => {
                let filled = self.measured[Place::Canaries.number()][size_number(size)][1][0];
                format!("  filled accepted: {filled}") + &self.shapes[shape.number()].told_of(entry)
            }
            (Entry::ReadFile, _) => self.readings.told(),
            (Entry::PlaceRecord | Entry::CollectBlock, _) => self.blocks.told(entry),
            (_, Some(shape)) => self.shapes[shape.number()].told_of(entry),
            _ => String::new(),
        }
    }

    /// The number of calls with a page of one of these sizes, right before untouchable memory, right after it, and of both
    /// those on read-only buffers.
    fn calls_beside(&self, sizes: &[Size]) -> [u64; 3] {
        let calls = |place: Place| sizes.iter().map(|&size| self.calls(place, size)).sum::<u64>();
        let [before, after] = Side::BOTH.map(|side| calls(Place::Guarded(side)) + calls(Place::ReadOnly(side)));
        [before, after, Side::BOTH.map(|side| calls(Place::ReadOnly(side))).iter().sum()]
    }

    /// The number of calls with their buffers in this place and a page of this size.
    fn calls(&self, place: Place, size: Size) -> u64 {
        self.places[place.number()][size_number(size)].as_flattened().iter().sum()
    }

    /// The number of calls in each kind of place, in words.
    pub fn places(&self) -> String {
        let [before, after, read_only] = self.calls_beside(&SIZES);
        let far: u64 = SIZES.map(|size| self.calls(Place::Far, size)).iter().sum();
        format!(
            "{before} calls right before untouchable memory, {after} right after it, {read_only} of these refused on \
             read-only buffers, {far} calls with far lengths"
        )
    }

    /// The number of calls with a page of 512 bytes in each kind of place, in words.
    pub fn large_places(&self) -> String {
        let [before, after, read_only] = self.calls_beside(&[Some(LARGE)]);
        format!(
            "with a page of 512 bytes {before} calls right before untouchable memory, {after} right after it, {read_only} \
             of these refused on read-only buffers"
        )
    }
}

impl Default for Coverage {
    fn default() -> Coverage {
        Coverage::new()
    }
}

/// The places beside untouchable memory in which this answer must have been given: both sides, in read-only memory when it
/// is a refusal.
fn guarded_places(number: u8) -> [Place; 2] {
    let place: fn(Side) -> Place = if number == 0 { Place::Guarded } else { Place::ReadOnly };
    Side::BOTH.map(place)
}

/// The number of an answer, or that it is an acceptance.
fn answer_name(number: u8) -> String {
    if number == 0 {
        "accepted".to_string()
    } else {
        number.to_string()
    }
}

/// The answers that a far length of the entry's page, pages, file or block, and of its other buffer with a page of each size,
/// must have led to. A file of a far length is refused for what it begins with.
fn far_answers(entry: Entry) -> Vec<(Size, u8)> {
    let other = match entry {
        Entry::WriteFirst => Some(2),
        Entry::WriteSecond | Entry::WriteInspect => Some(8),
        Entry::PlaceRecord => Some(18),
        Entry::CollectBlock => Some(17),
        _ if entry.writes_output() => Some(0),
        _ => None,
    };
    let far_page: &[u8] = match entry {
        Entry::WriteFile => &[13],
        Entry::ReadFile => &[14, 15, 16],
        Entry::PlaceRecord | Entry::CollectBlock => &[17],
        _ => &[1],
    };
    let wanted = |(size, number): &(Size, u8)| Some(*number) == other || (size.is_none() && far_page.contains(number));
    answers(entry).into_iter().filter(wanted).collect()
}

#[cfg(test)]
mod tests {
    use super::*;
    use crate::answer::Refusal;
    use crate::cases::pages::{filled_page, page_of, with_byte};
    use crate::cases::words::value_with_pulses;
    use crate::word::{legal_word, number_of};
    use length::is_of_lengths;
    use std::collections::HashSet;

    /// How many counters, but for those of lengths, are still 0.
    fn missing(coverage: &Coverage) -> usize {
        coverage.wanted().into_iter().filter(|(name, met)| *met == 0 && !is_of_lengths(name)).count()
    }

    /// Every refusal of every entry on each size that it can be met on.
    #[test]
    fn the_answers_of_the_entries() {
        let (none, small, large) = (None, Some(SMALL), Some(LARGE));
        assert_eq!(answers(Entry::EncodeWord), [(none, 0)]);
        assert_eq!(answers(Entry::FillWord), [(none, 0), (none, 10), (none, 11), (none, 12)]);
        assert_eq!(answers(Entry::WriteFile), [(none, 0), (none, 13), (none, 3)]);
        assert_eq!(answers(Entry::ReadFile), [(none, 0), (none, 14), (none, 15), (none, 16), (none, 3)]);
        assert_eq!(answers(Entry::PlaceRecord), [(none, 0), (none, 17), (none, 18)]);
        assert_eq!(answers(Entry::CollectBlock), [(none, 0), (none, 17), (none, 19)]);
        let of_first = [(none, 1), (small, 0), (small, 2), (small, 4), (large, 0), (large, 2), (large, 4)];
        assert_eq!(answers(Entry::WriteFirst), of_first);
        let of_inspect = [0, 5, 6, 7, 8];
        let of_inspect = [small, large].into_iter().flat_map(|size| of_inspect.map(|number| (size, number)));
        assert_eq!(answers(Entry::WriteInspect), [(none, 1)].into_iter().chain(of_inspect).collect::<Vec<_>>());
        for entry in Entry::OF_PAGES {
            // Acceptance in place of 1 on each size.
            assert_eq!(answers(entry).len(), 1 + 2 * entry.refusals().len(), "{}", entry.name());
        }
    }

    /// The answers with a far length: 1 for a page, and what the other buffer leads to on each size.
    #[test]
    fn the_answers_with_far_lengths() {
        let (none, small, large) = (None, Some(SMALL), Some(LARGE));
        assert_eq!(far_answers(Entry::WriteFirst), [(none, 1), (small, 2), (large, 2)]);
        assert_eq!(far_answers(Entry::ReadFirst), [(none, 1), (small, 0), (large, 0)]);
        assert_eq!(far_answers(Entry::PageCapacity), [(none, 1)]);
        assert_eq!(far_answers(Entry::FillPage), [(none, 1)]);
        assert_eq!(far_answers(Entry::WriteSecond), [(none, 1), (small, 8), (large, 8)]);
        assert_eq!(far_answers(Entry::ReadSecond), [(none, 1), (small, 0), (large, 0)]);
        assert_eq!(far_answers(Entry::WriteInspect), [(none, 1), (small, 8), (large, 8)]);
        assert_eq!(far_answers(Entry::ReadInspect), [(none, 1), (small, 0), (large, 0)]);
        assert_eq!(far_answers(Entry::WriteFile), [(none, 0), (none, 13)]);
        assert_eq!(far_answers(Entry::ReadFile), [(none, 0), (none, 14), (none, 15), (none, 16)]);
        assert_eq!(far_answers(Entry::PlaceRecord), [(none, 17), (none, 18)]);
        assert_eq!(far_answers(Entry::CollectBlock), [(none, 17)]);
    }

    /// Each entry with buffers gives each of its answers on both sides of untouchable memory, and the far ones.
    #[test]
    fn every_place_is_wanted() {
        let places = |entry: Entry| 2 * answers(entry).len() + far_answers(entry).len();
        let wanted: usize = Entry::ALL.into_iter().filter(|entry| entry.takes_buffers()).map(places).sum();
        let of_place = |name: &str| name.contains("memory") || name.contains("far");
        let names = Coverage::new().wanted().into_iter().filter(|(name, _)| of_place(name) && !name.contains("state"));
        assert_eq!(names.count(), wanted);
    }

    #[test]
    fn every_counter_has_a_name_of_its_own() {
        let wanted = Coverage::new().wanted();
        assert_eq!(wanted.iter().map(|(name, _)| name).collect::<HashSet<_>>().len(), wanted.len());
    }

    /// A call counts for its place and for the size of its page, and for nothing else: what is missing stays missing.
    #[test]
    fn a_call_counts_for_its_place_and_size_alone() {
        let mut coverage = Coverage::new();
        let all = missing(&coverage);
        let mut met = 0;
        for shape in Shape::BOTH {
            let call = Call::of_page(Entry::WriteSecond, filled_page(&page_of(shape, 0)), Vec::new());
            for place in [Place::Guarded(Side::Before), Place::Guarded(Side::After), Place::Canaries] {
                coverage.count(&call, place, Ok(0));
                met += 1;
                assert_eq!(missing(&coverage), all - met);
            }
            for place in Side::BOTH.map(Place::ReadOnly) {
                coverage.count(&call, place, Err(Refusal::STATE));
                met += 1;
                assert_eq!(missing(&coverage), all - met);
            }
        }
        let call = Call::of_page(Entry::WriteSecond, vec![0; 513], Vec::new());
        for place in [Place::ReadOnly(Side::Before), Place::ReadOnly(Side::After), Place::Canaries, Place::Far] {
            coverage.count(&call, place, Err(Refusal::PAGE_LENGTH));
            met += 1;
            assert_eq!(missing(&coverage), all - met);
        }
        assert_eq!(
            coverage.places(),
            "5 calls right before untouchable memory, 5 right after it, 6 of these refused on read-only buffers, \
             1 calls with far lengths"
        );
        assert_eq!(
            coverage.large_places(),
            "with a page of 512 bytes 2 calls right before untouchable memory, 2 right after it, 2 of these refused on \
             read-only buffers"
        );
    }

    /// The counters that a call over this page turns from 0, by name.
    fn met_by(entry: Entry, page: Vec<u8>) -> Vec<String> {
        met_by_call(&Call::of_page(entry, page, vec![0; 127]))
    }

    /// The counters that a call between canary bytes turns from 0, by name, but for those of lengths.
    fn met_by_call(call: &Call) -> Vec<String> {
        let mut coverage = Coverage::new();
        coverage.count(call, Place::Canaries, call.clone().perform());
        let met = coverage.wanted().into_iter().filter(|(name, met)| *met > 0 && !is_of_lengths(name));
        met.map(|(name, _)| name).collect()
    }

    #[test]
    fn page_capacity_counts_for_the_state_and_the_size_of_the_page() {
        for (shape, size) in [(SMALL, "on 256 bytes"), (LARGE, "on 512 bytes")] {
            let first = page_of(shape, 0);
            for (page, state) in [(first.clone(), "in state 01"), (filled_page(&first), "in state 03")] {
                let names = |answer: &str| {
                    let in_state = format!("page capacity {answer} {state}, {size}, between canary bytes");
                    [format!("page capacity {answer}, {size}"), in_state]
                };
                assert_eq!(met_by(Entry::PageCapacity, page.clone()), names("accepted"));
                assert_eq!(met_by(Entry::PageCapacity, with_byte(page.clone(), 1, 1)), names("6"));
                let cut = ["page capacity 1".to_string(), format!("page capacity 1 {state}, between canary bytes")];
                assert_eq!(met_by(Entry::PageCapacity, page[..shape.bytes - 1].to_vec()), cut);
            }
        }
    }

    #[test]
    fn the_size_of_the_page_counts() {
        for (shape, size) in [(SMALL, ", on 256 bytes"), (LARGE, ", on 512 bytes")] {
            let call = Call::of_page(Entry::WriteFirst, vec![0; shape.bytes], vec![0; shape.first_bytes]);
            assert_eq!(met_by_call(&call), [format!("write first accepted{size}")]);
            assert_eq!(met_by(Entry::WriteFirst, vec![0; shape.bytes]), [format!("write first 2{size}")]);
            assert_eq!(met_by(Entry::ReadSecond, vec![0; shape.bytes]), [format!("read second 5{size}")]);
        }
        assert_eq!(met_by(Entry::WriteInspect, vec![0; 256]), ["write inspect 5, on 256 bytes"]);
        assert_eq!(met_by(Entry::WriteInspect, vec![0; 512]), ["write inspect 5, on 512 bytes"]);
        assert_eq!(met_by(Entry::WriteInspect, vec![0; 511]), ["write inspect 1"]);
        let file = Call::of_file(1, vec![0; 512], vec![0; 530]);
        assert_eq!(met_by_call(&file), ["write file accepted"]);
    }

    #[test]
    fn the_pulses_of_a_word_count() {
        for pulses in 0..=23 {
            let word = number_of(&legal_word(value_with_pulses(pulses)));
            let met = met_by_call(&Call::of_word(Entry::FillWord, word));
            assert_eq!(met, ["fill word accepted".to_string(), format!("fill word {pulses} pulses")]);
        }
    }

    /// Marks wider than 16 bits count beside what the call counts for.
    #[test]
    fn wide_marks_count() {
        let call = Call::of_collecting(vec![1; 4_096], 0, vec![0; 4_095]);
        assert_eq!(met_by_call(&call), ["collect block 17", "collect block 17 for a target of 4095 bytes"]);
        let wide = Call { argument: 1 << 16, ..call };
        let names =
            ["collect block 17", "collect block 17 for a target of 4095 bytes", "collect block 17 to wide marks"];
        assert_eq!(met_by_call(&wide), names);
    }

    /// One line for each entry without a page, and three for one with a page: a page of neither size, and each size.
    #[test]
    fn the_lines_of_the_table() {
        let table = Coverage::new().table();
        assert_eq!(table.lines().count(), 8 + 3 * 8);
        for (name, bytes) in [("read second", "256 bytes"), ("read second", "512 bytes"), ("read inspect", "512 bytes")]
        {
            assert!(table.lines().any(|line| line.starts_with(name) && line.contains(bytes)), "{name} {bytes}");
        }
    }

    #[test]
    fn one_that_is_forgotten_is_missing() {
        let mut coverage = Coverage::new();
        coverage.count(&Call::of_word(Entry::EncodeWord, 0), Place::Canaries, Ok(0));
        let before = missing(&coverage);
        coverage.forget_one();
        assert_eq!(missing(&coverage), before + 1);
    }
}
