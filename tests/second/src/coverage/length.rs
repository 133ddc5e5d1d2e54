//! Counters of the lengths that calls with pages of one size lead to: in bytes 1 and 2, of records, and of outputs.

use super::shape::Named;
use crate::answer::{number, Answer};
use crate::call::{Call, Entry};
use crate::cases::lengths::{END_LENGTHS, FAR_NAMED_LENGTHS};
use crate::page::{length_of, longest_named, BLANK};
use crate::shape::Shape;
use std::collections::{BTreeSet, HashMap};

/// The most that one byte names.
const ONE_BYTE_MOST: usize = 255;

/// How long an output is, compared with what goes in.
#[derive(Clone, Copy, PartialEq, Eq, Hash)]
pub enum Output {
    Empty,
    OneShort,
    Exact,
    Longer,
}

impl Output {
    pub const ALL: [Output; 4] = [Output::Empty, Output::OneShort, Output::Exact, Output::Longer];

    pub fn name(self) -> &'static str {
        match self {
            Output::Empty => "empty",
            Output::OneShort => "one short",
            Output::Exact => "exact",
            Output::Longer => "longer",
        }
    }

    /// Where one byte goes in, an output of none is one short.
    pub fn of(length: usize, needed: usize) -> Option<Output> {
        match length {
            0 if needed > 1 => Some(Output::Empty),
            _ if length + 1 == needed => Some(Output::OneShort),
            _ if length == needed => Some(Output::Exact),
            _ if length > needed => Some(Output::Longer),
            _ => None,
        }
    }
}

/// What a call counts for.
#[derive(Clone, Copy, PartialEq, Eq, Hash)]
enum Met {
    /// A page of this state and of this length in bytes 1 and 2, with no other byte that 6 asks for not 0: the length is all
    /// that it may be refused for by this number.
    Header { state: u8, length: usize, number: u8 },
    /// A record of this length is written, or read; or it is refused 8, or 9.
    Record { length: usize, number: u8 },
    /// The output's length is looked at: of a record whose length one byte names, or of a longer one.
    Output { output: Output, long: bool },
}

impl Met {
    fn name(self) -> String {
        match self {
            Met::Header { state, length, number: 0 } => format!("no 6 for a length of {length} in state {state:02X}"),
            Met::Header { state, length, number } => format!("{number} for a length of {length} in state {state:02X}"),
            Met::Record { length, number: 0 } => format!("accepted a record of {length}"),
            Met::Record { length, number } => format!("{number} for a record of {length}"),
            Met::Output { output, long: false } => format!("an output {}", output.name()),
            Met::Output { output, long: true } => format!("an output {} for more than 255 bytes", output.name()),
        }
    }
}

/// The number that refuses a page of this state for a length above the limit.
fn refused_by(state: u8) -> u8 {
    if state == BLANK {
        4
    } else {
        6
    }
}

/// Of a second record of the entry's code: what always goes in, and the most.
fn record_ends(entry: Entry, shape: Shape) -> Option<[usize; 2]> {
    match entry {
        Entry::WriteSecond | Entry::ReadSecond => Some([shape.second_bytes_sure(), shape.second_bytes_most]),
        Entry::WriteInspect | Entry::ReadInspect => Some([shape.inspect_bytes_sure(), shape.inspect_bytes_most]),
        _ => None,
    }
}

/// The bytes that the entry puts out from this page.
fn output_needed(entry: Entry, page: &[u8], shape: Shape) -> usize {
    if entry == Entry::ReadFirst {
        shape.first_bytes
    } else {
        length_of(page)
    }
}

pub struct Lengths {
    shape: Shape,
    met: HashMap<(Entry, Met), u64>,
}

impl Lengths {
    pub fn new(shape: Shape) -> Lengths {
        Lengths { shape, met: HashMap::new() }
    }

    /// Counts a call with a page of the shape.
    pub fn count(&mut self, call: &Call, answer: Answer) {
        let number = number(answer);
        let met = [self.header(call, number), self.record(call, number), self.output(call, number)];
        met.into_iter().flatten().for_each(|met| *self.met.entry((call.entry, met)).or_default() += 1);
    }

    fn header(&self, call: &Call, number: u8) -> Option<Met> {
        let (state, length) = (call.page[0], length_of(&call.page));
        let sound_tail = call.page[self.shape.tail()].iter().all(|&byte| byte == 0);
        let looked_at = call.entry.states().contains(&state) && sound_tail && number != 2;
        let number = if number == refused_by(state) { number } else { 0 };
        looked_at.then_some(Met::Header { state, length, number })
    }

    fn record(&self, call: &Call, number: u8) -> Option<Met> {
        record_ends(call.entry, self.shape)?;
        let length = if call.entry.writes_page() { call.other.len() } else { length_of(&call.page) };
        matches!(number, 0 | 8 | 9).then_some(Met::Record { length, number })
    }

    fn output(&self, call: &Call, number: u8) -> Option<Met> {
        if !call.entry.writes_output() || !matches!(number, 0 | 3) {
            return None;
        }
        let needed = output_needed(call.entry, &call.page, self.shape);
        let output = Output::of(call.other.len(), needed)?;
        Some(Met::Output { output, long: needed > ONE_BYTE_MOST })
    }

    /// Every length at an end or beyond, but 0, in each state that an entry asks for: refused where it is above the limit.
    fn wanted_headers(&self) -> Vec<(Entry, Met)> {
        let lengths = || END_LENGTHS.into_iter().chain(FAR_NAMED_LENGTHS).filter(|&length| length > 0);
        let met = |state: u8, length: usize| {
            let number = if length > longest_named(self.shape, state) { refused_by(state) } else { 0 };
            Met::Header { state, length, number }
        };
        let pairs = Entry::with_states();
        pairs.flat_map(|(entry, state)| lengths().map(move |length| (entry, met(state, length)))).collect()
    }

    /// Every record length at an end: accepted up to the most, and refused 8 or 9 from where it need not go in; 9 is for
    /// lengths up to the most alone.
    fn wanted_records(&self) -> Vec<(Entry, Met)> {
        Entry::OF_PAGES.into_iter().flat_map(|entry| self.wanted_records_of(entry)).collect()
    }

    fn wanted_records_of(&self, entry: Entry) -> Vec<(Entry, Met)> {
        let Some([sure, most]) = record_ends(entry, self.shape) else { return Vec::new() };
        let (refused, last) = if entry.writes_page() { (8, usize::MAX) } else { (9, most) };
        let lengths: BTreeSet<usize> = END_LENGTHS.into_iter().chain([sure, sure + 1]).collect();
        let accepted = lengths.range(..=most).map(|&length| Met::Record { length, number: 0 });
        let refused = lengths.range(sure + 1..=last).map(|&length| Met::Record { length, number: refused });
        accepted.chain(refused).map(|met| (entry, met)).collect()
    }

    /// Every kind of output, for records of lengths that one byte names and of longer ones, where there are such.
    fn wanted_outputs(&self) -> Vec<(Entry, Met)> {
        let long = |entry: Entry| match record_ends(entry, self.shape) {
            Some([_, most]) if most > ONE_BYTE_MOST => vec![false, true],
            Some(_) => vec![false],
            None => vec![self.shape.first_bytes > ONE_BYTE_MOST],
        };
        let readers = Entry::OF_PAGES.into_iter().filter(|entry| entry.writes_output());
        let kinds = readers.flat_map(|entry| long(entry).into_iter().map(move |long| (entry, long)));
        let outputs = |(entry, long)| Output::ALL.map(|output| (entry, Met::Output { output, long }));
        kinds.flat_map(outputs).collect()
    }

    fn all_wanted(&self) -> Vec<(Entry, Met)> {
        [self.wanted_headers(), self.wanted_records(), self.wanted_outputs()].concat()
    }

    /// Every counter that must not be 0, with its name.
    pub fn wanted(&self) -> Vec<Named> {
        let count = |key: &(Entry, Met)| self.met.get(key).copied().unwrap_or(0);
        let name = |(entry, met): &(Entry, Met)| format!("{} {}", entry.name(), met.name());
        self.all_wanted().iter().map(|key| (name(key), count(key))).collect()
    }

    /// How many of the wanted lengths the entry has met.
    pub fn told_of(&self, entry: Entry) -> String {
        let wanted = self.all_wanted().into_iter().filter(|(of, _)| *of == entry);
        let met = wanted.filter(|key| self.met.contains_key(key)).count();
        format!("  lengths: {met}")
    }
}

/// Whether a counter's name, without the size, is one of these.
#[cfg(test)]
pub fn is_of_lengths(name: &str) -> bool {
    [" a length of ", " a record of ", " an output "].iter().any(|part| name.contains(part))
}

#[cfg(test)]
mod tests {
    use super::*;
    use crate::cases::inspect::{inspect_page, naming};
    use crate::cases::pages::{filled_page, page_of, second_page, with_byte, with_length};
    use crate::cases::words::{ODD_VALUE, SPARSE_VALUE};
    use crate::page::SECOND_ROUND;
    use crate::shape::{LARGE, SMALL};
    use std::collections::HashSet;

    /// The counters that a call turns from 0, by name.
    fn met_by(entry: Entry, page: Vec<u8>, length: usize) -> Vec<String> {
        let call = Call::of_page(entry, page, vec![0; length]);
        let mut counters = Lengths::new(Shape::of(&call.page).expect("a page"));
        counters.count(&call, call.clone().perform());
        counters.wanted().into_iter().filter(|(_, met)| *met > 0).map(|(name, _)| name).collect()
    }

    #[test]
    fn every_counter_has_a_name_of_its_own() {
        for shape in Shape::BOTH {
            let wanted = Lengths::new(shape).wanted();
            assert!(wanted.iter().all(|(name, _)| is_of_lengths(name)));
            assert_eq!(wanted.iter().map(|(name, _)| name).collect::<HashSet<_>>().len(), wanted.len());
        }
    }

    /// The limit of each code and size divides the lengths in bytes 1 and 2.
    #[test]
    fn lengths_in_bytes_1_and_2() {
        for (shape, entry, state, most) in [
            (SMALL, Entry::ReadSecond, 0x07, 126),
            (LARGE, Entry::ReadSecond, 0x07, 253),
            (SMALL, Entry::ReadInspect, 0x09, 247),
            (LARGE, Entry::ReadInspect, 0x09, 495),
            (SMALL, Entry::PageCapacity, 0x03, 0),
            (LARGE, Entry::WriteInspect, 0x01, 0),
        ] {
            let names: HashSet<String> = Lengths::new(shape).wanted().into_iter().map(|(name, _)| name).collect();
            for length in END_LENGTHS.into_iter().chain(FAR_NAMED_LENGTHS).filter(|&length| length > 0) {
                let refused = format!("{} 6 for a length of {length} in state {state:02X}", entry.name());
                let sound = format!("{} no 6 for a length of {length} in state {state:02X}", entry.name());
                assert_eq!((names.contains(&refused), names.contains(&sound)), (length > most, length <= most));
                let first = page_of(shape, SPARSE_VALUE);
                let page = with_length(with_byte(first, 0, state), length);
                let wanted = if length > most { refused } else { sound };
                assert!(met_by(entry, page.clone(), 0).contains(&wanted), "{length}");
                if shape == LARGE {
                    assert!(!met_by(entry, with_byte(page, 510, 1), 0).contains(&wanted), "{length}");
                }
            }
        }
    }

    #[test]
    fn records_of_both_codes() {
        for (shape, sure, most) in [(SMALL, 126, 247), (LARGE, 253, 495)] {
            let [zeros, odd] = [0, ODD_VALUE].map(|value| page_of(shape, value));
            let written = |first: &[u8], length: usize| met_by(Entry::WriteInspect, first.to_vec(), length);
            assert_eq!(written(&zeros, most), [format!("write inspect accepted a record of {most}")]);
            assert_eq!(written(&zeros, most + 1), [format!("write inspect 8 for a record of {}", most + 1)]);
            assert_eq!(written(&odd, sure + 1), [format!("write inspect 8 for a record of {}", sure + 1)]);
            let read = met_by(Entry::ReadInspect, naming(&odd, sure + 1), 600);
            let header = format!("read inspect no 6 for a length of {} in state 09", sure + 1);
            assert_eq!(read, [header, format!("read inspect 9 for a record of {}", sure + 1)]);
            // 9 is for no length above the most, and 8 or 9 for none that always goes in.
            let names: Vec<String> = Lengths::new(shape).wanted().into_iter().map(|(name, _)| name).collect();
            assert!(!names.contains(&format!("read inspect 9 for a record of {}", most + 1)));
            assert!(!names.contains(&format!("write inspect 8 for a record of {sure}")));
        }
        let filled = filled_page(&page_of(LARGE, SPARSE_VALUE));
        assert_eq!(met_by(Entry::WriteSecond, filled.clone(), 165), ["write second accepted a record of 165"]);
        assert_eq!(met_by(Entry::WriteSecond, filled, 256), ["write second 8 for a record of 256"]);
    }

    #[test]
    fn outputs_of_each_length() {
        let page = inspect_page(&page_of(LARGE, 0), &[0; 300]);
        for (length, name) in [(0, "empty"), (299, "one short"), (300, "exact"), (301, "longer")] {
            let met = met_by(Entry::ReadInspect, page.clone(), length);
            assert_eq!(met, [format!("read inspect an output {name} for more than 255 bytes")]);
        }
        assert_eq!(met_by(Entry::ReadInspect, page, 44), [""; 0]);
        let second = second_page(&page_of(SMALL, 0), &[0; 2]);
        assert_eq!(second[0], SECOND_ROUND);
        assert_eq!(met_by(Entry::ReadSecond, second.clone(), 0), ["read second an output empty"]);
        assert_eq!(met_by(Entry::ReadSecond, second, 1), ["read second an output one short"]);
    }

    /// Four kinds of outputs for each of three readers, and on 512 bytes four more for longer records.
    #[test]
    fn every_output_is_wanted() {
        for (shape, long) in [(SMALL, 0), (LARGE, 2 * 4)] {
            let names: Vec<String> = Lengths::new(shape).wanted().into_iter().map(|(name, _)| name).collect();
            let of_outputs = names.iter().filter(|name| name.contains(" an output "));
            let longer = of_outputs.clone().filter(|name| name.ends_with("for more than 255 bytes"));
            assert_eq!((of_outputs.count(), longer.count()), (12 + long / 2, long));
        }
    }
}
