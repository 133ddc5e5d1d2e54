//! The fixed calls of read file. There is room for three pages.

use super::Script;
use crate::call::Call;
use crate::cases::files::{any_device, CONTENTS, DEVICES};
use crate::cases::reading::{about, any_field_of, file_of};
use crate::file::{field, head, parts_of, DEVICE_TAG, END_TAG, PAGE_TAG, START};
use crate::random::Random;
use crate::reading::{Kind, Stage};
use crate::shape::SMALL;

const SEED: u64 = 789;

/// Tags of no field, beside those of some, and those of some with another highest bit.
const UNKNOWN_TAGS: [u8; 8] = [0x00, 0x03, 0x3F, 0x70, 0x81, 0x82, 0xC0, 0xFF];

/// The calls. Their bytes are drawn apart from those of the other calls.
pub fn calls() -> Vec<Call> {
    let mut script = Script { random: Random::new(SEED), calls: Vec::new() };
    script.read_files();
    script.read_outputs();
    script.read_starts();
    [Stage::Start, Stage::Pages(0)].into_iter().for_each(|stage| script.read_fields(stage, true));
    script.read_fields(Stage::Pages(1), false);
    script.read_tags();
    script.read_lengths();
    script.read_passed_over();
    script.read_tails();
    script.read_two_faults();
    script.calls
}

impl Script {
    /// A call with an output of this length, which holds any bytes.
    fn read(&mut self, file: &[u8], length: usize) {
        let output = self.random.bytes(length);
        self.add(Call::of_reading(file.to_vec(), output));
    }

    /// A call with a file that is refused or has no page, and a few bytes of output.
    fn read_parts(&mut self, parts: &[&[u8]]) {
        self.read(&parts.concat(), self.calls.len() % 9);
    }

    /// A file of any device and of this many pages; the contents go by turns.
    fn any_file_of(&mut self, count: usize) -> Vec<u8> {
        let contents = CONTENTS[self.calls.len() % CONTENTS.len()];
        file_of(any_device(&mut self.random), &contents(&mut self.random, SMALL.bytes * count))
    }

    /// The listed devices with no page, and files of 1 to 3 pages.
    fn read_files(&mut self) {
        DEVICES.into_iter().for_each(|device| self.read(&file_of(device, &[]), 0));
        for count in 1..=3 {
            let file = self.any_file_of(count);
            self.read(&file, SMALL.bytes * count);
        }
    }

    /// Outputs that are longer, one short, and empty.
    fn read_outputs(&mut self) {
        for (count, length) in [(0, 1), (1, 257), (1, 255), (1, 0), (2, 600), (2, 511), (3, 767)] {
            let file = self.any_file_of(count);
            self.read(&file, length);
        }
    }

    /// No start, one byte of it, and others: alone, and before the fields of a sound file.
    fn read_starts(&mut self) {
        let file = self.any_file_of(0);
        self.read_parts(&[]);
        self.read_parts(&[&START[..1]]);
        self.read_parts(&[&START[1..]]);
        for start in [[0xF1, 0xB1], [0xF0, 0xB0], [0xB0, 0xF1], [0x00, 0x00]] {
            self.read_parts(&[&start, &file[2..]]);
        }
    }

    /// Beginnings of a field with this tag that have a fault at this stage: its tag alone, half a length, no contents, and all
    /// but one byte. Where it has no place, the last is whole.
    fn faulty(&mut self, stage: Stage, tag: u8) -> Vec<Vec<u8>> {
        let kind = Kind::of(tag);
        let length = kind.and_then(Kind::length).unwrap_or(5);
        let whole = field(tag, &self.random.bytes(length));
        let missing = usize::from(kind.is_some_and(|kind| stage.after(kind).is_some()));
        let head = head(tag, length.max(1) as u16);
        vec![vec![tag], vec![tag, self.random.byte()], head.to_vec(), whole[..whole.len() - missing].to_vec()]
    }

    /// At this stage no field, and beginnings of a field of each kind and of an unknown tag: each of them, or by turns one.
    fn read_fields(&mut self, stage: Stage, every: bool) {
        let [before, _] = about(&mut self.random, stage);
        self.read_parts(&[&before]);
        for tag in [DEVICE_TAG, PAGE_TAG, END_TAG, if every { 0x40 } else { 0x6F }, 0x80] {
            let turn = self.calls.len() % 4;
            let faulty = self.faulty(stage, tag);
            let faulty = if every { &faulty[..] } else { &faulty[turn..=turn] };
            faulty.iter().for_each(|part| self.read_parts(&[&before, part]));
        }
    }

    /// Other unknown tags, whole, before the end field.
    fn read_tags(&mut self) {
        for tag in UNKNOWN_TAGS {
            let [before, _] = about(&mut self.random, Stage::Pages(0));
            let whole = any_field_of(&mut self.random, tag);
            self.read_parts(&[&before, &whole, &field(END_TAG, &[])]);
        }
    }

    /// Wrong lengths, about the right ones, these with another high byte or with their bytes swapped, and the longest, each with
    /// so many bytes of contents: with as many as it tells, before the end field, with one less, with none, and with those of
    /// the right length.
    fn read_lengths(&mut self) {
        let device = [(0, 4), (3, 3), (5, 0), (5, 4), (0x0104, 4), (0x0400, 4), (0xFFFF, 0)];
        let page = [(0, 256), (1, 1), (255, 255), (257, 0), (257, 256), (0x0300, 256), (0xFFFF, 256)];
        let end = [(1, 1), (4, 3), (256, 0), (0xFFFF, 3)];
        let device = device.map(|lengths| (Stage::Start, DEVICE_TAG, lengths));
        let page = page.map(|lengths| (Stage::Pages(0), PAGE_TAG, lengths));
        let end = end.map(|lengths| (Stage::Pages(0), END_TAG, lengths));
        for (stage, tag, (length, there)) in device.into_iter().chain(page).chain(end) {
            let [before, _] = about(&mut self.random, stage);
            let contents = self.random.bytes(there);
            let after = if there < usize::from(length) { Vec::new() } else { field(END_TAG, &[]) };
            self.read_parts(&[&before, &head(tag, length), &contents, &after]);
        }
    }

    /// Fields to be passed over in a file of one page: before the device number, before the page and before the end; of no
    /// byte and about 256, and one that looks like a file. Very many in a file without a page, and the longest, which is cut.
    fn read_passed_over(&mut self) {
        let [short, exact, longer] = [255, 256, 257].map(|length| field(0x55, &self.random.bytes(length)));
        let [empty, few, looks] = [field(0x40, &[]), field(0x6F, &[1, 2, 3]), field(0x41, &file_of(1, &[]))];
        for (place, part) in [(1, empty.clone()), (1, longer), (2, few), (2, short), (3, exact), (3, looks)] {
            let mut parts = parts_of(any_device(&mut self.random), &self.random.bytes(SMALL.bytes));
            parts.insert(place, part);
            self.read(&parts.concat(), SMALL.bytes);
        }
        let [before, after] = about(&mut self.random, Stage::Pages(0));
        self.read_parts(&[&before, &empty.repeat(300), &after[after.len() - 3..]]);
        self.read_parts(&[&before, &head(0x6F, 0xFFFF), &[END_TAG; 9]]);
    }

    /// Bytes after the end field, with an output that is long enough and with one too short.
    fn read_tails(&mut self) {
        let (none, one) = (self.any_file_of(0), self.any_file_of(1));
        for (file, tail) in [(&none, &[0][..]), (&none, &[END_TAG, 0, 0]), (&none, &none), (&one, &[0x40])] {
            self.read_parts(&[file, tail]);
        }
        self.read(&[&one[..], &[0, 0]].concat(), SMALL.bytes);
    }

    /// Two faults, of which the first is met: another start before a cut, another tag and a tail; another tag and another place
    /// before a cut and before a tail; a wrong length before a cut; a cut that looks like the end; and a tail that looks like a
    /// field.
    fn read_two_faults(&mut self) {
        let [before, _] = about(&mut self.random, Stage::Pages(0));
        let device = any_field_of(&mut self.random, DEVICE_TAG);
        let end = field(END_TAG, &[]);
        let other_start = [&[0xF1, 0xB1], &before[2..]].concat();
        [&[][..], &[0x80, 0, 0], &[END_TAG, 0, 0, 0]]
            .into_iter()
            .for_each(|part| self.read_parts(&[&other_start, part]));
        self.read_parts(&[&before, &[0x80, 0, 0], &[PAGE_TAG, 1]]);
        self.read_parts(&[&before, &device, &end, &[0]]);
        self.read_parts(&[&before, &head(PAGE_TAG, 255), &[7; 9]]);
        self.read_parts(&[&before, &head(0x40, 4), &end]);
        self.read_parts(&[&before, &end, &device[..4]]);
    }
}

#[cfg(test)]
mod tests {
    use super::*;
    use crate::answer::number;
    use crate::call::Entry;
    use crate::case::Place;
    use crate::coverage::Coverage;
    use crate::vectors::tests::performed;
    use crate::vectors::{input_of, text_of, FILE_LENGTH_MOST};
    use std::collections::HashMap;

    /// Some calls with each answer, and no more room than they need.
    #[test]
    fn number_and_size() {
        let calls = calls();
        assert_eq!(calls.len(), 117);
        assert!(calls.iter().all(|call| call.entry == Entry::ReadFile && call.argument == 0));
        assert!(calls.iter().all(|call| call.page.len().max(call.other.len()) <= FILE_LENGTH_MOST));
        assert!(input_of(&calls).len() < 40_000 && text_of(&calls).len() < 25_000);
        let mut met: HashMap<u8, usize> = HashMap::new();
        calls.iter().for_each(|call| *met.entry(number(call.clone().perform())).or_default() += 1);
        assert!([0, 14, 15, 16, 3].iter().all(|number| met[number] >= 4), "{met:?}");
    }

    /// Of what a run counts, every start, every fault at the first two stages and every kind of output is met: what is left out
    /// needs more room, or is one of many tags or lengths.
    #[test]
    fn counters_of_a_run() {
        let mut coverage = Coverage::new();
        performed(calls()).iter().for_each(|(call, _, answer)| coverage.count(call, Place::Canaries, *answer));
        let of_files = coverage.wanted().into_iter().filter(|(name, _)| name.starts_with("read file "));
        let missing = of_files.filter(|(name, met)| *met == 0 && !name.contains("memory") && !name.contains("far"));
        let missing: Vec<String> = missing.map(|(name, _)| name).collect();
        let left_out = [" tag ", " pages", " bytes, with", "passed over", "after a page"];
        let kept: Vec<&String> =
            missing.iter().filter(|name| !left_out.iter().any(|part| name.contains(part))).collect();
        assert_eq!(kept, [""; 0]);
    }
}
