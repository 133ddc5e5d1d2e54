//! The calls of read file.

use super::{Walk, SEED};
use crate::call::Call;
use crate::cases::files::{any_device, numbered, CONTENTS};
use crate::cases::pages::with_byte;
use crate::cases::reading::{
    about, any_field_of, any_file, bytes_read, file_of, three_pages, with_field_fault, with_tail, EDGE_TAGS,
    FIELD_LENGTHS, MANY_FIELDS, STAGES,
};
use crate::file::{field, head, parts_of, DEVICE_TAG, END_TAG, FILE_PAGES_MOST, PAGE_TAG, START};
use crate::random::Random;
use crate::reading::{Kind, Stage, HEAD_BYTES, PASSED_OVER_TAGS};
use crate::shape::SMALL;

/// A file of three pages with each of its bytes changed to each other one: so many that they are made one by one.
pub fn changes() -> impl Iterator<Item = Call> {
    let mut random = Random::new(SEED);
    let file = three_pages(&mut random);
    let changes = (0..file.len()).flat_map(|place| (1..=255).map(move |bits| (place, bits)));
    changes.map(move |(place, bits)| {
        let changed = with_byte(file.clone(), place, file[place] ^ bits);
        Call::of_reading(changed, random.bytes(3 * SMALL.bytes))
    })
}

impl Walk {
    pub fn readings_of_every_kind(&mut self) {
        self.read_devices();
        self.read_contents();
        self.read_any_files();
        self.read_outputs();
        self.read_faults_into_short_outputs();
        self.read_starts();
        self.read_prefixes();
        self.read_tags();
        self.read_lengths();
        self.read_longest_passed_over();
        self.read_many_passed_over();
        self.read_pages_beyond();
        self.read_tails();
        self.read_two_faults();
    }

    /// A call of read file with an output of this length, which holds any bytes.
    fn read(&mut self, file: &[u8], length: usize) {
        let output = self.random.bytes(length);
        self.calls.push(Call::of_reading(file.to_vec(), output));
    }

    /// A call with a file of these parts, and an output that takes just the pages that are read.
    fn read_parts(&mut self, parts: &[&[u8]]) {
        let file = parts.concat();
        self.read(&file, bytes_read(&file));
    }

    /// A file of any device and of this many pages, which differ.
    fn file_of_pages(&mut self, count: usize) -> Vec<u8> {
        file_of(any_device(&mut self.random), &numbered(&mut self.random, SMALL.bytes * count))
    }

    /// Each of the device numbers in files of no page and of one.
    fn read_devices(&mut self) {
        for device in self.every_device() {
            self.read_parts(&[&file_of(device, &[])]);
            self.read_parts(&[&file_of(device, &self.first.clone())]);
        }
    }

    /// Every number of pages with each kind of contents.
    fn read_contents(&mut self) {
        for (count, contents) in (0..=FILE_PAGES_MOST).flat_map(|count| CONTENTS.map(|contents| (count, contents))) {
            let device = any_device(&mut self.random);
            let pages = contents(&mut self.random, SMALL.bytes * count);
            self.read_parts(&[&file_of(device, &pages)]);
        }
    }

    /// Sound files of any kind, and with fields to be passed over at all places.
    fn read_any_files(&mut self) {
        for lengths in [&[0][..], &[1], &[2, 0], &[255, 256, 257], &[1_000, 3]] {
            let file = self.with_passed_over(lengths);
            self.read_parts(&[&file]);
        }
        for _ in 0..300 {
            let file = any_file(&mut self.random, 0);
            self.read_parts(&[&file]);
        }
    }

    /// A file of two pages, with two fields to be passed over before each other field; their lengths are these by turns.
    fn with_passed_over(&mut self, lengths: &[usize]) -> Vec<u8> {
        let parts = parts_of(any_device(&mut self.random), &numbered(&mut self.random, 2 * SMALL.bytes));
        let mut lengths = lengths.iter().cycle();
        let mut file = START.to_vec();
        for part in &parts[1..] {
            for tag in [0x40, 0x6F] {
                let contents = self.random.bytes(*lengths.next().expect("they start again"));
                file.extend(field(tag, &contents));
            }
            file.extend(part);
        }
        file
    }

    /// Every number of pages with an output that is empty, one short, exact, one longer and longer; and every output length 0
    /// to 540 for the fewest pages.
    fn read_outputs(&mut self) {
        for count in 0..=FILE_PAGES_MOST {
            let (file, exact) = (self.file_of_pages(count), SMALL.bytes * count);
            for length in [0, exact.saturating_sub(1), exact, exact + 1, exact + 7, exact + 259] {
                self.read(&file, length);
            }
        }
        for count in 0..=2 {
            let file = self.file_of_pages(count);
            (0..=540).for_each(|length| self.read(&file, length));
        }
    }

    /// Files with each fault after a page, for which the output is too short or long enough.
    fn read_faults_into_short_outputs(&mut self) {
        for part in self.faults() {
            let [before, _] = about(&mut self.random, Stage::Pages(1));
            [0, 255, 256, 257].into_iter().for_each(|length| self.read(&[&before[..], &part].concat(), length));
        }
    }

    /// No byte, every byte alone, and every byte as the first and as the second, and both the other way round: alone, and
    /// before the fields of a sound file and of files with each fault.
    fn read_starts(&mut self) {
        let sound = self.file_of_pages(1);
        let faulty = with_field_fault(&mut self.random, sound.clone());
        let tailed = with_tail(&mut self.random, sound.clone());
        let files = [&sound[..2], &sound, &sound[..sound.len() - 1], &faulty, &tailed];
        self.read_parts(&[]);
        (0..=255).for_each(|byte| self.read_parts(&[&[byte]]));
        let [first, second] = START;
        let starts = (0..=255).flat_map(|byte| [[byte, second], [first, byte]]).chain([[second, first]]);
        for (start, file) in starts.flat_map(|start| files.map(|file| (start, file))) {
            self.read_parts(&[&start, &file[2..]]);
        }
    }

    /// Of a file of three pages, and of one with fields passed over at each stage, every prefix: with an output that is long
    /// enough, and with none.
    fn read_prefixes(&mut self) {
        let with_passed_over = self.with_passed_over(&[0, 1, 3, 255, 256, 257, 4]);
        for file in [three_pages(&mut self.random), with_passed_over] {
            for length in 0..=file.len() {
                self.read(&file[..length], 3 * SMALL.bytes);
                self.read(&file[..length], 0);
            }
        }
    }

    /// Every tag at each stage, and after the end: as the last byte, with one byte of its length, with its length alone, and
    /// whole, before what follows at that stage.
    fn read_tags(&mut self) {
        for stage in STAGES.into_iter().chain([Stage::End(1)]) {
            let [before, after] = about(&mut self.random, stage);
            for tag in 0..=255 {
                let whole = any_field_of(&mut self.random, tag);
                (1..=HEAD_BYTES).for_each(|there| self.read_parts(&[&before, &whole[..there]]));
                self.read_parts(&[&before, &whole, &after]);
            }
        }
    }

    /// Every tag after the device number, and the tags at the ends at each stage, with each of the listed lengths.
    fn read_lengths(&mut self) {
        let edges = STAGES.into_iter().flat_map(|stage| EDGE_TAGS.map(|tag| (stage, tag)));
        for (stage, tag) in (0..=255).map(|tag| (Stage::Pages(0), tag)).chain(edges) {
            FIELD_LENGTHS.into_iter().for_each(|length| self.read_length(stage, tag, length));
        }
    }

    /// This length with no contents, with one byte less than these, with these, and with the contents of the tag's own length.
    /// After an unknown tag there are not so many.
    fn read_length(&mut self, stage: Stage, tag: u8, length: u16) {
        let [before, after] = about(&mut self.random, stage);
        let own = any_field_of(&mut self.random, tag).split_off(HEAD_BYTES);
        let told = if Kind::of(tag).is_none() { length.min(5) } else { length };
        let told = self.random.bytes(usize::from(told));
        let short = &told[..told.len().saturating_sub(1)];
        let head = head(tag, length);
        self.read_parts(&[&before, &head]);
        self.read_parts(&[&before, &head, short]);
        self.read_parts(&[&before, &head, &told, &after]);
        self.read_parts(&[&before, &head, &own, &after]);
    }

    /// Up to three fields to be passed over, of the most bytes, at each stage.
    fn read_longest_passed_over(&mut self) {
        let longest = field(0x50, &self.random.bytes(usize::from(u16::MAX)));
        for (stage, count) in STAGES.into_iter().flat_map(|stage| [(stage, 1), (stage, 2), (stage, 3)]) {
            let [before, after] = about(&mut self.random, stage);
            self.read_parts(&[&before, &longest.repeat(count), &after]);
        }
    }

    /// Very many fields to be passed over at each stage, of no byte and of few: before what follows there, before nothing, and
    /// before a fault.
    fn read_many_passed_over(&mut self) {
        for (stage, lengths) in STAGES.into_iter().flat_map(|stage| [(stage, 1), (stage, 8)]) {
            let [before, after] = about(&mut self.random, stage);
            let fields = PASSED_OVER_TAGS.cycle().enumerate().take(MANY_FIELDS);
            let many: Vec<u8> = fields.flat_map(|(turn, tag)| field(tag, &[END_TAG; 8][..turn % lengths])).collect();
            let parts = [&after[..], &[], &[0x40], &[0x80]];
            parts.into_iter().for_each(|part| self.read_parts(&[&before, &many, part]));
        }
    }

    /// About 64 pages, and many more; the 65th with every number of its bytes, with each of the listed lengths, and after
    /// fields to be passed over.
    fn read_pages_beyond(&mut self) {
        for count in [63, 64, 65, 66, 127, 128, 129, 256, 257, 320] {
            let file = self.file_of_pages(count);
            self.read_parts(&[&file]);
            self.read_parts(&[&file[..file.len() - HEAD_BYTES]]);
        }
        let [before, after] = about(&mut self.random, Stage::Pages(FILE_PAGES_MOST));
        let page = any_field_of(&mut self.random, PAGE_TAG);
        (1..=page.len()).for_each(|there| self.read_parts(&[&before, &page[..there]]));
        FIELD_LENGTHS.into_iter().for_each(|length| self.read_parts(&[&before, &head(PAGE_TAG, length), &after]));
        for count in [1, 2, MANY_FIELDS] {
            self.read_parts(&[&before, &field(0x6F, &[1]).repeat(count), &page, &after]);
        }
    }

    /// Every byte after the end field; and the fields of each kind, the start, the file once more and many bytes after it.
    fn read_tails(&mut self) {
        for count in [0, 1, FILE_PAGES_MOST] {
            let file = self.file_of_pages(count);
            (0..=255).for_each(|byte| self.read_parts(&[&file, &[byte]]));
            let fields = [DEVICE_TAG, PAGE_TAG, END_TAG, 0x40, 0x80].map(|tag| any_field_of(&mut self.random, tag));
            fields.iter().for_each(|field| self.read_parts(&[&file, field]));
            [&START[..], &file, &file[2..], &[0; 1_000]].into_iter().for_each(|tail| self.read_parts(&[&file, tail]));
            self.read(&[&file[..], &[0]].concat(), 0);
        }
    }

    /// What may follow a page and has a fault: in a field, which is whole, by the end of the file, and after the end field.
    fn faults(&mut self) -> Vec<Vec<u8>> {
        let field_faults = self.field_faults();
        let page = any_field_of(&mut self.random, PAGE_TAG);
        let cuts = [0, 1, 2, 3, 4, 258].map(|there| page[..there].to_vec());
        let other_cuts = [&[END_TAG][..], &[END_TAG, 0], &[END_TAG, 1], &[0x40], &[0x40, 0xFF], &[0x6F, 0xFF, 0xFF, 7]];
        let tails = [&[0][..], &page, &[0x80, 0, 0]].map(|tail| [&field(END_TAG, &[]), tail].concat());
        field_faults.into_iter().chain(cuts).chain(other_cuts.map(<[u8]>::to_vec)).chain(tails).collect()
    }

    /// A field with each fault of its own, whole.
    fn field_faults(&mut self) -> Vec<Vec<u8>> {
        let device = any_field_of(&mut self.random, DEVICE_TAG);
        let unknown = [0x00, 0x3F, 0x70, 0x80, 0xFF].map(|tag| any_field_of(&mut self.random, tag));
        let lengths = [(PAGE_TAG, 255), (PAGE_TAG, 257), (PAGE_TAG, 1), (END_TAG, 1), (END_TAG, 256)];
        let lengths = lengths.map(|(tag, length)| field(tag, &self.random.bytes(length)));
        [device].into_iter().chain(unknown).chain(lengths).collect()
    }

    /// Two faults after a page, one in a field and one of any kind, in both orders; and both after the end.
    fn read_two_faults(&mut self) {
        let (firsts, seconds) = (self.field_faults(), self.faults());
        for (first, second) in firsts.iter().flat_map(|first| seconds.iter().map(move |second| (first, second))) {
            let [before, after] = about(&mut self.random, Stage::Pages(1));
            self.read_parts(&[&before, first, second]);
            self.read_parts(&[&before, second, first, &after]);
            self.read_parts(&[&before, &after, first, second]);
        }
    }
}
