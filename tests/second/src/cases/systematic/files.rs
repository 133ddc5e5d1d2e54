//! The calls of write file.

use super::Walk;
use crate::call::Call;
use crate::cases::files::{any_device, numbered, CONTENTS, DEVICES};
use crate::cases::lengths::FAR_PAGES_LENGTHS;
use crate::file::{file_bytes, FILE_PAGES_MOST};
use crate::shape::SMALL;

impl Walk {
    pub fn files_of_every_kind(&mut self) {
        self.devices();
        self.contents();
        self.file_lengths();
        self.pages_lengths();
    }

    /// A call of write file with an output of this length, which holds any bytes.
    fn file(&mut self, device: u32, pages: &[u8], length: usize) {
        let output = self.random.bytes(length);
        self.calls.push(Call::of_file(device, pages.to_vec(), output));
    }

    /// Calls of write file for any device, with pages that differ, and outputs of these lengths.
    fn files(&mut self, pages_length: usize, lengths: &[usize]) {
        let pages = numbered(&mut self.random, pages_length);
        for &length in lengths {
            let device = any_device(&mut self.random);
            self.file(device, &pages, length);
        }
    }

    /// Every device number with one bit set, the listed ones and any.
    pub fn every_device(&mut self) -> Vec<u32> {
        let any = self.random.draw() as u32;
        (0..32).map(|bit| 1 << bit).chain(DEVICES).chain([any, !any]).collect()
    }

    /// Each of these device numbers in files of no page and of one.
    fn devices(&mut self) {
        for device in self.every_device() {
            self.file(device, &[], file_bytes(0));
            self.file(device, &self.first.clone(), file_bytes(1));
        }
    }

    /// Every number of pages with each kind of contents.
    fn contents(&mut self) {
        for (count, contents) in (0..=FILE_PAGES_MOST).flat_map(|count| CONTENTS.map(|contents| (count, contents))) {
            let device = any_device(&mut self.random);
            let pages = contents(&mut self.random, SMALL.bytes * count);
            self.file(device, &pages, file_bytes(count));
        }
    }

    /// Every number of pages with an output that is empty, one short, exact, one longer and longer; and every output
    /// length 0 to 540 for the fewest pages.
    fn file_lengths(&mut self) {
        for count in 0..=FILE_PAGES_MOST {
            let exact = file_bytes(count);
            self.files(SMALL.bytes * count, &[0, exact - 1, exact, exact + 1, exact + 7, exact + 259]);
        }
        let lengths: Vec<usize> = (0..=540).collect();
        (0..=2).for_each(|count| self.files(SMALL.bytes * count, &lengths));
    }

    /// Every length of the pages 0 to 520, the lengths beside every number of pages, and lengths beyond: with outputs
    /// that are empty, one short for the whole pages, and long enough for one page more.
    fn pages_lengths(&mut self) {
        let beside = (1..=FILE_PAGES_MOST).flat_map(|count| [SMALL.bytes * count - 1, SMALL.bytes * count + 1]);
        for length in (0..=520).chain(beside).chain(FAR_PAGES_LENGTHS) {
            let count = length / SMALL.bytes;
            self.files(length, &[0, file_bytes(count) - 1, file_bytes(count + 1)]);
        }
    }
}
