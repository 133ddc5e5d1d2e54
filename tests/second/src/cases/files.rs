//! Device numbers and pages for the calls of write file.

use super::lengths::{other_length, wrong_pages_length};
use super::pages::{any_first, any_page, any_record, Maker};
use crate::call::{Call, Entry};
use crate::file::FILE_PAGES_MOST;
use crate::random::Random;
use crate::shape::SMALL;

/// Device numbers at the ends, and one of four different bytes.
pub const DEVICES: [u32; 5] = [0, 1, 0x0102_0304, 0x8000_0000, u32::MAX];

/// The start of a file, and a field of each tag.
const FIELDS: [u8; 15] = [0xF1, 0xB0, 0x02, 0x00, 0x04, 1, 2, 3, 4, 0x01, 0x01, 0x00, 0x7F, 0x00, 0x00];

/// Makes pages of this many bytes in all, of which the last one may be cut; or a record.
pub type Contents = fn(&mut Random, usize) -> Vec<u8>;

pub const CONTENTS: [Contents; 7] = [zeros, ones, any_bytes, numbered, firsts, of_any_kind, fields];

pub fn zeros(_: &mut Random, length: usize) -> Vec<u8> {
    vec![0; length]
}

pub fn ones(_: &mut Random, length: usize) -> Vec<u8> {
    vec![0xFF; length]
}

pub fn any_bytes(random: &mut Random, length: usize) -> Vec<u8> {
    random.bytes(length)
}

/// Pages that differ from each other in each place.
pub fn numbered(_: &mut Random, length: usize) -> Vec<u8> {
    (0..length).map(|place| (place % SMALL.bytes * 29 + place / SMALL.bytes * 101) as u8).collect()
}

fn pages_of(random: &mut Random, length: usize, page: Maker) -> Vec<u8> {
    let mut pages: Vec<u8> = (0..length.div_ceil(SMALL.bytes)).flat_map(|_| page(random, SMALL)).collect();
    pages.truncate(length);
    pages
}

/// First-round pages.
fn firsts(random: &mut Random, length: usize) -> Vec<u8> {
    pages_of(random, length, any_first)
}

/// Pages of every state, valid and damaged.
fn of_any_kind(random: &mut Random, length: usize) -> Vec<u8> {
    pages_of(random, length, any_page)
}

/// Pages that look like files and fields.
pub fn fields(_: &mut Random, length: usize) -> Vec<u8> {
    FIELDS.into_iter().cycle().take(length).collect()
}

pub fn any_device(random: &mut Random) -> u32 {
    let any = random.draw() as u32;
    if random.one_in(2) {
        any
    } else {
        random.pick(&DEVICES)
    }
}

/// A number of pages that a file takes, mostly a small one.
fn any_count(random: &mut Random) -> usize {
    match random.below(64) {
        0 => FILE_PAGES_MOST,
        1 => random.between(0, FILE_PAGES_MOST),
        2..=9 => random.between(0, 8),
        _ => random.between(0, 3),
    }
}

/// Pages that a file takes, this many at least.
pub fn any_pages(random: &mut Random, least: usize) -> Vec<u8> {
    let count = any_count(random).max(least);
    random.pick(&CONTENTS)(random, SMALL.bytes * count)
}

/// A call with any length classes.
pub fn any_file_call(random: &mut Random) -> Call {
    let mut pages = any_pages(random, 0);
    if random.one_in(8) {
        let length = wrong_pages_length(random);
        pages = random.pick(&CONTENTS)(random, length);
    }
    let length = other_length(random, Entry::WriteFile, &pages);
    let output = any_record(random, length);
    Call::of_file(any_device(random), pages, output)
}

#[cfg(test)]
mod tests {
    use super::*;
    use std::collections::HashSet;

    #[test]
    fn contents_have_their_length() {
        let mut random = Random::new(3);
        for contents in CONTENTS {
            for length in [0, 1, 255, 256, 257, 16_384] {
                assert_eq!(contents(&mut random, length).len(), length);
            }
        }
    }

    #[test]
    fn numbered_pages_differ_in_each_place() {
        let pages = numbered(&mut Random::new(3), FILE_PAGES_MOST * SMALL.bytes);
        for place in 0..SMALL.bytes {
            let met: HashSet<u8> = pages.iter().skip(place).step_by(SMALL.bytes).copied().collect();
            assert_eq!(met.len(), FILE_PAGES_MOST);
        }
    }
}
