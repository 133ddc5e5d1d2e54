//! The length classes of pages, data, records, outputs and the pages of a file.

use super::files::{any_bytes, ones, zeros, Contents};
use super::reading::bytes_read;
use crate::block::BLOCK_BYTES;
use crate::call::Entry;
use crate::file::file_bytes;
use crate::page::length_of;
use crate::random::Random;
use crate::shape::{Shape, LARGE, SMALL};

/// Lengths that no page has.
pub const NO_PAGE_LENGTHS: [usize; 14] = [0, 1, 2, 3, 255, 257, 300, 384, 508, 509, 511, 513, 768, 1_024];
/// Record lengths at the ends: about the limit of each code and size, about the most that one byte names, and about twice
/// of it.
pub const END_LENGTHS: [usize; 21] =
    [0, 1, 125, 126, 127, 246, 247, 248, 252, 253, 254, 255, 256, 257, 494, 495, 496, 497, 511, 512, 513];
/// Record lengths that fit no page; 8 times 8,192 is 65,536.
pub const FAR_RECORD_LENGTHS: [usize; 7] = [600, 1_000, 8_192, 8_200, 65_535, 65_536, 65_700];
/// Lengths of two bytes that no page has: of each, byte 1 alone or byte 2 alone is a length that a page has; 8 times 8,192
/// and the one after it are, cut to 16 bits, those of 0 and of 126 bytes.
pub const FAR_NAMED_LENGTHS: [usize; 10] = [582, 638, 759, 765, 8_192, 8_318, 0x7FFF, 0xFF00, 0xFF00 + 126, 0xFFFF];
/// Lengths that are no multiple of 256.
const CUT_PAGES_LENGTHS: [usize; 7] = [1, 255, 257, 511, 513, 16_383, 16_385];
/// Lengths of more than 64 pages, of which 65,536 and those after it are, cut to 16 bits, those of 0, 1 and 64 pages.
pub const FAR_PAGES_LENGTHS: [usize; 8] = [16_639, 16_640, 16_641, 16_896, 32_768, 65_536, 65_792, 81_920];
/// Lengths that no block has: none, few bytes, one page and one of 512 bytes, a page less and more, a byte less and more, and
/// two blocks.
pub const NO_BLOCK_LENGTHS: [usize; 11] = [0, 1, 255, 256, 512, 2_048, 3_840, 4_095, 4_097, 4_352, 8_192];

/// What may follow a page of 256 bytes in a buffer of 512.
pub const AFTER_A_PAGE: [Contents; 3] = [zeros, ones, any_bytes];

/// The bytes cut to the length, or followed by such bytes up to it.
pub fn resized_with(random: &mut Random, mut bytes: Vec<u8>, length: usize, after: Contents) -> Vec<u8> {
    bytes.truncate(length);
    let missing = length - bytes.len();
    bytes.extend(after(random, missing));
    bytes
}

/// The bytes cut to the length, or followed by any bytes up to it.
pub fn resized(random: &mut Random, bytes: Vec<u8>, length: usize) -> Vec<u8> {
    resized_with(random, bytes, length, any_bytes)
}

/// Any length but the exact ones: of the classes, or any other.
fn wrong_length(random: &mut Random, exact: &[usize], classes: &[usize]) -> usize {
    let any = random.below(2 * LARGE.bytes);
    if exact.contains(&any) || random.one_in(2) {
        random.pick(classes)
    } else {
        any
    }
}

pub fn wrong_page_length(random: &mut Random) -> usize {
    wrong_length(random, &Shape::BOTH.map(|shape| shape.bytes), &NO_PAGE_LENGTHS)
}

/// Any length but a block's.
pub fn wrong_block_length(random: &mut Random) -> usize {
    let any = random.below(BLOCK_BYTES + SMALL.bytes);
    if any == BLOCK_BYTES || random.one_in(2) {
        random.pick(&NO_BLOCK_LENGTHS)
    } else {
        any
    }
}

/// Mostly a block's length.
pub fn any_block_length(random: &mut Random) -> usize {
    if random.one_in(12) {
        wrong_block_length(random)
    } else {
        BLOCK_BYTES
    }
}

/// Lengths that are not the first record's: none, one byte less and more, and the other size's.
pub fn wrong_data_lengths(shape: Shape) -> [usize; 4] {
    [0, shape.first_bytes - 1, shape.first_bytes + 1, shape.other().first_bytes]
}

pub fn wrong_data_length(random: &mut Random, shape: Shape) -> usize {
    wrong_length(random, &[shape.first_bytes], &wrong_data_lengths(shape))
}

/// Any length that is refused 13, seldom a large one.
pub fn wrong_pages_length(random: &mut Random) -> usize {
    let cut = SMALL.bytes * random.below(5) + random.between(1, SMALL.bytes - 1);
    match random.below(8) {
        0 => random.pick(&FAR_PAGES_LENGTHS),
        1 | 2 => random.pick(&CUT_PAGES_LENGTHS),
        _ => cut,
    }
}

fn data_length(random: &mut Random, shape: Shape) -> usize {
    if random.one_in(4) {
        wrong_data_length(random, shape)
    } else {
        shape.first_bytes
    }
}

/// The length of a record by a code of which `sure` bytes always go in and `most` at most: about these, at another end, far
/// beyond, or any.
fn record_length(random: &mut Random, sure: usize, most: usize) -> usize {
    match random.below(16) {
        0 => random.pick(&FAR_RECORD_LENGTHS),
        1 => random.between(sure - 5, sure + 4),
        2 => random.between(most - 6, most + 4),
        3 => random.pick(&END_LENGTHS),
        _ => random.between(0, most + 4),
    }
}

/// A length for bytes 1 and 2: at an end, far beyond, of no more than a large page's bytes, or any.
pub fn any_named_length(random: &mut Random) -> usize {
    match random.below(8) {
        0 => random.pick(&FAR_NAMED_LENGTHS),
        1 => random.below(1 << 16),
        2 => random.below(LARGE.bytes),
        _ => random.pick(&END_LENGTHS),
    }
}

/// A length for bytes 1 and 2 that is larger than this one: by one, or of those before.
pub fn named_length_above(random: &mut Random, most: usize) -> usize {
    any_named_length(random).max(most + 1)
}

/// The length in bytes 1 and 2, as far as a record may have it.
fn record_named(page: &[u8]) -> usize {
    let named = if page.len() < 3 { 0 } else { length_of(page) };
    named.min(LARGE.inspect_bytes_most)
}

/// One short, exact, longer, 0, or any.
fn output_length(random: &mut Random, needed: usize) -> usize {
    let any = random.below(400);
    let longer = needed + any;
    random.pick(&[needed.saturating_sub(1), needed, needed + 1, longer, 0, any])
}

/// A length for the other buffer of a page entry, or of one of files. A page of neither size goes by the smaller one.
pub fn other_length(random: &mut Random, entry: Entry, page: &[u8]) -> usize {
    let shape = Shape::of(page).unwrap_or(SMALL);
    match entry {
        Entry::WriteFirst => data_length(random, shape),
        Entry::ReadFirst => output_length(random, shape.first_bytes),
        Entry::WriteSecond => record_length(random, shape.second_bytes_sure(), shape.second_bytes_most),
        Entry::WriteInspect => record_length(random, shape.inspect_bytes_sure(), shape.inspect_bytes_most),
        Entry::ReadSecond | Entry::ReadInspect => output_length(random, record_named(page)),
        Entry::WriteFile => output_length(random, file_bytes(page.len() / SMALL.bytes)),
        Entry::ReadFile => output_length(random, bytes_read(page)),
        _ => 0,
    }
}

#[cfg(test)]
mod tests {
    use super::*;
    use std::collections::HashSet;

    /// Neither 256 nor 512; between the two sizes there are many.
    #[test]
    fn lengths_that_are_wrong_for_a_page() {
        let mut random = Random::new(1);
        let met: HashSet<usize> = (0..5_000).map(|_| wrong_page_length(&mut random)).collect();
        assert!(!met.contains(&256) && !met.contains(&512));
        let wanted = [0, 1, 255, 257, 300, 384, 508, 509, 511, 513, 768, 1_024];
        assert!(wanted.iter().all(|length| met.contains(length)));
        assert!(met.iter().filter(|length| (257..512).contains(*length)).count() > 200);
    }

    #[test]
    fn lengths_that_are_wrong_for_a_block() {
        let mut random = Random::new(1);
        let met: HashSet<usize> = (0..5_000).map(|_| wrong_block_length(&mut random)).collect();
        assert!(!met.contains(&4_096) && [0, 1, 3_840, 4_095, 4_097, 4_352].iter().all(|length| met.contains(length)));
        let met: HashSet<usize> = (0..5_000).map(|_| any_block_length(&mut random)).collect();
        assert!([0, 4_095, 4_096, 4_097].iter().all(|length| met.contains(length)));
    }

    #[test]
    fn lengths_that_are_wrong_for_data() {
        let mut random = Random::new(2);
        for (shape, exact, wanted) in [(SMALL, 176, [0, 175, 177, 352]), (LARGE, 352, [0, 351, 353, 176])] {
            let met: HashSet<usize> = (0..2_000).map(|_| wrong_data_length(&mut random, shape)).collect();
            assert!(!met.contains(&exact) && wanted.iter().all(|length| met.contains(length)), "{exact}");
        }
    }

    /// Records about 82 and 126 bytes by the fill code on 256 bytes, about 165 and 253 on 512; by the Inspect code about 126
    /// and 247, and about 253 and 495; by each about 255 and 256.
    #[test]
    fn lengths_of_records() {
        let mut random = Random::new(3);
        for (entry, shape, lengths) in [
            (Entry::WriteSecond, SMALL, [82, 83, 126, 127]),
            (Entry::WriteSecond, LARGE, [165, 166, 253, 254]),
            (Entry::WriteInspect, SMALL, [126, 127, 247, 248]),
            (Entry::WriteInspect, LARGE, [253, 254, 495, 496]),
        ] {
            let page = vec![0; shape.bytes];
            let met: HashSet<usize> = (0..5_000).map(|_| other_length(&mut random, entry, &page)).collect();
            assert!(lengths.iter().chain(&[0, 255, 256, 257]).all(|length| met.contains(length)), "{}", shape.bytes);
        }
    }

    /// Lengths at the ends, of which byte 2 is 0, 1 and 2; and those above a limit.
    #[test]
    fn lengths_of_two_bytes() {
        let mut random = Random::new(4);
        let met: HashSet<usize> = (0..5_000).map(|_| any_named_length(&mut random)).collect();
        assert!(END_LENGTHS.iter().chain(&FAR_NAMED_LENGTHS).all(|length| met.contains(length)));
        assert!(met.iter().all(|&length| length < 1 << 16));
        for most in [0, 126, 247, 253, 495] {
            let met: HashSet<usize> = (0..2_000).map(|_| named_length_above(&mut random, most)).collect();
            assert!(met.iter().all(|&length| length > most) && met.contains(&(most + 1)));
            assert!(met.iter().any(|length| length % 256 == 0) && met.iter().any(|length| length / 256 > 1));
        }
    }

    /// The bytes of the far ones: one of the two alone is a length, and 8 times it in 16 bits.
    #[test]
    fn the_far_lengths_of_two_bytes() {
        let bytes = |length: usize| (length % 256, length / 256);
        assert_eq!(FAR_NAMED_LENGTHS.map(bytes)[..4], [(70, 2), (126, 2), (247, 2), (253, 2)]);
        assert_eq!([8_192, 8_318].map(|length: usize| 8 * length % 65_536 / 8), [0, 126]);
        assert!(FAR_NAMED_LENGTHS.iter().all(|&length| length > LARGE.inspect_bytes_most));
        assert!(FAR_RECORD_LENGTHS.iter().all(|&length| length > LARGE.inspect_bytes_most));
    }
}
