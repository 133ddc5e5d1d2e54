//! The two sizes of a page, and the figures that hang on them.

use crate::inspect::WALK_ENDS;
use crate::word::{self, CELLS};
use std::ops::Range;

/// The bytes before the words: the state, and bytes 1 and 2.
const HEADER_BYTES: usize = 3;

/// "The page's shape, that is its length, words and record size, becomes part of what every page operation works from."
#[derive(Clone, Copy, Debug, PartialEq, Eq, Hash)]
pub struct Shape {
    /// The page's length.
    pub bytes: usize,
    pub words: usize,
    /// The first record's length.
    pub first_bytes: usize,
    /// The longest second record by the fill code, and so the most that the length may be in state 07.
    pub second_bytes_most: usize,
    /// The longest second record by the Inspect code, and so the most that the length may be in state 09.
    pub inspect_bytes_most: usize,
}

/// "44 words of 46 cells with nothing between", in bytes 3 to 255; "The first record is exactly 176 bytes". Of the "limit
/// of that code and page, which is 126 and 247, or 253 and 495", the first two.
pub const SMALL: Shape =
    Shape { bytes: 256, words: 44, first_bytes: 176, second_bytes_most: 126, inspect_bytes_most: 247 };

/// "Such a page has 88 words in bytes 3 to 508, a first record of 352 bytes, and bytes 509 to 511 at 0"; of the limits, the
/// last two.
pub const LARGE: Shape =
    Shape { bytes: 512, words: 88, first_bytes: 352, second_bytes_most: 253, inspect_bytes_most: 495 };

impl Shape {
    pub const BOTH: [Shape; 2] = [SMALL, LARGE];

    /// The shape of a page of this length, if a page has it.
    pub fn of(page: &[u8]) -> Option<Shape> {
        Shape::BOTH.into_iter().find(|shape| shape.bytes == page.len())
    }

    /// The shape of a page of this many words.
    pub fn with_words(words: usize) -> Shape {
        Shape::BOTH.into_iter().find(|shape| shape.words == words).expect("the words of a page")
    }

    /// Its place in `BOTH`.
    pub fn number(self) -> usize {
        usize::from(self == LARGE)
    }

    pub fn other(self) -> Shape {
        Shape::BOTH[1 - self.number()]
    }

    /// The places of the bytes with the words.
    pub fn cells(self) -> Range<usize> {
        HEADER_BYTES..HEADER_BYTES + self.words * CELLS / 8
    }

    /// The places of the bytes after the words: none, or those of "bytes 509 to 511 at 0".
    pub fn tail(self) -> Range<usize> {
        self.cells().end..self.bytes
    }

    /// The least capacity of a page: each word has 15 bits at least.
    pub fn capacity_least(self) -> usize {
        15 * self.words
    }

    /// The most capacity of a page: each word has 23 bits at most.
    pub fn capacity_most(self) -> usize {
        23 * self.words
    }

    /// The longest second record that fits every page.
    pub fn second_bytes_sure(self) -> usize {
        self.capacity_least() / 8
    }

    /// The least and the most bits that the walks over a page take: "Each word walked to its end takes 23 to 45 bits".
    pub fn walk_ends(self) -> [usize; 2] {
        WALK_ENDS.map(|bits| bits * self.words)
    }

    /// The longest second record that goes into every page by the Inspect code.
    pub fn inspect_bytes_sure(self) -> usize {
        self.walk_ends()[0] / 8
    }

    /// The most pulses of a fill: those of the page of zero bytes.
    pub fn pulses_most(self) -> usize {
        self.words * word::PULSES_MOST
    }
}

#[cfg(test)]
mod tests {
    use super::*;

    /// "It is from 660 to 1,012 bits for every such page", and "every record of up to 82 bytes fits".
    #[test]
    fn the_figures_of_256_bytes() {
        assert_eq!((SMALL.cells(), SMALL.tail()), (3..256, 256..256));
        assert_eq!((SMALL.capacity_least(), SMALL.capacity_most()), (660, 1_012));
        assert_eq!((SMALL.second_bytes_sure(), SMALL.pulses_most()), (82, 1_012));
        assert_eq!((SMALL.walk_ends(), SMALL.inspect_bytes_sure()), ([1_012, 1_980], 126));
    }

    /// "Its fill-code capacity is 1,320 to 2,024 bits, both ends are met, a record of up to 165 bytes fits each such page";
    /// and by the Inspect code "253 bytes always go in".
    #[test]
    fn the_figures_of_512_bytes() {
        assert_eq!((LARGE.cells(), LARGE.tail()), (3..509, 509..512));
        assert_eq!((LARGE.capacity_least(), LARGE.capacity_most()), (1_320, 2_024));
        assert_eq!((LARGE.second_bytes_sure(), LARGE.pulses_most()), (165, 2_024));
        assert_eq!((LARGE.walk_ends(), LARGE.inspect_bytes_sure()), ([2_024, 3_960], 253));
    }

    /// Four bytes make one word's value, and the length goes to the longest record that the most capacity, or the longest
    /// walks, take.
    #[test]
    fn both_shapes_go_by_the_number_of_words() {
        for shape in Shape::BOTH {
            assert_eq!(shape.first_bytes, 4 * shape.words);
            assert_eq!(shape.second_bytes_most, shape.capacity_most() / 8);
            assert_eq!(shape.inspect_bytes_most, shape.walk_ends()[1] / 8);
        }
    }

    /// "Refusal 1 now means neither 256 nor 512 bytes".
    #[test]
    fn no_other_length_has_a_shape() {
        for length in 0..1_100 {
            let wanted = match length {
                256 => Some(SMALL),
                512 => Some(LARGE),
                _ => None,
            };
            assert_eq!(Shape::of(&vec![0; length]), wanted, "{length}");
        }
    }

    #[test]
    fn each_shape_and_the_other() {
        for (number, shape) in Shape::BOTH.into_iter().enumerate() {
            assert_eq!(shape.number(), number);
            assert_eq!(Shape::with_words(shape.words), shape);
            assert_ne!(shape.other(), shape);
            assert_eq!(shape.other().other(), shape);
        }
    }
}
