//! Words for the calls: legal, damaged, well formed, unwritten, of either fill, and with a hole.

use crate::random::Random;
use crate::word::{
    cells_with_sum, data_cells, legal_word, number_of, sum, weight, Cells, CELLS, LARGEST_SUM, LARGEST_VALUE, LAST_CELL,
};

/// The value of the word with the least capacity: "cells 0, 3, 6 up to 45".
pub const SPARSE_VALUE: u32 = 3_889_371_024;

/// The value whose word has every odd cell set: it is legal, and filled.
pub const ODD_VALUE: u32 = 2_971_215_072;

/// The value whose word has cells 0 and 45 set: the set cells of two such words touch, and are legal.
pub const EDGE_VALUE: u32 = 2_971_215_074;

/// Values whose filled words are open: value 3; cells 1, 4, 7 up to 43, with the least capacity; and the odd cells 1 to 43.
/// The fill adds no cell to the latter two. The earlier fill set cell 45 of all three.
pub const OPEN_VALUES: [u32; 3] = [3, OPEN_SPARSE_VALUE, OPEN_ODD_VALUE];
pub const OPEN_SPARSE_VALUE: u32 = 2_403_763_487;
pub const OPEN_ODD_VALUE: u32 = ODD_VALUE - 1;

/// Values whose filled words end in each way: in separators 42 and 44, 41 and 44, 42 and 45 (twice), in 43 after 40 and
/// after 41, and in 43 and 45 after 40 and after 41.
pub const END_VALUES: [u32; 8] = [0, 243, 1, SPARSE_VALUE, 3, OPEN_ODD_VALUE, 4, ODD_VALUE];

/// The values of document 01's list.
pub const LISTED_VALUES: [u32; 7] = [0, 1, 2, 3, 77, 243, SPARSE_VALUE];

/// The value whose word's fill takes this many pulses, 0 to 23: so many even cells are followed by set odd cells alone.
pub fn value_with_pulses(pulses: usize) -> u32 {
    let cells = std::array::from_fn(|cell| cell % 2 == 1 && cell > 2 * pulses);
    sum(&cells) as u32
}

/// A value: near 0, near the largest, listed, near a weight, or anywhere.
pub fn any_value(random: &mut Random) -> u32 {
    match random.below(6) {
        0 => random.below(300) as u32,
        1 => u32::MAX - random.below(300) as u32,
        2 => random.pick(&LISTED_VALUES),
        3 => (weight(random.below(CELLS)) - 1) as u32 + random.below(3) as u32,
        _ => random.draw() as u32,
    }
}

/// A word without neighbours whose sum exceeds 4294967295, by little, by as much as can be, or by any amount.
pub fn sum_too_large(random: &mut Random) -> Cells {
    let excess = LARGEST_SUM - LARGEST_VALUE - 1;
    let above = match random.below(4) {
        0 => random.draw() % 20,
        1 => excess - random.draw() % 20,
        _ => random.draw() % (excess + 1),
    };
    cells_with_sum(LARGEST_VALUE + 1 + above)
}

/// The word with this cell and the next one set as well.
pub fn with_neighbours(mut cells: Cells, cell: usize) -> Cells {
    cells[cell] = true;
    cells[cell + 1] = true;
    cells
}

/// A word that is not legal, for either reason.
pub fn illegal(random: &mut Random) -> Cells {
    if random.one_in(2) {
        return sum_too_large(random);
    }
    let cells = legal_word(any_value(random));
    with_neighbours(cells, random.below(CELLS - 1))
}

/// A word that is sound in no state: two neighbours are set, a data cell is set, from cell 9 on there is a hole, and the sum
/// is too large, with the neighbours put to 00 as well.
pub fn never_sound() -> Cells {
    std::array::from_fn(|cell| [0, 2, 4, 6, 7].contains(&cell))
}

/// Where the fill could still set a cell.
#[derive(Clone, Copy, Debug)]
pub enum Hole {
    Start,
    Middle,
    End,
}

impl Hole {
    pub const ALL: [Hole; 3] = [Hole::Start, Hole::Middle, Hole::End];
}

/// The separators of a well-formed word: the first in cell 0 or 1, each two or three cells after the one before it, the
/// last in cell 43, 44 or 45.
fn separators(random: &mut Random) -> Vec<usize> {
    let mut next = random.below(2);
    let mut found = vec![next];
    while next < LAST_CELL - 1 {
        next += random.between(2, 3);
        found.extend((next < CELLS).then_some(next));
    }
    found
}

/// The word with these separators, and no data.
fn without_data(separators: &[usize]) -> Cells {
    std::array::from_fn(|cell| separators.contains(&cell))
}

/// The word with these separators and any bits in their data cells.
fn with_data(random: &mut Random, separators: &[usize]) -> Cells {
    let mut cells = without_data(separators);
    for &separator in separators {
        if separator + 1 < CELLS {
            cells[separator + 1] = random.one_in(2);
        }
    }
    cells
}

/// A well-formed word with any data.
pub fn well_formed(random: &mut Random) -> Cells {
    let separators = separators(random);
    with_data(random, &separators)
}

/// A well-formed word with no data cell set.
pub fn unwritten(random: &mut Random) -> Cells {
    without_data(&separators(random))
}

/// The separators of a well-formed word, one of which is missing; at the end, any in cell 44 or 45.
fn separators_with_hole(random: &mut Random, hole: Hole) -> Vec<usize> {
    let mut separators = separators(random);
    let last = separators.len() - 1;
    match hole {
        Hole::Start => separators.retain(|&cell| cell > 1),
        Hole::Middle => drop(separators.remove(random.between(1, last - 1))),
        Hole::End => separators.retain(|&cell| cell < LAST_CELL - 1),
    }
    separators
}

/// The word of these separators with its hole. A well-formed word may end in cell 43: for a hole at the end, a separator
/// there is missing as well, with its data.
fn opened(mut cells: Cells, separators: &[usize], hole: Hole) -> Cells {
    if matches!(hole, Hole::End) && separators.ends_with(&[LAST_CELL - 2]) {
        cells[LAST_CELL - 2..].fill(false);
    }
    cells
}

/// A word that is not well formed: one separator of a well-formed word is missing, with its data; at the end, what there
/// is from cell 43 on.
pub fn with_hole(random: &mut Random, hole: Hole) -> Cells {
    let separators = separators_with_hole(random, hole);
    opened(with_data(random, &separators), &separators, hole)
}

/// A word that is not well formed, with no data cell set.
pub fn with_bare_hole(random: &mut Random, hole: Hole) -> Cells {
    let separators = separators_with_hole(random, hole);
    opened(without_data(&separators), &separators, hole)
}

/// The filled word without one of its separators but 45, which is a hole.
pub fn without_separator(random: &mut Random, mut filled: Cells) -> Cells {
    let set: Vec<usize> = (0..LAST_CELL).filter(|&cell| filled[cell]).collect();
    filled[random.pick(&set)] = false;
    filled
}

/// A well-formed word with one data cell set.
pub fn with_one_data_cell(random: &mut Random) -> Cells {
    let mut cells = unwritten(random);
    cells[random.pick(&data_cells(&cells))] = true;
    cells
}

/// A word that no filled page has: not well formed, with data or without, with one data cell set, full, or empty.
pub fn not_unwritten(random: &mut Random) -> Cells {
    let hole = random.pick(&Hole::ALL);
    match random.below(6) {
        0 | 1 => with_bare_hole(random, hole),
        2 => with_hole(random, hole),
        3 | 4 => with_one_data_cell(random),
        _ => random.pick(&[[true; CELLS], [false; CELLS]]),
    }
}

/// A word with no two neighbours set, of any sum.
fn without_neighbours(random: &mut Random) -> u64 {
    let draw = random.draw() & random.draw() & ((1 << CELLS) - 1);
    draw & !(draw >> 1)
}

/// The argument of a word entry: legal or damaged, of any kind.
pub fn any_argument(random: &mut Random) -> u64 {
    let legal = number_of(&legal_word(any_value(random)));
    let even = number_of(&cells_with_sum(LARGEST_SUM));
    match random.below(12) {
        0..=2 => legal,
        3 => legal ^ 1 << random.below(CELLS),
        4 => legal ^ 1 << random.between(CELLS, 63),
        5 => random.draw() >> (64 - CELLS),
        6 => random.draw(),
        7 => without_neighbours(random),
        8 => random.draw() % 300,
        9 => (1u64 << 32).wrapping_add(random.draw() % 300).wrapping_sub(150),
        10 => number_of(&cells_with_sum(LARGEST_VALUE - 10 + random.draw() % 20)),
        _ => even ^ random.pick(&[0, 1, 2, 1 << 45, 1 << 46, 1 << 63]),
    }
}

#[cfg(test)]
mod tests {
    use super::*;
    use crate::inspect::{clear_pairs, steps};
    use crate::word::{self, filled, filled_earlier, open, separators_from};
    use std::collections::HashSet;

    #[test]
    fn damaged_words_are_damaged() {
        let mut random = Random::new(1);
        for _ in 0..2_000 {
            assert!(!word::legal(&illegal(&mut random)));
            assert!(word::well_formed(&well_formed(&mut random)));
            assert!(word::unwritten(&unwritten(&mut random)));
            assert!(!word::unwritten(&not_unwritten(&mut random)));
            for hole in Hole::ALL {
                assert!(!word::well_formed(&with_hole(&mut random, hole)));
                let bare = with_bare_hole(&mut random, hole);
                assert!(!word::well_formed(&bare) && word::read_back(&bare).into_iter().all(|cell| !bare[cell]));
            }
            let written = with_one_data_cell(&mut random);
            assert!(word::well_formed(&written) && !word::unwritten(&written));
            let legal = legal_word(any_value(&mut random));
            for cells in [filled(&legal), filled_earlier(&legal)] {
                assert!(!word::well_formed(&without_separator(&mut random, cells)));
            }
        }
    }

    #[test]
    fn a_word_that_is_sound_in_no_state() {
        let cells = never_sound();
        assert_eq!((word::legal(&cells), word::well_formed(&cells), word::unwritten(&cells)), (false, false, false));
        assert_eq!((word::read_back(&cells), cells[7]), (vec![1, 3, 5, 7], true));
        for count in 0..=CELLS {
            let mut read = cells;
            clear_pairs(&mut read, &steps(&cells, count));
            assert!(!word::legal(&read), "{count}");
        }
    }

    /// A well-formed word ends in one separator or two from cell 43 on; with a hole at the end, in none.
    #[test]
    fn every_end_of_a_word() {
        let mut random = Random::new(2);
        let sound: HashSet<_> = (0..500).map(|_| separators_from(&unwritten(&mut random), 43)).collect();
        assert_eq!(sound, HashSet::from([vec![43], vec![44], vec![45], vec![43, 45]]));
        let written: HashSet<_> = (0..500).map(|_| separators_from(&well_formed(&mut random), 43)).collect();
        assert_eq!(written, sound);
        for _ in 0..500 {
            assert_eq!(separators_from(&with_hole(&mut random, Hole::End), 43), []);
            assert_eq!(separators_from(&with_bare_hole(&mut random, Hole::End), 43), []);
        }
    }

    #[test]
    fn the_ends_of_the_end_values() {
        let ends = END_VALUES.map(|value| separators_from(&filled(&legal_word(value)), 40));
        let wanted = [&[40, 42, 44][..], &[41, 44], &[40, 42, 45], &[42, 45]];
        let about_43 = [&[40, 43][..], &[41, 43], &[40, 43, 45], &[41, 43, 45]];
        assert_eq!(ends.to_vec(), [wanted, about_43].concat());
    }

    /// The earlier fill set cell 45 of these words, which the fill leaves at 0; capacities 22, 15 and 22.
    #[test]
    fn the_open_values() {
        let words = OPEN_VALUES.map(legal_word);
        assert!(words.iter().all(|legal| open(&filled(legal)) && filled_earlier(legal)[45]));
        assert_eq!(words.map(|legal| word::capacity(&legal)), [22, 15, 22]);
        assert_eq!(words.map(|legal| word::pulses(&legal)), [21, 0, 0]);
        assert_eq!(words[1], std::array::from_fn(|cell| cell % 3 == 1 && cell < 45));
        assert_eq!(words[2], std::array::from_fn(|cell| cell % 2 == 1 && cell < 45));
    }
}
