//! Words: weights, legal words, the fill, the fill as it was before Change 6, capacity, pulses, reading back and
//! well-formed words.

use crate::answer::{fill_result, refuse_if, Answer, Refusal};

/// "A word has cells 0 to 45".
pub const CELLS: usize = 46;

/// Cell 45: "A separator in cell 45 carries no data."
pub const LAST_CELL: usize = CELLS - 1;

/// The cells of one word, cell 0 first; `true` is a set cell.
pub type Cells = [bool; CELLS];

/// The most that the set weights of a legal word add up to.
pub const LARGEST_VALUE: u64 = 4_294_967_295;

/// "The 46 cells without neighbours reach 4807526975".
pub const LARGEST_SUM: u64 = 4_807_526_975;

/// The most pulses of a fill: value 0 has no cell set, and takes "every even cell".
pub const PULSES_MOST: usize = 23;

/// Weight number 1 first.
const WEIGHTS: [u64; CELLS] = weights();

/// "The weights are 1, 2, 3, 5, 8 and so on, each the sum of the two before it".
const fn weights() -> [u64; CELLS] {
    let mut weights = [1; CELLS];
    weights[1] = 2;
    let mut next = 2;
    while next < CELLS {
        weights[next] = weights[next - 2] + weights[next - 1];
        next += 1;
    }
    weights
}

/// "cell c has weight number 46 − c, counted from 1".
pub fn weight(cell: usize) -> u64 {
    WEIGHTS[CELLS - cell - 1]
}

/// "cell 45 is the bit worth 1 and cell 0 the bit worth 2 to the 45th"; bits above cell 0 are left out.
pub fn cells_of(word: u64) -> Cells {
    std::array::from_fn(|cell| word >> (CELLS - 1 - cell) & 1 == 1)
}

/// The word as a number of 64 bits.
pub fn number_of(cells: &Cells) -> u64 {
    cells.iter().fold(0, |word, &set| word << 1 | u64::from(set))
}

/// The sum of the set weights.
pub fn sum(cells: &Cells) -> u64 {
    (0..CELLS).filter(|&cell| cells[cell]).map(weight).sum()
}

pub fn has_neighbours(cells: &Cells) -> bool {
    cells.windows(2).any(|pair| pair[0] && pair[1])
}

/// "no two neighbouring cells are both set, and the sum of its set weights is at most 4294967295"; there is no bit
/// above cell 0 among cells.
pub fn legal(cells: &Cells) -> bool {
    !has_neighbours(cells) && sum(cells) <= LARGEST_VALUE
}

/// The cells of a word that is legal, or its refusal: 10, 11 or 12.
fn legal_cells(word: u64) -> Result<Cells, Refusal> {
    let cells = cells_of(word);
    refuse_if(word >> CELLS != 0, Refusal::HIGH_BIT)?;
    refuse_if(has_neighbours(&cells), Refusal::NEIGHBOURS)?;
    refuse_if(sum(&cells) > LARGEST_VALUE, Refusal::SUM)?;
    Ok(cells)
}

/// The word without neighbours whose set weights add up to `sum`, at most 4807526975: the largest weights are taken
/// first.
pub fn cells_with_sum(sum: u64) -> Cells {
    let mut rest = sum;
    std::array::from_fn(|cell| {
        let set = weight(cell) <= rest;
        if set {
            rest -= weight(cell);
        }
        set
    })
}

/// "Every 32-bit value has exactly one legal word."
pub fn legal_word(value: u32) -> Cells {
    cells_with_sum(u64::from(value))
}

/// "that cell and both neighbours are 0 [...]; a neighbour outside the word counts as 0".
fn could_be_set(cells: &Cells, cell: usize) -> bool {
    let before = cell > 0 && cells[cell - 1];
    let after = cell + 1 < CELLS && cells[cell + 1];
    !before && !cells[cell] && !after
}

/// "The fill goes through a legal word from cell 0", up to the cell before `end`, and sets each cell that could be set,
/// "counting the cells set so far".
fn filled_before(end: usize, legal: &Cells) -> Cells {
    let mut cells = *legal;
    for cell in 0..end {
        if could_be_set(&cells, cell) {
            cells[cell] = true;
        }
    }
    cells
}

/// "From now on the fill never sets cell 45; a cell 45 set by the first data remains set."
pub fn filled(legal: &Cells) -> Cells {
    filled_before(LAST_CELL, legal)
}

/// The fill as it was before Change 6: it goes "from cell 0 to cell 45" and "therefore also sets cell 45 when cell 44 and
/// cell 45 are 0". It serves to make words and pages as earlier versions left them, and for nothing else.
pub fn filled_earlier(legal: &Cells) -> Cells {
    filled_before(CELLS, legal)
}

/// The data cells of a filled word, lower cells first: "the cell right after a separator in the same word".
pub fn data_cells(filled: &Cells) -> Vec<usize> {
    (1..CELLS).filter(|&cell| filled[cell - 1]).collect()
}

/// "the number of its data cells after the fill".
pub fn capacity(legal: &Cells) -> usize {
    data_cells(&filled(legal)).len()
}

fn set_cells(cells: &Cells) -> usize {
    cells.iter().filter(|&&set| set).count()
}

/// "set cells after minus set cells before".
pub fn pulses(legal: &Cells) -> usize {
    set_cells(&filled(legal)) - set_cells(legal)
}

/// The data cells that reading back finds: "a 0 is passed over; a 1 is a separator, the next cell is a bit of data, and
/// reading goes on after that".
pub fn read_back(cells: &Cells) -> Vec<usize> {
    let mut found = Vec::with_capacity(CELLS / 2);
    let mut cell = 0;
    while cell < CELLS {
        if cells[cell] {
            cell += 1;
            if cell < CELLS {
                found.push(cell);
            }
        }
        cell += 1;
    }
    found
}

/// The word "with its data cells (those that reading back finds) put to 0".
pub fn separators(cells: &Cells) -> Cells {
    let mut separators = *cells;
    for cell in read_back(cells) {
        separators[cell] = false;
    }
    separators
}

/// The separators of a word from this cell on.
#[cfg(test)]
pub fn separators_from(cells: &Cells, first: usize) -> Vec<usize> {
    let separators = separators(cells);
    (first..CELLS).filter(|&cell| separators[cell]).collect()
}

/// "A word is well formed when no cell but 45 could still be set", with its data cells put to 0.
pub fn well_formed(cells: &Cells) -> bool {
    let separators = separators(cells);
    (0..LAST_CELL).all(|cell| !could_be_set(&separators, cell))
}

/// Whether cells 44 and 45 are both 0, with the data cells put to 0. A well-formed word that is open ends in a separator
/// in cell 43; the earlier fill left no such word.
pub fn open(cells: &Cells) -> bool {
    !separators(cells)[LAST_CELL - 1..].contains(&true)
}

/// A word as filling leaves it, and as writing asks for it: neither "not well formed" nor with "a data cell set".
pub fn unwritten(cells: &Cells) -> bool {
    well_formed(cells) && read_back(cells).into_iter().all(|cell| !cells[cell])
}

/// "Takes a 32-bit value, returns its legal word. It never refuses."
pub fn encode_word(value: u32) -> Answer {
    Ok(number_of(&legal_word(value)))
}

/// Returns the value of a legal word.
pub fn decode_word(word: u64) -> Answer {
    legal_cells(word).map(|cells| sum(&cells))
}

/// "The word fill shall return, besides the word, how many cells it newly set."
pub fn fill_word(word: u64) -> Answer {
    legal_cells(word).map(|cells| fill_result(number_of(&filled(&cells)), pulses(&cells)))
}

/// Returns the word's capacity.
pub fn word_capacity(word: u64) -> Answer {
    legal_cells(word).map(|cells| capacity(&cells) as u64)
}

#[cfg(test)]
mod tests {
    use super::*;
    use crate::answer::pulses_in;
    use crate::cases::words::{self, any_value, value_with_pulses, END_VALUES};
    use crate::random::Random;

    /// The number of the word with just these cells set.
    fn with(cells: impl IntoIterator<Item = usize>) -> u64 {
        cells.into_iter().fold(0, |word, cell| word | 1 << (45 - cell))
    }

    fn even(last: usize) -> impl Iterator<Item = usize> {
        (0..=last).step_by(2)
    }

    /// Encodes and decodes; returns the filled word, its pulses and the capacity.
    fn check(value: u32, word: u64) -> (u64, u64, u64) {
        assert_eq!(encode_word(value), Ok(word));
        assert_eq!(decode_word(word), Ok(u64::from(value)));
        let filled = fill_word(word).unwrap();
        (filled & 0xFFFF_FFFF_FFFF, filled >> 48, word_capacity(word).unwrap())
    }

    #[test]
    fn weights_of_the_first_and_the_last_cell() {
        assert_eq!((weight(0), weight(45), weight(44), weight(41)), (2_971_215_073, 1, 2, 8));
    }

    #[test]
    fn value_0() {
        assert_eq!(check(0, 0), (with(even(44)), 23, 23));
    }

    #[test]
    fn value_1() {
        assert_eq!(check(1, with([45])), (with(even(42).chain([45])), 22, 22));
    }

    #[test]
    fn value_2() {
        assert_eq!(check(2, with([44])), (with(even(44)), 22, 23));
    }

    #[test]
    fn value_3() {
        assert_eq!(check(3, with([43])), (with(even(40).chain([43])), 21, 22));
    }

    #[test]
    fn values_77_and_243() {
        let filled = with(even(34).chain([37, 39, 41, 43, 45]));
        assert_eq!(check(77, with([37, 39, 45])), (filled, 20, 22));
        let filled = with(even(38).chain([41, 44]));
        assert_eq!(check(243, with([34, 41, 44])), (filled, 19, 22));
    }

    #[test]
    fn value_3889371024() {
        let word = with((0..=45).step_by(3));
        assert_eq!(check(3_889_371_024, word), (word, 0, 15));
    }

    /// "The reviewer's downward fill": from cell 45 to cell 0, and cell 45 is not set.
    fn filled_downward(legal: &Cells) -> Cells {
        let mut cells = *legal;
        for cell in (0..LAST_CELL).rev() {
            cells[cell] |= could_be_set(&cells, cell);
        }
        cells
    }

    /// It "no longer shows at value 0, but at value 3, with the odd cells 1 to 43"; the capacity does not show it.
    #[test]
    fn a_downward_fill_shows_at_value_3() {
        assert_eq!(filled_downward(&legal_word(0)), filled(&legal_word(0)));
        let downward = filled_downward(&legal_word(3));
        assert_eq!(number_of(&downward), with((1..=43).step_by(2)));
        assert_ne!(downward, filled(&legal_word(3)));
        assert_eq!(data_cells(&downward).len(), capacity(&legal_word(3)));
    }

    /// The fill clears no cell, so that what it newly sets is what there is more.
    #[test]
    fn pulses_are_the_newly_set_cells() {
        let mut random = Random::new(8);
        for _ in 0..2_000 {
            let before = legal_word(any_value(&mut random));
            let after = filled(&before);
            let newly_set = (0..CELLS).filter(|&cell| after[cell] && !before[cell]).count();
            assert_eq!(pulses(&before), newly_set);
            assert!((0..CELLS).all(|cell| after[cell] || !before[cell]));
        }
    }

    #[test]
    fn every_number_of_pulses() {
        for wanted in 0..=PULSES_MOST {
            let cells = legal_word(value_with_pulses(wanted));
            assert_eq!(pulses(&cells), wanted);
            assert_eq!(fill_word(number_of(&cells)).map(pulses_in), Ok(wanted));
        }
    }

    #[test]
    fn every_even_cell_set() {
        let word = with(even(44));
        assert_eq!(decode_word(word), Err(Refusal::SUM));
        assert_eq!(sum(&cells_of(word)), 4_807_526_975);
    }

    #[test]
    fn cells_0_and_1_set() {
        assert_eq!(decode_word(with([0, 1])), Err(Refusal::NEIGHBOURS));
    }

    #[test]
    fn value_0_filled_and_written_with_23_ones() {
        let mut cells = filled(&legal_word(0));
        let data = data_cells(&cells);
        assert_eq!(data.len(), 23);
        for cell in data {
            cells[cell] = true;
        }
        assert_eq!(cells, [true; CELLS]);
    }

    #[test]
    fn the_first_refusal_in_the_stated_order() {
        let all_three = 1 << 46 | with([0, 1, 2, 4]);
        for entry in [decode_word, fill_word, word_capacity] {
            assert_eq!(entry(all_three), Err(Refusal::HIGH_BIT));
            assert_eq!(entry(with([0, 1, 2, 4])), Err(Refusal::NEIGHBOURS));
            assert_eq!(entry(number_of(&cells_with_sum(LARGEST_VALUE + 1))), Err(Refusal::SUM));
            assert!(entry(number_of(&cells_with_sum(LARGEST_VALUE))).is_ok());
        }
    }

    #[test]
    fn a_set_data_cell_is_not_the_next_separator() {
        assert_eq!(read_back(&cells_of(with([0, 1, 2]))), [1, 3]);
        assert_eq!(read_back(&cells_of(with([45]))), []);
    }

    /// The word with one of its cells flipped.
    fn flipped(mut cells: Cells, cell: usize) -> Cells {
        cells[cell] = !cells[cell];
        cells
    }

    /// Of a filled word, each cell but 45 counts: a separator that is missing, a data cell that is set, and a cell before
    /// the first separator or between a data cell and the next separator, which then is a separator itself. Cell 45
    /// counts unless there is a separator in cell 43: else it is the data cell of cell 44, or cell 44 could be set
    /// without it.
    #[test]
    fn a_filled_word_is_unwritten_and_stays_so_with_no_other_cell_but_45() {
        for value in [0, 1, 2, 3, 4, 77, 243, 3_889_371_024, u32::MAX].into_iter().chain(END_VALUES) {
            let cells = filled(&legal_word(value));
            assert!(unwritten(&cells), "{value}");
            for cell in 0..CELLS {
                let other = flipped(cells, cell);
                let data = data_cells(&cells).contains(&cell);
                assert_eq!(unwritten(&other), cell == 45 && cells[43], "{value}, cell {cell}");
                assert!(!data || well_formed(&other), "{value}, cell {cell}");
            }
        }
    }

    /// The word with every cell set is well formed, and each of its data cells is set.
    #[test]
    fn a_full_word_is_well_formed_and_written() {
        assert!(well_formed(&[true; CELLS]));
        assert_eq!(read_back(&[true; CELLS]).len(), 23);
        assert!(!unwritten(&[true; CELLS]));
    }

    /// "Every such word comes from some legal first word": without cell 0, which the fill sets again, its sum is small.
    #[test]
    fn an_unwritten_word_is_the_fill_of_a_legal_word() {
        let closed = [0x2AAA_AAAA_AAAA, 0x1555_5555_5555, 0x2492_4924_9249, 0x2AAA_AAAA_AAA9, 0x2AAA_AAAA_AAA5];
        let open_words = [0x1555_5555_5554, 0x1249_2492_4924, 0x2AAA_AAAA_AAA4];
        for word in closed.into_iter().chain(open_words) {
            let cells = cells_of(word);
            assert!(unwritten(&cells), "{word:#x}");
            assert_eq!(open(&cells), open_words.contains(&word), "{word:#x}");
            let first = cells_of(word & !(1 << 45));
            assert!(legal(&first), "{word:#x}");
            assert_eq!(number_of(&filled(&first)), word);
        }
    }

    #[test]
    fn holes_are_not_well_formed() {
        assert!(well_formed(&cells_of(with(even(44)))));
        assert!(well_formed(&cells_of(with((1..=45).step_by(2)))));
        assert!(!well_formed(&cells_of(with((2..=44).step_by(2)))));
        assert!(!well_formed(&cells_of(with(even(42)))));
        assert!(!well_formed(&cells_of(with(even(42).chain([43])))));
        assert!(!well_formed(&cells_of(with(even(44).filter(|&cell| cell != 20)))));
        assert!(well_formed(&cells_of((1 << CELLS) - 1)));
    }

    /// "no cell but 45 could still be set": a hole of cell 45 alone is none, with data in cell 44 and without.
    #[test]
    fn a_hole_of_cell_45_alone_is_none() {
        for start in [with((1..=43).step_by(2)), with(even(40).chain([43])), with((1..=43).step_by(3))] {
            for (end, is_open) in [(with([]), true), (with([44]), true), (with([45]), false), (with([44, 45]), false)] {
                let cells = cells_of(start | end);
                assert!(well_formed(&cells), "{start:#x} {end:#x}");
                assert_eq!(open(&cells), is_open, "{start:#x} {end:#x}");
            }
        }
        // Without the separator in cell 43 there is another hole, with cell 45 and without it.
        for end in [with([]), with([45])] {
            assert!(!well_formed(&cells_of(with((1..=41).step_by(2)) | end)));
            assert!(!well_formed(&cells_of(with(even(40)) | end)));
        }
    }

    /// Words of every small value, about every weight, of every number of pulses and of every end, and of any value.
    fn many_words() -> Vec<Cells> {
        let mut random = Random::new(45);
        let about_weights = (0..CELLS).flat_map(|cell| [0, 1, 2].map(|more| (weight(cell) - 1) as u32 + more));
        let values = (0..3_000).chain(about_weights).chain((0..=PULSES_MOST).map(value_with_pulses));
        let values = values.chain(END_VALUES).chain((0..300).map(|less| u32::MAX - less));
        let mut values: Vec<u32> = values.collect();
        values.extend((0..3_000).map(|_| any_value(&mut random)));
        values.into_iter().map(legal_word).collect()
    }

    /// "a cell 45 set by the first data remains set", and no other cell 45 is set.
    #[test]
    fn the_fill_leaves_cell_45() {
        for legal in many_words() {
            assert_eq!(filled(&legal)[45], legal[45]);
        }
    }

    /// The earlier fill sets the same cells and cell 45 besides, just where cells 44 and 45 are 0; "Capacities do not
    /// move."
    #[test]
    fn the_earlier_fill_sets_cell_45_besides() {
        let mut added = [0, 0];
        for legal in many_words() {
            let (now, earlier) = (filled(&legal), filled_earlier(&legal));
            assert_eq!(earlier[..45], now[..45]);
            assert_eq!(earlier[45], now[45] || open(&now));
            assert_eq!(open(&now), now[43] && !legal[45]);
            assert_eq!(data_cells(&earlier), data_cells(&now));
            assert_eq!(read_back(&earlier), read_back(&now));
            assert_eq!(set_cells(&earlier) - set_cells(&now), usize::from(open(&now)));
            assert!(!open(&earlier));
            added[usize::from(earlier != now)] += 1;
        }
        assert!(added[0] > 1_000 && added[1] > 1_000, "{added:?}");
    }

    /// The bits of a word: all 0, all 1, by turns, and any.
    fn many_bits(random: &mut Random, count: usize) -> Vec<Vec<bool>> {
        let fixed = [|_| false, |_| true, |place| place % 2 == 0, |place| place % 2 == 1];
        let mut bits: Vec<Vec<bool>> = fixed.map(|bit: fn(usize) -> bool| (0..count).map(bit).collect()).to_vec();
        bits.extend((0..4).map(|_| (0..count).map(|_| random.one_in(2)).collect::<Vec<bool>>()));
        bits
    }

    /// The filled word with these bits in its data cells.
    fn with_bits(filled: &Cells, bits: &[bool]) -> Cells {
        let mut cells = *filled;
        for (cell, &bit) in data_cells(filled).into_iter().zip(bits) {
            cells[cell] = bit;
        }
        cells
    }

    /// Every word of either fill with any bits in its data cells, and that word before them.
    fn written_words() -> Vec<(Cells, Vec<bool>, Cells)> {
        let mut random = Random::new(46);
        let filled_words = many_words().into_iter().flat_map(|legal| [filled(&legal), filled_earlier(&legal)]);
        let with_any_bits = |filled: Cells| {
            let bits = many_bits(&mut random, data_cells(&filled).len());
            bits.into_iter().map(move |bits| (with_bits(&filled, &bits), bits, filled))
        };
        filled_words.flat_map(with_any_bits).collect()
    }

    /// "which admits every page filled earlier": a word of either fill is well formed with any bits, and they are read
    /// back.
    #[test]
    fn words_of_either_fill_with_any_bits() {
        for (cells, bits, filled) in written_words() {
            assert!(well_formed(&cells));
            let found: Vec<bool> = read_back(&cells).into_iter().map(|cell| cells[cell]).collect();
            assert_eq!(found, bits);
            assert_eq!(separators(&cells), filled);
            assert_eq!(unwritten(&cells), !bits.contains(&true));
        }
    }

    /// A word of the earlier fill is the fill of a legal word too, in which the first data set cell 45; without cell 0,
    /// which the fill sets again, its sum is small.
    #[test]
    fn a_word_of_the_earlier_fill_is_the_fill_of_a_legal_word() {
        for word in many_words() {
            let earlier = filled_earlier(&word);
            let first = std::array::from_fn(|cell| cell > 0 && earlier[cell]);
            assert!(legal(&first));
            assert_eq!(filled(&first), earlier);
        }
    }

    /// Cell 45 alone, taken away or added: the data cells stay the same; the word is well formed where cell 44 is a
    /// separator, or has one before it.
    #[test]
    fn cell_45_alone() {
        for (cells, bits, filled) in written_words() {
            let other = flipped(cells, 45);
            assert_eq!(read_back(&other), read_back(&cells));
            assert_eq!(well_formed(&other), filled[43] || filled[44]);
            assert!(bits.contains(&true) || unwritten(&other) == filled[43]);
        }
    }

    /// What was well formed before Change 6: "no cell of it could still be set by the fill".
    fn well_formed_earlier(cells: &Cells) -> bool {
        let separators = separators(cells);
        (0..CELLS).all(|cell| !could_be_set(&separators, cell))
    }

    /// What was well formed is so still; "The reverse does not hold" where cells 44 and 45 are 0, and there alone.
    #[test]
    fn what_was_well_formed_before() {
        let mut random = Random::new(47);
        let any = [(); 2_000].map(|()| words::well_formed(&mut random));
        let cells = [(); 2_000].map(|()| cells_of(random.draw()));
        let written = written_words().into_iter().map(|(cells, ..)| cells);
        for cells in written.chain(any).chain(cells) {
            assert_eq!(well_formed_earlier(&cells), well_formed(&cells) && !open(&cells));
        }
    }
}
