//! The fixed pages for the listing program and for the gain program, and pages of one kind: all of 256 bytes.

use crate::cases::inspect::{any_inspect, first_taking_less, inspect_page, longest_of, RECORDS};
use crate::cases::pages::*;
use crate::cases::words::{
    any_value, illegal, sum_too_large, value_with_pulses, with_bare_hole, with_hole, with_neighbours, Hole, EDGE_VALUE,
    ODD_VALUE, OPEN_ODD_VALUE, OPEN_SPARSE_VALUE, SPARSE_VALUE,
};
use crate::listing::{described, Kind};
use crate::page::{data_cells_of, words_of};
use crate::random::Random;
use crate::shape::SMALL;
use crate::word::{legal_word, sum, Cells, CELLS};

const LISTING_SEED: u64 = 4_096;
const SHEET_SEED: u64 = 640;
const ALIKE_SEED: u64 = 1_408;

/// Pages of every kind and of every `bad` number, and a last piece of 255 bytes that lacks one byte of a valid page.
pub fn listing_pages() -> Vec<u8> {
    let mut random = Random::new(LISTING_SEED);
    let states = [0x02, 0x05, 0x0B, 0xFF].map(|state| with_byte(any_first(&mut random, SMALL), 0, state));
    let filled_states = [0x02, 0x13, 0x83].map(|state| with_byte(any_filled(&mut random, SMALL), 0, state));
    let last = vec![any_filled(&mut random, SMALL)[..SMALL.bytes - 1].to_vec()];
    let kinds = [blanks, firsts, filleds, seconds, bad_firsts, bad_filleds, bad_seconds, both_fills, cells_45, lacking];
    let kinds = kinds.into_iter().chain([inspects, bad_inspects]);
    let pages: Vec<_> = kinds.map(|kind| kind(&mut random)).collect();
    pages.into_iter().chain([states.to_vec(), filled_states.to_vec(), last]).flatten().flatten().collect()
}

/// Pages of every kind in a mixed order, each kind in a number of its own, and a last piece of 255 bytes. That piece lacks
/// the last byte, a 0, of a first-round page, and comes after a blank page: a buffer of 256 bytes, fresh or used before,
/// would make a page of it.
pub fn sheet_pages() -> Vec<u8> {
    let mut random = Random::new(SHEET_SEED);
    let kinds = [blanks, firsts, filleds, seconds, seconds_of_80, bad_firsts, bad_filleds, bad_seconds, unknown_states];
    let kinds = kinds.into_iter().chain([both_fills, cells_45, lacking, inspects, bad_inspects]);
    let pages = kinds.flat_map(|kind| kind(&mut random)).collect();
    let end = [blank(&mut random, SMALL), page_of(SMALL, 0)[..SMALL.bytes - 1].to_vec()];
    [mixed(&mut random, pages), end.to_vec()].concat().concat()
}

/// The pages in any order.
fn mixed(random: &mut Random, mut pages: Vec<Vec<u8>>) -> Vec<Vec<u8>> {
    for place in (1..pages.len()).rev() {
        pages.swap(place, random.below(place + 1));
    }
    pages
}

/// What pages of one kind are.
#[derive(Clone, Copy, Debug)]
pub enum Alike {
    /// Pages of one kind of the listing, which differ in what the kind leaves open. Second-round pages are of the fill
    /// code, with the longest records.
    Listed(Kind),
    /// The page of the Inspect code with the longest record, which the listing calls second.
    Inspect,
}

impl Alike {
    /// The kind with this name.
    pub fn named(name: &str) -> Option<Alike> {
        match name {
            "inspect" => Some(Alike::Inspect),
            _ => Kind::named(name).map(Alike::Listed),
        }
    }

    fn page(self, random: &mut Random) -> Vec<u8> {
        match self {
            Alike::Listed(Kind::Blank) => blank(random, SMALL),
            Alike::Listed(Kind::First) => any_first(random, SMALL),
            Alike::Listed(Kind::Filled) => any_filled(random, SMALL),
            Alike::Listed(Kind::Second) => longest_second(random),
            Alike::Listed(Kind::Bad) => any_bad(random),
            Alike::Inspect => longest_inspect(),
        }
    }
}

/// Pages of one kind.
pub fn alike(kind: Alike, count: usize) -> impl Iterator<Item = Vec<u8>> {
    let mut random = Random::new(ALIKE_SEED);
    (0..count).map(move |_| kind.page(&mut random))
}

/// The page of 176 zero bytes with a record of 247 zero bytes by the Inspect code.
fn longest_inspect() -> Vec<u8> {
    inspect_page(&page_of(SMALL, 0), &[0; SMALL.inspect_bytes_most])
}

/// A second-round page with a record of 126 bytes.
fn longest_second(random: &mut Random) -> Vec<u8> {
    let first = first_page(&roomy_values(random));
    second_page(&first, &any_record(random, SMALL.second_bytes_most))
}

/// The values of a first-round page that 126 bytes fit: its capacity is at most 4 below the most, 1,012.
fn roomy_values(random: &mut Random) -> Vec<u32> {
    let mut values = drawn_values(random, SMALL, even_value);
    for _ in 0..random.between(0, 4) {
        // Cell 45 is set and has no data cell, so the word's capacity is 22.
        values[random.below(SMALL.words)] = value_with_pulses(random.between(0, 22));
    }
    values
}

/// A value of capacity 23: some even cells are set, and the fill sets the other ones. Without cell 0, every such sum is
/// small enough.
fn even_value(random: &mut Random) -> u32 {
    let cells = std::array::from_fn(|cell| cell > 0 && cell % 2 == 0 && random.one_in(2));
    sum(&cells) as u32
}

/// A page that the listing calls bad, for any reason.
fn any_bad(random: &mut Random) -> Vec<u8> {
    loop {
        let page = any_page(random, SMALL);
        if described(&page).kind == Kind::Bad {
            return page;
        }
    }
}

/// The blank page, and pages of state 00 with another byte set.
fn blanks(random: &mut Random) -> Vec<Vec<u8>> {
    let blank = blank(random, SMALL);
    let [first, filled] = [any_first, any_filled].map(|page| with_byte(page(random, SMALL), 0, 0x00));
    vec![blank.clone(), with_byte(blank.clone(), 1, 1), with_byte(blank, 255, 1), first, filled]
}

/// First-round pages: both capacity ends, and pages between.
fn firsts(random: &mut Random) -> Vec<Vec<u8>> {
    vec![page_of(SMALL, 0), page_of(SMALL, SPARSE_VALUE), any_first(random, SMALL), any_first(random, SMALL)]
}

/// Filled pages: both capacity ends, words whose ends touch, pages between, and one whose cells are also those of a
/// first-round page.
fn filleds(random: &mut Random) -> Vec<Vec<u8>> {
    let mut filled: Vec<_> = firsts(random).iter().map(|first| filled_page(first)).collect();
    filled.push(filled_page(&page_of(SMALL, EDGE_VALUE)));
    filled.push(with_byte(page_of(SMALL, SPARSE_VALUE), 0, 0x03));
    filled
}

/// Second-round pages with records of 0, 1, 82 and 126 bytes, and a filled page in their state.
fn seconds(random: &mut Random) -> Vec<Vec<u8>> {
    let (most, least) = (page_of(SMALL, 0), page_of(SMALL, SPARSE_VALUE));
    let mut seconds = [(&most, 0), (&most, 126), (&least, 0), (&least, 1), (&least, 82)]
        .map(|(first, length)| second_page(first, &random.bytes(length)))
        .to_vec();
    seconds.push(with_byte(any_filled(random, SMALL), 0, 0x07));
    seconds
}

/// Second-round pages with records of 80 bytes, over the most and the least capacity.
fn seconds_of_80(random: &mut Random) -> Vec<Vec<u8>> {
    [0, SPARSE_VALUE].map(|value| second_page(&page_of(SMALL, value), &random.bytes(80))).to_vec()
}

/// Pages that are valid but for an unknown state.
fn unknown_states(random: &mut Random) -> Vec<Vec<u8>> {
    vec![
        with_byte(any_first(random, SMALL), 0, 0x02),
        with_byte(any_filled(random, SMALL), 0, 0x83),
        with_byte(longest_second(random), 0, 0x0F),
    ]
}

/// Pages of state 01 that are bad 6 and bad 7.
fn bad_firsts(random: &mut Random) -> Vec<Vec<u8>> {
    let neighbours = with_neighbours(legal_word(any_value(random)), 44);
    let sum = sum_too_large(random);
    let both = with_byte(with_word(any_first(random, SMALL), 9, illegal(random)), 1, 1);
    vec![
        with_byte(any_first(random, SMALL), 1, 1),
        with_byte(any_first(random, SMALL), 2, 1),
        both,
        with_word(any_first(random, SMALL), 0, neighbours),
        with_word(any_first(random, SMALL), 43, sum),
        with_byte(second_page(&page_of(SMALL, 0), &[]), 0, 0x01),
        with_byte(filled_page(&page_of(SMALL, 0)), 0, 0x01),
    ]
}

/// Pages of state 03 that are bad 6 and bad 7.
fn bad_filleds(random: &mut Random) -> Vec<Vec<u8>> {
    let most = filled_page(&page_of(SMALL, 0));
    let headers =
        [(1, 1), (1, 126), (2, 1), (2, 0x80)].map(|(place, byte)| with_byte(any_filled(random, SMALL), place, byte));
    let both = with_byte(with_word(any_filled(random, SMALL), 9, with_bare_hole(random, Hole::Middle)), 2, 1);
    let [start, end] = end_holes();
    let middle = with_bare_hole(random, Hole::Middle);
    let words = [(0, start), (20, middle), (43, end), (0, [false; CELLS]), (22, [true; CELLS])]
        .map(|(index, damaged)| with_word(any_filled(random, SMALL), index, damaged));
    // The data cells of the first and of the last word, at their ends.
    let data = [0, 22, 23 * 43, 23 * 44 - 1].map(|place| with_data_cell(most.clone(), place));
    // The lower of two words counts, but the listing tells no index.
    let two = with_word(with_data_cell(most, 500), 43, end);
    let first = with_byte(page_of(SMALL, 0), 0, 0x03);
    let second = with_byte(second_page(&page_of(SMALL, 0), &[0xFF; 126]), 0, 0x03);
    let others = vec![both, two, first, with_byte(second.clone(), 1, 0), second];
    [&headers, &words[..], &data, &others].concat()
}

/// Holes of cell 0 alone and of cell 44 alone, for a hole of cell 45 does not count.
fn end_holes() -> [Cells; 2] {
    let start = std::array::from_fn(|cell| cell % 2 == 0 && cell > 0);
    let end = std::array::from_fn(|cell| cell % 2 == 0 && cell < 44);
    [start, end]
}

/// Pages of state 07 that are bad 6, bad 7 and bad 9.
fn bad_seconds(random: &mut Random) -> Vec<Vec<u8>> {
    let [start, end] = end_holes();
    let holes = [(0, start), (20, with_hole(random, Hole::Middle)), (43, end)]
        .map(|(index, damaged)| with_word(any_second(random, SMALL), index, damaged));
    let full = second_page(&page_of(SMALL, SPARSE_VALUE), &random.bytes(82));
    let last_cell = data_cells_of(&words_of(&full)).len() - 1;
    let bad = vec![
        with_byte(any_second(random, SMALL), 1, 127),
        with_byte(any_second(random, SMALL), 2, 0x80),
        with_byte(full.clone(), 1, 83),
        with_data_cell(full.clone(), last_cell),
    ];
    // Byte 1 alone would be a length of the page.
    let lengths = [256, 256 + 82].map(|length| with_length(full.clone(), length));
    [bad, holes.to_vec(), lengths.to_vec()].concat()
}

/// Filled pages with open words, and second-round pages over them with the longest records and one of 40 bytes; and the
/// same as versions before Change 6 left them.
fn both_fills(random: &mut Random) -> Vec<Vec<u8>> {
    let any = first_page(&drawn_values(random, SMALL, any_value));
    let firsts = [(page_of(SMALL, 3), 121), (page_of(SMALL, OPEN_SPARSE_VALUE), 82), (any, 40)];
    let mut pages = Vec::new();
    for ((first, length), fill) in firsts.iter().flat_map(|first| FILLINGS.map(|fill| (first, fill))) {
        let filled = fill(first);
        pages.push(written_over(filled.clone(), &any_record(random, *length)));
        pages.push(filled);
    }
    pages
}

/// Filled pages, and second-round pages with records of 60 bytes, with cell 45 of the first or the last word flipped. It
/// may be either after a separator in cell 43, as values 3 and 4 have it; the word of value 1 needs it; and in the last
/// word of value 0 it is a spare data cell. At the end, such pages whose last word has the odd cells 1 to 43: a hole of
/// cell 45 alone, which is none.
fn cells_45(random: &mut Random) -> Vec<Vec<u8>> {
    let mut pages = Vec::new();
    for (value, index) in [(3, 0), (4, 43), (1, 0), (0, 43)] {
        let filled = filled_page(&page_of(SMALL, value));
        pages.push(with_cell_45_flipped(written_over(filled.clone(), &random.bytes(60)), index));
        pages.push(with_cell_45_flipped(filled, index));
    }
    let filled = any_filled(random, SMALL);
    let second = written_over(filled.clone(), &random.bytes(60));
    pages.extend([second, filled].map(|page| with_word(page, SMALL.words - 1, legal_word(OPEN_ODD_VALUE))));
    pages
}

/// Filled pages of both fills that lack another cell of the fill than 45, in the first or the last word.
fn lacking(random: &mut Random) -> Vec<Vec<u8>> {
    let first = page_of(SMALL, 3);
    let filled = [(filled_page(&first), 0), (filled_page_earlier(&first), SMALL.words - 1)];
    filled.map(|(filled, index)| without_separator(random, filled, index)).to_vec()
}

/// Pages of the Inspect code: records of zeros and of ones at the ends of what goes in, records that walk every bit of
/// the page, records of other kinds, and a page with no record, but for its state a first-round page.
fn inspects(random: &mut Random) -> Vec<Vec<u8>> {
    let [most, sparse, odd] = [0, SPARSE_VALUE, ODD_VALUE].map(|value| page_of(SMALL, value));
    let fixed = [(&most, 0, 0), (&most, 1, 0xFF), (&most, 126, 0xFF), (&most, 127, 0x00), (&most, 247, 0x00)];
    let others =
        [(&sparse, 165, 0x00), (&sparse, 126, 0xFF), (&odd, 126, 0x00), (&first_taking_less(SMALL, 4), 247, 0x00)];
    let fixed = fixed.into_iter().chain(others);
    let mut pages: Vec<_> = fixed.map(|(first, length, byte)| inspect_page(first, &vec![byte; length])).collect();
    for kind in RECORDS {
        let first = any_first(random, SMALL);
        let record = kind(random, 127);
        pages.push(inspect_page(&first, &longest_of(&first, record)));
    }
    pages.push(with_byte(any_first(random, SMALL), 0, 0x09));
    pages
}

/// Pages of state 09 that are bad 6, bad 7 and bad 9: a length above the limit, by each of its bytes; a sum too large, read and not read;
/// neighbours after the last bit, in its word and in the last one; a length one bit and more too large for the walks; and
/// pages with two of these.
fn bad_inspects(random: &mut Random) -> Vec<Vec<u8>> {
    let headers =
        [(1, 248), (1, 255), (2, 1), (2, 0x80)].map(|(place, byte)| with_byte(any_inspect(random, SMALL), place, byte));
    // The record of 20 zero bytes ends before cell 25 of word 3.
    let zeros = inspect_page(&page_of(SMALL, 0), &[0; 20]);
    let sum = sum_too_large(random);
    let sums = [0, 3, 4, 43].map(|index| with_word(zeros.clone(), index, sum));
    let neighbours = [(3, 25), (3, 44), (4, 0), (43, 44)];
    let pairs = neighbours.map(|(index, cell)| with_word(zeros.clone(), index, with_neighbours([false; CELLS], cell)));
    let ones = with_byte(inspect_page(&page_of(SMALL, 0), &[0xFF; 126]), 1, 125);
    let one_bit = with_byte(inspect_page(&first_taking_less(SMALL, 5), &[0; 246]), 1, 247);
    let more = with_byte(inspect_page(&page_of(SMALL, SPARSE_VALUE), &[0; 165]), 1, 166);
    let sum_too = with_word(more.clone(), 43, sum);
    let header_too = with_byte(sum_too.clone(), 2, 1);
    let filled = with_byte(filled_page(&page_of(SMALL, 0)), 0, 0x09);
    // The walks reach 247 bytes; with byte 2 at 1, byte 1 alone would be a length that they reach too.
    let lengths = [248, 256, 276, 495].map(|length| with_length(zeros.clone(), length));
    [&headers, &sums, &pairs, &[ones, one_bit, more, sum_too, header_too, filled][..], &lengths].concat()
}

#[cfg(test)]
mod tests {
    use super::*;
    use crate::listing::{listing, pieces, Described};
    use crate::sheet::{gain, sheet};
    use std::collections::HashSet;

    #[test]
    fn every_kind_and_every_bad_number() {
        let text = listing(&listing_pages());
        let met: Vec<&str> = text.lines().map(|line| line.split_once(' ').expect("an index and a kind").1).collect();
        for bad in [1, 4, 5, 6, 7, 9] {
            assert!(met.contains(&format!("bad {bad}").as_str()), "bad {bad}");
        }
        let kinds = ["blank 0", "first 660", "first 1012", "filled 660", "filled 968", "filled 1012"];
        let seconds = ["second 0", "second 1", "second 82", "second 121", "second 126", "second 127", "second 247"];
        for kind in kinds.into_iter().chain(seconds) {
            assert!(met.contains(&kind), "{kind}");
        }
    }

    /// What the listing says of pages of the fill, and of pages as versions before Change 6 left them, is the same.
    #[test]
    fn pages_of_both_fills() {
        let pages = both_fills(&mut Random::new(10));
        let pairs = pages.chunks(4).flat_map(|four| [(&four[0], &four[2]), (&four[1], &four[3])]);
        for (now, earlier) in pairs.clone() {
            assert_ne!(now[3..], earlier[3..]);
            assert_eq!(described(now), described(earlier));
        }
        let lines: Vec<String> = pairs.map(|(now, _)| described(now).to_string()).collect();
        assert_eq!(lines[..5], ["second 121", "filled 968", "second 82", "filled 660", "second 40"]);
    }

    #[test]
    fn pages_with_cell_45_flipped_and_pages_that_lack_another_cell() {
        let lines = |pages: Vec<Vec<u8>>| pages.iter().map(|page| described(page).to_string()).collect::<Vec<_>>();
        let lines_45 = lines(cells_45(&mut Random::new(10)));
        let flipped = ["second 60", "filled 968", "second 60", "filled 968", "bad 7", "bad 7", "bad 9", "bad 7"];
        assert_eq!(lines_45[..8], flipped);
        assert!(lines_45[8] == "second 60" && lines_45[9].starts_with("filled "), "{lines_45:?}");
        assert_eq!(lines(lacking(&mut Random::new(10))), ["bad 7", "bad 7"]);
    }

    /// In state 03 there are `filled` pages, and no other number of `bad` than 6 and 7.
    #[test]
    fn pages_of_state_03() {
        let pages = listing_pages();
        let filled = pages.chunks(SMALL.bytes).filter(|piece| piece.len() == SMALL.bytes && piece[0] == 0x03);
        let kinds: Vec<String> = filled.map(|page| listing(page).trim_end().to_string()).collect();
        let count = |kind: &str| kinds.iter().filter(|met| met.starts_with(kind)).count();
        assert_eq!((kinds.len(), count("0 filled"), count("0 bad 6"), count("0 bad 7")), (37, 15, 6, 16));
    }

    /// The gain of the sheet's pages: of 4 first-round and 15 filled pages and 3 records of no byte; of records of 1, 82,
    /// 126 and twice 80 bytes; and, with words that end in cell 43, of twice 121, 82 and 40 and of three times 60 bytes.
    const GAIN: i64 = 22 * -640 - 632 + 16 + 368 + 2 * (328 + 16 - 320) - 3 * 160 + INSPECT_GAIN;

    /// The gain of the pages of the Inspect code among them: 16 records, 2 of no byte, one of 1, 4 of 126, 6 of 127, one of
    /// 165 and 2 of 247 bytes.
    const INSPECT_GAIN: i64 = 16 * -640 + 8 * (1 + 4 * 126 + 6 * 127 + 165 + 2 * 247);

    /// The five counts are different from each other and from 0, and the gain is below 0.
    #[test]
    fn the_sheet_of_the_pages() {
        assert_eq!(sheet(&sheet_pages()), "pages 124 blank 2 first 4 filled 15 second 33 bad 70 gain -9592\n");
        assert_eq!(GAIN, -9_592);
    }

    #[test]
    fn the_pages_of_the_sheet() {
        let pages = sheet_pages();
        let met: Vec<_> = pieces(&pages).map(|piece| (piece[0], described(piece))).collect();
        for number in [0, 1, 80, 82, 126] {
            assert!(met.contains(&(0x07, Described { kind: Kind::Second, number })), "{number}");
        }
        for number in [0, 1, 126, 127, 165, 247] {
            assert!(met.contains(&(0x09, Described { kind: Kind::Second, number })), "{number}");
        }
        let once = [(0x00, vec![4]), (0x01, vec![1, 6, 7]), (0x03, vec![6, 7])];
        let twice = [0x07, 0x09].map(|state| (state, vec![6, 7, 9]));
        for (state, numbers) in once.into_iter().chain(twice) {
            let bad = met.iter().filter(|(of, page)| *of == state && page.kind == Kind::Bad);
            assert_eq!(bad.map(|(_, page)| page.number).collect::<HashSet<_>>(), HashSet::from_iter(numbers));
        }
        for state in [0x02, 0x83, 0x0F] {
            assert!(met.contains(&(state, Described { kind: Kind::Bad, number: 5 })), "{state:02X}");
        }
    }

    /// The gain of the sheet's pages, each of them taken for what `taken` says.
    fn gain_if(taken: impl Fn(&[u8], Described) -> Described) -> i64 {
        pieces(&sheet_pages()).map(|piece| gain(taken(piece, described(piece)))).sum()
    }

    /// Whatever kind is taken for whatever other, the gain is another; but first and filled pages count the same, and so
    /// do blank and bad ones, which only the counts tell apart.
    #[test]
    fn a_kind_taken_for_another_shows_in_the_gain() {
        let same = [[Kind::Blank, Kind::Bad], [Kind::First, Kind::Filled]];
        for kind in Kind::ALL {
            for other in Kind::ALL.into_iter().filter(|other| *other != kind) {
                let taken = |page: Described| if page.kind == kind { Described { kind: other, ..page } } else { page };
                let shows = !same.iter().any(|pair| pair.contains(&kind) && pair.contains(&other));
                assert_eq!(gain_if(|_, page| taken(page)) != GAIN, shows, "{kind:?} {other:?}");
            }
        }
    }

    /// What the state alone makes of a piece.
    fn by_the_state(piece: &[u8]) -> Described {
        let kind = match piece[0] {
            0x01 => Kind::First,
            0x03 => Kind::Filled,
            0x07 | 0x09 => Kind::Second,
            _ => Kind::Bad,
        };
        Described { kind, number: piece.get(1).copied().map_or(0, u64::from) }
    }

    /// The gain is another if the bad pages of one to four states count by their state, or the last piece does.
    #[test]
    fn bad_pages_taken_by_their_state_show_in_the_gain() {
        let states = [0x01, 0x03, 0x07, 0x09];
        for chosen in 1..16 {
            let among = |state: u8| (0..4).any(|place| chosen >> place & 1 == 1 && states[place] == state);
            let taken = |piece: &[u8], page| if among(piece[0]) { by_the_state(piece) } else { page };
            assert_ne!(gain_if(taken), GAIN, "{chosen}");
        }
        let short = |piece: &[u8], page| if piece.len() < SMALL.bytes { by_the_state(piece) } else { page };
        assert_ne!(gain_if(short), GAIN);
    }

    /// With the last byte of the page before it, the last piece would be a page.
    #[test]
    fn the_last_piece_of_the_sheet() {
        let pages = sheet_pages();
        let (whole, last) = pages.split_at(123 * SMALL.bytes);
        assert_eq!((last.len(), whole.ends_with(&[0])), (SMALL.bytes - 1, true));
        assert_eq!(described(&[last, &[0]].concat()), Described { kind: Kind::First, number: 1_012 });
    }

    #[test]
    fn pages_of_one_kind() {
        for kind in Kind::ALL {
            let pages: Vec<_> = alike(Alike::Listed(kind), 300).collect();
            assert!(pages.iter().all(|page| page.len() == SMALL.bytes && described(page).kind == kind));
            let different = HashSet::<&Vec<u8>>::from_iter(&pages).len();
            assert!(if kind == Kind::Blank { different == 1 } else { different > 200 }, "{kind:?} {different}");
        }
        assert!(alike(Alike::Listed(Kind::Second), 300).all(|page| described(&page).number == 126));
        let bad: HashSet<_> =
            alike(Alike::Listed(Kind::Bad), 300).map(|page| (page[0], described(&page).number)).collect();
        let once = [(0x00, 4), (0x01, 6), (0x01, 7), (0x03, 6), (0x03, 7)];
        let twice = [0x07, 0x09].into_iter().flat_map(|state| [6, 7, 9].map(|number| (state, number)));
        assert!(once.into_iter().chain(twice).all(|one| bad.contains(&one)), "{bad:?}");
        assert!(bad.iter().any(|(_, number)| *number == 5));
    }

    /// The one page has the gain −640 + 8 · 247.
    #[test]
    fn pages_of_the_inspect_code_with_the_longest_record() {
        let kind = Alike::named("inspect").expect("a name");
        let page = inspect_page(&page_of(SMALL, 0), &[0; 247]);
        assert_eq!(alike(kind, 3).collect::<Vec<_>>(), [&page[..]; 3]);
        assert_eq!(described(&page), Described { kind: Kind::Second, number: 247 });
        assert_eq!(gain(described(&page)), 1_336);
    }

    /// Good and bad pages of state 09: each refusal of the reader, byte 1 and byte 2 each by itself and both, and the lengths
    /// at the ends.
    #[test]
    fn pages_of_state_09() {
        let pages = listing_pages();
        let inspected = pages.chunks(SMALL.bytes).filter(|piece| piece.len() == SMALL.bytes && piece[0] == 0x09);
        let met: Vec<_> = inspected.map(|page| (page[1], page[2], described(page).to_string())).collect();
        for length in [0, 126, 127, 247] {
            assert!(met.contains(&(length, 0, format!("second {length}"))), "{length}");
        }
        let bad = |number: u8| met.iter().filter(|(.., text)| *text == format!("bad {number}")).count();
        assert_eq!((met.len(), bad(6), bad(7), bad(9)), (38, 9, 11, 2));
        assert!(met.contains(&(248, 0, "bad 6".to_string())) && met.contains(&(255, 0, "bad 6".to_string())));
        for (byte_1, byte_2) in [(0, 1), (20, 1), (239, 1)] {
            assert!(met.contains(&(byte_1, byte_2, "bad 6".to_string())), "{byte_1} {byte_2}");
        }
    }

    #[test]
    fn roomy_pages() {
        let mut random = Random::new(9);
        let pages = (0..300).map(|_| filled_page(&first_page(&roomy_values(&mut random))));
        let found: HashSet<_> = pages.map(|page| described(&page).number).collect();
        assert_eq!(found, HashSet::from([1_008, 1_009, 1_010, 1_011, 1_012]));
    }
}
