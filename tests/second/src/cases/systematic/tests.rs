//! What the systematic calls meet.

mod block;
mod reading;

use super::*;
use crate::answer::{number, pulses_in, value, Answer};
use crate::case::Place;
use crate::cases::files::DEVICES;
use crate::cases::inspect::{bits_in, byte_ends};
use crate::cases::words::END_VALUES;
use crate::coverage::Coverage;
use crate::file::file_bytes;
use crate::inspect::read_inspect;
use crate::page::{known_shape, length_of, page_capacity, read_second, Words, FILLED, INSPECTED, SECOND_ROUND};
use crate::word::{decode_word, pulses, read_back, separators, separators_from, well_formed};
use std::collections::HashSet;
use std::fmt::Debug;
use std::hash::Hash;
use std::sync::OnceLock;

/// The call as it is before its performance, and its answer.
fn with_answer(call: Call) -> (Call, Answer) {
    let (_, answer) = call.performed();
    (call, answer)
}

/// The systematic calls but for the files with one byte changed and the blocks, performed once for all tests.
fn answered() -> &'static [(Call, Answer)] {
    static ANSWERED: OnceLock<Vec<(Call, Answer)>> = OnceLock::new();
    ANSWERED.get_or_init(|| walked().into_iter().map(with_answer).collect())
}

/// Each of the wanted is one of those that `class` tells of some call of the entry.
fn occurs<T, W, F, C>(entry: Entry, wanted: W, class: F)
where
    T: Debug + Eq + Hash,
    W: IntoIterator<Item = T>,
    F: Fn(&Call, Answer) -> C,
    C: IntoIterator<Item = T>,
{
    let of_entry = answered().iter().filter(|(call, _)| call.entry == entry);
    let met: HashSet<T> = of_entry.flat_map(|(call, answer)| class(call, *answer)).collect();
    for one in wanted {
        assert!(met.contains(&one), "{}: never {one:?}", entry.name());
    }
}

/// The same of the calls with a page of this shape.
fn occurs_on<T, W, F, C>(shape: Shape, entry: Entry, wanted: W, class: F)
where
    T: Debug + Eq + Hash,
    W: IntoIterator<Item = T>,
    F: Fn(&Call, Answer) -> C,
    C: IntoIterator<Item = T>,
{
    let of_shape = |call: &Call| call.page.len() == shape.bytes;
    occurs(entry, wanted, |call, answer| of_shape(call).then(|| class(call, answer)).into_iter().flatten());
}

/// Each page entry with each shape and each state that it asks for.
fn asked() -> impl Iterator<Item = (Entry, Shape, u8)> {
    Entry::with_states().flat_map(|(entry, state)| Shape::BOTH.map(|shape| (entry, shape, state)))
}

/// Refused neither 1 nor 2, so that the page is looked at.
fn sound_lengths(answer: Answer) -> bool {
    !matches!(number(answer), 1 | 2)
}

/// Accepted or refused 8, so that the record's length is looked at.
fn record_counts(answer: Answer) -> bool {
    matches!(number(answer), 0 | 8)
}

/// Accepted or refused 3, so that the output's length is looked at.
fn output_counts(answer: Answer) -> bool {
    matches!(number(answer), 0 | 3)
}

/// The word that 7 names, after its index.
fn refused_word(call: &Call, answer: Answer) -> Option<(usize, Cells)> {
    let index = value(answer) as usize;
    (number(answer) == 7).then(|| (index, words_of(&call.page)[index]))
}

/// Where a word that is not well formed has its hole.
fn hole_of(cells: &Cells) -> &'static str {
    let data = read_back(cells);
    let separators: Vec<usize> = (0..CELLS).filter(|cell| cells[*cell] && !data.contains(cell)).collect();
    match (separators.first(), separators.last()) {
        (None, _) => "everywhere",
        (Some(&first), _) if first > 1 => "start",
        (_, Some(&last)) if last < CELLS - 3 => "end",
        _ => "middle",
    }
}

/// Which capacity a filled page has.
fn capacity_kind(filled: &[u8]) -> &'static str {
    match (filled.len(), page_capacity(filled)) {
        (256, Ok(660)) | (512, Ok(1_320)) => "least",
        (256, Ok(1_012)) | (512, Ok(2_024)) => "most",
        _ => "middle",
    }
}

#[test]
fn the_number_of_calls() {
    assert_eq!(answered().len(), 457_666);
}

/// These calls alone meet every counter of a run but those of the other places of the buffers, and of blocks.
#[test]
fn every_counter_between_canary_bytes() {
    let mut coverage = Coverage::new();
    answered().iter().for_each(|(call, answer)| coverage.count(call, Place::Canaries, *answer));
    for (name, met) in coverage.wanted() {
        let elsewhere = name.contains("untouchable memory") || name.contains("far length");
        assert!(met > 0 || elsewhere || block::is_of_blocks(&name), "{name}");
    }
}

/// "cell 0 is worth 2971215073": that word alone, and its neighbours.
#[test]
fn values_about_the_weight_of_cell_0() {
    let values = [2_971_215_072, 2_971_215_073, 2_971_215_074];
    occurs(Entry::EncodeWord, values, |call, _| Some(call.argument as u32));
    for entry in Entry::OF_WORDS {
        let words = values.map(|value| number_of(&legal_word(value)));
        occurs(entry, words, |call, answer| answer.is_ok().then_some(call.argument));
    }
    assert_eq!(number_of(&legal_word(values[1])), 1 << 45);
}

#[test]
fn every_state_byte() {
    for (entry, shape) in Entry::with_shapes(&Entry::OF_PAGES) {
        occurs_on(shape, entry, 0..=255, |call, answer| sound_lengths(answer).then(|| call.page[0]));
    }
}

/// "Refusal 1 there becomes neither 256 nor 512": no page of either size is refused 1.
#[test]
fn no_page_of_either_size_is_refused_1() {
    let refused = answered().iter().filter(|(call, answer)| call.entry.takes_page() && number(*answer) == 1);
    assert!(refused.into_iter().all(|(call, _)| Shape::of(&call.page).is_none()));
}

/// The most that the length may be in this state.
fn most_named(shape: Shape, state: u8) -> usize {
    match (state, shape.bytes) {
        (SECOND_ROUND, 256) => 126,
        (SECOND_ROUND, _) => 253,
        (INSPECTED, 256) => 247,
        (INSPECTED, _) => 495,
        _ => 0,
    }
}

/// The number that refuses a page of this state for a byte that must be 0: write first asks that each byte be 0.
fn number_for_a_byte(state: u8) -> u8 {
    if state == 0x00 {
        4
    } else {
        6
    }
}

/// Lengths at the ends of what one byte and each code and size allow, with byte 2 at 0, 1, 2 and 255.
const LENGTHS_AT_ENDS: [usize; 24] = [
    1, 125, 126, 127, 246, 247, 248, 252, 253, 254, 255, 256, 257, 494, 495, 496, 497, 511, 512, 513, 8_192, 0xFF00,
    0xFF7E, 0xFFFF,
];

/// Every page entry looks at both bytes, each with every value, and at the length that they make.
#[test]
fn every_byte_1_and_every_byte_2_under_a_sound_state() {
    for (entry, shape, state) in asked() {
        let most = most_named(shape, state);
        let sound = |call: &Call, answer| {
            sound_lengths(answer) && call.page[0] == state && set_after_the_words(&call.page).is_empty()
        };
        for place in [1, 2] {
            occurs_on(shape, entry, 0..=255, |call, answer| sound(call, answer).then(|| call.page[place]));
        }
        let refused = |length: usize| if length > most { number_for_a_byte(state) } else { 0 };
        let wanted = LENGTHS_AT_ENDS.map(|length| (length, refused(length)));
        occurs_on(shape, entry, wanted, |call, answer| {
            let number = if number(answer) == number_for_a_byte(state) { number(answer) } else { 0 };
            sound(call, answer).then(|| (length_of(&call.page), number))
        });
    }
}

/// The readers of both codes meet every length up to 520, and every byte 2 with a byte 1 that alone is a length: refused 6
/// above the limit alone.
#[test]
fn every_length_in_bytes_1_and_2() {
    for (entry, shape) in Entry::with_shapes(&[Entry::ReadSecond, Entry::ReadInspect]) {
        let most = most_named(shape, entry.states()[0]);
        let sure = if entry == Entry::ReadSecond { shape.second_bytes_sure() } else { shape.inspect_bytes_sure() };
        let beyond = (2..256).flat_map(|byte_2| [0, 126, 247, 253, 255].map(|byte_1| 256 * byte_2 + byte_1));
        let refused = (most + 1..=520).chain(beyond).map(|length| (length, 6));
        let not_reached = (sure + 1..=most).map(|length| (length, 9));
        let read = (0..=most).map(|length| (length, 0));
        occurs_on(shape, entry, refused.chain(not_reached).chain(read), |call, answer| {
            let sound = entry.states().contains(&call.page[0]) && set_after_the_words(&call.page).is_empty();
            sound.then(|| (length_of(&call.page), number(answer)))
        });
    }
}

/// The bytes after the words of a page, with their places, that are not 0.
fn set_after_the_words(page: &[u8]) -> Vec<(usize, u8)> {
    known_shape(page).tail().map(|place| (place, page[place])).filter(|(_, byte)| *byte != 0).collect()
}

/// Every value of each of bytes 509 to 511 by itself is refused 6, by write first 4, in each state that an entry takes.
#[test]
fn every_byte_after_the_words() {
    let places = (509..512).flat_map(|place| (1..=255).map(move |byte| (place, byte)));
    for (entry, shape, state) in asked().filter(|(_, shape, _)| *shape == LARGE) {
        let wanted = places.clone().map(|(place, byte)| (vec![(place, byte)], number_for_a_byte(state)));
        occurs_on(shape, entry, wanted, |call, answer| {
            let sound = call.page[0] == state && length_of(&call.page) <= most_named(shape, state);
            sound.then(|| (set_after_the_words(&call.page), number(answer)))
        });
    }
}

/// The same call over the page with the bytes after the words at 0: its answer's number.
fn number_without_tail(call: &Call) -> u8 {
    let mut call = Call { page: with_sound_tail(call.page.clone()), ..call.clone() };
    number(call.perform())
}

/// Each of bytes 509 to 511 by itself over a page that would be accepted, that would be refused 6 for byte 1 or byte 2, and
/// that would be refused 7 for each of its words: it is refused 6 all the same.
#[test]
fn every_byte_after_the_words_with_another_reason() {
    for (entry, shape, state) in asked().filter(|(_, shape, state)| *shape == LARGE && *state != 0x00) {
        let wanted = (509..512).flat_map(|place| [0, 6, 7].map(|without| (place, without)));
        occurs_on(shape, entry, wanted, |call, answer| match set_after_the_words(&call.page)[..] {
            [(place, _)] if call.page[0] == state && number(answer) == 6 => Some((place, number_without_tail(call))),
            _ => None,
        });
        let wanted = (509..512).flat_map(|place| (0..LARGE.words).map(move |index| (place, index)));
        occurs_on(shape, entry, wanted, |call, answer| match set_after_the_words(&call.page)[..] {
            [(place, _)] if call.page[0] == state && number(answer) == 6 => {
                let bad = |cells: &Cells| *cells == never_sound();
                words_of(&call.page).iter().position(bad).map(|index| (place, index))
            }
            _ => None,
        });
    }
}

/// Two of bytes 509 to 511, and all of them, which are 0 together by exclusive or, and as a sum in 8 bits.
#[test]
fn several_bytes_after_the_words() {
    for (entry, shape, state) in asked().filter(|(_, shape, _)| *shape == LARGE) {
        let places = [vec![509, 510], vec![509, 511], vec![510, 511], vec![509, 510, 511]];
        let wanted = places.into_iter().flat_map(|places| [(places.clone(), "or"), (places, "sum")]);
        occurs_on(shape, entry, wanted, |call, answer| {
            let refused = call.page[0] == state && number(answer) == number_for_a_byte(state);
            let (places, bytes): (Vec<usize>, Vec<u8>) = set_after_the_words(&call.page).into_iter().unzip();
            let or = bytes.iter().fold(0, |or, byte| or ^ byte) == 0;
            let sum = bytes.iter().fold(0u8, |sum, &byte| sum.wrapping_add(byte)) == 0;
            let kinds = [(or, "or"), (sum, "sum")].into_iter().filter(move |(is, _)| *is && refused);
            kinds.map(|(_, kind)| (places.clone(), kind)).collect::<Vec<_>>()
        });
    }
}

/// "11 if two neighbours are set, 12 if the sum exceeds 4294967295".
#[test]
fn every_word_not_legal_for_each_reason() {
    let reason = |(index, cells): (usize, Cells)| (index, number(decode_word(number_of(&cells))));
    for (entry, shape) in Entry::with_shapes(&Entry::OF_FIRST_PAGES) {
        let wanted = (0..shape.words).flat_map(|index| [(index, 11), (index, 12)]);
        let first = |call: &Call| call.page[0] == FIRST_ROUND;
        occurs_on(shape, entry, wanted, |call, answer| refused_word(call, answer).filter(|_| first(call)).map(reason));
    }
}

/// The first pair of neighbours of a word.
fn first_pair(cells: &Cells) -> Option<usize> {
    (0..CELLS - 1).find(|&cell| cells[cell] && cells[cell + 1])
}

/// 7 names every word for two neighbours at its start, at its end, and in each byte that it reaches into.
#[test]
fn pairs_of_neighbours_in_every_word() {
    for (entry, shape) in Entry::with_shapes(&Entry::OF_FIRST_PAGES) {
        let wanted = (0..shape.words).flat_map(|index| [0, 8, 16, 24, 32, 40, 44].map(|cell| (index, cell / 8)));
        occurs_on(shape, entry, wanted, |call, answer| {
            let named = refused_word(call, answer).filter(|_| call.page[0] == FIRST_ROUND);
            named.and_then(|(index, cells)| first_pair(&cells).map(|cell| (index, cell / 8)))
        });
    }
}

#[test]
fn every_word_with_each_hole() {
    let holes = ["start", "middle", "end", "everywhere"];
    for shape in Shape::BOTH {
        let wanted = (0..shape.words).flat_map(|index| holes.map(|hole| (index, hole)));
        let reason = |(index, cells): (usize, Cells)| (index, hole_of(&cells));
        occurs_on(shape, Entry::ReadSecond, wanted, |call, answer| refused_word(call, answer).map(reason));
    }
}

/// Where a word of a filled page has its hole, and whether it has data as well; or how many data cells are set in a
/// word without a hole, of those that there are.
fn flaw_of(cells: &Cells) -> &'static str {
    let data = read_back(cells);
    let set: Vec<usize> = data.iter().copied().filter(|&cell| cells[cell]).collect();
    match (well_formed(cells), hole_of(cells), set.len()) {
        (false, hole, 0) => hole,
        (false, _, _) => "hole and data",
        (true, _, 1) if set[0] == data[0] => "first data cell",
        (true, _, 1) if set[0] == data[data.len() - 1] => "last data cell",
        (true, _, 1) => "middle data cell",
        (true, _, 23) => "full",
        _ => "several data cells",
    }
}

/// "7 for a word that is not well formed or has a data cell set".
#[test]
fn every_word_of_a_filled_page_with_each_flaw() {
    let holes = ["start", "middle", "end", "everywhere", "hole and data"];
    let data = ["first data cell", "middle data cell", "last data cell", "full", "several data cells"];
    let flaws = holes.into_iter().chain(data);
    for (entry, shape) in Entry::with_shapes(&Entry::OF_FILLED_PAGES) {
        let wanted = flaws.clone().flat_map(|flaw| (0..shape.words).map(move |index| (index, flaw)));
        let reason = |(index, cells): (usize, Cells)| (index, flaw_of(&cells));
        let filled = |call: &Call| call.page[0] == FILLED;
        occurs_on(shape, entry, wanted, |call, answer| refused_word(call, answer).filter(|_| filled(call)).map(reason));
    }
}

/// The words of a filled page that are not as they must be, in order: whether each is well formed.
fn flaws_of(page: &[u8]) -> Vec<(usize, bool)> {
    let words = words_of(page);
    let flawed = |index: &usize| !crate::word::unwritten(&words[*index]);
    (0..words.len()).filter(flawed).map(|index| (index, well_formed(&words[index]))).collect()
}

/// A hole before a set data cell, and after one: 7 names the lower word of every two neighbouring ones.
#[test]
fn two_flaws_of_different_kinds() {
    for (entry, shape) in Entry::with_shapes(&Entry::OF_FILLED_PAGES) {
        let wanted = (0..shape.words - 1).flat_map(|low| [(low, true, false), (low, false, true)]);
        occurs_on(shape, entry, wanted, |call, answer| {
            let filled = number(answer) == 7 && call.page[0] == FILLED;
            match filled.then(|| flaws_of(&call.page)).as_deref() {
                Some(&[(low, first), (high, second)]) if high == low + 1 => Some((low, first, second)),
                _ => None,
            }
        });
    }
}

/// The bit in which the two pages of one length differ, if it is one alone.
fn single_flip(page: &[u8], base: &[u8]) -> Option<usize> {
    let differing: Vec<usize> = (0..base.len()).filter(|&place| page[place] != base[place]).take(2).collect();
    match differing[..] {
        [place] => Some(page[place] ^ base[place])
            .filter(|flips| flips.is_power_of_two())
            .map(|flips| 8 * place + flips.leading_zeros() as usize),
        _ => None,
    }
}

/// Each bit of the page flipped by itself: the entries that take such a page look at each cell, the others at the
/// state alone.
#[test]
fn every_cell_of_a_filled_page_flipped() {
    for (entry, shape) in Entry::with_shapes(&Entry::OF_FILLED_PAGES) {
        every_cell_flipped(entry, &Walk::new(shape).filled);
    }
    for (entry, shape) in Entry::with_shapes(&[Entry::FillPage, Entry::ReadSecond]) {
        let base = Walk::new(shape).filled;
        occurs_on(shape, entry, 8..8 * shape.bytes, |call, answer| match number(answer) {
            5 => single_flip(&call.page, &base),
            _ => None,
        });
    }
}

#[test]
fn every_cell_of_a_page_of_the_earlier_fill_flipped() {
    let Walk { first, filled, .. } = Walk::new(SMALL);
    let base = filled_page_earlier(&first);
    assert_ne!(base, filled);
    for entry in Entry::OF_FILLED_PAGES {
        every_cell_flipped(entry, &base);
    }
}

/// Each bit of a valid page of each state flipped by itself, for each entry that takes such a page.
#[test]
fn every_bit_of_a_page_of_each_state_flipped() {
    for (entry, shape, state) in asked() {
        let bases = Walk::new(shape).bases();
        let base = bases.iter().find(|base| base[0] == state).expect("a page of each state");
        occurs_on(shape, entry, 0..8 * shape.bytes, |call, _| single_flip(&call.page, base));
    }
}

/// Each cell of the filled page flipped by itself is refused by 7, but cell 45 after a separator in cell 43, which is
/// accepted. Of the latter there are some.
fn every_cell_flipped(entry: Entry, base: &[u8]) {
    let (shape, words) = (known_shape(base), words_of(base));
    let either = |bit: usize| (bit - 24) % CELLS == 45 && words[(bit - 24) / CELLS][43];
    let cells = 24..24 + CELLS * shape.words;
    assert!(cells.clone().filter(|&bit| either(bit)).count() > 10);
    let wanted = cells.map(|bit| (bit, if either(bit) { 0 } else { 7 }));
    occurs_on(shape, entry, wanted, |call, answer| match number(answer) {
        met @ (0 | 7) => single_flip(&call.page, base).map(|bit| (bit, met)),
        _ => None,
    });
}

/// The words of an accepted page after the fill, each with its end.
fn accepted_ends(call: &Call, answer: Answer) -> Vec<(usize, Vec<usize>)> {
    if answer.is_err() || call.page[0] == FIRST_ROUND {
        return Vec::new();
    }
    words_of(&call.page).iter().map(|cells| separators_from(cells, 42)).enumerate().collect()
}

/// Every word with each end that a well-formed word has; in cell 43 alone, it has cells 44 and 45 at 0.
#[test]
fn every_word_with_each_end() {
    let ends = [&[42, 44][..], &[44], &[42, 45], &[43], &[43, 45]];
    for (entry, shape) in Entry::with_shapes(&Entry::AFTER_THE_FILL) {
        let wanted = (0..shape.words).flat_map(|index| ends.map(|end| (index, end.to_vec())));
        occurs_on(shape, entry, wanted, accepted_ends);
    }
}

/// 7 names every word that lacks cell 45 alone after a separator in cell 42: then cell 44 could be set.
#[test]
fn every_word_without_the_cell_45_that_it_needs() {
    for (entry, shape) in Entry::with_shapes(&Entry::AFTER_THE_FILL) {
        occurs_on(shape, entry, 0..shape.words, |call, answer| {
            let lacks_it = |cells: Cells| well_formed(&std::array::from_fn(|cell| cells[cell] || cell == 45));
            let after_the_fill = call.page.first() > Some(&FIRST_ROUND);
            let named = refused_word(call, answer).filter(|_| after_the_fill);
            named.filter(|(_, cells)| separators_from(cells, 42) == [42] && lacks_it(*cells)).map(|(index, _)| index)
        });
    }
}

/// After a separator in cell 44, cell 45 is a data cell: on a filled page 7 names every word in which it is set, and
/// in every word it is the one spare data cell that 9 is for.
#[test]
fn every_cell_45_that_is_a_data_cell() {
    let set = |cells: &Cells| read_back(cells).into_iter().filter(|&cell| cells[cell]).collect::<Vec<usize>>();
    for (entry, shape) in Entry::with_shapes(&Entry::OF_FILLED_PAGES) {
        occurs_on(shape, entry, 0..shape.words, |call, answer| {
            let filled = call.page[0] == FILLED;
            let named = refused_word(call, answer).filter(|(_, cells)| filled && set(cells) == [45]);
            named.map(|(index, _)| index)
        });
    }
    for shape in Shape::BOTH {
        occurs_on(shape, Entry::ReadSecond, 0..shape.words, |call, answer| {
            (number(answer) == 9).then(|| spare_cell_45(&call.page)).flatten()
        });
    }
}

/// The word whose cell 45 is the one spare data cell of the page that is set.
fn spare_cell_45(page: &[u8]) -> Option<usize> {
    let words = words_of(page);
    let spare = data_cells_of(&words).into_iter().skip(8 * length_of(page));
    let set: Vec<_> = spare.filter(|&(index, cell)| words[index][cell]).collect();
    match set[..] {
        [(index, 45)] => Some(index),
        _ => None,
    }
}

/// The words that are not as the fill leaves them, but as the earlier fill left them, of an accepted page whose
/// first-round page is told.
fn earlier_words(call: &Call, answer: Answer) -> Vec<usize> {
    let Some(first) = call.first.as_ref().filter(|_| answer.is_ok()) else { return Vec::new() };
    let words: Words = words_of(&call.page).iter().map(separators).collect();
    let (now, earlier) = (words_of(&filled_page(first)), words_of(&filled_page_earlier(first)));
    (0..words.len()).filter(|&index| words[index] == earlier[index] && words[index] != now[index]).collect()
}

/// Every word alone, and all of them, have a cell 45 that only the earlier fill set.
#[test]
fn every_word_of_the_earlier_fill() {
    for (entry, shape) in Entry::with_shapes(&Entry::AFTER_THE_FILL) {
        let wanted = (0..shape.words).map(|index| vec![index]).chain([(0..shape.words).collect()]);
        occurs_on(shape, entry, wanted, |call, answer| Some(earlier_words(call, answer)));
    }
}

/// Every record length over pages of the earlier fill, accepted or refused 8, and read back.
#[test]
fn every_record_length_over_pages_of_the_earlier_fill() {
    let all = |call: &Call| earlier_words(call, Ok(0)).len() == known_shape(&call.page).words;
    let wanted = (0..=130).flat_map(|length| [(660, length), (968, length)]);
    occurs_on(SMALL, Entry::WriteSecond, wanted, |call, answer| {
        let counts = record_counts(answer) && all(call);
        counts.then(|| (page_capacity(&call.page).expect("a filled page"), call.other.len()))
    });
    occurs_on(SMALL, Entry::ReadSecond, 0..=121, |call, answer| answer.ok().filter(|_| all(call)));
    // The longest record leaves 0 to 7 data cells.
    for shape in Shape::BOTH {
        occurs_on(shape, Entry::WriteSecond, 0..8, |call, answer| {
            let capacity = answer.ok().filter(|_| !earlier_words(call, answer).is_empty());
            capacity.map(|_| page_capacity(&call.page).expect("a filled page") - 8 * call.other.len() as u64)
        });
    }
}

/// The same call over the page that the fill leaves of the same first-round page, with the same record.
fn over_the_fill(call: &Call, first: &[u8]) -> Call {
    let page = match call.entry {
        Entry::ReadSecond => second_page(first, &record_on(&call.page).expect("a second-round page")),
        _ => filled_page(first),
    };
    Call { page, ..call.clone() }
}

/// The record on the page after the call, if it is a second-round page.
fn record_on(page: &[u8]) -> Option<Vec<u8>> {
    let mut output = vec![0; known_shape(page).second_bytes_most];
    let length = read_second(page, &mut output).ok()?;
    output.truncate(length as usize);
    Some(output)
}

/// Over a page of the earlier fill there is the same answer as over that of the fill, the same output, and the same
/// record on the page: the same capacity, and the same records fit and are read.
#[test]
fn the_same_answers_for_both_fills() {
    let looked_at = answered().iter().filter(|(_, answer)| matches!(number(*answer), 0 | 3 | 8));
    let mut compared = 0;
    for (call, answer) in looked_at.filter(|(call, _)| !earlier_words(call, Ok(0)).is_empty()) {
        let (mut earlier, mut now) = (call.clone(), over_the_fill(call, call.first.as_ref().expect("it is told")));
        assert_ne!(earlier.page, now.page);
        assert_eq!((earlier.perform(), now.perform()), (*answer, *answer));
        assert_eq!(earlier.other, now.other);
        assert_eq!(record_on(&earlier.page), record_on(&now.page));
        compared += 1;
    }
    assert!(compared > 1_000, "{compared}");
}

/// "Page capacity serves both states": the least, the most and a middle capacity in each.
#[test]
fn every_capacity_in_both_states() {
    let kinds = ["least", "middle", "most"];
    for shape in Shape::BOTH {
        let wanted = kinds.into_iter().flat_map(|kind| [(kind, FIRST_ROUND), (kind, FILLED)]);
        occurs_on(shape, Entry::PageCapacity, wanted, |call, answer| {
            answer.is_ok().then(|| (capacity_kind(&call.page), call.page[0]))
        });
    }
}

#[test]
fn every_number_of_pulses() {
    occurs(Entry::FillWord, 0..=23, |_, answer| answer.ok().map(pulses_in));
    occurs_on(SMALL, Entry::FillPage, 0..=1_012, |_, answer| answer.ok());
    occurs_on(LARGE, Entry::FillPage, 0..=2_024, |_, answer| answer.ok());
}

/// The one word of a page that takes pulses, or takes none, where there is just one; and whether it takes them.
fn single_word(page: &[u8]) -> Option<(usize, bool)> {
    let takes: Vec<bool> = words_of(page).iter().map(|cells| pulses(cells) > 0).collect();
    let single = |one: bool| takes.iter().filter(|&&word| word == one).count() == 1;
    let one = [true, false].into_iter().find(|&one| single(one))?;
    takes.iter().position(|&word| word == one).map(|index| (index, one))
}

#[test]
fn every_word_alone_with_pulses_and_alone_without() {
    for shape in Shape::BOTH {
        let wanted = (0..shape.words).flat_map(|index| [(index, true), (index, false)]);
        occurs_on(shape, Entry::FillPage, wanted, |call, answer| answer.ok().and_then(|_| single_word(&call.page)));
    }
}

/// Some cells are sound in each of these states: the state alone decides.
#[test]
fn every_state_over_cells_that_are_sound_in_each() {
    for (entry, shape) in Entry::with_shapes(&Entry::OF_PAGES).filter(|(entry, _)| *entry != Entry::WriteFirst) {
        for value in ALIKE_VALUES {
            let cells = &page_of(shape, value)[1..];
            let wanted = (0..=255).map(|state| (state, if entry.states().contains(&state) { 0 } else { 5 }));
            occurs(entry, wanted, |call, answer| {
                (call.page.get(1..) == Some(cells)).then(|| (call.page[0], number(answer)))
            });
        }
    }
}

#[test]
fn every_record_length_over_the_least_a_middle_and_the_most_capacity() {
    let kinds = ["least", "middle", "most"];
    for (shape, most) in [(SMALL, 130), (LARGE, 257)] {
        let wanted = (0..=most).flat_map(|length| kinds.map(|kind| (kind, length)));
        let met = |call: &Call| (capacity_kind(&call.page), call.other.len());
        occurs_on(shape, Entry::WriteSecond, wanted, |call, answer| record_counts(answer).then(|| met(call)));
    }
}

/// The figures of Change 8: 165 bytes over the least capacity and 253 over the most are accepted, one byte more is refused
/// 8 with the capacity.
#[test]
fn records_at_the_ends_of_what_fits_512_bytes() {
    let accepted = [(SPARSE_VALUE, 165, 0, 0), (0, 253, 0, 0)];
    let refused = [(SPARSE_VALUE, 166, 8, 1_320), (0, 254, 8, 2_024)];
    let pages = [SPARSE_VALUE, 0].map(|value| (value, filled_page(&page_of(LARGE, value))));
    occurs_on(LARGE, Entry::WriteSecond, accepted.into_iter().chain(refused), |call, answer| {
        let over = pages.iter().find(|(_, page)| *page == call.page);
        over.map(|(of, _)| (*of, call.other.len(), number(answer), value(answer)))
    });
}

/// How many data cells a record leaves, or lacks.
#[test]
fn records_that_leave_0_to_7_data_cells() {
    for shape in Shape::BOTH {
        occurs_on(shape, Entry::WriteSecond, 0..8, |call, answer| {
            answer.ok().map(|_| page_capacity(&call.page).expect("a filled page") - 8 * call.other.len() as u64)
        });
        occurs_on(shape, Entry::WriteSecond, 1..=8, |call, answer| {
            (number(answer) == 8).then(|| 8 * call.other.len() as u64 - value(answer))
        });
        occurs_on(shape, Entry::ReadSecond, 0..8, |call, answer| {
            let found = |page: &[u8]| data_cells_of(&words_of(page)).len() as u64;
            answer.ok().map(|length| found(&call.page) - 8 * length)
        });
    }
}

#[test]
fn every_record_length_read_back() {
    occurs_on(SMALL, Entry::ReadSecond, 0..=126, |_, answer| answer.ok());
    occurs_on(LARGE, Entry::ReadSecond, 0..=253, |_, answer| answer.ok());
}

#[test]
fn every_output_length() {
    for (entry, shape) in Entry::with_shapes(&[Entry::ReadFirst, Entry::ReadSecond]) {
        let wanted = 0..=shape.first_bytes + 4;
        occurs_on(shape, entry, wanted, |call, answer| output_counts(answer).then_some(call.other.len()));
    }
}

#[test]
fn outputs_one_short_exact_and_longer() {
    let met = |call: &Call, answer| (call.other.len(), number(answer));
    for (shape, first, records) in [(SMALL, 176, [1, 82, 126]), (LARGE, 352, [1, 165, 253])] {
        let about = |length: usize| [(length - 1, 3), (length, 0), (length + 1, 0)];
        occurs_on(shape, Entry::ReadFirst, about(first), |call, answer| Some(met(call, answer)));
        for record in records {
            let named = |call: &Call| length_of(&call.page) == record;
            occurs_on(shape, Entry::ReadSecond, about(record), |call, answer| {
                (output_counts(answer) && named(call)).then(|| met(call, answer))
            });
        }
    }
}

/// 0, 175 to 177, 255 to 257 and 511 to 513 among them: every length but 256 and 512 is refused 1.
#[test]
fn every_page_length_up_to_520() {
    for (entry, _, state) in asked() {
        let sound = |call: &Call| call.page.is_empty() || call.page[0] == state;
        occurs(entry, 0..=520, |call, _| sound(call).then_some(call.page.len()));
        let wanted = (0..=520).chain([768, 1_024]).filter(|length| ![256, 512].contains(length));
        occurs(entry, wanted, |call, answer| (sound(call) && number(answer) == 1).then_some(call.page.len()));
    }
}

/// A page of 256 bytes in a buffer of 512: whether it is followed by 256 zeros, whether bytes 509 to 511 are 0, and the
/// answer's number. And pages of 512 bytes that are cut.
#[test]
fn pages_of_the_other_size() {
    let before_zeros = |page: &[u8]| page[256..] == [0; 256];
    let sound_tail = |page: &[u8]| set_after_the_words(page).is_empty();
    for (entry, zeros, sound, answer) in [
        (Entry::WriteFirst, true, true, 0),
        (Entry::WriteFirst, false, true, 4),
        (Entry::WriteFirst, false, false, 4),
        (Entry::ReadFirst, true, true, 0),
        (Entry::ReadFirst, false, true, 7),
        (Entry::ReadFirst, false, false, 6),
        (Entry::FillPage, true, true, 0),
        (Entry::FillPage, false, false, 6),
        (Entry::PageCapacity, true, true, 0),
        (Entry::PageCapacity, true, true, 7),
        (Entry::PageCapacity, false, false, 6),
        (Entry::WriteSecond, true, true, 7),
        (Entry::WriteSecond, false, false, 6),
        (Entry::ReadSecond, true, true, 7),
        (Entry::ReadSecond, false, true, 9),
        (Entry::ReadSecond, false, false, 6),
        (Entry::WriteInspect, true, true, 0),
        (Entry::WriteInspect, false, true, 7),
        (Entry::WriteInspect, false, false, 6),
        (Entry::ReadInspect, true, true, 0),
        (Entry::ReadInspect, false, true, 7),
        (Entry::ReadInspect, false, false, 6),
    ] {
        occurs_on(LARGE, entry, [(zeros, sound, answer)], |call, answer| {
            let small = entry.states().contains(&call.page[0]) && is_page(&call.page[..256]);
            small.then(|| (before_zeros(&call.page), sound_tail(&call.page), number(answer)))
        });
    }
    // The longest record over the page of 352 zero bytes, and one of 40 bytes.
    let [long, short] = [253, 40].map(|length| second_page(&page_of(LARGE, 0), &vec![0; length])[..2].to_vec());
    occurs_on(SMALL, Entry::ReadSecond, [(long, 6), (short, 0)], |call, answer| {
        Some((call.page[..2].to_vec(), number(answer)))
    });
    // Records of the Inspect code that are longer than 256 bytes take, and one that is not.
    occurs_on(SMALL, Entry::ReadInspect, [(495, 6), (253, 6), (40, 0)], |call, answer| {
        Some((length_of(&call.page), number(answer)))
    });
}

/// Whether these 256 bytes are a valid page.
fn is_page(page: &[u8]) -> bool {
    let blank = page.iter().all(|&byte| byte == 0);
    let inspect = read_inspect(page, &mut [0; SMALL.inspect_bytes_most]).is_ok();
    blank || inspect || page_capacity(page).is_ok() || record_on(page).is_some()
}

#[test]
fn every_bit_of_a_device_number_and_the_listed_ones() {
    let wanted = (0..32).map(|bit| 1 << bit).chain(DEVICES.map(u64::from));
    let wanted = wanted.flat_map(|device| [(device, 12), (device, 271)]);
    occurs(Entry::WriteFile, wanted, |call, answer| answer.ok().map(|length| (call.argument, length)));
}

/// How much longer the output is than the file, and the answer's number.
#[test]
fn every_number_of_pages_with_outputs_one_short_exact_and_longer() {
    let about = [(-1, 3), (0, 0), (1, 0), (7, 0), (259, 0)];
    let wanted = (0..=64).flat_map(|count| about.map(|(longer, number)| (256 * count, longer, number)));
    occurs(Entry::WriteFile, wanted, |call, answer| {
        let longer = call.other.len() as isize - file_bytes(call.page.len() / 256) as isize;
        output_counts(answer).then(|| (call.page.len(), longer, number(answer)))
    });
    let empty = (0..=64).map(|count| 256 * count);
    occurs(Entry::WriteFile, empty, |call, answer| {
        (call.other.is_empty() && number(answer) == 3).then_some(call.page.len())
    });
}

/// With an output too short as well, and with one long enough for every whole page.
#[test]
fn pages_refused_13() {
    let lengths = [1, 255, 257, 16_383, 16_385, 16_640, 16_896, 32_768, 65_536, 65_792, 81_920];
    let wanted = lengths.into_iter().flat_map(|length| [(length, true), (length, false)]);
    occurs(Entry::WriteFile, wanted, |call, answer| {
        let short = call.other.len() < file_bytes(call.page.len() / 256);
        (number(answer) == 13).then_some((call.page.len(), short))
    });
}

#[test]
fn every_pages_length_up_to_520() {
    occurs(Entry::WriteFile, 0..=520, |call, _| Some(call.page.len()));
}

/// 0, 175 to 177, 255 to 257 and 351 to 353 among them: each but the page's own is refused 2.
#[test]
fn every_data_length_up_to_360() {
    for shape in Shape::BOTH {
        let wanted = (0..=360).map(|length| (length, if length == shape.first_bytes { 0 } else { 2 }));
        occurs_on(shape, Entry::WriteFirst, wanted, |call, answer| {
            call.page.iter().all(|&byte| byte == 0).then(|| (call.other.len(), number(answer)))
        });
    }
}

/// Every record length up to some that are longer than the most, of zeros, of ones and of both, taken or refused 8, over
/// words of one value and over words that end in each way; and the lengths at the other ends.
#[test]
fn every_record_length_by_the_inspect_code() {
    for (shape, last) in [(SMALL, 256), (LARGE, 504)] {
        let [most, least, sparse] = [0, ODD_VALUE, SPARSE_VALUE].map(|value| page_of(shape, value));
        let firsts = [most, least, sparse, first_page(&by_turns(shape, &END_VALUES))];
        let kinds = [0x00, 0xFF, 0x0F];
        let lengths = (1..=last).chain([494, 495, 496, 497, 511, 512, 65_535, 65_536]);
        let wanted = lengths.flat_map(|length| kinds.map(|kind| (length, kind))).chain([(0, 0x00)]);
        let wanted = wanted.flat_map(|(length, kind)| (0..4).map(move |first| (first, length, kind)));
        let kind_of = |record: &[u8]| [0x00, 0xFF].into_iter().find(|kind| record.iter().all(|byte| byte == kind));
        occurs_on(shape, Entry::WriteInspect, wanted, |call, answer| {
            let first = firsts.iter().position(|first| *first == call.page && record_counts(answer));
            first.map(|first| (first, call.other.len(), kind_of(&call.other).unwrap_or(0x0F)))
        });
    }
}

/// The figures of Changes 7 and 9: what always goes in, over words of which zeros take the least bits, and the most; one
/// byte more is refused 8 with the bits that the walks take.
#[test]
fn records_at_the_ends_of_what_goes_in_by_the_inspect_code() {
    for (shape, [sure, least], [most, longest]) in
        [(SMALL, [126, 1_012], [247, 1_980]), (LARGE, [253, 2_024], [495, 3_960])]
    {
        let pages = [ODD_VALUE, 0].map(|value| page_of(shape, value));
        let accepted = [(0, sure, 0, 0), (1, most, 0, 0)];
        let refused = [(0, sure + 1, 8, least), (1, most + 1, 8, longest)];
        occurs_on(shape, Entry::WriteInspect, accepted.into_iter().chain(refused), |call, answer| {
            let zeros = call.other.iter().all(|&byte| byte == 0);
            let over = pages.iter().position(|page| zeros && *page == call.page);
            over.map(|over| (over, call.other.len(), number(answer), value(answer) as usize))
        });
    }
}

/// Every length that a record has, with outputs that are empty, one short, exact and longer.
#[test]
fn every_record_length_read_back_by_the_inspect_code() {
    for (shape, most) in [(SMALL, 247), (LARGE, 495)] {
        let about = |length: isize| [(length, -length, 3), (length, -1, 3), (length, 0, 0), (length, 1, 0)];
        let wanted = (1..=most).flat_map(about).chain([(0, 0, 0), (0, 1, 0)]);
        occurs_on(shape, Entry::ReadInspect, wanted, |call, answer| {
            let length = length_of(&call.page) as isize;
            output_counts(answer).then(|| (length, (call.other.len() as isize - length).min(1), number(answer)))
        });
        let wanted = 0..=most as usize + 13;
        occurs_on(shape, Entry::ReadInspect, wanted, |call, answer| output_counts(answer).then_some(call.other.len()));
    }
}

/// Every word in which a record ends before cell 44, before cell 45 and after it, and after the first bit of every word
/// but the first, a cell or a pair.
#[test]
fn every_word_that_a_record_ends_in() {
    let end = |page: &[u8]| byte_ends(page).last().copied();
    for shape in Shape::BOTH {
        let starts = (1..shape.words).flat_map(|index| [(index, 1), (index, 2)]);
        let wanted = || (0..shape.words).flat_map(|index| [44, 45, 46].map(|cell| (index, cell))).chain(starts.clone());
        occurs_on(shape, Entry::ReadInspect, wanted(), |call, answer| answer.ok().and_then(|_| end(&call.page)));
        occurs_on(shape, Entry::WriteInspect, wanted(), |call, answer| {
            answer.ok().and_then(|_| end(&inspect_page(&call.page, &call.other)))
        });
    }
}

/// How many bits the walks lack: for the record that 8 refuses, and for the length that 9 does; and how many they have
/// left where both are accepted.
#[test]
fn walks_that_lack_1_to_8_bits_and_that_leave_0_to_7() {
    for shape in Shape::BOTH {
        occurs_on(shape, Entry::WriteInspect, 1..=8, |call, answer| {
            (number(answer) == 8).then(|| 8 * call.other.len() as u64 - value(answer))
        });
        occurs_on(shape, Entry::ReadInspect, 1..=8, |call, answer| {
            (number(answer) == 9).then(|| 8 * length_of(&call.page) - bits_in(&call.page))
        });
        occurs_on(shape, Entry::ReadInspect, 0..8, |call, answer| {
            answer.ok().map(|length| bits_in(&call.page) - 8 * length as usize)
        });
    }
}

/// On 512 bytes, the walks end before lengths about what one byte names, and reach them: the most that they reach, the
/// length, and the answer's number.
#[test]
fn walks_about_what_one_byte_names() {
    let reached = [253, 255, 256, 258, 374].map(|most| (most, most, 0));
    let not = [253, 255, 256, 258, 374].map(|most| (most, most + 1, 9));
    occurs_on(LARGE, Entry::ReadInspect, reached.into_iter().chain(not), |call, answer| {
        matches!(number(answer), 0 | 9).then(|| (bits_in(&call.page) / 8, length_of(&call.page), number(answer)))
    });
}

/// Each bit of a page of the Inspect code flipped by itself; of its cells, some lead to another record, and some to 7.
#[test]
fn every_cell_of_a_page_of_the_inspect_code_flipped() {
    for (shape, length) in [(SMALL, 154), (LARGE, 309)] {
        let base = Walk::new(shape).inspect;
        assert_eq!(length_of(&base), length);
        occurs_on(shape, Entry::ReadInspect, 0..8 * shape.bytes, |call, _| single_flip(&call.page, &base));
        occurs_on(shape, Entry::ReadInspect, [0, 7], |call, answer| {
            let flipped = Some(&call.page).filter(|page| page[..3] == base[..3]);
            flipped.and_then(|page| single_flip(page, &base)).map(|_| number(answer))
        });
    }
}

/// The pairs of neighbours of the page, as word and cell.
fn pairs_on(page: &[u8]) -> Vec<(usize, usize)> {
    let words = words_of(page);
    let places = (0..words.len()).flat_map(|index| (0..CELLS - 1).map(move |cell| (index, cell)));
    places.filter(|&(index, cell)| words[index][cell] && words[index][cell + 1]).collect()
}

/// Two neighbours in each place of each word: read as a pair, or refused.
#[test]
fn every_pair_of_neighbours_read_and_not_read() {
    for shape in Shape::BOTH {
        let wanted = (0..shape.words).flat_map(|index| (0..CELLS - 1).map(move |cell| (index, cell)));
        occurs_on(shape, Entry::ReadInspect, wanted.clone(), |call, answer| {
            answer.map_or(Vec::new(), |_| pairs_on(&call.page))
        });
        occurs_on(shape, Entry::ReadInspect, wanted, |call, answer| {
            let named = refused_word(call, answer).filter(|_| length_of(&call.page) == 0);
            let of_word = |(of, _)| pairs_on(&call.page).into_iter().filter(move |(index, _)| *index == of);
            named.into_iter().flat_map(of_word).collect::<Vec<_>>()
        });
    }
}

/// A sum too large before two neighbours, and after them: 7 of both entries names the lower word of every two that are
/// neighbours or lie half a page apart, so in both halves.
#[test]
fn two_words_that_are_not_legal() {
    for (entry, shape) in Entry::with_shapes(&Entry::OF_INSPECT) {
        let half = shape.words / 2;
        let pairs = (0..shape.words - 1).map(|low| (low, low + 1)).chain((0..half).map(|low| (low, low + half)));
        let wanted = pairs.flat_map(|(low, high)| [(low, high, true), (low, high, false)]);
        occurs_on(shape, entry, wanted, |call, answer| {
            let unread = number(answer) == 7 && length_of(&call.page) == 0;
            let words = if unread { words_of(&call.page) } else { Words::new() };
            let bad: Vec<usize> = (0..words.len()).filter(|&index| !crate::word::legal(&words[index])).collect();
            match bad[..] {
                [low, high] if value(answer) as usize == low => Some((low, high, first_pair(&words[low]).is_some())),
                _ => None,
            }
        });
    }
}
