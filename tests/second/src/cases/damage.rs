//! Sound calls, and calls damaged in the direction of chosen refusals, so that the order of refusals shows.

use super::blocks::{sound_collecting, sound_placing, with_target_byte, with_wrong_lengths, without_fitting};
use super::files::{any_device, any_pages};
use super::inspect::{self, bytes_taken, inspect_page, record_for, with_length_too_large, with_unsound_word};
use super::lengths::{named_length_above, resized, wrong_data_length, wrong_page_length, wrong_pages_length};
use super::pages::{
    any_first, any_record, blank, filled_page, filled_page_earlier, first_and_record, header_places, most_bytes,
    with_data_cell, with_flaw, with_length, with_word, written_over, Filling,
};
use super::reading::{any_file, bytes_read, ended_early, with_field_fault, with_tail, Damage};
use super::words::{any_argument, any_value, illegal, sum_too_large, with_hole, with_neighbours, Hole};
use crate::call::{Call, Entry};
use crate::file::file_bytes;
use crate::page::{
    data_cells_of, known_shape, length_of, longest_named, put_length, words_of, FILLED, FIRST_ROUND, INSPECTED,
};
use crate::random::Random;
use crate::shape::{Shape, SMALL};
use crate::word::{cells_of, legal_word, number_of, CELLS};

/// A call that is accepted, with a page of this shape, which tells nothing for an entry without a page of its own.
pub fn sound(random: &mut Random, entry: Entry, shape: Shape) -> Call {
    sound_by(random, entry, shape, filled_page)
}

/// A call that is accepted, with a page of this shape, made by this fill where it is a filled or a second-round page.
fn sound_by(random: &mut Random, entry: Entry, shape: Shape, fill: Filling) -> Call {
    match entry {
        Entry::EncodeWord => Call::of_word(entry, u64::from(any_value(random))),
        Entry::DecodeWord | Entry::FillWord | Entry::WordCapacity => {
            Call::of_word(entry, number_of(&legal_word(any_value(random))))
        }
        Entry::WriteFirst => Call::of_page(entry, blank(random, shape), random.bytes(shape.first_bytes)),
        Entry::ReadFirst => {
            let longer = random.below(3);
            Call::of_page(entry, any_first(random, shape), random.bytes(shape.first_bytes + longer))
        }
        Entry::PageCapacity if random.one_in(2) => Call::of_page(entry, any_first(random, shape), Vec::new()),
        Entry::PageCapacity => {
            let first = any_first(random, shape);
            Call::of_page(entry, fill(&first), Vec::new()).filled_from(&first)
        }
        Entry::FillPage => Call::of_page(entry, any_first(random, shape), Vec::new()),
        Entry::WriteSecond => {
            let first = any_first(random, shape);
            let page = fill(&first);
            let length = random.between(0, most_bytes(&page));
            Call::of_page(entry, page, any_record(random, length)).filled_from(&first)
        }
        Entry::ReadSecond => {
            let (first, record) = first_and_record(random, shape, 1);
            let page = written_over(fill(&first), &record);
            let length = record.len() + random.below(3);
            Call::of_page(entry, page, random.bytes(length)).filled_from(&first)
        }
        Entry::WriteInspect => {
            let first = any_first(random, shape);
            let record = record_for(random, &first, 0);
            Call::of_page(entry, first, record)
        }
        Entry::ReadInspect => {
            let first = any_first(random, shape);
            let record = record_for(random, &first, 1);
            let length = record.len() + random.below(3);
            Call::of_page(entry, inspect_page(&first, &record), random.bytes(length))
        }
        Entry::WriteFile => {
            let pages = any_pages(random, 0);
            let length = file_bytes(pages.len() / SMALL.bytes) + random.below(3);
            Call::of_file(any_device(random), pages, random.bytes(length))
        }
        Entry::ReadFile => {
            let file = any_file(random, 1);
            let length = bytes_read(&file) + random.below(3);
            Call::of_reading(file, random.bytes(length))
        }
        Entry::PlaceRecord => sound_placing(random),
        Entry::CollectBlock => sound_collecting(random),
    }
}

/// The least length of the output of a sound call.
fn output_needed(call: &Call) -> usize {
    match call.entry {
        Entry::ReadFirst => known_shape(&call.page).first_bytes,
        Entry::WriteFile => file_bytes(call.page.len() / SMALL.bytes),
        Entry::ReadFile => bytes_read(&call.page),
        _ => length_of(&call.page),
    }
}

/// Another length of the page, or of the pages.
fn resize_page(random: &mut Random, call: &mut Call, length: usize) {
    let page = std::mem::take(&mut call.page);
    call.page = resized(random, page, length);
}

/// A byte of a blank page that is not 0: any, or one of those that 6 asks for in other states.
fn set_byte(random: &mut Random, call: &mut Call) {
    let any = random.below(call.page.len());
    let of_header = random.pick(&header_places(known_shape(&call.page)));
    call.page[random.pick(&[any, any, of_header])] = random.byte_from(1);
}

/// Any state but those that the entry asks for.
fn set_state(random: &mut Random, call: &mut Call) {
    let other = random.byte();
    let state = random.pick(&[0x00, 0x01, 0x03, 0x07, 0xFF, other]);
    call.page[0] = if call.entry.states().contains(&state) { !state } else { state };
}

/// A length above the limit in bytes 1 and 2, or one of the bytes after the words not 0.
fn set_header(random: &mut Random, call: &mut Call) {
    let shape = known_shape(&call.page);
    let place = random.pick(&header_places(shape));
    if shape.tail().contains(&place) {
        call.page[place] = random.byte_from(1);
    } else {
        let most = longest_named(shape, call.page[0]);
        put_length(&mut call.page, named_length_above(random, most));
    }
}

/// A word that is not as the page's state asks for: not legal, not well formed, with a data cell set, or not legal with
/// the read pairs put to 00.
fn set_word(random: &mut Random, call: &mut Call) {
    let page = std::mem::take(&mut call.page);
    let (index, hole) = (random.below(known_shape(&page).words), random.pick(&Hole::ALL));
    call.page = match page[0] {
        FIRST_ROUND => with_word(page, index, illegal(random)),
        FILLED => with_flaw(random, page),
        INSPECTED => with_unsound_word(random, page),
        _ => with_word(page, index, with_hole(random, hole)),
    };
}

/// More bytes than fit.
fn lengthen_record(random: &mut Random, call: &mut Call) {
    let more = 1 + random.pick(&[0, 0, 1, 40, 256]);
    if call.entry == Entry::WriteInspect {
        // What fits by the Inspect code depends on the record.
        call.other = inspect::any_record(random, known_shape(&call.page).inspect_bytes_most + 257);
        call.other.truncate(bytes_taken(&call.page, &call.other) + more);
    } else {
        call.other = any_record(random, most_bytes(&call.page) + more);
    }
}

/// A length too large for the data cells, where the page has so few, or else a spare data cell set; on a page of the
/// Inspect code, a length too large for the walks.
fn spoil_data_cells(random: &mut Random, call: &mut Call) {
    if call.entry == Entry::ReadInspect {
        call.page = with_length_too_large(random, std::mem::take(&mut call.page));
        return;
    }
    let shape = known_shape(&call.page);
    let found = data_cells_of(&words_of(&call.page)).len();
    let (fit, most) = (found / 8, shape.second_bytes_most);
    if fit < most && random.one_in(2) {
        put_length(&mut call.page, random.between(fit + 1, most));
        return;
    }
    // One byte less than what fits every page leaves spare data cells on every page.
    let length = length_of(&call.page).min(shape.second_bytes_sure() - 1);
    let page = with_length(std::mem::take(&mut call.page), length);
    let (first, any) = (8 * length, random.below(found));
    call.page = with_data_cell(page, random.pick(&[first, found - 1, any.max(first)]));
}

/// Another file.
fn spoil_file(random: &mut Random, call: &mut Call, damage: Damage) {
    call.page = damage(random, std::mem::take(&mut call.page));
}

/// Damages a sound call so that it meets the condition of the refusal with this number.
fn damage(random: &mut Random, call: &mut Call, number: u8) {
    match number {
        1 => {
            let length = wrong_page_length(random);
            resize_page(random, call, length);
        }
        2 => {
            let length = wrong_data_length(random, known_shape(&call.page));
            call.other = random.bytes(length);
        }
        3 => {
            let needed = output_needed(call);
            let any = random.below(needed);
            call.other.truncate(random.pick(&[0, needed - 1, any]));
        }
        4 => set_byte(random, call),
        5 => set_state(random, call),
        6 => set_header(random, call),
        7 => set_word(random, call),
        8 => lengthen_record(random, call),
        9 => spoil_data_cells(random, call),
        10 => call.argument |= 1 << random.between(CELLS, 63),
        11 => {
            let cells = with_neighbours(cells_of(call.argument), random.below(CELLS - 1));
            call.argument = number_of(&cells);
        }
        12 => call.argument = number_of(&sum_too_large(random)),
        13 => {
            let length = wrong_pages_length(random);
            resize_page(random, call, length);
        }
        14 => spoil_file(random, call, ended_early),
        15 => spoil_file(random, call, with_field_fault),
        16 => spoil_file(random, call, with_tail),
        17 => with_wrong_lengths(random, call),
        18 => without_fitting(random, call),
        _ => call.other = with_target_byte(random, std::mem::take(&mut call.other)),
    }
}

/// A call over a page of this shape that meets the conditions of the chosen refusals of its entry: bit k of `chosen`
/// stands for the k-th in the stated order. The last is brought about first, since an earlier one may hide what a later one
/// needs.
pub fn combined(random: &mut Random, entry: Entry, chosen: usize, shape: Shape) -> Call {
    combined_by(random, entry, chosen, shape, filled_page)
}

/// The same over a page made by this fill, where it is a filled or a second-round page.
pub fn combined_by(random: &mut Random, entry: Entry, chosen: usize, shape: Shape, fill: Filling) -> Call {
    let mut call = sound_by(random, entry, shape, fill);
    for (place, &number) in entry.refusals().iter().enumerate().rev() {
        if chosen >> place & 1 == 1 {
            damage(random, &mut call, number);
        }
    }
    call
}

/// The number of choices for `combined`.
pub fn choices(entry: Entry) -> usize {
    1 << entry.refusals().len()
}

/// A call with none, one or any of the conditions of its entry, over a page of either size made by either fill.
pub fn any_combined(random: &mut Random, entry: Entry) -> Call {
    let one = 1 << random.below(entry.refusals().len().max(1));
    let any = random.below(choices(entry));
    let chosen = random.pick(&[0, one, one, any]);
    let fill = random.pick::<Filling>(&[filled_page, filled_page, filled_page_earlier]);
    let shape = random.pick(&Shape::BOTH);
    combined_by(random, entry, chosen, shape, fill)
}

/// A word call of any argument; encode word takes 32 bits of it.
pub fn any_word_call(random: &mut Random, entry: Entry) -> Call {
    let argument = any_argument(random);
    Call::of_word(entry, if entry == Entry::EncodeWord { argument & 0xFFFF_FFFF } else { argument })
}

#[cfg(test)]
mod tests {
    use super::*;
    use crate::answer::number;
    use crate::cases::pages::{page_of, FILLINGS};
    use crate::page::Words;
    use crate::shape::LARGE;
    use crate::word::separators;
    use std::collections::HashSet;

    /// Every entry with each shape that it takes, or with one where it takes none, and with each fill.
    fn every_making(entries: &[Entry]) -> Vec<(Entry, Shape, Filling)> {
        let shapes = |entry: Entry| if entry.takes_page() { &Shape::BOTH[..] } else { &[SMALL] };
        let pairs = entries.iter().flat_map(|&entry| shapes(entry).iter().map(move |&shape| (entry, shape)));
        pairs.flat_map(|(entry, shape)| FILLINGS.map(|fill| (entry, shape, fill))).collect()
    }

    #[test]
    fn the_first_chosen_refusal_is_returned() {
        let mut random = Random::new(2);
        for (entry, shape, fill) in every_making(&Entry::ALL) {
            for chosen in (0..choices(entry)).cycle().take(640) {
                let expected = if chosen == 0 { 0 } else { entry.refusals()[chosen.trailing_zeros() as usize] };
                let mut call = combined_by(&mut random, entry, chosen, shape, fill);
                assert!(!entry.takes_page() || expected == 1 || call.page.len() == shape.bytes);
                assert_eq!(number(call.perform()), expected, "{} {chosen}", entry.name());
            }
        }
    }

    /// The first-round page that a sound call tells leads to its page, by the fill that was asked for.
    #[test]
    fn the_first_round_page_of_a_sound_call() {
        let mut random = Random::new(3);
        for (entry, shape, fill) in every_making(&Entry::AFTER_THE_FILL) {
            for call in [(); 100].map(|()| sound_by(&mut random, entry, shape, fill)) {
                let without_data: Words = words_of(&call.page).iter().map(separators).collect();
                match call.first {
                    Some(first) => assert_eq!(words_of(&fill(&first)), without_data),
                    None => assert_eq!(call.page[0], FIRST_ROUND),
                }
            }
        }
    }

    /// Each of the bytes that 6 asks for is not 0 by itself, and bytes 1 and 2 together; on 512 bytes, bytes 509 to 511 too.
    #[test]
    fn every_header_byte_out_of_its_range() {
        let mut random = Random::new(4);
        for (shape, places) in [(SMALL, vec![1, 2]), (LARGE, vec![1, 2, 509, 510, 511])] {
            let wanted = places.into_iter().map(|place| vec![place]).chain([vec![1, 2]]);
            let base = page_of(shape, 77);
            let mut differing = |_| {
                let mut call = Call::of_page(Entry::FillPage, base.clone(), Vec::new());
                set_header(&mut random, &mut call);
                (0..shape.bytes).filter(|&place| call.page[place] != base[place]).collect::<Vec<_>>()
            };
            let met: HashSet<Vec<usize>> = (0..400).map(&mut differing).collect();
            assert_eq!(met, wanted.collect());
        }
    }

    /// A length above the limit of each code and size, by one and by more, whichever of its bytes tells so.
    #[test]
    fn every_length_out_of_its_range() {
        let mut random = Random::new(4);
        for (entry, shape, most) in [
            (Entry::ReadSecond, SMALL, 126),
            (Entry::ReadSecond, LARGE, 253),
            (Entry::ReadInspect, SMALL, 247),
            (Entry::ReadInspect, LARGE, 495),
        ] {
            let mut named = |_| {
                let mut call = sound(&mut random, entry, shape);
                put_length(&mut call.page, 0);
                set_header(&mut random, &mut call);
                length_of(&call.page)
            };
            let met: HashSet<usize> = (0..2_000).map(&mut named).filter(|length| *length > 0).collect();
            assert_eq!(met.iter().min(), Some(&(most + 1)));
            assert!(met.iter().any(|length| length % 256 <= most && length / 256 > 1), "{most}");
        }
    }

    /// Of random calls of an entry, about half have pages of each size.
    #[test]
    fn both_sizes_have_their_share() {
        let mut random = Random::new(5);
        for entry in Entry::OF_PAGES {
            let calls: Vec<Call> = (0..1_000).map(|_| any_combined(&mut random, entry)).collect();
            for shape in Shape::BOTH {
                let count = calls.iter().filter(|call| call.page.len() == shape.bytes).count();
                assert!(count > 300, "{} {} {count}", entry.name(), shape.bytes);
            }
        }
    }
}
