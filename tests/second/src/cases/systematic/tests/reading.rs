//! What the systematic calls of read file meet.

use super::*;
use crate::answer::{device_in, pages_in};
use crate::cases::reading::{stage_class, EDGE_TAGS, FIELD_LENGTHS, STAGES};
use crate::cases::systematic::reading::changes;
use crate::reading::{length_in, Fault, Kind, Reading, Stage};

/// The answer to the file of three pages with this byte at this place of it, by its number and its pages.
fn answer_with(place: usize, byte: u8) -> (u8, usize) {
    let passed_over = (0x40..=0x6F).contains(&byte);
    match place {
        0 | 1 => (14, 0),
        // The device number: without it, the page after it has no place.
        2..=4 => (15, 0),
        5..=8 => (0, 3),
        // The tags of the pages, and the end's, after which the file would have to go on.
        9 | 268 | 527 if passed_over => (0, 2),
        786 if passed_over => (14, 0),
        786.. => (15, 0),
        _ if (place - 9) % 259 < 3 => (15, 0),
        _ => (0, 3),
    }
}

/// Each byte of a file of three pages changed to each other one; of the device number and of the pages, it comes out.
#[test]
fn every_byte_changed() {
    let mut met = 0;
    for (number, call) in changes().enumerate() {
        let (place, (after, answer)) = (number / 255, call.performed());
        let (number, pages) = answer_with(place, call.page[place]);
        assert_eq!((super::number(answer), answer.map_or(0, pages_in)), (number, pages), "{place}");
        let bytes = [&device_in(value(answer)).to_be_bytes(), &after.other[..]].concat();
        let out = match place {
            5..=8 => Some(place - 5),
            12.. if pages == 3 => Some(4 + (place - 12) / 259 * 256 + (place - 12) % 259),
            _ => None,
        };
        assert!(out.is_none_or(|out| bytes[out] == call.page[place]), "{place}");
        assert!(answer.is_ok() || after.other == call.other);
        met += 1;
    }
    assert_eq!(met, 789 * 255);
}

/// What the reading of each file of read file leads to.
fn readings<T, W, C>(wanted: W, class: impl Fn(&Call, &Reading, Answer) -> C)
where
    T: Debug + Eq + Hash,
    W: IntoIterator<Item = T>,
    C: IntoIterator<Item = T>,
{
    occurs(Entry::ReadFile, wanted, |call, answer| class(call, &Reading::of(&call.page), answer));
}

/// A file of three pages ends before each of its bytes: the stage, and how many bytes there are of the next field.
#[test]
fn every_prefix_of_a_file_of_three_pages() {
    let pages = (0..3).flat_map(|page| (0..259).map(move |there| (Stage::Pages(page), there)));
    let others = (0..7).map(|there| (Stage::Start, there)).chain((0..3).map(|there| (Stage::Pages(3), there)));
    readings(pages.chain(others), |call, reading, answer| {
        (number(answer) == 14).then(|| (reading.stage, call.page.len() - reading.next))
    });
}

/// Fields to be passed over that are cut before each of their bytes.
#[test]
fn every_prefix_of_fields_to_be_passed_over() {
    let lengths = [(Stage::Start, 1), (Stage::Start, 0), (Stage::Pages(0), 255), (Stage::Pages(1), 256)];
    let wanted = lengths.into_iter().flat_map(|(stage, length)| (0..3 + length).map(move |there| (stage, there)));
    readings(wanted, |call, reading, answer| {
        let passed_over = reading.fields.iter().filter(|field| field.kind == Kind::PassedOver).count() > 0;
        (number(answer) == 14 && passed_over).then(|| (reading.stage, call.page.len() - reading.next))
    });
}

/// Every tag at each stage, as the last byte of the file, with half a length, and with more: an unknown one and one out of
/// sequence are refused 15 in each case, another 14 where there is no more.
#[test]
fn every_tag_at_every_stage() {
    let tags = STAGES.into_iter().flat_map(|stage| (0..=255).map(move |tag| (stage, tag)));
    let wanted = tags.flat_map(|(stage, tag)| {
        let known = Kind::of(tag).and_then(|kind| stage.after(kind)).is_some();
        [(stage, tag, 1, if known { 14 } else { 15 }), (stage, tag, 2, if known { 14 } else { 15 })]
    });
    readings(wanted, |call, reading, answer| {
        let begun = call.page.get(reading.next).filter(|_| reading.next > 0);
        begun.map(|&tag| (stage_class(reading.stage), tag, call.page.len() - reading.next, number(answer)))
    });
}

/// Every tag whole at each stage: the first field of its stage that is not as the file has it.
#[test]
fn every_tag_of_a_whole_field() {
    let known = |stage: Stage, tag: u8| Kind::of(tag).and_then(|kind| stage.after(kind)).is_some();
    let tags = STAGES.into_iter().flat_map(|stage| (0..=255).map(move |tag| (stage, tag)));
    let (in_place, others): (Vec<_>, Vec<_>) = tags.partition(|&(stage, tag)| known(stage, tag));
    readings(in_place, |_, reading, answer| {
        let fields = reading.fields.iter().map(|field| (stage_class(field.stage), field.tag));
        fields.filter(|_| answer.is_ok()).collect::<Vec<_>>()
    });
    readings(others, |call, reading, answer| {
        let more = call.page.len() > reading.next + 3 && number(answer) == 15;
        call.page.get(reading.next).filter(|_| more).map(|&tag| (stage_class(reading.stage), tag))
    });
}

/// Each of the listed lengths, the bytes of 4 and of 256 swapped and the most among them, with every tag: with no contents.
#[test]
fn every_listed_length_of_every_tag() {
    assert!([0x0400, 0x0001, 0xFFFF].iter().all(|length| FIELD_LENGTHS.contains(length)));
    let every = (0..=255).map(|tag| (Stage::Pages(0), tag));
    let edges = STAGES.into_iter().flat_map(|stage| EDGE_TAGS.map(|tag| (stage, tag)));
    let wanted = every.chain(edges).flat_map(|(stage, tag)| FIELD_LENGTHS.map(|length| (stage, tag, length)));
    // The end field of length 0 ends a file that is sound.
    let wanted = wanted.filter(|&(stage, tag, length)| (tag, length) != (0x7F, 0) || stage == Stage::Start);
    // A field of length 0 is passed over whole, and no other follows it.
    let wanted = wanted.filter(|&(_, tag, length)| Kind::of(tag) != Some(Kind::PassedOver) || length > 0);
    readings(wanted, |call, reading, _| match call.page.get(reading.next..) {
        Some(&[tag, high, low]) => Some((stage_class(reading.stage), tag, u16::from_be_bytes([high, low]))),
        _ => None,
    });
}

/// How much longer the output is than the pages, and the answer's number.
#[test]
fn every_number_of_pages_with_outputs_about_their_length() {
    let about = [(-1, 3), (0, 0), (1, 0), (7, 0), (259, 0)];
    let wanted = (1..=64).flat_map(|count| about.map(|(longer, number)| (count, longer, number)));
    readings(wanted.chain([(0, 0, 0), (0, 1, 0)]), |call, reading, answer| {
        let longer = call.other.len() as isize - 256 * reading.stage.pages() as isize;
        output_counts(answer).then(|| (reading.stage.pages(), longer, number(answer)))
    });
    readings(1..=64, |call, reading, answer| {
        (call.other.is_empty() && number(answer) == 3).then_some(reading.stage.pages())
    });
}

/// Every device number with one bit set, and the listed ones.
#[test]
fn every_bit_of_a_device_number_that_is_read() {
    let wanted = (0..32).map(|bit| 1 << bit).chain(DEVICES).flat_map(|device| [(device, 0), (device, 1)]);
    readings(wanted, |_, _, answer| answer.ok().map(|result| (device_in(result), pages_in(result))));
}

/// The 65th page with each number of its bytes, and after fields to be passed over.
#[test]
fn a_65th_page_with_any_bytes() {
    readings((1..=259).flat_map(|there| [(there, false)]).chain([(262, true)]), |call, reading, answer| {
        let beyond = number(answer) == 15 && reading.stage == Stage::Pages(64) && call.page[reading.next] == 0x01;
        let passed_over = reading.fields.last().is_some_and(|field| field.kind == Kind::PassedOver);
        beyond.then(|| (call.page.len() - reading.next, passed_over))
    });
}

/// Every first byte and every second, alone and before the fields of a sound file and of files with each fault.
#[test]
fn every_start() {
    let [first, second] = [0xF1, 0xB0];
    let firsts = (0..=255).filter(|&byte| byte != first).map(|byte| [byte, second]);
    let seconds = (0..=255).filter(|&byte| byte != second).map(|byte| [first, byte]);
    let starts: Vec<[u8; 2]> = firsts.chain(seconds).chain([[second, first]]).collect();
    let wanted = starts.iter().flat_map(|&start| [0, 14, 15, 16].map(|righted| (start, righted)));
    readings(wanted, |call, _, answer| {
        let start = call.page.first_chunk::<2>().filter(|_| number(answer) == 14);
        start.map(|&start| (start, number(righted(call).perform())))
    });
    occurs(Entry::ReadFile, 0..=255, |call, _| {
        Some(call.page.as_slice()).filter(|file| file.len() == 1).map(|file| file[0])
    });
}

/// The call with the right start, and an output that is long enough.
fn righted(call: &Call) -> Call {
    Call::of_reading([&[0xF1, 0xB0], &call.page[2..]].concat(), vec![0; 16_384])
}

/// Every byte after the end field, and more bytes, after no page, one and 64.
#[test]
fn every_byte_after_the_end() {
    let wanted = [0, 1, 64].into_iter().flat_map(|count| (0..=255).map(move |byte| (count, byte, 1)));
    readings(wanted.chain([(0, 0x7F, 3), (1, 0xF1, 2), (64, 0x02, 7)]), |call, reading, answer| {
        let tail = &call.page[reading.next..];
        (number(answer) == 16).then(|| (reading.stage.pages(), tail[0], tail.len()))
    });
}

/// Very many fields to be passed over at each stage: the file is sound, is cut there, or has another tag there.
#[test]
fn very_many_fields_to_be_passed_over() {
    let wanted = STAGES.into_iter().flat_map(|stage| [(stage, 0), (stage, 14), (stage, 15)]);
    readings(wanted, |_, reading, answer| {
        let passed_over = reading.fields.iter().filter(|field| field.kind == Kind::PassedOver);
        let many = passed_over.clone().count() >= 10_000;
        passed_over.map(|field| (stage_class(field.stage), number(answer))).filter(|_| many).take(1).collect::<Vec<_>>()
    });
}

/// Two faults: after the first, which is in a field, there is a second of each kind, if the first had not been met.
#[test]
fn the_first_of_two_faults() {
    let firsts = [Fault::Tag, Fault::Sequence, Fault::Length];
    let seconds =
        [Fault::Tag, Fault::Sequence, Fault::Length, Fault::NoField, Fault::NoLength, Fault::NoContents, Fault::Tail];
    let wanted = firsts.into_iter().flat_map(|first| seconds.map(|second| (first, second)));
    readings(wanted, |call, reading, _| {
        let fault = reading.fault.filter(|fault| firsts.contains(fault) && reading.stage == Stage::Pages(1));
        let without = fault.and_then(|_| without_the_field(&call.page, reading.next));
        without.and_then(|file| fault.zip(Reading::of(&file).fault))
    });
}

/// The file without the field at this offset, if it is whole.
fn without_the_field(file: &[u8], offset: usize) -> Option<Vec<u8>> {
    let rest = file.get(offset + 3 + length_in(&file[offset..])?..)?;
    Some([&file[..offset], rest].concat())
}
