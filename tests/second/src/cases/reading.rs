//! Transfer files for the calls of read file, sound and damaged.

use super::files::{any_bytes, any_device, any_pages, fields, numbered, Contents, CONTENTS};
use super::lengths::other_length;
use super::pages::any_record;
use crate::call::{Call, Entry};
use crate::file::{field, head, parts_of, DEVICE_TAG, END_TAG, FILE_PAGES_MOST, PAGE_TAG, START};
use crate::random::Random;
use crate::reading::{Field, Kind, Reading, Stage, HEAD_BYTES, PASSED_OVER_TAGS};
use crate::shape::SMALL;

/// Lengths of fields: none, one byte, about 4 and about 256, 4 with its two bytes swapped, and the most. One byte is 256 with
/// its two bytes swapped.
pub const FIELD_LENGTHS: [u16; 10] = [0, 1, 3, 4, 5, 255, 256, 257, 0x0400, 0xFFFF];

/// The known tags, of those passed over some, the tags beside them, and known ones with another highest bit.
pub const EDGE_TAGS: [u8; 20] = [
    0x00, 0x01, 0x02, 0x03, 0x3F, 0x40, 0x41, 0x55, 0x6E, 0x6F, 0x70, 0x7E, 0x7F, 0x80, 0x81, 0x82, 0xC0, 0xEF, 0xF1,
    0xFF,
];

/// Fields to be passed over in one file that are very many.
pub const MANY_FIELDS: usize = 10_000;

/// No field of the most bytes is put into a file that is longer than this.
const LONG_FILE: usize = 20_000;

/// The stages before the end of a file, as far as other fields have a place.
pub const STAGES: [Stage; 4] = [Stage::Start, Stage::Pages(0), Stage::Pages(1), Stage::Pages(FILE_PAGES_MOST)];

/// Of these stages or the end, the one at which the same fields have a place.
pub fn stage_class(stage: Stage) -> Stage {
    match stage {
        Stage::Pages(count) if (1..FILE_PAGES_MOST).contains(&count) => Stage::Pages(1),
        Stage::End(_) => Stage::End(0),
        _ => stage,
    }
}

/// The file of this device and these pages.
pub fn file_of(device: u32, pages: &[u8]) -> Vec<u8> {
    parts_of(device, pages).concat()
}

/// Of a file, what stands before a field that would begin at this stage, and what after it. It has two pages that differ, or
/// as many as the stage asks for.
pub fn about(random: &mut Random, stage: Stage) -> [Vec<u8>; 2] {
    let (count, before) = match stage {
        Stage::Start => (2, 1),
        Stage::Pages(count) => (count.max(2), 2 + count),
        Stage::End(count) => (count, 3 + count),
    };
    let parts = parts_of(any_device(random), &numbered(random, SMALL.bytes * count));
    let (before, after) = parts.split_at(before);
    [before.concat(), after.concat()]
}

/// A file of three pages: one that differs from the others in each place, one that looks like fields, and any.
pub fn three_pages(random: &mut Random) -> Vec<u8> {
    let pages = [numbered, fields, any_bytes].map(|contents: Contents| contents(random, SMALL.bytes));
    file_of(0x8192_A3B4, &pages.concat())
}

/// A file as its start, its fields, and what follows them, if there is anything.
type Parts = Vec<Vec<u8>>;

/// The start and the fields that were read of the file, and what follows them.
fn parts_in(file: &[u8]) -> Parts {
    let reading = Reading::of(file);
    let starts = reading.fields.iter().map(|field| field.bytes().start);
    let bounds: Vec<usize> = [0].into_iter().chain(starts).chain([reading.next, file.len()]).collect();
    bounds.windows(2).map(|bounds| file[bounds[0]..bounds[1]].to_vec()).filter(|part| !part.is_empty()).collect()
}

/// A tag that no field has.
fn unknown_tag(random: &mut Random) -> u8 {
    let unknown: Vec<u8> = (0..=255).filter(|&tag| Kind::of(tag).is_none()).collect();
    random.pick(&unknown)
}

/// Any of the fields of these kinds that were read of the file, often the last.
fn any_field(random: &mut Random, file: &[u8], kinds: &[Kind]) -> Option<Field> {
    let fields = Reading::of(file).fields.into_iter().filter(|field| kinds.contains(&field.kind));
    let fields: Vec<Field> = fields.collect();
    let last = fields.len().saturating_sub(1);
    let any = random.between(0, last);
    fields.into_iter().nth(random.pick(&[any, any, last]))
}

/// A field to be passed over, seldom a long one, and in a long file none of the most bytes.
fn any_passed_over(random: &mut Random, file: &[u8]) -> Vec<u8> {
    let tags: Vec<u8> = PASSED_OVER_TAGS.collect();
    let most = if file.len() > LONG_FILE { FIELD_LENGTHS.len() - 1 } else { FIELD_LENGTHS.len() };
    let (short, listed) = (random.below(12), usize::from(random.pick(&FIELD_LENGTHS[..most])));
    let length = random.pick(&[short, short, short, listed]);
    field(random.pick(&tags), &random.pick(&CONTENTS)(random, length))
}

/// With a further part at any place after the start and before the last part, often at the first or the last of these.
fn with_part(random: &mut Random, file: &[u8], part: Vec<u8>) -> Vec<u8> {
    let mut parts = parts_in(file);
    let last = parts.len().saturating_sub(1);
    let first = last.min(1);
    let any = random.between(first, last);
    parts.insert(random.pick(&[first, last, any, any]), part);
    parts.concat()
}

/// With a further field to be passed over; a sound file is sound with it.
fn with_passed_over(random: &mut Random, file: Vec<u8>) -> Vec<u8> {
    let part = any_passed_over(random, &file);
    with_part(random, &file, part)
}

/// A sound file of this many pages at least.
pub fn any_file(random: &mut Random, least: usize) -> Vec<u8> {
    let pages = any_pages(random, least);
    let file = file_of(any_device(random), &pages);
    let more = random.pick(&[0, 0, 1, 2, 4]);
    (0..more).fold(file, |file, _| with_passed_over(random, file))
}

/// Makes another file of a file.
pub type Damage = fn(&mut Random, Vec<u8>) -> Vec<u8>;

/// Those of the random calls.
const DAMAGES: [Damage; 15] = [
    ended_early,
    cut_at_a_field,
    with_other_start,
    with_unknown_tag,
    with_edge_tag,
    with_wrong_length,
    with_other_length,
    with_field_out_of_sequence,
    with_pages_beyond,
    with_any_field,
    without_a_field,
    with_fields_swapped,
    with_other_byte,
    with_tail,
    of_any_bytes,
];

/// Those that lead to 15 in a sound file.
const FIELD_DAMAGES: [Damage; 4] = [with_unknown_tag, with_wrong_length, with_field_out_of_sequence, with_pages_beyond];

/// With one of the two bytes of the start another, or both swapped.
fn with_other_start(random: &mut Random, mut file: Vec<u8>) -> Vec<u8> {
    let (place, bits) = (random.below(3), random.byte_from(1));
    match file.first_chunk_mut::<2>() {
        Some(start) if place == 2 => start.swap(0, 1),
        Some(start) => start[place] ^= bits,
        None => file.clear(),
    }
    file
}

/// Cut before the end of what was read of it, or with another start: then 14 is met first.
pub fn ended_early(random: &mut Random, mut file: Vec<u8>) -> Vec<u8> {
    let read = Reading::of(&file).next;
    if read == 0 || random.one_in(2) {
        return with_other_start(random, file);
    }
    file.truncate(random.below(read));
    file
}

/// Cut right before a field, or after one, two or three bytes of it.
fn cut_at_a_field(random: &mut Random, mut file: Vec<u8>) -> Vec<u8> {
    if let Some(field) = any_field(random, &file, &Kind::ALL) {
        file.truncate(field.contents.start - random.between(0, HEAD_BYTES));
    }
    file
}

/// With this tag in place of a field's own.
fn with_tag(random: &mut Random, mut file: Vec<u8>, tag: u8) -> Vec<u8> {
    if let Some(field) = any_field(random, &file, &Kind::ALL) {
        file[field.bytes().start] = tag;
    }
    file
}

fn with_unknown_tag(random: &mut Random, file: Vec<u8>) -> Vec<u8> {
    let tag = unknown_tag(random);
    with_tag(random, file, tag)
}

fn with_edge_tag(random: &mut Random, file: Vec<u8>) -> Vec<u8> {
    let tag = random.pick(&EDGE_TAGS);
    with_tag(random, file, tag)
}

/// Of a field of one of these kinds, another length: one of the listed, or any. The contents stay, or have that length too.
fn with_length_in(random: &mut Random, file: Vec<u8>, kinds: &[Kind]) -> Vec<u8> {
    let Some(field) = any_field(random, &file, kinds) else { return file };
    let (listed, any) = (random.pick(&FIELD_LENGTHS), random.draw() as u16);
    let length = random.pick(&[listed, listed, any]);
    let mut contents = file[field.contents.clone()].to_vec();
    let length = if usize::from(length) == contents.len() { length ^ 1 } else { length };
    if random.one_in(2) && (usize::from(length) < LONG_FILE || file.len() < LONG_FILE) {
        contents.resize(usize::from(length), END_TAG);
    }
    [&file[..field.bytes().start], &head(field.tag, length), &contents, &file[field.bytes().end..]].concat()
}

fn with_wrong_length(random: &mut Random, file: Vec<u8>) -> Vec<u8> {
    with_length_in(random, file, &[Kind::Device, Kind::Page, Kind::End])
}

/// A field of another length that is passed over may end inside another, or take it in.
fn with_other_length(random: &mut Random, file: Vec<u8>) -> Vec<u8> {
    with_length_in(random, file, &[Kind::PassedOver])
}

/// A field of this tag, with the contents that it must have, or else with some; the highest bit of the tag does not count.
pub fn any_field_of(random: &mut Random, tag: u8) -> Vec<u8> {
    let any = random.below(12);
    let length = Kind::of(tag % 0x80).and_then(Kind::length).unwrap_or(any);
    field(tag, &random.bytes(length))
}

fn with_any_field(random: &mut Random, file: Vec<u8>) -> Vec<u8> {
    let tag = random.pick(&EDGE_TAGS);
    let part = any_field_of(random, tag);
    with_part(random, &file, part)
}

/// The places of the device number and of the end field among the parts of a file; if it has no end field, the place after
/// its fields.
fn device_and_end(file: &[u8]) -> Option<(usize, usize)> {
    let fields = Reading::of(file).fields;
    let place = |kind: Kind| fields.iter().position(|field| field.kind == kind).map(|place| place + 1);
    place(Kind::Device).map(|device| (device, place(Kind::End).unwrap_or(fields.len() + 1)))
}

/// With a page or an end field before the device number, or with a second one of these.
fn with_field_out_of_sequence(random: &mut Random, file: Vec<u8>) -> Vec<u8> {
    let Some((device, end)) = device_and_end(&file) else { return file };
    let mut parts = parts_in(&file);
    let tag = random.pick(&[PAGE_TAG, END_TAG, DEVICE_TAG, DEVICE_TAG]);
    let place = if tag == DEVICE_TAG { random.between(device + 1, end) } else { random.between(1, device) };
    parts.insert(place, any_field_of(random, tag));
    parts.concat()
}

/// With 65 or 66 pages.
fn with_pages_beyond(random: &mut Random, file: Vec<u8>) -> Vec<u8> {
    let Some((_, end)) = device_and_end(&file) else { return file };
    let more = FILE_PAGES_MOST + 1 + random.below(2) - Reading::of(&file).stage.pages();
    let mut parts = parts_in(&file);
    parts.insert(end, any_field_of(random, PAGE_TAG).repeat(more));
    parts.concat()
}

fn without_a_field(random: &mut Random, mut file: Vec<u8>) -> Vec<u8> {
    if let Some(field) = any_field(random, &file, &Kind::ALL) {
        file.drain(field.bytes());
    }
    file
}

/// With two parts swapped, of which one may be the start.
fn with_fields_swapped(random: &mut Random, file: Vec<u8>) -> Vec<u8> {
    let mut parts = parts_in(&file);
    if let Some(last) = parts.len().checked_sub(1) {
        parts.swap(random.between(0, last), random.between(0, last));
    }
    parts.concat()
}

/// With another byte anywhere, or in what a field has before its contents.
fn with_other_byte(random: &mut Random, mut file: Vec<u8>) -> Vec<u8> {
    let any = random.below(file.len().max(1));
    let head = any_field(random, &file, &Kind::ALL).map_or(any, |field| field.bytes().start + random.below(HEAD_BYTES));
    let (place, bits) = (random.pick(&[any, head]), random.byte_from(1));
    file.iter_mut().skip(place).take(1).for_each(|byte| *byte ^= bits);
    file
}

/// With any bytes after it, or, if it is not long, with its own fields once more.
pub fn with_tail(random: &mut Random, file: Vec<u8>) -> Vec<u8> {
    let length = random.pick(&[1, 1, 2, 3, 300]);
    let tail = random.pick(&CONTENTS)(random, length);
    let again = file.get(START.len()..).filter(|fields| !fields.is_empty() && fields.len() < LONG_FILE);
    let tail = again.filter(|_| random.one_in(4)).map_or(tail, <[u8]>::to_vec);
    [file, tail].concat()
}

/// The start, and any bytes.
fn of_any_bytes(random: &mut Random, _: Vec<u8>) -> Vec<u8> {
    let length = random.below(600);
    [&START[..], &random.bytes(length)].concat()
}

/// With a fault in one of its fields, and perhaps cut after what tells it: in a sound file, and in one with a tail, 15 is met
/// first.
pub fn with_field_fault(random: &mut Random, file: Vec<u8>) -> Vec<u8> {
    let mut file = random.pick(&FIELD_DAMAGES)(random, file);
    let telling = Reading::of(&file).telling(&file);
    if random.one_in(3) {
        file.truncate(random.between(telling, file.len()));
    }
    file
}

/// The bytes of the pages that were read of the file.
pub fn bytes_read(file: &[u8]) -> usize {
    SMALL.bytes * Reading::of(file).stage.pages()
}

/// A call with a file of any kind, and any length class of the output.
pub fn any_reading_call(random: &mut Random) -> Call {
    let file = any_file(random, 0);
    let damages = random.pick(&[0, 1, 1, 1, 2]);
    let file = (0..damages).fold(file, |file, _| random.pick(&DAMAGES)(random, file));
    let length = other_length(random, Entry::ReadFile, &file);
    Call::of_reading(file, any_record(random, length))
}

#[cfg(test)]
mod tests {
    use super::*;
    use crate::answer::number;
    use crate::memory::ARENA_BYTES;
    use crate::reading::Fault;
    use std::collections::HashSet;

    /// The number of the answer, with an output that is long enough.
    fn answer_to(file: &[u8]) -> u8 {
        number(Call::of_reading(file.to_vec(), vec![0; bytes_read(file)]).perform())
    }

    #[test]
    fn about_every_stage() {
        for stage in STAGES.into_iter().chain([Stage::Pages(63), Stage::End(0), Stage::End(2), Stage::End(64)]) {
            let [before, after] = about(&mut Random::new(1), stage);
            assert_eq!(Reading::of(&before).stage, stage);
            assert_eq!(answer_to(&[before, after].concat()), 0);
        }
    }

    #[test]
    fn a_file_of_three_pages() {
        let file = three_pages(&mut Random::new(1));
        assert_eq!((file.len(), bytes_read(&file), answer_to(&file)), (789, 768, 0));
    }

    #[test]
    fn the_parts_of_a_file() {
        let mut random = Random::new(2);
        for _ in 0..500 {
            let file = any_reading_call(&mut random).page;
            assert_eq!(parts_in(&file).concat(), file);
        }
        let file = three_pages(&mut random);
        assert_eq!(parts_in(&file).iter().map(Vec::len).collect::<Vec<_>>(), [2, 7, 259, 259, 259, 3]);
        assert_eq!(parts_in(&[&file[..], &[1]].concat()).len(), 7);
    }

    /// Files of few pages and of the most, with fields passed over at each stage, of no byte and of the most.
    #[test]
    fn sound_files() {
        let mut random = Random::new(3);
        let mut met = HashSet::new();
        for least in [0, 1].into_iter().cycle().take(4_000) {
            let file = any_file(&mut random, least);
            assert_eq!(answer_to(&file), 0);
            let reading = Reading::of(&file);
            assert!(reading.stage.pages() >= least);
            let passed_over = reading.fields.iter().filter(|field| field.kind == Kind::PassedOver);
            met.extend(passed_over.map(|field| (stage_class(field.stage), field.contents.len())));
        }
        for stage in STAGES {
            let lengths: HashSet<usize> =
                met.iter().filter(|(of, _)| *of == stage).map(|(_, length)| *length).collect();
            assert!(lengths.contains(&0) && lengths.len() > 5, "{stage:?}");
        }
        assert!(met.contains(&(Stage::Pages(0), 65_535)));
    }

    /// Each damage leads to its number, alone and after those of later numbers.
    #[test]
    fn damages_with_a_number() {
        let mut random = Random::new(4);
        for _ in 0..2_000 {
            let file = any_file(&mut random, 0);
            let tailed = with_tail(&mut random, file.clone());
            assert_eq!(answer_to(&tailed), 16);
            for file in [file, tailed] {
                let faulty = with_field_fault(&mut random, file.clone());
                assert_eq!(answer_to(&faulty), 15);
                assert_eq!([file, faulty].map(|file| answer_to(&ended_early(&mut random, file))), [14, 14]);
            }
        }
    }

    /// The random calls meet each fault at each stage, but not all of them after 64 pages, and are no longer than an arena takes.
    #[test]
    fn every_fault_of_random_calls() {
        let mut random = Random::new(5);
        let mut met = HashSet::new();
        for _ in 0..10_000 {
            let call = any_reading_call(&mut random);
            assert!(call.page.len() <= ARENA_BYTES / 2);
            let reading = Reading::of(&call.page);
            met.insert((reading.fault, stage_class(reading.stage)));
        }
        let in_fields =
            [Fault::NoField, Fault::NoLength, Fault::NoContents, Fault::Tag, Fault::Sequence, Fault::Length];
        let in_fields = in_fields.into_iter().flat_map(|fault| STAGES[..3].iter().map(move |&stage| (fault, stage)));
        let others = [(Fault::Start, Stage::Start), (Fault::Sequence, STAGES[3]), (Fault::Tail, Stage::End(0))];
        for (fault, stage) in in_fields.chain(others) {
            assert!(met.contains(&(Some(fault), stage)), "never {fault:?} {stage:?}");
        }
        assert!(met.contains(&(None, Stage::End(0))));
    }
}
