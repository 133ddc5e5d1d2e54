//! Counters of what the files of read file lead to: the faults, with the stage at which each is met and what there is of the
//! field; the tags at each stage; wrong lengths; fields passed over; numbers of pages; and outputs.

use super::length::Output;
use super::shape::Named;
use crate::answer::{number, pages_in, Answer};
use crate::call::{Call, Entry};
use crate::cases::reading::{bytes_read, stage_class, FIELD_LENGTHS, MANY_FIELDS, STAGES};
use crate::file::{FILE_PAGES_MOST, START};
use crate::reading::{length_in, Fault, Field, Kind, Reading, Stage, HEAD_BYTES};
use crate::shape::SMALL;
use std::collections::HashMap;

/// Lengths of fields that must have been passed over at each stage.
const PASSED_OVER_LENGTHS: [usize; 5] = [0, 1, 255, 256, 65_535];

/// What there is of a field with a fault.
#[derive(Clone, Copy, PartialEq, Eq, Hash)]
enum There {
    Nothing,
    Tag,
    /// The tag and one byte of the length.
    HalfLength,
    /// The tag and the length, which is not 0, without contents.
    Head,
    Part,
    OneByteMissing,
    Whole,
}

impl There {
    fn name(self) -> &'static str {
        match self {
            There::Nothing => "nothing there",
            There::Tag => "the tag there",
            There::HalfLength => "half the length there",
            There::Head => "no contents there",
            There::Part => "a part of the contents there",
            There::OneByteMissing => "one byte missing",
            There::Whole => "whole",
        }
    }

    /// Of a field that begins with these bytes, which go to the end of the file.
    fn of(bytes: &[u8]) -> There {
        let contents = bytes.len().saturating_sub(HEAD_BYTES);
        match (bytes.len(), length_in(bytes)) {
            (0, _) => There::Nothing,
            (1, _) => There::Tag,
            (_, None) => There::HalfLength,
            (_, Some(length)) if contents >= length => There::Whole,
            (HEAD_BYTES, _) => There::Head,
            (_, Some(length)) if contents + 1 == length => There::OneByteMissing,
            _ => There::Part,
        }
    }
}

/// What a call counts for.
#[derive(Clone, Copy, PartialEq, Eq, Hash)]
enum Met {
    /// 14 for the start of a file of so many bytes, 2 for all longer ones, by its first byte or by the second.
    Start { bytes: usize, first: bool },
    /// 14 for the start of a file that would be answered by this number with the right one, and with an output long enough.
    StartBefore(u8),
    /// A fault in a field, or where one should begin.
    Fault { fault: Fault, kind: Option<Kind>, stage: Stage, there: There },
    /// 15 for this length, with the contents that it tells or without all of them.
    Length { kind: Kind, length: usize, whole: bool },
    /// 16 after so many pages, 1 for any number but none and the most; for one byte, or for more.
    Tail { pages: usize, one: bool },
    /// A field of this tag, or a byte after the end, begins at this stage.
    Tag { tag: u8, stage: Stage },
    /// Accepted: a field of this length is passed over.
    PassedOver { stage: Stage, length: usize },
    /// Accepted: very many fields are passed over.
    ManyPassedOver,
    /// Accepted: so many pages.
    Pages(usize),
    /// The output's length is looked at, for so many pages as with `Tail`.
    Output { output: Output, pages: usize },
    /// Refused by this number with an output that is too short for the pages before the fault.
    BeforeOutput(u8),
}

/// None, the most, or 1 for any other number of pages.
fn pages_class(count: usize) -> usize {
    match count {
        0 | FILE_PAGES_MOST => count,
        _ => 1,
    }
}

fn pages_name(class: usize) -> &'static str {
    match class {
        0 => "no page",
        FILE_PAGES_MOST => "64 pages",
        _ => "pages",
    }
}

fn stage_name(stage: Stage) -> &'static str {
    match stage {
        Stage::Start => "before the device number",
        Stage::Pages(0) => "after the device number",
        Stage::Pages(FILE_PAGES_MOST) => "after 64 pages",
        Stage::Pages(_) => "after a page",
        Stage::End(_) => "after the end",
    }
}

fn fault_name(fault: Fault) -> &'static str {
    match fault {
        Fault::Start => "another start",
        Fault::NoField => "no further field",
        Fault::NoLength => "a length cut",
        Fault::NoContents => "contents cut",
        Fault::Tag => "another tag",
        Fault::Sequence => "its place",
        Fault::Length => "its length",
        Fault::Tail => "a tail",
    }
}

impl Met {
    fn name(self) -> String {
        match self {
            Met::Start { bytes: 0, .. } => "14 for no byte".to_string(),
            Met::Start { bytes: 1, first: false } => "14 for the first byte alone".to_string(),
            Met::Start { bytes: 1, first: true } => "14 for another byte alone".to_string(),
            Met::Start { first, .. } => format!("14 for another {} byte", if first { "first" } else { "second" }),
            Met::StartBefore(number) => format!("14 for another start, before {}", super::answer_name(number)),
            Met::Fault { fault, kind, stage, there } => {
                let kind = kind.map_or(String::new(), |kind| format!(", {}", kind.name()));
                let (number, fault) = (fault.refusal().number, fault_name(fault));
                format!("{number} for {fault}{kind} {}, {}", stage_name(stage), there.name())
            }
            Met::Length { kind, length, whole } => {
                let contents = if whole { "with its contents" } else { "without all its contents" };
                format!("15 for {} of {length} bytes, {contents}", kind.name())
            }
            Met::Tail { pages, one } => {
                format!("16 for {} after {}", if one { "one byte" } else { "more bytes" }, pages_name(pages))
            }
            Met::Tag { tag, stage } => format!("tag {tag:02X} {}", stage_name(stage)),
            Met::PassedOver { stage, length } => format!("accepted, {length} bytes passed over {}", stage_name(stage)),
            Met::ManyPassedOver => format!("accepted, {MANY_FIELDS} fields passed over"),
            Met::Pages(count) => format!("accepted, {count} pages"),
            Met::Output { output, pages } => format!("an output {} for {}", output.name(), pages_name(pages)),
            Met::BeforeOutput(number) => format!("{number} with an output too short"),
        }
    }
}

#[derive(Default)]
pub struct Readings {
    met: HashMap<Met, u64>,
}

impl Readings {
    pub fn new() -> Readings {
        Readings::default()
    }

    /// Counts a call of read file.
    pub fn count(&mut self, call: &Call, answer: Answer) {
        let reading = Reading::of(&call.page);
        let met = tags(&call.page, &reading).into_iter().chain(output(call, answer));
        let met: Vec<Met> = match reading.fault {
            None => {
                met.chain(answer.map_or(Vec::new(), |result| accepted(&reading.fields, pages_in(result)))).collect()
            }
            Some(fault) => met.chain(refused(&call.page, &reading, fault)).collect(),
        };
        met.into_iter().for_each(|met| *self.met.entry(met).or_default() += 1);
    }

    fn counter(&self, met: &Met) -> u64 {
        self.met.get(met).copied().unwrap_or(0)
    }

    /// Every counter that must not be 0, with its name.
    pub fn wanted(&self) -> Vec<Named> {
        let name = |met: &Met| format!("{} {}", Entry::ReadFile.name(), met.name());
        all_wanted().iter().map(|met| (name(met), self.counter(met))).collect()
    }

    /// How many numbers of pages and how many of the other wanted were met.
    pub fn told(&self) -> String {
        let met = all_wanted().into_iter().filter(|met| self.counter(met) > 0);
        let (pages, others): (Vec<Met>, Vec<Met>) = met.partition(|met| matches!(met, Met::Pages(_)));
        let tags = others.iter().filter(|met| matches!(met, Met::Tag { .. })).count();
        format!("  numbers of pages: {}  tags at stages: {tags}  others: {}", pages.len(), others.len() - tags)
    }
}

/// Each field that was read, and the one with the fault, by its tag; and the byte after the end.
fn tags(file: &[u8], reading: &Reading) -> Vec<Met> {
    let read = reading.fields.iter().map(|field| Met::Tag { tag: field.tag, stage: stage_class(field.stage) });
    let begun = reading.fault.is_some_and(|fault| fault != Fault::Start);
    let last = file.get(reading.next).filter(|_| begun);
    read.chain(last.map(|&tag| Met::Tag { tag, stage: stage_class(reading.stage) })).collect()
}

/// What the length of the output counts for.
fn output(call: &Call, answer: Answer) -> Option<Met> {
    let (needed, length) = (bytes_read(&call.page), call.other.len());
    let pages = pages_class(needed / SMALL.bytes);
    match number(answer) {
        0 | 3 => Output::of(length, needed).map(|output| Met::Output { output, pages }),
        number => (length < needed).then_some(Met::BeforeOutput(number)),
    }
}

/// What an accepted file counts for.
fn accepted(fields: &[Field], pages: usize) -> Vec<Met> {
    let passed_over: Vec<&Field> = fields.iter().filter(|field| field.kind == Kind::PassedOver).collect();
    let many = (passed_over.len() >= MANY_FIELDS).then_some(Met::ManyPassedOver);
    let passed_over = passed_over
        .into_iter()
        .map(|field| Met::PassedOver { stage: stage_class(field.stage), length: field.contents.len() });
    passed_over.chain(many).chain([Met::Pages(pages)]).collect()
}

/// What a file with this fault counts for.
fn refused(file: &[u8], reading: &Reading, fault: Fault) -> Vec<Met> {
    let bytes = &file[reading.next..];
    let kind = bytes.first().and_then(|&tag| Kind::of(tag));
    let (stage, there) = (stage_class(reading.stage), There::of(bytes));
    let met = Met::Fault { fault, kind, stage, there };
    match (fault, kind, length_in(bytes)) {
        (Fault::Start, ..) => wrong_start(file),
        (Fault::Tail, ..) => vec![Met::Tail { pages: pages_class(reading.stage.pages()), one: bytes.len() == 1 }],
        (Fault::Length, Some(kind), Some(length)) => {
            vec![met, Met::Length { kind, length, whole: there == There::Whole }]
        }
        _ => vec![met],
    }
}

/// What a file with another start counts for.
fn wrong_start(file: &[u8]) -> Vec<Met> {
    let start = Met::Start { bytes: file.len().min(2), first: file.first().is_some_and(|&byte| byte != START[0]) };
    let righted = file.get(START.len()..).map(|fields| Reading::of(&[&START, fields].concat()).fault);
    let before = righted.map(|fault| Met::StartBefore(fault.map_or(0, |fault| fault.refusal().number)));
    [start].into_iter().chain(before).collect()
}

fn all_wanted() -> Vec<Met> {
    [
        wanted_starts(),
        wanted_faults(),
        wanted_lengths(),
        wanted_tails(),
        wanted_tags(),
        wanted_accepted(),
        wanted_outputs(),
    ]
    .concat()
}

fn wanted_starts() -> Vec<Met> {
    let starts = [(0, false), (1, false), (1, true), (2, false), (2, true)];
    let starts = starts.into_iter().map(|(bytes, first)| Met::Start { bytes, first });
    starts.chain([0, 14, 15, 16].map(Met::StartBefore)).collect()
}

/// Each fault of each kind at each stage at which the rules let it be met, with each amount of the field that shows which
/// rule comes first.
fn wanted_faults() -> Vec<Met> {
    let at = |stage: Stage| {
        let of_kinds = Kind::ALL.into_iter().flat_map(move |kind| wanted_of_kind(kind, stage));
        let unknown = [There::Tag, There::HalfLength, There::Head, There::Whole].map(|there| (Fault::Tag, None, there));
        let wanted = of_kinds.chain(unknown).chain([(Fault::NoField, None, There::Nothing)]);
        wanted.map(move |(fault, kind, there)| Met::Fault { fault, kind, stage, there })
    };
    STAGES.into_iter().flat_map(at).collect()
}

/// The faults of a field of this kind at this stage.
fn wanted_of_kind(kind: Kind, stage: Stage) -> Vec<(Fault, Option<Kind>, There)> {
    let faults: &[(Fault, &[There])] = &[
        (Fault::Sequence, &[There::Tag, There::HalfLength, There::Head, There::Whole]),
        (Fault::NoLength, &[There::Tag, There::HalfLength]),
        (Fault::NoContents, &[There::Head, There::OneByteMissing]),
        (Fault::Length, &[There::Head, There::OneByteMissing, There::Whole]),
    ];
    let can_be_met = |fault: Fault| match fault {
        Fault::Sequence => stage.after(kind).is_none(),
        _ if stage.after(kind).is_none() => false,
        Fault::NoContents => kind.length() != Some(0),
        Fault::Length => kind.length().is_some(),
        _ => true,
    };
    let faults = faults.iter().filter(|(fault, _)| can_be_met(*fault));
    faults.flat_map(|(fault, there)| there.iter().map(|&there| (*fault, Some(kind), there))).collect()
}

/// Each of the listed lengths, but the right one, with its contents and without; none is the length of no contents.
fn wanted_lengths() -> Vec<Met> {
    let lengths = |kind: Kind| {
        let wrong = move |length: &usize| kind.length().is_some_and(|only| only != *length);
        let wrong = FIELD_LENGTHS.map(usize::from).into_iter().filter(wrong);
        let met = move |length: usize| [true, false].map(|whole| Met::Length { kind, length, whole });
        wrong.flat_map(met).filter(|met| !matches!(met, Met::Length { length: 0, whole: false, .. }))
    };
    Kind::ALL.into_iter().flat_map(lengths).collect()
}

fn wanted_tails() -> Vec<Met> {
    let classes = [0, 1, FILE_PAGES_MOST].into_iter();
    classes.flat_map(|pages| [true, false].map(|one| Met::Tail { pages, one })).collect()
}

/// Every tag at each stage, and every byte after the end.
fn wanted_tags() -> Vec<Met> {
    let stages = STAGES.into_iter().chain([Stage::End(0)]);
    stages.flat_map(|stage| (0..=255).map(move |tag| Met::Tag { tag, stage })).collect()
}

fn wanted_accepted() -> Vec<Met> {
    let passed_over = STAGES.into_iter();
    let passed_over = passed_over.flat_map(|stage| PASSED_OVER_LENGTHS.map(|length| Met::PassedOver { stage, length }));
    passed_over.chain([Met::ManyPassedOver]).chain((0..=FILE_PAGES_MOST).map(Met::Pages)).collect()
}

/// Every kind of output for every class of pages; none is too short for no page. And one too short for files with a fault.
fn wanted_outputs() -> Vec<Met> {
    let some =
        [1, FILE_PAGES_MOST].into_iter().flat_map(|pages| Output::ALL.map(|output| Met::Output { output, pages }));
    let none = [Output::Exact, Output::Longer].map(|output| Met::Output { output, pages: 0 });
    some.chain(none).chain([14, 15, 16].map(Met::BeforeOutput)).collect()
}

#[cfg(test)]
mod tests {
    use super::*;
    use crate::cases::files::numbered;
    use crate::cases::reading::{about, file_of};
    use crate::file::{field, head};
    use crate::random::Random;
    use std::collections::HashSet;

    /// The wanted counters that a call turns from 0, by name without the entry's and but for those of tags.
    fn met_by(file: &[u8], length: usize) -> Vec<String> {
        let call = Call::of_reading(file.to_vec(), vec![0; length]);
        let mut counters = Readings::new();
        counters.count(&call, call.clone().perform());
        let met = counters.wanted().into_iter().filter(|(_, met)| *met > 0);
        let names = met.map(|(name, _)| name.strip_prefix("read file ").expect("the entry").to_string());
        names.filter(|name| !name.starts_with("tag ")).collect()
    }

    /// What stands before a field at this stage, and these bytes.
    fn at(stage: Stage, bytes: &[u8]) -> Vec<u8> {
        let [before, _] = about(&mut Random::new(1), stage);
        [&before, bytes].concat()
    }

    /// What a refused file counts for, with an output that is long enough.
    fn met_at(stage: Stage, bytes: &[u8]) -> Vec<String> {
        met_by(&at(stage, bytes), SMALL.bytes * FILE_PAGES_MOST)
    }

    #[test]
    fn every_counter_has_a_name_of_its_own() {
        let wanted = Readings::new().wanted();
        assert_eq!(wanted.iter().map(|(name, _)| name).collect::<HashSet<_>>().len(), wanted.len());
    }

    #[test]
    fn starts_count() {
        let sound = file_of(1, &[]);
        assert_eq!(met_by(&[], 0), ["14 for no byte"]);
        assert_eq!(met_by(&[0xF1], 0), ["14 for the first byte alone"]);
        assert_eq!(met_by(&[0xB0], 0), ["14 for another byte alone"]);
        for (start, which) in [([0xF1, 0xB1], "second"), ([0xF0, 0xB0], "first"), ([0xF0, 0xB1], "first")] {
            let file = [&start, &sound[2..]].concat();
            for (file, before) in [
                (file.clone(), "accepted"),
                (file[..10].to_vec(), "14"),
                (with_byte(&file, 2, 0x80), "15"),
                ([&file[..], &[0]].concat(), "16"),
            ] {
                let names = [format!("14 for another {which} byte"), format!("14 for another start, before {before}")];
                assert_eq!(met_by(&file, 0), names);
            }
        }
    }

    /// The file with another byte at this place.
    fn with_byte(file: &[u8], place: usize, byte: u8) -> Vec<u8> {
        let mut file = file.to_vec();
        file[place] = byte;
        file
    }

    /// Each fault with its stage, its kind, and what there is of the field.
    #[test]
    fn faults_count() {
        let pages = Stage::Pages;
        let device = field(0x02, &[1, 2, 3, 4]);
        for (stage, bytes, name) in [
            (Stage::Start, &[][..], "14 for no further field before the device number, nothing there"),
            (pages(64), &[], "14 for no further field after 64 pages, nothing there"),
            (pages(0), &[0x01], "14 for a length cut, a page after the device number, the tag there"),
            (pages(1), &[0x7F, 0x01], "14 for a length cut, the end after a page, half the length there"),
            (
                Stage::Start,
                &device[..3],
                "14 for contents cut, a device number before the device number, no contents there",
            ),
            (pages(63), &[0x40, 0, 2, 1], "14 for contents cut, a field passed over after a page, one byte missing"),
            (pages(64), &[0x80, 0], "15 for another tag after 64 pages, half the length there"),
            (pages(0), &device, "15 for its place, a device number after the device number, whole"),
            (pages(64), &[0x01], "15 for its place, a page after 64 pages, the tag there"),
            (Stage::Start, &[0x7F, 0, 9], "15 for its place, the end before the device number, no contents there"),
        ] {
            assert_eq!(met_at(stage, bytes), [name]);
        }
    }

    #[test]
    fn wrong_lengths_count() {
        for (stage, tag, kind, length) in [
            (Stage::Start, 0x02, "a device number before the device number", 5),
            (Stage::Pages(0), 0x01, "a page after the device number", 257),
            (Stage::Pages(64), 0x7F, "the end after 64 pages", 4),
        ] {
            let (what, _) = kind.split_at(kind.find(" before").or(kind.find(" after")).expect("a stage"));
            for (contents, there, of) in [
                (length, "whole", "with its contents"),
                (length - 1, "one byte missing", "without all its contents"),
                (0, "no contents there", "without all its contents"),
            ] {
                let bytes = [&head(tag, length as u16)[..], &vec![7; contents]].concat();
                let names =
                    [format!("15 for its length, {kind}, {there}"), format!("15 for {what} of {length} bytes, {of}")];
                assert_eq!(met_at(stage, &bytes), names);
            }
        }
    }

    #[test]
    fn tails_count() {
        for (pages, name) in [(0, "no page"), (1, "pages"), (63, "pages"), (64, "64 pages")] {
            assert_eq!(met_at(Stage::End(pages), &[0]), [format!("16 for one byte after {name}")]);
            assert_eq!(met_at(Stage::End(pages), &[0, 0]), [format!("16 for more bytes after {name}")]);
        }
    }

    #[test]
    fn accepted_files_count() {
        let (none, many) = (field(0x40, &[]), field(0x40, &[]).repeat(MANY_FIELDS));
        let [before, after] = about(&mut Random::new(1), Stage::Pages(1));
        let exact = "an output exact for pages".to_string();
        for (fields, name) in [
            (vec![], vec![]),
            (none.clone(), vec!["accepted, 0 bytes passed over after a page".to_string()]),
            (field(0x6F, &[7; 65_535]), vec!["accepted, 65535 bytes passed over after a page".to_string()]),
            (field(0x6F, &[7; 9]), vec![]),
            (
                many,
                vec![
                    "accepted, 0 bytes passed over after a page".to_string(),
                    "accepted, 10000 fields passed over".to_string(),
                ],
            ),
        ] {
            let wanted = [name, vec!["accepted, 2 pages".to_string(), exact.clone()]].concat();
            assert_eq!(met_by(&[&before[..], &fields, &after].concat(), 512), wanted);
        }
    }

    #[test]
    fn outputs_count() {
        for (count, name) in [(1, "pages"), (2, "pages"), (64, "64 pages")] {
            let file = file_of(1, &numbered(&mut Random::new(1), 256 * count));
            for (length, kind) in [(0, "empty"), (256 * count - 1, "one short")] {
                assert_eq!(met_by(&file, length), [format!("an output {kind} for {name}")]);
            }
            for (length, kind) in [(256 * count, "exact"), (256 * count + 1, "longer")] {
                let accepted = format!("accepted, {count} pages");
                assert_eq!(met_by(&file, length), [accepted, format!("an output {kind} for {name}")]);
            }
            for (file, number) in [
                (file[..file.len() - 1].to_vec(), 14),
                (with_byte(&file, file.len() - 1, 1), 15),
                ([&file[..], &[0]].concat(), 16),
            ] {
                let too_short = format!("{number} with an output too short");
                assert_eq!(met_by(&file, 256 * count - 1).last(), Some(&too_short));
                assert_ne!(met_by(&file, 256 * count).last(), Some(&too_short));
            }
        }
        for (length, kind) in [(0, "exact"), (1, "longer")] {
            assert_eq!(
                met_by(&file_of(1, &[]), length),
                ["accepted, 0 pages".to_string(), format!("an output {kind} for no page")]
            );
        }
    }

    /// Every tag at five stages; 40 faults at four stages; and so on.
    #[test]
    fn the_number_of_counters() {
        assert_eq!(
            [wanted_starts().len(), wanted_tags().len(), wanted_tails().len(), wanted_accepted().len()],
            [9, 1_280, 6, 86]
        );
        assert_eq!([wanted_faults().len(), wanted_lengths().len(), wanted_outputs().len()], [96, 52, 13]);
    }

    #[test]
    fn what_is_told() {
        let mut counters = Readings::new();
        assert_eq!(counters.told(), "  numbers of pages: 0  tags at stages: 0  others: 0");
        let call = Call::of_reading(file_of(1, &[]), Vec::new());
        counters.count(&call, call.clone().perform());
        assert_eq!(counters.told(), "  numbers of pages: 1  tags at stages: 2  others: 1");
    }
}
