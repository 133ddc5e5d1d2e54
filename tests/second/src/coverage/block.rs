//! Counters of what the blocks of place record and of collect block lead to: the page that is chosen and its capacity, the
//! pages that are passed over, equal capacities, records, the pages that are kept, and the bytes and lengths that are refused.

use super::shape::Named;
use crate::answer::{number, Answer};
use crate::block::{is_marked, BLOCK_BYTES, BLOCK_PAGES};
use crate::call::{Call, Entry};
use crate::cases::blocks::{capacity_if_sound, Flaw};
use crate::cases::lengths::{resized_with, NO_BLOCK_LENGTHS};
use crate::page::{fits, BLANK, FILLED, FIRST_ROUND, INSPECTED, SECOND_ROUND};
use crate::random::Random;
use crate::shape::SMALL;
use std::collections::HashMap;

/// Lengths of records that fit no page, and must have been refused 18 so.
const TOO_LONG: [usize; 6] = [127, 128, 255, 256, 1_024, 8_192];

/// So many pages at most are known by what was told of them before.
const KNOWN_MOST: usize = 4_096;

/// Which of the two lengths is not that of a block.
#[derive(Clone, Copy, PartialEq, Eq, Hash)]
enum Wrong {
    Source(usize),
    Target(usize),
    Both,
}

/// What a kept page holds.
#[derive(Clone, Copy, PartialEq, Eq, Hash)]
enum Held {
    Nothing,
    State(u8),
    OtherState,
}

/// What a call of place record counts for.
#[derive(Clone, Copy, PartialEq, Eq, Hash)]
enum Placed {
    /// Accepted, with the page of this index.
    Index(usize),
    /// Accepted, with a page of this capacity.
    Capacity(usize),
    /// Accepted, a record of this length.
    Record(usize),
    /// Accepted, with a page that the record takes whole.
    Exact,
    /// Accepted, with the page of this index; a later one has the same capacity, and is marked.
    Tie(usize),
    /// Accepted; the marked page of this index is passed over for this flaw.
    PassedOver(Flaw, usize),
    /// Accepted; a marked page is passed over for this flaw that would have been chosen without it.
    Tempting(Flaw),
    /// Accepted; the marked page of this index is too small.
    TooSmall(usize),
    /// Accepted; the page of this index would have been chosen if it had been marked.
    Unmarked(usize),
    /// 18 for a page that would have fitted without this flaw.
    RefusedFor(Flaw),
    /// 18 without a mark.
    NoMark,
    /// 18 with marked pages, each of which is passed over.
    AllPassedOver,
    /// 18 with a marked page that is too small, by one byte of the record or by more.
    AllTooSmall { one_byte: bool },
    /// 18 for the marks: the record fits a page that is not marked.
    FitsUnmarked,
    /// 18 for a record of this length.
    TooLong(usize),
    /// 17 for a block of this length.
    Length(usize),
    /// 17 for a block that, cut or followed by zeros, would be answered by this number.
    LengthBefore(u8),
}

/// What a call of collect block counts for.
#[derive(Clone, Copy, PartialEq, Eq, Hash)]
enum Collected {
    /// Accepted, so many pages are kept.
    Kept(usize),
    /// Accepted, the page of this index is kept, or not.
    Index(usize, bool),
    /// Accepted, a kept page holds this.
    Held(Held),
    /// 19 for one byte in the page of this index.
    Byte(usize),
    /// 19 for the first byte alone.
    FirstByte,
    /// 19 for the last byte alone.
    LastByte,
    /// 19 where no page is kept.
    NoneKept,
    /// 17 for one length or both.
    Length(Wrong),
    /// 17 with a byte of the target that is not 0.
    LengthBeforeByte,
}

/// What a call counts for.
#[derive(Clone, Copy, PartialEq, Eq, Hash)]
enum Met {
    Placed(Placed),
    Collected(Collected),
}

impl Placed {
    fn name(self) -> String {
        match self {
            Placed::Index(index) => format!("accepted, page {index}"),
            Placed::Capacity(bits) => format!("accepted, a page of {bits} bits"),
            Placed::Record(length) => format!("accepted, a record of {length}"),
            Placed::Exact => "accepted, a record that takes a page whole".to_string(),
            Placed::Tie(index) => format!("accepted, page {index} before an equal one"),
            Placed::PassedOver(flaw, index) => format!("accepted, page {index} passed over, {}", flaw.name()),
            Placed::Tempting(flaw) => format!("accepted, a better page passed over, {}", flaw.name()),
            Placed::TooSmall(index) => format!("accepted, page {index} too small"),
            Placed::Unmarked(index) => format!("accepted, page {index} better and not marked"),
            Placed::RefusedFor(flaw) => format!("18 for a page {}", flaw.name()),
            Placed::NoMark => "18 without a mark".to_string(),
            Placed::AllPassedOver => "18, all marked pages passed over".to_string(),
            Placed::AllTooSmall { one_byte: true } => "18, too small by one byte".to_string(),
            Placed::AllTooSmall { one_byte: false } => "18, too small by more".to_string(),
            Placed::FitsUnmarked => "18, a page that is not marked would do".to_string(),
            Placed::TooLong(length) => format!("18 for a record of {length}"),
            Placed::Length(length) => format!("17 for {length} bytes"),
            Placed::LengthBefore(number) => format!("17 before {}", super::answer_name(number)),
        }
    }
}

impl Collected {
    fn name(self) -> String {
        match self {
            Collected::Kept(count) => format!("accepted, {count} pages"),
            Collected::Index(index, true) => format!("accepted, page {index} kept"),
            Collected::Index(index, false) => format!("accepted, page {index} left"),
            Collected::Held(Held::Nothing) => "accepted, a blank page kept".to_string(),
            Collected::Held(Held::State(state)) => format!("accepted, a page in state {state:02X} kept"),
            Collected::Held(Held::OtherState) => "accepted, a page in another state kept".to_string(),
            Collected::Byte(index) => format!("19 for one byte of page {index}"),
            Collected::FirstByte => "19 for the first byte".to_string(),
            Collected::LastByte => "19 for the last byte".to_string(),
            Collected::NoneKept => "19 with no page kept".to_string(),
            Collected::Length(Wrong::Source(length)) => format!("17 for a source of {length} bytes"),
            Collected::Length(Wrong::Target(length)) => format!("17 for a target of {length} bytes"),
            Collected::Length(Wrong::Both) => "17 for both".to_string(),
            Collected::LengthBeforeByte => "17 before 19".to_string(),
        }
    }
}

impl Met {
    fn name(self) -> String {
        match self {
            Met::Placed(met) => format!("{} {}", Entry::PlaceRecord.name(), met.name()),
            Met::Collected(met) => format!("{} {}", Entry::CollectBlock.name(), met.name()),
        }
    }
}

/// What is told of a page: its flaw, if it has one, and the capacity that it has, or would have.
#[derive(Clone, Copy)]
struct Told {
    flaw: Option<Flaw>,
    capacity: usize,
}

/// A page of a block, with what is told of it.
#[derive(Clone, Copy)]
struct Page {
    index: usize,
    marked: bool,
    fits: bool,
    told: Told,
}

impl Page {
    /// What decides between pages that fit.
    fn rank(&self) -> (usize, usize) {
        (self.told.capacity, self.index)
    }
}

#[derive(Default)]
pub struct Blocks {
    met: HashMap<Met, u64>,
    known: HashMap<Vec<u8>, Told>,
}

impl Blocks {
    pub fn new() -> Blocks {
        Blocks::default()
    }

    /// Counts a call of an entry of blocks.
    pub fn count(&mut self, call: &Call, answer: Answer) {
        let met: Vec<Met> = if call.entry == Entry::PlaceRecord {
            self.placed(call, answer).into_iter().map(Met::Placed).collect()
        } else {
            collected(call, answer).into_iter().map(Met::Collected).collect()
        };
        met.into_iter().for_each(|met| *self.met.entry(met).or_default() += 1);
    }

    fn counter(&self, met: &Met) -> u64 {
        self.met.get(met).copied().unwrap_or(0)
    }

    /// Every counter that must not be 0, with its name.
    pub fn wanted(&self) -> Vec<Named> {
        all_wanted().iter().map(|met| (met.name(), self.counter(met))).collect()
    }

    /// How many of the wanted were met of the entry.
    pub fn told(&self, entry: Entry) -> String {
        let of_entry = |met: &Met| matches!(met, Met::Placed(_)) == (entry == Entry::PlaceRecord);
        let wanted: Vec<Met> = all_wanted().into_iter().filter(of_entry).collect();
        let met = wanted.iter().filter(|met| self.counter(met) > 0).count();
        format!("  counters: {met} of {}", wanted.len())
    }

    /// What is told of a page, perhaps from before.
    fn told_of(&mut self, page: &[u8]) -> Told {
        if let Some(&told) = self.known.get(page) {
            return told;
        }
        if self.known.len() == KNOWN_MOST {
            self.known.clear();
        }
        let told = Told { flaw: Flaw::of(page), capacity: capacity_if_sound(page) };
        self.known.insert(page.to_vec(), told);
        told
    }

    fn pages_of(&mut self, call: &Call) -> Vec<Page> {
        let pages = call.page.chunks(SMALL.bytes).enumerate();
        let page = |(index, page)| {
            let (marked, told) = (is_marked(call.marks(), index), self.told_of(page));
            Page { index, marked, fits: fits(&call.other, told.capacity), told }
        };
        pages.map(page).collect()
    }

    fn placed(&mut self, call: &Call, answer: Answer) -> Vec<Placed> {
        match (number(answer), answer) {
            (17, _) => placed_length(call),
            (_, Ok(index)) => accepted(&self.pages_of(call), index as usize, call.other.len()),
            _ => refused(&self.pages_of(call), call.other.len()),
        }
    }
}

/// What a block of another length counts for.
fn placed_length(call: &Call) -> Vec<Placed> {
    let zeros = |_: &mut Random, length: usize| vec![0; length];
    let page = resized_with(&mut Random::new(0), call.page.clone(), BLOCK_BYTES, zeros);
    let before = number(Call { page, ..call.clone() }.perform());
    vec![Placed::Length(call.page.len()), Placed::LengthBefore(before)]
}

/// What an accepted record of this length counts for, which goes to the page of this index.
fn accepted(pages: &[Page], index: usize, length: usize) -> Vec<Placed> {
    let chosen = pages[index];
    let capacity = chosen.told.capacity;
    let mut met = vec![Placed::Index(index), Placed::Capacity(capacity), Placed::Record(length)];
    met.extend((capacity == 8 * length).then_some(Placed::Exact));
    for page in pages.iter().filter(|page| page.index != index) {
        let better = page.fits && page.rank() < chosen.rank();
        match (page.marked, page.told.flaw) {
            (true, Some(flaw)) => {
                met.push(Placed::PassedOver(flaw, page.index));
                met.extend(better.then_some(Placed::Tempting(flaw)));
            }
            (true, None) => {
                met.extend((page.told.capacity == capacity).then_some(Placed::Tie(index)));
                met.extend((!page.fits).then_some(Placed::TooSmall(page.index)));
            }
            (false, None) => met.extend(better.then_some(Placed::Unmarked(page.index))),
            (false, Some(_)) => {}
        }
    }
    met
}

/// What a record of this length counts for that is refused 18.
fn refused(pages: &[Page], length: usize) -> Vec<Placed> {
    let marked = || pages.iter().filter(|page| page.marked);
    let most = marked().filter(|page| page.told.flaw.is_none()).map(|page| page.told.capacity).max();
    let flaws = marked().filter(|page| page.fits).filter_map(|page| page.told.flaw).map(Placed::RefusedFor);
    let unmarked = pages.iter().any(|page| !page.marked && page.fits && page.told.flaw.is_none());
    let reason = match most {
        Some(bits) => Placed::AllTooSmall { one_byte: bits / 8 + 1 == length },
        None if marked().count() == 0 => Placed::NoMark,
        None => Placed::AllPassedOver,
    };
    let unmarked = unmarked.then_some(Placed::FitsUnmarked);
    flaws.chain([reason, Placed::TooLong(length)]).chain(unmarked).collect()
}

/// What a call of collect block counts for.
fn collected(call: &Call, answer: Answer) -> Vec<Collected> {
    let set: Vec<usize> = (0..call.other.len()).filter(|&place| call.other[place] != 0).collect();
    match (number(answer), answer) {
        (17, _) => collected_length(call, !set.is_empty()),
        (_, Ok(count)) => kept(call, count as usize),
        _ => target_bytes(&set, call.marks()),
    }
}

fn collected_length(call: &Call, not_blank: bool) -> Vec<Collected> {
    let wrong = match (call.page.len(), call.other.len()) {
        (BLOCK_BYTES, target) => Wrong::Target(target),
        (source, BLOCK_BYTES) => Wrong::Source(source),
        _ => Wrong::Both,
    };
    let before = not_blank.then_some(Collected::LengthBeforeByte);
    [Collected::Length(wrong)].into_iter().chain(before).collect()
}

fn kept(call: &Call, count: usize) -> Vec<Collected> {
    let pages = call.page.chunks(SMALL.bytes).enumerate();
    let pages = pages.flat_map(|(index, page)| {
        let kept = is_marked(call.marks(), index);
        [Some(Collected::Index(index, kept)), kept.then(|| Collected::Held(held(page)))]
    });
    [Collected::Kept(count)].into_iter().chain(pages.flatten()).collect()
}

fn held(page: &[u8]) -> Held {
    match page[0] {
        BLANK if page.iter().all(|&byte| byte == 0) => Held::Nothing,
        state @ (FIRST_ROUND | FILLED | SECOND_ROUND | INSPECTED) => Held::State(state),
        _ => Held::OtherState,
    }
}

/// What a target counts for with bytes at these places that are not 0.
fn target_bytes(set: &[usize], keep: u16) -> Vec<Collected> {
    let none_kept = (keep == 0).then_some(Collected::NoneKept);
    let place = if let [place] = set { Some(*place) } else { None };
    let byte = place.map(|place| Collected::Byte(place / SMALL.bytes));
    let end = match place {
        Some(0) => Some(Collected::FirstByte),
        Some(place) if place == BLOCK_BYTES - 1 => Some(Collected::LastByte),
        _ => None,
    };
    none_kept.into_iter().chain(byte).chain(end).collect()
}

fn all_wanted() -> Vec<Met> {
    let placed = [wanted_accepted(), wanted_flaws(), wanted_refused()].concat();
    placed.into_iter().map(Met::Placed).chain(wanted_collected().into_iter().map(Met::Collected)).collect()
}

/// Each index, each capacity and each length that a page takes. A page before which there is none, or after which, cannot be
/// the later or the earlier one of equals.
fn wanted_accepted() -> Vec<Placed> {
    let indices =
        (0..BLOCK_PAGES).flat_map(|index| [Placed::Index(index), Placed::TooSmall(index), Placed::Unmarked(index)]);
    let ties = (0..BLOCK_PAGES - 1).map(Placed::Tie);
    let capacities = (SMALL.capacity_least()..=SMALL.capacity_most()).map(Placed::Capacity);
    let records = (0..=SMALL.second_bytes_most).map(Placed::Record);
    indices.chain(ties).chain(capacities).chain(records).chain([Placed::Exact]).collect()
}

/// Each flaw at each index, and where it decides.
fn wanted_flaws() -> Vec<Placed> {
    let passed_over = |flaw: Flaw| (0..BLOCK_PAGES).map(move |index| Placed::PassedOver(flaw, index));
    let decides = |flaw: Flaw| [Placed::Tempting(flaw), Placed::RefusedFor(flaw)];
    Flaw::ALL.into_iter().flat_map(|flaw| passed_over(flaw).chain(decides(flaw))).collect()
}

fn wanted_refused() -> Vec<Placed> {
    let reasons = [Placed::NoMark, Placed::AllPassedOver, Placed::FitsUnmarked];
    let too_small = [true, false].map(|one_byte| Placed::AllTooSmall { one_byte });
    let lengths = NO_BLOCK_LENGTHS.map(Placed::Length);
    let before = [0, 18].map(Placed::LengthBefore);
    reasons.into_iter().chain(too_small).chain(TOO_LONG.map(Placed::TooLong)).chain(lengths).chain(before).collect()
}

fn wanted_collected() -> Vec<Collected> {
    let kept = (0..=BLOCK_PAGES).map(Collected::Kept);
    let indices = (0..BLOCK_PAGES).flat_map(|index| [true, false].map(|kept| Collected::Index(index, kept)));
    let states = [FIRST_ROUND, FILLED, SECOND_ROUND, INSPECTED].map(Held::State);
    let held = states.into_iter().chain([Held::Nothing, Held::OtherState]).map(Collected::Held);
    let bytes = (0..BLOCK_PAGES).map(Collected::Byte);
    let ends = [Collected::FirstByte, Collected::LastByte, Collected::NoneKept, Collected::LengthBeforeByte];
    let lengths = NO_BLOCK_LENGTHS.into_iter().flat_map(|length| [Wrong::Source(length), Wrong::Target(length)]);
    let lengths = lengths.chain([Wrong::Both]).map(Collected::Length);
    kept.chain(indices).chain(held).chain(bytes).chain(ends).chain(lengths).collect()
}

#[cfg(test)]
mod tests {
    use super::*;
    use crate::cases::blocks::{first_with_capacity, flawed, with_page};
    use crate::cases::pages::{page_of, with_byte};
    use std::collections::HashSet;

    /// The wanted counters that a call turns from 0, by name without the entry's.
    fn met_by(call: &Call) -> Vec<String> {
        let mut counters = Blocks::new();
        counters.count(call, call.clone().perform());
        let met = counters.wanted().into_iter().filter(|(_, met)| *met > 0);
        met.map(|(name, _)| name.strip_prefix(call.entry.name()).expect("the entry").trim_start().to_string()).collect()
    }

    /// A block of blank pages but for these.
    fn block_of(pages: &[(usize, &[u8])]) -> Vec<u8> {
        pages.iter().fold(vec![0; 4_096], |block, (index, page)| with_page(block, *index, page))
    }

    #[test]
    fn every_counter_has_a_name_of_its_own() {
        let wanted = Blocks::new().wanted();
        assert_eq!(wanted.iter().map(|(name, _)| name).collect::<HashSet<_>>().len(), wanted.len());
    }

    #[test]
    fn the_number_of_counters() {
        // 16 indices three times, 15 for equals, 353 capacities, 127 lengths, and one.
        assert_eq!(wanted_accepted().len(), 48 + 15 + 353 + 127 + 1);
        assert_eq!(wanted_flaws().len(), 11 * 18);
        assert_eq!(wanted_refused().len(), 5 + 6 + 11 + 2);
        assert_eq!(wanted_collected().len(), 17 + 32 + 6 + 16 + 4 + 23);
    }

    #[test]
    fn a_placed_record_counts() {
        let (least, most) = (page_of(SMALL, 3_889_371_024), page_of(SMALL, 0));
        let block = block_of(&[(3, &least), (5, &least), (9, &most), (12, &most)]);
        let call = |marks: u16, length: usize| Call::of_placing(block.clone(), marks, vec![0x96; length]);
        let names = ["accepted, page 3", "accepted, page 3 before an equal one", "accepted, a page of 660 bits"];
        assert_eq!(met_by(&call(1 << 3 | 1 << 5, 0)), [&names[..], &["accepted, a record of 0"]].concat());
        let names = ["accepted, page 9", "accepted, page 9 before an equal one", "accepted, a page of 1012 bits"];
        let small = ["accepted, page 3 too small"];
        let marks = 1 << 3 | 1 << 9 | 1 << 12;
        assert_eq!(met_by(&call(marks, 83)), [&small[..], &names, &["accepted, a record of 83"]].concat());
        let better = ["accepted, page 3 better and not marked", "accepted, page 5 better and not marked"];
        let names = ["accepted, page 9", "accepted, a page of 1012 bits", "accepted, a record of 82"];
        assert_eq!(met_by(&call(1 << 9, 82)), [&better[..], &names].concat());
    }

    #[test]
    fn a_record_that_takes_a_page_whole_counts() {
        let block = block_of(&[(0, &first_with_capacity(&mut Random::new(1), 664))]);
        for (length, whole) in [(82, false), (83, true)] {
            let met = met_by(&Call::of_placing(block.clone(), 1, vec![1; length]));
            assert_eq!(met.contains(&"accepted, a record that takes a page whole".to_string()), whole);
        }
    }

    /// A page that is passed over counts for its flaw and its index, and where it would have been chosen; alone, it is what 18
    /// is for.
    #[test]
    fn pages_passed_over_count() {
        let mut random = Random::new(2);
        let (first, sound) = (page_of(SMALL, 3_889_371_024), page_of(SMALL, 0));
        for flaw in Flaw::ALL {
            let page = flawed(&mut random, &first, flaw);
            let call = Call::of_placing(block_of(&[(2, &page), (7, &sound)]), 1 << 2 | 1 << 7, vec![1; 40]);
            let met = met_by(&call);
            assert!(met.contains(&format!("accepted, page 2 passed over, {}", flaw.name())), "{met:?}");
            assert!(met.contains(&format!("accepted, a better page passed over, {}", flaw.name())), "{met:?}");
            let alone = met_by(&Call { argument: 1 << 2, ..call });
            let wanted = [
                format!("18 for a page {}", flaw.name()),
                "18, all marked pages passed over".to_string(),
                "18, a page that is not marked would do".to_string(),
            ];
            assert_eq!(alone, wanted);
        }
        // Behind a page of the same capacity it would not have been chosen.
        let block = block_of(&[(2, &first), (7, &with_byte(first.clone(), 1, 1))]);
        let met = met_by(&Call::of_placing(block, 1 << 2 | 1 << 7, vec![1; 40]));
        assert!(met.contains(&"accepted, page 7 passed over, with byte 1 set".to_string()));
        assert!(!met.iter().any(|name| name.contains("better page")));
    }

    #[test]
    fn refused_records_count() {
        let block = block_of(&[(2, &page_of(SMALL, 0)), (5, &page_of(SMALL, 3_889_371_024))]);
        let call = |marks: u16, length: usize| Call::of_placing(block.clone(), marks, vec![1; length]);
        let unmarked = "18, a page that is not marked would do";
        assert_eq!(met_by(&call(0, 0)), ["18 without a mark", unmarked]);
        assert_eq!(met_by(&call(0, 127)), ["18 without a mark", "18 for a record of 127"]);
        assert_eq!(met_by(&call(1 << 5, 83)), [unmarked, "18, too small by one byte"]);
        assert_eq!(met_by(&call(1 << 5, 84)), [unmarked, "18, too small by more"]);
        assert_eq!(met_by(&call(1 << 2, 127)), ["18, too small by one byte", "18 for a record of 127"]);
        assert_eq!(met_by(&call(1 << 2, 1_024)), ["18, too small by more", "18 for a record of 1024"]);
    }

    #[test]
    fn lengths_count() {
        let block = page_of(SMALL, 0).repeat(17);
        for (length, marks, names) in [
            (0, 1, ["17 for 0 bytes", "17 before 18"]),
            (256, 1, ["17 for 256 bytes", "17 before accepted"]),
            (3_840, 0x8000, ["17 for 3840 bytes", "17 before 18"]),
            (4_095, 0x4000, ["17 for 4095 bytes", "17 before accepted"]),
            (4_097, 0x8000, ["17 for 4097 bytes", "17 before accepted"]),
            (4_352, 0, ["17 for 4352 bytes", "17 before 18"]),
        ] {
            assert_eq!(met_by(&Call::of_placing(block[..length].to_vec(), marks, vec![1; 9])), names);
        }
        for (source, target, name) in [
            (4_095, 4_096, "17 for a source of 4095 bytes"),
            (4_096, 4_097, "17 for a target of 4097 bytes"),
            (4_095, 4_097, "17 for both"),
            (0, 0, "17 for both"),
        ] {
            assert_eq!(met_by(&Call::of_collecting(vec![1; source], 0, vec![0; target])), [name]);
            let not_blank = Call::of_collecting(vec![1; source], 0, vec![1; target]);
            assert_eq!(met_by(&not_blank).len(), if target == 0 { 1 } else { 2 });
        }
    }

    #[test]
    fn kept_pages_count() {
        let call = Call::of_collecting(block_of(&[(2, &page_of(SMALL, 0))]), 0b1100, vec![0; 4_096]);
        let met = met_by(&call);
        assert_eq!(met[0], "accepted, 2 pages");
        assert_eq!(met.iter().filter(|name| name.ends_with(" left")).count(), 14);
        for name in ["page 2 kept", "page 3 kept", "a page in state 01 kept", "a blank page kept"] {
            assert!(met.contains(&format!("accepted, {name}")), "{name}");
        }
        assert_eq!(met.len(), 19);
    }

    #[test]
    fn bytes_of_the_target_count() {
        let call = |place: usize, keep: u16| {
            let target = with_byte(vec![0; 4_096], place, 1);
            Call::of_collecting(vec![7; 4_096], keep, target)
        };
        assert_eq!(met_by(&call(0, 1)), ["19 for one byte of page 0", "19 for the first byte"]);
        assert_eq!(met_by(&call(256, 1)), ["19 for one byte of page 1"]);
        assert_eq!(met_by(&call(4_095, 1)), ["19 for one byte of page 15", "19 for the last byte"]);
        assert_eq!(met_by(&call(700, 0)), ["19 for one byte of page 2", "19 with no page kept"]);
    }

    #[test]
    fn what_is_told() {
        let mut counters = Blocks::new();
        assert_eq!(Entry::OF_BLOCKS.map(|entry| counters.told(entry)), ["  counters: 0 of 766", "  counters: 0 of 98"]);
        let call = Call::of_collecting(vec![0; 4_095], 0, vec![0; 4_096]);
        counters.count(&call, call.clone().perform());
        assert_eq!(counters.told(Entry::CollectBlock), "  counters: 1 of 98");
    }
}
