//! Performs calls by this implementation and by the archive `libwom.a`, and compares answers and buffers.
//!
//! The archive performs each call that has buffers three times: with these between canary bytes, right before memory
//! that cannot be touched, and right after such memory. Beside that memory, a buffer that the call must not write is
//! read-only: what the entry only reads, and every buffer of a call that is refused. Then there are calls with far
//! lengths, of whose buffers only those bytes can be touched that the rules let the call look at. A touch of what
//! cannot be touched, and a write to what is read-only, end the run at once and are wrong.

use second::answer::{packed, Answer};
use second::call::{Call, Entry};
use second::case::{Case, Part, Place};
use second::cases::far::{self, FarCall};
use second::cases::{any_call, systematic};
use second::command::command;
use second::coverage::Coverage;
use second::fault;
use second::fenced::Fenced;
use second::memory::{Access, Arena, FarArena, Side, Span, FAR_BYTES};
use second::random::Random;
use std::fmt::Display;
use std::mem::transmute;
use std::process::ExitCode;

const USAGE: &str = "usage: differential run SEED CASES | plant \
                     answer|bytes|kept|canary|coverage|guarded|before|after|read-only|far";

/// The most that marks are.
const WIDEST_MARKS: u64 = u16::MAX as u64;

/// The most differences that are described.
const DESCRIBED_MOST: u64 = 10;

#[link(name = "wom", kind = "static")]
extern "C" {
    fn wom_encode_word(value: u32) -> u64;
    fn wom_decode_word(word: u64) -> u64;
    fn wom_fill_word(word: u64) -> u64;
    fn wom_word_capacity(word: u64) -> u64;
    fn wom_write_first(page: *mut u8, page_length: usize, data: *const u8, data_length: usize) -> u64;
    fn wom_read_first(page: *const u8, page_length: usize, out: *mut u8, out_length: usize) -> u64;
    fn wom_page_capacity(page: *const u8, page_length: usize) -> u64;
    fn wom_fill_page(page: *mut u8, page_length: usize) -> u64;
    fn wom_write_second(page: *mut u8, page_length: usize, record: *const u8, record_length: usize) -> u64;
    fn wom_read_second(page: *const u8, page_length: usize, out: *mut u8, out_length: usize) -> u64;
    fn wom_write_inspect(page: *mut u8, page_length: usize, record: *const u8, record_length: usize) -> u64;
    fn wom_read_inspect(page: *const u8, page_length: usize, out: *mut u8, out_length: usize) -> u64;
    fn wom_write_file(device: u32, pages: *const u8, pages_length: usize, out: *mut u8, out_length: usize) -> u64;
    fn wom_read_file(file: *const u8, file_length: usize, out: *mut u8, out_length: usize) -> u64;
    fn wom_place_record(
        block: *mut u8,
        block_length: usize,
        marks: u16,
        record: *const u8,
        record_length: usize,
    ) -> u64;
    fn wom_collect_block(
        source: *const u8,
        source_length: usize,
        keep: u16,
        target: *mut u8,
        target_length: usize,
    ) -> u64;
}

/// An entry of blocks as it is, and with a whole register in place of its 16 bits of marks. Both take the same registers by
/// the System V convention; `wom.h` says nothing of what stands above the marks there.
type Placing<Marks> = unsafe extern "C" fn(*mut u8, usize, Marks, *const u8, usize) -> u64;
type Collecting<Marks> = unsafe extern "C" fn(*const u8, usize, Marks, *mut u8, usize) -> u64;

/// Performs a call of place record by the archive, with all 64 bits of its argument.
fn place_wide(argument: u64, block: Span, record: Span) -> u64 {
    // SAFETY: as for `perform`, and marks are passed in a register, of which the archive takes the low 16 bits.
    unsafe {
        let place = transmute::<Placing<u16>, Placing<u64>>(wom_place_record);
        place(block.start, block.length, argument, record.start, record.length)
    }
}

/// The same of collect block.
fn collect_wide(argument: u64, source: Span, target: Span) -> u64 {
    // SAFETY: as for `place_wide`.
    unsafe {
        let collect = transmute::<Collecting<u16>, Collecting<u64>>(wom_collect_block);
        collect(source.start, source.length, argument, target.start, target.length)
    }
}

/// Performs the call by the archive, with these buffers in place of its own.
fn perform(call: &Call, page: Span, other: Span) -> u64 {
    // SAFETY: the two buffers lie in different memory, and each is valid for the length given with it, as far as the
    // rules let the call look at it and write it. What goes beyond that ends in a fault, which is reported.
    unsafe {
        match call.entry {
            Entry::EncodeWord => wom_encode_word(call.argument as u32),
            Entry::DecodeWord => wom_decode_word(call.argument),
            Entry::FillWord => wom_fill_word(call.argument),
            Entry::WordCapacity => wom_word_capacity(call.argument),
            Entry::WriteFirst => wom_write_first(page.start, page.length, other.start, other.length),
            Entry::ReadFirst => wom_read_first(page.start, page.length, other.start, other.length),
            Entry::PageCapacity => wom_page_capacity(page.start, page.length),
            Entry::FillPage => wom_fill_page(page.start, page.length),
            Entry::WriteSecond => wom_write_second(page.start, page.length, other.start, other.length),
            Entry::ReadSecond => wom_read_second(page.start, page.length, other.start, other.length),
            Entry::WriteInspect => wom_write_inspect(page.start, page.length, other.start, other.length),
            Entry::ReadInspect => wom_read_inspect(page.start, page.length, other.start, other.length),
            Entry::WriteFile => {
                wom_write_file(call.argument as u32, page.start, page.length, other.start, other.length)
            }
            Entry::ReadFile => wom_read_file(page.start, page.length, other.start, other.length),
            Entry::PlaceRecord if call.argument > WIDEST_MARKS => place_wide(call.argument, page, other),
            Entry::PlaceRecord => wom_place_record(page.start, page.length, call.marks(), other.start, other.length),
            Entry::CollectBlock if call.argument > WIDEST_MARKS => collect_wide(call.argument, page, other),
            Entry::CollectBlock => wom_collect_block(page.start, page.length, call.marks(), other.start, other.length),
        }
    }
}

/// What there is after a call by this implementation: the answer, and the buffers.
#[derive(Clone)]
struct Expected {
    answer: Answer,
    page: Vec<u8>,
    other: Vec<u8>,
}

impl Expected {
    fn of(call: &Call) -> Expected {
        let (after, answer) = call.performed();
        Expected { answer, page: after.page, other: after.other }
    }

    /// The same with another byte at the end of the page.
    fn spoiled(&self) -> Expected {
        let mut spoiled = self.clone();
        if let Some(byte) = spoiled.page.last_mut() {
            *byte ^= 1;
        }
        spoiled
    }
}

/// What there is after a call between canary bytes: the packed answer, and the buffers.
struct Outcome {
    answer: u64,
    page: Fenced,
    other: Fenced,
}

impl Outcome {
    fn expected(expected: &Expected, case: u64) -> Outcome {
        let Expected { answer, page, other } = expected;
        Outcome { answer: packed(*answer), page: Fenced::new(page, case), other: Fenced::new(other, case) }
    }

    /// The outcome by the archive.
    fn given(call: &Call, case: u64) -> Outcome {
        let mut page = Fenced::new(&call.page, case);
        let mut other = Fenced::new(&call.other, case);
        let answer = perform(call, page.span(), other.span());
        Outcome { answer, page, other }
    }
}

/// The kinds of expectation, one of which may be made wrong.
#[derive(Clone, Copy, PartialEq, Eq)]
enum Kind {
    /// The answer between canary bytes.
    Answer,
    /// A byte of a buffer that the entry writes.
    Bytes,
    /// A byte of a buffer that the entry only reads.
    Kept,
    /// A canary byte.
    Canary,
    /// A counter.
    Coverage,
    /// A byte of a page beside untouchable memory.
    Guarded,
    /// The byte before a page.
    Before,
    /// The byte after a page.
    After,
    /// A page that must not be written.
    ReadOnly,
    /// The answer to a far length.
    Far,
}

impl Kind {
    fn of_name(name: &str) -> Option<Kind> {
        match name {
            "answer" => Some(Kind::Answer),
            "bytes" => Some(Kind::Bytes),
            "kept" => Some(Kind::Kept),
            "canary" => Some(Kind::Canary),
            "coverage" => Some(Kind::Coverage),
            "guarded" => Some(Kind::Guarded),
            "before" => Some(Kind::Before),
            "after" => Some(Kind::After),
            "read-only" => Some(Kind::ReadOnly),
            "far" => Some(Kind::Far),
            _ => None,
        }
    }

    /// Makes one expectation of this kind wrong, if the call between canary bytes has one.
    fn spoil(self, entry: Entry, expected: &mut Outcome) -> bool {
        let Outcome { answer, page, other } = expected;
        let (written, kept) = if entry.writes_page() { (page, other) } else { (other, page) };
        match self {
            Kind::Answer => {
                *answer ^= 1;
                true
            }
            Kind::Bytes => written.spoil_buffer(),
            Kind::Kept => kept.spoil_buffer(),
            Kind::Canary => entry.takes_other() && kept.spoil_canary(),
            _ => false,
        }
    }
}

/// The first place where the two differ, in words.
fn first_difference(expected: &[u8], given: &[u8]) -> String {
    match (0..expected.len()).find(|&place| expected[place] != given[place]) {
        Some(place) => format!("byte {place} is {:02x}, not {:02x}", given[place], expected[place]),
        None => "no byte differs".to_string(),
    }
}

/// What a run has compared.
#[derive(Default)]
struct Tally {
    checks: u64,
    wrong: u64,
}

impl Tally {
    fn check(&mut self, agrees: bool, difference: impl FnOnce() -> String) {
        self.checks += 1;
        if agrees {
            return;
        }
        self.wrong += 1;
        if self.wrong <= DESCRIBED_MOST {
            println!("wrong: {}", difference());
        }
    }

    fn compare_answers(&mut self, case: &Case, expected: u64, given: u64) {
        self.check(expected == given, || format!("{case}: the answer is {given:#x}, not {expected:#x}"));
    }

    fn compare_bytes(&mut self, case: &Case, name: impl Display, expected: &[u8], given: &[u8]) {
        self.check(expected == given, || format!("{case}: {name}: {}", first_difference(expected, given)));
    }

    fn compare_fenced(&mut self, case: &Case, name: &str, expected: &Fenced, given: &Fenced) {
        for ((part, expected), (_, given)) in expected.parts().into_iter().zip(given.parts()) {
            self.compare_bytes(case, format_args!("{name}, {part}"), expected, given);
        }
    }

    /// Keeps the call that is to be made for the report of a fault.
    fn mark(&self, case: &Case) {
        fault::mark(case, self.checks, self.wrong);
    }
}

/// A run, its memory, and what it has found.
struct Run {
    seed: u64,
    plant: Option<Kind>,
    coverage: Coverage,
    tally: Tally,
    page: Arena,
    other: Arena,
    far: FarArena,
}

impl Run {
    fn new(seed: u64, plant: Option<Kind>) -> Run {
        let (page, other, far) = (Arena::new(), Arena::new(), FarArena::new());
        Run { seed, plant, coverage: Coverage::new(), tally: Tally::default(), page, other, far }
    }

    /// Whether an expectation of this kind is to be made wrong here; it is then the only one.
    fn takes_plant(&mut self, kind: Kind, fits: bool) -> bool {
        let taken = fits && self.plant == Some(kind);
        if taken {
            self.plant = None;
        }
        taken
    }

    /// Performs one call by this implementation, and by the archive in each place of its buffers; compares.
    fn case(&mut self, part: Part, number: u64, call: &Call) {
        let expected = Expected::of(call);
        let case = Case::new(self.seed, part, number, call);
        self.fenced(&case, call, &expected);
        if call.entry.takes_buffers() {
            Side::BOTH.into_iter().for_each(|side| self.guarded(&case, call, &expected, side));
        }
    }

    /// Performs one call with its buffers between canary bytes, and compares.
    fn fenced(&mut self, case: &Case, call: &Call, expected: &Expected) {
        let entry = call.entry;
        let answer = expected.answer;
        let mut expected = Outcome::expected(expected, case.number);
        if self.plant.is_some_and(|kind| kind.spoil(entry, &mut expected)) {
            self.plant = None;
        }
        self.tally.mark(case);
        let given = Outcome::given(call, case.number);
        self.coverage.count(call, case.place, answer);
        self.tally.compare_answers(case, expected.answer, given.answer);
        if entry.takes_buffers() {
            self.tally.compare_fenced(case, entry.page_name(), &expected.page, &given.page);
        }
        if entry.takes_other() {
            self.tally.compare_fenced(case, "other buffer", &expected.other, &given.other);
        }
    }

    /// Where the buffers of a call lie on this side of untouchable memory: in read-only memory when it is refused.
    fn guarded_place(&mut self, entry: Entry, answer: Answer, side: Side) -> Place {
        if answer.is_err() || self.takes_plant(Kind::ReadOnly, entry.writes_page()) {
            Place::ReadOnly(side)
        } else {
            Place::Guarded(side)
        }
    }

    /// The page of an accepted call as it is told; planted, it reaches one byte into the untouchable memory. A page without
    /// a byte would reach nowhere.
    fn planted_page(&mut self, page: Span, place: Place) -> Span {
        let on = |side: Side| place == Place::Guarded(side) && page.length > 0;
        if self.takes_plant(Kind::After, on(Side::Before)) {
            page.shifted(1)
        } else if self.takes_plant(Kind::Before, on(Side::After)) {
            page.shifted(-1)
        } else {
            page
        }
    }

    /// Performs one call with its buffers on this side of untouchable memory, and compares.
    fn guarded(&mut self, case: &Case, call: &Call, expected: &Expected, side: Side) {
        let entry = call.entry;
        let place = self.guarded_place(entry, expected.answer, side);
        let case = case.at(place);
        let accepted = place == Place::Guarded(side);
        let page = self.page.put(&call.page, side, Access::writable_if(accepted && entry.writes_page()));
        let other = self.other.put(&call.other, side, Access::writable_if(accepted && entry.writes_output()));
        let page = self.planted_page(page, place);
        self.tally.mark(&case);
        let answer = perform(call, page, other);
        self.coverage.count(call, place, expected.answer);
        let spoiled = self.takes_plant(Kind::Guarded, !call.page.is_empty()).then(|| expected.spoiled());
        self.compare_guarded(&case, spoiled.as_ref().unwrap_or(expected), answer, side);
    }

    fn compare_guarded(&mut self, case: &Case, expected: &Expected, answer: u64, side: Side) {
        let Expected { answer: expected, page, other } = expected;
        self.tally.compare_answers(case, packed(*expected), answer);
        self.tally.compare_bytes(case, case.entry.page_name(), page, self.page.bytes(page.len(), side));
        if case.entry.takes_other() {
            self.tally.compare_bytes(case, "other buffer", other, self.other.bytes(other.len(), side));
        }
    }

    /// The page of a far call: untouchable when it is far, but for the bytes touched; read-only when it is not.
    fn far_page(&mut self, far: &FarCall, touched: usize) -> Span {
        match far.page {
            Some(length) if touched > 0 => self.far.put(&far.near.page[..touched], length),
            Some(length) => self.far.untouchable(0, length),
            None => self.page.put(&far.near.page, Side::Before, Access::ReadOnly),
        }
    }

    /// The other buffer of a far call: read-only when it is not far, and else untouchable but for the bytes touched.
    fn far_other(&mut self, far: &FarCall, touched: usize) -> Span {
        match far.other {
            Some(length) if touched > 0 => self.far.put(&far.near.other[..touched], length),
            Some(length) if far.page.is_some() => self.far.untouchable(FAR_BYTES / 2, length),
            Some(length) => self.far.untouchable(0, length),
            None => self.other.put(&far.near.other, Side::Before, Access::ReadOnly),
        }
    }

    /// Performs the near call by this implementation and the far one by the archive; compares.
    fn far_case(&mut self, number: u64, far: &FarCall) {
        let expected = Expected::of(&far.near);
        let (page_length, other_length) = (far.page_length(), far.other_length());
        let case = Case::new(self.seed, Part::Far, number, &far.near).at(Place::Far);
        let case = Case { page_length, other_length, ..case };
        let touched = [far.page_touched(), far.other_touched(expected.answer)];
        let (page, other) = (self.far_page(far, touched[0]), self.far_other(far, touched[1]));
        self.tally.mark(&case);
        let answer = perform(&far.near, page, other);
        self.coverage.count(&far.near, case.place, expected.answer);
        let spoil = u64::from(self.takes_plant(Kind::Far, true));
        self.tally.compare_answers(&case, packed(expected.answer) ^ spoil, answer);
        self.compare_far(&case, far, &expected, touched);
    }

    /// Compares what can be touched of the buffers; the bytes touched of a far one are given for each.
    fn compare_far(&mut self, case: &Case, far: &FarCall, expected: &Expected, touched: [usize; 2]) {
        let Expected { page, other, .. } = expected;
        let name = case.entry.page_name();
        if far.page.is_none() {
            self.tally.compare_bytes(case, name, page, self.page.bytes(page.len(), Side::Before));
        }
        if far.other.is_none() && case.entry.takes_other() {
            self.tally.compare_bytes(case, "other buffer", other, self.other.bytes(other.len(), Side::Before));
        }
        for (name, buffer, touched) in [(name, page, touched[0]), ("other buffer", other, touched[1])] {
            if touched > 0 {
                self.tally.compare_bytes(case, name, &buffer[..touched], self.far.bytes(touched));
            }
        }
    }

    /// Returns the number of cases.
    fn systematic_cases(&mut self) -> usize {
        let cases = (0..).zip(systematic::calls());
        cases.map(|(number, call)| self.case(Part::Systematic, number, &call)).count()
    }

    /// Returns the number of cases.
    fn wide_cases(&mut self) -> usize {
        let cases = (0..).zip(systematic::block::wide());
        cases.map(|(number, call)| self.case(Part::Wide, number, &call)).count()
    }

    fn far_cases(&mut self) {
        (0..).zip(&far::calls()).for_each(|(number, far)| self.far_case(number, far));
    }

    fn random_cases(&mut self, cases: u64) {
        for number in 0..cases {
            self.case(Part::Random, number, &any_call(&mut Random::of_case(self.seed, number)));
        }
    }

    /// A counter that was never met is wrong.
    fn check_coverage(&mut self) {
        if self.plant == Some(Kind::Coverage) {
            self.coverage.forget_one();
        }
        for (name, met) in self.coverage.wanted() {
            self.tally.check(met > 0, || format!("never met: {name}"));
        }
    }
}

/// The systematic cases, those with wide marks, the far ones, `cases` random ones, and the coverage; the exit status tells
/// whether all was right.
fn run(seed: u64, cases: u64, plant: Option<Kind>) -> ExitCode {
    fault::install();
    let mut run = Run::new(seed, plant);
    let systematic = run.systematic_cases();
    let wide = run.wide_cases();
    run.far_cases();
    run.random_cases(cases);
    run.check_coverage();
    let Tally { checks, wrong } = run.tally;
    print!("{}", run.coverage.table());
    println!("differential: {}", run.coverage.places());
    println!("differential: {}", run.coverage.large_places());
    println!("differential: {wide} cases with marks wider than 16 bits");
    println!("differential: {systematic} systematic cases before them");
    println!("differential: seed {seed}, {cases} cases, {checks} checks, {wrong} wrong");
    ExitCode::from(u8::from(wrong > 0))
}

/// What the arguments ask for, or nothing when they are not as the usage says.
fn asked(arguments: &[&str]) -> Option<ExitCode> {
    match arguments {
        ["run", seed, cases] => Some(run(seed.parse().ok()?, cases.parse().ok()?, None)),
        ["plant", kind] => Some(run(1, 1_000, Some(Kind::of_name(kind)?))),
        _ => None,
    }
}

fn main() -> ExitCode {
    command(USAGE, asked)
}
