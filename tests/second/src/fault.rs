//! The report of a call that touches forbidden memory.
//!
//! Such a touch raises a signal. Its handler may do next to nothing, so what it tells is kept in atomic numbers before
//! each call, and its text is put together by hand in a buffer of fixed length.

use crate::call::Entry;
use crate::case::{Case, Part, Place};
use std::ffi::{c_int, c_void};
use std::io::Error;
use std::ptr;
use std::sync::atomic::{AtomicU64, AtomicUsize, Ordering};

const SIGBUS: c_int = 7;
const SIGSEGV: c_int = 11;
/// The handler has a stack of its own, which the standard library sets up.
const SA_ONSTACK: c_int = 0x0800_0000;
const STANDARD_OUTPUT: c_int = 1;

/// How the C library takes a handler.
#[repr(C)]
struct Action {
    handler: extern "C" fn(c_int),
    mask: [u64; 16],
    flags: c_int,
    restorer: usize,
}

extern "C" {
    fn sigaction(signal: c_int, action: *const Action, former: *mut Action) -> c_int;
    fn write(file: c_int, bytes: *const c_void, length: usize) -> isize;
    fn _exit(status: c_int) -> !;
}

/// The call under way, and what the run has found before it.
struct Mark {
    seed: AtomicU64,
    part: AtomicUsize,
    number: AtomicU64,
    entry: AtomicUsize,
    page_length: AtomicUsize,
    other_length: AtomicUsize,
    place: AtomicUsize,
    checks: AtomicU64,
    wrong: AtomicU64,
}

static MARK: Mark = Mark::new();

impl Mark {
    const fn new() -> Mark {
        Mark {
            seed: AtomicU64::new(0),
            part: AtomicUsize::new(0),
            number: AtomicU64::new(0),
            entry: AtomicUsize::new(0),
            page_length: AtomicUsize::new(0),
            other_length: AtomicUsize::new(0),
            place: AtomicUsize::new(0),
            checks: AtomicU64::new(0),
            wrong: AtomicU64::new(0),
        }
    }

    fn set(&self, case: &Case, checks: u64, wrong: u64) {
        self.seed.store(case.seed, Ordering::SeqCst);
        self.part.store(case.part.number(), Ordering::SeqCst);
        self.number.store(case.number, Ordering::SeqCst);
        self.entry.store(case.entry.number(), Ordering::SeqCst);
        self.page_length.store(case.page_length, Ordering::SeqCst);
        self.other_length.store(case.other_length, Ordering::SeqCst);
        self.place.store(case.place.number(), Ordering::SeqCst);
        self.checks.store(checks, Ordering::SeqCst);
        self.wrong.store(wrong, Ordering::SeqCst);
    }

    /// What went wrong, and the last line of the run.
    fn report(&self, signal: c_int) -> Text {
        let name = |names: Option<&'static str>| names.unwrap_or("unknown");
        let seed = self.seed.load(Ordering::SeqCst);
        let entry = Entry::ALL.get(self.entry.load(Ordering::SeqCst));
        Text::new()
            .with("wrong: seed ")
            .with_number(seed)
            .with(", ")
            .with(name(Part::ALL.get(self.part.load(Ordering::SeqCst)).map(|part| part.name())))
            .with(" case ")
            .with_number(self.number.load(Ordering::SeqCst))
            .with(", ")
            .with(name(entry.map(|entry| entry.name())))
            .with(" (")
            .with(name(entry.map(|entry| entry.page_name())))
            .with(" of ")
            .with_number(self.page_length.load(Ordering::SeqCst) as u64)
            .with(" bytes, other buffer of ")
            .with_number(self.other_length.load(Ordering::SeqCst) as u64)
            .with(" bytes, ")
            .with(name(Place::ALL.get(self.place.load(Ordering::SeqCst)).map(|place| place.name())))
            .with("): forbidden memory was touched, signal ")
            .with_number(signal as u64)
            .with("\ndifferential: seed ")
            .with_number(seed)
            .with(", ended by a signal, ")
            .with_number(self.checks.load(Ordering::SeqCst))
            .with(" checks, ")
            .with_number(self.wrong.load(Ordering::SeqCst) + 1)
            .with(" wrong\n")
    }
}

/// Text of a limited length; what is too long is left out.
struct Text {
    bytes: [u8; 512],
    length: usize,
}

impl Text {
    fn new() -> Text {
        Text { bytes: [0; 512], length: 0 }
    }

    fn with_bytes(mut self, text: &[u8]) -> Text {
        for (place, &byte) in self.bytes.iter_mut().skip(self.length).zip(text) {
            *place = byte;
        }
        self.length = (self.length + text.len()).min(self.bytes.len());
        self
    }

    fn with(self, text: &str) -> Text {
        self.with_bytes(text.as_bytes())
    }

    /// The number in decimal digits.
    fn with_number(self, number: u64) -> Text {
        let mut digits = [b'0'; 20];
        let (mut first, mut rest) = (19, number);
        while rest >= 10 {
            digits[first] += (rest % 10) as u8;
            rest /= 10;
            first -= 1;
        }
        digits[first] += rest as u8;
        self.with_bytes(&digits[first..])
    }
}

/// Writes the report and ends the process with status 1.
extern "C" fn handler(signal: c_int) {
    let Text { bytes, length } = MARK.report(signal);
    // SAFETY: the first `length` bytes are there, and both calls are allowed in a handler.
    unsafe {
        write(STANDARD_OUTPUT, bytes.as_ptr().cast(), length);
        _exit(1)
    }
}

/// From now on a touch of forbidden memory is reported.
pub fn install() {
    let action = Action { handler, mask: [0; 16], flags: SA_ONSTACK, restorer: 0 };
    for signal in [SIGBUS, SIGSEGV] {
        // SAFETY: the action is laid out as the C library wants it, and the former action is not asked for.
        let status = unsafe { sigaction(signal, &action, ptr::null_mut()) };
        assert!(status == 0, "sigaction: {}", Error::last_os_error());
    }
}

/// Keeps the call that is to be made, and what the run has found before it.
pub fn mark(case: &Case, checks: u64, wrong: u64) {
    MARK.set(case, checks, wrong);
}

#[cfg(test)]
mod tests {
    use super::*;
    use crate::call::Call;
    use crate::memory::Side;

    fn text_of(text: &Text) -> &str {
        std::str::from_utf8(&text.bytes[..text.length]).expect("text")
    }

    #[test]
    fn numbers_in_decimal_digits() {
        for number in [0, 9, 10, 46_924, u64::MAX - 1, u64::MAX] {
            assert_eq!(text_of(&Text::new().with_number(number)), number.to_string());
        }
    }

    #[test]
    fn what_is_too_long_is_left_out() {
        let text = Text::new().with(&"a".repeat(500)).with(&"b".repeat(500)).with("c");
        assert_eq!(text_of(&text), "a".repeat(500) + &"b".repeat(12));
    }

    #[test]
    fn the_report_names_the_case() {
        let mark = Mark::new();
        let call = Call::of_page(Entry::WriteSecond, vec![1; 256], vec![2; 20]);
        let case = Case::new(7, Part::Random, 31, &call).at(Place::ReadOnly(Side::After));
        mark.set(&case, 1_234, 2);
        assert!(text_of(&mark.report(SIGSEGV)).contains(&case.to_string()));
        assert_eq!(
            text_of(&mark.report(SIGSEGV)),
            "wrong: seed 7, random case 31, write second (page of 256 bytes, other buffer of 20 bytes, \
             read-only right after untouchable memory): forbidden memory was touched, signal 11\n\
             differential: seed 7, ended by a signal, 1234 checks, 3 wrong\n"
        );
    }

    #[test]
    fn the_report_names_the_size_of_the_page() {
        let mark = Mark::new();
        let call = Call::of_page(Entry::ReadFirst, vec![1; 512], vec![2; 352]);
        let case = Case::new(7, Part::Systematic, 31, &call).at(Place::Guarded(Side::Before));
        mark.set(&case, 0, 0);
        assert!(case
            .to_string()
            .ends_with("read first (page of 512 bytes, other buffer of 352 bytes, right before untouchable memory)"));
        assert!(text_of(&mark.report(SIGSEGV)).contains(&case.to_string()));
    }

    #[test]
    fn the_report_names_the_case_of_a_file() {
        let mark = Mark::new();
        for (call, name) in [
            (Call::of_file(1, vec![1; 512], Vec::new()), "write file (pages of 512 bytes, other buffer of 0 bytes"),
            (Call::of_reading(vec![1; 12], vec![2; 9]), "read file (file of 12 bytes, other buffer of 9 bytes"),
        ] {
            let case = Case::new(7, Part::Far, 31, &call).at(Place::Far);
            mark.set(&case, 0, 0);
            assert!(case.to_string().ends_with(&format!("{name}, with a far length)")));
            assert!(text_of(&mark.report(SIGSEGV)).contains(&case.to_string()));
        }
    }

    #[test]
    fn the_report_names_the_case_of_a_block() {
        let mark = Mark::new();
        let placing = Call::of_placing(vec![1; 4_096], 0xFFFF, vec![2; 82]);
        let collecting = Call::of_collecting(vec![1; 4_095], 1, vec![0; 4_096]);
        for (call, name) in [
            (placing, "wide case 31, place record (block of 4096 bytes, other buffer of 82 bytes"),
            (collecting, "wide case 31, collect block (source of 4095 bytes, other buffer of 4096 bytes"),
        ] {
            let case = Case::new(7, Part::Wide, 31, &call).at(Place::ReadOnly(Side::Before));
            mark.set(&case, 0, 0);
            assert!(case.to_string().ends_with(&format!("{name}, read-only right before untouchable memory)")));
            assert!(text_of(&mark.report(SIGSEGV)).contains(&case.to_string()));
        }
    }

    /// Each name at its longest.
    #[test]
    fn the_longest_report_is_whole() {
        let mark = Mark::new();
        let call = Call::of_collecting(Vec::new(), 0, Vec::new());
        let case = Case::new(u64::MAX, Part::Systematic, u64::MAX, &call).at(Place::ReadOnly(Side::Before));
        let case = Case { page_length: usize::MAX, other_length: usize::MAX, ..case };
        mark.set(&case, u64::MAX, u64::MAX - 1);
        assert!(text_of(&mark.report(SIGBUS)).ends_with(", 18446744073709551615 wrong\n"));
    }
}
