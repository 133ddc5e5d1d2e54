//! The answer of an operation and its layout for the C side.

/// A refusal: its number, and its index (0 where none is named).
#[derive(Clone, Copy, Debug, PartialEq, Eq)]
pub struct Refusal {
    pub number: u8,
    pub index: u64,
}

/// "The answer is either the result named here or one refusal, never both."
pub type Answer = Result<u64, Refusal>;

impl Refusal {
    pub const PAGE_LENGTH: Refusal = Refusal::plain(1);
    pub const DATA_LENGTH: Refusal = Refusal::plain(2);
    pub const OUTPUT_LENGTH: Refusal = Refusal::plain(3);
    pub const NOT_BLANK: Refusal = Refusal::plain(4);
    pub const STATE: Refusal = Refusal::plain(5);
    pub const HEADER: Refusal = Refusal::plain(6);
    pub const DATA_CELLS: Refusal = Refusal::plain(9);
    pub const HIGH_BIT: Refusal = Refusal::plain(10);
    pub const NEIGHBOURS: Refusal = Refusal::plain(11);
    pub const SUM: Refusal = Refusal::plain(12);
    pub const PAGES_LENGTH: Refusal = Refusal::plain(13);
    pub const FILE_CUT: Refusal = Refusal::plain(14);
    pub const FILE_FIELD: Refusal = Refusal::plain(15);
    pub const FILE_TAIL: Refusal = Refusal::plain(16);
    pub const BLOCK_LENGTH: Refusal = Refusal::plain(17);
    pub const NO_PAGE: Refusal = Refusal::plain(18);
    pub const TARGET_NOT_BLANK: Refusal = Refusal::plain(19);

    const fn plain(number: u8) -> Refusal {
        Refusal { number, index: 0 }
    }

    /// 7, with the number of the word.
    pub fn word(index: usize) -> Refusal {
        Refusal { number: 7, index: index as u64 }
    }

    /// 8, with how many bits go in: the page's capacity, or the record's bits that the walks of the Inspect code take.
    pub fn record_length(bits: usize) -> Refusal {
        Refusal { number: 8, index: bits as u64 }
    }
}

/// The refusal's number, 0 when the answer is not a refusal.
pub fn number(answer: Answer) -> u8 {
    answer.map_or_else(|refusal| refusal.number, |_| 0)
}

/// The result, or the refusal's index.
pub fn value(answer: Answer) -> u64 {
    answer.unwrap_or_else(|refusal| refusal.index)
}

/// The answer as one number: the refusal's number in bits 56 to 63, the result or the index in bits 0 to 55.
pub fn packed(answer: Answer) -> u64 {
    u64::from(number(answer)) << 56 | value(answer)
}

/// What the pulses of a word's fill are multiplied by.
const PULSES_UNIT: u64 = 1 << 48;

/// The result of a word's fill: "the filled word plus 2^48 times the pulses".
pub fn fill_result(filled: u64, pulses: usize) -> u64 {
    filled + PULSES_UNIT * pulses as u64
}

/// The pulses in the result of a word's fill.
pub fn pulses_in(fill_result: u64) -> usize {
    (fill_result / PULSES_UNIT) as usize
}

/// What the number of a file's pages is multiplied by.
const PAGES_UNIT: u64 = 1 << 32;

/// The result of reading a file: "the device number plus 2^32 times the number of pages".
pub fn file_result(device: u32, pages: usize) -> u64 {
    u64::from(device) + PAGES_UNIT * pages as u64
}

/// The device number in the result of reading a file.
pub fn device_in(file_result: u64) -> u32 {
    (file_result % PAGES_UNIT) as u32
}

/// The number of pages in the result of reading a file.
pub fn pages_in(file_result: u64) -> usize {
    (file_result / PAGES_UNIT) as usize
}

/// `Ok` when the condition of the refusal does not hold.
pub fn refuse_if(condition: bool, refusal: Refusal) -> Result<(), Refusal> {
    if condition {
        Err(refusal)
    } else {
        Ok(())
    }
}
