//! The listing of document 01, with the kind of Change 2, the state of Change 7 and the length of Change 9, as a function
//! from bytes to text; and what the gain sheet goes by as well: the pieces of the input, and the kind and the number of
//! each. By Change 8 both "stay with 256 bytes".

use crate::answer::Answer;
use crate::inspect::read_inspect;
use crate::page::{self, BLANK, FILLED, FIRST_ROUND, INSPECTED, SECOND_ROUND};
use crate::shape::SMALL;
use std::fmt::{self, Display, Formatter};

/// "stops after 4,096 pages".
pub const PAGES_MOST: usize = 4_096;

/// What the listing calls a piece of the input.
#[derive(Clone, Copy, Debug, PartialEq, Eq)]
pub enum Kind {
    Blank,
    First,
    Filled,
    Second,
    Bad,
}

impl Kind {
    /// In the order of the gain sheet.
    pub const ALL: [Kind; 5] = [Kind::Blank, Kind::First, Kind::Filled, Kind::Second, Kind::Bad];

    pub fn name(self) -> &'static str {
        match self {
            Kind::Blank => "blank",
            Kind::First => "first",
            Kind::Filled => "filled",
            Kind::Second => "second",
            Kind::Bad => "bad",
        }
    }

    /// The kind with this name.
    pub fn named(name: &str) -> Option<Kind> {
        Kind::ALL.into_iter().find(|kind| kind.name() == name)
    }
}

/// What the listing says of a piece. The number is 0, the capacity in bits, the length in bytes, or that of a refusal.
#[derive(Clone, Copy, Debug, PartialEq, Eq)]
pub struct Described {
    pub kind: Kind,
    pub number: u64,
}

/// "the kind, a space, a number".
impl Display for Described {
    fn fmt(&self, formatter: &mut Formatter) -> fmt::Result {
        write!(formatter, "{} {}", self.kind.name(), self.number)
    }
}

/// "`bad` has a refusal number".
fn bad(number: u8) -> Described {
    Described { kind: Kind::Bad, number: u64::from(number) }
}

/// The kind and the number of one accepted page, or `bad` and the refusal's number.
fn accepted(kind: Kind, answer: Answer) -> Described {
    match answer {
        Ok(number) => Described { kind, number },
        Err(refusal) => bad(refusal.number),
    }
}

/// The kind and the number of one piece of the input.
pub fn described(piece: &[u8]) -> Described {
    if piece.len() < SMALL.bytes {
        return bad(1);
    }
    match piece[0] {
        BLANK if piece.iter().all(|&byte| byte == 0) => Described { kind: Kind::Blank, number: 0 },
        BLANK => bad(4),
        FIRST_ROUND => accepted(Kind::First, page::page_capacity(piece)),
        FILLED => accepted(Kind::Filled, page::page_capacity(piece)),
        SECOND_ROUND => accepted(Kind::Second, page::read_second(piece, &mut [0; SMALL.second_bytes_most])),
        // "The listing and the gain sheet count state 09 as second."
        INSPECTED => accepted(Kind::Second, read_inspect(piece, &mut [0; SMALL.inspect_bytes_most])),
        _ => bad(5),
    }
}

/// The input "as pages, one after another", at most 4,096; the last piece may be shorter than a page.
pub fn pieces(input: &[u8]) -> impl Iterator<Item = &[u8]> {
    input.chunks(SMALL.bytes).take(PAGES_MOST)
}

/// "For each page it prints one line: page index from 0, a space, the kind, a space, a number, a line feed."
pub fn listing(input: &[u8]) -> String {
    pieces(input).enumerate().map(|(index, piece)| format!("{index} {}\n", described(piece))).collect()
}

#[cfg(test)]
mod tests {
    use super::*;
    use crate::inspect::write_inspect;

    #[test]
    fn a_blank_page_and_a_page_of_176_zero_bytes() {
        let mut input = vec![0; 2 * SMALL.bytes];
        page::write_first(&mut input[SMALL.bytes..], &[0; 176]).unwrap();
        assert_eq!(listing(&input), "0 blank 0\n1 first 1012\n");
    }

    /// "the kind `filled` with its capacity, and `bad` there has page capacity's 6 or 7"; 5 is left to other states.
    #[test]
    fn filled_pages() {
        let mut filled = vec![0; SMALL.bytes];
        page::write_first(&mut filled, &[0; 176]).unwrap();
        page::fill_page(&mut filled).unwrap();
        for (place, byte, line) in [
            (0, 0x03, "0 filled 1012\n"),
            (0, 0x02, "0 bad 5\n"),
            (1, 0x01, "0 bad 6\n"),
            (2, 0x01, "0 bad 6\n"),
            (3, 0xEA, "0 bad 7\n"),
            (255, 0xAB, "0 bad 7\n"),
        ] {
            let mut piece = filled.clone();
            piece[place] = byte;
            assert_eq!(listing(&piece), line);
        }
    }

    /// Value 3 in each word: the last byte is cells 38 to 45 of word 43, of which the fill sets 38 and 40, and the first data
    /// set 43. Versions before Change 6 set cell 45 as well.
    #[test]
    fn filled_pages_that_end_in_cell_43() {
        let mut filled = vec![0; SMALL.bytes];
        page::write_first(&mut filled, &[0, 0, 0, 3].repeat(44)).unwrap();
        page::fill_page(&mut filled).unwrap();
        assert_eq!(filled[255], 0b1010_0100);
        for (byte, line) in [
            (0b1010_0100, "0 filled 968\n"),
            (0b1010_0101, "0 filled 968\n"),
            (0b1010_0000, "0 bad 7\n"),
            (0b1010_0001, "0 bad 7\n"),
            (0b1010_0110, "0 bad 7\n"),
            (0b1000_0100, "0 bad 7\n"),
            (0b1000_0101, "0 bad 7\n"),
        ] {
            filled[255] = byte;
            assert_eq!(listing(&filled), line, "{byte:08b}");
        }
    }

    /// "The listing and the gain sheet count state 09 as second", with the length; `bad` there has the reader's 6, 7 or 9.
    #[test]
    fn pages_of_the_inspect_code() {
        let mut first = vec![0; SMALL.bytes];
        page::write_first(&mut first, &[0; 176]).unwrap();
        for (length, line) in
            [(0, "0 second 0\n"), (126, "0 second 126\n"), (127, "0 second 127\n"), (247, "0 second 247\n")]
        {
            let mut piece = first.clone();
            write_inspect(&mut piece, &vec![0; length]).unwrap();
            assert_eq!(listing(&piece), line);
        }
        // With cells 0, 3, 6 and so on up to 45 in each word, 1,320 zeros are read.
        let mut sparse = vec![0; SMALL.bytes];
        page::write_first(&mut sparse, &3_889_371_024_u32.to_be_bytes().repeat(44)).unwrap();
        sparse[0] = 0x09;
        for (place, byte, line) in [
            (1, 165, "0 second 165\n"),
            (1, 166, "0 bad 9\n"),
            (1, 247, "0 bad 9\n"),
            (1, 248, "0 bad 6\n"),
            (2, 1, "0 bad 6\n"),
            (2, 255, "0 bad 6\n"),
            (255, 0xFF, "0 bad 7\n"),
            (0, 0x08, "0 bad 5\n"),
            (0, 0x0B, "0 bad 5\n"),
        ] {
            let mut piece = sparse.clone();
            piece[place] = byte;
            assert_eq!(listing(&piece), line);
        }
    }

    /// A page of 512 bytes is two pieces: its first 256 bytes have the first 44 words of it, and the rest starts with cells
    /// of word 44, of which a few look like a state.
    #[test]
    fn a_page_of_512_bytes_is_two_pieces() {
        let mut page = vec![0; 512];
        page::write_first(&mut page, &[0; 352]).unwrap();
        assert_eq!(listing(&page), "0 first 1012\n1 blank 0\n");
        page::fill_page(&mut page).unwrap();
        assert_eq!(listing(&page), "0 filled 1012\n1 bad 5\n");
        page::write_second(&mut page, &[0; 253]).unwrap();
        assert_eq!(listing(&page), "0 bad 6\n1 bad 5\n");
        // By the Inspect code the first 44 words take 1,980 zeros: a record of up to 247 bytes ends in them.
        for (length, line) in [(0, "second 0"), (247, "second 247"), (248, "bad 6"), (256, "bad 6"), (495, "bad 6")] {
            let mut page = vec![0; 512];
            page::write_first(&mut page, &[0; 352]).unwrap();
            write_inspect(&mut page, &vec![0; length]).unwrap();
            assert_eq!(listing(&page), format!("0 {line}\n1 blank 0\n"));
        }
        // Cell 7 of word 44 is the lowest bit of byte 256.
        let mut page = vec![0; 512];
        page::write_first(&mut page, &[&[0; 176][..], &[0x06, 0x19, 0x7E, 0xCB], &[0; 172]].concat()).unwrap();
        assert_eq!(page[256..], [&[1][..], &[0; 255]].concat());
        assert_eq!(listing(&page), "0 first 1012\n1 first 1012\n");
    }

    /// On 256 bytes every length with a byte 2 is above the limit of both codes: with byte 1 at 0 as well, and within what
    /// 512 bytes take.
    #[test]
    fn lengths_of_two_bytes() {
        let mut first = vec![0; SMALL.bytes];
        page::write_first(&mut first, &[0; 176]).unwrap();
        let mut second = first.clone();
        page::fill_page(&mut second).unwrap();
        page::write_second(&mut second, &[]).unwrap();
        let mut inspect = first;
        write_inspect(&mut inspect, &[]).unwrap();
        for (mut piece, byte_1) in
            [second, inspect].into_iter().flat_map(|page| (0..=255).map(move |byte| (page.clone(), byte)))
        {
            for byte_2 in 1..=255 {
                piece[1..3].copy_from_slice(&[byte_1, byte_2]);
                assert_eq!(listing(&piece), "0 bad 6\n", "{byte_1} {byte_2}");
            }
        }
    }

    #[test]
    fn empty_input_prints_nothing() {
        assert_eq!(listing(&[]), "");
    }

    #[test]
    fn stops_after_4096_pages() {
        let text = listing(&[0; PAGES_MOST * SMALL.bytes + 1]);
        assert!(text.ends_with("\n4095 blank 0\n"));
    }
}
