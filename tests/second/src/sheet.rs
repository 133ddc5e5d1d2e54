//! The yearly gain sheet of Change 5, as a function from bytes to text. "The program uses the listing's refusals", so it
//! goes by the listing's kinds.

use crate::listing::{described, pieces, Described, Kind};

/// "A state 01 or 03 page counts 1,408 − 2,048 = −640."
const ONCE_WRITTEN: i64 = 1_408 - 2_048;

/// What a page counts. "Blank pages count 0, and so does any page that the listing calls bad, whatever its state."
pub fn gain(page: Described) -> i64 {
    match page.kind {
        Kind::Blank | Kind::Bad => 0,
        Kind::First | Kind::Filled => ONCE_WRITTEN,
        // "−640 plus 8 times its record length", which is the listing's number.
        Kind::Second => ONCE_WRITTEN + 8 * page.number as i64,
    }
}

/// The one line: the pages, the count of each kind, and the gain "with a minus below 0 and no plus".
pub fn sheet(input: &[u8]) -> String {
    let pages: Vec<Described> = pieces(input).map(described).collect();
    let count = |kind: Kind| pages.iter().filter(|page| page.kind == kind).count();
    let counts = Kind::ALL.map(|kind| format!("{} {}", kind.name(), count(kind))).join(" ");
    let gain: i64 = pages.iter().copied().map(gain).sum();
    format!("pages {} {counts} gain {gain}\n", pages.len())
}

#[cfg(test)]
mod tests {
    use super::*;
    use crate::cases::inspect::inspect_page;
    use crate::cases::pages::{
        any_page, filled_page, page_of, second_page, with_byte, with_data_cell, with_word, written_over, FILLINGS,
    };
    use crate::cases::words::SPARSE_VALUE;
    use crate::listing::{listing, PAGES_MOST};
    use crate::random::Random;
    use crate::shape::{LARGE, SMALL};
    use crate::word::CELLS;

    const NOTHING: &str = "pages 0 blank 0 first 0 filled 0 second 0 bad 0 gain 0\n";
    const ONE_BAD: &str = "pages 1 blank 0 first 0 filled 0 second 0 bad 1 gain 0\n";

    /// The first-round page of 176 zero bytes.
    fn most() -> Vec<u8> {
        page_of(SMALL, 0)
    }

    #[test]
    fn the_listing_example() {
        let input = [vec![0; SMALL.bytes], most()].concat();
        assert_eq!(sheet(&input), "pages 2 blank 1 first 1 filled 0 second 0 bad 0 gain -640\n");
    }

    #[test]
    fn empty_input() {
        assert_eq!(sheet(&[]), NOTHING);
    }

    /// "a short last piece counts as one page and one bad page", whatever its first byte is.
    #[test]
    fn a_short_piece() {
        for state in 0..=255 {
            assert_eq!(sheet(&[state]), ONE_BAD);
        }
        let second = second_page(&most(), &[0x96; 126]);
        for page in [vec![0; SMALL.bytes], most(), filled_page(&most()), second] {
            for length in [1, 2, 3, 128, 255] {
                assert_eq!(sheet(&page[..length]), ONE_BAD);
            }
        }
    }

    #[test]
    fn a_blank_page() {
        assert_eq!(sheet(&[0; SMALL.bytes]), "pages 1 blank 1 first 0 filled 0 second 0 bad 0 gain 0\n");
    }

    /// The capacity is not in the gain.
    #[test]
    fn first_round_and_filled_pages() {
        for value in [0, 1, 3, 77, SPARSE_VALUE] {
            let first = page_of(SMALL, value);
            assert_eq!(sheet(&first), "pages 1 blank 0 first 1 filled 0 second 0 bad 0 gain -640\n");
            for filled in FILLINGS.map(|fill| fill(&first)) {
                assert_eq!(sheet(&filled), "pages 1 blank 0 first 0 filled 1 second 0 bad 0 gain -640\n");
            }
        }
    }

    /// The sheet of one second-round page with a record of this length, over either fill, has this gain.
    fn check_second(first: &[u8], length: usize, gain: i64) {
        let text = format!("pages 1 blank 0 first 0 filled 0 second 1 bad 0 gain {gain}\n");
        for record in [0x00, 0x96, 0xFF].map(|byte| vec![byte; length]) {
            for page in FILLINGS.map(|fill| written_over(fill(first), &record)) {
                assert_eq!(sheet(&page), text);
            }
        }
    }

    /// "so a length of 80 gives 0".
    #[test]
    fn second_round_pages() {
        for (length, gain) in [(0, -640), (1, -632), (79, -8), (80, 0), (81, 8), (82, 16)] {
            check_second(&page_of(SMALL, SPARSE_VALUE), length, gain);
            check_second(&page_of(SMALL, 3), length, gain);
            check_second(&most(), length, gain);
        }
        check_second(&most(), 126, 368);
    }

    #[test]
    fn every_record_length() {
        for length in 0..=126 {
            check_second(&most(), length, 8 * (length as i64 - 80));
        }
    }

    /// "The listing and the gain sheet count state 09 as second."
    #[test]
    fn second_round_pages_of_the_inspect_code() {
        let zeros = [(0, -640), (1, -632), (79, -8), (80, 0), (81, 8), (126, 368), (127, 376), (247, 1_336)];
        let zeros = zeros.map(|(length, gain)| (vec![0x00; length], gain));
        for (record, gain) in zeros.into_iter().chain([(vec![0xFF; 126], 368), (vec![0x96; 80], 0)]) {
            let text = format!("pages 1 blank 0 first 0 filled 0 second 1 bad 0 gain {gain}\n");
            assert_eq!(sheet(&inspect_page(&most(), &record)), text);
        }
    }

    #[test]
    fn bad_pages_of_the_inspect_code() {
        let (page, sparse) = (inspect_page(&most(), &[0; 80]), page_of(SMALL, SPARSE_VALUE));
        let bad = [
            with_byte(page.clone(), 1, 248),
            with_byte(page.clone(), 2, 1),
            with_word(page, 43, [true; CELLS]),
            with_byte(filled_page(&most()), 0, 0x09),
            with_byte(inspect_page(&sparse, &[0; 165]), 1, 166),
        ];
        for page in bad {
            assert_eq!(sheet(&page), ONE_BAD, "{:?}", &page[..3]);
        }
    }

    #[test]
    fn bad_pages_of_every_state() {
        let filled = filled_page(&most());
        let second = second_page(&most(), &[0x96; 80]);
        let bad = [
            with_byte(vec![0; SMALL.bytes], 255, 1),
            with_byte(most(), 1, 1),
            with_byte(most(), 2, 1),
            with_word(most(), 43, [true; CELLS]),
            with_byte(filled.clone(), 0, 0x01),
            with_byte(filled.clone(), 1, 80),
            with_byte(filled.clone(), 2, 1),
            with_byte(most(), 0, 0x03),
            with_data_cell(filled.clone(), 1_011),
            with_byte(second.clone(), 1, 127),
            with_byte(second.clone(), 2, 1),
            with_word(second.clone(), 0, [false; CELLS]),
            with_byte(second.clone(), 1, 79),
            with_byte(second_page(&page_of(SMALL, SPARSE_VALUE), &[0; 82]), 1, 83),
        ];
        for page in bad {
            assert_eq!(sheet(&page), ONE_BAD, "state {:02X}", page[0]);
        }
    }

    #[test]
    fn unknown_states() {
        for state in (0..=255).filter(|state| ![0x00, 0x01, 0x03, 0x07, 0x09].contains(state)) {
            for page in [most(), filled_page(&most()), second_page(&most(), &[0x96; 126])] {
                assert_eq!(sheet(&with_byte(page, 0, state)), ONE_BAD);
            }
        }
    }

    /// "up to 4,096 pages": a page more, and a byte more. These are the least gain, the most by the fill code, and the most.
    #[test]
    fn stops_after_4096_pages() {
        let firsts = "pages 4096 blank 0 first 4096 filled 0 second 0 bad 0 gain -2621440\n";
        assert_eq!(sheet(&most().repeat(PAGES_MOST + 1)), firsts);
        let second = second_page(&most(), &[0x96; 126]);
        let seconds = "pages 4096 blank 0 first 0 filled 0 second 4096 bad 0 gain 1507328\n";
        assert_eq!(sheet(&[second.repeat(PAGES_MOST), vec![0x07]].concat()), seconds);
        let inspect = inspect_page(&most(), &[0; 247]);
        let inspects = "pages 4096 blank 0 first 0 filled 0 second 4096 bad 0 gain 5472256\n";
        assert_eq!(sheet(&[inspect.repeat(PAGES_MOST), vec![0x09]].concat()), inspects);
    }

    #[test]
    fn a_piece_of_255_bytes_after_4095_pages() {
        let input = most().repeat(PAGES_MOST);
        let text = "pages 4096 blank 0 first 4095 filled 0 second 0 bad 1 gain -2620800\n";
        assert_eq!(sheet(&input[..input.len() - 1]), text);
    }

    /// The sheet stays "with 256 bytes": a page of 512 bytes counts as two pieces.
    #[test]
    fn a_page_of_512_bytes_is_two_pieces() {
        let first = page_of(LARGE, 0);
        assert_eq!(sheet(&first), "pages 2 blank 1 first 1 filled 0 second 0 bad 0 gain -640\n");
        assert_eq!(sheet(&filled_page(&first)), "pages 2 blank 0 first 0 filled 1 second 0 bad 1 gain -640\n");
        // A record of 80 bytes of ones fills words 0 to 26 and a part of word 27.
        let second = second_page(&first, &[0xFF; 80]);
        assert_eq!(sheet(&second), "pages 2 blank 0 first 0 filled 0 second 1 bad 1 gain 0\n");
    }

    /// "with a minus below 0 and no plus".
    #[test]
    fn the_sign_of_a_sum() {
        let [least, none, more] = [0, 80, 126].map(|length| second_page(&most(), &vec![0x96; length]));
        for (input, end) in [
            ([&least[..], &more, &none].concat(), " second 3 bad 0 gain -272\n"),
            ([&more[..], &least, &more].concat(), " second 3 bad 0 gain 96\n"),
            ([&none[..], &none].concat(), " second 2 bad 0 gain 0\n"),
        ] {
            assert!(sheet(&input).ends_with(end), "{end}");
        }
    }

    /// The sheet's six whole numbers before the gain, and the gain.
    fn numbers(text: &str) -> Vec<i64> {
        text.split_whitespace().skip(1).step_by(2).map(|number| number.parse().expect("a whole number")).collect()
    }

    /// Of any input, the counts add up to the pages, and the sheet is what the listing's lines lead to.
    #[test]
    fn any_input() {
        let mut random = Random::new(8);
        for _ in 0..60 {
            let pages: Vec<_> = (0..random.below(20)).map(|_| any_page(&mut random, SMALL)).collect();
            let extra = random.below(SMALL.bytes);
            let input = [pages.concat(), random.bytes(extra)].concat();
            let numbers = numbers(&sheet(&input));
            assert_eq!(numbers[0], input.len().div_ceil(SMALL.bytes) as i64);
            assert_eq!(numbers[0], numbers[1..6].iter().sum::<i64>());
            assert_eq!(numbers[1..], by_the_listing(&listing(&input)));
        }
    }

    /// The count of each kind, and the gain, from the lines of a listing.
    fn by_the_listing(text: &str) -> Vec<i64> {
        let mut numbers = vec![0; 6];
        for line in text.lines() {
            let words: Vec<&str> = line.split(' ').collect();
            let kinds = ["blank", "first", "filled", "second", "bad"];
            numbers[kinds.iter().position(|kind| *kind == words[1]).expect("a kind")] += 1;
            numbers[5] += match words[1] {
                "first" | "filled" => -640,
                "second" => 8 * words[2].parse::<i64>().expect("a length") - 640,
                _ => 0,
            };
        }
        numbers
    }
}
