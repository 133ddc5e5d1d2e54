//! A block of pages of 256 bytes: choosing one of them for a record, and collecting those that are kept.

use crate::answer::{refuse_if, Answer, Refusal};
use crate::page::{self, fits};
use crate::shape::SMALL;
use std::cell::RefCell;
use std::collections::HashMap;
use std::ops::Range;

/// "A block is 16 pages of 256 bytes."
pub const BLOCK_PAGES: usize = 16;

/// "17 for any block, source or target, that is not 4,096 bytes".
pub const BLOCK_BYTES: usize = BLOCK_PAGES * SMALL.bytes;

/// So many pages at most are known by what was judged before.
const KNOWN_MOST: usize = 4_096;

thread_local! {
    /// The capacities of the pages that were judged before: very many blocks of a run have the same pages.
    static KNOWN: RefCell<HashMap<Vec<u8>, Option<usize>>> = RefCell::default();
}

/// "Marks are a number of 16 bits, the lowest bit for page 0."
pub fn is_marked(marks: u16, index: usize) -> bool {
    marks >> index & 1 == 1
}

/// The indices of the marked pages, the lowest first.
pub fn marked_pages(marks: u16) -> impl Iterator<Item = usize> {
    (0..BLOCK_PAGES).filter(move |&index| is_marked(marks, index))
}

/// The places of a page in its block.
pub fn places_of(index: usize) -> Range<usize> {
    SMALL.bytes * index..SMALL.bytes * (index + 1)
}

/// The capacity of a page, or none: "Marked pages that read first would refuse, given output enough, are passed over".
fn judged(page: &[u8]) -> Option<usize> {
    page::read_first(page, &mut [0; SMALL.first_bytes]).ok()?;
    page::page_capacity(page).ok().map(|capacity| capacity as usize)
}

/// The same; what was judged before is known.
pub fn capacity_of(page: &[u8]) -> Option<usize> {
    KNOWN.with_borrow_mut(|known| {
        if let Some(&capacity) = known.get(page) {
            return capacity;
        }
        if known.len() == KNOWN_MOST {
            known.clear();
        }
        let capacity = judged(page);
        known.insert(page.to_vec(), capacity);
        capacity
    })
}

/// The page that the record goes to: "the marked state 01 page with the smallest capacity that still fits, the lowest index
/// among equals".
fn chosen(block: &[u8], marks: u16, record: &[u8]) -> Option<usize> {
    let capacity = |index: usize| capacity_of(&block[places_of(index)]).map(|capacity| (capacity, index));
    let fitting = marked_pages(marks).filter_map(capacity).filter(|&(capacity, _)| fits(record, capacity));
    fitting.min().map(|(_, index)| index)
}

/// "A short record goes by fill code to" the chosen page, "and the answer is its index"; "other pages keep every byte".
pub fn place_record(block: &mut [u8], marks: u16, record: &[u8]) -> Answer {
    refuse_if(block.len() != BLOCK_BYTES, Refusal::BLOCK_LENGTH)?;
    let index = chosen(block, marks, record).ok_or(Refusal::NO_PAGE)?;
    let page = &mut block[places_of(index)];
    page::fill_page(page).expect("it was not passed over");
    page::write_second(page, record).expect("the record fits");
    Ok(index as u64)
}

/// "Collecting copies the pages marked as kept, in their order, to the front of a blank second block; the remainder stays 0
/// and can be written again. The answer is the number kept."
pub fn collect_block(source: &[u8], keep: u16, target: &mut [u8]) -> Answer {
    refuse_if(source.len() != BLOCK_BYTES || target.len() != BLOCK_BYTES, Refusal::BLOCK_LENGTH)?;
    refuse_if(target.iter().any(|&byte| byte != 0), Refusal::TARGET_NOT_BLANK)?;
    let kept: Vec<&[u8]> = marked_pages(keep).map(|index| &source[places_of(index)]).collect();
    for (place, page) in kept.iter().enumerate() {
        target[places_of(place)].copy_from_slice(page);
    }
    Ok(kept.len() as u64)
}

#[cfg(test)]
mod tests {
    use super::*;
    use crate::cases::blocks::{any_block, any_marks, first_with_capacity, flawed, with_page, Flaw};
    use crate::cases::pages::{any_first, filled_page, page_of, second_page, with_byte};
    use crate::page::{page_capacity, read_first, read_second, write_first};
    use crate::random::Random;

    /// The first-round page of 176 zero bytes, of capacity 1,012.
    fn most() -> Vec<u8> {
        page_of(SMALL, 0)
    }

    /// The page of 44 times 3889371024, of capacity 660.
    fn least() -> Vec<u8> {
        page_of(SMALL, 3_889_371_024)
    }

    /// A block of blank pages but for these.
    fn block_of(pages: &[(usize, &[u8])]) -> Vec<u8> {
        pages.iter().fold(vec![0; 4_096], |block, (index, page)| with_page(block, *index, page))
    }

    /// The record is refused by this, and no byte of the block is written.
    fn check_refused(block: &[u8], marks: u16, record: &[u8], refusal: Refusal) {
        let mut after = block.to_vec();
        assert_eq!(place_record(&mut after, marks, record), Err(refusal), "{marks:#06x} {}", record.len());
        assert_eq!(after, block);
    }

    /// The record goes to the page of this index. Every other page keeps every byte, no cell is cleared, and the page is what
    /// filling it and writing over it leave, and gives the record back. Returns the page.
    fn check_placed(block: &[u8], marks: u16, record: &[u8], index: usize) -> Vec<u8> {
        let mut after = block.to_vec();
        assert_eq!(place_record(&mut after, marks, record), Ok(index as u64), "{marks:#06x} {}", record.len());
        for other in (0..16).filter(|&other| other != index) {
            assert_eq!(after[256 * other..256 * (other + 1)], block[256 * other..256 * (other + 1)], "{other}");
        }
        assert!(block.iter().zip(&after).all(|(before, after)| before & !after == 0));
        let page = after[256 * index..256 * (index + 1)].to_vec();
        assert_eq!(page[..3], [0x07, record.len() as u8, 0]);
        assert_eq!(page, second_page(&block[256 * index..256 * (index + 1)], record));
        let mut output = vec![0xA5; record.len() + 1];
        assert_eq!(read_second(&page, &mut output), Ok(record.len() as u64));
        assert_eq!(output, [record, &[0xA5]].concat());
        page
    }

    #[test]
    fn the_figures_of_a_block() {
        assert_eq!((BLOCK_PAGES, BLOCK_BYTES), (16, 4_096));
        assert_eq!((places_of(0), places_of(1), places_of(15)), (0..256, 256..512, 3_840..4_096));
    }

    /// "the lowest bit for page 0".
    #[test]
    fn the_pages_that_are_marked() {
        let pages = |marks: u16| marked_pages(marks).collect::<Vec<_>>();
        assert_eq!(pages(0), []);
        assert_eq!(pages(1), [0]);
        assert_eq!(pages(0x8000), [15]);
        assert_eq!(pages(0xA5A5), [0, 2, 5, 7, 8, 10, 13, 15]);
        assert_eq!(pages(0xFFFF), [0, 1, 2, 3, 4, 5, 6, 7, 8, 9, 10, 11, 12, 13, 14, 15]);
    }

    /// "Page of 176 zero bytes: a record of 126 bytes is accepted", "Page of 44 times 3889371024: 82 bytes accepted".
    #[test]
    fn the_smallest_capacity_that_still_fits() {
        for (large, small) in [(3, 9), (9, 3), (0, 15), (15, 0)] {
            let block = block_of(&[(large, &most()), (small, &least())]);
            let marks = 1 << large | 1 << small;
            for length in [0, 1, 81, 82] {
                check_placed(&block, marks, &vec![0x96; length], small);
            }
            for length in [83, 84, 125, 126] {
                check_placed(&block, marks, &vec![0x96; length], large);
            }
            for length in [127, 128, 256, 1_024, 4_096, 8_192] {
                check_refused(&block, marks, &vec![0x96; length], Refusal::NO_PAGE);
            }
        }
        assert_eq!(Refusal::NO_PAGE, Refusal { number: 18, index: 0 });
    }

    /// The page of zeros, filled, has every even cell: each byte is AA. A record of 126 bytes of ones leaves the last four data
    /// cells at 0.
    #[test]
    fn the_bytes_that_are_left() {
        let block = block_of(&[(6, &most())]);
        let none = check_placed(&block, 1 << 6, &[], 6);
        assert_eq!(none, [&[0x07, 0, 0][..], &[0xAA; 253]].concat());
        let one_bit = check_placed(&block, 1 << 6, &[0x80], 6);
        assert_eq!(one_bit, [&[0x07, 1, 0, 0xEA][..], &[0xAA; 252]].concat());
        let ones = check_placed(&block, 1 << 6, &[0xFF; 126], 6);
        assert_eq!(ones, [&[0x07, 126, 0][..], &[0xFF; 252], &[0xAA]].concat());
        // The fill adds no cell to the page of the least capacity.
        let sparse = check_placed(&block_of(&[(6, &least())]), 1 << 6, &[], 6);
        assert_eq!(sparse, [&[0x07, 0, 0], &least()[3..]].concat());
    }

    /// "So a record of no byte goes to the smallest of them."
    #[test]
    fn a_record_of_no_byte() {
        let mut random = Random::new(1);
        let pages: Vec<Vec<u8>> = (0..16).map(|index| first_with_capacity(&mut random, 700 - index)).collect();
        let block = pages.concat();
        check_placed(&block, 0xFFFF, &[], 15);
        check_placed(&block, 0x7FFF, &[], 14);
        check_placed(&block, 0x0003, &[], 1);
        check_placed(&block, 0x0001, &[], 0);
    }

    /// "the lowest index among equals": alike pages, and others of the same capacity.
    #[test]
    fn equal_capacities() {
        let mut random = Random::new(2);
        let mut page = || first_with_capacity(&mut random, 777);
        for block in [least().repeat(16), (0..16).flat_map(|_| page()).collect()] {
            for low in 0..16 {
                check_placed(&block, 0xFFFF << low, &[0x96; 82], low);
                check_placed(&block, 1 << low, &[0x96; 82], low);
                check_placed(&block, 1 << low | 0x8000, &[], low);
            }
        }
        // 97 bytes are 776 bits; one bit more or less decides.
        let [less, equal, more] = [776, 777, 778].map(|capacity| first_with_capacity(&mut random, capacity));
        let block = block_of(&[(2, &more), (5, &equal), (8, &equal), (11, &less)]);
        check_placed(&block, 0xFFFF, &[0x96; 97], 11);
        check_placed(&block, 0xF7FF, &[0x96; 97], 5);
        check_placed(&block, 0xF7DF, &[0x96; 97], 8);
        check_placed(&block, 0xF6DF, &[0x96; 97], 2);
    }

    /// "A page fits when its capacity is at least 8 times the record's length": of a capacity that is a multiple of 8, all is
    /// taken.
    #[test]
    fn a_record_that_fits_exactly() {
        let mut random = Random::new(3);
        for (capacity, most) in [(660, 82), (663, 82), (664, 83), (671, 83), (672, 84), (1_007, 125), (1_008, 126)] {
            let block = block_of(&[(4, &first_with_capacity(&mut random, capacity))]);
            check_placed(&block, 0xFFFF, &vec![0xFF; most], 4);
            check_refused(&block, 0xFFFF, &vec![0xFF; most + 1], Refusal::NO_PAGE);
        }
    }

    /// A page that is not marked is never chosen, however well it fits.
    #[test]
    fn pages_that_are_not_marked() {
        let block = block_of(&[(0, &least()), (7, &most()), (15, &least())]);
        check_placed(&block, 0x0080, &[0x96; 82], 7);
        check_placed(&block, 0x7FFE, &[0x96; 82], 7);
        check_placed(&block, 0x8080, &[0x96; 82], 15);
        check_refused(&block, 0x8001, &[0x96; 83], Refusal::NO_PAGE);
        check_refused(&block, 0x7F7E, &[], Refusal::NO_PAGE);
        check_refused(&block, 0x0000, &[], Refusal::NO_PAGE);
    }

    /// "Marked pages that read first would refuse, given output enough, are passed over": one of each kind, whose cells are
    /// those of the least capacity, beside a page of the most.
    #[test]
    fn pages_that_are_passed_over() {
        let filled = filled_page(&least());
        let second = second_page(&least(), &[]);
        let inspect = with_byte(least(), 0, 0x09);
        let unknown = [0x02, 0x05, 0x11, 0x81, 0xFF].map(|state| with_byte(least(), 0, state));
        let headers =
            [(1, 1), (1, 82), (1, 255), (2, 1), (2, 128)].map(|(place, byte)| with_byte(least(), place, byte));
        // Cells 0 and 1 of word 0; cell 43 of word 43 beside 42; and every even cell of word 0 and of word 43.
        let pairs = [with_byte(least(), 3, least()[3] | 0xC0), with_byte(least(), 255, least()[255] | 0x04)];
        let sums = [
            [&[0x01, 0, 0][..], &[0xAA; 5], &[0xA8 | least()[8] & 3], &least()[9..]].concat(),
            [&least()[..250], &[least()[250] & 0xC0 | 0x2A], &[0xAA; 5]].concat(),
        ];
        let blank = [vec![0; 256], with_byte(least(), 0, 0x00), with_byte(vec![0; 256], 255, 1)];
        let states = [filled, second, inspect].into_iter().chain(unknown).chain(blank);
        for flawed in states.chain(headers).chain(pairs).chain(sums) {
            assert!(read_first(&flawed, &mut [0; 176]).is_err());
            for (index, sound) in [(0, 15), (15, 0), (7, 8), (8, 7)] {
                let block = block_of(&[(index, &flawed), (sound, &most())]);
                check_placed(&block, 0xFFFF, &[0x96; 82], sound);
                check_placed(&block, 1 << index | 1 << sound, &[], sound);
                check_refused(&block, 1 << index, &[], Refusal::NO_PAGE);
                check_refused(&block, !(1 << sound), &[0x96; 82], Refusal::NO_PAGE);
            }
        }
    }

    /// A page of each kind of flaw that the calls are made with is passed over.
    #[test]
    fn pages_of_every_flaw() {
        let mut random = Random::new(4);
        for (flaw, index) in Flaw::ALL.into_iter().flat_map(|flaw| (0..15).map(move |index| (flaw, index))) {
            let page = flawed(&mut random, &least(), flaw);
            let block = block_of(&[(index, &page), (index + 1, &most())]);
            check_placed(&block, 0xFFFF, &[0x96; 82], index + 1);
            check_refused(&block, 1 << index, &[], Refusal::NO_PAGE);
        }
    }

    /// 17 for every other length, before 18, with marks and records of each kind.
    #[test]
    fn blocks_of_every_other_length() {
        let long = [least().repeat(17), vec![0; 4_096]].concat();
        for length in (0..=4_400).chain([8_191, 8_192]).filter(|&length| length != 4_096) {
            for (marks, record) in [(0xFFFF, &[0x96; 82][..]), (0, &[]), (1, &[0x96; 127]), (0x8000, &[])] {
                check_refused(&long[..length], marks, record, Refusal::BLOCK_LENGTH);
            }
        }
        check_placed(&long[..4_096], 0xFFFF, &[0x96; 82], 0);
        assert_eq!(Refusal::BLOCK_LENGTH, Refusal { number: 17, index: 0 });
    }

    /// The page that the record must go to, sought capacity by capacity.
    fn sought(block: &[u8], marks: u16, record: &[u8]) -> Option<usize> {
        let capacity = |index: usize| match read_first(&block[256 * index..][..256], &mut [0; 176]) {
            Ok(_) => page_capacity(&block[256 * index..][..256]).ok(),
            Err(_) => None,
        };
        let capacities: Vec<Option<u64>> = (0..16).map(capacity).collect();
        let wanted = (8 * record.len() as u64)..=1_012;
        wanted.flat_map(|bits| (0..16).map(move |index| (bits, index))).find_map(|(bits, index)| {
            let marked = marks & 1 << index != 0;
            (marked && capacities[index] == Some(bits)).then_some(index)
        })
    }

    #[test]
    fn any_blocks() {
        let mut random = Random::new(5);
        let (mut placed, mut refused) = (0, 0);
        for _ in 0..400 {
            let block = any_block(&mut random);
            let marks = any_marks(&mut random);
            for length in [0, random.below(127), random.below(127), 82, 126, 127] {
                let record = random.bytes(length);
                match sought(&block, marks, &record) {
                    Some(index) => {
                        check_placed(&block, marks, &record, index);
                        placed += 1;
                    }
                    None => {
                        check_refused(&block, marks, &record, Refusal::NO_PAGE);
                        refused += 1;
                    }
                }
            }
        }
        assert!(placed > 500 && refused > 500, "{placed} {refused}");
    }

    /// What is known from before is what is judged.
    #[test]
    fn capacities_that_are_known() {
        let mut random = Random::new(6);
        let pages: Vec<Vec<u8>> = (0..300).map(|_| any_first(&mut random, SMALL)).collect();
        for page in pages.iter().chain(&pages) {
            assert_eq!(capacity_of(page), judged(page));
            assert_eq!(capacity_of(page).map(|capacity| capacity as u64), page_capacity(page).ok());
        }
        for page in (0..KNOWN_MOST + 10).map(|number| with_byte(least(), 250, number as u8)) {
            assert_eq!(capacity_of(&page), judged(&page));
        }
    }

    /// Two records, one after the other: the page of the first has a second record then, and is passed over.
    #[test]
    fn a_page_takes_one_record() {
        let mut block = block_of(&[(5, &least()), (6, &least()), (9, &most())]);
        for (record, answer) in [
            (&[1][..], Ok(5)),
            (&[2], Ok(6)),
            (&[3], Ok(9)),
            (&[], Err(Refusal::NO_PAGE)),
            (&[4; 127], Err(Refusal::NO_PAGE)),
        ] {
            assert_eq!(place_record(&mut block, 0xFFFF, record), answer);
        }
        for (index, byte) in [(5, 1), (6, 2), (9, 3)] {
            let mut output = [0];
            assert_eq!(read_second(&block[places_of(index)], &mut output), Ok(1));
            assert_eq!(output, [byte]);
        }
    }

    /// A block whose page `index` has bytes of `index` + 1.
    fn numbered() -> Vec<u8> {
        (0..4_096).map(|place| (place / 256 + 1) as u8).collect()
    }

    /// The answer, and the target afterwards.
    fn collected(source: &[u8], keep: u16, target: &[u8]) -> (Answer, Vec<u8>) {
        let mut target = target.to_vec();
        let answer = collect_block(source, keep, &mut target);
        (answer, target)
    }

    /// Pages kept, in their order, and zeros after them.
    #[test]
    fn the_pages_that_are_kept() {
        for (keep, kept) in [
            (0x0000, &[][..]),
            (0x0001, &[1]),
            (0x0002, &[2]),
            (0x8000, &[16]),
            (0x8001, &[1, 16]),
            (0xA5A5, &[1, 3, 6, 8, 9, 11, 14, 16]),
            (0x5A5A, &[2, 4, 5, 7, 10, 12, 13, 15]),
            (0xFFFE, &[2, 3, 4, 5, 6, 7, 8, 9, 10, 11, 12, 13, 14, 15, 16]),
            (0xFFFF, &[1, 2, 3, 4, 5, 6, 7, 8, 9, 10, 11, 12, 13, 14, 15, 16]),
        ] {
            let (answer, target) = collected(&numbered(), keep, &[0; 4_096]);
            assert_eq!(answer, Ok(kept.len() as u64));
            let mut wanted: Vec<u8> = kept.iter().flat_map(|&byte| [byte; 256]).collect();
            wanted.resize(4_096, 0);
            assert_eq!(target, wanted, "{keep:#06x}");
        }
    }

    /// Every keep: the number kept, and each page at the place that the pages before it leave.
    #[test]
    fn every_keep() {
        let source = numbered();
        for keep in 0..=0xFFFF {
            let (answer, target) = collected(&source, keep, &[0; 4_096]);
            assert_eq!(answer, Ok(u64::from(keep.count_ones())));
            let firsts: Vec<u8> = target.iter().step_by(256).copied().collect();
            let mut wanted: Vec<u8> = (0..16).filter(|bit| keep & 1 << bit != 0).map(|bit| bit + 1).collect();
            wanted.resize(16, 0);
            assert_eq!(firsts, wanted);
            assert!(target.chunks(256).all(|page| page.iter().all(|&byte| byte == page[0])));
        }
    }

    /// "the remainder stays 0 and can be written again": by write first.
    #[test]
    fn the_remainder_can_be_written_again() {
        for keep in [0, 1, 0x8000, 0xA5A5, 0x7FFF] {
            let (answer, mut target) = collected(&[0xFF; 4_096], keep, &[0; 4_096]);
            let kept = answer.expect("a sound call") as usize;
            for index in 0..16 {
                let written = write_first(&mut target[places_of(index)], &[7; 176]);
                assert_eq!(written, if index < kept { Err(Refusal::NOT_BLANK) } else { Ok(0) });
            }
        }
    }

    /// Pages of any content are kept as they are, blank ones too.
    #[test]
    fn the_source_is_not_judged() {
        let mut random = Random::new(7);
        for _ in 0..50 {
            let source = any_block(&mut random);
            assert_eq!(collected(&source, 0xFFFF, &[0; 4_096]), (Ok(16), source.clone()));
            let (answer, target) = collected(&source, 0x8100, &[0; 4_096]);
            assert_eq!(answer, Ok(2));
            assert_eq!(target, [&source[2_048..2_304], &source[3_840..], &[0; 3_584]].concat());
        }
        assert_eq!(collected(&[0; 4_096], 0xFFFF, &[0; 4_096]), (Ok(16), vec![0; 4_096]));
    }

    /// "19 when a byte of the target is not 0", wherever it is, and whatever is kept.
    #[test]
    fn every_byte_of_the_target() {
        let source = numbered();
        for place in 0..4_096 {
            for (keep, byte) in [(0, 1), (1, 0x80), (0xFFFF, 0xFF)] {
                let target = with_byte(vec![0; 4_096], place, byte);
                let refused = (Err(Refusal::TARGET_NOT_BLANK), target.clone());
                assert_eq!(collected(&source, keep, &target), refused, "{place}");
            }
        }
        assert_eq!(Refusal::TARGET_NOT_BLANK, Refusal { number: 19, index: 0 });
    }

    /// "17 for any block, source or target, that is not 4,096 bytes": one of them, or both; before 19.
    #[test]
    fn sources_and_targets_of_other_lengths() {
        let lengths = [0, 1, 255, 256, 3_840, 4_095, 4_096, 4_097, 4_352, 8_192];
        for (source, target) in lengths.into_iter().flat_map(|source| lengths.map(|target| (source, target))) {
            for (keep, byte) in [(0, 0), (0xFFFF, 0), (0, 1), (0x8000, 0xFF)] {
                let (source, target) = (vec![7; source], vec![byte; target]);
                let answer = collected(&source, keep, &target);
                if (source.len(), target.len()) != (4_096, 4_096) {
                    assert_eq!(answer, (Err(Refusal::BLOCK_LENGTH), target));
                } else if byte != 0 {
                    assert_eq!(answer, (Err(Refusal::TARGET_NOT_BLANK), target));
                } else {
                    assert!(answer.0.is_ok());
                }
            }
        }
    }
}
