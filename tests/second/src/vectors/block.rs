//! The fixed calls of blocks. Each has up to 17 pages, so there are few of them.

use super::{Script, LENGTH_MOST};
use crate::block::{BLOCK_BYTES, BLOCK_PAGES};
use crate::call::Call;
use crate::cases::blocks::{any_block, first_with_capacity, flawed, with_page, Flaw};
use crate::cases::files::numbered;
use crate::cases::lengths::resized;
use crate::cases::pages::{page_of, with_byte};
use crate::cases::words::SPARSE_VALUE;
use crate::random::Random;
use crate::shape::SMALL;

const SEED: u64 = 4_096;

/// All pages are marked, or kept.
const ALL: u16 = 0xFFFF;

/// Capacities from the least to the most, in no order, some of them equal.
const CAPACITIES: [usize; BLOCK_PAGES] =
    [812, 1_012, 668, 900, 668, 1_008, 777, 900, 700, 663, 1_012, 720, 840, 688, 1_000, 671];

/// The calls. Their bytes are drawn apart from those of the other calls.
pub fn calls() -> Vec<Call> {
    let mut script = Script { random: Random::new(SEED), calls: Vec::new() };
    script.block_lengths();
    script.placed_lengths();
    script.single_marks();
    script.equal_pages();
    script.flawed_pages();
    script.unmarked_pages();
    script.whole_pages();
    script.unplaced();
    script.kept_pages();
    script.target_bytes();
    script.collecting_lengths();
    script.calls
}

impl Script {
    /// A call of place record with any record of this length.
    fn place(&mut self, block: &[u8], marks: u16, length: usize) {
        let record = self.random.bytes(length);
        self.add(Call::of_placing(block.to_vec(), marks, record));
    }

    fn collect(&mut self, source: &[u8], keep: u16, target: Vec<u8>) {
        self.add(Call::of_collecting(source.to_vec(), keep, target));
    }

    /// A block of first-round pages of these capacities.
    fn block_of(&mut self, capacities: [usize; BLOCK_PAGES]) -> Vec<u8> {
        capacities.map(|capacity| first_with_capacity(&mut self.random, capacity)).concat()
    }

    /// The block of blank pages but for these.
    fn among_blank(&mut self, pages: &[(usize, &[u8])]) -> Vec<u8> {
        pages.iter().fold(vec![0; BLOCK_BYTES], |block, (index, page)| with_page(block, *index, page))
    }

    /// Blocks of other lengths, with a record that would fit, without a mark, and with a record too long.
    fn block_lengths(&mut self) {
        let block = self.block_of(CAPACITIES);
        for (length, marks, record) in [
            (0, ALL, 0),
            (0, 0, 1_024),
            (1, ALL, 1),
            (3_840, 0x0001, 82),
            (4_095, 0x7FFF, 20),
            (4_097, ALL, 40),
            (4_352, 0, 127),
        ] {
            let block = resized(&mut self.random, block.clone(), length);
            self.place(&block, marks, record);
        }
    }

    /// Records about the least and the most that fit, with all pages marked: smaller ones are passed by.
    fn placed_lengths(&mut self) {
        let block = self.block_of(CAPACITIES);
        [0, 1, 82, 83, 86, 126].into_iter().for_each(|length| self.place(&block, ALL, length));
    }

    /// One page is marked: the first, the last, and two between.
    fn single_marks(&mut self) {
        let block = self.block_of(CAPACITIES);
        [0, 7, 8, 15].into_iter().for_each(|index| self.place(&block, 1 << index, 82));
    }

    /// Equal pages: all of them; of three the later two, among larger and too small ones; and the first and the last.
    fn equal_pages(&mut self) {
        self.place(&page_of(SMALL, SPARSE_VALUE).repeat(BLOCK_PAGES), ALL, 82);
        let block = self.block_of([900, 1_012, 801, 700, 801, 1_000, 799, 802, 801, 900, 660, 801, 802, 799, 700, 900]);
        self.place(&block, 0xFEEB, 100);
        let block = self.block_of([720, 721, 721, 721, 721, 721, 721, 721, 721, 721, 721, 721, 721, 721, 721, 720]);
        self.place(&block, ALL, 90);
    }

    /// A block with a page of each flaw from this index on, which would fit better than its one sound page.
    fn block_of_flaws(&mut self, turn: usize) -> Vec<u8> {
        let sound = first_with_capacity(&mut self.random, SMALL.capacity_most());
        let mut block = sound.repeat(BLOCK_PAGES);
        for (place, flaw) in (0..BLOCK_PAGES - 1).zip(Flaw::ALL.into_iter().cycle()) {
            let first = first_with_capacity(&mut self.random, 680 + place);
            let page = flawed(&mut self.random, &first, flaw);
            block = with_page(block, (turn + place) % BLOCK_PAGES, &page);
        }
        block
    }

    /// Marked pages of each flaw before and after a sound page, and without it.
    fn flawed_pages(&mut self) {
        for (turn, length) in [(0, 82), (1, 80), (9, 126)] {
            let block = self.block_of_flaws(turn);
            self.place(&block, ALL, length);
        }
        // The sound page, which is not marked, is that of index 4.
        let block = self.block_of_flaws(5);
        self.place(&block, 0xFFEF, 0);
    }

    /// Better pages that are not marked: smaller ones, and an equal one.
    fn unmarked_pages(&mut self) {
        let block = self.block_of(CAPACITIES);
        self.place(&block, 0x1408, 84);
        self.place(&block, 0x0480, 0);
    }

    /// A record that takes a page whole, and one byte more: with 688 bits alone, and with 1,008 bits among smaller ones.
    fn whole_pages(&mut self) {
        let page = first_with_capacity(&mut self.random, 688);
        let alone = self.among_blank(&[(13, &page)]);
        let mut capacities = [900; BLOCK_PAGES];
        capacities[6] = 1_008;
        let among = self.block_of(capacities);
        for (block, length) in [(&alone, 86), (&alone, 87), (&among, 126), (&among, 127)] {
            self.place(block, ALL, length);
        }
    }

    /// No mark; blank pages; records too long for the pages that are marked, and for every page.
    fn unplaced(&mut self) {
        let block = self.block_of(CAPACITIES);
        self.place(&block, 0, 0);
        self.place(&[0; BLOCK_BYTES], ALL, 0);
        self.place(&page_of(SMALL, SPARSE_VALUE).repeat(BLOCK_PAGES), ALL, 83);
        self.place(&block, 0xFBDD, 126);
        self.place(&page_of(SMALL, 0).repeat(BLOCK_PAGES), ALL, 127);
        self.place(&block, ALL, 1_024);
        self.place(&block, 0x8000, LENGTH_MOST);
    }

    /// None, the first, the last, both halves of the pages, and all, of sources of different pages and of any.
    fn kept_pages(&mut self) {
        let source = numbered(&mut self.random, BLOCK_BYTES);
        for keep in [0, 0x0001, 0x8000, 0xA5A5] {
            self.collect(&source, keep, vec![0; BLOCK_BYTES]);
        }
        for keep in [0x5A5A, ALL] {
            let source = any_block(&mut self.random);
            self.collect(&source, keep, vec![0; BLOCK_BYTES]);
        }
    }

    /// One byte of the target is not 0: the first, the last, at the ends of pages, and where nothing would be written.
    fn target_bytes(&mut self) {
        let source = numbered(&mut self.random, BLOCK_BYTES);
        for (place, byte, keep) in
            [(0, 0x01, ALL), (4_095, 0x80, 0x0001), (2_047, 0x10, 0xA5A5), (256, 0xFF, 0x0001), (3_840, 0x01, 0)]
        {
            self.collect(&source, keep, with_byte(vec![0; BLOCK_BYTES], place, byte));
        }
    }

    /// The source, the target or both are of another length; with a target that is not blank as well.
    fn collecting_lengths(&mut self) {
        let source = numbered(&mut self.random, BLOCK_BYTES);
        for (length, target, byte) in [
            (0, 0, 0),
            (0, 4_096, 0),
            (4_096, 0, 0),
            (4_095, 4_096, 0x01),
            (4_096, 4_095, 0),
            (4_097, 4_096, 0),
            (4_096, 4_097, 0x80),
            (3_840, 4_352, 0),
        ] {
            let source = resized(&mut self.random, source.clone(), length);
            self.collect(&source, 0x8001, vec![byte; target]);
        }
    }
}

#[cfg(test)]
mod tests {
    use super::*;
    use crate::answer::{number, Answer, Refusal};
    use crate::call::Entry;
    use crate::case::Place;
    use crate::cases::blocks::capacities_in;
    use crate::coverage::Coverage;
    use crate::vectors::tests::performed;
    use crate::vectors::{input_of, text_of};
    use std::collections::{HashMap, HashSet};
    use std::sync::LazyLock;

    /// The calls, performed once for all tests.
    static PERFORMED: LazyLock<Vec<(Call, Call, Answer)>> = LazyLock::new(|| performed(calls()));

    fn of_entry(entry: Entry) -> impl Iterator<Item = &'static (Call, Call, Answer)> {
        PERFORMED.iter().filter(move |(call, ..)| call.entry == entry)
    }

    /// Some calls with each answer, and no more room than they need.
    #[test]
    fn number_and_size() {
        let calls = calls();
        assert_eq!(Entry::OF_BLOCKS.map(|entry| of_entry(entry).count()), [37, 19]);
        assert!(calls.iter().all(|call| call.page.len().max(call.other.len()) <= LENGTH_MOST));
        assert_eq!(calls.iter().map(|call| call.page.len().max(call.other.len())).max(), Some(4_352));
        assert!(input_of(&calls).len() < 310_000 && text_of(&calls).len() < 430_000);
        let mut met: HashMap<(Entry, u8), usize> = HashMap::new();
        PERFORMED.iter().for_each(|(call, _, answer)| *met.entry((call.entry, number(*answer))).or_default() += 1);
        let placed = [(0, 20), (17, 7), (18, 10)].map(|(number, count)| ((Entry::PlaceRecord, number), count));
        let collected = [(0, 6), (17, 8), (19, 5)].map(|(number, count)| ((Entry::CollectBlock, number), count));
        assert_eq!(met, placed.into_iter().chain(collected).collect());
    }

    /// The answers, in the order of the calls.
    #[test]
    fn every_answer() {
        let (length, no_page) = (Err(Refusal::BLOCK_LENGTH), Err(Refusal::NO_PAGE));
        let placed = [&[length; 7][..], &[9, 9, 9, 2, 13, 5].map(Ok), &[0, 7, 8, 15].map(Ok), &[0, 11, 0].map(Ok)];
        let flaws = [&[15, 0, 8].map(Ok)[..], &[no_page], &[12, 7].map(Ok)];
        let whole = [&[Ok(13), no_page, Ok(6), no_page][..], &[no_page; 7]];
        let wanted = [placed.concat(), flaws.concat(), whole.concat()].concat();
        assert_eq!(of_entry(Entry::PlaceRecord).map(|(.., answer)| *answer).collect::<Vec<_>>(), wanted);
        let collected = [&[0, 1, 1, 8, 8, 16].map(Ok)[..], &[Err(Refusal::TARGET_NOT_BLANK); 5], &[length; 8]].concat();
        assert_eq!(of_entry(Entry::CollectBlock).map(|(.., answer)| *answer).collect::<Vec<_>>(), collected);
    }

    /// The capacities that the answers go by.
    #[test]
    fn the_capacities_of_the_pages() {
        let block = &calls()[7].page;
        assert_eq!(capacities_in(block), CAPACITIES.map(Some));
    }

    /// A refused call leaves both buffers, and an accepted one all pages but the chosen one.
    #[test]
    fn what_is_left() {
        for (call, after, answer) in PERFORMED.iter() {
            match (call.entry, answer) {
                (Entry::PlaceRecord, Ok(index)) => {
                    let others = (0..16).filter(|other| other != index).map(|other| 256 * other as usize);
                    assert!(others
                        .into_iter()
                        .all(|start| call.page[start..start + 256] == after.page[start..start + 256]));
                    assert_ne!(call.page, after.page);
                }
                (_, Ok(count)) => assert!(after.other[256 * *count as usize..].iter().all(|&byte| byte == 0)),
                _ => assert_eq!((&call.page, &call.other), (&after.page, &after.other)),
            }
            assert_eq!(if call.entry.writes_page() { &call.other } else { &call.page }, kept_buffer(after));
        }
    }

    /// The buffer that the entry only reads.
    fn kept_buffer(call: &Call) -> &Vec<u8> {
        if call.entry.writes_page() {
            &call.other
        } else {
            &call.page
        }
    }

    /// Of what a run counts: each flaw decides, each other reason of 18, an equal page, a page too small, a better one that is
    /// not marked, a record that takes a page whole; and of collecting both ends of the target.
    #[test]
    fn counters_of_a_run() {
        let mut coverage = Coverage::new();
        PERFORMED.iter().for_each(|(call, _, answer)| coverage.count(call, Place::Canaries, *answer));
        let met: HashSet<String> =
            coverage.wanted().into_iter().filter(|(_, met)| *met > 0).map(|(name, _)| name).collect();
        let flaws = Flaw::ALL.into_iter().flat_map(|flaw| {
            let names = [format!("accepted, a better page passed over, {}", flaw.name())];
            names.into_iter().chain([format!("18 for a page {}", flaw.name())])
        });
        let others = [
            "accepted, page 0 before an equal one",
            "accepted, page 2 too small",
            "accepted, page 9 better and not marked",
            "accepted, a record that takes a page whole",
            "18 without a mark",
            "18, all marked pages passed over",
            "18, too small by one byte",
            "18, too small by more",
            "18, a page that is not marked would do",
            "17 before 18",
            "17 before accepted",
        ];
        for name in flaws.chain(others.map(str::to_string)) {
            assert!(met.contains(&format!("place record {name}")), "{name}");
        }
        for name in
            ["17 before 19", "17 for both", "19 for the first byte", "19 for the last byte", "19 with no page kept"]
        {
            assert!(met.contains(&format!("collect block {name}")), "{name}");
        }
    }
}
