//! What the systematic calls of blocks meet.

use super::*;
use crate::block::{capacity_of, is_marked};
use crate::cases::blocks::capacities_in;
use crate::cases::systematic::block::{calls, wide};

/// Whether the name of a counter is that of an entry of blocks.
pub fn is_of_blocks(name: &str) -> bool {
    Entry::OF_BLOCKS.iter().any(|entry| name.starts_with(entry.name()))
}

/// What of a block does not change with the marks and the record.
fn other_pages_stay(call: &Call, after: &Call, index: usize) -> bool {
    (0..16).filter(|&other| other != index).all(|other| {
        let places = 256 * other..256 * (other + 1);
        call.page[places.clone()] == after.page[places]
    })
}

/// What must hold of a placement that is accepted with this index.
fn check_placed(call: &Call, after: &Call, index: usize) {
    let (before, page) = (&call.page[256 * index..][..256], &after.page[256 * index..][..256]);
    assert!(is_marked(call.marks(), index) && other_pages_stay(call, after, index));
    assert!(call.page.iter().zip(&after.page).all(|(before, after)| before & !after == 0));
    assert!(capacity_of(before).is_some_and(|capacity| capacity >= 8 * call.other.len()));
    let mut output = [0; 126];
    assert_eq!(read_second(page, &mut output), Ok(call.other.len() as u64));
    assert_eq!(output[..call.other.len()], call.other);
    assert_eq!(after.other, call.other);
}

/// What must hold of a block of which so many pages are kept.
fn check_collected(call: &Call, after: &Call, count: usize) {
    assert_eq!(count, call.marks().count_ones() as usize);
    let kept: Vec<u8> = (0..16)
        .filter(|bit| call.marks() >> bit & 1 == 1)
        .flat_map(|index| call.page[256 * index..][..256].to_vec())
        .collect();
    assert_eq!(after.other[..256 * count], kept);
    assert!(after.other[256 * count..].iter().all(|&byte| byte == 0) && after.page == call.page);
}

/// What is kept of a call, which is long.
struct Summary {
    entry: Entry,
    marks: u64,
    lengths: [usize; 2],
    answer: Answer,
    /// Of collecting, the place of the one byte of the target that is not 0.
    target_byte: Option<usize>,
}

/// All calls with their answers, and what they count for.
struct Summaries {
    calls: Vec<Summary>,
    coverage: Coverage,
}

/// The place of the one byte that is not 0, if it is the only one.
fn only_set_byte(bytes: &[u8]) -> Option<usize> {
    let mut set = (0..bytes.len()).filter(|&place| bytes[place] != 0);
    set.next().filter(|_| set.next().is_none())
}

/// Performs the call. A refused one leaves its buffers; a record that is placed can be read back, and nothing else changes.
fn summary(call: &Call) -> Summary {
    let (after, answer) = call.performed();
    match (call.entry, answer) {
        (Entry::PlaceRecord, Ok(index)) => check_placed(call, &after, index as usize),
        (_, Ok(count)) => check_collected(call, &after, count as usize),
        _ => assert!((&call.page, &call.other) == (&after.page, &after.other)),
    }
    let target_byte = if call.entry == Entry::CollectBlock { only_set_byte(&call.other) } else { None };
    let lengths = [call.page.len(), call.other.len()];
    Summary { entry: call.entry, marks: call.argument, lengths, answer, target_byte }
}

/// The calls of blocks, performed once for all tests.
fn summaries() -> &'static Summaries {
    static SUMMARIES: OnceLock<Summaries> = OnceLock::new();
    SUMMARIES.get_or_init(|| {
        let mut coverage = Coverage::new();
        let calls = calls().map(|call| {
            let summary = summary(&call);
            coverage.count(&call, Place::Canaries, summary.answer);
            summary
        });
        let calls = calls.collect();
        Summaries { calls, coverage }
    })
}

fn of_entry(entry: Entry) -> impl Iterator<Item = &'static Summary> {
    summaries().calls.iter().filter(move |call| call.entry == entry)
}

#[test]
fn the_number_of_calls() {
    assert_eq!(Entry::OF_BLOCKS.map(|entry| of_entry(entry).count()), [225_798, 72_304]);
}

/// These calls meet every counter of blocks but those of the other places of the buffers and of wide marks.
#[test]
fn every_counter_of_blocks() {
    let elsewhere = ["untouchable memory", "far length", "wide marks"];
    let of_blocks = summaries().coverage.wanted().into_iter().filter(|(name, _)| is_of_blocks(name));
    for (name, met) in of_blocks.filter(|(name, _)| !elsewhere.iter().any(|part| name.contains(part))) {
        assert!(met > 0, "{name}");
    }
}

/// Every number as marks with one record over one block, three times, and every number as the pages to be kept; each in order.
#[test]
fn every_number_as_marks() {
    for (turn, length) in [(0, 90), (1, 0), (2, 92)] {
        let marks = summaries().calls.iter().skip(65_536 * turn).take(65_536);
        let marks = marks.map(|call| (call.entry, call.marks, call.lengths));
        assert!(marks.eq((0..65_536).map(|marks| (Entry::PlaceRecord, marks, [4_096, length]))));
    }
    assert!(of_entry(Entry::CollectBlock).take(65_536).map(|call| call.marks).eq(0..65_536));
}

/// The block of the first of them: nine pages are sound.
#[test]
fn the_block_of_every_marks() {
    let first: Vec<Call> = calls().take(2).collect();
    assert_eq!(first[0].page, first[1].page);
    let capacities = capacities_in(&first[0].page);
    let sound = [(0, 800), (2, 724), (3, 700), (5, 724), (7, 1_012), (9, 720), (11, 719), (13, 800), (15, 724)];
    assert!(sound.iter().all(|&(index, capacity)| capacities[index] == Some(capacity)));
    assert_eq!(capacities.iter().flatten().count(), sound.len());
}

/// The answers to every number as marks, as the block's pages lead to them. In the first turn page 9 takes the record whole,
/// pages 2, 5 and 15 have 724 bits, 0 and 13 have 800, and 7 has 1,012. In the second they are five pages before, and all of them
/// take the record of no byte; in the third eleven before, and those of 800 bits and more take it.
#[test]
fn the_answers_to_every_number_as_marks() {
    let orders: [&[u64]; 3] = [&[9, 2, 5, 15, 0, 13, 7], &[14, 6, 4, 0, 10, 13, 8, 11, 2], &[2, 5, 12]];
    for (turn, order) in orders.into_iter().enumerate() {
        for call in summaries().calls.iter().skip(65_536 * turn).take(65_536) {
            let wanted = order.iter().copied().find(|index| call.marks >> index & 1 == 1);
            assert_eq!(call.answer.ok(), wanted);
        }
    }
}

/// Every length of a record from 0 to 130 with all pages marked, and far longer ones.
#[test]
fn every_length_of_a_record() {
    let all_marked = of_entry(Entry::PlaceRecord).filter(|call| call.lengths[0] == 4_096 && call.marks == 0xFFFF);
    let met: HashSet<_> = all_marked.map(|call| (call.lengths[1], number(call.answer))).collect();
    let accepted = (0..=126).map(|length| (length, 0));
    let refused = (127..=130).chain([255, 256, 512, 1_024, 4_096, 8_192, 65_536]).map(|length| (length, 18));
    assert!(accepted.chain(refused).all(|one| met.contains(&one)));
}

/// Every byte of the target by itself.
#[test]
fn every_byte_of_a_target() {
    let refused = of_entry(Entry::CollectBlock).filter(|call| number(call.answer) == 19);
    let met: HashSet<usize> = refused.filter_map(|call| call.target_byte).collect();
    assert_eq!(met.len(), 4_096);
}

/// 4,096 bytes for the one block and not for the other, both ways, and lengths about it.
#[test]
fn lengths_of_blocks() {
    let lengths = || (4_080..4_113).chain([0, 1, 64, 255, 256, 257, 3_840, 4_352, 8_192, 65_536, 69_632]);
    let met: HashSet<[usize; 2]> = of_entry(Entry::CollectBlock).map(|call| call.lengths).collect();
    for length in lengths() {
        assert!([[length, 4_096], [4_096, length], [length, length]].iter().all(|pair| met.contains(pair)), "{length}");
    }
    let met: HashSet<usize> = of_entry(Entry::PlaceRecord).map(|call| call.lengths[0]).collect();
    assert!(lengths().all(|length| met.contains(&length)));
}

/// Each bit above the marks by itself, and all of them, with each answer of both entries; the marks below are as they are.
#[test]
fn calls_with_wide_marks() {
    let calls = wide();
    assert_eq!(calls.len(), 5 * 52 * 6);
    let met: HashSet<_> =
        calls.iter().map(|call| (call.entry, number(call.clone().perform()), call.argument >> 16)).collect();
    let above = (16..64).map(|bit| 1u64 << bit >> 16).chain([0xFFFF, 0xFFFF_FFFF_0000, 0xFFFF_FFFF_FFFF]);
    for (above, entry) in above.flat_map(|above| Entry::OF_BLOCKS.map(|entry| (above, entry))) {
        for number in [0].iter().chain(entry.refusals()) {
            assert!(met.contains(&(entry, *number, above)), "{} {number} {above:#x}", entry.name());
        }
    }
    for call in &calls {
        let narrow = Call { argument: u64::from(call.marks()), ..call.clone() };
        assert_eq!(narrow.clone().perform(), call.clone().perform());
        assert!(call.argument > 0xFFFF);
    }
}

/// Every other systematic call has marks of 16 bits, and buffers that an arena takes.
#[test]
fn marks_and_lengths() {
    let fits = |call: &Summary| call.marks <= 0xFFFF && call.lengths.iter().all(|&length| length <= 1 << 18);
    assert!(summaries().calls.iter().all(fits));
}
