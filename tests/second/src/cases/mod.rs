//! The making of calls, shared by the vectors and the differential run.

pub mod blocks;
pub mod damage;
pub mod far;
pub mod files;
pub mod inspect;
pub mod lengths;
pub mod pages;
pub mod reading;
pub mod systematic;
pub mod words;

use crate::call::{Call, Entry};
use crate::random::Random;
use crate::shape::Shape;

/// A call of any entry, valid or damaged.
pub fn any_call(random: &mut Random) -> Call {
    let entry = random.pick(&Entry::ALL);
    if random.one_in(2) {
        damage::any_combined(random, entry)
    } else if entry == Entry::WriteFile {
        files::any_file_call(random)
    } else if entry == Entry::ReadFile {
        reading::any_reading_call(random)
    } else if entry == Entry::PlaceRecord {
        blocks::any_placing(random)
    } else if entry == Entry::CollectBlock {
        blocks::any_collecting(random)
    } else if entry.takes_page() {
        any_page_call(random, entry)
    } else {
        damage::any_word_call(random, entry)
    }
}

/// A call over a page of any kind, with any length classes.
fn any_page_call(random: &mut Random, entry: Entry) -> Call {
    let shape = random.pick(&Shape::BOTH);
    let mut page = pages::page_for(random, entry, shape);
    if random.one_in(16) {
        let length = lengths::wrong_page_length(random);
        page = lengths::resized(random, page, length);
    }
    let length = lengths::other_length(random, entry, &page);
    let other = if entry == Entry::WriteInspect { inspect::any_record } else { pages::any_record }(random, length);
    Call::of_page(entry, page, other)
}

#[cfg(test)]
mod tests {
    use super::*;
    use crate::answer::number;
    use std::collections::HashSet;

    /// The random calls of a run: each entry meets each of its answers on each size, and 1 on neither.
    #[test]
    fn every_answer_on_both_sizes() {
        let with_answer = |call: Call| (call.entry, Shape::of(&call.page), number(call.clone().perform()));
        let calls = (0..20_000).map(|case| any_call(&mut Random::of_case(1, case)));
        let of_pages: Vec<_> = calls.filter(|call| call.entry.takes_page()).map(with_answer).collect();
        for entry in Entry::OF_PAGES {
            let of_entry = of_pages.iter().filter(|(of, ..)| *of == entry);
            let met: HashSet<_> = of_entry.map(|(_, shape, answer)| (*shape, *answer)).collect();
            for shape in Shape::BOTH {
                let answers = [0].iter().chain(entry.refusals()).filter(|&&answer| answer != 1);
                assert!(answers.into_iter().all(|&answer| met.contains(&(Some(shape), answer))), "{met:?}");
            }
            let refused: Vec<_> = met.iter().filter(|(_, answer)| *answer == 1).map(|(shape, _)| *shape).collect();
            assert_eq!(refused, [None], "{}", entry.name());
        }
    }
}
