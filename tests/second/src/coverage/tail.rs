//! Counters of the pages that are refused for one byte after their words alone.

use crate::answer::{number, Answer, Refusal};
use crate::call::{Call, Entry};
use crate::page::BLANK;
use crate::shape::Shape;
use std::collections::HashMap;

/// What the page is like with that byte at 0.
#[derive(Clone, Copy, PartialEq, Eq, Hash)]
enum Without {
    Sound,
    /// 7 is for it.
    BadWord,
}

impl Without {
    fn name(self) -> &'static str {
        match self {
            Without::Sound => "alone",
            Without::BadWord => "before 7",
        }
    }
}

/// An entry, a state that it takes, the place of the byte, and what the page is like without it.
type Key = (Entry, u8, usize, Without);

pub struct Tails {
    shape: Shape,
    met: HashMap<Key, u64>,
}

impl Tails {
    pub fn new(shape: Shape) -> Tails {
        Tails { shape, met: HashMap::new() }
    }

    /// Counts a call with a page of the shape.
    pub fn count(&mut self, call: &Call, answer: Answer) {
        if number(answer) == refused_by(call.page[0]).number {
            if let Some(key) = self.key_of(call, answer) {
                *self.met.entry(key).or_default() += 1;
            }
        }
    }

    /// What the refused call counts for, if one byte after the words is all that it is refused for.
    fn key_of(&self, call: &Call, answer: Answer) -> Option<Key> {
        let set: Vec<usize> = self.shape.tail().filter(|&place| call.page[place] != 0).collect();
        let [place] = set[..] else { return None };
        let mut without = call.clone();
        without.page[place] = 0;
        let without = match number(without.perform()) {
            same if same == number(answer) => return None,
            7 => Without::BadWord,
            _ => Without::Sound,
        };
        Some((call.entry, call.page[0], place, without))
    }

    /// Every counter that must not be 0, with its name. Write first does not look at words.
    pub fn wanted(&self) -> Vec<(String, u64)> {
        let places =
            Entry::with_states().flat_map(|(entry, state)| self.shape.tail().map(move |place| (entry, state, place)));
        let kinds = [Without::Sound, Without::BadWord];
        let keys = places.flat_map(|(entry, state, place)| kinds.map(|without| (entry, state, place, without)));
        let keys = keys.filter(|(entry, .., without)| *without == Without::Sound || entry.refusals().contains(&7));
        keys.map(|key| (name_of(key), self.met.get(&key).copied().unwrap_or(0))).collect()
    }

    /// How often the entry has refused such a page, if there can be one.
    pub fn told_of(&self, entry: Entry) -> String {
        if self.shape.tail().is_empty() || !entry.takes_page() {
            return String::new();
        }
        let met: u64 = self.met.iter().filter(|((of, ..), _)| *of == entry).map(|(_, met)| met).sum();
        format!("  by one of bytes 509 to 511: {met}")
    }
}

/// How a page of this state is refused for a byte after its words.
fn refused_by(state: u8) -> Refusal {
    if state == BLANK {
        Refusal::NOT_BLANK
    } else {
        Refusal::HEADER
    }
}

fn name_of((entry, state, place, without): Key) -> String {
    let number = refused_by(state).number;
    format!("{} {number} by byte {place} {} in state {state:02X}", entry.name(), without.name())
}
