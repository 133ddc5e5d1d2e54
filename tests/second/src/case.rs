//! One case of a differential run, and its name.

use crate::call::{Call, Entry};
use crate::memory::Side;
use std::fmt;

/// The parts of a run.
#[derive(Clone, Copy, Debug, PartialEq, Eq)]
pub enum Part {
    Systematic,
    /// With marks wider than 16 bits.
    Wide,
    Far,
    Random,
}

impl Part {
    pub const ALL: [Part; 4] = [Part::Systematic, Part::Wide, Part::Far, Part::Random];

    pub fn number(self) -> usize {
        self as usize
    }

    pub fn name(self) -> &'static str {
        match self {
            Part::Systematic => "systematic",
            Part::Wide => "wide",
            Part::Far => "far",
            Part::Random => "random",
        }
    }
}

/// Where the buffers of a call lie.
#[derive(Clone, Copy, Debug, PartialEq, Eq)]
pub enum Place {
    /// Between canary bytes.
    Canaries,
    /// Beside untouchable memory; a buffer that the entry does not write is read-only.
    Guarded(Side),
    /// Beside untouchable memory, and every buffer is read-only.
    ReadOnly(Side),
    /// In address space that is reserved for far lengths.
    Far,
}

impl Place {
    pub const ALL: [Place; 6] = [
        Place::Canaries,
        Place::Guarded(Side::Before),
        Place::Guarded(Side::After),
        Place::ReadOnly(Side::Before),
        Place::ReadOnly(Side::After),
        Place::Far,
    ];

    /// Its place in `ALL`.
    pub fn number(self) -> usize {
        match self {
            Place::Canaries => 0,
            Place::Guarded(side) => 1 + side as usize,
            Place::ReadOnly(side) => 3 + side as usize,
            Place::Far => 5,
        }
    }

    pub fn name(self) -> &'static str {
        match self {
            Place::Canaries => "between canary bytes",
            Place::Guarded(Side::Before) => "right before untouchable memory",
            Place::Guarded(Side::After) => "right after untouchable memory",
            Place::ReadOnly(Side::Before) => "read-only right before untouchable memory",
            Place::ReadOnly(Side::After) => "read-only right after untouchable memory",
            Place::Far => "with a far length",
        }
    }
}

/// One call of a run; its text names it.
#[derive(Clone, Copy, Debug)]
pub struct Case {
    pub seed: u64,
    pub part: Part,
    pub number: u64,
    pub entry: Entry,
    pub argument: u64,
    pub page_length: usize,
    pub other_length: usize,
    pub place: Place,
}

impl Case {
    /// The case of this call between canary bytes.
    pub fn new(seed: u64, part: Part, number: u64, call: &Call) -> Case {
        let Call { entry, argument, page, other, .. } = call;
        Case {
            seed,
            part,
            number,
            entry: *entry,
            argument: *argument,
            page_length: page.len(),
            other_length: other.len(),
            place: Place::Canaries,
        }
    }

    /// The case with its buffers elsewhere.
    pub fn at(self, place: Place) -> Case {
        Case { place, ..self }
    }
}

impl fmt::Display for Case {
    fn fmt(&self, out: &mut fmt::Formatter) -> fmt::Result {
        write!(out, "seed {}, {} case {}, {} (", self.seed, self.part.name(), self.number, self.entry.name())?;
        if self.entry.takes_buffers() {
            let Case { page_length, other_length, .. } = self;
            let (page, place) = (self.entry.page_name(), self.place.name());
            write!(out, "{page} of {page_length} bytes, other buffer of {other_length} bytes, {place})")
        } else {
            write!(out, "argument {:#x})", self.argument)
        }
    }
}

#[cfg(test)]
mod tests {
    use super::*;

    #[test]
    fn numbers_are_places_in_the_lists() {
        for (number, part) in Part::ALL.into_iter().enumerate() {
            assert_eq!(part.number(), number);
        }
        for (number, place) in Place::ALL.into_iter().enumerate() {
            assert_eq!(place.number(), number);
        }
    }
}
