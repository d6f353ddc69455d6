//! What a run hands back in the lent buffers: so many numbers of each operation, so many for each entry of the log.

use crate::machine::INVALID;

/// Numbers per operation in the results: answer, first step, last step, own steps, raiser.
pub const PER_OPERATION: usize = 5;

/// Numbers per entry of the log: operation, step.
pub const PER_ENTRY: usize = 2;

/// What became of one operation.
#[derive(Debug, Clone, Copy, PartialEq, Eq)]
pub struct Outcome {
    pub answer: Option<u32>,
    pub first: u32,
    pub last: u32,
    pub own: u32,
    /// the thread that raised the counter of this update; none for anything but a raised update
    pub raiser: Option<u32>,
}

/// An operation stands at a step.
#[derive(Debug, Clone, Copy, PartialEq, Eq)]
pub struct Entry {
    pub operation: usize,
    pub step: u32,
}

impl Outcome {
    pub fn numbers(self) -> [u32; PER_OPERATION] {
        let or_invalid = |number: Option<u32>| number.unwrap_or(INVALID);
        [or_invalid(self.answer), self.first, self.last, self.own, or_invalid(self.raiser)]
    }

    pub fn of_numbers([answer, first, last, own, raiser]: [u32; PER_OPERATION]) -> Outcome {
        let valid = |number: u32| (number != INVALID).then_some(number);
        Outcome { answer: valid(answer), first, last, own, raiser: valid(raiser) }
    }
}

impl Entry {
    pub fn numbers(self) -> [u32; PER_ENTRY] {
        [self.operation as u32, self.step]
    }

    pub fn of_numbers([operation, step]: [u32; PER_ENTRY]) -> Entry {
        Entry { operation: operation as usize, step }
    }
}

/// The operations that whole results tell of, in order.
pub fn outcomes(results: &[u32]) -> Vec<Outcome> {
    results.as_chunks().0.iter().map(|numbers| Outcome::of_numbers(*numbers)).collect()
}

/// The entries that a whole log holds, in order.
pub fn entries(log: &[u32]) -> Vec<Entry> {
    log.as_chunks().0.iter().map(|numbers| Entry::of_numbers(*numbers)).collect()
}
