//! Demand 3, checked on what a run handed back by playing its log on a plain set, and who can have raised each update. It knows
//! nothing of the machine.

use crate::file::Contents;
use crate::numbers::{entries, outcomes, Entry, Outcome};
use std::collections::BTreeSet;

/// The byte of a size.
const SIZE: u8 = 192;

/// What a run handed back: the results and the log's entries, whole.
#[derive(Debug, Clone, Copy)]
pub struct Handed<'a> {
    pub results: &'a [u32],
    pub log: &'a [u32],
    pub idle: usize,
}

/// Says what is wrong, if anything is.
pub fn check(file: &[u8], contents: &Contents, handed: Handed) -> Result<(), String> {
    let bytes = contents.operation_bytes(file);
    let (outcomes, log) = (outcomes(handed.results), entries(handed.log));
    listed_once(&outcomes, &log)?;
    in_spans(&outcomes, &log)?;
    replay(bytes, &outcomes, &log)?;
    steps_of_sizes(bytes, &outcomes, contents.threads as u32)?;
    raiser_told(bytes, &outcomes, &log)?;
    raiser_was_there(&Course { bytes, starts: contents.starts(), schedule: contents.schedule(file), outcomes: &outcomes }, &log)?;
    let own: u64 = outcomes.iter().map(|o| o.own as u64).sum();
    if own + handed.idle as u64 != contents.steps as u64 {
        return Err(format!("{own} own steps and {} idle ones are not {}", handed.idle, contents.steps));
    }
    Ok(())
}

/// No operation stands in the log twice, every returned one stands there, and none that has not begun.
fn listed_once(outcomes: &[Outcome], log: &[Entry]) -> Result<(), String> {
    let mut seen = vec![false; outcomes.len()];
    for entry in log {
        let o = entry.operation;
        if o >= seen.len() || seen[o] {
            return Err(format!("operation {o} is listed twice or is none"));
        }
        seen[o] = true;
    }
    for (i, o) in outcomes.iter().enumerate() {
        let (returned, begun) = (o.answer.is_some(), o.first != 0);
        if returned && !seen[i] || !begun && seen[i] || returned != (o.last != 0) || begun != (o.own != 0) {
            return Err(format!("operation {i} with {o:?} is listed: {}", seen[i]));
        }
    }
    Ok(())
}

/// Entries stand in order of steps, each within its operation's span.
fn in_spans(outcomes: &[Outcome], log: &[Entry]) -> Result<(), String> {
    let mut before = 1;
    for entry in log {
        let (step, o) = (entry.step, outcomes[entry.operation]);
        let too_late = o.answer.is_some() && step > o.last;
        if step < before || step < o.first || too_late {
            return Err(format!("{entry:?} after step {before} is outside the span of {o:?}"));
        }
        before = step;
    }
    Ok(())
}

/// On a plain set, in log order, every returned operation gets its answer, and every other is an update that succeeds.
fn replay(bytes: &[u8], outcomes: &[Outcome], log: &[Entry]) -> Result<(), String> {
    let mut set = BTreeSet::new();
    for entry in log {
        let o = entry.operation;
        let (kind, key) = (bytes[o] / 64, bytes[o] % 64);
        let answer = match kind {
            0 => set.insert(key) as u32,
            1 => set.remove(&key) as u32,
            2 => set.contains(&key) as u32,
            _ => set.len() as u32,
        };
        let recorded = outcomes[o].answer;
        let right = recorded.map_or(kind < 2 && answer == 1, |recorded| recorded == answer);
        if !right {
            return Err(format!("operation {o} answered {recorded:?}, the plain set {answer}"));
        }
    }
    Ok(())
}

/// No size takes more than 8T+5 steps of its own, and a returned one takes 6T+4 at least.
fn steps_of_sizes(bytes: &[u8], outcomes: &[Outcome], threads: u32) -> Result<(), String> {
    for (i, o) in outcomes.iter().enumerate().filter(|(i, _)| bytes[*i] == SIZE) {
        let few = o.answer.is_some() && o.own < 6 * threads + 4;
        if few || o.own > 8 * threads + 5 {
            return Err(format!("size {i} took {} steps of its own", o.own));
        }
    }
    Ok(())
}

/// A raiser is told of exactly the inserts and deletes in the log that did not answer false.
fn raiser_told(bytes: &[u8], outcomes: &[Outcome], log: &[Entry]) -> Result<(), String> {
    for (i, o) in outcomes.iter().enumerate() {
        let listed = log.iter().any(|entry| entry.operation == i);
        let update = bytes[i] / 64 < 2 && o.answer != Some(0);
        if o.raiser.is_some() != (listed && update) {
            return Err(format!("operation {i} of byte {} with {o:?} is listed: {listed}", bytes[i]));
        }
    }
    Ok(())
}

/// Who worked on what at each step, as schedule and results tell it.
struct Course<'a> {
    bytes: &'a [u8],
    starts: Vec<usize>,
    schedule: &'a [u8],
    outcomes: &'a [Outcome],
}

impl Course<'_> {
    /// The thread that took a step and the byte of the operation that it worked on, if it had one left.
    fn at(&self, step: u32) -> Option<(u32, u8)> {
        let thread = *self.schedule.get(step as usize - 1)?;
        let mut own = self.starts[thread as usize]..self.starts[thread as usize + 1];
        let within = |o: &Outcome| o.first != 0 && o.first <= step && (o.last == 0 || step <= o.last);
        let operation = own.find(|i| within(&self.outcomes[*i]))?;
        Some((thread as u32, self.bytes[operation]))
    }
}

/// An update's raiser is who took the step at which the update stands, for an operation of its key. Where that is a step of a size,
/// whose snapshot missed the update, the raiser took such a step earlier in the update's span.
fn raiser_was_there(course: &Course, log: &[Entry]) -> Result<(), String> {
    for entry in log {
        let o = &course.outcomes[entry.operation];
        let Some(raiser) = o.raiser else { continue };
        let key = course.bytes[entry.operation] % 64;
        let raises = |step: u32| course.at(step).is_some_and(|(t, byte)| t == raiser && byte != SIZE && byte % 64 == key);
        let missed = course.at(entry.step).is_some_and(|(_, byte)| byte == SIZE);
        let was_there = if missed { (o.first..entry.step).any(raises) } else { raises(entry.step) };
        if !was_there {
            return Err(format!("operation {} at step {} cannot have been raised by {raiser}", entry.operation, entry.step));
        }
    }
    Ok(())
}
