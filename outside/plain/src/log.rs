//! Where each operation stands in the log.

use crate::machine::{Machine, Note, Operation};
use crate::numbers::Entry;

/// A place in the log. Entries of one step: sizes by thread number, then updates by raising step, each with those directly after it by
/// their reads.
#[derive(Debug, Clone, Copy, PartialEq, Eq, PartialOrd, Ord)]
struct Place {
    step: u32,
    behind_sizes: bool,
    thread_or_raised: u32,
    read: u32,
}

/// The log, in order.
pub fn entries(machine: &Machine) -> Vec<Entry> {
    let mut places: Vec<(Place, usize)> =
        machine.operations().iter().enumerate().filter_map(|(i, o)| Some((place(machine, o)?, i))).collect();
    places.sort();
    places.iter().map(|(place, operation)| Entry { operation: *operation, step: place.step }).collect()
}

/// None for an operation that is not listed.
fn place(machine: &Machine, o: &Operation) -> Option<Place> {
    if let Some(note) = o.update {
        return update_place(machine, note);
    }
    o.answer?;
    if let Some(s) = o.snapshot {
        let step = machine.stories()[s].closed.expect("the snapshot of a returned size is closed");
        return Some(Place { step, behind_sizes: false, thread_or_raised: o.thread as u32, read: 0 });
    }
    let (read, found) = o.read.expect("what returned with no snapshot has read its slot");
    let at_read = Place { step: read, behind_sizes: true, thread_or_raised: 0, read };
    let found = match found {
        None => return Some(at_read),
        Some(note) => update_place(machine, note).expect("the update found was raised before the return"),
    };
    Some(if found.step < read { at_read } else { Place { read, ..found } })
}

/// At its raising, or behind the snapshot that was collecting then and whose winner did not see it.
fn update_place(machine: &Machine, note: Note) -> Option<Place> {
    let raised = machine.update(note).raised?.step;
    let missed_by = machine.stories().iter().find_map(|story| {
        let closed = story.closed?;
        let during = story.announced < raised && raised < closed;
        let seen = story.winner_read?[note.thread][note.kind];
        (during && seen < note.target).then_some(closed)
    });
    Some(Place { step: missed_by.unwrap_or(raised), behind_sizes: true, thread_or_raised: raised, read: 0 })
}
