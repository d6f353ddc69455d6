//! The strings of the gate reach what seldom happens, in the machine, in the log and in the raising of counters.

use compare::generate;
use plain::machine::{Kind, Machine, Rare};

/// Which of these a log has: a size and an update missed by it at one step, something that found a missed update and stands behind
/// it, and several sizes at one closing.
fn in_log(machine: &Machine) -> [bool; 3] {
    let entries = plain::log::entries(machine);
    let size = |i: usize| machine.operations()[entries[i].operation].kind == Kind::Size;
    let update = |i: usize| machine.operations()[entries[i].operation].update.is_some();
    let mut met = [false; 3];
    for i in 1..entries.len() {
        let same = |j: usize| entries[j].step == entries[i].step;
        if same(i - 1) {
            met[0] |= size(i - 1) && update(i);
            met[1] |= update(i - 1) && !update(i) && (0..i).any(|j| same(j) && size(j));
            met[2] |= size(i - 1) && size(i);
        }
    }
    met
}

/// Which of these a run has: an update raised by another thread than its own, one by its own after another had it in hand, one that another
/// than its raiser forwarded, and one not raised yet.
fn in_raisings(machine: &Machine) -> [bool; 4] {
    let mut met = [false; 4];
    for operation in machine.operations() {
        let Some(note) = operation.update else { continue };
        let update = machine.update(note);
        let raiser = update.raised.map(|raising| raising.thread);
        met[0] |= raiser.is_some_and(|thread| thread != operation.thread);
        met[1] |= raiser == Some(operation.thread) && update.failed.is_some();
        met[2] |= update.forwarded.is_some() && update.forwarded != raiser;
        met[3] |= raiser.is_none();
    }
    met
}

#[test]
fn rare_events() {
    let mut met = [0; Rare::COUNT];
    let mut logs = [0; 3];
    let mut raisings = [0; 4];
    for number in 0..20_000 {
        let case = generate::case(1, number);
        if let Ok(contents) = plain::read(&case.file) {
            let machine = Machine::after(&case.file, &contents);
            (0..Rare::COUNT).for_each(|i| met[i] += machine.met()[i] as usize);
            let found = in_log(&machine);
            (0..3).for_each(|i| logs[i] += found[i] as usize);
            let found = in_raisings(&machine);
            (0..4).for_each(|i| raisings[i] += found[i] as usize);
        }
    }
    println!("{met:?} {logs:?} {raisings:?}");
    assert!(met.iter().chain(&logs).chain(&raisings).all(|n| *n >= 5), "{met:?} {logs:?} {raisings:?}");
}
