//! Document 01, with the requests of document 02 that have landed, a second time, in plain Rust and with no proof: the run file, the
//! machine, the log, the listing, demand 3 as a replay, and the raisers over the schedule.
//!
//! It is written from the documents' words and shares nothing with the proved library. Where the two answer alike, a misreading would
//! have to be made twice.

pub mod demand;
pub mod file;
pub mod listing;
pub mod log;
pub mod machine;
pub mod numbers;
pub mod raisers;

pub use file::{read, write, Contents, Refusal};
pub use listing::listing;
pub use machine::{Machine, Snapshot, INVALID};
pub use numbers::{Entry, Outcome, PER_ENTRY, PER_OPERATION};

/// What a run returns beside its buffers.
#[derive(Debug, Clone, Copy, PartialEq, Eq, Default)]
pub struct Totals {
    pub entries: usize,
    pub idle: usize,
    pub snapshots: usize,
}

/// Plays a file: `PER_OPERATION` numbers per operation into `results`, `PER_ENTRY` per entry into `log`.
pub fn run(file: &[u8], results: &mut [u32], log: &mut [u32]) -> Result<Totals, Refusal> {
    let machine = played(file, results.len(), log.len(), None)?;
    Ok(hand_back(&machine, results, log))
}

/// The same with the table of snapshot records lent; afterwards it holds the announced ones.
pub fn run_lent(file: &[u8], results: &mut [u32], log: &mut [u32], table: &mut [Snapshot]) -> Result<Totals, Refusal> {
    let machine = played(file, results.len(), log.len(), Some(table.len()))?;
    for (room, record) in table.iter_mut().zip(machine.snapshots()) {
        *room = *record;
    }
    Ok(hand_back(&machine, results, log))
}

/// The machine after the file's whole schedule, if the file is accepted and the lent rooms are large enough.
fn played(file: &[u8], results: usize, log: usize, table: Option<usize>) -> Result<Machine, Refusal> {
    let contents = read(file)?;
    let sizes = contents.operation_bytes(file).iter().filter(|b| **b == 192).count();
    let small = results < PER_OPERATION * contents.operations || log < PER_ENTRY * contents.operations;
    if small || table.is_some_and(|records| records < sizes + 1) {
        return Err(Refusal { number: 11, place: 0 });
    }
    Ok(Machine::after(file, &contents))
}

fn hand_back(machine: &Machine, results: &mut [u32], log: &mut [u32]) -> Totals {
    for (room, operation) in results.as_chunks_mut().0.iter_mut().zip(machine.operations()) {
        *room = machine.outcome(operation).numbers();
    }
    let entries = log::entries(machine);
    for (room, entry) in log.as_chunks_mut().0.iter_mut().zip(&entries) {
        *room = entry.numbers();
    }
    Totals { entries: entries.len(), idle: machine.idle(), snapshots: machine.snapshots().len() - 1 }
}
