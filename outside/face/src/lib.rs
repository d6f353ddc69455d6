//! Schedules of atomic accesses over a set with the concurrent size of Sela and Petrank, played by a proved library.
//!
//! The work is done by `libface.a` and `liblent.a`, whose functions are proved to yield what document 01 says for every input; this crate only turns
//! its numbers into Rust's types. The functions take no memory of their own: results and log go into buffers that the caller lends.
//!
//! ```
//! // one thread, one key: insert 0 twice, eleven steps
//! let file = [1, 1, 10, 0, 2, 0, 12, 0, 11, 0, 0, 0, 0, 0, 0, 0, 0, 0, 0, 0, 0, 0, 0];
//! let played = pszenorad::play(&file)?;
//! assert_eq!(played.outcomes[0].answer, Some(1));
//! assert_eq!(played.outcomes[0].raiser, Some(0));
//! assert_eq!(played.outcomes[1].answer, Some(0));
//! assert_eq!(played.outcomes[1].raiser, None);
//! assert_eq!(played.log[1].step, 8);
//! # Ok::<(), pszenorad::Refusal>(())
//! ```

mod boundary;
mod refusal;

pub use boundary::{Cells, Snapshot};
pub use refusal::{number, Refusal};

/// In results: not returned, or no raiser. In a snapshot: no value yet.
pub const INVALID: u32 = u32::MAX;

/// Numbers per operation in the results: answer, first step, last step, own steps, raiser.
pub const PER_OPERATION: usize = 5;

/// Numbers per entry of the log: operation, step.
pub const PER_ENTRY: usize = 2;

/// What an accepted file holds and where it lies.
#[derive(Debug, Clone, Copy, PartialEq, Eq)]
pub struct Contents {
    /// how many threads, 1 to 8
    pub threads: u8,
    /// how many keys, 1 to 16
    pub keys: u8,
    /// operations of each thread, 0 for absent ones
    pub counts: [u16; 8],
    pub operations_at: usize,
    pub operations: usize,
    pub schedule_at: usize,
    pub steps: usize,
}

/// What the writer is given.
#[derive(Debug, Clone, Copy, PartialEq, Eq)]
pub struct Lists<'a> {
    pub threads: u8,
    pub keys: u8,
    /// one count per thread
    pub counts: &'a [u16],
    /// the operation bytes of all threads, in file order
    pub operations: &'a [u8],
    pub schedule: &'a [u8],
}

/// What a run returns beside its buffers.
#[derive(Debug, Clone, Copy, PartialEq, Eq)]
pub struct Totals {
    /// entries of the log
    pub entries: usize,
    /// steps of threads that had no operation left
    pub idle: usize,
    /// snapshots announced, record 0 not counted
    pub snapshots: usize,
}

/// What became of one operation.
#[derive(Debug, Clone, Copy, PartialEq, Eq)]
pub struct Outcome {
    /// 0 false, 1 true, the count for a size; none if it has not returned
    pub answer: Option<u32>,
    /// 0 if it has not begun
    pub first: u32,
    /// 0 if it has not returned
    pub last: u32,
    pub own: u32,
    /// the thread that raised the counter of this update, perhaps another than its own; none for anything but a raised update
    pub raiser: Option<u8>,
}

impl Outcome {
    fn of([answer, first, last, own, raiser]: [u32; PER_OPERATION]) -> Outcome {
        // a raiser is a thread, below 8, or INVALID, which is no u8
        Outcome { answer: (answer != INVALID).then_some(answer), first, last, own, raiser: u8::try_from(raiser).ok() }
    }
}

/// An entry of the log.
#[derive(Debug, Clone, Copy, PartialEq, Eq)]
pub struct Entry {
    pub operation: u32,
    pub step: u32,
}

impl Entry {
    fn of([operation, step]: [u32; PER_ENTRY]) -> Entry {
        Entry { operation, step }
    }
}

/// A whole run: an outcome for each operation of the file, and the log in order.
#[derive(Debug, Clone, PartialEq, Eq)]
pub struct Played {
    pub outcomes: Vec<Outcome>,
    pub log: Vec<Entry>,
    pub totals: Totals,
}

/// Reads a run file.
pub fn read(file: &[u8]) -> Result<Contents, Refusal> {
    let a = boundary::read(file);
    Refusal::unless(a.number, a.place)?;
    Ok(Contents {
        threads: a.threads,
        keys: a.keys,
        counts: a.counts,
        operations_at: a.operations_at,
        operations: a.operations,
        schedule_at: a.schedule_at,
        steps: a.steps,
    })
}

/// Writes the file with these contents to the front of `out` and tells its length. Bytes beyond it, and after a refusal all bytes, stay.
pub fn write(lists: Lists, out: &mut [u8]) -> Result<usize, Refusal> {
    let a = boundary::write(lists, out);
    Refusal::unless(a.number, a.place)?;
    Ok(a.length)
}

/// Plays a file. `results` takes `PER_OPERATION` numbers per operation, `log` takes `PER_ENTRY` per entry. Each needs room for that many
/// times the file's operations; what is not written stays.
pub fn run(file: &[u8], results: &mut [u32], log: &mut [u32]) -> Result<Totals, Refusal> {
    totals(boundary::run(file, results, log))
}

/// The same with the table of snapshots lent, which needs one record more than the file has size operations. Afterwards it holds
/// the announced ones; the others stay.
pub fn run_lent(file: &[u8], results: &mut [u32], log: &mut [u32], table: &mut [Snapshot]) -> Result<Totals, Refusal> {
    totals(boundary::run_lent(file, results, log, table))
}

fn totals(a: boundary::RunAnswer) -> Result<Totals, Refusal> {
    Refusal::unless(a.number, a.place)?;
    Ok(Totals { entries: a.entries, idle: a.idle as usize, snapshots: a.snapshots as usize })
}

/// Plays a file into memory of its own.
pub fn play(file: &[u8]) -> Result<Played, Refusal> {
    let operations = read(file)?.operations;
    let (mut results, mut log) = (vec![0; PER_OPERATION * operations], vec![0; PER_ENTRY * operations]);
    let totals = run(file, &mut results, &mut log)?;
    let entries = log.as_chunks().0.iter().take(totals.entries);
    Ok(Played {
        outcomes: results.as_chunks().0.iter().map(|numbers| Outcome::of(*numbers)).collect(),
        log: entries.map(|numbers| Entry::of(*numbers)).collect(),
        totals,
    })
}
