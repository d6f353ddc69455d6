//! What both implementations answer, as numbers. A refusal has its number and place and 0 everywhere else; an acceptance has number 0.

use plain::{Refusal, Snapshot};

/// Numbers per operation and per entry: the same on both sides.
pub use plain::{PER_ENTRY, PER_OPERATION};
const _: () = assert!(PER_OPERATION == pszenorad::PER_OPERATION && PER_ENTRY == pszenorad::PER_ENTRY);

#[derive(Debug, Clone, Copy, PartialEq, Eq, Default)]
pub struct Reading {
    pub number: u32,
    pub place: usize,
    pub threads: u8,
    pub keys: u8,
    pub counts: [u16; 8],
    pub operations_at: usize,
    pub operations: usize,
    pub schedule_at: usize,
    pub steps: usize,
}

#[derive(Debug, Clone, Copy, PartialEq, Eq, Default)]
pub struct Writing {
    pub number: u32,
    pub place: usize,
    pub length: usize,
}

#[derive(Debug, Clone, Copy, PartialEq, Eq, Default)]
pub struct Playing {
    pub number: u32,
    pub place: usize,
    pub entries: usize,
    pub idle: usize,
    pub snapshots: usize,
}

/// The lists that the writer is given.
#[derive(Debug, Clone, PartialEq, Eq)]
pub struct Lists {
    pub threads: u8,
    pub keys: u8,
    pub counts: Vec<u16>,
    pub operations: Vec<u8>,
    pub schedule: Vec<u8>,
}

/// One of the two implementations.
pub trait Side: Sync {
    fn read(&self, file: &[u8]) -> Reading;
    fn write(&self, lists: &Lists, out: &mut [u8]) -> Writing;
    fn run(&self, file: &[u8], results: &mut [u32], log: &mut [u32]) -> Playing;
    /// None from an implementation that lends no table.
    fn run_lent(&self, file: &[u8], results: &mut [u32], log: &mut [u32], table: &mut [Snapshot]) -> Option<Playing>;
}

/// The proved library, through its safe face.
pub struct Ours;

/// The plain implementation.
pub struct Plain;

fn played(answer: Result<plain::Totals, Refusal>) -> Playing {
    match answer {
        Ok(t) => Playing { entries: t.entries, idle: t.idle, snapshots: t.snapshots, ..Playing::default() },
        Err(r) => Playing { number: r.number, place: r.place, ..Playing::default() },
    }
}

impl Side for Plain {
    fn read(&self, file: &[u8]) -> Reading {
        match plain::read(file) {
            Ok(c) => Reading {
                number: 0,
                place: 0,
                threads: c.threads,
                keys: c.keys,
                counts: c.counts,
                operations_at: c.operations_at,
                operations: c.operations,
                schedule_at: c.schedule_at,
                steps: c.steps,
            },
            Err(r) => Reading { number: r.number, place: r.place, ..Reading::default() },
        }
    }

    fn write(&self, l: &Lists, out: &mut [u8]) -> Writing {
        match plain::write(l.threads, l.keys, &l.counts, &l.operations, &l.schedule, out) {
            Ok(length) => Writing { length, ..Writing::default() },
            Err(r) => Writing { number: r.number, place: r.place, length: 0 },
        }
    }

    fn run(&self, file: &[u8], results: &mut [u32], log: &mut [u32]) -> Playing {
        played(plain::run(file, results, log))
    }

    fn run_lent(&self, file: &[u8], results: &mut [u32], log: &mut [u32], table: &mut [Snapshot]) -> Option<Playing> {
        Some(played(plain::run_lent(file, results, log, table)))
    }
}

fn ours_played(answer: Result<pszenorad::Totals, pszenorad::Refusal>) -> Playing {
    match answer {
        Ok(t) => Playing { entries: t.entries, idle: t.idle, snapshots: t.snapshots, ..Playing::default() },
        Err(r) => Playing { number: r.number(), place: r.place(), ..Playing::default() },
    }
}

fn lent(record: &Snapshot) -> pszenorad::Snapshot {
    let cells = record.cells.map(|[insertions, deletions]| pszenorad::Cells { insertions, deletions });
    pszenorad::Snapshot { cells, collecting: record.collecting, size: record.size }
}

fn handed_back(record: &pszenorad::Snapshot) -> Snapshot {
    let cells = record.cells.map(|c| [c.insertions, c.deletions]);
    Snapshot { cells, collecting: record.collecting, size: record.size }
}

impl Side for Ours {
    fn read(&self, file: &[u8]) -> Reading {
        match pszenorad::read(file) {
            Ok(c) => Reading {
                number: 0,
                place: 0,
                threads: c.threads,
                keys: c.keys,
                counts: c.counts,
                operations_at: c.operations_at,
                operations: c.operations,
                schedule_at: c.schedule_at,
                steps: c.steps,
            },
            Err(r) => Reading { number: r.number(), place: r.place(), ..Reading::default() },
        }
    }

    fn write(&self, l: &Lists, out: &mut [u8]) -> Writing {
        let (counts, operations, schedule) = (&l.counts[..], &l.operations[..], &l.schedule[..]);
        let lists = pszenorad::Lists { threads: l.threads, keys: l.keys, counts, operations, schedule };
        match pszenorad::write(lists, out) {
            Ok(length) => Writing { length, ..Writing::default() },
            Err(r) => Writing { number: r.number(), place: r.place(), length: 0 },
        }
    }

    fn run(&self, file: &[u8], results: &mut [u32], log: &mut [u32]) -> Playing {
        ours_played(pszenorad::run(file, results, log))
    }

    fn run_lent(&self, file: &[u8], results: &mut [u32], log: &mut [u32], table: &mut [Snapshot]) -> Option<Playing> {
        let mut room: Vec<pszenorad::Snapshot> = table.iter().map(lent).collect();
        let answer = ours_played(pszenorad::run_lent(file, results, log, &mut room));
        table.iter_mut().zip(&room).for_each(|(record, back)| *record = handed_back(back));
        Some(answer)
    }
}
