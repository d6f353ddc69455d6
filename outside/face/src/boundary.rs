//! The exported functions as C sees them. A slice is a pointer and a count. All that is unsafe stands here.

use crate::Lists;

#[repr(C)]
#[derive(Debug, Clone, Copy)]
pub(crate) struct ReadAnswer {
    pub number: u32,
    pub place: usize,
    pub threads: u8,
    pub keys: u8,
    pub counts: [u16; 8],
    pub operations_at: usize,
    pub operations: usize,
    pub schedule_at: usize,
    pub steps: usize,
}

#[repr(C)]
#[derive(Debug, Clone, Copy)]
pub(crate) struct WriteAnswer {
    pub number: u32,
    pub place: usize,
    pub length: usize,
}

#[repr(C)]
#[derive(Debug, Clone, Copy)]
pub(crate) struct RunAnswer {
    pub number: u32,
    pub place: usize,
    pub entries: usize,
    pub idle: u32,
    pub snapshots: u32,
}

/// The two cells of one thread in a snapshot.
#[repr(C)]
#[derive(Debug, Clone, Copy, PartialEq, Eq)]
pub struct Cells {
    pub insertions: u32,
    pub deletions: u32,
}

/// A record of the table of snapshots.
#[repr(C)]
#[derive(Debug, Clone, Copy, PartialEq, Eq)]
pub struct Snapshot {
    pub cells: [Cells; 8],
    pub collecting: bool,
    pub size: u32,
}

extern "C" {
    fn pszenorad_read(file: *const u8, length: usize) -> ReadAnswer;
    fn pszenorad_write(
        threads: u8,
        keys: u8,
        counts: *const u16,
        counts_length: usize,
        operations: *const u8,
        operations_length: usize,
        schedule: *const u8,
        schedule_length: usize,
        out: *mut u8,
        out_length: usize,
    ) -> WriteAnswer;
    fn pszenorad_run(
        file: *const u8,
        length: usize,
        results: *mut u32,
        results_length: usize,
        log: *mut u32,
        log_length: usize,
    ) -> RunAnswer;
    fn pszenorad_run_lent(
        file: *const u8,
        length: usize,
        results: *mut u32,
        results_length: usize,
        log: *mut u32,
        log_length: usize,
        table: *mut Snapshot,
        table_length: usize,
    ) -> RunAnswer;
}

// Each call lends whole slices for its own time only, and the library is proved to stay within them for every content and length.

pub(crate) fn read(file: &[u8]) -> ReadAnswer {
    unsafe { pszenorad_read(file.as_ptr(), file.len()) }
}

pub(crate) fn write(l: Lists, out: &mut [u8]) -> WriteAnswer {
    let (counts, operations, schedule) = (l.counts, l.operations, l.schedule);
    unsafe {
        pszenorad_write(
            l.threads,
            l.keys,
            counts.as_ptr(),
            counts.len(),
            operations.as_ptr(),
            operations.len(),
            schedule.as_ptr(),
            schedule.len(),
            out.as_mut_ptr(),
            out.len(),
        )
    }
}

pub(crate) fn run(file: &[u8], results: &mut [u32], log: &mut [u32]) -> RunAnswer {
    unsafe { pszenorad_run(file.as_ptr(), file.len(), results.as_mut_ptr(), results.len(), log.as_mut_ptr(), log.len()) }
}

pub(crate) fn run_lent(file: &[u8], results: &mut [u32], log: &mut [u32], table: &mut [Snapshot]) -> RunAnswer {
    unsafe {
        pszenorad_run_lent(
            file.as_ptr(),
            file.len(),
            results.as_mut_ptr(),
            results.len(),
            log.as_mut_ptr(),
            log.len(),
            table.as_mut_ptr(),
            table.len(),
        )
    }
}
