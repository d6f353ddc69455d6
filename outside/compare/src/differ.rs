//! One string, both implementations: everything that they hand back is the same, and no buffer is touched where it is not to be.

use crate::generate::{laid_out, Case};
use crate::random::Random;
use crate::side::{Lists, Playing, Reading, Side, PER_ENTRY, PER_OPERATION};
use plain::demand::{self, Handed};
use plain::{raisers, Snapshot};
use std::fmt::Debug;

/// What was met, for the count at the end.
#[derive(Debug, Clone, Copy, PartialEq, Eq)]
pub struct Met {
    pub read: u32,
    pub written: u32,
    pub played: u32,
    /// none where no table is lent
    pub lent: Option<u32>,
}

type Verdict<A> = Result<A, String>;

fn same<A: PartialEq + Debug>(what: &str, ours: A, plain: A) -> Verdict<()> {
    if ours == plain {
        return Ok(());
    }
    Err(format!("{what}: ours {ours:?}, plain {plain:?}"))
}

/// What stands at place i of a lent buffer before the call.
fn pattern(i: usize) -> u32 {
    (i as u32).wrapping_mul(0x9E37_79B9) ^ 0xA5A5_5A5A
}

fn patterned(n: usize) -> Vec<u32> {
    (0..n).map(pattern).collect()
}

/// Nothing from place `from` on was touched.
fn untouched(what: &str, buffer: &[u32], from: usize) -> Verdict<()> {
    match (from..buffer.len()).find(|i| buffer[*i] != pattern(*i)) {
        Some(i) => Err(format!("{what}: place {i} was touched, only {from} may be")),
        None => Ok(()),
    }
}

pub fn compare(ours: &dyn Side, plain: &dyn Side, case: &Case) -> Verdict<Met> {
    let mut random = case.random.clone();
    let read = ours.read(&case.file);
    same("read", read, plain.read(&case.file))?;
    let played = compare_run(ours, plain, &case.file, &read, &mut random)?;
    let lent = compare_lent(ours, plain, &case.file, &read, &mut random)?;
    let written = compare_write(ours, plain, &case.lists, &mut random)?;
    if read.number == 0 {
        round_trip(ours, &case.file, &read)?;
    }
    Ok(Met { read: read.number, written, played: played.number, lent: lent.map(|a| a.number) })
}

/// As much room as needed, more, or a little less.
fn room(random: &mut Random, needed: usize) -> usize {
    match random.below(8) {
        0 => needed.saturating_sub(1),
        1 => needed + 1 + random.below(40),
        2 => needed.saturating_sub(random.below(9)),
        _ => needed,
    }
}

/// Room for so many numbers per operation; or one number too few for each.
fn room_per_operation(random: &mut Random, operations: usize, numbers: usize) -> usize {
    if random.once_in(16) {
        return (numbers - 1) * operations;
    }
    room(random, numbers * operations)
}

/// Room for results and log.
fn rooms(random: &mut Random, operations: usize) -> (usize, usize) {
    (room_per_operation(random, operations, PER_OPERATION), room_per_operation(random, operations, PER_ENTRY))
}

fn compare_run(ours: &dyn Side, plain: &dyn Side, file: &[u8], read: &Reading, random: &mut Random) -> Verdict<Playing> {
    let (nr, nl) = rooms(random, read.operations);
    let (mut results, mut log) = (patterned(nr), patterned(nl));
    let answer = ours.run(file, &mut results, &mut log);
    let (mut plain_results, mut plain_log) = (patterned(nr), patterned(nl));
    same("run", answer, plain.run(file, &mut plain_results, &mut plain_log))?;
    same("results", &results, &plain_results)?;
    same("log", &log, &plain_log)?;
    check_buffers(file, read, &answer, &results, &log)?;
    Ok(answer)
}

/// The tails, and of what stands before them demand 3 and the raisers over the schedule.
fn check_buffers(file: &[u8], read: &Reading, answer: &Playing, results: &[u32], log: &[u32]) -> Verdict<()> {
    let ran = answer.number == 0;
    let (filled, logged) = if ran { (PER_OPERATION * read.operations, PER_ENTRY * answer.entries) } else { (0, 0) };
    untouched("results", results, filled)?;
    untouched("log", log, logged)?;
    if !ran {
        return Ok(());
    }
    let contents = plain::read(file).map_err(|r| format!("played what the plain reader refuses: {r:?}"))?;
    let (results, log) = (&results[..filled], &log[..logged]);
    raisers::check(file, &contents, results)?;
    demand::check(file, &contents, Handed { results, log, idle: answer.idle })
}

fn record(i: usize) -> Snapshot {
    let cell = |t: usize, k: usize| pattern(100 * i + 2 * t + k);
    Snapshot {
        cells: std::array::from_fn(|t| [cell(t, 0), cell(t, 1)]),
        collecting: i.is_multiple_of(2),
        size: pattern(100 * i + 50),
    }
}

fn compare_lent(ours: &dyn Side, plain: &dyn Side, file: &[u8], read: &Reading, random: &mut Random) -> Verdict<Option<Playing>> {
    let sizes = file[read.operations_at..read.schedule_at].iter().filter(|b| **b == 192).count();
    let records = room(random, sizes + 1);
    let enough = (PER_OPERATION * read.operations + random.below(2), PER_ENTRY * read.operations + random.below(2));
    let (nr, nl) = if random.once_in(4) { rooms(random, read.operations) } else { enough };
    let (mut results, mut log) = (patterned(nr), patterned(nl));
    let mut table: Vec<Snapshot> = (0..records).map(record).collect();
    let Some(answer) = ours.run_lent(file, &mut results, &mut log, &mut table) else {
        return Ok(None);
    };
    let (mut plain_results, mut plain_log) = (patterned(nr), patterned(nl));
    let mut plain_table: Vec<Snapshot> = (0..records).map(record).collect();
    let plain_answer = plain.run_lent(file, &mut plain_results, &mut plain_log, &mut plain_table);
    same("run with a lent table", Some(answer), plain_answer)?;
    same("results with a lent table", &results, &plain_results)?;
    same("log with a lent table", &log, &plain_log)?;
    same("lent table", &table, &plain_table)?;
    check_buffers(file, read, &answer, &results, &log)?;
    let announced = if answer.number == 0 { answer.snapshots + 1 } else { 0 };
    match (announced..records).find(|i| table[*i] != record(*i)) {
        Some(i) => Err(format!("lent table: record {i} was touched, {announced} are announced")),
        None => Ok(Some(answer)),
    }
}

fn compare_write(ours: &dyn Side, plain: &dyn Side, lists: &Lists, random: &mut Random) -> Verdict<u32> {
    let n = room(random, laid_out(lists).len());
    let before: Vec<u8> = (0..n).map(|i| pattern(i) as u8).collect();
    let (mut out, mut plain_out) = (before.clone(), before.clone());
    let answer = ours.write(lists, &mut out);
    same("write", answer, plain.write(lists, &mut plain_out))?;
    same("written bytes", &out, &plain_out)?;
    same("bytes beyond the file", &out[answer.length..], &before[answer.length..])?;
    if answer.number == 0 {
        let back = ours.read(&out[..answer.length]);
        let wanted = (0, lists.threads, lists.keys, lists.operations.len(), lists.schedule.len());
        same("what was written, read", (back.number, back.threads, back.keys, back.operations, back.steps), wanted)?;
    }
    Ok(answer.number)
}

/// What was read, written again, is the file.
fn round_trip(ours: &dyn Side, file: &[u8], read: &Reading) -> Verdict<()> {
    let lists = Lists {
        threads: read.threads,
        keys: read.keys,
        counts: read.counts[..read.threads as usize].to_vec(),
        operations: file[read.operations_at..read.schedule_at].to_vec(),
        schedule: file[read.schedule_at..].to_vec(),
    };
    let mut out = vec![0xEE; file.len()];
    let answer = ours.write(&lists, &mut out);
    same("written again", (answer.number, answer.place, answer.length), (0, 0, file.len()))?;
    same("bytes written again", &out[..], file)
}
