//! What `showrun` prints.

use crate::file::{read, Contents, Refusal};
use crate::numbers::{entries, outcomes, PER_ENTRY, PER_OPERATION};
use crate::{run, Totals};
use std::fmt::Write;

/// The text for a file, whole.
pub fn listing(file: &[u8]) -> String {
    match parts(file) {
        Ok((contents, results, log, totals)) => text(file, &contents, &results, &log, totals),
        Err(refusal) => refused(refusal),
    }
}

pub fn refused(refusal: Refusal) -> String {
    format!("refused {} at {}\n", refusal.number, refusal.place)
}

type Parts = (Contents, Vec<u32>, Vec<u32>, Totals);

fn parts(file: &[u8]) -> Result<Parts, Refusal> {
    let contents = read(file)?;
    let mut results = vec![0; PER_OPERATION * contents.operations];
    let mut log = vec![0; PER_ENTRY * contents.operations];
    let totals = run(file, &mut results, &mut log)?;
    Ok((contents, results, log, totals))
}

/// The text for an accepted file and what its run handed back.
pub fn text(file: &[u8], c: &Contents, results: &[u32], log: &[u32], totals: Totals) -> String {
    let mut out = String::new();
    let (idle, snapshots) = (totals.idle, totals.snapshots);
    let head = (c.threads, c.keys, c.operations, c.steps);
    let _ = writeln!(
        out,
        "run threads {} keys {} operations {} steps {} idle {idle} snapshots {snapshots}",
        head.0, head.1, head.2, head.3
    );
    let starts = c.starts();
    for (i, (byte, o)) in c.operation_bytes(file).iter().zip(outcomes(results)).enumerate() {
        let thread = starts[1..].iter().take_while(|end| **end <= i).count();
        let (asked, answer) = (asked(*byte), answer(*byte, o.answer));
        let raiser = o.raiser.map_or("-".to_string(), |thread| thread.to_string());
        let _ = write!(out, "op {i} thread {thread} {asked} answer {answer}");
        let _ = writeln!(out, " first {} last {} own {} raisedby {raiser}", o.first, o.last, o.own);
    }
    for entry in entries(log).iter().take(totals.entries) {
        let _ = writeln!(out, "log {} at {}", entry.operation, entry.step);
    }
    out
}

fn asked(byte: u8) -> String {
    match byte / 64 {
        0 => format!("insert {}", byte % 64),
        1 => format!("delete {}", byte % 64),
        2 => format!("contains {}", byte % 64),
        _ => "size -".to_string(),
    }
}

fn answer(byte: u8, answer: Option<u32>) -> String {
    match (byte / 64, answer) {
        (_, None) => "unfinished".to_string(),
        (3, Some(size)) => size.to_string(),
        (_, Some(0)) => "false".to_string(),
        _ => "true".to_string(),
    }
}
