//! Lends tables of snapshots of exact, larger and too small sizes, filled with a pattern, and prints what stands in them afterwards.
//! `lend_tables FILE SIZES ..`: a run file and how many size operations it has, in turn.

use pszenorad::{Cells, Snapshot, INVALID, PER_ENTRY, PER_OPERATION};
use std::process::ExitCode;

/// What record i of a table is before it is lent.
fn pattern(i: usize) -> Snapshot {
    let cells = Cells { insertions: 1000 + i as u32, deletions: 2000 + i as u32 };
    Snapshot { cells: [cells; 8], collecting: i % 2 == 1, size: 3000 + i as u32 }
}

fn number(n: u32) -> String {
    if n == INVALID {
        "-".to_string()
    } else {
        n.to_string()
    }
}

fn print_record(i: usize, record: &Snapshot) {
    if *record == pattern(i) {
        println!("  record {i} as lent");
        return;
    }
    let cells: Vec<String> = record.cells.iter().map(|c| format!("{}/{}", number(c.insertions), number(c.deletions))).collect();
    println!("  record {i} collecting {} size {} cells {}", record.collecting, number(record.size), cells.join(" "));
}

fn lend(file: &[u8], records: usize) {
    let operations = pszenorad::read(file).map_or(0, |contents| contents.operations);
    let (mut results, mut log) = (vec![7; PER_OPERATION * operations], vec![7; PER_ENTRY * operations]);
    let mut table: Vec<Snapshot> = (0..records).map(pattern).collect();
    match pszenorad::run_lent(file, &mut results, &mut log, &mut table) {
        Ok(t) => println!(" {records} records: entries {} idle {} snapshots {}", t.entries, t.idle, t.snapshots),
        Err(r) => println!(" {records} records: refused {} at {}", r.number(), r.place()),
    }
    table.iter().enumerate().for_each(|(i, record)| print_record(i, record));
}

fn main() -> ExitCode {
    let words: Vec<String> = std::env::args().skip(1).collect();
    for pair in words.chunks(2) {
        let (Ok(file), Some(Ok(sizes))) = (std::fs::read(&pair[0]), pair.get(1).map(|w| w.parse::<usize>())) else {
            eprintln!("not a run file and a number: {pair:?}");
            return ExitCode::FAILURE;
        };
        println!("{}", std::path::Path::new(&pair[0]).file_name().map_or("-".into(), |n| n.to_string_lossy()));
        for records in [sizes + 1, sizes + 3, sizes] {
            lend(&file, records);
        }
    }
    ExitCode::SUCCESS
}
