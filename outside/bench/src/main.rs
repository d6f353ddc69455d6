//! `bench [--rounds N] [--dirty]`: the time of the largest runs and of refusals, ours and the plain implementation's, and the stack
//! that a run touches; and ours over a lent table beside ours without. Plays are measured one by one, refusals by 64. With --dirty the buffers keep what the call before left in them.

mod clock;
mod stack;

use compare::generate::{laid_out, run_of, MIXES};
use compare::random::Random;
use compare::side::{Ours, Plain, Side};
use plain::file::{OPERATIONS, STEPS};
use pszenorad::{Cells, Snapshot, PER_ENTRY, PER_OPERATION};
use std::hint::black_box;
use std::process::ExitCode;

struct Asked {
    rounds: usize,
    cleared: bool,
}

fn asked() -> Result<Asked, String> {
    let mut asked = Asked { rounds: 200, cleared: true };
    let mut words = std::env::args().skip(1);
    while let Some(word) = words.next() {
        match word.as_str() {
            "--dirty" => asked.cleared = false,
            "--rounds" => {
                let value = words.next().and_then(|w| w.parse().ok()).filter(|n| *n > 0);
                asked.rounds = value.ok_or("--rounds needs a number")?;
            }
            _ => return Err(format!("unknown word {word}")),
        }
    }
    Ok(asked)
}

/// The largest buffers that a run can need.
struct Buffers {
    results: [u32; OPERATIONS * PER_OPERATION],
    log: [u32; OPERATIONS * PER_ENTRY],
}

impl Buffers {
    fn new() -> Buffers {
        Buffers { results: [0; OPERATIONS * PER_OPERATION], log: [0; OPERATIONS * PER_ENTRY] }
    }
}

/// Nanoseconds of processor time for one call on the file, of so many measured together.
fn time(side: &dyn Side, file: &[u8], calls: usize, buffers: &mut Buffers, cleared: bool) -> f64 {
    if cleared {
        buffers.results.fill(0);
        buffers.log.fill(0);
    }
    let begun = clock::nanoseconds();
    for _ in 0..calls {
        black_box(side.run(black_box(file), &mut buffers.results, &mut buffers.log));
    }
    (clock::nanoseconds() - begun) as f64 / calls as f64
}

fn median(mut times: Vec<f64>) -> f64 {
    times.sort_by(f64::total_cmp);
    times[times.len() / 2]
}

/// The medians of measurements in turn over the files, ours and the plain implementation's.
fn medians(asked: &Asked, files: &[Vec<u8>], calls: usize) -> (f64, f64) {
    let mut buffers = Buffers::new();
    let (mut ours, mut plain) = (Vec::new(), Vec::new());
    for round in 0..asked.rounds + 10 {
        let file = &files[round % files.len()];
        let mut measured = |side| time(side, file, calls, &mut buffers, asked.cleared);
        let pair = (measured(&Ours as &dyn Side), measured(&Plain));
        // the first rounds warm caches
        if round >= 10 {
            ours.push(pair.0);
            plain.push(pair.1);
        }
    }
    (median(ours), median(plain))
}

fn print_row(name: &str, note: &str, (ours, plain): (f64, f64)) {
    println!("{name:<38}{:>12.2}{:>12.2}{:>8.2}  {note}", ours / 1000.0, plain / 1000.0, ours / plain);
}

/// Files of 8 threads with 8 operations each, and 4,096 steps.
fn largest(mix: [usize; 4], keys: usize) -> Vec<Vec<u8>> {
    let file = |i| {
        let mut lists = run_of(&mut Random::new(7, i), 8, keys, OPERATIONS, mix, STEPS);
        lists.counts = vec![8; 8];
        laid_out(&lists)
    };
    (0..8).map(file).collect()
}

/// How many of a file's steps are not idle.
fn busy(file: &[u8]) -> usize {
    let mut buffers = Buffers::new();
    let steps = plain::read(file).map_or(0, |c| c.steps);
    plain::run(file, &mut buffers.results, &mut buffers.log).map_or(0, |t| steps - t.idle)
}

const NAMES: [&str; 6] = ["even", "updates", "inserts and deletes alone", "updates and sizes", "contains", "sizes alone"];

fn largest_runs(asked: &Asked) {
    for (name, mix) in NAMES.iter().zip(MIXES) {
        for keys in [1, 16] {
            let files = largest(mix, keys);
            let steps: usize = files.iter().map(|f| busy(f)).sum::<usize>() / files.len();
            let note = format!("{steps} steps not idle");
            print_row(&format!("play: {name}, keys {keys}"), &note, medians(asked, &files, 1));
        }
    }
}

/// Nanoseconds for the run of a file over a lent table, and for the run that lends none.
fn lent_and_not(file: &[u8], buffers: &mut Buffers, table: &mut [Snapshot]) -> (f64, f64) {
    let begun = clock::nanoseconds();
    black_box(pszenorad::run_lent(black_box(file), &mut buffers.results, &mut buffers.log, table).is_ok());
    let between = clock::nanoseconds();
    black_box(pszenorad::run(black_box(file), &mut buffers.results, &mut buffers.log).is_ok());
    ((between - begun) as f64, (clock::nanoseconds() - between) as f64)
}

/// The run over a lent table beside the run without, by the step, idle steps among them.
fn lent_runs(asked: &Asked) {
    println!("{:<38}{:>12}{:>12}{:>8}", "nanoseconds a step, ours", "lent", "by value", "ratio");
    let none = Snapshot { cells: [Cells { insertions: 0, deletions: 0 }; 8], collecting: false, size: 0 };
    let (mut table, mut buffers) = ([none; OPERATIONS + 1], Buffers::new());
    for (name, mix) in NAMES.iter().zip(MIXES) {
        let files = largest(mix, 16);
        let pairs = (0..asked.rounds).map(|round| lent_and_not(&files[round % files.len()], &mut buffers, &mut table));
        let (lent, not): (Vec<f64>, Vec<f64>) = pairs.unzip();
        let (lent, not) = (median(lent) / STEPS as f64, median(not) / STEPS as f64);
        println!("{:<38}{lent:>12.2}{not:>12.2}{:>8.2}", format!("lent: {name}, keys 16"), lent / not);
    }
}

fn refusals(asked: &Asked) {
    let whole = || largest(MIXES[0], 16);
    let changed = |change: &dyn Fn(&mut Vec<u8>)| {
        let mut files = whole();
        files.iter_mut().for_each(change);
        files
    };
    let rows: [(&str, Vec<Vec<u8>>); 5] = [
        ("refuse: an offset", changed(&|f| f[34] ^= 1)),
        ("refuse: a cut file", changed(&|f| f.truncate(4000))),
        ("refuse: the last operation", changed(&|f| f[101] = 255)),
        ("refuse: the last step", changed(&|f| *f.last_mut().expect("a schedule") = 8)),
        ("refuse: random bytes", vec![(0..4198).map(|i| (i * 37 + 11) as u8).collect()]),
    ];
    for (name, files) in rows {
        let number = plain::read(&files[0]).err().map_or(0, |r| r.number);
        print_row(name, &format!("number {number}"), medians(asked, &files, 64));
    }
}

fn main() -> ExitCode {
    let asked = match asked() {
        Ok(asked) => asked,
        Err(why) => {
            eprintln!("{why}");
            return ExitCode::FAILURE;
        }
    };
    if cfg!(debug_assertions) {
        println!("NOT BUILT FOR RELEASE: these times say nothing");
    }
    println!("buffers cleared before each measurement, outside the time: {}", if asked.cleared { "yes" } else { "no" });
    println!("{:<38}{:>12}{:>12}{:>8}", format!("median of {} measurements", asked.rounds), "ours us", "plain us", "ratio");
    largest_runs(&asked);
    refusals(&asked);
    lent_runs(&asked);
    let file = &largest(MIXES[0], 16)[0];
    for (name, side) in [("ours", &Ours as &dyn Side), ("plain", &Plain)] {
        println!("stack that run touches, {name}: {} bytes", stack::touched(side, file));
    }
    ExitCode::SUCCESS
}
