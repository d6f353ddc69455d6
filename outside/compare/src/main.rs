//! `compare [--count N] [--seed S] [--showrun PROGRAM] [--every M]`: N strings, and the text of every M-th.

use compare::differ::{self, Met};
use compare::generate::{self, Sort};
use compare::side::{Ours, Plain, Side};
use compare::text;
use std::path::PathBuf;
use std::process::ExitCode;
use std::sync::atomic::{AtomicBool, AtomicU64, Ordering};
use std::sync::Mutex;
use std::time::Instant;

struct Asked {
    count: u64,
    seed: u64,
    showrun: Option<PathBuf>,
    every: u64,
}

fn asked() -> Result<Asked, String> {
    let mut asked = Asked { count: 20_000, seed: 1, showrun: None, every: 16 };
    let mut words = std::env::args().skip(1);
    while let Some(word) = words.next() {
        let value = words.next().ok_or(format!("{word} needs a value"))?;
        let number = || value.parse::<u64>().map_err(|_| format!("{value} is no number"));
        match word.as_str() {
            "--count" => asked.count = number()?,
            "--seed" => asked.seed = number()?,
            "--every" => asked.every = number()?.max(1),
            "--showrun" => asked.showrun = Some(PathBuf::from(&value)),
            _ => return Err(format!("unknown word {word}")),
        }
    }
    Ok(asked)
}

/// The numbers that may be given: 0, and the refusals 1 to 14.
const NUMBERS: usize = 15;

/// How often each number was given, by reading, writing, running, and running with a lent table.
#[derive(Default)]
struct Tally {
    sorts: [u64; 4],
    numbers: [[u64; NUMBERS]; 4],
    texts: u64,
}

impl Tally {
    fn add(&mut self, sort: Sort, met: Met) {
        self.sorts[sort as usize] += 1;
        for (row, number) in self.numbers.iter_mut().zip([Some(met.read), Some(met.written), Some(met.played), met.lent]) {
            if let Some(number) = number {
                row[number as usize] += 1;
            }
        }
    }

    fn merge(&mut self, other: &Tally) {
        (0..4).for_each(|i| self.sorts[i] += other.sorts[i]);
        (0..4).for_each(|i| (0..NUMBERS).for_each(|j| self.numbers[i][j] += other.numbers[i][j]));
        self.texts += other.texts;
    }

    fn print(&self) {
        println!("random {} damaged {} valid {} limit {}", self.sorts[0], self.sorts[1], self.sorts[2], self.sorts[3]);
        println!("number          {}", (0..NUMBERS).map(|n| format!("{n:>9}")).collect::<String>());
        for (name, row) in ["read", "write", "run", "lent"].iter().zip(&self.numbers) {
            println!("{name:<16}{}", row.iter().map(|n| format!("{n:>9}")).collect::<String>());
        }
        println!("texts of showrun {}", self.texts);
    }

    /// Every number that can be given was given: else the strings are not what they are made for.
    fn reaches_all(&self) -> bool {
        let given = |row: usize, numbers: &[usize]| numbers.iter().all(|n| self.numbers[row][*n] > 0);
        let files = [0, 1, 2, 3, 4, 5, 6, 7, 8, 9, 13, 14, 10];
        given(0, &files)
            && given(1, &[0, 2, 3, 12, 6, 7, 9, 13, 14, 10, 11])
            && (2..4).all(|row| given(row, &files) && given(row, &[11]))
    }
}

/// Takes numbers until none is left or a difference was found.
fn work(asked: &Asked, ours: &dyn Side, next: &AtomicU64, stop: &AtomicBool) -> Result<Tally, String> {
    let mut tally = Tally::default();
    while !stop.load(Ordering::Relaxed) {
        let number = next.fetch_add(1, Ordering::Relaxed);
        if number >= asked.count {
            break;
        }
        let case = generate::case(asked.seed, number);
        let text = match &asked.showrun {
            Some(program) if (number / 8).is_multiple_of(asked.every) => {
                tally.texts += 1;
                text::compare(program, &case.file)
            }
            _ => Ok(()),
        };
        match text.and_then(|()| differ::compare(ours, &Plain, &case)) {
            Ok(met) => tally.add(case.sort, met),
            Err(why) => {
                stop.store(true, Ordering::Relaxed);
                return Err(format!("seed {} string {number} {:?}: {why}\n{:02x?}", asked.seed, case.sort, case.file));
            }
        }
    }
    Ok(tally)
}

fn whole(asked: &Asked, ours: &dyn Side) -> Result<Tally, String> {
    let (next, stop) = (AtomicU64::new(0), AtomicBool::new(false));
    let total = Mutex::new(Ok(Tally::default()));
    let workers = std::thread::available_parallelism().map_or(1, |n| n.get());
    std::thread::scope(|scope| {
        for _ in 0..workers {
            scope.spawn(|| {
                let part = work(asked, ours, &next, &stop);
                let mut total = total.lock().expect("no worker panics while it holds the total");
                match (total.as_mut(), part) {
                    (Ok(sum), Ok(part)) => sum.merge(&part),
                    (Ok(_), Err(why)) => *total = Err(why),
                    (Err(_), _) => (),
                }
            });
        }
    });
    total.into_inner().expect("no worker panics while it holds the total")
}

fn main() -> ExitCode {
    let begun = Instant::now();
    let tally = asked().and_then(|asked| Ok((whole(&asked, &Ours)?, asked)));
    match tally {
        Ok((tally, asked)) => {
            tally.print();
            let all = asked.count < 20_000 || tally.reaches_all();
            println!("{} strings, seed {}, no difference, {:.1} s", asked.count, asked.seed, begun.elapsed().as_secs_f64());
            if !all {
                println!("but some number was never given");
            }
            ExitCode::from(!all as u8)
        }
        Err(why) => {
            println!("{why}");
            ExitCode::FAILURE
        }
    }
}
