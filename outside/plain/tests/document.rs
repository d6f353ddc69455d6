//! The runs that document 01 works by hand, each with its raisers, and its boundaries.

use plain::numbers::{entries, outcomes};
use plain::{listing, read, run, write, Outcome, Refusal, Totals, INVALID, PER_ENTRY, PER_OPERATION};

/// A file from the threads' operation bytes and a schedule of (thread, repeats).
fn file(keys: u8, operations: &[&[u8]], schedule: &[(u8, usize)]) -> Vec<u8> {
    let counts: Vec<u16> = operations.iter().map(|o| o.len() as u16).collect();
    let steps: Vec<u8> = schedule.iter().flat_map(|(t, n)| vec![*t; *n]).collect();
    let mut out = vec![0; 5000];
    let length = write(operations.len() as u8, keys, &counts, &operations.concat(), &steps, &mut out).unwrap();
    out.truncate(length);
    out
}

struct Played {
    outcomes: Vec<Outcome>,
    /// as (operation, step)
    log: Vec<(usize, u32)>,
    totals: Totals,
}

impl Played {
    fn answers(&self) -> Vec<Option<u32>> {
        self.outcomes.iter().map(|o| o.answer).collect()
    }

    fn own(&self) -> Vec<u32> {
        self.outcomes.iter().map(|o| o.own).collect()
    }

    fn raisers(&self) -> Vec<Option<u32>> {
        self.outcomes.iter().map(|o| o.raiser).collect()
    }
}

fn play(file: &[u8]) -> Played {
    let n = read(file).unwrap().operations;
    let (mut results, mut log) = (vec![7; PER_OPERATION * n], vec![7; PER_ENTRY * n]);
    let totals = run(file, &mut results, &mut log).unwrap();
    let log = entries(&log).iter().take(totals.entries).map(|e| (e.operation, e.step)).collect();
    Played { outcomes: outcomes(&results), log, totals }
}

const INSERT: u8 = 0;
const DELETE: u8 = 64;
const CONTAINS: u8 = 128;
const SIZE: u8 = 192;

#[test]
fn case_a_whole() {
    let a = file(2, &[&[INSERT + 1], &[CONTAINS + 1, SIZE]], &[(0, 3), (1, 26)]);
    let head = [2, 2, 0x0E, 0, 1, 0, 0x0F, 0, 2, 0, 0x11, 0, 0x1D, 0, 1, 0x81, 0xC0];
    assert_eq!(a[..17], head);
    assert_eq!(
        listing(&a),
        "run threads 2 keys 2 operations 3 steps 29 idle 0 snapshots 1\n\
         op 0 thread 0 insert 1 answer unfinished first 1 last 0 own 3 raisedby 1\n\
         op 1 thread 1 contains 1 answer true first 4 last 8 own 5 raisedby -\n\
         op 2 thread 1 size - answer 1 first 9 last 29 own 21 raisedby -\n\
         log 0 at 6\nlog 1 at 6\nlog 2 at 24\n"
    );
}

#[test]
fn cases_b_c_d() {
    let asked: [&[u8]; 2] = [&[SIZE], &[INSERT]];
    let b = play(&file(1, &asked, &[(0, 15), (1, 5), (0, 6), (1, 2)]));
    assert_eq!((b.answers(), &b.log[..]), (vec![Some(0), Some(1)], &[(0, 21), (1, 21)][..]));
    let c = play(&file(1, &asked, &[(0, 15), (1, 5), (0, 5)]));
    assert_eq!((c.answers(), &c.log[..]), (vec![None, None], &[(1, 20)][..]));
    let d = play(&file(1, &asked, &[(0, 15), (1, 10), (0, 6)]));
    assert_eq!((d.answers()[0], &d.log[..]), (Some(1), &[(1, 20), (0, 26)][..]));
    for played in [b, c, d] {
        assert_eq!(played.raisers(), [None, Some(1)]);
    }
}

#[test]
fn cases_e_to_i() {
    let e = play(&file(1, &[&[INSERT], &[DELETE], &[SIZE]], &[(0, 3), (1, 12), (2, 29)]));
    assert_eq!((&e.answers()[1..], &e.log[..]), (&[Some(1), Some(0)][..], &[(0, 6), (1, 12), (2, 37)][..]));
    assert_eq!(e.raisers(), [Some(1), Some(1), None]);
    let f = play(&file(1, &[&[SIZE], &[SIZE]], &[(0, 3), (1, 20), (0, 14)]));
    assert_eq!((f.answers(), f.own(), &f.log[..]), (vec![Some(0), Some(0)], vec![17, 20], &[(0, 18), (1, 18)][..]));
    assert_eq!(f.raisers(), [None, None]);
    let g = play(&file(1, &[&[INSERT, INSERT]], &[(0, 11)]));
    assert_eq!((g.answers(), &g.log[..]), (vec![Some(1), Some(0)], &[(0, 5), (1, 8)][..]));
    assert_eq!(g.raisers(), [Some(0), None]);
    let h = [(0, 1), (1, 1), (0, 1), (1, 1), (0, 1), (1, 6), (0, 3)];
    let h = play(&file(1, &[&[INSERT], &[INSERT]], &h));
    assert_eq!((h.answers(), &h.log[..]), (vec![Some(1), Some(0)], &[(0, 9), (1, 9)][..]));
    assert_eq!(h.raisers(), [Some(1), None]);
    let i = play(&file(1, &[&[]], &[(0, 2)]));
    assert_eq!((i.log.len(), i.totals), (0, Totals { entries: 0, idle: 2, snapshots: 0 }));
}

/// Thread 0 puts its node; nobody has raised its counter yet, and then nobody is told.
#[test]
fn not_raised_yet() {
    let put = file(1, &[&[INSERT], &[CONTAINS]], &[(0, 4), (1, 2)]);
    assert_eq!(play(&put).raisers(), [None, None]);
}

/// Both threads are about to raise thread 0's counter. Who comes first is told, even if it takes no other step.
#[test]
fn the_first_raises() {
    let before = [(0, 4), (1, 2)];
    for (first, second) in [(0, 1), (1, 0)] {
        let raised = file(1, &[&[INSERT], &[CONTAINS]], &[&before[..], &[(first, 1)]].concat());
        assert_eq!(play(&raised).raisers(), [Some(first as u32), None]);
        let both = file(1, &[&[INSERT], &[CONTAINS]], &[&before[..], &[(first, 1), (second, 5)]].concat());
        assert_eq!(play(&both).raisers(), [Some(first as u32), None]);
    }
}

/// One thread, so many operation bytes and steps, with no test of the writer's in the way.
fn bare(keys: u8, operations: &[u8], steps: usize) -> Vec<u8> {
    let mut f = vec![1, keys, 10, 0];
    f.extend((operations.len() as u16).to_le_bytes());
    f.extend((10 + operations.len() as u16).to_le_bytes());
    f.extend((steps as u16).to_le_bytes());
    f.extend(operations);
    f.extend(vec![0; steps]);
    f
}

#[test]
fn boundaries() {
    let refusal = |f: &[u8]| read(f).err().map(|r| (r.number, r.place));
    assert_eq!(refusal(&[]), Some((1, 0)));
    assert_eq!(refusal(&bare(1, &[0; 64], 1)), None);
    assert_eq!(refusal(&bare(1, &[0; 65], 1)), Some((6, 0)));
    assert_eq!(refusal(&bare(1, &[], 4096)), None);
    assert_eq!(refusal(&bare(1, &[], 4097)), Some((7, 0)));
    assert_eq!(refusal(&bare(5, &[4, 4 + 64, 4 + 128], 0)), None);
    assert_eq!(refusal(&bare(5, &[4, 5], 0)), Some((13, 11)));
    assert_eq!(refusal(&bare(16, &[192], 0)), None);
    assert_eq!(refusal(&bare(16, &[191], 0)), Some((9, 10)));
    assert_eq!(refusal(&bare(16, &[193], 0)), Some((14, 10)));
}

/// Keys and kinds of every byte for every K, and which of several bad bytes decides.
#[test]
fn bad_operation_bytes() {
    let refusal = |f: &[u8]| read(f).err().map(|r| (r.number, r.place));
    for (keys, byte) in (1..=16).flat_map(|keys| (0..=255).map(move |byte| (keys, byte))) {
        let number = match byte {
            192 => None,
            193.. => Some(14),
            _ if byte % 64 < keys => None,
            _ if byte % 64 < 16 => Some(13),
            _ => Some(9),
        };
        assert_eq!(refusal(&bare(keys, &[byte], 0)), number.map(|n| (n, 10)), "{byte} of {keys} keys");
        let written = plain::write(1, keys, &[1], &[byte], &[], &mut [0; 11]);
        assert_eq!(written, number.map_or(Ok(11), |number| Err(Refusal { number, place: 0 })), "{byte} of {keys} keys");
    }
    let three = [(16, 9), (64 + 12, 13), (255, 14)];
    for (i, j) in (0..3).flat_map(|i| (0..3).map(move |j| (i, j))).filter(|(i, j)| i != j) {
        let bytes = [0, three[i].0, three[j].0, three[3 - i - j].0];
        assert_eq!(refusal(&bare(12, &bytes, 0)), Some((three[i].1, 11)), "{bytes:?}");
        let written = plain::write(1, 12, &[4], &bytes, &[1], &mut [0; 15]);
        assert_eq!(written, Err(Refusal { number: three[i].1, place: 1 }), "{bytes:?}");
    }
    // a bad operation byte before a bad schedule byte, whatever their numbers
    let mut both = bare(12, &[0, 193], 1);
    both[12] = 1;
    assert_eq!(refusal(&both), Some((14, 11)));
}

#[test]
fn small_rooms() {
    let f = bare(1, &[0, SIZE], 40);
    let eleven = Err(Refusal { number: 11, place: 0 });
    let (mut nine, mut log) = ([9; 2 * PER_OPERATION], [9; 2 * PER_ENTRY]);
    let record = plain::Snapshot { cells: [[5; 2]; 8], collecting: true, size: 5 };
    // one number too few, and one too few for each operation
    for room in [2 * PER_OPERATION - 1, 2 * (PER_OPERATION - 1)] {
        assert_eq!(run(&f, &mut nine[..room], &mut log), eleven);
        assert_eq!(plain::run_lent(&f, &mut nine[..room], &mut log, &mut [record; 2]), eleven);
    }
    assert_eq!(run(&f, &mut nine, &mut log[1..]), eleven);
    assert_eq!((nine, log), ([9; 2 * PER_OPERATION], [9; 2 * PER_ENTRY]));
    assert!(run(&f, &mut nine, &mut log).is_ok());
    assert_eq!(plain::run_lent(&f, &mut nine, &mut log, &mut [record]), eleven);
    let mut table = [record; 3];
    assert!(plain::run_lent(&f, &mut nine, &mut log, &mut table).is_ok());
    assert_eq!(table[0], plain::Snapshot { cells: [[INVALID; 2]; 8], collecting: false, size: INVALID });
    assert_eq!((table[1].cells[0], table[1].cells[1], table[1].size), ([1, 0], [INVALID; 2], 1));
    assert_eq!(table[2], record);
}
