//! Who raised the counter, through the crate.

use pszenorad::{play, run, run_lent, Cells, Refusal, Snapshot, PER_ENTRY, PER_OPERATION};

/// Document 01's case A: thread 0 puts its node and stops; thread 1's contains finds it, raises its counter and returns.
fn case_a() -> Vec<u8> {
    let head = [2, 2, 14, 0, 1, 0, 15, 0, 2, 0, 17, 0, 29, 0];
    [&head[..], &[1, 129, 192], &[0; 3], &[1; 26]].concat()
}

const OPERATIONS: usize = 3;

#[test]
fn another_thread_raised() {
    let played = play(&case_a()).expect("an accepted file");
    let raisers: Vec<Option<u8>> = played.outcomes.iter().map(|outcome| outcome.raiser).collect();
    assert_eq!(raisers, [Some(1), None, None]);
}

/// One number too few, and one too few for each operation: refused, and nothing is written.
#[test]
fn small_rooms() {
    let none = Snapshot { cells: [Cells { insertions: 0, deletions: 0 }; 8], collecting: false, size: 0 };
    let (mut results, mut log) = ([9; OPERATIONS * PER_OPERATION], [9; OPERATIONS * PER_ENTRY]);
    for room in [OPERATIONS * PER_OPERATION - 1, OPERATIONS * (PER_OPERATION - 1)] {
        assert_eq!(run(&case_a(), &mut results[..room], &mut log), Err(Refusal::TooSmall));
        assert_eq!(run_lent(&case_a(), &mut results[..room], &mut log, &mut [none; 2]), Err(Refusal::TooSmall));
    }
    assert_eq!((results, log), ([9; OPERATIONS * PER_OPERATION], [9; OPERATIONS * PER_ENTRY]));
    assert!(run(&case_a(), &mut results, &mut log).is_ok());
}
