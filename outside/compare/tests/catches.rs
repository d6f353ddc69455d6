//! The comparison sees each of these faults, put into an otherwise right implementation.

use compare::differ;
use compare::generate;
use compare::side::{Lists, Plain, Playing, Reading, Side, Writing, PER_ENTRY, PER_OPERATION};
use plain::demand::{self, Handed};
use plain::machine::{Machine, Operation};
use plain::{raisers, Outcome, Snapshot};

#[derive(Clone, Copy, Debug, PartialEq)]
enum Fault {
    None,
    ReadPlace,
    ReadLeftover,
    /// 9 told for each operation byte that is not allowed
    ReadOneNumber,
    /// 9 and 13 taken for one another
    ReadSwapped,
    /// the first key of 16 or more told, though another byte before it is not allowed
    ReadFirstOfKind,
    WriteOneNumber,
    WriteLength,
    WriteBeyond,
    WriteRefused,
    Answer,
    Own,
    LogSwapped,
    ResultsTail,
    LogTail,
    RefusedTouches,
    Idle,
    Snapshots,
    TableTail,
    TableCell,
    /// the raiser told as the update's own thread, whoever it was
    RaiserOwn,
    /// told as a thread whose exchange of the counter failed
    RaiserFailed,
    /// told as a thread that forwarded
    RaiserForwarded,
    /// told of an update that is not raised yet
    RaiserEarly,
    LentRaiserOwn,
    /// a buffer with room for one number less per operation is accepted
    RoomForOneLess,
    LentRoomForOneLess,
}

/// Changes what the results tell of their first operation.
fn change_first(results: &mut [u32], change: impl Fn(Outcome) -> Outcome) {
    if let Some(numbers) = results.first_chunk_mut() {
        *numbers = change(Outcome::of_numbers(*numbers)).numbers();
    }
}

/// Whom a fault tells as the raiser of an operation, if it tells something of its own.
fn mistaken(fault: Fault, machine: &Machine, operation: &Operation) -> Option<usize> {
    let update = machine.update(operation.update?);
    match fault {
        Fault::RaiserOwn | Fault::LentRaiserOwn => update.raised.map(|_| operation.thread),
        Fault::RaiserFailed => update.failed,
        Fault::RaiserForwarded => update.forwarded,
        Fault::RaiserEarly if update.raised.is_none() => Some(operation.thread),
        _ => None,
    }
}

/// The results of an accepted file, with the mistaken raisers put in.
fn mistake_raisers(fault: Fault, file: &[u8], results: &mut [u32]) {
    let contents = plain::read(file).expect("a file that was played");
    let machine = Machine::after(file, &contents);
    for (numbers, operation) in results.as_chunks_mut().0.iter_mut().zip(machine.operations()) {
        if let Some(thread) = mistaken(fault, &machine, operation) {
            *numbers = Outcome { raiser: Some(thread as u32), ..machine.outcome(operation) }.numbers();
        }
    }
}

/// Runs with room for all numbers where there is room for all but one per operation, and hands back what there is room for.
fn with_room(file: &[u8], results: &mut [u32], run: impl FnOnce(&mut [u32]) -> Playing) -> Playing {
    let operations = Plain.read(file).operations;
    if results.len() < (PER_OPERATION - 1) * operations {
        return run(results);
    }
    let mut enough = results.to_vec();
    enough.resize(results.len().max(PER_OPERATION * operations), 0);
    let answer = run(&mut enough);
    results.copy_from_slice(&enough[..results.len()]);
    answer
}

/// The first key of 16 or more behind an operation byte that is not allowed, if there is one.
fn tell_large_key(file: &[u8], r: &mut Reading) {
    let entry = 2 + 4 * file[0] as usize;
    let schedule_at = u16::from_le_bytes([file[entry], file[entry + 1]]) as usize;
    if let Some(i) = file[r.place..schedule_at].iter().position(|b| b / 64 < 3 && b % 64 > 15) {
        (r.number, r.place) = (9, r.place + i);
    }
}

struct Faulty(Fault);

impl Faulty {
    fn spoil(&self, file: &[u8], answer: &mut Playing, results: &mut [u32], log: &mut [u32]) {
        let ran = answer.number == 0;
        match self.0 {
            Fault::Answer if ran => change_first(results, |o| Outcome { answer: o.answer.map(|a| a ^ 1), ..o }),
            Fault::Own if ran => change_first(results, |o| Outcome { own: o.own + 1, ..o }),
            Fault::LogSwapped if ran && answer.entries > 1 && log[0] != log[PER_ENTRY] => log.swap(0, PER_ENTRY),
            Fault::ResultsTail if ran => drop(results.last_mut().map(|x| *x = x.wrapping_add(1))),
            Fault::LogTail if ran => drop(log.get_mut(PER_ENTRY * answer.entries).map(|x| *x = 0)),
            Fault::RefusedTouches if !ran => drop(results.first_mut().map(|x| *x = 0)),
            Fault::Idle if ran => answer.idle += 1,
            Fault::Snapshots if ran => answer.snapshots += 1,
            Fault::RaiserOwn | Fault::RaiserFailed | Fault::RaiserForwarded | Fault::RaiserEarly if ran => {
                mistake_raisers(self.0, file, results)
            }
            _ => (),
        }
    }
}

impl Side for Faulty {
    fn read(&self, file: &[u8]) -> Reading {
        let mut r = Plain.read(file);
        match self.0 {
            Fault::ReadPlace if r.number == 9 => r.place += 1,
            Fault::ReadOneNumber if r.number > 12 => r.number = 9,
            Fault::ReadSwapped if matches!(r.number, 9 | 13) => r.number = 9 + 13 - r.number,
            Fault::ReadFirstOfKind if r.number > 12 => tell_large_key(file, &mut r),
            Fault::ReadLeftover if r.number == 10 => r.threads = file[0],
            _ => (),
        }
        r
    }

    fn write(&self, lists: &Lists, out: &mut [u8]) -> Writing {
        let mut w = Plain.write(lists, out);
        match self.0 {
            Fault::WriteOneNumber if w.number > 12 => w.number = 9,
            Fault::WriteLength if w.number == 0 => w.length -= 1,
            Fault::WriteBeyond if w.number == 0 => drop(out.get_mut(w.length).map(|b| *b ^= 255)),
            Fault::WriteRefused if w.number == 12 => drop(out.first_mut().map(|b| *b ^= 255)),
            _ => (),
        }
        w
    }

    fn run(&self, file: &[u8], results: &mut [u32], log: &mut [u32]) -> Playing {
        if self.0 == Fault::RoomForOneLess {
            return with_room(file, results, |results| Plain.run(file, results, log));
        }
        let mut answer = Plain.run(file, results, log);
        self.spoil(file, &mut answer, results, log);
        answer
    }

    fn run_lent(&self, file: &[u8], results: &mut [u32], log: &mut [u32], table: &mut [Snapshot]) -> Option<Playing> {
        if self.0 == Fault::LentRoomForOneLess {
            return Some(with_room(file, results, |results| Plain.run_lent(file, results, log, table).expect("a table is lent")));
        }
        let answer = Plain.run_lent(file, results, log, table)?;
        match self.0 {
            Fault::LentRaiserOwn if answer.number == 0 => mistake_raisers(self.0, file, results),
            Fault::TableTail if answer.number == 0 => drop(table.get_mut(answer.snapshots + 1).map(|r| r.size = 0)),
            Fault::TableCell if answer.snapshots > 0 => table[1].cells[7][1] ^= 1,
            _ => (),
        }
        Some(answer)
    }
}

fn differs(fault: Fault) -> bool {
    (0..400).any(|n| differ::compare(&Faulty(fault), &Plain, &generate::case(5, n)).is_err())
}

#[test]
fn each_fault_is_seen() {
    use Fault::*;
    assert!(!differs(None));
    let faults = [
        ReadPlace,
        ReadLeftover,
        ReadOneNumber,
        ReadSwapped,
        ReadFirstOfKind,
        WriteOneNumber,
        WriteLength,
        WriteBeyond,
        WriteRefused,
        Answer,
        Own,
        LogSwapped,
        ResultsTail,
        LogTail,
        RefusedTouches,
        Idle,
        Snapshots,
        TableTail,
        TableCell,
        RaiserOwn,
        RaiserFailed,
        RaiserForwarded,
        RaiserEarly,
        LentRaiserOwn,
        RoomForOneLess,
        LentRoomForOneLess,
    ];
    for fault in faults {
        assert!(differs(fault), "{fault:?} was not seen");
    }
}

/// Whether each of the two checks that need no results but those at hand, the raisers over the schedule and demand 3, sees a fault.
fn seen_alone(fault: Fault) -> [bool; 2] {
    let mut seen = [false; 2];
    for file in (0..400).map(|n| generate::case(5, n).file) {
        let Ok(contents) = plain::read(&file) else { continue };
        let (mut results, mut log) = (vec![0; PER_OPERATION * contents.operations], vec![0; PER_ENTRY * contents.operations]);
        let answer = Faulty(fault).run(&file, &mut results, &mut log);
        let handed = Handed { results: &results, log: &log[..PER_ENTRY * answer.entries], idle: answer.idle };
        seen[0] |= raisers::check(&file, &contents, &results).is_err();
        seen[1] |= demand::check(&file, &contents, handed).is_err();
    }
    seen
}

#[test]
fn mistaken_raisers_are_seen_alone() {
    use Fault::*;
    assert_eq!(seen_alone(None), [false, false]);
    for fault in [RaiserOwn, RaiserFailed, RaiserForwarded, RaiserEarly] {
        assert_eq!(seen_alone(fault), [true, true], "{fault:?}");
    }
}

/// Demand 3 sees an answer that the plain set does not give, a step outside a span, an operation listed twice, and a raiser that is
/// missing, is told of an insert that failed, or took no such step.
#[test]
fn demand_is_not_empty() {
    let file = [1, 1, 10, 0, 2, 0, 12, 0, 11, 0, 0, 0, 0, 0, 0, 0, 0, 0, 0, 0, 0, 0, 0];
    let contents = plain::read(&file).unwrap();
    let (mut results, mut log) = ([0; 2 * PER_OPERATION], [0; 2 * PER_ENTRY]);
    plain::run(&file, &mut results, &mut log).unwrap();
    let check = |results: &[u32], log: &[u32]| demand::check(&file, &contents, Handed { results, log, idle: 0 });
    assert_eq!(check(&results, &log), Ok(()));
    let wrong = |operation: usize, change: fn(Outcome) -> Outcome| {
        let mut changed = results;
        change_first(&mut changed[PER_OPERATION * operation..], change);
        check(&changed, &log).is_err()
    };
    assert!(wrong(1, |o| Outcome { answer: Some(1), ..o }));
    assert!(wrong(0, |o| Outcome { first: 6, ..o }));
    assert!(wrong(0, |o| Outcome { own: 9, ..o }));
    assert!(wrong(0, |o| Outcome { raiser: None, ..o }));
    assert!(wrong(0, |o| Outcome { raiser: Some(1), ..o }));
    assert!(wrong(1, |o| Outcome { raiser: Some(0), ..o }));
    assert!(!wrong(0, |o| Outcome { raiser: Some(0), ..o }));
    let first = &log[..PER_ENTRY];
    assert!(check(&results, &[first, first].concat()).is_err());
    assert!(check(&results, first).is_err());
}
