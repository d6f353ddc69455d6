//! The machine: memory, the threads, and one access a step. Beside the memory it keeps what results and log need to
//! know of the past.

use crate::file::Contents;
use crate::numbers::Outcome;

pub const INVALID: u32 = u32::MAX;
pub const INSERTION: usize = 0;
pub const DELETION: usize = 1;

#[derive(Debug, Clone, Copy, PartialEq, Eq)]
pub enum Kind {
    Insert,
    Delete,
    Contains,
    Size,
}

/// A snapshot record: per thread its insertion and its deletion cell.
#[derive(Debug, Clone, Copy, PartialEq, Eq)]
pub struct Snapshot {
    pub cells: [[u32; 2]; 8],
    pub collecting: bool,
    pub size: u32,
}

/// What is remembered of a snapshot: when it was announced and closed, and what its winner read for its sum.
#[derive(Debug, Clone, Copy)]
pub struct Story {
    pub announced: u32,
    pub closed: Option<u32>,
    pub winner_read: Option<[[u32; 2]; 8]>,
}

/// The update that brings the counter of `thread` and `kind` to `target`. No two have the same note.
#[derive(Debug, Clone, Copy, PartialEq, Eq)]
pub struct Note {
    pub thread: usize,
    pub kind: usize,
    pub target: u32,
}

/// The step that brought an update's counter to its target, and the thread that took it.
#[derive(Debug, Clone, Copy, PartialEq, Eq)]
pub struct Raising {
    pub step: u32,
    pub thread: usize,
}

/// An update whose slot exchange succeeded; the one with target c stands at c - 1 in the list of its counter.
#[derive(Debug, Clone, Copy)]
pub struct Update {
    pub operation: usize,
    pub raised: Option<Raising>,
    /// who may be mistaken for the raiser: the last thread whose exchange of the counter failed, and the last that forwarded
    pub failed: Option<usize>,
    pub forwarded: Option<usize>,
}

#[derive(Debug, Clone, Copy, PartialEq, Eq)]
enum Slot {
    Empty,
    Live { insertion: Note },
    Marked { insertion: Note, deletion: Note },
}

/// An operation and what became of it.
#[derive(Debug, Clone, Copy)]
pub struct Operation {
    pub thread: usize,
    pub kind: Kind,
    pub key: u8,
    pub answer: Option<u32>,
    pub first: u32,
    pub last: u32,
    pub own: u32,
    /// the last slot read: its step, and the update whose work was found there
    pub read: Option<(u32, Option<Note>)>,
    /// the update that this operation became
    pub update: Option<Note>,
    /// the snapshot that this size works on
    pub snapshot: Option<usize>,
}

/// What follows the update of the metadata.
#[derive(Debug, Clone, Copy)]
enum Then {
    Answer(u32),
    /// insert that found a marked node: take it out and read again
    Clear(Slot),
    /// delete that found a live node: try to mark it
    Mark(Note),
    /// delete that marked: take the node out and answer true
    Unlink(Slot),
}

/// What seldom happens. A run says which of these it met, so that whoever makes runs can tell whether they reach everything.
#[derive(Debug, Clone, Copy, PartialEq, Eq)]
pub enum Rare {
    LinkFails,
    MarkFails,
    ClearFails,
    UnlinkFails,
    RaiseFails,
    CounterPassed,
    ForwardFails,
    ForwardSatisfied,
    SizeJoins,
    AnnounceFails,
    CollectFails,
    FlagWrittenAgain,
    SizeShared,
    OtherSumShared,
}

impl Rare {
    pub const COUNT: usize = Rare::OtherSumShared as usize + 1;
}

/// The next access of a thread that has begun an operation.
#[derive(Debug, Clone, Copy)]
enum Point {
    ReadSlot,
    ReadInsertionCounter,
    Link { target: u32 },
    ReadDeletionCounter { insertion: Note },
    MarkNode { insertion: Note, target: u32 },
    Clear { node: Slot },
    Unlink { node: Slot },
    ReadCounter(Note, Then),
    Raise(Note, Then),
    ReadCurrent(Note, Then),
    ReadFlag(Note, Then, usize),
    ReadCounterAgain(Note, Then, usize),
    ReadCell(Note, Then, usize),
    Forward(Note, Then, usize, u32),
    SizeReadCurrent,
    SizeReadFlag(usize),
    Announce(usize),
    CollectCounter(usize, usize),
    CollectCell(usize, usize, u32),
    CollectExchange(usize, usize, u32),
    WriteFlag(usize),
    Sum(usize, usize),
    FixSize(usize),
}

#[derive(Debug, Clone, Copy)]
struct Thread {
    /// the operation at hand or next, and where this thread's operations end
    operation: usize,
    end: usize,
    point: Point,
    /// what a size has read for its sum
    summed: [[u32; 2]; 8],
}

#[derive(Debug, Clone)]
pub struct Machine {
    count: usize,
    counters: [[u32; 2]; 8],
    slots: [Slot; 16],
    snapshots: Vec<Snapshot>,
    threads: [Thread; 8],
    operations: Vec<Operation>,
    stories: Vec<Story>,
    updates: [[Vec<Update>; 2]; 8],
    clock: u32,
    idle: usize,
    met: [bool; Rare::COUNT],
}

const NOTHING_READ: [[u32; 2]; 8] = [[INVALID; 2]; 8];

impl Machine {
    /// The machine after the whole schedule of an accepted file.
    pub fn after(file: &[u8], contents: &Contents) -> Machine {
        let mut machine = Machine::start(file, contents);
        for thread in contents.schedule(file) {
            machine.step(*thread as usize);
        }
        machine
    }

    fn start(file: &[u8], contents: &Contents) -> Machine {
        let starts = contents.starts();
        let mut threads = [Thread { operation: 0, end: 0, point: Point::ReadSlot, summed: NOTHING_READ }; 8];
        let mut operations = Vec::with_capacity(contents.operations);
        for (t, span) in starts.windows(2).enumerate() {
            threads[t].operation = span[0];
            threads[t].end = span[1];
            for byte in &contents.operation_bytes(file)[span[0]..span[1]] {
                operations.push(Operation::of_byte(t, *byte));
            }
        }
        let mut machine = Machine {
            count: contents.threads as usize,
            counters: [[0; 2]; 8],
            slots: [Slot::Empty; 16],
            snapshots: vec![Snapshot { cells: NOTHING_READ, collecting: false, size: INVALID }],
            threads,
            operations,
            stories: vec![Story { announced: 0, closed: None, winner_read: None }],
            updates: Default::default(),
            clock: 0,
            idle: 0,
            met: [false; Rare::COUNT],
        };
        (0..machine.count).for_each(|t| machine.make_ready(t));
        machine
    }

    pub fn operations(&self) -> &[Operation] {
        &self.operations
    }

    pub fn snapshots(&self) -> &[Snapshot] {
        &self.snapshots
    }

    pub fn stories(&self) -> &[Story] {
        &self.stories
    }

    pub fn update(&self, note: Note) -> Update {
        self.updates[note.thread][note.kind][note.target as usize - 1]
    }

    fn update_mut(&mut self, note: Note) -> &mut Update {
        &mut self.updates[note.thread][note.kind][note.target as usize - 1]
    }

    /// None for anything but a raised update.
    pub fn raising(&self, operation: &Operation) -> Option<Raising> {
        self.update(operation.update?).raised
    }

    pub fn outcome(&self, o: &Operation) -> Outcome {
        let raiser = self.raising(o).map(|raising| raising.thread as u32);
        Outcome { answer: o.answer, first: o.first, last: o.last, own: o.own, raiser }
    }

    pub fn idle(&self) -> usize {
        self.idle
    }

    /// Whether each of `Rare` was met, in its order.
    pub fn met(&self) -> [bool; Rare::COUNT] {
        self.met
    }

    fn meet(&mut self, rare: Rare) {
        self.met[rare as usize] = true;
    }

    /// Puts thread t before the first access of its next operation, if it has one.
    fn make_ready(&mut self, t: usize) {
        let thread = &mut self.threads[t];
        if thread.operation < thread.end {
            thread.point = match self.operations[thread.operation].kind {
                Kind::Size => Point::SizeReadCurrent,
                _ => Point::ReadSlot,
            };
        }
    }

    /// One step of thread t.
    pub fn step(&mut self, t: usize) {
        self.clock += 1;
        let o = self.threads[t].operation;
        if o == self.threads[t].end {
            self.idle += 1;
            return;
        }
        let operation = &mut self.operations[o];
        if operation.own == 0 {
            operation.first = self.clock;
        }
        operation.own += 1;
        match self.access(t, o) {
            Next::At(point) => self.threads[t].point = point,
            Next::Answer(answer) => {
                self.operations[o].answer = Some(answer);
                self.operations[o].last = self.clock;
                self.threads[t].operation += 1;
                self.make_ready(t);
            }
        }
    }

    fn access(&mut self, t: usize, o: usize) -> Next {
        use Point::*;
        match self.threads[t].point {
            ReadSlot => self.read_slot(o),
            ReadInsertionCounter => Next::At(Link { target: self.counters[t][INSERTION] + 1 }),
            Link { target } => self.link(t, o, target),
            ReadDeletionCounter { insertion } => Next::At(MarkNode { insertion, target: self.counters[t][DELETION] + 1 }),
            MarkNode { insertion, target } => self.mark(t, o, insertion, target),
            Clear { node } => {
                if !self.exchange_slot(o, node, Slot::Empty) {
                    self.meet(Rare::ClearFails);
                }
                Next::At(ReadSlot)
            }
            Unlink { node } => {
                if !self.exchange_slot(o, node, Slot::Empty) {
                    self.meet(Rare::UnlinkFails);
                }
                Next::Answer(1)
            }
            SizeReadCurrent | SizeReadFlag(_) | Announce(_) => self.obtain(t, o),
            CollectCounter(..) | CollectCell(..) | CollectExchange(..) | WriteFlag(_) => self.collect(t),
            Sum(..) | FixSize(_) => self.compute(t),
            _ => self.update_metadata(t),
        }
    }

    // ---- The set.

    fn slot(&mut self, o: usize) -> &mut Slot {
        &mut self.slots[self.operations[o].key as usize]
    }

    /// Whether the slot held `old`; then it holds `new`.
    fn exchange_slot(&mut self, o: usize, old: Slot, new: Slot) -> bool {
        let slot = self.slot(o);
        let equal = *slot == old;
        if equal {
            *slot = new;
        }
        equal
    }

    fn read_slot(&mut self, o: usize) -> Next {
        let found = *self.slot(o);
        let note = match found {
            Slot::Empty => None,
            Slot::Live { insertion } => Some(insertion),
            Slot::Marked { deletion, .. } => Some(deletion),
        };
        self.operations[o].read = Some((self.clock, note));
        let update = |note, then| Next::At(Point::ReadCounter(note, then));
        match (self.operations[o].kind, found) {
            (Kind::Insert, Slot::Empty) => Next::At(Point::ReadInsertionCounter),
            (Kind::Insert, Slot::Live { insertion }) => update(insertion, Then::Answer(0)),
            (Kind::Insert, Slot::Marked { deletion, .. }) => update(deletion, Then::Clear(found)),
            (Kind::Delete, Slot::Live { insertion }) => update(insertion, Then::Mark(insertion)),
            (_, Slot::Empty) => Next::Answer(0),
            (_, Slot::Live { insertion }) => update(insertion, Then::Answer(1)),
            (_, Slot::Marked { deletion, .. }) => update(deletion, Then::Answer(0)),
        }
    }

    fn link(&mut self, t: usize, o: usize, target: u32) -> Next {
        let insertion = Note { thread: t, kind: INSERTION, target };
        if self.exchange_slot(o, Slot::Empty, Slot::Live { insertion }) {
            self.became_update(o, insertion);
            Next::At(Point::ReadCounter(insertion, Then::Answer(1)))
        } else {
            self.meet(Rare::LinkFails);
            Next::At(Point::ReadSlot)
        }
    }

    fn mark(&mut self, t: usize, o: usize, insertion: Note, target: u32) -> Next {
        let deletion = Note { thread: t, kind: DELETION, target };
        let marked = Slot::Marked { insertion, deletion };
        if self.exchange_slot(o, Slot::Live { insertion }, marked) {
            self.became_update(o, deletion);
            Next::At(Point::ReadCounter(deletion, Then::Unlink(marked)))
        } else {
            self.meet(Rare::MarkFails);
            Next::At(Point::ReadSlot)
        }
    }

    fn became_update(&mut self, o: usize, note: Note) {
        let list = &mut self.updates[note.thread][note.kind];
        list.push(Update { operation: o, raised: None, failed: None, forwarded: None });
        assert_eq!(list.len(), note.target as usize, "targets of a counter follow one another");
        self.operations[o].update = Some(note);
    }

    // ---- Updating the metadata.

    fn counter(&self, note: Note) -> u32 {
        self.counters[note.thread][note.kind]
    }

    fn update_metadata(&mut self, t: usize) -> Next {
        use Point::*;
        match self.threads[t].point {
            ReadCounter(note, then) if self.counter(note) == note.target - 1 => Next::At(Raise(note, then)),
            ReadCounter(note, then) => Next::At(ReadCurrent(note, then)),
            Raise(note, then) => {
                self.raise(t, note);
                Next::At(ReadCurrent(note, then))
            }
            ReadCurrent(note, then) => Next::At(ReadFlag(note, then, self.snapshots.len() - 1)),
            ReadFlag(note, then, s) if self.snapshots[s].collecting => Next::At(ReadCounterAgain(note, then, s)),
            ReadCounterAgain(note, then, s) if self.counter(note) == note.target => Next::At(ReadCell(note, then, s)),
            ReadFlag(_, then, _) => then.next(),
            ReadCounterAgain(_, then, _) => {
                self.meet(Rare::CounterPassed);
                then.next()
            }
            ReadCell(note, then, s) => forward(note, then, s, self.snapshots[s].cells[note.thread][note.kind]),
            Forward(note, then, s, known) => {
                let cell = &mut self.snapshots[s].cells[note.thread][note.kind];
                let witnessed = *cell;
                if witnessed == known {
                    *cell = note.target;
                    self.update_mut(note).forwarded = Some(t);
                    return then.next();
                }
                self.meet(if witnessed < note.target { Rare::ForwardFails } else { Rare::ForwardSatisfied });
                forward(note, then, s, witnessed)
            }
            other => unreachable!("{other:?} is no access of the metadata's update"),
        }
    }

    fn raise(&mut self, t: usize, note: Note) {
        let step = self.clock;
        let counter = &mut self.counters[note.thread][note.kind];
        if *counter == note.target - 1 {
            *counter = note.target;
            let before = self.update_mut(note).raised.replace(Raising { step, thread: t });
            assert_eq!(before, None, "an update is raised once");
        } else {
            self.update_mut(note).failed = Some(t);
            self.meet(Rare::RaiseFails);
        }
    }

    // ---- Size.

    fn obtain(&mut self, t: usize, o: usize) -> Next {
        let current = self.snapshots.len() - 1;
        let using = match self.threads[t].point {
            Point::SizeReadCurrent => return Next::At(Point::SizeReadFlag(current)),
            Point::SizeReadFlag(s) if self.snapshots[s].collecting => {
                self.meet(Rare::SizeJoins);
                s
            }
            Point::SizeReadFlag(s) => return Next::At(Point::Announce(s)),
            Point::Announce(s) if s == current => {
                self.snapshots.push(Snapshot { cells: NOTHING_READ, collecting: true, size: INVALID });
                self.stories.push(Story { announced: self.clock, closed: None, winner_read: None });
                s + 1
            }
            _ => {
                self.meet(Rare::AnnounceFails);
                current
            }
        };
        self.operations[o].snapshot = Some(using);
        Next::At(Point::CollectCounter(using, 0))
    }

    /// Cell j in the order of threads, insertion before deletion, is that of thread j / 2 and kind j % 2.
    fn collect(&mut self, t: usize) -> Next {
        let cells = 2 * self.count;
        let after = |s, j| Next::At(if j + 1 < cells { Point::CollectCounter(s, j + 1) } else { Point::WriteFlag(s) });
        match self.threads[t].point {
            Point::CollectCounter(s, j) => Next::At(Point::CollectCell(s, j, self.counters[j / 2][j % 2])),
            Point::CollectCell(s, j, value) if self.snapshots[s].cells[j / 2][j % 2] == INVALID => {
                Next::At(Point::CollectExchange(s, j, value))
            }
            Point::CollectCell(s, j, _) => after(s, j),
            Point::CollectExchange(s, j, value) => {
                let cell = &mut self.snapshots[s].cells[j / 2][j % 2];
                if *cell == INVALID {
                    *cell = value;
                } else {
                    self.meet(Rare::CollectFails);
                }
                after(s, j)
            }
            Point::WriteFlag(s) => {
                if !self.snapshots[s].collecting {
                    self.meet(Rare::FlagWrittenAgain);
                }
                self.snapshots[s].collecting = false;
                self.stories[s].closed.get_or_insert(self.clock);
                Next::At(Point::Sum(s, 0))
            }
            other => unreachable!("{other:?} is no access of collecting"),
        }
    }

    fn compute(&mut self, t: usize) -> Next {
        let count = self.count;
        let thread = &mut self.threads[t];
        match thread.point {
            Point::Sum(s, j) => {
                thread.summed[j / 2][j % 2] = self.snapshots[s].cells[j / 2][j % 2];
                Next::At(if j + 1 < 2 * count { Point::Sum(s, j + 1) } else { Point::FixSize(s) })
            }
            Point::FixSize(s) => {
                let summed = thread.summed;
                Next::Answer(self.fix(s, summed))
            }
            other => unreachable!("{other:?} is no access of computing"),
        }
    }

    /// The snapshot's size, which is this sum if it had none.
    fn fix(&mut self, s: usize, summed: [[u32; 2]; 8]) -> u32 {
        let sum: i64 = summed[..self.count].iter().map(|c| c[INSERTION] as i64 - c[DELETION] as i64).sum();
        let size = u32::try_from(sum).expect("a size is not below zero");
        let witnessed = self.snapshots[s].size;
        if witnessed == INVALID {
            self.snapshots[s].size = size;
            self.stories[s].winner_read = Some(summed);
            return size;
        }
        self.meet(if witnessed == size { Rare::SizeShared } else { Rare::OtherSumShared });
        witnessed
    }
}

/// Where a step leaves its thread: before another access, or with its operation answered.
enum Next {
    At(Point),
    Answer(u32),
}

impl Then {
    fn next(self) -> Next {
        match self {
            Then::Answer(answer) => Next::Answer(answer),
            Then::Clear(node) => Next::At(Point::Clear { node }),
            Then::Mark(insertion) => Next::At(Point::ReadDeletionCounter { insertion }),
            Then::Unlink(node) => Next::At(Point::Unlink { node }),
        }
    }
}

/// Forwarding goes on while the value known is INVALID or below the target.
fn forward(note: Note, then: Then, s: usize, known: u32) -> Next {
    if known == INVALID || known < note.target {
        Next::At(Point::Forward(note, then, s, known))
    } else {
        then.next()
    }
}

impl Operation {
    fn of_byte(thread: usize, byte: u8) -> Operation {
        let kind = [Kind::Insert, Kind::Delete, Kind::Contains, Kind::Size][byte as usize / 64];
        Operation {
            thread,
            kind,
            key: byte % 64,
            answer: None,
            first: 0,
            last: 0,
            own: 0,
            read: None,
            update: None,
            snapshot: None,
        }
    }
}
