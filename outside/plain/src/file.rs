//! The run file: reading and writing.

/// Why a file or a list was refused, by the document's table.
#[derive(Debug, Clone, Copy, PartialEq, Eq)]
pub struct Refusal {
    pub number: u32,
    pub place: usize,
}

/// What an accepted file holds and where it lies.
#[derive(Debug, Clone, Copy, PartialEq, Eq)]
pub struct Contents {
    pub threads: u8,
    pub keys: u8,
    pub counts: [u16; 8],
    pub operations_at: usize,
    pub operations: usize,
    pub schedule_at: usize,
    pub steps: usize,
}

impl Contents {
    pub fn operation_bytes<'f>(&self, file: &'f [u8]) -> &'f [u8] {
        &file[self.operations_at..self.schedule_at]
    }

    pub fn schedule<'f>(&self, file: &'f [u8]) -> &'f [u8] {
        &file[self.schedule_at..]
    }

    /// The number of each thread's first operation, and behind the last thread the number of all operations.
    pub fn starts(&self) -> Vec<usize> {
        let mut starts = vec![0];
        for count in &self.counts[..self.threads as usize] {
            starts.push(starts[starts.len() - 1] + *count as usize);
        }
        starts
    }
}

/// The most operations of a run.
pub const OPERATIONS: usize = 64;
/// The most steps of a run.
pub const STEPS: usize = 4096;

fn refuse<A>(number: u32, place: usize) -> Result<A, Refusal> {
    Err(Refusal { number, place })
}

/// The number of the refusal that an operation byte meets, if it is not allowed.
fn fault(byte: u8, keys: u8) -> Option<u32> {
    match (byte >> 6, byte & 63) {
        (3, 0) => None,
        (3, _) => Some(14),
        (_, 16..) => Some(9),
        (_, key) if key >= keys => Some(13),
        _ => None,
    }
}

/// The first operation byte that is not allowed decides between 9, 13 and 14: its number and its position.
fn first_fault(operations: &[u8], keys: u8) -> Option<(u32, usize)> {
    operations.iter().enumerate().find_map(|(i, byte)| Some((fault(*byte, keys)?, i)))
}

/// The first refusal in the order of the table that applies, or the contents.
pub fn read(file: &[u8]) -> Result<Contents, Refusal> {
    let (threads, keys) = match file {
        [threads, keys, ..] => (*threads, *keys),
        _ => return refuse(1, 0),
    };
    if !(1..=8).contains(&threads) {
        return refuse(2, 0);
    }
    if !(1..=16).contains(&keys) {
        return refuse(3, 0);
    }
    let bodies = 2 + 4 * (threads as usize + 1);
    if file.len() < bodies {
        return refuse(4, 0);
    }
    let entries: Vec<(usize, usize)> = file[2..bodies]
        .chunks_exact(4)
        .map(|e| (u16::from_le_bytes([e[0], e[1]]) as usize, u16::from_le_bytes([e[2], e[3]]) as usize))
        .collect();
    let mut end = bodies;
    for (i, (offset, count)) in entries.iter().enumerate() {
        if *offset != end {
            return refuse(5, 2 + 4 * i);
        }
        end += count;
    }
    read_bodies(file, threads, keys, &entries)
}

/// The refusals that need a right table: 6 to 8, then 9, 13 or 14, then 10.
fn read_bodies(file: &[u8], threads: u8, keys: u8, entries: &[(usize, usize)]) -> Result<Contents, Refusal> {
    let ((schedule_at, steps), per_thread) = match entries.split_last() {
        Some((last, rest)) => (*last, rest),
        None => unreachable!("there is an entry for the schedule"),
    };
    let operations: usize = per_thread.iter().map(|e| e.1).sum();
    if operations > OPERATIONS {
        return refuse(6, 0);
    }
    if steps > STEPS {
        return refuse(7, 0);
    }
    if file.len() != schedule_at + steps {
        return refuse(8, 0);
    }
    let operations_at = schedule_at - operations;
    if let Some((number, i)) = first_fault(&file[operations_at..schedule_at], keys) {
        return refuse(number, operations_at + i);
    }
    if let Some(i) = file[schedule_at..].iter().position(|b| *b >= threads) {
        return refuse(10, schedule_at + i);
    }
    let mut counts = [0; 8];
    for (count, entry) in counts.iter_mut().zip(per_thread) {
        *count = entry.1 as u16;
    }
    Ok(Contents { threads, keys, counts, operations_at, operations, schedule_at, steps })
}

/// Writes the file with these contents to the front of `out` and tells its length.
pub fn write(threads: u8, keys: u8, counts: &[u16], operations: &[u8], schedule: &[u8], out: &mut [u8]) -> Result<usize, Refusal> {
    if !(1..=8).contains(&threads) {
        return refuse(2, 0);
    }
    if !(1..=16).contains(&keys) {
        return refuse(3, 0);
    }
    let sum: u64 = counts.iter().map(|c| *c as u64).sum();
    if counts.len() != threads as usize || sum != operations.len() as u64 {
        return refuse(12, 0);
    }
    if operations.len() > OPERATIONS {
        return refuse(6, 0);
    }
    if schedule.len() > STEPS {
        return refuse(7, 0);
    }
    if let Some((number, i)) = first_fault(operations, keys) {
        return refuse(number, i);
    }
    if let Some(i) = schedule.iter().position(|b| *b >= threads) {
        return refuse(10, i);
    }
    let file = laid_out(threads, keys, counts, operations, schedule);
    match out.get_mut(..file.len()) {
        Some(room) => room.copy_from_slice(&file),
        None => return refuse(11, 0),
    }
    Ok(file.len())
}

fn laid_out(threads: u8, keys: u8, counts: &[u16], operations: &[u8], schedule: &[u8]) -> Vec<u8> {
    let mut file = vec![threads, keys];
    let mut offset = 2 + 4 * (counts.len() + 1);
    for count in counts.iter().map(|c| *c as usize).chain([schedule.len()]) {
        file.extend((offset as u16).to_le_bytes());
        file.extend((count as u16).to_le_bytes());
        offset += count;
    }
    file.extend(operations);
    file.extend(schedule);
    file
}
