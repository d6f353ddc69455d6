//! Byte strings and writer's lists: random, damaged, valid, at the limits. Each is made from a seed and its number alone.

use crate::random::Random;
use crate::side::Lists;

#[derive(Debug, Clone, Copy, PartialEq, Eq)]
pub enum Sort {
    Random,
    Damaged,
    Valid,
    Limit,
}

#[derive(Debug, Clone)]
pub struct Case {
    pub number: u64,
    pub sort: Sort,
    pub file: Vec<u8>,
    pub lists: Lists,
    /// decides how much room is lent
    pub random: Random,
}

pub fn case(seed: u64, number: u64) -> Case {
    let mut random = Random::new(seed, number);
    let r = &mut random;
    let (sort, file) = match number % 8 {
        0 => (Sort::Random, random_bytes(r)),
        1..=3 => (Sort::Damaged, damaged(r)),
        4..=6 => (Sort::Valid, laid_out(&valid(r))),
        _ => (Sort::Limit, limit(r)),
    };
    let lists = writer_lists(r);
    Case { number, sort, file, lists, random }
}

/// Bytes with no design, or with none behind the first two.
fn random_bytes(r: &mut Random) -> Vec<u8> {
    let most = r.pick(&[1, 3, 12, 60, 300, 5000]);
    let length = r.below(most + 1);
    let mut file: Vec<u8> = (0..length).map(|_| r.byte()).collect();
    if r.below(4) != 0 {
        for (byte, most) in file.iter_mut().zip([9, 17]) {
            *byte = r.below(most + 1) as u8;
        }
    }
    file
}

/// The file with these lists; numbers that do not fit two bytes are cut off, as a careless writer would.
pub fn laid_out(l: &Lists) -> Vec<u8> {
    let mut file = vec![l.threads, l.keys];
    let mut offset = 2 + 4 * (l.counts.len() + 1);
    for count in l.counts.iter().map(|c| *c as usize).chain([l.schedule.len()]) {
        file.extend((offset as u16).to_le_bytes());
        file.extend((count as u16).to_le_bytes());
        offset += count;
    }
    file.extend(&l.operations);
    file.extend(&l.schedule);
    file
}

// ---- Valid runs.

/// How often each kind is asked for: insert, delete, contains, size.
pub const MIXES: [[usize; 4]; 6] = [[1, 1, 1, 1], [4, 4, 1, 1], [3, 1, 0, 0], [2, 2, 0, 4], [1, 1, 6, 1], [0, 0, 0, 1]];

pub fn valid(r: &mut Random) -> Lists {
    let threads = 1 + r.below(8);
    let keys = match r.below(4) {
        0 => 1,
        1 => 2,
        _ => 1 + r.below(16),
    };
    let most = r.pick(&[1, 4, 10, 24, 64]);
    let operations = r.below(most + 1);
    let mix = r.pick(&MIXES);
    let needed = operations * (4 + if mix[3] > 0 { 3 * threads } else { 6 });
    let steps = match r.below(16) {
        0 => 4096,
        1 => r.below(4097),
        2..=5 => r.below(40),
        6..=9 => r.below(needed + 1),
        _ => needed + r.below(needed + 9),
    };
    run_of(r, threads, keys, operations, mix, steps.min(4096))
}

/// A valid run of exactly this size.
pub fn run_of(r: &mut Random, threads: usize, keys: usize, operations: usize, mix: [usize; 4], steps: usize) -> Lists {
    let mut counts = vec![0; threads];
    (0..operations).for_each(|_| counts[r.below(threads)] += 1);
    let operations = (0..operations).map(|_| operation(r, keys, mix)).collect();
    Lists { threads: threads as u8, keys: keys as u8, counts, operations, schedule: schedule(r, threads, steps) }
}

fn operation(r: &mut Random, keys: usize, mix: [usize; 4]) -> u8 {
    let mut ticket = r.below(mix.iter().sum());
    let mut kind = 0;
    while ticket >= mix[kind] {
        ticket -= mix[kind];
        kind += 1;
    }
    if kind == 3 {
        192
    } else {
        (64 * kind + r.below(keys)) as u8
    }
}

/// Even, in bursts of some length, in turn, or with one thread that is seldom let on.
fn schedule(r: &mut Random, threads: usize, steps: usize) -> Vec<u8> {
    let style = r.below(4);
    let burst = r.pick(&[2, 5, 12, 40]);
    let slow = r.below(threads);
    let mut schedule = Vec::with_capacity(steps);
    let mut thread = 0;
    for i in 0..steps {
        thread = match style {
            0 => r.below(threads),
            1 if r.once_in(burst) => r.below(threads),
            1 => thread,
            2 => i % threads,
            _ => r.below(threads),
        };
        if style == 3 && thread == slow && !r.once_in(burst) {
            thread = (thread + 1) % threads;
        }
        schedule.push(thread as u8);
    }
    schedule
}

// ---- Damage.

fn damaged(r: &mut Random) -> Vec<u8> {
    let mut lists = valid(r);
    if r.once_in(2) {
        damage_lists(r, &mut lists);
    }
    let mut file = laid_out(&lists);
    for _ in 0..r.below(3) {
        damage_bytes(r, &mut file);
    }
    file
}

fn damage_bytes(r: &mut Random, file: &mut Vec<u8>) {
    let length = file.len().max(1);
    let table = 2 + 4 * (file.first().map_or(1, |t| (*t as usize).min(8)) + 1);
    let in_table = |r: &mut Random| r.below(table.min(length));
    match r.below(8) {
        0 => edit(file, r.below(length), r.byte()),
        1 => nudge(r, file, length),
        2 => file.truncate(r.below(length)),
        3 => file.truncate(length - r.below(3).min(length)),
        4 => (0..=r.below(3)).for_each(|_| file.push(r.byte() % 9)),
        5 => edit(file, in_table(r), r.byte()),
        6 => {
            let at = in_table(r);
            let byte = file.get(at).copied().unwrap_or(0);
            edit(file, at, if r.once_in(2) { byte.wrapping_add(1) } else { byte.wrapping_sub(1) });
        }
        _ => edit(file, r.below(2), r.pick(&[0, 1, 8, 9, 16, 17, 255])),
    }
}

fn edit(file: &mut [u8], at: usize, byte: u8) {
    if let Some(place) = file.get_mut(at) {
        *place = byte;
    }
}

fn nudge(r: &mut Random, file: &mut [u8], length: usize) {
    let at = r.below(length);
    if let Some(place) = file.get_mut(at) {
        *place ^= 1 << r.below(8);
    }
}

/// Wrong lists, which a file then holds under a right table, or which the writer is given.
fn damage_lists(r: &mut Random, l: &mut Lists) {
    match r.below(10) {
        0 => l.threads = r.pick(&[0, 9, 255, l.threads.wrapping_sub(1), l.threads + 1]),
        1 => l.keys = r.pick(&[0, 17, 255, l.keys.wrapping_sub(1), l.keys + 1]),
        2 => put_somewhere(r, &mut l.operations, 64),
        3 => put_somewhere(r, &mut l.operations, 2),
        4 => {
            let byte = r.pick(&[l.threads, l.threads.wrapping_add(1), 8, 9, 255]);
            let at = r.below(l.schedule.len().max(1));
            edit(&mut l.schedule, at, byte);
        }
        5 => grow_operations(r, l),
        6 => {
            let steps = 4096 + r.below(3);
            let threads = l.threads.max(1) as usize;
            l.schedule = schedule(r, threads, steps);
        }
        7 => {
            let at = r.below(l.counts.len().max(1));
            if let Some(count) = l.counts.get_mut(at) {
                *count = r.pick(&[0, 1, 64, 65, 65535, count.wrapping_add(1), count.wrapping_sub(1)]);
            }
        }
        8 => (0..4).for_each(|_| put_bad(r, l)),
        _ if r.once_in(2) => l.counts.push(r.below(2) as u16),
        _ => drop(l.counts.pop()),
    }
}

/// Puts an operation byte near a limit in place of one of the list's.
fn put_somewhere(r: &mut Random, operations: &mut [u8], near: u8) {
    let byte = match r.below(4) {
        0 => r.pick(&[191, 193, 192, 255]),
        1 => r.byte(),
        _ => 64 * r.below(3) as u8 + r.below(near as usize + 16).min(63) as u8,
    };
    let at = r.below(operations.len().max(1));
    edit(operations, at, byte);
}

/// Puts an operation byte that is not allowed in place of one of the list's: a key of 16 or more, one that is not below K, or a size
/// with a key.
fn put_bad(r: &mut Random, l: &mut Lists) {
    let kind = 64 * r.below(3) as u8;
    let byte = match r.below(3) {
        0 => kind + 16 + r.below(48) as u8,
        1 => kind + l.keys.min(16) + r.below(2) as u8,
        _ => 193 + r.below(63) as u8,
    };
    let at = r.below(l.operations.len().max(1));
    edit(&mut l.operations, at, byte);
}

/// Fills up to about the most operations, with counts that agree.
fn grow_operations(r: &mut Random, l: &mut Lists) {
    let wanted = 63 + r.below(4);
    while l.operations.len() < wanted && !l.counts.is_empty() {
        l.operations.push(192);
        let at = r.below(l.counts.len());
        l.counts[at] = l.counts[at].wrapping_add(1);
    }
}

// ---- Limits.

/// Everything at or beside its limit, often several at once.
fn limit_lists(r: &mut Random) -> Lists {
    let threads = r.pick(&[0, 1, 1, 2, 7, 8, 8, 8, 9, 255]);
    let keys = r.pick(&[0, 1, 1, 2, 15, 16, 16, 16, 17, 255]);
    let operations = r.pick(&[0, 1, 2, 63, 64, 64, 65, 66]);
    let steps = r.pick(&[0, 1, 2, 4095, 4096, 4096, 4097, 4100]);
    let (t, k) = (threads.clamp(1, 9), keys.clamp(1, 17));
    let mix = r.pick(&MIXES);
    let mut l = run_of(r, t, k, operations, mix, steps);
    (l.threads, l.keys) = (threads as u8, keys as u8);
    if r.once_in(4) {
        let byte = r.pick(&[keys as u8, (keys as u8).wrapping_add(64), (keys as u8).wrapping_add(128), 191, 193]);
        let at = r.pick(&[0, l.operations.len().saturating_sub(1)]);
        edit(&mut l.operations, at, byte);
    }
    if r.once_in(4) {
        let at = r.pick(&[0, l.schedule.len().saturating_sub(1)]);
        edit(&mut l.schedule, at, l.threads);
    }
    l
}

fn limit(r: &mut Random) -> Vec<u8> {
    let mut l = limit_lists(r);
    // counts whose sums pass two bytes: the offset required cannot be written
    if r.once_in(6) {
        (0..2).for_each(|_| {
            let at = r.below(l.counts.len());
            l.counts[at] = r.pick(&[32768, 65000, 65535]);
        });
    }
    let mut file = laid_out(&l);
    match r.below(8) {
        0 => drop(file.pop()),
        1 => file.push(0),
        2 => file.truncate(r.below(40)),
        _ => (),
    }
    file
}

// ---- The writer's lists.

fn writer_lists(r: &mut Random) -> Lists {
    let mut l = if r.once_in(3) { limit_lists(r) } else { valid(r) };
    for _ in 0..r.below(3) {
        damage_lists(r, &mut l);
    }
    l
}
