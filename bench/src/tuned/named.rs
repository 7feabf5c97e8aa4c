//! Which rule a board breaks, and at which record: the rules one after the other, since the check does not keep them apart. Only
//! boards that it refuses come here.
use super::check::{BEYOND, FAR, LINK, REACH};
use super::{message, place, task, word};
use model::board::{Board, Status, MESSAGES, ON_TIMER, PLACES_AT, RUNNING, TASKS, TASK_LEN, TASK_QUEUE};

/// Refusal 2 with the rule and the record, packed.
#[cold]
#[inline(never)]
pub fn refused(b: &Board) -> u64 {
    let (rule, record) = broken(b);
    2 | rule << 8 | (record as u64) << 16
}

/// The lowest broken rule, with the smallest task or message that breaks it, 0 where it is not one for each. Where all others are
/// kept it is R7, whose record is byte 1.
fn broken(b: &Board) -> (u64, usize) {
    let tasks = || 1..=usize::from(TASKS);
    let mut messages = 1..=usize::from(MESSAGES);
    let present = tasks().fold(0, |bits, k| bits | u64::from(b[task(k)] & Status::TCBB) << k);
    if b[2] | b[3] != 0 {
        return (1, 0);
    }
    if let Some(k) = tasks().find(|&k| !task_is_good(b, k)) {
        return (2, k);
    }
    if !tasks_are_in_order(b, present) {
        return (3, 0);
    }
    if let Some(m) = messages.find(|&m| !message_is_good(b, m, present)) {
        return (4, m);
    }
    let placed = placed(b);
    if let Some(k) = tasks().find(|&k| !queue_is_good(b, k, placed[k + 64])) {
        return (5, k);
    }
    if let Some(k) = tasks().find(|&k| !state_is_good(b, k)) {
        return (6, k);
    }
    (7, b[RUNNING].into())
}

fn task_is_good(b: &Board, k: usize) -> bool {
    let (stat, prio) = (b[task(k)], b[task(k) + 1]);
    let is_head = stat & (Status::TCBB | Status::SPARE) == Status::TCBB && prio & 1 == 1 && prio.wrapping_sub(3) < 0xFC;
    is_head || b[task(k)..task(k) + TASK_LEN] == [0; TASK_LEN]
}

fn tasks_are_in_order(b: &Board, present: u64) -> bool {
    let (mut k, mut low) = (usize::from(b[TASK_QUEUE]), 0);
    for _ in 0..present.count_ones() {
        if k > TASKS.into() || present >> k & 1 == 0 || b[task(k) + 1] < low {
            return false;
        }
        low = b[task(k) + 1];
        k = word(b, task(k) + 2);
    }
    k == 0
}

fn message_is_good(b: &Board, m: usize, present: u64) -> bool {
    let record = u64::from_le_bytes(b[message(m)..message(m) + 8].try_into().expect("eight bytes"));
    let (p, prio) = (b[place(m)], record >> 8 & 0xFF);
    // the task that it needs, and what its place alone asks of it
    let (k, own) = match p {
        0 => return record == 0,
        ON_TIMER => (record >> 48, record & LINK == 0 && prio < 0xFE),
        1..64 => (p.into(), record & LINK == 0),
        _ => (u64::from(p) - 64, prio & 1 == 1 && prio != 0xFF),
    };
    own && k < 64 && present >> k & 1 == 1 && record & FAR | record.wrapping_add(REACH) & BEYOND == 0
}

/// How many messages have each place.
fn placed(b: &Board) -> [u8; 256] {
    let mut placed = [0; 256];
    b[PLACES_AT..].iter().for_each(|&p| placed[usize::from(p)] += 1);
    placed
}

/// A walk that meets as many messages of task k as there are and then ends has met each of them, and once.
fn queue_is_good(b: &Board, k: usize, placed: u8) -> bool {
    let (mut m, mut low) = (word(b, task(k) + 4), 0);
    for _ in 0..placed {
        if m.wrapping_sub(1) >= MESSAGES.into() || usize::from(b[place(m)]) != k + 64 || b[message(m) + 1] < low {
            return false;
        }
        low = b[message(m) + 1];
        m = word(b, message(m) + 2);
    }
    m == 0
}

fn state_is_good(b: &Board, k: usize) -> bool {
    let (stat, is_empty) = (b[task(k)], word(b, task(k) + 4) == 0);
    let is = |bits: u8| stat & bits != 0;
    let wait = !is(Status::WAIT) || is_empty && !is(Status::IWAT | Status::MHBS);
    let iwat = !is(Status::IWAT) || !is(Status::INTQ | Status::MHBS);
    wait && iwat && !(is(Status::MHBS) && is_empty)
}
