//! Document 01 in safe Rust, written to be quick: the anchor that the proved code is compared with. What makes it quick:
//!
//! * Places are looked at eight at a time: eight free messages are one OR of eight words, eight held ones three sums of bits, and
//!   eight queued ones are left to the walk. Only where such a group is mixed is it asked whether there are any on the timer.
//! * One walk of the task queue tests R2 of each present task, R3 and R6, sees whose number a running task must have (R7), and
//!   walks the task's messages (R5, and R4 of the queued ones). It gathers faults and branches little, since it waits for the
//!   next link anyway. If it meets as many messages as have a place of 64 or more and are not on the timer, it met each of them,
//!   and once. The tasks that it did not meet must be zeros, eight at a time.
//! * The check hands on what it has found: who runs, who is present, the last task, and the last message of each queue. A call
//!   starts from there. Who runs then is the running task or the one that the call has made ready, whichever has the smaller
//!   number; the first ready one is looked for only where the running task is ready no more.
//! * The timer buffer is looked at once, without a branch, for all that start and tick ask of it. A message that is due begins
//!   its walk at the one that was due before it, where both go to one queue and its PRIO is not below.
//!
//! So the rules are no longer apart, as the definitions and the proved code have them. Which one is broken, and where, is found by
//! a second look, on refused boards only.

#![forbid(unsafe_code)]

mod calls;
mod check;
mod named;
mod timer;

use model::board::{Board, MESSAGES_AT, MESSAGE_LEN, PLACES_AT, TASKS_AT, TASK_LEN};

/// The check of a board; the answer is packed as the C interface does.
#[inline(never)]
pub fn check(bytes: &[u8]) -> u64 {
    let Ok(b) = <&Board>::try_from(bytes) else { return 1 };
    let Some(found) = check::examine(b) else { return named::refused(b) };
    accepted(0, found.running, 0)
}

/// A call by its kind, with its words in the paper's order; the answer is packed as the C interface does.
#[inline(never)]
pub fn call(bytes: &mut [u8], kind: u8, words: [u16; 3], stat: u8, prio: u8) -> u64 {
    if !(1..=19).contains(&kind) {
        return 255;
    }
    let Ok(b) = <&mut Board>::try_from(bytes) else { return 1 };
    let Some(found) = check::examine(b) else { return named::refused(b) };
    calls::call(b, &found, kind, words, stat, prio)
}

/// The start of a timer for message m; the answer is packed as the C interface does.
#[inline(never)]
pub fn start(bytes: &mut [u8], timer: &mut [u8], m: u16, delay: u16) -> u64 {
    let Ok(b) = <&mut Board>::try_from(bytes) else { return 1 };
    let Some(found) = check::examine(b) else { return named::refused(b) };
    timer::start(b, timer, &found, m.into(), delay)
}

/// A tick; the answer is packed as the C interface does.
#[inline(never)]
pub fn tick(bytes: &mut [u8], timer: &mut [u8]) -> u64 {
    let Ok(b) = <&mut Board>::try_from(bytes) else { return 1 };
    let Some(found) = check::examine(b) else { return named::refused(b) };
    timer::tick(b, timer, found)
}

/// The lowest-numbered free message, 0 for none; the search of claim by itself.
#[inline(never)]
pub fn lowest_free(bytes: &[u8]) -> u16 {
    <&Board>::try_from(bytes).map_or(0, |b| calls::lowest_free(b) as u16)
}

/// An accepted call's answer, packed.
#[inline(always)]
fn accepted(value: usize, running: usize, delivered: usize) -> u64 {
    (value as u64) << 8 | (running as u64) << 24 | (delivered as u64) << 40
}

/// Where the record of a task begins: STAT, PRIO and the words LINK, MPTR, SPTR, NAME.
#[inline(always)]
fn task(k: usize) -> usize {
    TASKS_AT + TASK_LEN * k - TASK_LEN
}

/// Where the record of a message begins: STAT, PRIO and the words LINK, RPTR, SPTR.
#[inline(always)]
fn message(m: usize) -> usize {
    MESSAGES_AT + MESSAGE_LEN * m - MESSAGE_LEN
}

/// Where the place of a message is told.
#[inline(always)]
fn place(m: usize) -> usize {
    PLACES_AT + m - 1
}

#[inline(always)]
fn word(b: &Board, at: usize) -> usize {
    usize::from(u16::from_le_bytes([b[at], b[at + 1]]))
}

/// Pieces of N bytes, one after the other.
#[inline(always)]
fn pieces<const N: usize>(bytes: &[u8]) -> impl Iterator<Item = &[u8; N]> + '_ {
    bytes.chunks_exact(N).map(|piece| piece.try_into().expect("a piece has N bytes"))
}
