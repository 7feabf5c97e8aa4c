//! The nineteen calls on a board that has passed, with what the check found. Tests in the order of the refusals' numbers, then
//! writes. Each hands back the packed answer. On a board that passes refusal 15 cannot be.
use super::check::Found;
use super::{accepted, message, pieces, place, task, word};
use model::board::{Board, Status, MESSAGES, MESSAGE_LEN, PLACES_AT, RUNNING, SENDERS_PRIORITY, TASKS, TASK_LEN, TASK_QUEUE};

/// One in each of eight bytes.
const EACH: u64 = 0x0101_0101_0101_0101;

/// The call of this kind.
#[inline(always)]
pub fn call(b: &mut Board, found: &Found, kind: u8, words: [u16; 3], stat: u8, prio: u8) -> u64 {
    let [x, y, z] = words.map(usize::from);
    let c = found.running;
    match kind {
        1 => return install(b, found, x, stat, prio, [y, z]),
        2 => return post(b, c, x),
        3 => return accepted(find(b, found, x), c, 0),
        _ if c == 0 => return 3,
        _ => (),
    }
    match kind {
        4 => cancel_task(b, found, x),
        5 => claim(b, c),
        6 => prepare(b, c, x, stat, prio, y),
        7 => release(b, c, x),
        8..=15 => send(b, found, kind, x, y),
        16 => accepted(take_first(b, c), c, 0),
        17 => wait(b, c, 0),
        18 => cancel_message(b, c, x, y),
        _ => wait_for_interrupt(b, c),
    }
}

#[inline(always)]
pub fn put_word<const LEN: usize>(b: &mut [u8; LEN], at: usize, w: usize) {
    b[at..at + 2].copy_from_slice(&(w as u16).to_le_bytes());
}

#[inline(always)]
pub fn is_present(b: &Board, k: usize) -> bool {
    k.wrapping_sub(1) < TASKS.into() && b[task(k)] & Status::TCBB != 0
}

/// Message m, which c holds, or the refusal.
#[inline(always)]
pub fn held(b: &Board, c: usize, m: usize) -> Result<usize, u64> {
    if m.wrapping_sub(1) >= MESSAGES.into() {
        return Err(4);
    }
    if usize::from(b[place(m)]) != c {
        return Err(5);
    }
    Ok(m)
}

/// The first task of the task queue: a byte, since the next one says who runs.
#[inline(always)]
fn first_task(b: &Board) -> usize {
    b[TASK_QUEUE].into()
}

/// Whether task k, which is ready, takes c's turn. While c is ready, nobody else can: no other had a smaller number before.
#[inline(always)]
pub fn outranks(b: &Board, k: usize, c: usize) -> bool {
    c == 0 || b[task(k) + 1] < b[task(c) + 1]
}

/// Task k runs now and is due nothing.
#[inline(always)]
fn runs(b: &mut Board, k: usize) -> u64 {
    b[RUNNING] = k as u8;
    accepted(0, k, 0)
}

/// Task k runs now, and its message is handed over if it is due one.
pub fn dispatch(b: &mut Board, k: usize) -> u64 {
    let s = b[task(k)];
    if s & Status::MHBS == 0 {
        return runs(b, k);
    }
    b[task(k)] = s & !Status::MHBS;
    b[RUNNING] = k as u8;
    let m = take_first(b, k);
    accepted(0, k, m)
}

/// The first ready task runs, if there is one: who ran is ready no more, or outranked.
pub fn dispatch_first(b: &mut Board) -> u64 {
    let mut k = first_task(b);
    while k != 0 {
        if b[task(k)] & (Status::WAIT | Status::IWAT) == 0 {
            return dispatch(b, k);
        }
        k = word(b, task(k) + 2);
    }
    runs(b, 0)
}

/// The wait of c, behind a call that has made `woken` ready, 0 for none.
fn wait(b: &mut Board, c: usize, woken: usize) -> u64 {
    let is_empty = word(b, task(c) + 4) == 0;
    b[task(c)] |= if is_empty { Status::WAIT } else { Status::MHBS };
    if woken != 0 && outranks(b, woken, c) {
        return dispatch(b, woken);
    }
    if is_empty {
        return dispatch_first(b);
    }
    dispatch(b, c)
}

fn wait_for_interrupt(b: &mut Board, c: usize) -> u64 {
    let s = b[task(c)];
    if s & Status::INTQ != 0 {
        b[task(c)] = s & !Status::INTQ;
        return accepted(0, c, 0);
    }
    b[task(c)] = s | Status::IWAT;
    dispatch_first(b)
}

#[inline(always)]
fn install(b: &mut Board, found: &Found, k: usize, stat: u8, prio: u8, [sptr, name]: [usize; 2]) -> u64 {
    if prio & 1 == 0 || prio == 0x01 || prio == 0xFF {
        return 7;
    }
    if k.wrapping_sub(1) >= TASKS.into() || b[task(k)] & Status::TCBB != 0 {
        return 8;
    }
    if stat & (Status::WAIT | Status::IWAT | Status::SPARE | Status::INTQ | Status::MHBS | Status::TCBB) != Status::TCBB {
        return 9;
    }
    let (mut slot, mut next, last) = (TASK_QUEUE, first_task(b), found.last_task);
    if last != 0 && b[task(last) + 1] <= prio {
        slot = task(last) + 2;
        next = 0;
    }
    while next != 0 && b[task(next) + 1] <= prio {
        slot = task(next) + 2;
        next = word(b, slot);
    }
    // the head is written as a word like any link: byte 1 is written below
    put_word(b, slot, k);
    b[task(k)] = stat;
    b[task(k) + 1] = prio;
    put_word(b, task(k) + 2, next);
    put_word(b, task(k) + 6, sptr);
    put_word(b, task(k) + 8, name);
    let c = found.running;
    let next = if outranks(b, k, c) { k } else { c };
    runs(b, next)
}

#[inline(always)]
fn post(b: &mut Board, c: usize, k: usize) -> u64 {
    if !is_present(b, k) {
        return 6;
    }
    let s = b[task(k)];
    if s & Status::IWAT == 0 {
        b[task(k)] = s | Status::INTQ;
        return accepted(0, c, 0);
    }
    b[task(k)] = s & !Status::IWAT;
    // a task that waited for an interrupt is due nothing
    if outranks(b, k, c) {
        return runs(b, k);
    }
    accepted(0, c, 0)
}

/// Names are compared all at once; only where several are alike is the queue asked which is first.
#[inline(always)]
fn find(b: &Board, found: &Found, name: usize) -> usize {
    let mut alike = 0u64;
    for k in 1..=usize::from(TASKS) {
        alike |= u64::from(word(b, task(k) + 8) == name) << k;
    }
    alike &= found.present;
    if alike == 0 {
        return 0;
    }
    if alike.is_power_of_two() {
        return alike.trailing_zeros() as usize;
    }
    let mut k = first_task(b);
    while alike >> k & 1 == 0 {
        k = word(b, task(k) + 2);
    }
    k
}

fn cancel_task(b: &mut Board, found: &Found, k: usize) -> u64 {
    if !is_present(b, k) {
        return 6;
    }
    let (t, c) = (task(k), found.running);
    let is_awaiting = found.timed.awaiting >> k & 1 != 0;
    if is_awaiting || word(b, t + 4) != 0 || b[t] & Status::IWAT != 0 || b[PLACES_AT..].contains(&(k as u8)) {
        return 10;
    }
    let (mut slot, mut other) = (TASK_QUEUE, first_task(b));
    while other != k {
        slot = task(other) + 2;
        other = word(b, slot);
    }
    let next = word(b, t + 2);
    // as in install
    put_word(b, slot, next);
    b[t..t + TASK_LEN].fill(0);
    if k == c {
        return dispatch_first(b);
    }
    runs(b, c)
}

/// The lowest-numbered free message, 0 for none.
#[inline(always)]
pub fn lowest_free(b: &Board) -> usize {
    for (i, p) in pieces(&b[PLACES_AT..]).enumerate() {
        let p = u64::from_le_bytes(*p);
        // the lowest zero byte: carries can only mark bytes above it
        let zero = p.wrapping_sub(EACH) & !p & (EACH * 0x80);
        if zero != 0 {
            return 8 * i + zero.trailing_zeros() as usize / 8 + 1;
        }
    }
    0
}

#[inline(always)]
fn claim(b: &mut Board, c: usize) -> u64 {
    let m = lowest_free(b);
    if m == 0 {
        return 11;
    }
    b[place(m)] = c as u8;
    accepted(m, c, 0)
}

#[inline(always)]
fn prepare(b: &mut Board, c: usize, m: usize, stat: u8, prio: u8, sptr: usize) -> u64 {
    let at = match held(b, c, m) {
        Err(refusal) => return refusal,
        Ok(_) if sptr > TASKS.into() => return 14,
        Ok(m) => message(m),
    };
    b[at] = stat;
    b[at + 1] = prio;
    put_word(b, at + 6, sptr);
    accepted(0, c, 0)
}

#[inline(always)]
fn release(b: &mut Board, c: usize, m: usize) -> u64 {
    if let Err(refusal) = held(b, c, m) {
        return refusal;
    }
    b[message(m)..message(m) + MESSAGE_LEN].fill(0);
    b[place(m)] = 0;
    accepted(0, c, 0)
}

/// Send, resend, forward and return, and each with a wait behind it: kinds 8 to 15.
#[inline(always)]
fn send(b: &mut Board, found: &Found, kind: u8, m: usize, to: usize) -> u64 {
    let c = found.running;
    let at = match held(b, c, m) {
        Err(refusal) => return refusal,
        Ok(m) => message(m),
    };
    let r = match kind {
        8 | 9 | 12 | 13 => to,
        10 | 11 => word(b, at + 4),
        _ => word(b, at + 6),
    };
    if !is_present(b, r) {
        return 6;
    }
    let asks_for_senders = b[at + 1] >> 1 == SENDERS_PRIORITY;
    if kind < 10 {
        if asks_for_senders {
            b[at + 1] = b[task(c) + 1] & !1 | b[at + 1] & 1;
        }
        put_word(b, at + 4, r);
        if word(b, at + 6) == 0 {
            put_word(b, at + 6, c);
        }
    } else if asks_for_senders {
        return 7;
    }
    let woken = into_queue(b, m, r, task(r) + 4, found.last[r].into());
    if kind % 2 == 1 {
        return wait(b, c, if woken { r } else { 0 });
    }
    if woken && outranks(b, r, c) {
        return dispatch(b, r);
    }
    accepted(0, c, 0)
}

/// True if r was woken. The spot of m is at this slot of r's queue or behind it. The last of the queue is known: what goes to the
/// end is put there at once.
#[inline(always)]
pub fn into_queue(b: &mut Board, m: usize, r: usize, mut slot: usize, last: usize) -> bool {
    let prio = b[message(m) + 1];
    // queued messages have an odd PRIO, so they compare with the PRIO of a FIFO message as the numbers do, and never equal that of
    // a LIFO one
    let mut next = word(b, slot);
    if next != 0 && b[message(last) + 1] <= prio {
        slot = message(last) + 2;
        next = 0;
    }
    while next != 0 && b[message(next) + 1] <= prio {
        slot = message(next) + 2;
        next = word(b, slot);
    }
    put_word(b, slot, m);
    put_word(b, message(m) + 2, next);
    b[message(m) + 1] = prio | 1;
    b[place(m)] = 64 + r as u8;
    let s = b[task(r)];
    let woken = s & Status::WAIT != 0;
    if woken {
        b[task(r)] = s & !Status::WAIT | Status::MHBS;
    }
    woken
}

/// The first message of c's queue, which c holds now; 0 for none.
#[inline(always)]
fn take_first(b: &mut Board, c: usize) -> usize {
    let m = word(b, task(c) + 4);
    if m != 0 {
        let next = word(b, message(m) + 2);
        put_word(b, task(c) + 4, next);
        put_word(b, message(m) + 2, 0);
        b[place(m)] = c as u8;
    }
    m
}

fn cancel_message(b: &mut Board, c: usize, m: usize, r: usize) -> u64 {
    if m.wrapping_sub(1) >= MESSAGES.into() {
        return 4;
    }
    if !is_present(b, r) {
        return 6;
    }
    if usize::from(b[place(m)]) != 64 + r {
        return 12;
    }
    if word(b, message(m) + 6) != c {
        return 13;
    }
    let mut slot = task(r) + 4;
    while word(b, slot) != m {
        slot = message(word(b, slot)) + 2;
    }
    let next = word(b, message(m) + 2);
    put_word(b, slot, next);
    put_word(b, message(m) + 2, 0);
    b[place(m)] = c as u8;
    let s = b[task(r)];
    if s & Status::MHBS != 0 && word(b, task(r) + 4) == 0 {
        b[task(r)] = s & !Status::MHBS | Status::WAIT;
    }
    // c was due nothing, so it is no r that waits again: it runs on
    accepted(0, c, 0)
}
