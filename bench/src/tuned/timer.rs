//! Start and tick on a board that has passed, with what the check found.
use super::calls::{dispatch, dispatch_first, held, into_queue, is_present, outranks, put_word};
use super::check::Found;
use super::{accepted, message, place, task, word};
use model::board::{Board, ON_TIMER, SENDERS_PRIORITY};
use model::timer::{Timer, ENTRIES, ENTRIES_AT, ENTRY_LEN};

/// What one look at the timer buffer finds, a bit for each entry.
struct Entries {
    /// Those in use.
    used: u16,
    /// Those in use whose message is due at the next tick.
    due: u16,
}

/// Where an entry begins: the message byte and the due word.
#[inline(always)]
fn entry(i: usize) -> usize {
    ENTRIES_AT + ENTRY_LEN * i
}

/// Start, behind the check.
#[inline(always)]
pub fn start(b: &mut Board, timer: &mut [u8], found: &Found, m: usize, delay: u16) -> u64 {
    let Ok(t) = <&mut Timer>::try_from(timer) else { return 18 };
    let Some(entries) = look_at_timer(t, found) else { return 18 };
    let c = found.running;
    if c == 0 {
        return 3;
    }
    let at = match held(b, c, m) {
        Err(refusal) => return refusal,
        Ok(m) => message(m),
    };
    if !is_present(b, word(b, at + 6)) {
        return 6;
    }
    if b[at + 1] >> 1 == SENDERS_PRIORITY {
        return 7;
    }
    if delay == 0 {
        return 16;
    }
    if entries.used == !0 {
        return 17;
    }
    let i = entry(entries.used.trailing_ones() as usize);
    t[i] = m as u8;
    let due = now(t).wrapping_add(delay);
    put_word(t, i + 1, due.into());
    b[place(m)] = ON_TIMER;
    accepted(0, c, 0)
}

/// Tick, behind the check.
#[inline(always)]
pub fn tick(b: &mut Board, timer: &mut [u8], mut found: Found) -> u64 {
    let Ok(t) = <&mut Timer>::try_from(timer) else { return 18 };
    let Some(entries) = look_at_timer(t, &found) else { return 18 };
    let next = now(t).wrapping_add(1);
    put_word(t, 0, next.into());
    if entries.due == 0 {
        return accepted(0, found.running, 0);
    }
    give_back(b, t, &mut found, entries.due)
}

#[inline(always)]
fn now(t: &Timer) -> u16 {
    u16::from_le_bytes([t[0], t[1]])
}

/// The entries of a buffer that fits the board: free ones are zero, the others name the messages on the timer, each once.
#[inline(always)]
fn look_at_timer(t: &Timer, found: &Found) -> Option<Entries> {
    let next = u32::from(now(t).wrapping_add(1));
    let (mut all, mut named, mut bad) = (Entries { used: 0, due: 0 }, 0u128, 0);
    for i in 0..ENTRIES {
        // the entry and the byte before it are one load
        let bytes = u32::from_le_bytes(t[entry(i) - 1..entry(i) + 3].try_into().expect("four bytes")) >> 8;
        let (m, due) = (bytes & 0xFF, bytes >> 8);
        let is_used = m != 0;
        // above bit 6 is a number beyond the last message, or a due word
        let at = if is_used { m - 1 } else { due << 7 };
        bad |= at >> 7;
        named |= u128::from(is_used) << (at & 127);
        all.used |= u16::from(is_used) << i;
        all.due |= u16::from(is_used & (due == next)) << i;
    }
    // as many as there are, and these: none is named twice
    let fits = bad == 0 && named == found.timed.messages && all.used.count_ones() as usize == found.timed.count;
    fits.then_some(all)
}

/// The messages of these entries go back to their SPTR tasks, in entry order, and then it is asked who runs.
#[inline(never)]
fn give_back(b: &mut Board, t: &mut Timer, found: &mut Found, mut due: u16) -> u64 {
    let (mut woken, mut before) = (0u64, 0);
    while due != 0 {
        let i = entry(due.trailing_zeros() as usize);
        due &= due - 1;
        let m = usize::from(t[i]);
        let r = word(b, message(m) + 6);
        t[i..i + ENTRY_LEN].fill(0);
        let is_behind = before != 0 && usize::from(b[place(before)]) == 64 + r && b[message(before) + 1] <= b[message(m) + 1];
        let slot = if is_behind { message(before) + 2 } else { task(r) + 4 };
        woken |= u64::from(into_queue(b, m, r, slot, found.last[r].into())) << r;
        if word(b, message(m) + 2) == 0 {
            found.last[r] = m as u8;
        }
        before = m;
    }
    runs_then(b, found.running, woken)
}

/// Dispatch behind a tick that has woken these tasks. Of several it is asked which is first.
#[inline(always)]
fn runs_then(b: &mut Board, c: usize, woken: u64) -> u64 {
    let mut left = woken;
    while left != 0 {
        let k = left.trailing_zeros() as usize;
        left &= left - 1;
        if outranks(b, k, c) {
            return if woken.is_power_of_two() { dispatch(b, k) } else { dispatch_first(b) };
        }
    }
    accepted(0, c, 0)
}
