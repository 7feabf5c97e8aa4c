//! Faults put into a good timer buffer, and messages put on the timer as no history would. Some faults leave the buffer good,
//! which is wanted too.

use super::history::task_where;
use super::random::Random;
use crate::board::{set_word, Board, MsgNo, MESSAGES, ON_TIMER, TASKS};
use crate::calls::lowest_free;
use crate::timer::{now, set_now, Entry, Timer, TIMER_LEN};

/// One or two faults, at times another length.
pub fn damage_timer(mut t: Timer, b: &Board, random: &mut Random) -> Vec<u8> {
    for _ in 0..random.pick(&[1, 1, 1, 2]) {
        fault(&mut t, b, random);
    }
    let mut lent = t.to_vec();
    if random.chance(15) {
        lent.resize(wrong_length(random), random.pick(&[0, 0, 1, 0xFF]));
    }
    lent
}

fn fault(t: &mut Timer, b: &Board, random: &mut Random) {
    let (used, free) = (pick(random, |entry| entry.is_used(t)), pick(random, |entry| !entry.is_used(t)));
    let due = now(t).wrapping_add(random.below(3) as u16);
    match (random.below(12), used, free) {
        (0, ..) => t[random.below(TIMER_LEN)] = random.byte(),
        (1, ..) => set_now(t, random.pick(&[u16::MAX, u16::MAX - 1, 0, due])),
        // a free entry with a due word, of which a byte may be zero
        (2 | 3, _, Some(free)) => free.set(t, 0, random.pick(&[1, 255, 256, 0x8000, 0xFF00, now(t), due])),
        (4, Some(used), _) => used.set(t, 0, used.due(t)),
        // a message beyond the board, or one that is not on the timer
        (5, _, Some(free)) => free.set(t, random.pick(&[129, 130, 192, 254, 255]), due),
        (6, _, Some(free)) => free.set(t, message_off_timer(b, random), due),
        (7, Some(used), _) => used.set(t, message_off_timer(b, random), used.due(t)),
        // one message in two entries, or in none
        (8, Some(used), Some(free)) => free.set(t, used.message(t), random.pick(&[used.due(t), due])),
        (9, Some(used), _) => used.free(t),
        // no faults: due now is due after all other ticks; several are due at once
        (10, Some(used), _) => used.set(t, used.message(t), due),
        _ => Entry::all().filter(|_| random.chance(70)).for_each(|entry| due_next(t, entry)),
    }
}

/// Makes a used entry due at the next tick.
fn due_next(t: &mut Timer, entry: Entry) {
    if entry.is_used(t) {
        entry.set(t, entry.message(t), now(t).wrapping_add(1));
    }
}

fn wrong_length(random: &mut Random) -> usize {
    match random.below(20) {
        0 => random.pick(&[65535, 4097, 1476]),
        1..4 => random.below(300),
        _ => random.pick(&[0, 1, 2, 3, 47, TIMER_LEN - 1, TIMER_LEN - 1, TIMER_LEN + 1, TIMER_LEN + 1, 53]),
    }
}

/// An entry of which this holds, if there is one.
fn pick(random: &mut Random, holds: impl Fn(Entry) -> bool) -> Option<Entry> {
    let found: Vec<_> = Entry::all().filter(|entry| holds(*entry)).collect();
    (!found.is_empty()).then(|| random.pick(&found))
}

/// A message that has another place, if there is one, else any.
fn message_off_timer(b: &Board, random: &mut Random) -> u8 {
    let found = random.pick_where(MESSAGES, |number| MsgNo::new(number).is_some_and(|m| !m.is_on_timer(b)));
    found.unwrap_or(MESSAGES) as u8
}

/// Puts the lowest free message on any free timer, due soon and with any record that R4 admits; where there is no task, with one
/// that it does not.
pub fn put_on_timer(b: &mut Board, t: &mut Timer, random: &mut Random) {
    let (Some(m), Some(entry)) = (lowest_free(b), pick(random, |entry| !entry.is_used(t))) else { return };
    let due = now(t).wrapping_add(random.upto(2));
    entry.set(t, m.byte(), due);
    timed_record(b, m, random);
}

/// Gives a message the place on the timer, and a record to go with it. Priorities are few, so that equal ones are common.
pub(super) fn timed_record(b: &mut Board, m: MsgNo, random: &mut Random) {
    let (any, sptr) = (random.below(0xFE) as u8, task_where(random, |k| k.is_present(b)));
    b[m.at()] = random.byte();
    b[m.prio_at()] = random.pick(&[0x00, 0x14, 0x15, 0x15, 0x16, 0xFD, any]);
    set_word(b, m.link_slot(), 0);
    set_word(b, m.rptr_at(), random.below(usize::from(TASKS) + 1) as u16);
    set_word(b, m.sptr_at(), sptr);
    b[m.place_at()] = ON_TIMER;
}
