//! The station timer: sixteen timers in a buffer that is lent beside the board, and its two calls. Start puts a held message on a
//! timer, and the tick at which it is due returns it to its SPTR task. Each makes all its tests and only then writes.

use crate::answer::{Answer, Refusal};
use crate::board::{set_word, word, Board, MsgNo, TaskNo, ON_TIMER};
use crate::calls::{dispatch, held_message, place, receiver_of, runs_next};
use crate::check::examine;

/// How many bytes a timer buffer has.
pub const TIMER_LEN: usize = 50;
/// How many timers there are.
pub const ENTRIES: usize = 16;
/// Where the entries begin, behind the word that counts ticks.
pub const ENTRIES_AT: usize = 2;
/// Bytes of an entry.
pub const ENTRY_LEN: usize = 3;

/// The lent bytes of the timer, once their number is right.
pub type Timer = [u8; TIMER_LEN];

/// The tick that it is now.
pub fn now(t: &Timer) -> u16 {
    word(t, 0)
}

/// Writes the tick that it is now.
pub fn set_now(t: &mut Timer, now: u16) {
    set_word(t, 0, now);
}

/// One of the sixteen timers: a message byte, 0 where it is free, and the word of the tick at which the message is due.
#[derive(Clone, Copy, Debug, PartialEq, Eq)]
pub struct Entry(usize);

impl Entry {
    /// All entries in order.
    pub fn all() -> impl DoubleEndedIterator<Item = Entry> {
        (0..ENTRIES).map(Entry)
    }

    /// Where it begins.
    pub fn at(self) -> usize {
        ENTRIES_AT + ENTRY_LEN * self.0
    }

    /// Its message byte.
    pub fn message(self, t: &Timer) -> u8 {
        t[self.at()]
    }

    /// Its due word.
    pub fn due(self, t: &Timer) -> u16 {
        word(t, self.at() + 1)
    }

    /// Whether it is in use, which its message byte alone says.
    pub fn is_used(self, t: &Timer) -> bool {
        self.message(t) != 0
    }

    /// Whether its message is returned now. A free entry never is due.
    pub fn is_due(self, t: &Timer) -> bool {
        self.is_used(t) && self.due(t) == now(t)
    }

    /// Writes the message and when it is due.
    pub fn set(self, t: &mut Timer, message: u8, due: u16) {
        t[self.at()] = message;
        set_word(t, self.at() + 1, due);
    }

    /// Frees it, which leaves three zero bytes.
    pub fn free(self, t: &mut Timer) {
        self.set(t, 0, 0);
    }
}

/// Starts a timer for a message that the running task holds; a refusal leaves both buffers as they were.
pub fn start(b: &mut [u8], t: &mut [u8], message: u16, delay: u16) -> Answer {
    call(b, t, |b, t, running| put_on_timer(b, t, running.ok_or(Refusal::NoneRunning)?, message, delay))
}

/// One tick later: each message that is due then goes back to its SPTR task, in entry order, and only behind them all it is asked
/// who runs. It serves anyone.
pub fn tick(b: &mut [u8], t: &mut [u8]) -> Answer {
    call(b, t, |b, t, _| {
        pass_tick(b, t);
        Ok(())
    })
}

/// A call that is lent both buffers: 18 is tested right behind the board's own refusals, and dispatch ends it like any other.
fn call(
    b: &mut [u8],
    t: &mut [u8],
    effect: impl FnOnce(&mut Board, &mut Timer, Option<TaskNo>) -> Result<(), Refusal>,
) -> Answer {
    let Ok(b) = <&mut Board>::try_from(b) else {
        return Answer::Refused(Refusal::Length);
    };
    let made = examine(b).map_err(Refusal::BrokenRule).and_then(|running| {
        let t = in_order(b, t)?;
        effect(b, t, running)
    });
    match made {
        Err(refusal) => Answer::Refused(refusal),
        Ok(()) => dispatch(b, runs_next(b), 0),
    }
}

/// The timer buffer that fits the board, of a good one.
fn in_order<'a>(b: &Board, t: &'a mut [u8]) -> Result<&'a mut Timer, Refusal> {
    <&mut Timer>::try_from(t).ok().filter(|t| fits(b, t)).ok_or(Refusal::TimerBuffer)
}

/// Whether free entries are zero, and the messages on the timer exactly those in entries, once each.
fn fits(b: &Board, t: &Timer) -> bool {
    let used = || Entry::all().filter(|entry| entry.is_used(t));
    let is_on_timer = |entry: Entry| MsgNo::new(entry.message(t).into()).is_some_and(|m| m.is_on_timer(b));
    let is_in_one = |m: MsgNo| used().filter(|entry| entry.message(t) == m.byte()).count() == 1;
    let free_are_zero = Entry::all().all(|entry| entry.is_used(t) || entry.due(t) == 0);
    free_are_zero && used().all(is_on_timer) && MsgNo::all().filter(|m| m.is_on_timer(b)).all(is_in_one)
}

fn put_on_timer(b: &mut Board, t: &mut Timer, c: TaskNo, message: u16, delay: u16) -> Result<(), Refusal> {
    let m = held_message(b, c, message)?;
    receiver_of(b, m, word(b, m.sptr_at()))?;
    if delay == 0 {
        return Err(Refusal::NoDelay);
    }
    let entry = Entry::all().find(|entry| !entry.is_used(t)).ok_or(Refusal::TimersInUse)?;
    entry.set(t, m.byte(), now(t).wrapping_add(delay));
    b[m.place_at()] = ON_TIMER;
    Ok(())
}

fn pass_tick(b: &mut Board, t: &mut Timer) {
    set_now(t, now(t).wrapping_add(1));
    for entry in Entry::all() {
        if entry.is_due(t) {
            give_back(b, t, entry);
        }
    }
}

/// Returns the message of an entry to its SPTR task, which by R4 is present, and frees the entry.
pub(crate) fn give_back(b: &mut Board, t: &mut Timer, entry: Entry) {
    let Some(m) = MsgNo::new(entry.message(t).into()) else { return };
    let Some(r) = TaskNo::new(word(b, m.sptr_at())) else { return };
    place(b, m, r);
    entry.free(t);
}
