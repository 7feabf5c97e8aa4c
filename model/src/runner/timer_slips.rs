//! Slips of the timer: what a program would answer and leave that takes the request for something else.

use super::case::{Case, Reply, CHECK, START, TICK};
use super::slips::Slip;
use super::timers_seen::entered;
use crate::board::{set_word, word, Board, MsgNo, TaskNo, MESSAGE_LEN};
use crate::calls::{dispatch, runs_next};
use crate::check::running;
use crate::timer::{give_back, now, set_now, Entry, Timer, ENTRIES_AT, ENTRY_LEN};
use crate::{check, Answer, Refusal};

const CANCEL_TASK: u8 = 4;

/// The reply to a case with such a slip, where it shows.
pub fn reply(slip: Slip, case: &Case, right: &Reply) -> Option<Reply> {
    let b = <&Board>::try_from(&case.board[..]).ok()?;
    match (slip, case.request.kind, right.refusal()) {
        (_, CHECK, 2) => return loosely_checked(slip, b, right),
        (Slip::CancelOverlooksTimer, CANCEL_TASK, 10) => return Some(without_timed(case, b)),
        _ => (),
    }
    let t = <&Timer>::try_from(&case.timer[..]).ok()?;
    match (slip, case.request.kind, right.refusal()) {
        (_, START, 0) => started(slip, case, t, right),
        (_, TICK, 0) => ticked(slip, case, b, t, right),
        (Slip::NoneRunningBefore18, START, 18) if running(b).is_none() => Some(refused(case, Refusal::NoneRunning)),
        (Slip::MessageTwicePasses, START | TICK, 18) => Some(Case::new(case.request, b, &once_each(t)).reply()),
        _ => None,
    }
}

/// The check where R4 lets a field of messages on the timer pass: it is mended beforehand.
fn loosely_checked(slip: Slip, b: &Board, right: &Reply) -> Option<Reply> {
    let mut mended = *b;
    for m in MsgNo::all().filter(|m| m.is_on_timer(b)) {
        match slip {
            Slip::TimedMayHaveLink => set_word(&mut mended, m.link_slot(), 0),
            Slip::TimedMayLackSptr => set_word(&mut mended, m.sptr_at(), present_for(b, word(b, m.sptr_at()))),
            Slip::TimedMayHaveFeh if b[m.prio_at()] == 0xFE => mended[m.prio_at()] = 0xFC,
            _ => (),
        }
    }
    (mended != *b).then(|| Reply { answer: Some(check(&mended)), ..right.clone() })
}

/// A present task in place of any task number.
fn present_for(b: &Board, number: u16) -> u16 {
    let present = TaskNo::all().find(|k| k.is_present(b)).filter(|_| TaskNo::new(number).is_some());
    present.map_or(number, TaskNo::number)
}

/// The call as if nothing was on the timer.
fn without_timed(case: &Case, b: &Board) -> Reply {
    let timed: Vec<_> = MsgNo::all().filter(|m| m.is_on_timer(b)).flat_map(bytes_of).collect();
    let mut without = *b;
    timed.iter().for_each(|at| without[*at] = 0);
    let mut reply = Case::new(case.request, &without, &[]).reply();
    timed.iter().for_each(|at| reply.after[*at] = b[*at]);
    reply
}

/// Where a message's record and place lie.
fn bytes_of(m: MsgNo) -> impl Iterator<Item = usize> {
    (m.at()..m.at() + MESSAGE_LEN).chain([m.place_at()])
}

fn refused(case: &Case, refusal: Refusal) -> Reply {
    Reply { answer: Some(Answer::Refused(refusal)), after: case.board.clone(), timer: case.timer.clone() }
}

/// The buffer with each message in its first entry alone.
fn once_each(t: &Timer) -> Timer {
    let mut once = *t;
    for entry in Entry::all() {
        let is_again = Entry::all().take_while(|other| *other != entry).any(|other| other.message(t) == entry.message(t));
        if entry.is_used(t) && is_again {
            entry.free(&mut once);
        }
    }
    once
}

/// An accepted start that writes something else.
fn started(slip: Slip, case: &Case, before: &Timer, right: &Reply) -> Option<Reply> {
    let mut reply = right.clone();
    let t = <&mut Timer>::try_from(&mut reply.timer[..]).ok()?;
    let (m, entry) = (MsgNo::new(case.request.a)?, entered(before, t)?);
    match slip {
        Slip::DueStopsAtTheLast => entry.set(t, m.byte(), now(before).saturating_add(case.request.b)),
        Slip::HighestTimerTaken => {
            let (due, highest) = (entry.due(t), Entry::all().rfind(|entry| !entry.is_used(before))?);
            entry.free(t);
            highest.set(t, m.byte(), due);
        }
        Slip::StartedStaysHeld => reply.after[m.place_at()] = case.board[m.place_at()],
        _ => return None,
    }
    Some(reply)
}

/// An accepted tick that returns other messages, or otherwise.
fn ticked(slip: Slip, case: &Case, b: &Board, t: &Timer, right: &Reply) -> Option<Reply> {
    let on = |t: &Timer| Case::new(case.request, b, t).reply();
    match slip {
        Slip::PastIsDue => Some(on(&with_past_due(t))),
        Slip::FreeIsDueAt0 => {
            let fires = now(t) == u16::MAX && Entry::all().any(|entry| !entry.is_used(t));
            fires.then(|| refused(case, Refusal::NoMessage))
        }
        Slip::LastEntryFirst => {
            let mut reply = on(&reversed(t));
            reply.timer = reversed(<&Timer>::try_from(&reply.timer[..]).ok()?).to_vec();
            Some(reply)
        }
        Slip::DispatchAfterEach => Some(dispatched_after_each(*b, *t)),
        Slip::EntryStaysUsed => {
            let mut reply = right.clone();
            reply.timer[ENTRIES_AT..].copy_from_slice(&t[ENTRIES_AT..]);
            Some(reply)
        }
        _ => None,
    }
}

/// The buffer in which all that is due at or before the next tick is due at it.
fn with_past_due(t: &Timer) -> Timer {
    let (mut all, next) = (*t, now(t).wrapping_add(1));
    for entry in Entry::all().filter(|entry| entry.is_used(t) && entry.due(t) <= next) {
        entry.set(&mut all, entry.message(t), next);
    }
    all
}

/// The buffer with its entries the other way round.
fn reversed(t: &Timer) -> Timer {
    let mut reversed = *t;
    for (to, from) in reversed[ENTRIES_AT..].chunks_mut(ENTRY_LEN).zip(t[ENTRIES_AT..].chunks(ENTRY_LEN).rev()) {
        to.copy_from_slice(from);
    }
    reversed
}

fn dispatched_after_each(mut b: Board, mut t: Timer) -> Reply {
    let (next, runs) = (now(&t).wrapping_add(1), running(&b));
    set_now(&mut t, next);
    let mut answer = dispatch(&mut b, runs, 0);
    for entry in Entry::all() {
        if entry.is_due(&t) {
            give_back(&mut b, &mut t, entry);
            let next = runs_next(&b);
            answer = dispatch(&mut b, next, 0);
        }
    }
    Reply { answer: Some(answer), after: b.to_vec(), timer: t.to_vec() }
}
