//! What a run has seen of the timer.

use std::collections::BTreeMap;
use std::fmt;

use super::case::{Case, Reply, CHECK, CONVERT, START, TICK};
use crate::board::{word, Board, MsgNo, Status, TaskNo};
use crate::check::running;
use crate::timer::{now, Entry, Timer, ENTRIES};
use crate::Rule;

/// The two calls of the timer, with the numbers that they can give, 0 where accepted.
const ROWS: [(u8, &str, &[u8]); 2] = [(START, "start", &[0, 1, 2, 3, 4, 5, 6, 7, 16, 17, 18]), (TICK, "tick", &[0, 1, 2, 18])];

/// What is to be seen, with its test.
type Sight = (&'static str, fn(&Seen) -> bool);

const SIGHTS: [Sight; 11] = [
    ("a start that is due past 65,535", |seen| seen.is_due_past_the_last()),
    ("a tick that returns several messages", |seen| seen.returned() > 1),
    ("a tick that returns one and leaves one", |seen| seen.returned() > 0 && seen.left() > 0),
    ("a tick that wakes a task where none ran", |seen| seen.returned() > 0 && running(seen.board).is_none() && seen.runs),
    ("a tick to 0 beside a free timer", |seen| seen.ticks_to_0() && seen.had_free()),
    ("a tick to 0 that returns a message", |seen| seen.ticks_to_0() && seen.returned() > 0),
    ("a task that is busy by the timer alone", |seen| seen.refusal == 10 && seen.is_busy_by_timer()),
    ("a message on the timer that is not held", |seen| seen.refusal == 5 && seen.is_of_timed()),
    ("a message on the timer that is not queued", |seen| seen.refusal == 12 && seen.is_of_timed()),
    ("R4 at a message on the timer", |seen| seen.kind == CHECK && seen.names_timed()),
    ("R4 of an old board at a message on the timer", |seen| seen.kind == CONVERT && seen.names_timed()),
];

/// A case on a board of the right length, and the model's reply.
struct Seen<'a> {
    kind: u8,
    a: u16,
    board: &'a Board,
    refusal: u8,
    rule: Option<Rule>,
    /// Whether a task runs then.
    runs: bool,
    /// The timer buffer before and after, if one of the right length is lent.
    timers: Option<(&'a Timer, &'a Timer)>,
}

impl Seen<'_> {
    fn new<'a>(case: &'a Case, reply: &'a Reply) -> Option<Seen<'a>> {
        let timers = <&Timer>::try_from(&case.timer[..]).ok().zip(<&Timer>::try_from(&reply.timer[..]).ok());
        Some(Seen {
            kind: case.request.kind,
            a: case.request.a,
            board: <&Board>::try_from(&case.board[..]).ok()?,
            refusal: reply.refusal(),
            rule: reply.rule(),
            runs: <&Board>::try_from(&reply.after[..]).ok().and_then(running).is_some(),
            timers,
        })
    }

    /// How many messages a tick has returned.
    fn returned(&self) -> usize {
        self.timers.map_or(0, |(before, after)| used(before).saturating_sub(used(after)))
    }

    /// How many are on the timer then.
    fn left(&self) -> usize {
        self.timers.map_or(0, |(_, after)| used(after))
    }

    fn had_free(&self) -> bool {
        self.timers.is_some_and(|(before, _)| used(before) < ENTRIES)
    }

    fn ticks_to_0(&self) -> bool {
        self.timers.is_some_and(|(before, after)| now(before) == u16::MAX && now(after) == 0)
    }

    fn is_due_past_the_last(&self) -> bool {
        let is_past = |(before, after)| entered(before, after).is_some_and(|entry| entry.due(after) < now(before));
        self.timers.is_some_and(is_past)
    }

    fn is_of_timed(&self) -> bool {
        MsgNo::new(self.a).is_some_and(|m| m.is_on_timer(self.board))
    }

    fn is_busy_by_timer(&self) -> bool {
        let b = self.board;
        TaskNo::new(self.a).is_some_and(|k| {
            let holds = MsgNo::all().any(|m| m.place(b) == k.held_place());
            !holds && word(b, k.queue_slot()) == 0 && !k.status(b).has(Status::IWAT)
        })
    }

    fn names_timed(&self) -> bool {
        matches!(self.rule, Some(Rule::R4(m)) if m.is_on_timer(self.board))
    }
}

/// The timer that a start has taken.
pub(super) fn entered(before: &Timer, after: &Timer) -> Option<Entry> {
    Entry::all().find(|entry| !entry.is_used(before) && entry.is_used(after))
}

/// How many timers are in use.
fn used(t: &Timer) -> usize {
    Entry::all().filter(|entry| entry.is_used(t)).count()
}

/// Counts over many cases.
#[derive(Clone, Debug, Default)]
pub struct TimersSeen {
    /// How often each call gave each number.
    rows: BTreeMap<(u8, u8), usize>,
    sights: [usize; SIGHTS.len()],
    most_returned: usize,
}

impl TimersSeen {
    /// Counts a case and the model's reply to it.
    pub fn count(&mut self, case: &Case, reply: &Reply) {
        if case.request.takes_timer() {
            *self.rows.entry((case.request.kind, reply.refusal())).or_default() += 1;
        }
        let Some(seen) = Seen::new(case, reply) else { return };
        self.sights.iter_mut().zip(SIGHTS).for_each(|(count, (_, sees))| *count += usize::from(sees(&seen)));
        self.most_returned = self.most_returned.max(seen.returned());
    }

    /// Adds the counts of other cases.
    pub fn add(&mut self, other: &TimersSeen) {
        other.rows.iter().for_each(|(row, count)| *self.rows.entry(*row).or_default() += count);
        self.sights.iter_mut().zip(other.sights).for_each(|(into, from)| *into += from);
        self.most_returned = self.most_returned.max(other.most_returned);
    }

    /// What should have been seen and was not.
    pub fn missing(&self) -> impl Iterator<Item = String> + '_ {
        let numbers = ROWS.iter().flat_map(|(kind, name, row)| row.iter().map(move |number| (*kind, *name, *number)));
        let unseen = numbers.filter(|(kind, _, number)| self.given(*kind, *number) == 0);
        let sights = self.sights.iter().zip(SIGHTS).filter(|(count, _)| **count == 0).map(|(_, (sight, _))| sight.to_string());
        unseen.map(|(_, name, number)| format!("{name} with {number}")).chain(sights)
    }

    fn given(&self, kind: u8, number: u8) -> usize {
        self.rows.get(&(kind, number)).copied().unwrap_or(0)
    }
}

impl fmt::Display for TimersSeen {
    fn fmt(&self, f: &mut fmt::Formatter) -> fmt::Result {
        for (kind, name, row) in ROWS {
            let counts: Vec<_> = row.iter().map(|number| format!("{number}: {}", self.given(kind, *number))).collect();
            writeln!(f, "{name:<9} {}", counts.join("  "))?;
        }
        for (count, (sight, _)) in self.sights.iter().zip(SIGHTS) {
            writeln!(f, "seen      {sight}: {count}")?;
        }
        write!(f, "at a tick {} messages at most", self.most_returned)
    }
}
