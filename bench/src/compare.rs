//! A version against the model, on the cases of the differential run: histories, damaged boards and timer buffers, wild
//! arguments, wrong lengths.
use model::board::BOARD_LEN;
use model::runner::case::{self, Case, CHECK, CONVERT, FRESH, START, TICK};
use model::runner::cases::cases_of_seed;
use model::runner::timers_seen::TimersSeen;

use crate::version::{Asked, Request, Version, PLAIN};

/// How many cases of a kind were met.
#[derive(Default)]
pub struct Seen {
    /// Boards that the check refuses, by the rule that it names.
    pub rules: [usize; 8],
    /// Calls by the number of the refusal, 0 for those accepted.
    pub refusals: [usize; 32],
    /// Accepted calls by kind.
    pub accepted: [usize; 32],
    /// Boards by which of its group of four the lowest free message is, 0 where none is free.
    pub free: [usize; 5],
    /// Starts and ticks, and messages on the timer.
    pub timers: TimersSeen,
}

/// What was met in so many cases of a seed; an error where an answer or a byte differs. The check is tried on every board.
pub fn on_cases(seed: u64, count: usize, version: Version) -> Result<Seen, String> {
    let mut seen = Seen::default();
    for (number, case) in cases_of_seed(seed, count).into_iter().enumerate() {
        let differs = |what: &str| Err(format!("seed {seed}, case {number}, {}: the {what} differs", case.request.in_words()));
        seen.timers.count(&case, &case.reply());
        let checked = PLAIN.check(&case.board);
        if checked as u8 == 2 {
            seen.rules[(checked >> 8) as usize & 7] += 1;
        }
        if version.check(&case.board) != checked {
            return differs("check");
        }
        let free = PLAIN.lowest_free(&case.board);
        if case.board.len() == BOARD_LEN {
            seen.free[free.map_or(0, spot_in_group)] += 1;
        }
        if version.lowest_free(&case.board).is_some_and(|found| Some(found) != free) {
            return differs("lowest free message");
        }
        let Some(asked) = asked(&case.request) else { continue };
        let (told, after) = made(PLAIN, &case, &asked);
        let (ours, ours_after) = made(version, &case, &asked);
        if ours != told {
            return differs("answer");
        }
        if ours_after != after {
            return differs("board or the timer buffer");
        }
        seen.count(case.request.kind, told.map_or(0, |told| told as u8));
    }
    Ok(seen)
}

/// What a version is asked, if it is no check, no fresh board and no conversion.
fn asked(request: &case::Request) -> Option<Asked> {
    let case::Request { kind, a, b, c, stat, prio } = *request;
    match kind {
        CHECK | FRESH | CONVERT => None,
        START => Some(Asked::Start(a, b)),
        TICK => Some(Asked::Tick),
        _ => Some(Asked::Call(Request { kind, words: [a, b, c], stat, prio })),
    }
}

/// The answer, and the board and the timer buffer afterwards.
fn made(version: Version, case: &Case, asked: &Asked) -> (Option<u64>, (Vec<u8>, Vec<u8>)) {
    let (mut board, mut timer) = (case.board.clone(), case.timer.clone());
    (version.ask(&mut board, &mut timer, asked), (board, timer))
}

/// Which of its group of four a message is, from 1; 0 for no message.
fn spot_in_group(message: u16) -> usize {
    message.checked_sub(1).map_or(0, |before| usize::from(before % 4) + 1)
}

impl Seen {
    /// Adds what was met in other cases.
    pub fn add(&mut self, other: &Seen) {
        let counts = [(&mut self.rules[..], &other.rules[..]), (&mut self.refusals, &other.refusals)];
        let more = [(&mut self.accepted[..], &other.accepted[..]), (&mut self.free, &other.free)];
        for (into, from) in counts.into_iter().chain(more) {
            into.iter_mut().zip(from).for_each(|(into, from)| *into += from);
        }
        self.timers.add(&other.timers);
    }

    fn count(&mut self, kind: u8, refusal: u8) {
        if let Some(count) = self.refusals.get_mut(usize::from(refusal)) {
            *count += 1;
        }
        if let Some(count) = self.accepted.get_mut(usize::from(kind)).filter(|_| refusal == 0) {
            *count += 1;
        }
    }
}
