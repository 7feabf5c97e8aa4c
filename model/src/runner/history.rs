//! Calls that fit a board, and a board that grows by them, with the timer buffer that goes with it.

use super::case::{Request, KINDS, START, TICK};
use super::random::Random;
use crate::board::{word, Board, MsgNo, Status, TaskNo, BOARD_LEN, MESSAGES, SENDERS_PRIORITY, TASKS};
use crate::check::running;
use crate::timer::{set_now, Timer, TIMER_LEN};

/// How often each of the nineteen kinds, start and tick are tried.
type Weights = [u8; 21];

const INSTALL: u8 = 1;
const POST: u8 = 2;
const FIND: u8 = 3;
const CLAIM: u8 = 5;
const PREPARE: u8 = 6;
const SEND: u8 = 8;
const SEND_AND_WAIT: u8 = 9;
const RECEIVE: u8 = 16;
const RECEIVE_AND_WAIT: u8 = 17;
const CANCEL_MESSAGE: u8 = 18;

/// Which of the kinds a history is made of: the nineteen, start and tick.
const TRIED: std::ops::Range<usize> = 1..22;

/// Names of tasks: few, so that some are alike, and alike in one byte only.
const NAMES: [u16; 8] = [0x0000, 0x0001, 0x0002, 0x0100, 0x0101, 0x4154, 0x4155, 0xFFFF];

/// A bit of everything.
const MIXED: Weights = [5, 4, 2, 3, 10, 9, 3, 9, 3, 5, 2, 5, 2, 5, 2, 7, 3, 4, 2, 5, 5];
/// Messages are sent and nobody takes them.
const FLOOD: Weights = [1, 1, 1, 0, 8, 8, 0, 40, 0, 2, 0, 4, 0, 2, 0, 1, 0, 1, 0, 1, 1];
/// Tasks come and go.
const CROWD: Weights = [40, 4, 4, 8, 6, 4, 2, 5, 2, 2, 1, 2, 1, 2, 1, 4, 2, 2, 1, 3, 1];
/// Tasks wait, are woken and find their message gone.
const WAITS: Weights = [5, 9, 1, 3, 8, 4, 1, 10, 10, 2, 5, 2, 5, 2, 5, 3, 14, 12, 7, 3, 3];
/// Messages go on the timer and come back to tasks that wait.
const TIMED: Weights = [4, 4, 1, 6, 12, 9, 1, 4, 2, 1, 1, 1, 1, 1, 1, 6, 10, 5, 3, 30, 14];

/// A board that evolves by the model, and what its calls are like.
pub struct History {
    /// The board as it stands.
    pub board: Board,
    /// The timer buffer, lent to every start and tick.
    pub timer: Timer,
    weights: Weights,
    /// How many tasks it first strives for.
    tasks: usize,
    /// How many priorities are in use; with few, equal ones are common.
    priorities: usize,
    /// A task that gets more of the messages than others, and in how many of a hundred it is preferred.
    favourite: u16,
    preferred: usize,
    /// Most delays are not beyond this.
    long_delay: u16,
    calls_left: usize,
    calls_without_running: usize,
}

impl History {
    /// A history from a fresh board.
    pub fn new(random: &mut Random) -> History {
        let kinds = [(MIXED, 200), (FLOOD, 600), (CROWD, 120), (WAITS, 250), (TIMED, 300), (TIMED, 200)];
        let (weights, calls) = random.pick(&kinds);
        History {
            board: [0; BOARD_LEN],
            timer: fresh_timer(random),
            weights,
            tasks: random.pick(&[1, 2, 4, 8, 32]),
            priorities: random.pick(&[1, 2, 5, 20, 126]),
            favourite: random.upto(TASKS),
            preferred: random.pick(&[0, 60, 99]),
            long_delay: random.pick(&[1, 3, 6, 6, 300]),
            calls_left: calls / 2 + random.below(calls),
            calls_without_running: 0,
        }
    }

    /// Whether its calls are used up, or nobody is left to make them.
    pub fn is_over(&self) -> bool {
        self.calls_left == 0 || self.calls_without_running > 12
    }

    /// Makes the request on the board.
    pub fn advance(&mut self, request: &Request) {
        if request.call().is_some() || request.takes_timer() {
            request.make(&mut self.board, &mut self.timer);
        }
        self.calls_left -= 1;
        let runs = running(&self.board).is_some();
        self.calls_without_running = if runs { 0 } else { self.calls_without_running + 1 };
    }

    /// The next request: mostly one that fits the board, at times with one argument that may not, at times any at all.
    pub fn request(&self, random: &mut Random) -> Request {
        let mut request = self.fitting(random);
        let any = wild(random);
        match random.below(100) {
            0..4 => return any,
            4..6 => request.kind = any.kind,
            6..13 => match (request.kind, random.below(6)) {
                (INSTALL, 0..2) => request.stat = any.stat,
                (INSTALL, 2..5) => request.prio = any.prio,
                (6 | 8 | 9 | 12 | 13 | CANCEL_MESSAGE | START, 0..4) => request.b = any.b,
                _ => request.a = any.a,
            },
            13..17 => return self.of_timed(request, random),
            _ => (),
        }
        request
    }

    /// The same of a message on the timer, where a message is what is asked for; cancel message at the task that it goes to.
    fn of_timed(&self, request: Request, random: &mut Random) -> Request {
        let b = &self.board;
        let a = message_where(random, |m| m.is_on_timer(b));
        let sptr = MsgNo::new(a).map_or(0, |m| word(b, m.sptr_at()));
        match request.kind {
            CANCEL_MESSAGE => Request { a, b: sptr, ..request },
            6..=15 | START => Request { a, ..request },
            _ => request,
        }
    }

    /// A start or a tick, mostly one that fits the board.
    pub fn timer_request(&self, random: &mut Random) -> Request {
        let kind = random.pick(&[START, TICK]);
        let fitting = self.fitting_of(kind, random);
        if random.chance(85) {
            fitting
        } else {
            Request { kind, ..wild(random) }
        }
    }

    /// A request with arguments that the board can accept, as far as there are any.
    fn fitting(&self, random: &mut Random) -> Request {
        let kind = self.kind(running(&self.board), random);
        self.fitting_of(kind, random)
    }

    fn fitting_of(&self, kind: u8, random: &mut Random) -> Request {
        let b = &self.board;
        let c = running(b);
        // What a kind does not take is ignored, so it may be anything.
        let any = Request { kind, ..wild(random) };
        let held = self.held_message(kind, c, random);
        match kind {
            INSTALL => Request {
                a: task_where(random, |k| !k.is_present(b)),
                c: random.pick(&NAMES),
                stat: random.pick(&[0x01, 0x05, 0x09, 0x0D]),
                prio: (self.priority(random).clamp(1, 126) << 1) + 1,
                ..any
            },
            2 | 4 => Request { a: self.task_to_act_on(kind, random), ..any },
            3 => Request { a: random.pick(&NAMES), ..any },
            PREPARE => Request { a: held, b: self.sender(random), prio: self.message_prio(random), ..any },
            7 | 10 | 11 | 14 | 15 => Request { a: held, ..any },
            8 | 9 | 12 | 13 => Request { a: held, b: self.receiver(random), ..any },
            CANCEL_MESSAGE => self.queued_message(c, random, any),
            START => Request { a: held, b: self.delay(random), ..any },
            _ => any,
        }
    }

    fn kind(&self, c: Option<TaskNo>, random: &mut Random) -> u8 {
        let Some(c) = c else {
            let any = random.pick(&KINDS[TRIED]).0;
            return random.pick(&[INSTALL, INSTALL, POST, POST, POST, FIND, TICK, TICK, any]);
        };
        let b = &self.board;
        let present = TaskNo::all().filter(|k| k.is_present(b)).count();
        if present < self.tasks && random.chance(30) {
            return INSTALL;
        }
        let kind = KINDS[TRIED][random.weighted(&self.weights)].0;
        if random.chance(5) {
            return kind;
        }
        self.possible(kind, c)
    }

    /// The kind, or the one that first makes it possible: a message to cancel, resend or return was sent before, one to start
    /// names its sender, a message to send is held, a message to hold is free.
    fn possible(&self, kind: u8, c: TaskNo) -> u8 {
        let b = &self.board;
        let holds = MsgNo::all().any(|m| m.place(b) == c.held_place());
        let leads = MsgNo::all().any(|m| m.place(b) == c.held_place() && self.leads(kind, m));
        let has_free = MsgNo::all().any(|m| m.place(b) == 0);
        let awaits = MsgNo::all().any(|m| m.queued_at(b).is_some() && word(b, m.sptr_at()) == c.number());
        match kind {
            CANCEL_MESSAGE if !awaits => self.possible(SEND, c),
            6..=15 | START if !holds && has_free => CLAIM,
            6..=15 | START if !holds && word(b, c.queue_slot()) == 0 => RECEIVE_AND_WAIT,
            6..=15 | START if !holds => RECEIVE,
            10 | 14 if !leads => SEND,
            11 | 15 if !leads => SEND_AND_WAIT,
            START if !leads => PREPARE,
            _ => kind,
        }
    }

    /// Whether resend, return or start of the message finds a present task.
    fn leads(&self, kind: u8, m: MsgNo) -> bool {
        let pointer = if kind < 14 { m.rptr_at() } else { m.sptr_at() };
        TaskNo::new(word(&self.board, pointer)).is_some_and(|k| k.is_present(&self.board))
    }

    fn priority(&self, random: &mut Random) -> u8 {
        random.below(self.priorities) as u8 + u8::from(self.priorities > 100 && random.chance(50))
    }

    fn message_prio(&self, random: &mut Random) -> u8 {
        let priority = if random.chance(10) { SENDERS_PRIORITY } else { self.priority(random) };
        (priority << 1) + random.below(2) as u8
    }

    /// How many ticks a message is to be on the timer; at times any word, and no ticks.
    fn delay(&self, random: &mut Random) -> u16 {
        match random.below(30) {
            0 => 0,
            1 => random.word(),
            _ => random.upto(self.long_delay),
        }
    }

    /// A message that c holds, for resend, return and start one that leads to a present task.
    fn held_message(&self, kind: u8, c: Option<TaskNo>, random: &mut Random) -> u16 {
        let place = c.map_or(0, TaskNo::held_place);
        let must_lead = matches!(kind, 10 | 11 | 14 | 15 | START) && random.chance(95);
        message_where(random, |m| m.place(&self.board) == place && (!must_lead || self.leads(kind, m)))
    }

    /// A task to post to, rather one that waits for it; or one to cancel, rather one that can be cancelled but for the timer.
    fn task_to_act_on(&self, kind: u8, random: &mut Random) -> u16 {
        let b = &self.board;
        let waits = |k: TaskNo| k.status(b).has(Status::IWAT);
        let busy = |k: TaskNo| waits(k) || MsgNo::all().any(|m| [k.held_place(), k.queued_place()].contains(&m.place(b)));
        self.present_task(random, 60, |k| if kind == POST { waits(k) } else { !busy(k) })
    }

    /// The task that a message goes to: the favourite, one that waits, or any, at times an absent one.
    fn receiver(&self, random: &mut Random) -> u16 {
        let b = &self.board;
        let favourite = TaskNo::new(self.favourite).filter(|k| k.is_present(b) && random.chance(self.preferred));
        match favourite {
            Some(k) => k.number(),
            None if random.chance(4) => random.upto(TASKS),
            None => self.present_task(random, 50, |k| k.status(b).has(Status::WAIT)),
        }
    }

    /// A present task; in so many of a hundred rather one of which the wish holds.
    fn present_task(&self, random: &mut Random, percent: usize, wish: impl Fn(TaskNo) -> bool) -> u16 {
        let present = |k: TaskNo| k.is_present(&self.board);
        let wished = random.chance(percent) && TaskNo::all().any(|k| present(k) && wish(k));
        task_where(random, |k| present(k) && (!wished || wish(k)))
    }

    fn sender(&self, random: &mut Random) -> u16 {
        match random.below(20) {
            0..9 => 0,
            9..18 => task_where(random, |k| k.is_present(&self.board)),
            18 => random.upto(TASKS),
            _ => random.word(),
        }
    }

    /// Cancel message: one that c sent and nobody has taken, in half the cases the only one of its queue; at times another's.
    fn queued_message(&self, c: Option<TaskNo>, random: &mut Random, any: Request) -> Request {
        let b = &self.board;
        let (only, own) = (random.chance(50), random.chance(90));
        let sender = c.map_or(0, TaskNo::number);
        let fits = |m: MsgNo| {
            let alone = MsgNo::all().filter(|other| other.place(b) == m.place(b)).count() == 1;
            m.queued_at(b).is_some() && (word(b, m.sptr_at()) == sender) == own && (!only || alone)
        };
        let a = message_where(random, fits);
        let place = MsgNo::new(a).map_or(0, |m| m.place(b));
        Request { a, b: (place & 63).into(), ..any }
    }
}

/// The timer buffer of a new history: zero, but that now may be near the last tick, or anywhere.
fn fresh_timer(random: &mut Random) -> Timer {
    let mut timer = [0; TIMER_LEN];
    let near_the_last = u16::MAX - random.below(6) as u16;
    let any = random.word();
    set_now(&mut timer, random.pick(&[0, near_the_last, near_the_last, any]));
    timer
}

/// A request of any kind with any arguments.
pub fn wild(random: &mut Random) -> Request {
    Request {
        kind: random.pick(&KINDS).0,
        a: random.word(),
        b: random.word(),
        c: random.word(),
        stat: random.byte(),
        prio: random.byte(),
    }
}

/// A task of which this holds, else any.
pub(super) fn task_where(random: &mut Random, holds: impl Fn(TaskNo) -> bool) -> u16 {
    let found = random.pick_where(TASKS, |k| TaskNo::new(k).is_some_and(&holds));
    found.unwrap_or_else(|| random.upto(TASKS))
}

/// A message of which this holds, else any.
fn message_where(random: &mut Random, holds: impl Fn(MsgNo) -> bool) -> u16 {
    let found = random.pick_where(MESSAGES, |m| MsgNo::new(m).is_some_and(&holds));
    found.unwrap_or_else(|| random.upto(MESSAGES))
}
