//! The boards and the calls that are timed.
use model::board::{set_word, word, Board, MsgNo, Status, TaskNo, BOARD_LEN, MESSAGES, RUNNING, TASKS};
use model::runner::history::History;
use model::runner::random::Random;
use model::timer::{now, Entry, Timer, TIMER_LEN};
use model::{Answer, Call};

use crate::version::{Asked, Request, Version};

/// A row of the table.
pub struct Case {
    /// What the row is called.
    pub name: &'static str,
    /// What is asked, and of what; of several boards the check, start and tick only, and of each the same.
    pub lots: Vec<Lot>,
    /// Which of them comes when, in a batch.
    pub turns: Vec<usize>,
    /// The answer that is timed; nothing where it is any that is accepted.
    pub answer: Option<u64>,
    /// The row of the check of the same boards, where the two are compared.
    pub check: Option<&'static str>,
}

/// A board with its timer buffer, and what is asked of them.
#[derive(Clone, Copy)]
pub struct Lot {
    /// The board.
    pub board: Board,
    /// The timer buffer, for start and tick.
    pub timer: Timer,
    /// What is asked.
    pub asked: Asked,
}

/// The answer, and the board and the timer buffer afterwards.
type Told = (u64, Board, Timer);

impl Lot {
    /// What a version makes of it; nothing where it cannot be asked.
    pub fn ask(&self, version: Version) -> Option<Told> {
        let (mut board, mut timer) = (version.form(&self.board), self.timer);
        version.ask(&mut board, &mut timer, &self.asked).map(|answer| (answer, board, timer))
    }
}

impl Case {
    /// An error where the versions differ in an answer or a byte, or where the answer is not the one that is timed. The version of
    /// a landing before may have none; one that knows old boards only has no byte 1 to compare, but it must say that the same
    /// task runs.
    pub fn compare(&self, versions: &[Version], before: Option<Version>) -> Result<(), String> {
        for lot in &self.lots {
            let Some(told) = lot.ask(versions[0]) else { return Err(format!("{}: the library cannot be asked", self.name)) };
            let is_timed = self.answer.map_or(told.0 as u8 == 0, |answer| told.0 == answer);
            let alike = versions.iter().all(|version| lot.ask(*version) == Some(told));
            let as_before = |version: Version| lot.ask(version).is_none_or(|before| is_as_before(told, before, version));
            if !is_timed || !alike || !before.is_none_or(as_before) {
                return Err(format!("{}: not the answer that is timed, or the answers or the boards differ", self.name));
            }
        }
        Ok(())
    }
}

/// Whether a library of a landing before does the same; it may give 2 alone, without the rule and the record.
fn is_as_before((told, after, timer): Told, before: Told, version: Version) -> bool {
    before == (if before.0 == 2 { told & 0xFF } else { told }, version.form(&after), timer)
}

/// All rows. On their boards, but for those with timers, the first ready task runs, before the call and after it, so that a
/// library which knows old boards only does the same.
pub fn all() -> Vec<Case> {
    let checks = checks().into_iter().chain(refused_checks());
    let calls = claims().into_iter().chain(calls()).chain(calls_of_the_last());
    checks.chain(searches()).chain(calls).chain(timers_by_turns()).chain(sixteen_due()).collect()
}

fn checks() -> [Case; 6] {
    [
        check("check of a fresh board", [0; BOARD_LEN]),
        check("check, 3 tasks and 5 messages", sent(held(tasks(3), 5), 4, |_| 2)),
        check("check, 32 queues of 4", queues_of_4()),
        check("check, one queue of 128", queue_of_128()),
        check("check, last of 32 tasks runs", last_runs()),
        by_turns("check, 40 boards of histories by turns", histories().map(|board| lot(board, Asked::Check))),
    ]
}

/// Checks of full boards with a fault that is late to be found.
fn refused_checks() -> [Case; 8] {
    let last = TaskNo::new(TASKS).expect("a task");
    let of_4 = |name, rule, record, fault: &dyn Fn(&mut Board)| refused(name, rule, record, queues_of_4(), fault);
    let cut_short = |b: &mut Board| set_word(b, message(word(b, last.queue_slot())).link_slot(), 0);
    let leads_back = |b: &mut Board| set_word(b, message(MESSAGES).link_slot(), 1);
    let leads_to_itself = |b: &mut Board| set_word(b, message(MESSAGES).link_slot(), MESSAGES);
    let last_runs_and_is_due = |b: &mut Board| {
        TaskNo::all().for_each(|k| b[k.at()] |= Status::IWAT);
        b[last.at()] = Status::TCBB | Status::MHBS;
        b[RUNNING] = last.byte();
    };
    [
        of_4("check, refused: R2 at the last of 32 tasks", 2, TASKS, &|b| b[last.prio_at()] = 0xFF),
        of_4("check, refused: R3, the last of 32 tasks leads back", 3, 0, &|b| set_word(b, last.link_slot(), 1)),
        of_4("check, refused: R4 at the last of 128 messages", 4, MESSAGES, &|b| b[message(MESSAGES).rptr_at()] = 33),
        of_4("check, refused: R5 at the last of 32 queues of 4", 5, TASKS, &cut_short),
        refused("check, refused: R5, the queue of 128 leads back", 5, 2, queue_of_128(), &leads_back),
        refused("check, refused: R5, behind a queue of 127 one leads back", 5, 31, queues_of_127_and_1(), &leads_to_itself),
        of_4("check, refused: R6 at the last of 32 tasks", 6, TASKS, &|b| b[last.at()] |= Status::WAIT),
        of_4("check, refused: R7, the last of 32 tasks runs", 7, TASKS, &last_runs_and_is_due),
    ]
}

/// Claim's search by itself, without the check before it.
fn searches() -> [Case; 4] {
    let search =
        |name, held_count, found| Case { answer: Some(found), ..row(name, lot(held(tasks(31), held_count), Asked::LowestFree)) };
    [
        search("claim's search, all 128 free", 0, 1),
        search("claim's search, half are free", 64, 65),
        search("claim's search, the last one free", 127, 128),
        search("claim's search, none free", 128, 0),
    ]
}

/// Whole claims, by a task that holds what is not free.
fn claims() -> [Case; 5] {
    let claim = |name, board| call(name, board, 5, [0; 3]);
    let held = |count| held(tasks(31), count);
    [
        claim("claim, all 128 free", held(0)),
        claim("claim, half are free", held(64)),
        claim("claim, the last one free", held(127)),
        Case { answer: Some(11), ..claim("claim, none free: refused with 11", held(128)) },
        claim("claim, last of 32 tasks runs", last_runs()),
    ]
}

/// Calls on boards with 31 tasks. A queue grows to the length that is told, or is that long before it is taken from.
fn calls() -> [Case; 6] {
    let held = |count| held(tasks(31), count);
    [
        call("send, queue of 1", held(1), 8, [1, 2, 0]),
        call("receive, queue of 1", sent(held(1), 1, |_| 1), 16, [0; 3]),
        call("send, queue of 128", sent(held(128), 127, |_| 2), 8, [128, 2, 0]),
        call("receive, queue of 128", sent(held(128), 128, |_| 1), 16, [0; 3]),
        call("install beside 31 tasks", tasks(31), 1, [32, 0, 7]),
        call("find, last of 31", tasks(31), 3, [31, 0, 0]),
    ]
}

/// Calls on boards with 31 tasks, where all but the last wait, the odd ones for a message and the even ones for an interrupt.
/// They change nothing in who is ready.
fn calls_of_the_last() -> [Case; 5] {
    [
        call("post to a task that waits for a message, last of 31 tasks runs", last_of_31_runs(), 2, [1, 0, 0]),
        call("send to a task that waits for an interrupt, last of 31 tasks runs", held(last_of_31_runs(), 1), 8, [1, 2, 0]),
        call("receive, last of 31 tasks runs", sent(held(last_of_31_runs(), 1), 1, |_| 31), 16, [0; 3]),
        call("claim, last of 31 tasks runs", last_of_31_runs(), 5, [0; 3]),
        call("find, last of 31 tasks, which runs", last_of_31_runs(), 3, [31, 0, 0]),
    ]
}

/// Start, and a tick at which nothing is due, on boards with timers, and the check of them alone.
fn timers_by_turns() -> [Case; 3] {
    let alone = "check, 40 boards of histories with timers by turns";
    let starts = timer_histories();
    let each = |asked| starts.iter().map(move |lot| Lot { asked, ..*lot });
    [
        by_turns(alone, each(Asked::Check)),
        Case { check: Some(alone), ..by_turns("tick, nothing due, the same boards by turns", each(Asked::Tick)) },
        Case { check: Some(alone), ..by_turns("start, the same boards by turns", starts.iter().copied()) },
    ]
}

/// A tick at which all sixteen timers are due, each with a long walk, and the check alone.
fn sixteen_due() -> [Case; 2] {
    let alone = "check, queue of 112 and sixteen timers";
    let lot = queue_of_112_and_timers();
    [
        row(alone, Lot { asked: Asked::Check, ..lot }),
        Case { check: Some(alone), ..row("tick, sixteen due into the queue of 112", lot) },
    ]
}

/// What is asked of a board whose timer buffer is zero.
fn lot(board: Board, asked: Asked) -> Lot {
    Lot { board, timer: [0; TIMER_LEN], asked }
}

fn row(name: &'static str, lot: Lot) -> Case {
    Case { name, lots: vec![lot], turns: vec![0; 128], answer: None, check: None }
}

/// The same of 40 boards, which come in any order.
fn by_turns(name: &'static str, lots: impl Iterator<Item = Lot>) -> Case {
    let mut random = Random::new(7);
    let turns = (0..4096).map(|_| random.below(40)).collect();
    Case { name, lots: lots.take(40).collect(), turns, answer: None, check: None }
}

fn check(name: &'static str, board: Board) -> Case {
    row(name, lot(board, Asked::Check))
}

/// The check of a board with a fault, which is named by this rule and this record.
fn refused(name: &'static str, rule: u64, record: u16, mut board: Board, fault: &dyn Fn(&mut Board)) -> Case {
    fault(&mut board);
    Case { answer: Some(2 | rule << 8 | u64::from(record) << 16), ..check(name, board) }
}

fn call(name: &'static str, board: Board, kind: u8, words: [u16; 3]) -> Case {
    row(name, lot(board, Asked::Call(Request { kind, words, stat: 1, prio: 51 })))
}

/// The value of a call that is accepted.
fn made(board: &mut Board, call: Call) -> u16 {
    accepted(model::step(board, call))
}

fn accepted(answer: Answer) -> u16 {
    match answer {
        Answer::Accepted { value, .. } => value,
        Answer::Refused(refusal) => unreachable!("refused with {}", refusal.number()),
    }
}

/// So many tasks of one priority, named by their numbers; task 1 runs.
fn tasks(count: u16) -> Board {
    let mut board = [0; BOARD_LEN];
    for k in 1..=count {
        made(&mut board, Call::Install { task: k, stat: 1, prio: 51, sptr: 0, name: k });
    }
    board
}

/// Tasks 1 to 31 wait for a message, and task 32 runs.
fn last_runs() -> Board {
    let mut board = tasks(32);
    for _ in 1..=31 {
        made(&mut board, Call::ReceiveAndWait);
    }
    board
}

/// Of 31 tasks the last runs; the others wait in turn for a message and for an interrupt.
fn last_of_31_runs() -> Board {
    let mut board = tasks(31);
    for k in 1..=30 {
        made(&mut board, if k % 2 == 1 { Call::ReceiveAndWait } else { Call::WaitForInterrupt });
    }
    board
}

/// The running task claims so many messages, each with one priority, FIFO.
fn held(mut board: Board, count: u16) -> Board {
    for _ in 0..count {
        let message = made(&mut board, Call::Claim);
        made(&mut board, Call::Prepare { message, stat: 0, prio: 51, sptr: 0 });
    }
    board
}

/// Message m for m from 1 to so many goes to the task that `to` says.
fn sent(mut board: Board, count: u16, to: impl Fn(u16) -> u16) -> Board {
    for m in 1..=count {
        made(&mut board, Call::Send { message: m, receiver: to(m) });
    }
    board
}

fn queues_of_4() -> Board {
    sent(held(tasks(32), 128), 128, |m| 1 + m % 32)
}

fn queue_of_128() -> Board {
    sent(held(tasks(31), 128), 128, |_| 2)
}

fn queues_of_127_and_1() -> Board {
    sent(held(tasks(31), 128), 128, |m| if m < 128 { 2 } else { 31 })
}

/// Of the 128 messages 112 are queued at task 2. The others are on the timer, due at the next tick, and go back to task 2, into
/// the last spot but one.
fn queue_of_112_and_timers() -> Lot {
    let (mut board, mut timer) = (held(tasks(31), 128), [0; TIMER_LEN]);
    made(&mut board, Call::Prepare { message: 112, stat: 0, prio: 53, sptr: 0 });
    let mut board = sent(board, 112, |_| 2);
    for message in 113..=128 {
        made(&mut board, Call::Prepare { message, stat: 0, prio: 51, sptr: 2 });
        accepted(model::start(&mut board, &mut timer, message, 1));
    }
    Lot { board, timer, asked: Asked::Tick }
}

fn message(number: u16) -> MsgNo {
    MsgNo::new(number).expect("a message")
}

/// Boards as random calls leave them, with few tasks and messages or many, where no timer runs and the first ready task does:
/// such a board comes of its old form by the conversion.
fn histories() -> impl Iterator<Item = Board> {
    let is_of_old = |board: &Board| {
        let mut old = *board;
        old[RUNNING] = 0;
        matches!(model::convert(&mut old), Answer::Accepted { .. }) && old == *board
    };
    ended_histories(99).map(|history| history.board).filter(is_of_old)
}

/// Boards as random calls leave them, four of each number of timers from 1 to 10, none of them due at the next tick; and a start
/// that is accepted.
fn timer_histories() -> Vec<Lot> {
    // how many are wanted, by the number of timers
    let mut wanted = [0, 4, 4, 4, 4, 4, 4, 4, 4, 4, 4];
    let is_wanted = |lot: &Lot| {
        let used = Entry::all().filter(|entry| entry.is_used(&lot.timer)).count();
        let left = wanted.get_mut(used).filter(|left| **left > 0);
        left.map(|left| *left -= 1).is_some()
    };
    ended_histories(100).filter_map(accepted_start).filter(is_wanted).take(40).collect()
}

/// The start of the lowest message that can be started, if there is one and nothing is due at the next tick.
fn accepted_start(History { board, timer, .. }: History) -> Option<Lot> {
    let is_due = |entry: Entry| entry.is_used(&timer) && entry.due(&timer) == now(&timer).wrapping_add(1);
    let is_accepted =
        |m: &MsgNo| matches!(model::start(&mut { board }, &mut { timer }, m.number(), 300), Answer::Accepted { .. });
    let message = MsgNo::all().find(is_accepted).filter(|_| !Entry::all().any(is_due))?;
    Some(Lot { board, timer, asked: Asked::Start(message.number(), 300) })
}

/// Histories of 20 calls to 219, or fewer where one is over before.
fn ended_histories(seed: u64) -> impl Iterator<Item = History> {
    let mut random = Random::new(seed);
    std::iter::repeat_with(move || {
        let mut history = History::new(&mut random);
        for _ in 0..20 + random.below(200) {
            if history.is_over() {
                break;
            }
            let request = history.request(&mut random);
            history.advance(&request);
        }
        history
    })
}
