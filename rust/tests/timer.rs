//! The station timer: messages that come back, what is refused, and timers in lent bytes.
mod common;
use common::{prio_of, status_of, tasks, written};
use station::{Accepted, Board, MsgNo, Prio, Refusal, Rule, Status, TaskNo, Timer, BYTES, TIMERS, TIMER_BYTES};
use std::fmt::Debug;
use Refusal::*;

const LONE: TaskNo = TaskNo(1);
const FIRST: MsgNo = MsgNo(1);
const ON_TIMER: u8 = 128;

/// The place of message m.
fn place_of(board: &Board, m: MsgNo) -> u8 {
    board.as_bytes()[1348 + usize::from(m.0) - 1]
}

/// The running task claims a message, which is to come back to task k.
fn written_for(board: &mut Board, prio: Prio, k: TaskNo) -> MsgNo {
    let m = written(board, prio);
    board.prepare(m, 0, prio, Some(k)).unwrap();
    m
}

/// A lone task with a message that is to come back to it, and a new timer.
fn lone() -> (Board, Timer) {
    let mut board = tasks(&[25]);
    written_for(&mut board, Prio::fifo(9), LONE);
    (board, Timer::new())
}

/// The call is refused so, and neither the board nor the timer has changed.
fn refused<T: AsMut<[u8]> + Clone + PartialEq + Debug>(
    board: &Board,
    timer: &Timer<T>,
    want: Refusal,
    call: impl Fn(&mut Board, &mut Timer<T>) -> station::Answer,
) {
    let (mut board_after, mut timer_after) = (board.clone(), timer.clone());
    assert_eq!(call(&mut board_after, &mut timer_after), Err(want));
    assert_eq!((&board_after, &timer_after), (board, timer), "{want}");
}

/// Both start and tick.
fn both_refused<T: AsMut<[u8]> + Clone + PartialEq + Debug>(board: &Board, timer: &Timer<T>, want: Refusal) {
    refused(board, timer, want, |b, t| b.start(t, FIRST, 0));
    refused(board, timer, want, |b, t| b.tick(t));
}

/// What is accepted, without a value.
fn ran(running: Option<TaskNo>, delivered: Option<MsgNo>) -> station::Answer {
    Ok(Accepted { value: (), running, delivered })
}

#[test]
fn a_message_comes_back_at_its_tick() {
    let (mut board, mut timer) = lone();
    assert_eq!(board.start(&mut timer, FIRST, 0x0203), ran(Some(LONE), None));
    assert_eq!(place_of(&board, FIRST), ON_TIMER);
    assert_eq!(timer.as_bytes()[..6], [0, 0, 1, 0x03, 0x02, 0]);
    assert!(timer.entries().eq([(FIRST, 0x0203)]));
    assert_eq!(board.receive_and_wait(), ran(None, None));
    for now in 1..0x0203 {
        assert_eq!(board.tick(&mut timer), ran(None, None));
        assert_eq!(timer.now(), now);
    }
    assert_eq!(board.tick(&mut timer), ran(Some(LONE), Some(FIRST)));
    assert_eq!(place_of(&board, FIRST), 1);
    assert_eq!((timer.now(), timer.entries().next()), (0x0203, None));
}

#[test]
fn the_longest_delay_runs_past_65_535() {
    let (mut board, mut timer) = lone();
    board.tick(&mut timer).unwrap();
    board.start(&mut timer, FIRST, u16::MAX).unwrap();
    assert!(timer.entries().eq([(FIRST, 0)]));
    for _ in 1..u16::MAX {
        board.tick(&mut timer).unwrap();
        assert_eq!(place_of(&board, FIRST), ON_TIMER);
    }
    assert_eq!(timer.now(), u16::MAX);
    board.tick(&mut timer).unwrap();
    assert_eq!((timer.now(), board.receive().unwrap().value), (0, Some(FIRST)));
    assert_eq!(timer, Timer::new());
}

#[test]
fn several_are_due_in_entry_order_and_handed_over_by_rank() {
    let (mut board, mut timer) = (tasks(&[25]), Timer::new());
    for (prio, delay) in [(0x15, 2), (0x14, 2), (0x0B, 2), (0x15, 3)] {
        let m = written_for(&mut board, Prio(prio), LONE);
        board.start(&mut timer, m, delay).unwrap();
    }
    board.receive_and_wait().unwrap();
    assert_eq!(board.tick(&mut timer), ran(None, None));
    assert_eq!(board.tick(&mut timer), ran(Some(LONE), Some(MsgNo(3)))); // the most urgent of the three
    assert!(timer.entries().eq([(MsgNo(4), 3)]));
    assert_eq!(prio_of(&board, MsgNo(2)), Prio(0x15)); // LIFO went before its equal, and is FIFO from now on
    assert_eq!([(); 3].map(|()| board.receive().unwrap().value), [Some(MsgNo(2)), Some(FIRST), None]);
    let m = written_for(&mut board, Prio::fifo(1), LONE);
    board.start(&mut timer, m, 1).unwrap(); // on the lowest free entry
    assert!(timer.entries().eq([(m, 3), (MsgNo(4), 3)]));
}

#[test]
fn a_more_urgent_task_runs_and_an_equal_does_not_push_aside() {
    for (priority, runs) in [(10, 1), (25, 2), (30, 2)] {
        let (mut board, mut timer) = (tasks(&[priority]), Timer::new());
        board.receive_and_wait().unwrap();
        board.install(TaskNo(2), Status::TCBB, Prio::fifo(25), 0, 0).unwrap();
        let m = written_for(&mut board, Prio::fifo(9), LONE);
        board.start(&mut timer, m, 1).unwrap();
        let delivered = Some(m).filter(|_| runs == 1);
        assert_eq!(board.tick(&mut timer), ran(Some(TaskNo(runs)), delivered));
        assert_eq!(status_of(&board, LONE).has(Status::MHBS), delivered.is_none());
    }
}

#[test]
fn nothing_stops_a_timer() {
    let (mut board, mut timer) = lone();
    board.start(&mut timer, FIRST, 1).unwrap();
    assert_eq!(board.release(FIRST), Err(NotHeld));
    assert_eq!(board.prepare(FIRST, 0, Prio::fifo(1), None), Err(NotHeld));
    assert_eq!(board.start(&mut timer, FIRST, 1), Err(NotHeld));
    assert_eq!(board.cancel_message(FIRST, LONE), Err(NotQueued));
    assert_eq!(board.cancel_task(LONE), Err(TaskBusy));
    assert_ne!(board.claim().unwrap().value, FIRST);
    board.tick(&mut timer).unwrap();
    assert_eq!(board.receive().unwrap().value, Some(FIRST));
}

#[test]
fn what_start_refuses() {
    let (mut board, mut timer) = lone();
    refused(&Board::fresh(), &timer, NobodyRuns, |b, t| b.start(t, MsgNo(0), 0));
    for m in [0, 129, 0xFFFF] {
        refused(&board, &timer, NoSuchMessage, |b, t| b.start(t, MsgNo(m), 0));
    }
    refused(&board, &timer, NotHeld, |b, t| b.start(t, MsgNo(2), 0));
    let nobodys = written(&mut board, Prio::fifo(Prio::SENDERS_OWN)); // SPTR is 0
    refused(&board, &timer, NoSuchTask, |b, t| b.start(t, nobodys, 0));
    let absent = written_for(&mut board, Prio::fifo(9), TaskNo(2));
    refused(&board, &timer, NoSuchTask, |b, t| b.start(t, absent, 0));
    let unplaced = written_for(&mut board, Prio::fifo(Prio::SENDERS_OWN), LONE);
    refused(&board, &timer, BadPriority, |b, t| b.start(t, unplaced, 0));
    refused(&board, &timer, NoDelay, |b, t| b.start(t, FIRST, 0));
    for _ in 0..TIMERS {
        let m = written_for(&mut board, Prio::fifo(9), LONE);
        board.start(&mut timer, m, 1).unwrap();
    }
    refused(&board, &timer, NoDelay, |b, t| b.start(t, FIRST, 0));
    refused(&board, &timer, NoTimerFree, |b, t| b.start(t, FIRST, 1));
    board.tick(&mut timer).unwrap();
    board.start(&mut timer, FIRST, 1).unwrap();
}

#[test]
fn a_timer_that_does_not_go_with_the_board() {
    let (mut board, mut timer) = lone();
    board.start(&mut timer, FIRST, 5).unwrap();
    // nobody zeroed it when the board was made fresh; the message is in no entry
    both_refused(&Board::fresh(), &timer, BadTimer);
    both_refused(&board, &Timer::new(), BadTimer);
    // another message in its entry; it once more, one beyond the board, one that is free; free entries that are not zero
    for (place, byte) in [(2, 2), (5, 1), (5, 129), (5, 2), (6, 1), (49, 1)] {
        let mut bytes = timer.clone().into_bytes();
        bytes[place] = byte;
        both_refused(&board, &Timer::lent(bytes), BadTimer);
    }
    for len in [0, 1, 2, 3, TIMER_BYTES - 1, TIMER_BYTES + 1, BYTES] {
        both_refused(&Board::fresh(), &Timer::lent(vec![0; len]), BadTimer);
    }
}

#[test]
fn the_board_is_judged_before_the_timer() {
    let (mut board, mut timer) = lone();
    board.start(&mut timer, FIRST, 5).unwrap();
    let mut bytes = board.into_bytes();
    bytes[325] = Prio::fifo(Prio::SENDERS_OWN).0; // on a timer it can't have that
    let board = Board::lent(bytes);
    assert_eq!(board.check(), Err(RuleBroken(Rule::R4(FIRST))));
    both_refused(&board, &timer, RuleBroken(Rule::R4(FIRST)));
    both_refused(&board, &Timer::lent(Vec::new()), RuleBroken(Rule::R4(FIRST)));
    assert_eq!(Board::lent(&mut bytes[1..]).tick(&mut Timer::lent([])), Err(WrongLength));
}

#[test]
fn a_lent_timer_is_as_an_owned_one() {
    fn story<T: AsMut<[u8]>>(board: &mut Board, timer: &mut Timer<T>) -> station::Answer {
        board.start(timer, FIRST, 2)?;
        board.receive_and_wait()?;
        board.tick(timer)?;
        board.tick(timer)
    }
    let (board, mut owned) = lone();
    let mut after = board.clone();
    assert_eq!(story(&mut after, &mut owned), ran(Some(LONE), Some(FIRST)));
    assert_eq!(Timer::default(), Timer::new());

    let mut memory = [0xA5; TIMER_BYTES + 20];
    memory[10..10 + TIMER_BYTES].fill(0);
    let mut lent = board.clone();
    story(&mut lent, &mut Timer::lent(&mut memory[10..10 + TIMER_BYTES])).unwrap();
    assert_eq!(lent, after);
    assert_eq!(memory[10..10 + TIMER_BYTES], *owned.as_bytes());
    assert!(memory[..10].iter().chain(&memory[10 + TIMER_BYTES..]).all(|&byte| byte == 0xA5));

    let mut bytes = [0; TIMER_BYTES];
    let (mut lent, mut timer) = (board, Timer::lent(&mut bytes));
    story(&mut lent, &mut timer).unwrap();
    assert_eq!((timer.now(), timer.entries().count()), (2, 0));
    assert_eq!(bytes, owned.into_bytes());
}
