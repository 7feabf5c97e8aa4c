//! Each refusal that can be given by the nineteen calls, and that it changes nothing; those of the timer are in timer.rs.
mod common;
use common::{tasks, written};
use station::{Board, MsgNo, Prio, Refusal, Rule, Status, TaskNo};
use Refusal::*;

const LONE: TaskNo = TaskNo(1);
const FIRST: MsgNo = MsgNo(1);

/// The call is refused so, and the board is as it was.
fn refused<T>(board: &Board, want: Refusal, call: impl Fn(&mut Board) -> Result<T, Refusal>) {
    let mut after = board.clone();
    assert_eq!(call(&mut after).err(), Some(want));
    assert_eq!(&after, board, "{want}");
}

fn install(k: u16, stat: Status, prio: Prio) -> impl Fn(&mut Board) -> station::Answer {
    move |b| b.install(TaskNo(k), stat, prio, 0, 0)
}

#[test]
fn a_board_that_is_none() {
    let mut broken = tasks(&[25]).into_bytes();
    broken[2] = 1;
    refused(&Board::lent(broken), RuleBroken(Rule::R1), |b| b.claim());
    refused(&Board::lent(broken), RuleBroken(Rule::R1), |b| b.check());
    let mut short = [0; 1475];
    assert_eq!(Board::lent(&mut short[..]).make_fresh(), Err(WrongLength));
    assert_eq!(Board::lent(&mut short[..]).convert(), Err(WrongLength));
}

#[test]
fn nobody_runs() {
    refused(&Board::fresh(), NobodyRuns, |b| b.claim());
    refused(&Board::fresh(), NobodyRuns, |b| b.cancel_task(TaskNo(33))); // the lowest that applies
}

#[test]
fn no_such_message_or_not_held() {
    let board = tasks(&[25]);
    for m in [0, 129, 0xFFFF] {
        refused(&board, NoSuchMessage, |b| b.send(MsgNo(m), TaskNo(0)));
        refused(&board, NoSuchMessage, |b| b.prepare(MsgNo(m), 0, Prio(0), None));
        refused(&board, NoSuchMessage, |b| b.cancel_message(MsgNo(m), TaskNo(0)));
    }
    refused(&board, NotHeld, |b| b.release(FIRST));
    refused(&board, NotHeld, |b| b.return_message(MsgNo(128)));
}

#[test]
fn no_such_task() {
    let mut board = tasks(&[25]);
    written(&mut board, Prio::fifo(9));
    for k in [0, 2, 33, 257, 0xFFFF] {
        refused(&board, NoSuchTask, |b| b.post_interrupt(TaskNo(k)));
        refused(&board, NoSuchTask, |b| b.cancel_task(TaskNo(k)));
        refused(&board, NoSuchTask, |b| b.send(FIRST, TaskNo(k)));
        refused(&board, NoSuchTask, |b| b.forward_and_wait(FIRST, TaskNo(k)));
    }
    refused(&board, NoSuchTask, |b| b.resend(FIRST)); // never sent: RPTR is 0
    refused(&board, NoSuchTask, |b| b.return_message(FIRST));
}

#[test]
fn bad_priority() {
    for prio in [0x00, 0x01, 0x02, 0x32, 0xFE, 0xFF] {
        refused(&Board::fresh(), BadPriority, install(1, Status::TCBB, Prio(prio)));
    }
    let mut board = tasks(&[25]);
    written(&mut board, Prio::fifo(Prio::SENDERS_OWN));
    refused(&board, BadPriority, |b| b.forward(FIRST, LONE));
}

#[test]
fn not_installable_or_bad_status() {
    let board = tasks(&[25]);
    for k in [0, 1, 33, 257] {
        refused(&board, NotInstallable, install(k, Status(0), Prio::fifo(1)));
    }
    let bits = [Status::WAIT, Status::IWAT, Status(0x20), Status::INTQ, Status::MHBS];
    for stat in bits.map(|bit| Status::TCBB | bit).into_iter().chain([Status::DEBUG]) {
        refused(&board, BadStatus, install(2, stat, Prio::fifo(1)));
    }
}

#[test]
fn a_busy_task() {
    let mut board = tasks(&[25, 30]);
    board.claim().unwrap();
    refused(&board, TaskBusy, |b| b.cancel_task(LONE)); // holds one
    board.send(FIRST, TaskNo(2)).unwrap();
    refused(&board, TaskBusy, |b| b.cancel_task(TaskNo(2))); // has one queued
    board.wait_for_interrupt().unwrap();
    refused(&board, TaskBusy, |b| b.cancel_task(LONE)); // waits for an interrupt
}

#[test]
fn none_free() {
    let mut board = tasks(&[25]);
    while board.claim().is_ok() {}
    refused(&board, NoneFree, |b| b.claim());
}

#[test]
fn a_message_that_cannot_be_cancelled() {
    let mut board = tasks(&[25]);
    let m = board.claim().unwrap().value;
    refused(&board, NotQueued, |b| b.cancel_message(m, LONE));
    board.prepare(m, 0, Prio::fifo(9), Some(TaskNo(2))).unwrap();
    board.send(m, LONE).unwrap();
    refused(&board, NotItsSender, |b| b.cancel_message(m, LONE));
}

#[test]
fn a_bad_sender() {
    let mut board = tasks(&[25]);
    let m = board.claim().unwrap().value;
    refused(&board, BadSender, |b| b.prepare(m, 0, Prio(0), Some(TaskNo(33))));
    board.prepare(m, 0xFF, Prio(0), Some(TaskNo(32))).unwrap(); // absent, but a task number
}

#[test]
#[should_panic(expected = "a priority is 0 to 127")]
fn no_priority_above_127() {
    Prio::fifo(128);
}

/// A board with a message in the queue of each of two tasks, and what its check says of one byte changed.
fn broken_by(place: usize, byte: u8) -> Option<Refusal> {
    let mut board = tasks(&[25, 30]);
    for k in [1, 2].map(TaskNo) {
        let m = written(&mut board, Prio::fifo(9));
        board.send(m, k).unwrap();
    }
    let mut bytes = board.into_bytes();
    bytes[place] = byte;
    Board::from_bytes(&bytes).err()
}

#[test]
fn each_rule_with_its_record() {
    let (task_2, message_1, message_2, message_128, place_128) = (14, 324, 332, 1340, 1475);
    let waits = (Status::TCBB | Status::WAIT).0;
    let due = (Status::TCBB | Status::MHBS).0;
    assert_eq!(broken_by(task_2, Status::TCBB.0), None);
    assert_eq!(broken_by(3, 1), Some(RuleBroken(Rule::R1)));
    assert_eq!(broken_by(task_2, 0), Some(RuleBroken(Rule::R2(TaskNo(2)))));
    assert_eq!(broken_by(4 + 10 * 31, 1), Some(RuleBroken(Rule::R2(TaskNo(32)))));
    assert_eq!(broken_by(0, 2), Some(RuleBroken(Rule::R3)));
    assert_eq!(broken_by(message_1 + 1, 0xFF), Some(RuleBroken(Rule::R4(MsgNo(1)))));
    assert_eq!(broken_by(message_128, 1), Some(RuleBroken(Rule::R4(MsgNo(128)))));
    assert_eq!(broken_by(place_128, 3), Some(RuleBroken(Rule::R4(MsgNo(128)))));
    assert_eq!(broken_by(task_2 + 4, 0), Some(RuleBroken(Rule::R5(TaskNo(2)))));
    assert_eq!(broken_by(message_2 + 2, 1), Some(RuleBroken(Rule::R5(TaskNo(2))))); // it shares a tail with task 1
    assert_eq!(broken_by(task_2, waits), Some(RuleBroken(Rule::R6(TaskNo(2)))));
    assert_eq!(broken_by(4, due), Some(RuleBroken(Rule::R7(1))));
    // byte 1: nobody, a ready task of a larger number, an absent one, and no task
    for byte in [0, 2, 3, 32, 33, 255] {
        assert_eq!(broken_by(1, byte), Some(RuleBroken(Rule::R7(byte))));
    }
}

#[test]
fn an_old_board_is_refused_by_its_own_rules() {
    let board = tasks(&[25, 30]);
    refused(&board, RuleBroken(Rule::R1), |b| b.convert()); // byte 1 names who runs
    let mut old = board.into_bytes();
    old[1] = 0;
    refused(&Board::lent(old), RuleBroken(Rule::R7(0)), |b| b.check());
    old[0] = 2;
    refused(&Board::lent(old), RuleBroken(Rule::R3), |b| b.convert());

    // of two equals the earlier is due a message, and the later runs
    let mut board = tasks(&[25, 25]);
    board.receive_and_wait().unwrap();
    let m = written(&mut board, Prio::fifo(9));
    assert_eq!(board.send(m, LONE).unwrap().running, Some(TaskNo(2)));
    let mut old = board.into_bytes();
    old[1] = 0;
    refused(&Board::lent(old), RuleBroken(Rule::R7(1)), |b| b.convert());
}

#[test]
fn numbers_and_words() {
    for number in 1..=18 {
        assert_eq!(Refusal::from_numbers(number, 4, 128).map(Refusal::number), Some(number));
    }
    assert_eq!([0, 19, 255].map(|number| Refusal::from_numbers(number, 4, 128)), [None; 3]);
    assert_eq!(Refusal::from_numbers(2, 4, 128), Some(RuleBroken(Rule::R4(MsgNo(128)))));
    assert_eq!(Refusal::from_numbers(2, 4, 129), None);
    assert_eq!(NoSuchTask.to_string(), "there is no such task (refusal 6)");
    let told = RuleBroken(Rule::R4(MsgNo(3))).to_string();
    assert_eq!(told, "such a board cannot exist (refusal 2): rule 4: the record of message 3 does not go with its place");
}

#[test]
fn numbers_and_words_of_rules() {
    for (rule, records) in [(1, 0..=0), (2, 1..=32), (3, 0..=0), (4, 1..=128), (5, 1..=32), (6, 1..=32), (7, 0..=255)] {
        for record in 0..=300 {
            let told = Rule::from_numbers(rule, record);
            assert_eq!(
                told.map(|told| (told.number(), told.record())),
                Some((rule, record)).filter(|_| records.contains(&record))
            );
            assert!(told.map_or(true, |told| told.to_string().starts_with(&format!("rule {rule}: "))));
        }
    }
    assert_eq!([0, 8, 255].map(|rule| Rule::from_numbers(rule, 1)), [None; 3]);
    assert!(Rule::R2(TaskNo(7)) < Rule::R4(MsgNo(1)) && Rule::R4(MsgNo(1)) < Rule::R4(MsgNo(2)));
    let words = "the queue of task 3 does not visit exactly the messages placed there, in order of priority";
    assert_eq!(Rule::R5(TaskNo(3)).to_string(), format!("rule 5: {words}"));
}

#[cfg(feature = "std")]
#[test]
fn a_refusal_is_an_error() {
    let error: Box<dyn std::error::Error> = NoneFree.into();
    assert_eq!(error.to_string(), "no message is free (refusal 11)");
}
