//! The worked boards of document 01, its slips that a caller can see, and who runs.
mod common;
use common::{prio_of, status_of, tasks, written};
use station::{Accepted, Board, MsgNo, Prio, Refusal, Status, TaskNo};

const LONE: TaskNo = TaskNo(1);

#[test]
fn a_fresh_install_writes_bytes_0_and_1_and_the_record() {
    let mut board = Board::fresh();
    let told = board.install(TaskNo(3), Status::TCBB | Status::MROB, Prio(0x33), 0x1234, 0x4154);
    assert_eq!(told, Ok(Accepted { value: (), running: Some(TaskNo(3)), delivered: None }));
    let mut want = [0; station::BYTES];
    want[..2].copy_from_slice(&[3, 3]);
    want[24..34].copy_from_slice(&[0x05, 0x33, 0, 0, 0, 0, 0x34, 0x12, 0x54, 0x41]);
    assert_eq!(board.as_bytes(), want);
    assert_eq!(board.find(u16::from_le_bytes(*b"TA")).unwrap().value, Some(TaskNo(3)));
    assert_eq!(board.find(0).unwrap().value, None);
}

#[test]
fn lifo_goes_before_its_equals_and_bit_0_is_set() {
    let mut board = tasks(&[25]);
    for prio in [0x14, 0x15, 0x14, 0x0B] {
        let m = written(&mut board, Prio(prio));
        board.send(m, LONE).unwrap();
    }
    let order: Vec<_> = std::iter::from_fn(|| board.receive().unwrap().value).collect();
    assert_eq!(order, [4, 3, 1, 2].map(MsgNo));
    assert_eq!(order.iter().map(|&m| prio_of(&board, m).0).collect::<Vec<_>>(), [0x0B, 0x15, 0x15, 0x15]);
}

#[test]
fn the_priorities_of_tasks_are_1_to_126() {
    for (prio, want) in [(0x01, Some(Refusal::BadPriority)), (0xFF, Some(Refusal::BadPriority)), (0x03, None), (0xFD, None)] {
        assert_eq!(Board::fresh().install(LONE, Status::TCBB, Prio(prio), 0, 0).err(), want);
    }
}

#[test]
fn an_empty_queue_gives_nothing_or_waits() {
    let mut board = tasks(&[25]);
    assert_eq!(board.receive().unwrap().value, None);
    assert_eq!(board.receive_and_wait().unwrap().running, None);
    assert!(status_of(&board, LONE).has(Status::WAIT));
}

#[test]
fn send_and_wait_to_itself_delivers_that_message() {
    let mut board = tasks(&[25]);
    let m = written(&mut board, Prio::fifo(10));
    assert_eq!(board.send_and_wait(m, LONE), Ok(Accepted { value: (), running: Some(LONE), delivered: Some(m) }));
}

#[test]
fn two_posts_are_one_interrupt() {
    let mut board = tasks(&[25]);
    board.post_interrupt(LONE).unwrap();
    board.post_interrupt(LONE).unwrap();
    assert_eq!(board.wait_for_interrupt().unwrap().running, Some(LONE));
    assert_eq!(board.wait_for_interrupt().unwrap().running, None);
    assert_eq!(board.post_interrupt(LONE).unwrap().running, Some(LONE));
}

#[test]
fn a_released_message_is_claimed_again() {
    let mut board = tasks(&[25]);
    for m in 1..=station::MESSAGES {
        assert_eq!(board.claim().unwrap().value, MsgNo(m));
    }
    assert_eq!(board.claim(), Err(Refusal::NoneFree));
    board.release(MsgNo(7)).unwrap();
    assert_eq!(board.claim().unwrap().value, MsgNo(7));
}

#[test]
fn priority_127_is_the_senders_own_and_for_send_alone() {
    let mut board = tasks(&[25]);
    let m = written(&mut board, Prio::lifo(Prio::SENDERS_OWN));
    assert_eq!(board.forward(m, LONE), Err(Refusal::BadPriority));
    board.send(m, LONE).unwrap();
    assert_eq!(prio_of(&board, m), Prio::fifo(25));
}

#[test]
fn numbers_and_lengths_beyond_the_board() {
    let mut board = tasks(&[25]);
    assert_eq!(board.release(MsgNo(0)), Err(Refusal::NoSuchMessage));
    assert_eq!(board.release(MsgNo(129)), Err(Refusal::NoSuchMessage));
    assert_eq!(board.post_interrupt(TaskNo(33)), Err(Refusal::NoSuchTask));
    assert_eq!(board.install(TaskNo(33), Status::TCBB, Prio::fifo(1), 0, 0), Err(Refusal::NotInstallable));
    assert_eq!(Board::lent([0; 1475]).claim(), Err(Refusal::WrongLength));
    assert_eq!(Board::lent([0; 1477]).claim(), Err(Refusal::WrongLength));
}

#[test]
fn a_woken_task_is_handed_its_message_when_it_runs() {
    let mut board = tasks(&[10, 20]);
    let [first, second] = [TaskNo(1), TaskNo(2)];
    board.wait_for_interrupt().unwrap();
    board.receive_and_wait().unwrap();
    board.post_interrupt(first).unwrap(); // the first runs, the second waits for a message
    let late = written(&mut board, Prio::fifo(9));
    board.send(late, second).unwrap();
    let urgent = written(&mut board, Prio::fifo(8));
    board.send(urgent, second).unwrap();
    let told = board.wait_for_interrupt().unwrap();
    assert_eq!((told.running, told.delivered), (Some(second), Some(urgent)));
}

#[test]
fn a_task_whose_only_message_is_cancelled_waits_again() {
    let mut board = tasks(&[20, 10]);
    let [first, second] = [TaskNo(1), TaskNo(2)];
    board.wait_for_interrupt().unwrap(); // the second is the more urgent
    board.post_interrupt(second).unwrap();
    board.wait_for_interrupt().unwrap();
    board.receive_and_wait().unwrap(); // the first waits for a message
    board.post_interrupt(second).unwrap();
    let m = written(&mut board, Prio::fifo(9));
    board.send(m, first).unwrap();
    assert!(status_of(&board, first).has(Status::MHBS));
    assert_eq!(board.cancel_message(m, first).unwrap().running, Some(second));
    assert_eq!(status_of(&board, first), Status::TCBB | Status::WAIT);
    board.release(m).unwrap();
    assert_eq!(board.cancel_task(first).unwrap().running, Some(second));
}

#[test]
fn forward_leaves_the_receiver_and_the_sender() {
    let mut board = tasks(&[10, 20, 30]);
    let [first, second, third] = [1, 2, 3].map(TaskNo);
    let m = written(&mut board, Prio::fifo(9));
    board.send_and_wait(m, second).unwrap();
    assert_eq!(board.receive().unwrap().value, Some(m));
    board.forward_and_wait(m, third).unwrap();
    assert_eq!(board.receive().unwrap().value, Some(m));
    let told = board.resend_and_wait(m).unwrap(); // to the second, whom it was sent to
    assert_eq!((told.running, told.delivered), (Some(second), Some(m)));
    let told = board.return_and_wait(m).unwrap(); // to the first, who sent it
    assert_eq!((told.running, told.delivered), (Some(first), Some(m)));
    board.resend(m).unwrap();
    board.cancel_message(m, second).unwrap();
    let told = board.return_message(m).unwrap(); // to itself
    assert_eq!((told.running, told.delivered), (Some(first), None));
    assert_eq!(board.receive().unwrap().value, Some(m));
}

#[test]
fn an_equal_does_not_push_the_running_task_aside() {
    let mut board = tasks(&[25, 25]);
    let [earlier, later] = [TaskNo(1), TaskNo(2)];
    assert_eq!(board.wait_for_interrupt().unwrap().running, Some(later));
    assert_eq!(board.post_interrupt(earlier).unwrap().running, Some(later));
    assert_eq!(board.as_bytes()[1], 2);
    assert_eq!(board.check().unwrap().running, Some(later));
    let told = board.install(TaskNo(3), Status::TCBB, Prio::fifo(24), 0, 0).unwrap();
    assert_eq!(told.running, Some(TaskNo(3))); // a smaller number does
    assert_eq!(board.cancel_task(TaskNo(3)).unwrap().running, Some(earlier)); // the first in queue order
    assert_eq!(board.wait_for_interrupt().unwrap().running, Some(later));
    assert_eq!(board.cancel_task(later).unwrap().running, None); // nobody is left but who waits
    assert_eq!(board.as_bytes()[1], 0);
}

#[test]
fn an_earlier_equal_may_be_due_a_message() {
    let mut board = tasks(&[25, 25]);
    let [earlier, later] = [TaskNo(1), TaskNo(2)];
    board.receive_and_wait().unwrap();
    let m = written(&mut board, Prio::fifo(9));
    assert_eq!(board.send(m, earlier), Ok(Accepted { value: (), running: Some(later), delivered: None }));
    assert!(status_of(&board, earlier).has(Status::MHBS));
    assert_eq!(board.check().unwrap().running, Some(later));
    let told = board.wait_for_interrupt();
    assert_eq!(told, Ok(Accepted { value: (), running: Some(earlier), delivered: Some(m) }));
}

#[test]
fn an_old_board_is_converted() {
    for board in [Board::fresh(), tasks(&[25]), tasks(&[25, 20, 20])] {
        let told = board.check().unwrap();
        let mut bytes = board.clone().into_bytes();
        bytes[1] = 0;
        let mut old = Board::lent(bytes);
        assert_eq!(old.convert(), Ok(told));
        assert_eq!(old, board);
    }
}
