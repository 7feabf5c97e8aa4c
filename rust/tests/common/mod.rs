//! What the tests share.
#![allow(dead_code)] // no test uses all of it
use station::{Board, MsgNo, Prio, Refusal, Status, TaskNo, Timer};

/// A board with tasks 1, 2 .. of these priorities; the rest of each record is 0.
pub fn tasks(priorities: &[u8]) -> Board {
    let mut board = Board::fresh();
    for (k, &priority) in (1..).zip(priorities) {
        board.install(TaskNo(k), Status::TCBB, Prio::fifo(priority), 0, 0).unwrap();
    }
    board
}

/// The running task claims a message and gives it this PRIO.
pub fn written(board: &mut Board, prio: Prio) -> MsgNo {
    let m = board.claim().unwrap().value;
    board.prepare(m, 0, prio, None).unwrap();
    m
}

/// PRIO of message m.
pub fn prio_of(board: &Board, m: MsgNo) -> Prio {
    Prio(board.as_bytes()[324 + 8 * (usize::from(m.0) - 1) + 1])
}

/// STAT of task k.
pub fn status_of(board: &Board, k: TaskNo) -> Status {
    Status(board.as_bytes()[4 + 10 * (usize::from(k.0) - 1)])
}

/// A call that tells only whether it was accepted, on a board in lent bytes.
pub type Tried = fn(&mut Board<&mut [u8]>) -> Result<(), Refusal>;

/// Making fresh, checking, converting, each of the nineteen calls, start and tick, with arguments that could do.
pub const EVERY_CALL: [Tried; 24] = [
    |b| b.make_fresh().map(drop),
    |b| b.check().map(drop),
    |b| b.convert().map(drop),
    |b| b.install(TaskNo(1), Status::TCBB, Prio::fifo(1), 0, 0).map(drop),
    |b| b.post_interrupt(TaskNo(1)).map(drop),
    |b| b.find(0).map(drop),
    |b| b.cancel_task(TaskNo(1)).map(drop),
    |b| b.claim().map(drop),
    |b| b.prepare(MsgNo(1), 0, Prio::fifo(1), None).map(drop),
    |b| b.release(MsgNo(1)).map(drop),
    |b| b.send(MsgNo(1), TaskNo(1)).map(drop),
    |b| b.send_and_wait(MsgNo(1), TaskNo(1)).map(drop),
    |b| b.resend(MsgNo(1)).map(drop),
    |b| b.resend_and_wait(MsgNo(1)).map(drop),
    |b| b.forward(MsgNo(1), TaskNo(1)).map(drop),
    |b| b.forward_and_wait(MsgNo(1), TaskNo(1)).map(drop),
    |b| b.return_message(MsgNo(1)).map(drop),
    |b| b.return_and_wait(MsgNo(1)).map(drop),
    |b| b.receive().map(drop),
    |b| b.receive_and_wait().map(drop),
    |b| b.cancel_message(MsgNo(1), TaskNo(1)).map(drop),
    |b| b.wait_for_interrupt().map(drop),
    |b| b.start(&mut Timer::new(), MsgNo(1), 1).map(drop),
    |b| b.tick(&mut Timer::new()).map(drop),
];
