//! The worked boards of document 01, the order of refusals, and who runs and the conversion of old boards (Ask 3).

use model::board::{word, Board, MsgNo, Status, TaskNo, BOARD_LEN, RUNNING};
use model::{check, convert, fresh, step, Answer, Call, Refusal, Rule};

const EMPTY: Board = [0; BOARD_LEN];

fn accepted(value: u16, running: u16, delivered: u16) -> Answer {
    Answer::Accepted { value, running, delivered }
}

fn refused(number: u8) -> impl Fn(Answer) -> bool {
    move |answer| matches!(answer, Answer::Refused(refusal) if refusal.number() == number)
}

fn install(task: u16, prio: u8) -> Call {
    Call::Install { task, stat: 0x01, prio, sptr: 0, name: 0 }
}

/// A board with these tasks, numbered from 1.
fn with_tasks(prios: &[u8]) -> Board {
    let mut b = EMPTY;
    for (task, prio) in (1..).zip(prios) {
        accept(&mut b, install(task, *prio));
    }
    b
}

/// Makes a call that must be accepted.
fn accept(b: &mut Board, call: Call) -> (u16, u16, u16) {
    match step(b, call) {
        Answer::Accepted { value, running, delivered } => (value, running, delivered),
        Answer::Refused(refusal) => panic!("{call:?} is refused: {refusal:?}"),
    }
}

/// Makes a call that must be refused with this number and change nothing.
fn refuse(b: &Board, call: Call, number: u8) {
    let mut after = *b;
    let answer = step(&mut after, call);
    assert!(refused(number)(answer), "{call:?} should be refused with {number}: {answer:?}");
    assert_eq!(after, *b);
}

/// The running task claims a message and prepares it.
fn claim_prepared(b: &mut Board, prio: u8) -> u16 {
    let (message, ..) = accept(b, Call::Claim);
    accept(b, Call::Prepare { message, stat: 0, prio, sptr: 0 });
    message
}

fn claim_and_send(b: &mut Board, prio: u8, receiver: u16) -> u16 {
    let message = claim_prepared(b, prio);
    accept(b, Call::Send { message, receiver });
    message
}

fn task(number: u16) -> TaskNo {
    TaskNo::new(number).expect("a task number")
}

fn message(number: u16) -> MsgNo {
    MsgNo::new(number).expect("a message number")
}

fn queue(b: &Board, k: u16) -> Vec<u16> {
    let mut numbers = Vec::new();
    let mut slot = task(k).queue_slot();
    while let Some(m) = MsgNo::new(word(b, slot)) {
        numbers.push(m.number());
        slot = m.link_slot();
    }
    numbers
}

fn prios(b: &Board, numbers: &[u16]) -> Vec<u8> {
    numbers.iter().map(|m| b[message(*m).prio_at()]).collect()
}

#[test]
fn first_install() {
    let mut b = EMPTY;
    let call = Call::Install { task: 3, stat: 0x05, prio: 0x33, sptr: 0x1234, name: 0x4154 };
    assert_eq!(step(&mut b, call), accepted(0, 3, 0));
    let mut wanted = EMPTY;
    wanted[..2].copy_from_slice(&[3, 3]);
    wanted[24..34].copy_from_slice(&[0x05, 0x33, 0, 0, 0, 0, 0x34, 0x12, 0x54, 0x41]);
    assert_eq!(b, wanted);
}

#[test]
fn four_messages_to_itself() {
    let mut b = with_tasks(&[0x33]);
    let sent = [0x14, 0x15, 0x14, 0x0B].map(|prio| claim_prepared(&mut b, prio));
    assert_eq!(sent, [1, 2, 3, 4]);
    for message in sent {
        accept(&mut b, Call::Send { message, receiver: 1 });
    }
    assert_eq!(queue(&b, 1), [4, 3, 1, 2]);
    assert_eq!(prios(&b, &[4, 3, 1, 2]), [0x0B, 0x15, 0x15, 0x15]);
}

#[test]
fn priorities_of_an_install() {
    for prio in [0x01, 0xFF, 0x00, 0x34] {
        refuse(&EMPTY, install(1, prio), 7);
    }
    for prio in [0x03, 0xFD] {
        assert_eq!(step(&mut { EMPTY }, install(1, prio)), accepted(0, 1, 0));
    }
}

#[test]
fn receive_on_an_empty_queue() {
    let lone = with_tasks(&[0x33]);
    assert_eq!(step(&mut { lone }, Call::Receive), accepted(0, 1, 0));
    assert_eq!(step(&mut { lone }, Call::ReceiveAndWait), accepted(0, 0, 0));
}

#[test]
fn send_and_wait_to_itself() {
    let mut b = with_tasks(&[0x33]);
    let message = claim_prepared(&mut b, 0x15);
    assert_eq!(step(&mut b, Call::SendAndWait { message, receiver: 1 }), accepted(0, 1, message));
}

#[test]
fn two_posts_and_two_waits() {
    let mut b = with_tasks(&[0x33]);
    let calls = [Call::Post { task: 1 }, Call::Post { task: 1 }, Call::WaitForInterrupt, Call::WaitForInterrupt];
    let runs = calls.map(|call| accept(&mut b, call).1);
    assert_eq!(runs, [1, 1, 1, 0]);
}

#[test]
fn all_messages_claimed() {
    let mut b = with_tasks(&[0x33]);
    for number in 1..=128 {
        assert_eq!(step(&mut b, Call::Claim), accepted(number, 1, 0));
    }
    refuse(&b, Call::Claim, 11);
    accept(&mut b, Call::Release { message: 7 });
    assert_eq!(step(&mut b, Call::Claim), accepted(7, 1, 0));
}

#[test]
fn the_senders_priority() {
    let mut b = with_tasks(&[0x33]);
    let message = claim_prepared(&mut b, 0xFE);
    refuse(&b, Call::Forward { message, receiver: 1 }, 7);
    accept(&mut b, Call::Send { message, receiver: 1 });
    assert_eq!(prios(&b, &[message]), [0x33]);
}

#[test]
fn numbers_and_lengths_beyond_the_board() {
    let b = with_tasks(&[0x33]);
    for message in [0, 129, 256, 65535] {
        refuse(&b, Call::Release { message }, 4);
        refuse(&b, Call::CancelMessage { message, receiver: 33 }, 4);
    }
    for len in [0, 1, 1475, 1477, 65535] {
        let mut lent = vec![7; len];
        assert_eq!(check(&lent), Answer::Refused(Refusal::Length));
        assert_eq!(fresh(&mut lent), Answer::Refused(Refusal::Length));
        assert_eq!(convert(&mut lent), Answer::Refused(Refusal::Length));
        assert_eq!(step(&mut lent, Call::Claim), Answer::Refused(Refusal::Length));
        assert!(lent.iter().all(|byte| *byte == 7));
    }
    for task in [0, 33, 257, 65535] {
        refuse(&b, Call::Post { task }, 6);
        refuse(&b, install(task, 0x33), 8);
    }
}

#[test]
fn fresh_mends_any_board() {
    let mut b = [0xFF; BOARD_LEN];
    assert_eq!(check(&b), Answer::Refused(Refusal::BrokenRule(Rule::R1)));
    assert_eq!(fresh(&mut b), accepted(0, 0, 0));
    assert_eq!(b, EMPTY);
    assert_eq!(check(&b), accepted(0, 0, 0));
}

/// Task 1 waits for a message; task 2 is more urgent and runs.
fn with_waiting_task() -> Board {
    let mut b = with_tasks(&[0x05]);
    assert_eq!(accept(&mut b, Call::ReceiveAndWait), (0, 0, 0));
    assert_eq!(accept(&mut b, install(2, 0x03)), (0, 2, 0));
    b
}

#[test]
fn a_more_urgent_message_comes_before_the_woken_task_runs() {
    let mut b = with_waiting_task();
    let later = claim_and_send(&mut b, 0x21, 1);
    assert_eq!(task(1).status(&b), Status(Status::MHBS | Status::TCBB));
    let sooner = claim_prepared(&mut b, 0x11);
    let answer = accept(&mut b, Call::SendAndWait { message: sooner, receiver: 1 });
    assert_eq!(answer, (0, 1, sooner));
    assert_eq!(queue(&b, 1), [later]);
}

#[test]
fn cancelling_the_only_message_puts_the_task_back_to_waiting() {
    let mut b = with_waiting_task();
    let message = claim_and_send(&mut b, 0x15, 1);
    accept(&mut b, Call::CancelMessage { message, receiver: 1 });
    assert_eq!(task(1).status(&b), Status(Status::WAIT | Status::TCBB));
}

#[test]
fn forward_keeps_the_receiver_for_a_later_resend() {
    let mut b = with_tasks(&[0x33, 0x35]);
    let message = claim_and_send(&mut b, 0x15, 1);
    accept(&mut b, Call::Receive);
    accept(&mut b, Call::ForwardAndWait { message, receiver: 2 });
    assert_eq!(accept(&mut b, Call::Receive), (message, 2, 0));
    assert_eq!(accept(&mut b, Call::Resend { message }), (0, 1, message));
}

#[test]
fn the_lowest_refusal_is_given() {
    let none_runs = EMPTY;
    refuse(&none_runs, Call::Send { message: 0, receiver: 0 }, 3);
    refuse(&none_runs, Call::CancelTask { task: 0 }, 3);
    let mut b = with_tasks(&[0x33]);
    let bad_install = |task, stat, prio| Call::Install { task, stat, prio, sptr: 0, name: 0 };
    refuse(&b, bad_install(1, 0xFF, 0x34), 7);
    refuse(&b, bad_install(1, 0xFF, 0x33), 8);
    refuse(&b, bad_install(2, 0xFF, 0x33), 9);
    refuse(&b, Call::Resend { message: 0 }, 4);
    refuse(&b, Call::Prepare { message: 1, stat: 0, prio: 0, sptr: 33 }, 5);
    let message = claim_prepared(&mut b, 0xFF);
    refuse(&b, Call::Prepare { message, stat: 0, prio: 0, sptr: 33 }, 14);
    refuse(&b, Call::Resend { message }, 6);
    refuse(&b, Call::Return { message }, 6);
    refuse(&b, Call::Forward { message, receiver: 2 }, 6);
    refuse(&b, Call::Forward { message, receiver: 1 }, 7);
    refuse(&b, Call::CancelTask { task: 1 }, 10);
    refuse(&b, Call::CancelMessage { message, receiver: 2 }, 6);
    refuse(&b, Call::CancelMessage { message, receiver: 1 }, 12);
    accept(&mut b, Call::Prepare { message, stat: 0, prio: 1, sptr: 9 });
    accept(&mut b, Call::Send { message, receiver: 1 });
    refuse(&b, Call::CancelMessage { message, receiver: 1 }, 13);
    b[2] = 1;
    refuse(&b, Call::Send { message: 0, receiver: 0 }, 2);
}

/// The board with these changes, and the rule that is named then.
fn broken(good: &Board, change: impl FnOnce(&mut Board)) -> Option<Rule> {
    let mut b = *good;
    change(&mut b);
    match check(&b) {
        Answer::Refused(refusal) => refusal.rule(),
        Answer::Accepted { .. } => None,
    }
}

/// All 32 tasks, and in the queue of each the message of its number; task 1 runs.
fn with_queues() -> Board {
    let mut b = with_tasks(&[0x33; 32]);
    for k in 1..=32 {
        assert_eq!(claim_and_send(&mut b, 0x15, k), k);
    }
    b
}

#[test]
fn each_rule_is_named_with_its_record() {
    let good = with_queues();
    assert_eq!(broken(&good, |_| ()), None);
    assert_eq!(broken(&good, |b| b[2] = 1), Some(Rule::R1));
    assert_eq!(broken(&good, |b| b[3] = 1), Some(Rule::R1));
    assert_eq!(broken(&good, |b| b[0] = 2), Some(Rule::R3));
    for number in [1, 17, 32] {
        let k = task(number);
        assert_eq!(broken(&good, |b| b[k.prio_at()] = 0xFF), Some(Rule::R2(k)));
        assert_eq!(broken(&good, |b| b[k.queue_slot()] = 0), Some(Rule::R5(k)));
        assert_eq!(broken(&good, |b| b[k.at()] |= Status::WAIT), Some(Rule::R6(k)));
        let runs_and_is_due = |b: &mut Board| {
            b[RUNNING] = k.byte();
            b[k.at()] |= Status::MHBS;
        };
        assert_eq!(broken(&good, runs_and_is_due), Some(Rule::R7(k.byte())));
    }
    for m in [1, 64, 128].map(message) {
        assert_eq!(broken(&good, |b| b[m.place_at()] = 64), Some(Rule::R4(m)));
    }
}

#[test]
fn the_lowest_rule_is_named_at_the_smallest_record() {
    let good = with_queues();
    let (one, other) = (task(5), task(9));
    let two_wait = |b: &mut Board| [one, other].iter().for_each(|k| b[k.at()] |= Status::WAIT);
    assert_eq!(broken(&good, two_wait), Some(Rule::R6(one)));
    let one_waits_and_other_is_cut_off = |b: &mut Board| {
        b[one.at()] |= Status::WAIT;
        b[other.queue_slot()] = 0;
    };
    assert_eq!(broken(&good, one_waits_and_other_is_cut_off), Some(Rule::R5(other)));
    let one_waits_and_the_running_one_is_due = |b: &mut Board| {
        b[task(1).at()] |= Status::MHBS;
        b[one.at()] |= Status::WAIT;
    };
    assert_eq!(broken(&good, one_waits_and_the_running_one_is_due), Some(Rule::R6(one)));
}

#[test]
fn at_a_shared_tail_the_task_that_strays_is_named() {
    let good = with_queues();
    for (k, owner) in [(3, 7), (7, 3), (1, 32), (32, 1)] {
        let strays = |b: &mut Board| b[message(k).link_slot()] = owner as u8;
        assert_eq!(broken(&good, strays), Some(Rule::R5(task(k))));
    }
}

#[test]
fn every_call_names_the_rule() {
    let mut b = with_queues();
    let k = task(9);
    b[k.queue_slot()] = 0;
    for kind in 1..=19 {
        let call = Call::from_kind(kind, 1, 1, 1, 1, 3).expect("a call");
        let before = b;
        assert_eq!(step(&mut b, call), Answer::Refused(Refusal::BrokenRule(Rule::R5(k))));
        assert_eq!(b, before);
    }
}

// Who runs

/// Two samplers of one priority: the earlier waits for an interrupt, and the later runs.
fn with_samplers() -> Board {
    let mut b = with_tasks(&[0x33, 0x33]);
    assert_eq!(accept(&mut b, Call::WaitForInterrupt), (0, 2, 0));
    b
}

/// The same with the earlier waiting for a message.
fn with_receiver() -> Board {
    let mut b = with_tasks(&[0x33, 0x33]);
    assert_eq!(accept(&mut b, Call::ReceiveAndWait), (0, 2, 0));
    b
}

#[test]
fn an_equal_does_not_push_the_running_task_aside() {
    let mut b = with_samplers();
    assert_eq!(accept(&mut b, Call::Post { task: 1 }), (0, 2, 0));
    assert_eq!(b[RUNNING], 2);
    assert_eq!(check(&b), accepted(0, 2, 0));
    assert_eq!(accept(&mut b, install(3, 0x33)), (0, 2, 0));
    assert_eq!(accept(&mut b, Call::Find { name: 1 }), (0, 2, 0));
    // once it waits, the first ready one in queue order runs
    assert_eq!(accept(&mut b, Call::WaitForInterrupt), (0, 1, 0));
    assert_eq!(accept(&mut b, Call::Post { task: 2 }), (0, 1, 0));
}

#[test]
fn a_smaller_number_runs_at_once() {
    let mut b = with_tasks(&[0x31, 0x33]);
    assert_eq!(accept(&mut b, Call::WaitForInterrupt), (0, 2, 0));
    assert_eq!(accept(&mut b, Call::Post { task: 1 }), (0, 1, 0));
    assert_eq!(accept(&mut b, install(3, 0x2F)), (0, 3, 0));
    assert_eq!(b[RUNNING], 3);
}

#[test]
fn an_earlier_equal_may_be_due_a_message() {
    let mut b = with_receiver();
    let message = claim_prepared(&mut b, 0x15);
    assert_eq!(accept(&mut b, Call::Send { message, receiver: 1 }), (0, 2, 0));
    assert_eq!(task(1).status(&b), Status(Status::MHBS | Status::TCBB));
    assert_eq!(check(&b), accepted(0, 2, 0));
    // it is handed over when its receiver runs
    assert_eq!(accept(&mut b, Call::WaitForInterrupt), (0, 1, message));
}

#[test]
fn the_running_task_that_is_due_its_own_message_runs_on() {
    let mut b = with_samplers();
    let message = claim_prepared(&mut b, 0x15);
    accept(&mut b, Call::Post { task: 1 });
    assert_eq!(accept(&mut b, Call::SendAndWait { message, receiver: 2 }), (0, 2, message));
}

#[test]
fn who_is_outranked_is_handed_nothing_yet() {
    let mut b = with_tasks(&[0x03, 0x05]);
    accept(&mut b, Call::ReceiveAndWait);
    let own = claim_and_send(&mut b, 0x15, 2);
    let message = claim_prepared(&mut b, 0x15);
    assert_eq!(accept(&mut b, Call::SendAndWait { message, receiver: 1 }), (0, 1, message));
    assert_eq!(task(2).status(&b), Status(Status::MHBS | Status::TCBB));
    assert_eq!(queue(&b, 2), [own]);
    assert_eq!(accept(&mut b, Call::WaitForInterrupt), (0, 2, own));
}

#[test]
fn a_task_that_is_cancelled_runs_no_more() {
    let mut b = with_samplers();
    accept(&mut b, Call::Post { task: 1 });
    assert_eq!(accept(&mut b, Call::CancelTask { task: 2 }), (0, 1, 0));
    assert_eq!(accept(&mut b, install(2, 0x33)), (0, 1, 0));
    // the other one goes, and who runs stays
    assert_eq!(accept(&mut b, Call::CancelTask { task: 2 }), (0, 1, 0));
    assert_eq!(accept(&mut b, Call::CancelTask { task: 1 }), (0, 0, 0));
    assert_eq!(b, EMPTY);
}

#[test]
fn nobody_is_ready() {
    let mut b = with_samplers();
    assert_eq!(accept(&mut b, Call::ReceiveAndWait), (0, 0, 0));
    assert_eq!(b[RUNNING], 0);
    assert_eq!(check(&b), accepted(0, 0, 0));
    refuse(&b, Call::Claim, 3);
    assert_eq!(accept(&mut b, Call::Post { task: 2 }), (0, 0, 0));
    assert_eq!(accept(&mut b, Call::Post { task: 1 }), (0, 1, 0));
}

#[test]
fn a_wrong_byte_1_is_rule_7_with_that_byte() {
    let mut good = with_samplers();
    accept(&mut good, install(3, 0x35));
    assert_eq!(broken(&good, |_| ()), None);
    // nobody, one that waits, one of a larger number, absent ones, and no tasks
    for byte in [0, 1, 3, 4, 32, 33, 64, 66, 128, 255] {
        assert_eq!(broken(&good, |b| b[RUNNING] = byte), Some(Rule::R7(byte)));
    }
    let mut none_ready = with_samplers();
    accept(&mut none_ready, Call::WaitForInterrupt);
    for byte in [1, 2, 3, 33, 255] {
        assert_eq!(broken(&none_ready, |b| b[RUNNING] = byte), Some(Rule::R7(byte)));
        assert_eq!(broken(&EMPTY, |b| b[RUNNING] = byte), Some(Rule::R7(byte)));
    }
    // any of several equals may run
    for byte in 1..=32 {
        assert_eq!(broken(&with_queues(), |b| b[RUNNING] = byte), None);
    }
}

// The conversion

/// The board as it was saved before byte 1 named who runs.
fn old(b: &Board) -> Board {
    let mut old = *b;
    old[RUNNING] = 0;
    old
}

/// A conversion that is refused for this rule and changes nothing.
fn refuse_to_convert(b: &Board, rule: Rule) {
    let mut after = *b;
    assert_eq!(convert(&mut after), Answer::Refused(Refusal::BrokenRule(rule)));
    assert_eq!(after, *b);
}

#[test]
fn conversion_names_the_first_ready_task() {
    for (board, running) in [(EMPTY, 0), (with_waiting_task(), 2), (with_queues(), 1), (with_tasks(&[0x35, 0x33, 0x33]), 2)] {
        let mut b = old(&board);
        assert_eq!(convert(&mut b), accepted(0, running, 0));
        assert_eq!(b, board);
        assert_eq!(check(&b), accepted(0, running, 0));
        if running != 0 {
            refuse_to_convert(&b, Rule::R1);
        }
    }
}

#[test]
fn conversion_is_by_the_old_rules() {
    let good = old(&with_queues());
    let broken_by = |change: &dyn Fn(&mut Board)| {
        let mut b = good;
        change(&mut b);
        b
    };
    for at in 1..=3 {
        refuse_to_convert(&broken_by(&|b| b[at] = 1), Rule::R1);
    }
    for k in [1, 17, 32].map(task) {
        refuse_to_convert(&broken_by(&|b| b[k.prio_at()] = 0xFF), Rule::R2(k));
        refuse_to_convert(&broken_by(&|b| b[k.queue_slot()] = 0), Rule::R5(k));
        refuse_to_convert(&broken_by(&|b| b[k.at()] |= Status::WAIT), Rule::R6(k));
        let runs_and_is_due = |b: &mut Board| {
            (1..k.number()).for_each(|other| b[task(other).at()] |= Status::IWAT);
            b[k.at()] |= Status::MHBS;
        };
        refuse_to_convert(&broken_by(&runs_and_is_due), Rule::R7(k.byte()));
    }
    refuse_to_convert(&broken_by(&|b| b[0] = 2), Rule::R3);
    refuse_to_convert(&broken_by(&|b| b[message(128).place_at()] = 128), Rule::R4(message(128)));
    // an earlier equal that is due a message was no board then
    let mut due = with_receiver();
    claim_and_send(&mut due, 0x15, 1);
    refuse_to_convert(&old(&due), Rule::R7(1));
}
