//! The station timer over many calls (Ask 5); single calls are in the kept cases.

use model::board::{Board, MsgNo, ON_TIMER};
use model::timer::{now, set_now, Entry, Timer, TIMER_LEN};
use model::{check, fresh, start, step, tick, Answer, Call};

fn accepted(running: u16, delivered: u16) -> Answer {
    Answer::Accepted { value: 0, running, delivered }
}

fn refused(answer: Answer, number: u8) -> bool {
    matches!(answer, Answer::Refused(refusal) if refusal.number() == number)
}

/// Task 1 runs and holds so many messages, which are to come back to it; the timer buffer is zero but for now.
fn holding(messages: u16, tick_now: u16) -> (Board, Timer) {
    let (mut b, mut t): (Board, Timer) = ([0; 1476], [0; TIMER_LEN]);
    set_now(&mut t, tick_now);
    let install = Call::Install { task: 1, stat: 0x01, prio: 0x33, sptr: 0, name: 0 };
    assert_eq!(step(&mut b, install), accepted(1, 0));
    for message in 1..=messages {
        assert_eq!(step(&mut b, Call::Claim), Answer::Accepted { value: message, running: 1, delivered: 0 });
        assert_eq!(step(&mut b, Call::Prepare { message, stat: 0, prio: 0x15, sptr: 1 }), accepted(1, 0));
    }
    (b, t)
}

fn place(b: &Board, message: u16) -> u8 {
    MsgNo::new(message).expect("a message").place(b)
}

#[test]
fn a_message_comes_back_after_exactly_its_delay() {
    for (tick_now, delay) in [(0, 1), (0, 65535), (1, 65535), (65535, 1), (65535, 65535), (65530, 10), (255, 1), (300, 256)] {
        let (mut b, mut t) = holding(1, tick_now);
        assert_eq!(start(&mut b, &mut t, 1, delay), accepted(1, 0));
        assert_eq!(step(&mut b, Call::ReceiveAndWait), accepted(0, 0));
        for _ in 1..delay {
            assert_eq!(tick(&mut b, &mut t), accepted(0, 0));
        }
        assert_eq!(place(&b, 1), ON_TIMER);
        assert_eq!(tick(&mut b, &mut t), accepted(1, 1), "at {tick_now} for {delay} ticks");
        let mut over = [0; TIMER_LEN];
        set_now(&mut over, tick_now.wrapping_add(delay));
        assert_eq!(t, over);
    }
}

#[test]
fn due_now_is_due_after_all_other_ticks() {
    let (mut b, mut t) = holding(1, 7);
    assert_eq!(start(&mut b, &mut t, 1, 1), accepted(1, 0));
    set_now(&mut t, 8);
    for _ in 0..65535 {
        assert_eq!(tick(&mut b, &mut t), accepted(1, 0));
        assert_eq!(place(&b, 1), ON_TIMER);
    }
    assert_eq!(tick(&mut b, &mut t), accepted(1, 0));
    assert_eq!((place(&b, 1), now(&t)), (65, 8));
}

#[test]
fn there_are_sixteen_timers_and_they_serve_again() {
    let (mut b, mut t) = holding(18, 65530);
    for message in 1..=16 {
        assert_eq!(start(&mut b, &mut t, message, message), accepted(1, 0));
    }
    let before = (b, t);
    assert!(refused(start(&mut b, &mut t, 17, 1), 17));
    assert_eq!((b, t), before);
    for _ in 1..=2 {
        assert_eq!(tick(&mut b, &mut t), accepted(1, 0));
    }
    for (message, entry) in (17..=18).zip(Entry::all()) {
        assert_eq!(start(&mut b, &mut t, message, 1), accepted(1, 0));
        assert_eq!(u16::from(entry.message(&t)), message);
    }
    // in entry order: 17 and 18 took the first two timers, and message 3 is due at the same tick
    assert_eq!(tick(&mut b, &mut t), accepted(1, 0));
    let received =
        [1, 2, 17, 18, 3].map(|value| step(&mut b, Call::Receive) == Answer::Accepted { value, running: 1, delivered: 0 });
    assert_eq!(received, [true; 5]);
}

#[test]
fn the_buffer_is_judged_against_the_board() {
    let (mut b, mut t) = holding(1, 0);
    assert_eq!(start(&mut b, &mut t, 1, 5), accepted(1, 0));
    // the other calls are not lent the buffer and go by the place alone
    assert_eq!(check(&b), accepted(1, 0));
    assert!(refused(step(&mut b, Call::CancelTask { task: 1 }), 10));
    // a fresh board is not zeroed with its buffer
    assert_eq!(fresh(&mut b), accepted(0, 0));
    assert!(refused(tick(&mut b, &mut t), 18));
    assert!(refused(start(&mut b, &mut t, 0, 0), 18));
    t.fill(0);
    assert_eq!(tick(&mut b, &mut t), accepted(0, 0));
    assert!(refused(start(&mut b, &mut t, 0, 0), 3));
}

#[test]
fn buffers_of_any_length_are_refused() {
    let (b, t) = holding(1, 0);
    for len in [0, 1, 49, 51, 65535] {
        let mut lent = t.to_vec();
        lent.resize(len, 0);
        assert!(refused(tick(&mut { b }, &mut lent), 18));
        assert!(refused(start(&mut { b }, &mut lent, 1, 1), 18));
        assert!(refused(tick(&mut b[..1475].to_vec(), &mut lent), 1));
        assert!(refused(start(&mut b[..1475].to_vec(), &mut lent, 1, 1), 1));
    }
}
