//! The tuned version is document 01 too: it answers as the model does and leaves the same bytes.
use bench::compare::{on_cases, Seen};
use bench::tuned;
use bench::version::{Functions, Request, Version, OF_TUNED, TUNED};

#[test]
fn tuned_and_model_agree() {
    let mut all = Seen::default();
    for seed in 1001..=1050 {
        all.add(&on_cases(seed, 2000, TUNED).unwrap());
    }
    assert!((1..=7).all(|rule| all.rules[rule] > 300), "broken rules {:?}", all.rules);
    assert!((0..=18).all(|refusal| refusal == 15 || all.refusals[refusal] > 0), "refusals {:?}", all.refusals);
    assert!((1..=19).all(|kind| all.accepted[kind] > 0), "accepted {:?}", all.accepted);
    assert!((0..=4).all(|spot| all.free[spot] > 300), "free {:?}", all.free);
    assert_eq!(all.timers.missing().next(), None, "{}", all.timers);
}

#[test]
fn a_version_that_errs_is_noticed() {
    let check = |board: &[u8]| TUNED.check(board) | u64::from(board.len() == 1475);
    let call = |board: &mut [u8], kind, words, stat, prio| {
        let told = TUNED.call(board, &Request { kind, words, stat, prio });
        // as forward does, so resend: RPTR of message 128 is written
        if kind == 10 && told as u8 == 0 {
            board[1347] ^= 1;
        }
        told
    };
    let no_rule = |board: &[u8]| if TUNED.check(board) as u8 == 2 { 2 } else { TUNED.check(board) };
    let record_with_r3 = |board: &mut [u8], kind, words, stat, prio| {
        let told = TUNED.call(board, &Request { kind, words, stat, prio });
        told | u64::from(told == 0x0302) << 16
    };
    let byte_1_left = |board: &mut [u8], kind, words, stat, prio| {
        let before = board.get(1).copied();
        let told = TUNED.call(board, &Request { kind, words, stat, prio });
        board.iter_mut().skip(1).zip(before).for_each(|(byte, before)| *byte = before);
        told
    };
    let r7_names_nobody = |board: &[u8]| if TUNED.check(board) as u16 == 0x0702 { 0x0702 } else { TUNED.check(board) };
    // in place of the one that is free the first of its group
    let first_of_group = |board: &[u8]| tuned::lowest_free(board).checked_sub(1).map_or(0, |before| before / 4 * 4 + 1);
    let erring = [
        Functions { check: |_| 0, ..OF_TUNED },
        Functions { call: |_, _, _, _, _| 0, ..OF_TUNED },
        Functions { check, call, ..OF_TUNED },
        Functions { check: no_rule, ..OF_TUNED },
        Functions { call: record_with_r3, ..OF_TUNED },
        Functions { call: byte_1_left, ..OF_TUNED },
        Functions { check: r7_names_nobody, ..OF_TUNED },
        Functions { lowest_free: first_of_group, ..OF_TUNED },
    ];
    assert!(erring.into_iter().all(is_noticed));
}

#[test]
fn a_timer_that_errs_is_noticed() {
    // 3 before 18
    let late_18 = |board: &mut [u8], timer: &mut [u8], message, delay| {
        let told = tuned::start(board, timer, message, delay);
        if told == 18 && board[1] == 0 {
            3
        } else {
            told
        }
    };
    let stops_at_the_last = |board: &mut [u8], timer: &mut [u8]| {
        let is_last = timer.starts_with(&[0xFF; 2]);
        let told = tuned::tick(board, timer);
        if is_last && told as u8 == 0 {
            timer[..2].fill(0xFF);
        }
        told
    };
    // a freed entry keeps its due word
    let due_left = |board: &mut [u8], timer: &mut [u8]| {
        let before = timer.to_vec();
        let told = tuned::tick(board, timer);
        (2..timer.len()).filter(|at| at % 3 != 2).for_each(|at| timer[at] = before[at]);
        told
    };
    let nothing_delivered = |board: &mut [u8], timer: &mut [u8]| tuned::tick(board, timer) & 0xFF_FFFF_FFFF;
    let erring = [
        Functions { start: |_, _, _, _| 0, ..OF_TUNED },
        Functions { tick: |_, _| 0, ..OF_TUNED },
        Functions { start: late_18, ..OF_TUNED },
        Functions { tick: stops_at_the_last, ..OF_TUNED },
        Functions { tick: due_left, ..OF_TUNED },
        Functions { tick: nothing_delivered, ..OF_TUNED },
    ];
    assert!(erring.into_iter().all(is_noticed));
}

fn is_noticed(erring: Functions) -> bool {
    (1001..=1003).any(|seed| on_cases(seed, 2000, Version::Rust(erring)).is_err())
}
