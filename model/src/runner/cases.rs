//! All cases of a seed: histories, and beside them cases that lead nowhere.

use super::case::{Case, Request, CHECK, CONVERT, FRESH};
use super::damage::damage;
use super::history::{wild, History};
use super::random::Random;
use super::timer_damage::{damage_timer, put_on_timer};
use crate::board::{Board, BOARD_LEN, RUNNING};

/// So many cases, always the same for a seed.
pub fn cases_of_seed(seed: u64, count: usize) -> Vec<Case> {
    let mut random = Random::new(seed);
    let mut history = History::new(&mut random);
    let mut cases = Vec::with_capacity(count);
    while cases.len() < count {
        if history.is_over() {
            history = History::new(&mut random);
        }
        if random.chance(25) {
            cases.push(aside(&history, &mut random));
            continue;
        }
        let request = history.request(&mut random);
        cases.push(Case::new(request, &history.board, &history.timer));
        history.advance(&request);
    }
    cases
}

/// A case on the buffers as they stand, or on what damage makes of them; the history does not go on from there.
fn aside(history: &History, random: &mut Random) -> Case {
    let (board, timer) = (&history.board, &history.timer);
    match random.below(100) {
        0..46 => damaged(history, random),
        46..64 => damaged_timer(history, random),
        64..71 => conversion(history.board, random),
        71..86 => Case::new(wild(random), board, timer),
        86..93 => wrong_length(history, random),
        93..96 => Case::new(Request { kind: 20 + random.below(236) as u8, ..wild(random) }, board, timer),
        96..98 => Case::new(Request { kind: FRESH, ..wild(random) }, board, timer),
        _ => Case::new(Request { kind: CHECK, ..wild(random) }, board, timer),
    }
}

fn damaged(history: &History, random: &mut Random) -> Case {
    let mut board = history.board;
    damage(&mut board, random);
    let mut request = history.request(random);
    match random.below(20) {
        0..7 => request.kind = CHECK,
        7 => request.kind = FRESH,
        8 => request = wild(random),
        9..12 => return conversion(board, random),
        12..15 => request = history.timer_request(random),
        _ => (),
    }
    Case::new(request, &board, &history.timer)
}

/// A start or a tick with more messages on the timer and a fault in its buffer, at times in the board too.
fn damaged_timer(history: &History, random: &mut Random) -> Case {
    let (mut board, mut timer) = (history.board, history.timer);
    for _ in 0..random.pick(&[0, 1, 4, 16]) {
        put_on_timer(&mut board, &mut timer, random);
    }
    let lent = if random.chance(80) { damage_timer(timer, &board, random) } else { timer.to_vec() };
    if random.chance(15) {
        damage(&mut board, random);
    }
    Case::new(history.timer_request(random), &board, &lent)
}

/// The board as it was saved once, with byte 1 zero; at times as it is.
fn conversion(mut board: Board, random: &mut Random) -> Case {
    if random.chance(90) {
        board[RUNNING] = 0;
    }
    Case::new(Request { kind: CONVERT, ..wild(random) }, &board, &[])
}

/// A board cut short or with bytes behind it. Most are near the right length: the longest one costs as much as forty others.
fn wrong_length(history: &History, random: &mut Random) -> Case {
    let len = match random.below(40) {
        0 => random.pick(&[65535, 65534, 2 * BOARD_LEN, 32768]),
        1..4 => random.below(8192),
        4..12 => random.below(BOARD_LEN),
        12..20 => BOARD_LEN + 1 + random.below(40),
        _ => random.pick(&[0, 1, 2, 3, 4, 323, 324, 1347, 1348, BOARD_LEN - 1, BOARD_LEN + 1]),
    };
    let mut board = history.board.to_vec();
    board.resize(len, random.byte());
    let request = match random.below(6) {
        0 => history.timer_request(random),
        1..3 => wild(random),
        _ => history.request(random),
    };
    Case::new(request, &board, &history.timer)
}
