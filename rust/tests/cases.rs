//! The cases of the repository's `tests/cases` through the methods: what C and the proved program answer, this crate answers.
//!
//! A case is the length as a word, a call of nine bytes (kind, three words, STAT, PRIO; kind 0 checks the board, kind 254 makes
//! it fresh, kind 253 converts an old one) and the board. Kind 200 starts a timer, and kind 201 is a tick: with these two the
//! timer comes behind the board, its length first. Its answer is a line: refusal, value, running, delivered, rule, record, each
//! byte of the board that has changed, and each of the timer, marked by t.
use station::{Answer, Board, MsgNo, Prio, Refusal, Status, TaskNo, Timer};
use std::{fmt::Write, path::Path, process::Command};

const START: u8 = 200;
const TICK: u8 = 201;

/// A value as the library hands it over: 0 for none.
trait Number {
    fn number(self) -> u16;
}
impl Number for () {
    fn number(self) -> u16 {
        0
    }
}
impl Number for TaskNo {
    fn number(self) -> u16 {
        self.0
    }
}
impl Number for MsgNo {
    fn number(self) -> u16 {
        self.0
    }
}
impl<T: Number> Number for Option<T> {
    fn number(self) -> u16 {
        self.map_or(0, Number::number)
    }
}

fn told<T: Number>(answer: Answer<T>) -> String {
    match answer {
        Ok(told) => format!("0 {} {} {} 0 0", told.value.number(), told.running.number(), told.delivered.number()),
        Err(Refusal::RuleBroken(rule)) => format!("2 0 0 0 {} {}", rule.number(), rule.record()),
        Err(refusal) => format!("{} 0 0 0 0 0", refusal.number()),
    }
}

/// The answer to the call in these nine bytes, or none if no method has that kind.
fn answer_to(call: &[u8], board: &mut Board<&mut [u8]>, timer: &mut Timer<&mut [u8]>) -> Option<String> {
    let word = |i| u16::from_le_bytes([call[i], call[i + 1]]);
    let (a, b, name, stat, prio) = (word(1), word(3), word(5), call[7], Prio(call[8]));
    let (k, m, r) = (TaskNo(a), MsgNo(a), TaskNo(b));
    Some(match call[0] {
        0 => told(board.check()),
        1 => told(board.install(k, Status(stat), prio, b, name)),
        2 => told(board.post_interrupt(k)),
        3 => told(board.find(a)),
        4 => told(board.cancel_task(k)),
        5 => told(board.claim()),
        6 => told(board.prepare(m, stat, prio, Some(r))),
        7 => told(board.release(m)),
        8 => told(board.send(m, r)),
        9 => told(board.send_and_wait(m, r)),
        10 => told(board.resend(m)),
        11 => told(board.resend_and_wait(m)),
        12 => told(board.forward(m, r)),
        13 => told(board.forward_and_wait(m, r)),
        14 => told(board.return_message(m)),
        15 => told(board.return_and_wait(m)),
        16 => told(board.receive()),
        17 => told(board.receive_and_wait()),
        18 => told(board.cancel_message(m, r)),
        19 => told(board.wait_for_interrupt()),
        START => told(board.start(timer, m, b)),
        TICK => told(board.tick(timer)),
        253 => told(board.convert()),
        254 => told(board.make_fresh()),
        _ => return None,
    })
}

fn unzipped(file: &str) -> Vec<u8> {
    let path = Path::new(env!("CARGO_MANIFEST_DIR")).join("../tests/cases").join(file);
    let out = Command::new("gzip").arg("-dc").arg(path).output().expect("gzip runs");
    assert!(out.status.success(), "{file} is read");
    out.stdout
}

/// The next so many bytes of what is left.
fn take<'a>(rest: &mut &'a [u8], n: usize) -> &'a [u8] {
    let (taken, left) = rest.split_at(n);
    *rest = left;
    taken
}

fn take_len(rest: &mut &[u8]) -> usize {
    let word = take(rest, 2);
    u16::from_le_bytes([word[0], word[1]]).into()
}

/// Adds each byte that has changed.
fn tell_changes(said: &mut String, mark: &str, before: &[u8], after: &[u8]) {
    for (i, byte) in after.iter().enumerate().filter(|&(i, byte)| *byte != before[i]) {
        write!(said, " {mark}{i}={byte}").unwrap();
    }
}

fn compare(name: &str) {
    let cases = unzipped(&format!("{name}.cases.gz"));
    let answers = String::from_utf8(unzipped(&format!("{name}.answers.gz"))).expect("answers are text");
    let mut rest = &cases[..];
    for (line, want) in answers.lines().enumerate() {
        let len = take_len(&mut rest);
        let call = take(&mut rest, 9);
        let board = take(&mut rest, len);
        let len = if [START, TICK].contains(&call[0]) { take_len(&mut rest) } else { 0 };
        let timer = take(&mut rest, len);
        let (mut board_after, mut timer_after) = (board.to_vec(), timer.to_vec());
        let mut said = match answer_to(call, &mut Board::lent(&mut board_after), &mut Timer::lent(&mut timer_after)) {
            Some(said) => said,
            None => continue,
        };
        tell_changes(&mut said, "", board, &board_after);
        tell_changes(&mut said, "t", timer, &timer_after);
        assert_eq!(said, want, "{name}, case {line}");
    }
    assert!(rest.is_empty(), "{name}: an answer for each case");
}

#[test]
fn worked_boards() {
    compare("worked_boards");
}

#[test]
fn damaged_boards() {
    compare("damaged_boards");
}

#[test]
fn full_boards() {
    compare("full_boards");
}

#[test]
fn converted_boards() {
    compare("converted_boards");
}

#[test]
fn timer_boards() {
    compare("timer_boards");
}

#[test]
fn cases_of_an_independent_model() {
    ["outside_check", "outside_history", "outside_damaged", "outside_convert", "outside_timer"].into_iter().for_each(compare);
}
