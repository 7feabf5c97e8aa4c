//! A case of the protocol of `run_cases`, and the line that answers it.
//!
//! A case is the length of the board as a word, a call of nine bytes (kind, three words a, b and c, STAT, PRIO) and the board.
//! Kind 0 checks the board, kind 254 makes it fresh, kind 253 converts an old one. Kind 200 starts a timer for message a with
//! delay b, and kind 201 is a tick; with these two, and no others, the length of the timer buffer as a word and then the buffer
//! come behind the board.
//!
//! The answer is a line: refusal, value, running, delivered, rule, record, then each byte of the board that has changed, as
//! ` place=value`, and then each of the timer buffer, as ` tplace=value`.

use std::fmt::Write;
use std::io::{self, Read};

use crate::{check, convert, fresh, start, step, tick, Answer, Call, Rule};

/// The kind that checks a board.
pub const CHECK: u8 = 0;
/// The kind that makes a fresh board, between the drivers of cases: to the library it is no call.
pub const FRESH: u8 = 254;
/// The kind that converts an old board, between the drivers as well.
pub const CONVERT: u8 = 253;
/// The kind that starts a timer, between the drivers too: with these two the timer buffer is lent.
pub const START: u8 = 200;
/// The kind that is a tick.
pub const TICK: u8 = 201;
/// The number given for a kind that is no call.
pub const NO_CALL: u8 = 255;

/// The kinds that are something, with their names.
pub const KINDS: [(u8, &str); 24] = [
    (CHECK, "check"),
    (1, "install"),
    (2, "post interrupt"),
    (3, "find"),
    (4, "cancel task"),
    (5, "claim"),
    (6, "prepare"),
    (7, "release"),
    (8, "send"),
    (9, "send and wait"),
    (10, "resend"),
    (11, "resend and wait"),
    (12, "forward"),
    (13, "forward and wait"),
    (14, "return"),
    (15, "return and wait"),
    (16, "receive"),
    (17, "receive and wait"),
    (18, "cancel message"),
    (19, "wait for interrupt"),
    (START, "start"),
    (TICK, "tick"),
    (FRESH, "fresh"),
    (CONVERT, "convert"),
];

const REQUEST_LEN: usize = 9;

/// What is asked of a board: a kind and its arguments.
#[derive(Clone, Copy, Debug, Default, PartialEq, Eq)]
#[allow(missing_docs)] // the fields bear the names of the C interface
pub struct Request {
    pub kind: u8,
    pub a: u16,
    pub b: u16,
    pub c: u16,
    pub stat: u8,
    pub prio: u8,
}

impl Request {
    /// The call, if the kind is one of the nineteen.
    pub fn call(&self) -> Option<Call> {
        Call::from_kind(self.kind, self.a, self.b, self.c, self.stat, self.prio)
    }

    /// Whether the timer buffer is lent beside the board.
    pub fn takes_timer(&self) -> bool {
        [START, TICK].contains(&self.kind)
    }

    /// Does what is asked on lent bytes; no answer if the kind is no call.
    pub fn make(&self, board: &mut [u8], timer: &mut [u8]) -> Option<Answer> {
        match self.kind {
            CHECK => Some(check(board)),
            FRESH => Some(fresh(board)),
            CONVERT => Some(convert(board)),
            START => Some(start(board, timer, self.a, self.b)),
            TICK => Some(tick(board, timer)),
            _ => self.call().map(|call| step(board, call)),
        }
    }

    /// The request in words.
    pub fn in_words(&self) -> String {
        let Request { kind, a, b, c, stat, prio } = self;
        let Some((_, name)) = KINDS.iter().find(|(known, _)| known == kind) else {
            return format!("kind {kind}, which is no call");
        };
        match kind {
            1 => format!("{name} task {a}, STAT {stat:02X}H, PRIO {prio:02X}H, SPTR {b:04X}H, NAME {c:04X}H"),
            2 => format!("{name} at task {a}"),
            3 => format!("{name} NAME {a:04X}H"),
            4 => format!("{name} {a}"),
            6 => format!("{name} message {a}, STAT {stat:02X}H, PRIO {prio:02X}H, SPTR {b}"),
            7 | 10 | 11 | 14 | 15 => format!("{name}: message {a}"),
            8 | 9 | 12 | 13 => format!("{name}: message {a} to task {b}"),
            18 => format!("{name} {a} at task {b}"),
            200 => format!("{name}: message {a} for {b} ticks"),
            _ => name.to_string(),
        }
    }
}

/// A request and the buffers before it.
#[derive(Clone, Debug, PartialEq, Eq)]
pub struct Case {
    /// What is asked.
    pub request: Request,
    /// The lent bytes, of any length that a word can say.
    pub board: Vec<u8>,
    /// Those of the timer likewise, none where the kind takes no timer.
    pub timer: Vec<u8>,
}

impl Case {
    /// A case on these buffers, of which the timer is left out where the kind takes none.
    pub fn new(request: Request, board: &[u8], timer: &[u8]) -> Case {
        let timer = if request.takes_timer() { timer } else { &[] };
        Case { request, board: board.to_vec(), timer: timer.to_vec() }
    }

    /// Adds the case's bytes to those that a program reads.
    pub fn write(&self, out: &mut Vec<u8>) {
        let Request { kind, a, b, c, stat, prio } = self.request;
        out.extend((self.board.len() as u16).to_le_bytes());
        out.push(kind);
        [a, b, c].iter().for_each(|word| out.extend(word.to_le_bytes()));
        out.extend([stat, prio]);
        out.extend(&self.board);
        if self.request.takes_timer() {
            out.extend((self.timer.len() as u16).to_le_bytes());
            out.extend(&self.timer);
        }
    }

    /// The next case, none at the end; a case cut short is an error.
    pub fn read(from: &mut impl Read) -> io::Result<Option<Case>> {
        let mut len = [0; 2];
        if from.read(&mut len[..1])? == 0 {
            return Ok(None);
        }
        from.read_exact(&mut len[1..])?;
        let mut r = [0; REQUEST_LEN];
        from.read_exact(&mut r)?;
        let word = |at: usize| u16::from_le_bytes([r[at], r[at + 1]]);
        let request = Request { kind: r[0], a: word(1), b: word(3), c: word(5), stat: r[7], prio: r[8] };
        let board = read_bytes(from, len)?;
        let mut timer = Vec::new();
        if request.takes_timer() {
            from.read_exact(&mut len)?;
            timer = read_bytes(from, len)?;
        }
        Ok(Some(Case { request, board, timer }))
    }

    /// What the model makes of the case.
    pub fn reply(&self) -> Reply {
        let (mut after, mut timer) = (self.board.clone(), self.timer.clone());
        let answer = self.request.make(&mut after, &mut timer);
        Reply { answer, after, timer }
    }
}

/// So many bytes as the word says.
fn read_bytes(from: &mut impl Read, len: [u8; 2]) -> io::Result<Vec<u8>> {
    let mut bytes = vec![0; u16::from_le_bytes(len).into()];
    from.read_exact(&mut bytes)?;
    Ok(bytes)
}

/// An answer, none if the kind is no call, and the board and the timer buffer afterwards.
#[derive(Clone, Debug, PartialEq, Eq)]
#[allow(missing_docs)]
pub struct Reply {
    pub answer: Option<Answer>,
    pub after: Vec<u8>,
    pub timer: Vec<u8>,
}

impl Reply {
    /// The refusal's number, 0 where accepted.
    pub fn refusal(&self) -> u8 {
        match self.answer {
            None => NO_CALL,
            Some(Answer::Refused(refusal)) => refusal.number(),
            Some(Answer::Accepted { .. }) => 0,
        }
    }

    /// The broken rule, where it is refused for one.
    pub fn rule(&self) -> Option<Rule> {
        match self.answer {
            Some(Answer::Refused(refusal)) => refusal.rule(),
            _ => None,
        }
    }

    /// The line of the protocol: refusal, value, running, delivered, rule and record, and each byte of the case that changed.
    pub fn line(&self, before: &Case) -> String {
        let (value, running, delivered) = match self.answer {
            Some(Answer::Accepted { value, running, delivered }) => (value, running, delivered),
            _ => (0, 0, 0),
        };
        let (rule, record) = self.rule().map_or((0, 0), |rule| (rule.number(), rule.record()));
        let mut line = format!("{} {value} {running} {delivered} {rule} {record}", self.refusal());
        write_changes(&mut line, "", &before.board, &self.after);
        write_changes(&mut line, "t", &before.timer, &self.timer);
        line
    }
}

/// Adds each byte that changed, with the mark of its buffer.
fn write_changes(line: &mut String, mark: &str, before: &[u8], after: &[u8]) {
    for (at, (old, new)) in before.iter().zip(after).enumerate() {
        if old != new {
            write!(line, " {mark}{at}={new}").expect("a string takes any text");
        }
    }
}
