//! What a board can break.
use crate::{MsgNo, TaskNo, MESSAGES, TASKS};
use core::fmt;

/// A rule that a board breaks, with the task or message that breaks it. If several are broken, it is the lowest rule, and of its
/// tasks or messages the smallest. R6 is judged on boards that keep R1 to R5, and R7 on boards that keep all others.
///
/// [`Board::convert`](crate::Board::convert) judges an old board, whose R1, R4 and R7 were others.
#[derive(Clone, Copy, Debug, PartialEq, Eq, PartialOrd, Ord, Hash)]
pub enum Rule {
    /// bytes 2 and 3 are not zero; of an old board, bytes 1 to 3
    R1,
    /// the record of the task is neither zero nor that of a task (STAT and PRIO)
    R2(TaskNo),
    /// the task queue does not visit exactly the present tasks, in order of priority
    R3,
    /// the record of the message does not go with its place
    R4(MsgNo),
    /// the queue of the task does not visit exactly the messages placed there, in order of priority
    R5(TaskNo),
    /// WAIT, IWAT, INTQ and MHBS of the task do not go together, or not with its queue
    R6(TaskNo),
    /// byte 1, told as it is, is not 0 where no task is ready, or names no ready task of the smallest ready priority number with
    /// MHBS 0; of an old board, the first ready task, told by its number, is due a message (MHBS)
    R7(u8),
}

impl Rule {
    /// The rule of that number, 1 to 7, with that record, 0 with R1 and R3, any byte with R7; none where there can be no such
    /// record.
    pub const fn from_numbers(rule: u8, record: u16) -> Option<Rule> {
        Some(match (rule, record) {
            (1, 0) => Rule::R1,
            (2, 1..=TASKS) => Rule::R2(TaskNo(record)),
            (3, 0) => Rule::R3,
            (4, 1..=MESSAGES) => Rule::R4(MsgNo(record)),
            (5, 1..=TASKS) => Rule::R5(TaskNo(record)),
            (6, 1..=TASKS) => Rule::R6(TaskNo(record)),
            (7, 0..=255) => Rule::R7(record as u8),
            _ => return None,
        })
    }

    /// Its number, 1 to 7.
    pub const fn number(self) -> u8 {
        match self {
            Rule::R1 => 1,
            Rule::R2(_) => 2,
            Rule::R3 => 3,
            Rule::R4(_) => 4,
            Rule::R5(_) => 5,
            Rule::R6(_) => 6,
            Rule::R7(_) => 7,
        }
    }

    /// The number of the task or message, 0 with R1 and R3, byte 1 with R7.
    pub const fn record(self) -> u16 {
        match self {
            Rule::R1 | Rule::R3 => 0,
            Rule::R4(m) => m.0,
            Rule::R2(k) | Rule::R5(k) | Rule::R6(k) => k.0,
            Rule::R7(byte) => byte as u16,
        }
    }
}

impl fmt::Display for Rule {
    fn fmt(&self, f: &mut fmt::Formatter<'_>) -> fmt::Result {
        write!(f, "rule {}: ", self.number())?;
        match self {
            Rule::R1 => write!(f, "bytes 2 and 3 are not zero (of an old board, 1 to 3)"),
            Rule::R2(k) => write!(f, "the record of task {} is neither zero nor that of a task (STAT and PRIO)", k.0),
            Rule::R3 => write!(f, "the task queue does not visit exactly the present tasks, in order of priority"),
            Rule::R4(m) => write!(f, "the record of message {} does not go with its place", m.0),
            Rule::R5(k) => {
                write!(f, "the queue of task {} does not visit exactly the messages placed there, in order of priority", k.0)
            }
            Rule::R6(k) => write!(f, "WAIT, IWAT, INTQ and MHBS of task {} do not go together, or not with its queue", k.0),
            Rule::R7(byte) => {
                write!(f, "byte 1 is {byte}, and names no task that may run ")?;
                write!(f, "(of an old board, the first ready task {byte} is due a message)")
            }
        }
    }
}
