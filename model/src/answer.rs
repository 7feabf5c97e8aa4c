//! What a call hands back.

use crate::board::{MsgNo, TaskNo};

/// An answer: accepted with three numbers, or refused with one, which for a broken rule says where. A refused call has changed
/// nothing.
#[derive(Clone, Copy, Debug, PartialEq, Eq)]
pub enum Answer {
    /// The call was made.
    Accepted {
        /// What find, claim or plain receive gives, else 0.
        value: u16,
        /// The task that runs now, 0 for none.
        running: u16,
        /// The message that dispatch handed to it, 0 for none.
        delivered: u16,
    },
    /// The call was not made.
    Refused(Refusal),
}

/// Why a call is refused. The one of the lowest number that applies is given; only 18 comes right behind 2.
#[derive(Clone, Copy, Debug, PartialEq, Eq)]
pub enum Refusal {
    /// The lent bytes are not as many as a board has.
    Length,
    /// One of R1 to R7 is broken, and this one first.
    BrokenRule(Rule),
    /// No task is running.
    NoneRunning,
    /// No message has this number.
    NoMessage,
    /// The running task does not hold the message.
    NotHeld,
    /// The task meant is no task number, or absent.
    NoTask,
    /// A priority that cannot be placed or installed.
    Priority,
    /// Install: no task number, or present already.
    InstallNumber,
    /// Install: a status that a new task cannot have.
    InstallStatus,
    /// The task to cancel has messages or waits for an interrupt.
    TaskBusy,
    /// All messages are in use.
    NoneFree,
    /// The message is not queued at that task.
    NotQueued,
    /// The running task is not the message's sender.
    NotSender,
    /// Prepare: the sender is no task number and not 0.
    SenderNumber,
    /// Dispatch finds MHBS over an empty queue.
    NothingToDeliver,
    /// Start: a delay of 0.
    NoDelay,
    /// Start: all sixteen timers are in use.
    TimersInUse,
    /// The timer buffer is not as long as it should be, or not in order, or does not fit the board.
    TimerBuffer,
}

impl Refusal {
    /// The paper's number.
    pub fn number(self) -> u8 {
        match self {
            Refusal::Length => 1,
            Refusal::BrokenRule(_) => 2,
            Refusal::NoneRunning => 3,
            Refusal::NoMessage => 4,
            Refusal::NotHeld => 5,
            Refusal::NoTask => 6,
            Refusal::Priority => 7,
            Refusal::InstallNumber => 8,
            Refusal::InstallStatus => 9,
            Refusal::TaskBusy => 10,
            Refusal::NoneFree => 11,
            Refusal::NotQueued => 12,
            Refusal::NotSender => 13,
            Refusal::SenderNumber => 14,
            Refusal::NothingToDeliver => 15,
            Refusal::NoDelay => 16,
            Refusal::TimersInUse => 17,
            Refusal::TimerBuffer => 18,
        }
    }

    /// The broken rule, if it is for one that the call is refused.
    pub fn rule(self) -> Option<Rule> {
        match self {
            Refusal::BrokenRule(rule) => Some(rule),
            _ => None,
        }
    }
}

/// A broken rule of the board, with the task or message that breaks it. Of several the lowest is named, then the smallest.
#[derive(Clone, Copy, Debug, PartialEq, Eq)]
pub enum Rule {
    /// Bytes 2 and 3; of an old board that is converted, bytes 1 to 3.
    R1,
    /// The record of a task.
    R2(TaskNo),
    /// The task queue.
    R3,
    /// The record of a message, or its place.
    R4(MsgNo),
    /// The queue of a task.
    R5(TaskNo),
    /// The status of a task against its queue.
    R6(TaskNo),
    /// Byte 1, as it is: it may be 0 or name no task. Of an old board, the first ready task.
    R7(u8),
}

impl Rule {
    /// The paper's number.
    pub fn number(self) -> u8 {
        match self {
            Rule::R1 => 1,
            Rule::R2(_) => 2,
            Rule::R3 => 3,
            Rule::R4(_) => 4,
            Rule::R5(_) => 5,
            Rule::R6(_) => 6,
            Rule::R7(_) => 7,
        }
    }

    /// The number of the task or message, 0 where the rule is not one for each; with R7 byte 1.
    pub fn record(self) -> u16 {
        match self {
            Rule::R1 | Rule::R3 => 0,
            Rule::R4(m) => m.number(),
            Rule::R2(k) | Rule::R5(k) | Rule::R6(k) => k.number(),
            Rule::R7(byte) => byte.into(),
        }
    }
}
