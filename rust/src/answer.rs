//! What a call answers.
use crate::{MsgNo, Rule, TaskNo};
use core::fmt;

/// A call is accepted or refused. A refused call has changed no byte.
pub type Answer<T = ()> = Result<Accepted<T>, Refusal>;

/// What an accepted call tells.
#[derive(Clone, Copy, Debug, PartialEq, Eq)]
pub struct Accepted<T = ()> {
    /// what find, claim and receive give; nothing from the other calls
    pub value: T,
    /// the task that runs now
    pub running: Option<TaskNo>,
    /// the message that the running task was handed at dispatch
    pub delivered: Option<MsgNo>,
}

impl<T> Accepted<T> {
    /// The same with its value read in another way.
    pub(crate) fn with<U>(self, read: impl FnOnce(T) -> U) -> Accepted<U> {
        Accepted { value: read(self.value), running: self.running, delivered: self.delivered }
    }
}

/// An answer as the library packs it, from the lowest bit: 8 bits of refusal, 0 if accepted; then 16 each of value, running,
/// delivered, or with refusal 2 8 each of rule and record.
pub(crate) fn unpack(word: u64) -> Answer<u16> {
    match word as u8 {
        0 => Ok(Accepted {
            value: (word >> 8) as u16,
            running: TaskNo::some((word >> 24) as u16),
            delivered: MsgNo::some((word >> 40) as u16),
        }),
        // 255 is for a kind that is no call, and no method asks one
        number => {
            let [_, rule, record, ..] = word.to_le_bytes();
            Err(Refusal::from_numbers(number, rule, record.into()).expect("the library refuses with 1 to 18, and 2 has a rule"))
        }
    }
}

/// Defines the refusals once: number, name, what comes with it, words.
macro_rules! refusals {
    ($($number:literal $name:ident $(($with:ident))? $words:literal)*) => {
        /// Why a call is refused. If several reasons apply, the one of the lowest number is given, but 18 comes right behind 2.
        #[derive(Clone, Copy, Debug, PartialEq, Eq, PartialOrd, Ord, Hash)]
        pub enum Refusal {
            $(#[doc = $words] $name $(($with))?,)*
        }

        impl Refusal {
            /// The refusal of that number, if there is one. With 2 comes the rule of that number and record; others do not look
            /// at these.
            pub fn from_numbers(number: u8, rule: u8, record: u16) -> Option<Refusal> {
                match number {
                    $($number => Some(Refusal::$name $(($with::from_numbers(rule, record)?))?),)*
                    _ => None,
                }
            }

            /// Its number, 1 to 18.
            pub const fn number(self) -> u8 {
                match self {
                    $(Refusal::$name { .. } => $number,)*
                }
            }

            const fn words(self) -> &'static str {
                match self {
                    $(Refusal::$name { .. } => $words,)*
                }
            }
        }
    };
}

refusals! {
    1 WrongLength "the board isn't 1,476 bytes"
    2 RuleBroken(Rule) "such a board cannot exist"
    3 NobodyRuns "no task is running"
    4 NoSuchMessage "there is no message of that number"
    5 NotHeld "the running task doesn't hold the message"
    6 NoSuchTask "there is no such task"
    7 BadPriority "the priority can't be used here"
    8 NotInstallable "no task of that number, or it is in use"
    9 BadStatus "a task can't be installed with that status"
    10 TaskBusy "the task has a message or is to have one from a timer, or waits for an interrupt"
    11 NoneFree "no message is free"
    12 NotQueued "the message isn't in that task's queue"
    13 NotItsSender "the running task isn't the message's sender"
    14 BadSender "the sender is no task number"
    15 NothingToDeliver "there is nothing to deliver; proved never to be given"
    16 NoDelay "a delay of no ticks"
    17 NoTimerFree "no timer is free"
    18 BadTimer "the timer isn't 50 bytes, or doesn't go with the board"
}

/// The words and the number; then the rule that is broken, if it is one.
impl fmt::Display for Refusal {
    fn fmt(&self, f: &mut fmt::Formatter<'_>) -> fmt::Result {
        write!(f, "{} (refusal {})", self.words(), self.number())?;
        match self {
            Refusal::RuleBroken(rule) => write!(f, ": {rule}"),
            _ => Ok(()),
        }
    }
}

#[cfg(feature = "std")]
impl std::error::Error for Refusal {}
