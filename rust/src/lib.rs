//! The station's board: tasks, message blocks and queues in 1,476 bytes, and the nineteen calls on it; and beside it the station
//! timer, for messages that come back later.
//!
//! The work is done by the library `station`, which is proved to do exactly what document 01 says: each call, on any bytes and
//! any arguments, ends with an answer and touches nothing but the board, and start and tick the timer. This crate gives its calls
//! their types.
//!
//! A [`Board`] is owned, or lent from a longer buffer of any length without a copy ([`Board::lent`]), and so is a [`Timer`]. A
//! board that was saved when byte 1 was always zero goes through [`Board::convert`] first. Names in capitals are the fields of
//! the MITE-80 manual, 3.2 and 3.3.
//!
//! To use it, name this folder as a path dependency and build the library first: `tests/libraries` at the top of the
//! repository writes it, for x86-64. If it lies elsewhere, `STATION_LIB_DIR` says in which folder.
//!
//! ```
//! use station::{Board, Prio, Refusal, Rule, Status, TaskNo};
//!
//! # fn main() -> Result<(), Refusal> {
//! const LOGGER: TaskNo = TaskNo(1);
//! const SAMPLER: TaskNo = TaskNo(2);
//! let name = u16::from_le_bytes;
//!
//! let mut board = Board::fresh();
//! board.install(LOGGER, Status::TCBB, Prio::fifo(10), 0, name(*b"LG"))?;
//! board.install(SAMPLER, Status::TCBB, Prio::fifo(25), 0, name(*b"S1"))?;
//!
//! // the logger is the more urgent; it waits, so the sampler runs
//! let told = board.receive_and_wait()?;
//! assert_eq!(told.running, Some(SAMPLER));
//!
//! // the sampler sends a message: the logger runs and has been handed it
//! let m = board.claim()?.value;
//! board.prepare(m, 0, Prio::fifo(Prio::SENDERS_OWN), None)?;
//! let told = board.send(m, LOGGER)?;
//! assert_eq!(told.running, Some(LOGGER));
//! assert_eq!(told.delivered, Some(m));
//!
//! // a call that cannot be done is refused, and the board is as it was
//! assert_eq!(board.send(m, TaskNo(33)), Err(Refusal::NoSuchTask));
//! board.release(m)?;
//!
//! // bytes that are no board are told with the rule that they break, and the task or message
//! let mut bytes = board.into_bytes();
//! bytes[4] |= Status::IWAT.0 | Status::INTQ.0;
//! let told = Board::from_bytes(&bytes);
//! assert_eq!(told, Err(Refusal::RuleBroken(Rule::R6(LOGGER))));
//! # Ok(())
//! # }
//! ```
#![no_std]
#![deny(missing_docs, unsafe_code)]

#[cfg(feature = "std")]
extern crate std;

mod answer;
mod board;
mod numbers;
mod rule;
#[allow(unsafe_code)]
mod sys;
mod timer;

pub use answer::{Accepted, Answer, Refusal};
pub use board::Board;
pub use numbers::{MsgNo, Prio, Status, TaskNo};
pub use rule::Rule;
pub use timer::Timer;

/// The bytes of a board.
pub const BYTES: usize = 1476;
/// Tasks are numbered 1 to this.
pub const TASKS: u16 = 32;
/// Messages are numbered 1 to this.
pub const MESSAGES: u16 = 128;
/// The bytes of a timer.
pub const TIMER_BYTES: usize = 50;
/// So many messages can be on the timer at once.
pub const TIMERS: usize = 16;
