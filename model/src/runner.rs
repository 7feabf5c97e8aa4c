//! The differential run: cases from a seed, and another program's answers to them against the model's.
//!
//! | Module | Holds |
//! |---|---|
//! | [`case`](mod@case) | a case of the protocol and the line that answers it |
//! | [`random`] | numbers from a seed |
//! | [`history`] | calls that fit a board, and boards that grow by them |
//! | [`damage`] | faults put into a good board |
//! | [`timer_damage`] | faults put into a good timer buffer |
//! | [`cases`] | all cases of a seed |
//! | [`program`] | the other program and its answers |
//! | [`tally`] | what has been seen |
//! | [`timers_seen`] | what has been seen of the timer |
//! | [`slips`] | answers with a known slip in them, to test the run itself |
//! | [`timer_slips`] | the slips of the timer |

pub mod case;
pub mod cases;
pub mod damage;
pub mod history;
pub mod program;
pub mod random;
pub mod slips;
pub mod tally;
pub mod timer_damage;
pub mod timer_slips;
pub mod timers_seen;
