//! Document 01 in plain safe Rust, as the requests of document 02 change it: a board of lent bytes, changed in place, and the
//! nineteen calls; and the station timer, a second buffer that start and tick are lent beside the board.
//!
//! It was written from the papers alone, without a look at the proved code, and serves to be compared with that code, in
//! answers and in speed. So it is plain: every test of a call comes before its first write, and nothing is copied.
//!
//! | Module | Holds |
//! |---|---|
//! | [`board`] | where each record lies, and its fields |
//! | [`check`](mod@check) | the rules R1 to R7, and who is ready |
//! | [`calls`] | the nineteen calls, the wait forms, who runs then, and dispatch |
//! | [`timer`] | the timer buffer, start and tick |
//! | [`convert`](mod@convert) | the conversion of old boards, and their rules |
//! | [`answer`] | answers, refusals and rules by number |
//! | [`runner`] | the differential run: cases made from a seed, another program's answers, and the counts |
//!
//! `compare` is the differential run and `answer` the model behind the text protocol of `run_cases`:
//!
//! ```text
//! cargo run --offline --release --bin compare -- -- PROGRAM     the kept seeds
//! cargo run --offline --release --bin compare -- --for 0 -- PROGRAM    until it is stopped
//! ```

#![forbid(unsafe_code)]
#![warn(missing_docs)]

pub mod answer;
pub mod board;
pub mod calls;
pub mod check;
pub mod convert;
pub mod runner;
pub mod timer;

pub use answer::{Answer, Refusal, Rule};
pub use calls::{fresh, step, Call};
pub use check::check;
pub use convert::convert;
pub use timer::{start, tick};
