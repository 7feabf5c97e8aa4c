//! The proved library timed in one run on one machine, against the same work in Rust: plainly written (the package `model`) and
//! tuned; and against another library, such as that of the landing before.
//!
//! | Module | Holds |
//! |---|---|
//! | [`tuned`] | document 01 in safe Rust, written to be quick |
//! | [`version`] | a version of the check, the calls, start and tick, and claim's search, in Rust or in a shared library |
//! | [`compare`] | a version against the model |
//! | [`cases`] | the boards and the calls that are timed |
//! | [`timing`] | how long something takes |

#![warn(missing_docs)]

pub mod cases;
pub mod compare;
pub mod timing;
pub mod tuned;
pub mod version;
