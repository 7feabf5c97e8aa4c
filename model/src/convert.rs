//! The conversion of boards that were saved before byte 1 named the running task: then it was zero, and the first ready task in
//! queue order ran.

use crate::answer::{Answer, Refusal, Rule};
use crate::board::{Board, Status, RUNNING};
use crate::check::{answer, examine_records, first_ready, keeps, Examined};

/// Checks an old board by the old rules and names who runs by them in byte 1: refused with 1, or with 2 and the old rule, or
/// accepted with that task. A refusal changes nothing.
pub fn convert(b: &mut [u8]) -> Answer {
    let Ok(b) = <&mut Board>::try_from(b) else {
        return Answer::Refused(Refusal::Length);
    };
    let examined = examine_old(b);
    if let Ok(Some(c)) = examined {
        b[RUNNING] = c.byte();
    }
    answer(examined)
}

/// The rules of an old board. R1 and R7 are not those of today, so a converted board with a running task breaks R1; and there was
/// no timer, so a message placed on it breaks R4.
fn examine_old(b: &Board) -> Examined {
    keeps(b[1..4] == [0; 3], Rule::R1)?;
    examine_records(b, |_, _| false)?;
    match first_ready(b) {
        Some(c) if c.status(b).has(Status::MHBS) => Err(Rule::R7(c.byte())),
        first => Ok(first),
    }
}
