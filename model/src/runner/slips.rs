//! Answers with a known slip in them, made by changing the model's reply afterwards, or by putting its steps together otherwise.
//! They test the differential run: it must notice every one.

use super::case::{Case, Reply, CHECK, CONVERT};
use super::timer_slips;
use crate::board::{set_word, word, Board, MsgNo, Status, TaskNo, MESSAGES, MESSAGE_LEN, RUNNING};
use crate::calls::{dispatch, effect, runs_next};
use crate::check::{first_ready, queue_is_good, queued_messages, running, running_is_good, status_fits};
use crate::check::{task_is_good, task_queue_is_good, timed_record_is_good};
use crate::{check, convert, Answer, Refusal, Rule};

/// The slips of document 01 that look right, slips in naming a broken rule, slips in who runs, and slips of the timer.
#[derive(Clone, Copy, Debug, PartialEq, Eq)]
#[allow(missing_docs)]
pub enum Slip {
    LifoKeepsBit0Clear,
    MessageHandedWhenSent,
    CancelLeavesReady,
    ForwardRewritesRptr,
    SharedTailPasses,
    HighestRule,
    LargestRecord,
    StrayedMessagesTask,
    R7BeforeR6,
    RecordWithR3,
    R7NamesFirstReady,
    FirstReadyRuns,
    EqualOutranks,
    Byte1LeftWhenItsTaskWaits,
    DeliveryBeforeWhoRuns,
    EarlierEqualDueRefused,
    ConversionOverlooksByte1,
    DueStopsAtTheLast,
    PastIsDue,
    FreeIsDueAt0,
    LastEntryFirst,
    DispatchAfterEach,
    EntryStaysUsed,
    StartedStaysHeld,
    HighestTimerTaken,
    NoneRunningBefore18,
    MessageTwicePasses,
    CancelOverlooksTimer,
    TimedMayHaveLink,
    TimedMayLackSptr,
    TimedMayHaveFeh,
}

/// All slips by name.
pub const SLIPS: [(&str, Slip); 31] = [
    ("lifo-keeps-bit-0-clear", Slip::LifoKeepsBit0Clear),
    ("message-handed-when-sent", Slip::MessageHandedWhenSent),
    ("cancel-leaves-ready", Slip::CancelLeavesReady),
    ("forward-rewrites-rptr", Slip::ForwardRewritesRptr),
    ("shared-tail-passes", Slip::SharedTailPasses),
    ("highest-rule", Slip::HighestRule),
    ("largest-record", Slip::LargestRecord),
    ("strayed-messages-task", Slip::StrayedMessagesTask),
    ("r7-before-r6", Slip::R7BeforeR6),
    ("record-with-r3", Slip::RecordWithR3),
    ("r7-names-first-ready", Slip::R7NamesFirstReady),
    ("first-ready-runs", Slip::FirstReadyRuns),
    ("equal-outranks", Slip::EqualOutranks),
    ("byte-1-left-when-its-task-waits", Slip::Byte1LeftWhenItsTaskWaits),
    ("delivery-before-who-runs", Slip::DeliveryBeforeWhoRuns),
    ("earlier-equal-due-refused", Slip::EarlierEqualDueRefused),
    ("conversion-overlooks-byte-1", Slip::ConversionOverlooksByte1),
    ("due-stops-at-the-last", Slip::DueStopsAtTheLast),
    ("past-is-due", Slip::PastIsDue),
    ("free-is-due-at-0", Slip::FreeIsDueAt0),
    ("last-entry-first", Slip::LastEntryFirst),
    ("dispatch-after-each", Slip::DispatchAfterEach),
    ("entry-stays-used", Slip::EntryStaysUsed),
    ("started-stays-held", Slip::StartedStaysHeld),
    ("highest-timer-taken", Slip::HighestTimerTaken),
    ("none-running-before-18", Slip::NoneRunningBefore18),
    ("message-twice-passes", Slip::MessageTwicePasses),
    ("cancel-overlooks-timer", Slip::CancelOverlooksTimer),
    ("timed-may-have-link", Slip::TimedMayHaveLink),
    ("timed-may-lack-sptr", Slip::TimedMayLackSptr),
    ("timed-may-have-feh", Slip::TimedMayHaveFeh),
];

impl Slip {
    /// The slip of this name.
    pub fn from_name(name: &str) -> Option<Slip> {
        SLIPS.iter().find(|(known, _)| *known == name).map(|(_, slip)| *slip)
    }

    /// The line that answers a case, with the slip.
    pub fn line(self, case: &Case) -> String {
        let line = self.reply(case).line(case);
        // an answer cannot even say this one
        if self == Slip::RecordWithR3 && line == "2 0 0 0 3 0" {
            return format!("2 0 0 0 3 {}", case.board[0]);
        }
        line
    }

    fn reply(self, case: &Case) -> Reply {
        let mut reply = case.reply();
        let Ok(before) = <&Board>::try_from(&case.board[..]) else { return reply };
        if let Some(slipped) = timer_slips::reply(self, case, &reply) {
            return slipped;
        }
        if self == Slip::SharedTailPasses && case.request.kind == CHECK {
            reply.answer = Some(check(&without_shared_tails(before)));
        } else if self == Slip::ConversionOverlooksByte1 && case.request.kind == CONVERT {
            return converted_again(before);
        } else if let Some(rule) = reply.rule() {
            reply.answer = Some(Answer::Refused(Refusal::BrokenRule(self.misname(before, rule))));
        } else if let Some(Answer::Accepted { .. }) = reply.answer {
            self.spoil(case, before, &mut reply);
            return self.run_another(case, before).unwrap_or(reply);
        }
        reply
    }

    /// Another rule or record in place of the right one, where the slip shows.
    fn misname(self, b: &Board, rule: Rule) -> Rule {
        let misnamed = match (self, rule) {
            (Slip::HighestRule, _) => highest(b),
            (Slip::LargestRecord, _) => largest(b, rule),
            (Slip::StrayedMessagesTask, Rule::R5(k)) => strayed_to(b, k).map(Rule::R5),
            (Slip::R7BeforeR6, Rule::R6(_)) => (!running_is_good(b)).then_some(Rule::R7(b[RUNNING])),
            (Slip::R7NamesFirstReady, Rule::R7(_)) => first_ready(b).map(TaskNo::byte).map(Rule::R7),
            _ => None,
        };
        misnamed.unwrap_or(rule)
    }

    /// Changes the board that an accepted call has left.
    fn spoil(self, case: &Case, before: &Board, reply: &mut Reply) {
        let kind = case.request.kind;
        let Ok(after) = <&mut Board>::try_from(&mut reply.after[..]) else { return };
        let Some(m) = MsgNo::new(case.request.a) else { return };
        let r = TaskNo::new(match kind {
            10 | 11 => word(before, m.rptr_at()),
            14 | 15 => word(before, m.sptr_at()),
            _ => case.request.b,
        });
        match (self, kind, r) {
            (Slip::LifoKeepsBit0Clear, 8..=15, _) => after[m.prio_at()] &= before[m.prio_at()] | !1,
            (Slip::ForwardRewritesRptr, 12 | 13, _) => set_word(after, m.rptr_at(), case.request.b),
            (Slip::MessageHandedWhenSent, 8..=15, Some(r)) if waits(before, r) => hand(after, m, r),
            (Slip::CancelLeavesReady, 18, Some(r)) => r.set_status(after, r.status(after).without(Status::WAIT)),
            _ => (),
        }
    }

    /// The reply to an accepted call after whose effect another task runs, or this one otherwise.
    fn run_another(self, case: &Case, before: &Board) -> Option<Reply> {
        let (c, mut b) = (running(before), *before);
        let value = effect(&mut b, c, case.request.call()?).ok()?;
        let (first, next, readied) = (first_ready(&b), runs_next(&b), readied_equal(before, &b));
        let answer = match self {
            Slip::FirstReadyRuns => dispatch(&mut b, first, value),
            Slip::EqualOutranks => dispatch(&mut b, readied.or(next), value),
            Slip::Byte1LeftWhenItsTaskWaits => {
                let answer = dispatch(&mut b, next, value);
                c.filter(|c| c.is_present(&b) && !c.is_ready(&b)).iter().for_each(|c| b[RUNNING] = c.byte());
                answer
            }
            Slip::DeliveryBeforeWhoRuns => delivered_first(&mut b, c, value),
            Slip::EarlierEqualDueRefused => refused_for_earlier(&mut b, before)?,
            _ => return None,
        };
        Some(Reply { answer: Some(answer), after: b.to_vec(), timer: Vec::new() })
    }
}

/// The task of equal priority with the running one that the call has made ready.
fn readied_equal(before: &Board, after: &Board) -> Option<TaskNo> {
    let c = running(before)?;
    TaskNo::all().find(|k| k.prio(after) == c.prio(after) && k.is_ready(after) && !k.is_ready(before))
}

/// The task that ran is handed what it is due, and only then it is asked who runs.
fn delivered_first(b: &mut Board, c: Option<TaskNo>, value: u16) -> Answer {
    let mut answer = dispatch(b, c, value);
    let next = runs_next(b);
    b[RUNNING] = next.map_or(0, TaskNo::byte);
    if let Answer::Accepted { running, .. } = &mut answer {
        *running = b[RUNNING].into();
    }
    answer
}

/// R7 as it was: it is the first ready task that must be due nothing.
fn refused_for_earlier(b: &mut Board, before: &Board) -> Option<Answer> {
    let first = first_ready(before).filter(|first| first.status(before).has(Status::MHBS))?;
    *b = *before;
    Some(Answer::Refused(Refusal::BrokenRule(Rule::R7(first.byte()))))
}

/// The conversion, where R1 of an old board is taken for that of today.
fn converted_again(before: &Board) -> Reply {
    let mut b = *before;
    b[RUNNING] = 0;
    match convert(&mut b) {
        Answer::Refused(refusal) => Reply { answer: Some(Answer::Refused(refusal)), after: before.to_vec(), timer: Vec::new() },
        accepted => Reply { answer: Some(accepted), after: b.to_vec(), timer: Vec::new() },
    }
}

fn waits(b: &Board, k: TaskNo) -> bool {
    k.status(b).has(Status::WAIT)
}

/// Gives the woken task the only message of its queue.
fn hand(b: &mut Board, m: MsgNo, r: TaskNo) {
    r.set_status(b, r.status(b).without(Status::MHBS));
    set_word(b, r.queue_slot(), 0);
    b[m.place_at()] = r.held_place();
}

/// Whether R5 holds of a task, on whatever board.
fn queue_holds(b: &Board, k: TaskNo) -> bool {
    let queued = MsgNo::all().filter(|m| m.place(b) == k.queued_place()).count();
    queue_is_good(b, k, queued as u8)
}

/// The highest of R2 to R5 that is broken.
fn highest(b: &Board) -> Option<Rule> {
    let rule2 = || TaskNo::all().find(|k| !task_is_good(b, *k)).map(Rule::R2);
    let rule3 = || (!task_queue_is_good(b)).then_some(Rule::R3);
    let rule4 = || queued_messages(b, timed_record_is_good).err();
    let rule5 = || TaskNo::all().find(|k| !queue_holds(b, *k)).map(Rule::R5);
    rule5().or_else(rule4).or_else(rule3).or_else(rule2)
}

/// The same rule at the largest record that breaks it.
fn largest(b: &Board, rule: Rule) -> Option<Rule> {
    let last_task = |is_good: fn(&Board, TaskNo) -> bool| TaskNo::all().filter(|k| !is_good(b, *k)).last();
    match rule {
        Rule::R2(_) => last_task(task_is_good).map(Rule::R2),
        Rule::R4(_) => {
            MsgNo::all().filter(|m| queued_messages(&with_alone(b, *m), timed_record_is_good).is_err()).last().map(Rule::R4)
        }
        Rule::R5(_) => last_task(queue_holds).map(Rule::R5),
        Rule::R6(_) => last_task(status_fits).map(Rule::R6),
        Rule::R1 | Rule::R3 | Rule::R7(_) => None,
    }
}

/// The board with all messages but one freed.
fn with_alone(b: &Board, m: MsgNo) -> Board {
    let mut alone = *b;
    for other in MsgNo::all().filter(|other| *other != m) {
        alone[other.at()..other.at() + MESSAGE_LEN].fill(0);
        alone[other.place_at()] = 0;
    }
    alone
}

/// The task in whose queue the first message that a walk should not meet is placed.
fn strayed_to(b: &Board, k: TaskNo) -> Option<TaskNo> {
    let mut slot = k.queue_slot();
    for _ in 0..MESSAGES {
        let m = MsgNo::new(word(b, slot))?;
        if m.place(b) != k.queued_place() {
            return TaskNo::all().find(|other| other.queued_place() == m.place(b));
        }
        slot = m.link_slot();
    }
    None
}

/// The board with every queue cut where it runs into another one's messages.
fn without_shared_tails(b: &Board) -> Board {
    let mut cut = *b;
    for k in TaskNo::all() {
        let mut slot = k.queue_slot();
        let own = |m: &MsgNo| m.place(b) == k.queued_place();
        for _ in 0..MESSAGES {
            let Some(m) = MsgNo::new(word(b, slot)).filter(own) else { break };
            slot = m.link_slot();
        }
        if MsgNo::new(word(b, slot)).is_some_and(|m| !own(&m)) {
            set_word(&mut cut, slot, 0);
        }
    }
    cut
}
