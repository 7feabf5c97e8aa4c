//! The rules R1 to R7, and who is ready. Every record is read once, and once more where a queue leads to it.

use crate::answer::{Answer, Refusal, Rule};
use crate::board::{link, word, Board, MsgNo, Status, TaskNo, MESSAGE_LEN, ON_TIMER, RUNNING, TASKS, TASK_LEN, TASK_QUEUE};

/// Checks a board: refused with 1, or with 2 and the broken rule, or accepted with the running task.
pub fn check(b: &[u8]) -> Answer {
    let Ok(b) = <&Board>::try_from(b) else {
        return Answer::Refused(Refusal::Length);
    };
    answer(examine(b))
}

/// Who runs on a good board; else the lowest rule that is broken, with the smallest task or message that breaks it.
pub(crate) type Examined = Result<Option<TaskNo>, Rule>;

/// What a look at a board hands back.
pub(crate) fn answer(examined: Examined) -> Answer {
    match examined {
        Err(rule) => Answer::Refused(Refusal::BrokenRule(rule)),
        Ok(running) => Answer::Accepted { value: 0, running: running.map_or(0, TaskNo::number), delivered: 0 },
    }
}

/// All rules.
pub(crate) fn examine(b: &Board) -> Examined {
    keeps(b[2..4] == [0; 2], Rule::R1)?;
    examine_records(b, timed_record_is_good)?;
    keeps(running_is_good(b), Rule::R7(b[RUNNING]))?;
    Ok(running(b))
}

/// What R4 says of a message on the timer.
pub(crate) type TimedRule = fn(&Board, MsgNo) -> bool;

/// R2 to R6, which say nothing of bytes 1 to 3. R4 of a message on the timer is handed over: once there was no such place.
pub(crate) fn examine_records(b: &Board, timed: TimedRule) -> Result<(), Rule> {
    each_keeps(TaskNo::all(), |k| task_is_good(b, k), Rule::R2)?;
    keeps(task_queue_is_good(b), Rule::R3)?;
    let queued = queued_messages(b, timed)?;
    each_keeps(present(b), |k| queue_is_good(b, k, queued[usize::from(k.number())]), Rule::R5)?;
    each_keeps(present(b), |k| status_fits(b, k), Rule::R6)
}

pub(crate) fn keeps(good: bool, rule: Rule) -> Result<(), Rule> {
    if good {
        Ok(())
    } else {
        Err(rule)
    }
}

/// A rule for each task or message, which come by number: the first that breaks it is named.
fn each_keeps<N: Copy>(mut all: impl Iterator<Item = N>, is_good: impl Fn(N) -> bool, rule: fn(N) -> Rule) -> Result<(), Rule> {
    all.find(|one| !is_good(*one)).map_or(Ok(()), |bad| Err(rule(bad)))
}

/// The present tasks, on a board that keeps R2.
fn present(b: &Board) -> impl Iterator<Item = TaskNo> + '_ {
    TaskNo::all().filter(|k| k.is_present(b))
}

/// The task that byte 1 names.
pub(crate) fn running(b: &Board) -> Option<TaskNo> {
    TaskNo::new(b[RUNNING].into())
}

/// The first ready task in queue order, on a board that keeps R3. Its priority number is the smallest of a ready one.
pub(crate) fn first_ready(b: &Board) -> Option<TaskNo> {
    let mut slot = TASK_QUEUE;
    loop {
        let k = TaskNo::new(link(b, slot))?;
        if k.is_ready(b) {
            return Some(k);
        }
        slot = k.link_slot();
    }
}

/// R2 for one task.
pub(crate) fn task_is_good(b: &Board, k: TaskNo) -> bool {
    let record = &b[k.at()..k.at() + TASK_LEN];
    let (status, prio) = (record[0], record[1]);
    let good_status = status & (Status::TCBB | Status::SPARE) == Status::TCBB;
    let good_prio = prio & 1 == 1 && (0x03..=0xFD).contains(&prio);
    good_status && good_prio || record.iter().all(|&byte| byte == 0)
}

/// R3. A walk that meets as many present tasks as there are and then ends has met each once: had it met one twice, it would
/// go round for ever.
pub(crate) fn task_queue_is_good(b: &Board) -> bool {
    let mut slot = TASK_QUEUE;
    let mut least = 0;
    for _ in present(b) {
        let Some(k) = TaskNo::new(link(b, slot)) else { return false };
        let prio = k.prio(b);
        if !k.is_present(b) || prio < least {
            return false;
        }
        least = prio;
        slot = k.link_slot();
    }
    link(b, slot) == 0
}

/// R4: how many messages are queued at each task.
pub(crate) fn queued_messages(b: &Board, timed: TimedRule) -> Result<[u8; TASKS as usize + 1], Rule> {
    let mut queued = [0; TASKS as usize + 1];
    for m in MsgNo::all() {
        let place = m.place(b);
        if place == 0 {
            keeps(b[m.at()..m.at() + MESSAGE_LEN].iter().all(|&byte| byte == 0), Rule::R4(m))?;
            continue;
        }
        if place == ON_TIMER {
            keeps(timed(b, m), Rule::R4(m))?;
            continue;
        }
        let is_queued = place >= 64;
        let owner = TaskNo::new(if is_queued { u16::from(place) - 64 } else { place.into() });
        let Some(k) = owner.filter(|k| k.is_present(b)) else { return Err(Rule::R4(m)) };
        keeps(used_record_is_good(b, m, is_queued), Rule::R4(m))?;
        queued[usize::from(k.number())] += u8::from(is_queued);
    }
    Ok(queued)
}

/// R4 for a message that is held or queued.
fn used_record_is_good(b: &Board, m: MsgNo, is_queued: bool) -> bool {
    let prio = b[m.prio_at()];
    let own = if is_queued { prio & 1 == 1 && prio != 0xFF } else { word(b, m.link_slot()) == 0 };
    own && word(b, m.rptr_at()) <= TASKS && word(b, m.sptr_at()) <= TASKS
}

/// R4 for a message on the timer: it can be returned at any tick. An even PRIO asks for LIFO then.
pub(crate) fn timed_record_is_good(b: &Board, m: MsgNo) -> bool {
    let goes_back = TaskNo::new(word(b, m.sptr_at())).is_some_and(|r| r.is_present(b));
    goes_back && word(b, m.link_slot()) == 0 && word(b, m.rptr_at()) <= TASKS && b[m.prio_at()] < 0xFE
}

/// R5 for one task, at which so many messages are queued; each is met once for the reason given at the task queue. The limit
/// of a walk, 128 links, never shows: there are no more messages.
pub(crate) fn queue_is_good(b: &Board, k: TaskNo, queued: u8) -> bool {
    let mut link = word(b, k.queue_slot());
    let mut least = 0;
    for _ in 0..queued {
        let Some(m) = MsgNo::new(link) else { return false };
        let prio = b[m.prio_at()];
        if m.place(b) != k.queued_place() || prio < least {
            return false;
        }
        least = prio;
        link = word(b, m.link_slot());
    }
    link == 0
}

/// R6 for one task.
pub(crate) fn status_fits(b: &Board, k: TaskNo) -> bool {
    let (s, queue_is_empty) = (k.status(b), word(b, k.queue_slot()) == 0);
    let wait_fits = !s.has(Status::WAIT) || (queue_is_empty && !s.has(Status::MHBS | Status::IWAT));
    let iwat_fits = !s.has(Status::IWAT) || !s.has(Status::INTQ | Status::MHBS);
    let mhbs_fits = !s.has(Status::MHBS) || !queue_is_empty;
    wait_fits && iwat_fits && mhbs_fits
}

/// R7. The task of byte 1 need not be the first of its equals, and these may be due a message.
pub(crate) fn running_is_good(b: &Board) -> bool {
    let Some(first) = first_ready(b) else { return b[RUNNING] == 0 };
    let may_run = |c: TaskNo| c.is_ready(b) && c.prio(b) == first.prio(b) && !c.status(b).has(Status::MHBS);
    running(b).is_some_and(may_run)
}
