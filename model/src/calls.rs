//! The nineteen calls. Each makes its tests in the order of the refusals' numbers and only then writes.

use crate::answer::{Answer, Refusal};
use crate::board::{
    link, link_in, link_out, set_word, word, Board, MsgNo, Status, TaskNo, BOARD_LEN, MESSAGE_LEN, PLACES_AT, RUNNING,
    SENDERS_PRIORITY, TASKS, TASK_LEN, TASK_QUEUE,
};
use crate::check::{examine, first_ready, running};

/// A call with its arguments: numbers are any words, STAT and PRIO any bytes.
#[derive(Clone, Copy, Debug, PartialEq, Eq)]
#[allow(missing_docs)] // the fields bear the paper's names
pub enum Call {
    Install { task: u16, stat: u8, prio: u8, sptr: u16, name: u16 },
    Post { task: u16 },
    Find { name: u16 },
    CancelTask { task: u16 },
    Claim,
    Prepare { message: u16, stat: u8, prio: u8, sptr: u16 },
    Release { message: u16 },
    Send { message: u16, receiver: u16 },
    SendAndWait { message: u16, receiver: u16 },
    Resend { message: u16 },
    ResendAndWait { message: u16 },
    Forward { message: u16, receiver: u16 },
    ForwardAndWait { message: u16, receiver: u16 },
    Return { message: u16 },
    ReturnAndWait { message: u16 },
    Receive,
    ReceiveAndWait,
    CancelMessage { message: u16, receiver: u16 },
    WaitForInterrupt,
}

impl Call {
    /// The call of this kind, 1 to 19, with its words in the paper's order; what it does not take is ignored.
    pub fn from_kind(kind: u8, a: u16, b: u16, c: u16, stat: u8, prio: u8) -> Option<Call> {
        Some(match kind {
            1 => Call::Install { task: a, stat, prio, sptr: b, name: c },
            2 => Call::Post { task: a },
            3 => Call::Find { name: a },
            4 => Call::CancelTask { task: a },
            5 => Call::Claim,
            6 => Call::Prepare { message: a, stat, prio, sptr: b },
            7 => Call::Release { message: a },
            8 => Call::Send { message: a, receiver: b },
            9 => Call::SendAndWait { message: a, receiver: b },
            10 => Call::Resend { message: a },
            11 => Call::ResendAndWait { message: a },
            12 => Call::Forward { message: a, receiver: b },
            13 => Call::ForwardAndWait { message: a, receiver: b },
            14 => Call::Return { message: a },
            15 => Call::ReturnAndWait { message: a },
            16 => Call::Receive,
            17 => Call::ReceiveAndWait,
            18 => Call::CancelMessage { message: a, receiver: b },
            19 => Call::WaitForInterrupt,
            _ => return None,
        })
    }
}

/// Makes a fresh board of any bytes of the right length.
pub fn fresh(b: &mut [u8]) -> Answer {
    if b.len() != BOARD_LEN {
        return Answer::Refused(Refusal::Length);
    }
    b.fill(0);
    Answer::Accepted { value: 0, running: 0, delivered: 0 }
}

/// Makes one call on a board; a refusal leaves the board as it was.
pub fn step(b: &mut [u8], call: Call) -> Answer {
    let Ok(b) = <&mut Board>::try_from(b) else {
        return Answer::Refused(Refusal::Length);
    };
    match examine(b).map_err(Refusal::BrokenRule).and_then(|running| effect(b, running, call)) {
        Err(refusal) => Answer::Refused(refusal),
        Ok(value) => dispatch(b, runs_next(b), value),
    }
}

/// The value that a call gives, or why it is refused.
pub(crate) type Done = Result<u16, Refusal>;

/// What a call does before it is asked who runs.
pub(crate) fn effect(b: &mut Board, running: Option<TaskNo>, call: Call) -> Done {
    let c = running.ok_or(Refusal::NoneRunning);
    match call {
        Call::Install { task, stat, prio, sptr, name } => install(b, task, stat, prio, sptr, name),
        Call::Post { task } => post(b, task),
        Call::Find { name } => Ok(find(b, name)),
        Call::CancelTask { task } => c.and_then(|_| cancel_task(b, task)),
        Call::Claim => claim(b, c?),
        Call::Prepare { message, stat, prio, sptr } => prepare(b, c?, message, stat, prio, sptr),
        Call::Release { message } => release(b, c?, message),
        Call::Send { message, receiver } => send(b, c?, message, receiver),
        Call::SendAndWait { message, receiver } => {
            send(b, c?, message, receiver)?;
            wait(b, c?)
        }
        Call::Resend { message } => resend(b, c?, message),
        Call::ResendAndWait { message } => {
            resend(b, c?, message)?;
            wait(b, c?)
        }
        Call::Forward { message, receiver } => forward(b, c?, message, receiver),
        Call::ForwardAndWait { message, receiver } => {
            forward(b, c?, message, receiver)?;
            wait(b, c?)
        }
        Call::Return { message } => give_back(b, c?, message),
        Call::ReturnAndWait { message } => {
            give_back(b, c?, message)?;
            wait(b, c?)
        }
        Call::Receive => Ok(take_first(b, c?).map_or(0, MsgNo::number)),
        Call::ReceiveAndWait => wait(b, c?),
        Call::CancelMessage { message, receiver } => cancel_message(b, c?, message, receiver),
        Call::WaitForInterrupt => wait_for_interrupt(b, c?),
    }
}

/// Who runs after the effect of a call: the task of byte 1, if it is still present and ready and no ready task has a smaller
/// priority number; otherwise the first ready task in queue order.
pub(crate) fn runs_next(b: &Board) -> Option<TaskNo> {
    let first = first_ready(b);
    let is_outranked = |c: TaskNo| first.is_some_and(|first| first.prio(b) < c.prio(b));
    running(b).filter(|c| c.is_ready(b) && !is_outranked(*c)).or(first)
}

/// Dispatch, which ends every accepted call: this task runs now. On a board that passed the check, MHBS is never over an empty
/// queue, here or after any call, so its refusal stands for the paper's last number only and need not undo a thing.
pub(crate) fn dispatch(b: &mut Board, running: Option<TaskNo>, value: u16) -> Answer {
    b[RUNNING] = running.map_or(0, TaskNo::byte);
    let Some(c) = running else {
        return Answer::Accepted { value, running: 0, delivered: 0 };
    };
    let mut delivered = 0;
    if c.status(b).has(Status::MHBS) {
        let Some(m) = take_first(b, c) else {
            return Answer::Refused(Refusal::NothingToDeliver);
        };
        c.set_status(b, c.status(b).without(Status::MHBS));
        delivered = m.number();
    }
    Answer::Accepted { value, running: c.number(), delivered }
}

// What calls have in common

/// The task that an argument or a record's pointer means.
fn task_meant(b: &Board, number: u16) -> Result<TaskNo, Refusal> {
    TaskNo::new(number).filter(|k| k.is_present(b)).ok_or(Refusal::NoTask)
}

/// The message that an argument means and the running task holds.
pub(crate) fn held_message(b: &Board, c: TaskNo, number: u16) -> Result<MsgNo, Refusal> {
    let m = MsgNo::new(number).ok_or(Refusal::NoMessage)?;
    if m.place(b) != c.held_place() {
        return Err(Refusal::NotHeld);
    }
    Ok(m)
}

/// Places a message in a task's queue and wakes a task that waits for one. Bit 0 asks for FIFO and is set only once the
/// position is found.
pub(crate) fn place(b: &mut Board, m: MsgNo, r: TaskNo) {
    let fifo = b[m.prio_at()] & 1 == 1;
    let priority = m.priority(b);
    let mut slot = r.queue_slot();
    while let Some(other) = MsgNo::new(link(b, slot)) {
        let theirs = other.priority(b);
        if theirs > priority || (theirs == priority && !fifo) {
            break;
        }
        slot = other.link_slot();
    }
    link_in(b, slot, m.number(), m.link_slot());
    b[m.prio_at()] |= 1;
    b[m.place_at()] = r.queued_place();
    let status = r.status(b);
    if status.has(Status::WAIT) {
        r.set_status(b, status.without(Status::WAIT).with(Status::MHBS));
    }
}

/// Takes the message to which a slot leads out of its queue; c then holds it.
fn take(b: &mut Board, slot: usize, m: MsgNo, c: TaskNo) {
    link_out(b, slot, m.link_slot());
    b[m.place_at()] = c.held_place();
}

/// Takes the first message of c's queue, if there is one.
fn take_first(b: &mut Board, c: TaskNo) -> Option<MsgNo> {
    let m = MsgNo::new(word(b, c.queue_slot()))?;
    take(b, c.queue_slot(), m, c);
    Some(m)
}

/// The end of a wait form: dispatch hands c a message if there is one, else c waits.
fn wait(b: &mut Board, c: TaskNo) -> Done {
    let bit = if word(b, c.queue_slot()) == 0 { Status::WAIT } else { Status::MHBS };
    c.set_status(b, c.status(b).with(bit));
    Ok(0)
}

// Tasks

fn install(b: &mut Board, task: u16, stat: u8, prio: u8, sptr: u16, name: u16) -> Done {
    if prio & 1 == 0 || prio == 0x01 || prio == 0xFF {
        return Err(Refusal::Priority);
    }
    let k = TaskNo::new(task).filter(|k| !k.is_present(b)).ok_or(Refusal::InstallNumber)?;
    let never = Status::WAIT | Status::IWAT | Status::SPARE | Status::INTQ | Status::MHBS;
    if stat & (never | Status::TCBB) != Status::TCBB {
        return Err(Refusal::InstallStatus);
    }
    let mut slot = TASK_QUEUE;
    while let Some(other) = TaskNo::new(link(b, slot)).filter(|other| other.prio(b) <= prio) {
        slot = other.link_slot();
    }
    b[k.at()] = stat;
    b[k.prio_at()] = prio;
    set_word(b, k.at() + 6, sptr);
    set_word(b, k.at() + 8, name);
    link_in(b, slot, k.number(), k.link_slot());
    Ok(0)
}

fn cancel_task(b: &mut Board, task: u16) -> Done {
    let k = task_meant(b, task)?;
    let has_queue = word(b, k.queue_slot()) != 0;
    let awaits_timer = MsgNo::all().any(|m| m.is_on_timer(b) && word(b, m.sptr_at()) == k.number());
    if has_queue || k.status(b).has(Status::IWAT) || b[PLACES_AT..].contains(&k.held_place()) || awaits_timer {
        return Err(Refusal::TaskBusy);
    }
    let mut slot = TASK_QUEUE;
    while let Some(other) = TaskNo::new(link(b, slot)).filter(|other| *other != k) {
        slot = other.link_slot();
    }
    link_out(b, slot, k.link_slot());
    b[k.at()..k.at() + TASK_LEN].fill(0);
    Ok(0)
}

fn find(b: &Board, name: u16) -> u16 {
    let mut slot = TASK_QUEUE;
    while let Some(k) = TaskNo::new(link(b, slot)) {
        if k.name(b) == name {
            return k.number();
        }
        slot = k.link_slot();
    }
    0
}

fn post(b: &mut Board, task: u16) -> Done {
    let k = task_meant(b, task)?;
    let status = k.status(b);
    let waited = status.has(Status::IWAT);
    k.set_status(b, if waited { status.without(Status::IWAT) } else { status.with(Status::INTQ) });
    Ok(0)
}

fn wait_for_interrupt(b: &mut Board, c: TaskNo) -> Done {
    let status = c.status(b);
    let posted = status.has(Status::INTQ);
    c.set_status(b, if posted { status.without(Status::INTQ) } else { status.with(Status::IWAT) });
    Ok(0)
}

// Messages

/// The lowest-numbered free message, if any.
pub fn lowest_free(b: &Board) -> Option<MsgNo> {
    (1..).zip(&b[PLACES_AT..]).find(|(_, place)| **place == 0).and_then(|(number, _)| MsgNo::new(number))
}

fn claim(b: &mut Board, c: TaskNo) -> Done {
    let m = lowest_free(b).ok_or(Refusal::NoneFree)?;
    b[m.place_at()] = c.held_place();
    Ok(m.number())
}

fn prepare(b: &mut Board, c: TaskNo, message: u16, stat: u8, prio: u8, sptr: u16) -> Done {
    let m = held_message(b, c, message)?;
    if sptr > TASKS {
        return Err(Refusal::SenderNumber);
    }
    b[m.at()] = stat;
    b[m.prio_at()] = prio;
    set_word(b, m.sptr_at(), sptr);
    Ok(0)
}

fn release(b: &mut Board, c: TaskNo, message: u16) -> Done {
    let m = held_message(b, c, message)?;
    b[m.at()..m.at() + MESSAGE_LEN].fill(0);
    b[m.place_at()] = 0;
    Ok(0)
}

fn send(b: &mut Board, c: TaskNo, message: u16, receiver: u16) -> Done {
    let m = held_message(b, c, message)?;
    let r = task_meant(b, receiver)?;
    if m.priority(b) == SENDERS_PRIORITY {
        // The priority alone is the sender's; LIFO or FIFO stays the message's own.
        b[m.prio_at()] = c.prio(b) & !1 | b[m.prio_at()] & 1;
    }
    set_word(b, m.rptr_at(), r.number());
    if word(b, m.sptr_at()) == 0 {
        set_word(b, m.sptr_at(), c.number());
    }
    place(b, m, r);
    Ok(0)
}

fn resend(b: &mut Board, c: TaskNo, message: u16) -> Done {
    let m = held_message(b, c, message)?;
    pass_on(b, m, word(b, m.rptr_at()))
}

fn forward(b: &mut Board, c: TaskNo, message: u16, receiver: u16) -> Done {
    let m = held_message(b, c, message)?;
    pass_on(b, m, receiver)
}

/// The paper's return.
fn give_back(b: &mut Board, c: TaskNo, message: u16) -> Done {
    let m = held_message(b, c, message)?;
    pass_on(b, m, word(b, m.sptr_at()))
}

/// Places a message that was sent before: it keeps its receiver, its sender and its priority.
fn pass_on(b: &mut Board, m: MsgNo, receiver: u16) -> Done {
    let r = receiver_of(b, m, receiver)?;
    place(b, m, r);
    Ok(0)
}

/// The task that such a message goes to.
pub(crate) fn receiver_of(b: &Board, m: MsgNo, receiver: u16) -> Result<TaskNo, Refusal> {
    let r = task_meant(b, receiver)?;
    if m.priority(b) == SENDERS_PRIORITY {
        return Err(Refusal::Priority);
    }
    Ok(r)
}

fn cancel_message(b: &mut Board, c: TaskNo, message: u16, receiver: u16) -> Done {
    let m = MsgNo::new(message).ok_or(Refusal::NoMessage)?;
    let r = task_meant(b, receiver)?;
    if m.place(b) != r.queued_place() {
        return Err(Refusal::NotQueued);
    }
    if word(b, m.sptr_at()) != c.number() {
        return Err(Refusal::NotSender);
    }
    let mut slot = r.queue_slot();
    while let Some(other) = MsgNo::new(link(b, slot)).filter(|other| *other != m) {
        slot = other.link_slot();
    }
    take(b, slot, m, c);
    let status = r.status(b);
    if status.has(Status::MHBS) && word(b, r.queue_slot()) == 0 {
        // The message that woke r is gone again, so r waits on.
        r.set_status(b, status.without(Status::MHBS).with(Status::WAIT));
    }
    Ok(0)
}
