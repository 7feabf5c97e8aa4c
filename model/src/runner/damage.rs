//! Faults put into a good board. Some leave it good, which is wanted too: such boards no history makes.

use super::history::task_where;
use super::random::Random;
use super::timer_damage::timed_record;
use crate::board::{
    set_word, word, Board, MsgNo, Status, TaskNo, BOARD_LEN, MESSAGES, MESSAGE_LEN, ON_TIMER, RUNNING, TASKS, TASK_LEN,
    TASK_QUEUE,
};
use crate::check::running;
use crate::{step, Call};

/// One to three faults.
pub fn damage(b: &mut Board, random: &mut Random) {
    for _ in 0..random.pick(&[1, 1, 1, 2, 3]) {
        fault(b, random);
    }
}

fn fault(b: &mut Board, random: &mut Random) {
    match random.below(25) {
        0 => b[random.below(BOARD_LEN)] = random.byte(),
        1 => b[random.upto(3) as usize] = random.byte(),
        2 | 3 => redirected_link(b, random),
        4 | 5 => changed_place(b, random),
        6 | 7 => shared_tail(b, random),
        8 => loop_in_queue(b, random),
        9..13 => flipped_status(b, random),
        13 => swapped(b, random),
        14 => changed_message_field(b, random),
        15 => changed_task(b, random),
        16 | 17 => misnamed_running(b, random),
        18 => equal_is_due(b, random),
        _ => aimed(b, random),
    }
}

/// Numbers of the present tasks, and of the messages that are not free. Where there are none, number 1 stands for them.
fn used(b: &Board) -> (Vec<TaskNo>, Vec<MsgNo>) {
    let mut present: Vec<_> = TaskNo::all().filter(|k| k.is_present(b)).collect();
    let mut in_use: Vec<_> = MsgNo::all().filter(|m| m.place(b) != 0).collect();
    if present.is_empty() {
        present.extend(TaskNo::all().next());
    }
    if in_use.is_empty() {
        in_use.extend(MsgNo::all().next());
    }
    (present, in_use)
}

/// The messages of a queue, as far as a walk can go.
fn queue(b: &Board, k: TaskNo) -> Vec<MsgNo> {
    let mut met = Vec::new();
    let mut slot = k.queue_slot();
    while let Some(m) = MsgNo::new(word(b, slot)).filter(|m| !met.contains(m)) {
        met.push(m);
        slot = m.link_slot();
    }
    met
}

/// A queue that is not empty, if there is one.
fn some_queue(b: &Board, random: &mut Random) -> Option<Vec<MsgNo>> {
    let queues: Vec<_> = TaskNo::all().map(|k| queue(b, k)).filter(|queue| !queue.is_empty()).collect();
    (!queues.is_empty()).then(|| queues[random.below(queues.len())].clone())
}

/// A link that leads elsewhere: to another record, to none, or to a number that is right but for its upper bits.
fn redirected_link(b: &mut Board, random: &mut Random) {
    let (present, in_use) = used(b);
    let (k, m) = (random.pick(&present), random.pick(&in_use));
    let (other_k, other_m) = (random.pick(&present).number(), random.pick(&in_use).number());
    let (slot, number) = match random.below(4) {
        0 => return redirected_head(b, other_k, random),
        1 => (k.link_slot(), other_k),
        2 => (k.queue_slot(), other_m),
        _ => (m.link_slot(), other_m),
    };
    let target = match random.below(6) {
        0 => 0,
        1 => number | (random.upto(255) << 8),
        2 => word(b, slot) ^ (random.upto(255) << 8),
        3 => random.word(),
        _ => number,
    };
    set_word(b, slot, target);
}

/// The same for the task queue's head, which has one byte; its neighbour is another rule's.
fn redirected_head(b: &mut Board, number: u16, random: &mut Random) {
    b[TASK_QUEUE] = match random.below(4) {
        0 => 0,
        1 => b[TASK_QUEUE] ^ random.pick(&[32, 64, 128, 192]),
        2 => random.byte(),
        _ => number as u8,
    };
}

fn changed_place(b: &mut Board, random: &mut Random) {
    let (present, in_use) = used(b);
    let k = random.pick(&present);
    let m = if random.chance(80) { random.pick(&in_use) } else { random.pick(&MsgNo::all().collect::<Vec<_>>()) };
    b[m.place_at()] = match random.below(8) {
        0 => 0,
        1 => random.byte(),
        2 => m.place(b) ^ random.pick(&[64, 128, 192]),
        7 => ON_TIMER,
        3 | 4 => k.held_place(),
        _ => k.queued_place(),
    };
}

/// The end of one queue leads into another, where priorities allow it.
fn shared_tail(b: &mut Board, random: &mut Random) {
    let (Some(one), Some(other)) = (some_queue(b, random), some_queue(b, random)) else { return };
    let last = one.last().copied().filter(|_| random.chance(60));
    let from = last.unwrap_or_else(|| random.pick(&one));
    let fits = |m: &&MsgNo| m.priority(b) >= from.priority(b) && !one.contains(m);
    let Some(into) = other.iter().find(fits).or(other.last()) else { return };
    set_word(b, from.link_slot(), into.number());
}

fn loop_in_queue(b: &mut Board, random: &mut Random) {
    if random.chance(30) {
        let (present, _) = used(b);
        let k = random.pick(&present);
        let equal = random.pick_where(32, |other| TaskNo::new(other).is_some_and(|other| other.prio(b) == k.prio(b)));
        set_word(b, k.link_slot(), equal.unwrap_or(k.number()));
        return;
    }
    let Some(queue) = some_queue(b, random) else { return };
    let from = random.pick(&queue);
    let equal = queue.iter().find(|m| m.priority(b) == from.priority(b)).unwrap_or(&from);
    set_word(b, from.link_slot(), equal.number());
}

/// A bit of a status, mostly one that R6 or R7 speaks of, and of a task with a queue or the running one.
fn flipped_status(b: &mut Board, random: &mut Random) {
    let (present, _) = used(b);
    let with_queue: Vec<_> = present.iter().copied().filter(|k| word(b, k.queue_slot()) != 0).collect();
    let from = if with_queue.is_empty() || random.chance(30) { present } else { with_queue };
    let k = random.pick(&from);
    let any = 1 << random.below(8);
    let bit = random.pick(&[Status::WAIT, Status::IWAT, Status::INTQ, Status::MHBS, Status::MHBS, any]);
    b[k.at()] ^= bit;
}

/// Two records of a kind change one field, or all of them.
fn swapped(b: &mut Board, random: &mut Random) {
    let (present, in_use) = used(b);
    let (one, other, len) = if random.chance(50) {
        (random.pick(&present).at(), random.pick(&present).at(), TASK_LEN)
    } else {
        (random.pick(&in_use).at(), random.pick(&in_use).at(), MESSAGE_LEN)
    };
    let field = 2 * random.below(len / 2);
    let range = if random.chance(30) { 0..len } else { field..field + 2 };
    range.for_each(|at| b.swap(one + at, other + at));
}

fn changed_message_field(b: &mut Board, random: &mut Random) {
    let (_, in_use) = used(b);
    let m = random.pick(&in_use);
    match random.below(4) {
        0 => b[m.prio_at()] = random.byte(),
        1 => b[m.prio_at()] ^= random.pick(&[0x01, 0xFE, 0xFF]),
        2 => set_word(b, m.rptr_at(), random.word()),
        _ => set_word(b, m.sptr_at(), random.word()),
    }
}

/// A task record gone, left over in part, or with another priority.
fn changed_task(b: &mut Board, random: &mut Random) {
    let (present, _) = used(b);
    let k = random.pick(&present);
    match random.below(5) {
        0 => b[k.at()..k.at() + TASK_LEN].fill(0),
        1 => b[k.prio_at()] = random.byte(),
        2 | 3 => edge_priority(b, &present, random),
        _ => b[random.pick(&TaskNo::all().collect::<Vec<_>>()).at() + random.below(TASK_LEN)] = random.byte(),
    }
}

/// A priority at the edge of what a task may have, at the end of the queue where it breaks no order.
fn edge_priority(b: &mut Board, present: &[TaskNo], random: &mut Random) {
    let by_prio = |k: &&TaskNo| k.prio(b);
    let (low, edges) = (random.chance(50), [0x03, 0x02, 0x01, 0xFC, 0xFD, 0xFE, 0xFF]);
    let k = if low { present.iter().min_by_key(by_prio) } else { present.iter().max_by_key(by_prio) };
    let edge = random.pick(if low { &edges[..3] } else { &edges[3..] });
    k.iter().for_each(|k| b[k.prio_at()] = edge);
}

/// Byte 1 names nobody, a number beyond the tasks, a task that is absent or waits, or a ready one of a larger priority number.
fn misnamed_running(b: &mut Board, random: &mut Random) {
    let waits = |k: TaskNo| k.is_present(b) && !k.is_ready(b);
    let is_outranked = |k: TaskNo| k.is_ready(b) && running(b).is_some_and(|c| c.prio(b) < k.prio(b));
    b[RUNNING] = match random.below(5) {
        0 => 0,
        1 => 33 + random.below(223) as u8,
        2 => task_where(random, |k| !k.is_present(b)) as u8,
        3 => task_where(random, waits) as u8,
        _ => task_where(random, is_outranked) as u8,
    };
}

/// Of two ready tasks of one priority, one runs and the other, earlier or later, is due a message. That is no fault, but on an
/// old board. Where the running task has no such equal, one is installed.
fn equal_is_due(b: &mut Board, random: &mut Random) {
    let Some(c) = running(b) else { return };
    if ready_equal(b, c).is_none() {
        let absent = task_where(random, |k| !k.is_present(b));
        install_with(b, absent, c.prio(b));
    }
    let Some(k) = ready_equal(b, c) else { return };
    let (runs, due) = if random.chance(30) { (c, k) } else { (k, c) };
    b[RUNNING] = runs.byte();
    make_due(b, due);
}

/// Another ready task of the same priority.
fn ready_equal(b: &Board, c: TaskNo) -> Option<TaskNo> {
    TaskNo::all().find(|k| *k != c && k.is_ready(b) && k.prio(b) == c.prio(b))
}

/// A fault that breaks one rule at one record, often the first or the last: the other faults meet these too rarely for a short
/// run.
fn aimed(b: &mut Board, random: &mut Random) {
    let (Some(k), Some(m)) = (TaskNo::new(aim(TASKS, random)), MsgNo::new(aim(MESSAGES, random))) else { return };
    match random.below(7) {
        0 => bad_task(b, k, random),
        1 => bad_message(b, m, random),
        2 => bad_queue(b, k, random),
        3 => bad_state(b, k, random),
        4 | 5 => bad_on_timer(b, m, random),
        _ => due_while_it_runs(b, k),
    }
}

fn aim(last: u16, random: &mut Random) -> u16 {
    let any = random.upto(last);
    random.pick(&[1, any, last])
}

/// R2, whether the task is present or not.
fn bad_task(b: &mut Board, k: TaskNo, random: &mut Random) {
    match random.below(2) {
        0 => b[k.at()] |= Status::SPARE,
        _ => b[k.prio_at()] = random.pick(&[0x01, 0x02, 0xFE, 0xFF]),
    }
}

/// R4, wherever the message is.
fn bad_message(b: &mut Board, m: MsgNo, random: &mut Random) {
    match random.below(3) {
        0 => b[m.place_at()] = random.pick(&[33, 64, 97, 127, 129, 255]),
        1 => set_word(b, m.rptr_at(), TASKS + 1),
        _ => set_word(b, m.sptr_at(), TASKS + 1),
    }
}

/// R4 on the timer, by one field or none.
fn bad_on_timer(b: &mut Board, m: MsgNo, random: &mut Random) {
    timed_record(b, m, random);
    let (sptr, absent) = (word(b, m.sptr_at()), task_where(random, |k| !k.is_present(b)));
    match random.below(8) {
        0 => set_word(b, m.link_slot(), random.pick(&[1, 128, 256, 0x8000])),
        1 => set_word(b, m.sptr_at(), absent),
        2 => set_word(b, m.sptr_at(), random.pick(&[0, TASKS + 1, sptr + 256])),
        3 => set_word(b, m.rptr_at(), random.pick(&[TASKS + 1, 256])),
        4 => b[m.prio_at()] = random.pick(&[0xFE, 0xFF]),
        _ => (),
    }
}

/// R5: the queue is cut off, or begins with another message.
fn bad_queue(b: &mut Board, k: TaskNo, random: &mut Random) {
    install(b, k);
    let is_empty = word(b, k.queue_slot()) == 0;
    let first = if is_empty || random.chance(50) { random.upto(MESSAGES) } else { 0 };
    set_word(b, k.queue_slot(), first);
}

/// R6: bits that never go together.
fn bad_state(b: &mut Board, k: TaskNo, random: &mut Random) {
    install(b, k);
    let bits =
        [Status::WAIT | Status::IWAT, Status::WAIT | Status::MHBS, Status::IWAT | Status::INTQ, Status::IWAT | Status::MHBS];
    k.set_status(b, k.status(b).with(random.pick(&bits)));
}

/// R7: the task runs, has a message and is due it, and all others wait for an interrupt.
fn due_while_it_runs(b: &mut Board, k: TaskNo) {
    install(b, k);
    for other in TaskNo::all() {
        if other.is_present(b) {
            other.set_status(b, Status(Status::TCBB | Status::IWAT));
        }
    }
    b[RUNNING] = k.byte();
    k.set_status(b, Status(Status::TCBB));
    make_due(b, k);
}

/// The task is due a message; it gets one that is free if it has none.
fn make_due(b: &mut Board, k: TaskNo) {
    k.set_status(b, k.status(b).with(Status::MHBS));
    if word(b, k.queue_slot()) != 0 {
        return;
    }
    let Some(m) = MsgNo::all().find(|m| m.place(b) == 0) else { return };
    b[m.prio_at()] = 1;
    b[m.place_at()] = k.queued_place();
    set_word(b, k.queue_slot(), m.number());
}

/// Installs a task that is absent, on a board that is good so far.
fn install(b: &mut Board, k: TaskNo) {
    install_with(b, k.number(), 0x33);
}

fn install_with(b: &mut Board, task: u16, prio: u8) {
    step(b, Call::Install { task, stat: Status::TCBB, prio, sptr: 0, name: 0 });
}
