//! The board's bytes: where each record lies, and its fields read and written in place.
//!
//! A link is named by where it lies, its *slot*: the head of a queue and the LINK of a record are then alike, and a record is
//! put in or taken out by writing at a slot. Only the head of the task queue is a byte and no word, since byte 1 says who runs.

/// How many bytes a board has.
pub const BOARD_LEN: usize = 1476;
/// Tasks are numbered from 1 to this.
pub const TASKS: u16 = 32;
/// Messages are numbered from 1 to this.
pub const MESSAGES: u16 = 128;
/// The message priority that asks for the sender's.
pub const SENDERS_PRIORITY: u8 = 127;

/// The lent bytes, once their number is right.
pub type Board = [u8; BOARD_LEN];

/// The slot of the task queue's head.
pub const TASK_QUEUE: usize = 0;
/// Where the running task is named, 0 for none.
pub const RUNNING: usize = 1;
/// Where the task records begin.
pub const TASKS_AT: usize = 4;
/// Bytes of a task record.
pub const TASK_LEN: usize = 10;
/// Where the message records begin.
pub const MESSAGES_AT: usize = 324;
/// Bytes of a message record.
pub const MESSAGE_LEN: usize = 8;
/// Where the place bytes begin.
pub const PLACES_AT: usize = 1348;

/// Added to a task's number, the place of a message queued there.
const QUEUED: u8 = 64;
/// The place of a message on the timer.
pub const ON_TIMER: u8 = 128;

/// The word at a byte of the board, or of another buffer, low byte first.
pub fn word<const LEN: usize>(b: &[u8; LEN], at: usize) -> u16 {
    u16::from_le_bytes([b[at], b[at + 1]])
}

/// Writes the word at a byte.
pub fn set_word<const LEN: usize>(b: &mut [u8; LEN], at: usize, word: u16) {
    b[at..at + 2].copy_from_slice(&word.to_le_bytes());
}

/// The number to which a slot leads, 0 at the end of a queue.
pub fn link(b: &Board, slot: usize) -> u16 {
    if slot == TASK_QUEUE {
        b[TASK_QUEUE].into()
    } else {
        word(b, slot)
    }
}

/// Writes the number to which a slot leads: of a task, where it is the head of the task queue.
pub fn set_link(b: &mut Board, slot: usize, number: u16) {
    if slot == TASK_QUEUE {
        b[TASK_QUEUE] = number as u8;
    } else {
        set_word(b, slot, number);
    }
}

/// Puts a record, by its number and its own link, where a slot leads.
pub fn link_in(b: &mut Board, slot: usize, number: u16, own_link: usize) {
    let after = link(b, slot);
    set_link(b, own_link, after);
    set_link(b, slot, number);
}

/// Takes out the record to which a slot leads and which has this link.
pub fn link_out(b: &mut Board, slot: usize, own_link: usize) {
    let after = link(b, own_link);
    set_link(b, slot, after);
    set_link(b, own_link, 0);
}

/// The STAT byte of a task.
#[derive(Clone, Copy, Debug, PartialEq, Eq)]
pub struct Status(pub u8);

impl Status {
    /// Waits for a message.
    pub const WAIT: u8 = 0x80;
    /// Waits for an interrupt.
    pub const IWAT: u8 = 0x40;
    /// The bit that is zero on every board.
    pub const SPARE: u8 = 0x20;
    /// An interrupt was posted and not yet waited for.
    pub const INTQ: u8 = 0x10;
    /// A message has to be handed over when the task runs.
    pub const MHBS: u8 = 0x02;
    /// The record is in use.
    pub const TCBB: u8 = 0x01;

    /// Whether any of these bits is set.
    pub fn has(self, bits: u8) -> bool {
        self.0 & bits != 0
    }

    /// The status with these bits set.
    pub fn with(self, bits: u8) -> Status {
        Status(self.0 | bits)
    }

    /// The status with these bits clear.
    pub fn without(self, bits: u8) -> Status {
        Status(self.0 & !bits)
    }
}

/// The number of a task, 1 to 32.
#[derive(Clone, Copy, Debug, PartialEq, Eq)]
pub struct TaskNo(u8);

impl TaskNo {
    /// The task of this number, if there can be one.
    pub fn new(number: u16) -> Option<TaskNo> {
        (1..=TASKS).contains(&number).then_some(TaskNo(number as u8))
    }

    /// All tasks that there can be.
    pub fn all() -> impl Iterator<Item = TaskNo> {
        (1..=TASKS).filter_map(TaskNo::new)
    }

    /// Its number as a word.
    pub fn number(self) -> u16 {
        self.0.into()
    }

    /// Its number as a byte.
    pub fn byte(self) -> u8 {
        self.0
    }

    /// Where its record begins.
    pub fn at(self) -> usize {
        TASKS_AT + TASK_LEN * (usize::from(self.0) - 1)
    }

    /// The slot of its LINK.
    pub fn link_slot(self) -> usize {
        self.at() + 2
    }

    /// The slot of its MPTR, the head of its queue.
    pub fn queue_slot(self) -> usize {
        self.at() + 4
    }

    /// Its STAT.
    pub fn status(self, b: &Board) -> Status {
        Status(b[self.at()])
    }

    /// Writes its STAT.
    pub fn set_status(self, b: &mut Board, status: Status) {
        b[self.at()] = status.0;
    }

    /// Where its PRIO byte lies.
    pub fn prio_at(self) -> usize {
        self.at() + 1
    }

    /// Its PRIO byte. Bit 0 is set in every task, so two bytes compare as the two priorities do.
    pub fn prio(self, b: &Board) -> u8 {
        b[self.prio_at()]
    }

    /// Its NAME.
    pub fn name(self, b: &Board) -> u16 {
        word(b, self.at() + 8)
    }

    /// Whether the record is in use, on a board that keeps R2.
    pub fn is_present(self, b: &Board) -> bool {
        self.status(b).has(Status::TCBB)
    }

    /// Whether the task is present and neither waits for a message nor for an interrupt.
    pub fn is_ready(self, b: &Board) -> bool {
        self.is_present(b) && !self.status(b).has(Status::WAIT | Status::IWAT)
    }

    /// The place of a message that the task holds.
    pub fn held_place(self) -> u8 {
        self.0
    }

    /// The place of a message that is queued at the task.
    pub fn queued_place(self) -> u8 {
        self.0 + QUEUED
    }
}

/// The number of a message, 1 to 128.
#[derive(Clone, Copy, Debug, PartialEq, Eq)]
pub struct MsgNo(u8);

impl MsgNo {
    /// The message of this number, if there can be one.
    pub fn new(number: u16) -> Option<MsgNo> {
        (1..=MESSAGES).contains(&number).then_some(MsgNo(number as u8))
    }

    /// All messages that there are.
    pub fn all() -> impl Iterator<Item = MsgNo> {
        (1..=MESSAGES).filter_map(MsgNo::new)
    }

    /// Its number as a word.
    pub fn number(self) -> u16 {
        self.0.into()
    }

    /// Its number as a byte.
    pub fn byte(self) -> u8 {
        self.0
    }

    /// Where its record begins.
    pub fn at(self) -> usize {
        MESSAGES_AT + MESSAGE_LEN * (usize::from(self.0) - 1)
    }

    /// Where its PRIO byte lies.
    pub fn prio_at(self) -> usize {
        self.at() + 1
    }

    /// The slot of its LINK.
    pub fn link_slot(self) -> usize {
        self.at() + 2
    }

    /// Where its RPTR lies, the task it is resent to.
    pub fn rptr_at(self) -> usize {
        self.at() + 4
    }

    /// Where its SPTR lies, its sender.
    pub fn sptr_at(self) -> usize {
        self.at() + 6
    }

    /// Where its place byte lies.
    pub fn place_at(self) -> usize {
        PLACES_AT + usize::from(self.0) - 1
    }

    /// Its priority number.
    pub fn priority(self, b: &Board) -> u8 {
        b[self.prio_at()] >> 1
    }

    /// Its place byte.
    pub fn place(self, b: &Board) -> u8 {
        b[self.place_at()]
    }

    /// The task at which it is queued, by its place.
    pub fn queued_at(self, b: &Board) -> Option<TaskNo> {
        TaskNo::new(self.place(b).checked_sub(QUEUED)?.into())
    }

    /// Whether it is on the timer, by its place.
    pub fn is_on_timer(self, b: &Board) -> bool {
        self.place(b) == ON_TIMER
    }
}
