//! The numbers and bytes that calls take. Each is a kind of its own, so that none is taken for another.
use core::ops::BitOr;

/// A task number: 1 to 32 on a board, but any word can be asked about.
#[derive(Clone, Copy, Debug, PartialEq, Eq, PartialOrd, Ord, Hash)]
pub struct TaskNo(pub u16);

/// A message number: 1 to 128 on a board, but any word can be asked about.
#[derive(Clone, Copy, Debug, PartialEq, Eq, PartialOrd, Ord, Hash)]
pub struct MsgNo(pub u16);

impl TaskNo {
    pub(crate) fn some(number: u16) -> Option<TaskNo> {
        Some(TaskNo(number)).filter(|k| k.0 != 0)
    }
}

impl MsgNo {
    pub(crate) fn some(number: u16) -> Option<MsgNo> {
        Some(MsgNo(number)).filter(|m| m.0 != 0)
    }
}

/// The STAT byte of a task. Bits are joined by `|`.
#[derive(Clone, Copy, Debug, PartialEq, Eq, Hash)]
pub struct Status(pub u8);

impl Status {
    /// it waits for a message
    pub const WAIT: Status = Status(0x80);
    /// it waits for an interrupt
    pub const IWAT: Status = Status(0x40);
    /// an interrupt is queued for it
    pub const INTQ: Status = Status(0x10);
    /// kept, without effect
    pub const DEBUG: Status = Status(0x08);
    /// kept, without effect
    pub const MROB: Status = Status(0x04);
    /// it is due a message when it next runs
    pub const MHBS: Status = Status(0x02);
    /// the record is in use
    pub const TCBB: Status = Status(0x01);

    /// Whether all bits of `bits` are set.
    pub const fn has(self, bits: Status) -> bool {
        self.0 & bits.0 == bits.0
    }
}

impl BitOr for Status {
    type Output = Status;
    fn bitor(self, other: Status) -> Status {
        Status(self.0 | other.0)
    }
}

/// The PRIO byte: the priority, 0 being the most urgent, in bits 7 to 1, and in bit 0 where it goes among equals.
///
/// A task's is FIFO with 1 to 126. A message may have any, but 127 only to be sent.
#[derive(Clone, Copy, Debug, PartialEq, Eq, Hash)]
pub struct Prio(pub u8);

impl Prio {
    /// As a message's priority: send puts the sender's own there.
    pub const SENDERS_OWN: u8 = 127;

    /// Behind its equals.
    ///
    /// # Panics
    /// Where the priority is above 127; in a constant that doesn't compile.
    pub const fn fifo(priority: u8) -> Prio {
        Prio(Prio::lifo(priority).0 | 1)
    }

    /// Before its equals.
    ///
    /// # Panics
    /// Where the priority is above 127; in a constant that doesn't compile.
    pub const fn lifo(priority: u8) -> Prio {
        assert!(priority <= 127, "a priority is 0 to 127");
        Prio(priority << 1)
    }

    /// The priority without the place among equals.
    pub const fn priority(self) -> u8 {
        self.0 >> 1
    }

    /// Whether it goes behind its equals.
    pub const fn is_fifo(self) -> bool {
        self.0 & 1 == 1
    }
}
