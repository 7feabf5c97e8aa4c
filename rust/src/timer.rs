//! The buffer of the station timer, which is lent beside the board.
use crate::numbers::MsgNo;
use crate::TIMER_BYTES;
use core::borrow::Borrow;

/// The station timer: its own 50 bytes, or with [`lent`](Timer::lent) any bytes that are lent, of any length and content.
///
/// They are the tick that it is now, a word, and behind it sixteen entries of a message byte and the tick at which the message is
/// due, a word; a free entry is three zero bytes. [`Board::start`](crate::Board::start) puts a message there, and the
/// [`Board::tick`](crate::Board::tick) at which it is due returns it to its SPTR task.
///
/// A new timer goes with a fresh board: whoever calls [`Board::make_fresh`](crate::Board::make_fresh) makes a new timer too. From
/// then on this one timer is lent to every start and every tick and written by nobody else; where the board is saved, it is saved
/// too. A timer that does not go with the board is refused with [`BadTimer`](crate::Refusal::BadTimer).
///
/// A tick is 12.8 ms. Nothing here measures time: the caller makes one tick every 12.8 ms, and no other call lets time pass.
///
/// Nothing stops a timer. Nobody holds a message that is on one, no queue has it, and it is not free, so that no call takes it
/// away; it comes back when it is due, and its receiver looks then whether that still matters. Until then its SPTR task can't be
/// cancelled ([`TaskBusy`](crate::Refusal::TaskBusy)).
///
/// ```
/// use station::{Board, Prio, Refusal, Status, TaskNo, Timer};
///
/// # fn main() -> Result<(), Refusal> {
/// const WATCHDOG: TaskNo = TaskNo(1);
/// let (mut board, mut timer) = (Board::fresh(), Timer::new());
/// board.install(WATCHDOG, Status::TCBB, Prio::fifo(10), 0, 0)?;
///
/// // a message that is to come back to the watchdog, after three ticks
/// let m = board.claim()?.value;
/// board.prepare(m, 0, Prio::fifo(20), Some(WATCHDOG))?;
/// board.start(&mut timer, m, 3)?;
/// assert!(timer.entries().eq([(m, 3)]));
/// assert_eq!(board.receive_and_wait()?.running, None);
///
/// assert_eq!(board.tick(&mut timer)?.running, None);
/// assert_eq!(board.tick(&mut timer)?.running, None);
/// let told = board.tick(&mut timer)?;
/// assert_eq!((told.running, told.delivered), (Some(WATCHDOG), Some(m)));
/// assert_eq!(timer.now(), 3);
/// # Ok(())
/// # }
/// ```
#[derive(Clone, Debug, PartialEq, Eq)]
pub struct Timer<B = [u8; TIMER_BYTES]>(B);

impl Timer {
    /// A timer of zeros: tick 0, and every entry free.
    pub const fn new() -> Timer {
        Timer([0; TIMER_BYTES])
    }
}

impl Default for Timer {
    fn default() -> Timer {
        Timer::new()
    }
}

impl<B> Timer<B> {
    /// A timer in these bytes, as they are: nothing is copied or looked at. Start and tick look whether they go with the board.
    ///
    /// ```
    /// use station::{Board, Refusal, Timer};
    /// let mut memory = [0; 2000];
    /// let (boards, timers) = memory.split_at_mut(1476);
    /// let mut board = Board::lent(boards);
    /// assert_eq!(board.tick(&mut Timer::lent(&mut timers[..50])).map(|told| told.running), Ok(None));
    /// assert_eq!(board.tick(&mut Timer::lent(&mut timers[..49])), Err(Refusal::BadTimer));
    /// ```
    pub const fn lent(bytes: B) -> Timer<B> {
        Timer(bytes)
    }

    /// The bytes, given back.
    pub fn into_bytes(self) -> B {
        self.0
    }
}

impl<B: AsRef<[u8]>> Timer<B> {
    /// The bytes, to look at.
    pub fn as_bytes(&self) -> &[u8] {
        self.0.as_ref()
    }
}

impl<B: AsMut<[u8]>> Timer<B> {
    pub(crate) fn as_bytes_mut(&mut self) -> &mut [u8] {
        self.0.as_mut()
    }
}

/// What can be read where the bytes are known to be 50.
impl<B: Borrow<[u8; TIMER_BYTES]>> Timer<B> {
    /// The tick that it is now. The count runs on past 65,535 to 0.
    pub fn now(&self) -> u16 {
        let [low, high, ..] = *self.0.borrow();
        u16::from_le_bytes([low, high])
    }

    /// The entries that are in use, in their order: the message, and the tick at which it is due.
    pub fn entries(&self) -> impl Iterator<Item = (MsgNo, u16)> + '_ {
        let entries = self.0.borrow()[2..].chunks_exact(3);
        entries.filter_map(|entry| Some((MsgNo::some(entry[0].into())?, u16::from_le_bytes([entry[1], entry[2]]))))
    }
}
