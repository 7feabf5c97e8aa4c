//! The board and its calls.
use crate::answer::{unpack, Answer, Refusal};
use crate::numbers::{MsgNo, Prio, Status, TaskNo};
use crate::{sys, Timer, BYTES};
use core::fmt;

/// A board: its own 1,476 bytes, or with [`lent`](Board::lent) any bytes that are lent, of any length and content.
///
/// # The calls
///
/// 'It' is the running task, which byte 1 of the board names. [`install`](Board::install),
/// [`post_interrupt`](Board::post_interrupt), [`find`](Board::find) and [`tick`](Board::tick) serve anyone. The others act for
/// the running task and are refused with [`NobodyRuns`](Refusal::NobodyRuns) where there is none (byte 1 is 0). All are refused
/// with [`WrongLength`](Refusal::WrongLength) and [`RuleBroken`](Refusal::RuleBroken) where the bytes are no board. Each call
/// names the refusals that it can give besides.
///
/// After each accepted call [`Accepted`](crate::Accepted) tells the task that runs now. It is the same as before while it is
/// there, waits for nothing, and no other such task has a smaller priority number: an equal does not push it aside. Else it is
/// the first in queue order that waits for nothing. If it was due a message (MHBS), it has been handed the first of its queue,
/// told as delivered.
#[derive(Clone, PartialEq, Eq)]
pub struct Board<B = [u8; BYTES]>(B);

impl Board {
    /// The fresh board: all zeros, so no task, and every message free.
    pub const fn fresh() -> Board {
        Board([0; BYTES])
    }

    /// A board with a copy of these bytes, if they are a board that can exist.
    ///
    /// # Errors
    /// [`WrongLength`](Refusal::WrongLength), [`RuleBroken`](Refusal::RuleBroken)
    pub fn from_bytes(bytes: &[u8]) -> Result<Board, Refusal> {
        Board::lent(bytes).check()?;
        let mut board = Board::fresh();
        board.0.copy_from_slice(bytes);
        Ok(board)
    }
}

impl Default for Board {
    fn default() -> Board {
        Board::fresh()
    }
}

impl<B> Board<B> {
    /// A board in bytes that are lent, as they are: nothing is copied or looked at. Every call checks them first.
    ///
    /// ```
    /// use station::{Board, Refusal};
    /// let mut memory = [0; 2000];
    /// let mut board = Board::lent(&mut memory[100..1576]);
    /// assert_eq!(board.claim(), Err(Refusal::NobodyRuns));
    /// ```
    pub const fn lent(bytes: B) -> Board<B> {
        Board(bytes)
    }

    /// The bytes, given back.
    pub fn into_bytes(self) -> B {
        self.0
    }
}

impl<B: AsRef<[u8]>> Board<B> {
    /// The bytes, to look at.
    pub fn as_bytes(&self) -> &[u8] {
        self.0.as_ref()
    }

    /// Can this board exist? It tells who runs, or which rule is broken and where.
    ///
    /// # Errors
    /// [`WrongLength`](Refusal::WrongLength), [`RuleBroken`](Refusal::RuleBroken)
    pub fn check(&self) -> Answer {
        done(unpack(sys::check(self.as_bytes())))
    }
}

/// Tells the length and what the check says, not 1,476 numbers.
impl<B: AsRef<[u8]>> fmt::Debug for Board<B> {
    fn fmt(&self, f: &mut fmt::Formatter<'_>) -> fmt::Result {
        let running = self.check().map(|told| told.running);
        f.debug_struct("Board").field("bytes", &self.as_bytes().len()).field("running", &running).finish()
    }
}

/// The calls in document 01's order, with its argument names; behind them start and tick.
impl<B: AsMut<[u8]>> Board<B> {
    /// Makes the board fresh: all zeros, whatever it held. The timer stays as it is: whoever calls this makes a new [`Timer`]
    /// too.
    ///
    /// # Errors
    /// [`WrongLength`](Refusal::WrongLength)
    pub fn make_fresh(&mut self) -> Answer {
        done(unpack(sys::fresh(self.0.as_mut())))
    }

    /// Converts an old board, saved when byte 1 was zero and the first ready task in queue order ran: byte 1 names that task from
    /// now on, and nothing else changes. It tells who runs. Once converted, a board is no old one any more, unless nobody runs.
    ///
    /// # Errors
    /// [`WrongLength`](Refusal::WrongLength), and [`RuleBroken`](Refusal::RuleBroken) by the rules of then: R1 was of bytes 1 to
    /// 3, R4 knew no timer, and R7 was of that task, which must not be due a message.
    pub fn convert(&mut self) -> Answer {
        done(unpack(sys::convert(self.0.as_mut())))
    }

    /// Task `k` is there, behind those of equal priority. `stat` is TCBB, with DEBUG and MROB as one likes; `prio` is FIFO with
    /// priority 1 to 126; `sptr` and `name` are any words.
    ///
    /// # Errors
    /// [`BadPriority`](Refusal::BadPriority), [`NotInstallable`](Refusal::NotInstallable), [`BadStatus`](Refusal::BadStatus)
    pub fn install(&mut self, k: TaskNo, stat: Status, prio: Prio, sptr: u16, name: u16) -> Answer {
        done(self.ask(1, [k.0, sptr, name], stat.0, prio))
    }

    /// Task `k` goes on if it waits for an interrupt (IWAT), else one is queued for it (INTQ), and never more than one.
    ///
    /// # Errors
    /// [`NoSuchTask`](Refusal::NoSuchTask)
    pub fn post_interrupt(&mut self, k: TaskNo) -> Answer {
        done(self.ask_words(2, k.0, 0))
    }

    /// The first task of that NAME in queue order.
    ///
    /// # Errors
    /// None of its own.
    pub fn find(&mut self, name: u16) -> Answer<Option<TaskNo>> {
        Ok(self.ask_words(3, name, 0)?.with(TaskNo::some))
    }

    /// Task `k` is gone; it may be the running one. It must have no message, queued or held, be SPTR of none that is on a timer,
    /// and not wait for an interrupt.
    ///
    /// # Errors
    /// [`NoSuchTask`](Refusal::NoSuchTask), [`TaskBusy`](Refusal::TaskBusy)
    pub fn cancel_task(&mut self, k: TaskNo) -> Answer {
        done(self.ask_words(4, k.0, 0))
    }

    /// It holds the free message of the lowest number, all its fields 0.
    ///
    /// # Errors
    /// [`NoneFree`](Refusal::NoneFree)
    pub fn claim(&mut self) -> Answer<MsgNo> {
        Ok(self.ask_words(5, 0, 0)?.with(MsgNo))
    }

    /// Message `m`, which it holds, gets these fields. `stat` is any byte; `sptr` is the task that a return goes to, and a
    /// message from the timer; none for whoever sends it.
    ///
    /// # Errors
    /// [`NoSuchMessage`](Refusal::NoSuchMessage), [`NotHeld`](Refusal::NotHeld), [`BadSender`](Refusal::BadSender)
    pub fn prepare(&mut self, m: MsgNo, stat: u8, prio: Prio, sptr: Option<TaskNo>) -> Answer {
        done(self.ask(6, [m.0, sptr.map_or(0, |k| k.0), 0], stat, prio))
    }

    /// Message `m`, which it holds, is all zeros and free.
    ///
    /// # Errors
    /// [`NoSuchMessage`](Refusal::NoSuchMessage), [`NotHeld`](Refusal::NotHeld)
    pub fn release(&mut self, m: MsgNo) -> Answer {
        done(self.ask_words(7, m.0, 0))
    }

    /// Message `m`, which it holds, goes into task `r`'s queue by its PRIO, whose bit 0 is set then. RPTR becomes `r`; SPTR
    /// becomes the running task if it was 0; priority 127 becomes the running task's. If `r` waits for a message, it is ready
    /// again and due one.
    ///
    /// # Errors
    /// [`NoSuchMessage`](Refusal::NoSuchMessage), [`NotHeld`](Refusal::NotHeld), [`NoSuchTask`](Refusal::NoSuchTask)
    pub fn send(&mut self, m: MsgNo, r: TaskNo) -> Answer {
        done(self.ask_words(8, m.0, r.0))
    }

    /// [`send`](Board::send), and then as [`receive_and_wait`](Board::receive_and_wait).
    ///
    /// # Errors
    /// As send.
    pub fn send_and_wait(&mut self, m: MsgNo, r: TaskNo) -> Answer {
        done(self.ask_words(9, m.0, r.0))
    }

    /// Message `m`, which it holds, goes to the task in its RPTR, the one it was last sent to. It can't have priority 127.
    ///
    /// # Errors
    /// [`NoSuchMessage`](Refusal::NoSuchMessage), [`NotHeld`](Refusal::NotHeld), [`NoSuchTask`](Refusal::NoSuchTask),
    /// [`BadPriority`](Refusal::BadPriority)
    pub fn resend(&mut self, m: MsgNo) -> Answer {
        done(self.ask_words(10, m.0, 0))
    }

    /// [`resend`](Board::resend), and then as [`receive_and_wait`](Board::receive_and_wait).
    ///
    /// # Errors
    /// As resend.
    pub fn resend_and_wait(&mut self, m: MsgNo) -> Answer {
        done(self.ask_words(11, m.0, 0))
    }

    /// Message `m`, which it holds, goes to task `r`, and neither RPTR nor SPTR changes. It can't have priority 127.
    ///
    /// # Errors
    /// [`NoSuchMessage`](Refusal::NoSuchMessage), [`NotHeld`](Refusal::NotHeld), [`NoSuchTask`](Refusal::NoSuchTask),
    /// [`BadPriority`](Refusal::BadPriority)
    pub fn forward(&mut self, m: MsgNo, r: TaskNo) -> Answer {
        done(self.ask_words(12, m.0, r.0))
    }

    /// [`forward`](Board::forward), and then as [`receive_and_wait`](Board::receive_and_wait).
    ///
    /// # Errors
    /// As forward.
    pub fn forward_and_wait(&mut self, m: MsgNo, r: TaskNo) -> Answer {
        done(self.ask_words(13, m.0, r.0))
    }

    /// Message `m`, which it holds, goes back to its sender, the task in its SPTR; neither RPTR nor SPTR changes. It can't have
    /// priority 127. (Document 01's return, which is a word of the language.)
    ///
    /// # Errors
    /// [`NoSuchMessage`](Refusal::NoSuchMessage), [`NotHeld`](Refusal::NotHeld), [`NoSuchTask`](Refusal::NoSuchTask),
    /// [`BadPriority`](Refusal::BadPriority)
    pub fn return_message(&mut self, m: MsgNo) -> Answer {
        done(self.ask_words(14, m.0, 0))
    }

    /// [`return_message`](Board::return_message), and then as [`receive_and_wait`](Board::receive_and_wait).
    ///
    /// # Errors
    /// As return.
    pub fn return_and_wait(&mut self, m: MsgNo) -> Answer {
        done(self.ask_words(15, m.0, 0))
    }

    /// It holds the first message of its queue, if there is one.
    ///
    /// # Errors
    /// None of its own.
    pub fn receive(&mut self) -> Answer<Option<MsgNo>> {
        Ok(self.ask_words(16, 0, 0)?.with(MsgNo::some))
    }

    /// With a message queued, it goes on and has been handed the first; else it waits for one (WAIT) and another task runs.
    /// Either way the message is told as delivered when it runs.
    ///
    /// # Errors
    /// None of its own.
    pub fn receive_and_wait(&mut self) -> Answer {
        done(self.ask_words(17, 0, 0))
    }

    /// Message `m`, whose SPTR is the running task, is taken out of task `r`'s queue, and the running task holds it. If `r` was
    /// due a message and has none left, it waits again.
    ///
    /// # Errors
    /// [`NoSuchMessage`](Refusal::NoSuchMessage), [`NoSuchTask`](Refusal::NoSuchTask), [`NotQueued`](Refusal::NotQueued),
    /// [`NotItsSender`](Refusal::NotItsSender)
    pub fn cancel_message(&mut self, m: MsgNo, r: TaskNo) -> Answer {
        done(self.ask_words(18, m.0, r.0))
    }

    /// With an interrupt queued (INTQ), that one is used up and it goes on; else it waits for one (IWAT).
    ///
    /// # Errors
    /// None of its own.
    pub fn wait_for_interrupt(&mut self) -> Answer {
        done(self.ask_words(19, 0, 0))
    }

    /// Message `m`, which it holds, goes on the free timer of the lowest number and is due after `delay` ticks, 1 to 65,535 (12.8
    /// ms to 838.8 s). The first of them may be moments away: for a time that is not to be shorter, add one. The record stays as
    /// it is; SPTR must be a task that is there, and the priority can't be 127. See [`Timer`].
    ///
    /// # Errors
    /// [`BadTimer`](Refusal::BadTimer), before [`NobodyRuns`](Refusal::NobodyRuns) and all the rest;
    /// [`NoSuchMessage`](Refusal::NoSuchMessage), [`NotHeld`](Refusal::NotHeld), [`NoSuchTask`](Refusal::NoSuchTask),
    /// [`BadPriority`](Refusal::BadPriority), [`NoDelay`](Refusal::NoDelay), [`NoTimerFree`](Refusal::NoTimerFree)
    pub fn start<T: AsMut<[u8]>>(&mut self, timer: &mut Timer<T>, m: MsgNo, delay: u16) -> Answer {
        done(unpack(sys::start(self.0.as_mut(), timer.as_bytes_mut(), m.0, delay)))
    }

    /// It is one tick later. Each message that is due now goes into the queue of its SPTR task, as by a return, in the order of
    /// the timer's entries, which are free then. Behind them all it is asked who runs, so what that task is handed is the first
    /// of its queue, and need not be of the first entry. It serves anyone, also where nobody runs.
    ///
    /// # Errors
    /// [`BadTimer`](Refusal::BadTimer)
    pub fn tick<T: AsMut<[u8]>>(&mut self, timer: &mut Timer<T>) -> Answer {
        done(unpack(sys::tick(self.0.as_mut(), timer.as_bytes_mut())))
    }

    /// A call without STAT and PRIO.
    fn ask_words(&mut self, kind: u8, a: u16, b: u16) -> Answer<u16> {
        self.ask(kind, [a, b, 0], 0, Prio(0))
    }

    fn ask(&mut self, kind: u8, words: [u16; 3], stat: u8, prio: Prio) -> Answer<u16> {
        unpack(sys::call(self.0.as_mut(), kind, words, stat, prio.0))
    }
}

/// The answer of a call that gives no value.
fn done(answer: Answer<u16>) -> Answer {
    Ok(answer?.with(|_| ()))
}
