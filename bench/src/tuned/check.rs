//! R1 to R7 in three passes: places with message records eight at a time, one walk of all that is linked, and the tasks that it
//! did not meet.
use super::{message, pieces, place, task, word};
use model::board::{Board, Status, MESSAGES, MESSAGES_AT, ON_TIMER, PLACES_AT, RUNNING, TASKS, TASKS_AT};

/// What the check has come by on a board that passes, for the call that follows.
pub struct Found {
    /// The running task, byte 1, 0 for none.
    pub running: usize,
    /// The present tasks, a bit for each; bit 0 is clear.
    pub present: u64,
    /// The last task of the task queue, 0 for none.
    pub last_task: usize,
    /// The last message of each task's queue, by task; of an empty queue it is not told.
    pub last: [u8; TASKS as usize + 1],
    /// The messages on the timer.
    pub timed: Timed,
}

/// The messages on the timer.
#[derive(Default)]
pub struct Timed {
    /// A bit for each, from bit 0 on, and how many they are.
    pub messages: u128,
    pub count: usize,
    /// The tasks that they go back to, a bit for each; bit 0 where one names none.
    pub awaiting: u64,
}

/// A message record as one number: LINK, and bits that RPTR and SPTR have only above 63.
pub const LINK: u64 = 0x0000_0000_FFFF_0000;
pub const FAR: u64 = 0xFFC0_FFC0_0000_0000;
/// Added to RPTR and SPTR up to 63, `BEYOND` tells those above 32. Where one is above 63, `FAR` says so, whatever the sum carries.
pub const REACH: u64 = 0x001F_001F_0000_0000;
pub const BEYOND: u64 = 0x0040_0040_0000_0000;
/// One in each of eight bytes.
const EACH: u64 = 0x0101_0101_0101_0101;
/// Tasks that wait, for whatever; and these or such as are due a message.
const NOT_READY: u64 = (Status::WAIT | Status::IWAT) as u64;
const NOT_AT_EASE: u64 = NOT_READY | Status::MHBS as u64;
/// No PRIO of a task.
const NONE: u64 = 256;

/// What the check finds, none if a rule is broken.
#[inline(always)]
pub fn examine(b: &Board) -> Option<Found> {
    let messages = look_at_messages(b)?;
    let timed = if messages.mixed & (EACH * 0x80) == 0 { Timed::default() } else { look_at_timed(b)? };
    let mut last = [0; TASKS as usize + 1];
    let walk = walk_tasks(b, messages.queued - timed.count, &mut last)?;
    let running = usize::from(b[RUNNING]);
    // each holder is present, and each task that the timer returns a message to
    let named = messages.holders & !1 | timed.awaiting;
    if named & !walk.seen != 0 || !walk.can_run(b, running) || !others_are_zero(b, walk.seen) {
        return None;
    }
    Some(Found { running, present: walk.seen, last_task: walk.last_task, last, timed })
}

/// What the first pass gathers.
#[derive(Default)]
struct Messages {
    /// Bits that must be clear.
    bad: u64,
    /// The records of held messages ORed together, as they are and with `REACH` added.
    pointers: u64,
    reached: u64,
    /// How many messages have a place of 64 or more.
    queued: usize,
    /// The tasks that hold one, a bit for each, and bit 0.
    holders: u64,
    /// The places of the groups that are looked at one by one, ORed together.
    mixed: u64,
}

impl Messages {
    #[inline(always)]
    fn eight_held(&mut self, eight: &[u8; 64], places: &[u8; 8]) {
        let mut all = 0;
        for record in pieces(eight).map(|record| u64::from_le_bytes(*record)) {
            all |= record;
            self.reached |= record.wrapping_add(REACH);
        }
        self.pointers |= all;
        self.bad |= all & LINK;
        places.iter().for_each(|p| self.holders |= 1 << p);
    }

    /// A message of any place: all of a free one, the LINK of a held one must be zero.
    #[inline(always)]
    fn one(&mut self, record: u64, place: u8) {
        if place >= 64 {
            self.queued += 1;
            return;
        }
        self.holders |= 1 << place;
        self.bad |= record & if place == 0 { !0 } else { LINK };
        self.pointers |= record;
        self.reached |= record.wrapping_add(REACH);
    }
}

/// R1, and R4 of free and held messages but for the presence of holders.
#[inline(always)]
fn look_at_messages(b: &Board) -> Option<Messages> {
    let mut all = Messages { bad: u64::from(b[2] | b[3]), ..Messages::default() };
    for (eight, places) in pieces::<64>(&b[MESSAGES_AT..PLACES_AT]).zip(pieces::<8>(&b[PLACES_AT..])) {
        let p = u64::from_le_bytes(*places);
        let kinds = p & (EACH * 0xC0);
        if p == 0 {
            all.bad |= pieces(eight).fold(0, |any, record| any | u64::from_le_bytes(*record));
        } else if kinds == EACH * 0x40 {
            all.queued += 8;
        } else if kinds == 0 && p.wrapping_sub(EACH) & (EACH * 0x80) == 0 {
            // none is 0: the lowest such byte would have borrowed
            all.eight_held(eight, places);
        } else {
            all.mixed |= p;
            pieces(eight).zip(places).for_each(|(record, &p)| all.one(u64::from_le_bytes(*record), p));
        }
    }
    (all.bad | all.pointers & FAR | all.reached & BEYOND == 0).then_some(all)
}

/// R4 of the messages on the timer, but for the presence of the tasks that they go back to; none has a place above theirs.
#[inline(never)]
fn look_at_timed(b: &Board) -> Option<Timed> {
    let (mut timed, mut bad) = (Timed::default(), 0);
    for (i, places) in pieces(&b[PLACES_AT..]).enumerate() {
        let mut high = u64::from_le_bytes(*places) & (EACH * 0x80);
        while high != 0 {
            let m = 8 * i + high.trailing_zeros() as usize / 8 + 1;
            high &= high - 1;
            let record = u64::from_le_bytes(b[message(m)..message(m) + 8].try_into().expect("eight bytes"));
            bad |= u64::from(b[place(m)] ^ ON_TIMER) | record & (LINK | FAR) | record.wrapping_add(REACH) & BEYOND;
            // PRIO is below FEH
            bad |= ((record >> 8 & 0xFF) + 2) & 0x100;
            timed.messages |= 1 << (m - 1);
            timed.count += 1;
            timed.awaiting |= 1 << (record >> 48 & 63);
        }
    }
    (bad == 0).then_some(timed)
}

/// What the walk gathers, but for the last of each queue: beside an array these would lie in memory.
struct Walk {
    seen: u64,
    last_task: usize,
    /// The PRIO of the first ready task, the least of a ready one.
    least_ready: u64,
    /// How many of the queued messages it has not met yet.
    left: usize,
    /// Bits that must be clear, all STATs ORed, and all STATs ANDed.
    wrong: u64,
    any_stat: u64,
    all_stat: u64,
    /// All PRIOs of tasks and of queued messages ANDed, the last task's, and the greatest of a queue's last.
    odd: u64,
    prio: u64,
    greatest: u64,
    /// RPTR and SPTR of queued messages ORed, as they are and with `REACH` added.
    pointers: u32,
    reached: u32,
}

impl Walk {
    /// R7: task c waits for nothing, is due nothing, and nobody ready has a smaller PRIO; c is 0 if nobody is ready.
    #[inline(always)]
    fn can_run(&self, b: &Board, c: usize) -> bool {
        if c == 0 {
            return self.least_ready == NONE;
        }
        let is_met = c <= TASKS.into() && self.seen >> c & 1 != 0;
        is_met && u64::from(b[task(c)]) & NOT_AT_EASE == 0 && u64::from(b[task(c) + 1]) == self.least_ready
    }

    /// R5 of task k, whose MPTR is not 0, and R4 of its queued messages: the last of them, none where a link strays or the queue is
    /// too long.
    #[inline(always)]
    fn walk_messages(&mut self, b: &Board, k: usize, mptr: usize) -> Option<u8> {
        let (mut m, mut low) = (mptr, 0u64);
        loop {
            if m.wrapping_sub(1) >= MESSAGES.into() || self.left == 0 {
                return None;
            }
            let next = word(b, message(m) + 2);
            let prio = u64::from(b[message(m) + 1]);
            let pointers = u32::from_le_bytes(b[message(m) + 4..message(m) + 8].try_into().expect("two words"));
            // priorities do not fall, so the last is the greatest
            self.wrong |= u64::from(b[place(m)]) ^ (k as u64 + 64) | prio.wrapping_sub(low) >> 8;
            low = prio;
            self.odd &= prio;
            self.pointers |= pointers;
            self.reached |= pointers.wrapping_add((REACH >> 32) as u32);
            self.left -= 1;
            if next == 0 {
                break;
            }
            m = next;
        }
        self.greatest = self.greatest.max(low);
        Some(m as u8)
    }

    /// All queued messages were met; TCBB is set and bit 5 clear; PRIO is odd, of a task up to FDH, of a message below FFH.
    #[inline(always)]
    fn is_good(&self) -> bool {
        let pointers = u64::from(self.pointers) << 32 & FAR | u64::from(self.reached) << 32 & BEYOND;
        let stats = self.all_stat & u64::from(Status::TCBB) != 0 && self.any_stat & u64::from(Status::SPARE) == 0;
        self.wrong | pointers == 0 && self.left == 0 && stats && self.odd & 1 != 0 && self.prio.max(self.greatest) < 0xFF
    }
}

/// R6 of a task that waits or is due a message.
#[inline(always)]
fn waits_well(stat: u64, mptr: usize) -> bool {
    let is = |bit: u8| stat & u64::from(bit) != 0;
    let (wait, iwat, mhbs) = (is(Status::WAIT), is(Status::IWAT), is(Status::MHBS));
    !(wait && (iwat || mhbs || mptr != 0) || iwat && (mhbs || is(Status::INTQ)) || mhbs && mptr == 0)
}

/// R2 of the tasks that it meets, R3, R5, R6, and R4 of the messages that it meets.
#[inline(always)]
fn walk_tasks(b: &Board, queued: usize, last: &mut [u8; TASKS as usize + 1]) -> Option<Walk> {
    let mut all = Walk {
        seen: 0,
        last_task: 0,
        least_ready: NONE,
        left: queued,
        wrong: 0,
        any_stat: 0,
        all_stat: 1,
        odd: 1,
        prio: 3,
        greatest: 0,
        pointers: 0,
        reached: 0,
    };
    let mut k = usize::from(b[0]);
    while k != 0 {
        if k > TASKS.into() || all.seen >> k & 1 != 0 {
            return None;
        }
        all.seen |= 1 << k;
        let behind = word(b, task(k) + 2);
        let (stat, prio, mptr) = (u64::from(b[task(k)]), u64::from(b[task(k) + 1]), word(b, task(k) + 4));
        // priorities do not fall, and begin with 3
        all.wrong |= prio.wrapping_sub(all.prio) >> 8;
        all.prio = prio;
        all.odd &= prio;
        all.all_stat &= stat;
        all.any_stat |= stat;
        if stat & NOT_AT_EASE != 0 && !waits_well(stat, mptr) {
            return None;
        }
        if all.least_ready == NONE && stat & NOT_READY == 0 {
            all.least_ready = prio;
        }
        if mptr != 0 {
            last[k] = all.walk_messages(b, k, mptr)?;
        }
        all.last_task = k;
        k = behind;
    }
    all.is_good().then_some(all)
}

/// R2 of the tasks that were not met.
#[inline(always)]
fn others_are_zero(b: &Board, seen: u64) -> bool {
    for (i, eight) in pieces::<80>(&b[TASKS_AT..MESSAGES_AT]).enumerate() {
        let met = (seen >> (8 * i + 1)) as u8;
        if met == 0 {
            if pieces(eight).fold(0, |any, part| any | u128::from_le_bytes(*part)) != 0 {
                return false;
            }
        } else if met != 0xFF {
            let mut records = pieces::<10>(eight).enumerate();
            if records.any(|(j, record)| met >> j & 1 == 0 && *record != [0; 10]) {
                return false;
            }
        }
    }
    true
}
