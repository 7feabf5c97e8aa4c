//! How long something takes: the best of many batches.
use std::hint::black_box;
use std::time::{Duration, Instant};

use model::board::{Board, MsgNo, BOARD_LEN};
use model::timer::{Timer, TIMER_LEN};

use crate::cases::{Case, Lot};
use crate::version::{Asked, Version};

/// A board that begins where a line of the cache does, and a timer buffer behind it.
#[repr(C, align(64))]
#[derive(Clone, Copy)]
struct Lent {
    board: Board,
    timer: Timer,
}

impl Lent {
    fn new(lot: &Lot, version: Version) -> Lent {
        Lent { board: version.form(&lot.board), timer: lot.timer }
    }
}

/// How long to look for the best.
pub struct Timing {
    turns: u32,
    turn: Duration,
    /// What the clock itself takes, in nanoseconds.
    clock: f64,
}

impl Timing {
    /// For figures that are kept; or quick, to see that all of it runs.
    pub fn new(quick: bool) -> Timing {
        let (turns, turn) = if quick { (1, Duration::ZERO) } else { (12, Duration::from_millis(8)) };
        let mut timing = Timing { turns, turn, clock: 0.0 };
        timing.clock = timing.best(1, &mut (), |_| (), |_| ());
        timing
    }

    /// Nanoseconds of the case for each version; nothing for one that cannot be asked. They take turns, so that none is the worse
    /// for coming first.
    pub fn of_case(&self, case: &Case, versions: &[Version]) -> Vec<Option<f64>> {
        let can_be_asked = |version: &Version| case.lots[0].ask(*version).is_some();
        let mut times: Vec<Option<f64>> = versions.iter().map(|version| can_be_asked(version).then_some(f64::INFINITY)).collect();
        for _ in 0..self.turns {
            for (time, &version) in times.iter_mut().zip(versions) {
                *time = time.map(|time| time.min(self.of_version(case, version)));
            }
        }
        times
    }

    fn of_version(&self, case: &Case, version: Version) -> f64 {
        match case.lots[..] {
            [Lot { asked: Asked::Call(request), .. }] => {
                self.calls(case, version, |lent| version.call(&mut lent.board, black_box(&request)))
            }
            [Lot { asked: Asked::Tick, .. }] => self.calls(case, version, |lent| version.tick(&mut lent.board, &mut lent.timer)),
            [Lot { asked: Asked::LowestFree, .. }, ..] => self.looks(case, version, |board| version.lowest_free(board)),
            [Lot { asked: Asked::Check, .. }, ..] => self.looks(case, version, |board| version.check(board)),
            _ => self.timers(case, version),
        }
    }

    /// The plain sum of the bytes of a board, as a measure of the machine.
    pub fn of_sum(&self) -> f64 {
        let batch = |lent: &mut Lent| {
            for _ in 0..128 {
                black_box(black_box(&lent.board).iter().map(|&byte| u64::from(byte)).sum::<u64>());
            }
        };
        self.best(128, &mut Lent { board: [1; BOARD_LEN], timer: [0; TIMER_LEN] }, |_| (), batch)
    }

    /// A look at the case's boards, one after the other as the case says.
    fn looks<T>(&self, case: &Case, version: Version, look: impl Fn(&Board) -> T) -> f64 {
        let mut all: Vec<Lent> = case.lots.iter().map(|lot| Lent::new(lot, version)).collect();
        let batch = |all: &mut Vec<Lent>| {
            for &turn in &case.turns {
                black_box(look(black_box(&all[turn].board)));
            }
        };
        self.best(case.turns.len(), &mut all, |_| (), batch)
    }

    /// The call on 16 equal boards in a row, few enough for the nearest cache; they are put back between the batches.
    fn calls<T>(&self, case: &Case, version: Version, call: impl Fn(&mut Lent) -> T) -> f64 {
        let lent = Lent::new(&case.lots[0], version);
        let mut all = [lent; 16];
        let put_back = |all: &mut [Lent; 16]| *all = [*black_box(&lent); 16];
        let batch = |all: &mut [Lent; 16]| {
            for lent in all {
                black_box(call(lent));
            }
        };
        self.best(16, &mut all, put_back, batch)
    }

    /// Start, or a tick at which nothing is due, on the case's boards, one after the other as the case says. What it writes is
    /// put back at once: the timer buffer, and the place of a message that was started.
    fn timers(&self, case: &Case, version: Version) -> f64 {
        let mut all: Vec<Lent> = case.lots.iter().map(|lot| Lent::new(lot, version)).collect();
        let batch = |all: &mut Vec<Lent>| {
            for &turn in &case.turns {
                let (Lent { board, timer }, lot) = (&mut all[turn], &case.lots[turn]);
                if let Asked::Start(message, delay) = lot.asked {
                    black_box(version.start(board, timer, message, delay));
                    let at = MsgNo::new(message).expect("a message").place_at();
                    board[at] = lot.board[at];
                } else {
                    black_box(version.tick(board, timer));
                }
                *timer = lot.timer;
            }
        };
        self.best(case.turns.len(), &mut all, |_| (), batch)
    }

    /// Nanoseconds of each of so many things in the best batch of a turn.
    fn best<T>(&self, size: usize, on: &mut T, before: impl Fn(&mut T), batch: impl Fn(&mut T)) -> f64 {
        let (begin, mut best) = (Instant::now(), f64::INFINITY);
        loop {
            before(on);
            let start = Instant::now();
            batch(on);
            best = best.min(start.elapsed().as_nanos() as f64);
            if begin.elapsed() >= self.turn {
                return (best - self.clock) / size as f64;
            }
        }
    }
}
