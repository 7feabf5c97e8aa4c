//! The differential run: cases from seeds, answered by a program and by the model, compared line by line.

use std::fs;
use std::path::{Path, PathBuf};
use std::process::ExitCode;
use std::sync::atomic::{AtomicBool, AtomicU64, Ordering};
use std::sync::Mutex;
use std::thread;
use std::time::{Duration, Instant, SystemTime, UNIX_EPOCH};

use model::runner::program::{compare_seed, Fault, Program, Trouble};
use model::runner::tally::Tally;

const USAGE: &str = "usage: compare [--seeds FROM..TO | --for SECONDS [--first SEED]] [--cases-per-seed N] [--workers N]
               [--limit SECONDS] [--keep DIR] -- PROGRAM [ARGUMENT..]
  --seeds FROM..TO    these seeds, TO not among them; without it the kept seeds
  --for SECONDS       seeds one after the other for so long, 0 until stopped; the first is --first, else the time
  --limit SECONDS     how long the program may take for a seed's cases, else 120
  --keep DIR          where a case that differs is written, else target";

/// The seeds that the gate runs.
const KEPT_SEEDS: (u64, u64) = (1, 67);
const PROGRESS: Duration = Duration::from_secs(5);

struct Options {
    first: Option<u64>,
    seeds: (u64, u64),
    time: Option<Duration>,
    cases_per_seed: usize,
    workers: usize,
    keep: PathBuf,
    program: Program,
}

impl Options {
    fn parse(mut arguments: impl Iterator<Item = String>) -> Option<Options> {
        let workers = thread::available_parallelism().map_or(1, usize::from);
        let keep = PathBuf::from("target");
        let program = Program { command: Vec::new(), limit: Duration::from_secs(120) };
        let mut options = Options { first: None, seeds: KEPT_SEEDS, time: None, cases_per_seed: 2000, workers, keep, program };
        loop {
            let name = arguments.next()?;
            if name == "--" {
                break;
            }
            options.set(&name, arguments.next()?)?;
        }
        options.program.command = arguments.collect();
        (!options.program.command.is_empty()).then_some(options)
    }

    fn set(&mut self, name: &str, value: String) -> Option<()> {
        match name {
            "--seeds" => {
                let (from, to) = value.split_once("..")?;
                self.seeds = (from.parse().ok()?, to.parse().ok()?);
            }
            "--for" => self.time = Some(Duration::from_secs(value.parse().ok()?)),
            "--first" => self.first = Some(value.parse().ok()?),
            "--cases-per-seed" => self.cases_per_seed = value.parse().ok()?,
            "--workers" => self.workers = value.parse().ok().filter(|workers| *workers > 0)?,
            "--limit" => self.program.limit = Duration::from_secs(value.parse().ok()?),
            "--keep" => self.keep = value.into(),
            _ => return None,
        }
        Some(())
    }

    /// The first seed and the one where it ends.
    fn range(&self) -> (u64, u64) {
        let now = || SystemTime::now().duration_since(UNIX_EPOCH).map_or(1, |since| since.as_secs());
        match self.time {
            None => self.seeds,
            Some(_) => (self.first.unwrap_or_else(now), u64::MAX),
        }
    }

    fn is_time_over(&self, start: Instant) -> bool {
        self.time.is_some_and(|time| !time.is_zero() && start.elapsed() >= time)
    }
}

/// What the workers share.
struct Run<'a> {
    options: &'a Options,
    start: Instant,
    next: AtomicU64,
    end: u64,
    stop: AtomicBool,
    tally: Mutex<Tally>,
    trouble: Mutex<Option<Trouble>>,
}

impl Run<'_> {
    /// Takes seeds until there are no more, the time is over or a worker met trouble.
    fn work(&self) {
        while !self.stop.load(Ordering::Relaxed) && !self.options.is_time_over(self.start) {
            let seed = self.next.fetch_add(1, Ordering::Relaxed);
            if seed >= self.end {
                return;
            }
            match compare_seed(&self.options.program, seed, self.options.cases_per_seed) {
                Ok(tally) => self.tally.lock().expect("no worker panics").add(&tally),
                Err(trouble) => {
                    self.stop.store(true, Ordering::Relaxed);
                    self.trouble.lock().expect("no worker panics").get_or_insert(trouble);
                }
            }
        }
    }

    fn report_progress(&self) {
        let cases = self.tally.lock().expect("no worker panics").cases;
        let seconds = self.start.elapsed().as_secs();
        eprintln!("{seconds} s: {cases} cases, next seed {}", self.next.load(Ordering::Relaxed));
    }

    fn all(&self) {
        thread::scope(|scope| {
            let workers: Vec<_> = (0..self.options.workers).map(|_| scope.spawn(|| self.work())).collect();
            let mut reported = Instant::now();
            while workers.iter().any(|worker| !worker.is_finished()) {
                thread::sleep(Duration::from_millis(20));
                if self.options.time.is_some() && reported.elapsed() >= PROGRESS {
                    self.report_progress();
                    reported = Instant::now();
                }
            }
        });
    }
}

/// Writes a case that differs where it can be fed to a program again.
fn keep(dir: &Path, trouble: &Trouble) -> Option<String> {
    let Fault::Differs { number, case, .. } = &trouble.fault else { return None };
    let path = dir.join(format!("differs_{}_{number}.case", trouble.seed));
    let mut bytes = Vec::new();
    case.write(&mut bytes);
    let written = fs::create_dir_all(dir).and_then(|()| fs::write(&path, bytes));
    Some(match written {
        Ok(()) => format!("the case, for the program's standard input: {}", path.display()),
        Err(error) => format!("the case could not be written to {}: {error}", path.display()),
    })
}

fn main() -> ExitCode {
    let Some(options) = Options::parse(std::env::args().skip(1)) else {
        eprintln!("{USAGE}");
        return ExitCode::from(2);
    };
    let (first, end) = options.range();
    if options.time.is_some() {
        println!("first seed {first}");
    }
    let (start, next, stop) = (Instant::now(), AtomicU64::new(first), AtomicBool::new(false));
    let run = Run { options: &options, start, next, end, stop, tally: Mutex::default(), trouble: Mutex::default() };
    run.all();
    let tally = run.tally.into_inner().expect("no worker panics");
    if let Some(trouble) = run.trouble.into_inner().expect("no worker panics") {
        println!("{} cases of other seeds agree, but:\n{trouble}", tally.cases);
        keep(&options.keep, &trouble).iter().for_each(|kept| println!("{kept}"));
        return ExitCode::FAILURE;
    }
    println!("{tally} in {} s, all alike", start.elapsed().as_secs());
    let missing = tally.missing();
    if missing.is_empty() {
        return ExitCode::SUCCESS;
    }
    println!("not seen: {}", missing.join(", "));
    // a run for some seconds may be too short to see everything
    if options.time.is_some() {
        ExitCode::SUCCESS
    } else {
        ExitCode::FAILURE
    }
}
