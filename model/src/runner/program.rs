//! Another program that answers cases, and its answers against the model's.

use std::fmt;
use std::io::{self, Read, Write};
use std::process::{Child, Command, ExitStatus, Stdio};
use std::thread;
use std::time::{Duration, Instant};

use super::case::Case;
use super::cases::cases_of_seed;
use super::tally::Tally;

/// A program that answers cases.
#[derive(Debug)]
pub struct Program {
    /// Its name and its arguments.
    pub command: Vec<String>,
    /// How long it may take for the cases of a seed.
    pub limit: Duration,
}

/// What is wrong with the program, and in which seed it showed.
#[derive(Debug)]
pub struct Trouble {
    /// The seed whose cases were asked.
    pub seed: u64,
    /// What happened.
    pub fault: Fault,
}

/// What can be wrong.
#[derive(Debug)]
#[allow(missing_docs)]
pub enum Fault {
    /// It could not be started or read.
    NotRun(io::Error),
    /// It answered a case otherwise than the model.
    Differs { number: usize, case: Box<Case>, expected: String, actual: String },
    /// A line is no answer of the protocol.
    Garbled { number: usize, line: String },
    /// Not as many lines as cases, a failing exit, or none in time.
    Ended { lines: usize, cases: usize, status: Option<ExitStatus> },
}

/// Asks the program all cases of a seed and counts them, or tells the first trouble.
pub fn compare_seed(program: &Program, seed: u64, count: usize) -> Result<Tally, Trouble> {
    compare(program, &cases_of_seed(seed, count)).map_err(|fault| Trouble { seed, fault })
}

fn compare(program: &Program, cases: &[Case]) -> Result<Tally, Fault> {
    let mut input = Vec::new();
    cases.iter().for_each(|case| case.write(&mut input));
    let (output, status) = ask(program, input).map_err(Fault::NotRun)?;
    let lines: Vec<_> = output.lines().collect();
    let mut tally = Tally::default();
    for (number, (case, line)) in (1..).zip(cases.iter().zip(&lines)) {
        let reply = case.reply();
        let expected = reply.line(case);
        if expected != *line {
            return Err(disagreement(number, case, expected, line));
        }
        tally.count(case, &reply);
    }
    if lines.len() != cases.len() || !status.is_some_and(|status| status.success()) {
        return Err(Fault::Ended { lines: lines.len(), cases: cases.len(), status });
    }
    Ok(tally)
}

/// What a program said, and how it ended; no status if it was stopped because it did not end.
type Said = (String, Option<ExitStatus>);

/// Runs the program once. It is fed from a thread of its own, since it may answer before it has read everything, and read by
/// another, so that one that never ends can be stopped.
fn ask(program: &Program, input: Vec<u8>) -> io::Result<Said> {
    let (name, arguments) = program.command.split_first().ok_or(io::ErrorKind::InvalidInput)?;
    let mut child = Command::new(name).args(arguments).stdin(Stdio::piped()).stdout(Stdio::piped()).spawn()?;
    let mut into = child.stdin.take().ok_or(io::ErrorKind::BrokenPipe)?;
    let mut from = child.stdout.take().ok_or(io::ErrorKind::BrokenPipe)?;
    // A program that ends early breaks the pipe; its missing lines tell that better than this error.
    let feeder = thread::spawn(move || into.write_all(&input).ok());
    let reader = thread::spawn(move || {
        let mut output = Vec::new();
        from.read_to_end(&mut output).map(|_| output)
    });
    let status = end(&mut child, program.limit)?;
    feeder.join().map_err(|_| io::ErrorKind::Other)?;
    let output = reader.join().map_err(|_| io::ErrorKind::Other)??;
    Ok((String::from_utf8_lossy(&output).into_owned(), status))
}

/// Waits for the program's end, or stops it when its time is over.
fn end(child: &mut Child, limit: Duration) -> io::Result<Option<ExitStatus>> {
    let start = Instant::now();
    while start.elapsed() < limit {
        if let Some(status) = child.try_wait()? {
            return Ok(Some(status));
        }
        thread::sleep(Duration::from_millis(5));
    }
    child.kill()?;
    child.wait()?;
    Ok(None)
}

fn disagreement(number: usize, case: &Case, expected: String, line: &str) -> Fault {
    let actual = line.to_string();
    if is_answer(line) {
        Fault::Differs { number, case: Box::new(case.clone()), expected, actual }
    } else {
        Fault::Garbled { number, line: actual }
    }
}

/// Whether a line has the protocol's form: six numbers, then place=value, of the timer buffer tplace=value.
fn is_answer(line: &str) -> bool {
    let is_number = |text: &str| text.parse::<u16>().is_ok();
    let is_place = |text: &str| is_number(text.strip_prefix('t').unwrap_or(text));
    let is_change = |text: &str| text.split_once('=').is_some_and(|(place, value)| is_place(place) && is_number(value));
    let parts: Vec<_> = line.split(' ').collect();
    let Some((numbers, changes)) = parts.split_at_checked(6) else { return false };
    numbers.iter().all(|part| is_number(part)) && changes.iter().all(|part| is_change(part))
}

impl fmt::Display for Trouble {
    fn fmt(&self, f: &mut fmt::Formatter) -> fmt::Result {
        let seed = self.seed;
        match &self.fault {
            Fault::NotRun(error) => write!(f, "seed {seed}: the program could not be run: {error}"),
            Fault::Garbled { number, line } => {
                let start: String = line.chars().take(120).collect();
                write!(f, "seed {seed}, case {number}: this line is no answer: {start:?}")
            }
            Fault::Ended { lines, cases, status } => {
                write!(f, "seed {seed}: the program gave {lines} lines for {cases} cases and ")?;
                match status {
                    Some(status) => write!(f, "ended with {status}"),
                    None => write!(f, "did not end in time"),
                }
            }
            Fault::Differs { number, case, expected, actual } => {
                let (asked, len) = (case.request.in_words(), case.board.len());
                write!(f, "seed {seed}, case {number}: {asked}, on a board of {len} bytes")?;
                if case.request.takes_timer() {
                    write!(f, " with a timer buffer of {}", case.timer.len())?;
                }
                writeln!(f)?;
                write!(f, "expected  {expected}\nactual    {actual}")
            }
        }
    }
}
