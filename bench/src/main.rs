//! bench [--quick] PROVED.so [BEFORE.so]: the tables of docs/BENCHMARKS.md on standard output. BEFORE is another library, such as
//! that of the landing before.
//!
//! First all versions but BEFORE are compared on many boards, damaged ones among them, and all on the boards that are timed. They
//! must give the same answers and the same bytes, or the run ends there; only BEFORE may give 2 without the rule, have no search
//! by itself or no timer, or know boards only where byte 1 is zero: it is lent those.
use std::collections::BTreeMap;
use std::env::args;
use std::process::ExitCode;

use bench::cases::{self, Case};
use bench::compare;
use bench::timing::Timing;
use bench::version::{Version, PLAIN, TUNED};

fn main() -> ExitCode {
    let quick = args().any(|word| word == "--quick");
    let libraries: Vec<String> = args().skip(1).filter(|word| word != "--quick").collect();
    let told = match &libraries[..] {
        [proved] => table(quick, proved, None),
        [proved, before] => table(quick, proved, Some(before)),
        _ => Err("usage: bench [--quick] PROVED.so [BEFORE.so]".to_string()),
    };
    if let Err(error) = told {
        eprintln!("bench: {error}");
        return ExitCode::FAILURE;
    }
    ExitCode::SUCCESS
}

fn table(quick: bool, proved: &str, before: Option<&String>) -> Result<(), String> {
    let (proved, before) = (Version::open(proved)?, before.map(|path| Version::open(path)).transpose()?);
    for seed in 1..=5 {
        compare::on_cases(seed, 2000, proved)?;
        compare::on_cases(seed, 2000, TUNED)?;
    }
    let rows = cases::all();
    rows.iter().try_for_each(|case| case.compare(&[proved, PLAIN, TUNED], before))?;

    let mut versions = vec![("proved", proved), ("plain", PLAIN), ("tuned", TUNED)];
    versions.splice(1..1, before.map(|before| ("before", before)));
    let (names, versions): (Vec<_>, Vec<_>) = versions.into_iter().unzip();
    print_tables(&rows, &names, &versions, &Timing::new(quick));
    Ok(())
}

/// The times, and then those of start and tick against the check.
fn print_tables(rows: &[Case], names: &[&str], versions: &[Version], timing: &Timing) {
    let ratios: Vec<String> = names[1..].iter().map(|name| format!("proved / {name}")).collect();
    println!("| ns | {} | {} |", names.join(" | "), ratios.join(" | "));
    println!("|{}", "---|".repeat(1 + names.len() + ratios.len()));
    let mut timed = BTreeMap::new();
    for case in rows {
        let times = timing.of_case(case, versions);
        print_row(case, &times);
        timed.insert(case.name, times);
    }
    println!("\n| times the check alone | {} |", names.join(" | "));
    println!("|{}", "---|".repeat(1 + names.len()));
    for case in rows {
        case.check.iter().for_each(|check| print_ratios(case, &timed[case.name], &timed[check]));
    }
    println!("\nThe plain sum of a board's bytes takes {:.0} ns.", timing.of_sum());
}

/// A time below 100 ns has a decimal; what cannot be asked has a dash.
fn print_row(case: &Case, times: &[Option<f64>]) {
    let digits = |time: f64| if time < 99.95 { 1 } else { 0 };
    let told: Vec<String> = times.iter().map(|time| cell(time.map(|time| format!("{time:.*}", digits(time))))).collect();
    let ratios: Vec<String> = times[1..].iter().map(|time| ratio(times[0], *time)).collect();
    println!("| {} | {} | {} |", case.name, told.join(" | "), ratios.join(" | "));
}

/// Each version's time against its own check of the same boards.
fn print_ratios(case: &Case, times: &[Option<f64>], checks: &[Option<f64>]) {
    let ratios: Vec<String> = times.iter().zip(checks).map(|(time, check)| ratio(*time, *check)).collect();
    println!("| {} | {} |", case.name, ratios.join(" | "));
}

fn ratio(time: Option<f64>, other: Option<f64>) -> String {
    cell(time.zip(other).map(|(time, other)| format!("{:.2}", time / other)))
}

fn cell(told: Option<String>) -> String {
    told.unwrap_or("-".to_string())
}
