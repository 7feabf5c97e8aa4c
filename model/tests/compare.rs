//! The differential run notices a wrong program: each slip, and programs that give no answers.

use std::path::Path;
use std::process::{Command, Output};

use model::runner::slips::SLIPS;

const ANSWER: &str = env!("CARGO_BIN_EXE_answer");

fn compare(options: &[&str], program: &[&str]) -> (bool, String) {
    let mut command = Command::new(env!("CARGO_BIN_EXE_compare"));
    let command = command.args(["--keep", env!("CARGO_TARGET_TMPDIR")]).args(options).arg("--").args(program);
    let Output { status, stdout, .. } = command.output().expect("compare runs");
    (status.success(), String::from_utf8(stdout).expect("compare prints text"))
}

#[test]
fn the_model_agrees_with_itself() {
    let (good, said) = compare(&["--seeds", "1..9"], &[ANSWER]);
    assert!(good, "{said}");
    assert!(said.contains("all alike") && !said.contains("not seen"), "{said}");
}

#[test]
fn every_slip_is_found_by_the_kept_seeds() {
    for (name, _) in SLIPS {
        let (good, said) = compare(&[], &[ANSWER, name]);
        assert!(!good && said.contains("expected  ") && said.contains("actual    "), "{name}: {said}");
        let (_, path) = said.trim_end().rsplit_once(": ").expect("the path of the kept case");
        assert!(Path::new(path).exists(), "{name}: {said}");
    }
}

#[test]
fn a_run_that_sees_too_little_fails() {
    let (good, said) = compare(&["--seeds", "1..2", "--cases-per-seed", "50"], &[ANSWER]);
    assert!(!good && said.contains("not seen: "), "{said}");
}

#[test]
fn a_run_by_time_names_its_first_seed() {
    let (good, said) = compare(&["--for", "2", "--first", "70000"], &[ANSWER]);
    assert!(good && said.starts_with("first seed 70000\n"), "{said}");
}

#[test]
fn programs_that_give_no_answers_are_told_apart() {
    for (script, word) in [
        ("exit 3", "0 lines for 2000 cases"),
        ("cat >/dev/null", "0 lines for 2000 cases"),
        ("\"$0\"; echo 0 0 0 0 0 0", "2001 lines for 2000 cases"),
        ("\"$0\"; exit 4", "exit status: 4"),
        ("\"$0\" | sed '1000s/ /,/'", "case 1000: this line is no answer"),
        ("\"$0\" | head -c 9999", "seed 1"),
        ("exec sleep 100", "did not end in time"),
    ] {
        let (good, said) = compare(&["--seeds", "1..2", "--limit", "5"], &["sh", "-c", script, ANSWER]);
        assert!(!good && said.contains(word), "{script}: {said}");
    }
    let (good, said) = compare(&["--seeds", "1..2"], &["./no-such-program"]);
    assert!(!good && said.contains("could not be run"), "{said}");
}
