//! The kept cases of the repository's `tests/cases`: the model answers each as the script, or the outside model, that made it.

use std::path::Path;
use std::process::Command;

use model::runner::case::Case;

const KEPT: [&str; 10] = [
    "worked_boards",
    "damaged_boards",
    "full_boards",
    "converted_boards",
    "timer_boards",
    "outside_check",
    "outside_history",
    "outside_damaged",
    "outside_convert",
    "outside_timer",
];

fn unzipped(file: &str) -> Vec<u8> {
    let path = Path::new(env!("CARGO_MANIFEST_DIR")).join("../tests/cases").join(file);
    let out = Command::new("gzip").arg("-dc").arg(path).output().expect("gzip runs");
    assert!(out.status.success(), "{file} is read");
    out.stdout
}

#[test]
fn every_kept_case_is_answered_as_it_should_be() {
    for name in KEPT {
        let cases = unzipped(&format!("{name}.cases.gz"));
        let answers = String::from_utf8(unzipped(&format!("{name}.answers.gz"))).expect("answers are text");
        assert!(!answers.is_empty(), "{name}: no cases");
        let mut rest = &cases[..];
        for (number, wanted) in (1..).zip(answers.lines()) {
            let case = Case::read(&mut rest).expect("a whole case").expect("a case for each answer");
            assert_eq!(case.reply().line(&case), wanted, "{name}, case {number}: {}", case.request.in_words());
        }
        assert!(rest.is_empty(), "{name}: an answer for each case");
    }
}

#[test]
fn a_case_is_written_as_it_is_read() {
    for name in KEPT {
        let cases = unzipped(&format!("{name}.cases.gz"));
        let (mut rest, mut written) = (&cases[..], Vec::new());
        while let Some(case) = Case::read(&mut rest).expect("a whole case") {
            case.write(&mut written);
        }
        assert_eq!(written, cases, "{name}");
    }
}
