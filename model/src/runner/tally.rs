//! What a run has seen, so that a run that saw too little does not pass.

use std::fmt;

use super::case::{Case, Reply, CONVERT, FRESH, KINDS, NO_CALL};
use super::timers_seen::TimersSeen;
use crate::board::{Board, MsgNo, Status, TaskNo, MESSAGES, TASKS};
use crate::check::{first_ready, running};
use crate::Rule;

/// The highest refusal.
const LAST_REFUSAL: usize = 18;
/// The refusal that no board can get: it needs one that passes and yet has MHBS over an empty queue.
const NEVER_GIVEN: usize = 15;

/// Where a rule can be named. One without records is named at the first of these, and only R7 at what is no record.
const SPOTS: [&str; 5] = ["its first record", "a record between", "its last record", "byte 1 of 0", "byte 1 beyond the tasks"];

/// Counts over many cases.
#[derive(Clone, Debug)]
pub struct Tally {
    /// How many cases.
    pub cases: usize,
    accepted: [usize; 256],
    refused: [usize; 256],
    /// Those of the refused where a rule is broken.
    broken: [usize; 256],
    refusals: [usize; 256],
    rules: [[usize; SPOTS.len()]; 8],
    /// Those of the rules that are an old board's.
    old_rules: [usize; 8],
    /// Boards that a call has left, where an earlier task of equal priority is ready, and where it is due a message.
    later_runs: usize,
    earlier_due: usize,
    longest_queue: usize,
    most_tasks: usize,
    timers: TimersSeen,
}

impl Default for Tally {
    fn default() -> Tally {
        Tally {
            cases: 0,
            accepted: [0; 256],
            refused: [0; 256],
            broken: [0; 256],
            refusals: [0; 256],
            rules: Default::default(),
            old_rules: [0; 8],
            later_runs: 0,
            earlier_due: 0,
            longest_queue: 0,
            most_tasks: 0,
            timers: TimersSeen::default(),
        }
    }
}

impl Tally {
    /// Counts a case and the model's reply to it.
    pub fn count(&mut self, case: &Case, reply: &Reply) {
        self.cases += 1;
        let (kind, refusal) = (usize::from(case.request.kind), reply.refusal());
        let counts = if refusal == 0 { &mut self.accepted } else { &mut self.refused };
        counts[kind] += 1;
        self.refusals[usize::from(refusal)] += 1;
        if let Some(rule) = reply.rule() {
            self.broken[kind] += 1;
            self.rules[usize::from(rule.number())][spot(rule)] += 1;
            self.old_rules[usize::from(rule.number())] += usize::from(case.request.kind == CONVERT);
        }
        if refusal == 0 {
            self.measure(&reply.after);
        }
        self.timers.count(case, reply);
    }

    /// How far a board that a call has left is from empty.
    fn measure(&mut self, after: &[u8]) {
        let Ok(b) = <&Board>::try_from(after) else { return };
        let mut queued = [0; TASKS as usize + 1];
        MsgNo::all().filter_map(|m| m.queued_at(b)).for_each(|k| queued[usize::from(k.number())] += 1);
        self.longest_queue = queued.into_iter().fold(self.longest_queue, usize::max);
        self.most_tasks = self.most_tasks.max(TaskNo::all().filter(|k| k.is_present(b)).count());
        let earlier = first_ready(b).filter(|first| running(b) != Some(*first));
        self.later_runs += usize::from(earlier.is_some());
        self.earlier_due += usize::from(earlier.is_some_and(|k| k.status(b).has(Status::MHBS)));
    }

    /// Adds the counts of other cases.
    pub fn add(&mut self, other: &Tally) {
        let sum = |into: &mut [usize], from: &[usize]| into.iter_mut().zip(from).for_each(|(into, from)| *into += from);
        self.cases += other.cases;
        sum(&mut self.accepted, &other.accepted);
        sum(&mut self.refused, &other.refused);
        sum(&mut self.broken, &other.broken);
        sum(&mut self.refusals, &other.refusals);
        sum(self.rules.as_flattened_mut(), other.rules.as_flattened());
        sum(&mut self.old_rules, &other.old_rules);
        self.later_runs += other.later_runs;
        self.earlier_due += other.earlier_due;
        self.longest_queue = self.longest_queue.max(other.longest_queue);
        self.most_tasks = self.most_tasks.max(other.most_tasks);
        self.timers.add(&other.timers);
    }

    /// What should have been seen and was not.
    pub fn missing(&self) -> Vec<String> {
        let unseen = |counts: &[usize], number: &usize| counts[*number] == 0;
        let kinds = || KINDS.iter().map(|(kind, name)| (usize::from(*kind), name));
        let calls = kinds().filter(|(kind, _)| unseen(&self.accepted, kind)).map(|(_, name)| format!("{name} accepted"));
        let judges = kinds().filter(|(kind, _)| *kind != usize::from(FRESH));
        let broken = judges.filter(|(kind, _)| unseen(&self.broken, kind)).map(|(_, name)| format!("{name} of a broken board"));
        let refusals = numbers().filter(|number| unseen(&self.refusals, number)).map(|number| format!("refusal {number}"));
        let old = (1..=7).filter(|rule| unseen(&self.old_rules, rule)).map(|rule| format!("R{rule} of an old board"));
        let spots = (1..=7).flat_map(|rule| self.missing_spots(rule));
        let boards = calls.chain(broken).chain(refusals).chain(old).chain(spots).chain(self.missing_equals());
        boards.chain(self.timers.missing()).collect()
    }

    fn missing_equals(&self) -> impl Iterator<Item = String> {
        let counts = [(self.later_runs, "ready"), (self.earlier_due, "due a message")];
        counts
            .into_iter()
            .filter(|(count, _)| *count == 0)
            .map(|(_, what)| format!("an earlier equal of the running task {what}"))
    }

    fn missing_spots(&self, rule: usize) -> impl Iterator<Item = String> + '_ {
        let counts = self.rules[rule].iter().take(spots(rule)).zip(SPOTS);
        counts.filter(|(count, _)| **count == 0).map(move |(_, spot)| format!("R{rule} at {spot}"))
    }
}

/// The numbers that can be given for a refusal.
fn numbers() -> impl Iterator<Item = usize> {
    (1..=LAST_REFUSAL).filter(|number| *number != NEVER_GIVEN).chain([NO_CALL.into()])
}

/// How many of the spots a rule has.
fn spots(rule: usize) -> usize {
    match rule {
        1 | 3 => 1,
        7 => SPOTS.len(),
        _ => 3,
    }
}

/// Where the rule is named.
fn spot(rule: Rule) -> usize {
    let last = if matches!(rule, Rule::R4(_)) { MESSAGES } else { TASKS };
    match (rule, rule.record()) {
        (Rule::R7(0), _) => 3,
        (_, 0 | 1) => 0,
        (_, record) if record < last => 1,
        (_, record) if record == last => 2,
        _ => 4,
    }
}

impl fmt::Display for Tally {
    fn fmt(&self, f: &mut fmt::Formatter) -> fmt::Result {
        writeln!(f, "{:<21} {:>9} {:>9} {:>9}", "call", "accepted", "refused", "with 2")?;
        for (kind, name) in KINDS {
            let [accepted, refused, broken] = [self.accepted, self.refused, self.broken].map(|counts| counts[usize::from(kind)]);
            writeln!(f, "{kind:>3} {name:<17} {accepted:>9} {refused:>9} {broken:>9}")?;
        }
        let refusals: Vec<_> = numbers().map(|number| format!("{number}: {}", self.refusals[number])).collect();
        writeln!(f, "refusals  {}", refusals.join("  "))?;
        let at_spots = |rule: usize| self.rules[rule][..spots(rule)].iter().map(usize::to_string).collect::<Vec<_>>().join(" ");
        let rules: Vec<_> = (1..=7).map(|rule| format!("R{rule}: {}", at_spots(rule))).collect();
        writeln!(f, "rules     {}  (at the first record, between, at the last; byte 1 of 0, beyond)", rules.join("  "))?;
        let old: Vec<_> = (1..=7).map(|rule| format!("R{rule}: {}", self.old_rules[rule])).collect();
        writeln!(f, "of old    {}", old.join("  "))?;
        writeln!(f, "equals    an earlier one ready {}, and due a message {}", self.later_runs, self.earlier_due)?;
        writeln!(f, "most      {} tasks, {} messages in a queue", self.most_tasks, self.longest_queue)?;
        writeln!(f, "{}", self.timers)?;
        write!(f, "cases     {}", self.cases)
    }
}
