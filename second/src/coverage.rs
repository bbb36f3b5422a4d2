//! Which refusal numbers and last stages a set of logs reaches, what becomes of
//! the CS records in it, and what it shows of 31 to 64 parties, of identities, of
//! the size of BAD, of runs that wait for more dealers and of the sets alone.

use crate::arith::Scalar;
use crate::count_coverage;
use crate::identity_coverage;
use crate::log::{read_log, Reading};
use crate::records::Tag;
use crate::refusal::answer_number;
use crate::report::LONGEST_LOG;
use crate::run::Stage;
use crate::sets_coverage;
use crate::wait_coverage;
use crate::wide_coverage;
use std::collections::{BTreeMap, BTreeSet};

/// The numbers with which a record can be refused.
const RECORD_REFUSALS: [u8; 15] = [1, 2, 3, 4, 5, 6, 7, 8, 11, 12, 13, 14, 15, 16, 17];

/// The numbers that answer CS records, 0 for acceptance.
const SHIFT_ANSWERS: [u8; 5] = [0, 11, 2, 3, 6];

/// Logs that end at stage 5 after an accepted CS, with each kind of shift.
const UNSHIFTED: &str = "done with the shift 0";
const SHIFTED: &str = "done with another shift";

#[derive(Clone, Default)]
pub struct Coverage {
    pub logs: usize,
    /// Logs too long to be read.
    pub long: usize,
    /// How many records were refused, by number.
    pub refusals: BTreeMap<u8, usize>,
    /// How many logs ended at a stage.
    pub stages: BTreeMap<u8, usize>,
    /// How many CS records got an answer, by number.
    pub shift_answers: BTreeMap<u8, usize>,
    /// How many logs ended at stage 5 after an accepted CS, by kind of shift.
    pub done_by_shift: BTreeMap<&'static str, usize>,
    /// What some log shows of 31 to 64 parties, of identities, of the size of BAD, of
    /// runs that wait and of the sets alone, in words.
    pub shown: BTreeSet<String>,
}

impl Coverage {
    pub fn add(&mut self, log: &[u8]) {
        self.logs += 1;
        if log.len() > LONGEST_LOG {
            self.long += 1;
            self.shown.insert(sets_coverage::TOO_LONG.to_string());
            return;
        }
        let reading = read_log(log);
        *self.stages.entry(reading.run.stage.number()).or_default() += 1;
        for (_, refusal) in reading.refused() {
            *self.refusals.entry(refusal.number()).or_default() += 1;
        }
        self.add_shifts(&reading);
        self.shown.extend(wide_coverage::shown(log, &reading));
        self.shown.extend(identity_coverage::shown(log, &reading));
        self.shown.extend(count_coverage::shown(&reading));
        self.shown.extend(wait_coverage::shown(&reading));
        self.shown.extend(sets_coverage::shown(&reading));
    }

    fn add_shifts(&mut self, reading: &Reading) {
        for given in reading.answers.iter().filter(|given| given.tag == Some(Tag::Cs)) {
            *self.shift_answers.entry(answer_number(given.answer)).or_default() += 1;
        }
        if reading.accepted(Tag::Cs) && reading.run.stage == Stage::Done {
            let kind = if reading.run.shift == Scalar::ZERO { UNSHIFTED } else { SHIFTED };
            *self.done_by_shift.entry(kind).or_default() += 1;
        }
    }

    /// What never occurs, in words.
    pub fn missing(&self) -> Vec<String> {
        let stages = Stage::ALL.map(Stage::number);
        let mut missing = absent("refusal", &RECORD_REFUSALS, &self.refusals);
        missing.extend(absent("stage", &stages, &self.stages));
        missing.extend(absent("CS answered", &SHIFT_ANSWERS, &self.shift_answers));
        let kinds = [UNSHIFTED, SHIFTED].into_iter();
        let never = kinds.filter(|kind| !self.done_by_shift.contains_key(kind));
        missing.extend(never.map(str::to_string));
        missing.extend(self.missing_wide());
        missing.extend(self.missing_identities());
        missing.extend(self.missing_counts());
        missing.extend(self.missing_waits());
        missing.extend(self.missing_sets());
        missing
    }

    /// What is never shown of 31 to 64 parties.
    pub fn missing_wide(&self) -> Vec<String> {
        never_shown(wide_coverage::wanted(), &self.shown)
    }

    /// What is never shown of identities.
    pub fn missing_identities(&self) -> Vec<String> {
        never_shown(identity_coverage::wanted(), &self.shown)
    }

    /// What is never shown of the size of BAD.
    pub fn missing_counts(&self) -> Vec<String> {
        never_shown(count_coverage::wanted(), &self.shown)
    }

    /// What is never shown of runs that wait for more dealers.
    pub fn missing_waits(&self) -> Vec<String> {
        never_shown(wait_coverage::wanted(), &self.shown)
    }

    /// What is never shown of the sets alone.
    pub fn missing_sets(&self) -> Vec<String> {
        never_shown(sets_coverage::wanted(), &self.shown)
    }

    /// The counts, a line each.
    pub fn lines(&self) -> Vec<String> {
        let mut lines = vec![format!("logs {}", self.logs), format!("long {}", self.long)];
        lines.extend(counted("refusal", &self.refusals));
        lines.extend(counted("stage", &self.stages));
        lines.extend(counted("CS answered", &self.shift_answers));
        lines.extend(self.done_by_shift.iter().map(|(kind, count)| format!("{kind}: {count}")));
        let kinds = [
            ("31 to 64 parties", wide_coverage::wanted()),
            ("identities", identity_coverage::wanted()),
            ("the size of BAD", count_coverage::wanted()),
            ("runs that wait", wait_coverage::wanted()),
            ("the sets alone", sets_coverage::wanted()),
        ];
        lines.extend(kinds.map(|(of, wanted)| counted_shown(of, &wanted, &self.shown)));
        lines
    }
}

/// The numbers that never occur, each behind the name of its kind.
pub fn absent(kind: &str, wanted: &[u8], counts: &BTreeMap<u8, usize>) -> Vec<String> {
    let absent = wanted.iter().filter(|number| !counts.contains_key(number));
    absent.map(|number| format!("{kind} {number}")).collect()
}

/// What is wanted and is not shown.
pub fn never_shown(wanted: Vec<String>, shown: &BTreeSet<String>) -> Vec<String> {
    wanted.into_iter().filter(|what| !shown.contains(what)).collect()
}

/// How much of what is wanted is shown, as a line.
pub fn counted_shown(of: &str, wanted: &[String], shown: &BTreeSet<String>) -> String {
    let count = wanted.iter().filter(|what| shown.contains(*what)).count();
    format!("shown of {of}: {count} of {}", wanted.len())
}

/// How often each number occurs, a line each.
pub fn counted(kind: &str, counts: &BTreeMap<u8, usize>) -> Vec<String> {
    counts.iter().map(|(number, count)| format!("{kind} {number}: {count}")).collect()
}
