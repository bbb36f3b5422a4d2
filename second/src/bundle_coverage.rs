//! Which numbers calls and rows get in a set of inputs of bundles (request 2.7), and what
//! it shows, each in words: the forms of an input here, calls in `bundle_call_coverage`,
//! the runs they finish in `bundle_run_coverage`, single rows in `bundle_row_coverage`.

use crate::bundle_call_coverage;
use crate::bundle_row_coverage;
use crate::bundle_run_coverage;
use crate::bundles::{read_input, Collected, HEADER, LONGEST_INPUT};
use crate::coverage::{absent, counted, counted_shown, never_shown};
use crate::refusal::answer_number;
use crate::report::LONGEST_LOG;
use std::collections::{BTreeMap, BTreeSet};

/// The numbers that answer a call, and those that a row can get.
const CALL_NUMBERS: [u8; 3] = [0, 10, 11];
const ROW_NUMBERS: [u8; 10] = [0, 1, 2, 3, 5, 6, 11, 12, 14, 15];

/// What an input can be that is not broken.
const TOO_LONG: &str = "an input with one byte too many";
const LONGEST: &str = "an input of the greatest size";
const LOG_ALONE: &str = "a log and no bundle";
const EMPTY_LOG: &str = "bundles behind an empty log";
const BEHIND_LONGEST: &str = "rows taken behind a log of the greatest size";
const BEHIND_UNKNOWN: &str = "rows taken behind a log that an unknown tag ends";
const BEHIND_CUT: &str = "rows taken behind a log that a cut record ends";
const WHOLE: [&str; 7] =
    [TOO_LONG, LONGEST, LOG_ALONE, EMPTY_LOG, BEHIND_LONGEST, BEHIND_UNKNOWN, BEHIND_CUT];

/// How an input is broken.
const NO_BYTES: &str = "an input of no bytes";
const LENGTH_CUT: &str = "an input cut in the length of its log";
const LOG_CUT: &str = "an input cut in its log";
const LOG_OVER: &str = "an input whose log is too long";
const HEADER_ALONE: &str = "an input cut before the rows of a bundle";
const ROWS_CUT: &str = "an input cut in the rows of a bundle";
const FIRST_CUT: &str = "the first bundle cut";
const CUT_AFTER_TAKEN: &str = "a bundle cut behind a taken one";
const CUT_AFTER_REFUSED: &str = "a bundle cut behind a refused one";
const BROKEN: [&str; 9] = [
    NO_BYTES,
    LENGTH_CUT,
    LOG_CUT,
    LOG_OVER,
    HEADER_ALONE,
    ROWS_CUT,
    FIRST_CUT,
    CUT_AFTER_TAKEN,
    CUT_AFTER_REFUSED,
];

#[derive(Clone, Default)]
pub struct BundleCoverage {
    pub inputs: usize,
    /// How many calls, and how many rows of taken bundles, got an answer, by number.
    pub calls: BTreeMap<u8, usize>,
    pub rows: BTreeMap<u8, usize>,
    /// What some input shows, in words.
    pub shown: BTreeSet<String>,
}

impl BundleCoverage {
    pub fn add(&mut self, input: &[u8]) {
        let read = if input.len() > LONGEST_INPUT { None } else { read_input(input) };
        self.add_read(input, read.as_ref());
    }

    /// Adds an input and what became of it; nothing where it is too long or its log is
    /// broken.
    pub fn add_read(&mut self, input: &[u8], read: Option<&Collected>) {
        self.inputs += 1;
        let forms = match read {
            None => unread(input).into_iter().collect(),
            Some(collected) => forms(input.len(), collected),
        };
        self.shown.extend(forms.into_iter().map(str::to_string));
        if let Some(collected) = read {
            self.shown.extend(cut_header(collected));
            self.shown.extend(bundle_call_coverage::shown(collected));
            self.shown.extend(bundle_run_coverage::shown(collected));
            self.shown.extend(bundle_row_coverage::shown(collected));
            self.count(collected);
        }
    }

    fn count(&mut self, collected: &Collected) {
        for call in &collected.calls {
            *self.calls.entry(answer_number(call.answer)).or_default() += 1;
        }
        let taken = collected.calls.iter().filter(|call| call.answer.is_ok());
        for &number in taken.flat_map(|call| &call.list) {
            *self.rows.entry(number).or_default() += 1;
        }
    }

    /// What never occurs, in words.
    pub fn missing(&self) -> Vec<String> {
        let mut missing = absent("bundle answered", &CALL_NUMBERS, &self.calls);
        missing.extend(absent("row of a bundle answered", &ROW_NUMBERS, &self.rows));
        missing.extend(never_shown(wanted(), &self.shown));
        missing
    }

    /// The counts, a line each.
    pub fn lines(&self) -> Vec<String> {
        let mut lines = vec![format!("inputs of bundles {}", self.inputs)];
        lines.extend(counted("bundle answered", &self.calls));
        lines.extend(counted("row of a bundle answered", &self.rows));
        lines.push(counted_shown("bundles", &wanted(), &self.shown));
        lines
    }
}

/// Everything that some input should show.
pub fn wanted() -> Vec<String> {
    let mut wanted: Vec<String> =
        WHOLE.iter().chain(&BROKEN).map(|what| what.to_string()).collect();
    wanted.extend((1..HEADER).map(header_cut));
    wanted.extend(bundle_call_coverage::wanted());
    wanted.extend(bundle_run_coverage::wanted());
    wanted.extend(bundle_row_coverage::wanted());
    wanted
}

fn header_cut(left: usize) -> String {
    format!("an input cut after {left} of the {HEADER} bytes before the rows of a bundle")
}

/// How an input is too long, or broken in its log.
fn unread(input: &[u8]) -> Option<&'static str> {
    match input {
        _ if input.len() > LONGEST_INPUT => (input.len() == LONGEST_INPUT + 1).then_some(TOO_LONG),
        [] => Some(NO_BYTES),
        [a, b, c, d, rest @ ..] => {
            let said = u32::from_be_bytes([*a, *b, *c, *d]) as usize;
            Some(if said > rest.len() { LOG_CUT } else { LOG_OVER })
        }
        _ => Some(LENGTH_CUT),
    }
}

/// The forms of an input of so many bytes whose log is whole.
fn forms(size: usize, collected: &Collected) -> Vec<&'static str> {
    let calls = &collected.calls;
    let log = collected.reading.answers.last().map_or(0, |last| last.place.end);
    let mut forms = Vec::new();
    forms.extend((size == LONGEST_INPUT).then_some(LONGEST));
    forms.extend((calls.is_empty() && collected.left == 0).then_some(LOG_ALONE));
    forms.extend((log == 0 && !calls.is_empty()).then_some(EMPTY_LOG));
    let rows_taken = calls.iter().any(|call| call.list.contains(&0));
    if rows_taken {
        forms.extend((log == LONGEST_LOG).then_some(BEHIND_LONGEST));
        forms.extend(end_of_log(collected));
    }
    if collected.left > 0 {
        forms.extend(cut_bundle(collected));
    }
    forms
}

/// How a log ends that its last record ends, if one does.
fn end_of_log(collected: &Collected) -> Option<&'static str> {
    let last = collected.reading.answers.last()?;
    match (last.tag, last.length) {
        (None, _) => Some(BEHIND_UNKNOWN),
        (_, Some(length)) if length > last.place.len() => Some(BEHIND_CUT),
        _ => None,
    }
}

/// Where a bundle is cut, and what it stands behind.
fn cut_bundle(collected: &Collected) -> Vec<&'static str> {
    let behind = match collected.calls.last() {
        None => FIRST_CUT,
        Some(call) if call.answer.is_ok() => CUT_AFTER_TAKEN,
        Some(_) => CUT_AFTER_REFUSED,
    };
    let place = match collected.left {
        0..HEADER => None,
        HEADER => Some(HEADER_ALONE),
        _ => Some(ROWS_CUT),
    };
    place.into_iter().chain([behind]).collect()
}

/// The words for an input that is cut before its rows.
fn cut_header(collected: &Collected) -> Option<String> {
    (1..HEADER).contains(&collected.left).then(|| header_cut(collected.left))
}
