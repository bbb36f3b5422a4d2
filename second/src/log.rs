//! Cutting a log into records and giving them to a run one by one.
//! Written from documents 01 and 02 alone.

use crate::records::{setup_length, Tag};
use crate::refusal::Refusal;
use crate::run::{Run, Stage};
use std::ops::Range;

/// What reading a log leaves behind: at first a fresh run and no record.
#[derive(Clone, Debug, Default)]
pub struct Reading {
    pub run: Run,
    /// What became of each record.
    pub answers: Vec<Given>,
}

/// A record of a log, given to the run.
#[derive(Clone, Debug)]
pub struct Given {
    /// Where it stands in the log.
    pub place: Range<usize>,
    pub tag: Option<Tag>,
    /// The length by which it is passed over, if there is one; a cut record has fewer
    /// bytes.
    pub length: Option<usize>,
    /// The stage at which it was given.
    pub stage: Stage,
    /// The run's answer.
    pub answer: Result<(), Refusal>,
    /// The stage after it.
    pub stage_after: Stage,
}

impl Reading {
    /// The refused records, by position in the log counted from 1.
    pub fn refused(&self) -> impl Iterator<Item = (usize, Refusal)> + '_ {
        let numbered = (1..).zip(&self.answers);
        numbered.filter_map(|(position, given)| Some((position, given.answer.err()?)))
    }

    /// Reads on to the end of a log that begins with the records read so far.
    pub fn read_on(&mut self, log: &[u8]) {
        while self.read_next(log) {}
    }

    /// Gives the run the next record of a log that begins with the records read so far;
    /// false if there is none.
    pub fn read_next(&mut self, log: &[u8]) -> bool {
        let start = self.answers.last().map_or(0, |last| last.place.end);
        let rest = &log[start..];
        if rest.is_empty() {
            return false;
        }
        let length = next_length(&self.run, rest);
        let record = cut(length, rest);
        let stage = self.run.stage;
        let answer = self.run.give(record);
        let (tag, place) = (Tag::of(record), start..start + record.len());
        let stage_after = self.run.stage;
        self.answers.push(Given { place, tag, length, stage, answer, stage_after });
        true
    }

    /// Was a record of this tag accepted?
    pub fn accepted(&self, tag: Tag) -> bool {
        self.answers.iter().any(|given| given.tag == Some(tag) && given.answer.is_ok())
    }
}

/// Reads a log from a fresh run to its end.
pub fn read_log(log: &[u8]) -> Reading {
    let mut reading = Reading::default();
    reading.read_on(log);
    reading
}

/// The next record, of this length. Where no whole record can be cut, the rest is one
/// record and nothing comes after.
fn cut(length: Option<usize>, rest: &[u8]) -> &[u8] {
    match length {
        Some(length) if length <= rest.len() => &rest[..length],
        _ => rest,
    }
}

/// The length of the record that the bytes begin with. None for an unknown
/// tag, SU and SX under 6 bytes, at stage 0 any other tag, and for CH, CS and RE
/// while the run waits for GO.
fn next_length(run: &Run, rest: &[u8]) -> Option<usize> {
    match Tag::of(rest)? {
        Tag::Su | Tag::Sx if rest.len() < 6 => None,
        Tag::Su | Tag::Sx => Some(setup_length(rest[3])),
        tag => run.length(tag),
    }
}
