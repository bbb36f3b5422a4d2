//! The sets alone (request 2.6): HOLD, QUAL and BAD of a log, and how many of its bytes
//! a reading consumes that ends at the record which brings stage 3 or 6. The log is read
//! to its end all the same, and that record is looked up in the list of its records.
//! Written from documents 01 and 02 alone.

use crate::log::{read_log, Given, Reading};
use crate::records::{Tag, GO_LENGTH};
use crate::report::{as_text, set_lines, LONG, LONGEST_LOG};
use crate::run::Stage;

/// The sets of a log and the bytes consumed, every line with its line feed.
pub fn sets(log: &[u8]) -> String {
    if log.len() > LONGEST_LOG {
        return LONG.to_string();
    }
    sets_of(&read_log(log))
}

/// The same of a log that has been read.
pub fn sets_of(reading: &Reading) -> String {
    let mut lines = set_lines(&reading.run);
    lines.push(format!("bytes {}", consumed(reading)));
    as_text(&lines)
}

/// The summed lengths of the records up to and with the one that brings stage 3 or 6,
/// or of all where none does.
pub fn consumed(reading: &Reading) -> usize {
    up_to_sets(reading).iter().map(counted).sum()
}

/// The records up to and with the one that brings stage 3 or 6, or all.
pub fn up_to_sets(reading: &Reading) -> &[Given] {
    let records = &reading.answers;
    match records.iter().position(brings_sets) {
        Some(place) => &records[..=place],
        None => records,
    }
}

/// Does the run come to stage 3 or 6 by this record?
fn brings_sets(given: &Given) -> bool {
    let fixed = [Stage::Challenging, Stage::Failed].contains(&given.stage_after);
    fixed && given.stage != given.stage_after
}

/// What a record counts: its length, and nothing if it is cut or has none.
fn counted(given: &Given) -> usize {
    let length = fixed_length(given).filter(|&length| length <= given.place.len());
    length.unwrap_or(0)
}

/// The length of a record, if it is fixed. That of GO is before a setup too, where GO
/// ends the reading with all that stands behind it.
fn fixed_length(given: &Given) -> Option<usize> {
    match (given.tag, given.stage) {
        (Some(Tag::Go), Stage::Fresh) => Some(GO_LENGTH),
        _ => given.length,
    }
}
