//! A bundle of response rows given to a run in one call (request 2.7; document 02 calls
//! it a sheaf), and the input that asks for such calls: its format, reading it,
//! answering it.
//!
//! The rows of a bundle stand end to end. They are cut every 4+4b bytes, whatever tags
//! they bear, and the last may be short. At stage 4 each row in turn is given to the run
//! as a record, and its number is written to its place of a list that the caller lends.
//!
//! In an input numbers stand high byte first:
//! - log length (4), log
//! - bundles end to end to the end of the input: places of the list (2), size (4), rows
//!
//! The log is read from a fresh run, which then goes on from bundle to bundle. Each
//! bundle is answered with a line, the call's number and the list in hex, and the input
//! with one line more for the run: its stage and at stage 5 every φ.
//!
//! An input is broken where its log or a bundle has fewer bytes than it says or its
//! numbers take, and where its log is longer than a log may be. That is said in place of
//! all that would follow.
//!
//! Written from documents 01 and 02 alone.

use crate::log::{read_log, Reading};
use crate::reader::Reader;
use crate::records::Tag;
use crate::refusal::{answer_number, Refusal};
use crate::report::LONG;
use crate::requests::{framed, line_of, BROKEN, FILLER, LONGEST_STREAM};
use crate::run::{Run, Stage};

/// The longest input that is read: as long as a stream of requests.
pub const LONGEST_INPUT: usize = LONGEST_STREAM;

/// How many bytes stand before the rows of a bundle.
pub const HEADER: usize = 6;

/// A bundle as it stands in an input.
#[derive(Clone, Debug, PartialEq, Eq)]
pub struct Bundle {
    /// How many places the list has.
    pub places: u16,
    /// The rows, end to end.
    pub rows: Vec<u8>,
}

/// A call with a bundle, and what became of it.
#[derive(Clone, Debug)]
pub struct Called {
    pub bundle: Bundle,
    /// The stage at which it was made, and how many rows the run had accepted.
    pub stage: Stage,
    pub accepted: usize,
    /// The call's answer.
    pub answer: Result<(), Refusal>,
    /// The list after it.
    pub list: Vec<u8>,
    /// The stage after it.
    pub stage_after: Stage,
}

/// What reading an input leaves behind.
#[derive(Clone, Debug)]
pub struct Collected {
    /// The reading of its log, whose run has gone on with the bundles.
    pub reading: Reading,
    pub calls: Vec<Called>,
    /// How many bytes are left where a bundle is cut; else 0.
    pub left: usize,
}

/// Gives a bundle to a run at stage 4: each row in turn, its number to its place of the
/// list. At another stage, and then with a list that has not one place a row, it refuses
/// and leaves run and list as they were.
pub fn give_bundle(run: &mut Run, rows: &[u8], list: &mut [u8]) -> Result<(), Refusal> {
    if run.stage != Stage::Responding {
        return Err(Refusal::Stage);
    }
    let length = run.length(Tag::Re).expect("b is fixed at stage 4");
    let rows = rows.chunks(length);
    if list.len() != rows.len() {
        return Err(Refusal::List);
    }
    for (row, place) in rows.zip(list) {
        *place = answer_number(run.give(row));
    }
    Ok(())
}

impl Bundle {
    /// The bundle's bytes.
    pub fn encode(&self) -> Vec<u8> {
        [&self.places.to_be_bytes()[..], &framed(&self.rows)].concat()
    }

    /// The call with it on a run.
    fn call(self, run: &mut Run) -> Called {
        let (stage, accepted) = (run.stage, run.responses.len());
        let mut list = vec![FILLER; usize::from(self.places)];
        let answer = give_bundle(run, &self.rows, &mut list);
        Called { bundle: self, stage, accepted, answer, list, stage_after: run.stage }
    }
}

/// The bytes of an input.
pub fn input_of(log: &[u8], bundles: &[Bundle]) -> Vec<u8> {
    let mut input = framed(log);
    input.extend(bundles.iter().flat_map(Bundle::encode));
    input
}

impl Reader<'_> {
    /// The next bundle; none if it is cut.
    fn bundle(&mut self) -> Option<Bundle> {
        Some(Bundle { places: self.two()?, rows: self.framed()?.to_vec() })
    }
}

/// Reads an input to its end, or to a cut bundle; none if its log is broken.
pub fn read_input(input: &[u8]) -> Option<Collected> {
    let mut reader = Reader { rest: input };
    let log = reader.log()?;
    let mut collected = Collected { reading: read_log(&log), calls: Vec::new(), left: 0 };
    while !reader.rest.is_empty() {
        let left = reader.rest.len();
        match reader.bundle() {
            Some(bundle) => collected.calls.push(bundle.call(&mut collected.reading.run)),
            None => {
                collected.left = left;
                break;
            }
        }
    }
    Some(collected)
}

impl Collected {
    /// The run after the last bundle.
    pub fn run(&self) -> &Run {
        &self.reading.run
    }

    /// A line for each bundle, and one for the run, or that the next bundle is broken.
    pub fn text(&self) -> String {
        let lines = self.calls.iter().map(|call| line_of(answer_number(call.answer), &call.list));
        let last = if self.left > 0 { BROKEN.to_string() } else { run_line(self.run()) };
        lines.chain([last]).collect()
    }
}

/// The stage and, at stage 5, every φ, u outer; a space behind each.
fn run_line(run: &Run) -> String {
    let signatures = run.signatures.iter().flatten().map(|signature| signature.number());
    let numbers = [u32::from(run.stage.number())].into_iter().chain(signatures);
    let shown: String = numbers.map(|number| format!("{number} ")).collect();
    format!("{shown}\n")
}

/// The answers to an input, a line each.
pub fn answer_input(input: &[u8]) -> String {
    if input.len() > LONGEST_INPUT {
        return LONG.to_string();
    }
    read_input(input).map_or_else(|| BROKEN.to_string(), |collected| collected.text())
}
