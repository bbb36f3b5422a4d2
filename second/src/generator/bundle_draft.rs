//! An input of bundles in the making (request 2.7): a committee with its log, the run that
//! the log leaves, and the bundles given to it so far. Calls and rows are written with the
//! numbers they must get, and a different one stops the generator.

use super::draft::Draft;
use super::edges::draft_at;
use crate::bundles::{give_bundle, input_of, Bundle};
use crate::params::Party;
use crate::records::Tag;
use crate::refusal::{answer_number, Refusal};
use crate::requests::FILLER;
use crate::rng::Rng;
use crate::run::{Run, Stage};

/// A row and the number it must get.
pub type Row = (Vec<u8>, u8);

/// The number of a bundle or a row that is taken, and of one that the stage refuses.
pub const TAKEN: u8 = 0;
pub const STAGE: u8 = Refusal::Stage as u8;

#[derive(Clone)]
pub struct BundleDraft {
    /// The committee, its log, and the run as the log leaves it.
    pub draft: Draft,
    /// The run that the bundles are given to.
    pub run: Run,
    pub bundles: Vec<Bundle>,
}

/// The draft's log up to its challenges, and no bundle yet.
pub fn at_rows(draft: Draft, rng: &mut Rng) -> BundleDraft {
    BundleDraft::new(draft_at(Stage::Responding, draft, rng))
}

/// The bytes of rows end to end.
pub fn end_to_end(rows: &[Row]) -> Vec<u8> {
    rows.iter().flat_map(|(bytes, _)| bytes.clone()).collect()
}

impl BundleDraft {
    /// The draft's log as it is, and no bundle yet.
    pub fn new(draft: Draft) -> BundleDraft {
        BundleDraft { run: draft.run.clone(), draft, bundles: Vec::new() }
    }

    /// The bytes of the input.
    pub fn input(&self) -> Vec<u8> {
        input_of(&self.draft.bytes, &self.bundles)
    }

    /// How long a row is.
    pub fn row_length(&self) -> usize {
        self.draft.length(Tag::Re)
    }

    /// How many rows so many bytes are.
    pub fn count(&self, size: usize) -> usize {
        size.div_ceil(self.row_length())
    }

    /// Adds a bundle with so many places, whatever becomes of it: the call's number and
    /// the list.
    pub fn give(&mut self, rows: &[u8], places: usize) -> (u8, Vec<u8>) {
        let mut list = vec![FILLER; places];
        let answer = give_bundle(&mut self.run, rows, &mut list);
        let places = u16::try_from(places).expect("a list has at most 65,535 places");
        self.bundles.push(Bundle { places, rows: rows.to_vec() });
        (answer_number(answer), list)
    }

    /// Adds a bundle with one place a row.
    pub fn take(&mut self, rows: &[Row]) {
        let numbers: Vec<u8> = rows.iter().map(|&(_, number)| number).collect();
        let given = self.give(&end_to_end(rows), rows.len());
        assert_eq!(given, (TAKEN, numbers));
    }

    /// Adds a bundle with so many places, which is refused so.
    pub fn refuse(&mut self, rows: &[u8], places: usize, refusal: Refusal) {
        let given = self.give(rows, places);
        assert_eq!(given, (refusal.number(), vec![FILLER; places]));
    }

    /// The right row of a member of HOLD.
    pub fn row(&self, holder: Party) -> Vec<u8> {
        self.draft.committee.re(&self.draft.run, holder)
    }

    /// The right rows of these, each with this number.
    pub fn rows(&self, holders: &[Party], number: u8) -> Vec<Row> {
        holders.iter().map(|&holder| (self.row(holder), number)).collect()
    }

    /// The right rows that are still needed, each of which is taken.
    pub fn needed(&self) -> Vec<Row> {
        let missing = self.draft.params().quorum() - self.run.responses.len();
        let has_row = |holder: Party| self.run.responses.iter().any(|row| row.holder == holder);
        let left: Vec<Party> =
            self.draft.responders.iter().copied().filter(|&holder| !has_row(holder)).collect();
        self.rows(&left[..missing], TAKEN)
    }

    /// The members of HOLD whose rows are not needed.
    pub fn others(&self) -> Vec<Party> {
        let responders = &self.draft.responders;
        self.draft.holders.iter().copied().filter(|holder| !responders.contains(holder)).collect()
    }

    /// Three right rows past the last needed one: of others while there are any.
    pub fn three_late(&self) -> Vec<Row> {
        let holders = [self.others(), self.draft.responders.clone()].concat();
        self.rows(&holders[..3], STAGE)
    }
}
