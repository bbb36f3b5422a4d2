//! What single rows of taken bundles show (request 2.7), each in words: whole rows with
//! every number, rows of other tags, cut rows, faults at the edges, and holders who send
//! more than one row.

use crate::arith::Q;
use crate::bundles::{Called, Collected};
use crate::params::Party;
use crate::records::{read_response, Tag};
use crate::run::Run;
use std::collections::BTreeSet;

/// When a row is given.
const BEFORE: &str = "before the run is done";
const AFTER: &str = "once the run is done";

/// The numbers of whole rows with their own tag, before the run is done.
const WHOLE_NUMBERS: [u8; 7] = [0, 3, 5, 6, 12, 14, 15];

/// Whole rows with their own tag, once the run is done.
const SENT_BEFORE: &str = "of a holder with an accepted row";
const NOT_NEEDED: &str = "of another member of HOLD";
const OUTSIDER: &str = "of a party outside HOLD";
const FAULTY: &str = "with an early fault";

/// The tags of a cut row.
const RESPONSE: &str = "with the tag RE";
const OTHER_TAG: &str = "with another known tag";
const UNKNOWN_TAG: &str = "with an unknown tag";
const NO_TAG: &str = "with no tag";
const TAGS: [&str; 3] = [RESPONSE, OTHER_TAG, UNKNOWN_TAG];

/// What is left of a cut row; one byte is no tag.
const ONE: &str = "one byte";
const TWO: &str = "two bytes";
const THREE: &str = "three bytes";
const SOME: &str = "four or more bytes";
const ALL_BUT_ONE: &str = "all but one byte";
const CUTS: [&str; 4] = [TWO, THREE, SOME, ALL_BUT_ONE];

/// Faults at the edges.
const PARTY_0: &str = "a row of party 0";
const PARTY_NEXT: &str = "a row of party n+1";
const PARTY_255: &str = "a row of party 255";
const FIRST_LARGE: &str = "a row whose first number alone is q or more";
const LAST_LARGE: &str = "a row whose last number alone is q or more";
const FIRST_WRONG: &str = "a row whose first number alone does not pass";
const LAST_WRONG: &str = "a row whose last number alone does not pass";
const EDGES: [&str; 7] =
    [PARTY_0, PARTY_NEXT, PARTY_255, FIRST_LARGE, LAST_LARGE, FIRST_WRONG, LAST_WRONG];

/// Where a holder's other row was accepted, or refused with 15.
const SAME_BUNDLE: &str = "in the same bundle";
const EARLIER: &str = "in an earlier bundle";
const IN_LOG: &str = "in the log";

/// A row of a taken bundle.
struct Row<'a> {
    bytes: &'a [u8],
    /// The place of the bundle among the taken ones.
    bundle: usize,
    tag: Option<Tag>,
    is_whole: bool,
    /// Is it the only row of its bundle?
    is_alone: bool,
    /// Is it given to a run that is done?
    is_late: bool,
    number: u8,
}

/// Everything that some input should show.
pub fn wanted() -> Vec<String> {
    let mut wanted = WHOLE_NUMBERS.map(answered).to_vec();
    wanted.extend([SENT_BEFORE, NOT_NEEDED, OUTSIDER, FAULTY].map(late));
    for when in [BEFORE, AFTER] {
        let others = Tag::ALL.into_iter().filter(|&tag| tag != Tag::Re);
        wanted.extend(others.map(|tag| in_place(&tag.name(), when)));
        wanted.push(in_place("an unknown tag", when));
        wanted.push(cut_to(ONE, NO_TAG, when));
        wanted.extend(CUTS.iter().flat_map(|cut| TAGS.map(|tag| cut_to(cut, tag, when))));
    }
    wanted.extend(TAGS.map(cut_alone));
    wanted.push(cut_alone(NO_TAG));
    wanted.extend(EDGES.map(str::to_string));
    for place in [SAME_BUNDLE, EARLIER, IN_LOG] {
        wanted.extend([true, false].map(|is_same| again(is_same, place)));
    }
    wanted.extend([SAME_BUNDLE, EARLIER].map(right_at_last));
    wanted
}

fn answered(number: u8) -> String {
    format!("a whole RE answered {number} {BEFORE}")
}

fn late(of: &str) -> String {
    format!("a whole RE {of} {AFTER}")
}

fn in_place(tag: &str, when: &str) -> String {
    format!("{tag} in place of a row {when}")
}

fn cut_to(left: &str, tag: &str, when: &str) -> String {
    format!("a row {tag} cut to {left} {when}")
}

fn cut_alone(tag: &str) -> String {
    format!("a cut row {tag} alone in its bundle")
}

fn again(is_same: bool, place: &str) -> String {
    let which = if is_same { "the same row" } else { "another row" };
    format!("{which} of a holder accepted {place}")
}

fn right_at_last(place: &str) -> String {
    format!("the right row of a holder who failed {place}")
}

impl Row<'_> {
    fn when(&self) -> &'static str {
        if self.is_late {
            AFTER
        } else {
            BEFORE
        }
    }

    /// The holder of a whole row with its own tag.
    fn holder(&self) -> Option<Party> {
        let is_response = self.is_whole && self.tag == Some(Tag::Re);
        is_response.then(|| Party::from(self.bytes[2]))
    }

    fn numbers(&self) -> Vec<u32> {
        let number = |bytes: &[u8]| bytes.iter().fold(0, |sum, &byte| sum << 8 | u32::from(byte));
        self.bytes[4..].chunks(4).map(number).collect()
    }
}

/// What the rows of an input show.
pub fn shown(collected: &Collected) -> BTreeSet<String> {
    let run = collected.run();
    let taken = collected.calls.iter().filter(|call| call.answer.is_ok());
    let rows: Vec<Row> =
        taken.enumerate().flat_map(|(bundle, call)| rows_in(bundle, call, run)).collect();
    let mut shown = BTreeSet::new();
    for (place, row) in rows.iter().enumerate() {
        match row.holder() {
            Some(holder) => {
                shown.extend(shown_by_whole(row, holder, run));
                shown.extend(shown_by_holder(row, holder, &rows[..place], run));
            }
            None => shown.extend(shown_by_other(row, run)),
        }
    }
    shown
}

/// The rows of a taken bundle.
fn rows_in<'a>(bundle: usize, call: &'a Called, run: &Run) -> Vec<Row<'a>> {
    let length = run.length(Tag::Re).expect("b is fixed at stage 4");
    let needed = run.params().quorum();
    let mut accepted = call.accepted;
    let row = |(bytes, &number): (&'a [u8], &u8)| {
        let is_late = accepted == needed;
        accepted += usize::from(number == 0);
        let (is_whole, is_alone) = (bytes.len() == length, call.list.len() == 1);
        Row { bytes, bundle, tag: Tag::of(bytes), is_whole, is_alone, is_late, number }
    };
    call.bundle.rows.chunks(length).zip(&call.list).map(row).collect()
}

/// What a whole row of a holder shows.
fn shown_by_whole(row: &Row, holder: Party, run: &Run) -> Vec<String> {
    if row.is_late {
        return vec![late(how_late(row, holder, run))];
    }
    let mut shown = vec![answered(row.number)];
    shown.extend(edges_of(row, holder, run).into_iter().map(str::to_string));
    shown
}

fn how_late(row: &Row, holder: Party, run: &Run) -> &'static str {
    let hold = &run.sets.as_ref().expect("the sets are fixed at stage 5").hold;
    let b = run.combinations().expect("b is fixed at stage 5");
    match read_response(row.bytes, &run.params(), b) {
        Err(_) => FAULTY,
        Ok(_) if run.responses.iter().any(|accepted| accepted.holder == holder) => SENT_BEFORE,
        Ok(_) if hold.contains(&holder) => NOT_NEEDED,
        Ok(_) => OUTSIDER,
    }
}

/// The faults at the edges that a row has.
fn edges_of(row: &Row, holder: Party, run: &Run) -> Vec<&'static str> {
    let faults = match row.number {
        5 => vec![
            (holder == 0, PARTY_0),
            (holder == run.params().n + 1, PARTY_NEXT),
            (holder == 255, PARTY_255),
        ],
        6 => {
            let large: Vec<bool> = row.numbers().iter().map(|&number| number >= Q).collect();
            vec![(is_first(&large), FIRST_LARGE), (is_last(&large), LAST_LARGE)]
        }
        15 => {
            let right = accepted_numbers(holder, run);
            let wrong: Vec<bool> =
                row.numbers().iter().zip(&right).map(|(number, right)| number != right).collect();
            vec![(is_first(&wrong), FIRST_WRONG), (is_last(&wrong), LAST_WRONG)]
        }
        _ => vec![],
    };
    faults.into_iter().filter_map(|(holds, fault)| holds.then_some(fault)).collect()
}

/// Does it hold of the first alone?
fn is_first(holds: &[bool]) -> bool {
    holds.iter().position(|&holds| holds) == Some(0) && holds.iter().filter(|&&h| h).count() == 1
}

/// Does it hold of the last alone?
fn is_last(holds: &[bool]) -> bool {
    let reversed: Vec<bool> = holds.iter().rev().copied().collect();
    is_first(&reversed)
}

/// The numbers of the holder's accepted row, or none.
fn accepted_numbers(holder: Party, run: &Run) -> Vec<u32> {
    let accepted = run.responses.iter().filter(|row| row.holder == holder);
    accepted.flat_map(|row| row.numbers.iter().map(|number| number.number())).collect()
}

/// What a row shows beside those of the same holder before it.
fn shown_by_holder(row: &Row, holder: Party, before: &[Row], run: &Run) -> Vec<String> {
    let sent = |number: u8| {
        before.iter().filter(move |row| row.number == number && row.holder() == Some(holder))
    };
    let place = |other: &Row| if other.bundle == row.bundle { SAME_BUNDLE } else { EARLIER };
    match row.number {
        0 => sent(15).map(|failed| right_at_last(place(failed))).collect(),
        12 => {
            let is_same = row.numbers() == accepted_numbers(holder, run);
            vec![again(is_same, sent(0).next().map_or(IN_LOG, place))]
        }
        _ => vec![],
    }
}

/// What a cut row, or one of another tag, shows.
fn shown_by_other(row: &Row, run: &Run) -> Vec<String> {
    if row.is_whole {
        let name = row.tag.map_or_else(|| "an unknown tag".to_string(), Tag::name);
        return vec![in_place(&name, row.when())];
    }
    let length = run.length(Tag::Re).expect("b is fixed at stage 4");
    let tag = match row.tag {
        Some(Tag::Re) => RESPONSE,
        Some(_) => OTHER_TAG,
        None => UNKNOWN_TAG,
    };
    let (left, tag) = match row.bytes.len() {
        1 => (ONE, NO_TAG),
        2 => (TWO, tag),
        3 => (THREE, tag),
        left if left + 1 == length => (ALL_BUT_ONE, tag),
        _ => (SOME, tag),
    };
    let mut shown = vec![cut_to(left, tag, row.when())];
    shown.extend(row.is_alone.then(|| cut_alone(tag)));
    shown
}
