//! What the calls of an input of bundles show (request 2.7), each in words: at every stage
//! and with every kind of list, with how many rows, and what becomes of the run.

use crate::bundles::{Called, Collected};
use crate::params::Party;
use crate::records::Tag;
use crate::refusal::Refusal;
use crate::run::{Run, Stage};
use std::collections::BTreeSet;

/// Where a call is refused with 11.
const AT_0: &str = "stage 0";
const AT_1: &str = "stage 1 of a run begun by SU";
const WAITING: &str = "stage 1 of a run that waits";
const AT_2: &str = "stage 2";
const AT_3: &str = "stage 3";
const DONE_BY_LOG: &str = "stage 5 that the log brought";
const DONE_BY_BUNDLE: &str = "stage 5 that a bundle brought";
const AT_6: &str = "stage 6";

/// The lists there. Where there is no b, there is no right one.
const NOTHING: &str = "no bytes and no places";
const RIGHT: &str = "one place a row";
const OTHER: &str = "another list";
const UNCOUNTED: &str = "some bytes or places";

/// The lists that are refused with 10.
const ONE_SHORT: &str = "one place short";
const ONE_LONG: &str = "one place too many";
const NO_PLACES: &str = "no places for some rows";
const NO_ROWS: &str = "places for no rows";
const MANY: &str = "a thousand places too many";
const FOR_LONGER: &str = "right for rows of 8+4b bytes";
const FOR_SHORTER: &str = "right for rows of 4b bytes";
const FOR_FEWEST: &str = "right for rows of 4+4(n-2t) bytes";
const BUT_CUT: &str = "right but for the cut row";
const LISTS: [&str; 9] =
    [ONE_SHORT, ONE_LONG, NO_PLACES, NO_ROWS, MANY, FOR_LONGER, FOR_SHORTER, FOR_FEWEST, BUT_CUT];

const BEHIND_ROWS: &str = "a list refused behind accepted rows";
const TAKEN_AT_LAST: &str = "a bundle refused for its list, and then taken";

/// How many rows a bundle has.
const NONE: &str = "no row";
const ONE: &str = "one row";
const FEWER: &str = "fewer rows than are needed";
const NEEDED: &str = "as many rows as are needed";
const THREE_MORE: &str = "three rows more than are needed";
const MORE: &str = "more rows than that";
const EVERYONE: &str = "one row of each member of HOLD";
const COUNTS: [&str; 7] = [NONE, ONE, FEWER, NEEDED, THREE_MORE, MORE, EVERYONE];

/// What becomes of the run.
const DONE_AT_LAST: &str = "done by the last row";
const DONE_BEFORE: &str = "done before the last row";
const SOME_TAKEN: &str = "not done, some rows taken";
const NONE_TAKEN: &str = "not done, no row taken";
const OUTCOMES: [&str; 4] = [DONE_AT_LAST, DONE_BEFORE, SOME_TAKEN, NONE_TAKEN];

/// Everything that some input should show.
pub fn wanted() -> Vec<String> {
    let mut wanted = Vec::new();
    for spot in [AT_0, WAITING] {
        wanted.extend([NOTHING, UNCOUNTED].map(|list| refused_at(spot, list)));
    }
    for spot in [AT_1, AT_2, AT_3, DONE_BY_LOG, DONE_BY_BUNDLE, AT_6] {
        wanted.extend([NOTHING, RIGHT, OTHER].map(|list| refused_at(spot, list)));
    }
    wanted.extend(LISTS.map(list_refused));
    wanted.extend([BEHIND_ROWS, TAKEN_AT_LAST].map(str::to_string));
    wanted.extend(COUNTS.map(taken_with));
    for is_first in [true, false] {
        wanted.extend(OUTCOMES.map(|outcome| outcome_of(outcome, is_first)));
    }
    wanted
}

fn refused_at(spot: &str, list: &str) -> String {
    format!("{list} refused at {spot}")
}

fn list_refused(list: &str) -> String {
    format!("a list refused: {list}")
}

fn taken_with(count: &str) -> String {
    format!("a bundle with {count}")
}

fn outcome_of(outcome: &str, is_first: bool) -> String {
    format!("{} bundle: {outcome}", if is_first { "the first" } else { "a later" })
}

/// What the calls of an input show.
pub fn shown(collected: &Collected) -> BTreeSet<String> {
    let (run, calls) = (collected.run(), &collected.calls);
    let mut shown = BTreeSet::new();
    for (place, call) in calls.iter().enumerate() {
        shown.extend(match call.answer {
            Err(Refusal::Stage) => vec![shown_by_stage(call, &calls[..place], run)],
            Err(_) => shown_by_list(call, &calls[place + 1..], run),
            Ok(()) => shown_by_taken(call, place == 0, run),
        });
    }
    shown
}

/// How many rows a call has, if the run knows b.
fn row_count(call: &Called, run: &Run) -> Option<usize> {
    run.length(Tag::Re).map(|length| call.bundle.rows.len().div_ceil(length))
}

fn shown_by_stage(call: &Called, before: &[Called], run: &Run) -> String {
    let waits = run.setup.as_ref().is_some_and(|setup| setup.waits);
    let spot = match call.stage {
        Stage::Fresh => AT_0,
        Stage::Dealing => [AT_1, WAITING][usize::from(waits)],
        Stage::Complaining => AT_2,
        Stage::Challenging => AT_3,
        Stage::Done if before.iter().any(|call| call.answer.is_ok()) => DONE_BY_BUNDLE,
        Stage::Done => DONE_BY_LOG,
        _ => AT_6,
    };
    let list = match (row_count(call, run), call.list.len()) {
        _ if call.bundle.rows.is_empty() && call.list.is_empty() => NOTHING,
        (None, _) => UNCOUNTED,
        (Some(count), places) if count == places => RIGHT,
        _ => OTHER,
    };
    refused_at(spot, list)
}

fn shown_by_list(call: &Called, behind: &[Called], run: &Run) -> Vec<String> {
    let rows = &call.bundle.rows;
    let mut shown: Vec<String> = lists_of(call, run).into_iter().map(list_refused).collect();
    let taken = |later: &Called| later.answer.is_ok() && later.bundle.rows == *rows;
    let at_last = !rows.is_empty() && behind.iter().any(taken);
    shown.extend(at_last.then(|| TAKEN_AT_LAST.to_string()));
    shown.extend((call.accepted > 0).then(|| BEHIND_ROWS.to_string()));
    shown
}

/// The kinds of a list that is not right.
fn lists_of(call: &Called, run: &Run) -> Vec<&'static str> {
    let (size, places) = (call.bundle.rows.len(), call.list.len());
    let length = run.length(Tag::Re).expect("b is fixed at stage 4");
    let params = run.params();
    let fewest = 4 + 4 * params.combinations_of(params.majority()) as usize;
    let (count, if_cut) = (size.div_ceil(length), |other: usize| size.div_ceil(other) == places);
    let kinds = [
        (places + 1 == count, ONE_SHORT),
        (places == count + 1, ONE_LONG),
        (places == 0, NO_PLACES),
        (size == 0, NO_ROWS),
        (places > count + 1_000, MANY),
        (size > 0 && if_cut(length + 4), FOR_LONGER),
        (size > 0 && if_cut(length - 4), FOR_SHORTER),
        (size > 0 && fewest < length && if_cut(fewest), FOR_FEWEST),
        (size % length > 0 && places == size / length, BUT_CUT),
    ];
    kinds.into_iter().filter_map(|(holds, kind)| holds.then_some(kind)).collect()
}

fn shown_by_taken(call: &Called, is_first: bool, run: &Run) -> Vec<String> {
    let mut shown = vec![taken_with(count_of(call.list.len(), run.params().quorum()))];
    shown.extend(is_everyones(call, run).then(|| taken_with(EVERYONE)));
    let outcome = match (call.stage_after, call.list.last()) {
        (Stage::Done, Some(0)) => DONE_AT_LAST,
        (Stage::Done, _) => DONE_BEFORE,
        _ if call.list.contains(&0) => SOME_TAKEN,
        _ => NONE_TAKEN,
    };
    shown.push(outcome_of(outcome, is_first));
    shown
}

fn count_of(rows: usize, needed: usize) -> &'static str {
    match rows {
        0 => NONE,
        1 => ONE,
        _ if rows < needed => FEWER,
        _ if rows == needed => NEEDED,
        _ if rows == needed + 3 => THREE_MORE,
        _ if rows > needed + 3 => MORE,
        _ => "some rows more than are needed",
    }
}

/// Has the bundle one row of each member of HOLD, each whole and with its tag?
fn is_everyones(call: &Called, run: &Run) -> bool {
    let length = run.length(Tag::Re).expect("b is fixed at stage 4");
    let hold = &run.sets.as_ref().expect("the sets are fixed at stage 4").hold;
    let holder = |row: &[u8]| {
        let is_row = row.len() == length && Tag::of(row) == Some(Tag::Re);
        is_row.then(|| Party::from(row[2]))
    };
    let holders: Option<BTreeSet<Party>> = call.bundle.rows.chunks(length).map(holder).collect();
    call.list.len() == hold.len() && holders.as_ref() == Some(hold)
}
