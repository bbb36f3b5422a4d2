//! What a log shows of the size of BAD beside t (request 2.4), each in words: runs
//! that end at stage 5 with t members and at stage 6 with one more, in committees
//! of more than 32 parties.

use crate::log::Reading;
use crate::params::{Params, Party, MOST_NARROW};
use crate::run::Stage;
use std::collections::BTreeSet;

/// Where the members are.
const LOW: &str = "all up to 32";
const HIGH: &str = "all above 32";
const BOTH: &str = "on both sides of 32";

/// The committees: with the most parties and the highest t, and others.
const LARGEST: &str = "64 parties and t = 21";
const OTHERS: &str = "33 to 64 parties and t from 2 to 20";

/// The sizes, each with the stage that it leads to.
const AT_LIMIT: &str = "done with t in BAD";
const ONE_MORE: &str = "failed with t+1 in BAD";

/// Everything that some log should show.
pub fn wanted() -> Vec<String> {
    let mut wanted = Vec::new();
    for committee in [LARGEST, OTHERS] {
        for size in [AT_LIMIT, ONE_MORE] {
            wanted.extend([LOW, HIGH, BOTH].map(|side| in_words(size, side, committee)));
        }
    }
    wanted
}

/// What a log shows, if anything.
pub fn shown(reading: &Reading) -> Option<String> {
    let run = &reading.run;
    let bad = &run.sets.as_ref()?.bad;
    let params = run.params();
    let over = bad.len().checked_sub(params.t as usize)?;
    let size = match (run.stage, over) {
        (Stage::Done, 0) => AT_LIMIT,
        (Stage::Failed, 1) => ONE_MORE,
        _ => return None,
    };
    Some(in_words(size, side_of(bad), committee_of(params)?))
}

fn in_words(size: &str, side: &str, committee: &str) -> String {
    format!("{size}, {side}, with {committee}")
}

fn side_of(members: &BTreeSet<Party>) -> &'static str {
    match (members.first() <= Some(&MOST_NARROW), members.last() > Some(&MOST_NARROW)) {
        (true, true) => BOTH,
        (true, false) => LOW,
        (false, _) => HIGH,
    }
}

fn committee_of(params: Params) -> Option<&'static str> {
    match (params.n, params.t) {
        (64, 21) => Some(LARGEST),
        (33..=64, 2..=20) => Some(OTHERS),
        _ => None,
    }
}
