//! What a log shows of identities (request 2.3), each in words: what becomes of a
//! setup whose S is 1, and runs with 1 where it may stand.

use crate::arith::Element;
use crate::log::{Given, Reading};
use crate::records::Tag;
use crate::refusal::{answer_number, Refusal};
use crate::run::{Run, Stage};
use std::collections::BTreeSet;

/// The numbers that answer a setup whose S is 1.
const KEY_ANSWERS: [u8; 6] = [11, 2, 3, 4, 7, 16];

/// Where 1 may stand.
const HOLDER_KEY: &str = "some S_j = 1";
const EVERY_HOLDER_KEY: &str = "every S_j = 1";
const COMMITMENT: &str = "a dealing with some V = 1";
const EVERY_COMMITMENT: &str = "a dealing with every V = 1";

const DONE_AFTER: &str = "done after SU answered 16";

/// Everything that some log should show.
pub fn wanted() -> Vec<String> {
    let mut wanted = KEY_ANSWERS.map(key_answered).to_vec();
    for kind in [HOLDER_KEY, EVERY_HOLDER_KEY, COMMITMENT, EVERY_COMMITMENT] {
        wanted.extend([taken(kind), done(kind)]);
    }
    wanted.push(DONE_AFTER.to_string());
    wanted
}

/// What a log shows.
pub fn shown(log: &[u8], reading: &Reading) -> BTreeSet<String> {
    let has_key = |given: &&Given| has_identity_key(given.tag, &log[given.place.clone()]);
    let keys = reading.answers.iter().filter(has_key);
    let mut shown: BTreeSet<String> =
        keys.map(|given| key_answered(answer_number(given.answer))).collect();
    let is_done = reading.run.stage == Stage::Done;
    for kind in kinds_in(&reading.run) {
        shown.insert(taken(kind));
        shown.extend(is_done.then(|| done(kind)));
    }
    let mut refusals = reading.refused().map(|(_, refusal)| refusal);
    if is_done && refusals.any(|refusal| refusal == Refusal::IdentityKey) {
        shown.insert(DONE_AFTER.to_string());
    }
    shown
}

fn key_answered(number: u8) -> String {
    format!("SU with S = 1 answered {number}")
}

fn taken(kind: &str) -> String {
    format!("{kind} taken")
}

fn done(kind: &str) -> String {
    format!("done with {kind}")
}

/// Is the record a setup, whole or cut, whose S is 1?
fn has_identity_key(tag: Option<Tag>, record: &[u8]) -> bool {
    tag == Some(Tag::Su) && record.get(6..10) == Some(&[0, 0, 0, 1])
}

/// Where 1 stands in the accepted setup and the accepted dealings.
fn kinds_in(run: &Run) -> Vec<&'static str> {
    let setups = run.setup.iter().map(|setup| &setup.holder_keys);
    let dealings = run.dealings.iter().map(|dealing| &dealing.commitments);
    let mut kinds = Vec::new();
    for keys in setups {
        kinds.extend(some_and_all(keys, HOLDER_KEY, EVERY_HOLDER_KEY));
    }
    for commitments in dealings {
        kinds.extend(some_and_all(commitments, COMMITMENT, EVERY_COMMITMENT));
    }
    kinds
}

/// The one name where an element is the identity, and the other where all are.
fn some_and_all(
    elements: &[Element],
    some: &'static str,
    all: &'static str,
) -> impl Iterator<Item = &'static str> {
    let is_identity = |element: &Element| *element == Element::ONE;
    let some = elements.iter().any(is_identity).then_some(some);
    let all = elements.iter().all(is_identity).then_some(all);
    some.into_iter().chain(all)
}
