//! What a log shows of the two widths of a complaint row's mask, and of
//! committees at their edges (request 2.2), each in words.

use crate::log::{Given, Reading};
use crate::params::{Party, MOST_NARROW};
use crate::records::{masked, Tag};
use crate::refusal::{answer_number, Refusal};
use crate::run::{Run, Stage};
use std::collections::BTreeSet;

/// The numbers with which a record of each tag can be refused.
const REFUSALS: [(Tag, &[u8]); 6] = [
    (Tag::Su, &[11, 2, 3, 4, 7, 16]),
    (Tag::De, &[11, 2, 3, 5, 7, 6, 12]),
    (Tag::Ve, &[11, 2, 3, 5, 8, 12, 13]),
    (Tag::Ch, &[11, 2, 3, 6]),
    (Tag::Cs, &[11, 2, 3, 6]),
    (Tag::Re, &[11, 2, 3, 5, 6, 12, 14, 15]),
];

/// Bits of masks and the numbers of parties with which they blame a dealer.
const BLAMING: [(Party, Party); 8] =
    [(31, 32), (31, 33), (32, 33), (31, 63), (62, 63), (31, 64), (32, 64), (63, 64)];

/// Everything that some log should show.
pub fn wanted() -> Vec<String> {
    let mut wanted = Vec::new();
    for n in [32, 33, 63, 64] {
        wanted.extend(all_refused(n));
        wanted.extend([Tag::Ch, Tag::Cs].map(|tag| done(n, tag)));
        wanted.push(other_length(n));
    }
    wanted.extend([65, 128, 255].map(|n| answered(Some(Tag::Su), 4, n)));
    for (bit, n) in BLAMING {
        wanted.extend([0, 13].map(|number| bit_answered(bit, n, number)));
    }
    wanted.extend([31, 33, 63].map(|n| bit_answered(n, n, 8)));
    for stage in [Stage::Done, Stage::Failed] {
        wanted.extend(["hold", "qual", "bad"].map(|set| member_above(set, stage)));
    }
    wanted
}

/// What a log shows.
pub fn shown(log: &[u8], reading: &Reading) -> BTreeSet<String> {
    let mut shown = BTreeSet::new();
    for (place, given) in reading.answers.iter().enumerate() {
        let record = &log[given.place.clone()];
        let Some(n) = parties(record, given, &reading.run) else { continue };
        shown.extend(shown_by(record, given, n));
        let next = reading.answers.get(place + 1);
        if next.is_some_and(|next| is_too_long(given, next, n)) {
            shown.insert(other_length(n));
        }
    }
    shown.extend(shown_by_run(reading));
    shown
}

/// Each refusal of each tag; no bit is above bit n-1 with 32 and with 64 parties.
fn all_refused(n: Party) -> Vec<String> {
    let by_tag =
        REFUSALS.iter().flat_map(|(tag, numbers)| numbers.iter().map(move |&number| (tag, number)));
    let possible = by_tag.filter(|&(_, number)| number != 8 || n % 32 != 0);
    let mut refused: Vec<String> =
        possible.map(|(tag, number)| answered(Some(*tag), number, n)).collect();
    refused.push(answered(None, 1, n));
    refused
}

fn answered(tag: Option<Tag>, number: u8, n: Party) -> String {
    format!("{} answered {number} with {n} parties", named(tag))
}

fn named(tag: Option<Tag>) -> String {
    tag.map_or_else(|| "no tag".to_string(), Tag::name)
}

fn done(n: Party, tag: Tag) -> String {
    format!("{n} parties done after {}", named(Some(tag)))
}

fn other_length(n: Party) -> String {
    format!("VE of the other length with {n} parties")
}

fn bit_answered(bit: u32, n: Party, number: u8) -> String {
    format!("bit {bit} alone answered {number} with {n} parties")
}

fn member_above(set: &str, stage: Stage) -> String {
    format!("a member of {set} above 32 at stage {}", stage.number())
}

/// The n that the answer goes by: a setup's own at stage 0, else the run's.
fn parties(record: &[u8], given: &Given, run: &Run) -> Option<Party> {
    let late = given.answer == Err(Refusal::Stage);
    match given.tag {
        Some(Tag::Su | Tag::Sx) if !late => record.get(2).map(|&n| Party::from(n)),
        _ => run.setup.as_ref().map(|setup| setup.params.n),
    }
}

/// What a record of a committee of n shows.
fn shown_by(record: &[u8], given: &Given, n: Party) -> Vec<String> {
    let number = answer_number(given.answer);
    let mut shown = vec![answered(given.tag, number, n)];
    match (given.tag, number) {
        (Some(Tag::Ve), 0 | 8 | 13) => {
            let bit = only_bit(&record[4..]);
            shown.extend(bit.map(|bit| bit_answered(bit, n, number)));
        }
        (Some(Tag::Ve), 2) if n > MOST_NARROW && record.len() == 8 => shown.push(other_length(n)),
        _ => {}
    }
    shown
}

/// The bit of a mask that has just one.
fn only_bit(mask: &[u8]) -> Option<u32> {
    let parties: Vec<Party> = masked(mask).into_iter().collect();
    match parties[..] {
        [party] => Some(party - 1),
        _ => None,
    }
}

/// Is the record a VE of up to 32 parties, with four bytes that are no record
/// behind it?
fn is_too_long(given: &Given, next: &Given, n: Party) -> bool {
    let narrow = given.tag == Some(Tag::Ve) && n <= MOST_NARROW;
    narrow && next.answer == Err(Refusal::Tag) && next.place.len() >= 4
}

/// What the end of a log shows.
fn shown_by_run(reading: &Reading) -> Vec<String> {
    let run = &reading.run;
    let mut shown = Vec::new();
    if run.stage == Stage::Done {
        let tags = [Tag::Ch, Tag::Cs].into_iter().filter(|&tag| reading.accepted(tag));
        shown.extend(tags.map(|tag| done(run.params().n, tag)));
    }
    if let Some(sets) = &run.sets {
        let named = [("hold", &sets.hold), ("qual", &sets.qual), ("bad", &sets.bad)];
        let above = named.into_iter().filter(|(_, set)| set.last() > Some(&MOST_NARROW));
        shown.extend(above.map(|(name, _)| member_above(name, run.stage)));
    }
    shown
}
