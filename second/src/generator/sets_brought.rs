//! Logs about the record that brings stage 3 or 6 (request 2.6): without it, with it last,
//! with other records and stray bytes behind it, and with refused records of every kind
//! before and behind it.

use super::course::{add_every_alien, completed, rest_of, with_every_fault};
use super::document;
use super::draft::Draft;
use super::edges::draft_at;
use super::log_set::LogSet;
use super::wait_edges::{early, late_setups, waiting_at};
use super::waits::{draft_of_all, never_waiting, waiting_draft};
use crate::log::read_log;
use crate::records::Tag;
use crate::rng::Rng;
use crate::run::Stage;

/// Logs that end about the record, or go on behind it.
pub fn brought_logs(gathered: &mut LogSet, rng: &mut Rng) {
    let (by_su, by_sx) = (never_waiting((4, 1, 1), rng), waiting_draft((9, 2, 2), 1, rng));
    for draft in [by_su, by_sx] {
        let draft = draft_at(Stage::Challenging, draft, rng);
        add_about(gathered, &draft, rng);
        let ch = draft.good_record(Tag::Ch, rng);
        gathered.add("sets-3-then-challenges", [&draft.bytes[..], &ch].concat());
        gathered.add("sets-3-then-done", completed(draft, rng));
    }
    let by_su = [(32, 1, 1), (33, 1, 1)].map(|params| never_waiting(params, rng));
    for draft in by_su.into_iter().chain([draft_of_all((64, 2, 1), rng)]) {
        let draft = draft_at(Stage::Challenging, draft, rng);
        gathered.add("sets-3-last", draft.bytes.clone());
        gathered.add("sets-3-then-done", completed(draft, rng));
    }
    let (by_su, by_sx) = (never_waiting((33, 1, 1), rng), draft_of_all((4, 1, 1), rng));
    for draft in [by_su, by_sx] {
        let draft = draft_at(Stage::Failed, draft, rng);
        add_about(gathered, &draft, rng);
        let other = [&draft.bytes[..], &document::worked()].concat();
        gathered.add("sets-6-then-other-log", other);
    }
}

/// The log of a draft that has just come to stage 3 or 6: without its last record, with it,
/// and with something behind it.
fn add_about(gathered: &mut LogSet, draft: &Draft, rng: &mut Rng) {
    let (log, row) = (&draft.bytes[..], draft.length(Tag::Ve));
    let ch = draft.committee.ch(rng);
    let mut refused = draft.clone();
    add_every_alien(&mut refused, rng);
    let logs = [
        ("before", log[..log.len() - row].to_vec()),
        ("last", log.to_vec()),
        ("then-byte", [log, b"C"].concat()),
        ("then-unknown", [log, b"Ch", &ch].concat()),
        ("then-cut", [log, &ch[..ch.len() - 1]].concat()),
        ("then-refused", refused.bytes),
    ];
    for (name, bytes) in logs {
        gathered.add(&format!("sets-{}-{name}", draft.run.stage.number()), bytes);
    }
}

/// Refused records of every kind before and behind the record: each with every fault, GO
/// and VE early, setups with a t of their own, and an unknown tag behind it.
pub fn refused_logs(gathered: &mut LogSet, rng: &mut Rng) {
    let (by_su, by_sx) = (never_waiting((7, 2, 1), rng), draft_of_all((7, 1, 2), rng));
    for draft in [by_su, by_sx] {
        let log = with_every_fault(draft.with_bad_dealers(1, rng), rng);
        gathered.add("sets-refused-last", up_to_stage_3(&log));
        gathered.add("sets-refused", log);
    }
    let (by_su, by_sx) = (never_waiting((4, 1, 1), rng), draft_of_all((33, 1, 1), rng));
    for draft in [by_su, by_sx] {
        let log = with_every_fault(draft.with_bad_dealers(2, rng), rng);
        gathered.add("sets-refused-too-many-bad", log);
    }
    for params in [(7, 2, 1), (33, 1, 1)] {
        let draft = draft_of_all(params, rng);
        gathered.add("sets-refused-go-early", early(draft, rng));
    }
    for stage in [Stage::Dealing, Stage::Complaining] {
        for draft in [never_waiting((7, 2, 1), rng), draft_of_all((7, 2, 1), rng)] {
            let draft = draft_at(stage, draft, rng);
            gathered.add("sets-refused-setups-late", late_setups(draft, rng));
        }
    }
    let draft = waiting_at(Stage::Responding, (7, 2, 1), rng);
    let log = [&draft.bytes[..], b"re", &rest_of(&draft, rng)].concat();
    gathered.add("sets-unknown-at-4", log);
}

/// The log up to the record that brings stage 3.
fn up_to_stage_3(log: &[u8]) -> Vec<u8> {
    let answers = read_log(log).answers;
    let next = answers.iter().find(|given| given.stage == Stage::Challenging);
    log[..next.expect("a record at stage 3").place.start].to_vec()
}
