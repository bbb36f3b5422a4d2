//! Logs with CS: complete runs signed with a shift, the same dealings signed
//! with and without one, and CS refused at its stage.

use super::bytes::put;
use super::committee::{as_cs, random_params, random_scalar};
use super::course::{completed, with_every_fault};
use super::document;
use super::draft::Draft;
use super::edges::{draft_at, small_draft};
use super::log_set::LogSet;
use super::spoil;
use crate::arith::{Scalar, Q};
use crate::params::Params;
use crate::records::Tag;
use crate::refusal::Refusal;
use crate::rng::Rng;
use crate::run::Stage;

/// Where δ stands in CS, and where the challenges begin.
const SHIFT: usize = 4;
const CHALLENGES: usize = 8;

/// 0, 1, q-1 and a shift drawn by lot.
fn some_shifts(rng: &mut Rng) -> [Scalar; 4] {
    [Scalar::ZERO, Scalar::ONE, Scalar::of(-1), random_scalar(rng)]
}

fn draft_of((n, t, a): (u8, u8, u8), rng: &mut Rng) -> Draft {
    Draft::new(Params::new(n, t, a).expect("within the bounds"), rng).with_every_tag()
}

/// Committees that sign with a shift, or with CS among their refused records.
pub fn complete_logs(gathered: &mut LogSet, rng: &mut Rng) {
    for shift in [0, 1, 5, Q - 1] {
        gathered.add("shift-worked", document::shifted(shift));
    }
    for (n, t, a) in [(4, 1, 1), (6, 1, 2), (9, 2, 2), (14, 3, 3), (32, 1, 15), (32, 10, 1)] {
        for shift in some_shifts(rng) {
            let draft = draft_of((n, t, a), rng).with_shift(shift);
            gathered.add(&format!("shift-complete-{n}-{t}-{a}"), completed(draft, rng));
        }
    }
    gathered.add_many("shift-packed", 10, |index| {
        let params = random_params(Some(index as u32 % 5 + 1), rng);
        let draft = Draft::new(params, rng).with_shift(random_scalar(rng));
        completed(draft, rng)
    });
    gathered.add_many("shift-noisy", 16, |_| completed(noisy_draft(rng), rng));
    gathered.add_many("shift-in-noise-alone", 10, |_| {
        let mut draft = noisy_draft(rng);
        draft.shift = None;
        completed(draft, rng)
    });
    for params in [(4, 1, 1), (7, 1, 2), (9, 2, 2), (32, 1, 15)] {
        let draft = draft_of(params, rng).with_shift(random_scalar(rng));
        gathered.add("shift-every-fault", with_every_fault(draft, rng));
    }
}

/// Bad dealers and refused records, CS among them.
fn noisy_draft(rng: &mut Rng) -> Draft {
    let draft = Draft::random(rng);
    let bad = rng.between(0, draft.params().t) as usize;
    draft.with_bad_dealers(bad, rng).with_noise(40).with_shift(random_scalar(rng))
}

/// The same dealings and challenges, without a shift and with several; then the
/// same shift and responses from different members of HOLD.
pub fn pair_logs(gathered: &mut LogSet, rng: &mut Rng) {
    for params in [(4, 1, 1), (8, 1, 3), (11, 2, 3), (32, 1, 15)] {
        let draft = draft_of(params, rng).with_bad_dealers(1, rng);
        let draft = draft_at(Stage::Challenging, draft, rng);
        let ch = draft.committee.ch(rng);
        gathered.add("shift-pair-without", signed(&draft, &ch, rng));
        for shift in some_shifts(rng) {
            let cs = as_cs(&ch, shift.number());
            gathered.add("shift-pair-with", signed(&draft, &cs, rng));
        }
    }
    let draft = draft_of((11, 2, 2), rng).with_shift(random_scalar(rng));
    let mut draft = draft_at(Stage::Responding, draft, rng);
    gathered.add_many("shift-other-quorum", 4, |_| {
        draft.responders = rng.some_of(&draft.holders, draft.params().quorum());
        completed(draft.clone(), rng)
    });
}

/// The rest of a draft at stage 3 with these challenges.
fn signed(draft: &Draft, challenges: &[u8], rng: &mut Rng) -> Vec<u8> {
    let mut draft = draft.clone();
    draft.accept(challenges);
    completed(draft, rng)
}

/// CS refused at its own stage, then CH or CS accepted.
pub fn refused_logs(gathered: &mut LogSet, rng: &mut Rng) {
    let draft = small_draft(rng).with_every_tag();
    let draft = draft_at(Stage::Challenging, draft, rng);
    for (record, refusal) in refused_shifts(&draft, rng) {
        let mut refused = draft.clone();
        refused.refuse(&record, refusal);
        add_both_ways(gathered, refused, rng);
    }
    for params in [(4, 1, 1), (9, 2, 2), (32, 1, 15)] {
        let draft = draft_of(params, rng);
        let mut draft = draft_at(Stage::Challenging, draft, rng);
        for (record, refusal) in refused_shifts(&draft, rng) {
            draft.refuse(&record, refusal);
        }
        add_both_ways(gathered, draft, rng);
    }
    gathered.add_many("shift-flood", 2, |index| flooded(index == 1, rng));
}

/// A draft at stage 3 goes on with CH, and with CS.
fn add_both_ways(gathered: &mut LogSet, draft: Draft, rng: &mut Rng) {
    gathered.add("shift-refused-then-ch", completed(draft.clone(), rng));
    let draft = draft.with_shift(random_scalar(rng));
    gathered.add("shift-refused-then-cs", completed(draft, rng));
}

/// CS records that stage 3 refuses: each number in turn too large, each reserved
/// byte in turn not 0, and both faults in one.
fn refused_shifts(draft: &Draft, rng: &mut Rng) -> Vec<(Vec<u8>, Refusal)> {
    let good = draft.committee.cs(Scalar::of(1_000_000), rng);
    let last = good.len() - 4;
    let with = |reserved: [u8; 2], numbers: &[(usize, u32)]| {
        let mut record = good.clone();
        record[2..4].copy_from_slice(&reserved);
        for &(offset, number) in numbers {
            put(&mut record, offset, number);
        }
        record
    };
    vec![
        (with([0, 0], &[(SHIFT, Q)]), Refusal::Scalar),
        (with([0, 0], &[(SHIFT, u32::MAX)]), Refusal::Scalar),
        (with([0, 0], &[(CHALLENGES, Q)]), Refusal::Scalar),
        (with([0, 0], &[(last, Q)]), Refusal::Scalar),
        (with([0, 0], &[(SHIFT, Q + 1), (last, u32::MAX)]), Refusal::Scalar),
        (with([1, 0], &[]), Refusal::Reserved),
        (with([0, 1], &[]), Refusal::Reserved),
        (with([0, 255], &[(SHIFT, Q)]), Refusal::Reserved),
        (with([255, 0], &[(last, Q)]), Refusal::Reserved),
    ]
}

/// Thousands of refused CS records, then the rest with or without a shift.
fn flooded(with_shift: bool, rng: &mut Rng) -> Vec<u8> {
    let draft = draft_of((4, 1, 1), rng);
    let mut draft = draft_at(Stage::Challenging, draft, rng);
    while draft.bytes.len() < 60_000 {
        for (record, refusal) in refused_shifts(&draft, rng) {
            draft.refuse(&record, refusal);
        }
    }
    draft.shift = with_shift.then(|| random_scalar(rng));
    completed(draft, rng)
}

/// CH and CS after one another, and response rows that are shifted too.
pub fn later_logs(gathered: &mut LogSet, rng: &mut Rng) {
    for (first, second) in [(Tag::Ch, Tag::Cs), (Tag::Cs, Tag::Ch), (Tag::Cs, Tag::Cs)] {
        gathered.add_many("shift-once-more", 2, |_| challenged_again(first, second, rng));
    }
    gathered.add_many("shift-in-responses", 4, |_| shifted_responses(rng));
}

/// One tag gives the challenges, and the other is refused before and after the
/// responses and between them.
fn challenged_again(first: Tag, second: Tag, rng: &mut Rng) -> Vec<u8> {
    let draft = small_draft(rng).with_every_tag();
    let mut draft = draft_at(Stage::Challenging, draft, rng);
    let challenges = draft.good_record(first, rng);
    draft.accept(&challenges);
    loop {
        let late = spoil::alien(&draft, second, rng);
        draft.refuse(&late, Refusal::Stage);
        if draft.at_end() {
            return draft.bytes;
        }
        draft.step(rng);
    }
}

/// Before each response comes the same with the shift added: to every number, to
/// the first alone, to the last alone.
fn shifted_responses(rng: &mut Rng) -> Vec<u8> {
    let shift = rng.between(1, Q - 1);
    let draft = small_draft(rng).with_shift(Scalar::of(i64::from(shift)));
    let mut draft = draft_at(Stage::Responding, draft, rng);
    let b = draft.committee.combinations() as usize;
    while !draft.at_end() {
        let good = draft.next_record(rng);
        for places in [0..b, 0..1, b - 1..b] {
            let mut record = good.clone();
            for u in places {
                spoil::shift_number(&mut record, 4 + 4 * u, i64::from(shift));
            }
            draft.refuse(&record, Refusal::Response);
        }
        draft.accept(&good);
    }
    draft.bytes
}
