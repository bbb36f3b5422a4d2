//! Logs about a key that is the identity (request 2.3): setups whose S is 1,
//! alone, before a good log, and beside every other fault.

use super::bytes::put;
use super::committee::{with_identity_key, Triple, KEY_PLACE};
use super::course::{completed, with_every_fault};
use super::draft::Draft;
use super::edges::draft_at;
use super::log_set::LogSet;
use super::spoil;
use super::wide;
use crate::arith::{GroupNumber, Scalar, P};
use crate::refusal::Refusal;
use crate::rng::Rng;
use crate::run::Stage;

/// Committees small and large.
const SIZES: [Triple; 7] =
    [(4, 1, 1), (7, 1, 2), (11, 2, 3), (32, 10, 1), (63, 1, 1), (64, 1, 31), (64, 15, 10)];

/// Numbers that are no elements: about the ends of the range and inside it.
/// P+1 is 1 modulo P.
pub const NO_ELEMENTS: [u32; 6] = [0, 5, P - 1, P, P + 1, u32::MAX];

/// Numbers like 1: next to it, with bytes that are 1, or 1 modulo P.
const LOOKALIKES: [u32; 11] =
    [0, 2, 3, 4, 0x100, 0x101, 0x1_0000, 0x100_0000, 0x101_0101, 0x8000_0001, P + 1];

/// A draft whose own key is not the identity, with all refused records there are.
pub fn draft_of(params: Triple, rng: &mut Rng) -> Draft {
    wide::draft_of(params, rng).with_identity_keys(rng)
}

/// The draft's SU with S = 1.
pub fn identity_setup(draft: &Draft) -> Vec<u8> {
    with_identity_key(draft.committee.su())
}

/// An SU with another number at a place: 0 for S, j for S_j.
fn with_number(mut su: Vec<u8>, place: usize, number: u32) -> Vec<u8> {
    put(&mut su, KEY_PLACE + 4 * place, number);
    su
}

/// The draft after so many setups with S = 1.
pub fn refused_first(mut draft: Draft, count: usize) -> Draft {
    for _ in 0..count {
        draft.refuse(&identity_setup(&draft), Refusal::IdentityKey);
    }
    draft
}

/// Setups with S = 1 before a good log, alone, and in place of the good setup.
pub fn setup_logs(gathered: &mut LogSet, rng: &mut Rng) {
    gathered.add("identity-key", example(rng));
    for (n, t, a) in SIZES {
        let draft = refused_first(draft_of((n, t, a), rng), 1);
        gathered.add("identity-only", draft.bytes.clone());
        gathered.add("identity-only", refused_first(draft.clone(), 2).bytes);
        gathered.add(&format!("identity-refused-first-{n}-{t}-{a}"), completed(draft, rng));
    }
    for params in &SIZES[..3] {
        let log = completed(draft_of(*params, rng), rng);
        gathered.add("identity-in-place", with_identity_key(log));
    }
    gathered.add("identity-of-every-size", of_every_size(rng));
    gathered.add("identity-flood", flooded((4, 1, 1), rng));
    lookalikes(gathered, rng);
}

/// A log to keep: S = 1 with an S_1 that is no element, S = 1 alone, then a good
/// log with a dealing that commits to 1 at the point 1.
fn example(rng: &mut Rng) -> Vec<u8> {
    let mut draft = draft_of((7, 1, 2), rng);
    let dealer = draft.dealers[1] as usize - 1;
    draft.committee.dealings[dealer][2] = Scalar::ZERO;
    let no_element = with_number(identity_setup(&draft), 1, P - 1);
    draft.refuse(&no_element, Refusal::Element);
    completed(refused_first(draft, 1), rng)
}

/// Setups of all sizes with S = 1, then a good log.
fn of_every_size(rng: &mut Rng) -> Vec<u8> {
    let mut draft = draft_of((6, 1, 2), rng);
    for params in SIZES {
        let other = draft_of(params, rng);
        draft.refuse(&identity_setup(&other), Refusal::IdentityKey);
    }
    completed(draft, rng)
}

/// Thousands of setups with S = 1, then a good log.
fn flooded(params: Triple, rng: &mut Rng) -> Vec<u8> {
    let mut draft = draft_of(params, rng);
    while draft.bytes.len() < 60_000 {
        draft = refused_first(draft, 1);
    }
    completed(draft, rng)
}

/// Setups whose S is like 1 and is another element, or none.
fn lookalikes(gathered: &mut LogSet, rng: &mut Rng) {
    for number in LOOKALIKES {
        let mut draft = draft_of((4, 1, 1), rng);
        let record = with_number(draft.committee.su(), 0, number);
        match GroupNumber::read(number) {
            GroupNumber::NoElement => draft.refuse(&record, Refusal::Element),
            _ => draft.accept(&record),
        }
        gathered.add("identity-lookalike", draft.bytes);
    }
}

/// S = 1 beside each S_j in turn that is no element, and S that is none, then a
/// good log.
pub fn element_logs(gathered: &mut LogSet, rng: &mut Rng) {
    for params in [(4, 1, 1), (11, 2, 3), (32, 10, 1), (64, 21, 1)] {
        let mut draft = draft_of(params, rng);
        for number in NO_ELEMENTS {
            draft.refuse(&with_number(draft.committee.su(), 0, number), Refusal::Element);
            for j in 1..=usize::from(params.1) {
                let record = with_number(identity_setup(&draft), j, number);
                draft.refuse(&record, Refusal::Element);
            }
        }
        gathered.add("identity-and-no-element", completed(draft, rng));
    }
}

/// S = 1 beside every choice of other faults, cut, and late.
pub fn order_logs(gathered: &mut LogSet, rng: &mut Rng) {
    for params in [(4, 1, 1), (11, 2, 3), (33, 1, 1), (64, 2, 1)] {
        let draft = draft_of(params, rng);
        gathered.add("identity-every-fault", with_every_fault(draft, rng));
    }
    for params in [(4, 1, 1), (11, 2, 3), (64, 21, 1)] {
        cut_setups(gathered, &draft_of(params, rng), rng);
    }
    for stage in &Stage::ALL[1..] {
        for params in [(6, 1, 2), (33, 1, 1)] {
            late_setups(gathered, *stage, params, rng);
        }
    }
}

/// Setups without their last byte and with every choice of other faults, then
/// some with S = 1 that break off elsewhere.
fn cut_setups(gathered: &mut LogSet, draft: &Draft, rng: &mut Rng) {
    let setup = identity_setup(draft);
    let faults = spoil::all_faults(draft, rng).into_iter().map(|(record, _)| record);
    let mut cut: Vec<Vec<u8>> = faults.map(|record| record[..record.len() - 1].to_vec()).collect();
    cut.extend([2, 5, 6, 9, 10, setup.len() - 2].map(|length| setup[..length].to_vec()));
    for record in cut {
        let mut draft = refused_first(draft.clone(), 1);
        draft.refuse(&record, Refusal::Length);
        gathered.add("identity-cut", draft.bytes);
    }
}

/// A setup with S = 1 after an accepted one, before the rest of the log; and one
/// that breaks off.
fn late_setups(gathered: &mut LogSet, stage: Stage, params: Triple, rng: &mut Rng) {
    let draft = draft_of(params, rng);
    let mut draft = draft_at(stage, draft, rng);
    let setup = identity_setup(&draft);
    draft.refuse(&setup, Refusal::Stage);
    let kind = format!("identity-late-{}", stage.number());
    gathered.add(&kind, [&draft.bytes, &setup[..10]].concat());
    gathered.add(&kind, completed(draft, rng));
}
