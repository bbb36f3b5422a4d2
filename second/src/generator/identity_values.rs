//! Logs with 1 where it may stand (request 2.3): S_1 to S_t of a setup, and the
//! commitments of a dealing. Besides, committees with noise of every kind.

use super::bytes::put;
use super::committee::Triple;
use super::course::completed;
use super::draft::Draft;
use super::edges::{changed, draft_at, small_draft, spliced};
use super::identity::{draft_of, refused_first, NO_ELEMENTS};
use super::log_set::LogSet;
use crate::arith::Scalar;
use crate::refusal::Refusal;
use crate::rng::Rng;
use crate::run::Stage;

/// Complete runs of a setup with S_j = 1: for every j, for the first, for the last.
pub fn holder_key_logs(gathered: &mut LogSet, rng: &mut Rng) {
    for params in [(4, 1, 1), (7, 1, 2), (11, 2, 3), (32, 10, 1), (64, 15, 10)] {
        let last = usize::from(params.1) - 1;
        for zeros in [0..=last, 0..=0, last..=last] {
            let mut draft = draft_of(params, rng);
            draft.committee.key_values[zeros].fill(Scalar::ZERO);
            gathered.add("identity-holder-keys", completed(draft, rng));
        }
    }
}

/// Complete runs of dealings that commit to 1: each at another place, one of them
/// everywhere, all of them everywhere.
pub fn commitment_logs(gathered: &mut LogSet, rng: &mut Rng) {
    for params in [(4, 1, 1), (7, 1, 2), (11, 2, 3), (32, 10, 1), (33, 1, 15), (64, 21, 1)] {
        gathered.add("identity-commitments", completed(at_one_place(params, rng), rng));
        gathered.add("identity-zero-dealing", one_zero_dealing(params, rng));
        let draft = all_zero(params, rng);
        gathered.add("identity-zero-dealings", completed(draft.clone(), rng));
        let draft = draft.with_shift(Scalar::of(7));
        gathered.add("identity-zero-dealings-shifted", completed(draft, rng));
    }
}

/// Every dealing commits to 1 at one place, the places in turn.
fn at_one_place(params: Triple, rng: &mut Rng) -> Draft {
    let mut draft = draft_of(params, rng);
    let quorum = draft.params().quorum();
    for (dealer, values) in draft.committee.dealings.iter_mut().enumerate() {
        values[dealer % quorum] = Scalar::ZERO;
    }
    draft
}

fn all_zero(params: Triple, rng: &mut Rng) -> Draft {
    let mut draft = draft_of(params, rng);
    for values in &mut draft.committee.dealings {
        values.fill(Scalar::ZERO);
    }
    draft
}

/// The first dealing commits to 1 everywhere, wrongs a holder and is blamed. Before
/// it stand the same with one number that is no element.
fn one_zero_dealing(params: Triple, rng: &mut Rng) -> Vec<u8> {
    let draft = draft_of(params, rng);
    let mut draft = draft_at(Stage::Dealing, draft, rng);
    let (dealer, holder) = (draft.dealers[0], draft.holders[0]);
    draft.committee.dealings[dealer as usize - 1].fill(Scalar::ZERO);
    draft.wrong = [(dealer, holder)].into();
    let good = draft.next_record(rng);
    for number in NO_ELEMENTS {
        for place in [0, draft.params().quorum() - 1] {
            let mut record = good.clone();
            put(&mut record, 4 + 4 * place, number);
            draft.refuse(&record, Refusal::Element);
        }
    }
    draft.accept(&good);
    completed(draft, rng)
}

/// Committees with noise of every kind, and good logs changed at random.
pub fn mixed_logs(gathered: &mut LogSet, rng: &mut Rng) {
    gathered.add_many("identity-noisy", 16, |_| {
        let draft = Draft::random(rng).with_wide_bounds().with_identity_keys(rng);
        completed(noisy(draft, 40, rng), rng)
    });
    gathered.add_many("identity-very-noisy", 8, |_| {
        let draft = small(rng);
        completed(noisy(draft, 80, rng), rng)
    });
    for params in [(33, 10, 2), (64, 4, 1), (64, 15, 10)] {
        let draft = draft_of(params, rng);
        gathered.add("identity-noisy-above-32", completed(noisy(draft, 15, rng), rng));
    }
    gathered.add_many("identity-stopped-0", 4, |_| {
        let mut draft = refused_first(small(rng), 1);
        for _ in 0..8 {
            draft.make_noise(rng);
        }
        draft.bytes
    });
    gathered.add_many("identity-changed-bytes", 16, |_| {
        let log = base_log(rng);
        changed(log, rng)
    });
    gathered.add_many("identity-spliced", 8, |_| {
        let log = base_log(rng);
        spliced(&log, rng)
    });
}

fn small(rng: &mut Rng) -> Draft {
    small_draft(rng).with_wide_bounds().with_identity_keys(rng)
}

/// The draft after one setup with S = 1, with bad dealers and refused records.
fn noisy(draft: Draft, noise: u32, rng: &mut Rng) -> Draft {
    let bad = rng.between(0, draft.params().t) as usize;
    refused_first(draft.with_bad_dealers(bad, rng), 1).with_noise(noise)
}

/// A small complete log that begins with a setup refused for its key.
fn base_log(rng: &mut Rng) -> Vec<u8> {
    let draft = small(rng);
    completed(noisy(draft, 15, rng), rng)
}
