//! Bundles of right rows (request 2.7): none, one, as many as are needed, more, everyone's,
//! and the needed ones in several bundles; of committees of every size, begun by SU and by
//! SX, with and without a shift and bad dealers.

use super::bundle_draft::{at_rows, BundleDraft, STAGE, TAKEN};
use super::committee::Triple;
use super::draft::Draft;
use super::waits::{draft_of_all, never_waiting, waiting_draft};
use crate::arith::{Scalar, Q};
use crate::refusal::Refusal;
use crate::rng::Rng;

/// How a run comes to its rows.
pub type Start = fn(Triple, &mut Rng) -> Draft;

/// Committees at the bounds and inside them, with how they start.
const SIZES: [(Triple, Start); 12] = [
    ((4, 1, 1), never_waiting),
    ((4, 1, 1), shifted),
    ((6, 1, 2), no_extra),
    ((7, 2, 1), waited_with_bad),
    ((11, 2, 3), shifted_with_bad),
    ((16, 3, 3), one_extra),
    ((20, 3, 6), waited_shifted),
    ((32, 1, 1), shifted),
    ((32, 1, 15), never_waiting),
    ((33, 10, 2), shifted_with_bad),
    ((64, 1, 1), waited_shifted),
    ((64, 21, 1), with_bad),
];

/// Committees with much work in their logs.
const LARGE: [(Triple, Start); 2] = [((64, 15, 10), waited_with_bad), ((64, 1, 31), shifted)];

/// What is made of a committee at its challenges.
type Kind = fn(BundleDraft, &mut Rng) -> BundleDraft;

/// A shift by lot that is not 0.
pub fn shift_by_lot(mut draft: Draft, rng: &mut Rng) -> Draft {
    draft.shift = Some(Scalar::of(i64::from(rng.between(1, Q - 1))));
    draft
}

pub fn shifted(params: Triple, rng: &mut Rng) -> Draft {
    let draft = never_waiting(params, rng);
    shift_by_lot(draft, rng)
}

/// As many bad dealers as there may be.
pub fn with_bad(params: Triple, rng: &mut Rng) -> Draft {
    never_waiting(params, rng).with_bad_dealers(params.1.into(), rng)
}

fn shifted_with_bad(params: Triple, rng: &mut Rng) -> Draft {
    let draft = with_bad(params, rng);
    shift_by_lot(draft, rng)
}

/// Everyone deals, as many as there may be of them wrongly.
pub fn waited_with_bad(params: Triple, rng: &mut Rng) -> Draft {
    draft_of_all(params, rng).with_bad_dealers(params.1.into(), rng)
}

fn waited_shifted(params: Triple, rng: &mut Rng) -> Draft {
    let draft = draft_of_all(params, rng);
    shift_by_lot(draft, rng)
}

/// Begun by SX, with GO after n-t dealings.
fn no_extra(params: Triple, rng: &mut Rng) -> Draft {
    waiting_draft(params, 0, rng)
}

fn one_extra(params: Triple, rng: &mut Rng) -> Draft {
    waiting_draft(params, 1, rng)
}

pub fn count_inputs(inputs: &mut Vec<Vec<u8>>, rng: &mut Rng) {
    let kinds: [Kind; 6] = [few, exact, more, everyone, in_two, one_by_one];
    for (params, start) in SIZES {
        let challenged = at_rows(start(params, rng), rng);
        inputs.extend(kinds.map(|kind| kind(challenged.clone(), rng).input()));
    }
    let kinds: [Kind; 2] = [more, in_two];
    for (params, start) in LARGE {
        let challenged = at_rows(start(params, rng), rng);
        inputs.extend(kinds.map(|kind| kind(challenged.clone(), rng).input()));
    }
}

/// No row, then one.
fn few(mut bundles: BundleDraft, _: &mut Rng) -> BundleDraft {
    bundles.take(&[]);
    let needed = bundles.needed();
    bundles.take(&needed[..1]);
    bundles
}

/// The needed rows.
fn exact(mut bundles: BundleDraft, _: &mut Rng) -> BundleDraft {
    bundles.take(&bundles.needed());
    bundles
}

/// The needed rows and three more.
fn more(mut bundles: BundleDraft, _: &mut Rng) -> BundleDraft {
    let rows = [bundles.needed(), bundles.three_late()].concat();
    bundles.take(&rows);
    bundles
}

/// The rows of all members of HOLD, in an order drawn by lot.
fn everyone(mut bundles: BundleDraft, rng: &mut Rng) -> BundleDraft {
    let hold = &bundles.draft.holders;
    let shuffled = rng.some_of(hold, hold.len());
    let (first, rest) = shuffled.split_at(bundles.draft.params().quorum());
    let rows = [bundles.rows(first, TAKEN), bundles.rows(rest, STAGE)].concat();
    bundles.take(&rows);
    bundles
}

/// The needed rows in two bundles, with one of no rows between.
fn in_two(mut bundles: BundleDraft, rng: &mut Rng) -> BundleDraft {
    let rows = bundles.needed();
    let first = rng.between(1, rows.len() as u32 - 1) as usize;
    bundles.take(&rows[..first]);
    bundles.take(&[]);
    bundles.take(&rows[first..]);
    bundles
}

/// The needed rows, a bundle each, and one row more, with a right list and with another;
/// and no row.
fn one_by_one(mut bundles: BundleDraft, _: &mut Rng) -> BundleDraft {
    for row in bundles.needed() {
        bundles.take(&[row]);
    }
    let (late, _) = bundles.three_late().swap_remove(0);
    bundles.refuse(&late, 1, Refusal::Stage);
    bundles.refuse(&late, 2, Refusal::Stage);
    bundles.refuse(b"", 0, Refusal::Stage);
    bundles
}
