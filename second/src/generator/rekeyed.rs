//! With seed 1, lots had drawn s = 0 for some committees before request 2.3
//! refused it, and reading their logs ends with the setup now. Here stand logs of
//! the same kinds and sizes with another key.

use super::committee::{random_scalar, Triple};
use super::course::{add_every_alien, completed};
use super::edges::draft_at;
use super::identity::draft_of;
use super::log_set::LogSet;
use super::shift_edges::other_lengths;
use super::wide_masks::every_bit;
use crate::arith::Scalar;
use crate::rng::Rng;
use crate::run::Stage;

pub fn rekeyed_logs(gathered: &mut LogSet, rng: &mut Rng) {
    complete_logs(gathered, rng);
    other_quorum_logs(gathered, rng);
    for params in [(27, 2, 9), (32, 1, 1)] {
        gathered.add("identity-rekeyed-after-end", after_end(params, rng));
    }
    let draft = draft_of((7, 2, 1), rng).with_shift(random_scalar(rng));
    let draft = draft_at(Stage::Dealing, draft, rng);
    for log in other_lengths(&draft, rng) {
        gathered.add("identity-rekeyed-length", log);
    }
    let draft = draft_of((33, 1, 1), rng);
    gathered.add("identity-rekeyed-every-bit", every_bit(draft, rng));
}

/// Committees that sign: without and with bad dealers and noise, with wrong shares
/// that nobody blames, and with a shift.
fn complete_logs(gathered: &mut LogSet, rng: &mut Rng) {
    for params in [(29, 4, 9), (32, 9, 3)] {
        let draft = draft_of(params, rng);
        gathered.add("identity-rekeyed-complete", completed(draft, rng));
    }
    for (params, bad, noise) in
        [((32, 2, 13), 2, 15), ((26, 2, 7), 0, 30), ((44, 12, 3), 6, 8), ((63, 1, 1), 1, 55)]
    {
        let draft = draft_of(params, rng).with_bad_dealers(bad, rng).with_noise(noise);
        gathered.add("identity-rekeyed-noisy", completed(draft, rng));
    }
    let draft = draft_of((10, 1, 4), rng);
    let everyone = draft.params().majority();
    let draft = draft.with_bad_dealers(everyone, rng).with_silence();
    gathered.add("identity-rekeyed-unblamed", completed(draft, rng));
    let draft = draft_of((6, 1, 2), rng).with_shift(Scalar::of(-1));
    gathered.add("identity-rekeyed-shift", completed(draft, rng));
}

/// The same log to CH, then responses from different members of HOLD.
fn other_quorum_logs(gathered: &mut LogSet, rng: &mut Rng) {
    let draft = draft_of((20, 3, 2), rng).with_bad_dealers(1, rng);
    let mut draft = draft_at(Stage::Responding, draft, rng);
    gathered.add_many("identity-rekeyed-other-quorum", 4, |_| {
        draft.responders = rng.some_of(&draft.holders, draft.params().quorum());
        completed(draft.clone(), rng)
    });
}

/// Records after stage 6.
fn after_end(params: Triple, rng: &mut Rng) -> Vec<u8> {
    let draft = draft_of(params, rng);
    let mut draft = draft_at(Stage::Failed, draft, rng);
    add_every_alien(&mut draft, rng);
    draft.bytes
}
