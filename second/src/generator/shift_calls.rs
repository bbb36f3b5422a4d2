//! Requests to the writers of VE and RE on runs whose log has CS. The RE writer
//! gives the same record after CS as after CH with the same challenges.

use super::committee::{as_cs, random_scalar};
use super::document::{shifted_challenges, up_to_complaints};
use super::draft::Draft;
use super::edges::draft_at;
use super::request_set::{some_params, RequestSet};
use super::run_calls::{re_request, spoil_re, ve_request};
use crate::arith::Q;
use crate::params::Params;
use crate::refusal::Refusal;
use crate::requests::{Call, Request};
use crate::rng::Rng;
use crate::run::Stage;

pub fn shift_requests(gathered: &mut RequestSet, rng: &mut Rng) {
    document_requests(gathered);
    for params in some_params() {
        let draft = Draft::new(params, rng);
        re_pairs(gathered, draft, rng);
    }
    every_stage(gathered, some_params()[1], rng);
    refused_challenges(gathered, some_params()[2], rng);
    spoiled_responses(gathered, some_params()[1], rng);
}

/// The responses of document 01's worked log after CS, and one from outside HOLD.
fn document_requests(gathered: &mut RequestSet) {
    let log = [up_to_complaints(), shifted_challenges(5)].concat();
    for (j, shares, number) in [(2, [2, 1, 4, Q], 0), (3, [3, 1, 5, Q], 0), (1, [1, 1, 3, Q], 14)] {
        let key_share = u32::from(j) + 1;
        let call = Call::Re { log: log.clone(), j, key_share, shares: shares.to_vec() };
        gathered.add(Request { call, buffer_length: 12 }, number);
    }
}

/// A committee that signs with a shift and has CS among its refused records.
fn noisy_draft(params: Params, rng: &mut Rng) -> Draft {
    Draft::new(params, rng).with_noise(20).with_shift(random_scalar(rng))
}

/// A draft at stage 3 that is given these challenges.
fn challenged(draft: &Draft, challenges: &[u8]) -> Draft {
    let mut draft = draft.clone();
    draft.accept(challenges);
    draft
}

/// RE after CH, and after CS with the same challenges and several shifts.
pub fn re_pairs(gathered: &mut RequestSet, draft: Draft, rng: &mut Rng) {
    let draft = draft.with_bad_dealers(1, rng);
    let draft = draft_at(Stage::Challenging, draft, rng);
    let (ch, j) = (draft.committee.ch(rng), draft.holders[0]);
    let plain = re_request(&challenged(&draft, &ch), j);
    for shift in [0, 1, Q - 1, random_scalar(rng).number()] {
        let shifted = re_request(&challenged(&draft, &as_cs(&ch, shift)), j);
        assert_eq!(shifted.answer(), plain.answer());
        gathered.add(shifted, 0);
    }
    gathered.add(plain, 0);
}

/// Both writers at every stage of runs with CS.
fn every_stage(gathered: &mut RequestSet, params: Params, rng: &mut Rng) {
    for stage in Stage::ALL {
        let draft = noisy_draft(params, rng);
        let draft = draft_at(stage, draft, rng);
        let number = |taking: Stage| if stage == taking { 0 } else { 11 };
        gathered.add(ve_request(&draft, 1), number(Stage::Complaining));
        gathered.add(re_request(&draft, draft.holders[0]), number(Stage::Responding));
    }
}

/// RE after a CS that was refused, alone and before an accepted CH, and after a
/// CS that ended the reading.
fn refused_challenges(gathered: &mut RequestSet, params: Params, rng: &mut Rng) {
    let draft = Draft::new(params, rng).with_every_tag();
    let mut draft = draft_at(Stage::Challenging, draft, rng);
    let ch = draft.committee.ch(rng);
    draft.refuse(&as_cs(&ch, Q), Refusal::Scalar);
    gathered.add(re_request(&draft, draft.holders[0]), 11);
    let mut draft = challenged(&draft, &ch);
    gathered.add(re_request(&draft, draft.holders[0]), 0);
    draft.bytes = [as_cs(&ch, 1), draft.bytes].concat();
    gathered.add(re_request(&draft, draft.holders[0]), 11);
}

/// RE after CS, spoiled in every choice of ways.
fn spoiled_responses(gathered: &mut RequestSet, params: Params, rng: &mut Rng) {
    let draft = noisy_draft(params, rng);
    let draft = draft_at(Stage::Responding, draft, rng);
    let good = re_request(&draft, draft.holders[0]);
    let order = [11, 14, 6, 9];
    gathered.add_spoiled(&good, &order, |request, number| spoil_re(request, &draft, number, rng));
}
