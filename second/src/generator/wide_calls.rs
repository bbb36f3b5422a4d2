//! Requests to the writers for committees of 33 to 64 parties, and of 32 beside
//! them (request 2.2).

use super::committee::Triple;
use super::draft::Draft;
use super::edges::draft_at;
use super::request_set::RequestSet;
use super::run_calls::{re_request, re_senders, re_values, spoil_re, spoil_ve, ve_request};
use super::value_calls::{
    de_bounds, de_request, de_spoiled, good_de, good_su, su_bounds, su_spoiled,
};
use super::wide::{draft_of, INSIDE, LIGHT, OUTSIDE};
use super::wide_masks::{draft_hearing, marked};
use crate::params::{Params, Party};
use crate::records::dealing_length;
use crate::rng::Rng;
use crate::run::Stage;

/// Lengths of buffers for VE, right and wrong.
const VE_LENGTHS: [u16; 8] = [0, 4, 7, 8, 9, 11, 12, 13];

pub fn wide_requests(gathered: &mut RequestSet, rng: &mut Rng) {
    setups(gathered, rng);
    dealings(gathered, rng);
    for params in LIGHT {
        complaints(gathered, params, rng);
    }
    every_stage(gathered, (33, 1, 1), rng);
    responses(gathered, rng);
}

fn params_of((n, t, a): Triple) -> Params {
    Params::new(n, t, a).expect("within the bounds")
}

fn setups(gathered: &mut RequestSet, rng: &mut Rng) {
    su_bounds(gathered, &INSIDE, &OUTSIDE);
    for triple in [(33, 1, 15), (64, 21, 1)] {
        let good = good_su(params_of(triple), rng);
        su_spoiled(gathered, &good, &OUTSIDE, rng);
        gathered.add(good, 0);
    }
}

/// Both sides of each bound, and dealers on both sides of n.
fn dealings(gathered: &mut RequestSet, rng: &mut Rng) {
    de_bounds(gathered, &INSIDE, &OUTSIDE, rng);
    let good = good_de(params_of((64, 15, 10)), rng);
    de_spoiled(gathered, &good, &OUTSIDE, rng);
    for (n, t, a) in LIGHT {
        let length = dealing_length(&params_of((n, t, a)));
        for i in [0, 1, 32, 33, 34, 63, 64, 65, 255] {
            let number = if (1..=n).contains(&i) { 0 } else { 5 };
            gathered.add(de_request((n, t, a), i, vec![7, 8], length), number);
        }
    }
}

/// A draft at stage 2, whose marked dealers have all wronged the last party.
fn wronged_draft(params: Triple, rng: &mut Rng) -> Draft {
    let parties = marked(params.0);
    let mut draft = draft_hearing(params, &parties, rng);
    draft.wrong = parties.iter().map(|&dealer| (dealer, Party::from(params.0))).collect();
    draft_at(Stage::Complaining, draft, rng)
}

/// VE that blames many dealers or none, into buffers of every length.
fn complaints(gathered: &mut RequestSet, params: Triple, rng: &mut Rng) {
    let draft = wronged_draft(params, rng);
    let good = ve_request(&draft, draft.params().n);
    for length in VE_LENGTHS {
        let mut request = good.clone();
        request.buffer_length = length;
        gathered.add(request, if length == good.buffer_length { 0 } else { 9 });
    }
    gathered.add(ve_request(&draft, 1), 0);
    gathered.add_spoiled(&good, &[11, 5, 9], |request, number| {
        spoil_ve(request, draft.params(), number, rng);
    });
}

/// Both writers at every stage.
fn every_stage(gathered: &mut RequestSet, params: Triple, rng: &mut Rng) {
    for stage in Stage::ALL {
        let draft = draft_of(params, rng).with_noise(10);
        let draft = draft_at(stage, draft, rng);
        let number = |taking: Stage| if stage == taking { 0 } else { 11 };
        gathered.add(ve_request(&draft, 33), number(Stage::Complaining));
        gathered.add(re_request(&draft, draft.holders[0]), number(Stage::Responding));
    }
}

/// RE of holders on both sides of 32, with bad dealers above it.
fn responses(gathered: &mut RequestSet, rng: &mut Rng) {
    re_senders(gathered, params_of((33, 1, 1)), rng);
    re_values(gathered, params_of((33, 1, 1)), rng);
    for (n, t, a) in [(33, 1, 15), (63, 1, 1), (64, 15, 10), (64, 1, 31)] {
        let mut draft = draft_hearing((n, t, a), &marked(n), rng);
        draft.wrong = [(33, Party::from(n))].into();
        let draft = draft_at(Stage::Responding, draft, rng);
        gathered.add(re_request(&draft, 1), 0);
        gathered.add(re_request(&draft, Party::from(n)), 0);
    }
    let draft = draft_at(Stage::Responding, draft_of((64, 20, 2), rng), rng);
    let good = re_request(&draft, draft.holders[0]);
    gathered.add_spoiled(&good, &[11, 5, 14, 10, 6, 9], |request, number| {
        spoil_re(request, &draft, number, rng);
    });
}
