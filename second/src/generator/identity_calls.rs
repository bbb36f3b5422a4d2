//! Requests about a key that is the identity (request 2.3): s = 0 to the SU writer
//! beside every other fault, and 0 where it may stand.

use super::committee::{as_bytes, random_scalar, Triple};
use super::edges::draft_at;
use super::identity::{draft_of, refused_first};
use super::request_set::{spoil_value, RequestSet};
use super::run_calls::{re_request, ve_request};
use super::shift_calls::re_pairs;
use super::value_calls::{de_request, spoil_su, su_request};
use super::wide::OUTSIDE;
use super::wide_masks::draft_hearing;
use crate::arith::{Scalar, Q};
use crate::params::Params;
use crate::records::{dealing_length, setup_length};
use crate::requests::{Call, Request};
use crate::rng::Rng;
use crate::run::{Run, Stage};

/// Committees of up to 32 parties and of more.
const COMMITTEES: [Triple; 5] = [(4, 1, 1), (11, 2, 3), (32, 10, 1), (33, 1, 15), (64, 21, 1)];

pub fn identity_requests(gathered: &mut RequestSet, rng: &mut Rng) {
    for (n, t, a) in COMMITTEES {
        let params = Params::new(n, t, a).expect("within the bounds");
        setups(gathered, params, rng);
        dealings(gathered, params, rng);
    }
    zero_secrets(gathered);
    every_stage(gathered, (7, 1, 2), rng);
    zero_key_share(gathered, (7, 1, 2), rng);
    // with seed 1, lots had drawn s = 0 for such a committee
    let draft = draft_of((4, 1, 1), rng);
    re_pairs(gathered, draft, rng);
}

/// Adds a request whose record the run takes.
fn add_taken(gathered: &mut RequestSet, request: Request, run: &Run) {
    assert_eq!(run.clone().give(&request.answer().1), Ok(()), "{request:?}");
    gathered.add(request, 0);
}

/// An SU request with every choice of faults, s = 0 among them, and good ones with
/// s next to 0 and with F(j) = 0.
fn setups(gathered: &mut RequestSet, params: Params, rng: &mut Rng) {
    let (triple, length) = (as_bytes(params), setup_length(params.t as u8));
    let t = params.t as usize;
    let key_values: Vec<u32> = (0..t).map(|_| random_scalar(rng).number()).collect();
    let good = su_request(triple, rng.between(1, Q - 1), key_values.clone(), length);
    gathered.add_spoiled(&good, &[4, 10, 6, 16, 9], |request, number| {
        spoil_with_key(request, number, rng);
    });
    let fresh = Run::fresh();
    for s in [1, Q - 1] {
        add_taken(gathered, su_request(triple, s, key_values.clone(), length), &fresh);
        add_taken(gathered, su_request(triple, s, vec![0; t], length), &fresh);
    }
    add_taken(gathered, good, &fresh);
}

/// Makes an SU request one that must be refused so. A scalar of q or more leaves
/// s = 0 in its place.
fn spoil_with_key(request: &mut Request, number: u8, rng: &mut Rng) {
    let Call::Su { s, key_values, .. } = &mut request.call else { panic!("not SU") };
    match number {
        16 => *s = 0,
        6 if *s == 0 => spoil_value(key_values, rng),
        _ => spoil_su(request, number, &OUTSIDE, rng),
    }
}

/// s = 0 beside each other fault at its edges.
fn zero_secrets(gathered: &mut RequestSet) {
    let length = setup_length(2);
    let add = |gathered: &mut RequestSet, key_values: Vec<u32>, length: usize, number: u8| {
        gathered.add(su_request((11, 2, 3), 0, key_values, length), number);
    };
    for key_values in [[0, 0], [0, 1], [1, 0], [Q - 1, Q - 1]] {
        add(gathered, key_values.to_vec(), length, 16);
    }
    for other in [0, length - 1, length + 1, 65_535] {
        add(gathered, vec![1, 2], other, 16);
    }
    for key_values in [[Q, 0], [0, Q], [u32::MAX, Q], [1, u32::MAX]] {
        add(gathered, key_values.to_vec(), length, 6);
        add(gathered, key_values.to_vec(), length - 1, 6);
    }
    for count in [0, 1, 3, 300] {
        add(gathered, vec![0; count], length, 10);
        add(gathered, vec![Q; count], length, 10);
    }
    for triple in OUTSIDE {
        let t = triple.1;
        gathered.add(su_request(triple, 0, vec![0; usize::from(t)], setup_length(t)), 4);
    }
    gathered.add(su_request((11, 2, 3), Q, vec![0, 0], length), 6);
}

/// DE requests with 0 at the first place, at the last, and everywhere.
fn dealings(gathered: &mut RequestSet, params: Params, rng: &mut Rng) {
    let draft = draft_of(as_bytes(params), rng);
    let run = draft_at(Stage::Dealing, draft, rng).run;
    let last = params.quorum() - 1;
    for zeros in [0..=0, last..=last, 0..=last] {
        let mut values: Vec<u32> = (0..=last).map(|_| random_scalar(rng).number()).collect();
        values[zeros].fill(0);
        let i = rng.between(1, params.n) as u8;
        let request = de_request(as_bytes(params), i, values, dealing_length(&params));
        add_taken(gathered, request, &run);
    }
}

/// VE and RE at every stage of runs whose log begins with a setup refused for its
/// key; at stage 0 there is no other.
fn every_stage(gathered: &mut RequestSet, params: Triple, rng: &mut Rng) {
    for stage in Stage::ALL {
        let draft = refused_first(draft_of(params, rng), 1);
        let draft = draft_at(stage, draft, rng);
        let number = |taking: Stage| if stage == taking { 0 } else { 11 };
        gathered.add(ve_request(&draft, 1), number(Stage::Complaining));
        gathered.add(re_request(&draft, draft.holders[0]), number(Stage::Responding));
    }
}

/// RE of a holder with F(j) = 0 and S_j = 1, whose shares may be 0 too.
fn zero_key_share(gathered: &mut RequestSet, params: Triple, rng: &mut Rng) {
    let mut draft = draft_hearing(params, &[1], rng).with_identity_keys(rng);
    draft.committee.key_values.fill(Scalar::ZERO);
    let mut zeros = draft.clone();
    for values in &mut zeros.committee.dealings {
        values.fill(Scalar::ZERO);
    }
    for draft in [draft, zeros] {
        let draft = draft_at(Stage::Responding, draft, rng);
        assert_eq!(draft.committee.key_share(1), Scalar::ZERO);
        add_taken(gathered, re_request(&draft, 1), &draft.run);
    }
}
