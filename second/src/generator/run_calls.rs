//! Requests to the writers of VE and RE, which are given a run.

use super::draft::Draft;
use super::request_set::{some_params, spoil_buffer, spoil_count, too_large, RequestSet};
use crate::arith::Q;
use crate::params::{Params, Party};
use crate::records::Tag;
use crate::requests::{Call, Request};
use crate::rng::Rng;
use crate::run::{Sets, Stage};

/// A draft at a stage, with as many bad dealers as may be; for stage 6 one more.
fn draft_at(stage: Stage, params: Params, rng: &mut Rng) -> Draft {
    let most = params.t as usize;
    let bad = if stage == Stage::Failed { most + 1 } else { most };
    let mut draft = Draft::new(params, rng).with_bad_dealers(bad, rng).with_noise(5);
    draft.go_to(stage, rng);
    assert_eq!(draft.run.stage, stage);
    draft
}

/// A draft at another stage than this one.
fn draft_elsewhere(stage: Stage, params: Params, rng: &mut Rng) -> Draft {
    let others: Vec<Stage> = Stage::ALL.into_iter().filter(|&other| other != stage).collect();
    let other = rng.pick(&others);
    draft_at(other, params, rng)
}

/// A party number that the committee does not have.
fn no_party(params: Params, rng: &mut Rng) -> u8 {
    rng.pick(&[0, params.n as u8 + 1, 255])
}

fn sets(draft: &Draft) -> &Sets {
    draft.run.sets.as_ref().expect("the sets are fixed")
}

pub fn ve_request(draft: &Draft, j: Party) -> Request {
    let call = Call::Ve { log: draft.bytes.clone(), j: j as u8 };
    Request { call, buffer_length: draft.length(Tag::Ve) as u16 }
}

pub fn re_request(draft: &Draft, j: Party) -> Request {
    let call = Call::Re {
        log: draft.bytes.clone(),
        j: j as u8,
        key_share: draft.committee.key_share(j).number(),
        shares: draft.committee.shares_for(j),
    };
    Request { call, buffer_length: draft.length(Tag::Re) as u16 }
}

pub fn ve_requests(gathered: &mut RequestSet, rng: &mut Rng) {
    for params in some_params() {
        let draft = draft_at(Stage::Complaining, params, rng);
        for &(_, wronged) in draft.wrong.iter().take(3) {
            gathered.add(ve_request(&draft, wronged), 0);
        }
        gathered.add(ve_request(&draft, 1), 0);
        gathered.add(ve_request(&draft, params.n), 0);
        let good = ve_request(&draft, 2);
        let order = [11, 5, 9];
        gathered
            .add_spoiled(&good, &order, |request, number| spoil_ve(request, params, number, rng));
    }
    ve_stages(gathered, rng);
    ve_again(gathered, rng);
}

/// Runs at every stage, and runs of logs that are no logs.
fn ve_stages(gathered: &mut RequestSet, rng: &mut Rng) {
    for stage in Stage::ALL {
        let draft = draft_at(stage, some_params()[1], rng);
        let number = if stage == Stage::Complaining { 0 } else { 11 };
        gathered.add(ve_request(&draft, 1), number);
    }
    for log in [&b""[..], b"S", b"senseless"] {
        let call = Call::Ve { log: log.to_vec(), j: 1 };
        gathered.add(Request { call, buffer_length: 8 }, 11);
    }
}

/// Every party in turn, after two have complained.
fn ve_again(gathered: &mut RequestSet, rng: &mut Rng) {
    let mut draft = draft_at(Stage::Complaining, some_params()[1], rng);
    draft.go_on(2, rng);
    for j in 1..=draft.params().n {
        gathered.add(ve_request(&draft, j), 0);
    }
}

/// Makes a VE request one that must be refused so.
pub fn spoil_ve(request: &mut Request, params: Params, number: u8, rng: &mut Rng) {
    let Call::Ve { log, j } = &mut request.call else { panic!("not VE") };
    match number {
        11 => *log = draft_elsewhere(Stage::Complaining, params, rng).bytes,
        5 => *j = no_party(params, rng),
        _ => spoil_buffer(request, rng),
    }
}

pub fn re_requests(gathered: &mut RequestSet, rng: &mut Rng) {
    for params in some_params() {
        let draft = draft_at(Stage::Responding, params, rng);
        gathered.add(re_request(&draft, draft.holders[0]), 0);
        gathered.add(re_request(&draft, draft.holders[1]), 0);
    }
    for params in &some_params()[..2] {
        let draft = draft_at(Stage::Responding, *params, rng);
        let good = re_request(&draft, draft.holders[0]);
        let order = [11, 5, 14, 10, 6, 9];
        gathered
            .add_spoiled(&good, &order, |request, number| spoil_re(request, &draft, number, rng));
    }
    for stage in Stage::ALL {
        let draft = draft_at(stage, some_params()[1], rng);
        let number = if stage == Stage::Responding { 0 } else { 11 };
        gathered.add(re_request(&draft, draft.holders[0]), number);
    }
    for params in &some_params()[1..3] {
        re_senders(gathered, *params, rng);
        re_values(gathered, *params, rng);
    }
}

/// Every party in turn, after one response has been taken.
pub fn re_senders(gathered: &mut RequestSet, params: Params, rng: &mut Rng) {
    let mut draft = draft_at(Stage::Responding, params, rng);
    draft.go_on(1, rng);
    for j in 1..=params.n {
        let number = if draft.holders.contains(&j) { 0 } else { 14 };
        gathered.add(re_request(&draft, j), number);
    }
}

/// Each share in turn out of range, then at the edge: only QUAL's are tested.
pub fn re_values(gathered: &mut RequestSet, params: Params, rng: &mut Rng) {
    let draft = draft_at(Stage::Responding, params, rng);
    for dealer in 1..=params.n {
        let number = if sets(&draft).qual.contains(&dealer) { 6 } else { 0 };
        gathered.add(with_share(&draft, dealer, too_large(rng)), number);
        gathered.add(with_share(&draft, dealer, Q - 1), 0);
    }
    for (value, number) in [(Q - 1, 0), (0, 0), (Q, 6), (u32::MAX, 6)] {
        let mut request = re_request(&draft, draft.holders[1]);
        let Call::Re { key_share, .. } = &mut request.call else { panic!("not RE") };
        *key_share = value;
        gathered.add(request, number);
    }
}

/// A good RE request but for one share.
pub fn with_share(draft: &Draft, dealer: Party, value: u32) -> Request {
    let mut request = re_request(draft, draft.holders[0]);
    let Call::Re { shares, .. } = &mut request.call else { panic!("not RE") };
    shares[(dealer - 1) as usize] = value;
    request
}

/// Makes an RE request one that must be refused so.
pub fn spoil_re(request: &mut Request, draft: &Draft, number: u8, rng: &mut Rng) {
    let Call::Re { log, j, key_share, shares } = &mut request.call else { panic!("not RE") };
    let params = draft.params();
    let hold = &sets(draft).hold;
    let outsiders: Vec<Party> = (1..=params.n).filter(|party| !hold.contains(party)).collect();
    let qual: Vec<Party> = sets(draft).qual.iter().copied().collect();
    match number {
        11 => *log = draft_elsewhere(Stage::Responding, params, rng).bytes,
        5 => *j = no_party(params, rng),
        14 => *j = rng.pick(&outsiders) as u8,
        10 => spoil_count(shares, rng),
        6 if rng.chance(50) => *key_share = too_large(rng),
        6 => shares[(rng.pick(&qual) - 1) as usize] = too_large(rng),
        _ => spoil_buffer(request, rng),
    }
}
