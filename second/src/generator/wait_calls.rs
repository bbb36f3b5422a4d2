//! Requests to the writers of VE and RE on runs begun by SX (request 2.5). The RE
//! writer's record has b = m-t numbers, and reads the shares of the extra dealers.

use super::committee::Triple;
use super::document::{four_challenged, waiting_for_four};
use super::draft::Draft;
use super::edges::draft_at;
use super::request_set::{too_large, RequestSet};
use super::run_calls::{re_request, spoil_re, spoil_ve, ve_request, with_share};
use super::wait_edges::with_dealings;
use super::waits::{as_waiting, draft_of_all, extra_dealers, extras, waiting_draft};
use crate::arith::Q;
use crate::params::Party;
use crate::requests::{Call, Request};
use crate::rng::Rng;
use crate::run::Stage;

pub fn wait_requests(gathered: &mut RequestSet, rng: &mut Rng) {
    document_requests(gathered);
    every_stage(gathered, (7, 2, 1), rng);
    before_go(gathered, (7, 2, 1), rng);
    for params in [(4, 1, 1), (9, 2, 2), (14, 3, 3), (32, 10, 1), (33, 1, 1), (33, 10, 2)] {
        for extra in extras(params) {
            both_lengths(gathered, waiting_draft(params, extra, rng), rng);
        }
    }
    for params in [(64, 15, 10), (64, 1, 31)] {
        both_lengths(gathered, draft_of_all(params, rng), rng);
    }
    extra_shares(gathered, (9, 2, 2), rng);
    spoiled(gathered, (9, 2, 2), rng);
    pairs(gathered, (11, 2, 3), rng);
}

fn re(log: Vec<u8>, j: u8, shares: [u32; 4], buffer_length: u16) -> Request {
    let call = Call::Re { log, j, key_share: u32::from(j) + 1, shares: shares.to_vec() };
    Request { call, buffer_length }
}

/// Document 01's worked log with a fourth dealing, before GO and after it.
fn document_requests(gathered: &mut RequestSet) {
    let (waiting, challenged) = (waiting_for_four(), four_challenged());
    let gone = [&waiting[..], b"GO"].concat();
    for (log, number) in [(waiting.clone(), 11), (gone, 0), (challenged.clone(), 11)] {
        gathered.add(Request { call: Call::Ve { log, j: 2 }, buffer_length: 8 }, number);
    }
    gathered.add(re(waiting, 2, [2, 1, 4, 5], 16), 11);
    for (j, shares) in [(2, [2, 1, 4, 5]), (3, [3, 1, 5, 7])] {
        for (length, number) in [(16, 0), (12, 9), (20, 9), (0, 9)] {
            gathered.add(re(challenged.clone(), j, shares, length), number);
        }
    }
    gathered.add(re(challenged.clone(), 1, [1, 1, 3, 3], 16), 14);
    gathered.add(re(challenged, 2, [2, 1, 4, Q], 16), 6);
}

/// Both writers at every stage of runs begun by SX.
fn every_stage(gathered: &mut RequestSet, params: Triple, rng: &mut Rng) {
    for stage in Stage::ALL {
        let draft = draft_of_all(params, rng).with_noise(15);
        let draft = draft_at(stage, draft, rng);
        let number = |taking: Stage| if stage == taking { 0 } else { 11 };
        gathered.add(ve_request(&draft, 1), number(Stage::Complaining));
        gathered.add(re_request(&draft, draft.holders[0]), number(Stage::Responding));
    }
}

/// VE with n-t-1 dealings, n-t and n of them, before GO, which refuses it or not, and
/// after.
fn before_go(gathered: &mut RequestSet, (n, t, a): Triple, rng: &mut Rng) {
    let majority = usize::from(n - t);
    for count in [majority - 1, majority, usize::from(n)] {
        let draft = draft_of_all((n, t, a), rng).with_bad_dealers(1, rng);
        let mut draft = with_dealings(draft, count, rng);
        gathered.add(ve_request(&draft, 1), 11);
        draft.bytes.extend(b"GO");
        gathered.add(ve_request(&draft, 1), if count < majority { 11 } else { 0 });
    }
}

/// RE in a buffer of its length, and in one of the length that b = n-2t would give.
fn both_lengths(gathered: &mut RequestSet, draft: Draft, rng: &mut Rng) {
    let draft = draft_at(Stage::Responding, draft.with_bad_dealers(1, rng), rng);
    let (good, extra) = (re_request(&draft, draft.holders[0]), extra_dealers(&draft).len());
    if extra > 0 {
        let buffer_length = good.buffer_length - 4 * extra as u16;
        gathered.add(Request { buffer_length, ..good.clone() }, 9);
    }
    assert_eq!(draft.run.clone().give(&good.answer().1), Ok(()));
    gathered.add(good, 0);
}

/// Each share in turn out of range, then at the edge, where one extra dealer is in QUAL
/// and another is not.
fn extra_shares(gathered: &mut RequestSet, params: Triple, rng: &mut Rng) {
    let draft = draft_of_all(params, rng);
    let bad = extra_dealers(&draft)[0];
    let draft = draft_at(Stage::Responding, draft.with_bad(&[bad], rng), rng);
    for dealer in 1..=Party::from(params.0) {
        let number = if dealer == bad { 0 } else { 6 };
        gathered.add(with_share(&draft, dealer, too_large(rng)), number);
        gathered.add(with_share(&draft, dealer, Q - 1), 0);
    }
    // with fewer dealers, those that have not dealt may have any share
    let draft = draft_at(Stage::Responding, waiting_draft(params, 1, rng), rng);
    for dealer in 1..=Party::from(params.0) {
        let number = if draft.dealers.contains(&dealer) { 6 } else { 0 };
        gathered.add(with_share(&draft, dealer, too_large(rng)), number);
    }
}

/// Good requests spoiled in every choice of ways.
fn spoiled(gathered: &mut RequestSet, params: Triple, rng: &mut Rng) {
    let draft = draft_at(Stage::Complaining, draft_of_all(params, rng), rng);
    let good = ve_request(&draft, draft.holders[0]);
    gathered.add_spoiled(&good, &[11, 5, 9], |request, number| {
        spoil_ve(request, draft.params(), number, rng);
    });
    let draft = draft_at(Stage::Responding, draft_of_all(params, rng), rng);
    let good = re_request(&draft, draft.holders[0]);
    gathered.add_spoiled(&good, &[11, 14, 10, 6, 9], |request, number| {
        spoil_re(request, &draft, number, rng);
    });
}

/// The same records by SU and by SX: both writers give the same.
fn pairs(gathered: &mut RequestSet, params: Triple, rng: &mut Rng) {
    let mut draft = waiting_draft(params, 0, rng).with_bad_dealers(2, rng);
    draft.waits = false;
    let draft = draft_at(Stage::Responding, draft, rng);
    let plain = re_request(&draft, draft.holders[0]);
    let mut other = draft.clone();
    other.bytes = as_waiting(&draft.bytes);
    let waiting = re_request(&other, draft.holders[0]);
    assert_eq!(waiting.answer(), plain.answer());
    gathered.add(plain, 0);
    gathered.add(waiting, 0);
}
