//! The requests that give the records of document 01's worked log, CH aside,
//! and some that are refused.

use super::document::{up_to_challenges, up_to_dealings};
use super::request_set::RequestSet;
use crate::requests::{Call, Request};
use crate::rng::Rng;

/// The parameters of the worked log.
const PARAMS: (u8, u8, u8) = (4, 1, 1);

fn su(params: (u8, u8, u8)) -> Request {
    let call = Call::Su { params, s: 1, key_values: vec![2] };
    Request { call, buffer_length: 14 }
}

fn de(i: u8, values: [u32; 2]) -> Request {
    let call = Call::De { params: PARAMS, i, values: values.to_vec() };
    Request { call, buffer_length: 28 }
}

/// With the shares for 2 of dealers 2 and 3 as sent.
fn ve(second: u32, third: u32, j: u8) -> Request {
    let call = Call::Ve { log: up_to_dealings(second, third), j };
    Request { call, buffer_length: 8 }
}

/// F(j) is j+1; dealer 4 has dealt nothing, and its share is not read.
fn re(j: u8, shares: [u32; 3]) -> Request {
    let shares = shares.into_iter().chain([u32::MAX]).collect();
    let call = Call::Re { log: up_to_challenges(), j, key_share: u32::from(j) + 1, shares };
    Request { call, buffer_length: 12 }
}

pub fn document_requests(gathered: &mut RequestSet, _: &mut Rng) {
    gathered.add(su(PARAMS), 0);
    gathered.add(de(1, [0, 1]), 0);
    gathered.add(de(2, [1, 1]), 0);
    gathered.add(de(3, [2, 3]), 0);
    for j in 2..=4 {
        gathered.add(ve(1, 4, j), 0);
    }
    gathered.add(re(2, [2, 1, 4]), 0);
    gathered.add(re(3, [3, 1, 5]), 0);
    // cases D and L: wrong shares, which holder 2 blames
    gathered.add(ve(1, 5, 2), 0);
    gathered.add(ve(2, 5, 2), 0);
    // cases G and B: outside the bounds, and not in HOLD
    gathered.add(su((3, 1, 1)), 4);
    gathered.add(re(1, [1, 1, 3]), 14);
}
