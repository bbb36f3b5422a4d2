//! Requests to the writers of SU and DE, which are given values alone.

use super::committee::{as_bytes, as_numbers, random_params, Committee, Triple};
use super::request_set::{
    some_params, spoil_buffer, spoil_count, spoil_value, too_large, RequestSet,
};
use crate::arith::Q;
use crate::params::Params;
use crate::records::{dealing_length, setup_length};
use crate::requests::{Call, Request};
use crate::rng::Rng;

/// Parameters on the inner side of a bound of document 01.
const INSIDE: [Triple; 6] =
    [(4, 1, 1), (32, 1, 1), (32, 1, 15), (31, 10, 1), (9, 2, 2), (14, 3, 3)];

/// Parameters on the outer side of a bound of document 01, or far outside. Request
/// 2.2 lets 33,1,1 in.
const OUTSIDE: [Triple; 12] = [
    (3, 1, 1),
    (33, 1, 1),
    (32, 1, 16),
    (30, 10, 1),
    (8, 2, 2),
    (13, 3, 3),
    (32, 11, 1),
    (32, 0, 1),
    (32, 1, 0),
    (0, 1, 1),
    (0, 0, 0),
    (255, 255, 255),
];

/// Counts of values that no writer takes.
const OTHER_COUNTS: [usize; 5] = [0, 300, 1_024, 1_025, 2_000];

/// Lengths of buffers that no record has.
const OTHER_LENGTHS: [usize; 2] = [0, 65_535];

pub fn su_request(params: Triple, s: u32, key_values: Vec<u32>, buffer_length: usize) -> Request {
    let call = Call::Su { params, s, key_values };
    Request { call, buffer_length: buffer_length as u16 }
}

pub fn de_request(params: Triple, i: u8, values: Vec<u32>, buffer_length: usize) -> Request {
    let call = Call::De { params, i, values };
    Request { call, buffer_length: buffer_length as u16 }
}

pub fn good_su(params: Params, rng: &mut Rng) -> Request {
    let committee = Committee::random(params, rng);
    let key_values = as_numbers(&committee.key_values);
    let length = setup_length(params.t as u8);
    su_request(as_bytes(params), committee.secret.number(), key_values, length)
}

pub fn good_de(params: Params, rng: &mut Rng) -> Request {
    let i = rng.between(1, params.n);
    let values = as_numbers(&Committee::random(params, rng).dealings[0]);
    de_request(as_bytes(params), i as u8, values, dealing_length(&params))
}

pub fn su_requests(gathered: &mut RequestSet, rng: &mut Rng) {
    for params in some_params() {
        let good = good_su(params, rng);
        su_spoiled(gathered, &good, &OUTSIDE, rng);
        gathered.add(good, 0);
        let other = random_params(None, rng);
        gathered.add(good_su(other, rng), 0);
    }
    su_bounds(gathered, &INSIDE, &OUTSIDE);
    su_values(gathered);
}

/// Both sides of each bound.
pub fn su_bounds(gathered: &mut RequestSet, inside: &[Triple], outside: &[Triple]) {
    let inside = inside.iter().map(|&triple| (triple, 0));
    let outside = outside.iter().map(|&triple| (triple, 4));
    for (triple, number) in inside.chain(outside) {
        let t = triple.1;
        let request = su_request(triple, 5, vec![6; usize::from(t)], setup_length(t));
        gathered.add(request, number);
    }
}

/// Scalars, counts and buffers at their edges. Request 2.3 refuses s = 0.
fn su_values(gathered: &mut RequestSet) {
    for (s, number) in [(0, 0), (Q - 1, 0), (Q, 6), (u32::MAX, 6)] {
        gathered.add(su_request((4, 1, 1), s, vec![1], 14), number);
        gathered.add(su_request((4, 1, 1), 1, vec![s], 14), number);
    }
    for count in OTHER_COUNTS {
        gathered.add(su_request((4, 1, 1), 1, vec![2; count], 14), 10);
    }
    for length in OTHER_LENGTHS {
        gathered.add(su_request((4, 1, 1), 1, vec![2], length), 9);
    }
}

/// A good request to the SU writer spoiled in every choice of ways.
pub fn su_spoiled(gathered: &mut RequestSet, good: &Request, outside: &[Triple], rng: &mut Rng) {
    gathered.add_spoiled(good, &[4, 10, 6, 9], |request, number| {
        spoil_su(request, number, outside, rng);
    });
}

/// Makes an SU request one that must be refused so.
pub fn spoil_su(request: &mut Request, number: u8, outside: &[Triple], rng: &mut Rng) {
    let Call::Su { params, s, key_values } = &mut request.call else { panic!("not SU") };
    match number {
        4 => *params = rng.pick(outside),
        10 => spoil_count(key_values, rng),
        6 if rng.chance(50) => *s = too_large(rng),
        6 => spoil_value(key_values, rng),
        _ => spoil_buffer(request, rng),
    }
}

pub fn de_requests(gathered: &mut RequestSet, rng: &mut Rng) {
    for params in some_params() {
        gathered.add(good_de(params, rng), 0);
        let other = random_params(None, rng);
        gathered.add(good_de(other, rng), 0);
    }
    for params in &some_params()[1..3] {
        let good = good_de(*params, rng);
        de_spoiled(gathered, &good, &OUTSIDE, rng);
    }
    de_bounds(gathered, &INSIDE, &OUTSIDE, rng);
    de_values(gathered);
}

/// Both sides of each bound.
pub fn de_bounds(gathered: &mut RequestSet, inside: &[Triple], outside: &[Triple], rng: &mut Rng) {
    for &(n, t, a) in inside {
        let params = Params::new(n, t, a).expect("within the bounds");
        gathered.add(good_de(params, rng), 0);
    }
    for &triple in outside {
        gathered.add(de_request(triple, 1, vec![1; 4], 44), 4);
    }
}

/// Dealers, scalars, counts and buffers at their edges.
fn de_values(gathered: &mut RequestSet) {
    let params = (6, 1, 2);
    for (i, number) in [(1, 0), (6, 0), (0, 5), (7, 5), (255, 5)] {
        gathered.add(de_request(params, i, vec![Q - 1, 0, 1, 2], 44), number);
    }
    for (value, number) in [(Q - 1, 0), (Q, 6), (u32::MAX, 6)] {
        gathered.add(de_request(params, 3, vec![value, 0, 0, 0], 44), number);
        gathered.add(de_request(params, 3, vec![0, 0, 0, value], 44), number);
    }
    for count in OTHER_COUNTS {
        gathered.add(de_request(params, 3, vec![7; count], 44), 10);
    }
    for length in OTHER_LENGTHS {
        gathered.add(de_request(params, 3, vec![7; 4], length), 9);
    }
}

/// A good request to the DE writer spoiled in every choice of ways.
pub fn de_spoiled(gathered: &mut RequestSet, good: &Request, outside: &[Triple], rng: &mut Rng) {
    gathered.add_spoiled(good, &[4, 5, 10, 6, 9], |request, number| {
        spoil_de(request, number, outside, rng);
    });
}

/// Makes a DE request one that must be refused so.
fn spoil_de(request: &mut Request, number: u8, outside: &[Triple], rng: &mut Rng) {
    let Call::De { params, i, values } = &mut request.call else { panic!("not DE") };
    match number {
        4 => *params = rng.pick(outside),
        5 => *i = rng.pick(&[0, params.0 + 1, 255]),
        10 => spoil_count(values, rng),
        6 => spoil_value(values, rng),
        _ => spoil_buffer(request, rng),
    }
}
