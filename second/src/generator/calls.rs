//! The streams of requests to the writers: good ones, refused ones, broken ones.

use super::broken_calls::{broken_streams, mixed_stream};
use super::document_calls::document_requests;
use super::identity_calls::identity_requests;
use super::request_set::RequestSet;
use super::run_calls::{re_requests, ve_requests};
use super::shift_calls::shift_requests;
use super::value_calls::{de_requests, su_requests};
use super::wait_calls::wait_requests;
use super::wide_calls::wide_requests;
use crate::requests::{framed, Request, LONGEST_STREAM};
use crate::rng::Rng;

/// How many requests stand in one stream at most.
const STREAM_LENGTH: usize = 10;

/// The streams that a seed gives, as bytes. The first is the same for every seed.
/// New ones stand last, so that the others keep their places and bytes.
pub fn all_streams(seed: u64) -> Vec<Vec<u8>> {
    let mut streams = vec![mixed_stream()];
    streams.extend(in_streams(&first_requests(seed)));
    streams.extend(broken_streams());
    streams.extend(in_streams(&requests_with_shifts(seed)));
    streams.extend(in_streams(&requests_above_32(seed)));
    streams.extend(in_streams(&requests_with_identities(seed)));
    streams.extend(in_streams(&requests_that_wait(seed)));
    streams
}

/// Streams of whole requests.
pub fn in_streams(requests: &[Request]) -> Vec<Vec<u8>> {
    requests.chunks(STREAM_LENGTH).flat_map(not_too_long).collect()
}

/// The requests in one stream, or in more where one would be too long.
fn not_too_long(requests: &[Request]) -> Vec<Vec<u8>> {
    let mut streams = Vec::new();
    let mut stream = Vec::new();
    for request in requests {
        let bytes = framed(&request.encode());
        if stream.len() + bytes.len() > LONGEST_STREAM {
            streams.push(std::mem::take(&mut stream));
        }
        stream.extend(bytes);
    }
    streams.push(stream);
    streams
}

/// Every whole request that a seed gives.
pub fn all_requests(seed: u64) -> Vec<Request> {
    let groups = [
        first_requests,
        requests_with_shifts,
        requests_above_32,
        requests_with_identities,
        requests_that_wait,
    ];
    groups.into_iter().flat_map(|group| group(seed)).collect()
}

/// Those of document 01.
fn first_requests(seed: u64) -> Vec<Request> {
    let mut rng = Rng::new(seed);
    let mut gathered = RequestSet::default();
    for group in [document_requests, su_requests, de_requests, ve_requests, re_requests] {
        group(&mut gathered, &mut rng);
    }
    gathered.requests
}

/// Those with CS in their logs.
pub fn requests_with_shifts(seed: u64) -> Vec<Request> {
    let mut gathered = RequestSet::default();
    shift_requests(&mut gathered, &mut Rng::new(seed));
    gathered.requests
}

/// Those of more than 32 parties.
pub fn requests_above_32(seed: u64) -> Vec<Request> {
    let mut gathered = RequestSet::default();
    wide_requests(&mut gathered, &mut Rng::new(seed));
    gathered.requests
}

/// Those about a key that is the identity.
pub fn requests_with_identities(seed: u64) -> Vec<Request> {
    let mut gathered = RequestSet::default();
    identity_requests(&mut gathered, &mut Rng::new(seed));
    gathered.requests
}

/// Those on runs that wait for more dealers.
pub fn requests_that_wait(seed: u64) -> Vec<Request> {
    let mut gathered = RequestSet::default();
    wait_requests(&mut gathered, &mut Rng::new(seed));
    gathered.requests
}
