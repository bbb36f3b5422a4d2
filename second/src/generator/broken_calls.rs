//! Requests that are broken, and streams that are cut or too long.

use super::document_calls::document_requests;
use super::request_set::RequestSet;
use crate::report::LONGEST_LOG;
use crate::requests::{framed, Call, Request, LONGEST_STREAM};
use crate::rng::Rng;

/// The requests that the broken ones are made from: all kinds are among them.
fn good_requests() -> Vec<Request> {
    let mut gathered = RequestSet::default();
    document_requests(&mut gathered, &mut Rng::new(0));
    gathered.requests
}

/// The first good request of each kind.
fn one_of_each() -> Vec<Request> {
    let good = good_requests();
    let first = |kind: u8| good.iter().find(|request| request.encode()[0] == kind);
    (1..=4).map(|kind| first(kind).expect("all kinds are among them").clone()).collect()
}

/// Small broken requests of every kind.
pub fn broken_requests() -> Vec<Vec<u8>> {
    let mut broken = vec![Vec::new(), b"\n".to_vec(), b"SU 4 1 1 1 2 14\n".to_vec()];
    for request in one_of_each() {
        broken.extend(not_its_length(&request));
        broken.extend(unknown_kinds(&request));
        broken.extend(other_counts(&request));
        broken.extend(other_log_lengths(&request));
    }
    assert!(broken.iter().all(|bytes| Request::decode(bytes).is_none()));
    broken
}

/// Cut, or with something after it.
fn not_its_length(request: &Request) -> Vec<Vec<u8>> {
    let whole = request.encode();
    let mut broken: Vec<Vec<u8>> =
        [1, 2, 7, whole.len() - 1].iter().map(|&length| whole[..length].to_vec()).collect();
    broken.push([&whole[..], &[0]].concat());
    broken.push([&whole[..], &whole].concat());
    broken
}

/// A writer that there is not.
fn unknown_kinds(request: &Request) -> Vec<Vec<u8>> {
    let rest = &request.encode()[1..];
    [0, 5, b'S', 255].iter().map(|&kind| [&[kind], rest].concat()).collect()
}

/// A count of values that are not there, or not all that are.
fn other_counts(request: &Request) -> Vec<Vec<u8>> {
    let list = match &request.call {
        Call::Su { key_values: list, .. }
        | Call::De { values: list, .. }
        | Call::Re { shares: list, .. } => list,
        Call::Ve { .. } => return Vec::new(),
    };
    let (whole, count) = (request.encode(), list.len() as u16);
    let place = whole.len() - 2 - 4 * list.len() - 2;
    let counted =
        |other: u16| [&whole[..place], &other.to_be_bytes(), &whole[place + 2..]].concat();
    [0, count - 1, count + 1, 1_024, 2_000, u16::MAX]
        .into_iter()
        .filter(|&other| other != count)
        .map(counted)
        .collect()
}

/// A log of another length than it says.
fn other_log_lengths(request: &Request) -> Vec<Vec<u8>> {
    let (Call::Ve { log, .. } | Call::Re { log, .. }) = &request.call else { return Vec::new() };
    let (whole, length) = (request.encode(), log.len() as u32);
    let lengths = [0, length - 1, length + 1, LONGEST_LOG as u32, u32::MAX];
    lengths.iter().map(|other| [&whole[..1], &other.to_be_bytes(), &whole[5..]].concat()).collect()
}

/// A request with a log of this length, whose bytes are all there.
fn with_log(length: usize) -> Request {
    Request { call: Call::Ve { log: vec![0; length], j: 1 }, buffer_length: 8 }
}

/// Whole requests with others that are broken in between, and a cut one last.
pub fn mixed_stream() -> Vec<u8> {
    let good: Vec<Vec<u8>> = good_requests().iter().map(Request::encode).collect();
    let mut stream = Vec::new();
    let broken = broken_requests();
    for (place, bytes) in broken.iter().enumerate() {
        stream.extend(framed(&good[place % good.len()]));
        stream.extend(framed(bytes));
    }
    let last = framed(&good[0]);
    stream.extend(&last[..last.len() - 1]);
    stream
}

/// Streams that are cut, are none, or have as many bytes as may be, or more.
pub fn broken_streams() -> Vec<Vec<u8>> {
    let mut streams = vec![Vec::new(), b"\n".to_vec(), b"SU 4 1 1 1 2 14\n".to_vec()];
    for request in one_of_each() {
        let whole = framed(&request.encode());
        let lengths = [1, 3, 4, 5, whole.len() - 1];
        streams.extend(lengths.map(|length| [&whole, &whole[..length]].concat()));
        let too_long = [&u32::MAX.to_be_bytes(), &whole[4..]].concat();
        streams.push([&whole[..], &too_long, &whole].concat());
    }
    let (longest, over) = (with_log(LONGEST_LOG).encode(), with_log(LONGEST_LOG + 1).encode());
    streams.push([framed(&over), framed(&longest), framed(&over)].concat());
    streams.extend(full_streams());
    streams
}

/// Streams of just the greatest length, and of one byte more.
fn full_streams() -> Vec<Vec<u8>> {
    let call = |count| Call::Su { params: (4, 1, 1), s: 1, key_values: vec![2; count] };
    let length = |count| framed(&Request { call: call(count), buffer_length: 14 }.encode()).len();
    let most = (LONGEST_STREAM - length(0)) / 4;
    let values = framed(&Request { call: call(most), buffer_length: 14 }.encode());
    assert_eq!(values.len(), LONGEST_STREAM);
    let nothing = vec![0; LONGEST_STREAM];
    let more = |stream: &[u8]| [stream, &[0]].concat();
    vec![more(&values), more(&nothing), values, nothing]
}
