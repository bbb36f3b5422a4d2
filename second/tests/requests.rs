//! The request stream and the writers' answers.

use second::generator::broken_calls::{broken_requests, broken_streams, mixed_stream};
use second::generator::calls::{all_requests, in_streams, requests_with_shifts};
use second::generator::document::{response, up_to_challenges, up_to_dealings};
use second::requests::{answer_stream, framed, Call, Request, LONGEST_STREAM};
use std::collections::BTreeSet;
use std::sync::OnceLock;

/// The requests of seed 1, made once.
fn requests() -> &'static [Request] {
    static REQUESTS: OnceLock<Vec<Request>> = OnceLock::new();
    REQUESTS.get_or_init(|| all_requests(1))
}

/// A good request, with its answer.
fn setup() -> (Vec<u8>, &'static str) {
    let call = Call::Su { params: (4, 1, 1), s: 1, key_values: vec![2] };
    let request = Request { call, buffer_length: 14 };
    (framed(&request.encode()), "0 5355040101000000000400000010\n")
}

#[test]
fn a_setup_is_written() {
    let (stream, answer) = setup();
    assert_eq!(answer_stream(&stream), answer);
}

#[test]
fn a_dealing_is_written() {
    let call = Call::De { params: (4, 1, 1), i: 3, values: vec![2, 3] };
    let request = Request { call, buffer_length: 28 };
    let line = "0 44450300000000100000004000000003000000040000000500000006\n";
    assert_eq!(request.answer_line(), line);
}

#[test]
fn a_refusal_leaves_the_buffer() {
    let call = Call::Su { params: (3, 1, 1), s: 1, key_values: vec![2] };
    assert_eq!(Request { call: call.clone(), buffer_length: 3 }.answer_line(), "4 a5a5a5\n");
    assert_eq!(Request { call, buffer_length: 0 }.answer_line(), "4 \n");
}

/// The first requests give the records of the worked log, CH aside.
#[test]
fn the_worked_log_is_written() {
    let written = |range: std::ops::Range<usize>| -> Vec<u8> {
        requests()[range].iter().flat_map(|request| request.answer().1).collect()
    };
    let dealt = up_to_dealings(1, 4);
    assert_eq!(written(0..4), dealt);
    assert_eq!(written(4..7), up_to_challenges()[dealt.len()..][..3 * 8]);
    assert_eq!(written(7..9), [response(2, [10, 22]), response(3, [13, 28])].concat());
}

#[test]
fn streams_are_read_as_written() {
    let lines: String = requests().iter().map(Request::answer_line).collect();
    let streams = in_streams(requests());
    assert!(streams.iter().all(|stream| stream.len() <= LONGEST_STREAM));
    let read: String = streams.iter().map(|stream| answer_stream(stream)).collect();
    assert_eq!(read, lines);
}

/// A shift changes nothing in the responses of the worked log.
#[test]
fn the_same_responses_are_written_after_a_shift() {
    let requests = requests_with_shifts(1);
    for (request, row) in requests.iter().zip([response(2, [10, 22]), response(3, [13, 28])]) {
        assert_eq!(request.answer(), (0, row));
    }
}

#[test]
fn a_broken_request_is_passed_over() {
    let (good, answer) = setup();
    for broken in broken_requests() {
        let stream = [&good[..], &framed(&broken), &good].concat();
        assert_eq!(answer_stream(&stream), format!("{answer}broken\n{answer}"), "{broken:?}");
    }
}

#[test]
fn a_cut_request_is_the_last() {
    let (good, answer) = setup();
    for length in 1..good.len() {
        let stream = [&good, &good[..length]].concat();
        assert_eq!(answer_stream(&stream), format!("{answer}broken\n"));
    }
    assert_eq!(answer_stream(b""), "");
    assert_eq!(answer_stream(b"SU 4 1 1 1 2 14\n"), "broken\n");
}

#[test]
fn the_longest_stream_is_read() {
    let answers = answer_stream(&vec![0; LONGEST_STREAM]);
    assert_eq!(answers, "broken\n".repeat(LONGEST_STREAM / 4));
    assert_eq!(answer_stream(&vec![0; LONGEST_STREAM + 1]), "long\n");
}

#[test]
fn broken_streams_say_so() {
    let streams = [vec![mixed_stream()], broken_streams()].concat();
    let answers: Vec<String> = streams.iter().map(|stream| answer_stream(stream)).collect();
    assert!(answers[0].contains("\nbroken\n0 ") && answers[0].ends_with("\nbroken\n"));
    let said = |word: &str| answers.iter().filter(|text| text.contains(word)).count();
    assert_eq!((said("long"), said("broken")), (2, streams.len() - 4));
}

#[test]
fn every_writer_gives_every_number_it_has() {
    let mut found = BTreeSet::new();
    assert!(requests().len() >= 300);
    for request in requests() {
        let writer = request.encode()[0];
        found.insert((writer, request.answer().0));
    }
    let expected: [(u8, &[u8]); 4] = [
        (1, &[0, 4, 6, 9, 10, 16]),
        (2, &[0, 4, 5, 6, 9, 10]),
        (3, &[0, 5, 9, 11]),
        (4, &[0, 5, 6, 9, 10, 11, 14]),
    ];
    let pairs = expected
        .iter()
        .flat_map(|&(writer, numbers)| numbers.iter().map(move |&number| (writer, number)));
    assert_eq!(found, pairs.collect());
}
