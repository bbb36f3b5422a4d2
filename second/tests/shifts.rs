//! CS, the challenges with a shift (request 2.1).

use second::arith::{Element, GroupNumber, Scalar, Q};
use second::generator::committee::as_cs;
use second::generator::course::completed;
use second::generator::document::{
    challenges, record, response, shifted, shifted_challenges, too_many_bad, up_to_challenges,
    up_to_complaints, up_to_dealings, worked,
};
use second::generator::draft::Draft;
use second::log::read_log;
use second::params::Params;
use second::refusal::answer_number;
use second::report::report;
use second::rng::Rng;
use second::run::{Run, Stage};

/// The worked log's run at stage 3.
fn at_challenges() -> Run {
    read_log(&up_to_complaints()).run
}

/// The page of the worked log with these pairs of R and φ.
fn worked_page(first: (u32, u32), second: (u32, u32)) -> String {
    let signatures =
        format!("sig 1 1 {} {}\nsig 2 1 {} {}\n", first.0, first.1, second.0, second.1);
    format!("hold 2 3 4\nqual 1 2 3\nbad -\n{signatures}end 5\n")
}

/// CS records that stage 3 of the worked log refuses, with their numbers.
fn refused() -> Vec<(Vec<u8>, u8)> {
    let cs = |reserved: [u8; 2], numbers: &[u32]| record("CS", &reserved, numbers);
    vec![
        (cs([0, 0], &[Q, 1, 2]), 6),
        (cs([0, 0], &[u32::MAX, 1, 2]), 6),
        (cs([0, 0], &[5, Q, 2]), 6),
        (cs([0, 0], &[5, 1, Q]), 6),
        (cs([1, 0], &[5, 1, 2]), 3),
        (cs([0, 1], &[5, 1, 2]), 3),
        (cs([0, 255], &[Q, Q, Q]), 3),
        (cs([0, 0], &[1, 2]), 2),
        (cs([1, 0], &[Q, 2]), 2),
        (cs([0, 0], &[5, 1, 2, 3]), 2),
        (b"CS".to_vec(), 2),
        (b"C".to_vec(), 1),
        (b"cs\0\0".to_vec(), 1),
    ]
}

#[test]
fn the_worked_log_is_shifted() {
    assert_eq!(report(&worked()), worked_page((64, 4), (65_536, 10)));
    assert_eq!(report(&shifted(5)), worked_page((64 * 1_024, 9), (65_536 * 1_024, 15)));
}

#[test]
fn the_shift_0_changes_nothing() {
    assert_eq!(report(&shifted(0)), report(&worked()));
}

#[test]
fn the_greatest_shift_wraps() {
    assert_eq!(report(&shifted(Q - 1)), worked_page((16, 3), (16_384, 9)));
}

#[test]
fn a_shifted_response_does_not_pass() {
    let mut run = at_challenges();
    assert_eq!(run.give(&shifted_challenges(5)), Ok(()));
    assert_eq!(answer_number(run.give(&response(2, [10 + 5, 22 + 5]))), 15);
    assert_eq!(answer_number(run.give(&response(2, [10, 22 + 5]))), 15);
    assert_eq!(run.give(&response(2, [10, 22])), Ok(()));
}

#[test]
fn a_refused_shift_is_not_kept() {
    let mut run = at_challenges();
    for (record, number) in refused() {
        assert_eq!(answer_number(run.give(&record)), number, "{record:?}");
        assert_eq!((run.stage, run.shift), (Stage::Challenging, Scalar::ZERO));
    }
    let mut shifted = run.clone();
    assert_eq!(run.give(&challenges()), Ok(()));
    assert_eq!(run.shift, Scalar::ZERO);
    assert_eq!(shifted.give(&shifted_challenges(5)), Ok(()));
    assert_eq!(shifted.shift, Scalar::of(5));
    assert_eq!(answer_number(shifted.give(&shifted_challenges(6))), 11);
    assert_eq!(shifted.shift, Scalar::of(5));
}

#[test]
fn no_other_stage_takes_it() {
    let setup = worked()[..14].to_vec();
    let logs = [
        (0, Vec::new()),
        (1, setup),
        (2, up_to_dealings(1, 4)),
        (4, up_to_challenges()),
        (5, worked()),
        (5, shifted(7)),
        (6, too_many_bad()),
    ];
    for (stage, log) in logs {
        let mut run = read_log(&log).run;
        assert_eq!(run.stage.number(), stage);
        assert_eq!(answer_number(run.give(&shifted_challenges(5))), 11);
        for (record, number) in refused() {
            let expected = if number == 1 { 1 } else { 11 };
            assert_eq!(answer_number(run.give(&record)), expected, "{record:?}");
        }
    }
}

#[test]
fn reading_ends_with_it_at_stage_0() {
    let page = "refuse 1 11\nhold -\nqual -\nbad -\nend 0\n";
    assert_eq!(report(&[shifted_challenges(5), worked()].concat()), page);
    assert_eq!(report(b"CS"), page);
}

#[test]
fn it_is_passed_over_by_its_own_length() {
    let cs = shifted_challenges(9);
    let (whole, dealt) = (shifted(5), up_to_dealings(1, 4).len());
    let (setup, rest) = whole.split_at(14);
    let (dealings, rest) = rest.split_at(dealt - 14);
    let (middle, responses) = rest.split_at(rest.len() - 2 * 12);
    let ch = challenges();
    let log = [setup, &cs, dealings, &cs, middle, &ch, &cs, responses, &cs].concat();
    let refusals: String =
        [2, 6, 11, 12, 15].iter().map(|position| format!("refuse {position} 11\n")).collect();
    assert_eq!(report(&log), refusals + &report(&whole));
}

#[test]
fn a_cut_one_is_the_last_record() {
    let cs = shifted_challenges(5);
    for length in 2..cs.len() {
        let log = [&up_to_complaints()[..], &cs[..length]].concat();
        assert_eq!(report(&log), "refuse 8 2\nhold 2 3 4\nqual 1 2 3\nbad -\nend 3\n");
        let log = [&up_to_challenges()[..], &cs[..length]].concat();
        assert_eq!(report(&log), "refuse 9 11\nhold 2 3 4\nqual 1 2 3\nbad -\nend 4\n");
    }
}

/// A committee with a bad dealer at stage 3, and a CH for it.
fn committee((n, t, a): (u8, u8, u8), rng: &mut Rng) -> (Draft, Vec<u8>) {
    let params = Params::new(n, t, a).expect("within the bounds");
    let mut draft = Draft::new(params, rng).with_bad_dealers(1, rng);
    draft.go_to(Stage::Challenging, rng);
    let ch = draft.committee.ch(rng);
    (draft, ch)
}

/// The log of a draft at stage 3 that is given these challenges.
fn signed(draft: &Draft, challenges: &[u8], rng: &mut Rng) -> Vec<u8> {
    let mut draft = draft.clone();
    draft.accept(challenges);
    completed(draft, rng)
}

/// u, k, R and φ of every `sig` line of a page.
fn signatures(page: &str) -> Vec<[u32; 4]> {
    let numbers =
        |line: &str| line.split(' ').map(|word| word.parse().expect("a number")).collect();
    let lines = page.lines().filter_map(|line| line.strip_prefix("sig "));
    lines.map(|line| <Vec<u32>>::try_into(numbers(line)).expect("four numbers")).collect()
}

/// The element that a page prints so.
fn element(number: u32) -> Element {
    match GroupNumber::read(number) {
        GroupNumber::NoElement => panic!("{number} is no element"),
        GroupNumber::Identity => Element::ONE,
        GroupNumber::Other(element) => element,
    }
}

/// u, k, R × 4^δ and φ + δ.
fn moved([u, k, nonce, signature]: [u32; 4], shift: Scalar) -> [u32; 4] {
    let nonce = element(nonce) * Element::of(shift);
    let signature = Scalar::read(signature).expect("a scalar") + shift;
    [u, k, nonce.number(), signature.number()]
}

/// The same dealings, challenges and responses, with and without a shift.
#[test]
fn every_pair_is_shifted() {
    let mut rng = Rng::new(3);
    for params in [(4, 1, 1), (9, 2, 2), (11, 1, 4), (32, 10, 1), (32, 1, 15)] {
        let (draft, ch) = committee(params, &mut rng);
        let plain = signed(&draft, &ch, &mut rng);
        for shift in [Scalar::ZERO, Scalar::ONE, Scalar::of(-1), Scalar::of(123_456_789)] {
            let log = signed(&draft, &as_cs(&ch, shift.number()), &mut rng);
            let after = |log: &[u8], length| log[draft.bytes.len() + length..].to_vec();
            assert_eq!(after(&log, ch.len() + 4), after(&plain, ch.len()), "the responses");
            let expected = signatures(&report(&plain)).into_iter().map(|line| moved(line, shift));
            assert_eq!(signatures(&report(&log)), expected.collect::<Vec<_>>());
        }
    }
}

/// 4^φ = R × S^e for every line of the page.
#[test]
fn every_printed_line_verifies() {
    let mut rng = Rng::new(4);
    for params in [(4, 1, 1), (9, 2, 2), (14, 3, 3), (32, 1, 15)] {
        let (draft, ch) = committee(params, &mut rng);
        let log = signed(&draft, &as_cs(&ch, 314_159_265), &mut rng);
        let run = read_log(&log).run;
        let public_key = run.setup.as_ref().expect("a setup").public_key;
        let lines = signatures(&report(&log));
        assert_eq!(lines.len(), (draft.params().a * draft.committee.combinations()) as usize);
        for [u, k, nonce, signature] in lines {
            let challenge = run.challenges[u as usize - 1][k as usize - 1];
            let signature = Scalar::read(signature).expect("a scalar");
            assert_eq!(Element::of(signature), element(nonce) * public_key.power(challenge));
        }
    }
}

#[test]
fn any_quorum_gives_the_same_page() {
    let mut rng = Rng::new(5);
    let (mut draft, ch) = committee((11, 2, 2), &mut rng);
    draft.accept(&as_cs(&ch, 271_828_182));
    let page = report(&completed(draft.clone(), &mut rng));
    for _ in 0..20 {
        draft.responders = rng.some_of(&draft.holders, draft.params().quorum());
        assert_eq!(report(&completed(draft.clone(), &mut rng)), page);
    }
}
