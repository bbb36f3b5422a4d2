//! A key that is the identity, and 1 where it may stand (request 2.3).

use second::arith::{GroupNumber, Scalar, P, Q};
use second::coverage::Coverage;
use second::generator::course::completed;
use second::generator::document::{
    challenges, record, response, too_many_bad, up_to_challenges, up_to_complaints, up_to_dealings,
    worked,
};
use second::generator::draft::Draft;
use second::generator::identity::{draft_of, identity_setup};
use second::identity_coverage::wanted;
use second::log::read_log;
use second::refusal::answer_number;
use second::report::report;
use second::rng::Rng;
use second::run::{Run, Stage};
use second::writers::{write_de, write_su};

const NO_SETS: &str = "hold -\nqual -\nbad -\n";

/// The three things that a group number is read as.
const NONE: &str = "no element";
const IDENTITY: &str = "the identity";
const OTHER: &str = "another element";

/// Numbers that are no elements: about the ends of the range and inside it.
const NO_ELEMENTS: [u32; 6] = [0, 5, P - 1, P, P + 1, u32::MAX];

fn read(number: u32) -> &'static str {
    match GroupNumber::read(number) {
        GroupNumber::NoElement => NONE,
        GroupNumber::Identity => IDENTITY,
        GroupNumber::Other(element) => {
            assert_eq!(element.number(), number);
            OTHER
        }
    }
}

/// What the number is by the definition: V from 1 to P-1 with V^q = 1 modulo P.
fn defined(number: u32) -> &'static str {
    let is_element = (1..P).contains(&number) && to_the_q(number) == 1;
    match (is_element, number) {
        (false, _) => NONE,
        (true, 1) => IDENTITY,
        (true, _) => OTHER,
    }
}

/// The q-th power modulo P, by squaring, the lowest digit of q first.
fn to_the_q(number: u32) -> u128 {
    let (mut square, mut product, mut exponent) = (u128::from(number), 1, Q);
    while exponent > 0 {
        if exponent % 2 == 1 {
            product = product * square % u128::from(P);
        }
        square = square * square % u128::from(P);
        exponent /= 2;
    }
    product
}

fn given(run: &Run, record: &[u8]) -> u8 {
    answer_number(run.clone().give(record))
}

/// What a fresh run answers to SU 11,2,3 with these keys.
fn set_up(keys: [u32; 3]) -> u8 {
    given(&Run::fresh(), &record("SU", &[11, 2, 3, 0], &keys))
}

/// The worked log's setup with S = 1.
fn worked_identity() -> Vec<u8> {
    record("SU", &[4, 1, 1, 0], &[1, 16])
}

#[test]
fn a_group_number_is_one_of_three_things() {
    for (number, what) in [
        (0, NONE),
        (1, IDENTITY),
        (2, OTHER),
        (4, OTHER),
        (5, NONE),
        (Q, NONE),
        (Q + 1, OTHER),
        (P - 2, NONE),
        (P - 1, NONE),
        (P, NONE),
        (P + 1, NONE),
        (P + 4, NONE),
        (u32::MAX, NONE),
    ] {
        assert_eq!((read(number), defined(number)), (what, what), "{number}");
    }
}

#[test]
fn the_reading_follows_the_definition() {
    let mut rng = Rng::new(11);
    let drawn = (0..5_000).map(|_| rng.between(0, u32::MAX - 1));
    for number in (0..3_000).chain(Q - 500..Q + 500).chain(P - 3_000..P + 3_000).chain(drawn) {
        assert_eq!(read(number), defined(number), "{number}");
    }
}

/// As -1 is no square modulo P, the negative of an element is none.
#[test]
fn squares_are_elements_and_their_negatives_are_none() {
    for root in 2..4_000u64 {
        let square = (root * root % u64::from(P)) as u32;
        assert_eq!((read(square), read(P - square)), (OTHER, NONE), "{root}");
    }
}

#[test]
fn a_key_that_is_the_identity_is_refused() {
    assert_eq!(set_up([4, 16, 64]), 0);
    assert_eq!(set_up([1, 16, 64]), 16);
    assert_eq!(set_up([1, 1, 1]), 16);
    for (n, t, a) in [(4, 1, 1), (7, 1, 2), (32, 10, 1), (33, 1, 15), (64, 1, 31), (64, 21, 1)] {
        let keys = [vec![1], vec![4; usize::from(t)]].concat();
        let setup = record("SU", &[n, t, a, 0], &keys);
        let mut run = Run::fresh();
        assert_eq!(answer_number(run.give(&setup)), 16, "{n},{t},{a}");
        assert!(run.stage == Stage::Fresh && run.setup.is_none());
        let good = record("SU", &[n, t, a, 0], &vec![4; usize::from(t) + 1]);
        assert_eq!(run.give(&good), Ok(()));
    }
}

#[test]
fn every_key_must_be_an_element_first() {
    for number in NO_ELEMENTS {
        assert_eq!(set_up([number, 16, 64]), 7, "{number}");
        assert_eq!(set_up([1, number, 64]), 7, "{number}");
        assert_eq!(set_up([1, 16, number]), 7, "{number}");
        assert_eq!(set_up([1, number, number]), 7, "{number}");
        assert_eq!(set_up([number, 1, 1]), 7, "{number}");
    }
}

/// Numbers with bytes that are 1 are not 1.
#[test]
fn only_the_number_1_is_the_identity() {
    for number in [2, 0x100, 0x1_0000, 0x100_0000] {
        assert_eq!(set_up([number, 16, 64]), 0, "{number}");
    }
}

/// SU 11,2,3 with these faults.
fn faulty_setup(faults: &[u8], longer: bool) -> Vec<u8> {
    let has = |fault| faults.contains(&fault);
    let a = if has(4) { 4 } else { 3 };
    let keys = [if has(16) { 1 } else { 4 }, 16, if has(7) { P - 1 } else { 64 }];
    let mut setup = record("SU", &[11, 2, a, u8::from(has(3))], &keys);
    match (has(2), longer) {
        (true, true) => setup.push(0),
        (true, false) => drop(setup.pop()),
        (false, _) => {}
    }
    setup
}

/// Every choice of faults: the first in the order gives the number.
#[test]
fn refusals_of_a_setup_come_in_order() {
    let order = [2, 3, 4, 7, 16];
    for choice in 1..1 << order.len() {
        let chosen = (0..order.len()).filter(|place| choice >> place & 1 == 1);
        let faults: Vec<u8> = chosen.map(|place| order[place]).collect();
        for longer in [false, true] {
            let setup = faulty_setup(&faults, longer);
            assert_eq!(given(&Run::fresh(), &setup), faults[0], "{faults:?}");
        }
    }
    assert_eq!(given(&Run::fresh(), &faulty_setup(&[], false)), 0);
}

#[test]
fn a_late_one_is_refused_by_its_stage() {
    let logs = [
        (1, worked()[..14].to_vec()),
        (2, up_to_dealings(1, 4)),
        (3, up_to_complaints()),
        (4, up_to_challenges()),
        (5, worked()),
        (6, too_many_bad()),
    ];
    for (stage, log) in logs {
        let run = read_log(&log).run;
        assert_eq!(run.stage.number(), stage);
        assert_eq!(given(&run, &worked_identity()), 11);
        assert_eq!(given(&run, &worked_identity()[..10]), 11);
    }
}

#[test]
fn the_page_says_so() {
    let setup = worked_identity();
    assert_eq!(report(&setup), format!("refuse 1 16\n{NO_SETS}end 0\n"));
    let twice = [&setup[..], &setup].concat();
    assert_eq!(report(&twice), format!("refuse 1 16\nrefuse 2 16\n{NO_SETS}end 0\n"));
    let before = [&setup[..], &worked()].concat();
    assert_eq!(report(&before), format!("refuse 1 16\n{}", report(&worked())));
    let in_place = [&setup[..], &worked()[14..]].concat();
    assert_eq!(report(&in_place), format!("refuse 1 16\nrefuse 2 11\n{NO_SETS}end 0\n"));
    let after = [&worked()[..14], &setup, &worked()[14..]].concat();
    assert_eq!(report(&after), format!("refuse 2 11\n{}", report(&worked())));
}

#[test]
fn holder_keys_and_commitments_may_be_the_identity() {
    assert_eq!(set_up([4, 1, 64]), 0);
    assert_eq!(set_up([4, 16, 1]), 0);
    assert_eq!(set_up([4, 1, 1]), 0);
    let mut run = read_log(&worked()[..14]).run;
    let dealing = |values: [u32; 2]| record("DE", &[1, 0], &[values[0], values[1], 0, 0, 0, 0]);
    assert_eq!(given(&run, &dealing([1, 4])), 0);
    assert_eq!(given(&run, &dealing([4, 1])), 0);
    for number in NO_ELEMENTS {
        assert_eq!(given(&run, &dealing([1, number])), 7, "{number}");
        assert_eq!(given(&run, &dealing([number, 1])), 7, "{number}");
    }
    assert_eq!(run.give(&dealing([1, 1])), Ok(()));
    assert!(run.dealings[0].wronged.is_empty());
}

/// The worked log with F(1) = 0: F(j) is 1-j, and the signatures stay.
fn with_identity_holder_key() -> Vec<u8> {
    let setup = record("SU", &[4, 1, 1, 0], &[4, 1]);
    let responses = [response(2, [6, 14]), response(3, [7, 16])].concat();
    [&setup, &up_to_challenges()[14..], &responses].concat()
}

/// The worked log with dealings of nothing but 0: R is 1 and φ is e × s, s being 1.
fn with_zero_dealings() -> Vec<u8> {
    let dealings = [1, 2, 3].map(|dealer| record("DE", &[dealer, 0], &[1, 1, 0, 0, 0, 0]));
    let rows = [2, 3, 4].map(|holder| record("VE", &[holder, 0], &[0]));
    let responses = [response(2, [3, 6]), response(3, [4, 8])].concat();
    [&worked()[..14], &dealings.concat(), &rows.concat(), &challenges(), &responses].concat()
}

#[test]
fn runs_with_identities_are_completed() {
    assert_eq!(report(&with_identity_holder_key()), report(&worked()));
    let sets = "hold 2 3 4\nqual 1 2 3\nbad -\n";
    let page = format!("{sets}sig 1 1 1 1\nsig 2 1 1 2\nend 5\n");
    assert_eq!(report(&with_zero_dealings()), page);
}

/// What the SU writer answers for 11,2,3; a refusal leaves the buffer.
fn written(s: u32, key_values: &[u32], length: usize) -> u8 {
    written_for((11, 2, 3), s, key_values, length)
}

fn written_for(params: (u8, u8, u8), s: u32, key_values: &[u32], length: usize) -> u8 {
    let mut buffer = vec![7; length];
    let number = answer_number(write_su(params, s, key_values, &mut buffer));
    match number {
        0 => assert_eq!(given(&Run::fresh(), &buffer), 0),
        _ => assert_eq!(buffer, vec![7; length]),
    }
    number
}

#[test]
fn the_writer_refuses_the_secret_0() {
    assert_eq!(written(0, &[5, 6], 18), 16);
    assert_eq!(written(0, &[0, 0], 18), 16);
    for s in [1, 2, Q - 1] {
        assert_eq!(written(s, &[5, 6], 18), 0);
        assert_eq!(written(s, &[0, 6], 18), 0);
        assert_eq!(written(s, &[0, 0], 18), 0);
    }
    for params in [(4, 1, 1), (33, 1, 15), (64, 1, 31)] {
        assert_eq!(written_for(params, 0, &[5], 14), 16);
        assert_eq!(written_for(params, 1, &[0], 14), 0);
    }
}

#[test]
fn the_writers_refusals_come_in_order() {
    for length in [0, 17, 18, 19] {
        assert_eq!(written_for((3, 2, 3), 0, &[Q], length), 4);
        assert_eq!(written_for((3, 2, 3), 0, &[5, 6], length), 4);
        assert_eq!(written(0, &[5], length), 10);
        assert_eq!(written(0, &[Q, 6, 7], length), 10);
        assert_eq!(written(Q, &[0, 0], length), 6);
        assert_eq!(written(0, &[Q, 6], length), 6);
        assert_eq!(written(0, &[5, u32::MAX], length), 6);
        assert_eq!(written(0, &[5, 6], length), 16);
    }
    assert_eq!(written(1, &[5, 6], 17), 9);
}

#[test]
fn dealings_of_0_are_written_and_taken() {
    let run = read_log(&record("SU", &[6, 1, 2, 0], &[4, 4])).run;
    for values in [[0, 0, 0, 0], [0, 1, 2, 3], [1, 2, 3, 0], [Q - 1, 0, 0, 5]] {
        let mut buffer = vec![7; 44];
        assert_eq!(write_de((6, 1, 2), 3, &values, &mut buffer), Ok(()));
        let mut run = run.clone();
        assert_eq!(run.give(&buffer), Ok(()));
        assert!(run.dealings[0].wronged.is_empty());
    }
}

/// Drafts from before request 2.3 may have s = 0 by lot: they keep their bytes, and
/// reading ends after their setup. The drafts of `identity` never have it.
#[test]
fn a_secret_0_drawn_by_lot_is_kept_or_drawn_again() {
    let mut rng = Rng::new(12);
    let draft = loop {
        let draft = Draft::random(&mut rng);
        if draft.committee.has_identity_key() {
            break draft;
        }
    };
    let log = completed(draft.clone(), &mut rng);
    assert_eq!(report(&log), format!("refuse 1 16\nrefuse 2 11\n{NO_SETS}end 0\n"));
    let draft = draft.with_identity_keys(&mut rng);
    assert_ne!(draft.committee.secret, Scalar::ZERO);
    assert!(report(&completed(draft, &mut rng)).ends_with("end 5\n"));
    for _ in 0..500 {
        let draft = draft_of((4, 1, 1), &mut rng);
        assert!(!draft.committee.has_identity_key());
        assert_eq!(given(&Run::fresh(), &identity_setup(&draft)), 16);
    }
}

/// Logs with what each of them alone shows.
fn showing() -> Vec<(Vec<u8>, Vec<&'static str>)> {
    let setup = |fields: [u8; 4], keys: [u32; 2]| record("SU", &fields, &keys);
    vec![
        (worked_identity()[..12].to_vec(), vec!["SU with S = 1 answered 2"]),
        (setup([4, 1, 1, 1], [1, 16]), vec!["SU with S = 1 answered 3"]),
        (setup([3, 1, 1, 0], [1, 16]), vec!["SU with S = 1 answered 4"]),
        (setup([4, 1, 1, 0], [1, 5]), vec!["SU with S = 1 answered 7"]),
        ([&worked()[..14], &worked_identity()].concat(), vec!["SU with S = 1 answered 11"]),
        (
            [worked_identity(), worked()].concat(),
            vec!["SU with S = 1 answered 16", "done after SU answered 16"],
        ),
        (
            with_identity_holder_key(),
            vec![
                "some S_j = 1 taken",
                "done with some S_j = 1",
                "every S_j = 1 taken",
                "done with every S_j = 1",
            ],
        ),
        (
            with_zero_dealings(),
            vec!["a dealing with every V = 1 taken", "done with a dealing with every V = 1"],
        ),
    ]
}

/// What is missing of identities in the showing logs without one of them.
fn missing_without(left_out: Option<usize>) -> Vec<String> {
    let mut coverage = Coverage::default();
    for (place, (log, _)) in showing().iter().enumerate() {
        if left_out != Some(place) {
            coverage.add(log);
        }
    }
    coverage.missing_identities()
}

#[test]
fn the_coverage_asks_for_each() {
    assert_eq!(missing_without(None), Vec::<String>::new());
    for (place, (_, alone)) in showing().iter().enumerate() {
        assert_eq!(missing_without(Some(place)), *alone);
    }
    let empty = Coverage::default();
    assert_eq!(empty.missing_identities(), wanted());
    assert!(wanted().iter().all(|what| empty.missing().contains(what)));
    assert!(empty.missing().contains(&"refusal 16".to_string()));
}

/// Dealings that commit to 1 are asked for too.
#[test]
fn the_coverage_asks_for_commitments() {
    let some = ["a dealing with some V = 1 taken", "done with a dealing with some V = 1"];
    let missing = |log: &[u8]| {
        let mut coverage = Coverage::default();
        coverage.add(log);
        let missing = coverage.missing_identities();
        some.map(|what| missing.contains(&what.to_string()))
    };
    assert_eq!(missing(&worked()[..14]), [true, true]);
    assert_eq!(missing(&up_to_dealings(1, 4)), [false, true]);
    assert_eq!(missing(&worked()), [false, false]);
}
