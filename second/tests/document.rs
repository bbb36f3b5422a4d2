//! The worked log of document 01 and its cases B to L.

use second::arith::{Element, GroupNumber, Scalar};
use second::generator::document::{self, plain_setup, record};
use second::log::read_log;
use second::refusal::Refusal;
use second::report::report;
use second::run::Run;
use second::weights::solve_weights;

#[test]
fn a_worked_log() {
    let page = "hold 2 3 4\nqual 1 2 3\nbad -\nsig 1 1 64 4\nsig 2 1 65536 10\nend 5\n";
    assert_eq!(report(&document::worked()), page);
}

#[test]
fn b_sender_not_in_hold() {
    let page = "refuse 9 14\nhold 2 3 4\nqual 1 2 3\nbad -\nend 4\n";
    assert_eq!(report(&document::outsider()), page);
}

#[test]
fn c_response_number_fails() {
    let page = "refuse 9 15\nhold 2 3 4\nqual 1 2 3\nbad -\nend 4\n";
    assert_eq!(report(&document::failing()), page);
}

#[test]
fn d_one_bad_dealer() {
    let reading = read_log(&document::one_bad());
    let signatures: Vec<u32> = reading.run.signatures.iter().map(|row| row[0].number()).collect();
    assert_eq!(signatures, [2, 4]);
    let page = "hold 2 3 4\nqual 1 2\nbad 3\nsig 1 1 4 2\nsig 2 1 16 4\nend 5\n";
    assert_eq!(report(&document::one_bad()), page);
}

#[test]
fn e_false_blame() {
    let page = "refuse 5 13\nhold -\nqual -\nbad -\nend 2\n";
    assert_eq!(report(&document::false_blame()), page);
}

#[test]
fn f_parameters_within_the_bounds() {
    assert_eq!(Run::fresh().give(&plain_setup(4, 1, 1)), Ok(()));
    assert_eq!(Run::fresh().give(&plain_setup(32, 1, 15)), Ok(()));
}

#[test]
fn g_parameters_outside_the_bounds() {
    assert_eq!(Run::fresh().give(&plain_setup(3, 1, 1)), Err(Refusal::Bounds));
    assert_eq!(Run::fresh().give(&plain_setup(32, 1, 16)), Err(Refusal::Bounds));
}

#[test]
fn h_range_of_scalars() {
    let dealing = |share| record("DE", &[1, 0], &[1, 4, 1, 2, 3, share]);
    let mut run = Run::fresh();
    assert_eq!(run.give(&plain_setup(4, 1, 1)), Ok(()));
    assert_eq!(run.give(&dealing(500_000_003)), Err(Refusal::Scalar));
    assert_eq!(run.give(&dealing(500_000_002)), Ok(()));
    assert!(Scalar::read(500_000_002).is_some());
    assert_eq!(Scalar::read(500_000_003), None);
}

#[test]
fn i_elements() {
    assert_eq!(GroupNumber::read(4), GroupNumber::Other(Element::GENERATOR));
    assert_eq!(GroupNumber::read(1), GroupNumber::Identity);
    for number in [0, 5, 1_000_000_006, 1_000_000_007, 1_000_000_011] {
        assert_eq!(GroupNumber::read(number), GroupNumber::NoElement);
    }
}

#[test]
fn j_inverse_of_two() {
    assert_eq!(Scalar::of(2).inverse(), Scalar::of(250_000_002));
}

#[test]
fn k_weights_of_two_points() {
    let weights = solve_weights(&[Scalar::of(2), Scalar::of(3)], Scalar::ZERO);
    assert_eq!(weights, [Scalar::of(3), Scalar::of(500_000_001)]);
}

#[test]
fn l_too_many_bad_dealers() {
    let page = "hold 2 3 4\nqual 1\nbad 2 3\nend 6\n";
    assert_eq!(report(&document::too_many_bad()), page);
}

/// The solved weights are those of document 01's product formula.
#[test]
fn weights_meet_the_definition() {
    for (first, last, target) in
        [(-14, 15, 32), (-14, 15, -3), (-14, 15, 16), (1, 11, 0), (-1, 3, 7)]
    {
        let points: Vec<Scalar> = (first..=last).map(Scalar::of).collect();
        let target = Scalar::of(target);
        let solved = solve_weights(&points, target);
        for (i, &own) in points.iter().enumerate() {
            let others = points.iter().filter(|&&other| other != own);
            let factors = others.map(|&other| (target - other) * (own - other).inverse());
            assert_eq!(solved[i], factors.fold(Scalar::ONE, |product, factor| product * factor));
        }
    }
}
