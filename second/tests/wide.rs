//! Committees of more than 32 parties and the two widths of VE (request 2.2).

use second::generator::document::{plain_setup, record};
use second::generator::draft::Draft;
use second::generator::edges::draft_at;
use second::generator::wide::draft_of;
use second::generator::wide_masks::{draft_hearing, row};
use second::log::read_log;
use second::params::{Params, Party};
use second::refusal::answer_number;
use second::report::report;
use second::rng::Rng;
use second::run::{Run, Stage};
use second::writers::write_ve;

/// A dealing of the constant polynomial 1, with some shares sent as 2.
fn dealing(params: Params, dealer: Party, wronged: &[Party]) -> Vec<u8> {
    let shares = (1..=params.n).map(|j| if wronged.contains(&j) { 2 } else { 1 });
    let numbers: Vec<u32> = std::iter::repeat_n(4, params.quorum()).chain(shares).collect();
    record("DE", &[dealer as u8, 0], &numbers)
}

/// The log of n,1,1 up to the dealings of 2 to n; those of the pairs' dealers
/// wrong their holders.
fn dealt(n: u8, wrong: &[(Party, Party)]) -> Vec<u8> {
    let params = Params::new(n, 1, 1).expect("within the bounds");
    let mut log = plain_setup(n, 1, 1);
    for dealer in 2..=params.n {
        let pairs = wrong.iter().filter(|pair| pair.0 == dealer);
        let wronged: Vec<Party> = pairs.map(|pair| pair.1).collect();
        log.extend(dealing(params, dealer, &wronged));
    }
    log
}

/// The run at stage 2 of n,1,1.
fn at_complaints(n: u8, wrong: &[(Party, Party)]) -> Run {
    let run = read_log(&dealt(n, wrong)).run;
    assert_eq!(run.stage, Stage::Complaining);
    run
}

/// A VE with a mask of four bytes, and one with a mask of eight.
fn narrow(holder: u8, mask: u32) -> Vec<u8> {
    record("VE", &[holder, 0], &[mask])
}

fn wide(holder: u8, mask: u64) -> Vec<u8> {
    record("VE", &[holder, 0], &[(mask >> 32) as u32, mask as u32])
}

/// The mask that blames one dealer.
fn blaming(dealer: u32) -> u64 {
    1 << (dealer - 1)
}

fn given(run: &Run, record: &[u8]) -> u8 {
    answer_number(run.clone().give(record))
}

#[test]
fn sixty_four_parties_are_the_most() {
    for (n, t, a) in [(33, 1, 15), (33, 1, 1), (63, 20, 2), (64, 1, 31), (64, 15, 10), (64, 21, 1)]
    {
        assert_eq!(given(&Run::fresh(), &plain_setup(n, t, a)), 0, "{n},{t},{a}");
    }
    for (n, t, a) in [
        (65, 1, 1),
        (128, 1, 1),
        (255, 1, 1),
        (33, 1, 16),
        (63, 21, 1),
        (64, 1, 32),
        (64, 22, 1),
        (64, 16, 10),
    ] {
        assert_eq!(given(&Run::fresh(), &plain_setup(n, t, a)), 4, "{n},{t},{a}");
    }
}

#[test]
fn the_last_dealer_is_blamed() {
    for n in [33, 63, 64] {
        let last = u32::from(n);
        let mut run = at_complaints(n, &[(last, last)]);
        assert_eq!(given(&run, &wide(n, blaming(last))), 0, "{n}");
        assert_eq!(given(&run, &wide(n, blaming(last - 1))), 13, "{n}");
        assert_eq!(given(&run, &wide(1, blaming(last))), 13, "{n}");
        assert_eq!(run.give(&wide(n, blaming(last))), Ok(()));
        assert_eq!(run.complaints[0].blamed, [last].into());
    }
    let run = at_complaints(32, &[(32, 32)]);
    assert_eq!(given(&run, &narrow(32, 1 << 31)), 0);
    assert_eq!(given(&run, &narrow(31, 1 << 31)), 13);
}

#[test]
fn bits_above_the_last_dealer_are_refused() {
    for n in [33, 63, 64] {
        let run = at_complaints(n, &[]);
        for dealer in 1..=64 {
            let number = if dealer > u32::from(n) { 8 } else { 13 };
            assert_eq!(given(&run, &wide(1, blaming(dealer))), number, "{dealer} of {n}");
        }
    }
    assert_eq!(given(&at_complaints(31, &[]), &narrow(1, 1 << 31)), 8);
    assert_eq!(given(&at_complaints(32, &[]), &narrow(1, 1 << 31)), 13);
}

#[test]
fn each_width_is_refused_where_the_other_is_due() {
    for n in [4, 31, 32] {
        let run = at_complaints(n, &[]);
        assert_eq!((given(&run, &narrow(1, 0)), given(&run, &wide(1, 0))), (0, 2), "{n}");
    }
    for n in [33, 34, 63, 64] {
        let run = at_complaints(n, &[]);
        assert_eq!((given(&run, &narrow(1, 0)), given(&run, &wide(1, 0))), (2, 0), "{n}");
        for length in (2..12).chain(13..20) {
            let bytes = [wide(1, 0), vec![0; 8]].concat();
            assert_eq!(given(&run, &bytes[..length]), 2, "{length} bytes with {n}");
        }
    }
}

#[test]
fn the_high_byte_comes_first() {
    let run = at_complaints(64, &[(2, 5), (33, 5), (64, 5)]);
    let bytes = |mask: [u8; 8]| [&b"VE\x05\0"[..], &mask].concat();
    for (mask, dealer) in [
        ([0, 0, 0, 0, 0, 0, 0, 2], 2),
        ([0, 0, 0, 1, 0, 0, 0, 0], 33),
        ([128, 0, 0, 0, 0, 0, 0, 0], 64),
    ] {
        let mut run = run.clone();
        assert_eq!(run.give(&bytes(mask)), Ok(()));
        assert_eq!(run.complaints[0].blamed, [dealer].into());
        let mut turned = mask;
        turned.reverse();
        assert_eq!(given(&at_complaints(64, &[(dealer, 5)]), &bytes(turned)), 13);
    }
    assert_eq!(given(&run, &bytes([0, 0, 0, 2, 0, 0, 0, 0])), 13);
}

/// Records with every fault at once, then with one fewer, in the order 2, 3, 5,
/// 8, 12, 13, at both widths.
#[test]
fn refusals_come_in_order() {
    for (n, high) in [(31, 1u64 << 31), (33, 1 << 33), (63, 1 << 63)] {
        let mut run = at_complaints(n, &[]);
        let row = |holder: u8, mask: u64| {
            if n <= 32 {
                narrow(holder, mask as u32)
            } else {
                wide(holder, mask)
            }
        };
        assert_eq!(run.give(&row(2, 0)), Ok(()));
        let spoiled = |holder, mask| {
            let mut record = row(holder, mask);
            record[3] = 1;
            record
        };
        let cut = |mut record: Vec<u8>| {
            record.pop();
            record
        };
        assert_eq!(given(&run, &cut(spoiled(n + 1, high | 2))), 2);
        assert_eq!(given(&run, &spoiled(n + 1, high | 2)), 3);
        assert_eq!(given(&run, &row(n + 1, high | 2)), 5);
        assert_eq!(given(&run, &row(0, high | 2)), 5);
        assert_eq!(given(&run, &row(2, high | 2)), 8);
        assert_eq!(given(&run, &row(2, 2)), 12);
        assert_eq!(given(&run, &row(3, 2)), 13);
        assert_eq!(given(&run, &row(3, 0)), 0);
        let setup = read_log(&plain_setup(n, 1, 1)).run;
        assert_eq!(given(&setup, &cut(spoiled(n + 1, high | 2))), 11);
    }
}

/// The numbers from first to last with a space before each.
fn listed(first: u32, last: u32) -> String {
    (first..=last).map(|number| format!(" {number}")).collect()
}

/// Dealer 33 of 33 wrongs holder 33 and is blamed.
#[test]
fn the_page_names_the_last_dealer() {
    let mut log = dealt(33, &[(33, 33)]);
    for holder in 2..=33 {
        log.extend(wide(holder, if holder == 33 { blaming(33) } else { 0 }));
    }
    let sets = format!("hold{}\nqual{}\nbad 33\n", listed(2, 33), listed(2, 32));
    assert_eq!(report(&log), format!("{sets}end 3\n"));
}

/// Dealers 33 and 64 of 64 are one more than t.
#[test]
fn too_many_bad_dealers_above_32() {
    let mut log = dealt(64, &[(33, 2), (64, 64)]);
    for holder in 2..=64 {
        let mask = [(2, blaming(33)), (64, blaming(64))].into_iter().find(|pair| pair.0 == holder);
        log.extend(wide(holder, mask.map_or(0, |pair| pair.1)));
    }
    let qual = listed(2, 32) + &listed(34, 63);
    let sets = format!("hold{}\nqual{qual}\nbad 33 64\n", listed(2, 64));
    assert_eq!(report(&log), format!("{sets}end 6\n"));
}

const NO_SETS: &str = "hold -\nqual -\nbad -\n";

/// A row of the other width shifts the reading.
#[test]
fn rows_are_passed_over_by_the_width_of_the_run() {
    let page = |n: u8, rows: &[Vec<u8>]| report(&[plain_setup(n, 1, 1), rows.concat()].concat());
    let late = plain_setup(4, 1, 1);
    let expected = format!("refuse 2 11\nrefuse 3 11\n{NO_SETS}end 1\n");
    assert_eq!(page(32, &[narrow(1, 0), late.clone()]), expected);
    assert_eq!(page(33, &[wide(1, 0), late.clone()]), expected);
    let ended = format!("refuse 2 11\nrefuse 3 1\n{NO_SETS}end 1\n");
    assert_eq!(page(32, &[wide(1, 0), late.clone()]), ended);
    assert_eq!(page(33, &[narrow(1, 0), late.clone()]), ended);
    // a late setup of another size changes no width
    let rows = [plain_setup(33, 1, 1), narrow(1, 0), narrow(1, 0)];
    let expected = format!("refuse 2 11\nrefuse 3 11\nrefuse 4 11\n{NO_SETS}end 1\n");
    assert_eq!(page(32, &rows), expected);
    let rows = [plain_setup(32, 1, 1), wide(1, 0), wide(1, 0)];
    assert_eq!(page(33, &rows), expected);
}

#[test]
fn a_cut_row_is_the_last_record() {
    for (n, length) in [(32, 8), (33, 12), (64, 12)] {
        let setup = plain_setup(n, 1, 1);
        let dealt = dealt(n, &[]);
        for cut in 2..length {
            let bytes = &wide(1, 0)[..cut];
            let page = format!("refuse 2 11\n{NO_SETS}end 1\n");
            assert_eq!(report(&[&setup, bytes].concat()), page);
            let page = format!("refuse {} 2\n{NO_SETS}end 2\n", n + 1);
            assert_eq!(report(&[&dealt, bytes].concat()), page);
        }
    }
}

#[test]
fn the_writer_goes_by_the_width_of_the_run() {
    for (n, length) in [(32, 8), (33, 12), (63, 12), (64, 12)] {
        let last = u32::from(n);
        let run = at_complaints(n, &[(2, last), (32, last), (last, last)]);
        for other in (0..20).filter(|&other| other != length) {
            let mut buffer = vec![7; other];
            assert_eq!(answer_number(write_ve(&run, n, &mut buffer)), 9, "{other} bytes");
            assert_eq!(buffer, vec![7; other]);
        }
        let mut buffer = vec![7; length];
        assert_eq!(write_ve(&run, n, &mut buffer), Ok(()));
        let mask = blaming(2) | blaming(32) | blaming(last);
        let due = if n == 32 { narrow(n, mask as u32) } else { wide(n, mask) };
        assert_eq!(buffer, due);
        assert_eq!(given(&run, &buffer), 0);
        assert_eq!(answer_number(write_ve(&run, n + 1, &mut buffer)), 5);
    }
}

/// A committee with bad dealers above 32 signs, and every line verifies.
#[test]
fn sixty_four_parties_sign() {
    let mut rng = Rng::new(6);
    for params in [(33, 1, 15), (64, 15, 10), (64, 21, 1)] {
        let mut draft = draft_hearing(params, &[33, 1], &mut rng);
        draft.wrong = [(33, 1)].into();
        let run = draft_at(Stage::Done, draft, &mut rng).run;
        let sets = run.sets.as_ref().expect("the sets are fixed");
        assert_eq!(sets.bad, [33].into());
        let public_key = run.setup.as_ref().expect("a setup").public_key;
        let pairs = run.nonces().concat().into_iter().zip(run.signatures.concat());
        for ((nonce, signature), challenge) in pairs.zip(run.challenges.concat()) {
            let left = second::arith::Element::of(signature);
            assert_eq!(left, nonce * public_key.power(challenge));
        }
    }
}

/// Up to 32 parties a row is as document 01 has it.
#[test]
fn a_row_of_the_draft_has_its_width() {
    let mut rng = Rng::new(7);
    let draft = |n, rng: &mut Rng| -> Draft { draft_of((n, 1, 1), rng) };
    assert_eq!(row(&draft(32, &mut rng), 3, &[1, 32]), narrow(3, 0x8000_0001));
    assert_eq!(row(&draft(33, &mut rng), 3, &[1, 33]), wide(3, 0x1_0000_0001));
}
