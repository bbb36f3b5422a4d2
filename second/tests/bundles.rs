//! A bundle of response rows in one call (request 2.7): its answers, worked out by hand, the
//! laws it keeps, and the stored examples.

use second::arith::Scalar;
use second::bundles::{answer_input, give_bundle, input_of, Bundle};
use second::generator::bundle_counts::{shifted as shifted_draft, waited_with_bad, with_bad};
use second::generator::bundle_draft::{at_rows, end_to_end, BundleDraft};
use second::generator::bundle_faults::{foreign_rows, wrong};
use second::generator::bundle_inputs::example;
use second::generator::document::{
    challenges, four_challenged, record, response, shifted_challenges, too_many_bad,
    up_to_challenges, up_to_complaints, up_to_dealings, waiting_for_four, worked,
};
use second::generator::waits::{draft_of_all, never_waiting};
use second::log::read_log;
use second::params::{party_point, Party};
use second::records::{Complaint, Response, Setup, Tag};
use second::refusal::Refusal;
use second::report::{report, LONGEST_LOG};
use second::rng::Rng;
use second::run::{Dealing, Run, Sets, Stage};
use second::weights::WeightTable;
use std::fs;
use std::path::{Path, PathBuf};

/// How long a row of the worked log is.
const ROW: usize = 12;

fn bundle(places: u16, rows: &[u8]) -> Bundle {
    Bundle { places, rows: rows.to_vec() }
}

/// What is answered to bundles, each its places and its rows, behind a log.
fn answer(log: &[u8], bundles: &[(u16, &[u8])]) -> String {
    let bundles: Vec<Bundle> = bundles.iter().map(|&(places, rows)| bundle(places, rows)).collect();
    answer_input(&input_of(log, &bundles))
}

/// The same behind the worked log up to its challenges.
fn worked_answer(bundles: &[(u16, &[u8])]) -> String {
    answer(&up_to_challenges(), bundles)
}

fn second() -> Vec<u8> {
    response(2, [10, 22])
}

fn third() -> Vec<u8> {
    response(3, [13, 28])
}

/// By hand: H_1(4) + F(4) = 11 + 5 and H_2(4) + 2 F(4) = 24 + 10.
fn fourth() -> Vec<u8> {
    response(4, [16, 34])
}

#[test]
fn the_example_is_answered() {
    let lines = ["0 ", "0 00", "10 a5", "0 0e0c0f000b0b0b", "11 a5", "5 4 10 ", ""];
    assert_eq!(answer_input(&example()), lines.join("\n"));
    assert!(example().len() < 350);
}

#[test]
fn a_log_alone() {
    assert_eq!(worked_answer(&[]), "4 \n");
    assert_eq!(answer(&worked(), &[]), "5 4 10 \n");
    assert_eq!(answer(b"", &[]), "0 \n");
    assert_eq!(answer(&too_many_bad(), &[]), "6 \n");
}

#[test]
fn no_rows_and_the_needed_ones() {
    let both = [second(), third()].concat();
    assert_eq!(worked_answer(&[(0, b"")]), "0 \n4 \n");
    assert_eq!(worked_answer(&[(1, &second())]), "0 00\n4 \n");
    assert_eq!(worked_answer(&[(2, &both)]), "0 0000\n5 4 10 \n");
    assert_eq!(worked_answer(&[(0, b""), (2, &both), (0, b"")]), "0 \n0 0000\n11 \n5 4 10 \n");
    let apart = worked_answer(&[(1, &second()), (1, &third()), (1, &fourth())]);
    assert_eq!(apart, "0 00\n0 00\n11 a5\n5 4 10 \n");
}

/// Any two of the three rows of HOLD sign the same; a third gets 11.
#[test]
fn rows_past_the_last_needed_one() {
    let rows = [second(), third(), fourth()];
    for order in [[0, 1, 2], [0, 2, 1], [1, 0, 2], [1, 2, 0], [2, 0, 1], [2, 1, 0]] {
        let all = order.map(|place| rows[place].clone()).concat();
        assert_eq!(worked_answer(&[(3, &all)]), "0 00000b\n5 4 10 \n");
        assert_eq!(worked_answer(&[(6, &all.repeat(2))]), "0 00000b0b0b0b\n5 4 10 \n");
    }
}

#[test]
fn the_same_holder_twice() {
    let twice = [second(), second(), response(2, [11, 22]), third(), second()].concat();
    assert_eq!(worked_answer(&[(5, &twice)]), "0 000c0c000b\n5 4 10 \n");
    let across = worked_answer(&[(1, &second()), (2, &second().repeat(2))]);
    assert_eq!(across, "0 00\n0 0c0c\n4 \n");
    let log = [up_to_challenges(), second()].concat();
    let rows = [second(), third()].concat();
    assert_eq!(answer(&log, &[(2, &rows)]), "0 0c00\n5 4 10 \n");
}

#[test]
fn rows_with_faults() {
    let rows = [
        record("RE", &[2, 1], &[10, 22]),
        response(0, [10, 22]),
        response(5, [10, 22]),
        response(2, [10, 500_000_003]),
        response(1, [0, 0]),
        response(2, [11, 22]),
        response(2, [10, 21]),
        second(),
    ];
    let answers = worked_answer(&[(8, &rows.concat())]);
    assert_eq!(answers, "0 030505060e0f0f00\n4 \n");
    let done = [&rows.concat()[..], &third(), &rows.concat()].concat();
    let answers = worked_answer(&[(17, &done)]);
    assert_eq!(answers, "0 030505060e0f0f00000b0b0b0b0b0b0b0b\n5 4 10 \n");
}

/// A row is twelve bytes whatever its tag: a known one is answered 11, an unknown one 1,
/// before the run is done and after.
#[test]
fn rows_of_other_tags() {
    let known = ["SU", "DE", "VE", "CH", "CS", "SX", "GO"].map(|tag| record(tag, &[2, 0], &[1, 2]));
    let unknown = ["RD", "re", "XX", "\0\0"].map(|tag| record(tag, &[2, 0], &[10, 22]));
    let foreign = [known.concat(), unknown.concat()].concat();
    let rows = [&foreign[..], &second(), &third(), &foreign].concat();
    let numbers = "0b0b0b0b0b0b0b01010101";
    let answers = worked_answer(&[(24, &rows)]);
    assert_eq!(answers, format!("0 {numbers}0000{numbers}\n5 4 10 \n"));
    // CH has 12 bytes here, CS 16: its last four are a row cut short
    assert_eq!(worked_answer(&[(1, &challenges())]), "0 0b\n4 \n");
    let shifted = shifted_challenges(5);
    assert_eq!(worked_answer(&[(1, &shifted)]), "10 a5\n4 \n");
    assert_eq!(worked_answer(&[(2, &shifted)]), "0 0b01\n4 \n");
}

#[test]
fn a_cut_last_row() {
    for length in 1..ROW {
        let number = if length == 1 { "01" } else { "02" };
        let cut = &third()[..length];
        assert_eq!(worked_answer(&[(1, cut)]), format!("0 {number}\n4 \n"));
        let behind = [&second(), cut].concat();
        assert_eq!(worked_answer(&[(2, &behind)]), format!("0 00{number}\n4 \n"));
        let then = worked_answer(&[(2, &behind), (1, &third())]);
        assert_eq!(then, format!("0 00{number}\n0 00\n5 4 10 \n"));
        let late = if length == 1 { "01" } else { "0b" };
        let done = [&second()[..], &third(), &fourth()[..length]].concat();
        assert_eq!(worked_answer(&[(3, &done)]), format!("0 0000{late}\n5 4 10 \n"));
        for (tag, number) in [("GO", "0b"), ("CH", "0b"), ("SU", "0b"), ("RD", "01")] {
            let cut = &record(tag, &[3, 0], &[13, 28])[..length];
            let number = if length == 1 { "01" } else { number };
            let rows = [&second()[..], cut].concat();
            assert_eq!(worked_answer(&[(2, &rows)]), format!("0 00{number}\n4 \n"));
            let done = [&second()[..], &third(), cut].concat();
            assert_eq!(worked_answer(&[(3, &done)]), format!("0 0000{number}\n5 4 10 \n"));
        }
    }
}

/// Two rows are 24 bytes: cut every 8 they would be 3 rows, every 16 they would be 2, and
/// three rows would be 5 and 3.
#[test]
fn lists_that_have_not_one_place_a_row() {
    let (two, three) = ([second(), third()].concat(), [second(), third(), fourth()].concat());
    for places in [0, 1, 3, 4, 24, 65_535] {
        let untouched = "a5".repeat(places.into());
        let answers = worked_answer(&[(places, &two), (2, &two)]);
        assert_eq!(answers, format!("10 {untouched}\n0 0000\n5 4 10 \n"));
    }
    for places in [0, 2, 4, 5] {
        let untouched = "a5".repeat(places.into());
        assert_eq!(worked_answer(&[(places, &three)]), format!("10 {untouched}\n4 \n"));
    }
    for (size, right) in [(13, 2), (23, 2), (25, 3), (35, 3)] {
        for places in [right - 1, right + 1] {
            let untouched = "a5".repeat(places.into());
            let answers = worked_answer(&[(places, &three[..size])]);
            assert_eq!(answers, format!("10 {untouched}\n4 \n"));
        }
    }
    assert_eq!(worked_answer(&[(1, b"")]), "10 a5\n4 \n");
    assert_eq!(worked_answer(&[(0, b"R")]), "10 \n4 \n");
}

/// At another stage 11 comes first, whatever the list is.
#[test]
fn other_stages_refuse_every_bundle() {
    let logs = [
        (Vec::new(), "0 "),
        (b"XX".to_vec(), "0 "),
        (b"DE\x01\0".to_vec(), "0 "),
        (worked()[..14].to_vec(), "1 "),
        (waiting_for_four(), "1 "),
        ([&waiting_for_four()[..], &challenges()].concat(), "1 "),
        (up_to_dealings(1, 4), "2 "),
        ([&waiting_for_four()[..], b"GO"].concat(), "2 "),
        (up_to_complaints(), "3 "),
        (worked(), "5 4 10 "),
        (too_many_bad(), "6 "),
    ];
    for (log, end) in logs {
        let answers = answer(&log, &[(0, b""), (1, &second()), (0, &second()), (3, b"RE")]);
        assert_eq!(answers, format!("11 \n11 a5\n11 \n11 a5a5a5\n{end}\n"));
    }
}

/// A log may end at stage 4 by a refusal.
#[test]
fn rows_behind_a_log_that_ends_early() {
    let rows = [second(), third()].concat();
    for end in [&b"R"[..], b"XX", b"RE\x02", &second()[..11], b"CH\0\0", &challenges()] {
        let log = [&up_to_challenges(), end].concat();
        assert_eq!(answer(&log, &[(2, &rows)]), "0 0000\n5 4 10 \n");
    }
}

/// With CS the same rows are taken, and every φ is 5 more.
#[test]
fn rows_of_a_run_with_a_shift() {
    let log = [up_to_complaints(), shifted_challenges(5)].concat();
    let rows = [third(), second(), fourth()].concat();
    assert_eq!(answer(&log, &[(3, &rows)]), "0 00000b\n5 9 15 \n");
}

/// With a fourth dealing b is 3 and a row has 16 bytes; 12 are those of b = n-2t.
#[test]
fn rows_of_a_run_that_waited() {
    let rows = [(2, [15, 42, 131]), (3, [20, 56, 176])];
    let rows = rows.map(|(holder, numbers)| record("RE", &[holder, 0], &numbers)).concat();
    let log = four_challenged();
    assert_eq!(answer(&log, &[(2, &rows)]), "0 0000\n5 5 14 41 \n");
    assert_eq!(answer(&log, &[(3, &rows), (2, &rows)]), "10 a5a5a5\n0 0000\n5 5 14 41 \n");
    assert_eq!(answer(&log, &[(1, &second())]), "0 02\n4 \n");
    // the third number of the first row is then the letters RE and what follows, above q
    assert_eq!(answer(&log, &[(2, &[second(), third()].concat())]), "0 0601\n4 \n");
}

#[test]
fn broken_inputs() {
    let log = up_to_challenges();
    let whole = input_of(&log, &[bundle(1, &second()), bundle(1, &third())]);
    let begun = 4 + log.len();
    for length in 0..begun {
        assert_eq!(answer_input(&whole[..length]), "broken\n");
    }
    for length in begun..=whole.len() {
        let lines = match length - begun {
            0 => "4 \n",
            1..=17 => "broken\n",
            18 => "0 00\n4 \n",
            19..=35 => "0 00\nbroken\n",
            _ => "0 00\n0 00\n5 4 10 \n",
        };
        assert_eq!(answer_input(&whole[..length]), lines, "{length}");
    }
    assert_eq!(answer_input(&[&whole[..], b"\0"].concat()), "0 00\n0 00\nbroken\n");
    let refused = input_of(&log, &[bundle(2, &second())]);
    assert_eq!(answer_input(&[&refused[..], b"\0"].concat()), "10 a5a5\nbroken\n");
    let large = [&framed_size(u32::MAX)[..], &second()].concat();
    assert_eq!(answer_input(&[&input_of(&log, &[])[..], &large].concat()), "broken\n");
    assert_eq!(answer_input(&[&u32::MAX.to_be_bytes()[..], &log].concat()), "broken\n");
}

/// The bytes before the rows of a bundle of one place and this size.
fn framed_size(size: u32) -> Vec<u8> {
    [&[0, 1][..], &size.to_be_bytes()].concat()
}

#[test]
fn the_longest_logs_and_inputs() {
    let rows = [second(), third()].concat();
    let log = |size: usize| [up_to_challenges(), vec![b'V'; size - 134]].concat();
    assert_eq!(up_to_challenges().len(), 134);
    assert_eq!(answer(&log(LONGEST_LOG), &[(2, &rows)]), "0 0000\n5 4 10 \n");
    assert_eq!(answer(&log(LONGEST_LOG + 1), &[(2, &rows)]), "broken\n");
    assert_eq!(answer_input(&vec![0; 262_144]), format!("{}0 \n", "11 \n".repeat(43_690)));
    assert_eq!(answer_input(&vec![0; 262_145]), "long\n");
    let most = vec![0; 262_144 - 4 - 134 - 6];
    let places = most.len().div_ceil(ROW) as u16;
    let answers = worked_answer(&[(places, &most)]);
    assert_eq!(answers, format!("0 {}\n4 \n", "01".repeat(places.into())));
    assert_eq!(worked_answer(&[(places, &[&most[..], b"\0"].concat())]), "long\n");
}

/// All that a run keeps.
#[derive(Debug, PartialEq)]
struct Kept {
    stage: Stage,
    setup: Option<Setup>,
    dealings: Vec<Dealing>,
    complaints: Vec<Complaint>,
    sets: Option<Sets>,
    challenges: Vec<Vec<Scalar>>,
    shift: Scalar,
    responses: Vec<Response>,
    signatures: Vec<Vec<Scalar>>,
}

fn kept(run: &Run) -> Kept {
    Kept {
        stage: run.stage,
        setup: run.setup.clone(),
        dealings: run.dealings.clone(),
        complaints: run.complaints.clone(),
        sets: run.sets.clone(),
        challenges: run.challenges.clone(),
        shift: run.shift,
        responses: run.responses.clone(),
        signatures: run.signatures.clone(),
    }
}

/// Committees at stage 4: narrow and wide, with CH and CS, begun by SU and by SX.
fn challenged() -> Vec<BundleDraft> {
    let mut rng = Rng::new(27);
    let rng = &mut rng;
    let drafts = [
        never_waiting((4, 1, 1), rng),
        shifted_draft((9, 2, 2), rng),
        waited_with_bad((11, 2, 3), rng),
        with_bad((20, 5, 3), rng),
        draft_of_all((33, 2, 1), rng),
    ];
    drafts.map(|draft| at_rows(draft, rng)).into_iter().collect()
}

/// A bundle given to a copy of the run: its numbers and the run after it.
fn given(run: &Run, rows: &[u8]) -> (Vec<u8>, Run) {
    let length = run.length(Tag::Re).expect("a length");
    let (mut run, mut list) = (run.clone(), vec![0xA5; rows.len().div_ceil(length)]);
    assert_eq!(give_bundle(&mut run, rows, &mut list), Ok(()));
    (list, run)
}

/// Rows of every kind, the needed ones among them.
fn mixed_rows(bundles: &BundleDraft, rng: &mut Rng) -> Vec<Vec<u8>> {
    let needed: Vec<Vec<u8>> = bundles.needed().into_iter().map(|(row, _)| row).collect();
    let late = bundles.three_late().into_iter().map(|(row, _)| row);
    let foreign = foreign_rows(bundles, rng).into_iter().map(|(row, _)| row);
    let failing = needed.iter().map(|row| wrong(row, 1, 1)).collect::<Vec<_>>();
    let all: Vec<Vec<u8>> =
        needed.iter().cloned().chain(late).chain(foreign).chain(failing).collect();
    rng.some_of(&all, all.len())
}

/// Given one by one, the rows get the same numbers and leave the same run.
#[test]
fn a_bundle_is_its_rows_one_by_one() {
    let mut rng = Rng::new(28);
    for bundles in challenged() {
        let mut rows = mixed_rows(&bundles, &mut rng);
        rows.last_mut().expect("rows").truncate(7);
        let (list, after) = given(&bundles.run, &rows.concat());
        let mut run = bundles.run.clone();
        let numbers: Vec<u8> =
            rows.iter().map(|row| run.give(row).map_or_else(Refusal::number, |()| 0)).collect();
        assert_eq!(list, numbers);
        assert_eq!(kept(&after), kept(&run));
        assert_eq!(run.stage, Stage::Done);
    }
}

/// Cut at a row boundary, the two parts get the numbers of the whole and leave the same run;
/// once the first has finished it, the second is refused and its list untouched.
#[test]
fn a_bundle_in_two_parts() {
    let mut rng = Rng::new(29);
    for bundles in challenged() {
        let rows = mixed_rows(&bundles, &mut rng);
        let (list, whole) = given(&bundles.run, &rows.concat());
        for place in 0..=rows.len() {
            let (first, last) = (rows[..place].concat(), rows[place..].concat());
            let (numbers, mut run) = given(&bundles.run, &first);
            assert_eq!(numbers, list[..place]);
            let mut rest = vec![0xA5; rows.len() - place];
            let answer = give_bundle(&mut run, &last, &mut rest);
            if numbers.iter().filter(|&&number| number == 0).count() < whole.params().quorum() {
                assert_eq!((answer, &rest[..]), (Ok(()), &list[place..]));
            } else {
                assert_eq!((answer, rest), (Err(Refusal::Stage), vec![0xA5; rows.len() - place]));
            }
            assert_eq!(kept(&run), kept(&whole));
        }
    }
}

/// Whatever needed rows come, and in whatever order, every φ is the same.
#[test]
fn any_order_and_any_members_of_hold() {
    let mut rng = Rng::new(30);
    for bundles in challenged() {
        let hold = bundles.draft.holders.clone();
        let (_, first) = given(&bundles.run, &end_to_end(&bundles.needed()));
        for _ in 0..8 {
            let holders = rng.some_of(&hold, hold.len());
            let (list, run) = given(&bundles.run, &end_to_end(&bundles.rows(&holders, 0)));
            let (taken, late) = list.split_at(run.params().quorum());
            assert!(taken.iter().all(|&number| number == 0));
            assert!(late.iter().all(|&number| number == 11));
            assert_eq!(run.signatures, first.signatures);
        }
    }
}

#[test]
fn a_refused_bundle_leaves_run_and_list() {
    for bundles in challenged() {
        let rows = end_to_end(&bundles.needed());
        let (_, done) = given(&bundles.run, &rows);
        let count = bundles.needed().len();
        let lists = [0, count - 1, count, count + 1, 3 * count];
        for (run, refusal) in [(&bundles.run, Refusal::List), (&done, Refusal::Stage)] {
            for places in lists {
                if places == count && refusal == Refusal::List {
                    continue;
                }
                let (mut after, mut list) = (run.clone(), (0..places as u8).collect::<Vec<u8>>());
                assert_eq!(give_bundle(&mut after, &rows, &mut list), Err(refusal));
                assert_eq!(list, (0..places as u8).collect::<Vec<u8>>());
                assert_eq!(kept(&after), kept(run));
            }
        }
    }
}

/// A stored input, and what is stored of its answers.
fn stored(name: &str, extension: &str) -> PathBuf {
    Path::new(env!("CARGO_MANIFEST_DIR")).join("../logs").join(name).with_extension(extension)
}

/// A log up to its challenges, and its rows, each apart.
fn at_its_rows(log: &[u8]) -> (&[u8], Vec<&[u8]>) {
    let answers = read_log(log).answers;
    let rows = answers.into_iter().filter(|given| given.stage == Stage::Responding);
    let rows: Vec<&[u8]> = rows.map(|given| &log[given.place]).collect();
    let size: usize = rows.iter().map(|row| row.len()).sum();
    (&log[..log.len() - size], rows)
}

/// The row of another member of HOLD: each number interpolates from those of the rows.
fn interpolated(run: &Run, holder: Party) -> Vec<u8> {
    let points: Vec<Scalar> = run.responses.iter().map(|row| party_point(row.holder)).collect();
    let (b, weights) = (run.combinations().expect("b") as usize, WeightTable::default());
    let number = |u: usize| {
        let values: Vec<Scalar> = run.responses.iter().map(|row| row.numbers[u]).collect();
        weights.scalar_at(&points, &values, party_point(holder)).number()
    };
    record("RE", &[holder as u8, 0], &(0..b).map(number).collect::<Vec<u32>>())
}

/// The member of HOLD who has no row in a run that is done.
fn left_of_hold(run: &Run) -> Party {
    let hold = &run.sets.as_ref().expect("the sets").hold;
    let has_row = |holder: &Party| run.responses.iter().any(|row| row.holder == *holder);
    hold.iter().copied().find(|holder| !has_row(holder)).expect("a member")
}

/// Every φ on a page, in order, with a space behind each.
fn signatures_on(page: &str) -> String {
    let lines = page.lines().filter(|line| line.starts_with("sig "));
    lines.map(|line| format!("{} ", line.split(' ').nth(4).expect("φ"))).collect()
}

/// The rows of a stored log in one bundle, with three more: that of the last member of
/// HOLD, and the first two again.
fn check_stored(name: &str) {
    let log = fs::read(stored(name, "log")).expect("a log");
    let input = fs::read(stored(name, "bundles")).expect("an input");
    let answers = fs::read_to_string(stored(name, "collect")).expect("answers");
    let page = fs::read_to_string(stored(name, "page")).expect("a page");
    let (begun, rows) = at_its_rows(&log);
    let run = read_log(&log).run;
    let last = interpolated(&run, left_of_hold(&run));
    let all = [&rows.concat()[..], &last, rows[0], rows[1]].concat();
    let places = rows.len() as u16 + 3;
    assert!(input == input_of(begun, &[bundle(places, &all)]), "{name}");
    assert!(input.len() <= LONGEST_LOG);
    let numbers = format!("{}0b0b0b", "00".repeat(rows.len()));
    assert_eq!(answers, format!("0 {numbers}\n5 {}\n", signatures_on(&page)));
    assert!(answer_input(&input) == answers, "{name}");
}

#[test]
fn the_stored_bundles_of_32_parties() {
    check_stored("full-packing-32-1-15");
}

#[test]
fn the_stored_bundles_of_64_parties() {
    check_stored("full-packing-64-1-31");
}

/// The last member's row in place of the first one: the same φ.
#[test]
fn the_row_of_the_last_member_signs_the_same() {
    let log = fs::read(stored("full-packing-32-1-15", "log")).expect("a log");
    let (begun, rows) = at_its_rows(&log);
    let run = read_log(&log).run;
    let last = interpolated(&run, left_of_hold(&run));
    let others = [&last[..], &rows[1..].concat(), rows[0]].concat();
    let answers = answer(begun, &[(rows.len() as u16 + 1, &others)]);
    let numbers = "00".repeat(rows.len());
    assert_eq!(answers, format!("0 {numbers}0b\n5 {}\n", signatures_on(&report(&log))));
}
