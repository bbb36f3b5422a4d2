//! Runs that wait for more dealers: SX and GO (request 2.5).

use second::arith::{Element, Scalar, Q};
use second::coverage::Coverage;
use second::generator::committee::as_sx;
use second::generator::course::completed;
use second::generator::document::{
    self, challenges, four_challenged, four_done, plain_setup, record, response, shifted,
    too_many_bad, up_to_challenges, up_to_complaints, up_to_dealings, waiting_for_four, worked,
};
use second::generator::edges::draft_at;
use second::generator::identity;
use second::generator::log_set::{LogSet, NamedLog};
use second::generator::wait_edges::{self, faulty_setups, with_dealings};
use second::generator::wait_lengths::{self, flooded};
use second::generator::waits::{
    as_waiting, draft_of_all, extra_dealers, same_signatures, waiting_draft,
};
use second::log::read_log;
use second::params::Party;
use second::records::Tag;
use second::refusal::{answer_number, Refusal};
use second::report::{report, LONGEST_LOG};
use second::rng::Rng;
use second::run::{Run, Stage};
use second::wait_coverage::wanted;
use second::writers::{write_re, write_ve};

const NO_SETS: &str = "hold -\nqual -\nbad -\n";

/// How long the setups, and the dealings, of 4,1,1 are.
const SETUP: usize = 14;
const DEALING: usize = 28;

fn run_of(log: &[u8]) -> Run {
    read_log(log).run
}

fn given(run: &Run, record: &[u8]) -> u8 {
    answer_number(run.clone().give(record))
}

/// The worked log begun by SX, up to so many of its dealings and that of dealer 4.
fn waiting(dealings: usize) -> Vec<u8> {
    waiting_for_four()[..SETUP + DEALING * dealings].to_vec()
}

/// A run begun by SX at each stage from 2 on.
fn runs_after_go() -> Vec<Run> {
    let logs = [
        [waiting(4), b"GO".to_vec()].concat(),
        as_waiting(&up_to_complaints()),
        four_challenged(),
        four_done(),
        as_waiting(&too_many_bad()),
    ];
    let runs: Vec<Run> = logs.iter().map(|log| run_of(log)).collect();
    let stages: Vec<u8> = runs.iter().map(|run| run.stage.number()).collect();
    assert_eq!(stages, [2, 3, 4, 5, 6]);
    runs
}

/// A run begun by SU at each stage from 1 on, at stage 1 with none and with two dealings.
fn runs_begun_by_su() -> Vec<Run> {
    let logs = [
        worked()[..SETUP].to_vec(),
        worked()[..SETUP + 2 * DEALING].to_vec(),
        up_to_dealings(1, 4),
        up_to_complaints(),
        up_to_challenges(),
        worked(),
        too_many_bad(),
    ];
    logs.iter().map(|log| run_of(log)).collect()
}

#[test]
fn the_worked_log_begun_by_sx_has_its_page() {
    let page = "hold 2 3 4\nqual 1 2 3\nbad -\nsig 1 1 64 4\nsig 2 1 65536 10\nend 5\n";
    let log = [&waiting(3)[..], b"GO", &worked()[SETUP + 3 * DEALING..]].concat();
    assert_eq!(report(&log), page);
    assert_eq!(as_waiting(&worked()), log);
}

/// By hand: H_4 = 1 + 2x, so R(1,1) is 64 × 4, R(2,1) is 4^(8+4) and R(3,1) is
/// 4^(22+16); φ(1,1) is 4 + 1, φ(2,1) is 8 + 2 + 4 and φ(3,1) is 22 + 16 + 3.
#[test]
fn a_fourth_dealing_signs_once_more() {
    let signatures = "sig 1 1 256 5\nsig 2 1 16777216 14\nsig 3 1 281040073 41\n";
    let page = format!("hold 2 3 4\nqual 1 2 3 4\nbad -\n{signatures}end 5\n");
    assert_eq!(report(&four_done()), page);
    assert_eq!(Element::of(Scalar::of(38)).number(), 281_040_073);
}

#[test]
fn go_is_refused_in_order() {
    for dealings in 0..=4 {
        let mut run = run_of(&waiting(dealings));
        let enough = dealings >= 3;
        assert_eq!(given(&run, b"G"), 1);
        assert_eq!(given(&run, b"go"), 1);
        assert_eq!(given(&run, b"GO\0"), 2, "{dealings}");
        assert_eq!(given(&run, b"GOGO"), 2, "{dealings}");
        assert_eq!(answer_number(run.give(b"GO")), if enough { 0 } else { 17 }, "{dealings}");
        let stage = if enough { Stage::Complaining } else { Stage::Dealing };
        assert_eq!((run.stage, run.dealings.len()), (stage, dealings));
    }
}

#[test]
fn no_other_run_takes_go() {
    let mut runs = [runs_after_go(), runs_begun_by_su()].concat();
    runs.push(Run::fresh());
    for run in runs {
        for bytes in [&b"GO"[..], b"GO\0", b"GOGO"] {
            assert_eq!(given(&run, bytes), 11, "stage {}", run.stage.number());
        }
        assert_eq!(given(&run, b"G"), 1);
    }
}

/// A setup of 11,2,3 with these faults; cut or one byte too long where 2 is one.
fn faulty(tag: &str, faults: &[u8], longer: bool) -> Vec<u8> {
    let has = |fault: u8| faults.contains(&fault);
    let keys = [if has(16) { 1 } else { 4 }, 16, if has(7) { 5 } else { 64 }];
    let fields = [if has(4) { 10 } else { 11 }, 2, 3, u8::from(has(3))];
    let mut setup = record(tag, &fields, &keys);
    match (has(2), longer) {
        (true, true) => setup.push(0),
        (true, false) => setup.truncate(setup.len() - 1),
        (false, _) => {}
    }
    setup
}

/// Every choice of faults: the first in the order 2, 3, 4, 7, 16 gives the number, and
/// SX gets the number of SU.
#[test]
fn sx_is_refused_as_su() {
    let order = [2, 3, 4, 7, 16];
    for choice in 0..1 << order.len() {
        let chosen = (0..order.len()).filter(|place| choice >> place & 1 == 1);
        let faults: Vec<u8> = chosen.map(|place| order[place]).collect();
        let number = faults.first().copied().unwrap_or(0);
        for longer in [false, true] {
            for tag in ["SU", "SX"] {
                let setup = faulty(tag, &faults, longer);
                assert_eq!(given(&Run::fresh(), &setup), number, "{tag} {faults:?}");
                let late = [runs_after_go(), runs_begun_by_su(), vec![run_of(&waiting(4))]];
                assert!(late.concat().iter().all(|run| given(run, &setup) == 11));
            }
        }
    }
    for length in 2..6 {
        assert_eq!(given(&Run::fresh(), &faulty("SX", &[], false)[..length]), 2);
    }
    assert_eq!(faulty_setups(&faulty("SX", &[], false)).len(), 7);
}

#[test]
fn sx_gives_the_setup_of_su() {
    let (by_su, by_sx) = (run_of(&worked()[..SETUP]), run_of(&waiting(0)));
    let (su, sx) = (by_su.setup.expect("a setup"), by_sx.setup.expect("a setup"));
    assert_eq!(
        (su.params, su.public_key, &su.holder_keys),
        (sx.params, sx.public_key, &sx.holder_keys)
    );
    assert_eq!((su.waits, sx.waits), (false, true));
}

#[test]
fn a_dealing_after_n_is_refused_by_its_dealer() {
    let run = run_of(&waiting(4));
    assert_eq!(run.stage, Stage::Dealing);
    for dealer in 1..=4 {
        let good = record("DE", &[dealer, 0], &[4, 4, 1, 1, 1, 1]);
        let with = |place: usize, byte: u8| {
            let mut record = good.clone();
            record[place] = byte;
            record
        };
        assert_eq!(given(&run, &good), 12);
        assert_eq!(given(&run, &good[..27]), 2);
        assert_eq!(given(&run, &with(3, 1)), 3);
        assert_eq!(given(&run, &with(2, 0)), 5);
        assert_eq!(given(&run, &with(2, 5)), 5);
        assert_eq!(given(&run, &with(7, 5)), 7);
        assert_eq!(given(&run, &with(24, 255)), 6);
    }
    for run in runs_after_go() {
        assert_eq!(given(&run, &record("DE", &[4, 0], &[4, 4, 1, 1, 1, 1])), 11);
    }
}

/// m and b of a run, and its lengths of CH, CS and RE.
type Fixed = (Option<usize>, Option<u32>, [Option<usize>; 3]);

fn fixed(run: &Run) -> Fixed {
    let lengths = [Tag::Ch, Tag::Cs, Tag::Re].map(|tag| run.length(tag));
    (run.dealing_count(), run.combinations(), lengths)
}

#[test]
fn go_fixes_the_lengths() {
    assert_eq!(fixed(&Run::fresh()), (None, None, [None; 3]));
    assert_eq!(Run::fresh().length(Tag::Go), None);
    for dealings in 0..=4 {
        let mut run = run_of(&waiting(dealings));
        assert_eq!(fixed(&run), (None, None, [None; 3]), "{dealings}");
        assert_eq!([Tag::De, Tag::Ve, Tag::Go].map(|tag| run.length(tag)), [28, 8, 2].map(Some));
        if dealings >= 3 {
            assert_eq!(run.give(b"GO"), Ok(()));
            let b = dealings - 1;
            let lengths = [4 + 4 * b, 8 + 4 * b, 4 + 4 * b].map(Some);
            assert_eq!(fixed(&run), (Some(dealings), Some(b as u32), lengths));
        }
    }
    for run in runs_begun_by_su() {
        assert_eq!(fixed(&run), (Some(3), Some(2), [12, 16, 12].map(Some)));
    }
}

/// A page with these refusals, by position and number, no sets, and this stage.
fn unfixed(refusals: &[(usize, u8)], stage: u8) -> String {
    let line = |&(position, number): &(usize, u8)| format!("refuse {position} {number}\n");
    let lines: String = refusals.iter().map(line).collect();
    format!("{lines}{NO_SETS}end {stage}\n")
}

#[test]
fn records_without_a_length_end_the_reading() {
    let rest = &four_done()[SETUP + 4 * DEALING..];
    for dealings in 0..=4 {
        let log = waiting(dealings);
        for tag in ["CH", "CS", "RE"] {
            let page = unfixed(&[(dealings + 2, 11)], 1);
            let row = record(tag, &[0, 0], &[1, 2, 3]);
            assert_eq!(report(&[&log[..], tag.as_bytes()].concat()), page);
            assert_eq!(report(&[&log[..], &row].concat()), page);
            assert_eq!(report(&[&log[..], &row, b"GO", rest].concat()), page);
        }
        let row = record("VE", &[2, 0], &[0]);
        let page = unfixed(&[(dealings + 2, 11), (dealings + 3, 1)], 1);
        assert_eq!(report(&[&log[..], &row, b"XX"].concat()), page);
        let page = unfixed(&[(dealings + 2, 11)], 1);
        assert_eq!(report(&[&log[..], &row[..7]].concat()), page);
    }
}

#[test]
fn go_is_passed_over_by_two_bytes() {
    assert_eq!(report(b"GO"), unfixed(&[(1, 11)], 0));
    assert_eq!(report(&[b"GO", &four_done()[..]].concat()), unfixed(&[(1, 11)], 0));
    assert_eq!(report(b"G"), unfixed(&[(1, 1)], 0));
    let begun = |rest: &[u8]| report(&[&waiting(0), rest].concat());
    assert_eq!(begun(b"G"), unfixed(&[(2, 1)], 1));
    assert_eq!(begun(b"GOGO"), unfixed(&[(2, 17), (3, 17)], 1));
    assert_eq!(begun(b"GO\0"), unfixed(&[(2, 17), (3, 1)], 1));
    let dealt = |rest: &[u8]| report(&[&waiting(3), rest].concat());
    assert_eq!(dealt(b"GO"), unfixed(&[], 2));
    assert_eq!(dealt(b"GOGO"), unfixed(&[(6, 11)], 2));
    assert_eq!(dealt(b"GO\0\0"), unfixed(&[(6, 1)], 2));
    let by_su = [&up_to_dealings(1, 4)[..SETUP + 2 * DEALING], b"GOGO"].concat();
    assert_eq!(report(&by_su), unfixed(&[(4, 11), (5, 11)], 1));
    let done = [four_done(), b"GOG".to_vec()].concat();
    let end = report(&four_done());
    assert_eq!(report(&done), format!("refuse 13 11\nrefuse 14 1\n{end}"));
}

#[test]
fn late_setups_are_passed_over_by_their_own_t() {
    for (log, stage) in [(waiting(0), 1), (worked()[..SETUP].to_vec(), 1), (waiting(4), 1)] {
        let first = log.len().div_ceil(DEALING) + 1;
        for t in [0, 1, 2, 255] {
            let late = plain_setup(4, t, 1);
            for setup in [late.clone(), as_sx(late)] {
                let whole = [&log[..], &setup, &setup].concat();
                assert_eq!(report(&whole), unfixed(&[(first, 11), (first + 1, 11)], stage));
                for length in [2, 5, 6, setup.len() - 1] {
                    let cut = [&log[..], &setup[..length]].concat();
                    assert_eq!(report(&cut), unfixed(&[(first, 11)], stage));
                }
            }
        }
    }
    for length in 2..SETUP {
        assert_eq!(report(&waiting(0)[..length]), unfixed(&[(1, 2)], 0));
    }
}

/// CH and RE as long as n-2t would have them eat into what comes next.
#[test]
fn records_are_cut_by_b() {
    let start =
        [waiting(4), b"GO".to_vec(), up_to_complaints()[up_to_dealings(1, 4).len()..].to_vec()];
    let start = start.concat();
    let sets = "hold 2 3 4\nqual 1 2 3 4\nbad -\n";
    let last = [&start[..], &challenges()].concat();
    assert_eq!(report(&last), format!("refuse 10 2\n{sets}end 3\n"));
    // the third challenge is the beginning of RE, which is no scalar
    let more = [&last[..], &response(2, [15, 42])].concat();
    assert_eq!(report(&more), format!("refuse 10 6\nrefuse 11 1\n{sets}end 3\n"));
    let row = [&four_challenged()[..], &response(2, [15, 42])].concat();
    assert_eq!(report(&row), format!("refuse 11 2\n{sets}end 4\n"));
}

#[test]
fn the_same_records_have_the_same_page() {
    let mut rng = Rng::new(21);
    let mut logs = vec![worked(), shifted(5), document::one_bad(), too_many_bad()];
    for params in [(4, 1, 1), (9, 2, 2), (32, 10, 1), (33, 1, 1), (64, 4, 1)] {
        let draft = identity::draft_of(params, &mut rng).with_bad_dealers(1, &mut rng);
        logs.push(completed(draft.clone(), &mut rng));
        logs.push(completed(draft.with_shift(Scalar::of(77)), &mut rng));
    }
    for log in logs {
        let waiting = as_waiting(&log);
        assert_eq!(waiting.len(), log.len() + 2);
        assert_eq!(report(&waiting), report(&log));
    }
}

fn signature_lines(page: &str) -> Vec<&str> {
    page.lines().filter(|line| line.starts_with("sig ")).collect()
}

#[test]
fn other_responders_and_orders_sign_the_same() {
    let mut rng = Rng::new(22);
    for params in [(4, 1, 1), (11, 2, 2), (33, 1, 1)] {
        let draft = draft_of_all(params, &mut rng).with_bad_dealers(1, &mut rng);
        let pages: Vec<String> =
            same_signatures(&draft, &mut rng).iter().map(|log| report(log)).collect();
        let lines = signature_lines(&pages[0]);
        assert_eq!(lines.len(), usize::from((params.0 - params.1) * params.2));
        assert!(pages.iter().all(|page| signature_lines(page) == lines));
    }
}

/// φ(u,k) is the sum over QUAL of i^(u-1) × H_i(1-k), plus e(u,k) × s, and
/// 4^φ = R × S^e, for u to m-t.
#[test]
fn every_signature_comes_from_the_secrets() {
    let mut rng = Rng::new(23);
    for (params, extra) in
        [((4, 1, 1), 1), ((9, 2, 2), 0), ((9, 2, 2), 1), ((9, 2, 2), 2), ((33, 2, 3), 2)]
    {
        let draft = waiting_draft(params, extra, &mut rng).with_bad_dealers(1, &mut rng);
        let draft = draft_at(Stage::Done, draft, &mut rng);
        let (run, a) = (run_of(&draft.bytes), usize::from(params.2));
        let m = usize::from(params.0 - params.1) + extra;
        let sets = run.sets.as_ref().expect("the sets are fixed");
        assert_eq!(sets.qual.len() + sets.bad.len(), m);
        assert_eq!(
            (run.dealing_count(), run.signatures.len()),
            (Some(m), m - usize::from(params.1))
        );
        let nonces = run.nonces();
        for (u, row) in run.signatures.iter().enumerate() {
            for (slot, &signature) in row.iter().enumerate() {
                let challenge = run.challenges[u][slot];
                let mut sum = challenge * draft.committee.secret;
                for &dealer in &sets.qual {
                    let value = draft.committee.dealings[dealer as usize - 1][a - 1 - slot];
                    sum = sum + Scalar::of(i64::from(dealer)).power(u as u32) * value;
                }
                let key = Element::of(draft.committee.secret);
                assert_eq!(signature, sum);
                assert_eq!(Element::of(signature), nonces[u][slot] * key.power(challenge));
            }
        }
    }
}

/// The extra dealers of a committee are bad, and one more of the others.
#[test]
fn extra_dealers_are_blamed() {
    let mut rng = Rng::new(24);
    for params in [(4, 1, 1), (9, 2, 2), (33, 2, 1)] {
        let draft = draft_of_all(params, &mut rng);
        let extra: Vec<Party> = extra_dealers(&draft).to_vec();
        let run = run_of(&completed(draft.clone().with_bad(&extra, &mut rng), &mut rng));
        assert_eq!(run.stage, Stage::Done);
        assert_eq!(run.sets.expect("the sets are fixed").bad, extra.iter().copied().collect());
        let more = [&extra[..], &draft.dealers[..1]].concat();
        let run = run_of(&completed(draft.clone().with_bad(&more, &mut rng), &mut rng));
        assert_eq!(run.stage, Stage::Failed);
        let draft = draft.with_bad(&extra, &mut rng).with_silence();
        let sets = run_of(&completed(draft, &mut rng)).sets.expect("the sets are fixed");
        assert_eq!(sets.qual, (1..=Party::from(params.0)).collect());
    }
}

/// The page of a log with so many refused GO behind its beginning.
fn flood_page(beginning: &[u8], first: usize, number: u8, end: &str) {
    let log = flooded(beginning.to_vec(), LONGEST_LOG);
    let count = (LONGEST_LOG - beginning.len()) / 2;
    let lines = (first..first + count).map(|position| format!("refuse {position} {number}\n"));
    assert!(report(&log) == lines.collect::<String>() + end, "{first} {number}");
    assert!(count > 32_000);
    assert_eq!(report(&flooded(beginning.to_vec(), LONGEST_LOG + 1)), "long\n");
    let cut = report(&flooded(beginning.to_vec(), LONGEST_LOG - 1));
    assert!(cut.contains(&format!("refuse {} 1\n", first + count - 1)));
}

#[test]
fn floods_are_refused_one_by_one() {
    flood_page(&worked()[..SETUP], 2, 11, &unfixed(&[], 1));
    flood_page(&waiting(0), 2, 17, &unfixed(&[], 1));
    flood_page(&waiting(2), 4, 17, &unfixed(&[], 1));
    flood_page(&[waiting(4), b"GO".to_vec()].concat(), 7, 11, &unfixed(&[], 2));
    flood_page(&four_done(), 13, 11, &report(&four_done()));
}

#[test]
fn the_complaint_writer_waits_for_go() {
    let mut buffer = [7; 8];
    for dealings in 0..=4 {
        let run = run_of(&waiting(dealings));
        assert_eq!(write_ve(&run, 2, &mut buffer), Err(Refusal::Stage));
        assert_eq!(buffer, [7; 8]);
    }
    let mut wrong = waiting(4);
    let last = wrong.len() - 1;
    wrong[last] = 10;
    let mut run = run_of(&[&wrong[..], b"GO"].concat());
    assert_eq!(write_ve(&run, 4, &mut buffer), Ok(()));
    assert_eq!(buffer.to_vec(), record("VE", &[4, 0], &[8]));
    assert_eq!(run.give(&buffer), Ok(()));
}

/// What the RE writer answers at stage 4 of the log with four dealings.
fn written(shares: [u32; 4], length: usize) -> (u8, Vec<u8>) {
    let mut buffer = vec![7; length];
    let answer = write_re(&run_of(&four_challenged()), 2, 3, &shares, &mut buffer);
    (answer_number(answer), buffer)
}

#[test]
fn the_response_writer_goes_by_b() {
    assert_eq!(written([2, 1, 4, 5], 16), (0, record("RE", &[2, 0], &[15, 42, 131])));
    for length in [0, 8, 12, 15, 17, 20] {
        assert_eq!(written([2, 1, 4, 5], length), (9, vec![7; length]));
    }
    assert_eq!(written([2, 1, 4, Q], 16), (6, vec![7; 16]));
    assert_eq!(written([2, 1, 4, Q - 1], 16).0, 0);
    let mut rng = Rng::new(25);
    for extra in 0..=2 {
        let draft = waiting_draft((9, 2, 2), extra, &mut rng);
        let bad = draft.dealers[6 + extra];
        let draft = draft_at(Stage::Responding, draft.with_bad(&[bad], &mut rng), &mut rng);
        let (run, j) = (run_of(&draft.bytes), draft.holders[0]);
        let (key_share, shares) =
            (draft.committee.key_share(j).number(), draft.committee.shares_for(j));
        for dealer in 1..=9 {
            let mut shares = shares.clone();
            shares[dealer as usize - 1] = Q;
            let read = dealer != bad && draft.dealers.contains(&dealer);
            let mut buffer = vec![7; 4 + 4 * (5 + extra)];
            let answer = write_re(&run, j as u8, key_share, &shares, &mut buffer);
            assert_eq!(answer, if read { Err(Refusal::Scalar) } else { Ok(()) });
            assert!(read || given(&run, &buffer) == 0);
        }
    }
}

/// Drafts with every number of dealings before GO.
#[test]
fn go_waits_for_the_fewest_dealings() {
    let mut rng = Rng::new(26);
    for (n, t, a) in [(7, 2, 1), (33, 2, 1), (64, 3, 2)] {
        let draft = draft_of_all((n, t, a), &mut rng);
        for count in [0, n - t - 1, n - t, n - t + 1, n] {
            let mut run = with_dealings(draft.clone(), usize::from(count), &mut rng).run;
            let number = answer_number(run.give(b"GO"));
            assert_eq!(number, if count < n - t { 17 } else { 0 });
            assert_eq!(run.combinations(), (number == 0).then(|| u32::from(count - t)));
        }
    }
}

/// Logs at the limits of the format.
fn edge_logs() -> Vec<NamedLog> {
    let (mut gathered, mut rng) = (LogSet::default(), Rng::new(27));
    let groups = [
        wait_edges::go_logs,
        wait_edges::dealing_logs,
        wait_edges::setup_logs,
        wait_lengths::before_go_logs,
        wait_lengths::length_logs,
        wait_lengths::flood_logs,
    ];
    for group in groups {
        group(&mut gathered, &mut rng);
    }
    gathered.logs
}

/// What is missing of runs that wait without the logs whose kinds begin so.
fn missing_without(logs: &[NamedLog], words: &[&str]) -> Vec<String> {
    let mut coverage = Coverage::default();
    for log in logs.iter().filter(|log| !words.iter().any(|word| log.kind.starts_with(word))) {
        coverage.add(&log.bytes);
    }
    coverage.missing_waits()
}

/// Kinds of logs, and what no other kind at the limits of the format shows.
const SHOWN_ALONE: [(&[&str], &[&str]); 8] = [
    (&["wait-go-first"], &["GO answered 11 at stage 0"]),
    (&["wait-flood-by-su"], &["over 32000 GO answered 11 in a run begun by SU"]),
    (
        &["wait-flood-early", "wait-flood-then-done"],
        &["over 32000 GO answered 17 in a run begun by SX"],
    ),
    (&["wait-size", "wait-flood-taken"], &["over 32000 GO answered 11 in a run begun by SX"]),
    (
        &["wait-setup-cut"],
        &[
            "SX answered 2 at stage 0",
            "SX under six bytes answered 2",
            "SX under six bytes answered 11",
        ],
    ),
    (
        &["wait-setup-refused"],
        &["SX answered 3 at stage 0", "SX answered 7 at stage 0", "SX answered 16 at stage 0"],
    ),
    (&["wait-go-early"], &["VE before GO, passed over"]),
    (
        &["wait-other-length"],
        &[
            "CH answered 2 with n-2t in place of b",
            "CS answered 2 with n-2t in place of b",
            "RE answered 2 with n-2t in place of b",
        ],
    ),
];

/// The logs at the limits show all but how runs end, and dealings after stage 6; without
/// some of them, what these alone show is missing.
#[test]
fn the_coverage_asks_for_each() {
    let logs = edge_logs();
    let of_ends = missing_without(&logs, &[]);
    let ends = ["done with", "failed with", "DE answered 11 at stage 6"];
    let is_end = |what: &String| ends.iter().any(|end| what.starts_with(end));
    assert!(of_ends.iter().all(is_end), "{of_ends:?}");
    assert!(of_ends.contains(&"done with b = 63".to_string()));
    for (kinds, alone) in SHOWN_ALONE {
        let missing = missing_without(&logs, kinds).into_iter();
        let more: Vec<String> = missing.filter(|what| !of_ends.contains(what)).collect();
        assert_eq!(more, alone, "{kinds:?}");
    }
    let before_go = missing_without(&logs, &["wait-before-go"]);
    for tag in ["CH", "CS", "RE"] {
        for count in ["no dealing", "n-t-1 dealings", "n-t dealings", "n dealings"] {
            let what = format!("{tag} answered 11 after {count} of a run that waits");
            assert!(before_go.contains(&what) && !of_ends.contains(&what), "{what}");
        }
    }
    assert_eq!(missing_without(&[], &[]), wanted());
}

/// What is missing of the ends of runs after these logs.
fn ends_missing(logs: &[Vec<u8>]) -> Vec<String> {
    let mut coverage = Coverage::default();
    logs.iter().for_each(|log| coverage.add(log));
    let ends = ["done with", "failed with"];
    let missing = coverage.missing_waits().into_iter();
    missing.filter(|what| ends.iter().any(|end| what.starts_with(end))).collect()
}

/// Each end of a run is shown by just the logs that come to it.
#[test]
fn the_coverage_asks_for_each_end() {
    let mut rng = Rng::new(28);
    let all = ends_missing(&[]);
    let shown_by = |log: Vec<u8>| -> Vec<String> {
        let missing = ends_missing(&[log]);
        all.iter().filter(|what| !missing.contains(what)).cloned().collect()
    };
    assert_eq!(shown_by(worked()), Vec::<String>::new());
    assert_eq!(shown_by(four_challenged()), Vec::<String>::new());
    let one = |what: &str| vec![format!("{what}, up to 32 parties")];
    assert_eq!(shown_by(as_waiting(&worked())), one("done with n-t dealings after CH"));
    assert_eq!(shown_by(as_waiting(&shifted(5))), one("done with n-t dealings after CS"));
    let both = [one("done with n dealings after CH"), one("done with an extra dealer in QUAL")];
    assert_eq!(shown_by(four_done()), both.concat());
    let draft = waiting_draft((33, 2, 1), 1, &mut rng);
    let bad = extra_dealers(&draft).to_vec();
    let log = completed(draft.with_bad(&bad, &mut rng), &mut rng);
    let words = ["done with n-t+1 to n-1 dealings after CH", "done with an extra dealer in BAD"];
    assert_eq!(shown_by(log), words.map(|what| format!("{what}, 33 to 64 parties")));
    let draft = draft_of_all((4, 1, 1), &mut rng);
    let everyone = draft.dealers.clone();
    let log = completed(draft.with_bad(&everyone, &mut rng), &mut rng);
    assert_eq!(shown_by(log), one("failed with an extra dealer in BAD"));
}
