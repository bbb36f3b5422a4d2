//! Where a log is cut and where reading ends, and the set of generated logs.

use second::count_coverage;
use second::coverage::Coverage;
use second::generator::document::{plain_setup, record, shifted, up_to_challenges, worked};
use second::generator::log_set::NamedLog;
use second::generator::logs::all_logs;
use second::report::{report, LONGEST_LOG};
use second::wait_coverage;
use second::wide_coverage::wanted;
use std::sync::OnceLock;

/// The logs of seed 1, made once.
fn logs() -> &'static [NamedLog] {
    static LOGS: OnceLock<Vec<NamedLog>> = OnceLock::new();
    LOGS.get_or_init(|| all_logs(1))
}

const NO_SETS: &str = "hold -\nqual -\nbad -\n";

#[test]
fn empty_log() {
    assert_eq!(report(b""), format!("{NO_SETS}end 0\n"));
}

#[test]
fn longest_log_is_read() {
    assert_eq!(report(&vec![0; LONGEST_LOG]), format!("refuse 1 1\n{NO_SETS}end 0\n"));
    assert_eq!(report(&vec![0; LONGEST_LOG + 1]), "long\n");
}

#[test]
fn reading_ends_at_stage_0_on_another_tag() {
    for rest in [&b"DE"[..], b"VE\x01\0\0\0\0\0", b"CH\0\0", b"CS\0\0", b"RE\x01", b"GO"] {
        assert_eq!(report(rest), format!("refuse 1 11\n{NO_SETS}end 0\n"));
    }
}

#[test]
fn reading_ends_on_an_unknown_tag() {
    let setup = plain_setup(4, 1, 1);
    for rest in [&b"S"[..], b"XX", b"su\x04\x01\x01\0"] {
        let page = format!("refuse 2 1\n{NO_SETS}end 1\n");
        assert_eq!(report(&[&setup, rest].concat()), page);
        assert_eq!(report(&[&setup, rest, &setup].concat()), page);
    }
}

#[test]
fn refused_setups_are_passed_over_by_their_own_length() {
    let log =
        [plain_setup(4, 255, 1), plain_setup(4, 0, 1), plain_setup(4, 1, 1), plain_setup(8, 2, 1)];
    let page = format!("refuse 1 4\nrefuse 2 4\nrefuse 4 11\n{NO_SETS}end 1\n");
    assert_eq!(report(&log.concat()), page);
}

#[test]
fn a_cut_record_is_the_last() {
    let setup = plain_setup(4, 1, 1);
    for length in 2..setup.len() {
        assert_eq!(report(&setup[..length]), format!("refuse 1 2\n{NO_SETS}end 0\n"));
        let late = [&setup, &setup[..length]].concat();
        assert_eq!(report(&late), format!("refuse 2 11\n{NO_SETS}end 1\n"));
    }
    let dealing = record("DE", &[1, 0], &[1, 4, 1, 2, 3, 4]);
    for length in 2..dealing.len() {
        let log = [&setup, &dealing[..length]].concat();
        assert_eq!(report(&log), format!("refuse 2 2\n{NO_SETS}end 1\n"));
    }
}

#[test]
fn reading_goes_on_after_the_end() {
    let log =
        [worked(), plain_setup(4, 1, 1), record("VE", &[1, 0], &[0]), b"RE".to_vec()].concat();
    let page = report(&log);
    assert!(page.starts_with("refuse 11 11\nrefuse 12 11\nrefuse 13 11\nhold 2 3 4\n"));
    assert!(page.ends_with("end 5\n"));
}

#[test]
fn a_refused_complaint_blames_nobody() {
    let start = &up_to_challenges()[..14 + 3 * 28];
    let rows =
        [(2, 4), (2, 0), (3, 8), (3, 0), (4, 0)].map(|(j, mask)| record("VE", &[j, 0], &[mask]));
    let page = "refuse 5 13\nrefuse 7 13\nhold 2 3 4\nqual 1 2 3\nbad -\nend 3\n";
    assert_eq!(report(&[start, &rows.concat()].concat()), page);
}

#[test]
fn generated_logs_cover_everything() {
    assert!(logs().len() >= 320);
    let mut coverage = Coverage::default();
    for log in logs() {
        let meant_long = log.kind.contains("size-65537") || log.kind.starts_with("size-over");
        assert_eq!(log.bytes.len() > LONGEST_LOG, meant_long, "{}", log.kind);
        coverage.add(&log.bytes);
    }
    assert_eq!(coverage.missing(), Vec::<String>::new());
}

/// What the logs reach whose kinds have none of these words.
fn coverage_without(words: &[&str]) -> Coverage {
    let mut coverage = Coverage::default();
    for log in logs().iter().filter(|log| !words.iter().any(|word| log.kind.contains(word))) {
        coverage.add(&log.bytes);
    }
    coverage
}

/// What the logs reach that are neither of more than 32 parties nor about identities,
/// nor of runs that wait, nor about the bytes that fix the sets, found once.
fn first_coverage() -> Coverage {
    static COVERAGE: OnceLock<Coverage> = OnceLock::new();
    COVERAGE
        .get_or_init(|| coverage_without(&["wide", "identity", "count", "wait", "sets"]))
        .clone()
}

/// What is missing, more than 32 parties, identities, the size of BAD, runs that wait
/// and the sets alone aside, and refusal 17, which only runs that wait give.
fn missing_else(coverage: &Coverage) -> Vec<String> {
    let mut aside = coverage.missing_wide();
    aside.extend(coverage.missing_identities());
    aside.extend(coverage.missing_counts());
    aside.extend(coverage.missing_waits());
    aside.extend(coverage.missing_sets());
    aside.push("refusal 17".to_string());
    coverage.missing().into_iter().filter(|what| !aside.contains(what)).collect()
}

/// Without CS the coverage is not whole.
#[test]
fn shifts_are_asked_for() {
    let mut coverage = coverage_without(&["shift", "wide", "identity", "count", "wait", "sets"]);
    let answers = [0, 11, 2, 3, 6].map(|number| format!("CS answered {number}"));
    let ends = ["done with the shift 0", "done with another shift"].map(str::to_string);
    assert_eq!(missing_else(&coverage), [&answers[..], &ends].concat());
    coverage.add(&shifted(0));
    assert_eq!(missing_else(&coverage), [&answers[1..], &ends[1..]].concat());
    coverage.add(&shifted(5));
    assert_eq!(missing_else(&coverage), answers[1..]);
}

/// Without logs of more than 32 parties the coverage is not whole: but for what
/// one log of setups shows, all is missing that it asks of 33, 63 and 64 parties.
#[test]
fn more_than_32_parties_are_asked_for() {
    let mut coverage = first_coverage();
    assert_eq!(missing_else(&coverage), Vec::<String>::new());
    let missing = coverage.missing_wide();
    let of_more = |what: &String| {
        ["33 parties", "63 parties", "64 parties", "above 32"].iter().any(|of| what.contains(of))
    };
    let shown = wanted().into_iter().filter(|what| of_more(what) && !missing.contains(what));
    let by_setups = [("SU", 11), ("SU", 4), ("DE", 6)]
        .map(|(tag, number)| format!("{tag} answered {number} with 33 parties"));
    assert_eq!(shown.collect::<Vec<String>>(), by_setups);
    let done = "64 parties done after CS".to_string();
    assert!(missing.contains(&done));
    let log = logs().iter().find(|log| log.kind == "wide-shifted-64-15-10").expect("such a log");
    coverage.add(&log.bytes);
    assert!(!coverage.missing_wide().contains(&done));
}

/// Without the logs about identities the coverage is not whole.
#[test]
fn identities_are_asked_for() {
    let done = "done after SU answered 16".to_string();
    assert!(first_coverage().missing().contains(&done));
}

/// Without logs of more than 32 parties nothing is shown that is asked of the size
/// of BAD.
#[test]
fn sizes_of_bad_are_asked_for() {
    assert_eq!(first_coverage().missing_counts(), count_coverage::wanted());
}

/// Without the logs of runs that wait, nothing is shown that is asked of them.
#[test]
fn runs_that_wait_are_asked_for() {
    let coverage = first_coverage();
    assert_eq!(coverage.missing_waits(), wait_coverage::wanted());
    assert!(wait_coverage::wanted().iter().all(|what| coverage.missing().contains(what)));
    assert!(coverage.missing().contains(&"refusal 17".to_string()));
}

/// Without the logs about the bytes that fix the sets, and of runs that wait, not all is
/// shown that is asked of the sets alone.
#[test]
fn the_sets_alone_are_asked_for() {
    let coverage = first_coverage();
    let (missing, all) = (coverage.missing_sets(), coverage.missing());
    assert!(missing.contains(&"GO alone ends the reading at stage 0 and counts 2".to_string()));
    assert!(missing.iter().all(|what| all.contains(what)));
}

/// Does the log begin with a setup whose S is 1?
fn has_identity_key(log: &NamedLog) -> bool {
    log.bytes.starts_with(b"SU") && log.bytes.get(6..10) == Some(&[0, 0, 0, 1])
}

/// Is the log from before request 2.3, with such a setup? Later ones have a good setup
/// after it.
fn ends_with_its_key(log: &NamedLog) -> bool {
    let later = ["identity", "wait", "sets"].iter().any(|word| log.kind.contains(word));
    !later && has_identity_key(log)
}

/// Lots had drawn s = 0 for some logs before request 2.3. They keep their bytes, and
/// reading them ends with what comes after their setup.
#[test]
fn some_earlier_logs_have_the_identity_as_their_key() {
    let refused: Vec<&NamedLog> = logs().iter().filter(|log| ends_with_its_key(log)).collect();
    assert_eq!(refused.len(), 21);
    for log in refused {
        let page = format!("refuse 1 16\nrefuse 2 11\n{NO_SETS}end 0\n");
        assert_eq!(report(&log.bytes), page, "{}", log.kind);
    }
}

/// Kinds of logs that end with signatures.
const COMPLETED: [&str; 40] = [
    "complete-32-1-15",
    "complete-32-10-1",
    "full-packing",
    "size-ends-done",
    "shift-complete-32-1-15",
    "shift-complete-32-10-1",
    "wide-complete",
    "wide-shifted",
    "wide-bad-at-limit",
    "wide-size-65536",
    "identity-key",
    "identity-refused-first",
    "identity-of-every-size",
    "identity-flood",
    "identity-and-no-element",
    "identity-holder-keys",
    "identity-commitments",
    "identity-zero-dealing",
    "identity-rekeyed-complete",
    "count-low-bad-at-limit",
    "count-high-bad-at-limit",
    "count-both-bad-at-limit",
    "wait-example",
    "wait-complete",
    "wait-noisy",
    "wait-very-noisy",
    "wait-in-noise-alone",
    "wait-every-fault",
    "wait-largest",
    "wait-bad",
    "wait-other-order",
    "wait-go-early",
    "wait-go-one-early",
    "wait-dealt-late",
    "wait-setup-refused",
    "wait-flood-then-done",
    "wait-size-65536",
    "sets-3-then-done",
    "sets-refused-go-early",
    "sets-refused-setups-late",
];

#[test]
fn large_committees_are_completed() {
    for kind in COMPLETED {
        for log in logs().iter().filter(|log| log.kind.starts_with(kind)) {
            let end = if ends_with_its_key(log) { "end 0\n" } else { "end 5\n" };
            assert!(report(&log.bytes).ends_with(end), "{}", log.kind);
        }
    }
}

#[test]
fn the_same_seed_gives_the_same_logs() {
    let again = all_logs(1);
    assert_eq!(logs().len(), again.len());
    for (one, other) in logs().iter().zip(&again) {
        assert!(one.kind == other.kind && one.bytes == other.bytes);
    }
}
