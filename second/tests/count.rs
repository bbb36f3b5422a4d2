//! Logs about the size of BAD beside t (request 2.4), and what the coverage asks of
//! them.

use second::count_coverage::wanted;
use second::coverage::Coverage;
use second::generator::count::bad_logs;
use second::generator::log_set::{LogSet, NamedLog};
use second::log::read_log;
use second::report::report;
use second::rng::Rng;
use second::run::Stage;
use std::sync::OnceLock;

/// The logs about the size of BAD, made once.
fn logs() -> &'static [NamedLog] {
    static LOGS: OnceLock<Vec<NamedLog>> = OnceLock::new();
    LOGS.get_or_init(|| {
        let mut gathered = LogSet::default();
        bad_logs(&mut gathered, &mut Rng::new(13));
        gathered.logs
    })
}

/// n and t of a log.
fn committee_of(log: &NamedLog) -> (u8, u8) {
    (log.bytes[2], log.bytes[3])
}

/// Their pages name as many bad dealers as they should, where they should be.
#[test]
fn the_size_of_bad_decides_the_stage() {
    assert_eq!(logs().len(), 30);
    for log in logs() {
        let page = report(&log.bytes);
        let line = page.lines().find_map(|line| line.strip_prefix("bad ")).expect("such a line");
        let bad: Vec<u32> = line.split(' ').map(|word| word.parse().expect("a number")).collect();
        let t = usize::from(committee_of(log).1);
        let at_limit = log.kind.ends_with("-bad-at-limit");
        let (size, end) = if at_limit { (t, "end 5\n") } else { (t + 1, "end 6\n") };
        assert_eq!(bad.len(), size, "{}", log.kind);
        assert!(page.ends_with(end), "{}", log.kind);
        let low = bad.iter().filter(|&&dealer| dealer <= 32).count();
        let side = if low == size {
            "count-low-"
        } else if low == 0 {
            "count-high-"
        } else {
            "count-both-"
        };
        assert!(log.kind.starts_with(side), "{line} of {}", log.kind);
    }
}

/// With t in BAD the last complaint row brings stage 3, with t+1 stage 6.
#[test]
fn the_last_complaint_row_brings_the_stage() {
    for log in logs() {
        let reading = read_log(&log.bytes);
        let last = 2 * reading.run.params().majority();
        let stage_after = |place: usize| {
            let end = reading.answers[place].place.end;
            read_log(&log.bytes[..end]).run.stage
        };
        let at_limit = log.kind.ends_with("-bad-at-limit");
        let stage = if at_limit { Stage::Challenging } else { Stage::Failed };
        assert_eq!(stage_after(last - 1), Stage::Complaining, "{}", log.kind);
        assert_eq!(stage_after(last), stage, "{}", log.kind);
    }
}

/// What is missing of the size of BAD without the logs left out.
fn missing_sizes(left_out: impl Fn(&NamedLog) -> bool) -> Vec<String> {
    let mut coverage = Coverage::default();
    for log in logs().iter().filter(|log| !left_out(log)) {
        coverage.add(&log.bytes);
    }
    coverage.missing_counts()
}

#[test]
fn each_size_of_bad_is_asked_for() {
    assert_eq!(missing_sizes(|_| false), Vec::<String>::new());
    assert_eq!(missing_sizes(|_| true), wanted());
    let (largest, others) = ("64 parties and t = 21", "33 to 64 parties and t from 2 to 20");
    for (side, place) in
        [("low", "all up to 32"), ("high", "all above 32"), ("both", "on both sides of 32")]
    {
        for (kind, size) in
            [("bad-at-limit", "done with t in BAD"), ("too-many-bad", "failed with t+1 in BAD")]
        {
            let kind = format!("count-{side}-{kind}");
            let missing = [largest, others].map(|of| format!("{size}, {place}, with {of}"));
            assert_eq!(missing_sizes(|log| log.kind == kind), missing);
            let of_largest = |log: &NamedLog| log.kind == kind && committee_of(log) == (64, 21);
            assert_eq!(missing_sizes(of_largest), missing[..1]);
        }
    }
}
