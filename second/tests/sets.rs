//! The sets alone, and the bytes that fix them (request 2.6).

use second::coverage::Coverage;
use second::generator::committee::{as_sx, with_identity_key};
use second::generator::course::completed;
use second::generator::document::{
    challenges, failing, false_blame, four_challenged, four_done, one_bad, outsider, plain_setup,
    record, response, shifted, shifted_challenges, too_many_bad, up_to_challenges,
    up_to_complaints, up_to_dealings, waiting_for_four, worked,
};
use second::generator::edges::padded;
use second::generator::log_set::{LogSet, NamedLog};
use second::generator::logs::all_logs;
use second::generator::wait_lengths::flooded;
use second::generator::waits::{as_waiting, draft_of_all, never_waiting};
use second::generator::{sets_brought, sets_ends, sets_sizes};
use second::log::{read_log, Given, Reading};
use second::records::Tag;
use second::report::{report, report_of, LONGEST_LOG};
use second::rng::Rng;
use second::run::{Run, Stage};
use second::sets::{consumed, sets, sets_of};
use second::sets_coverage::wanted;
use std::collections::BTreeSet;
use std::fs;
use std::io::Write;
use std::path::{Path, PathBuf};
use std::process::{Command, Stdio};
use std::sync::OnceLock;
use std::thread;

/// Logs of up to so many bytes take little time to read.
const SMALL: usize = 3_000;

const NO_SETS: &str = "hold -\nqual -\nbad -\n";

/// The sets of the worked log.
const WORKED: &str = "hold 2 3 4\nqual 1 2 3\nbad -\n";

/// What is printed with these sets and so many bytes.
fn printed(lines: &str, count: usize) -> String {
    format!("{lines}bytes {count}\n")
}

/// What is printed with no sets and so many bytes.
fn unfixed(count: usize) -> String {
    printed(NO_SETS, count)
}

/// SU has 14 bytes, a dealing 28 and a complaint row 8: 14 + 3 × 28 + 3 × 8 = 122.
#[test]
fn the_worked_log_and_its_cases() {
    let logs = [worked(), up_to_complaints(), up_to_challenges(), outsider(), failing()];
    for log in logs.into_iter().chain([shifted(0), shifted(5)]) {
        assert_eq!(sets(&log), printed(WORKED, 122));
    }
    assert_eq!(sets(&one_bad()), printed("hold 2 3 4\nqual 1 2\nbad 3\n", 122));
    assert_eq!(sets(&too_many_bad()), printed("hold 2 3 4\nqual 1\nbad 2 3\n", 122));
    assert_eq!(sets(&false_blame()), unfixed(14 + 3 * 28 + 8));
    assert_eq!(sets(&up_to_dealings(1, 4)), unfixed(98));
}

/// GO has 2 bytes more: 14 + 3 × 28 + 2 + 3 × 8 = 124, and with a fourth dealing 152.
#[test]
fn the_worked_log_begun_by_sx() {
    assert_eq!(sets(&as_waiting(&worked())), printed(WORKED, 124));
    let four = printed("hold 2 3 4\nqual 1 2 3 4\nbad -\n", 152);
    assert_eq!(sets(&four_done()), four);
    assert_eq!(sets(&four_challenged()), four);
    assert_eq!(sets(&waiting_for_four()), unfixed(14 + 4 * 28));
    let failed = as_waiting(&too_many_bad());
    assert_eq!(sets(&failed), printed("hold 2 3 4\nqual 1\nbad 2 3\n", 124));
}

/// The log cut anywhere counts its whole records up to the one that fixes the sets; this
/// is where they end.
fn check_cut(log: &[u8], ends: &[usize], lines: &str) {
    let last = ends[ends.len() - 1];
    for length in 0..=log.len() {
        let count = ends.iter().copied().filter(|&end| end <= length).max().unwrap_or(0);
        let shown = if length < last { NO_SETS } else { lines };
        assert_eq!(sets(&log[..length]), printed(shown, count), "{length} bytes");
    }
}

#[test]
fn cut_records_count_nothing() {
    check_cut(&worked(), &[14, 42, 70, 98, 106, 114, 122], WORKED);
    check_cut(&shifted(7), &[14, 42, 70, 98, 106, 114, 122], WORKED);
    let failed = "hold 2 3 4\nqual 1\nbad 2 3\n";
    check_cut(&too_many_bad(), &[14, 42, 70, 98, 106, 114, 122], failed);
    let four = "hold 2 3 4\nqual 1 2 3 4\nbad -\n";
    check_cut(&four_done(), &[14, 42, 70, 98, 126, 128, 136, 144, 152], four);
}

/// Before a setup SU, SX and GO alone have a length; all but SU and SX end the reading.
#[test]
fn records_before_a_setup() {
    let refused = plain_setup(3, 1, 1);
    let waiting = as_sx(plain_setup(64, 22, 1));
    let identity = with_identity_key(plain_setup(4, 1, 1));
    let first = [&refused[..], &waiting, &identity].concat();
    assert_eq!((refused.len(), waiting.len(), identity.len()), (14, 98, 14));
    for (before, count) in [(Vec::new(), 0), (refused, 14), (waiting, 98), (first, 126)] {
        let counted = |tail: &[u8]| sets(&[&before[..], tail].concat());
        assert_eq!(counted(b""), unfixed(count));
        for tail in [&b"GO"[..], b"GO\0", b"GOG", b"GOGO", b"GO\0\0\0\0"] {
            assert_eq!(counted(tail), unfixed(count + 2));
        }
        assert_eq!(counted(&[b"GO", &worked()[..]].concat()), unfixed(count + 2));
        assert_eq!(counted(&[b"GO", &four_done()[..]].concat()), unfixed(count + 2));
        for tag in ["DE", "VE", "CH", "CS", "RE", "XX", "go", "\0\0"] {
            let whole = record(tag, &[1, 0], &[1, 4, 1, 2, 3, 4]);
            let more = [&whole[..], &worked()].concat();
            for tail in [tag.as_bytes(), &whole[..8], &whole, &more] {
                assert_eq!(counted(tail), unfixed(count), "{tag}");
            }
        }
        for byte in [b"S", b"G", b"D", b"\0"] {
            assert_eq!(counted(byte), unfixed(count));
        }
    }
}

/// A setup has 4t+10 bytes by its own t, at every stage, whatever it is answered.
#[test]
fn setups_count_by_their_own_t() {
    let logs = [(Vec::new(), 0), (worked()[..14].to_vec(), 14), (waiting_for_four(), 126)];
    let heard = [(up_to_dealings(1, 4), 98), (up_to_complaints()[..106].to_vec(), 106)];
    for (log, count) in logs.into_iter().chain(heard) {
        for (t, length) in [(0, 10), (2, 18), (3, 22), (21, 94), (255, 1030)] {
            let late = plain_setup(3, t, 1);
            assert_eq!(late.len(), length);
            for setup in [late.clone(), as_sx(late)] {
                let counted = |tail: &[u8]| sets(&[&log[..], tail].concat());
                assert_eq!(counted(&setup), unfixed(count + length));
                assert_eq!(counted(&[&setup[..], &setup].concat()), unfixed(count + 2 * length));
                for cut in [1, 2, 5, 6, 9, length - 1] {
                    assert_eq!(counted(&setup[..cut]), unfixed(count), "{t} {cut}");
                    let again = [&setup[..], &setup[..cut]].concat();
                    assert_eq!(counted(&again), unfixed(count + length));
                }
            }
        }
    }
}

/// In a run begun by SU, with b = 2, CH has 12 bytes, CS 16 and RE 12; in one begun by SX
/// they have none before GO, and with b = 3 there are 4 more in each.
#[test]
fn records_that_go_by_b() {
    let begun = worked()[..14].to_vec();
    let rows = [(challenges(), 12), (shifted_challenges(5), 16), (response(2, [10, 22]), 12)];
    for (row, length) in rows {
        assert_eq!(row.len(), length);
        for (log, count) in [(begun.clone(), 14), (up_to_dealings(1, 4), 98)] {
            assert_eq!(sets(&[&log[..], &row].concat()), unfixed(count + length));
            assert_eq!(sets(&[&log[..], &row, b"XX"].concat()), unfixed(count + length));
            assert_eq!(sets(&[&log[..], &row[..length - 1]].concat()), unfixed(count));
            let twice = [&log[..], &row, &row].concat();
            assert_eq!(sets(&twice), unfixed(count + 2 * length));
        }
        for dealings in 0..=4 {
            let log = &waiting_for_four()[..14 + 28 * dealings];
            let count = log.len();
            for tail in [&row[..2], &row[..length - 1], &row] {
                assert_eq!(sets(&[log, tail].concat()), unfixed(count));
                let more = [log, tail, &four_done()[126..]].concat();
                assert_eq!(sets(&more), unfixed(count));
            }
        }
        let gone = [&waiting_for_four()[..], b"GO"].concat();
        let longer = [&row[..], &[0; 4]].concat();
        assert_eq!(sets(&[&gone[..], &row].concat()), unfixed(128));
        assert_eq!(sets(&[&gone[..], &longer].concat()), unfixed(128 + length + 4));
    }
}

#[test]
fn go_counts_two_wherever_it_stands() {
    for dealings in 0..=2 {
        let log = &worked()[..14 + 28 * dealings];
        let waiting = &waiting_for_four()[..14 + 28 * dealings];
        for begun in [log, waiting] {
            assert_eq!(sets(&[begun, b"GO"].concat()), unfixed(begun.len() + 2));
            assert_eq!(sets(&[begun, b"GOGOG"].concat()), unfixed(begun.len() + 4));
            assert_eq!(sets(&[begun, b"GOgo\0\0"].concat()), unfixed(begun.len() + 2));
        }
        let early = [waiting, b"GO", &challenges()].concat();
        assert_eq!(sets(&early), unfixed(waiting.len() + 2));
    }
    let dealt = up_to_dealings(1, 4);
    assert_eq!(sets(&[&dealt[..], b"GO"].concat()), unfixed(100));
    let gone = [&waiting_for_four()[..], b"GO"].concat();
    assert_eq!(sets(&gone), unfixed(128));
    assert_eq!(sets(&[&gone[..], b"GO\0"].concat()), unfixed(130));
}

/// Two dealings with a fault, a row, GO, SX with t = 3 and CH at stage 1: 28 + 28 + 8 + 2 +
/// 22 + 12 = 100; a dealing, rows with a bit too high, blaming falsely and sent twice,
/// and RE at stage 2: 28 + 3 × 8 + 12 = 64.
#[test]
fn refused_records_before_the_sets_count() {
    let (begun, rest) = (&worked()[..14], &worked()[14..]);
    let dealing = |fields: &[u8]| record("DE", fields, &[1, 4, 1, 2, 3, 4]);
    let (row, mask) = (record("VE", &[2, 0], &[0]), |bits| record("VE", &[3, 0], &[bits]));
    let late = as_sx(plain_setup(4, 3, 1));
    let at_1 = [dealing(&[1, 1]), dealing(&[5, 0]), row.clone(), b"GO".to_vec(), late.clone()];
    let at_1 = [at_1.concat(), challenges()].concat();
    let at_2 = [dealing(&[4, 0]), mask(16), mask(1), row.clone(), response(2, [10, 22])].concat();
    assert_eq!((at_1.len(), at_2.len()), (100, 64));
    let (dealings, rows) = rest.split_at(84);
    let log = [begun, &at_1, dealings, &row, &at_2, &rows[8..]].concat();
    assert_eq!(sets(&log), printed(WORKED, 122 + 100 + 64));
    let behind = [&log[..], &late, &row, b"GOGO", &at_1].concat();
    assert_eq!(sets(&behind), printed(WORKED, 286));
    let page = report(&log);
    let refused: Vec<&str> = page.lines().filter(|line| line.starts_with("refuse")).collect();
    let numbers = ["2 3", "3 5", "4 11", "5 11", "6 11", "7 11", "12 11", "13 8", "14 13"];
    let numbers: Vec<String> = numbers
        .into_iter()
        .chain(["15 12", "16 11"])
        .map(|what| format!("refuse {what}"))
        .collect();
    assert_eq!(refused, numbers);
}

/// With 33 parties a row has 12 bytes, with 32 it has 8.
#[test]
fn rows_count_by_their_width() {
    for (n, length) in [(4, 8), (32, 8), (33, 12), (64, 12)] {
        for begun in [plain_setup(n, 1, 1), as_sx(plain_setup(n, 1, 1))] {
            for (given, count) in [(7, 0), (8, 8), (9, 8), (11, 8), (12, 8), (13, 8)] {
                let row = [&b"VE\x01"[..], &vec![0; given - 3]].concat();
                let counted = if length == 8 { count } else { given / 12 * 12 };
                assert_eq!(sets(&[begun.clone(), row].concat()), unfixed(14 + counted));
            }
        }
    }
}

/// 33,1,1 by SU: 14, 32 dealings of 4 + 8 + 132 bytes and 32 rows of 12 make 5,006.
/// 64,2,1 by SX: 18, 64 dealings of 4 + 12 + 256 bytes, 2, and 62 rows of 12 make 18,172.
/// 9,2,2 by SX with all 9: 18, 9 dealings of 4 + 20 + 36 bytes, 2, and 7 rows of 8: 616.
#[test]
fn large_committees_are_counted() {
    let mut rng = Rng::new(41);
    let count = |log: &[u8]| parts(&sets(log)).1;
    let log = completed(never_waiting((33, 1, 1), &mut rng), &mut rng);
    assert_eq!(count(&log), 5_006);
    let log = completed(draft_of_all((64, 2, 1), &mut rng), &mut rng);
    assert_eq!(count(&log), 18_172);
    let draft = draft_of_all((9, 2, 2), &mut rng);
    assert_eq!(count(&completed(draft.clone(), &mut rng)), 616);
    assert_eq!(count(&completed(draft.with_bad_dealers(3, &mut rng), &mut rng)), 616);
}

#[test]
fn the_longest_logs() {
    assert_eq!(sets(b""), unfixed(0));
    assert_eq!(sets(&vec![0; LONGEST_LOG]), unfixed(0));
    assert_eq!(sets(&vec![0; LONGEST_LOG + 1]), "long\n");
    let flood = |log: &[u8], size: usize| sets(&flooded(log.to_vec(), size));
    for begun in [&worked()[..14], &waiting_for_four()[..14]] {
        assert_eq!(flood(begun, LONGEST_LOG), unfixed(65_536));
        assert_eq!(flood(begun, LONGEST_LOG - 1), unfixed(65_534));
        assert_eq!(sets(&padded(begun.to_vec(), 4, LONGEST_LOG)), unfixed(14 + 8_190 * 8));
    }
    assert_eq!(flood(b"", LONGEST_LOG), unfixed(2));
    assert_eq!(flood(&worked(), LONGEST_LOG), printed(WORKED, 122));
    assert_eq!(flood(&worked(), LONGEST_LOG + 1), "long\n");
    let late = flooded(worked()[..14].to_vec(), LONGEST_LOG - 108);
    let late = [&late[..], &up_to_complaints()[14..]].concat();
    assert_eq!(sets(&late), printed(WORKED, 65_536));
    assert_eq!(sets(&late[..LONGEST_LOG - 1]), unfixed(65_528));
    assert_eq!(sets(&[&late[..], b"\0"].concat()), "long\n");
}

/// The lines of the sets, and the count.
fn parts(answer: &str) -> (Vec<&str>, usize) {
    let mut lines: Vec<&str> = answer.lines().collect();
    let count = lines.pop().and_then(|line| line.strip_prefix("bytes ")).expect("a count");
    (lines, count.parse().expect("a number"))
}

/// The lines of the sets on a page.
fn set_lines(page: &str) -> Vec<&str> {
    let names = ["hold ", "qual ", "bad "];
    page.lines().filter(|line| names.iter().any(|name| line.starts_with(name))).collect()
}

/// What may stand behind the record that fixes the sets.
fn tails() -> [Vec<u8>; 6] {
    [
        b"G".to_vec(),
        b"GO".to_vec(),
        b"XX\0".to_vec(),
        b"SU\x04\x01".to_vec(),
        challenges(),
        worked(),
    ]
}

/// A log, what became of its records, its sets and its page.
struct Read {
    log: NamedLog,
    answers: Vec<Given>,
    sets: String,
    page: String,
    about: Option<About>,
}

/// The sets of a log that ends about the record which fixes them.
struct About {
    /// With it last, and without its last byte.
    last: String,
    cut: String,
    /// With each tail behind it, where the log is not too long then.
    followed: Vec<String>,
}

/// Does the run need one complaint row more?
fn lacks_a_row(run: &Run) -> bool {
    run.stage == Stage::Complaining && run.complaints.len() + 1 == run.params().majority()
}

/// Reads a log to its end, and keeps the reading that lacked one complaint row.
fn read(log: &[u8]) -> (Reading, Option<Reading>) {
    let (mut reading, mut lacking) = (Reading::default(), None);
    while reading.read_next(log) {
        if lacking.is_none() && lacks_a_row(&reading.run) {
            lacking = Some(reading.clone());
        }
    }
    (reading, lacking)
}

/// The sets of logs that end about the record which fixes those of this one: what comes
/// before it is not read again.
fn about(log: &[u8], reading: &Reading, lacking: Option<Reading>) -> Option<About> {
    let (lacking, _) = lacking.zip(reading.run.sets.as_ref())?;
    let resumed = |log: &[u8]| {
        let mut reading = lacking.clone();
        reading.read_on(log);
        sets_of(&reading)
    };
    let fixing = &log[..consumed(reading)];
    let longer = tails().map(|tail| [fixing, &tail].concat());
    let longer = longer.iter().filter(|log| log.len() <= LONGEST_LOG);
    let followed = longer.map(|log| resumed(log)).collect();
    Some(About { last: resumed(fixing), cut: resumed(&fixing[..fixing.len() - 1]), followed })
}

impl Read {
    fn of(log: NamedLog) -> Read {
        let (reading, lacking) = read(&log.bytes);
        let about = about(&log.bytes, &reading, lacking);
        let (sets, page) = (sets_of(&reading), report_of(&reading));
        Read { log, answers: reading.answers, sets, page, about }
    }
}

/// The logs of seed 1 that are not too long, each read once, on two threads.
fn logs() -> &'static [Read] {
    static LOGS: OnceLock<Vec<Read>> = OnceLock::new();
    LOGS.get_or_init(|| {
        let (short, long): (Vec<NamedLog>, Vec<NamedLog>) =
            all_logs(1).into_iter().partition(|log| log.bytes.len() <= LONGEST_LOG);
        assert!(long.iter().all(|log| sets(&log.bytes) == "long\n"));
        let (even, odd): (Vec<_>, Vec<_>) =
            (0..).zip(short).partition(|(place, _): &(usize, NamedLog)| place % 2 == 0);
        let all = |logs: Vec<(usize, NamedLog)>| -> Vec<Read> {
            logs.into_iter().map(|(_, log)| Read::of(log)).collect()
        };
        let other = thread::spawn(move || all(odd));
        let mut read = all(even);
        read.extend(other.join().expect("the logs are read"));
        read
    })
}

/// Every log's sets are those of its page, and no more bytes are counted than there are.
#[test]
fn every_log_has_the_sets_of_its_page() {
    for Read { log, sets, page, .. } in logs() {
        let (lines, count) = parts(sets);
        assert_eq!(lines, set_lines(page), "{}", log.kind);
        assert!(count <= log.bytes.len(), "{}", log.kind);
    }
}

/// Where a log's sets are fixed, the bytes counted fix them, one byte less does not, and
/// whatever stands behind them changes nothing.
#[test]
fn the_bytes_counted_fix_the_sets() {
    for Read { log, sets, about, .. } in logs() {
        assert_eq!(about.is_none(), sets.starts_with(NO_SETS), "{}", log.kind);
        let Some(about) = about else { continue };
        assert_eq!(about.last, *sets, "{}", log.kind);
        assert!(about.cut.starts_with(NO_SETS), "{}", log.kind);
        assert!(about.followed.iter().all(|followed| followed == sets), "{}", log.kind);
        assert!(!about.followed.is_empty() || log.bytes.len() == LONGEST_LOG, "{}", log.kind);
    }
}

/// The same of small logs, each time read from the beginning.
#[test]
fn small_logs_read_from_their_beginning() {
    let small = logs().iter().filter(|read| read.log.bytes.len() <= SMALL);
    assert!(small.clone().count() >= 1_200);
    for (Read { log, sets: answer, page, about, .. }, tail) in small.zip(tails().iter().cycle()) {
        assert_eq!((sets(&log.bytes), report(&log.bytes)), (answer.clone(), page.clone()));
        if about.is_some() {
            let fixing = &log.bytes[..parts(answer).1];
            assert_eq!(sets(fixing), *answer, "{}", log.kind);
            assert!(sets(&fixing[..fixing.len() - 1]).starts_with(NO_SETS), "{}", log.kind);
            assert_eq!(sets(&[fixing, tail].concat()), *answer, "{}", log.kind);
        }
    }
}

/// The numbers of a run that lengths go by.
#[derive(Default)]
struct Known {
    waits: bool,
    /// n, t and a of the accepted setup.
    params: Option<(usize, usize, usize)>,
    /// How many dealings and rows are accepted.
    dealings: usize,
    rows: usize,
    /// Has GO been accepted?
    gone: bool,
}

impl Known {
    /// b, once it is fixed.
    fn b(&self) -> Option<usize> {
        let (n, t, _) = self.params?;
        match (self.waits, self.gone) {
            (false, _) => Some(n - 2 * t),
            (true, true) => Some(self.dealings - t),
            (true, false) => None,
        }
    }

    /// The length of a record by the words of the documents, if it is fixed.
    fn length(&self, tag: Tag, record: &[u8]) -> Option<usize> {
        match tag {
            Tag::Su | Tag::Sx if record.len() < 6 => return None,
            Tag::Su | Tag::Sx => return Some(4 * usize::from(record[3]) + 10),
            Tag::Go => return Some(2),
            _ => {}
        }
        let (n, t, a) = self.params?;
        match tag {
            Tag::De => Some(4 + 4 * (t + 2 * a - 1) + 4 * n),
            Tag::Ve => Some(if n > 32 { 12 } else { 8 }),
            Tag::Ch => Some(4 + 4 * a * self.b()?),
            Tag::Cs => Some(8 + 4 * a * self.b()?),
            _ => Some(4 + 4 * self.b()?),
        }
    }

    /// Learns from an accepted record. Do n-t rows stand now?
    fn learn(&mut self, given: &Given, record: &[u8]) -> bool {
        match given.tag {
            _ if given.answer.is_err() => return false,
            Some(Tag::Su | Tag::Sx) => {
                let [n, t, a] = [2, 3, 4].map(|place| usize::from(record[place]));
                (self.params, self.waits) = (Some((n, t, a)), given.tag == Some(Tag::Sx));
            }
            Some(Tag::De) => self.dealings += 1,
            Some(Tag::Go) => self.gone = true,
            Some(Tag::Ve) => self.rows += 1,
            _ => {}
        }
        self.params.is_some_and(|(n, t, _)| self.rows == n - t)
    }
}

/// The bytes of a log to be counted, from the answers to its records and the words of the
/// documents: the (n-t)th accepted VE fixes the sets.
fn count_by_words(log: &[u8], answers: &[Given]) -> usize {
    let (mut known, mut sum) = (Known::default(), 0);
    for given in answers {
        let record = &log[given.place.clone()];
        let length = given.tag.and_then(|tag| known.length(tag, record));
        sum += length.filter(|&length| length <= record.len()).unwrap_or(0);
        if known.learn(given, record) {
            break;
        }
    }
    sum
}

#[test]
fn every_log_is_counted_by_the_words() {
    for Read { log, answers, sets, .. } in logs() {
        assert_eq!(parts(sets).1, count_by_words(&log.bytes, answers), "{}", log.kind);
    }
}

/// The logs that are kept beside this program.
fn stored() -> Vec<PathBuf> {
    let directory = Path::new(env!("CARGO_MANIFEST_DIR")).join("../logs");
    let entries = fs::read_dir(directory).expect("a directory");
    let paths = entries.map(|entry| entry.expect("an entry").path());
    paths.filter(|path| path.extension().is_some_and(|e| e == "log")).collect()
}

#[test]
fn stored_logs_have_their_sets() {
    let paths = stored();
    assert!(paths.len() >= 14);
    for path in paths {
        let log = fs::read(&path).expect("a log");
        let read = |extension: &str| fs::read_to_string(path.with_extension(extension));
        let (page, answer) = (read("page").expect("a page"), read("sets").expect("sets"));
        assert_eq!(sets(&log), answer, "{}", path.display());
        assert_eq!(parts(&answer).0, set_lines(&page), "{}", path.display());
    }
}

/// What the program prints, given this input.
fn program(input: &[u8]) -> String {
    let mut command = Command::new(env!("CARGO_BIN_EXE_second"));
    let piped = command.arg("sets").stdin(Stdio::piped()).stdout(Stdio::piped());
    let mut child = piped.spawn().expect("the program starts");
    child.stdin.take().expect("an input").write_all(input).expect("the input is read");
    let output = child.wait_with_output().expect("the program ends");
    assert!(output.status.success());
    String::from_utf8(output.stdout).expect("a text")
}

#[test]
fn the_program_prints_the_sets() {
    assert_eq!(program(&worked()), "hold 2 3 4\nqual 1 2 3\nbad -\nbytes 122\n");
    assert_eq!(program(b""), "hold -\nqual -\nbad -\nbytes 0\n");
    assert_eq!(program(b"GO\0"), "hold -\nqual -\nbad -\nbytes 2\n");
    assert_eq!(program(&vec![0; LONGEST_LOG + 1]), "long\n");
}

/// The logs about the bytes that fix the sets, made once with another seed.
fn set_logs() -> &'static [NamedLog] {
    static LOGS: OnceLock<Vec<NamedLog>> = OnceLock::new();
    LOGS.get_or_init(|| {
        let (mut gathered, mut rng) = (LogSet::default(), Rng::new(42));
        let groups = [
            sets_ends::last_record_logs,
            sets_ends::cut_logs,
            sets_ends::before_setup_logs,
            sets_ends::before_go_logs,
            sets_brought::brought_logs,
            sets_brought::refused_logs,
            sets_sizes::size_logs,
            sets_sizes::lot_logs,
        ];
        for group in groups {
            group(&mut gathered, &mut rng);
        }
        gathered.logs
    })
}

/// What each of these logs shows, found once.
fn shown_by_each() -> &'static [(&'static str, BTreeSet<String>)] {
    static SHOWN: OnceLock<Vec<(&'static str, BTreeSet<String>)>> = OnceLock::new();
    let shown_by = |log: &'static NamedLog| {
        let mut coverage = Coverage::default();
        coverage.add(&log.bytes);
        (&log.kind[..], coverage.shown)
    };
    SHOWN.get_or_init(|| set_logs().iter().map(shown_by).collect())
}

/// What is missing of the sets alone without the logs of which this is so.
fn missing_without(left_out: impl Fn(&str, &BTreeSet<String>) -> bool) -> Vec<String> {
    let mut coverage = Coverage::default();
    for (kind, shown) in shown_by_each().iter().filter(|(kind, shown)| !left_out(kind, shown)) {
        assert!(kind.starts_with("sets-"));
        coverage.shown.extend(shown.iter().cloned());
    }
    coverage.missing_sets()
}

/// These logs alone show everything that is asked for; without all that show a thing,
/// it is named.
#[test]
fn the_coverage_asks_for_each() {
    assert_eq!(missing_without(|_, _| false), Vec::<String>::new());
    let empty = Coverage::default();
    assert_eq!(empty.missing_sets(), wanted());
    assert_eq!(wanted().iter().collect::<BTreeSet<_>>().len(), wanted().len());
    for what in wanted() {
        assert!(empty.missing().contains(&what));
        assert!(missing_without(|_, shown| shown.contains(&what)).contains(&what), "{what}");
    }
}

/// Kinds of logs, and what no other kind shows.
const SHOWN_ALONE: [(&[&str], &[&str]); 11] = [
    (&["sets-empty"], &["an empty log counts 0"]),
    (
        &["sets-go-alone-at-0", "sets-refused-setups-go"],
        &["GO alone ends the reading at stage 0 and counts 2"],
    ),
    (
        &["sets-go-before-a-byte-at-0"],
        &["GO before one byte ends the reading at stage 0 and counts 2"],
    ),
    (
        &["sets-cs-cut-at-1-by-su"],
        &["CS cut ends the reading at stage 1 of a run begun by SU and counts 0"],
    ),
    (&["sets-size-65537"], &["a log that is too long for its sets"]),
    (&["sets-size-65536"], &["stage 3 in the last 100 of 65536 bytes"]),
    (&["sets-6-late"], &["stage 6 in the last 100 of 65536 bytes"]),
    (&["sets-never-after-go", "sets-size-65535"], &["over 5000 GO refused counted, no sets"]),
    (&["sets-never-after-rows"], &["over 5000 VE refused counted, no sets"]),
    (&["sets-3-then-go"], &["over 5000 GO refused behind the sets, not counted"]),
    (&["sets-6-then-rows"], &["over 5000 VE refused behind the sets, not counted"]),
];

#[test]
fn some_logs_alone_show_what_is_asked_for() {
    for (kinds, alone) in SHOWN_ALONE {
        let missing = missing_without(|kind, _| kinds.contains(&kind));
        assert_eq!(missing, alone, "{kinds:?}");
    }
    let by_sx =
        missing_without(|kind, _| kind.contains("before-go") || kind.ends_with("at-1-by-sx"));
    for tag in ["CH", "CS", "RE"] {
        let spot = "at stage 1 of a run begun by SX";
        let what = format!("{tag} before more bytes ends the reading {spot} and counts 0");
        assert!(by_sx.contains(&what), "{what}");
    }
}

/// What a log shows of the sets alone.
fn shown_by(log: &[u8]) -> Vec<String> {
    let mut coverage = Coverage::default();
    coverage.add(log);
    wanted().into_iter().filter(|what| coverage.shown.contains(what)).collect()
}

#[test]
fn single_logs_show_what_they_should() {
    let end =
        |what: &str, count: &str| format!("{what} ends the reading at stage 0 and counts {count}");
    let (all, fewer) = ("every byte counted, no sets", "fewer bytes counted, no sets");
    let none = "no byte counted of some";
    assert_eq!(shown_by(b""), ["an empty log counts 0", all]);
    assert_eq!(shown_by(b"GO"), [&end("GO alone", "2"), all]);
    assert_eq!(shown_by(b"GOG"), [&end("GO before one byte", "2"), fewer]);
    assert_eq!(shown_by(b"S"), [&end("a single byte", "0"), fewer, none]);
    assert_eq!(shown_by(b"SU\x04"), [&end("SU under six bytes", "0"), fewer, none]);
    assert_eq!(shown_by(&worked()[..13]), [&end("SU cut", "0"), fewer, none]);
    assert_eq!(shown_by(&worked()[..14]), [&end("SU taken", "its length"), all]);
    assert_eq!(shown_by(&plain_setup(3, 1, 1)), [&end("SU refused", "its length"), all]);
    let stage_3 = |how: &str| format!("stage 3 of a run begun by SU brought {how}");
    let narrow = stage_3("with up to 32 parties");
    let every = "every byte counted, sets fixed".to_string();
    assert_eq!(shown_by(&up_to_complaints()), [stage_3("last"), narrow.clone(), every]);
    let page = [narrow, stage_3("before its challenges"), stage_3("before the rest, to stage 5")];
    let fewer = ["fewer bytes counted, sets fixed".to_string()];
    assert_eq!(shown_by(&worked()), [&page[..], &fewer].concat());
    let row = [&up_to_complaints()[..], &record("VE", &[1, 0], &[0])].concat();
    let behind = [stage_3("before a refused record"), page[0].clone()];
    let refused = ["VE refused at stage 3, not counted".to_string()];
    assert_eq!(shown_by(&row), [&behind[..], &refused, &fewer].concat());
    let reading = read_log(&up_to_complaints());
    let stages: Vec<Stage> = reading.answers.iter().map(|given| given.stage_after).collect();
    assert_eq!(stages[stages.len() - 2..], [Stage::Complaining, Stage::Challenging]);
}
