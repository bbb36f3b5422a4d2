//! The generated inputs of bundles (request 2.7): the laws that each of them keeps, what they
//! show, and the program that writes and answers them.

use second::bundle_coverage::{wanted, BundleCoverage};
use second::bundles::{answer_input, input_of, read_input, Bundle, LONGEST_INPUT};
use second::generator::bundle_inputs::{bundle_inputs, example};
use second::generator::document::{
    challenges, record, response, up_to_challenges, up_to_complaints, worked,
};
use second::log::{read_log, Given};
use second::records::Tag;
use second::refusal::answer_number;
use second::report::{report, LONGEST_LOG};
use second::run::{Run, Stage};
use std::collections::BTreeSet;
use std::fs;
use std::io::Write;
use std::path::PathBuf;
use std::process::{Command, Stdio};
use std::sync::OnceLock;
use std::thread;

/// An input, what is answered to it, and what it shows.
struct Answered {
    bytes: Vec<u8>,
    answers: String,
    coverage: BundleCoverage,
}

impl Answered {
    fn of(bytes: &[u8]) -> Answered {
        let is_long = bytes.len() > LONGEST_INPUT;
        let read = if is_long { None } else { read_input(bytes) };
        let said = if is_long { "long\n" } else { "broken\n" };
        let answers = read.as_ref().map_or(said.to_string(), |collected| collected.text());
        let mut coverage = BundleCoverage::default();
        coverage.add_read(bytes, read.as_ref());
        Answered { bytes: bytes.to_vec(), answers, coverage }
    }
}

/// What becomes of inputs, each read once, on two threads.
fn answered(inputs: &[Vec<u8>]) -> Vec<Answered> {
    let of_turn = |turn: usize| {
        let turns = inputs.iter().skip(turn).step_by(2);
        turns.map(|input| Answered::of(input)).collect::<Vec<Answered>>()
    };
    thread::scope(|scope| {
        let other = scope.spawn(|| of_turn(1));
        let (even, odd) = (of_turn(0), other.join().expect("the inputs are read"));
        let mut turns = [even.into_iter(), odd.into_iter()];
        (0..inputs.len()).map(|place| turns[place % 2].next().expect("an input")).collect()
    })
}

/// The inputs of seed 1, made and read once.
fn inputs() -> &'static [Answered] {
    static INPUTS: OnceLock<Vec<Answered>> = OnceLock::new();
    INPUTS.get_or_init(|| answered(&bundle_inputs(1)))
}

/// An input's log and its bundles, as the format has them; none if it is broken or too long.
fn parts(input: &[u8]) -> Option<(&[u8], Vec<(usize, &[u8])>)> {
    let number = |bytes: &[u8]| bytes.iter().fold(0, |sum, &byte| sum * 256 + usize::from(byte));
    if input.len() > 262_144 {
        return None;
    }
    let (length, rest) = input.split_at_checked(4)?;
    let (log, mut rest) = rest.split_at_checked(number(length))?;
    let mut bundles = Vec::new();
    while !rest.is_empty() {
        let (header, behind) = rest.split_at_checked(6)?;
        let (rows, next) = behind.split_at_checked(number(&header[2..]))?;
        bundles.push((number(&header[..2]), rows));
        rest = next;
    }
    (log.len() <= 65_536).then_some((log, bundles))
}

/// The parts of an input, and its answers.
type InParts = (&'static [u8], Vec<(usize, &'static [u8])>, &'static str);

/// Those of the inputs that are neither broken nor too long.
fn whole_inputs() -> Vec<InParts> {
    let whole = |input: &'static Answered| {
        let (log, bundles) = parts(&input.bytes)?;
        Some((log, bundles, &input.answers[..]))
    };
    inputs().iter().filter_map(whole).collect()
}

/// Those of them whose logs take little time to read.
fn small_inputs() -> Vec<InParts> {
    whole_inputs().into_iter().filter(|(log, _, _)| log.len() <= 2_000).collect()
}

#[test]
fn generated_inputs_are_of_every_form() {
    assert!((150..=250).contains(&inputs().len()), "{}", inputs().len());
    let longest = inputs().iter().filter(|input| input.bytes.len() > LONGEST_INPUT);
    assert!(longest.clone().all(|input| input.bytes.len() == LONGEST_INPUT + 1));
    assert_eq!(longest.count(), 2);
    let said = |word: &str| inputs().iter().filter(|input| input.answers == word).count();
    assert_eq!(said("long\n"), 2);
    let is_broken = |input: &&Answered| input.answers.ends_with("broken\n");
    assert_eq!(inputs().iter().filter(is_broken).count(), 27);
    for input in inputs().iter().filter(|input| input.bytes.len() <= LONGEST_INPUT) {
        assert_eq!(parts(&input.bytes).is_none(), is_broken(&input));
    }
    assert_eq!(inputs()[0].bytes, example());
    assert!(small_inputs().len() >= 120, "{}", small_inputs().len());
}

/// What is answered, by the words of the documents: rows of 4+4b bytes with b = m-t.
fn answers_by_words(log: &[u8], bundles: &[(usize, &[u8])]) -> String {
    let mut run = read_log(log).run;
    let mut answers = String::new();
    for &(places, rows) in bundles {
        let (number, list) = call_by_words(&mut run, rows, places);
        let list: String = list.iter().map(|number| format!("{number:02x}")).collect();
        answers += &format!("{number} {list}\n");
    }
    let signatures = run.signatures.iter().flatten();
    let signatures: String = signatures.map(|number| format!("{} ", number.number())).collect();
    let shown = if run.stage == Stage::Done { signatures } else { String::new() };
    format!("{answers}{} {shown}\n", run.stage.number())
}

fn call_by_words(run: &mut Run, rows: &[u8], places: usize) -> (u8, Vec<u8>) {
    if run.stage.number() != 4 {
        return (11, vec![0xA5; places]);
    }
    let b = run.dealings.len() - run.params().t as usize;
    let rows: Vec<&[u8]> = rows.chunks(4 + 4 * b).collect();
    if rows.len() != places {
        return (10, vec![0xA5; places]);
    }
    (0, rows.iter().map(|row| answer_number(run.give(row))).collect())
}

#[test]
fn every_input_is_answered_by_the_words() {
    for (log, bundles, answers) in whole_inputs() {
        assert_eq!(answers_by_words(log, &bundles), answers);
    }
}

/// Does a reading end with this record, before the end of its log or at it?
fn ends_reading(given: &Given) -> bool {
    given.length != Some(given.place.len())
}

/// Do the rows stand in a log as they stand in a bundle: each RE, the last perhaps cut, but
/// not to a whole record of another tag?
fn stand_in_log(rows: &[u8], length: usize) -> bool {
    let known = rows.chunks(length).all(|row| Tag::of(row) == Some(Tag::Re));
    known || rows.len() == 1
}

/// The numbers on the page of a log for its records behind so many.
fn numbers_on_page(log: &[u8], before: usize, count: usize) -> Vec<u8> {
    let mut numbers = vec![0; count];
    for line in report(log).lines().filter(|line| line.starts_with("refuse ")) {
        let fields: Vec<usize> =
            line.split(' ').skip(1).map(|field| field.parse().expect("a number")).collect();
        if fields[0] > before {
            numbers[fields[0] - before - 1] = fields[1] as u8;
        }
    }
    numbers
}

/// The list of a taken bundle, from its line; none if it is refused.
fn list_of(line: &str) -> Option<Vec<u8>> {
    let digits = line.strip_prefix("0 ")?;
    let place = |place: usize| u8::from_str_radix(&digits[2 * place..2 * place + 2], 16);
    Some((0..digits.len() / 2).map(|index| place(index).expect("a number")).collect())
}

/// Behind the same log, rows get the numbers that a page gives them as records of the log.
/// Of each bundle the rows that were taken stand in the log of the next.
#[test]
fn rows_get_the_numbers_of_a_page() {
    let mut compared = 0;
    for (log, bundles, answers) in small_inputs() {
        let mut log = log.to_vec();
        for ((_, rows), line) in bundles.into_iter().zip(answers.lines()) {
            let reading = read_log(&log);
            let is_whole = reading.answers.last().is_some_and(|given| !ends_reading(given));
            let (Some(list), true) = (list_of(line), is_whole) else { continue };
            let length = reading.run.length(Tag::Re).expect("a length");
            let with_rows = [&log[..], rows].concat();
            if stand_in_log(rows, length) && with_rows.len() <= LONGEST_LOG {
                let numbers = numbers_on_page(&with_rows, reading.answers.len(), list.len());
                assert_eq!(numbers, list);
                compared += list.len();
            }
            log.extend(taken(rows, length, &list).concat());
        }
    }
    assert!(compared >= 800, "{compared}");
}

/// The rows that were taken.
fn taken<'a>(rows: &'a [u8], length: usize, list: &[u8]) -> Vec<&'a [u8]> {
    let numbered = rows.chunks(length).zip(list);
    numbered.filter(|(_, number)| **number == 0).map(|(row, _)| row).collect()
}

/// Where bundles finish a run, its line has every φ of the page of the log with the rows
/// that were taken.
#[test]
fn finished_runs_have_the_signatures_of_a_page() {
    let mut finished = 0;
    for (log, bundles, answers) in small_inputs() {
        let reading = read_log(log);
        let is_whole = reading.answers.last().is_some_and(|given| !ends_reading(given));
        let Some(line) = answers.lines().last().and_then(|line| line.strip_prefix("5 ")) else {
            continue;
        };
        if !is_whole || reading.run.stage != Stage::Responding {
            continue;
        }
        let length = reading.run.length(Tag::Re).expect("a length");
        let mut log = log.to_vec();
        for ((_, rows), list) in bundles.iter().zip(answers.lines().map(list_of)) {
            log.extend(taken(rows, length, &list.unwrap_or_default()).concat());
        }
        let page = report(&log);
        let signatures = page.lines().filter(|line| line.starts_with("sig "));
        let last = |line: &str| format!("{} ", line.rsplit(' ').next().expect("a field"));
        assert_eq!(signatures.map(last).collect::<String>(), line);
        finished += 1;
    }
    assert!(finished >= 80, "{finished}");
}

/// Another seed gives other inputs but for the first, and they show everything too.
#[test]
fn another_seed_shows_everything() {
    let others = answered(&bundle_inputs(2));
    assert_eq!((others.len(), &others[0].bytes), (inputs().len(), &inputs()[0].bytes));
    let differs = |(one, other): (&Answered, &Answered)| one.bytes != other.bytes;
    assert!(inputs().iter().zip(&others).filter(|&pair| differs(pair)).count() >= 180);
    assert_eq!(coverage_of(&others).missing(), Vec::<String>::new());
}

/// What some inputs show together.
fn coverage_of<'a>(inputs: impl IntoIterator<Item = &'a Answered>) -> BundleCoverage {
    let mut together = BundleCoverage::default();
    for input in inputs {
        together.inputs += 1;
        together.shown.extend(input.coverage.shown.iter().cloned());
        for (&number, count) in &input.coverage.calls {
            *together.calls.entry(number).or_default() += count;
        }
        for (&number, count) in &input.coverage.rows {
            *together.rows.entry(number).or_default() += count;
        }
    }
    together
}

/// What is missing without the inputs of which this is so.
fn missing_without(left_out: impl Fn(&Answered) -> bool) -> Vec<String> {
    coverage_of(inputs().iter().filter(|input| !left_out(input))).missing()
}

/// Everything is shown; without all inputs that show a thing, it is named.
#[test]
fn the_coverage_asks_for_each() {
    assert_eq!(missing_without(|_| false), Vec::<String>::new());
    let calls = [0, 10, 11].map(|number| format!("bundle answered {number}"));
    let rows = [0, 1, 2, 3, 5, 6, 11, 12, 14, 15];
    let rows = rows.map(|number| format!("row of a bundle answered {number}"));
    let none = BundleCoverage::default();
    assert_eq!(none.missing(), [&calls[..], &rows, &wanted()].concat());
    assert_eq!(wanted().iter().collect::<BTreeSet<_>>().len(), wanted().len());
    for what in wanted() {
        let missing = missing_without(|input| input.coverage.shown.contains(&what));
        assert!(missing.contains(&what), "{what}");
    }
    for number in [0, 10, 11] {
        let missing = missing_without(|input| input.coverage.calls.contains_key(&number));
        assert!(missing.contains(&format!("bundle answered {number}")));
    }
    for number in [0, 1, 2, 3, 5, 6, 11, 12, 14, 15] {
        let missing = missing_without(|input| input.coverage.rows.contains_key(&number));
        assert!(missing.contains(&format!("row of a bundle answered {number}")));
    }
}

/// What the words say that an input shows, without its numbers and what its run shows.
fn shown_by(input: &[u8]) -> Vec<String> {
    let mut coverage = BundleCoverage::default();
    coverage.add(input);
    let of_run = |what: &String| what.contains("finished by bundles");
    wanted().into_iter().filter(|what| coverage.shown.contains(what) && !of_run(what)).collect()
}

/// What bundles behind the worked log up to its challenges show.
fn worked_shows(bundles: &[(u16, &[u8])]) -> Vec<String> {
    let bundle = |&(places, rows): &(u16, &[u8])| Bundle { places, rows: rows.to_vec() };
    shown_by(&input_of(&up_to_challenges(), &bundles.iter().map(bundle).collect::<Vec<_>>()))
}

#[test]
fn single_inputs_show_what_they_should() {
    let (second, third) = (response(2, [10, 22]), response(3, [13, 28]));
    assert_eq!(shown_by(b""), ["an input of no bytes"]);
    assert_eq!(shown_by(b"\0\0\0"), ["an input cut in the length of its log"]);
    assert_eq!(shown_by(b"\0\0\0\x01"), ["an input cut in its log"]);
    assert_eq!(shown_by(&input_of(&[0; 65_537], &[])), ["an input whose log is too long"]);
    assert_eq!(shown_by(&vec![0; 262_145]), ["an input with one byte too many"]);
    assert_eq!(shown_by(&vec![0; 262_146]), Vec::<String>::new());
    assert_eq!(shown_by(&input_of(&worked(), &[])), ["a log and no bundle"]);
    let empty = worked_shows(&[(0, b"")]);
    assert_eq!(empty, ["a bundle with no row", "the first bundle: not done, no row taken"]);
    let cut = worked_shows(&[(1, b"RE\x02\0")]);
    let of_cut = [
        "a bundle with one row",
        "the first bundle: not done, no row taken",
        "a row with the tag RE cut to four or more bytes before the run is done",
        "a cut row with the tag RE alone in its bundle",
    ];
    assert_eq!(cut, of_cut);
    let short = worked_shows(&[(1, &[&second[..], &third].concat())]);
    assert_eq!(short, ["a list refused: one place short"]);
    let right = "the right row of a holder who failed in the same bundle";
    let rows = [&response(2, [11, 22])[..], &second].concat();
    let of_rows = [
        "a bundle with as many rows as are needed",
        "the first bundle: not done, some rows taken",
        "a whole RE answered 0 before the run is done",
        "a whole RE answered 15 before the run is done",
        "a row whose first number alone does not pass",
        right,
    ];
    assert_eq!(worked_shows(&[(2, &rows)]), of_rows);
    let apart = worked_shows(&[(1, &rows[..12]), (1, &second)]);
    assert!(apart.contains(&right.replace("the same", "an earlier")));
    let done = worked_shows(&[(2, &[&second[..], &third].concat()), (1, &second)]);
    let of_done = [
        "one place a row refused at stage 5 that a bundle brought",
        "a bundle with as many rows as are needed",
        "the first bundle: done by the last row",
        "all needed rows in one bundle",
        "a whole RE answered 0 before the run is done",
    ];
    assert_eq!(done, of_done);
}

#[test]
fn rows_of_a_holder_and_of_other_tags_are_told_apart() {
    let (second, third) = (response(2, [10, 22]), response(3, [13, 28]));
    let shows = |bundles: &[(u16, &[u8])], what: &str| {
        assert!(worked_shows(bundles).contains(&what.to_string()), "{what}");
    };
    let twice = [&second[..], &second].concat();
    shows(&[(2, &twice)], "the same row of a holder accepted in the same bundle");
    shows(&[(1, &second), (1, &second)], "the same row of a holder accepted in an earlier bundle");
    let other = response(2, [10, 23]);
    shows(&[(1, &second), (1, &other)], "another row of a holder accepted in an earlier bundle");
    shows(&[(1, &challenges())], "CH in place of a row before the run is done");
    let late = [&second[..], &third, &record("RD", &[0, 0], &[0, 0])].concat();
    shows(&[(3, &late)], "an unknown tag in place of a row once the run is done");
    shows(&[(3, &late[..25])], "a row with no tag cut to one byte once the run is done");
    let log = [&up_to_challenges()[..], &second].concat();
    let again = input_of(&log, &[Bundle { places: 1, rows: second }]);
    assert!(shown_by(&again).contains(&"the same row of a holder accepted in the log".to_string()));
    let early = input_of(&up_to_complaints(), &[Bundle { places: 1, rows: third }]);
    assert_eq!(shown_by(&early), ["one place a row refused at stage 3"]);
}

/// What the program prints, given these words and this input, and whether it ends well.
fn program(words: &[&str], input: &[u8]) -> (String, bool) {
    let mut command = Command::new(env!("CARGO_BIN_EXE_second"));
    let piped = command.args(words).stdin(Stdio::piped()).stdout(Stdio::piped());
    let mut child = piped.spawn().expect("the program starts");
    child.stdin.take().expect("an input").write_all(input).expect("the input is read");
    let output = child.wait_with_output().expect("the program ends");
    (String::from_utf8(output.stdout).expect("a text"), output.status.success())
}

/// An empty directory.
fn directory(name: &str) -> PathBuf {
    let path = PathBuf::from(env!("CARGO_TARGET_TMPDIR")).join(name);
    let _ = fs::remove_dir_all(&path);
    fs::create_dir_all(&path).expect("a directory");
    path
}

/// The program writes the same inputs, answers them, and finds nothing missing in them,
/// though logs and masks are.
#[test]
fn the_program_writes_answers_and_checks_bundles() {
    let directory = directory("bundles");
    let name = directory.to_str().expect("a name");
    let said = format!("{} streams\n", inputs().len());
    assert_eq!(program(&["bundles", name], b""), (said, true));
    for (number, input) in (1..).zip(inputs()) {
        let read = fs::read(directory.join(format!("{number:03}.bundles"))).expect("an input");
        assert!(read == input.bytes, "{number}");
    }
    for input in inputs().iter().step_by(9).filter(|input| input.bytes.len() < 5_000) {
        assert_eq!(program(&["collect"], &input.bytes), (input.answers.clone(), true));
        assert_eq!(answer_input(&input.bytes), input.answers);
    }
    assert_eq!(program(&["collect"], &vec![0; LONGEST_INPUT + 1]), ("long\n".to_string(), true));
    let (page, well) = program(&["check-coverage", name], b"");
    let missing: Vec<&str> =
        page.lines().filter_map(|line| line.strip_prefix("missing ")).collect();
    assert!(!well && missing.contains(&"refusal 1"));
    assert!(!missing.iter().any(|what| wanted().contains(&what.to_string())));
    let all = format!("shown of bundles: {} of {}", wanted().len(), wanted().len());
    assert!(page.lines().any(|line| line == all));
}
