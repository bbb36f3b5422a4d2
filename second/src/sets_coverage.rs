//! What a log shows of the sets alone (request 2.6), each in words: what the last record
//! counts where no record brings stage 3 or 6, what stands behind one that does, which
//! refused records are counted and which are not, and how many bytes are.

use crate::log::{Given, Reading};
use crate::params::MOST_NARROW;
use crate::records::{setup_length, Tag};
use crate::refusal::answer_number;
use crate::report::LONGEST_LOG;
use crate::run::{Run, Stage};
use crate::sets::{consumed, up_to_sets};
use std::collections::BTreeSet;

/// A log of which nothing is read.
pub const TOO_LONG: &str = "a log that is too long for its sets";

const EMPTY: &str = "an empty log counts 0";

/// How a run was begun; at stage 0 it is not.
const NOT_BEGUN: &str = "";
const BY_SU: &str = " of a run begun by SU";
const BY_SX: &str = " of a run begun by SX";

/// Where a record stands: the stage, and how the run was begun.
type Spot = (Stage, &'static str);

/// Every one before stage 3.
const SPOTS: [Spot; 5] = [
    (Stage::Fresh, NOT_BEGUN),
    (Stage::Dealing, BY_SU),
    (Stage::Dealing, BY_SX),
    (Stage::Complaining, BY_SU),
    (Stage::Complaining, BY_SX),
];

/// How a record of a tag ends a reading; the last four have no length to be cut by.
const TAKEN: &str = "taken";
const REFUSED: &str = "refused";
const CUT: &str = "cut";
const UNDER_SIX: &str = "under six bytes";
const ALONE: &str = "alone";
const BEFORE_ONE: &str = "before one byte";
const BEFORE_MORE: &str = "before more bytes";

/// What is no record of a tag.
const ONE_BYTE: &str = "a single byte";
const UNKNOWN: &str = "an unknown tag";

/// What the last record counts.
const NOTHING: &str = "0";
const TWO: &str = "2";
const LENGTH: &str = "its length";

/// What stands behind the record that brings stage 3 or 6.
const LAST: &str = "last";
const THEN_BYTE: &str = "before a single byte";
const THEN_UNKNOWN: &str = "before an unknown tag";
const THEN_CUT: &str = "before a cut record";
const THEN_REFUSED: &str = "before a refused record";
const THEN_TAKEN: &str = "before its challenges";
const THEN_DONE: &str = "before the rest, to stage 5";

/// The two widths of a mask.
const NARROW: &str = "with up to 32 parties";
const WIDE: &str = "with 33 to 64 parties";

/// The numbers that refuse a whole record before stage 3.
const REFUSALS: [u8; 11] = [3, 4, 5, 6, 7, 8, 11, 12, 13, 16, 17];

/// The bytes counted beside those of the log.
const ALL_WITH_SETS: &str = "every byte counted, sets fixed";
const ALL_WITHOUT: &str = "every byte counted, no sets";
const FEWER_WITH_SETS: &str = "fewer bytes counted, sets fixed";
const FEWER_WITHOUT: &str = "fewer bytes counted, no sets";
const NONE_OF_SOME: &str = "no byte counted of some";
const ALL_OF_LONGEST: &str = "every byte counted of the longest log";

/// So many refused records of a tag are a flood.
const FLOOD: usize = 5_000;

/// So near to the end of the longest log a record is late.
const LATE: usize = 100;

/// Everything that some log should show.
pub fn wanted() -> Vec<String> {
    [
        wanted_of_ends(),
        wanted_of_sets(),
        wanted_before_sets(),
        wanted_behind_sets(),
        wanted_of_counts(),
    ]
    .concat()
}

fn wanted_of_ends() -> Vec<String> {
    let mut wanted = vec![EMPTY.to_string()];
    for spot in SPOTS {
        wanted.extend([ONE_BYTE, UNKNOWN].map(|what| end(what, spot, NOTHING)));
        for tag in Tag::ALL {
            let ends = ends_of(tag, spot).into_iter();
            wanted.extend(ends.map(|(how, count)| end(&of_tag(tag, how), spot, count)));
        }
    }
    wanted
}

/// How a record of the tag can end a reading at the spot, and what it then counts.
fn ends_of(tag: Tag, spot: Spot) -> Vec<(&'static str, &'static str)> {
    let mut ends = match (tag, spot) {
        (Tag::Su | Tag::Sx, _) => vec![(UNDER_SIX, NOTHING), (CUT, NOTHING), (REFUSED, LENGTH)],
        (Tag::Go, (Stage::Fresh, _)) => vec![(ALONE, TWO), (BEFORE_ONE, TWO), (BEFORE_MORE, TWO)],
        (Tag::Go, _) => vec![(REFUSED, TWO)],
        (_, (Stage::Fresh, _)) => vec![(BEFORE_MORE, NOTHING)],
        (Tag::Ch | Tag::Cs | Tag::Re, (Stage::Dealing, BY_SX)) => vec![(BEFORE_MORE, NOTHING)],
        _ => vec![(CUT, NOTHING), (REFUSED, LENGTH)],
    };
    if is_taken(tag, spot) {
        ends.push((TAKEN, if tag == Tag::Go { TWO } else { LENGTH }));
    }
    ends
}

fn is_taken(tag: Tag, (stage, begun): Spot) -> bool {
    match stage {
        Stage::Fresh => [Tag::Su, Tag::Sx].contains(&tag),
        Stage::Dealing => tag == Tag::De || tag == Tag::Go && begun == BY_SX,
        _ => tag == Tag::Ve,
    }
}

fn wanted_of_sets() -> Vec<String> {
    let behind = [LAST, THEN_BYTE, THEN_UNKNOWN, THEN_CUT, THEN_REFUSED, NARROW, WIDE];
    let mut wanted = Vec::new();
    for begun in [BY_SU, BY_SX] {
        for stage in [Stage::Challenging, Stage::Failed] {
            wanted.extend(behind.map(|how| brought(how, (stage, begun))));
        }
        let spot = (Stage::Challenging, begun);
        wanted.extend([THEN_TAKEN, THEN_DONE].map(|how| brought(how, spot)));
    }
    wanted
}

fn wanted_before_sets() -> Vec<String> {
    let mut wanted = REFUSALS.map(number_counted).to_vec();
    for spot in SPOTS {
        let refused = |tag: &Tag| ends_of(*tag, spot).iter().any(|(how, _)| *how == REFUSED);
        wanted.extend(Tag::ALL.into_iter().filter(refused).map(|tag| counted(tag, spot)));
    }
    for spot in &SPOTS[1..] {
        wanted.extend([Tag::Su, Tag::Sx].map(|tag| other_t_counted(tag, *spot)));
    }
    wanted
}

fn wanted_behind_sets() -> Vec<String> {
    let stages = Stage::ALL[3..].iter();
    stages.flat_map(|&stage| Tag::ALL.map(|tag| not_counted(tag, stage))).collect()
}

fn wanted_of_counts() -> Vec<String> {
    let beside = [ALL_WITH_SETS, ALL_WITHOUT, FEWER_WITH_SETS, FEWER_WITHOUT, NONE_OF_SOME];
    let mut wanted = beside.map(str::to_string).to_vec();
    wanted.extend([TOO_LONG, ALL_OF_LONGEST].map(str::to_string));
    wanted.extend([Stage::Challenging, Stage::Failed].map(late));
    for tag in [Tag::Go, Tag::Ve] {
        wanted.extend([false, true].map(|behind| flood(tag, behind)));
    }
    wanted
}

fn at((stage, begun): Spot) -> String {
    format!("at stage {}{begun}", stage.number())
}

fn of_tag(tag: Tag, how: &str) -> String {
    format!("{} {how}", tag.name())
}

fn end(what: &str, spot: Spot, count: &str) -> String {
    format!("{what} ends the reading {} and counts {count}", at(spot))
}

fn brought(how: &str, (stage, begun): Spot) -> String {
    format!("stage {}{begun} brought {how}", stage.number())
}

fn number_counted(number: u8) -> String {
    format!("a record refused with {number} before the sets, counted")
}

fn counted(tag: Tag, spot: Spot) -> String {
    format!("{} refused {} before the sets, counted", tag.name(), at(spot))
}

fn other_t_counted(tag: Tag, spot: Spot) -> String {
    format!("{} with another t refused {} before the sets, counted", tag.name(), at(spot))
}

fn not_counted(tag: Tag, stage: Stage) -> String {
    format!("{} refused at stage {}, not counted", tag.name(), stage.number())
}

fn late(stage: Stage) -> String {
    format!("stage {} in the last {LATE} of {LONGEST_LOG} bytes", stage.number())
}

fn flood(tag: Tag, behind: bool) -> String {
    let how = if behind { "behind the sets, not counted" } else { "counted, no sets" };
    format!("over {FLOOD} {} refused {how}", tag.name())
}

/// What a log shows.
pub fn shown(reading: &Reading) -> BTreeSet<String> {
    let (run, count) = (&reading.run, consumed(reading));
    let (before, behind) = reading.answers.split_at(up_to_sets(reading).len());
    let mut shown: BTreeSet<String> = match (before.last(), &run.sets) {
        (None, _) => [EMPTY.to_string()].into(),
        (Some(last), None) => [end_by(last, run, count)].into(),
        (Some(last), Some(_)) => shown_by_sets(last, behind, run),
    };
    let counted = refused(before).filter(|given| run.sets.is_some() && given.place.end <= count);
    shown.extend(counted.flat_map(|given| counted_before(given, run)));
    let others = refused(behind).filter(|given| given.place.start >= count);
    shown.extend(others.filter_map(|given| Some(not_counted(given.tag?, given.stage))));
    shown.extend(shown_by_count(reading, count));
    shown.extend(floods(before, behind, run));
    shown
}

fn refused(records: &[Given]) -> impl Iterator<Item = &Given> {
    records.iter().filter(|given| given.answer.is_err())
}

fn spot_of(stage: Stage, run: &Run) -> Spot {
    let waits = run.setup.as_ref().is_some_and(|setup| setup.waits);
    match stage {
        Stage::Fresh => (stage, NOT_BEGUN),
        _ => (stage, if waits { BY_SX } else { BY_SU }),
    }
}

/// How the last record ends a reading of which so many bytes are counted.
fn end_by(last: &Given, run: &Run, count: usize) -> String {
    let what = match last.tag {
        Some(tag) => of_tag(tag, how_given(tag, last)),
        None => without_tag(last).to_string(),
    };
    let counted = match count - last.place.start {
        0 => NOTHING,
        2 => TWO,
        length if length == last.place.len() => LENGTH,
        _ => "another number",
    };
    end(&what, spot_of(last.stage, run), counted)
}

fn how_given(tag: Tag, last: &Given) -> &'static str {
    match (last.length, last.place.len()) {
        (Some(length), given) if given < length => CUT,
        (Some(_), _) if last.answer.is_ok() => TAKEN,
        (Some(_), _) => REFUSED,
        (None, _) if [Tag::Su, Tag::Sx].contains(&tag) => UNDER_SIX,
        (None, 2) => ALONE,
        (None, 3) => BEFORE_ONE,
        (None, _) => BEFORE_MORE,
    }
}

fn without_tag(given: &Given) -> &'static str {
    if given.place.len() == 1 {
        ONE_BYTE
    } else {
        UNKNOWN
    }
}

/// What the record shows that brings stage 3 or 6, with those behind it.
fn shown_by_sets(bringing: &Given, behind: &[Given], run: &Run) -> BTreeSet<String> {
    let width = if run.params().n <= MOST_NARROW { NARROW } else { WIDE };
    let mut shown = vec![width, behind.first().map_or(LAST, how_behind)];
    if run.stage == Stage::Done {
        shown.push(THEN_DONE);
    }
    let spot = spot_of(bringing.stage_after, run);
    shown.into_iter().map(|how| brought(how, spot)).collect()
}

fn how_behind(next: &Given) -> &'static str {
    match (next.tag, next.answer) {
        (None, _) if without_tag(next) == ONE_BYTE => THEN_BYTE,
        (None, _) => THEN_UNKNOWN,
        (_, Ok(())) => THEN_TAKEN,
        _ if next.length == Some(next.place.len()) => THEN_REFUSED,
        _ => THEN_CUT,
    }
}

/// What a refused record shows that is counted before the sets are fixed.
fn counted_before(given: &Given, run: &Run) -> Vec<String> {
    let spot = spot_of(given.stage, run);
    let mut shown = vec![number_counted(answer_number(given.answer))];
    shown.extend(given.tag.map(|tag| counted(tag, spot)));
    let own = setup_length(run.params().t as u8);
    if let (Some(tag @ (Tag::Su | Tag::Sx)), true) = (given.tag, given.length != Some(own)) {
        shown.push(other_t_counted(tag, spot));
    }
    shown
}

/// How many bytes are counted beside those of the log.
fn shown_by_count(reading: &Reading, count: usize) -> Vec<String> {
    let length = reading.answers.last().map_or(0, |last| last.place.end);
    let beside = match (count == length, reading.run.sets.is_some()) {
        (true, true) => ALL_WITH_SETS,
        (true, false) => ALL_WITHOUT,
        (false, true) => FEWER_WITH_SETS,
        (false, false) => FEWER_WITHOUT,
    };
    let mut shown = vec![beside.to_string()];
    shown.extend((count == 0 && length > 0).then(|| NONE_OF_SOME.to_string()));
    shown.extend((count == LONGEST_LOG).then(|| ALL_OF_LONGEST.to_string()));
    let bringing = up_to_sets(reading).last().filter(|_| reading.run.sets.is_some());
    let at_end = bringing.filter(|_| length == LONGEST_LOG && count > LONGEST_LOG - LATE);
    shown.extend(at_end.map(|given| late(given.stage_after)));
    shown
}

/// Thousands of refused records of a tag: counted where there are no sets, and not
/// counted behind them.
fn floods(before: &[Given], behind: &[Given], run: &Run) -> Vec<String> {
    let (records, is_behind) = if run.sets.is_some() { (behind, true) } else { (before, false) };
    let count = |tag: Tag| refused(records).filter(|given| given.tag == Some(tag)).count();
    let flooded = Tag::ALL.into_iter().filter(|&tag| count(tag) > FLOOD);
    flooded.map(|tag| flood(tag, is_behind)).collect()
}
