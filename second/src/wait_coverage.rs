//! What a log shows of runs that wait for more dealers (request 2.5), each in words:
//! the answers to GO, to SX and to what comes at the wrong time, how many dealings a
//! run signs with, and what becomes of the extra dealers, those after the first n-t.
//!
//! GO is never answered 2 in a log: it is passed over by two bytes, and one byte of it
//! is no tag.

use crate::log::{Given, Reading};
use crate::params::{Params, Party, MOST_NARROW};
use crate::records::Tag;
use crate::refusal::answer_number;
use crate::run::{Run, Stage};
use std::collections::BTreeSet;

/// How a run was begun.
const BY_SU: &str = "begun by SU";
const BY_SX: &str = "begun by SX";

/// How many dealings are accepted.
const NONE: &str = "no dealing";
const ONE_SHORT: &str = "n-t-1 dealings";
const FEWEST: &str = "n-t dealings";
const BETWEEN: &str = "n-t+1 to n-1 dealings";
const ALL: &str = "n dealings";

/// The two widths of a mask.
const NARROW: &str = "up to 32 parties";
const WIDE: &str = "33 to 64 parties";

/// What becomes of an extra dealer.
const IN_QUAL: &str = "done with an extra dealer in QUAL";
const IN_BAD: &str = "done with an extra dealer in BAD";
const FAILED: &str = "failed with an extra dealer in BAD";

const ROW_BEFORE_GO: &str = "VE before GO, passed over";
const MOST_COMBINATIONS: &str = "done with b = 63";

/// So many refused GO are a flood.
const FLOOD: usize = 32_000;

/// The tags whose length goes by b.
const BY_B: [Tag; 3] = [Tag::Ch, Tag::Cs, Tag::Re];

/// Everything that some log should show.
pub fn wanted() -> Vec<String> {
    [wanted_of_go(), wanted_of_setups(), wanted_before_go(), wanted_of_ends()].concat()
}

fn wanted_of_go() -> Vec<String> {
    let mut wanted = vec![at_stage_0(Tag::Go, 11)];
    for (number, count) in [(17, NONE), (17, ONE_SHORT), (0, FEWEST), (0, BETWEEN), (0, ALL)] {
        wanted.push(with_dealings(Tag::Go, number, count));
    }
    wanted.extend(Stage::ALL[1..].iter().map(|&stage| later(Tag::Go, stage, BY_SU)));
    wanted.extend(Stage::ALL[2..].iter().map(|&stage| later(Tag::Go, stage, BY_SX)));
    wanted.extend([flood(11, BY_SU), flood(17, BY_SX), flood(11, BY_SX)]);
    wanted
}

fn wanted_of_setups() -> Vec<String> {
    let mut wanted = [0, 2, 3, 4, 7, 16].map(|number| at_stage_0(Tag::Sx, number)).to_vec();
    for stage in &Stage::ALL[1..] {
        wanted.push(later(Tag::Sx, *stage, BY_SU));
        wanted.push(later(Tag::Sx, *stage, BY_SX));
        wanted.push(later(Tag::Su, *stage, BY_SX));
    }
    wanted.extend([2, 11].map(under_six));
    wanted
}

fn wanted_before_go() -> Vec<String> {
    let mut wanted = vec![ROW_BEFORE_GO.to_string()];
    for tag in BY_B {
        let counts = [NONE, ONE_SHORT, FEWEST, ALL];
        wanted.extend(counts.map(|count| with_dealings(tag, 11, count)));
        wanted.push(shorter(tag));
    }
    wanted.extend([2, 3, 5, 7, 6, 12].map(|number| with_dealings(Tag::De, number, ALL)));
    wanted.extend(Stage::ALL[2..].iter().map(|&stage| later(Tag::De, stage, BY_SX)));
    wanted
}

fn wanted_of_ends() -> Vec<String> {
    let mut wanted = vec![MOST_COMBINATIONS.to_string()];
    for width in [NARROW, WIDE] {
        for tag in [Tag::Ch, Tag::Cs] {
            wanted.extend([FEWEST, BETWEEN, ALL].map(|count| done(count, tag, width)));
        }
        wanted.extend([IN_QUAL, IN_BAD, FAILED].map(|what| of_width(what, width)));
    }
    wanted
}

fn at_stage_0(tag: Tag, number: u8) -> String {
    format!("{} answered {number} at stage 0", tag.name())
}

/// A record that the stage refuses in a run begun so.
fn later(tag: Tag, stage: Stage, begun: &str) -> String {
    format!("{} answered 11 at stage {} of a run {begun}", tag.name(), stage.number())
}

/// A record at stage 1 of a run begun by SX.
fn with_dealings(tag: Tag, number: u8, count: &str) -> String {
    format!("{} answered {number} after {count} of a run that waits", tag.name())
}

fn under_six(number: u8) -> String {
    format!("SX under six bytes answered {number}")
}

fn shorter(tag: Tag) -> String {
    format!("{} answered 2 with n-2t in place of b", tag.name())
}

fn flood(number: u8, begun: &str) -> String {
    format!("over {FLOOD} GO answered {number} in a run {begun}")
}

fn done(count: &str, tag: Tag, width: &str) -> String {
    format!("done with {count} after {}, {width}", tag.name())
}

fn of_width(what: &str, width: &str) -> String {
    format!("{what}, {width}")
}

/// What a log shows.
pub fn shown(reading: &Reading) -> BTreeSet<String> {
    let mut shown = BTreeSet::new();
    let mut dealings = 0;
    for (place, given) in reading.answers.iter().enumerate() {
        let last = place + 1 == reading.answers.len();
        shown.extend(shown_by(given, &reading.run, dealings, last));
        let dealt = given.tag == Some(Tag::De) && given.answer.is_ok();
        dealings += usize::from(dealt);
    }
    shown.extend(floods(reading));
    shown.extend(shown_by_end(reading));
    shown
}

/// What a record shows that comes after so many accepted dealings.
fn shown_by(given: &Given, run: &Run, dealings: usize, last: bool) -> Vec<String> {
    let (Some(tag), number) = (given.tag, answer_number(given.answer)) else { return vec![] };
    let mut shown = Vec::new();
    if tag == Tag::Sx && given.place.len() < 6 {
        shown.push(under_six(number));
    }
    let begun = run.setup.as_ref().filter(|_| given.stage != Stage::Fresh);
    let Some(setup) = begun else {
        shown.push(at_stage_0(tag, number));
        return shown;
    };
    if number == 11 {
        shown.push(later(tag, given.stage, if setup.waits { BY_SX } else { BY_SU }));
    }
    if setup.waits && given.stage == Stage::Dealing {
        let count = count_of(dealings, &setup.params);
        shown.extend(count.map(|count| with_dealings(tag, number, count)));
        shown.extend((tag == Tag::Ve && !last).then(|| ROW_BEFORE_GO.to_string()));
    }
    if number == 2 && is_shorter(tag, given, run) {
        shown.push(shorter(tag));
    }
    shown
}

/// The words for so many dealings, if there are any.
fn count_of(dealings: usize, params: &Params) -> Option<&'static str> {
    let (majority, n) = (params.majority(), params.n as usize);
    match dealings {
        0 => Some(NONE),
        count if count + 1 == majority => Some(ONE_SHORT),
        count if count == majority => Some(FEWEST),
        count if count == n => Some(ALL),
        count if count > majority => Some(BETWEEN),
        _ => None,
    }
}

/// Has the record the length that n-t dealings would give, where there are more?
fn is_shorter(tag: Tag, given: &Given, run: &Run) -> bool {
    let params = run.params();
    let least = params.combinations_of(params.majority());
    let length = tag.length(&params, Some(least));
    BY_B.contains(&tag) && Some(least) < run.combinations() && length == Some(given.place.len())
}

/// Thousands of refused GO with one number.
fn floods(reading: &Reading) -> Vec<String> {
    let Some(setup) = &reading.run.setup else { return vec![] };
    let begun = if setup.waits { BY_SX } else { BY_SU };
    let count = |number: u8| {
        let answers = reading.answers.iter().filter(|given| given.tag == Some(Tag::Go));
        answers.filter(|given| answer_number(given.answer) == number).count()
    };
    let flooded = [11, 17].into_iter().filter(|&number| count(number) > FLOOD);
    flooded.map(|number| flood(number, begun)).collect()
}

/// What the end of a run begun by SX shows.
fn shown_by_end(reading: &Reading) -> Vec<String> {
    let run = &reading.run;
    let Some((setup, sets)) = run.setup.as_ref().zip(run.sets.as_ref()) else { return vec![] };
    if !setup.waits {
        return vec![];
    }
    let width = if setup.params.n <= MOST_NARROW { NARROW } else { WIDE };
    let mut extra = run.dealings.iter().skip(setup.params.majority()).map(|d| d.dealer);
    let mut shown = Vec::new();
    if run.stage == Stage::Done {
        let tags = [Tag::Ch, Tag::Cs].into_iter().filter(|&tag| reading.accepted(tag));
        let count = count_of(run.dealings.len(), &setup.params);
        shown.extend(tags.zip(count).map(|(tag, count)| done(count, tag, width)));
        shown.extend(extra.clone().map(|dealer| end_of(dealer, &sets.bad, width)));
        shown.extend((run.combinations() == Some(63)).then(|| MOST_COMBINATIONS.to_string()));
    } else if run.stage == Stage::Failed && extra.any(|dealer| sets.bad.contains(&dealer)) {
        shown.push(of_width(FAILED, width));
    }
    shown
}

/// What a run that is done shows of an extra dealer.
fn end_of(dealer: Party, bad: &BTreeSet<Party>, width: &str) -> String {
    of_width(if bad.contains(&dealer) { IN_BAD } else { IN_QUAL }, width)
}
