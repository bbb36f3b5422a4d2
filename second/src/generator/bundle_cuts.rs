//! Bundles whose last row is cut (request 2.7): after each number of bytes, with each kind
//! of tag, alone and behind whole rows, before the run is done and after.

use super::bundle_counts::{shifted, Start};
use super::bundle_draft::{at_rows, BundleDraft, Row, STAGE};
use super::bundle_faults::UNKNOWN;
use super::committee::Triple;
use super::waits::{draft_of_all, never_waiting};
use crate::records::Tag;
use crate::refusal::Refusal;
use crate::rng::Rng;

/// Committees with the fewest response numbers, with some, and with many.
const SIZES: [(Triple, Start); 3] =
    [((4, 1, 1), never_waiting), ((9, 2, 2), draft_of_all), ((64, 1, 1), shifted)];

pub fn cut_inputs(inputs: &mut Vec<Vec<u8>>, rng: &mut Rng) {
    for (params, start) in SIZES {
        let challenged = at_rows(start(params, rng), rng);
        inputs.push(cut_alone(challenged.clone(), rng));
        inputs.push(cut_behind_rows(challenged.clone(), rng));
        inputs.push(last_needed_cut(challenged));
    }
    let challenged = at_rows(never_waiting((4, 1, 1), rng), rng);
    inputs.push(every_length(challenged.clone()));
    inputs.extend(cut_once_done(&challenged, rng));
    let challenged = at_rows(draft_of_all((33, 1, 1), rng), rng);
    inputs.extend(cut_once_done(&challenged, rng).into_iter().step_by(4));
}

/// How many bytes are left of a cut row: one, two, three, four, some, all but one.
fn lengths(bundles: &BundleDraft, rng: &mut Rng) -> [usize; 6] {
    let length = bundles.row_length();
    [1, 2, 3, 4, rng.between(5, length as u32 - 2) as usize, length - 1]
}

/// A row cut to so many bytes, with the number that one before the end gets.
fn cut_row(row: &[u8], length: usize) -> Row {
    let cut = row[..length].to_vec();
    let number = match Tag::of(&cut) {
        None => Refusal::Tag.number(),
        Some(Tag::Re) => Refusal::Length.number(),
        Some(_) => STAGE,
    };
    (cut, number)
}

/// The same once the run is done.
fn cut_late(row: &[u8], length: usize) -> Row {
    let (cut, number) = cut_row(row, length);
    let late = if Tag::of(&cut) == Some(Tag::Re) { STAGE } else { number };
    (cut, late)
}

/// A right row, and its like with each other known tag and with unknown ones.
fn tagged_rows(bundles: &BundleDraft) -> Vec<Vec<u8>> {
    let (row, _) = bundles.needed().swap_remove(0);
    let known = Tag::ALL.into_iter().filter(|&tag| tag != Tag::Re).map(Tag::letters);
    let tagged = known.chain(UNKNOWN).map(|letters| [&letters[..], &row[2..]].concat());
    [row.clone()].into_iter().chain(tagged).collect()
}

/// Bundles of nothing but a cut row; then the needed rows.
fn cut_alone(mut bundles: BundleDraft, rng: &mut Rng) -> Vec<u8> {
    for row in tagged_rows(&bundles) {
        let lengths = lengths(&bundles, rng);
        for length in rng.some_of(&lengths, 3) {
            bundles.take(&[cut_row(&row, length)]);
        }
    }
    bundles.take(&bundles.needed());
    bundles.input()
}

/// Bundles of the rows taken so far, one more while another is needed behind it, and a cut
/// row.
fn cut_behind_rows(mut bundles: BundleDraft, rng: &mut Rng) -> Vec<u8> {
    let mut needed = bundles.needed();
    let mut taken: Vec<Row> = Vec::new();
    for row in tagged_rows(&bundles) {
        let lengths = lengths(&bundles, rng);
        for length in rng.some_of(&lengths, 2) {
            let mut rows = taken.clone();
            if needed.len() > 1 {
                let next = needed.remove(0);
                taken.push((next.0.clone(), Refusal::Again.number()));
                rows.push(next);
            }
            rows.push(cut_row(&row, length));
            bundles.take(&rows);
        }
    }
    bundles.input()
}

/// All needed rows, the last of them cut by a byte; then that row whole.
fn last_needed_cut(mut bundles: BundleDraft) -> Vec<u8> {
    let mut rows = bundles.needed();
    let (last, _) = rows.pop().expect("rows are needed");
    rows.push(cut_row(&last, last.len() - 1));
    bundles.take(&rows);
    bundles.take(&bundles.needed());
    bundles.input()
}

/// A row behind the first needed one, cut to each length.
fn every_length(mut bundles: BundleDraft) -> Vec<u8> {
    let needed = bundles.needed();
    bundles.take(&needed[..1]);
    for length in 1..bundles.row_length() {
        bundles.take(&[cut_row(&needed[1].0, length)]);
        let again = (needed[0].0.clone(), Refusal::Again.number());
        bundles.take(&[again, cut_row(&needed[1].0, length)]);
    }
    bundles.take(&needed[1..]);
    bundles.input()
}

/// Inputs whose only bundle has the needed rows, none or some more, and a cut row.
fn cut_once_done(challenged: &BundleDraft, rng: &mut Rng) -> Vec<Vec<u8>> {
    let rows = tagged_rows(challenged);
    let tags = [0, 1 + rng.below(7), 8 + rng.below(UNKNOWN.len())];
    let lengths = lengths(challenged, rng);
    let mut inputs = Vec::new();
    for length in lengths {
        for tag in tags {
            let mut bundles = challenged.clone();
            let more = rng.pick(&[0, 1, 3]);
            let late = &bundles.three_late()[..more];
            let cut = [cut_late(&rows[tag], length)];
            let all = [&bundles.needed()[..], late, &cut].concat();
            bundles.take(&all);
            inputs.push(bundles.input());
        }
    }
    inputs
}
