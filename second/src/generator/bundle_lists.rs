//! Bundles that are refused as a whole (request 2.7): with lists that have not one place a
//! row, then with a right one; and at every stage but 4.

use super::bundle_counts::{shifted, waited_with_bad, Start};
use super::bundle_draft::{at_rows, end_to_end, BundleDraft, Row};
use super::committee::{with_identity_key, Triple};
use super::document::plain_setup;
use super::draft::Draft;
use super::edges::draft_at;
use super::spoil::alien;
use super::wait_edges::{waiting_at, with_dealings};
use super::waits::{draft_of_all, never_waiting};
use crate::records::Tag;
use crate::refusal::Refusal;
use crate::rng::Rng;
use crate::run::Stage;

/// Committees with few and with many response numbers; in those that wait b is above n-2t.
const SIZES: [(Triple, Start); 4] = [
    ((4, 1, 1), never_waiting),
    ((9, 2, 2), waited_with_bad),
    ((33, 10, 1), draft_of_all),
    ((64, 1, 1), shifted),
];

/// The stages that refuse every bundle.
const OTHERS: [Stage; 6] = [
    Stage::Fresh,
    Stage::Dealing,
    Stage::Complaining,
    Stage::Challenging,
    Stage::Done,
    Stage::Failed,
];

pub fn list_inputs(inputs: &mut Vec<Vec<u8>>, rng: &mut Rng) {
    for (params, start) in SIZES {
        let challenged = at_rows(start(params, rng), rng);
        inputs.push(whole_rows(challenged.clone()));
        inputs.push(with_cut_row(challenged.clone()));
        inputs.push(no_rows(challenged));
    }
    let mut bundles = at_rows(never_waiting((4, 1, 1), rng), rng);
    let rows = bundles.needed();
    bundles.refuse(&end_to_end(&rows), u16::MAX.into(), Refusal::List);
    bundles.take(&rows);
    inputs.push(bundles.input());
}

/// Numbers of places that are not one a row: fewer, more, and right if the rows were cut
/// otherwise or the cut one did not count.
fn other_lists(bundles: &BundleDraft, size: usize) -> Vec<usize> {
    let (length, count) = (bundles.row_length(), bundles.count(size));
    let params = bundles.draft.params();
    let shortest = 4 + 4 * params.combinations_of(params.majority()) as usize;
    let cut_otherwise = [length + 4, length - 4, shortest].map(|other| size.div_ceil(other));
    let mut lists = [0, count - 1, count + 1, 2 * count, size / length, 1_500].to_vec();
    lists.extend(cut_otherwise);
    lists.sort();
    lists.dedup();
    lists.retain(|&places| places != count);
    lists
}

/// Adds the rows with each list that is not right, and then with the right one.
fn take_at_last(bundles: &mut BundleDraft, rows: &[Row]) {
    let bytes = end_to_end(rows);
    for places in other_lists(bundles, bytes.len()) {
        bundles.refuse(&bytes, places, Refusal::List);
    }
    bundles.take(rows);
}

/// One row, and then the rest with three more.
fn whole_rows(mut bundles: BundleDraft) -> Vec<u8> {
    let (needed, late) = (bundles.needed(), bundles.three_late());
    take_at_last(&mut bundles, &needed[..1]);
    take_at_last(&mut bundles, &[&needed[1..], &late].concat());
    bundles.input()
}

/// A cut row alone, and then a cut row behind some of the needed ones; then all of them.
fn with_cut_row(mut bundles: BundleDraft) -> Vec<u8> {
    let needed = bundles.needed();
    let cut = (needed[0].0[..6].to_vec(), Refusal::Length.number());
    take_at_last(&mut bundles, &[cut.clone()]);
    let (last, first) = needed.split_last().expect("rows are needed");
    let refused = Refusal::Again.number();
    let again: Vec<Row> = first.iter().map(|(row, _)| (row.clone(), refused)).collect();
    take_at_last(&mut bundles, &[first, &again[..], &[cut]].concat());
    take_at_last(&mut bundles, &[last.clone()]);
    bundles.input()
}

/// No rows with some places, and then with none; then the needed ones.
fn no_rows(mut bundles: BundleDraft) -> Vec<u8> {
    for places in [1, 2, bundles.row_length(), 1_000] {
        bundles.refuse(b"", places, Refusal::List);
    }
    bundles.take(&[]);
    bundles.take(&bundles.needed());
    bundles.input()
}

/// Bundles at every other stage of runs begun by SU and by SX, and behind logs that end
/// by a refusal.
pub fn stage_inputs(inputs: &mut Vec<Vec<u8>>, rng: &mut Rng) {
    for stage in OTHERS {
        let by_su = draft_at(stage, never_waiting((7, 2, 1), rng), rng);
        inputs.push(refused_at_stage(by_su, rng));
    }
    for stage in &OTHERS[1..] {
        let by_sx = waiting_at(*stage, (6, 1, 2), rng);
        inputs.push(refused_at_stage(by_sx, rng));
    }
    for count in [5, 7] {
        let waiting = with_dealings(draft_of_all((7, 2, 1), rng), count, rng);
        inputs.push(refused_at_stage(waiting.clone(), rng));
        let ch = waiting.committee.ch(rng);
        inputs.push(refused_at_stage(ended_by(waiting, &ch), rng));
    }
    let wide = draft_at(Stage::Complaining, never_waiting((33, 1, 1), rng), rng);
    inputs.push(refused_at_stage(wide, rng));
    inputs.push(done_in_log(rng));
    for first in [b"DE\x01\0".to_vec(), b"S".to_vec(), with_identity_key(plain_setup(4, 1, 1))] {
        let fresh = ended_by(never_waiting((4, 1, 1), rng), &first);
        inputs.push(refused_at_stage(fresh, rng));
    }
    inputs.extend(ended_at_rows(rng));
}

/// The draft with bytes behind its log that are refused and end the reading.
fn ended_by(mut draft: Draft, rest: &[u8]) -> Draft {
    draft.bytes.extend(rest);
    draft
}

/// Bundles with right and with other lists, of rows with whatever contents, whole and cut,
/// and of none.
fn refused_at_stage(draft: Draft, rng: &mut Rng) -> Vec<u8> {
    let rows = [0; 3].map(|_| alien(&draft, Tag::Re, rng)).concat();
    let length = draft.length(Tag::Re);
    let mut bundles = BundleDraft::new(draft);
    for size in [0, length, 3 * length, length + 5, 1] {
        let count = bundles.count(size);
        for places in [count, count + 1, count.saturating_sub(1)] {
            bundles.refuse(&rows[..size], places, Refusal::Stage);
        }
    }
    bundles.input()
}

/// Right rows behind a log that is done.
fn done_in_log(rng: &mut Rng) -> Vec<u8> {
    let bundles = at_rows(shifted((9, 2, 2), rng), rng);
    let late = end_to_end(&bundles.three_late());
    let mut done = BundleDraft::new(draft_at(Stage::Done, bundles.draft, rng));
    done.refuse(b"", 0, Refusal::Stage);
    done.refuse(&late, 3, Refusal::Stage);
    done.refuse(&late, 2, Refusal::Stage);
    done.input()
}

/// The needed rows behind logs that end at stage 4 by a refusal: a single byte, an unknown
/// tag, a cut row, a cut record of another tag.
fn ended_at_rows(rng: &mut Rng) -> Vec<Vec<u8>> {
    let challenged = at_rows(waited_with_bad((7, 2, 1), rng), rng);
    let (row, _) = challenged.needed().swap_remove(0);
    let ends = [b"R", &b"re\0\0"[..], &row[..row.len() - 1], b"CH\0\0\0"];
    let with_end = |end: &[u8]| {
        let mut bundles = BundleDraft::new(ended_by(challenged.draft.clone(), end));
        bundles.take(&bundles.needed());
        bundles.input()
    };
    ends.map(with_end).to_vec()
}
