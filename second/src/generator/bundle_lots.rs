//! Bundles of senseless bytes, of right rows changed at random, and of rows drawn by lot
//! (request 2.7).

use super::bundle_counts::{shift_by_lot, waited_with_bad};
use super::bundle_draft::{at_rows, end_to_end, BundleDraft, TAKEN};
use super::bundle_faults::{foreign_rows, numbers_in, wrong};
use super::draft::Draft;
use super::edges::changed;
use super::waits::{never_waiting, small_waiting};
use crate::rng::Rng;
use crate::run::Stage;

/// How many inputs there are of each kind.
const CHANGED: usize = 5;
const DRAWN: usize = 16;

pub fn lot_inputs(inputs: &mut Vec<Vec<u8>>, rng: &mut Rng) {
    inputs.push(senseless(rng));
    inputs.push(log_as_rows(rng));
    for _ in 0..CHANGED {
        inputs.push(changed_rows(rng));
    }
    for _ in 0..DRAWN {
        inputs.push(drawn(rng));
    }
}

/// Adds a bundle of any bytes with one place a row.
fn give_right(bundles: &mut BundleDraft, rows: &[u8]) {
    let places = bundles.count(rows.len());
    let (number, _) = bundles.give(rows, places);
    assert_eq!(number, TAKEN);
}

/// Bundles of zeros, of text and of bytes by lot, then the needed rows.
fn senseless(rng: &mut Rng) -> Vec<u8> {
    let mut bundles = at_rows(never_waiting((6, 1, 2), rng), rng);
    let text = b"RE RE RE RE a sheaf of words and no rows at all, RE 2 with 10,22";
    let lot = rng.bytes(500);
    for bytes in [&[0; 100][..], &[255; 61], text, &lot, b"RERERERERERERERERERERERERERE"] {
        give_right(&mut bundles, bytes);
    }
    for _ in 0..10 {
        let size = rng.below(120);
        let bytes = rng.bytes(size);
        give_right(&mut bundles, &bytes);
    }
    bundles.take(&bundles.needed());
    bundles.input()
}

/// The bytes of a whole log in place of rows, then its own rows.
fn log_as_rows(rng: &mut Rng) -> Vec<u8> {
    let mut bundles = at_rows(waited_with_bad((7, 2, 1), rng), rng);
    let log = bundles.draft.bytes.clone();
    give_right(&mut bundles, &log);
    give_right(&mut bundles, &log[1..]);
    bundles.take(&bundles.needed());
    bundles.input()
}

/// A small committee with refused records in its log, begun by SU or by SX, with a shift
/// or without.
fn lot_draft(rng: &mut Rng) -> Draft {
    let params = rng.pick(&[(4, 1, 1), (6, 1, 2), (7, 2, 1), (8, 1, 3), (10, 3, 1)]);
    let draft = if rng.chance(50) { small_waiting(rng) } else { never_waiting(params, rng) };
    let bad = rng.between(0, draft.params().t) as usize;
    let draft = draft.with_bad_dealers(bad, rng).with_noise(20);
    if rng.chance(50) {
        shift_by_lot(draft, rng)
    } else {
        draft
    }
}

/// The needed rows and three more with some bytes changed; then the right ones, if any are
/// still needed.
fn changed_rows(rng: &mut Rng) -> Vec<u8> {
    let mut bundles = at_rows(lot_draft(rng), rng);
    let rows = [bundles.needed(), bundles.three_late()].concat();
    let rows = changed(end_to_end(&rows), rng);
    give_right(&mut bundles, &rows);
    if bundles.run.stage == Stage::Responding {
        let right = end_to_end(&bundles.needed());
        give_right(&mut bundles, &right);
    }
    bundles.input()
}

/// Bundles of rows drawn by lot, some of them cut, some with another list.
fn drawn(rng: &mut Rng) -> Vec<u8> {
    let mut bundles = at_rows(lot_draft(rng), rng);
    let most = bundles.draft.params().quorum() as u32;
    for _ in 0..rng.between(2, 7) {
        let rows: Vec<u8> =
            (0..rng.between(0, most)).flat_map(|_| row_by_lot(&bundles, rng)).collect();
        let size = if rng.chance(30) { rng.below(rows.len() + 1) } else { rows.len() };
        let count = bundles.count(size);
        let places = if rng.chance(15) { count + rng.below(3) } else { count };
        bundles.give(&rows[..size], places);
    }
    bundles.input()
}

/// A row of a member of HOLD, more often right than not, or a foreign one.
fn row_by_lot(bundles: &BundleDraft, rng: &mut Rng) -> Vec<u8> {
    let row = bundles.row(rng.pick(&bundles.draft.holders));
    match rng.below(10) {
        0 => changed(row, rng),
        1 => wrong(&row, 1 + rng.below(numbers_in(&row)), 1),
        2 => {
            let rows = foreign_rows(bundles, rng);
            rng.pick(&rows).0
        }
        3 => rng.bytes(row.len()),
        _ => row,
    }
}
