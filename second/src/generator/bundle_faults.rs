//! Bundles with rows that are refused (request 2.7): of a holder who has an accepted row,
//! with numbers that do not pass, with every other fault, and of other tags; before the
//! run is done and after.

use super::bundle_counts::{shifted, waited_with_bad, with_bad, Start};
use super::bundle_draft::{at_rows, BundleDraft, Row, STAGE, TAKEN};
use super::bytes::put;
use super::committee::Triple;
use super::spoil::{all_faults, shift_number};
use super::waits::{draft_of_all, never_waiting};
use crate::arith::Q;
use crate::log::read_log;
use crate::params::Party;
use crate::records::Tag;
use crate::refusal::Refusal;
use crate::rng::Rng;
use crate::run::Stage;
use std::ops::Range;

/// Tags that there are not: RD is of another request, and the others are nearly tags.
pub const UNKNOWN: [&[u8; 2]; 6] = [b"RD", b"re", b"ER", b"R\0", b"\0\0", b"\xff\xff"];

/// Committees with few and with many response numbers, narrow and wide.
const SIZES: [(Triple, Start); 5] = [
    ((4, 1, 1), never_waiting),
    ((7, 2, 1), draft_of_all),
    ((9, 2, 2), with_bad),
    ((33, 1, 1), waited_with_bad),
    ((64, 1, 1), shifted),
];

pub fn fault_inputs(inputs: &mut Vec<Vec<u8>>, rng: &mut Rng) {
    for (params, start) in SIZES {
        let challenged = at_rows(start(params, rng), rng);
        inputs.push(same_holder(challenged.clone()));
        inputs.push(one_holder_alone(challenged.clone()));
        inputs.push(not_passing(challenged.clone()));
        inputs.push(each_fault(challenged.clone()));
        inputs.push(every_set_of_faults(challenged.clone(), rng));
        inputs.push(foreign(challenged.clone(), rng));
        inputs.push(records_as_rows(challenged.clone()));
        inputs.push(rows_in_log(challenged, rng));
    }
}

/// The row with this number added to its u-th response number.
pub fn wrong(row: &[u8], u: usize, off: i64) -> Vec<u8> {
    let mut row = row.to_vec();
    shift_number(&mut row, 4 * u, off);
    row
}

/// The row with another byte at a place.
fn with_byte(row: &[u8], place: usize, byte: u8) -> Vec<u8> {
    let mut row = row.to_vec();
    row[place] = byte;
    row
}

/// The row with another u-th response number.
fn with_number(row: &[u8], u: usize, number: u32) -> Vec<u8> {
    let mut row = row.to_vec();
    put(&mut row, 4 * u, number);
    row
}

/// How many response numbers a row has.
pub fn numbers_in(row: &[u8]) -> usize {
    (row.len() - 4) / 4
}

/// Each row twice, and once with a wrong number: in one bundle and across bundles.
fn same_holder(mut bundles: BundleDraft) -> Vec<u8> {
    let needed = bundles.needed();
    let again = Refusal::Again.number();
    let mut before: Vec<Row> = Vec::new();
    for (row, _) in needed[..needed.len() - 1].iter().cloned() {
        let other = wrong(&row, numbers_in(&row), -1);
        let twice = [(row.clone(), TAKEN), (row.clone(), again), (other.clone(), again)];
        bundles.take(&[&before[..], &twice].concat());
        before = vec![(row, again), (other, again)];
    }
    let late = before.iter().map(|(row, _)| (row.clone(), STAGE)).collect::<Vec<Row>>();
    bundles.take(&[&before[..], &needed[needed.len() - 1..], &late].concat());
    bundles.input()
}

/// One holder's row as often as rows are needed, and three times more.
fn one_holder_alone(mut bundles: BundleDraft) -> Vec<u8> {
    let (row, _) = bundles.needed().swap_remove(0);
    let mut rows = vec![(row, Refusal::Again.number()); bundles.draft.params().quorum() + 3];
    rows[0].1 = TAKEN;
    bundles.take(&rows);
    bundles.input()
}

/// The first holder's row with each number wrong in turn and then right, in one bundle; the
/// second's first and last number wrong, and right in a later bundle; then the rest.
fn not_passing(mut bundles: BundleDraft) -> Vec<u8> {
    let (first, second) = (bundles.needed().swap_remove(0), bundles.needed().swap_remove(1));
    let fails = Refusal::Response.number();
    let last = numbers_in(&first.0);
    let mut rows: Vec<Row> = (1..=last).map(|u| (wrong(&first.0, u, 1), fails)).collect();
    rows.push(first.clone());
    bundles.take(&rows);
    bundles.take(&[(wrong(&second.0, 1, 1), fails), (wrong(&second.0, last, -1), fails)]);
    bundles.take(&[(wrong(&first.0, 1, 1), Refusal::Again.number()), second]);
    if bundles.run.stage == Stage::Responding {
        bundles.take(&bundles.needed());
    }
    bundles.input()
}

/// A row with each fault that a row can have.
fn faulty_rows(bundles: &BundleDraft) -> Vec<Row> {
    let (row, _) = bundles.needed().swap_remove(0);
    let (n, last) = (bundles.draft.params().n as u8, numbers_in(&row));
    let mut rows: Vec<Row> = Vec::new();
    let mut add = |row: Vec<u8>, refusal: Refusal| rows.push((row, refusal.number()));
    for byte in [1, 128, 255] {
        add(with_byte(&row, 3, byte), Refusal::Reserved);
    }
    for party in [0, n + 1, 255] {
        add(with_byte(&row, 2, party), Refusal::Party);
    }
    for number in [Q, Q + 1, u32::MAX] {
        add(with_number(&row, 1, number), Refusal::Scalar);
        add(with_number(&row, last, number), Refusal::Scalar);
    }
    for outsider in outsiders(bundles) {
        add(with_byte(&row, 2, outsider as u8), Refusal::Outsider);
    }
    add(wrong(&row, 1, 1), Refusal::Response);
    add(wrong(&row, last, 1), Refusal::Response);
    rows
}

/// The parties that are not in HOLD.
fn outsiders(bundles: &BundleDraft) -> Vec<Party> {
    let holders = &bundles.draft.holders;
    (1..=bundles.draft.params().n).filter(|party| !holders.contains(party)).collect()
}

/// The rows as they are answered once the run is done: unknown tags with 1, all others
/// with 11.
fn once_done(rows: &[Row]) -> Vec<Row> {
    let answered = |row: &Row| {
        let number = if Tag::of(&row.0).is_some() { STAGE } else { Refusal::Tag.number() };
        (row.0.clone(), number)
    };
    rows.iter().map(answered).collect()
}

/// Rows with each fault, then the needed ones, then those with faults again.
fn each_fault(mut bundles: BundleDraft) -> Vec<u8> {
    let faulty = faulty_rows(&bundles);
    let rows = [&faulty[..], &bundles.needed(), &once_done(&faulty)].concat();
    bundles.take(&rows);
    bundles.input()
}

/// Rows with every set of faults behind the first needed one, a bundle of some at a time;
/// then the rest, and some of them again.
fn every_set_of_faults(mut bundles: BundleDraft, rng: &mut Rng) -> Vec<u8> {
    let needed = bundles.needed();
    let mut ahead = bundles.draft.clone();
    ahead.accept(&needed[0].0);
    let faulty: Vec<Row> =
        all_faults(&ahead, rng).into_iter().map(|(row, refusal)| (row, refusal.number())).collect();
    let (first, others) = faulty.split_at(faulty.len() / 2);
    bundles.take(&[&needed[..1], first].concat());
    for some in others.chunks(7) {
        bundles.take(some);
    }
    bundles.take(&[&needed[1..], &once_done(first)].concat());
    bundles.input()
}

/// Rows of every other tag and of unknown ones, with whatever contents.
pub fn foreign_rows(bundles: &BundleDraft, rng: &mut Rng) -> Vec<Row> {
    let length = bundles.row_length();
    let mut of_tag = |letters: &[u8; 2], number: u8| {
        let contents = rng.bytes(length - letters.len());
        ([&letters[..], &contents].concat(), number)
    };
    let known = Tag::ALL.into_iter().filter(|&tag| tag != Tag::Re);
    let mut rows: Vec<Row> = known.map(|tag| of_tag(tag.letters(), STAGE)).collect();
    rows.extend(UNKNOWN.map(|letters| of_tag(letters, Refusal::Tag.number())));
    rows
}

/// Rows of other tags before each needed one, and after the last.
fn foreign(mut bundles: BundleDraft, rng: &mut Rng) -> Vec<u8> {
    let rows = foreign_rows(&bundles, rng);
    let mut all = Vec::new();
    for needed in bundles.needed() {
        all.extend(rng.some_of(&rows, 3));
        all.push(needed);
    }
    bundles.take(&rows);
    bundles.take(&[all, rows].concat());
    bundles.input()
}

/// The records of the log in place of rows, each as long as a row; then the needed ones.
fn records_as_rows(mut bundles: BundleDraft) -> Vec<u8> {
    let reading = read_log(&bundles.draft.bytes);
    let as_row = |place: Range<usize>| {
        let mut row = bundles.draft.bytes[place].to_vec();
        row.resize(bundles.row_length(), 0);
        (row, STAGE)
    };
    let rows: Vec<Row> = reading.answers.into_iter().map(|given| as_row(given.place)).collect();
    bundles.take(&rows[rows.len().saturating_sub(20)..]);
    let needed = bundles.needed();
    bundles.take(&[needed, rows[..5].to_vec()].concat());
    bundles.input()
}

/// All but one of the needed rows in the log; the same again in a bundle, one of them with
/// a wrong number, and the last.
fn rows_in_log(bundles: BundleDraft, rng: &mut Rng) -> Vec<u8> {
    let mut draft = bundles.draft;
    let in_log = draft.params().quorum() - 1;
    draft.go_on(in_log, rng);
    let mut bundles = BundleDraft::new(draft);
    let mut again = bundles.rows(&bundles.draft.responders[..in_log], Refusal::Again.number());
    again.push((wrong(&again[0].0, 1, 1), Refusal::Again.number()));
    bundles.take(&again);
    let last = bundles.needed();
    bundles.take(&[&again[..], &last, &once_done(&again)].concat());
    bundles.input()
}
