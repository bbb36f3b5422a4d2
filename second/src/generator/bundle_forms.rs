//! Inputs of bundles at the limits of their form (request 2.7): broken ones, those as long
//! as an input may be, and longer ones.

use super::bundle_faults::UNKNOWN;
use super::document::{record, response, up_to_challenges, worked};
use super::edges::padded;
use crate::bundles::{input_of, Bundle, HEADER, LONGEST_INPUT};
use crate::report::LONGEST_LOG;

/// The length of a row, and that of the log's length, in an input with the worked log.
const ROW: usize = 12;
const LENGTH: usize = 4;

/// A bundle of these rows with one place a row.
fn bundle_of(rows: &[u8]) -> Bundle {
    Bundle { places: rows.len().div_ceil(ROW) as u16, rows: rows.to_vec() }
}

fn first_row() -> Vec<u8> {
    response(2, [10, 22])
}

fn last_row() -> Vec<u8> {
    response(3, [13, 28])
}

pub fn form_inputs(inputs: &mut Vec<Vec<u8>>) {
    inputs.extend(whole_inputs());
    inputs.extend(broken_logs());
    inputs.extend(broken_bundles());
    inputs.extend(longest_inputs());
}

/// Logs alone: none, one at stage 4, one that is done, and the longest; the longest with
/// bundles, and one byte longer.
fn whole_inputs() -> Vec<Vec<u8>> {
    let longest = padded(up_to_challenges(), 4, LONGEST_LOG);
    let rows = [first_row(), last_row()].map(|row| bundle_of(&row));
    let over = padded(up_to_challenges(), 4, LONGEST_LOG + 1);
    vec![
        input_of(b"", &[]),
        input_of(&up_to_challenges(), &[]),
        input_of(&worked(), &[]),
        input_of(&longest, &[]),
        input_of(&longest, &rows),
        input_of(&over, &[]),
        input_of(&over, &rows),
    ]
}

/// Cut before the end of the log, and with a length of the log that is not its own.
fn broken_logs() -> Vec<Vec<u8>> {
    let log = up_to_challenges();
    let whole = input_of(&log, &[]);
    let cuts = [0, 1, 2, 3, 4, 5, whole.len() - 1];
    let mut inputs = cuts.map(|length| whole[..length].to_vec()).to_vec();
    for length in [log.len() as u32 + 1, LONGEST_LOG as u32, LONGEST_LOG as u32 + 1, u32::MAX] {
        inputs.push([&length.to_be_bytes(), &log[..]].concat());
    }
    inputs
}

/// The worked log with a bundle that is cut: the first, one behind a taken one, one behind
/// a refused one, and one behind the one that ends the run.
fn broken_bundles() -> Vec<Vec<u8>> {
    let (first, last) = (bundle_of(&first_row()), bundle_of(&last_row()));
    let refused = Bundle { places: 0, ..first.clone() };
    let whole = first.encode();
    let mut inputs = Vec::new();
    let before = [vec![], vec![first.clone()], vec![refused], vec![first, last]];
    for (place, bundles) in before.iter().enumerate() {
        let begun = input_of(&up_to_challenges(), bundles);
        let lengths = [1 + place, HEADER - place % 2, whole.len() - 1];
        inputs.extend(lengths.map(|length| [&begun[..], &whole[..length]].concat()));
    }
    let begun = input_of(&up_to_challenges(), &[]);
    for size in [ROW as u32 + 1, u32::MAX] {
        let header = [&[0, 1][..], &size.to_be_bytes()].concat();
        inputs.push([&begun[..], &header, &first_row()].concat());
    }
    inputs
}

/// Rows that are refused and cost little: of the first holder again, of one outside HOLD,
/// with each early fault, of other tags.
fn refused_rows() -> Vec<u8> {
    let rows = [
        first_row(),
        response(1, [0, 0]),
        response(0, [10, 22]),
        response(5, [10, 22]),
        record("RE", &[3, 1], &[13, 28]),
        response(3, [13, u32::MAX]),
        record("CH", &[0, 0], &[1, 2]),
        record("GO", &[0, 0], &[0, 0]),
    ];
    let unknown = UNKNOWN.map(|letters| [&letters[..], &[0; ROW - 2]].concat());
    [rows.concat(), unknown.concat()].concat()
}

/// An input of this size: a taken row, refused ones, the last needed row, four late ones,
/// and what is left as a cut row.
fn filled(size: usize) -> Vec<u8> {
    let log = up_to_challenges();
    let room = size - LENGTH - log.len() - HEADER;
    let whole = room / ROW * ROW;
    let (first, last) = (first_row(), last_row());
    let late = [response(4, [16, 34]), first.clone(), last.clone(), b"XX..........".to_vec()];
    let late = late.concat();
    let refused = whole - first.len() - last.len() - late.len();
    let refused: Vec<u8> = refused_rows().into_iter().cycle().take(refused).collect();
    let cut = &first[..room - whole];
    let rows = [&first[..], &refused, &last, &late, cut].concat();
    input_of(&log, &[bundle_of(&rows)])
}

/// Inputs of just the greatest size, and of one byte more: with one large bundle, and of
/// zeros, which are an empty log and bundles of no rows.
fn longest_inputs() -> Vec<Vec<u8>> {
    let sizes = [LONGEST_INPUT, LONGEST_INPUT + 1];
    let mut inputs = sizes.map(filled).to_vec();
    inputs.extend(sizes.map(|size| vec![0; size]));
    assert!(inputs.iter().zip(sizes.iter().cycle()).all(|(input, &size)| input.len() == size));
    inputs
}
