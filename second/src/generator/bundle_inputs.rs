//! Every input of bundles (request 2.7): an example, and those of every kind.

use super::bundle_counts::count_inputs;
use super::bundle_cuts::cut_inputs;
use super::bundle_faults::fault_inputs;
use super::bundle_forms::form_inputs;
use super::bundle_lists::{list_inputs, stage_inputs};
use super::bundle_lots::lot_inputs;
use super::document::{response, up_to_challenges};
use crate::bundles::{input_of, Bundle};
use crate::rng::Rng;

/// The inputs that a seed gives, as bytes. The first is the same for every seed.
pub fn bundle_inputs(seed: u64) -> Vec<Vec<u8>> {
    let mut rng = Rng::new(seed);
    let mut inputs = vec![example()];
    for group in [count_inputs, fault_inputs, cut_inputs, list_inputs, stage_inputs, lot_inputs] {
        group(&mut inputs, &mut rng);
    }
    form_inputs(&mut inputs);
    inputs
}

/// The worked log of document 01 up to its challenges, and bundles: of no rows; of one
/// row; of two with a list of one place; of refused rows, the last needed one and three
/// more, of which the last is cut; and one more row.
pub fn example() -> Vec<u8> {
    let (second, third) = (response(2, [10, 22]), response(3, [13, 28]));
    let (fourth, outsider) = (response(4, [16, 34]), response(1, [0, 0]));
    let wrong = response(3, [13, 29]);
    let needed = [outsider, second.clone(), wrong, third.clone()].concat();
    let more = [&fourth[..], &second, &fourth[..11]].concat();
    let bundle = |places: u16, rows: Vec<u8>| Bundle { places, rows };
    let bundles = [
        bundle(0, Vec::new()),
        bundle(1, second),
        bundle(1, [&third[..], &fourth].concat()),
        bundle(7, [needed, more].concat()),
        bundle(1, fourth),
    ];
    input_of(&up_to_challenges(), &bundles)
}
