//! Logs about the size of BAD beside t (request 2.4): t bad dealers and t+1, all up
//! to 32, all above, and on both sides.

use super::committee::Triple;
use super::draft::Draft;
use super::log_set::LogSet;
use super::wide_masks::{add_at_limit, draft_hearing};
use crate::params::{Party, MOST_NARROW};
use crate::rng::Rng;

/// Committees with t above 1 that have t+1 parties on either side of 32: the least
/// one is the first, that with the highest t the last.
const SIZES: [Triple; 5] = [(35, 2, 1), (48, 9, 3), (63, 20, 2), (64, 2, 1), (64, 21, 1)];

/// A name for where bad dealers are, and how many of so many are up to 32.
type Side = (&'static str, fn(usize) -> usize);

const SIDES: [Side; 3] = [("low", |count| count), ("high", |_| 0), ("both", |count| count / 2)];

pub fn bad_logs(gathered: &mut LogSet, rng: &mut Rng) {
    for params in SIZES {
        for (side, low) in SIDES {
            let with_bad = |count: usize, rng: &mut Rng| {
                bad_by_lot(params, low(count), count - low(count), rng)
            };
            add_at_limit(gathered, &format!("count-{side}"), params, with_bad, rng);
        }
    }
}

/// A draft with so many bad dealers up to 32, and so many above.
fn bad_by_lot(params: Triple, low: usize, high: usize, rng: &mut Rng) -> Draft {
    let parties: Vec<Party> = (1..=Party::from(params.0)).collect();
    let (up_to, above) = parties.split_at(MOST_NARROW as usize);
    let bad = [rng.some_of(up_to, low), rng.some_of(above, high)].concat();
    draft_hearing(params, &bad, rng).with_identity_keys(rng).with_bad(&bad, rng)
}
