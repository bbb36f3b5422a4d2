//! What runs that bundles finish show (request 2.7), each in words: how they come to their
//! bundles, of which committees they are, and in how many bundles the needed rows come.

use crate::arith::Scalar;
use crate::bundles::Collected;
use crate::params::MOST_NARROW;
use crate::run::Run;

/// How a run comes to its bundles.
const BY_CH: &str = "begun by SU, with CH";
const BY_CS: &str = "begun by SU, with a shift";
const WAITED: &str = "that waited for more dealings, with CH";
const WAITED_BY_CS: &str = "that waited for more dealings, with a shift";
const WITH_BAD: &str = "with bad dealers";
const ROWS_IN_LOG: &str = "with some rows in its log";
const STARTS: [&str; 6] = [BY_CH, BY_CS, WAITED, WAITED_BY_CS, WITH_BAD, ROWS_IN_LOG];

/// The two widths of a committee.
const NARROW: &str = "up to 32 parties";
const WIDE: &str = "33 to 64 parties";

/// Committees, and how many dealings they sign with.
const LEAST: &str = "n = 4";
const MOST: &str = "n = 64";
const UNPACKED: &str = "a = 1";
const PACKED: &str = "a above 1";
const FULL: &str = "full packing and a above 1";
const FEWEST_NUMBERS: &str = "b = 2, the least";
const MANY_NUMBERS: &str = "b from 30 on";
const MOST_NUMBERS: &str = "b = 63, the most";
const NO_EXTRA: &str = "GO after n-t dealings";
const SIZES: [&str; 9] =
    [LEAST, MOST, UNPACKED, PACKED, FULL, FEWEST_NUMBERS, MANY_NUMBERS, MOST_NUMBERS, NO_EXTRA];

/// In how many bundles the needed rows come.
const IN_ONE: &str = "all needed rows in one bundle";
const IN_TWO: &str = "the needed rows in two bundles";
const IN_MORE: &str = "the needed rows in more bundles";
const ONE_EACH: &str = "four and more needed rows, a bundle each";

/// Everything that some input should show.
pub fn wanted() -> Vec<String> {
    let mut wanted = Vec::new();
    for width in [NARROW, WIDE] {
        wanted.extend(STARTS.map(|start| finished(start, width)));
    }
    wanted.extend(SIZES.map(finished_with));
    wanted.extend([IN_ONE, IN_TWO, IN_MORE, ONE_EACH].map(str::to_string));
    wanted
}

fn finished(start: &str, width: &str) -> String {
    format!("a run {start}, of {width}, finished by bundles")
}

fn finished_with(size: &str) -> String {
    format!("a run with {size}, finished by bundles")
}

/// What the run of an input shows, if bundles finish it.
pub fn shown(collected: &Collected) -> Vec<String> {
    let (run, calls) = (collected.run(), &collected.calls);
    if calls.iter().all(|call| call.stage == call.stage_after) {
        return vec![];
    }
    let params = run.params();
    let width = if params.n <= MOST_NARROW { NARROW } else { WIDE };
    let in_log = calls[0].accepted;
    let mut shown: Vec<String> =
        starts_of(run, in_log).into_iter().map(|start| finished(start, width)).collect();
    shown.extend(sizes_of(run).into_iter().map(finished_with));
    let taking = calls.iter().filter(|call| call.answer.is_ok() && call.list.contains(&0)).count();
    if in_log == 0 {
        shown.push([IN_ONE, IN_TWO, IN_MORE][taking.min(3) - 1].to_string());
        let one_each = taking == params.quorum() && taking >= 4;
        shown.extend(one_each.then(|| ONE_EACH.to_string()));
    }
    shown
}

fn starts_of(run: &Run, in_log: usize) -> Vec<&'static str> {
    let is_shifted = run.shift != Scalar::ZERO;
    let has_waited = run.dealings.len() > run.params().majority();
    let bad = &run.sets.as_ref().expect("the sets are fixed at stage 5").bad;
    let start = match (has_waited, is_shifted) {
        (false, false) => BY_CH,
        (false, true) => BY_CS,
        (true, false) => WAITED,
        (true, true) => WAITED_BY_CS,
    };
    let with_bad = (!bad.is_empty()).then_some(WITH_BAD);
    [start].into_iter().chain(with_bad).chain((in_log > 0).then_some(ROWS_IN_LOG)).collect()
}

fn sizes_of(run: &Run) -> Vec<&'static str> {
    let params = run.params();
    let b = run.combinations().expect("b is fixed at stage 5");
    let waits = run.setup.as_ref().is_some_and(|setup| setup.waits);
    let is_full = params.n + 1 == 3 * params.t + 2 * params.a;
    let kinds = [
        (params.n == 4, LEAST),
        (params.n == 64, MOST),
        (params.a == 1, UNPACKED),
        (params.a > 1, PACKED),
        (params.a > 1 && is_full, FULL),
        (b == 2, FEWEST_NUMBERS),
        (b >= 30, MANY_NUMBERS),
        (b == 63, MOST_NUMBERS),
        (waits && run.dealings.len() == params.majority(), NO_EXTRA),
    ];
    kinds.into_iter().filter_map(|(holds, kind)| holds.then_some(kind)).collect()
}
