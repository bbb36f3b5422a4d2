//! Logs of runs begun by SX (request 2.5): complete ones that sign with n-t dealings,
//! with more and with all n, noisy ones, bad dealers among the extra ones, and the same
//! records by SU and by SX.

use super::committee::{as_sx, random_params, random_scalar, Triple};
use super::course::{add_every_alien, completed, with_every_fault};
use super::document;
use super::draft::Draft;
use super::edges::small_draft;
use super::identity;
use super::log_set::LogSet;
use super::spoil;
use crate::log::read_log;
use crate::params::Party;
use crate::records::Tag;
use crate::refusal::Refusal;
use crate::rng::Rng;
use crate::run::Stage;

/// Committees small and large, on both sides of 32 parties, with t and a of 1 and more.
const SIZES: [Triple; 7] =
    [(4, 1, 1), (7, 1, 2), (11, 2, 3), (32, 10, 1), (33, 1, 1), (33, 10, 2), (63, 20, 2)];

/// The most combinations, the example of the paper, the most slots of 32 parties, and
/// the highest t.
const LARGEST: [Triple; 4] = [(64, 1, 31), (64, 15, 10), (32, 1, 15), (64, 21, 1)];

/// A draft begun by SX with so many extra dealers, those after the first n-t.
pub fn waiting_draft(params: Triple, extra: usize, rng: &mut Rng) -> Draft {
    identity::draft_of(params, rng).with_extra_dealers(extra, rng)
}

/// A draft begun by SX in which everyone deals.
pub fn draft_of_all(params: Triple, rng: &mut Rng) -> Draft {
    waiting_draft(params, usize::from(params.1), rng)
}

/// A small draft begun by SX with as many extra dealers as lots draw.
pub fn small_waiting(rng: &mut Rng) -> Draft {
    let draft = small_draft(rng).with_wide_bounds().with_identity_keys(rng);
    some_extra(draft, rng)
}

/// A draft begun by SU with SX and GO among its refused records.
pub fn never_waiting(params: Triple, rng: &mut Rng) -> Draft {
    identity::draft_of(params, rng).with_waiting_tags()
}

fn some_extra(draft: Draft, rng: &mut Rng) -> Draft {
    let extra = rng.between(0, draft.params().t) as usize;
    draft.with_extra_dealers(extra, rng)
}

/// None, one, and all that there are.
pub fn extras(params: Triple) -> Vec<usize> {
    let mut extras = vec![0, 1, usize::from(params.1)];
    extras.dedup();
    extras
}

/// The dealers after the first n-t.
pub fn extra_dealers(draft: &Draft) -> &[Party] {
    &draft.dealers[draft.params().majority()..]
}

/// A log to keep: everyone of 7,1,2 deals, the last one wrongly, and they sign with a
/// shift. GO comes early and late, and dealings, SX and VE where they are refused.
fn example(rng: &mut Rng) -> Vec<u8> {
    let draft = draft_of_all((7, 1, 2), rng);
    let bad = extra_dealers(&draft).to_vec();
    let mut draft = shifted(draft.with_bad(&bad, rng), rng);
    let (go, again) = (Tag::Go.letters(), draft.committee.de(draft.dealers[0]));
    draft.go_to(Stage::Dealing, rng);
    draft.go_on(5, rng);
    draft.refuse(go, Refusal::Early);
    draft.go_on(2, rng);
    draft.refuse(&again, Refusal::Again);
    draft.refuse(&spoil::alien(&draft, Tag::Ve, rng), Refusal::Stage);
    draft.refuse(&draft.committee.sx(), Refusal::Stage);
    draft.go_to(Stage::Complaining, rng);
    draft.refuse(&again, Refusal::Stage);
    draft.go_to(Stage::Done, rng);
    draft.refuse(go, Refusal::Stage);
    draft.bytes
}

/// Committees that sign with CH and with CS.
pub fn complete_logs(gathered: &mut LogSet, rng: &mut Rng) {
    gathered.add("wait-example-7-1-2", example(rng));
    for (n, t, a) in SIZES {
        for extra in extras((n, t, a)) {
            let kind = format!("wait-complete-{n}-{t}-{a}");
            let draft = waiting_draft((n, t, a), extra, rng);
            gathered.add(&kind, completed(draft, rng));
            let draft = waiting_draft((n, t, a), extra, rng).with_bad_dealers(1, rng);
            gathered.add(&format!("{kind}-shifted"), completed(shifted(draft, rng), rng));
        }
    }
    for (n, t, a) in LARGEST {
        let kind = format!("wait-largest-{n}-{t}-{a}");
        let draft = draft_of_all((n, t, a), rng);
        gathered.add(&kind, completed(draft.clone(), rng));
        let bad = extra_dealers(&draft).to_vec();
        let draft = shifted(draft.with_bad(&bad, rng), rng);
        gathered.add(&format!("{kind}-shifted"), completed(draft, rng));
    }
}

/// The draft with a shift drawn by lot, and its own tags.
fn shifted(mut draft: Draft, rng: &mut Rng) -> Draft {
    draft.shift = Some(random_scalar(rng));
    draft
}

/// Committees with refused records of all tags, begun by SX and by SU.
pub fn noisy_logs(gathered: &mut LogSet, rng: &mut Rng) {
    gathered.add_many("wait-noisy", 12, |_| {
        let params = random_params(None, rng);
        let draft = Draft::new(params, rng).with_wide_bounds().with_identity_keys(rng);
        completed(noisy(some_extra(draft, rng), 35, rng), rng)
    });
    gathered.add_many("wait-very-noisy", 8, |_| {
        let draft = small_waiting(rng);
        completed(noisy(draft, 80, rng), rng)
    });
    for params in [(33, 10, 2), (48, 9, 3), (64, 4, 1)] {
        let draft = draft_of_all(params, rng);
        gathered.add("wait-noisy-above-32", completed(noisy(draft, 12, rng), rng));
    }
    for params in [(4, 1, 1), (7, 2, 1), (9, 2, 2), (33, 1, 1)] {
        let draft = never_waiting(params, rng);
        gathered.add("wait-in-noise-alone", completed(noisy(draft, 50, rng), rng));
    }
    for params in [(4, 1, 1), (7, 1, 2), (11, 2, 3), (33, 1, 1)] {
        let draft = draft_of_all(params, rng).with_bad_dealers(1, rng);
        gathered.add("wait-every-fault", with_every_fault(draft, rng));
    }
    for (params, extra) in [((9, 2, 2), 0), ((9, 2, 2), 1), ((40, 2, 1), 1)] {
        let draft = waiting_draft(params, extra, rng);
        gathered.add("wait-every-fault", with_every_fault(draft, rng));
    }
    let draft = never_waiting((7, 2, 1), rng);
    gathered.add("wait-every-fault-by-su", with_every_fault(draft, rng));
}

/// The draft with bad dealers and refused records; half of them sign with a shift.
fn noisy(draft: Draft, noise: u32, rng: &mut Rng) -> Draft {
    let bad = rng.between(0, draft.params().t) as usize;
    let mut draft = draft.with_bad_dealers(bad, rng).with_noise(noise);
    draft.shift = rng.chance(50).then(|| random_scalar(rng));
    draft
}

/// t bad dealers and t+1: extra ones, others, and both; and extra ones whom nobody
/// blames.
pub fn bad_logs(gathered: &mut LogSet, rng: &mut Rng) {
    for params in [(4, 1, 1), (9, 2, 2), (32, 10, 1), (33, 1, 1), (64, 4, 1)] {
        let draft = draft_of_all(params, rng);
        let t = usize::from(params.1);
        let (first, extra) = draft.dealers.split_at(draft.params().majority());
        let (first, extra) = (rng.some_of(first, t + 1), extra.to_vec());
        for (place, bad) in [("extra", &extra), ("first", &first[1..].to_vec())] {
            let draft = draft.clone().with_bad(bad, rng);
            gathered.add(&format!("wait-bad-{place}"), completed(draft, rng));
        }
        let mixed = [&extra[..], &first[..1]].concat();
        for (place, bad) in [("extra", &mixed), ("first", &first)] {
            let mut draft = draft.clone().with_bad(bad, rng);
            draft.go_to(Stage::Failed, rng);
            add_every_alien(&mut draft, rng);
            gathered.add(&format!("wait-too-many-bad-{place}"), draft.bytes);
        }
        let draft = draft.with_bad(&extra, rng).with_silence();
        gathered.add("wait-bad-unblamed", completed(draft, rng));
    }
}

/// A log begun by SU without refused records, begun by SX and with GO before its
/// complaint rows.
pub fn as_waiting(log: &[u8]) -> Vec<u8> {
    let answers = read_log(log).answers;
    let row = answers.iter().find(|given| given.stage == Stage::Complaining);
    let (dealt, rest) = log.split_at(row.expect("a complaint row").place.start);
    [&as_sx(dealt.to_vec())[..], Tag::Go.letters(), rest].concat()
}

/// The same records by SU and by SX; then other responders and other orders.
pub fn pair_logs(gathered: &mut LogSet, rng: &mut Rng) {
    let mut pairs = vec![document::worked(), document::shifted(5), document::too_many_bad()];
    for params in [(8, 1, 3), (11, 2, 3), (33, 1, 1)] {
        let draft = identity::draft_of(params, rng).with_bad_dealers(1, rng);
        pairs.push(completed(draft, rng));
    }
    for log in pairs {
        gathered.add("wait-pair-sx", as_waiting(&log));
        gathered.add("wait-pair-su", log);
    }
    for params in [(11, 2, 2), (33, 1, 1)] {
        let draft = draft_of_all(params, rng).with_bad_dealers(1, rng);
        for log in same_signatures(&draft, rng) {
            gathered.add("wait-other-order", log);
        }
    }
}

/// Logs of one committee with the same challenges: as they come, with other
/// responders, and with everyone in another order.
pub fn same_signatures(draft: &Draft, rng: &mut Rng) -> Vec<Vec<u8>> {
    let ch = draft.committee.ch(rng);
    let mut logs = vec![challenged(draft.clone(), &ch, rng)];
    let mut other = draft.clone();
    other.responders = rng.some_of(&draft.holders, draft.params().quorum());
    logs.push(challenged(other.clone(), &ch, rng));
    other.dealers.reverse();
    other.holders.rotate_left(1);
    other.responders.reverse();
    logs.push(challenged(other, &ch, rng));
    logs
}

/// The log of a fresh draft that is given these challenges.
fn challenged(mut draft: Draft, challenges: &[u8], rng: &mut Rng) -> Vec<u8> {
    draft.go_to(Stage::Challenging, rng);
    draft.accept(challenges);
    completed(draft, rng)
}
