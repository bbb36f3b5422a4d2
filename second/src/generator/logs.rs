//! Every kind of log: those of document 01, committees that run their course
//! with and without faults, logs at the limits of the format (in `edges`), logs
//! with CS (in `shifts` and `shift_edges`), logs of more than 32 parties (in `wide`,
//! `wide_masks` and `wide_edges`), logs with identities (in `identity`,
//! `identity_values` and `rekeyed`), logs about the size of BAD (in `count`), logs of
//! runs that wait for more dealers (in `waits`, `wait_edges` and `wait_lengths`), and logs
//! about the bytes that fix the sets (in `sets_ends`, `sets_brought` and `sets_sizes`).
//! New kinds stand last, so that the others keep their places and bytes.

use super::committee::random_params;
use super::count;
use super::course::{completed, with_every_fault};
use super::document;
use super::draft::Draft;
use super::edges;
use super::log_set::{LogSet, NamedLog};
use super::{identity, identity_values, rekeyed, shift_edges, shifts};
use super::{sets_brought, sets_ends, sets_sizes};
use super::{wait_edges, wait_lengths, waits};
use super::{wide, wide_edges, wide_masks};
use crate::params::{Params, MOST_NARROW};
use crate::rng::Rng;
use crate::run::Stage;

/// Adds logs to the set.
type Group = fn(&mut LogSet, &mut Rng);

/// Every group of logs, in order.
const GROUPS: [Group; 59] = [
    document_logs,
    full_packing_logs,
    complete_logs,
    other_quorum_logs,
    wrong_share_logs,
    stopped_logs,
    fault_logs,
    edges::setup_logs,
    edges::cut_logs,
    edges::after_end_logs,
    edges::senseless_logs,
    edges::size_logs,
    edges::flood_logs,
    edges::changed_logs,
    shifts::complete_logs,
    shifts::pair_logs,
    shifts::refused_logs,
    shifts::later_logs,
    shift_edges::stage_logs,
    shift_edges::cut_logs,
    shift_edges::length_logs,
    shift_edges::senseless_logs,
    wide::setup_logs,
    wide::complete_logs,
    wide::fault_logs,
    wide_masks::bit_logs,
    wide_masks::order_logs,
    wide_masks::set_logs,
    wide_edges::width_logs,
    wide_edges::cut_logs,
    wide_edges::size_logs,
    wide_edges::changed_logs,
    identity::setup_logs,
    identity::element_logs,
    identity::order_logs,
    identity_values::holder_key_logs,
    identity_values::commitment_logs,
    identity_values::mixed_logs,
    rekeyed::rekeyed_logs,
    count::bad_logs,
    waits::complete_logs,
    waits::noisy_logs,
    waits::bad_logs,
    waits::pair_logs,
    wait_edges::go_logs,
    wait_edges::dealing_logs,
    wait_edges::setup_logs,
    wait_lengths::before_go_logs,
    wait_lengths::length_logs,
    wait_lengths::flood_logs,
    wait_lengths::changed_logs,
    sets_ends::last_record_logs,
    sets_ends::cut_logs,
    sets_ends::before_setup_logs,
    sets_ends::before_go_logs,
    sets_brought::brought_logs,
    sets_brought::refused_logs,
    sets_sizes::size_logs,
    sets_sizes::lot_logs,
];

/// Every log of the set that a seed gives.
pub fn all_logs(seed: u64) -> Vec<NamedLog> {
    let mut rng = Rng::new(seed);
    let mut gathered = LogSet::default();
    for group in GROUPS {
        group(&mut gathered, &mut rng);
    }
    gathered.logs
}

fn document_logs(gathered: &mut LogSet, _: &mut Rng) {
    gathered.add("worked", document::worked());
    gathered.add("case-b", document::outsider());
    gathered.add("case-c", document::failing());
    gathered.add("case-d", document::one_bad());
    gathered.add("case-e", document::false_blame());
    gathered.add("case-l", document::too_many_bad());
    gathered.add("case-f-least", document::plain_setup(4, 1, 1));
    gathered.add("case-f-most", document::plain_setup(32, 1, 15));
    gathered.add("case-g-least", document::plain_setup(3, 1, 1));
    gathered.add("case-g-most", document::plain_setup(32, 1, 16));
}

/// Every (n, t, a) within the bounds of document 01 with n = 3t+2a-1.
fn full_packings() -> Vec<Params> {
    let pairs = (1..=10u8).flat_map(|t| (1..=15u8).map(move |a| (t, a)));
    let within = pairs.filter_map(|(t, a)| Params::new(3 * t + 2 * a - 1, t, a));
    within.filter(|params| params.n <= MOST_NARROW).collect()
}

fn full_packing_logs(gathered: &mut LogSet, rng: &mut Rng) {
    let packings = full_packings();
    for &params in packings.iter().step_by(3) {
        let draft = Draft::new(params, rng);
        gathered.add("full-packing", completed(draft, rng));
    }
    for (n, t, a) in [(32, 1, 15), (32, 10, 1), (32, 2, 13), (31, 10, 1), (32, 9, 3)] {
        let params = Params::new(n, t, a).expect("within the bounds");
        let kind = format!("complete-{n}-{t}-{a}");
        gathered.add(&kind, completed(Draft::new(params, rng), rng));
        let draft = Draft::new(params, rng).with_bad_dealers(usize::from(t), rng);
        gathered.add(&format!("{kind}-noisy"), completed(draft.with_noise(15), rng));
    }
}

/// Honest committees, with and without refused records in between.
fn complete_logs(gathered: &mut LogSet, rng: &mut Rng) {
    for packing in 1..=5 {
        gathered.add_many(&format!("honest-packing-{packing}"), 8, |_| {
            let params = random_params(Some(packing), rng);
            completed(Draft::new(params, rng), rng)
        });
    }
    gathered.add_many("honest", 25, |_| completed(Draft::random(rng), rng));
    gathered.add_many("noisy", 30, |_| completed(Draft::random(rng).with_noise(30), rng));
    gathered.add_many("very-noisy", 12, |_| {
        let packing = Some(rng.between(1, 4));
        let params = random_params(packing, rng);
        completed(Draft::new(params, rng).with_noise(75), rng)
    });
}

/// The same log to CH, then responses from different members of HOLD.
fn other_quorum_logs(gathered: &mut LogSet, rng: &mut Rng) {
    for packing in 1..=3 {
        let params = random_params(Some(packing), rng);
        let mut draft = Draft::new(params, rng).with_bad_dealers(1, rng);
        draft.go_to(Stage::Responding, rng);
        let (bytes, run) = (draft.bytes.clone(), draft.run.clone());
        gathered.add_many("other-quorum", 4, |_| {
            draft.bytes = bytes.clone();
            draft.run = run.clone();
            draft.responders = rng.some_of(&draft.holders, params.quorum());
            draft.go_to(Stage::Done, rng);
            draft.bytes.clone()
        });
    }
}

/// Committees with wrong shares, blamed and not.
fn wrong_share_logs(gathered: &mut LogSet, rng: &mut Rng) {
    gathered.add_many("wrong-blamed", 20, |_| {
        let draft = Draft::random(rng);
        let count = rng.between(1, draft.params().t) as usize;
        completed(draft.with_bad_dealers(count, rng).with_noise(10), rng)
    });
    gathered.add_many("wrong-at-limit", 12, |_| {
        let draft = Draft::random(rng);
        let count = draft.params().t as usize;
        completed(draft.with_bad_dealers(count, rng), rng)
    });
    gathered.add_many("wrong-unblamed", 14, |_| {
        let draft = Draft::random(rng);
        let count = draft.params().majority();
        completed(draft.with_bad_dealers(count, rng).with_silence(), rng)
    });
    gathered.add_many("wrong-half-blamed", 12, |_| completed(half_silent(rng), rng));
    gathered.add_many("too-many-bad", 16, |index| {
        let draft = Draft::random(rng);
        let (t, most) = (draft.params().t as usize, draft.params().majority());
        let count = if index % 2 == 0 { t + 1 } else { most };
        completed(draft.with_bad_dealers(count, rng).with_noise(10), rng)
    });
    gathered.add("all-wronged", completed(all_wronged(rng), rng));
    gathered.add("last-dealer-blamed", completed(last_dealer_blamed(rng), rng));
}

/// Bad dealers, of whose holders some leave their complaints out.
fn half_silent(rng: &mut Rng) -> Draft {
    let draft = Draft::random(rng);
    let count = draft.params().t as usize + 1;
    let mut draft = draft.with_bad_dealers(count, rng);
    let quiet = rng.some_of(&draft.holders, draft.holders.len() / 2);
    draft.silent = quiet.into_iter().collect();
    draft
}

/// One dealer sends a wrong share to everyone.
fn all_wronged(rng: &mut Rng) -> Draft {
    let mut draft = Draft::random(rng);
    let (dealer, n) = (draft.dealers[0], draft.params().n);
    draft.wrong = (1..=n).map(|holder| (dealer, holder)).collect();
    draft
}

/// Dealer 32 of 32 is blamed by holder 32: the highest bit of the mask.
fn last_dealer_blamed(rng: &mut Rng) -> Draft {
    let params = Params::new(32, 3, 5).expect("within the bounds");
    loop {
        let mut draft = Draft::new(params, rng);
        if draft.dealers.contains(&32) && draft.holders.contains(&32) {
            draft.wrong = [(32, 32)].into();
            return draft;
        }
    }
}

/// Logs that end at each stage from 0 to 4, with some of its records accepted.
fn stopped_logs(gathered: &mut LogSet, rng: &mut Rng) {
    gathered.add_many("stopped-0", 3, |_| {
        let mut draft = Draft::random(rng);
        for _ in 0..5 {
            draft.make_noise(rng);
        }
        draft.bytes
    });
    for stage in &Stage::ALL[1..=4] {
        gathered.add_many(&format!("stopped-{}", stage.number()), 5, |index| {
            stopped(Draft::random(rng).with_noise(20), *stage, index, rng)
        });
    }
}

/// A draft that stops with none, one, some or all but one of a stage's records.
fn stopped(mut draft: Draft, stage: Stage, index: usize, rng: &mut Rng) -> Vec<u8> {
    draft.go_to(stage, rng);
    let wanted = match stage {
        Stage::Dealing | Stage::Complaining => draft.params().majority(),
        Stage::Responding => draft.params().quorum(),
        _ => 1,
    };
    let steps = [0, 1, wanted / 2, wanted - 1][index % 4].min(wanted - 1);
    draft.go_on(steps, rng);
    draft.bytes
}

/// Every set of faults a record can have, at every stage.
fn fault_logs(gathered: &mut LogSet, rng: &mut Rng) {
    for (n, t, a) in [(4, 1, 1), (7, 1, 2), (9, 2, 2), (31, 1, 14), (32, 4, 6), (10, 1, 1)] {
        let params = Params::new(n, t, a).expect("within the bounds");
        let draft = Draft::new(params, rng).with_bad_dealers(usize::from(t), rng);
        gathered.add("every-fault", with_every_fault(draft, rng));
    }
}
