//! Logs of 33 to 64 parties, and of 32 beside them (request 2.2): setups at the
//! bounds, complete runs, and every fault.

use super::committee::{random_scalar, random_wide_params, Triple};
use super::course::{completed, with_every_fault};
use super::document::plain_setup;
use super::draft::Draft;
use super::edges::{draft_at, outside_bounds, small_draft};
use super::log_set::LogSet;
use super::spoil;
use crate::params::Params;
use crate::records::Tag;
use crate::refusal::Refusal;
use crate::rng::Rng;
use crate::run::Stage;

/// Parameters on the inner side of a bound.
pub const INSIDE: [Triple; 10] = [
    (33, 1, 1),
    (33, 1, 15),
    (33, 10, 2),
    (34, 1, 16),
    (34, 11, 1),
    (63, 1, 30),
    (63, 20, 2),
    (64, 1, 31),
    (64, 15, 10),
    (64, 21, 1),
];

/// Parameters on the outer side of a bound, or far outside.
pub const OUTSIDE: [Triple; 18] = [
    (33, 1, 16),
    (33, 11, 1),
    (33, 10, 3),
    (34, 11, 2),
    (63, 1, 31),
    (63, 21, 1),
    (64, 1, 32),
    (64, 22, 1),
    (64, 15, 11),
    (64, 16, 10),
    (64, 0, 1),
    (64, 1, 0),
    (65, 1, 1),
    (65, 1, 31),
    (65, 15, 10),
    (96, 1, 1),
    (128, 1, 1),
    (255, 1, 1),
];

/// Those of the least work with each number of parties at an edge.
pub const LIGHT: [Triple; 4] = [(32, 1, 1), (33, 1, 1), (63, 1, 1), (64, 1, 1)];

/// A draft whose refused records are those of request 2.2.
pub fn draft_of((n, t, a): Triple, rng: &mut Rng) -> Draft {
    Draft::new(Params::new(n, t, a).expect("within the bounds"), rng).with_wide_bounds()
}

/// A draft above 32 parties with little work in it.
pub fn light_draft(rng: &mut Rng) -> Draft {
    let params = rng.pick(&[(33, 1, 1), (36, 5, 2), (63, 1, 1), (64, 1, 1), (64, 18, 2)]);
    draft_of(params, rng)
}

pub fn setup_logs(gathered: &mut LogSet, rng: &mut Rng) {
    for (n, t, a) in INSIDE {
        gathered.add("wide-setup", plain_setup(n, t, a));
    }
    for (n, t, a) in OUTSIDE {
        gathered.add("wide-setup-outside", plain_setup(n, t, a));
    }
    let draft = small_draft(rng).with_wide_bounds();
    gathered.add("wide-setup-outside-bounds", outside_bounds(draft, 65, rng));
    gathered.add("wide-setup-over-the-most", over_the_most(rng));
    for (first, second) in [(64, 4), (33, 32), (32, 33), (4, 64)] {
        gathered.add("wide-setup-refused-first", refused_first(first, second, rng));
        for stage in &Stage::ALL[1..] {
            gathered.add("wide-setup-late", late_setup(*stage, first, second, rng));
        }
    }
}

/// Setups one step past the most that every t allows, then a good log.
fn over_the_most(rng: &mut Rng) -> Vec<u8> {
    let mut draft = light_draft(rng);
    for t in 1..=22u8 {
        let most = if t == 22 { 0 } else { (65 - 3 * t) / 2 };
        let least = 3 * t + 2 * most - 1;
        for (n, a) in [(64, most + 1), (least - 1, most), (65, most), (255, most)] {
            draft.refuse(&plain_setup(n, t, a), Refusal::Bounds);
        }
    }
    completed(draft, rng)
}

/// Setups of so many parties that are refused, then a good log of other ones.
fn refused_first(first: u8, second: u8, rng: &mut Rng) -> Vec<u8> {
    let mut draft = draft_of((second, 1, 1), rng);
    let good = plain_setup(first, 1, 1);
    for (place, byte, refusal) in
        [(5, 1, Refusal::Reserved), (4, 0, Refusal::Bounds), (9, 5, Refusal::Element)]
    {
        let mut record = good.clone();
        record[place] = byte;
        draft.refuse(&record, refusal);
    }
    completed(draft, rng)
}

/// A setup of other parties comes late, and a VE of the run's own width after it.
fn late_setup(stage: Stage, own: u8, other: u8, rng: &mut Rng) -> Vec<u8> {
    let draft = draft_of((own, 1, 1), rng);
    let mut draft = draft_at(stage, draft, rng);
    draft.refuse(&plain_setup(other, 1, 1), Refusal::Stage);
    if stage != Stage::Complaining {
        let row = spoil::alien(&draft, Tag::Ve, rng);
        draft.refuse(&row, Refusal::Stage);
    }
    completed(draft, rng)
}

/// Committees that sign with CH, some of whose dealers are bad, and with CS.
pub fn complete_logs(gathered: &mut LogSet, rng: &mut Rng) {
    for (n, t, a) in INSIDE {
        let draft = some_bad(draft_of((n, t, a), rng), rng);
        gathered.add(&format!("wide-complete-{n}-{t}-{a}"), completed(draft, rng));
        let draft = draft_of((n, t, a), rng).with_shift(random_scalar(rng));
        gathered.add(&format!("wide-shifted-{n}-{t}-{a}"), completed(draft, rng));
    }
    for params in [(32, 1, 15), (33, 1, 15), (63, 20, 2), (64, 15, 10), (64, 21, 1), (64, 1, 1)] {
        gathered.add("wide-noisy", completed(noisy_draft(draft_of(params, rng), 15, rng), rng));
    }
    gathered.add_many("wide-random", 12, |_| {
        let draft = Draft::new(random_wide_params(rng), rng).with_wide_bounds();
        completed(noisy_draft(draft, 8, rng), rng)
    });
    gathered.add_many("wide-very-noisy", 6, |_| {
        let draft = light_draft(rng);
        completed(noisy_draft(draft, 55, rng), rng)
    });
    let draft = draft_of((64, 3, 2), rng).with_bad_dealers(3, rng);
    let mut draft = draft_at(Stage::Responding, draft, rng);
    gathered.add_many("wide-other-quorum", 3, |_| {
        draft.responders = rng.some_of(&draft.holders, draft.params().quorum());
        completed(draft.clone(), rng)
    });
}

/// The draft with up to three bad dealers, the highest of all among them.
fn some_bad(draft: Draft, rng: &mut Rng) -> Draft {
    let others = draft.params().t.min(3) as usize - 1;
    let mut draft = draft.with_bad_dealers(others, rng);
    let highest = draft.dealers.iter().max().copied();
    draft.wrong.extend(highest.map(|dealer| (dealer, draft.holders[0])));
    draft
}

/// The draft with bad dealers and refused records; half of them sign with a shift.
fn noisy_draft(draft: Draft, noise: u32, rng: &mut Rng) -> Draft {
    let bad = rng.between(0, draft.params().t) as usize;
    let mut draft = draft.with_bad_dealers(bad, rng).with_noise(noise);
    draft.shift = rng.chance(50).then(|| random_scalar(rng));
    draft
}

/// Every set of faults a record can have, at every stage.
pub fn fault_logs(gathered: &mut LogSet, rng: &mut Rng) {
    for (n, t, a) in [(32, 1, 1), (33, 1, 1), (33, 10, 2), (63, 12, 2), (64, 10, 3), (64, 21, 1)] {
        let draft = draft_of((n, t, a), rng).with_bad_dealers(usize::from(t), rng);
        gathered.add("wide-every-fault", with_every_fault(draft, rng));
    }
}
