//! GO, dealings and setups where they are refused in runs begun by SX and by SU
//! (request 2.5): GO too early, again, at stage 0 and cut; dealings after n of them and
//! after GO; setups that are refused, late and cut.

use super::bytes::put;
use super::committee::{as_sx, random_scalar, with_identity_key, Triple, KEY_PLACE};
use super::course::completed;
use super::document::{self, plain_setup};
use super::draft::Draft;
use super::edges::draft_at;
use super::log_set::LogSet;
use super::spoil;
use super::waits::{draft_of_all, extras, never_waiting, waiting_draft};
use super::wide::{INSIDE, OUTSIDE};
use crate::records::{setup_length, Tag};
use crate::refusal::Refusal;
use crate::rng::Rng;
use crate::run::Stage;

const GO: &[u8] = b"GO";

/// The threshold of the longest setups that can be written.
const HIGHEST_T: u8 = 255;

/// A draft begun by SX at a stage, everyone's dealings before it; at stage 1 with none.
pub fn waiting_at(stage: Stage, params: Triple, rng: &mut Rng) -> Draft {
    let draft = draft_of_all(params, rng);
    draft_at(stage, draft, rng)
}

/// A draft begun by SX with so many dealings and no GO.
pub fn with_dealings(draft: Draft, count: usize, rng: &mut Rng) -> Draft {
    let mut draft = draft_at(Stage::Dealing, draft, rng);
    draft.go_on(count, rng);
    assert_eq!((draft.run.stage, draft.run.dealings.len()), (Stage::Dealing, count));
    draft
}

/// GO refused with 17 and 11, at stage 0, cut, and with stray bytes behind it.
pub fn go_logs(gathered: &mut LogSet, rng: &mut Rng) {
    for params in [(4, 1, 1), (9, 2, 2), (11, 2, 3), (33, 1, 1)] {
        for extra in extras(params) {
            let draft = waiting_draft(params, extra, rng);
            gathered.add("wait-go-early", early(draft, rng));
        }
        let draft = waiting_draft(params, 0, rng);
        gathered.add("wait-go-one-early", one_early(draft, rng));
        for stage in [Stage::Done, Stage::Failed] {
            let draft = draft_of_all(params, rng);
            gathered.add("wait-go-again", go_before_each(draft, stage, rng));
            let draft = never_waiting(params, rng);
            gathered.add("wait-go-by-su", go_before_each(draft, stage, rng));
        }
    }
    first_go(gathered, rng);
    cut_go(gathered, rng);
}

/// GO, and VE, before every one of the first n-t dealings, then the rest.
pub fn early(draft: Draft, rng: &mut Rng) -> Vec<u8> {
    let mut draft = draft_at(Stage::Dealing, draft, rng);
    for _ in 0..draft.params().majority() {
        draft.refuse(GO, Refusal::Early);
        let row = spoil::alien(&draft, Tag::Ve, rng);
        draft.refuse(&row, Refusal::Stage);
        draft.go_on(1, rng);
    }
    completed(draft, rng)
}

/// GO after n-t-1 dealings alone, then one dealing more, GO and the rest.
fn one_early(draft: Draft, rng: &mut Rng) -> Vec<u8> {
    let before = draft.params().majority() - 1;
    let mut draft = with_dealings(draft, before, rng);
    draft.refuse(GO, Refusal::Early);
    completed(draft, rng)
}

/// GO before every record from stage 2 on, in a run begun by SU from stage 1 on; and
/// twice at the end.
fn go_before_each(draft: Draft, end: Stage, rng: &mut Rng) -> Vec<u8> {
    let begin = if draft.waits { Stage::Complaining } else { Stage::Dealing };
    let too_many = draft.params().t as usize + 1;
    let bad = if end == Stage::Failed { too_many } else { 0 };
    let mut draft = draft_at(begin, draft.with_bad_dealers(bad, rng), rng);
    while !draft.at_end() {
        draft.refuse(GO, Refusal::Stage);
        draft.step(rng);
    }
    assert_eq!(draft.run.stage, end);
    draft.refuse(GO, Refusal::Stage);
    draft.refuse(GO, Refusal::Stage);
    draft.bytes
}

/// GO at stage 0, where it ends the reading, alone and before a good log.
fn first_go(gathered: &mut LogSet, rng: &mut Rng) {
    let good = completed(draft_of_all((4, 1, 1), rng), rng);
    let refused = as_sx(plain_setup(3, 1, 1));
    for log in [
        GO.to_vec(),
        [GO, GO].concat(),
        [GO, &good].concat(),
        [GO, &document::worked()].concat(),
        [&refused, GO].concat(),
        [&refused, GO, &good].concat(),
    ] {
        gathered.add("wait-go-first", log);
    }
}

/// GO cut to one byte at the end of a log, and stray bytes behind a GO.
fn cut_go(gathered: &mut LogSet, rng: &mut Rng) {
    let (early, all) = (draft_of_all((7, 2, 1), rng), draft_of_all((7, 2, 1), rng));
    let waiting = [with_dealings(early, 2, rng), with_dealings(all, 7, rng)];
    let later = [Stage::Complaining, Stage::Done].map(|stage| waiting_at(stage, (7, 2, 1), rng));
    let begun_by_su = draft_at(Stage::Dealing, never_waiting((7, 2, 1), rng), rng);
    for draft in waiting.iter().chain(&later).chain([&begun_by_su]) {
        gathered.add("wait-go-cut", [&draft.bytes, &GO[..1]].concat());
        for stray in [&b"\0"[..], b"go\0\0"] {
            gathered.add("wait-go-stray", [&draft.bytes, GO, stray].concat());
        }
    }
    gathered.add("wait-go-cut", GO[..1].to_vec());
}

/// Dealings after n of them, and after GO.
pub fn dealing_logs(gathered: &mut LogSet, rng: &mut Rng) {
    for params in [(4, 1, 1), (9, 2, 2), (33, 1, 1)] {
        let draft = draft_of_all(params, rng);
        let draft = with_dealings(draft, usize::from(params.0), rng);
        gathered.add("wait-dealt-again", dealt_again(draft.clone(), rng));
        for length in [2, draft.length(Tag::De) - 1] {
            let record = draft.good_record(Tag::De, rng);
            gathered.add("wait-dealt-again-cut", [&draft.bytes, &record[..length]].concat());
        }
        for extra in extras(params) {
            let draft = waiting_draft(params, extra, rng);
            gathered.add("wait-dealt-late", dealt_late(draft, rng));
        }
    }
}

/// After n dealings everyone deals again, and dealings come with every set of faults.
fn dealt_again(mut draft: Draft, rng: &mut Rng) -> Vec<u8> {
    for dealer in 1..=draft.params().n {
        let mut record = draft.committee.de(dealer);
        if rng.chance(50) {
            let place = record.len() - 4;
            put(&mut record, place, random_scalar(rng).number());
        }
        draft.refuse(&record, Refusal::Again);
    }
    for (record, refusal) in spoil::all_faults(&draft, rng) {
        draft.refuse(&record, refusal);
    }
    completed(draft, rng)
}

/// After GO a dealing comes before every record: of someone who has dealt, and of
/// someone who has not, if there is one.
fn dealt_late(draft: Draft, rng: &mut Rng) -> Vec<u8> {
    let mut draft = draft_at(Stage::Complaining, draft, rng);
    let other = (1..=draft.params().n).find(|party| !draft.dealers.contains(party));
    loop {
        for dealer in [draft.dealers[0]].into_iter().chain(other) {
            draft.refuse(&draft.committee.de(dealer), Refusal::Stage);
        }
        if draft.at_end() {
            return draft.bytes;
        }
        draft.go_on(3, rng);
    }
}

/// SX at the bounds, with every refusal, late and cut.
pub fn setup_logs(gathered: &mut LogSet, rng: &mut Rng) {
    for (n, t, a) in [(4, 1, 1), INSIDE[1], INSIDE[7], INSIDE[9]] {
        gathered.add("wait-setup", as_sx(plain_setup(n, t, a)));
    }
    gathered.add("wait-setup-outside", outside_bounds(rng));
    for params in [(4, 1, 1), (11, 2, 3), (64, 2, 1)] {
        for draft in [draft_of_all(params, rng), never_waiting(params, rng)] {
            gathered.add("wait-setup-refused", refused_setups(draft, rng));
        }
    }
    for stage in &Stage::ALL[1..] {
        for draft in [draft_of_all((7, 2, 1), rng), never_waiting((7, 2, 1), rng)] {
            let draft = draft_at(*stage, draft, rng);
            gathered.add("wait-setup-late", late_setups(draft, rng));
        }
    }
    cut_setups(gathered, rng);
}

/// SX one step outside each bound, then a good log.
fn outside_bounds(rng: &mut Rng) -> Vec<u8> {
    let mut draft = draft_of_all((6, 1, 2), rng);
    for (n, t, a) in OUTSIDE.into_iter().chain([(3, 1, 1), (32, 1, 16), (0, 0, 0)]) {
        draft.refuse(&as_sx(plain_setup(n, t, a)), Refusal::Bounds);
    }
    completed(draft, rng)
}

/// SX and SU refused with each number, alone and beside the next in the order, then a
/// good log.
fn refused_setups(mut draft: Draft, rng: &mut Rng) -> Vec<u8> {
    for setup in [draft.committee.sx(), draft.committee.su()] {
        for (record, refusal) in faulty_setups(&setup) {
            draft.refuse(&record, refusal);
        }
    }
    completed(draft, rng)
}

/// The setup with each fault, alone and with the one after it in the order 3, 4, 7, 16.
pub fn faulty_setups(good: &[u8]) -> Vec<(Vec<u8>, Refusal)> {
    let faults = [Refusal::Reserved, Refusal::Bounds, Refusal::Element, Refusal::IdentityKey];
    let alone = faults.chunks(1).chain(faults.windows(2));
    alone.map(|some| (with_faults(good.to_vec(), some), some[0])).collect()
}

fn with_faults(mut setup: Vec<u8>, faults: &[Refusal]) -> Vec<u8> {
    for fault in faults {
        match fault {
            Refusal::Reserved => setup[5] = 1,
            Refusal::Bounds => setup[4] = 0,
            Refusal::Element => put(&mut setup, KEY_PLACE + 4, 5),
            _ => setup = with_identity_key(setup),
        }
    }
    setup
}

/// SU and SX with a t of their own at a later stage, then the rest of the log.
pub fn late_setups(mut draft: Draft, rng: &mut Rng) -> Vec<u8> {
    for t in [0, 1, 2, 3, 21, HIGHEST_T] {
        for tag in [Tag::Su, Tag::Sx] {
            let contents = rng.bytes(setup_length(t) - 4);
            let late = [&tag.letters()[..], &[rng.byte(), t], &contents].concat();
            draft.refuse(&late, Refusal::Stage);
        }
    }
    completed(draft, rng)
}

/// SX that breaks off, at several stages: under six bytes, behind them, and a long one;
/// SU in a run begun by SX, and SX in one begun by SU; and SX with a fault of each kind.
fn cut_setups(gathered: &mut LogSet, rng: &mut Rng) {
    let (su, long) = (plain_setup(4, HIGHEST_T, 1), as_sx(plain_setup(4, HIGHEST_T, 1)));
    let beginnings = [2, 5, 6, long.len() - 1].map(|length| &long[..length]);
    for stage in [Stage::Fresh, Stage::Dealing, Stage::Complaining, Stage::Done] {
        let draft = waiting_at(stage, (4, 1, 1), rng);
        for beginning in beginnings {
            gathered.add("wait-setup-cut", [&draft.bytes, beginning].concat());
        }
    }
    let by_sx = waiting_at(Stage::Dealing, (4, 1, 1), rng);
    let by_su = draft_at(Stage::Dealing, never_waiting((4, 1, 1), rng), rng);
    for length in [5, long.len() - 1] {
        gathered.add("wait-setup-cut", [&by_sx.bytes, &su[..length]].concat());
        gathered.add("wait-setup-cut", [&by_su.bytes, &long[..length]].concat());
    }
    let setup = draft_of_all((11, 2, 3), rng).committee.sx();
    for (record, _) in faulty_setups(&setup).iter().take(4) {
        gathered.add("wait-setup-cut", record[..record.len() - 1].to_vec());
    }
}
