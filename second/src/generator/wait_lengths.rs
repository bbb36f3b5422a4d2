//! Logs whose cutting goes by b or by whether there is one (request 2.5): CH, CS and RE
//! before GO, records of the length that another b gives, floods of GO, the longest
//! logs, and good logs cut and changed at random.

use super::committee::{as_cs, random_scalar};
use super::course::{completed, rest_of};
use super::document;
use super::draft::Draft;
use super::edges::{changed, cut_tails, draft_at, spliced};
use super::log_set::LogSet;
use super::spoil;
use super::wait_edges::{waiting_at, with_dealings};
use super::waits::{as_waiting, draft_of_all, small_waiting, waiting_draft};
use crate::arith::{P, Q};
use crate::records::Tag;
use crate::report::LONGEST_LOG;
use crate::rng::Rng;
use crate::run::Stage;

/// The tags whose length goes by b.
const BY_B: [Tag; 3] = [Tag::Ch, Tag::Cs, Tag::Re];

/// CH, CS and RE in a run that waits, with the rest of a good log behind them, and logs
/// that end there.
pub fn before_go_logs(gathered: &mut LogSet, rng: &mut Rng) {
    for (n, t, a) in [(7, 2, 1), (33, 2, 1)] {
        let majority = usize::from(n - t);
        for count in [0, majority - 1, majority, usize::from(n)] {
            let draft = draft_of_all((n, t, a), rng);
            let draft = with_dealings(draft, count, rng);
            gathered.add("wait-stopped", draft.bytes.clone());
            let rest = rest_of(&draft, rng);
            for tag in BY_B {
                let record = spoil::alien(&draft, tag, rng);
                gathered.add("wait-before-go", [&draft.bytes[..], &record, &rest].concat());
            }
        }
    }
    let draft = with_dealings(draft_of_all((4, 1, 1), rng), 4, rng);
    for tag in BY_B {
        gathered.add("wait-before-go-last", [&draft.bytes[..], tag.letters()].concat());
    }
}

/// CH, CS and RE as long as b = n-2t has them where b is greater, and as long as the
/// greatest b has them where it is n-2t; each last, and before the rest of the log.
pub fn length_logs(gathered: &mut LogSet, rng: &mut Rng) {
    for params in [(4, 1, 1), (9, 2, 2)] {
        let most = usize::from(params.1);
        for (extra, other) in [(most, 0), (0, most)] {
            for tag in BY_B {
                let draft = waiting_draft(params, extra, rng);
                other_length(gathered, draft, tag, other, rng);
            }
        }
    }
}

/// A record of this tag as long as another number of extra dealers would have it.
fn other_length(gathered: &mut LogSet, draft: Draft, tag: Tag, extra: usize, rng: &mut Rng) {
    let stage = if tag == Tag::Re { Stage::Responding } else { Stage::Challenging };
    let draft = draft_at(stage, draft, rng);
    let mut other = draft.committee.clone();
    other.heard = draft.params().majority() + extra;
    let mut record = draft.good_record(tag, rng);
    record.resize(other.length(tag), 0);
    let rest = rest_of(&draft, rng);
    gathered.add("wait-other-length-last", [&draft.bytes[..], &record].concat());
    gathered.add("wait-other-length", [&draft.bytes[..], &record, &rest].concat());
}

/// The bytes, then GO over and over until they have this size.
pub fn flooded(mut bytes: Vec<u8>, size: usize) -> Vec<u8> {
    bytes.extend(Tag::Go.letters().iter().cycle().take(size - bytes.len()));
    bytes
}

/// As many GO as a log can have: all but one are refused, or all.
pub fn flood_logs(gathered: &mut LogSet, rng: &mut Rng) {
    let su = document::worked()[..14].to_vec();
    let begun = waiting_at(Stage::Dealing, (4, 1, 1), rng).bytes;
    let dealt = with_dealings(draft_of_all((4, 1, 1), rng), 3, rng).bytes;
    let done = as_waiting(&document::worked());
    gathered.add("wait-flood-by-su", flooded(su, LONGEST_LOG));
    gathered.add("wait-flood-early", flooded(begun, LONGEST_LOG));
    gathered.add("wait-flood-taken", flooded(dealt, LONGEST_LOG));
    for size in [LONGEST_LOG - 1, LONGEST_LOG, LONGEST_LOG + 1] {
        gathered.add(&format!("wait-size-{size}-done"), flooded(done.clone(), size));
    }
    let draft = waiting_at(Stage::Dealing, (4, 1, 1), rng);
    let rest = rest_of(&draft, rng);
    let flood = flooded(draft.bytes, LONGEST_LOG - rest.len());
    gathered.add("wait-flood-then-done", [flood, rest].concat());
}

/// Good logs cut and changed at random, SX and GO before senseless bytes, and records
/// in no order.
pub fn changed_logs(gathered: &mut LogSet, rng: &mut Rng) {
    for stage in Stage::ALL {
        let draft = waiting_at(stage, (6, 1, 2), rng);
        for tail in cut_tails(&draft, rng).iter().skip(stage as usize).step_by(8) {
            gathered.add("wait-cut", [&draft.bytes[..], tail].concat());
        }
        let tag = if stage == Stage::Fresh { Tag::Sx } else { Tag::Go };
        let log = [&draft.bytes[..], tag.letters(), &rng.bytes(60)].concat();
        gathered.add("wait-senseless", log);
    }
    gathered.add_many("wait-changed-bytes", 12, |_| {
        let log = base_log(rng);
        changed(log, rng)
    });
    gathered.add_many("wait-spliced", 8, |_| {
        let log = base_log(rng);
        spliced(&log, rng)
    });
    gathered.add_many("wait-jumbled", 8, |_| jumbled(&small_waiting(rng), rng));
}

/// A small complete log with some noise; half of them sign with a shift.
fn base_log(rng: &mut Rng) -> Vec<u8> {
    let mut draft = small_waiting(rng).with_noise(10);
    draft.shift = rng.chance(50).then(|| random_scalar(rng));
    completed(draft, rng)
}

/// The draft's setup and dealings, some of them twice or left out, with GO anywhere
/// between them and rows with numbers from a short list behind them.
fn jumbled(draft: &Draft, rng: &mut Rng) -> Vec<u8> {
    let mut log = draft.committee.sx();
    for &dealer in &draft.dealers {
        for _ in 0..rng.pick(&[0, 1, 1, 1, 1, 2]) {
            log.extend(draft.committee.de(dealer));
        }
        if rng.chance(25) {
            log.extend(Tag::Go.letters());
        }
    }
    log.extend(Tag::Go.letters());
    for _ in 0..rng.between(4, 20) {
        log.extend(senseless_row(draft, rng));
    }
    log
}

/// A record of the draft's length with a sender and numbers by lot; CS is a CH with
/// any shift.
fn senseless_row(draft: &Draft, rng: &mut Rng) -> Vec<u8> {
    let numbers = [0, 0, 0, 1, 2, 4, Q - 1, Q, P];
    match rng.pick(&[Tag::Ve, Tag::Ve, Tag::Ve, Tag::Ch, Tag::Cs, Tag::Re, Tag::Go]) {
        Tag::Go => Tag::Go.letters().to_vec(),
        Tag::Ch => draft.committee.ch(rng),
        Tag::Cs => as_cs(&draft.committee.ch(rng), rng.pick(&numbers)),
        tag => {
            let sender = rng.between(0, draft.params().n + 1) as u8;
            let count = draft.length(tag) / 4 - 1;
            let body = (0..count).flat_map(|_| rng.pick(&numbers).to_be_bytes());
            [&tag.letters()[..], &[sender, 0]].concat().into_iter().chain(body).collect()
        }
    }
}
