//! Logs at the limits of the format: setups at the bounds, cut logs, records
//! after the end, senseless bytes, the longest logs, floods of refused
//! records, and good logs changed at random.

use super::course::{add_every_alien, completed};
use super::document::{self, record};
use super::draft::{Draft, FIRST_TAGS};
use super::log_set::LogSet;
use super::spoil;
use crate::arith::{GroupNumber, P, Q};
use crate::params::Params;
use crate::records::{setup_length, Tag};
use crate::refusal::Refusal;
use crate::report::LONGEST_LOG;
use crate::rng::Rng;
use crate::run::Stage;

/// A committee small enough for many records in one log.
pub fn small_draft(rng: &mut Rng) -> Draft {
    let (n, t, a) = rng.pick(&[(4, 1, 1), (6, 1, 2), (7, 2, 1), (8, 1, 3)]);
    Draft::new(Params::new(n, t, a).expect("within the bounds"), rng)
}

/// A draft at a stage; for stage 6 one dealer too many is bad.
pub fn draft_at(stage: Stage, draft: Draft, rng: &mut Rng) -> Draft {
    let too_many = draft.params().t as usize + 1;
    let mut draft = match stage {
        Stage::Failed => draft.with_bad_dealers(too_many, rng),
        _ => draft,
    };
    draft.go_to(stage, rng);
    assert_eq!(draft.run.stage, stage);
    draft
}

pub fn setup_logs(gathered: &mut LogSet, rng: &mut Rng) {
    let draft = small_draft(rng);
    gathered.add("setup-outside-bounds", outside_bounds(draft, 33, rng));
    gathered.add("setup-extreme-bytes", extreme_parameters(rng));
    gathered.add("setup-bad-keys", bad_keys(rng));
    gathered.add_many("setup-only", 4, |_| Draft::random(rng).committee.su());
    for stage in &Stage::ALL[1..] {
        gathered.add_many(&format!("late-setup-{}", stage.number()), 2, |_| {
            let draft = small_draft(rng);
            late_setups(draft_at(*stage, draft, rng), rng)
        });
    }
}

/// Setups one step outside each bound, with an n that is above its own, then a
/// good log.
pub fn outside_bounds(mut draft: Draft, above: u8, rng: &mut Rng) -> Vec<u8> {
    for (t, a) in (0..=12).flat_map(|t| (0..=17).map(move |a| (t, a))) {
        let least = 3 * t + 2 * a - 1;
        let n = if t == 0 || a == 0 { 32 } else { least - 1 };
        draft.refuse(&document::plain_setup(n as u8, t as u8, a as u8), Refusal::Bounds);
        draft.refuse(&document::plain_setup(above, t as u8, a as u8), Refusal::Bounds);
    }
    completed(draft, rng)
}

/// Setups whose parameters are 0 or 255, then a good log.
fn extreme_parameters(rng: &mut Rng) -> Vec<u8> {
    let mut draft = small_draft(rng);
    let extremes =
        [(0, 0, 0), (255, 255, 255), (4, 255, 1), (4, 1, 255), (255, 1, 1), (0, 1, 1), (32, 0, 1)];
    for (n, t, a) in extremes {
        draft.refuse(&document::plain_setup(n, t, a), Refusal::Bounds);
    }
    completed(draft, rng)
}

/// Setups with each kind of number that is no element, then a good log.
fn bad_keys(rng: &mut Rng) -> Vec<u8> {
    let mut draft = small_draft(rng);
    for number in [0, 2, 3, 4, 5, Q - 1, Q, Q + 1, P - 4, P - 1, P, P + 1, P + 4, u32::MAX] {
        if GroupNumber::read(number) == GroupNumber::NoElement {
            draft.refuse(&record("SU", &[4, 1, 1, 0], &[number, 4]), Refusal::Element);
            draft.refuse(&record("SU", &[4, 1, 1, 0], &[4, number]), Refusal::Element);
        }
    }
    completed(draft, rng)
}

/// Setups of many lengths at a later stage, then the rest of the log.
fn late_setups(mut draft: Draft, rng: &mut Rng) -> Vec<u8> {
    for t in [0, 1, 2, 3, 10, 11, 100, 255] {
        let contents = rng.bytes(setup_length(t) - 4);
        let late = [b"SU", &[rng.byte(), t][..], &contents].concat();
        draft.refuse(&late, Refusal::Stage);
    }
    completed(draft, rng)
}

/// Good logs that break off at every kind of place of every stage.
pub fn cut_logs(gathered: &mut LogSet, rng: &mut Rng) {
    for stage in Stage::ALL {
        let draft = small_draft(rng);
        let draft = draft_at(stage, draft, rng);
        let kind = format!("cut-at-{}", stage.number());
        for tail in cut_tails(&draft, rng) {
            gathered.add(&kind, [draft.bytes.clone(), tail].concat());
        }
    }
}

/// The beginnings of records to break off after.
pub fn cut_tails(draft: &Draft, rng: &mut Rng) -> Vec<Vec<u8>> {
    let mut tails = Vec::new();
    for &tag in draft.tags {
        let taken = draft.taken_tags().contains(&tag);
        let whole = if taken { draft.good_record(tag, rng) } else { spoil::alien(draft, tag, rng) };
        if tag == Tag::Go {
            tails.push(whole[..1].to_vec());
            continue;
        }
        let any = rng.between(2, whole.len() as u32 - 1) as usize;
        let mut lengths = match (taken, tag) {
            (true, Tag::Su | Tag::Sx) => vec![1, 2, 3, 4, 5, 6, 9, whole.len() - 1],
            (true, _) => vec![1, 2, 3, 4, any, whole.len() - 1],
            (false, Tag::Su | Tag::Sx) => vec![2, 5, 6, whole.len() - 1],
            (false, _) => vec![any],
        };
        lengths.dedup();
        tails.extend(lengths.into_iter().map(|length| whole[..length].to_vec()));
    }
    tails
}

/// Records after stages 5 and 6, with and without a cut one last.
pub fn after_end_logs(gathered: &mut LogSet, rng: &mut Rng) {
    for stage in [Stage::Done, Stage::Failed] {
        let kind = format!("after-{}", stage.number());
        gathered.add_many(&kind, 6, |index| {
            let draft = Draft::random(rng);
            let mut draft = draft_at(stage, draft, rng);
            add_every_alien(&mut draft, rng);
            for _ in 0..rng.between(0, 12) {
                draft.add_alien(rng);
            }
            let tail: &[u8] = [&b""[..], b"V", b"XX", b"RE\x01", b"SU\x04\x01\x01", b"VE\0"][index];
            [&draft.bytes, tail].concat()
        });
    }
}

/// Empty, random and nearly right bytes.
pub fn senseless_logs(gathered: &mut LogSet, rng: &mut Rng) {
    gathered.add("empty", Vec::new());
    for text in [
        "S",
        "su\x04\x01\x01",
        "US",
        "\0\0\0\0",
        "SUSUSUSUSUSU",
        "a log of words",
        "DE",
        "RE",
        "S\n",
    ] {
        gathered.add("senseless-text", text.as_bytes().to_vec());
    }
    gathered.add_many("senseless-bytes", 4, |index| rng.bytes(1 + 40 * index));
    for tag in FIRST_TAGS {
        gathered.add("senseless-after-tag", [tag.letters().as_slice(), &rng.bytes(300)].concat());
    }
    for stage in Stage::ALL {
        let draft = small_draft(rng);
        let draft = draft_at(stage, draft, rng);
        gathered.add("senseless-tail", [draft.bytes, rng.bytes(60)].concat());
    }
}

/// Logs about as long as a log may be.
pub fn size_logs(gathered: &mut LogSet, rng: &mut Rng) {
    for size in [LONGEST_LOG - 1, LONGEST_LOG, LONGEST_LOG + 1] {
        gathered.add(&format!("size-{size}-zeros"), vec![0; size]);
        let draft = Draft::random(rng);
        let done = draft_at(Stage::Done, draft, rng);
        gathered.add(&format!("size-{size}-done"), padded(done.bytes, 4, size));
        let draft = small_draft(rng);
        let begun = draft_at(Stage::Dealing, draft, rng);
        gathered.add(&format!("size-{size}-begun"), padded(begun.bytes, 4, size));
    }
    gathered.add("size-ends-done", exactly_filled(rng));
    gathered.add("size-over-70000", padded(document::worked(), 4, 70_000));
    gathered.add("size-setups", large_setups());
}

/// Refused VE records, with masks of so many bytes, after the bytes until they
/// have this size.
pub fn padded(mut bytes: Vec<u8>, mask_length: usize, size: usize) -> Vec<u8> {
    let filler = [b"VE\x01\0".to_vec(), vec![0; mask_length]].concat();
    bytes.extend(filler.iter().cycle().take(size - bytes.len()));
    bytes
}

/// A log of the greatest size whose last byte ends the last response.
fn exactly_filled(rng: &mut Rng) -> Vec<u8> {
    let setup = document::plain_setup(4, 1, 1).len();
    let worked = document::worked();
    let room = LONGEST_LOG - worked.len();
    let t = match (room - setup_length(1)) % 8 {
        0 => 1,
        _ => 2,
    };
    let late = [b"SU\x04", &[t][..], &rng.bytes(setup_length(t) - 4)].concat();
    let filler = padded(late, 4, room);
    [&worked[..setup], &filler, &worked[setup..]].concat()
}

/// Setups of 1,030 bytes until the log is as long as it may be.
fn large_setups() -> Vec<u8> {
    let setup = document::plain_setup(32, 255, 1);
    setup.iter().copied().cycle().take(LONGEST_LOG).collect()
}

/// Thousands of refused records of 8 bytes.
pub fn flood_logs(gathered: &mut LogSet, rng: &mut Rng) {
    for stage in [Stage::Dealing, Stage::Challenging, Stage::Done, Stage::Failed] {
        let draft = small_draft(rng);
        let mut draft = draft_at(stage, draft, rng);
        for _ in 0..4000 {
            let alien = record("VE", &[rng.byte(), 0], &[0]);
            draft.refuse(&alien, Refusal::Stage);
        }
        gathered.add("flood", completed(draft, rng));
    }
    let draft = small_draft(rng).with_bad_dealers(1, rng);
    gathered.add("flood-of-complaints", complaint_flood(draft, rng));
}

/// Thousands of refused complaint rows at their own stage, then the rest.
pub fn complaint_flood(draft: Draft, rng: &mut Rng) -> Vec<u8> {
    let mut draft = draft_at(Stage::Complaining, draft, rng);
    draft.go_on(1, rng);
    while draft.bytes.len() < 60_000 {
        for (record, refusal) in spoil::all_faults(&draft, rng) {
            draft.refuse(&record, refusal);
        }
    }
    completed(draft, rng)
}

/// Good logs with bytes changed, cut out or doubled, and records in no order.
pub fn changed_logs(gathered: &mut LogSet, rng: &mut Rng) {
    gathered.add_many("changed-bytes", 50, |_| {
        let log = completed(base_draft(rng), rng);
        changed(log, rng)
    });
    gathered.add_many("spliced", 20, |_| {
        let log = completed(base_draft(rng), rng);
        spliced(&log, rng)
    });
    let tags = [Tag::De, Tag::De, Tag::Ve, Tag::Ve, Tag::Ch, Tag::Re];
    gathered.add_many("jumbled", 16, |_| {
        let draft = small_draft(rng);
        jumbled(&draft, &tags, rng)
    });
}

/// A small committee with some noise.
pub fn base_draft(rng: &mut Rng) -> Draft {
    let bad = rng.between(0, 1) as usize;
    small_draft(rng).with_bad_dealers(bad, rng).with_noise(15)
}

/// The log with some bytes changed.
pub fn changed(mut log: Vec<u8>, rng: &mut Rng) -> Vec<u8> {
    for _ in 0..rng.between(1, 3) {
        let place = rng.below(log.len());
        log[place] = if rng.chance(50) { rng.byte() } else { log[place] ^ 1 << rng.below(8) };
    }
    log
}

/// The log with a piece left out or doubled.
pub fn spliced(log: &[u8], rng: &mut Rng) -> Vec<u8> {
    let (x, y) = (rng.below(log.len()), rng.below(log.len()));
    let (head, tail) = (&log[..x], &log[y..]);
    [head, tail].concat()
}

/// A draft's setup, then records of these tags with numbers from a short list.
pub fn jumbled(draft: &Draft, tags: &[Tag], rng: &mut Rng) -> Vec<u8> {
    let numbers = [1, 4, 16, 64, 0, Q - 1, 5, Q, P - 1, P];
    let mut log = draft.committee.su();
    for _ in 0..rng.between(20, 80) {
        let tag = rng.pick(tags);
        let sender = rng.between(0, draft.params().n + 1) as u8;
        log.extend(tag.letters());
        let has_sender = !matches!(tag, Tag::Ch | Tag::Cs);
        log.extend([if has_sender { sender } else { 0 }, 0]);
        let choice = rng.between(1, numbers.len() as u32) as usize;
        for _ in 0..(draft.length(tag) - 4) / 4 {
            log.extend(rng.pick(&numbers[..choice]).to_be_bytes());
        }
    }
    log
}
