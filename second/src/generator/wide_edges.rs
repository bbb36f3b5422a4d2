//! Logs of 33 to 64 parties, and of 32 beside them, at the limits of the format:
//! VE of the other width, cut logs, the longest ones, good ones changed.

use super::committee::Triple;
use super::course::{add_every_alien, completed, rest_of};
use super::draft::Draft;
use super::edges::{changed, complaint_flood, cut_tails, draft_at, jumbled, padded, spliced};
use super::log_set::LogSet;
use super::wide::{draft_of, light_draft, LIGHT};
use crate::records::Tag;
use crate::refusal::Refusal;
use crate::report::LONGEST_LOG;
use crate::rng::Rng;
use crate::run::Stage;

/// What stands in the mask of a VE that shifts the reading: nothing, every bit,
/// or what may be read as the beginning of a record.
const WORDS: [[u8; 4]; 4] = [[0; 4], [255; 4], *b"VE\x02\0", *b"SU\x04\x01"];

fn light_draft_at(stage: Stage, params: Triple, rng: &mut Rng) -> Draft {
    let draft = draft_of(params, rng);
    draft_at(stage, draft, rng)
}

/// VE of twelve bytes with 32 parties and of eight with more, at every stage.
pub fn width_logs(gathered: &mut LogSet, rng: &mut Rng) {
    for stage in Stage::ALL {
        for params in [(32, 1, 1), (33, 1, 1)] {
            let draft = light_draft_at(stage, params, rng);
            let rest = rest_of(&draft, rng);
            for word in WORDS {
                let row = other_width(&draft, word);
                let log = [&draft.bytes[..], &row, &rest].concat();
                gathered.add(&format!("wide-other-width-at-{}", stage.number()), log);
            }
            let ending = [&draft.bytes[..], &other_width(&draft, [0; 4])].concat();
            gathered.add(&format!("wide-other-width-last-at-{}", stage.number()), ending);
        }
    }
    for stage in &Stage::ALL[1..] {
        for params in LIGHT {
            let draft = light_draft_at(*stage, params, rng);
            gathered.add("wide-rows-in-step", rows_in_step(draft, rng));
        }
    }
}

/// A VE with the mask's length that the draft's committee has not.
fn other_width(draft: &Draft, word: [u8; 4]) -> Vec<u8> {
    let words = if draft.mask_bits() == 32 { 2 } else { 1 };
    let sender = [b'V', b'E', draft.holders[0] as u8, 0];
    [&sender[..], &word.repeat(words)].concat()
}

/// 48 bytes that are rows of VE by either width, then the rest of the log.
fn rows_in_step(mut draft: Draft, rng: &mut Rng) -> Vec<u8> {
    let rows: Vec<u8> = (1..=12).flat_map(|holder| [b'V', b'E', holder, 0]).collect();
    let refusal = match (draft.run.stage, draft.params().n) {
        (Stage::Complaining, 33) => Refusal::Mask,
        (Stage::Complaining, _) => Refusal::FalseBlame,
        _ => Refusal::Stage,
    };
    for row in rows.chunks(draft.length(Tag::Ve)) {
        draft.refuse(row, refusal);
    }
    completed(draft, rng)
}

/// Good logs that break off: at every kind of place of every stage, inside VE,
/// at the edges of records, anywhere.
pub fn cut_logs(gathered: &mut LogSet, rng: &mut Rng) {
    for stage in Stage::ALL {
        let draft = light_draft_at(stage, (64, 1, 1), rng);
        for tail in cut_tails(&draft, rng) {
            let log = [draft.bytes.clone(), tail].concat();
            gathered.add(&format!("wide-cut-at-{}", stage.number()), log);
        }
    }
    for params in LIGHT {
        cut_complaints(gathered, params, rng);
        one_byte_short(gathered, params, rng);
    }
    for params in [(33, 1, 1), (64, 1, 1)] {
        cut_between(gathered, params, rng);
    }
    let draft = draft_of((64, 15, 10), rng).with_bad_dealers(15, rng);
    let log = completed(draft.with_noise(5), rng);
    gathered.add_many("wide-cut-anywhere", 12, |_| log[..rng.below(log.len())].to_vec());
}

/// A record of each tag without its last byte, and one of no tag.
fn one_byte_short(gathered: &mut LogSet, params: Triple, rng: &mut Rng) {
    for stage in &Stage::ALL[..=4] {
        let draft = light_draft_at(*stage, params, rng);
        for tag in draft.taken_tags() {
            let record = draft.good_record(tag, rng);
            let log = [&draft.bytes, &record[..record.len() - 1]].concat();
            gathered.add("wide-one-byte-short", log);
        }
        gathered.add("wide-no-tag", [&draft.bytes[..], b"VX\x01\0\0\0\0\0"].concat());
    }
}

/// A VE that breaks off, at stages 1 to 3.
fn cut_complaints(gathered: &mut LogSet, params: Triple, rng: &mut Rng) {
    for stage in &Stage::ALL[1..=3] {
        let draft = light_draft_at(*stage, params, rng);
        let row = [vec![b'V', b'E', draft.holders[0] as u8, 0], vec![0; 8]].concat();
        for length in [4, 7, 8, 9, 11].into_iter().filter(|&l| l < draft.length(Tag::Ve)) {
            gathered.add("wide-cut-complaint", [&draft.bytes, &row[..length]].concat());
        }
    }
}

/// A complete log cut a byte before, at and a byte after the ends of some records.
fn cut_between(gathered: &mut LogSet, params: Triple, rng: &mut Rng) {
    let mut draft = draft_of(params, rng);
    let mut ends = Vec::new();
    while !draft.at_end() {
        draft.step(rng);
        ends.push(draft.bytes.len());
    }
    let log = draft.bytes;
    for end in ends.iter().step_by(11).chain(&ends[ends.len() - 4..]) {
        for length in [end - 1, *end, end + 1] {
            gathered.add("wide-cut-between", log[..length.min(log.len())].to_vec());
        }
    }
}

/// Records after the end, floods of refused rows, and logs as long as may be.
pub fn size_logs(gathered: &mut LogSet, rng: &mut Rng) {
    for stage in [Stage::Done, Stage::Failed] {
        for params in LIGHT {
            let mut draft = light_draft_at(stage, params, rng);
            add_every_alien(&mut draft, rng);
            gathered.add("wide-after-end", [draft.bytes, b"VE\x01\0\0\0\0\0".to_vec()].concat());
        }
    }
    for params in [(32, 1, 1), (33, 1, 1), (64, 4, 1)] {
        let draft = draft_of(params, rng).with_bad_dealers(1, rng);
        gathered.add("wide-flood-of-complaints", complaint_flood(draft, rng));
    }
    let done = light_draft_at(Stage::Done, (64, 1, 31), rng);
    for size in [LONGEST_LOG, LONGEST_LOG + 1] {
        gathered.add(&format!("wide-size-{size}-done"), padded(done.bytes.clone(), 8, size));
    }
}

/// Good logs with another number of parties, with bytes changed, cut out or
/// doubled, and records in no order.
pub fn changed_logs(gathered: &mut LogSet, rng: &mut Rng) {
    for params in LIGHT {
        let log = completed(draft_of(params, rng), rng);
        for n in [0, 4, 31, 32, 33, 34, 63, 64, 65, 255].into_iter().filter(|&n| n != params.0) {
            let mut other = log.clone();
            other[2] = n;
            gathered.add("wide-other-n", other);
        }
    }
    gathered.add_many("wide-changed-bytes", 24, |_| {
        let log = completed(light_draft(rng).with_noise(5), rng);
        changed(log, rng)
    });
    gathered.add_many("wide-spliced", 12, |_| {
        let log = completed(light_draft(rng).with_noise(5), rng);
        spliced(&log, rng)
    });
    let tags = [Tag::De, Tag::De, Tag::Ve, Tag::Ve, Tag::Ch, Tag::Cs, Tag::Re];
    gathered.add_many("wide-jumbled", 12, |_| {
        let draft = light_draft(rng);
        jumbled(&draft, &tags, rng)
    });
}
