//! Logs with CS at the limits of the format: at every stage, cut, of the length
//! of CH, senseless, and in good logs changed at random.

use super::bytes::put;
use super::committee::random_scalar;
use super::course::{completed, rest_of};
use super::draft::Draft;
use super::edges::{base_draft, changed, draft_at, jumbled, small_draft, spliced};
use super::log_set::LogSet;
use super::spoil;
use crate::arith::{Scalar, Q};
use crate::records::Tag;
use crate::refusal::Refusal;
use crate::rng::Rng;
use crate::run::Stage;

/// A small draft at a stage, signed with a shift where it is past its challenges.
fn small_draft_at(stage: Stage, rng: &mut Rng) -> Draft {
    let draft = small_draft(rng).with_shift(random_scalar(rng));
    draft_at(stage, draft, rng)
}

/// CS at every stage, before the rest of a log. At stage 0 it ends the reading.
pub fn stage_logs(gathered: &mut LogSet, rng: &mut Rng) {
    for stage in Stage::ALL {
        gathered.add_many(&format!("shift-at-{}", stage.number()), 2, |_| {
            let mut draft = small_draft_at(stage, rng);
            let record = spoil::alien(&draft, Tag::Cs, rng);
            if stage == Stage::Challenging {
                draft.accept(&record);
            }
            draft.refuse(&record, Refusal::Stage);
            completed(draft, rng)
        });
    }
}

/// CS that breaks off, at every stage. A reserved byte and the shift may be
/// wrong besides, which is not looked at.
pub fn cut_logs(gathered: &mut LogSet, rng: &mut Rng) {
    for stage in Stage::ALL {
        let draft = small_draft_at(stage, rng);
        let good = spoil::alien(&draft, Tag::Cs, rng);
        let mut wrong = good.clone();
        wrong[rng.pick(&[2, 3])] = 1;
        put(&mut wrong, 4, Q);
        let ch_length = draft.length(Tag::Ch);
        for length in [2, 3, 4, 7, 8, ch_length, good.len() - 1] {
            for record in [&good, &wrong] {
                let log = [&draft.bytes, &record[..length]].concat();
                gathered.add(&format!("shift-cut-at-{}", stage.number()), log);
            }
        }
    }
}

/// CS as long as CH, and CH as long as CS, with a record after it.
pub fn length_logs(gathered: &mut LogSet, rng: &mut Rng) {
    for stage in [Stage::Dealing, Stage::Challenging, Stage::Responding] {
        let [short, long] = other_lengths(&small_draft_at(stage, rng), rng);
        gathered.add("shift-of-the-length-of-ch", short);
        gathered.add("ch-of-the-length-of-shift", long);
    }
}

/// The draft with a CS too short, and with a CH too long, before the rest of it.
pub fn other_lengths(draft: &Draft, rng: &mut Rng) -> [Vec<u8>; 2] {
    let (ch, cs) = (draft.committee.ch(rng), draft.committee.cs(Scalar::ONE, rng));
    let rest = rest_of(draft, rng);
    [[b"CS", &ch[2..]], [b"CH", &cs[2..]]]
        .map(|record| [&draft.bytes, &record.concat()[..], &rest].concat())
}

/// CS before senseless bytes, good logs with a shift changed at random, and
/// records in no order.
pub fn senseless_logs(gathered: &mut LogSet, rng: &mut Rng) {
    for stage in Stage::ALL {
        let draft = small_draft_at(stage, rng);
        let log = [draft.bytes, b"CS\0\0".to_vec(), rng.bytes(300)].concat();
        gathered.add("shift-senseless", log);
    }
    gathered.add_many("shift-changed-bytes", 24, |_| {
        let log = base_log(rng);
        changed(log, rng)
    });
    gathered.add_many("shift-spliced", 12, |_| {
        let log = base_log(rng);
        spliced(&log, rng)
    });
    let tags = [Tag::De, Tag::De, Tag::Ve, Tag::Ve, Tag::Ch, Tag::Cs, Tag::Cs, Tag::Re];
    gathered.add_many("shift-jumbled", 16, |_| {
        let draft = small_draft(rng);
        jumbled(&draft, &tags, rng)
    });
}

/// A small complete log with a shift and some noise.
fn base_log(rng: &mut Rng) -> Vec<u8> {
    let draft = base_draft(rng).with_shift(random_scalar(rng));
    completed(draft, rng)
}
