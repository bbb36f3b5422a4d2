//! Long logs about the bytes that fix the sets (request 2.6): floods of refused records
//! with no sets, before them and behind them; the longest records; and noisy logs, whole
//! and cut by lot.

use super::course::{add_every_alien, completed};
use super::edges::{draft_at, padded};
use super::log_set::LogSet;
use super::wait_edges::waiting_at;
use super::wait_lengths::flooded;
use super::waits::{never_waiting, small_waiting};
use crate::records::GO_LENGTH;
use crate::report::LONGEST_LOG;
use crate::rng::Rng;
use crate::run::Stage;

/// How long VE of up to 32 parties is.
const ROW: usize = 8;

/// Floods of GO and of VE in logs about as long as a log may be.
pub fn size_logs(gathered: &mut LogSet, rng: &mut Rng) {
    let begun = draft_at(Stage::Dealing, never_waiting((4, 1, 1), rng), rng);
    gathered.add("sets-never-after-go", flooded(begun.bytes.clone(), LONGEST_LOG));
    let wide = waiting_at(Stage::Dealing, (33, 1, 1), rng).bytes;
    gathered.add("sets-never-after-rows", padded(wide, 8, LONGEST_LOG));
    let challenged = draft_at(Stage::Challenging, begun.clone(), rng).bytes;
    add_about_longest(gathered, &begun.bytes, &challenged);
    gathered.add("sets-3-then-go", flooded(challenged, LONGEST_LOG));
    let begun = waiting_at(Stage::Dealing, (4, 1, 1), rng);
    let failed = draft_at(Stage::Failed, begun.clone(), rng).bytes;
    gathered.add("sets-6-late", late(&begun.bytes, &failed));
    gathered.add("sets-6-then-rows", padded(failed, 4, LONGEST_LOG));
    add_longest_records(gathered, rng);
}

/// Refused records of the committee whose CH and CS are the longest, and a CH cut.
fn add_longest_records(gathered: &mut LogSet, rng: &mut Rng) {
    let mut draft = draft_at(Stage::Dealing, never_waiting((64, 1, 31), rng), rng);
    add_every_alien(&mut draft, rng);
    gathered.add("sets-longest-records", draft.bytes.clone());
    let ch = draft.committee.ch(rng);
    gathered.add("sets-longest-records-cut", [&draft.bytes, &ch[..ch.len() - 1]].concat());
}

/// A flood of GO before the rest of a log that comes to stage 3, so that its last byte is
/// the last that a log may have; a byte less, and a byte more.
fn add_about_longest(gathered: &mut LogSet, begun: &[u8], log: &[u8]) {
    let rest = &log[begun.len()..];
    let flood = flooded(begun.to_vec(), LONGEST_LOG - rest.len());
    assert_eq!((flood.len() - begun.len()) % GO_LENGTH, 0);
    let longest = [&flood, rest, b"\0"].concat();
    for size in [LONGEST_LOG - 1, LONGEST_LOG, LONGEST_LOG + 1] {
        gathered.add(&format!("sets-size-{size}"), longest[..size].to_vec());
    }
}

/// A flood of VE before the rest of a log, and some GO behind it, in the longest log.
fn late(begun: &[u8], log: &[u8]) -> Vec<u8> {
    let rows = (LONGEST_LOG - log.len()) / ROW - 2;
    let flood = padded(begun.to_vec(), 4, begun.len() + ROW * rows);
    flooded([&flood, &log[begun.len()..]].concat(), LONGEST_LOG)
}

/// Small noisy logs begun by SX and by SU, with up to t+1 bad dealers; half of them are
/// cut anywhere.
pub fn lot_logs(gathered: &mut LogSet, rng: &mut Rng) {
    gathered.add_many("sets-by-lot", 10, |index| {
        let by_su = rng.pick(&[(4, 1, 1), (7, 2, 1), (8, 1, 3)]);
        let draft = if index % 2 == 0 { small_waiting(rng) } else { never_waiting(by_su, rng) };
        let bad = rng.between(0, draft.params().t + 1) as usize;
        let log = completed(draft.with_bad_dealers(bad, rng).with_noise(60), rng);
        let length = if index % 4 < 2 { log.len() } else { rng.below(log.len()) };
        log[..length].to_vec()
    });
}
