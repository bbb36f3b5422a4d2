//! Logs for the sets alone (request 2.6) that end before stages 3 and 6: with a record of
//! every tag at stages 0 to 2, whole, cut and without a length; cut at each byte; with
//! records before a setup, and before GO.

use super::committee::{as_sx, with_identity_key, Triple};
use super::course::rest_of;
use super::document::{self, plain_setup};
use super::draft::Draft;
use super::edges::draft_at;
use super::log_set::LogSet;
use super::spoil;
use super::wait_edges::{waiting_at, with_dealings};
use super::waits::{as_waiting, draft_of_all, never_waiting};
use crate::log::read_log;
use crate::records::Tag;
use crate::refusal::Refusal;
use crate::rng::Rng;
use crate::run::Stage;

const GO: &[u8] = b"GO";

/// Committees on both sides of 32 parties, which take turns.
const SIZES: [Triple; 2] = [(7, 2, 1), (33, 1, 1)];

/// A name for where logs end, and drafts that have come there.
type Spot = (&'static str, [Draft; 2]);

/// The end of a log, and a name for it.
type Tail = (&'static str, Vec<u8>);

/// Stage 0; stages 1 and 2, of runs begun by SU and by SX, with some records accepted. At
/// stage 1 of those begun by SX one dealing is missing before GO.
fn spots(rng: &mut Rng) -> [Spot; 5] {
    let fresh = [never_waiting(SIZES[0], rng), draft_of_all(SIZES[1], rng)];
    let dealt_by_su = SIZES.map(|params| with_dealings(never_waiting(params, rng), 1, rng));
    let dealt_by_sx = SIZES.map(|params| {
        let draft = draft_of_all(params, rng);
        let count = draft.params().majority() - 1;
        with_dealings(draft, count, rng)
    });
    let heard_by_su = SIZES.map(|params| with_one_row(never_waiting(params, rng), rng));
    let heard_by_sx = SIZES.map(|params| with_one_row(draft_of_all(params, rng), rng));
    [
        ("at-0", fresh),
        ("at-1-by-su", dealt_by_su),
        ("at-1-by-sx", dealt_by_sx),
        ("at-2-by-su", heard_by_su),
        ("at-2-by-sx", heard_by_sx),
    ]
}

/// The draft with one complaint row.
fn with_one_row(draft: Draft, rng: &mut Rng) -> Draft {
    let mut draft = draft_at(Stage::Complaining, draft, rng);
    draft.go_on(1, rng);
    draft
}

/// A record of every tag, and what is none, last at stages 0 to 2.
pub fn last_record_logs(gathered: &mut LogSet, rng: &mut Rng) {
    gathered.add("sets-empty", Vec::new());
    for (spot, drafts) in spots(rng) {
        for (tag, draft) in Tag::ALL.into_iter().zip(drafts.iter().cycle()) {
            let name = tag.name().to_lowercase();
            for (how, tail) in tails(draft, tag, rng) {
                let kind = format!("sets-{name}-{how}-{spot}");
                gathered.add(&kind, [&draft.bytes[..], &tail].concat());
            }
        }
        let [one, other] = &drafts;
        gathered.add(&format!("sets-byte-{spot}"), [&one.bytes[..], b"D"].concat());
        let unknown = [&other.bytes[..], b"de", &rest_of(other, rng)].concat();
        gathered.add(&format!("sets-unknown-{spot}"), unknown);
    }
}

/// Every end that a log can have with a record of this tag.
fn tails(draft: &Draft, tag: Tag, rng: &mut Rng) -> Vec<Tail> {
    let whole = refused_record(draft, tag, rng);
    let is_setup = matches!(tag, Tag::Su | Tag::Sx);
    if !is_setup && draft.run.length(tag).is_none() {
        return tails_without_length(draft, tag, &whole, rng);
    }
    let mut tails = Vec::new();
    if is_setup {
        tails.push(("under-six", cut_between(&whole, 2, 5, rng)));
        tails.push(("cut", cut_between(&whole, 6, whole.len() - 1, rng)));
    } else if tag != Tag::Go {
        tails.push(("cut", cut_between(&whole, 2, whole.len() - 1, rng)));
    }
    tails.push(("refused", whole));
    if tag != Tag::Go && draft.taken_tags().contains(&tag) {
        tails.push(("taken", draft.good_record(tag, rng)));
    }
    tails
}

/// A record that has no length where it stands, with the rest of a good log behind it; GO
/// also alone and with one byte behind it.
fn tails_without_length(draft: &Draft, tag: Tag, whole: &[u8], rng: &mut Rng) -> Vec<Tail> {
    let mut tails = vec![("before-more", [whole, &rest_of(draft, rng)].concat())];
    if tag == Tag::Go {
        tails.push(("alone", GO.to_vec()));
        tails.push(("before-a-byte", [GO, b"\0"].concat()));
    }
    tails
}

/// A whole record of the tag that the run refuses, by its contents if not by its tag.
fn refused_record(draft: &Draft, tag: Tag, rng: &mut Rng) -> Vec<u8> {
    let faulty = spoil::all_faults(draft, rng).into_iter().map(|(record, _)| record);
    let of_tag: Vec<Vec<u8>> = faulty.filter(|record| Tag::of(record) == Some(tag)).collect();
    if of_tag.is_empty() {
        spoil::alien(draft, tag, rng)
    } else {
        rng.pick(&of_tag)
    }
}

/// The beginning of a record, with a length drawn by lot.
fn cut_between(record: &[u8], first: usize, last: usize, rng: &mut Rng) -> Vec<u8> {
    record[..rng.between(first as u32, last as u32) as usize].to_vec()
}

/// The worked log cut at each byte of its setup, its first dealing and its last complaint
/// row; begun by SX, about GO; and a wider row cut.
pub fn cut_logs(gathered: &mut LogSet, rng: &mut Rng) {
    let worked = document::worked();
    let dealing = read_log(&worked).answers[1].place.end;
    let row = document::up_to_complaints().len();
    for length in (1..dealing).chain(row - 7..row) {
        gathered.add("sets-cut-at-each-byte", worked[..length].to_vec());
    }
    let dealt = document::up_to_dealings(1, 4).len();
    for length in dealt..=dealt + 3 {
        gathered.add("sets-cut-about-go", as_waiting(&worked)[..length].to_vec());
    }
    let log = waiting_at(Stage::Challenging, (33, 1, 1), rng).bytes;
    for missing in [1, 4, 11] {
        gathered.add("sets-cut-wide-row", log[..log.len() - missing].to_vec());
    }
}

/// Refused setups, then what ends the reading at stage 0.
pub fn before_setup_logs(gathered: &mut LogSet, rng: &mut Rng) {
    let identity = with_identity_key(plain_setup(4, 1, 1));
    let refused = [plain_setup(3, 1, 1), as_sx(plain_setup(64, 22, 1)), identity].concat();
    let (setup, good) = (plain_setup(4, 1, 1).len(), document::worked());
    let other = rest_of(&draft_of_all((4, 1, 1), rng), rng);
    let tails = [
        ("go", GO.to_vec()),
        ("go", [GO, GO].concat()),
        ("go", [GO, &good].concat()),
        ("go", [GO, &other].concat()),
        ("de", good[setup..].to_vec()),
        ("byte", b"S".to_vec()),
        ("unknown", [b"XX", &good[..]].concat()),
    ];
    for (name, tail) in tails {
        gathered.add(&format!("sets-refused-setups-{name}"), [&refused[..], &tail].concat());
    }
}

/// Runs that end waiting; CH, CS and RE before GO, also behind a refused GO; and stray
/// bytes behind a GO refused and taken.
pub fn before_go_logs(gathered: &mut LogSet, rng: &mut Rng) {
    let draft = draft_of_all((7, 2, 1), rng);
    for count in [0, 5, 7] {
        gathered.add("sets-waiting", with_dealings(draft.clone(), count, rng).bytes);
    }
    let all = with_dealings(draft.clone(), 7, rng);
    for tag in [Tag::Ch, Tag::Cs, Tag::Re] {
        let record = spoil::alien(&all, tag, rng);
        let log = [&all.bytes[..], &record, &rest_of(&all, rng)].concat();
        gathered.add("sets-before-go", log);
    }
    let mut early = with_dealings(draft, 4, rng);
    early.refuse(GO, Refusal::Early);
    let record = spoil::alien(&early, Tag::Ch, rng);
    gathered.add("sets-before-go-again", [&early.bytes[..], &record].concat());
    for stray in [&b"\0"[..], b"go\0"] {
        gathered.add("sets-go-early-stray", [&early.bytes[..], stray].concat());
        gathered.add("sets-go-taken-stray", [&all.bytes[..], GO, stray].concat());
    }
}
