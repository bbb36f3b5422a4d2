//! Logs about the mask of VE and the sets that follow from it, in committees at
//! the edges of its two widths: 31, 32, 33, 63 and 64 parties.

use super::committee::Triple;
use super::course::{add_every_alien, completed};
use super::draft::Draft;
use super::edges::draft_at;
use super::log_set::LogSet;
use super::spoil::set_bit;
use super::wide::draft_of;
use crate::params::Party;
use crate::refusal::Refusal;
use crate::rng::Rng;
use crate::run::Stage;

/// The parties next to an edge of a mask's bytes, words or width.
const MARKED: [Party; 9] = [1, 8, 9, 31, 32, 33, 57, 63, 64];

/// A draft that hears these parties as dealers and as holders, others by lot.
/// Holders come in the order given, those by lot last.
pub fn draft_hearing(params: Triple, parties: &[Party], rng: &mut Rng) -> Draft {
    let mut draft = draft_of(params, rng);
    draft.dealers = heard(&draft, parties, rng);
    draft.holders = heard(&draft, parties, rng);
    draft.responders = rng.some_of(&draft.holders, draft.params().quorum());
    draft
}

/// The parties, and as many others drawn by lot as a stage waits for.
fn heard(draft: &Draft, parties: &[Party], rng: &mut Rng) -> Vec<Party> {
    let others: Vec<Party> =
        (1..=draft.params().n).filter(|party| !parties.contains(party)).collect();
    let missing = draft.params().majority() - parties.len();
    [parties.to_vec(), rng.some_of(&others, missing)].concat()
}

/// A VE of the draft's width, from this holder, who blames these dealers.
pub fn row(draft: &Draft, holder: Party, blamed: &[Party]) -> Vec<u8> {
    let mask = vec![0; draft.params().mask_length()];
    let mut record = [vec![b'V', b'E', holder as u8, 0], mask].concat();
    for dealer in blamed {
        set_bit(&mut record, dealer - 1);
    }
    record
}

/// The marked parties that the committee has.
pub fn marked(n: u8) -> Vec<Party> {
    MARKED.into_iter().filter(|&party| party <= Party::from(n)).collect()
}

/// Single bits of the mask, blaming falsely and truly.
pub fn bit_logs(gathered: &mut LogSet, rng: &mut Rng) {
    for n in [31, 32, 33, 63, 64] {
        let draft = draft_of((n, 1, 1), rng);
        gathered.add("wide-every-bit", every_bit(draft, rng));
        for dealer in marked(n) {
            gathered.add("wide-one-blamed", one_blamed((n, 1, 1), dealer, rng));
        }
        gathered.add("wide-all-blamed", all_blamed((n, 1, 1), rng));
    }
    let draft = draft_of((64, 21, 1), rng);
    gathered.add("wide-every-bit", every_bit(draft, rng));
}

/// Each bit of the mask in turn blames falsely, then all do, then the rest.
pub fn every_bit(draft: Draft, rng: &mut Rng) -> Vec<u8> {
    let mut draft = draft_at(Stage::Complaining, draft, rng);
    let (n, bits, holder) = (draft.params().n, draft.mask_bits(), draft.holders[0]);
    let refusal = |party: Party| if party > n { Refusal::Mask } else { Refusal::FalseBlame };
    for party in 1..=bits {
        draft.refuse(&row(&draft, holder, &[party]), refusal(party));
    }
    let (own, all): (Vec<Party>, Vec<Party>) = ((1..=n).collect(), (1..=bits).collect());
    draft.refuse(&row(&draft, holder, &own), Refusal::FalseBlame);
    draft.refuse(&row(&draft, holder, &all), refusal(bits));
    completed(draft, rng)
}

/// A dealer wrongs the last party of all and is blamed by it alone.
fn one_blamed(params: Triple, dealer: Party, rng: &mut Rng) -> Vec<u8> {
    let mut draft = draft_hearing(params, &marked(params.0), rng);
    draft.wrong = [(dealer, Party::from(params.0))].into();
    completed(draft, rng)
}

/// Every dealer wrongs one holder, who blames them all: stage 6.
fn all_blamed(params: Triple, rng: &mut Rng) -> Vec<u8> {
    let mut draft = draft_hearing(params, &marked(params.0), rng);
    let holder = draft.holders[0];
    draft.wrong = draft.dealers.iter().map(|&dealer| (dealer, holder)).collect();
    completed(draft, rng)
}

/// Masks that another order of bytes would read as other dealers.
pub fn order_logs(gathered: &mut LogSet, rng: &mut Rng) {
    for dealers in [[1, 57], [8, 64], [1, 33], [32, 64], [9, 49]] {
        for blamed in dealers {
            gathered.add("wide-other-order", one_of_two(dealers, blamed, rng));
        }
    }
    for params in [(33, 1, 1), (63, 1, 1), (64, 1, 1)] {
        gathered.add("wide-low-byte-first", low_byte_first(params, rng));
    }
}

/// Two dealers wrong holder 62, who blames one of them.
fn one_of_two(dealers: [Party; 2], blamed: Party, rng: &mut Rng) -> Vec<u8> {
    let mut draft = draft_hearing((64, 2, 1), &[62, dealers[0], dealers[1]], rng);
    draft.wrong = dealers.map(|dealer| (dealer, 62)).into();
    let mut draft = draft_at(Stage::Complaining, draft, rng);
    draft.accept(&row(&draft, 62, &[blamed]));
    completed(draft, rng)
}

/// A true complaint with its bytes the other way round is refused; then the rest.
fn low_byte_first(params: Triple, rng: &mut Rng) -> Vec<u8> {
    let n = Party::from(params.0);
    let mut draft = draft_hearing(params, &[n, 1], rng);
    draft.wrong = [(1, n)].into();
    let mut draft = draft_at(Stage::Complaining, draft, rng);
    let good = draft.next_record(rng);
    let mut turned = good.clone();
    turned[4..].reverse();
    let swapped = [&good[..4], &good[8..], &good[4..8]].concat();
    let outside = if n < 57 { Refusal::Mask } else { Refusal::FalseBlame };
    draft.refuse(&turned, outside);
    draft.refuse(&swapped, Refusal::FalseBlame);
    completed(draft, rng)
}

/// As many bad dealers above 32 as may be, and one more.
pub fn set_logs(gathered: &mut LogSet, rng: &mut Rng) {
    for params in [(34, 1, 1), (63, 20, 2), (64, 1, 1), (64, 15, 10), (64, 21, 1)] {
        let with_bad = |count: usize, rng: &mut Rng| bad_above(params, count, rng);
        add_at_limit(gathered, "wide", params, with_bad, rng);
    }
}

/// Adds a complete log with t bad dealers, and one with t+1 that ends at stage 6,
/// with a record of each tag after it.
pub fn add_at_limit(
    gathered: &mut LogSet,
    kind: &str,
    params: Triple,
    with_bad: impl Fn(usize, &mut Rng) -> Draft,
    rng: &mut Rng,
) {
    let t = usize::from(params.1);
    gathered.add(&format!("{kind}-bad-at-limit"), completed(with_bad(t, rng), rng));
    let mut draft = with_bad(t + 1, rng);
    draft.go_to(Stage::Failed, rng);
    add_every_alien(&mut draft, rng);
    gathered.add(&format!("{kind}-too-many-bad"), draft.bytes);
}

/// The last so many parties send wrong shares to each other and are heard.
fn bad_above(params: Triple, count: usize, rng: &mut Rng) -> Draft {
    let last: Vec<Party> = (1..=Party::from(params.0)).rev().take(count).collect();
    let mut draft = draft_hearing(params, &last, rng);
    draft.wrong = last.iter().flat_map(|&dealer| last.iter().map(move |&j| (dealer, j))).collect();
    draft
}
