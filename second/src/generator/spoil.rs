//! Records made to be refused, each with the number it must be refused with.

use super::bytes::{get, put};
use super::committee::{as_sx, put_identity_key, KEY_PLACE};
use super::committee::{random_params, random_scalar, random_wide_params};
use super::draft::Draft;
use crate::arith::{GroupNumber, Scalar, P, Q};
use crate::params::{Party, MOST_PARTIES};
use crate::records::{setup_length, Tag};
use crate::refusal::Refusal;
use crate::rng::Rng;
use crate::run::Stage;

/// The refusals that a whole record of the right stage can get, in the order
/// of document 01, with 16 of request 2.3 directly after 7. SX has those of SU.
fn faults_of(tag: Tag) -> &'static [Refusal] {
    use Refusal as R;
    match tag {
        Tag::Su | Tag::Sx => &[R::Reserved, R::Bounds, R::Element, R::IdentityKey],
        Tag::De => &[R::Reserved, R::Party, R::Element, R::Scalar, R::Again],
        Tag::Ve => &[R::Reserved, R::Party, R::Mask, R::Again, R::FalseBlame],
        Tag::Ch | Tag::Cs => &[R::Reserved, R::Scalar],
        Tag::Re => &[R::Reserved, R::Party, R::Scalar, R::Again, R::Outsider, R::Response],
        Tag::Go => &[R::Early],
    }
}

/// The faults that a record of the tag can have at this point of a draft, in order.
fn possible_faults(draft: &Draft, tag: Tag) -> Vec<Refusal> {
    let possible = |&fault: &Refusal| match fault {
        Refusal::Again => !senders(draft).is_empty(),
        Refusal::Mask => draft.params().n < draft.mask_bits(),
        Refusal::IdentityKey => draft.identity_keys,
        Refusal::Early => draft.run.dealings.len() < draft.params().majority(),
        _ => true,
    };
    faults_of(tag).iter().copied().filter(possible).collect()
}

/// The senders of the accepted records of the present stage.
fn senders(draft: &Draft) -> Vec<Party> {
    let run = &draft.run;
    match run.stage {
        Stage::Dealing => run.dealings.iter().map(|dealing| dealing.dealer).collect(),
        Stage::Complaining => run.complaints.iter().map(|row| row.holder).collect(),
        Stage::Responding => run.responses.iter().map(|row| row.holder).collect(),
        _ => Vec::new(),
    }
}

/// Every set of faults that can be made here, as records of the right stage.
/// Several faults in one record: the first in order gives the number.
pub fn all_faults(draft: &Draft, rng: &mut Rng) -> Vec<(Vec<u8>, Refusal)> {
    let taken = draft.taken_tags();
    taken.into_iter().flat_map(|tag| faults_with_tag(draft, tag, rng)).collect()
}

fn faults_with_tag(draft: &Draft, tag: Tag, rng: &mut Rng) -> Vec<(Vec<u8>, Refusal)> {
    let possible = possible_faults(draft, tag);
    let mut found = Vec::new();
    for choice in 1..1usize << possible.len() {
        let chosen = (0..possible.len()).filter(|place| choice >> place & 1 == 1);
        let faults: Vec<Refusal> = chosen.map(|place| possible[place]).collect();
        found.push((faulty(draft, tag, &faults, rng), faults[0]));
    }
    found
}

/// A record with some fault of the stage, or of a tag that it does not take.
pub fn random_fault(draft: &Draft, rng: &mut Rng) -> (Vec<u8>, Refusal) {
    let alien_only = draft.at_end();
    let alien_possible = draft.run.stage != Stage::Fresh;
    if alien_only || alien_possible && rng.chance(25) {
        return (random_alien(draft, rng), Refusal::Stage);
    }
    let tag = random_faulty(draft, rng);
    let possible = possible_faults(draft, tag);
    let mut faults = vec![rng.below(possible.len())];
    if rng.chance(25) {
        faults.push(rng.below(possible.len()));
    }
    faults.sort();
    faults.dedup();
    let faults: Vec<Refusal> = faults.iter().map(|&place| possible[place]).collect();
    (faulty(draft, tag, &faults, rng), faults[0])
}

/// A tag that the stage takes and that can have faults; no lot is drawn where there
/// is one alone.
fn random_faulty(draft: &Draft, rng: &mut Rng) -> Tag {
    let mut faulty = draft.taken_tags();
    faulty.retain(|&tag| !possible_faults(draft, tag).is_empty());
    match faulty[..] {
        [tag] => tag,
        _ => rng.pick(&faulty),
    }
}

/// A good record of the tag with these faults; the later ones are made first,
/// so that an earlier one is never undone.
fn faulty(draft: &Draft, tag: Tag, faults: &[Refusal], rng: &mut Rng) -> Vec<u8> {
    let mut record = draft.good_record(tag, rng);
    for &fault in faults.iter().rev() {
        make_fault(draft, fault, &mut record, rng);
    }
    record
}

fn make_fault(draft: &Draft, fault: Refusal, record: &mut Vec<u8>, rng: &mut Rng) {
    let n = draft.params().n;
    match fault {
        Refusal::Reserved => {
            let place = reserved_place(record, rng);
            record[place] = rng.between(1, 255) as u8;
        }
        Refusal::Bounds => break_bounds(record, draft.most_parties, rng),
        Refusal::Party => record[2] = rng.pick(&[0, n as u8 + 1, 255]),
        Refusal::Element => break_element(draft, record, rng),
        Refusal::Scalar => break_scalar(draft, record, rng),
        Refusal::Mask => {
            let bit = rng.between(n, draft.mask_bits() - 1);
            set_bit(record, bit);
        }
        Refusal::Again => record[2] = rng.pick(&senders(draft)) as u8,
        Refusal::Outsider => record[2] = rng.pick(&outsiders(draft)) as u8,
        Refusal::FalseBlame => blame_falsely(draft, record, rng),
        Refusal::Response => break_response(record, rng),
        Refusal::IdentityKey => put_identity_key(record),
        Refusal::Early => {}
        _ => panic!("not a fault of a whole record"),
    }
}

/// Where the reserved byte stands; CH and CS have two.
fn reserved_place(record: &[u8], rng: &mut Rng) -> usize {
    match Tag::of(record) {
        Some(Tag::Su | Tag::Sx) => 5,
        Some(Tag::Ch | Tag::Cs) => rng.pick(&[2, 3]),
        _ => 3,
    }
}

/// Puts the parameters of an SU outside the bounds, with this one for n, and
/// keeps its length right.
fn break_bounds(record: &mut Vec<u8>, most_parties: u32, rng: &mut Rng) {
    let (t, a) = (record[3], record[4]);
    match rng.below(6) {
        0 => record[2] = 3 * t + 2 * a - 2,
        1 => record[2] = rng.between(most_parties + 1, 255) as u8,
        2 => record[2] = 0,
        3 => record[3] = 0,
        4 => record[4] = rng.pick(&[0, most_parties as u8 / 2, 255]),
        _ => record[3] = rng.between(most_parties.div_ceil(3), 255) as u8,
    }
    record.resize(setup_length(record[3]), 1);
}

/// Puts a number that is no element in place of an element. An S that was made the
/// identity stays.
fn break_element(draft: &Draft, record: &mut [u8], rng: &mut Rng) {
    let t = draft.params().t as usize;
    let (first, count) = match Tag::of(record) {
        Some(Tag::Su | Tag::Sx) if draft.identity_keys && get(record, KEY_PLACE) == 1 => {
            (KEY_PLACE + 4, t)
        }
        Some(Tag::Su | Tag::Sx) => (KEY_PLACE, t + 1),
        _ => (4, draft.params().quorum()),
    };
    let offset = first + 4 * edge_or_any(count, rng);
    let number = not_an_element(get(record, offset), rng);
    put(record, offset, number);
}

/// A number that is no element: out of range, congruent to one, or in range.
fn not_an_element(element: u32, rng: &mut Rng) -> u32 {
    let others = [0, P, P - 1, 5, element + P, P - element, u32::MAX];
    let number = rng.pick(&others);
    assert_eq!(GroupNumber::read(number), GroupNumber::NoElement);
    number
}

/// Puts a number of q or more in place of a scalar.
fn break_scalar(draft: &Draft, record: &mut [u8], rng: &mut Rng) {
    let first = match Tag::of(record) {
        Some(Tag::De) => 4 + 4 * draft.params().quorum(),
        _ => 4,
    };
    let count = (record.len() - first) / 4;
    let offset = first + 4 * edge_or_any(count, rng);
    let number = rng.pick(&[Q, Q + 1, get(record, offset) % Q + Q, P, u32::MAX]);
    put(record, offset, number);
}

/// The parties that are not in HOLD.
fn outsiders(draft: &Draft) -> Vec<Party> {
    let hold = &draft.run.sets.as_ref().expect("the sets are fixed").hold;
    (1..=draft.params().n).filter(|party| !hold.contains(party)).collect()
}

/// Blames a dealer who has not wronged the sender.
fn blame_falsely(draft: &Draft, record: &mut [u8], rng: &mut Rng) {
    let holder = Party::from(record[2]);
    let blameless: Vec<Party> =
        (1..=draft.params().n).filter(|&i| !draft.run.has_wronged(i, holder)).collect();
    set_bit(record, rng.pick(&blameless) - 1);
}

/// Sets a bit of the mask of a VE record, whose last byte has the lowest bits.
pub fn set_bit(record: &mut [u8], bit: u32) {
    let place = record.len() - 1 - bit as usize / 8;
    record[place] |= 1 << (bit % 8);
}

/// Changes one response number.
fn break_response(record: &mut [u8], rng: &mut Rng) {
    let offset = 4 + 4 * edge_or_any((record.len() - 4) / 4, rng);
    let off = rng.pick(&[1, 2, -1]);
    shift_number(record, offset, off);
}

/// Adds to a scalar in a record, modulo q.
pub fn shift_number(record: &mut [u8], offset: usize, off: i64) {
    let shifted = Scalar::of(i64::from(get(record, offset)) + off);
    put(record, offset, shifted.number());
}

/// A place among so many: often the first or the last.
fn edge_or_any(count: usize, rng: &mut Rng) -> usize {
    match rng.below(3) {
        0 => 0,
        1 => count - 1,
        _ => rng.below(count),
    }
}

/// A whole record of a tag that the stage does not take.
pub fn random_alien(draft: &Draft, rng: &mut Rng) -> Vec<u8> {
    let tag = rng.pick(&draft.alien_tags());
    alien(draft, tag, rng)
}

/// A whole record of a tag, with whatever contents.
pub fn alien(draft: &Draft, tag: Tag, rng: &mut Rng) -> Vec<u8> {
    match tag {
        Tag::Su => alien_setup(draft, rng),
        Tag::Sx => as_sx(alien_setup(draft, rng)),
        Tag::De => draft.committee.de(rng.between(1, draft.params().n)),
        Tag::Ch => draft.committee.ch(rng),
        Tag::Cs => draft.committee.cs(random_scalar(rng), rng),
        _ => {
            let body = rng.bytes(draft.length(tag) - 2);
            [tag.letters().as_slice(), &body].concat()
        }
    }
}

/// An SU of its own length: within the bounds or with any t. Its S may be 1 where
/// the draft has keys that are the identity among its refused setups.
fn alien_setup(draft: &Draft, rng: &mut Rng) -> Vec<u8> {
    let wide = draft.most_parties == MOST_PARTIES && rng.chance(50);
    let params = if wide { random_wide_params(rng) } else { random_params(None, rng) };
    let any_t = rng.pick(&[0, 1, 2, 11, 64, 255]);
    let t = if rng.chance(60) { params.t as u8 } else { any_t };
    let mut record = [b'S', b'U', params.n as u8, t, params.a as u8, 0].to_vec();
    record.resize(setup_length(t), 1);
    if draft.identity_keys && rng.chance(50) {
        put_identity_key(&mut record);
    }
    record
}
