//! The writers of SU, DE, VE and RE; CH, CS, SX and GO have none. Each fills a
//! buffer of exactly the record's length, or refuses and leaves it alone. VE and RE
//! are written for runs begun by SU and by SX alike. The order of refusals is
//! that of document 01 with request 2.3's 16: 11, 4, 5, 14, 10, 6, 16, 9. Written
//! from documents 01 and 02 alone.

use crate::arith::{Element, Scalar};
use crate::params::{party_point, Params, Party};
use crate::records::Tag;
use crate::refusal::Refusal;
use crate::run::{Run, Stage};
use crate::weights::WeightTable;

/// SU from n, t, a, s and F(1) to F(t).
pub fn write_su(
    (n, t, a): (u8, u8, u8),
    s: u32,
    key_values: &[u32],
    buffer: &mut [u8],
) -> Result<(), Refusal> {
    let params = Params::new(n, t, a).ok_or(Refusal::Bounds)?;
    check_count(key_values, params.t as usize)?;
    let secret = scalar(s)?;
    let key_values = scalars(key_values)?;
    check_secret(secret)?;
    let mut record = begin(Tag::Su, &[n, t, a, 0]);
    put_number(&mut record, Element::of(secret).number());
    for value in key_values {
        put_number(&mut record, Element::of(value).number());
    }
    fill(buffer, &record)
}

/// DE from n, t, a, i and the values of H_i at its committed points.
pub fn write_de(
    (n, t, a): (u8, u8, u8),
    i: u8,
    values: &[u32],
    buffer: &mut [u8],
) -> Result<(), Refusal> {
    let params = Params::new(n, t, a).ok_or(Refusal::Bounds)?;
    check_party(&params, i)?;
    check_count(values, params.quorum())?;
    let values = scalars(values)?;
    let mut record = begin(Tag::De, &[i, 0]);
    for &value in &values {
        put_number(&mut record, Element::of(value).number());
    }
    let (points, weights) = (params.committed_points(), WeightTable::default());
    let holders: Vec<Scalar> = (1..=params.n).map(party_point).collect();
    weights.prepare(&points, &holders);
    for holder in holders {
        let share = weights.scalar_at(&points, &values, holder);
        put_number(&mut record, share.number());
    }
    fill(buffer, &record)
}

/// VE from a run and j, blaming exactly the accepted dealers whose share for j
/// is not valid.
pub fn write_ve(run: &Run, j: u8, buffer: &mut [u8]) -> Result<(), Refusal> {
    check_stage(run, Stage::Complaining)?;
    let params = run.params();
    check_party(&params, j)?;
    let blamed = (1..=params.n).filter(|&dealer| run.has_wronged(dealer, Party::from(j)));
    let mut record = begin(Tag::Ve, &[j, 0]);
    record.extend(mask(blamed, params.mask_length()));
    fill(buffer, &record)
}

/// A mask of so many bytes: parties 1 to 8 stand in the last, the lowest bit first.
fn mask(parties: impl Iterator<Item = Party>, length: usize) -> Vec<u8> {
    let mut mask = vec![0; length];
    for party in parties {
        let place = (party - 1) as usize;
        mask[length - 1 - place / 8] |= 1 << (place % 8);
    }
    mask
}

/// RE from a run, j, F(j) and n shares by dealer number, of which only those
/// of QUAL are read.
pub fn write_re(
    run: &Run,
    j: u8,
    key_share: u32,
    shares: &[u32],
    buffer: &mut [u8],
) -> Result<(), Refusal> {
    check_stage(run, Stage::Responding)?;
    let params = run.params();
    check_party(&params, j)?;
    let sets = run.sets.as_ref().expect("the sets are fixed at stage 4");
    let b = run.combinations().expect("b is fixed at stage 4");
    if !sets.hold.contains(&Party::from(j)) {
        return Err(Refusal::Outsider);
    }
    check_count(shares, params.n as usize)?;
    let key_share = scalar(key_share)?;
    let mut qual_shares = Vec::new();
    for &dealer in &sets.qual {
        qual_shares.push((dealer, scalar(shares[(dealer - 1) as usize])?));
    }
    let mut record = begin(Tag::Re, &[j, 0]);
    for u in 1..=b {
        let response = combine(&qual_shares, u) + run.challenge_of(u, Party::from(j)) * key_share;
        put_number(&mut record, response.number());
    }
    fill(buffer, &record)
}

/// The sum over dealers i of i^(u-1) × share.
fn combine(shares: &[(Party, Scalar)], u: u32) -> Scalar {
    let terms = shares.iter().map(|&(dealer, share)| party_point(dealer).power(u - 1) * share);
    terms.fold(Scalar::ZERO, |sum, term| sum + term)
}

fn check_stage(run: &Run, stage: Stage) -> Result<(), Refusal> {
    if run.stage == stage {
        Ok(())
    } else {
        Err(Refusal::Stage)
    }
}

fn check_party(params: &Params, number: u8) -> Result<(), Refusal> {
    if params.has_party(Party::from(number)) {
        Ok(())
    } else {
        Err(Refusal::Party)
    }
}

fn check_count(list: &[u32], count: usize) -> Result<(), Refusal> {
    if list.len() == count {
        Ok(())
    } else {
        Err(Refusal::List)
    }
}

/// With s = 0 the key 4^s would be the identity.
fn check_secret(secret: Scalar) -> Result<(), Refusal> {
    if secret == Scalar::ZERO {
        Err(Refusal::IdentityKey)
    } else {
        Ok(())
    }
}

fn scalar(number: u32) -> Result<Scalar, Refusal> {
    Scalar::read(number).ok_or(Refusal::Scalar)
}

fn scalars(numbers: &[u32]) -> Result<Vec<Scalar>, Refusal> {
    numbers.iter().map(|&number| scalar(number)).collect()
}

/// The tag's two letters and the one-byte fields after them.
fn begin(tag: Tag, fields: &[u8]) -> Vec<u8> {
    [tag.letters().as_slice(), fields].concat()
}

fn put_number(record: &mut Vec<u8>, number: u32) {
    record.extend(number.to_be_bytes());
}

/// Copies the record into a buffer of its length.
fn fill(buffer: &mut [u8], record: &[u8]) -> Result<(), Refusal> {
    if buffer.len() != record.len() {
        return Err(Refusal::Buffer);
    }
    buffer.copy_from_slice(record);
    Ok(())
}
