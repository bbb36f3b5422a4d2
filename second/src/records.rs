//! The eight kinds of record, CS of request 2.1 and SX and GO of request 2.5 among
//! them: their tags, their lengths, and reading their bytes. Reading asks refusals
//! 2 to 8, and 16 of request 2.3, of the whole record, in the order 2, 3, 4, 5, 7,
//! 16, 6, 8. Written from documents 01 and 02 alone.

use crate::arith::{Element, GroupNumber, Scalar};
use crate::params::{Params, Party};
use crate::refusal::Refusal;
use std::collections::BTreeSet;

/// The first two bytes of a record (document 01: mark).
#[derive(Clone, Copy, Debug, PartialEq, Eq)]
pub enum Tag {
    Su,
    De,
    Ve,
    Ch,
    /// CH with a shift.
    Cs,
    Re,
    /// SU of a run that waits for GO.
    Sx,
    Go,
}

/// SU or SX: the setup.
#[derive(Clone, Debug, PartialEq, Eq)]
pub struct Setup {
    /// Does SX give it, so that dealings are taken until GO?
    pub waits: bool,
    pub params: Params,
    /// S.
    pub public_key: Element,
    /// S_1 to S_t.
    pub holder_keys: Vec<Element>,
}

/// DE as it stands in the record.
pub struct DealingRecord {
    pub dealer: Party,
    pub commitments: Vec<Element>,
    /// The shares of holders 1 to n.
    pub shares: Vec<Scalar>,
}

/// VE: the dealers whom a holder blames (document 01: verdict).
#[derive(Clone, Debug, PartialEq, Eq)]
pub struct Complaint {
    pub holder: Party,
    pub blamed: BTreeSet<Party>,
}

/// CH or CS: the challenges and the shift δ, which is 0 for CH.
#[derive(Clone, Debug, PartialEq, Eq)]
pub struct Challenges {
    pub shift: Scalar,
    /// e(u,k): for each u, those of slots 1 to a.
    pub rows: Vec<Vec<Scalar>>,
}

/// RE: the response numbers of a holder, u from 1 to b.
#[derive(Clone, Debug, PartialEq, Eq)]
pub struct Response {
    pub holder: Party,
    pub numbers: Vec<Scalar>,
}

impl Tag {
    pub const ALL: [Tag; 8] =
        [Tag::Su, Tag::De, Tag::Ve, Tag::Ch, Tag::Cs, Tag::Re, Tag::Sx, Tag::Go];

    pub fn letters(self) -> &'static [u8; 2] {
        match self {
            Tag::Su => b"SU",
            Tag::De => b"DE",
            Tag::Ve => b"VE",
            Tag::Ch => b"CH",
            Tag::Cs => b"CS",
            Tag::Re => b"RE",
            Tag::Sx => b"SX",
            Tag::Go => b"GO",
        }
    }

    /// The letters as text.
    pub fn name(self) -> String {
        String::from_utf8_lossy(self.letters()).into_owned()
    }

    /// The tag that the bytes begin with.
    pub fn of(bytes: &[u8]) -> Option<Tag> {
        Tag::ALL.into_iter().find(|tag| bytes.starts_with(tag.letters()))
    }

    /// The length of a record of this tag with b combinations; none where it needs b
    /// and there is none. That of SU and SX is for the t of the parameters.
    pub fn length(self, params: &Params, b: Option<u32>) -> Option<usize> {
        match self {
            Tag::Su | Tag::Sx => Some(setup_length(params.t as u8)),
            Tag::De => Some(dealing_length(params)),
            Tag::Ve => Some(complaint_length(params)),
            Tag::Ch | Tag::Cs => b.map(|b| challenges_length(self, params, b)),
            Tag::Re => b.map(response_length),
            Tag::Go => Some(GO_LENGTH),
        }
    }
}

/// The length of GO: its tag alone.
pub const GO_LENGTH: usize = 2;

/// The length of SU and of SX with this t.
pub fn setup_length(t: u8) -> usize {
    4 * usize::from(t) + 10
}

pub fn dealing_length(params: &Params) -> usize {
    4 + 4 * params.quorum() + 4 * params.n as usize
}

fn complaint_length(params: &Params) -> usize {
    4 + params.mask_length()
}

/// The length of CH, and that of CS, which has one number more.
fn challenges_length(tag: Tag, params: &Params, b: u32) -> usize {
    let numbers = (params.a * b) as usize;
    if tag == Tag::Cs {
        8 + 4 * numbers
    } else {
        4 + 4 * numbers
    }
}

fn response_length(b: u32) -> usize {
    4 + 4 * b as usize
}

/// The four-byte numbers, high byte first, that the bytes are made of.
fn numbers(bytes: &[u8]) -> Vec<u32> {
    let number = |four: &[u8]| four.iter().fold(0, |sum, &byte| sum * 256 + u32::from(byte));
    bytes.chunks_exact(4).map(number).collect()
}

fn group_numbers(bytes: &[u8]) -> Vec<GroupNumber> {
    numbers(bytes).into_iter().map(GroupNumber::read).collect()
}

/// The elements that numbers are read as, the identity or others.
fn elements(read: &[GroupNumber]) -> Result<Vec<Element>, Refusal> {
    let element = |number: &GroupNumber| match *number {
        GroupNumber::NoElement => Err(Refusal::Element),
        GroupNumber::Identity => Ok(Element::ONE),
        GroupNumber::Other(element) => Ok(element),
    };
    read.iter().map(element).collect()
}

/// S may be any element but the identity.
fn check_key(read: GroupNumber) -> Result<(), Refusal> {
    match read {
        GroupNumber::Identity => Err(Refusal::IdentityKey),
        _ => Ok(()),
    }
}

fn scalars(bytes: &[u8]) -> Result<Vec<Scalar>, Refusal> {
    let read = |number| Scalar::read(number).ok_or(Refusal::Scalar);
    numbers(bytes).into_iter().map(read).collect()
}

fn check_length(bytes: &[u8], length: usize) -> Result<(), Refusal> {
    if bytes.len() == length {
        Ok(())
    } else {
        Err(Refusal::Length)
    }
}

fn check_reserved(bytes: &[u8]) -> Result<(), Refusal> {
    if bytes.iter().all(|&byte| byte == 0) {
        Ok(())
    } else {
        Err(Refusal::Reserved)
    }
}

/// A party number of one byte.
fn party(byte: u8, params: &Params) -> Result<Party, Refusal> {
    let number = Party::from(byte);
    if params.has_party(number) {
        Ok(number)
    } else {
        Err(Refusal::Party)
    }
}

/// SU, and SX, which differs by its tag alone.
pub fn read_setup(tag: Tag, bytes: &[u8]) -> Result<Setup, Refusal> {
    if bytes.len() < 6 {
        return Err(Refusal::Length);
    }
    let (n, t, a) = (bytes[2], bytes[3], bytes[4]);
    check_length(bytes, setup_length(t))?;
    check_reserved(&bytes[5..6])?;
    let params = Params::new(n, t, a).ok_or(Refusal::Bounds)?;
    let read = group_numbers(&bytes[6..]);
    let keys = elements(&read)?;
    check_key(read[0])?;
    let waits = tag == Tag::Sx;
    Ok(Setup { waits, params, public_key: keys[0], holder_keys: keys[1..].to_vec() })
}

pub fn read_dealing(bytes: &[u8], params: &Params) -> Result<DealingRecord, Refusal> {
    check_length(bytes, dealing_length(params))?;
    check_reserved(&bytes[3..4])?;
    let dealer = party(bytes[2], params)?;
    let (committed, shared) = bytes[4..].split_at(4 * params.quorum());
    let commitments = elements(&group_numbers(committed))?;
    let shares = scalars(shared)?;
    Ok(DealingRecord { dealer, commitments, shares })
}

pub fn read_complaint(bytes: &[u8], params: &Params) -> Result<Complaint, Refusal> {
    check_length(bytes, complaint_length(params))?;
    check_reserved(&bytes[3..4])?;
    let holder = party(bytes[2], params)?;
    let blamed = masked(&bytes[4..]);
    if blamed.iter().any(|&dealer| dealer > params.n) {
        return Err(Refusal::Mask);
    }
    Ok(Complaint { holder, blamed })
}

/// The parties in a mask: its last byte holds 1 to 8, the lowest bit first, the
/// byte before it 9 to 16, and so on.
pub fn masked(mask: &[u8]) -> BTreeSet<Party> {
    let bytes = (0..).zip(mask.iter().rev());
    let in_byte = |(place, byte): (Party, &u8)| {
        let (byte, before) = (*byte, 8 * place);
        (1..=8).filter(move |bit| byte >> (bit - 1) & 1 == 1).map(move |bit| before + bit)
    };
    bytes.flat_map(in_byte).collect()
}

/// CH, and CS, whose first scalar is the shift, of a run with b combinations.
pub fn read_challenges(
    tag: Tag,
    bytes: &[u8],
    params: &Params,
    b: u32,
) -> Result<Challenges, Refusal> {
    check_length(bytes, challenges_length(tag, params, b))?;
    check_reserved(&bytes[2..4])?;
    let scalars = scalars(&bytes[4..])?;
    let (shift, challenges) = match tag {
        Tag::Cs => (scalars[0], &scalars[1..]),
        _ => (Scalar::ZERO, &scalars[..]),
    };
    let rows = challenges.chunks(params.a as usize).map(<[Scalar]>::to_vec).collect();
    Ok(Challenges { shift, rows })
}

/// RE of a run with b combinations.
pub fn read_response(bytes: &[u8], params: &Params, b: u32) -> Result<Response, Refusal> {
    check_length(bytes, response_length(b))?;
    check_reserved(&bytes[3..4])?;
    let holder = party(bytes[2], params)?;
    let numbers = scalars(&bytes[4..])?;
    Ok(Response { holder, numbers })
}

/// GO says nothing but its tag.
pub fn read_go(bytes: &[u8]) -> Result<(), Refusal> {
    check_length(bytes, GO_LENGTH)
}
