//! The secrets of a committee, and the honest records made from them by the writers.

use super::bytes::put;
use crate::arith::{Element, Scalar, Q};
use crate::params::{party_point, Params, Party, MOST_NARROW, MOST_PARTIES};
use crate::records::{dealing_length, setup_length, Setup, Tag};
use crate::refusal::Refusal;
use crate::rng::Rng;
use crate::run::Run;
use crate::weights::WeightTable;
use crate::writers::{write_de, write_re, write_su, write_ve};

/// n, t and a, within the bounds or not.
pub type Triple = (u8, u8, u8);

/// Where S stands in SU; S_1 to S_t follow.
pub const KEY_PLACE: usize = 6;

#[derive(Clone)]
pub struct Committee {
    pub params: Params,
    /// s.
    pub secret: Scalar,
    /// F(1) to F(t).
    pub key_values: Vec<Scalar>,
    /// For each party, the values of its H at the committed points.
    pub dealings: Vec<Vec<Scalar>>,
    /// How many dealings it signs with: n-t, or more where its run waits for them.
    pub heard: usize,
    weights: WeightTable,
}

/// A scalar, now and then one at the edge.
pub fn random_scalar(rng: &mut Rng) -> Scalar {
    let edges = [Scalar::ZERO, Scalar::ONE, Scalar::of(-1)];
    if rng.chance(8) {
        rng.pick(&edges)
    } else {
        Scalar::of(i64::from(rng.between(0, Q - 1)))
    }
}

fn random_scalars(count: usize, rng: &mut Rng) -> Vec<Scalar> {
    (0..count).map(|_| random_scalar(rng)).collect()
}

/// Parameters within the bounds of document 01, with this packing if there is one.
pub fn random_params(packing: Option<u32>, rng: &mut Rng) -> Params {
    loop {
        let a = packing.unwrap_or_else(|| rng.between(1, 15)) as u8;
        let (n, t) = (rng.between(4, 32) as u8, rng.between(1, 10) as u8);
        if let Some(params) = Params::new(n, t, a) {
            return params;
        }
    }
}

/// Parameters within the bounds that document 01 had not.
pub fn random_wide_params(rng: &mut Rng) -> Params {
    loop {
        let n = rng.between(MOST_NARROW + 1, MOST_PARTIES) as u8;
        let (t, a) = (rng.between(1, 21) as u8, rng.between(1, 31) as u8);
        if let Some(params) = Params::new(n, t, a) {
            return params;
        }
    }
}

/// Whether the parameters were outside the bounds of document 01 and are within
/// those of request 2.2.
pub fn let_in_later((n, t, a): Triple) -> bool {
    Params::new(n, t, a).is_some_and(|params| params.n > MOST_NARROW)
}

/// The record that a writer makes in a buffer of this length.
fn written(length: usize, writer: impl FnOnce(&mut [u8]) -> Result<(), Refusal>) -> Vec<u8> {
    let mut buffer = vec![0; length];
    writer(&mut buffer).expect("the request is a good one");
    buffer
}

pub fn as_numbers(scalars: &[Scalar]) -> Vec<u32> {
    scalars.iter().map(|scalar| scalar.number()).collect()
}

pub fn as_bytes(params: Params) -> Triple {
    (params.n as u8, params.t as u8, params.a as u8)
}

/// The CS with the challenges of a CH.
pub fn as_cs(ch: &[u8], shift: u32) -> Vec<u8> {
    [Tag::Cs.letters(), &ch[2..4], &shift.to_be_bytes(), &ch[4..]].concat()
}

/// The SX that an SU is with the other tag.
pub fn as_sx(mut su: Vec<u8>) -> Vec<u8> {
    su[..2].copy_from_slice(Tag::Sx.letters());
    su
}

/// Puts 1 for S in an SU.
pub fn put_identity_key(su: &mut [u8]) {
    put(su, KEY_PLACE, Element::ONE.number());
}

/// The SU with S = 1.
pub fn with_identity_key(mut su: Vec<u8>) -> Vec<u8> {
    put_identity_key(&mut su);
    su
}

impl Committee {
    pub fn random(params: Params, rng: &mut Rng) -> Committee {
        Committee {
            params,
            secret: random_scalar(rng),
            key_values: random_scalars(params.t as usize, rng),
            dealings: (0..params.n).map(|_| random_scalars(params.quorum(), rng)).collect(),
            heard: params.majority(),
            weights: WeightTable::default(),
        }
    }

    /// F(j).
    pub fn key_share(&self, j: Party) -> Scalar {
        let mut values = vec![self.secret; self.params.a as usize];
        values.extend(&self.key_values);
        self.weights.scalar_at(&self.params.key_points(), &values, party_point(j))
    }

    /// H_i(j).
    pub fn share(&self, i: Party, j: Party) -> Scalar {
        let values = &self.dealings[(i - 1) as usize];
        self.weights.scalar_at(&self.params.committed_points(), values, party_point(j))
    }

    /// The shares for j, by dealer number.
    pub fn shares_for(&self, j: Party) -> Vec<u32> {
        (1..=self.params.n).map(|i| self.share(i, j).number()).collect()
    }

    /// Is s 0, and so S the identity? Lots may draw it; request 2.3 refuses it.
    pub fn has_identity_key(&self) -> bool {
        self.secret == Scalar::ZERO
    }

    /// What SU says.
    pub fn setup(&self) -> Setup {
        let holder_keys = self.key_values.iter().copied().map(Element::of).collect();
        let public_key = Element::of(self.secret);
        Setup { waits: false, params: self.params, public_key, holder_keys }
    }

    /// b.
    pub fn combinations(&self) -> u32 {
        self.params.combinations_of(self.heard)
    }

    /// The length of a record of this tag.
    pub fn length(&self, tag: Tag) -> usize {
        let length = tag.length(&self.params, Some(self.combinations()));
        length.expect("with b every tag has a length")
    }

    /// SU. The writer refuses s = 0; the record is then that of s = 1 but for S.
    pub fn su(&self) -> Vec<u8> {
        if self.has_identity_key() {
            let other = Committee { secret: Scalar::ONE, ..self.clone() };
            return with_identity_key(other.su());
        }
        let (params, key_values) = (as_bytes(self.params), as_numbers(&self.key_values));
        let length = setup_length(self.params.t as u8);
        written(length, |buffer| write_su(params, self.secret.number(), &key_values, buffer))
    }

    /// SX with what SU says.
    pub fn sx(&self) -> Vec<u8> {
        as_sx(self.su())
    }

    pub fn de(&self, i: Party) -> Vec<u8> {
        let values = as_numbers(&self.dealings[(i - 1) as usize]);
        let length = dealing_length(&self.params);
        written(length, |buffer| write_de(as_bytes(self.params), i as u8, &values, buffer))
    }

    pub fn ve(&self, run: &Run, j: Party) -> Vec<u8> {
        written(self.length(Tag::Ve), |buffer| write_ve(run, j as u8, buffer))
    }

    pub fn ch(&self, rng: &mut Rng) -> Vec<u8> {
        let count = (self.params.a * self.combinations()) as usize;
        let challenges = as_numbers(&random_scalars(count, rng));
        let numbers = challenges.iter().flat_map(|number| number.to_be_bytes());
        Tag::Ch.letters().iter().copied().chain([0, 0]).chain(numbers).collect()
    }

    pub fn cs(&self, shift: Scalar, rng: &mut Rng) -> Vec<u8> {
        as_cs(&self.ch(rng), shift.number())
    }

    pub fn re(&self, run: &Run, j: Party) -> Vec<u8> {
        let (key_share, shares) = (self.key_share(j).number(), self.shares_for(j));
        written(self.length(Tag::Re), |buffer| write_re(run, j as u8, key_share, &shares, buffer))
    }
}
