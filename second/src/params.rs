//! The parameters n, t, a, the numbers that follow from them, and the points
//! at which polynomials are known. Written from documents 01 and 02 alone.

use crate::arith::Scalar;

/// The number of a party: 1 to n.
pub type Party = u32;

/// The most parties that a committee may have (request 2.2).
pub const MOST_PARTIES: u32 = 64;

/// Up to so many parties the mask of VE has four bytes, and above them eight.
pub const MOST_NARROW: u32 = 32;

/// Parameters within the bounds: those of document 01, with request 2.2's for n.
#[derive(Clone, Copy, Debug, PartialEq, Eq)]
pub struct Params {
    pub n: u32,
    pub t: u32,
    pub a: u32,
}

impl Params {
    /// The parameters; none if they are outside the bounds.
    pub fn new(n: u8, t: u8, a: u8) -> Option<Params> {
        let (n, t, a) = (u32::from(n), u32::from(t), u32::from(a));
        let within = t >= 1 && a >= 1 && n <= MOST_PARTIES && n + 1 >= 3 * t + 2 * a;
        within.then_some(Params { n, t, a })
    }

    /// The number of responses that decide every φ (document 01: need).
    pub fn quorum(&self) -> usize {
        (self.t + 2 * self.a - 1) as usize
    }

    /// The number b of combinations of so many dealings: all but t.
    pub fn combinations_of(&self, dealings: usize) -> u32 {
        dealings as u32 - self.t
    }

    /// The number n-t: the fewest dealings that are enough, and the complaint rows
    /// that a run waits for.
    pub fn majority(&self) -> usize {
        (self.n - self.t) as usize
    }

    /// How many bytes the mask of VE has.
    pub fn mask_length(&self) -> usize {
        if self.n <= MOST_NARROW {
            4
        } else {
            8
        }
    }

    pub fn has_party(&self, number: Party) -> bool {
        (1..=self.n).contains(&number)
    }

    /// Where a dealing is committed: 1-a to t+a-1.
    pub fn committed_points(&self) -> Vec<Scalar> {
        let (t, a) = (i64::from(self.t), i64::from(self.a));
        (1 - a..=t + a - 1).map(Scalar::of).collect()
    }

    /// Where the key is known: 1-a to 0, then 1 to t.
    pub fn key_points(&self) -> Vec<Scalar> {
        let (t, a) = (i64::from(self.t), i64::from(self.a));
        (1 - a..=t).map(Scalar::of).collect()
    }

    /// The points of slots 1 to a.
    pub fn slot_points(&self) -> Vec<Scalar> {
        (1..=self.a).map(slot_point).collect()
    }
}

/// The point 1-k of slot k (document 01: packed place).
pub fn slot_point(k: u32) -> Scalar {
    Scalar::of(1 - i64::from(k))
}

/// The point of a party.
pub fn party_point(party: Party) -> Scalar {
    Scalar::of(i64::from(party))
}
