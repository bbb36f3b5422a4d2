//! The run: its stages, what it keeps, and its answer to each record.
//! Accepted records are kept in order of arrival. Written from documents 01 and
//! 02 alone; no code or algorithm is shared with the proved core.
//!
//! The shift δ of request 2.1 is one more dealing, which everyone knows: the
//! constant polynomial δ, with commitments 4^δ and the share δ for every holder.
//! It counts in every combination with the factor 1, so H_u becomes H_u + δ.
//! C_u(1-k) with it is R(u,k) × 4^δ. The numbers H_u(j) + E_u(j) × F(j) with it
//! are all δ more, and so is what they interpolate to, as the weights of
//! any points sum to 1: that is φ(u,k) + δ. Response rows are made and tested
//! without it.
//!
//! m and b of request 2.5 are not kept: both follow from the setup and the accepted
//! dealings whenever they are asked for. A run begun by SX has neither until GO.

use crate::arith::{Element, Scalar};
use crate::params::{party_point, slot_point, Params, Party};
use crate::records::{self, Complaint, Response, Setup, Tag};
use crate::refusal::Refusal;
use crate::weights::WeightTable;
use std::collections::BTreeSet;

#[derive(Clone, Copy, Debug, PartialEq, Eq, PartialOrd, Ord)]
pub enum Stage {
    Fresh = 0,
    Dealing = 1,
    Complaining = 2,
    Challenging = 3,
    Responding = 4,
    Done = 5,
    Failed = 6,
}

/// An accepted dealing.
#[derive(Clone, Debug, PartialEq, Eq)]
pub struct Dealing {
    pub dealer: Party,
    pub commitments: Vec<Element>,
    /// The holders whose share is not valid.
    pub wronged: BTreeSet<Party>,
}

/// The sets fixed by the last complaint row.
#[derive(Clone, Debug, PartialEq, Eq)]
pub struct Sets {
    pub hold: BTreeSet<Party>,
    pub qual: BTreeSet<Party>,
    pub bad: BTreeSet<Party>,
}

#[derive(Clone, Debug)]
pub struct Run {
    pub stage: Stage,
    pub setup: Option<Setup>,
    pub dealings: Vec<Dealing>,
    pub complaints: Vec<Complaint>,
    pub sets: Option<Sets>,
    /// The challenges: for each u, those of slots 1 to a.
    pub challenges: Vec<Vec<Scalar>>,
    /// δ: 0 until CS gives another.
    pub shift: Scalar,
    pub responses: Vec<Response>,
    /// At stage 5, every φ, shifted: for each u, those of slots 1 to a.
    pub signatures: Vec<Vec<Scalar>>,
    weights: WeightTable,
}

impl Stage {
    pub const ALL: [Stage; 7] = [
        Stage::Fresh,
        Stage::Dealing,
        Stage::Complaining,
        Stage::Challenging,
        Stage::Responding,
        Stage::Done,
        Stage::Failed,
    ];

    pub fn number(self) -> u8 {
        self as u8
    }
}

impl Default for Run {
    fn default() -> Run {
        Run::fresh()
    }
}

impl Run {
    /// Stage 0, every list empty, no shift.
    pub fn fresh() -> Run {
        Run {
            stage: Stage::Fresh,
            setup: None,
            dealings: Vec::new(),
            complaints: Vec::new(),
            sets: None,
            challenges: Vec::new(),
            shift: Scalar::ZERO,
            responses: Vec::new(),
            signatures: Vec::new(),
            weights: WeightTable::default(),
        }
    }

    /// Takes a record or refuses it; a refusal leaves the run as it was.
    pub fn give(&mut self, record: &[u8]) -> Result<(), Refusal> {
        let tag = Tag::of(record).ok_or(Refusal::Tag)?;
        if !self.takes().contains(&tag) {
            return Err(Refusal::Stage);
        }
        match tag {
            Tag::Su | Tag::Sx => self.take_setup(tag, record),
            Tag::De => self.take_dealing(record),
            Tag::Go => self.take_go(record),
            Tag::Ve => self.take_complaint(record),
            Tag::Ch | Tag::Cs => self.take_challenges(tag, record),
            Tag::Re => self.take_response(record),
        }
    }

    /// The tags taken at the present stage; GO is where the run waits for it.
    pub fn takes(&self) -> &'static [Tag] {
        match self.stage {
            Stage::Fresh => &[Tag::Su, Tag::Sx],
            Stage::Dealing if self.waits() => &[Tag::De, Tag::Go],
            Stage::Dealing => &[Tag::De],
            Stage::Complaining => &[Tag::Ve],
            Stage::Challenging => &[Tag::Ch, Tag::Cs],
            Stage::Responding => &[Tag::Re],
            Stage::Done | Stage::Failed => &[],
        }
    }

    /// Was the run begun by SX, and has GO not come yet?
    fn waits(&self) -> bool {
        let begun_by_sx = self.setup.as_ref().is_some_and(|setup| setup.waits);
        begun_by_sx && self.stage == Stage::Dealing
    }

    /// The number m of dealings to sign with: n-t in a run begun by SU, and in one
    /// begun by SX as many as GO finds accepted. None before the setup and while the
    /// run waits.
    pub fn dealing_count(&self) -> Option<usize> {
        match self.setup.as_ref()? {
            setup if !setup.waits => Some(setup.params.majority()),
            _ if self.waits() => None,
            _ => Some(self.dealings.len()),
        }
    }

    /// The number b of combinations, if m is known.
    pub fn combinations(&self) -> Option<u32> {
        self.dealing_count().map(|m| self.params().combinations_of(m))
    }

    /// The length of a record of this tag, if it is known: never before the setup,
    /// and for CH, CS and RE not while the run waits. SU and SX go by their own t.
    pub fn length(&self, tag: Tag) -> Option<usize> {
        tag.length(&self.setup.as_ref()?.params, self.combinations())
    }

    /// The parameters; there are some from stage 1 on.
    pub fn params(&self) -> Params {
        self.expect_setup().params
    }

    fn expect_setup(&self) -> &Setup {
        self.setup.as_ref().expect("a setup from stage 1 on")
    }

    fn expect_combinations(&self) -> u32 {
        self.combinations().expect("b is fixed from stage 2 on")
    }

    fn expect_sets(&self) -> &Sets {
        self.sets.as_ref().expect("the sets are fixed after stage 2")
    }

    fn take_setup(&mut self, tag: Tag, record: &[u8]) -> Result<(), Refusal> {
        self.setup = Some(records::read_setup(tag, record)?);
        self.stage = Stage::Dealing;
        Ok(())
    }

    fn take_dealing(&mut self, record: &[u8]) -> Result<(), Refusal> {
        let params = self.params();
        let sent = records::read_dealing(record, &params)?;
        if self.dealing_of(sent.dealer).is_some() {
            return Err(Refusal::Again);
        }
        let valid = |j: Party| {
            let share = sent.shares[(j - 1) as usize];
            Element::of(share) == self.commitment_at(&sent.commitments, party_point(j))
        };
        let wronged = (1..=params.n).filter(|&j| !valid(j)).collect();
        let (dealer, commitments) = (sent.dealer, sent.commitments);
        self.dealings.push(Dealing { dealer, commitments, wronged });
        if self.dealing_count() == Some(self.dealings.len()) {
            self.stage = Stage::Complaining;
        }
        Ok(())
    }

    fn take_go(&mut self, record: &[u8]) -> Result<(), Refusal> {
        records::read_go(record)?;
        if self.dealings.len() < self.params().majority() {
            return Err(Refusal::Early);
        }
        self.stage = Stage::Complaining;
        Ok(())
    }

    fn take_complaint(&mut self, record: &[u8]) -> Result<(), Refusal> {
        let params = self.params();
        let complaint = records::read_complaint(record, &params)?;
        let holder = complaint.holder;
        if self.complaints.iter().any(|earlier| earlier.holder == holder) {
            return Err(Refusal::Again);
        }
        if !complaint.blamed.iter().all(|&dealer| self.has_wronged(dealer, holder)) {
            return Err(Refusal::FalseBlame);
        }
        self.complaints.push(complaint);
        if self.complaints.len() == params.majority() {
            self.fix_sets();
        }
        Ok(())
    }

    fn take_challenges(&mut self, tag: Tag, record: &[u8]) -> Result<(), Refusal> {
        let b = self.expect_combinations();
        let sent = records::read_challenges(tag, record, &self.params(), b)?;
        (self.shift, self.challenges) = (sent.shift, sent.rows);
        self.stage = Stage::Responding;
        Ok(())
    }

    fn take_response(&mut self, record: &[u8]) -> Result<(), Refusal> {
        let params = self.params();
        let response = records::read_response(record, &params, self.expect_combinations())?;
        if self.responses.iter().any(|earlier| earlier.holder == response.holder) {
            return Err(Refusal::Again);
        }
        if !self.expect_sets().hold.contains(&response.holder) {
            return Err(Refusal::Outsider);
        }
        if !self.passes(&response) {
            return Err(Refusal::Response);
        }
        self.responses.push(response);
        if self.responses.len() == params.quorum() {
            self.signatures = self.work_out_signatures();
            self.stage = Stage::Done;
        }
        Ok(())
    }

    fn dealing_of(&self, dealer: Party) -> Option<&Dealing> {
        self.dealings.iter().find(|dealing| dealing.dealer == dealer)
    }

    /// Has the dealer an accepted dealing whose share for the holder is not valid?
    pub fn has_wronged(&self, dealer: Party, holder: Party) -> bool {
        self.dealing_of(dealer).is_some_and(|dealing| dealing.wronged.contains(&holder))
    }

    /// Fixes HOLD, BAD and QUAL from the accepted complaint rows.
    fn fix_sets(&mut self) {
        let hold = self.complaints.iter().map(|row| row.holder).collect();
        let bad: BTreeSet<Party> =
            self.complaints.iter().flat_map(|row| row.blamed.iter().copied()).collect();
        let dealers = self.dealings.iter().map(|dealing| dealing.dealer);
        let qual = dealers.filter(|dealer| !bad.contains(dealer)).collect();
        let too_many = bad.len() > self.params().t as usize;
        self.stage = if too_many { Stage::Failed } else { Stage::Challenging };
        self.sets = Some(Sets { hold, qual, bad });
    }

    /// C_i at a point, from the commitments of dealer i.
    fn commitment_at(&self, commitments: &[Element], point: Scalar) -> Element {
        self.weights.element_at(&self.params().committed_points(), commitments, point)
    }

    /// C_i at a point for each dealer i of QUAL.
    fn qual_commitments_at(&self, point: Scalar) -> Vec<(Party, Element)> {
        let of_dealer = |&dealer: &Party| {
            let dealing = self.dealing_of(dealer).expect("QUAL holds accepted dealers");
            (dealer, self.commitment_at(&dealing.commitments, point))
        };
        self.expect_sets().qual.iter().map(of_dealer).collect()
    }

    /// What the shift's dealing is committed to at a point. Its dealer counts as
    /// number 1, since 1^(u-1) is 1 for every u.
    fn shift_commitment_at(&self, point: Scalar) -> (Party, Element) {
        let commitments = vec![Element::of(self.shift); self.params().quorum()];
        (1, self.commitment_at(&commitments, point))
    }

    /// S_j.
    fn key_of(&self, holder: Party) -> Element {
        let setup = self.expect_setup();
        let mut values = vec![setup.public_key; setup.params.a as usize];
        values.extend(&setup.holder_keys);
        self.weights.element_at(&setup.params.key_points(), &values, party_point(holder))
    }

    /// E_u(j).
    pub fn challenge_of(&self, u: u32, holder: Party) -> Scalar {
        let values = &self.challenges[(u - 1) as usize];
        self.weights.scalar_at(&self.params().slot_points(), values, party_point(holder))
    }

    /// Does every response number of the row pass? The first that fails ends it.
    fn passes(&self, response: &Response) -> bool {
        let holder = response.holder;
        let key = self.key_of(holder);
        let commitments = self.qual_commitments_at(party_point(holder));
        let number_passes = |(u, &number): (u32, &Scalar)| {
            let challenged_key = key.power(self.challenge_of(u, holder));
            Element::of(number) == combine(&commitments, u) * challenged_key
        };
        (1..).zip(&response.numbers).all(number_passes)
    }

    /// Every φ: the accepted response numbers for u, with the share δ of the
    /// shift's dealing in each, interpolated at each slot.
    fn work_out_signatures(&self) -> Vec<Vec<Scalar>> {
        let points: Vec<Scalar> =
            self.responses.iter().map(|row| party_point(row.holder)).collect();
        let of_combination = |u: u32| -> Vec<Scalar> {
            let numbers = self.responses.iter().map(|row| row.numbers[(u - 1) as usize]);
            let values: Vec<Scalar> = numbers.map(|number| number + self.shift).collect();
            let slots = self.params().slot_points();
            slots.iter().map(|&slot| self.weights.scalar_at(&points, &values, slot)).collect()
        };
        (1..=self.expect_combinations()).map(of_combination).collect()
    }

    /// Every R(u,k) of a run past stage 2, shifted: for each u, those of slots 1 to a.
    pub fn nonces(&self) -> Vec<Vec<Element>> {
        let at_slot = |k: u32| {
            let mut commitments = self.qual_commitments_at(slot_point(k));
            commitments.push(self.shift_commitment_at(slot_point(k)));
            commitments
        };
        let by_slot: Vec<Vec<(Party, Element)>> = (1..=self.params().a).map(at_slot).collect();
        let of_combination =
            |u| by_slot.iter().map(|commitments| combine(commitments, u)).collect();
        (1..=self.expect_combinations()).map(of_combination).collect()
    }
}

/// The product over dealers i of C_i^(i^(u-1)).
fn combine(commitments: &[(Party, Element)], u: u32) -> Element {
    let factors = commitments.iter().map(|&(dealer, commitment)| {
        let exponent = party_point(dealer).power(u - 1);
        commitment.power(exponent)
    });
    factors.fold(Element::ONE, |product, factor| product * factor)
}
