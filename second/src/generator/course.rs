//! How a draft runs its course: good records one after another, with refused
//! ones before them.

use super::draft::Draft;
use super::spoil;
use crate::refusal::Refusal;
use crate::rng::Rng;
use crate::run::Stage;

impl Draft {
    /// Adds a refused record of any kind that the stage allows.
    pub fn make_noise(&mut self, rng: &mut Rng) {
        let (record, refusal) = spoil::random_fault(self, rng);
        self.refuse(&record, refusal);
    }

    /// Adds a refused record of a tag that the stage does not take.
    pub fn add_alien(&mut self, rng: &mut Rng) {
        let record = spoil::random_alien(self, rng);
        self.refuse(&record, Refusal::Stage);
    }

    /// Adds the next good record, with refused ones before it as the noise has it.
    pub fn step(&mut self, rng: &mut Rng) {
        while rng.chance(self.noise) {
            self.make_noise(rng);
        }
        let record = self.next_record(rng);
        self.accept(&record);
    }

    /// Goes on until this stage, or the end.
    pub fn go_to(&mut self, stage: Stage, rng: &mut Rng) {
        while self.run.stage < stage && !self.at_end() {
            self.step(rng);
        }
    }

    /// So many records at most.
    pub fn go_on(&mut self, steps: usize, rng: &mut Rng) {
        for _ in 0..steps {
            if !self.at_end() {
                self.step(rng);
            }
        }
    }
}

/// The bytes of a draft that goes on to its end.
pub fn completed(mut draft: Draft, rng: &mut Rng) -> Vec<u8> {
    draft.go_to(Stage::Done, rng);
    draft.bytes
}

/// The bytes that a draft adds when it goes on to its end.
pub fn rest_of(draft: &Draft, rng: &mut Rng) -> Vec<u8> {
    completed(draft.clone(), rng)[draft.bytes.len()..].to_vec()
}

/// A record of each tag that the stage does not take.
pub fn add_every_alien(draft: &mut Draft, rng: &mut Rng) {
    for tag in draft.alien_tags() {
        let record = spoil::alien(draft, tag, rng);
        draft.refuse(&record, Refusal::Stage);
    }
}

/// The bytes of a draft with every set of faults that a record can have. The
/// faults are made before the last record of each stage; after it comes a
/// record of each tag that the next stage does not take.
pub fn with_every_fault(mut draft: Draft, rng: &mut Rng) -> Vec<u8> {
    while !draft.at_end() {
        let last = is_last_of_stage(&draft, rng);
        if last {
            add_every_fault(&mut draft, rng);
        }
        draft.step(rng);
        if last {
            add_every_alien(&mut draft, rng);
        }
    }
    draft.bytes
}

/// Does the next good record end the stage?
fn is_last_of_stage(draft: &Draft, rng: &mut Rng) -> bool {
    let mut ahead = draft.clone();
    ahead.accept(&draft.next_record(rng));
    ahead.run.stage != draft.run.stage
}

fn add_every_fault(draft: &mut Draft, rng: &mut Rng) {
    for (record, refusal) in spoil::all_faults(draft, rng) {
        draft.refuse(&record, refusal);
    }
    if draft.run.stage == Stage::Responding {
        add_wronged_responses(draft, rng);
    }
}

/// Every response number in turn is off by one.
fn add_wronged_responses(draft: &mut Draft, rng: &mut Rng) {
    let good = draft.next_record(rng);
    for u in 0..draft.committee.combinations() as usize {
        let mut record = good.clone();
        spoil::shift_number(&mut record, 4 + 4 * u, 1);
        draft.refuse(&record, Refusal::Response);
    }
}
