//! A set of writer requests in the making. Each is added with the number that
//! the writer must answer, and a different one stops the generator.

use super::committee::let_in_later;
use crate::arith::Q;
use crate::log::read_log;
use crate::params::Params;
use crate::refusal::Refusal;
use crate::requests::{Call, Request};
use crate::rng::Rng;
use crate::run::Stage;

/// The requests gathered so far.
#[derive(Default)]
pub struct RequestSet {
    pub requests: Vec<Request>,
}

impl RequestSet {
    /// Adds a request that must get this number. Where document 01 gave 4 to
    /// parameters that request 2.2 lets in, it must get another; where document 01
    /// took a key that request 2.3 refuses, it must get request 2.3's.
    pub fn add(&mut self, request: Request, number: u8) {
        let (answer, let_in) = (request.answer().0, names_let_in(&request));
        let right = match number {
            4 if let_in => answer != 4,
            _ => answer == later_number(&request, number),
        };
        assert!(right, "{answer}, not {number}: {request:?}");
        self.requests.push(request);
    }

    /// Adds the good request spoiled in every choice of one or more ways; the
    /// first in the writer's order gives the number. Later ones are made first.
    pub fn add_spoiled(
        &mut self,
        good: &Request,
        order: &[u8],
        mut spoil: impl FnMut(&mut Request, u8),
    ) {
        for numbers in choices(order) {
            let mut request = good.clone();
            for &number in numbers.iter().rev() {
                spoil(&mut request, number);
            }
            self.add(request, numbers[0]);
        }
    }
}

/// Does the request name parameters that request 2.2 lets in?
fn names_let_in(request: &Request) -> bool {
    match request.call {
        Call::Su { params, .. } | Call::De { params, .. } => let_in_later(params),
        Call::Ve { .. } | Call::Re { .. } => false,
    }
}

/// What request 2.3 makes of document 01's number: s = 0 is refused with 16 before
/// 9, and a log whose setup it refuses leaves a run at stage 0.
fn later_number(request: &Request, number: u8) -> u8 {
    match &request.call {
        Call::Su { s: 0, .. } if matches!(number, 0 | 9) => 16,
        Call::Ve { log, .. } | Call::Re { log, .. } if has_identity_key(log) => 11,
        _ => number,
    }
}

/// Has the log a setup with the identity as its key, and no other that is taken?
fn has_identity_key(log: &[u8]) -> bool {
    let reading = read_log(log);
    let mut refusals = reading.refused().map(|(_, refusal)| refusal);
    reading.run.stage == Stage::Fresh && refusals.any(|refusal| refusal == Refusal::IdentityKey)
}

/// Every choice of one or more numbers, each in the given order.
fn choices(order: &[u8]) -> Vec<Vec<u8>> {
    let chosen = |choice: usize| {
        let places = (0..order.len()).filter(move |place| choice >> place & 1 == 1);
        places.map(|place| order[place]).collect()
    };
    (1..1usize << order.len()).map(chosen).collect()
}

/// One byte too short or too long.
pub fn spoil_buffer(request: &mut Request, rng: &mut Rng) {
    let length = request.buffer_length;
    request.buffer_length = rng.pick(&[length - 1, length + 1]);
}

/// One value too few or too many.
pub fn spoil_count(list: &mut Vec<u32>, rng: &mut Rng) {
    if rng.chance(50) {
        list.push(0);
    } else {
        list.pop();
    }
}

/// A number of q or more in place of one of the list.
pub fn spoil_value(list: &mut [u32], rng: &mut Rng) {
    let place = rng.below(list.len());
    list[place] = too_large(rng);
}

/// A number of q or more.
pub fn too_large(rng: &mut Rng) -> u32 {
    rng.pick(&[Q, Q + 1, u32::MAX])
}

/// A few committees, the largest of document 01 among them.
pub fn some_params() -> Vec<Params> {
    let triples = [(4, 1, 1), (7, 1, 2), (11, 2, 3), (32, 1, 15), (32, 10, 1)];
    let within = triples.map(|(n, t, a)| Params::new(n, t, a).expect("within the bounds"));
    within.to_vec()
}
