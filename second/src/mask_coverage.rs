//! What streams of masks show (request 2.4), each in words.

use crate::coverage::{counted_shown, never_shown};
use crate::masks::{Entry, ENTRY_LENGTH, LONGEST_STREAM};
use crate::params::{Party, MOST_PARTIES};
use std::collections::BTreeSet;

/// How many bits, one after another, are alike in the masks that alternate.
const RUNS: [u32; 6] = [1, 2, 4, 8, 16, 32];

/// How many different masks there should be.
const ENOUGH: usize = 5_000;

/// What a stream as a whole can be.
const EMPTY: &str = "an empty stream of masks";
const CUT: &str = "a mask that breaks off";
const TOO_LONG: &str = "a stream of masks that is too long";

#[derive(Clone, Default)]
pub struct MaskCoverage {
    pub streams: usize,
    /// How many entries were read.
    pub entries: usize,
    /// The sets that were read, each once.
    pub sets: BTreeSet<BTreeSet<Party>>,
    /// What some stream shows, in words.
    pub shown: BTreeSet<String>,
}

impl MaskCoverage {
    pub fn add(&mut self, stream: &[u8]) {
        self.streams += 1;
        if stream.len() > LONGEST_STREAM {
            self.shown.insert(TOO_LONG.to_string());
            return;
        }
        if stream.is_empty() {
            self.shown.insert(EMPTY.to_string());
        }
        for bytes in stream.chunks(ENTRY_LENGTH) {
            self.add_entry(Entry::read(bytes));
        }
        if self.sets.len() >= ENOUGH {
            self.shown.insert(many());
        }
    }

    /// Adds an entry; none is a cut one.
    fn add_entry(&mut self, read: Option<Entry>) {
        let Some(entry) = read else {
            self.shown.insert(CUT.to_string());
            return;
        };
        self.entries += 1;
        self.shown.extend(shown_by(&entry));
        self.sets.insert(entry.members);
    }

    /// What never occurs, in words.
    pub fn missing(&self) -> Vec<String> {
        never_shown(wanted(), &self.shown)
    }

    /// The counts, a line each.
    pub fn lines(&self) -> Vec<String> {
        vec![
            format!("streams of masks {}", self.streams),
            format!("masks {}, different ones {}", self.entries, self.sets.len()),
            counted_shown("masks", &wanted(), &self.shown),
        ]
    }
}

/// Everything that some stream should show.
pub fn wanted() -> Vec<String> {
    let mut wanted: Vec<String> = (0..=u8::MAX).map(|n| parties(n.into())).collect();
    wanted.extend((0..MOST_PARTIES).map(members_above));
    wanted.extend((0..=MOST_PARTIES as usize).map(bits));
    wanted.extend((0..MOST_PARTIES).map(alone));
    wanted.extend((0..MOST_PARTIES).map(absent));
    wanted.extend(RUNS.map(|run| alternating(run, true)));
    wanted.extend(RUNS.map(|run| alternating(run, false)));
    wanted.push(many());
    wanted.extend([EMPTY, CUT, TOO_LONG].map(str::to_string));
    wanted
}

fn parties(n: Party) -> String {
    format!("a mask with n = {n}")
}

fn members_above(n: Party) -> String {
    format!("members above n = {n}")
}

fn bits(count: usize) -> String {
    format!("a mask with {count} bits set")
}

fn alone(bit: u32) -> String {
    format!("bit {bit} alone with n = {MOST_PARTIES}")
}

fn absent(bit: u32) -> String {
    format!("every bit but bit {bit}")
}

fn alternating(run: u32, from_bit_0: bool) -> String {
    let first = if from_bit_0 { "set" } else { "not set" };
    format!("turns of {run} bits, the lowest {first}")
}

fn many() -> String {
    format!("{ENOUGH} different masks")
}

/// What an entry shows.
fn shown_by(entry: &Entry) -> Vec<String> {
    let mut shown = vec![parties(entry.n), bits(entry.bits())];
    if entry.size() < entry.bits() {
        shown.push(members_above(entry.n));
    }
    if entry.n == MOST_PARTIES {
        shown.extend(only(entry.members.iter().copied()).map(|party| alone(party - 1)));
    }
    let others = (1..=MOST_PARTIES).filter(|party| !entry.members.contains(party));
    shown.extend(only(others).map(|party| absent(party - 1)));
    shown.extend(RUNS.iter().filter_map(|&run| alternation(&entry.members, run)));
    shown
}

/// The party where there is just one.
fn only(mut parties: impl Iterator<Item = Party>) -> Option<Party> {
    let first = parties.next();
    first.filter(|_| parties.next().is_none())
}

/// The words for a set that has every other run of so many parties.
fn alternation(members: &BTreeSet<Party>, run: u32) -> Option<String> {
    let in_odd_run = |party: &&Party| (*party - 1) / run % 2 == 1;
    let odd = members.iter().filter(in_odd_run).count();
    match (members.len(), odd) {
        (32, 0) => Some(alternating(run, true)),
        (32, 32) => Some(alternating(run, false)),
        _ => None,
    }
}
