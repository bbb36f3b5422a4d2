//! The stream of masks whose members are counted (request 2.4): its format, reading
//! it, answering it.
//!
//! A stream is entries of nine bytes end to end: a number n of parties (1 byte, 0 to
//! 255) and a mask (8, high byte first). Party i, from 1 to 64, is in the set where bit
//! i-1 is set. The answer to an entry is a line `count BITS SIZE SUM`:
//! - BITS: how many bits of the mask are set
//! - SIZE: how many of the parties from 1 to n are in the set
//! - SUM: that size for 1, 2, .., n parties, added up
//!
//! Where fewer bytes are left than an entry has, the rest is one broken entry. A
//! stream with more bytes than a log may have is not read.
//!
//! Nothing is counted in the word: a mask is read as the sorted set of its parties,
//! and the three numbers come from that set.

use crate::params::Party;
use crate::records::masked;
use crate::report::{LONG, LONGEST_LOG};
use crate::requests::BROKEN;
use std::collections::BTreeSet;

/// The longest stream that is read: as long as a log.
pub const LONGEST_STREAM: usize = LONGEST_LOG;

/// How many bytes an entry has.
pub const ENTRY_LENGTH: usize = 9;

/// An entry of a stream.
#[derive(Clone, Debug, PartialEq, Eq)]
pub struct Entry {
    pub n: Party,
    /// The parties in the mask, above n too.
    pub members: BTreeSet<Party>,
}

impl Entry {
    /// The entry that has just these bytes; none if they are cut.
    pub fn read(bytes: &[u8]) -> Option<Entry> {
        match bytes {
            [n, mask @ ..] if bytes.len() == ENTRY_LENGTH => {
                Some(Entry { n: Party::from(*n), members: masked(mask) })
            }
            _ => None,
        }
    }

    pub fn bits(&self) -> usize {
        self.members.len()
    }

    pub fn size(&self) -> usize {
        self.up_to_n().count()
    }

    /// A member i is one of the first i parties, of the first i+1, and so on up to n.
    pub fn sum(&self) -> u32 {
        self.up_to_n().map(|i| self.n - i + 1).sum()
    }

    fn up_to_n(&self) -> impl Iterator<Item = &Party> {
        self.members.range(..=self.n)
    }

    fn line(&self) -> String {
        format!("count {} {} {}\n", self.bits(), self.size(), self.sum())
    }
}

/// The bytes of an entry.
pub fn entry(n: u8, mask: u64) -> Vec<u8> {
    [&[n][..], &mask.to_be_bytes()].concat()
}

/// The answers to a stream, a line each.
pub fn answer_stream(stream: &[u8]) -> String {
    if stream.len() > LONGEST_STREAM {
        return LONG.to_string();
    }
    stream.chunks(ENTRY_LENGTH).map(line_for).collect()
}

/// The answer to an entry of a stream, whole or cut.
fn line_for(bytes: &[u8]) -> String {
    Entry::read(bytes).map_or_else(|| BROKEN.to_string(), |entry| entry.line())
}
