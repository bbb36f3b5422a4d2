//! Reading a stream piece by piece. Numbers stand high byte first.

use crate::report::LONGEST_LOG;

/// The part of a stream, or of a piece of it, that is not read yet.
pub struct Reader<'a> {
    pub rest: &'a [u8],
}

impl<'a> Reader<'a> {
    /// So many bytes; none, and nothing is read, if fewer are left.
    pub fn bytes(&mut self, count: usize) -> Option<&'a [u8]> {
        let (taken, rest) = self.rest.split_at_checked(count)?;
        self.rest = rest;
        Some(taken)
    }

    pub fn byte(&mut self) -> Option<u8> {
        self.bytes(1).map(|bytes| bytes[0])
    }

    pub fn two(&mut self) -> Option<u16> {
        self.bytes(2).map(|bytes| u16::from_be_bytes([bytes[0], bytes[1]]))
    }

    pub fn four(&mut self) -> Option<u32> {
        let bytes = self.bytes(4)?;
        Some(u32::from_be_bytes([bytes[0], bytes[1], bytes[2], bytes[3]]))
    }

    /// The bytes behind their length in four bytes; none if they are cut.
    pub fn framed(&mut self) -> Option<&'a [u8]> {
        let length = self.four()?;
        self.bytes(length as usize)
    }

    /// A log behind its length; none if it is cut, or longer than a log may be.
    pub fn log(&mut self) -> Option<Vec<u8>> {
        let log = self.framed()?;
        (log.len() <= LONGEST_LOG).then(|| log.to_vec())
    }
}
