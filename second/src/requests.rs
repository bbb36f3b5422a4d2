//! The stream of requests to the writers: its format, reading it, answering it.
//!
//! Numbers stand high byte first. A stream is requests end to end, each behind
//! its length (4 bytes). One byte gives the kind: 1 SU, 2 DE, 3 VE, 4 RE. Then:
//! - SU: n, t, a (1 byte each), s (4), count (2), values of F (4 each), buffer length (2)
//! - DE: n, t, a, i (1 each), count (2), values of H_i (4 each), buffer length (2)
//! - VE: log length (4), log, j (1), buffer length (2)
//! - RE: log length (4), log, j (1), F(j) (4), count (2), shares (4 each), buffer length (2)
//!
//! A log is read from a fresh run, and the writer is called on the run it leaves.
//!
//! A request is broken where its kind is unknown, its log is longer than a log
//! may be, or its bytes are not just as many as it says. It gets a line that says
//! so, and reading goes on behind it. Where fewer bytes are left than a length
//! takes or says, the rest is one broken request.

use crate::log::read_log;
use crate::reader::Reader;
use crate::refusal::answer_number;
use crate::report::LONG;
use crate::writers::{write_de, write_re, write_su, write_ve};

/// The longest stream that is read.
pub const LONGEST_STREAM: usize = 262_144;

/// The answer to a broken request.
pub const BROKEN: &str = "broken\n";

/// What a buffer or a list is filled with before it is lent.
pub const FILLER: u8 = 0xA5;

/// One call of a writer.
#[derive(Clone, Debug)]
pub struct Request {
    pub call: Call,
    pub buffer_length: u16,
}

/// The writer and what it is given besides the buffer.
#[derive(Clone, Debug)]
pub enum Call {
    Su { params: (u8, u8, u8), s: u32, key_values: Vec<u32> },
    De { params: (u8, u8, u8), i: u8, values: Vec<u32> },
    Ve { log: Vec<u8>, j: u8 },
    Re { log: Vec<u8>, j: u8, key_share: u32, shares: Vec<u32> },
}

impl Request {
    /// The writer's number and the buffer after the call.
    pub fn answer(&self) -> (u8, Vec<u8>) {
        let mut buffer = vec![FILLER; usize::from(self.buffer_length)];
        let answer = match &self.call {
            Call::Su { params, s, key_values } => write_su(*params, *s, key_values, &mut buffer),
            Call::De { params, i, values } => write_de(*params, *i, values, &mut buffer),
            Call::Ve { log, j } => write_ve(&read_log(log).run, *j, &mut buffer),
            Call::Re { log, j, key_share, shares } => {
                write_re(&read_log(log).run, *j, *key_share, shares, &mut buffer)
            }
        };
        (answer_number(answer), buffer)
    }

    /// The answer as a line.
    pub fn answer_line(&self) -> String {
        let (number, buffer) = self.answer();
        line_of(number, &buffer)
    }

    /// The request's bytes.
    pub fn encode(&self) -> Vec<u8> {
        let mut bytes = self.call.encode();
        bytes.extend(self.buffer_length.to_be_bytes());
        bytes
    }

    /// The request that has just these bytes; none if they are broken.
    pub fn decode(bytes: &[u8]) -> Option<Request> {
        let mut reader = Reader { rest: bytes };
        let request = reader.request()?;
        reader.rest.is_empty().then_some(request)
    }
}

impl Call {
    fn encode(&self) -> Vec<u8> {
        match self {
            Call::Su { params: (n, t, a), s, key_values } => {
                [&[1, *n, *t, *a][..], &s.to_be_bytes(), &encode_list(key_values)].concat()
            }
            Call::De { params: (n, t, a), i, values } => {
                [&[2, *n, *t, *a, *i][..], &encode_list(values)].concat()
            }
            Call::Ve { log, j } => [&[3][..], &encode_log(log), &[*j]].concat(),
            Call::Re { log, j, key_share, shares } => {
                [&[4][..], &encode_log(log), &[*j], &key_share.to_be_bytes(), &encode_list(shares)]
                    .concat()
            }
        }
    }
}

fn encode_list(values: &[u32]) -> Vec<u8> {
    let count = u16::try_from(values.len()).expect("a list fits its count");
    let mut bytes = count.to_be_bytes().to_vec();
    bytes.extend(values.iter().flat_map(|value| value.to_be_bytes()));
    bytes
}

fn encode_log(log: &[u8]) -> Vec<u8> {
    let length = u32::try_from(log.len()).expect("a log fits its length");
    [&length.to_be_bytes(), log].concat()
}

/// A request's bytes behind their length, as they stand in a stream.
pub fn framed(request: &[u8]) -> Vec<u8> {
    let length = u32::try_from(request.len()).expect("a request fits its length");
    [&length.to_be_bytes(), request].concat()
}

/// A call's answer as a line: the number, one space, what was lent to it in hex.
pub fn line_of(number: u8, lent: &[u8]) -> String {
    let hex: String = lent.iter().map(|byte| format!("{byte:02x}")).collect();
    format!("{number} {hex}\n")
}

/// The answers to a stream, a line each.
pub fn answer_stream(stream: &[u8]) -> String {
    if stream.len() > LONGEST_STREAM {
        return LONG.to_string();
    }
    let mut reader = Reader { rest: stream };
    let mut answers = String::new();
    while !reader.rest.is_empty() {
        answers += &line_for(reader.frame());
    }
    answers
}

/// The answer to a request of a stream; none is a cut one.
fn line_for(bytes: Option<&[u8]>) -> String {
    let request = bytes.and_then(Request::decode);
    request.map_or_else(|| BROKEN.to_string(), |request| request.answer_line())
}

/// The pieces of a request.
impl<'a> Reader<'a> {
    fn params(&mut self) -> Option<(u8, u8, u8)> {
        Some((self.byte()?, self.byte()?, self.byte()?))
    }

    fn list(&mut self) -> Option<Vec<u32>> {
        let count = self.two()?;
        (0..count).map(|_| self.four()).collect()
    }

    fn call(&mut self) -> Option<Call> {
        match self.byte()? {
            1 => {
                Some(Call::Su { params: self.params()?, s: self.four()?, key_values: self.list()? })
            }
            2 => Some(Call::De { params: self.params()?, i: self.byte()?, values: self.list()? }),
            3 => Some(Call::Ve { log: self.log()?, j: self.byte()? }),
            4 => Some(Call::Re {
                log: self.log()?,
                j: self.byte()?,
                key_share: self.four()?,
                shares: self.list()?,
            }),
            _ => None,
        }
    }

    fn request(&mut self) -> Option<Request> {
        Some(Request { call: self.call()?, buffer_length: self.two()? })
    }

    /// The bytes of a stream's next request; none, and nothing is left, if it is cut.
    fn frame(&mut self) -> Option<&'a [u8]> {
        let request = self.framed();
        if request.is_none() {
            self.rest = &[];
        }
        request
    }
}
