//! A set of logs in the making, each with the name of its kind.

/// A log and the name of its kind.
pub struct NamedLog {
    pub kind: String,
    pub bytes: Vec<u8>,
}

/// The logs gathered so far.
#[derive(Default)]
pub struct LogSet {
    pub logs: Vec<NamedLog>,
}

impl LogSet {
    pub fn add(&mut self, kind: &str, bytes: Vec<u8>) {
        self.logs.push(NamedLog { kind: kind.to_string(), bytes });
    }

    /// Adds so many logs of a kind.
    pub fn add_many(&mut self, kind: &str, count: usize, mut make: impl FnMut(usize) -> Vec<u8>) {
        for index in 0..count {
            self.add(kind, make(index));
        }
    }
}
