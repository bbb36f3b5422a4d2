//! The printed report of a log (document 01: page). Written from documents 01 and
//! 02 alone.

use crate::log::{read_log, Reading};
use crate::params::Party;
use crate::run::{Run, Stage};
use std::collections::BTreeSet;

/// The longest log that is read.
pub const LONGEST_LOG: usize = 65_536;

/// All that is answered to a longer one.
pub const LONG: &str = "long\n";

/// The report of a log, every line with its line feed.
pub fn report(log: &[u8]) -> String {
    if log.len() > LONGEST_LOG {
        return LONG.to_string();
    }
    report_of(&read_log(log))
}

/// The same of a log that has been read.
pub fn report_of(reading: &Reading) -> String {
    as_text(&report_lines(reading))
}

/// The lines, each with its line feed.
pub fn as_text(lines: &[String]) -> String {
    lines.iter().map(|line| format!("{line}\n")).collect()
}

fn report_lines(reading: &Reading) -> Vec<String> {
    let run = &reading.run;
    let mut lines: Vec<String> = reading
        .refused()
        .map(|(position, refusal)| format!("refuse {position} {}", refusal.number()))
        .collect();
    lines.extend(set_lines(run));
    if run.stage == Stage::Done {
        lines.extend(signature_lines(run));
    }
    lines.push(format!("end {}", run.stage.number()));
    lines
}

/// HOLD, QUAL and BAD, a line each.
pub fn set_lines(run: &Run) -> Vec<String> {
    let sets = run.sets.as_ref();
    vec![
        set_line("hold", sets.map(|sets| &sets.hold)),
        set_line("qual", sets.map(|sets| &sets.qual)),
        set_line("bad", sets.map(|sets| &sets.bad)),
    ]
}

/// A set with its members rising; `-` for an empty or unfixed one.
fn set_line(name: &str, set: Option<&BTreeSet<Party>>) -> String {
    let members: Vec<String> = set.into_iter().flatten().map(Party::to_string).collect();
    let shown = if members.is_empty() { "-".to_string() } else { members.join(" ") };
    format!("{name} {shown}")
}

/// `sig u k R φ`, u outer.
fn signature_lines(run: &Run) -> Vec<String> {
    let rows = run.nonces().into_iter().zip(&run.signatures);
    let mut lines = Vec::new();
    for (u, (nonces, signatures)) in (1usize..).zip(rows) {
        for (k, (nonce, signature)) in (1usize..).zip(nonces.iter().zip(signatures)) {
            lines.push(format!("sig {u} {k} {} {}", nonce.number(), signature.number()));
        }
    }
    lines
}
