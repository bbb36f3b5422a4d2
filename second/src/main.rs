//! The program `second`: prints reports and sets, answers requests, counts members and
//! collects bundles of responses, and makes logs, requests, masks and bundles. Written
//! from documents 01 and 02 alone.

use second::bundle_coverage::BundleCoverage;
use second::coverage::Coverage;
use second::generator::bundle_inputs::bundle_inputs;
use second::generator::calls::all_streams;
use second::generator::logs::all_logs;
use second::generator::mask_streams::mask_streams;
use second::mask_coverage::MaskCoverage;
use second::report::report;
use second::sets::sets;
use second::{bundles, masks, requests};
use std::fs;
use std::io::{self, Read, Write};
use std::path::{Path, PathBuf};
use std::process::ExitCode;

const USAGE: &str = "usage:
  second page < LOG                     print the report of a log
  second sets < LOG                     print the sets of a log alone, and how many
                                        bytes it takes to fix them
  second generate DIR [--seed N]        write logs
  second requests DIR [--seed N]        write streams of writer requests
  second write < REQUESTS               answer a stream of writer requests
  second masks DIR [--seed N]           write streams of masks
  second count < MASKS                  count the members of a stream of masks
  second bundles DIR [--seed N]         write logs with bundles of response rows
  second collect < BUNDLES              give bundles of response rows to the run of a
                                        log
  second check-coverage DIR             name the refusals and stages the logs reach,
                                        the answers to CS, and what is missing of
                                        31 to 64 parties, of identities, of the size
                                        of BAD, of runs that wait for more dealers,
                                        of the sets alone, in the streams of masks,
                                        and in the bundles";

/// The seed when none is given.
const DEFAULT_SEED: u64 = 1;

fn main() -> ExitCode {
    let arguments: Vec<String> = std::env::args().skip(1).collect();
    let words: Vec<&str> = arguments.iter().map(String::as_str).collect();
    match obey(&words) {
        Ok(code) => code,
        Err(error) => {
            eprintln!("second: {error}");
            ExitCode::from(2)
        }
    }
}

fn obey(words: &[&str]) -> io::Result<ExitCode> {
    match words {
        ["page"] => answer(report),
        ["sets"] => answer(sets),
        ["write"] => answer(requests::answer_stream),
        ["count"] => answer(masks::answer_stream),
        ["collect"] => answer(bundles::answer_input),
        ["generate", directory] => generate(directory, DEFAULT_SEED),
        ["generate", directory, "--seed", seed] => generate(directory, parse_seed(seed)?),
        ["requests", directory] => write_requests(directory, DEFAULT_SEED),
        ["requests", directory, "--seed", seed] => write_requests(directory, parse_seed(seed)?),
        ["masks", directory] => write_masks(directory, DEFAULT_SEED),
        ["masks", directory, "--seed", seed] => write_masks(directory, parse_seed(seed)?),
        ["bundles", directory] => write_bundles(directory, DEFAULT_SEED),
        ["bundles", directory, "--seed", seed] => write_bundles(directory, parse_seed(seed)?),
        ["check-coverage", directory] => check_coverage(directory),
        _ => {
            eprintln!("{USAGE}");
            Ok(ExitCode::from(2))
        }
    }
}

fn parse_seed(word: &str) -> io::Result<u64> {
    word.parse().map_err(|_| invalid("the seed is not a number"))
}

fn invalid(message: &str) -> io::Error {
    io::Error::new(io::ErrorKind::InvalidInput, message)
}

fn read_input() -> io::Result<Vec<u8>> {
    let mut input = Vec::new();
    io::stdin().lock().read_to_end(&mut input)?;
    Ok(input)
}

/// Prints what is answered to the input.
fn answer(to: fn(&[u8]) -> String) -> io::Result<ExitCode> {
    let input = read_input()?;
    io::stdout().write_all(to(&input).as_bytes())?;
    Ok(ExitCode::SUCCESS)
}

fn generate(directory: &str, seed: u64) -> io::Result<ExitCode> {
    fs::create_dir_all(directory)?;
    let logs = all_logs(seed);
    for (number, log) in (1..).zip(&logs) {
        let name = format!("{number:03}-{}.log", log.kind);
        fs::write(Path::new(directory).join(name), &log.bytes)?;
    }
    println!("{} logs", logs.len());
    Ok(ExitCode::SUCCESS)
}

fn write_requests(directory: &str, seed: u64) -> io::Result<ExitCode> {
    write_streams(directory, "requests", &all_streams(seed))
}

fn write_masks(directory: &str, seed: u64) -> io::Result<ExitCode> {
    write_streams(directory, "masks", &mask_streams(seed))
}

fn write_bundles(directory: &str, seed: u64) -> io::Result<ExitCode> {
    write_streams(directory, "bundles", &bundle_inputs(seed))
}

fn write_streams(directory: &str, extension: &str, streams: &[Vec<u8>]) -> io::Result<ExitCode> {
    fs::create_dir_all(directory)?;
    for (number, stream) in (1..).zip(streams) {
        fs::write(Path::new(directory).join(format!("{number:03}.{extension}")), stream)?;
    }
    println!("{} streams", streams.len());
    Ok(ExitCode::SUCCESS)
}

fn check_coverage(directory: &str) -> io::Result<ExitCode> {
    let (mut logs, mut masks) = (Coverage::default(), MaskCoverage::default());
    let mut bundles = BundleCoverage::default();
    for path in paths(directory, "log")? {
        logs.add(&fs::read(path)?);
    }
    for path in paths(directory, "masks")? {
        masks.add(&fs::read(path)?);
    }
    for path in paths(directory, "bundles")? {
        bundles.add(&fs::read(path)?);
    }
    for line in [logs.lines(), masks.lines(), bundles.lines()].concat() {
        println!("{line}");
    }
    let missing = [logs.missing(), masks.missing(), bundles.missing()].concat();
    for what in &missing {
        println!("missing {what}");
    }
    Ok(if missing.is_empty() { ExitCode::SUCCESS } else { ExitCode::FAILURE })
}

/// The files in a directory with this extension, by name.
fn paths(directory: &str, extension: &str) -> io::Result<Vec<PathBuf>> {
    let entries = fs::read_dir(directory)?.collect::<io::Result<Vec<_>>>()?;
    let paths = entries.into_iter().map(|entry| entry.path());
    let mut named: Vec<PathBuf> =
        paths.filter(|path| path.extension().is_some_and(|e| e == extension)).collect();
    named.sort();
    Ok(named)
}
