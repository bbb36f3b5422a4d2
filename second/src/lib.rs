//! A second implementation of the SPRINT bench, for comparing reports log by log.
//!
//! It is written from documents 01 and 02 alone and shares no code and no
//! algorithm with the proved core. Where the two could meet, this one is built
//! the plain way: accepted records stand in order of arrival, sets are sorted
//! sets of party numbers, counted member by member, the weights of interpolation
//! come from solving the Vandermonde system by Gaussian elimination, a shift is one
//! more dealing, how many dealings a run signs with is counted when asked, the
//! bytes that fix the sets are found in the list of a whole reading, and the rows of a
//! bundle are given one by one.
//!
//! - `arith`: scalars and group elements
//! - `weights`: interpolation
//! - `params`, `refusal`, `records`: the parameters, the refusals, the formats
//! - `run`: the stages
//! - `log`, `report`: cutting a log, printing its report
//! - `sets`: the sets alone, and the bytes that fix them
//! - `reader`: reading a stream piece by piece
//! - `writers`, `requests`: making records, and the stream that asks for them
//! - `masks`: counting members, and the stream that asks for it
//! - `bundles`: many response rows in one call, and the input that asks for it
//! - `generator`, `rng`: logs, requests, masks and bundles for the comparison
//! - `coverage`, `wide_coverage`, `identity_coverage`, `count_coverage`,
//!   `wait_coverage`, `sets_coverage`: what the logs reach
//! - `mask_coverage`: what the masks show
//! - `bundle_coverage`, `bundle_call_coverage`, `bundle_run_coverage`,
//!   `bundle_row_coverage`: what the bundles show

#![forbid(unsafe_code)]

pub mod arith;
pub mod bundle_call_coverage;
pub mod bundle_coverage;
pub mod bundle_row_coverage;
pub mod bundle_run_coverage;
pub mod bundles;
pub mod count_coverage;
pub mod coverage;
pub mod generator;
pub mod identity_coverage;
pub mod log;
pub mod mask_coverage;
pub mod masks;
pub mod params;
pub mod reader;
pub mod records;
pub mod refusal;
pub mod report;
pub mod requests;
pub mod rng;
pub mod run;
pub mod sets;
pub mod sets_coverage;
pub mod wait_coverage;
pub mod weights;
pub mod wide_coverage;
pub mod writers;
