//! Seeded logs, writer requests, masks and bundles for comparing this program with another.
//! Each module uses those above it in this list alone.
//!
//! - `bytes`: numbers inside a record
//! - `committee`: the secrets of a committee and the honest records they give
//! - `document`: the logs that document 01 gives
//! - `draft`: a log in the making, beside the run that reads it
//! - `spoil`: records made to be refused with an intended number
//! - `course`: a draft that goes on, with refused records in between
//! - `log_set`: logs gathered by kind
//! - `edges`, `shifts`, `shift_edges`, `wide`, `wide_masks`, `wide_edges`,
//!   `identity`, `identity_values`, `rekeyed`, `count`, `waits`, `wait_edges`,
//!   `wait_lengths`, `sets_ends`, `sets_brought`, `sets_sizes`, `logs`: every kind of
//!   log
//! - `request_set`: writer requests gathered, each with its intended number
//! - `document_calls`, `value_calls`, `run_calls`, `shift_calls`, `wide_calls`,
//!   `identity_calls`, `wait_calls`: every kind of writer request
//! - `broken_calls`: broken requests, and streams that are cut or too long
//! - `calls`: every stream of requests
//! - `mask_streams`: every stream of masks
//! - `bundle_draft`: an input of bundles in the making, beside the run that reads it
//! - `bundle_counts`, `bundle_faults`, `bundle_cuts`, `bundle_lists`, `bundle_lots`,
//!   `bundle_forms`: every kind of input of bundles
//! - `bundle_inputs`: every input of bundles

pub mod broken_calls;
pub mod bundle_counts;
pub mod bundle_cuts;
pub mod bundle_draft;
pub mod bundle_faults;
pub mod bundle_forms;
pub mod bundle_inputs;
pub mod bundle_lists;
pub mod bundle_lots;
pub mod bytes;
pub mod calls;
pub mod committee;
pub mod count;
pub mod course;
pub mod document;
pub mod document_calls;
pub mod draft;
pub mod edges;
pub mod identity;
pub mod identity_calls;
pub mod identity_values;
pub mod log_set;
pub mod logs;
pub mod mask_streams;
pub mod rekeyed;
pub mod request_set;
pub mod run_calls;
pub mod sets_brought;
pub mod sets_ends;
pub mod sets_sizes;
pub mod shift_calls;
pub mod shift_edges;
pub mod shifts;
pub mod spoil;
pub mod value_calls;
pub mod wait_calls;
pub mod wait_edges;
pub mod wait_lengths;
pub mod waits;
pub mod wide;
pub mod wide_calls;
pub mod wide_edges;
pub mod wide_masks;
