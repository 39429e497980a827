//! The functions of the static libraries with slices for their pointers: each returns the number of a refusal, or 0,
//! and stores what it tells besides in `out`, in the order that the headers' enums say. In the libraries a slice is a
//! pointer and a length, and a reference to an array a pointer alone. Each archive tells its version as a number:
//! major * 10000 + minor * 100 + patch.
#[cfg(feature = "agent")]
mod agent;
#[cfg(feature = "frames")]
mod frames;
#[cfg(feature = "verifier")]
mod verifier;

#[cfg(feature = "agent")]
pub use agent::{agent_version, fetch, run};
#[cfg(feature = "frames")]
pub use frames::{count, frames_version, locate, next_record, read, walk};
#[cfg(feature = "verifier")]
pub use verifier::{verifier_version, verify};
