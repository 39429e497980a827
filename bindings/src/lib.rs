//! Safe wrappers over the static libraries of Lilivrez, a verified trace agent, without `std`. What the functions
//! promise is said in the headers of the libraries; what a caller owes there (good pointers, no overlap) Rust's slices
//! and arrays give.
//!
//! | feature | archive | for | functions |
//! |---|---|---|---|
//! | `verifier` | `liblilivrez_verifier.a` | the console | `verify` |
//! | `agent` | `liblilivrez_agent.a` | the unit | `fetch`, `run`, `evaluate` |
//! | `frames` | `liblilivrez_frames.a` | lab and desk | `read`, `count`, `locate`, `Walker`, `Records` |
//!
//! All are on by default. With `default-features = false` only the archives of the features that are named are linked,
//! and need be there. They are looked for in the folder that the environment variable `LILIVREZ_LIB_DIR` names when the
//! crate is built.
//!
//! ```
//! use lilivrez::{Record, Span, Target, TraceBuffer, Walker};
//!
//! // const16 0x1000, trace_quick 2, end: collects two bytes of memory
//! let expression = [0x23, 0x10, 0x00, 0x0d, 0x02, 0x27];
//! assert_eq!(lilivrez::verify(&expression)?.longest_walk, 3);
//!
//! // the unit, at a hit of tracepoint 7
//! let target = Target {
//!     registers: &[],
//!     image: Span { first: 0, bytes: &[] },
//!     work: Span { first: 0x1000, bytes: &[0x41, 0x00, 0x42] },
//! };
//! let mut variables = [0; 64];
//! let mut room = [0; 128];
//! let mut buffer = TraceBuffer { bytes: &mut room, used: 0 };
//! lilivrez::run(&expression, &target, &mut variables, &mut buffer, 7, lilivrez::ALLOWANCE)?;
//!
//! // the lab: frames from the newest on, and the first record of the newest
//! let frame = Walker { buffer: buffer.bytes, place: buffer.used }.step()?;
//! assert_eq!(frame.tracepoint, 7);
//! let record = lilivrez::read(buffer.bytes, buffer.used, 0, 0)?.record;
//! assert_eq!(record, Record::Memory { address: 0x1000, bytes: &[0x41, 0x00] });
//!
//! // what is refused is an error: words for a person by Display, and the number
//! let refused = lilivrez::verify(&[0x02, 0x27]).unwrap_err();
//! assert_eq!(refused.refusal.number(), 9);
//! assert_eq!(
//!     refused.to_string(),
//!     "refused 9 at offset 0: too few cells on the stack for this instruction"
//! );
//! # Ok::<(), Box<dyn std::error::Error>>(())
//! ```
#![no_std]

pub mod library;

#[cfg(feature = "agent")]
mod fetching;
#[cfg(feature = "frames")]
mod finding;
#[cfg(feature = "frames")]
mod reading;
mod refusal;
#[cfg(feature = "agent")]
mod running;
#[cfg(feature = "verifier")]
mod verifying;

#[cfg(feature = "agent")]
pub use fetching::{fetch, Span};
#[cfg(feature = "frames")]
pub use finding::{locate, Frame, Walker};
#[cfg(feature = "frames")]
pub use reading::{count, read, Counted, Read, Record, Records};
pub use refusal::{Refusal, Refused};
#[cfg(feature = "agent")]
pub use running::{evaluate, run, Completed, Stopped, Target, TraceBuffer, Value, ALLOWANCE};
#[cfg(feature = "verifier")]
pub use verifying::{verify, Accepted};

/// The version of these wrappers; `library` tells that of each archive.
pub const VERSION: &str = env!("CARGO_PKG_VERSION");
