//! liblilivrez_verifier.a: does an expression run safely, and how long at most?
use crate::library;
use crate::{Refusal, Refused};

/// An expression that runs safely: no run takes more steps than the longest walk.
#[derive(Clone, Copy, Debug, PartialEq, Eq)]
pub struct Accepted {
    pub instructions: u64,
    pub greatest_height: u64,
    pub longest_walk: u64,
}

/// Whether the bytes are an expression that runs safely.
///
/// ```
/// let accepted = lilivrez::verify(&[0x22, 0x05, 0x22, 0x03, 0x02, 0x27])?;
/// assert_eq!(accepted.greatest_height, 2);
/// # Ok::<(), lilivrez::Refused>(())
/// ```
pub fn verify(expression: &[u8]) -> Result<Accepted, Refused> {
    let mut out = [0; 4];
    let number = library::verify(expression, &mut out);
    let [offset, instructions, greatest_height, longest_walk] = out;
    match Refusal::of(number) {
        Some(refusal) => Err(Refused { refusal, offset }),
        None => Ok(Accepted {
            instructions,
            greatest_height,
            longest_walk,
        }),
    }
}
