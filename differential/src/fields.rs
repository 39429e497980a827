//! Fields of a line, as evaluator::runs writes them.

use evaluator::hex;
use evaluator::runs::{self, Bytes};

pub use evaluator::runs::read_number as number;

/// Exactly so many fields.
pub fn divided<const N: usize>(line: &str) -> Result<[&str; N], String> {
    let fields: Vec<&str> = line.split(' ').collect();
    let count = fields.len();
    let wrong = |_| format!("there should be {N} fields, there are {count}");
    fields.try_into().map_err(wrong)
}

pub fn bytes(text: &str) -> Result<Vec<u8>, String> {
    match runs::read_bytes(text)? {
        Bytes::Listed(bytes) => Ok(bytes),
        Bytes::Pattern { .. } => Err(format!("`{text}` is not in hex")),
    }
}

pub fn spans(spans: [(u64, &[u8]); 2]) -> String {
    let text = |(first, bytes)| format!("{first:x} {}", hex::field(bytes));
    spans.map(text).join(" ")
}
