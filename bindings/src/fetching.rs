//! liblilivrez_agent.a: bytes of target memory.
use crate::library;
use crate::Refusal;

/// Bytes of the target, and the address of the first.
#[derive(Clone, Copy, Debug)]
pub struct Span<'a> {
    pub first: u64,
    pub bytes: &'a [u8],
}

/// The `size` bytes at `address`, in whichever span holds them all.
pub fn fetch<'a>(
    image: Span<'a>,
    work: Span<'a>,
    address: u64,
    size: u64,
) -> Result<&'a [u8], Refusal> {
    let mut out = [0; 2];
    let number = library::fetch([image, work], address, size, &mut out);
    if let Some(refusal) = Refusal::of(number) {
        return Err(refusal);
    }
    let [span, index] = out;
    let bytes = match span {
        1 => image.bytes,
        2 => work.bytes,
        _ => return Ok(&[]),
    };
    Ok(&bytes[index as usize..][..size as usize])
}
