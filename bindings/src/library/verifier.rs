//! include/lilivrez_verifier.h

extern "C" {
    fn lilivrez_verify(expression: *const u8, length: usize, out: *mut [u64; 4]) -> u32;

    fn lilivrez_verifier_version() -> u32;
}

pub fn verifier_version() -> u32 {
    // SAFETY: it is given nothing.
    unsafe { lilivrez_verifier_version() }
}

pub fn verify(expression: &[u8], out: &mut [u64; 4]) -> u32 {
    // SAFETY: pointer and length are of one slice, and `out` is borrowed by nobody else.
    unsafe { lilivrez_verify(expression.as_ptr(), expression.len(), out) }
}
