//! What each feature links: its archive answers, and is of the version of these wrappers.

/// major * 10000 + minor * 100 + patch
#[cfg(any(feature = "verifier", feature = "agent", feature = "frames"))]
fn version() -> u32 {
    let mut parts = lilivrez::VERSION
        .split('.')
        .map(|part| part.parse().unwrap());
    let mut next = || -> u32 { parts.next().unwrap() };
    next() * 10000 + next() * 100 + next()
}

#[cfg(feature = "verifier")]
#[test]
fn verifier() {
    assert_eq!(lilivrez::library::verifier_version(), version());
    assert_eq!(lilivrez::verify(&[0x27]).unwrap().instructions, 1);
}

#[cfg(feature = "agent")]
#[test]
fn agent() {
    use lilivrez::{Refusal, Span, Target};

    assert_eq!(lilivrez::library::agent_version(), version());
    let empty = Span {
        first: 0,
        bytes: &[],
    };
    let target = Target {
        registers: &[],
        image: empty,
        work: empty,
    };
    let stopped = lilivrez::evaluate(&[0x2e, 0, 0, 0x27], &target, &mut [0; 64]).unwrap_err();
    assert_eq!(stopped.refusal, Refusal::BufferFull);
    assert_eq!(
        stopped.to_string(),
        "refused 21 at offset 0 after 0 steps: too little room left in the trace buffer"
    );
}

#[cfg(feature = "frames")]
#[test]
fn frames() {
    assert_eq!(lilivrez::library::frames_version(), version());
    let trailer = [0x46, 0, 7, 0, 0, 0, 0, 0];
    assert_eq!(lilivrez::locate(&trailer, 8, 0).unwrap().tracepoint, 7);
}
