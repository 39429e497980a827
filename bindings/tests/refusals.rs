//! Refusals as errors, with any set of features.
use lilivrez::{Refusal, Refused};
use std::error::Error;

#[test]
fn every_number_but_0_is_a_refusal() {
    assert_eq!(Refusal::of(0), None);
    for number in (1..1000).chain([u32::MAX]) {
        let refusal = Refusal::of(number).expect("a number other than 0");
        assert_eq!(refusal.number(), number);
        assert_eq!(refusal == Refusal::Unknown(number), number > 25);
        assert!(!refusal.to_string().is_empty());
    }
}

#[test]
fn refusals_are_errors() {
    let refused = Refused {
        refusal: Refusal::DivisorZero,
        offset: 4,
    };
    let error: Box<dyn Error> = refused.into();
    assert_eq!(
        error.to_string(),
        "refused 17 at offset 4: division by zero"
    );
    let error: Box<dyn Error> = Refusal::of(26).expect("unknown").into();
    assert_eq!(error.to_string(), "unknown refusal number");
}
