//! Buffers and allowances for a case whose run is known: a trial tells which
//! records it makes and how many steps it takes where neither is limited.

use crate::frames;
use crate::machine::{self, Outcome};
use crate::random::Random;
use crate::runs::Case;
use crate::verify;

const MOST: usize = 65_536;
const TRAILER: usize = 8;

/// The run with all of a buffer of 65,536 bytes and the default allowance. Most
/// runs come to the same with a short one.
pub fn trial(case: &Case) -> Outcome {
    let outcome = with_empty(case, 2_048);
    match outcome.end {
        Err(refused) if refused.number == machine::NO_ROOM => with_empty(case, MOST),
        _ => outcome,
    }
}

/// The run with a buffer of so many bytes. What they are is of no meaning.
fn with_empty(case: &Case, length: usize) -> Outcome {
    let unlimited = Case {
        length: 0,
        used: 0,
        allowance: None,
        ..case.clone()
    };
    let mut given = unlimited.given();
    given.buffer = vec![0; length];
    machine::run(&given)
}

/// The lengths of what the run writes, the trailer last.
fn lengths(outcome: &Outcome) -> Vec<usize> {
    let records = outcome.records.iter().map(|r| frames::encode(r).len());
    records.chain([TRAILER]).collect()
}

/// Gives the case a buffer with so many bytes free behind the used ones.
fn with_room(random: &mut Random, case: &mut Case, room: usize) {
    let most = MOST - room;
    let any = random.below(most + 1) >> random.below(12);
    let few = random.below(200);
    let used = [0, 0, 1, few, few, few, few, few, any, most];
    let used = random.choose(&used).min(most);
    case.used = used as u64;
    case.length = used + room;
}

/// Room for all that the run writes: just enough, a little more, much more.
pub fn roomy(random: &mut Random, case: &mut Case) {
    let written: usize = lengths(&trial(case)).iter().sum();
    let more = random.choose(&[0, 0, 0, 1, 7, 8, 40, 300]);
    with_room(random, case, (written + more).min(MOST));
}

/// Room for some records or none, or for all of them but not for the trailer:
/// one of what is written does not fit, often by one byte or whole.
pub fn tight(random: &mut Random, case: &mut Case) {
    let lengths = lengths(&trial(case));
    let last = lengths.len() - 1;
    let place = random.below(lengths.len());
    let place = random.choose(&[last, place, place, place]);
    let before: usize = lengths[..place].iter().sum();
    let any = random.below(lengths[place]);
    let part = random.choose(&[0, 1, lengths[place] - 1, any]);
    with_room(random, case, before + part);
}

/// Room for the records before the fault, and none behind them.
pub fn no_more(random: &mut Random, case: &mut Case) {
    let lengths = lengths(&trial(case));
    let records: usize = lengths[..lengths.len() - 1].iter().sum();
    with_room(random, case, records);
}

fn walk(case: &Case) -> u64 {
    let accepted = verify::verify(&case.expression);
    accepted.expect("the expression is accepted").walk as u64
}

/// An allowance that the run does not come to, as far as walks tell: numbers
/// of more than 32 bits among them.
pub fn enough(random: &mut Random, case: &mut Case) {
    let walk = walk(case);
    let numbers = [
        walk,
        walk + 1,
        1_024,
        1_025,
        1 << 32,
        (1 << 32) + 1,
        1 << 63,
        u64::MAX,
    ];
    case.allowance = Some(random.choose(&numbers));
}

/// An allowance around the steps of the run and its longest walk, or 0 or 1.
pub fn scarce(random: &mut Random, case: &mut Case) {
    let steps = trial(case).steps;
    let walk = walk(case);
    let any = random.below(steps as usize + 1) as u64;
    let numbers = [
        0,
        1,
        any,
        any,
        steps,
        steps.saturating_sub(1),
        steps.saturating_sub(1),
        steps + 1,
        walk - 1,
        walk,
        walk + 1,
    ];
    case.allowance = Some(random.choose(&numbers));
}
