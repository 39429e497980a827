//! Runs that are refused before the first step, often for more than one reason:
//! 1 to 15 are tried in that order.

use super::{general, scene};
use crate::generate::{edges, faults};
use crate::isa;
use crate::random::Random;
use crate::runs::{Case, Registers};

/// 2^64 less so many.
const fn below_top(count: u64) -> u64 {
    0_u64.wrapping_sub(count)
}

const TOO_HIGH: [scene::Layout; 8] = [
    [(below_top(3), 4), (4096, 2)],
    [(below_top(1), 2), (4096, 0)],
    [(below_top(3), 4), (below_top(1), 0)],
    [(below_top(3), 4), (0, 4)],
    [(below_top(3), 4), (below_top(4), 2)],
    [(below_top(2), 3), (below_top(2), 3)],
    [(below_top(299), 300), (16, 9)],
    [(below_top(1), 66_000), (66_000, 1)],
];

const SHARING: [scene::Layout; 10] = [
    [(4096, 4), (4099, 4)],
    [(4096, 4), (4097, 4)],
    [(4096, 1), (4096, 1)],
    [(4096, 6), (4098, 4)],
    [(4096, 8), (4099, 1)],
    [(0, 2), (1, 2)],
    [(0, 1), (0, 9)],
    [(below_top(4), 4), (below_top(1), 1)],
    [((1 << 63) - 2, 4), (1 << 63, 4)],
    [(100, 300), (399, 300)],
];

fn spans(random: &mut Random, case: &mut Case, layouts: &[scene::Layout]) {
    let mut layout = random.choose(layouts);
    if random.chance(1, 2) {
        layout.reverse();
    }
    case.spans = scene::filled(random, layout);
}

fn registers(case: &mut Case) {
    case.registers = Registers::Counted(257);
}

/// A buffer of 65,537 bytes, or more used than there is.
fn buffer(random: &mut Random, case: &mut Case) {
    let short = random.below(40);
    let used = random.below(65_540) as u64;
    case.length = random.choose(&[65_537, 65_537, 65_536, 0, short, short]);
    let length = case.length as u64;
    case.used = match length {
        65_537 => random.choose(&[0, used, 65_537, 65_538]),
        _ => {
            let more = [length + 1, length + 1, length + 9, length + 65_536];
            let huge = [(1 << 32) + length, u64::MAX];
            random.choose(&[&more[..], &huge].concat())
        }
    };
}

/// Faults with higher numbers than that of the case, each so often in six.
fn more(random: &mut Random, case: &mut Case, from: u8) {
    if from < 12 && random.chance(1, 6) {
        let layouts = random.choose(&[&TOO_HIGH[..], &SHARING]);
        spans(random, case, layouts);
    }
    if from < 14 && random.chance(1, 6) {
        registers(case);
    }
    if from < 15 && random.chance(1, 6) {
        buffer(random, case);
    }
    if random.chance(1, 6) {
        case.allowance = Some(0);
    }
}

/// 12 to 15, going round with `number`.
pub fn unsound(random: &mut Random, number: usize) -> Case {
    let mut case = general(random);
    let fault = 12 + (number % 4) as u8;
    match fault {
        12 => spans(random, &mut case, &TOO_HIGH),
        13 => spans(random, &mut case, &SHARING),
        14 => registers(&mut case),
        _ => buffer(random, &mut case),
    }
    more(random, &mut case, fault);
    case
}

/// 2 to 11, going round with `number`.
pub fn unaccepted(random: &mut Random, number: usize) -> Case {
    let mut case = general(random);
    case.expression = faults::one(random, number);
    more(random, &mut case, 2);
    case
}

/// 1: no byte, or more than 1,024.
pub fn length(random: &mut Random, number: usize) -> Case {
    let mut case = general(random);
    case.expression = match number % 4 {
        0 => edges::too_long(random, 1).concat(),
        1 if number % 8 == 1 => vec![isa::END; 1_025],
        _ => Vec::new(),
    };
    more(random, &mut case, 1);
    case
}
