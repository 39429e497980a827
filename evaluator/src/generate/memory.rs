//! Spans, ranges over them, and bytes to look for a zero in.

use crate::leaf::Case;
use crate::memory::Span;
use crate::random::Random;

/// First address and length of each of two spans.
type Layout = [(u64, usize); 2];

/// 2^64 less so many.
const fn below_top(count: u64) -> u64 {
    0_u64.wrapping_sub(count)
}

const HALF: u64 = 1 << 63;

/// Meant to be given neither 12 nor 13.
const SOUND: [Layout; 25] = [
    // Both empty.
    [(0, 0), (0, 0)],
    [(4096, 0), (4096, 0)],
    [(u64::MAX, 0), (u64::MAX, 0)],
    // One empty: apart, before, at the first, inside, at the last, at the end.
    [(4096, 4), (8192, 0)],
    [(4096, 4), (4095, 0)],
    [(4096, 4), (4096, 0)],
    [(4096, 4), (4098, 0)],
    [(4096, 4), (4099, 0)],
    [(4096, 4), (4100, 0)],
    // Apart, one address between them, touching.
    [(4096, 5), (8192, 7)],
    [(4096, 4), (4101, 3)],
    [(4096, 4), (4100, 6)],
    [(4096, 1), (4097, 1)],
    [(4096, 300), (4396, 2)],
    // At the bottom.
    [(0, 4), (4, 3)],
    [(0, 1), (2, 2)],
    // Around 2^31, 2^32 and 2^63.
    [((1 << 31) - 2, 4), ((1 << 32) - 3, 6)],
    [(HALF - 4, 4), (HALF, 4)],
    [(HALF - 2, 5), (0, 3)],
    // At the top: the sum is one below 2^64, or exactly 2^64.
    [(below_top(5), 4), (4096, 2)],
    [(below_top(4), 4), (4096, 2)],
    [(below_top(8), 4), (below_top(4), 4)],
    [(below_top(1), 1), (below_top(2), 1)],
    [(below_top(4), 4), (below_top(2), 0)],
    // At the top and at the bottom: what wraps would join them.
    [(below_top(4), 4), (0, 4)],
];

/// Meant to be given 12 or 13.
const FAULTY: [Layout; 21] = [
    // One address too high, or several.
    [(below_top(3), 4), (4096, 2)],
    [(below_top(1), 2), (4096, 0)],
    [(below_top(1), 300), (below_top(2), 1)],
    [(below_top(3), 4), (below_top(1), 0)],
    [(below_top(3), 4), (0, 4)],
    [(below_top(2), 6), (0, 2)],
    // Both too high; too high and sharing.
    [(below_top(3), 4), (below_top(8), 9)],
    [(below_top(3), 4), (below_top(4), 2)],
    [(below_top(3), 4), (below_top(4), 4)],
    [(below_top(2), 3), (below_top(2), 3)],
    // Sharing: one address, more, all.
    [(4096, 4), (4099, 4)],
    [(4096, 4), (4097, 4)],
    [(4096, 1), (4096, 1)],
    [(4096, 4), (4096, 4)],
    [(4096, 4), (4096, 6)],
    [(4096, 6), (4098, 4)],
    [(4096, 8), (4099, 1)],
    [(4096, 8), (4098, 3)],
    [(0, 2), (1, 2)],
    [(HALF - 2, 4), (HALF, 4)],
    [(below_top(4), 4), (below_top(1), 1)],
];

pub fn cases(random: &mut Random) -> Vec<Case> {
    let mut cases = Vec::new();
    for layout in SOUND {
        for layout in each_first(layout) {
            cases.extend(fetches(random, layout));
            cases.extend(rests(random, layout));
        }
    }
    for layout in FAULTY {
        for layout in each_first(layout) {
            cases.extend(few(random, layout));
        }
    }
    cases
}

/// What is asked is asked of the first of a layout, so each comes first once.
/// The order in which the spans are given is left to `spans`.
fn each_first([one, other]: Layout) -> [Layout; 2] {
    [[one, other], [other, one]]
}

/// The layout with bytes in its spans, in either order.
fn spans(random: &mut Random, mut layout: Layout) -> [Span; 2] {
    if random.chance(1, 2) {
        layout.reverse();
    }
    layout.map(|(first, length)| Span {
        first,
        bytes: random.bytes(length),
    })
}

/// Where the span ends, modulo 2^64.
fn end((first, length): (u64, usize)) -> u64 {
    first.wrapping_add(length as u64)
}

fn middle((first, length): (u64, usize)) -> u64 {
    first.wrapping_add(length as u64 / 2)
}

/// Ranges on the first span of the layout: inside, at its edges, too long, on
/// into the other, of size 0, and so large that the sum wraps.
fn ranges([span, other]: Layout) -> Vec<(u64, u64)> {
    let (first, length) = (span.0, span.1 as u64);
    let (middle, end) = (middle(span), end(span));
    let [before, last] = [first, end].map(|address| address.wrapping_sub(1));
    let behind = end.wrapping_sub(middle);
    vec![
        (first, length),
        (first, length + 1),
        (before, length + 1),
        (before, 1),
        (first, 1),
        (middle, 1),
        (last, 1),
        (last, 2),
        (middle, behind),
        (middle, behind + 1),
        (first, self::end(other).wrapping_sub(first)),
        (first, first.wrapping_neg()),
        (first, u64::MAX),
        (middle, HALF),
        (middle, u64::MAX),
        (end, middle.wrapping_sub(end)),
        (middle, 0),
        (end, 0),
    ]
}

fn fetches(random: &mut Random, layout: Layout) -> Vec<Case> {
    let mut ranges = ranges(layout);
    ranges.push((random.number(), 0));
    let fetch = |(address, size)| Case::Fetch {
        spans: spans(random, layout),
        address,
        size,
    };
    ranges.into_iter().map(fetch).collect()
}

fn rests(random: &mut Random, layout: Layout) -> Vec<Case> {
    let span = layout[0];
    let last = end(span).wrapping_sub(1);
    let far = random.number();
    let before = span.0.wrapping_sub(1);
    let addresses = [before, span.0, middle(span), last, end(span), far];
    let rest = |address| Case::Rest {
        spans: spans(random, layout),
        address,
    };
    addresses.into_iter().map(rest).collect()
}

/// A fetch that would be answered but for the spans, one of 0 bytes, one that
/// is not readable either, and a rest.
fn few(random: &mut Random, layout: Layout) -> Vec<Case> {
    let first = layout[0].0;
    let mut cases = Vec::new();
    for (address, size) in [(first, 1), (first, 0), (first.wrapping_sub(9), 3)] {
        cases.push(Case::Fetch {
            spans: spans(random, layout),
            address,
            size,
        });
    }
    cases.push(Case::Rest {
        spans: spans(random, layout),
        address: first,
    });
    cases
}

/// Two short spans near each other, in three of four cases one behind the
/// other; an address in or near them.
fn near(random: &mut Random) -> ([Span; 2], u64) {
    let bases = [
        2,
        4096,
        (1 << 32) - 8,
        HALF - 8,
        below_top(24),
        below_top(14),
    ];
    let base = random.choose(&bases);
    let add = |number: usize| base.wrapping_add(number as u64);
    let (one, other) = (random.below(8), random.below(8));
    let length = random.below(8);
    let behind = one + length + random.choose(&[0, 0, 1, 3]);
    let other = random.choose(&[behind, behind, behind, other]);
    let layout = [(add(one), length), (add(other), random.below(8))];
    let (first, length) = random.choose(&layout);
    let inside = first.wrapping_add(random.below(length + 1) as u64);
    let about = add(random.below(24));
    let address = random.choose(&[inside, inside, inside, about]);
    (spans(random, layout), address)
}

fn near_range(random: &mut Random) -> ([Span; 2], u64, u64) {
    let (spans, address) = near(random);
    let short = random.below(5) as u64;
    let huge = random.choose(&[HALF, short.wrapping_neg(), address.wrapping_neg()]);
    let size = random.choose(&[short, short, short, short, huge]);
    (spans, address, size)
}

pub fn near_fetch(random: &mut Random) -> Case {
    let (spans, address, size) = near_range(random);
    Case::Fetch {
        spans,
        address,
        size,
    }
}

/// A range on one of the layouts, or near two short spans.
pub fn any_range(random: &mut Random) -> ([Span; 2], u64, u64) {
    let layouts = match random.below(6) {
        0 => &FAULTY[..],
        1 | 2 => &SOUND[..],
        _ => return near_range(random),
    };
    let layout = random.choose(layouts);
    let layout = random.choose(&each_first(layout));
    let (address, size) = random.choose(&ranges(layout));
    (spans(random, layout), address, size)
}

pub fn near_rest(random: &mut Random) -> Case {
    let (spans, address) = near(random);
    Case::Rest { spans, address }
}

/// Bytes of several lengths with a zero in the first, second, middle or last
/// place or nowhere, and sizes around that place, the length and the limits.
pub fn searches(random: &mut Random) -> Vec<Case> {
    let mut cases = Vec::new();
    for length in [0_usize, 1, 2, 3, 8, 16, 300] {
        let last = length.saturating_sub(1);
        for place in [None, Some(0), Some(1), Some(length / 2), Some(last)] {
            let about = place.unwrap_or(0) as u64;
            let all = length as u64;
            let mut sizes = vec![0, about, about + 1, about + 2, all, all + 1];
            sizes.extend([all.saturating_sub(1), random.choose(&LIMITS)]);
            for size in sizes {
                let mut bytes = without_zero(random, length);
                if let Some(byte) = place.and_then(|place| bytes.get_mut(place)) {
                    *byte = 0;
                }
                cases.push(Case::Search { bytes, size });
            }
        }
    }
    let none = LIMITS.map(|size| Case::Search {
        bytes: without_zero(random, 5),
        size,
    });
    cases.extend(none);
    cases
}

/// Sizes at which something changes in the runner or in a number's width.
const LIMITS: [u64; 8] = [
    255,
    256,
    65_535,
    65_536,
    (1 << 32) + 1,
    HALF - 1,
    HALF,
    u64::MAX,
];

fn without_zero(random: &mut Random, count: usize) -> Vec<u8> {
    (0..count).map(|_| random.between(1, 255) as u8).collect()
}

/// A quarter of the bytes or fewer are zero.
pub fn random_search(random: &mut Random) -> Case {
    let most = random.choose(&[4, 16, 40]);
    let count = random.below(most);
    let mut bytes = without_zero(random, count);
    for byte in &mut bytes {
        if random.chance(1, most) {
            *byte = 0;
        }
    }
    let size = random.below(count + 4) as u64;
    Case::Search { bytes, size }
}
