//! Cases for the machine: expressions, and all that a run of them is given.

mod before;
mod directed;
pub mod examples;
mod faults;
mod limits;
mod scene;
mod writer;
mod zeros;

use super::{many, mutate, structured};
use crate::random::Random;
pub use crate::runs::Case;
use writer::Writer;

/// Every case, from a generator of numbers for each family.
pub fn cases(family: impl Fn(u64) -> Random) -> Vec<Case> {
    let all = [
        examples::cases(),
        directed::operators(&mut family(1), 18),
        directed::conditions(&mut family(2)),
        directed::shaped(&mut family(3)),
        directed::long_walks(&mut family(4)),
        many(&mut family(5), 40, directed::full_stack),
        many(&mut family(6), 1_600, general),
        many(&mut family(7), 420, tight),
        many(&mut family(8), 400, scarce),
        round(&mut family(9), 30 * faults::KINDS, faulty),
        many(&mut family(10), 160, zeros::short),
        zeros::edges(&mut family(17)),
        many(&mut family(11), 150, large),
        round(&mut family(12), 320, before::unsound),
        round(&mut family(13), 300, before::unaccepted),
        round(&mut family(14), 32, before::length),
        many(&mut family(15), 200, wild),
        many(&mut family(16), 150, mutated),
        many(&mut family(18), 90, directed::shift),
    ];
    all.concat()
}

/// So many cases of a kind that goes round.
fn round(random: &mut Random, count: usize, make: fn(&mut Random, usize) -> Case) -> Vec<Case> {
    (0..count).map(|number| make(random, number)).collect()
}

/// A few phrases on a scene.
pub fn phrases(random: &mut Random) -> Case {
    let mut case = scene::scene(random);
    let most = random.choose(&[1, 3, 5, 8, 8, 12, 16]);
    let count = random.between(1, most);
    let mut writer = Writer::new(random, &case);
    writer.phrases(count);
    case.expression = writer.finish();
    case
}

/// Mostly completed: the buffer has room, the allowance is not spent.
fn general(random: &mut Random) -> Case {
    let mut case = phrases(random);
    limits::roomy(random, &mut case);
    if random.chance(1, 4) {
        limits::enough(random, &mut case);
    }
    case
}

/// Something has no room, if only the trailer; there is one record or more in
/// most runs.
fn tight(random: &mut Random) -> Case {
    let mut case = scene::scene(random);
    let (before, records, after) = (random.below(4), random.below(4), random.below(3));
    let mut writer = Writer::new(random, &case);
    writer.phrases(before);
    (0..records).for_each(|_| writer.recorded());
    writer.phrases(after);
    case.expression = writer.finish();
    limits::tight(random, &mut case);
    case
}

/// A step that is refused with 17 to 20, of any kind.
pub fn fault(random: &mut Random) -> Case {
    let number = random.below(faults::KINDS);
    faults::faulty(random, number)
}

/// An allowance around the steps of the run, which may be refused by itself.
fn scarce(random: &mut Random) -> Case {
    let mut case = match random.below(4) {
        0 => fault(random),
        _ => phrases(random),
    };
    match random.below(4) {
        0 => limits::tight(random, &mut case),
        _ => limits::roomy(random, &mut case),
    }
    limits::scarce(random, &mut case);
    case
}

/// A step that is refused with 17 to 20, with room for its record or without.
fn faulty(random: &mut Random, number: usize) -> Case {
    let mut case = faults::faulty(random, number);
    match random.below(3) {
        0 => limits::no_more(random, &mut case),
        _ => limits::roomy(random, &mut case),
    }
    case
}

/// A large span, and most often a buffer of 65,536 bytes.
fn large(random: &mut Random) -> Case {
    let mut case = zeros::large(random);
    case.variables.clear();
    let used = random.choose(&[0, 0, 0, 0, 1, 8, 65_536]);
    case.used = used;
    case
}

/// Any accepted expression, which seldom aims at memory that there is.
fn wild(random: &mut Random) -> Case {
    let mut case = scene::scene(random);
    let most = random.choose(&[12, 25, 40]);
    let size = random.between(2, most);
    case.expression = structured::program(random, size).bytes();
    limits::roomy(random, &mut case);
    case
}

/// A small change in an expression that would have been run.
fn mutated(random: &mut Random) -> Case {
    let mut case = scene::scene(random);
    let mut writer = Writer::new(random, &case);
    writer.phrases(3);
    let program = writer.program();
    case.expression = mutate::mutate(random, &program);
    limits::roomy(random, &mut case);
    case
}

/// Many phrases; some expressions come out longer than 1,024 bytes.
fn long(random: &mut Random) -> Case {
    let mut case = scene::scene(random);
    let count = random.between(30, 70);
    let mut writer = Writer::new(random, &case);
    writer.phrases(count);
    case.expression = writer.finish();
    limits::roomy(random, &mut case);
    case
}

/// A case of a kind that goes round with `number`. Long expressions and large
/// spans are seldom.
pub fn any(random: &mut Random, number: usize) -> Case {
    match number % 12 {
        0 => before::unsound(random, number / 12),
        1 => before::unaccepted(random, number / 12),
        2 => mutated(random),
        3 => wild(random),
        4 => tight(random),
        5 => scarce(random),
        6 | 7 => faulty(random, number / 6),
        8 => zeros::short(random),
        9 if number % 600 == 9 => large(random),
        9 if number % 600 == 21 => long(random),
        9 if number % 240 == 33 => before::length(random, number / 240),
        9 if number % 120 == 45 => directed::full_stack(random),
        9 if number % 120 == 57 => directed::shift(random),
        _ => general(random),
    }
}

#[cfg(test)]
mod tests {
    use super::*;
    use crate::machine;
    use crate::verify::verify;

    #[test]
    fn phrases_are_accepted_and_mostly_completed() {
        let mut random = Random::new(12);
        let mut completed = 0;
        for _ in 0..2_000 {
            let case = general(&mut random);
            let accepted = verify(&case.expression);
            assert!(accepted.is_ok(), "{}", case.line());
            completed += usize::from(machine::run(&case.given()).end.is_ok());
        }
        assert!(completed > 1_800, "{completed}");
    }
}
