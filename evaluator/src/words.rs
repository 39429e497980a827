//! The operators on 64-bit words: the GDB manual's "Bytecode Descriptions", and
//! document 01, "Meanings the manual leaves open", where the manual is silent,
//! with document 02's M-100 for the shifts. Numbers are reckoned in 128 bits,
//! which no result here exceeds, and `word` brings them back to 64. This module
//! knows only isa.

use crate::isa;

/// "divisor zero".
pub const DIVISOR_ZERO: u8 = 17;

/// 2^64, so many words there are.
const WORDS: i128 = 1 << 64;

fn unsigned(word: u64) -> i128 {
    i128::from(word)
}

/// A word with its top bit set stands for the number 2^64 below it.
fn signed(word: u64) -> i128 {
    if unsigned(word) < WORDS / 2 {
        unsigned(word)
    } else {
        unsigned(word) - WORDS
    }
}

/// "modulo 2^64".
fn word(number: i128) -> u64 {
    number.rem_euclid(WORDS) as u64
}

/// What an operator of the table's first line leaves for `a b`, where `b` is
/// on top; or the number of its refusal.
pub fn binary(opcode: u8, a: u64, b: u64) -> Result<u64, u8> {
    let number = match opcode {
        isa::ADD => unsigned(a) + unsigned(b),
        isa::SUB => unsigned(a) - unsigned(b),
        // "It is irrelevant whether the numbers are signed or not."
        isa::MUL => signed(a) * signed(b),
        isa::DIV_SIGNED => divide(signed(a), signed(b))?.quotient,
        isa::DIV_UNSIGNED => divide(unsigned(a), unsigned(b))?.quotient,
        isa::REM_SIGNED => divide(signed(a), signed(b))?.remainder,
        isa::REM_UNSIGNED => divide(unsigned(a), unsigned(b))?.remainder,
        isa::LSH => shifted(a, b, |a| unsigned(a) * 2),
        // Rounding down is "inserting copies of the top bit at the high end".
        isa::RSH_SIGNED => shifted(a, b, |a| signed(a).div_euclid(2)),
        isa::RSH_UNSIGNED => shifted(a, b, |a| unsigned(a) / 2),
        isa::BIT_AND => unsigned(a & b),
        isa::BIT_OR => unsigned(a | b),
        isa::BIT_XOR => unsigned(a ^ b),
        isa::EQUAL => i128::from(a == b),
        isa::LESS_SIGNED => i128::from(signed(a) < signed(b)),
        isa::LESS_UNSIGNED => i128::from(unsigned(a) < unsigned(b)),
        _ => panic!("{opcode:02x} is no operator of two cells"),
    };
    Ok(word(number))
}

struct Division {
    quotient: i128,
    remainder: i128,
}

/// "Signed division rounds toward zero; the remainder has the dividend's sign."
/// That is what `/` and `%` do.
fn divide(a: i128, b: i128) -> Result<Division, u8> {
    if b == 0 {
        return Err(DIVISOR_ZERO);
    }
    Ok(Division {
        quotient: a / b,
        remainder: a % b,
    })
}

/// Shifts by one bit, as often as the count says: M-100, "names no limit". Where
/// one of them changes nothing, no later one does.
fn shifted(mut a: u64, count: u64, by_one: fn(u64) -> i128) -> i128 {
    for _ in 0..count {
        let before = a;
        a = word(by_one(a));
        if a == before {
            break;
        }
    }
    unsigned(a)
}

/// "if it is zero, push the value one; otherwise, push the value zero."
pub fn log_not(a: u64) -> u64 {
    u64::from(a == 0)
}

pub fn bit_not(a: u64) -> u64 {
    word(WORDS - 1 - unsigned(a))
}

/// ext `n`: "all bits to the left of bit n-1 are set to the value of bit n-1".
/// "N from 64 up: no change; N = 0 is an operand fault", so `n` is not 0 here.
pub fn ext(n: u8, a: u64) -> u64 {
    assert!(n > 0, "ext 0 is refused with 5");
    if n >= 64 {
        return a;
    }
    let kept = unsigned(zero_ext(n, a));
    let negative = kept >= 1 << (n - 1);
    word(if negative { kept - (1 << n) } else { kept })
}

/// zero_ext `n`: "zero all but the bottom n bits"; "zero_ext 0 gives 0; from 64
/// up, no change".
pub fn zero_ext(n: u8, a: u64) -> u64 {
    if n >= 64 {
        return a;
    }
    word(unsigned(a) % (1 << n))
}

#[cfg(test)]
mod tests {
    use super::*;
    use crate::random::Random;

    const LEAST: u64 = 1 << 63;
    const MINUS_1: u64 = u64::MAX;

    /// Document 01, "Examples" and "Meanings the manual leaves open".
    #[test]
    fn the_documents_examples() {
        assert_eq!(binary(isa::ADD, 5, 3), Ok(8));
        assert_eq!(ext(8, 0x80), 0_u64.wrapping_sub(128));
        assert_eq!(ext(1, 1), MINUS_1);
        assert_eq!(binary(isa::DIV_SIGNED, LEAST, MINUS_1), Ok(LEAST));
        assert_eq!(binary(isa::REM_SIGNED, LEAST, MINUS_1), Ok(0));
        assert_eq!(binary(isa::DIV_SIGNED, 1, 0), Err(17));
        assert_eq!((zero_ext(0, 7), zero_ext(64, 7), ext(64, 7)), (0, 7, 7));
    }

    /// M-100: "63, 64, 65 and 2^64 − 1", and no copy of the word at 64.
    #[test]
    fn shifts_by_64_and_more() {
        let minus_3 = 0_u64.wrapping_sub(3);
        for (opcode, a, by_63, by_more) in [
            (isa::LSH, 3, LEAST, 0),
            (isa::LSH, minus_3, LEAST, 0),
            (isa::RSH_SIGNED, 3, 0, 0),
            (isa::RSH_SIGNED, minus_3, MINUS_1, MINUS_1),
            (isa::RSH_UNSIGNED, 3, 0, 0),
            (isa::RSH_UNSIGNED, minus_3, 1, 0),
        ] {
            assert_eq!(binary(opcode, a, 63), Ok(by_63));
            for count in [64, 65, 127, 128, 1 << 32, LEAST, MINUS_1] {
                assert_eq!(binary(opcode, a, count), Ok(by_more), "{a:x} by {count}");
            }
        }
    }

    #[test]
    fn signs_of_quotients_and_remainders() {
        for (a, b, quotient, remainder) in [(7, 2, 3, 1), (-7, 2, -3, -1), (7, -2, -3, 1)] {
            let (a, b): (i64, i64) = (a, b);
            let found = |opcode| binary(opcode, a as u64, b as u64).map(|word| word as i64);
            assert_eq!(found(isa::DIV_SIGNED), Ok(quotient));
            assert_eq!(found(isa::REM_SIGNED), Ok(remainder));
        }
    }

    /// The same by the operations that the machine has for 64 bits.
    fn by_machine(opcode: u8, a: u64, b: u64) -> Option<u64> {
        let (i, j) = (a as i64, b as i64);
        let count = b.min(64) as u32;
        Some(match opcode {
            isa::ADD => a.wrapping_add(b),
            isa::SUB => a.wrapping_sub(b),
            isa::MUL => a.wrapping_mul(b),
            isa::DIV_SIGNED | isa::REM_SIGNED if b == 0 => return None,
            isa::DIV_SIGNED => i.wrapping_div(j) as u64,
            isa::DIV_UNSIGNED => a.checked_div(b)?,
            isa::REM_SIGNED => i.wrapping_rem(j) as u64,
            isa::REM_UNSIGNED => a.checked_rem(b)?,
            isa::LSH => a.checked_shl(count).unwrap_or(0),
            isa::RSH_SIGNED => (i >> count.min(63)) as u64,
            isa::RSH_UNSIGNED => a.checked_shr(count).unwrap_or(0),
            isa::BIT_AND => !(!a | !b),
            isa::BIT_OR => !(!a & !b),
            isa::BIT_XOR => (a | b) - (a & b),
            isa::EQUAL => u64::from(a ^ b == 0),
            isa::LESS_SIGNED => u64::from(i < j),
            isa::LESS_UNSIGNED => u64::from(a < b),
            _ => panic!("no operator of two cells"),
        })
    }

    #[test]
    fn the_machine_agrees() {
        let mut random = Random::new(3);
        let rows: Vec<_> = isa::TABLE.iter().filter(|row| row.is_binary()).collect();
        assert_eq!(rows.len(), 16);
        for _ in 0..20_000 {
            let [a, b] = [(); 2].map(|()| {
                let any = random.number() >> random.below(64);
                random.choose(&[
                    any,
                    any,
                    any.wrapping_neg(),
                    LEAST,
                    LEAST - 1,
                    0,
                    1,
                    63,
                    64,
                    65,
                    MINUS_1,
                ])
            });
            for row in &rows {
                let machine = by_machine(row.opcode, a, b).ok_or(17);
                assert_eq!(
                    binary(row.opcode, a, b),
                    machine,
                    "{} {a:x} {b:x}",
                    row.name
                );
            }
            assert_eq!(bit_not(a), !a);
            assert_eq!(log_not(a) == 1, a == 0);
        }
    }

    #[test]
    fn extensions_bit_by_bit() {
        let mut random = Random::new(4);
        for n in 0..=255 {
            for _ in 0..50 {
                let a = random.number();
                let kept = |place: u32| place < u32::from(n);
                let bit = |place: u32| a >> place & 1;
                for place in 0..64 {
                    let zeroed = if kept(place) { bit(place) } else { 0 };
                    assert_eq!(zero_ext(n, a) >> place & 1, zeroed);
                    if n > 0 {
                        let top = u32::from(n).min(64) - 1;
                        assert_eq!(ext(n, a) >> place & 1, bit(place.min(top)));
                    }
                }
            }
        }
    }
}
