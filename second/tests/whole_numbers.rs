//! Whole numbers and fractions, against 128-bit integers and against the laws of arithmetic.

mod common;

use common::Sequence;
use second::big::Big;
use second::ratio::Ratio;

/// Numbers of all sizes up to 60 bits with both signs, often near a power of two.
fn small(sequence: &mut Sequence) -> i128 {
    let bits = sequence.next() % 61;
    let size = i128::from(sequence.next() & ((1 << bits) - 1));
    match sequence.next() % 4 {
        0 => size,
        1 => -size,
        2 => (1 << bits) - size % 3,
        _ => size % 3 - (1 << bits),
    }
}

#[test]
fn small_numbers_agree_with_machine_integers() {
    let mut sequence = Sequence(1);
    for _ in 0..20_000 {
        let (a, b) = (small(&mut sequence), small(&mut sequence));
        let (x, y) = (Big::from(a), Big::from(b));
        assert_eq!(x.plus(&y), Big::from(a + b));
        assert_eq!(x.minus(&y), Big::from(a - b));
        assert_eq!(x.times(&y), Big::from(a * b));
        assert_eq!(x.cmp(&y), a.cmp(&b));
        assert_eq!(x.negated(), Big::from(-a));
        assert_eq!(x.absolute(), Big::from(a.abs()));
        assert_eq!(x.shifted(50), Big::from(a << 50));
        assert_eq!(x.is_zero(), a == 0);
        assert_eq!(x.is_negative(), a < 0);
    }
}

/// A number of several limbs, with runs of ones and zeros so that carries go far.
fn large(sequence: &mut Sequence) -> Big {
    let mut number = Big::from(0);
    for _ in 0..sequence.next() % 8 {
        let limb = match sequence.next() % 3 {
            0 => sequence.next(),
            1 => u64::MAX,
            _ => 0,
        };
        number = number.shifted(64).plus(&Big::from(i128::from(limb)));
    }
    if sequence.next() % 2 == 0 {
        number.negated()
    } else {
        number
    }
}

#[test]
fn large_numbers_keep_the_laws() {
    let mut sequence = Sequence(2);
    for _ in 0..5_000 {
        let (a, b) = (large(&mut sequence), large(&mut sequence));
        let c = large(&mut sequence);
        assert_eq!(a.plus(&b), b.plus(&a));
        assert_eq!(a.plus(&b).minus(&b), a);
        assert_eq!(a.times(&b), b.times(&a));
        let (left, right) = (a.plus(&b).times(&c), a.times(&c).plus(&b.times(&c)));
        assert_eq!(left, right);
        assert_eq!(a.times(&Big::power_of_two(77)), a.shifted(77));
        let difference = a.minus(&b);
        assert_eq!(a < b, difference.is_negative());
        assert_eq!(a == b, difference.is_zero());
    }
}

#[test]
fn fractions_compare_by_cross_products() {
    let mut sequence = Sequence(3);
    let one = Ratio::scaled(1, 0);
    for _ in 0..5_000 {
        let (a, b) = (small(&mut sequence), small(&mut sequence));
        let power = (sequence.next() % 100) as i32 - 50;
        let (x, y) = (Ratio::scaled(a, power), Ratio::scaled(b, power));
        assert_eq!(x.cmp(&y), a.cmp(&b));
        assert_eq!(x.minus(&y), Ratio::scaled(a - b, power));
        assert_eq!(x.times(&y), Ratio::scaled(a * b, 2 * power));
        match x.inverse() {
            Some(inverse) => assert_eq!(x.times(&inverse), one),
            None => assert_eq!(a, 0),
        }
    }
}
