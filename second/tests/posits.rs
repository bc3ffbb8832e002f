//! Posits: round trips, order, negation, extreme codes and every refusal of posit calls.

mod common;

use common::{done, formats, refused, OUTSIDE};
use second::posit::{self, Decoded};
use std::cmp::Ordering;

/// The pattern as a signed integer of n bits.
fn signed(n: u32, pattern: u64) -> i64 {
    let pattern = pattern as i64;
    if pattern >> (n - 1) == 1 {
        pattern - (1 << n)
    } else {
        pattern
    }
}

fn finite(negative: bool, scale: i32, fraction: u32) -> Decoded {
    Decoded::Finite {
        negative,
        scale,
        fraction,
    }
}

#[test]
fn every_pattern_decoded_and_encoded_comes_back() {
    for (n, es) in formats() {
        for pattern in 0..1u64 << n {
            let decoded = posit::decode(n, es, pattern);
            assert_eq!((decoded.number, decoded.place), (0, 0));
            match decoded.value {
                Decoded::Zero => assert_eq!(pattern, 0),
                Decoded::Nar => assert_eq!(pattern, 1 << (n - 1)),
                Decoded::Finite { fraction, .. } => assert_eq!(fraction % 2, 1),
            }
            assert_eq!(posit::encode(n, es, decoded.value), done(pattern));
        }
    }
}

#[test]
fn values_rise_with_the_signed_pattern() {
    for (n, es) in formats() {
        let half = 1i64 << (n - 1);
        let of = |number: i64| (number & ((1 << n) - 1)) as u64;
        for number in -half..half - 1 {
            let order = posit::compare(n, es, of(number), of(number + 1));
            assert_eq!(order, done(Ordering::Less));
        }
    }
}

#[test]
fn comparison_is_that_of_signed_integers() {
    for (n, es) in formats().filter(|format| format.0 <= 8) {
        for left in 0..1u64 << n {
            for right in 0..1u64 << n {
                let order = signed(n, left).cmp(&signed(n, right));
                assert_eq!(posit::compare(n, es, left, right), done(order));
            }
        }
    }
}

#[test]
fn negation_wraps_at_n_bits() {
    for (n, es) in formats() {
        for pattern in 0..1u64 << n {
            let wrapped = pattern.wrapping_neg() & ((1 << n) - 1);
            assert_eq!(posit::negate(n, es, pattern), done(wrapped));
        }
    }
}

#[test]
fn decoded_forms() {
    assert_eq!(posit::decode(8, 2, 0x40), done(finite(false, 0, 1)));
    assert_eq!(posit::decode(8, 2, 0x4c), done(finite(false, 0, 3)));
    assert_eq!(posit::decode(8, 2, 0xb8), done(finite(true, 1, 1)));
    assert_eq!(posit::decode(8, 2, 0x7f), done(finite(false, 24, 1)));
    assert_eq!(posit::decode(8, 2, 0x01), done(finite(false, -24, 1)));
    assert_eq!(posit::decode(16, 2, 0x7401), done(finite(false, 1, 513)));
    assert_eq!(posit::decode(3, 1, 0x3), done(finite(false, 2, 1)));
}

#[test]
fn encoding_takes_every_fraction_and_scale() {
    for (n, es) in formats() {
        let (nar, max) = (1u64 << (n - 1), (1u64 << (n - 1)) - 1);
        let all = (1u64 << n) - 1;
        assert_eq!(posit::encode(n, es, Decoded::Nar), done(nar));
        assert_eq!(posit::encode(n, es, Decoded::Zero), done(0));
        for scale in [i32::MIN, i32::MIN + 1, -129, -1, 0, 1, 129, i32::MAX] {
            assert_eq!(posit::encode(n, es, finite(false, scale, 0)), done(0));
            assert_eq!(posit::encode(n, es, finite(true, scale, 0)), done(0));
        }
        for fraction in [1, 2, 3, 1 << 31, u32::MAX] {
            for scale in [57, 128, 129, i32::MAX - 31, i32::MAX] {
                let codes = [false, true].map(|sign| finite(sign, scale, fraction));
                assert_eq!(posit::encode(n, es, codes[0]), done(max));
                assert_eq!(posit::encode(n, es, codes[1]), done(nar + 1));
            }
            for scale in [-89, -128, -129, i32::MIN + 31, i32::MIN] {
                let codes = [false, true].map(|sign| finite(sign, scale, fraction));
                assert_eq!(posit::encode(n, es, codes[0]), done(1));
                assert_eq!(posit::encode(n, es, codes[1]), done(all));
            }
        }
        for shift in 0..32 {
            let one = posit::encode(n, es, finite(false, -shift, 1 << shift));
            assert_eq!(one, done(1 << (n - 2)));
        }
    }
}

#[test]
fn nar_and_zero_divisors_give_nar() {
    for (n, es) in formats().filter(|format| format.0 <= 8) {
        let nar = 1u64 << (n - 1);
        for pattern in 0..1u64 << n {
            for op in 0..4 {
                assert_eq!(posit::operate(n, es, op, pattern, nar), done(nar));
                assert_eq!(posit::operate(n, es, op, nar, pattern), done(nar));
            }
            assert_eq!(posit::divide(n, es, pattern, 0), done(nar));
        }
    }
}

#[test]
fn refusal_1_comes_first() {
    for (n, es) in OUTSIDE {
        let big = u64::MAX;
        assert_eq!(posit::decode(n, es, big), refused(1, 0, Decoded::Zero));
        assert_eq!(posit::encode(n, es, Decoded::Nar), refused(1, 0, 0));
        let equal = Ordering::Equal;
        assert_eq!(posit::compare(n, es, 0, big), refused(1, 0, equal));
        assert_eq!(posit::negate(n, es, big), refused(1, 0, 0));
        assert_eq!(posit::operate(n, es, 9, big, big), refused(1, 0, 0));
    }
}

#[test]
fn refusals_2_and_3_with_places() {
    for (n, es) in formats() {
        for big in [1u64 << n, (1 << n) + 1, 1 << 32, 1 << 63, u64::MAX] {
            assert_eq!(posit::decode(n, es, big), refused(3, 0, Decoded::Zero));
            assert_eq!(posit::negate(n, es, big), refused(3, 0, 0));
            let equal = Ordering::Equal;
            assert_eq!(posit::compare(n, es, big, 0), refused(3, 0, equal));
            assert_eq!(posit::compare(n, es, 1, big), refused(3, 1, equal));
            assert_eq!(posit::compare(n, es, big, big), refused(3, 0, equal));
            for op in [4, 5, 255, 256, u32::MAX] {
                assert_eq!(posit::operate(n, es, op, big, big), refused(2, 0, 0));
            }
            for op in 0..4 {
                assert_eq!(posit::operate(n, es, op, big, big), refused(3, 0, 0));
                assert_eq!(posit::operate(n, es, op, big, 0), refused(3, 0, 0));
                assert_eq!(posit::operate(n, es, op, 0, big), refused(3, 1, 0));
            }
        }
    }
}
