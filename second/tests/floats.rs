//! Floats: round trips of every pattern, special floats, and the refusals.

mod common;

use common::{done, formats, refused, OUTSIDE};
use second::float::{self, Floated};
use second::ratio::Ratio;

#[test]
fn every_pattern_goes_out_and_comes_back() {
    for (n, es) in formats() {
        let nar = 1u64 << (n - 1);
        let mut last = f64::NEG_INFINITY;
        for pattern in (nar + 1..2 * nar).chain(0..nar) {
            let out = float::to_float(n, es, pattern);
            let Floated::Value(value) = out.value else {
                panic!("{pattern:x} is no NaR");
            };
            assert_eq!((out.number, out.place), (0, 0));
            assert!(last < value && value < f64::INFINITY);
            last = value;
            assert_eq!(float::from_float(n, es, value), done(pattern));
        }
        assert_eq!(float::to_float(n, es, nar), done(Floated::Nar));
    }
}

#[test]
fn zero_goes_out_as_plus_zero() {
    for (n, es) in formats() {
        match float::to_float(n, es, 0).value {
            Floated::Value(zero) => assert_eq!(zero.to_bits(), 0),
            Floated::Nar => panic!("zero is no NaR"),
        }
    }
}

#[test]
fn special_floats_come_in() {
    let nans = [f64::NAN, -f64::NAN, f64::from_bits(0x7ff0_0000_0000_0001)];
    for (n, es) in formats() {
        let (nar, all) = (1u64 << (n - 1), (1u64 << n) - 1);
        for float in [f64::INFINITY, f64::NEG_INFINITY].into_iter().chain(nans) {
            assert_eq!(float::from_float(n, es, float), done(nar));
        }
        for zero in [0.0, -0.0] {
            assert_eq!(float::from_float(n, es, zero), done(0));
        }
        let tiny = [1, (1 << 52) - 1, 1 << 52].map(f64::from_bits);
        for float in tiny.into_iter().chain([f64::MIN_POSITIVE, 1e-30]) {
            assert_eq!(float::from_float(n, es, float), done(1));
            assert_eq!(float::from_float(n, es, -float), done(all));
        }
        for float in [f64::MAX, 1e300, 1e30] {
            assert_eq!(float::from_float(n, es, float), done(nar - 1));
            assert_eq!(float::from_float(n, es, -float), done(nar + 1));
        }
    }
}

#[test]
fn exact_values_of_floats() {
    let exact = |float: f64| float::exact(float).unwrap();
    assert_eq!(exact(f64::from_bits(1)), Ratio::scaled(1, -1074));
    let subnormal = f64::from_bits((1 << 52) - 1);
    assert_eq!(exact(subnormal), Ratio::scaled((1 << 52) - 1, -1074));
    assert_eq!(exact(f64::MIN_POSITIVE), Ratio::scaled(1, -1022));
    assert_eq!(exact(f64::MAX), Ratio::scaled((1 << 53) - 1, 971));
    assert_eq!(exact(-0.0), Ratio::scaled(0, 0));
    assert_eq!(exact(-1.5), Ratio::scaled(-3, -1));
    assert_eq!(exact(1.0), Ratio::scaled(1, 0));
    assert!(float::exact(f64::NAN).is_none());
    assert!(float::exact(f64::NEG_INFINITY).is_none());
}

#[test]
fn refusals() {
    let zero = Floated::Value(0.0);
    for (n, es) in OUTSIDE {
        assert_eq!(float::from_float(n, es, f64::NAN), refused(1, 0, 0));
        assert_eq!(float::to_float(n, es, u64::MAX), refused(1, 0, zero));
    }
    for (n, es) in formats() {
        for big in [1u64 << n, u64::MAX] {
            assert_eq!(float::to_float(n, es, big), refused(3, 0, zero));
        }
    }
}
