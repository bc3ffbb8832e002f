//! Readings: every special float coming in, every kind of range going out, and the refusals.

mod common;

use common::{done, formats, refused, OUTSIDE};
use second::float::{self, Floated};
use second::range;
use second::reading::{self, Outgoing, Reading};
use second::refusal::Answer;

const INFINITY: f64 = f64::INFINITY;

fn take_in(low: f64, high: f64) -> Answer<u64> {
    reading::take_in(8, 2, Reading { low, high })
}

fn word(text: &str) -> u64 {
    common::word(8, text)
}

#[test]
fn readings_come_in() {
    let cases = [
        (1.0, 2.0, "40 c 48 c"),
        (1.0, 1.0, "40 c 40 c"),
        (0.0, 0.0, "00 c 00 c"),
        (-0.0, -0.0, "00 c 00 c"),
        (0.0, -0.0, "00 c 00 c"),
        (-0.0, 0.0, "00 c 00 c"),
        (-INFINITY, INFINITY, "80 o 80 o"),
        (-INFINITY, 1.0, "80 o 40 c"),
        (1.0, INFINITY, "40 c 80 o"),
        (-INFINITY, -0.0, "80 o 00 c"),
        (1.0, 1.01, "40 c 41 o"),
        (1.01, 1.02, "40 o 41 o"),
        (-1.02, -1.01, "bf o c0 o"),
        (1e30, 1e30, "7f o 80 o"),
        (-1e30, 1e30, "80 o 80 o"),
        (-1e30, -1e30, "80 o 81 o"),
        (f64::MIN, f64::MAX, "80 o 80 o"),
        (1e-30, 1e-30, "00 o 01 o"),
        (-1e-30, 1e-30, "ff o 01 o"),
        (f64::from_bits(1), f64::from_bits(1), "00 o 01 o"),
        (-f64::from_bits(1), 0.0, "ff o 00 c"),
        (16_777_216.0, 16_777_216.0, "7f c 7f c"),
        (16_777_216.0, 16_777_217.0, "7f c 80 o"),
        (f64::MAX, INFINITY, "7f o 80 o"),
    ];
    for (low, high, text) in cases {
        assert_eq!(take_in(low, high), done(word(text)), "{low} to {high}");
    }
}

#[test]
fn readings_are_refused_6() {
    let nan = f64::NAN;
    let cases = [
        (nan, 1.0),
        (1.0, nan),
        (nan, nan),
        (-nan, INFINITY),
        (INFINITY, INFINITY),
        (-INFINITY, -INFINITY),
        (INFINITY, -INFINITY),
        (INFINITY, 1.0),
        (1.0, -INFINITY),
        (2.0, 1.0),
        (f64::from_bits(1), 0.0),
        (f64::from_bits(1), -0.0),
        (0.0, -f64::from_bits(1)),
        (-1.0, -2.0),
        (f64::MAX, f64::MIN),
    ];
    for (low, high) in cases {
        assert_eq!(take_in(low, high), refused(6, 0, 0), "{low} to {high}");
        for (n, es) in OUTSIDE {
            let answer = reading::take_in(n, es, Reading { low, high });
            assert_eq!(answer, refused(1, 0, 0));
        }
    }
}

/// A posit's own float comes in as the closed point, and a point goes out as that float twice.
#[test]
fn every_posit_is_a_point() {
    for (n, es) in formats() {
        let nar = 1u64 << (n - 1);
        for pattern in (0..2 * nar).filter(|pattern| *pattern != nar) {
            let Floated::Value(x) = float::to_float(n, es, pattern).value else {
                panic!("{pattern:x} is no NaR");
            };
            let point = (2 * pattern) * (4 * nar) + 2 * pattern;
            let came = reading::take_in(n, es, Reading { low: x, high: x });
            assert_eq!(came, done(point));
            let out = reading::give_out(n, es, point).value;
            assert_eq!(out.low.to_bits(), x.to_bits());
            assert_eq!(out.high.to_bits(), x.to_bits());
            assert_eq!(
                (out.low_open, out.high_open, out.empty),
                (false, false, false)
            );
        }
    }
}

/// A reading's range holds it and nothing beyond its neighbours, at the widest format.
#[test]
fn readings_lie_inside_their_ranges() {
    let mut sequence = common::Sequence(4);
    for _ in 0..20_000 {
        let [a, b] = [(); 2].map(|_| f64::from_bits(sequence.next()));
        if !a.is_finite() || !b.is_finite() {
            continue;
        }
        let (low, high) = if a < b { (a, b) } else { (b, a) };
        let both = reading::take_in(16, 2, Reading { low, high }).value;
        for x in [low, high, 0.0f64.clamp(low, high)] {
            let point = reading::take_in(16, 2, Reading { low: x, high: x }).value;
            assert_eq!(range::inside(16, 2, point, both), done(true));
        }
    }
}

fn out(text: &str) -> (u64, u64, bool, bool, bool) {
    let answer = reading::give_out(8, 2, word(text));
    assert_eq!((answer.number, answer.place), (0, 0));
    let Outgoing {
        low,
        high,
        low_open,
        high_open,
        empty,
    } = answer.value;
    (low.to_bits(), high.to_bits(), low_open, high_open, empty)
}

#[test]
fn ranges_go_out() {
    let bits = f64::to_bits;
    let (one, two) = (bits(1.0), bits(2.0));
    assert_eq!(out("40 c 48 o"), (one, two, false, true, false));
    assert_eq!(out("40 o 48 c"), (one, two, true, false, false));
    let infinities = (bits(-INFINITY), bits(INFINITY));
    let all = (infinities.0, infinities.1, true, true, false);
    assert_eq!(out("80 o 80 o"), all);
    assert_eq!(out("40 c 80 o"), (one, infinities.1, false, true, false));
    assert_eq!(out("80 o 40 c"), (infinities.0, one, true, false, false));
    assert_eq!(out("00 c 40 c"), (0, one, false, false, false));
    assert_eq!(out("c0 c 00 o"), (bits(-1.0), 0, false, true, false));
    for empty in ["00 o 00 o", "40 o 40 o", "81 o 81 o"] {
        assert_eq!(out(empty), (0, 0, true, true, true));
    }
}

#[test]
fn ranges_going_out_are_refused() {
    let none = Outgoing {
        low: 0.0,
        high: 0.0,
        low_open: false,
        high_open: false,
        empty: false,
    };
    for (n, es) in OUTSIDE {
        assert_eq!(reading::give_out(n, es, u64::MAX), refused(1, 0, none));
    }
    for (n, es) in formats() {
        let large = 1u64 << (2 * n + 2);
        for word in [large, large + 5, u64::MAX] {
            assert_eq!(reading::give_out(n, es, word), refused(3, 0, none));
        }
        let infinite = common::word(n, &format!("0 c {:x} c", 1u64 << (n - 1)));
        let answer = reading::give_out(n, es, infinite);
        assert_eq!(answer, refused(4, 0, none));
        assert_eq!(answer.value.low.to_bits(), 0);
        assert_eq!(answer.value.high.to_bits(), 0);
    }
}
