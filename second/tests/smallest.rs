//! Smallest ranges: every pair of words of small formats against samples of exact members.

mod common;

use common::done;
use second::range;

/// Samples are whole multiples of 2^-FINE, so that open ends are missed by very little.
const FINE: u32 = 30;
/// The sample that stands for "as large as you like".
const LARGE: i128 = 1 << (24 + FINE);

/// An end of a range: nothing when unbounded, otherwise its place among the posits and openness.
type End = Option<(usize, bool)>;

/// A real range as this test reads it, or nothing inside when empty.
struct Real {
    word: u64,
    ends: Option<(End, End)>,
}

/// A small format: its finite values from the lowest up, in units of 2^-FINE.
struct Small {
    n: u32,
    es: u32,
    values: Vec<i128>,
}

/// Powers of two alone can occur in these formats, so a posit is its sign and its scale.
fn small(n: u32, es: u32, scales: &[i32]) -> Small {
    let positive = scales.iter().map(|scale| 1i128 << (FINE as i32 + scale));
    let negative = positive.clone().rev().map(|value| -value);
    let values = negative.chain([0]).chain(positive).collect();
    Small { n, es, values }
}

fn formats() -> Vec<Small> {
    vec![
        small(3, 0, &[-1, 0, 1]),
        small(3, 1, &[-2, 0, 2]),
        small(3, 2, &[-4, 0, 4]),
        small(4, 1, &[-4, -2, -1, 0, 1, 2, 4]),
    ]
}

impl Small {
    /// The kind of a word by signed patterns; nothing when it holds infinity.
    fn real(&self, word: u64) -> Option<Real> {
        let middle = self.values.len() as u64 / 2;
        let (nar, size) = (1u64 << (self.n - 1), 1u64 << self.n);
        let end = |tile: u64| match tile / 2 == nar {
            true => (tile % 2 == 1).then_some(None),
            // Signed patterns run from 1 above NaR up, through 0, to 1 below NaR.
            false => Some(Some((((tile / 2 + middle) % size) as usize, tile % 2 == 1))),
        };
        let (start, end) = (end(word / (2 * size))?, end(word % (2 * size))?);
        let ends = match (start, end) {
            (Some((a, _)), Some((b, _))) if a > b => return None,
            (Some((a, p)), Some((b, q))) if a == b && p != q => return None,
            (Some((a, true)), Some((b, true))) if a == b => None,
            ends => Some(ends),
        };
        Some(Real { word, ends })
    }

    fn reals(&self) -> Vec<Real> {
        let words = 0..1u64 << (2 * self.n + 2);
        words.filter_map(|word| self.real(word)).collect()
    }

    /// Whether over / (under · 2^FINE units) is a member; under is above 0.
    fn holds(&self, real: &Real, over: i128, under: i128) -> bool {
        let Some((start, end)) = real.ends else {
            return false;
        };
        let at = |place: usize| self.values[place] * under;
        let above = start.is_none_or(|(p, open)| at(p) < over || (!open && at(p) == over));
        let below = end.is_none_or(|(p, open)| over < at(p) || (!open && at(p) == over));
        above && below
    }

    /// Members at and very near both ends, very large ones, zero, and inner points.
    fn sample(&self, real: &Real, dense: bool) -> Vec<i128> {
        let near = |place: usize| [0, 1, -1].map(|step| self.values[place] + step);
        let zero = self.values.len() / 2;
        let mut points: Vec<i128> = near(zero).to_vec();
        for (place, _) in real.ends.into_iter().flat_map(|(a, b)| [a, b]).flatten() {
            points.extend(near(place));
        }
        points.extend([-LARGE, LARGE]);
        let places = 0..self.values.len();
        for place in places.filter(|_| dense) {
            points.extend(near(place));
            let next = self.values.get(place + 1).copied();
            points.push((self.values[place] + next.unwrap_or(LARGE)) / 2);
        }
        points.sort();
        points.dedup();
        points.retain(|point| self.holds(real, *point, 1));
        points
    }

    /// Whether the answer's start could not be one step further in: on a closed start lies a
    /// result, and past an open one a result comes before the next posit.
    fn tight(&self, answer: &Real, results: &[(i128, i128)]) -> (bool, bool) {
        let Some((start, end)) = answer.ends else {
            return (results.is_empty(), results.is_empty());
        };
        let count = self.values.len();
        let low = |(over, under): &(i128, i128)| match start {
            Some((place, false)) => *over == self.values[place] * under,
            Some((place, true)) if place + 1 == count => true,
            Some((place, true)) => *over < self.values[place + 1] * under,
            None => *over < self.values[0] * under,
        };
        let high = |(over, under): &(i128, i128)| match end {
            Some((place, false)) => *over == self.values[place] * under,
            Some((0, true)) => true,
            Some((place, true)) => *over > self.values[place - 1] * under,
            None => *over > self.values[count - 1] * under,
        };
        (results.iter().any(low), results.iter().any(high))
    }
}

/// The exact result of two members as over / (under units); nothing for a zero divisor.
fn exact(op: u32, x: i128, y: i128) -> Option<(i128, i128)> {
    match op {
        0 => Some((x + y, 1)),
        1 => Some((x - y, 1)),
        2 => Some((x * y, 1 << FINE)),
        _ if y == 0 => None,
        _ => Some(((x * y.signum()) << FINE, y.abs())),
    }
}

/// One pair of words under one operation.
fn check(format: &Small, op: u32, a: &(Real, Vec<i128>), b: &(Real, Vec<i128>)) {
    let answer = range::operate(format.n, format.es, op, a.0.word, b.0.word);
    if op == 3 && b.1.contains(&0) {
        assert_eq!((answer.number, answer.place, answer.value), (5, 1, 0));
        return;
    }
    assert_eq!((answer.number, answer.place), (0, 0));
    let real = format.real(answer.value).expect("an answer is real");
    let pairs = a.1.iter().flat_map(|x| b.1.iter().map(move |y| (*x, *y)));
    let results: Vec<(i128, i128)> = pairs.filter_map(|(x, y)| exact(op, x, y)).collect();
    let case = (format.n, format.es, op, a.0.word, b.0.word);
    for (over, under) in &results {
        assert!(
            format.holds(&real, *over, *under),
            "{case:?} loses a result"
        );
    }
    assert_eq!(
        format.tight(&real, &results),
        (true, true),
        "{case:?} is wide"
    );
    if results.is_empty() {
        assert_eq!(
            answer.value,
            (2 << format.n) + 1,
            "{case:?} is not 0 open twice"
        );
    }
}

#[test]
fn every_pair_of_small_ranges() {
    for format in formats() {
        let reals = format.reals().into_iter();
        let dense = format.n == 3;
        let with_samples = |real: Real| {
            let sample = format.sample(&real, dense);
            (real, sample)
        };
        let reals: Vec<(Real, Vec<i128>)> = reals.map(with_samples).collect();
        for a in &reals {
            for b in &reals {
                for op in 0..4 {
                    check(&format, op, a, b);
                }
            }
        }
    }
}

#[test]
fn words_that_hold_infinity_are_refused_4() {
    for format in formats() {
        for word in 0..1u64 << (2 * format.n + 2) {
            let number = range::negate(format.n, format.es, word).number;
            let expected = if format.real(word).is_some() { 0 } else { 4 };
            assert_eq!(number, expected);
        }
    }
}

#[test]
fn negations_of_small_ranges() {
    for format in formats() {
        for real in format.reals() {
            let answer = range::negate(format.n, format.es, real.word).value;
            let negated = format.real(answer).expect("a negation is real");
            let sample = format.sample(&real, true);
            let results: Vec<(i128, i128)> = sample.iter().map(|x| (-x, 1)).collect();
            assert!(results.iter().all(|(x, _)| format.holds(&negated, *x, 1)));
            assert_eq!(format.tight(&negated, &results), (true, true));
        }
    }
}

#[test]
fn comparisons_of_small_ranges() {
    for format in formats().into_iter().filter(|format| format.n == 3) {
        let (n, es) = (format.n, format.es);
        let reals = format.reals();
        let samples: Vec<Vec<i128>> = reals.iter().map(|r| format.sample(r, true)).collect();
        for (a, x) in reals.iter().zip(&samples) {
            for (b, y) in reals.iter().zip(&samples) {
                let inside = x.iter().all(|x| format.holds(b, *x, 1));
                assert_eq!(range::inside(n, es, a.word, b.word), done(inside));
                let meets = x.iter().any(|x| format.holds(b, *x, 1));
                assert_eq!(range::meets(n, es, a.word, b.word), done(meets));
                let below = x.iter().all(|x| y.iter().all(|y| x < y));
                assert_eq!(range::below(n, es, a.word, b.word), done(below));
            }
        }
    }
}
