//! Random posits and range words, biased to those where the rules have their cases.

use crate::random::Random;

/// Zero, NaR, ±1, ±minPos and ±maxPos.
fn special(random: &mut Random, n: u32) -> u32 {
    let nar = 1 << (n - 1);
    let one = nar / 2;
    let patterns = [0, nar, one, nar + one, 1, 2 * nar - 1, nar - 1, nar + 1];
    patterns[random.below(8) as usize]
}

/// A pattern, its negative, or a neighbour of either.
fn near(random: &mut Random, n: u32, pattern: u32) -> u32 {
    let signed = if random.flag() {
        pattern
    } else {
        pattern.wrapping_neg()
    };
    let step = random.below(3) as u32;
    signed.wrapping_add(step).wrapping_sub(1) % (1 << n)
}

/// Any pattern in five of eight, a special one in two, and a neighbour of a special one in one.
pub fn posit(random: &mut Random, n: u32) -> u32 {
    match random.below(8) {
        0 | 1 => special(random, n),
        2 => {
            let pattern = special(random, n);
            near(random, n, pattern)
        }
        _ => random.below(1 << n) as u32,
    }
}

/// Two patterns, the second beside the first or its negative in one of four.
pub fn posits(random: &mut Random, n: u32) -> (u32, u32) {
    let left = posit(random, n);
    let right = if random.below(4) == 0 {
        near(random, n, left)
    } else {
        posit(random, n)
    };
    (left, right)
}

/// The start and the end posit of a range, in order in most; equal in one of six, unbounded above in one of six.
fn ends(random: &mut Random, n: u32, others: &[u32]) -> (u32, u32) {
    let start = end(random, n, others);
    let end = match random.below(6) {
        0 => start,
        1 => 1 << (n - 1),
        _ => end(random, n, others),
    };
    let above = signed(n, end) < signed(n, start) && end != 1 << (n - 1);
    if above && random.below(16) != 0 {
        (end, start)
    } else {
        (start, end)
    }
}

/// One of the others in one of three.
fn end(random: &mut Random, n: u32, others: &[u32]) -> u32 {
    if !others.is_empty() && random.below(3) == 0 {
        others[random.below(others.len() as u64) as usize]
    } else {
        posit(random, n)
    }
}

fn signed(n: u32, pattern: u32) -> i32 {
    (pattern << (32 - n)) as i32
}

/// An open mark: NaR is nearly always open, and any other end in one of two.
fn tile(random: &mut Random, n: u32, posit: u32) -> u64 {
    let open = if posit == 1 << (n - 1) {
        random.below(16) != 0
    } else {
        random.flag()
    };
    2 * u64::from(posit) + u64::from(open)
}

fn word(random: &mut Random, n: u32, (start, end): (u32, u32)) -> u64 {
    // The same finite posit twice is a point or empty, and the full circle only now and then.
    let (start_tile, end_tile) = (tile(random, n, start), tile(random, n, end));
    let circle = start == end && start_tile != end_tile && random.below(8) != 0;
    let end_tile = if circle { start_tile } else { end_tile };
    (start_tile << (n + 1)) + end_tile
}

/// Two range words that share ends in many.
pub fn words(random: &mut Random, n: u32) -> (u64, u64) {
    let left = ends(random, n, &[]);
    let right = ends(random, n, &[left.0, left.1]);
    (word(random, n, left), word(random, n, right))
}
