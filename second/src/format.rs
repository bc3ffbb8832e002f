//! Formats: the reading of every pattern by definition, the table of values, and the rounding rule.

use crate::big::Big;
use crate::ratio::Ratio;
use crate::refusal::{self, Refusal};
use std::cmp::Ordering;
use std::sync::OnceLock;

/// A width and an exponent size with the values of all patterns, made once and kept.
#[derive(Debug)]
pub struct Format {
    n: u32,
    es: u32,
    values: Vec<Option<i128>>,
    sorted: Vec<(i128, u64)>,
}

/// One place for each of the 14 widths and 3 exponent sizes.
static FORMATS: [OnceLock<Format>; 42] = [const { OnceLock::new() }; 42];

/// m of "maxPos is 2^m with m = (n-2)·2^es", for any width.
pub fn reach(width: u32, es: u32) -> u32 {
    (width - 2) << es
}

/// The value of a pattern in units of minPos = 2^-m of that width, or nothing for NaR.
pub fn read(width: u32, es: u32, pattern: u64) -> Option<i128> {
    let top = 1u64 << (width - 1);
    if pattern == 0 {
        Some(0)
    } else if pattern == top {
        None
    } else if pattern & top != 0 {
        // "negate the pattern, wrapping at n bits, and read the magnitude"
        Some(-magnitude(width, es, (1u64 << width) - pattern))
    } else {
        Some(magnitude(width, es, pattern))
    }
}

/// "2^(k·2^es + e)·(1 + F/2^f)" in units of 2^-m, from a pattern whose top bit is clear.
fn magnitude(width: u32, es: u32, pattern: u64) -> i128 {
    let bits: Vec<u64> = (0..width - 1).rev().map(|i| pattern >> i & 1).collect();
    let run = bits.iter().take_while(|bit| **bit == bits[0]).count();
    // "k = r-1 for ones and -r for zeros"
    let k = if bits[0] == 1 {
        run as i32 - 1
    } else {
        -(run as i32)
    };
    // "One closing bit follows if there is room"
    let rest = bits.get(run + 1..).unwrap_or(&[]);
    // "high bit first; those that don't fit are zero"
    let exponent = (0..es as usize).fold(0, |e, i| 2 * e + rest.get(i).copied().unwrap_or(0));
    let fraction = rest.get(es as usize..).unwrap_or(&[]);
    let f = fraction.len() as i32;
    let whole = fraction.iter().fold(1, |g, bit| 2 * g + i128::from(*bit));
    // whole is 2^f + F, and the power is not negative since every posit is a multiple of minPos.
    let power = (k << es) + exponent as i32 - f + reach(width, es) as i32;
    whole << power
}

impl Format {
    /// The format of a width and an exponent size, or refusal 1.
    pub fn of(n: u32, es: u32) -> Result<&'static Format, Refusal> {
        let outside = !(3..=16).contains(&n) || es > 2;
        refusal::refuse_if(outside, refusal::FORMAT, 0)?;
        let place = (n - 3) * 3 + es;
        Ok(FORMATS[place as usize].get_or_init(|| Format::made(n, es)))
    }

    fn made(n: u32, es: u32) -> Format {
        let values: Vec<Option<i128>> = (0..1u64 << n).map(|p| read(n, es, p)).collect();
        let finite = values.iter().zip(0u64..);
        let mut sorted: Vec<(i128, u64)> = finite.filter_map(|(v, p)| v.map(|v| (v, p))).collect();
        sorted.sort();
        Format {
            n,
            es,
            values,
            sorted,
        }
    }

    pub fn n(&self) -> u32 {
        self.n
    }

    pub fn es(&self) -> u32 {
        self.es
    }

    /// m, so that values are whole numbers times 2^-m.
    pub fn m(&self) -> u32 {
        reach(self.n, self.es)
    }

    /// "Pattern 2^(n-1) is NaR".
    pub fn nar(&self) -> u64 {
        1 << (self.n - 1)
    }

    /// "posit of 2^n or more" is refused 3 at the operand's place.
    pub fn judge(&self, pattern: u64, place: u64) -> Result<(), Refusal> {
        refusal::refuse_if(pattern >> self.n != 0, refusal::TOO_LARGE, place)
    }

    /// The value of a pattern in units of minPos; NaR, or what is no pattern, has none.
    pub fn value(&self, pattern: u64) -> Option<i128> {
        let place = usize::try_from(pattern).ok()?;
        self.values.get(place).copied().flatten()
    }

    /// The value of a pattern as a fraction.
    pub fn ratio(&self, pattern: u64) -> Option<Ratio> {
        let value = self.value(pattern)?;
        Some(Ratio::scaled(value, -(self.m() as i32)))
    }

    /// The pattern whose value in units of minPos is this, if there is one.
    pub fn pattern_of(&self, value: i128) -> Option<u64> {
        let found = self.sorted.binary_search_by_key(&value, |entry| entry.0);
        found.ok().map(|i| self.sorted[i].1)
    }

    /// How many posits are not above x.
    fn count(&self, x: &Ratio) -> usize {
        let left = x.over().shifted(self.m());
        let not_above = |value: i128| Big::from(value).times(x.under()) <= left;
        self.sorted.partition_point(|entry| not_above(entry.0))
    }

    /// The greatest posit that is not above x, with a mark that says whether x is its value, and
    /// the least posit that is above x.
    fn around(&self, x: &Ratio) -> (Option<(u64, bool)>, Option<u64>) {
        let count = self.count(x);
        let last = count.checked_sub(1).map(|place| self.sorted[place].1);
        let lower = last.map(|pattern| (pattern, self.is_value(pattern, x)));
        (lower, self.sorted.get(count).map(|entry| entry.1))
    }

    /// The greatest posit that is not above x, with a mark that says whether x is its value.
    pub fn at_or_below(&self, x: &Ratio) -> Option<(u64, bool)> {
        self.around(x).0
    }

    /// The least posit that is not below x, with a mark that says whether x is its value.
    pub fn at_or_above(&self, x: &Ratio) -> Option<(u64, bool)> {
        match self.around(x) {
            (Some((pattern, true)), _) => Some((pattern, true)),
            (_, above) => above.map(|pattern| (pattern, false)),
        }
    }

    fn is_value(&self, pattern: u64, x: &Ratio) -> bool {
        self.ratio(pattern).as_ref() == Some(x)
    }

    /// The largest and the smallest posit of x's sign, for values outside the posits' reach.
    fn extreme(&self, x: &Ratio, largest: bool) -> u64 {
        let size = if largest { 1i128 << (2 * self.m()) } else { 1 };
        let value = if x.is_negative() { -size } else { size };
        self.pattern_of(value).unwrap_or(0)
    }

    /// "Rounding an exact value x", clause by clause.
    pub fn round(&self, x: &Ratio) -> u64 {
        if x.is_zero() {
            return 0;
        }
        let (lower, upper) = self.around(x);
        if let Some((pattern, true)) = lower {
            return pattern;
        }
        let m = self.m() as i32;
        if x.absolute() > Ratio::scaled(1, m) {
            return self.extreme(x, true);
        }
        if x.absolute() < Ratio::scaled(1, -m) {
            return self.extreme(x, false);
        }
        match (lower, upper) {
            (Some((u, _)), Some(w)) => self.between(x, u, w),
            // Not reached: a value between -maxPos and maxPos has a neighbour on each side.
            _ => self.extreme(x, true),
        }
    }

    /// "Read 2U+1 as a posit one bit wider": the side of it on which x lies decides.
    fn between(&self, x: &Ratio, u: u64, w: u64) -> u64 {
        let wider = self.n + 1;
        let middle = read(wider, self.es, 2 * u + 1).unwrap_or(0);
        let power = reach(wider, self.es) as i32;
        match x.cmp(&Ratio::scaled(middle, -power)) {
            Ordering::Less => u,
            Ordering::Greater => w,
            Ordering::Equal if u % 2 == 0 => u,
            Ordering::Equal => w,
        }
    }
}
