//! Whole numbers of any size: a sign and 64-bit limbs, the low limb first.

use std::cmp::Ordering;

/// A whole number; there is no zero limb at the high end, and zero has no limbs and no sign.
#[derive(Clone, Debug, PartialEq, Eq)]
pub struct Big {
    negative: bool,
    limbs: Vec<u64>,
}

impl Big {
    /// Puts a sign and limbs into the one form that each whole number has.
    fn new(negative: bool, mut limbs: Vec<u64>) -> Big {
        while limbs.last() == Some(&0) {
            limbs.pop();
        }
        Big {
            negative: negative && !limbs.is_empty(),
            limbs,
        }
    }

    /// 2 to the given power.
    pub fn power_of_two(power: u32) -> Big {
        Big::from(1).shifted(power)
    }

    pub fn is_zero(&self) -> bool {
        self.limbs.is_empty()
    }

    pub fn is_negative(&self) -> bool {
        self.negative
    }

    pub fn negated(&self) -> Big {
        Big::new(!self.negative, self.limbs.clone())
    }

    pub fn absolute(&self) -> Big {
        Big::new(false, self.limbs.clone())
    }

    /// The number times 2 to the given power.
    pub fn shifted(&self, power: u32) -> Big {
        let (whole, part) = ((power / 64) as usize, power % 64);
        let mut limbs = vec![0; whole + self.limbs.len() + 1];
        for (i, limb) in self.limbs.iter().enumerate() {
            let wide = u128::from(*limb) << part;
            limbs[whole + i] |= wide as u64;
            limbs[whole + i + 1] = (wide >> 64) as u64;
        }
        Big::new(self.negative, limbs)
    }

    pub fn plus(&self, other: &Big) -> Big {
        if self.negative == other.negative {
            return Big::new(self.negative, added(&self.limbs, &other.limbs));
        }
        match compared(&self.limbs, &other.limbs) {
            Ordering::Less => Big::new(other.negative, taken(&other.limbs, &self.limbs)),
            _ => Big::new(self.negative, taken(&self.limbs, &other.limbs)),
        }
    }

    pub fn minus(&self, other: &Big) -> Big {
        self.plus(&other.negated())
    }

    /// The product, as learnt at school with limbs for digits.
    pub fn times(&self, other: &Big) -> Big {
        let mut limbs = vec![0u64; self.limbs.len() + other.limbs.len()];
        for (i, a) in self.limbs.iter().enumerate() {
            let mut carry = 0u128;
            for (j, b) in other.limbs.iter().enumerate() {
                let sum = u128::from(*a) * u128::from(*b) + u128::from(limbs[i + j]) + carry;
                limbs[i + j] = sum as u64;
                carry = sum >> 64;
            }
            limbs[i + other.limbs.len()] = carry as u64;
        }
        Big::new(self.negative != other.negative, limbs)
    }
}

/// The sum of two magnitudes.
fn added(a: &[u64], b: &[u64]) -> Vec<u64> {
    let longest = a.len().max(b.len());
    let mut limbs = Vec::with_capacity(longest + 1);
    let mut carry = 0u128;
    for i in 0..longest {
        let sum = u128::from(limb(a, i)) + u128::from(limb(b, i)) + carry;
        limbs.push(sum as u64);
        carry = sum >> 64;
    }
    limbs.push(carry as u64);
    limbs
}

/// The difference of two magnitudes, the first not below the second.
fn taken(a: &[u64], b: &[u64]) -> Vec<u64> {
    let mut limbs = Vec::with_capacity(a.len());
    let mut borrow = false;
    for (i, upper) in a.iter().enumerate() {
        let (once, first) = upper.overflowing_sub(limb(b, i));
        let (twice, second) = once.overflowing_sub(u64::from(borrow));
        limbs.push(twice);
        borrow = first || second;
    }
    limbs
}

/// The limb at a place, 0 past the end.
fn limb(limbs: &[u64], i: usize) -> u64 {
    limbs.get(i).copied().unwrap_or(0)
}

/// The order of two magnitudes: the longer is greater, then the highest unequal limb decides.
fn compared(a: &[u64], b: &[u64]) -> Ordering {
    let by_length = a.len().cmp(&b.len());
    by_length.then_with(|| a.iter().rev().cmp(b.iter().rev()))
}

impl From<i128> for Big {
    fn from(number: i128) -> Big {
        let size = number.unsigned_abs();
        Big::new(number < 0, vec![size as u64, (size >> 64) as u64])
    }
}

impl Ord for Big {
    fn cmp(&self, other: &Big) -> Ordering {
        match (self.negative, other.negative) {
            (false, false) => compared(&self.limbs, &other.limbs),
            (true, true) => compared(&other.limbs, &self.limbs),
            (true, false) => Ordering::Less,
            (false, true) => Ordering::Greater,
        }
    }
}

impl PartialOrd for Big {
    fn partial_cmp(&self, other: &Big) -> Option<Ordering> {
        Some(self.cmp(other))
    }
}
