//! Rational numbers: "a whole number over a whole number above 0, compared by cross products".

use crate::big::Big;
use std::cmp::Ordering;

/// A fraction, never reduced, because cross products do not need it.
#[derive(Clone, Debug)]
pub struct Ratio {
    over: Big,
    under: Big,
}

impl Ratio {
    /// The whole number times 2 to the power.
    pub fn scaled(whole: i128, power: i32) -> Ratio {
        let (over, under) = (Big::from(whole), Big::from(1));
        let by = power.unsigned_abs();
        if power < 0 {
            let under = under.shifted(by);
            Ratio { over, under }
        } else {
            let over = over.shifted(by);
            Ratio { over, under }
        }
    }

    /// The whole number above the line.
    pub fn over(&self) -> &Big {
        &self.over
    }

    /// The whole number below the line, above 0.
    pub fn under(&self) -> &Big {
        &self.under
    }

    pub fn is_zero(&self) -> bool {
        self.over.is_zero()
    }

    pub fn is_negative(&self) -> bool {
        self.over.is_negative()
    }

    pub fn negated(&self) -> Ratio {
        Ratio {
            over: self.over.negated(),
            under: self.under.clone(),
        }
    }

    pub fn absolute(&self) -> Ratio {
        Ratio {
            over: self.over.absolute(),
            under: self.under.clone(),
        }
    }

    pub fn plus(&self, other: &Ratio) -> Ratio {
        let left = self.over.times(&other.under);
        let right = other.over.times(&self.under);
        Ratio {
            over: left.plus(&right),
            under: self.under.times(&other.under),
        }
    }

    pub fn minus(&self, other: &Ratio) -> Ratio {
        self.plus(&other.negated())
    }

    pub fn times(&self, other: &Ratio) -> Ratio {
        Ratio {
            over: self.over.times(&other.over),
            under: self.under.times(&other.under),
        }
    }

    /// One over this number; zero has no inverse.
    pub fn inverse(&self) -> Option<Ratio> {
        if self.is_zero() {
            return None;
        }
        let upright = Ratio {
            over: self.under.clone(),
            under: self.over.absolute(),
        };
        Some(if self.is_negative() {
            upright.negated()
        } else {
            upright
        })
    }
}

impl Ord for Ratio {
    fn cmp(&self, other: &Ratio) -> Ordering {
        let left = self.over.times(&other.under);
        left.cmp(&other.over.times(&self.under))
    }
}

impl PartialOrd for Ratio {
    fn partial_cmp(&self, other: &Ratio) -> Option<Ordering> {
        Some(self.cmp(other))
    }
}

impl PartialEq for Ratio {
    fn eq(&self, other: &Ratio) -> bool {
        self.cmp(other) == Ordering::Equal
    }
}

impl Eq for Ratio {}
