//! Spans: intervals of rationals that are not empty, with the exact bounds of their results.

use crate::ratio::Ratio;

/// How far a side goes: without bound below, to a fraction, or without bound above.
#[derive(Clone, Debug, PartialEq, Eq, PartialOrd, Ord)]
pub enum Reach {
    Below,
    At(Ratio),
    Above,
}

/// A side of a span, with a mark that says whether a member lies on it.
#[derive(Clone, Debug)]
pub struct Edge {
    pub at: Reach,
    pub attained: bool,
}

/// The rationals between two edges; there is at least one.
#[derive(Clone, Debug)]
pub struct Span {
    pub low: Edge,
    pub high: Edge,
}

impl Reach {
    fn is_zero(&self) -> bool {
        matches!(self, Reach::At(x) if x.is_zero())
    }

    fn is_negative(&self) -> bool {
        match self {
            Reach::Below => true,
            Reach::At(x) => x.is_negative(),
            Reach::Above => false,
        }
    }

    fn negated(&self) -> Reach {
        match self {
            Reach::Below => Reach::Above,
            Reach::At(x) => Reach::At(x.negated()),
            Reach::Above => Reach::Below,
        }
    }

    /// The sum of two reaches of the same side; without bound if either is.
    fn plus(&self, other: &Reach) -> Reach {
        match (self, other) {
            (Reach::At(x), Reach::At(y)) => Reach::At(x.plus(y)),
            (Reach::At(_), unbounded) => unbounded.clone(),
            (unbounded, _) => unbounded.clone(),
        }
    }

    /// The product at a corner; "Zero times anything is zero", however far the other side goes.
    fn times(&self, other: &Reach) -> Reach {
        match (self, other) {
            (Reach::At(x), Reach::At(y)) => Reach::At(x.times(y)),
            _ if self.is_zero() || other.is_zero() => Reach::At(Ratio::scaled(0, 0)),
            _ if self.is_negative() != other.is_negative() => Reach::Below,
            _ => Reach::Above,
        }
    }
}

impl Edge {
    /// A side without bound, on which no rational lies.
    pub fn unbounded(at: Reach) -> Edge {
        let attained = false;
        Edge { at, attained }
    }

    pub fn at(x: Ratio, attained: bool) -> Edge {
        let at = Reach::At(x);
        Edge { at, attained }
    }

    fn negated(&self) -> Edge {
        Edge {
            at: self.at.negated(),
            attained: self.attained,
        }
    }

    /// A sum lies on the bound exactly when a member of each operand lies on its edge.
    fn plus(&self, other: &Edge) -> Edge {
        Edge {
            at: self.at.plus(&other.at),
            attained: self.attained && other.attained,
        }
    }

    fn times(&self, other: &Edge) -> Edge {
        Edge {
            at: self.at.times(&other.at),
            attained: self.attained && other.attained,
        }
    }

    /// One over an edge of a span without 0: an edge at 0 goes out of all bounds on the span's
    /// own side, an unbounded edge comes in to a 0 that no member reaches.
    fn inverse(&self, side: Reach) -> Edge {
        match &self.at {
            Reach::At(x) => match x.inverse() {
                Some(inverse) => Edge::at(inverse, self.attained),
                None => Edge::unbounded(side),
            },
            _ => Edge::at(Ratio::scaled(0, 0), false),
        }
    }
}

impl Span {
    /// Membership of a fraction.
    pub fn holds(&self, x: &Ratio) -> bool {
        let at = Reach::At(x.clone());
        let above = self.low.at < at || (self.low.at == at && self.low.attained);
        let below = at < self.high.at || (self.high.at == at && self.high.attained);
        above && below
    }

    pub fn holds_zero(&self) -> bool {
        self.holds(&Ratio::scaled(0, 0))
    }

    /// All -x.
    pub fn negated(&self) -> Span {
        Span {
            low: self.high.negated(),
            high: self.low.negated(),
        }
    }

    /// The exact bounds of all x + y.
    pub fn sum(&self, other: &Span) -> Span {
        Span {
            low: self.low.plus(&other.low),
            high: self.high.plus(&other.high),
        }
    }

    /// The exact bounds of all x - y, which is x + (-y).
    pub fn difference(&self, other: &Span) -> Span {
        self.sum(&other.negated())
    }

    /// The exact bounds of all x · y, which are among the products of the edges.
    pub fn product(&self, other: &Span) -> Span {
        let corners = [
            self.low.times(&other.low),
            self.low.times(&other.high),
            self.high.times(&other.low),
            self.high.times(&other.high),
        ];
        let reaches = corners.iter().map(|corner| &corner.at);
        let low = reaches.clone().min().unwrap_or(&Reach::Below);
        let high = reaches.max().unwrap_or(&Reach::Above);
        let zero = self.holds_zero() || other.holds_zero();
        Span {
            low: bound(low, &corners, zero),
            high: bound(high, &corners, zero),
        }
    }

    /// The exact bounds of all x / y, which is x · (1/y); the divisor must not hold 0.
    pub fn quotient(&self, other: &Span) -> Span {
        self.product(&other.inverse())
    }

    /// All 1/y of a span without 0: on one side of 0 the inverse turns the edges round.
    fn inverse(&self) -> Span {
        let negative = self.low.at.is_negative();
        let (below, above) = (Reach::Below, Reach::Above);
        let outward = if negative { below } else { above };
        Span {
            low: self.high.inverse(outward.clone()),
            high: self.low.inverse(outward),
        }
    }

    /// "each member of a is in b".
    pub fn inside(&self, other: &Span) -> bool {
        let (a, b) = (&self.low, &other.low);
        let low = b.at < a.at || (b.at == a.at && (b.attained || !a.attained));
        let (a, b) = (&self.high, &other.high);
        let high = a.at < b.at || (b.at == a.at && (b.attained || !a.attained));
        low && high
    }

    /// "each member of a is less than each of b".
    pub fn below(&self, other: &Span) -> bool {
        let (a, b) = (&self.high, &other.low);
        a.at < b.at || (a.at == b.at && !(a.attained && b.attained))
    }

    /// "some member in both": two intervals share none exactly when one is below the other.
    pub fn meets(&self, other: &Span) -> bool {
        !self.below(other) && !other.below(self)
    }
}

/// A bound of products: 0 is a result exactly when 0 is a factor, and any other bound exactly
/// when members lie on both edges of some corner there, whatever an equal corner does.
fn bound(at: &Reach, corners: &[Edge; 4], zero: bool) -> Edge {
    let mut equal = corners.iter().filter(|corner| corner.at == *at);
    Edge {
        at: at.clone(),
        attained: if at.is_zero() {
            zero
        } else {
            equal.any(|corner| corner.attained)
        },
    }
}
