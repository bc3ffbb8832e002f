//! The calls on ranges, as exported.

/// Number, place and a range word.
#[repr(C)]
#[must_use = "only its number says whether it holds"]
#[derive(Clone, Copy, Debug, PartialEq, Eq)]
pub struct RangeAnswer {
    pub number: u32,
    pub place: u32,
    pub word: u64,
}

/// Number, place and a yes or no.
#[repr(C)]
#[must_use = "only its number says whether it holds"]
#[derive(Clone, Copy, Debug, PartialEq, Eq)]
pub struct RangeReply {
    pub number: u32,
    pub place: u32,
    pub yes: bool,
}

/// Number, place, and a range as two floats with their open marks and an empty mark.
#[repr(C)]
#[must_use = "only its number says whether it holds"]
#[derive(Clone, Copy, Debug, PartialEq)]
pub struct RangeOutgoing {
    pub number: u32,
    pub place: u32,
    pub low: f64,
    pub high: f64,
    pub low_open: bool,
    pub high_open: bool,
    pub empty: bool,
}

// The declarations are those of crates/cabi, where no call asks anything of its caller.
unsafe extern "C" {
    #[link_name = "jorumrain_range_negate"]
    pub safe fn negate(n: u32, es: u32, a: u64) -> RangeAnswer;

    /// 0 adds, 1 subtracts, 2 multiplies, 3 divides; every other number is refused.
    #[link_name = "jorumrain_range_operate"]
    pub safe fn operate(n: u32, es: u32, op: u8, a: u64, b: u64) -> RangeAnswer;

    /// The smallest range of all numbers from low to high; the infinities mean unbounded.
    #[link_name = "jorumrain_range_take_in"]
    pub safe fn take_in(n: u32, es: u32, low: f64, high: f64) -> RangeAnswer;

    #[link_name = "jorumrain_range_give_out"]
    pub safe fn give_out(n: u32, es: u32, a: u64) -> RangeOutgoing;

    /// Whether each member of a is in b.
    #[link_name = "jorumrain_range_inside"]
    pub safe fn inside(n: u32, es: u32, a: u64, b: u64) -> RangeReply;

    /// Whether some member is in both.
    #[link_name = "jorumrain_range_meets"]
    pub safe fn meets(n: u32, es: u32, a: u64, b: u64) -> RangeReply;

    /// Whether each member of a is less than each of b.
    #[link_name = "jorumrain_range_below"]
    pub safe fn below(n: u32, es: u32, a: u64, b: u64) -> RangeReply;
}
