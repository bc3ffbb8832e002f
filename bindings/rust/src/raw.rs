//! The calls as the library exports them: here those on posits, in `range` those on ranges, in `sheet` those on columns and sheets.
//!
//! `tests/header` holds these declarations to the crate cabi. Each call takes every value of its
//! parameters and answers document 01's number and place with the value beside them. Look at the
//! number first: a refused posit is 0, which is also the posit 0.

pub mod range;
pub mod sheet;

/// Number, place and a posit.
#[repr(C)]
#[must_use = "only its number says whether it holds"]
#[derive(Clone, Copy, Debug, PartialEq, Eq)]
pub struct PositAnswer {
    pub number: u32,
    pub place: u32,
    pub posit: u32,
}

/// Number, place and a decoded posit; sign, scale and fraction are unset where it is not finite.
#[repr(C)]
#[must_use = "only its number says whether it holds"]
#[derive(Clone, Copy, Debug, PartialEq, Eq)]
pub struct PositDecoding {
    pub number: u32,
    pub place: u32,
    pub kind: u32,
    pub negative: bool,
    pub scale: i32,
    pub fraction: u32,
}

/// Number, place and an order.
#[repr(C)]
#[must_use = "only its number says whether it holds"]
#[derive(Clone, Copy, Debug, PartialEq, Eq)]
pub struct PositComparison {
    pub number: u32,
    pub place: u32,
    pub order: u32,
}

/// Number, place and a posit as a float: its kind, and the float where that is `FLOAT`, 0.0 elsewhere.
#[repr(C)]
#[must_use = "only its number says whether it holds"]
#[derive(Clone, Copy, Debug)]
pub struct PositFloating {
    pub number: u32,
    pub place: u32,
    pub kind: u32,
    pub float: f64,
}

/// The kinds of decoded posits; encoding takes every other number as NaR.
pub const ZERO: u32 = 0;
pub const NAR: u32 = 1;
pub const FINITE: u32 = 2;

/// The kind of a posit that is a float; that of NaR is `NAR`.
pub const FLOAT: u32 = 0;

/// The orders.
pub const LESS: u32 = 0;
pub const EQUAL: u32 = 1;
pub const GREATER: u32 = 2;

// The declarations are those of crates/cabi, where no call asks anything of its caller.
unsafe extern "C" {
    #[link_name = "jorumrain_version"]
    pub safe fn version() -> u32;

    #[link_name = "jorumrain_posit_decode"]
    pub safe fn decode(n: u32, es: u32, p: u32) -> PositDecoding;

    #[link_name = "jorumrain_posit_encode"]
    pub safe fn encode(
        n: u32,
        es: u32,
        kind: u32,
        negative: bool,
        scale: i32,
        fraction: u32,
    ) -> PositAnswer;

    #[link_name = "jorumrain_posit_compare"]
    pub safe fn compare(n: u32, es: u32, p: u32, q: u32) -> PositComparison;

    #[link_name = "jorumrain_posit_negate"]
    pub safe fn negate(n: u32, es: u32, p: u32) -> PositAnswer;

    /// 0 adds, 1 subtracts, 2 multiplies, 3 divides; every other number is refused.
    #[link_name = "jorumrain_posit_operate"]
    pub safe fn operate(n: u32, es: u32, op: u8, p: u32, q: u32) -> PositAnswer;

    #[link_name = "jorumrain_posit_from_float"]
    pub safe fn from_float(n: u32, es: u32, x: f64) -> PositAnswer;

    #[link_name = "jorumrain_posit_to_float"]
    pub safe fn to_float(n: u32, es: u32, p: u32) -> PositFloating;
}
