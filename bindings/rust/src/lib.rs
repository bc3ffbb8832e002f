//! Posits of 3 to 16 bits, ranges whose ends are posits, columns and sheets of them: the proved calls for Rust.
//!
//! Each call takes every value of its parameters and gives either its value or a [`Refusal`] with
//! document 01's number and place. A format is a width `n` from 3 to 16 and an exponent size `es`
//! from 0 to 2; any other is refused. A refused call leaves all memory lent to it as it was.
//!
//! ```
//! use jorumrain::{posit, range, refusal, Operation, Refusal};
//!
//! // One and one is two, as posits of 8 bits.
//! assert_eq!(posit::operate(8, 2, Operation::Add, 0x40, 0x40), Ok(0x48));
//!
//! // [1,1] / [0,1] is refused at the divisor, which has 0 as a member.
//! let refused = Refusal { number: refusal::ZERO_DIVISOR, place: refusal::RIGHT };
//! assert_eq!(range::operate(8, 2, Operation::Divide, 0x10080, 0x80), Err(refused));
//! ```

mod operation;
pub mod posit;
pub mod range;
pub mod raw;
pub mod refusal;
pub mod sheet;

pub use operation::Operation;
pub use refusal::Refusal;

/// The version of this crate; the library that it is linked with gives its own by [`version`].
pub const VERSION: &str = env!("CARGO_PKG_VERSION");

/// The library's version: 10,000 times its first number, plus 100 times its second, plus its third.
#[must_use]
pub fn version() -> u32 {
    raw::version()
}
