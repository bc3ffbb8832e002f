//! The four operations and their numbers.

use crate::refusal::{Refusal, OPERATION};

/// "0 add, 1 subtract, 2 multiply, 3 divide".
#[derive(Clone, Copy, Debug, PartialEq, Eq)]
pub enum Operation {
    Add,
    Subtract,
    Multiply,
    Divide,
}

impl Operation {
    /// The operation of a number, or refusal 2 for all the rest.
    pub fn of(number: u32) -> Result<Operation, Refusal> {
        match number {
            0 => Ok(Operation::Add),
            1 => Ok(Operation::Subtract),
            2 => Ok(Operation::Multiply),
            3 => Ok(Operation::Divide),
            _ => Err(Refusal::new(OPERATION, 0)),
        }
    }
}
