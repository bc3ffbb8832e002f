//! The four operations by their numbers.

/// What is done to two posits or ranges; the number of each is document 01's.
#[repr(u8)]
#[derive(Clone, Copy, Debug, PartialEq, Eq, Hash)]
pub enum Operation {
    Add = 0,
    Subtract = 1,
    Multiply = 2,
    Divide = 3,
}

impl Operation {
    /// All four, in the order of their numbers.
    pub const ALL: [Operation; 4] = [
        Operation::Add,
        Operation::Subtract,
        Operation::Multiply,
        Operation::Divide,
    ];

    /// Document 01's number.
    pub const fn number(self) -> u8 {
        self as u8
    }
}
