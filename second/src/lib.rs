//! The second program: document 01 worked by definition, to be compared with the proved code.
//!
//! Every call takes plain integers in the order n, es, operation number, operands, lent memory,
//! refuses nothing silently, and answers number, place and value.

pub mod big;
pub mod calls;
pub mod column;
pub mod digest;
pub mod figures;
pub mod file;
pub mod float;
pub mod format;
pub mod operation;
pub mod posit;
pub mod range;
pub mod ratio;
pub mod reading;
pub mod refusal;
pub mod sheet;
pub mod show;
pub mod span;
pub mod vectors;
