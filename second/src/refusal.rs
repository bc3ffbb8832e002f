//! What a call comes back with: document 01's number and place, and the value beside them.

/// "n or es outside the format limits".
pub const FORMAT: u32 = 1;
/// "operation number above 3".
pub const OPERATION: u32 = 2;
/// "posit of 2^n or more, or range word of 2^(2n+2) or more".
pub const TOO_LARGE: u32 = 3;
/// "the range holds infinity".
pub const INFINITY: u32 = 4;
/// "the divisor range has 0 as a member".
pub const ZERO_DIVISOR: u32 = 5;
/// A reading that names no interval of rationals.
pub const READING: u32 = 6;
/// Counts and lengths outside the limits of columns and sheets.
pub const COUNT: u32 = 7;
/// "a step names a row that isn't earlier".
pub const ROW: u32 = 8;
/// The lent column has too little room.
pub const ROOM: u32 = 9;
/// A file that is short, of another mark or version, or of a wrong length.
pub const FILE: u32 = 10;

/// A number above 0 with its place.
#[derive(Clone, Copy, Debug, PartialEq, Eq)]
pub struct Refusal {
    pub number: u32,
    pub place: u64,
}

impl Refusal {
    pub fn new(number: u32, place: u64) -> Refusal {
        Refusal { number, place }
    }

    /// The same number at another place, for calls that name pairs or rows.
    pub fn at(self, place: u64) -> Refusal {
        Refusal { place, ..self }
    }
}

/// A refusal when the condition holds, used in the order that "first hit wins" asks.
pub fn refuse_if(condition: bool, number: u32, place: u64) -> Result<(), Refusal> {
    if condition {
        Err(Refusal::new(number, place))
    } else {
        Ok(())
    }
}

/// Number, place and value of a finished call.
#[derive(Clone, Copy, Debug, PartialEq)]
pub struct Answer<T> {
    pub number: u32,
    pub place: u64,
    pub value: T,
}

impl<T> Answer<T> {
    /// "Number 0 comes with place 0"; a refusal comes with the value that document 01 gives it.
    pub fn of(judged: Result<T, Refusal>, refused: T) -> Answer<T> {
        match judged {
            Ok(value) => Answer {
                number: 0,
                place: 0,
                value,
            },
            Err(refusal) => Answer {
                number: refusal.number,
                place: refusal.place,
                value: refused,
            },
        }
    }
}
