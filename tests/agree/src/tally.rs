//! The outcome of a group: how many answers of each number and place agreed, or the first difference.

use std::collections::BTreeMap;
use std::fmt;

/// The first call on which the two programs differ, with what each answered.
pub struct Difference(pub String);

impl fmt::Display for Difference {
    fn fmt(&self, f: &mut fmt::Formatter) -> fmt::Result {
        f.write_str(&self.0)
    }
}

pub type Outcome = Result<Tally, Difference>;

/// How many calls agreed, by call and by the number and place that they came back with.
#[derive(Default)]
pub struct Tally {
    calls: BTreeMap<&'static str, u64>,
    refusals: BTreeMap<(u32, Option<u32>), u64>,
}

impl Tally {
    pub fn count(&mut self, call: &'static str, (number, place): (u32, u32)) {
        *self.calls.entry(call).or_default() += 1;
        *self.refusals.entry((number, Some(place))).or_default() += 1;
    }

    /// One more call whose places are too many to list.
    pub fn count_number(&mut self, call: &'static str, number: u32) {
        *self.calls.entry(call).or_default() += 1;
        *self.refusals.entry((number, None)).or_default() += 1;
    }

    /// The outcome of a group that must have seen each of these numbers.
    pub fn with_every(self, numbers: &[u32]) -> Outcome {
        for number in numbers {
            if !self.refusals.keys().any(|(seen, _)| seen == number) {
                return Err(Difference(format!("no call came back with {number}")));
            }
        }
        Ok(self)
    }
}

impl fmt::Display for Tally {
    fn fmt(&self, f: &mut fmt::Formatter) -> fmt::Result {
        let total: u64 = self.calls.values().sum();
        write!(f, "{total} calls agree")?;
        for (call, count) in &self.calls {
            write!(f, ", {call} {count}")?;
        }
        for ((number, place), count) in &self.refusals {
            match place {
                Some(place) => write!(f, "; number {number}, place {place}: {count}")?,
                None => write!(f, "; number {number}: {count}")?,
            }
        }
        Ok(())
    }
}
