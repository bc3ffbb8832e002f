//! One call on ranges on both programs: the second program's answer in the static library's shape, and both compared.

use crate::call::agree;
use crate::tally::{Difference, Tally};
use jorumrain::raw::range::{self as proved, RangeAnswer, RangeReply};
use second::range;
use second::reading::{self, Reading};
use second::refusal::Answer;

pub fn negate(tally: &mut Tally, n: u32, es: u32, word: u64) -> Result<(), Difference> {
    let proved = proved::negate(n, es, word);
    let second = shape_of_word(range::negate(n, es, word));
    let refusal = (proved.number, proved.place);
    agree(tally, "negate", &(n, es, word), refusal, proved, second)
}

pub fn operate(
    tally: &mut Tally,
    n: u32,
    es: u32,
    op: u8,
    left: u64,
    right: u64,
) -> Result<(), Difference> {
    let proved = proved::operate(n, es, op, left, right);
    let second = shape_of_word(range::operate(n, es, op.into(), left, right));
    let arguments = (n, es, op, left, right);
    let refusal = (proved.number, proved.place);
    agree(tally, "operate", &arguments, refusal, proved, second)
}

pub fn take_in(tally: &mut Tally, n: u32, es: u32, low: f64, high: f64) -> Result<(), Difference> {
    let proved = proved::take_in(n, es, low, high);
    let second = shape_of_word(reading::take_in(n, es, Reading { low, high }));
    let refusal = (proved.number, proved.place);
    let arguments = (n, es, low, high);
    agree(tally, "take_in", &arguments, refusal, proved, second)
}

/// A range going out; floats are compared by their bits, which tell +0.0 from -0.0.
pub fn give_out(tally: &mut Tally, n: u32, es: u32, word: u64) -> Result<(), Difference> {
    let out = proved::give_out(n, es, word);
    let refusal = (out.number, out.place);
    let floats = (out.low.to_bits(), out.high.to_bits());
    let proved = (refusal, floats, [out.low_open, out.high_open, out.empty]);
    let answer = reading::give_out(n, es, word);
    let out = answer.value;
    let floats = (out.low.to_bits(), out.high.to_bits());
    let marks = [out.low_open, out.high_open, out.empty];
    let place = u32::try_from(answer.place).ok();
    let second = place.map(|place| ((answer.number, place), floats, marks));
    agree(tally, "give_out", &(n, es, word), refusal, proved, second)
}

/// The three comparisons of two words.
pub fn compare(tally: &mut Tally, n: u32, es: u32, a: u64, b: u64) -> Result<(), Difference> {
    let answers = [
        (
            "inside",
            proved::inside(n, es, a, b),
            range::inside(n, es, a, b),
        ),
        (
            "meets",
            proved::meets(n, es, a, b),
            range::meets(n, es, a, b),
        ),
        (
            "below",
            proved::below(n, es, a, b),
            range::below(n, es, a, b),
        ),
    ];
    for (name, proved, second) in answers {
        let refusal = (proved.number, proved.place);
        let second = shape_of_reply(second);
        agree(tally, name, &(n, es, a, b), refusal, proved, second)?;
    }
    Ok(())
}

/// The shapes, or nothing where a number does not fit, which then differs from every answer.
fn shape_of_word(answer: Answer<u64>) -> Option<RangeAnswer> {
    Some(RangeAnswer {
        number: answer.number,
        place: answer.place.try_into().ok()?,
        word: answer.value,
    })
}

fn shape_of_reply(answer: Answer<bool>) -> Option<RangeReply> {
    Some(RangeReply {
        number: answer.number,
        place: answer.place.try_into().ok()?,
        yes: answer.value,
    })
}
