//! Published vectors: a file with one range operation a line, worked and compared.

use crate::format::Format;
use crate::{range, refusal, show};

/// How many lines agreed, and what is to be said about the others.
pub struct Outcome {
    pub agreed: usize,
    pub differing: Vec<String>,
}

/// Works every line that is neither blank nor a remark.
pub fn run(text: &str) -> Outcome {
    let mut outcome = Outcome {
        agreed: 0,
        differing: Vec::new(),
    };
    for (number, line) in (1..).zip(text.lines()) {
        if line.starts_with('#') || line.trim().is_empty() {
            continue;
        }
        match agrees(line) {
            Some(true) => outcome.agreed += 1,
            Some(false) => outcome.differing.push(format!("line {number} differs")),
            None => outcome
                .differing
                .push(format!("line {number} is no vector")),
        }
    }
    outcome
}

/// Works one line: `source | format | A | op | B | answer | A tiles | B tiles | answer tiles |
/// mark | note | ticket`; nothing if it has another form.
fn agrees(line: &str) -> Option<bool> {
    let fields: Vec<&str> = line.split('|').map(str::trim).collect();
    let [_, format, _, op, _, text, left, right, answer, _, note, ticket] = fields[..] else {
        return None;
    };
    let (n, es) = format.strip_prefix('V')?.split_once(',')?;
    let format = Format::of(n.parse().ok()?, es.parse().ok()?).ok()?;
    let op = ["+", "-", "*", "/"].iter().position(|sign| *sign == op)? as u32;
    let left = show::word_of(format, left)?;
    let right = show::word_of(format, right)?;
    let worked = range::operate(format.n(), format.es(), op, left, right);
    // Until ticket 3 a divisor that holds 0 is refused, as the note of such a line says.
    if ticket == "T3" {
        let refused = worked.number == refusal::ZERO_DIVISOR && worked.place == 1;
        return Some(refused && worked.value == 0 && note == "before T3: NO 5 1");
    }
    let expected = show::word_of(format, answer)?;
    let same = worked.number == 0 && worked.place == 0 && worked.value == expected;
    Some(same && show::brackets(format, worked.value) == text)
}
