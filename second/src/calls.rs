//! Calls as text: one call a line in, one answer line out.

use crate::float::{self, Floated};
use crate::posit::{self, Decoded};
use crate::reading::{self, Outgoing, Reading};
use crate::refusal::Answer;
use crate::{column, file, range, sheet};
use std::cmp::Ordering;
use std::str::Split;

/// The words of a line, taken one by one; each taker gives nothing if the word is of another form.
struct Words<'a>(Split<'a, char>);

impl Words<'_> {
    fn word(&mut self) -> Option<&str> {
        self.0.next()
    }

    fn decimal<T: std::str::FromStr>(&mut self) -> Option<T> {
        self.word()?.parse().ok()
    }

    fn hex(&mut self) -> Option<u64> {
        u64::from_str_radix(self.word()?, 16).ok()
    }

    fn float(&mut self) -> Option<f64> {
        self.hex().map(f64::from_bits)
    }

    /// A decimal count and so many hex words.
    fn list(&mut self) -> Option<Vec<u64>> {
        let count: usize = self.decimal()?;
        (0..count).map(|_| self.hex()).collect()
    }

    fn bytes(&mut self) -> Option<Vec<u8>> {
        let words = self.list()?.into_iter();
        words.map(|word| u8::try_from(word).ok()).collect()
    }

    fn decoded(&mut self) -> Option<Decoded> {
        match self.word()? {
            "zero" => Some(Decoded::Zero),
            "nar" => Some(Decoded::Nar),
            "finite" => Some(Decoded::Finite {
                negative: self.decimal::<u8>()? != 0,
                scale: self.decimal()?,
                fraction: self.decimal()?,
            }),
            _ => None,
        }
    }
}

/// The answer line of a call line, without its line feed.
pub fn answered(line: &str) -> String {
    let mut words = Words(line.split(' '));
    let answer = answer(&mut words);
    match (answer, words.word()) {
        (Some(text), None) => text,
        _ => "bad line".to_string(),
    }
}

fn answer(words: &mut Words) -> Option<String> {
    let name = words.word()?.to_string();
    if name == "file" {
        return file_call(words);
    }
    let (n, es) = (words.decimal()?, words.decimal()?);
    match name.as_str() {
        "column" => column_call(n, es, words),
        "sheet" => sheet_call(n, es, words),
        "rneg" | "rop" | "inside" | "meets" | "below" | "in" | "out" => {
            range_call(&name, n, es, words)
        }
        _ => posit_call(&name, n, es, words),
    }
}

fn posit_call(name: &str, n: u32, es: u32, w: &mut Words) -> Option<String> {
    Some(match name {
        "decode" => line(posit::decode(n, es, w.hex()?), decoded_text),
        "encode" => line(posit::encode(n, es, w.decoded()?), hex_text),
        "compare" => line(posit::compare(n, es, w.hex()?, w.hex()?), order_text),
        "negate" => line(posit::negate(n, es, w.hex()?), hex_text),
        "op" => {
            let (op, left, right) = (w.decimal()?, w.hex()?, w.hex()?);
            line(posit::operate(n, es, op, left, right), hex_text)
        }
        "add" => line(posit::add(n, es, w.hex()?, w.hex()?), hex_text),
        "sub" => line(posit::subtract(n, es, w.hex()?, w.hex()?), hex_text),
        "mul" => line(posit::multiply(n, es, w.hex()?, w.hex()?), hex_text),
        "div" => line(posit::divide(n, es, w.hex()?, w.hex()?), hex_text),
        "fromfloat" => line(float::from_float(n, es, w.float()?), hex_text),
        "tofloat" => line(float::to_float(n, es, w.hex()?), floated_text),
        _ => return None,
    })
}

fn range_call(name: &str, n: u32, es: u32, w: &mut Words) -> Option<String> {
    Some(match name {
        "rneg" => line(range::negate(n, es, w.hex()?), hex_text),
        "rop" => {
            let (op, left, right) = (w.decimal()?, w.hex()?, w.hex()?);
            line(range::operate(n, es, op, left, right), hex_text)
        }
        "inside" => line(range::inside(n, es, w.hex()?, w.hex()?), yes_text),
        "meets" => line(range::meets(n, es, w.hex()?, w.hex()?), yes_text),
        "below" => line(range::below(n, es, w.hex()?, w.hex()?), yes_text),
        "in" => {
            let (low, high) = (w.float()?, w.float()?);
            line(reading::take_in(n, es, Reading { low, high }), hex_text)
        }
        "out" => line(reading::give_out(n, es, w.hex()?), outgoing_text),
        _ => return None,
    })
}

fn column_call(n: u32, es: u32, w: &mut Words) -> Option<String> {
    let (op, row) = (w.decimal()?, w.decimal()?);
    let (left, right, mut lent) = (w.list()?, w.list()?, w.list()?);
    let answer = column::combine(n, es, op, &left, &right, row, &mut lent);
    Some(lent_line(answer, &lent))
}

fn sheet_call(n: u32, es: u32, w: &mut Words) -> Option<String> {
    let (inputs, steps, mut lent) = (w.list()?, w.bytes()?, w.list()?);
    let answer = sheet::work(n, es, &inputs, &steps, &mut lent);
    Some(lent_line(answer, &lent))
}

fn file_call(w: &mut Words) -> Option<String> {
    let (bytes, mut lent) = (w.bytes()?, w.list()?);
    let answer = file::work(&bytes, &mut lent);
    Some(lent_line(answer, &lent))
}

/// Number, place and value of an answer.
fn line<T>(answer: Answer<T>, text: fn(T) -> String) -> String {
    let (number, place) = (answer.number, answer.place);
    format!("{number} {place} {}", text(answer.value))
}

/// Number, place, count, and the whole lent column as it is afterwards.
fn lent_line(answer: Answer<u64>, lent: &[u64]) -> String {
    let words = lent.iter().map(|word| format!(" {word:x}"));
    line(answer, |count| count.to_string()) + &words.collect::<String>()
}

fn hex_text(word: u64) -> String {
    format!("{word:x}")
}

fn yes_text(yes: bool) -> String {
    if yes { "yes" } else { "no" }.to_string()
}

fn order_text(order: Ordering) -> String {
    match order {
        Ordering::Less => "less",
        Ordering::Equal => "equal",
        Ordering::Greater => "greater",
    }
    .to_string()
}

fn decoded_text(decoded: Decoded) -> String {
    match decoded {
        Decoded::Zero => "zero".to_string(),
        Decoded::Nar => "nar".to_string(),
        Decoded::Finite {
            negative,
            scale,
            fraction,
        } => format!("finite {} {scale} {fraction}", u8::from(negative)),
    }
}

fn floated_text(floated: Floated) -> String {
    match floated {
        Floated::Value(float) => format!("value {}", float_text(float)),
        Floated::Nar => "nar".to_string(),
    }
}

fn float_text(float: f64) -> String {
    format!("{:016x}", float.to_bits())
}

fn outgoing_text(out: Outgoing) -> String {
    let (low, high) = (float_text(out.low), float_text(out.high));
    let marks = [out.low_open, out.high_open, out.empty].map(u8::from);
    format!("{low} {high} {} {} {}", marks[0], marks[1], marks[2])
}
