//! Rounding and arithmetic against a second statement of the rule, with linear searches.

mod common;

use common::{done, formats};
use second::{float, posit};

/// A pattern's value as a whole number over 2^unit, from its bits written as text.
fn value(width: u32, es: u32, pattern: u64, unit: u32) -> Option<i128> {
    let size = 1u64 << width;
    if pattern == 0 || pattern == size / 2 {
        return (pattern == 0).then_some(0);
    }
    if pattern > size / 2 {
        return value(width, es, size - pattern, unit).map(|value| -value);
    }
    let text = format!("{pattern:0w$b}", w = width as usize);
    let after_sign = &text[1..];
    let first = &after_sign[..1];
    let rest = after_sign.trim_start_matches(first);
    let run = (after_sign.len() - rest.len()) as i32;
    let k = if first == "1" { run - 1 } else { -run };
    let mut rest = rest.chars().skip(1);
    let mut scale = k * (1 << es);
    for weight in (0..es).rev() {
        scale += i32::from(rest.next() == Some('1')) << weight;
    }
    let mut total = 1i128 << (scale + unit as i32);
    let mut weight = total;
    for bit in rest {
        // A weight below one unit would lose its remainder, so units are chosen small enough.
        weight /= 2;
        total += if bit == '1' { weight } else { 0 };
    }
    Some(total)
}

/// A format's values and those one bit wider, all over 2^unit.
struct Table {
    n: u32,
    unit: u32,
    values: Vec<Option<i128>>,
    wider: Vec<Option<i128>>,
}

impl Table {
    fn new(n: u32, es: u32) -> Table {
        // The unit is minPos of the wider format, as every value is a multiple of that.
        let unit = (n - 1) << es;
        let all = |width: u32| {
            (0..1u64 << width)
                .map(|p| value(width, es, p, unit))
                .collect()
        };
        let (values, wider) = (all(n), all(n + 1));
        Table {
            n,
            unit,
            values,
            wider,
        }
    }

    /// The rule of document 01 on the exact value over / under, where under is above 0.
    fn round(&self, over: i128, under: i128) -> u64 {
        let over = over << self.unit;
        let nar = 1usize << (self.n - 1);
        let at = |pattern: usize| self.values[pattern].unwrap() * under;
        let patterns = || (0..1usize << self.n).filter(|p| *p != nar);
        if let Some(pattern) = patterns().find(|p| at(*p) == over) {
            return pattern as u64;
        }
        if over > at(nar - 1) {
            return nar as u64 - 1;
        }
        if over < at(nar + 1) {
            return nar as u64 + 1;
        }
        if 0 < over && over < at(1) {
            return 1;
        }
        if at(2 * nar - 1) < over && over < 0 {
            return 2 * nar as u64 - 1;
        }
        let u = patterns().filter(|p| at(*p) < over).max_by_key(|p| at(*p));
        let w = patterns().filter(|p| at(*p) > over).min_by_key(|p| at(*p));
        let (u, w) = (u.unwrap(), w.unwrap());
        let middle = self.wider[2 * u + 1].unwrap() * under;
        let even = if u % 2 == 0 { u } else { w };
        let chosen = match over.cmp(&middle) {
            std::cmp::Ordering::Less => u,
            std::cmp::Ordering::Greater => w,
            std::cmp::Ordering::Equal => even,
        };
        chosen as u64
    }
}

/// All four operations on all pairs of a format.
fn check_arithmetic(n: u32, es: u32) {
    let table = Table::new(n, es);
    let (unit, nar) = (table.unit, 1u64 << (n - 1));
    for left in 0..1u64 << n {
        for right in 0..1u64 << n {
            let (x, y) = (table.values[left as usize], table.values[right as usize]);
            let (Some(x), Some(y)) = (x, y) else {
                continue;
            };
            let sum = table.round(x + y, 1 << unit);
            assert_eq!(posit::add(n, es, left, right), done(sum));
            let difference = table.round(x - y, 1 << unit);
            assert_eq!(posit::subtract(n, es, left, right), done(difference));
            // Values of n bits are whole in the larger unit 2^-m, which keeps products small.
            let (fine, m) = (1 << es, unit - (1 << es));
            let product = table.round((x >> fine) * (y >> fine), 1 << (2 * m));
            assert_eq!(posit::multiply(n, es, left, right), done(product));
            let quotient = match y {
                0 => nar,
                _ => table.round(x * y.signum(), y.abs()),
            };
            assert_eq!(posit::divide(n, es, left, right), done(quotient));
        }
    }
}

#[test]
fn arithmetic_of_small_formats_on_all_pairs() {
    for (n, es) in formats().filter(|format| format.0 <= 7) {
        check_arithmetic(n, es);
    }
    // Wider ones would leave the 128 bits of this test.
    check_arithmetic(8, 2);
}

/// Floats on, halfway between and just beside the values of a width three bits longer.
#[test]
fn floats_on_a_fine_grid() {
    for (n, es) in formats().filter(|format| format.0 <= 7) {
        let table = Table::new(n, es);
        let (width, unit) = (n + 3, ((n + 1) << es) + 1);
        let half = 1u64 << (width - 1);
        for pattern in (0..2 * half - 1).filter(|p| *p != half && *p + 1 != half) {
            let here = value(width, es, pattern, unit).unwrap();
            let there = value(width, es, pattern + 1, unit);
            let middle = there.map_or(here, |there| (here + there) / 2);
            let step = (here.abs() >> 40).max(1);
            for over in [here, here - step, here + step, middle] {
                let float = over as f64 / (unit as f64).exp2();
                assert_eq!(over as f64 as i128, over);
                let rounded = table.round(over, 1 << unit);
                assert_eq!(float::from_float(n, es, float), done(rounded));
            }
        }
    }
}
