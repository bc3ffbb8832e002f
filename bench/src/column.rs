//! The input of a measurement: columns of patterns, of numbers to encode and of floats, the same in every run.

use second::posit::Decoded;

pub const LENGTH: usize = 4096;

pub struct Column {
    pub n: u32,
    pub es: u32,
    pub left: Vec<u32>,
    pub right: Vec<u32>,
    pub numbers: Vec<Number>,
    pub floats: Vec<f64>,
}

/// A number to encode: sign, scale and fraction.
pub struct Number {
    pub negative: bool,
    pub scale: i32,
    pub fraction: u32,
}

impl Number {
    pub fn decoded(&self) -> Decoded {
        Decoded::Finite {
            negative: self.negative,
            scale: self.scale,
            fraction: self.fraction,
        }
    }
}

impl Column {
    pub fn of(n: u32, es: u32) -> Column {
        let rows = 0..LENGTH as u64;
        let pattern = |seed| (mixed(seed) >> (64 - n)) as u32;
        Column {
            n,
            es,
            left: rows.clone().map(|row| pattern(2 * row)).collect(),
            right: rows.clone().map(|row| pattern(2 * row + 1)).collect(),
            numbers: rows.clone().map(|row| number(n, es, mixed(row))).collect(),
            floats: rows.map(|row| float(n, es, mixed(row))).collect(),
        }
    }
}

/// A number of 32 bits between minPos and maxPos, which nearly always has to be rounded.
fn number(n: u32, es: u32, bits: u64) -> Number {
    let m = second::format::reach(n, es);
    let scale = (bits >> 33) as u32 % (2 * m);
    Number {
        negative: bits >> 32 & 1 == 1,
        scale: scale as i32 - m as i32 - 31,
        fraction: bits as u32 | 1 << 31,
    }
}

/// A float of 53 bits between minPos and maxPos, which nearly always has to be rounded.
fn float(n: u32, es: u32, bits: u64) -> f64 {
    let m = u64::from(second::format::reach(n, es));
    let exponent = 1023 - m + (bits >> 53) % (2 * m);
    f64::from_bits((bits & 1) << 63 | exponent << 52 | bits >> 1 & ((1 << 52) - 1))
}

/// Bits that look random, by the finisher of splitmix.
pub fn mixed(seed: u64) -> u64 {
    let x = (seed + 1).wrapping_mul(0x9e37_79b9_7f4a_7c15);
    let x = (x ^ x >> 30).wrapping_mul(0xbf58_476d_1ce4_e5b9);
    let x = (x ^ x >> 27).wrapping_mul(0x94d0_49bb_1331_11eb);
    x ^ x >> 31
}
