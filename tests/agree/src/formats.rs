//! The formats within the limits, width n from 3 to 16 and exponent size es from 0 to 2, and pairs of numbers that are none.

pub fn all() -> impl Iterator<Item = (u32, u32)> {
    of_widths(3, 16)
}

pub fn of_widths(least: u32, greatest: u32) -> impl Iterator<Item = (u32, u32)> {
    (least..=greatest).flat_map(|n| (0..=2).map(move |es| (n, es)))
}

/// Widths and exponent sizes within, at and far outside the limits.
pub fn around_limits() -> impl Iterator<Item = (u32, u32)> {
    let widths = (0..=40).chain([64, 255, 256, 1 << 16, 1 << 31, u32::MAX]);
    let sizes = (0..=6).chain([31, 32, 255, 256, 1 << 31, u32::MAX]);
    widths.flat_map(move |n| sizes.clone().map(move |es| (n, es)))
}
