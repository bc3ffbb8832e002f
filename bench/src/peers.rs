//! The peers: double intervals of Boost.Interval and of MPFI, a column a call, as peers/peers.cpp makes them.

use crate::column::LENGTH;
use crate::ranges::Ranges;
use jorumrain::raw::range;
use std::ffi::c_void;

/// The order is that of `peers_made`.
#[derive(Clone, Copy, Debug)]
pub enum Peer {
    Boost,
    BoostBase,
    BoostOnce,
    Mpfi,
}

pub const PEERS: [Peer; 4] = [Peer::Boost, Peer::BoostBase, Peer::BoostOnce, Peer::Mpfi];

/// Low and high.
type Ends = [f64; 2];

unsafe extern "C" {
    fn peers_made(peer: u32, length: usize, left: *const Ends, right: *const Ends) -> *mut c_void;
    fn peers_combine(columns: *mut c_void, operation: u32);
    fn peers_read(columns: *const c_void, ends: *mut Ends);
    fn peers_dropped(columns: *mut c_void);
}

/// Two columns of intervals in a peer's own form, with the same ends as those of the ranges, and their answers.
pub struct Columns(*mut c_void);

impl Columns {
    pub fn of(peer: Peer, ranges: &Ranges) -> Columns {
        let [left, right] = [&ranges.left, &ranges.right].map(|words| {
            let ends = words.iter().map(|word| ends(ranges, *word));
            ends.collect::<Vec<Ends>>()
        });
        // SAFETY: both columns have as many rows as are named, and are copied.
        Columns(unsafe { peers_made(peer as u32, LENGTH, left.as_ptr(), right.as_ptr()) })
    }

    pub fn combine(&self, operation: u8) {
        // SAFETY: the columns are alive until they are dropped, and only one call uses them at a time.
        unsafe { peers_combine(self.0, operation.into()) }
    }

    /// The answers of the last operation.
    pub fn answers(&self) -> Vec<Ends> {
        let mut answers = vec![[0.0; 2]; LENGTH];
        // SAFETY: there is room for an answer a row.
        unsafe { peers_read(self.0, answers.as_mut_ptr()) };
        answers
    }
}

impl Drop for Columns {
    fn drop(&mut self) {
        // SAFETY: the columns are dropped once.
        unsafe { peers_dropped(self.0) }
    }
}

/// A range's ends as floats; the open marks are lost.
pub fn ends(ranges: &Ranges, word: u64) -> Ends {
    let outgoing = range::give_out(ranges.n, ranges.es, word);
    assert_eq!(outgoing.number, 0);
    [outgoing.low, outgoing.high]
}

/// The ends, as floats, of the smallest range that holds an interval of doubles.
pub fn widened(ranges: &Ranges, [low, high]: Ends) -> Ends {
    let taken = range::take_in(ranges.n, ranges.es, low, high);
    assert_eq!(taken.number, 0);
    ends(ranges, taken.word)
}
