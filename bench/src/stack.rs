//! The stack that a full sheet uses, seen on a painted one.

use crate::ranges::Ranges;
use crate::sheets::Sheet;
use std::ffi::c_void;
use std::hint::black_box;

unsafe extern "C" {
    fn painted_use(function: extern "C" fn(*mut c_void), argument: *mut c_void) -> usize;
}

/// Bytes of stack that the sheet call adds to those of a call that does nothing.
pub fn of_sheet(ranges: &Ranges) -> usize {
    let mut sheet = Sheet::full(ranges);
    // A first call, so that what is looked up once in a program is not counted.
    sheet.work();
    sheet.assert_done();
    let argument: *mut Sheet = &mut sheet;
    // SAFETY: the sheet is alive and borrowed alone while the function runs.
    let [whole, empty] = unsafe {
        [
            painted_use(work, argument.cast()),
            painted_use(nothing, argument.cast()),
        ]
    };
    whole - empty
}

extern "C" fn work(sheet: *mut c_void) {
    // SAFETY: the pointer is that of `of_sheet`.
    unsafe { &mut *sheet.cast::<Sheet>() }.work();
}

extern "C" fn nothing(sheet: *mut c_void) {
    black_box(sheet);
}
