//! The calls on columns and sheets, as exported, under functions that take slices.

/// Number, place and the count of words written.
#[repr(C)]
#[must_use = "only its number says whether it holds"]
#[derive(Clone, Copy, Debug, PartialEq, Eq)]
pub struct SheetAnswer {
    pub number: u32,
    pub place: u32,
    pub count: u32,
}

// The declarations are those of crates/cabi; a slice comes as a pointer and a length.
unsafe extern "C" {
    fn jorumrain_columns_combine(
        n: u32,
        es: u32,
        op: u8,
        left: *const u64,
        left_length: usize,
        right: *const u64,
        right_length: usize,
        row: usize,
        lent: *mut u64,
        lent_length: usize,
    ) -> SheetAnswer;

    fn jorumrain_sheet_work(
        n: u32,
        es: u32,
        inputs: *const u64,
        inputs_length: usize,
        steps: *const u8,
        steps_length: usize,
        lent: *mut u64,
        lent_length: usize,
    ) -> SheetAnswer;

    fn jorumrain_file_work(
        file: *const u8,
        file_length: usize,
        lent: *mut u64,
        lent_length: usize,
    ) -> SheetAnswer;
}

/// One operation on two columns, pair by pair, into a lent column from a row on.
pub fn combine(
    n: u32,
    es: u32,
    op: u8,
    left: &[u64],
    right: &[u64],
    row: usize,
    lent: &mut [u64],
) -> SheetAnswer {
    // SAFETY: each pointer and length is that of a slice, and the lent one is borrowed alone.
    unsafe {
        jorumrain_columns_combine(
            n,
            es,
            op,
            left.as_ptr(),
            left.len(),
            right.as_ptr(),
            right.len(),
            row,
            lent.as_mut_ptr(),
            lent.len(),
        )
    }
}

/// A sheet: inputs, then steps of three bytes (operation, left row, right row); its rows go into the lent column.
pub fn work(n: u32, es: u32, inputs: &[u64], steps: &[u8], lent: &mut [u64]) -> SheetAnswer {
    // SAFETY: each pointer and length is that of a slice, and the lent one is borrowed alone.
    unsafe {
        jorumrain_sheet_work(
            n,
            es,
            inputs.as_ptr(),
            inputs.len(),
            steps.as_ptr(),
            steps.len(),
            lent.as_mut_ptr(),
            lent.len(),
        )
    }
}

/// The sheet of a sheet file; its rows go into the lent column.
pub fn work_file(file: &[u8], lent: &mut [u64]) -> SheetAnswer {
    // SAFETY: each pointer and length is that of a slice, and the lent one is borrowed alone.
    unsafe { jorumrain_file_work(file.as_ptr(), file.len(), lent.as_mut_ptr(), lent.len()) }
}
