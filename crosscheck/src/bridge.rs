//! The library under test, as C sees it. Nothing checks these declarations against its source, so they are few.

unsafe extern "C" {
    fn judge_opening_pairs(record: *const u8, length: usize, code: u8) -> u32;
    fn judge_least_pairs(record: *const u8, length: usize, code: u8) -> u32;
}

/// Pairs of the opening order of a record under the book with this code; `u32::MAX` where one of them is refused.
pub fn opening_pairs(record: &[u8], code: u8) -> u32 {
    // SAFETY: the library reads `length` bytes and keeps nothing.
    unsafe { judge_opening_pairs(record.as_ptr(), record.len(), code) }
}

/// Pairs of the least order, likewise.
pub fn least_pairs(record: &[u8], code: u8) -> u32 {
    // SAFETY: the library reads `length` bytes and keeps nothing.
    unsafe { judge_least_pairs(record.as_ptr(), record.len(), code) }
}
