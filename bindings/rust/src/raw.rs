//! The C interface as it is, for callers that bring their own stack. `include/gannetrope.h` documents it.

#[rustfmt::skip]
unsafe extern "C" {
    /// Judges two gate lists: 0 if it did, 1 if `numbers` or `entries` is too short.
    ///
    /// # Safety
    /// Every pointer is aligned, not null and good for its length; what is lent for writing overlaps nothing else;
    /// enough stack is free: 64 KB for a call that is refused before its run, 1 MB if no column is longer than 4,096,
    /// else 8 MB.
    pub fn gannetrope_judge(
        list1: *const u8, list1_length: usize,
        list2: *const u8, list2_length: usize,
        schedule: *const u8, schedule_length: usize,
        w: u32,
        level: *mut u32, level_length: usize,
        low: *mut u32, low_length: usize,
        high: *mut u32, high_length: usize,
        a: *mut i32, a_length: usize,
        b: *mut i32, b_length: usize,
        c: *mut i32, c_length: usize,
        d: *mut i32, d_length: usize,
        other_level: *mut u32, other_level_length: usize,
        other_low: *mut u32, other_low_length: usize,
        other_high: *mut u32, other_high_length: usize,
        other_a: *mut i32, other_a_length: usize,
        other_b: *mut i32, other_b_length: usize,
        other_c: *mut i32, other_c_length: usize,
        other_d: *mut i32, other_d_length: usize,
        numbers: *mut u64, numbers_length: usize,
        entries: *mut i32, entries_length: usize,
    ) -> u32;

    /// Makes the proportional schedule: `m + p`, or 65,536 plus the number of the refusal.
    ///
    /// # Safety
    /// The pointer is not null and good for its length.
    pub fn gannetrope_schedule(m: u32, p: u32, buffer: *mut u8, buffer_length: usize) -> u32;

    /// Writes the inverse of a list: 0 if `numbers` has what was answered, 1 if it is too short.
    ///
    /// # Safety
    /// Every pointer is aligned, not null and good for its length; what is lent for writing overlaps nothing else.
    pub fn gannetrope_inverse(
        list: *const u8, list_length: usize,
        buffer: *mut u8, buffer_length: usize,
        numbers: *mut u64, numbers_length: usize,
    ) -> u32;
}
