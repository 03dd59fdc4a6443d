//! The functions of `include/gate.h`. They refuse short lengths themselves; a caller owes each pointer with
//! the length of what it points to, and that nothing written to overlaps anything else.

extern "C" {
    pub fn gate_scratch() -> u64;
    pub fn gate_derive(
        recipe: *const u8,
        recipe_length: usize,
        condition: *mut u8,
        condition_length: usize,
        scratch: *mut u64,
        scratch_length: usize,
    ) -> u64;
    pub fn gate_convert(
        old: *const u8,
        old_length: usize,
        recipe: *mut u8,
        recipe_length: usize,
        scratch: *mut u64,
        scratch_length: usize,
    ) -> u64;
    pub fn gate_check(condition: *const u8, condition_length: usize, sheet: *const u8, sheet_length: usize) -> u64;
    pub fn gate_run(
        recipe: *const u8,
        recipe_length: usize,
        sheet: *const u8,
        sheet_length: usize,
        limit: u32,
        choices: *const u8,
        choices_length: usize,
        log: *mut u8,
        log_length: usize,
        scratch: *mut u64,
        scratch_length: usize,
        steps: *mut u64,
        records: *mut u64,
    ) -> u64;
    pub fn gate_guarded(
        recipe: *const u8,
        recipe_length: usize,
        sheet: *const u8,
        sheet_length: usize,
        limit: u32,
        choices: *const u8,
        choices_length: usize,
        log: *mut u8,
        log_length: usize,
        condition: *mut u8,
        condition_length: usize,
        scratch: *mut u64,
        scratch_length: usize,
        steps: *mut u64,
        records: *mut u64,
    ) -> u64;
}
