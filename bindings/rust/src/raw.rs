//! The C functions: include/teykonasir.h says each whole.

extern "C" {
    pub fn teyk_run(
        text: *const u8,
        text_len: usize,
        shift: u64,
        limit: u64,
        records: *mut u64,
        records_len: usize,
        answer: *mut u64,
        answer_len: usize,
    ) -> u64;
    pub fn teyk_resume(
        text: *const u8,
        text_len: usize,
        shift: u64,
        limit: u64,
        state: *mut u64,
        state_len: usize,
        records: *mut u64,
        records_len: usize,
        answer: *mut u64,
        answer_len: usize,
    ) -> u64;
    pub fn teyk_read(
        text: *const u8,
        text_len: usize,
        reading: u64,
        shift: u64,
        limit: u64,
        records: *mut u64,
        records_len: usize,
        answer: *mut u64,
        answer_len: usize,
    ) -> u64;
    pub fn teyk_expand(text: *const u8, text_len: usize, idx0: u64, buffer: *mut u8, buffer_len: usize, place: u64, answer: *mut u64, answer_len: usize)
        -> u64;
    pub fn teyk_place(text: *const u8, text_len: usize, place: u64, answer: *mut u64, answer_len: usize) -> u64;
    pub fn teyk_place_at(text: *const u8, text_len: usize, line: u64, column: u64, answer: *mut u64, answer_len: usize) -> u64;
    pub fn teyk_ltk_read(file: *const u8, file_len: usize, records: *mut u64, records_len: usize, answer: *mut u64, answer_len: usize) -> u64;
    pub fn teyk_ltk_write(records: *const u64, records_len: usize, buffer: *mut u8, buffer_len: usize, answer: *mut u64, answer_len: usize) -> u64;
    pub fn teyk_sheet_take(text: *const u8, text_len: usize, sheet: *mut u64, sheet_len: usize, answer: *mut u64, answer_len: usize) -> u64;
    // the names stand in the enums; the tests hold them against the archive's
    #[cfg(test)]
    pub fn teyk_name_of_kind(kind: u64, buffer: *mut u8, buffer_len: usize, answer: *mut u64, answer_len: usize) -> u64;
    #[cfg(test)]
    pub fn teyk_name_of_code(code: u64, buffer: *mut u8, buffer_len: usize, answer: *mut u64, answer_len: usize) -> u64;
}
