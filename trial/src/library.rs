//! The archive's functions, as include/m7700.h declares them.

extern "C" {
    pub fn m7700_check(
        image: *const u8,
        image_len: usize,
        marks: *const u8,
        marks_len: usize,
        base: u32,
        reset: u32,
    ) -> u32;

    pub fn m7700_read_list(
        text: *const u8,
        text_len: usize,
        marks: *mut u8,
        marks_len: usize,
    ) -> u64;

    pub fn m7700_write_list(
        marks: *const u8,
        marks_len: usize,
        base: u32,
        reset: u32,
        page: *mut u8,
        page_len: usize,
    ) -> u64;

    pub fn m7700_print(
        image: *const u8,
        image_len: usize,
        marks: *const u8,
        marks_len: usize,
        base: u32,
        reset: u32,
        page: *mut u8,
        page_len: usize,
    ) -> u64;

    pub fn m7700_explain(
        image: *const u8,
        image_len: usize,
        marks: *const u8,
        marks_len: usize,
        base: u32,
        reset: u32,
        page: *mut u8,
        page_len: usize,
    ) -> u64;

    pub fn m7700_locate(
        image: *const u8,
        image_len: usize,
        marks: *const u8,
        marks_len: usize,
        base: u32,
        reset: u32,
        addresses: *const u32,
        addresses_len: usize,
        places: *mut u32,
        places_len: usize,
    ) -> u64;

    pub fn m7700_build_marks(
        image: *const u8,
        image_len: usize,
        base: u32,
        reset: u32,
        routines: *const u8,
        routines_len: usize,
        marks: *mut u8,
        marks_len: usize,
    ) -> u64;

    pub fn m7700_step(
        image: *const u8,
        image_len: usize,
        base: u32,
        state: *mut u8,
        state_len: usize,
        ram: *mut u8,
        ram_len: usize,
    ) -> u64;

    pub fn m7700_run(
        image: *const u8,
        image_len: usize,
        base: u32,
        state: *mut u8,
        state_len: usize,
        ram: *mut u8,
        ram_len: usize,
        steps: u32,
    ) -> u64;
}
