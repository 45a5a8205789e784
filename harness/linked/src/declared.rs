//! The product's functions as they are declared for C: a slice is a pointer, then a length.

extern "C" {
    pub fn pulpmitten_answer_text(
        text: *const u8,
        text_len: usize,
        out: *mut u8,
        out_len: usize,
    ) -> usize;

    pub fn pulpmitten_plan(
        objective: u32,
        running: u32,
        headway: u32,
        one: *const i32,
        one_len: usize,
        two: *const i32,
        two_len: usize,
        departures: *mut u32,
        departures_len: usize,
        value: *mut i64,
        first: *mut u32,
        second: *mut u32,
    ) -> u32;

    pub fn pulpmitten_judge(
        objective: u32,
        running: u32,
        headway: u32,
        one: *const i32,
        one_len: usize,
        two: *const i32,
        two_len: usize,
        departures: *const u32,
        departures_len: usize,
        value: *mut i64,
        first: *mut u32,
        second: *mut u32,
    ) -> u32;
}
