//! The functions of the archive. A slice is a pointer and a length there, and a place for a number is a pointer. The comparison with the
//! plain engine uses this file too: what it compares are the numbers that the functions return.

#![allow(unsafe_code)]

unsafe extern "C" {
    pub fn atlite_read(text: *const u8, bytes: usize, table: *mut u32, words: usize) -> u32;
    pub fn atlite_print(
        table: *const u32,
        words: usize,
        text: *mut u8,
        bytes: usize,
        length: *mut usize,
    ) -> u32;
    pub fn atlite_load(
        table: *const u32,
        table_words: usize,
        state: *mut u32,
        state_words: usize,
    ) -> u32;
    pub fn atlite_move(
        state: *mut u32,
        words: usize,
        actor: u8,
        kind: *mut u32,
        other: *mut u32,
    ) -> u32;
    pub fn atlite_run(
        state: *mut u32,
        words: usize,
        entries: *const u8,
        bytes: usize,
        moves: *mut usize,
        refusals: *mut usize,
    ) -> u32;
    pub fn atlite_list(
        state: *const u32,
        words: usize,
        text: *mut u8,
        bytes: usize,
        length: *mut usize,
    ) -> u32;
}
