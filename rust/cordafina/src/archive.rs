//! The functions of the archive, as `include/cordafina.h` declares them.

use crate::digit_map::CELLS;

extern "C" {
    pub fn cordafina_answer(
        lines: u32,
        message: *const u8,
        message_len: usize,
        table: *mut u32,
        table_len: usize,
        room_words: *mut u32,
        room_words_len: usize,
        room_bytes: *mut u8,
        room_bytes_len: usize,
        blocks: *mut u32,
        blocks_len: usize,
        own_mid: *const u8,
        own_mid_len: usize,
        reply: *mut u8,
        reply_len: usize,
    ) -> u64;

    pub fn cordafina_packet(
        lines: u32,
        table: *const u32,
        table_len: usize,
        blocks: *mut u32,
        blocks_len: usize,
        n: u32,
        arrival: u32,
        stamp: u32,
    ) -> u32;

    pub fn cordafina_contexts(
        lines: u32,
        table: *const u32,
        table_len: usize,
        out: *mut u8,
        out_len: usize,
    ) -> u64;

    pub fn cordafina_text_side(message: *const u8, message_len: usize, k: usize) -> u32;

    pub fn cordafina_text(message: *const u8, message_len: usize, k: usize) -> u64;

    pub fn cordafina_text_name(message: *const u8, message_len: usize, k: usize) -> u64;

    pub fn cordafina_write_row(
        lines: u32,
        table: *const u32,
        table_len: usize,
        out: *mut u8,
        out_len: usize,
    ) -> u64;

    pub fn cordafina_read_row(
        lines: u32,
        row: *const u8,
        row_len: usize,
        table: *mut u32,
        table_len: usize,
    ) -> u32;

    pub fn cordafina_lowest_absent(map: u64) -> u32;

    pub fn cordafina_in_use(map: u64) -> u32;

    pub fn cordafina_dial(
        map: *const u8,
        map_len: usize,
        start: u32,
        zero: u32,
        dialled: *const u8,
        dialled_len: usize,
    ) -> u32;

    pub fn cordafina_dial_plain(
        map: *const u8,
        map_len: usize,
        start: u32,
        zero: u32,
        dialled: *const u8,
        dialled_len: usize,
    ) -> u32;

    pub fn cordafina_load_map(
        map: *const u8,
        map_len: usize,
        start: u32,
        zero: u32,
        cells: *mut [u32; CELLS],
    ) -> u32;

    pub fn cordafina_dial_map(
        head: u32,
        cells: *const [u32; CELLS],
        dialled: *const u8,
        dialled_len: usize,
    ) -> u32;
}
