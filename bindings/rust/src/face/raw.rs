//! The functions of clp.h as C has them.

use super::{Answer, Joined, Part, Term};

extern "C" {
    pub fn clp_join(
        state: u64,
        buffer: *mut u8,
        buffer_len: usize,
        part: *const u8,
        part_len: usize,
    ) -> Joined;
    pub fn clp_end(state: u64) -> Answer;
    pub fn clp_read(line: *const u8, line_len: usize, room: *mut u8, room_len: usize) -> Answer;
    pub fn clp_target(line: *const u8, line_len: usize) -> Part;
    pub fn clp_next_term(line: *const u8, line_len: usize, place: usize) -> Term;
    pub fn clp_canonical(
        line: *const u8,
        line_len: usize,
        room: *mut u8,
        room_len: usize,
    ) -> Answer;
    pub fn clp_meant(text: *const u8, text_len: usize, room: *mut u8, room_len: usize) -> Answer;
    pub fn clp_check_tree(tree: *const u8, tree_len: usize) -> Answer;
    pub fn clp_resolve(
        text: *const u8,
        text_len: usize,
        tree: *const u8,
        tree_len: usize,
        default_target: usize,
        list: *mut u16,
        list_len: usize,
    ) -> Answer;
    pub fn clp_full_path(
        tree: *const u8,
        tree_len: usize,
        node: usize,
        room: *mut u8,
        room_len: usize,
    ) -> Answer;
    pub fn clp_list(
        state: u64,
        buffer: *mut u8,
        buffer_len: usize,
        part: *const u8,
        part_len: usize,
        room: *mut u8,
        room_len: usize,
    ) -> Joined;
    pub fn clp_list_end(state: u64, room: *mut u8, room_len: usize) -> Answer;
    pub fn clp_records_text(
        records: *const u8,
        records_len: usize,
        room: *mut u8,
        room_len: usize,
    ) -> Answer;
    pub fn clp_read_reply(
        reply: *const u8,
        reply_len: usize,
        room: *mut u8,
        room_len: usize,
    ) -> Answer;
    pub fn clp_write_reply(
        records: *const u8,
        records_len: usize,
        text: *const u8,
        text_len: usize,
        room: *mut u8,
        room_len: usize,
    ) -> Answer;
    pub fn clp_reply_value(
        raw: *const u8,
        raw_len: usize,
        room: *mut u8,
        room_len: usize,
    ) -> Answer;
}
