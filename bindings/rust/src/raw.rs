//! The calls of the C interface as they are, for tests and measurements that need what the safe
//! calls rule out, such as states of a wrong length and lists for results that are too short or
//! longer than needed. The header `pepperknoll.h` says what each does; everyone else uses the safe
//! calls of this crate.
//!
//! # Safety
//!
//! Every pointer must be good for as many elements as the length after it says, must not be null
//! even with length 0, and must be aligned. A list that a call writes to must overlap no other
//! list of that call. `lengths` and `tickets` hold native words.

#![allow(missing_docs)]

pub use crate::route_packet::pk_route_write;

extern "C" {
    pub fn pk_link_distance(from: u8, to: u8) -> u8;
    pub fn pk_link_next(number: u8) -> u8;
    pub fn pk_packet_distance(from: u8, to: u8) -> u8;
    pub fn pk_packet_next(number: u8) -> u8;

    pub fn pk_sender_fresh(state: *mut u8, state_len: usize) -> u32;
    pub fn pk_sender_in_order(state: *const u8, state_len: usize) -> u32;
    pub fn pk_sender_send(state: *mut u8, state_len: usize) -> u32;
    pub fn pk_sender_acknowledge(state: *mut u8, state_len: usize, pr: u8) -> u32;
    pub fn pk_sender_ready(state: *mut u8, state_len: usize, pr: u8) -> u32;
    pub fn pk_sender_not_ready(state: *mut u8, state_len: usize, pr: u8) -> u32;
    pub fn pk_sender_reject(state: *mut u8, state_len: usize, pr: u8) -> u32;

    pub fn pk_receiver_fresh(state: *mut u8, state_len: usize) -> u32;
    pub fn pk_receiver_in_order(state: *const u8, state_len: usize) -> u32;
    pub fn pk_receiver_receive(state: *mut u8, state_len: usize, ps: u8) -> u32;
    pub fn pk_receiver_tell(state: *mut u8, state_len: usize) -> u32;

    pub fn pk_resequencer_fresh(state: *mut u8, state_len: usize) -> u32;
    pub fn pk_resequencer_in_order(state: *const u8, state_len: usize) -> u32;
    pub fn pk_resequencer_arrive(
        state: *mut u8,
        state_len: usize,
        tickets: *mut u16,
        tickets_len: usize,
        sn: u8,
        ticket: u16,
    ) -> u32;
    pub fn pk_resequencer_clock_end(
        state: *mut u8,
        state_len: usize,
        tickets: *mut u16,
        tickets_len: usize,
        sn: u8,
    ) -> u32;

    pub fn pk_frame_write(
        form: u8,
        packet: *const u8,
        packet_len: usize,
        user: *const u8,
        user_len: usize,
        out: *mut u8,
        out_len: usize,
    ) -> u64;
    pub fn pk_frame_read(
        form: u8,
        frame: *const u8,
        frame_len: usize,
        packet: *mut u8,
        packet_len: usize,
    ) -> u64;
    pub fn pk_frame_fault(form: u8, frame: *const u8, frame_len: usize) -> usize;

    pub fn pk_message_cut(
        form: u8,
        sn: u8,
        ps: u8,
        pr: u8,
        ch: u8,
        message: *const u8,
        message_len: usize,
        out: *mut u8,
        out_len: usize,
        lengths: *mut usize,
        lengths_len: usize,
    ) -> u64;
    pub fn pk_message_join(
        form: u8,
        lengths: *const usize,
        lengths_len: usize,
        frames: *const u8,
        frames_len: usize,
        out: *mut u8,
        out_len: usize,
    ) -> u64;
    pub fn pk_message_fault(
        form: u8,
        lengths: *const usize,
        lengths_len: usize,
        frames: *const u8,
        frames_len: usize,
        out_len: usize,
    ) -> usize;

    pub fn pk_table_empty(table: *mut u8, table_len: usize) -> u32;
    pub fn pk_table_codes(table: *const u8, table_len: usize, address: u8) -> u32;
    pub fn pk_table_count(table: *const u8, table_len: usize, address: u8) -> u32;
    pub fn pk_table_choose(
        table: *const u8,
        table_len: usize,
        address: u8,
        last: u16,
        failed: u16,
    ) -> u32;
    pub fn pk_table_update(
        table: *mut u8,
        table_len: usize,
        list: *const u8,
        list_len: usize,
        lost: *mut u8,
        lost_len: usize,
    ) -> u32;
    pub fn pk_choose(codes: u16, last: u16, failed: u16) -> u32;
}
