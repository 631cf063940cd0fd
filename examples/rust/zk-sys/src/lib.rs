//! The calls of libzk as `include/zk.h` declares them. The crate `zk` has safe ones.
//!
//! A caller owes what that header says: no pointer is null, and a handle is all zeros at first, is never copied, and is
//! used by one call at a time.
#![no_std]
#![allow(non_camel_case_types)]

/// The version of these calls, as `ZK_VERSION_NUMBER` of `include/zk.h`.
pub const VERSION: u32 = 10_000;

/// A talk, or none.
#[repr(C)]
pub struct zk_talk {
    pub held: *mut u8,
    pub live: bool,
}

/// A passage, or none.
#[repr(C)]
pub struct zk_through {
    pub held: *mut u8,
    pub live: bool,
}

/// A speaker, or none.
#[repr(C)]
pub struct zk_speaker {
    pub held: *mut u8,
    pub live: bool,
}

#[repr(C)]
#[derive(Clone, Copy, Debug)]
pub struct zk_fault {
    pub frame: u64,
    pub offset: u64,
    pub side: u32,
    pub place: u32,
    pub reason: u32,
    pub expected: i32,
    pub got: i32,
}

#[repr(C)]
#[derive(Clone, Copy, Debug)]
pub struct zk_step {
    pub used: usize,
    pub status: u32,
    pub whole: bool,
    pub fault: zk_fault,
}

#[repr(C)]
#[derive(Clone, Copy, Debug)]
pub struct zk_passed {
    pub used: usize,
    pub status: u32,
    pub went: u32,
    pub xid: i32,
    pub operation: i32,
    pub fault: zk_fault,
    pub frame: u64,
    pub zxid: i64,
    pub err: i32,
}

#[repr(C)]
#[derive(Clone, Copy, Debug)]
pub struct zk_ending {
    pub status: u32,
    pub kind: u32,
    pub unanswered: u32,
    pub side: u32,
    pub got: u32,
    pub frame: u64,
    pub fault: zk_fault,
}

#[repr(C)]
#[derive(Clone, Copy, Debug)]
pub struct zk_message {
    pub status: u32,
    pub kind: u32,
    pub xid: i32,
    pub operation: i32,
    pub size: u32,
    pub err: i32,
    pub zxid: i64,
    pub frame: u64,
    pub answers: u64,
}

#[repr(C)]
#[derive(Clone, Copy, Debug)]
pub struct zk_waiting {
    pub status: u32,
    pub requests: u32,
    pub weight: u32,
}

#[repr(C)]
#[derive(Clone, Copy, Debug)]
pub struct zk_held {
    pub status: u32,
    pub bytes: u32,
}

#[repr(C)]
#[derive(Clone, Copy, Debug)]
pub struct zk_line {
    pub status: u32,
    pub length: usize,
}

#[repr(C)]
#[derive(Clone, Copy, Debug)]
pub struct zk_say {
    pub status: u32,
    pub length: usize,
    pub column: u32,
}

#[repr(C)]
#[derive(Clone, Copy, Debug)]
pub struct zk_payload {
    pub status: u32,
    pub place: u32,
}

#[repr(C)]
#[derive(Clone, Copy, Debug)]
pub struct zk_written {
    pub status: u32,
    pub length: usize,
    pub index: usize,
}

#[repr(C)]
#[derive(Clone, Copy, Debug)]
pub struct zk_piece {
    pub side: u32,
    pub length: usize,
}

#[repr(C)]
#[derive(Clone, Copy, Debug, Default)]
pub struct zk_field {
    pub place: u32,
    pub length: u32,
    pub number: i64,
    pub name: u16,
    pub kind: u8,
    pub null: u8,
}

#[repr(C)]
#[derive(Clone, Copy, Debug)]
pub struct zk_read {
    pub status: u32,
    pub place: u32,
    pub count: u32,
    pub kind: u32,
    pub xid: i32,
    pub operation: i32,
    pub err: i32,
    pub zxid: i64,
}

extern "C" {
    pub fn zk_version() -> u32;
    pub fn zk_talk_new(
        talk: *mut zk_talk,
        client: u32,
        server: u32,
        waiting: u32,
        profile: u32,
    ) -> u32;
    pub fn zk_talk_renew(talk: *mut zk_talk) -> u32;
    pub fn zk_talk_pass(talk: *mut zk_talk, side: u32, piece: *const u8, length: usize) -> zk_step;
    pub fn zk_talk_waiting(talk: *mut zk_talk) -> zk_waiting;
    pub fn zk_talk_held(talk: *mut zk_talk, side: u32) -> zk_held;
    pub fn zk_talk_finish_into(talk: *mut zk_talk, out: *mut zk_ending, size: usize);
    pub fn zk_talk_step(talk: *mut zk_talk, side: u32, piece: *const u8, length: usize) -> zk_step;
    pub fn zk_talk_offer(talk: *mut zk_talk, side: u32, frame: *const u8, length: usize)
        -> zk_step;
    pub fn zk_talk_view_into(talk: *mut zk_talk, side: u32, out: *mut zk_message, size: usize);
    pub fn zk_talk_line(talk: *mut zk_talk, side: u32, out: *mut u8, room: usize) -> zk_line;
    pub fn zk_talk_payload(talk: *mut zk_talk, side: u32, out: *mut u8, room: usize) -> zk_line;
    pub fn zk_talk_fields(
        talk: *mut zk_talk,
        side: u32,
        out: *mut zk_field,
        room: usize,
    ) -> zk_read;
    pub fn zk_talk_ending_line(talk: *mut zk_talk, out: *mut u8, room: usize) -> zk_line;
    pub fn zk_talk_free(talk: *mut zk_talk);
    pub fn zk_through_new(
        through: *mut zk_through,
        client: u32,
        server: u32,
        waiting: u32,
        profile: u32,
    ) -> u32;
    pub fn zk_through_join(
        through: *mut zk_through,
        client: u32,
        server: u32,
        waiting: u32,
        profile: u32,
    ) -> u32;
    pub fn zk_through_renew(through: *mut zk_through) -> u32;
    pub fn zk_through_step_into(
        through: *mut zk_through,
        side: u32,
        piece: *const u8,
        length: usize,
        out: *mut zk_passed,
        size: usize,
    );
    pub fn zk_through_pass_into(
        through: *mut zk_through,
        side: u32,
        piece: *const u8,
        length: usize,
        out: *mut zk_passed,
        size: usize,
    );
    pub fn zk_through_offer_into(
        through: *mut zk_through,
        side: u32,
        frame: *const u8,
        length: usize,
        out: *mut zk_passed,
        size: usize,
    );
    pub fn zk_through_resume(through: *mut zk_through) -> zk_step;
    pub fn zk_through_view_into(
        through: *mut zk_through,
        side: u32,
        out: *mut zk_message,
        size: usize,
    );
    pub fn zk_through_line(
        through: *mut zk_through,
        side: u32,
        out: *mut u8,
        room: usize,
    ) -> zk_line;
    pub fn zk_through_fields(
        through: *mut zk_through,
        side: u32,
        out: *mut zk_field,
        room: usize,
    ) -> zk_read;
    pub fn zk_through_payload(
        through: *mut zk_through,
        side: u32,
        out: *mut u8,
        room: usize,
    ) -> zk_line;
    pub fn zk_through_waiting(through: *mut zk_through) -> zk_waiting;
    pub fn zk_through_held(through: *mut zk_through, side: u32) -> zk_held;
    pub fn zk_through_finish_into(through: *mut zk_through, out: *mut zk_ending, size: usize);
    pub fn zk_through_ending_line(through: *mut zk_through, out: *mut u8, room: usize) -> zk_line;
    pub fn zk_through_free(through: *mut zk_through);
    pub fn zk_speaker_new(
        speaker: *mut zk_speaker,
        client: u32,
        server: u32,
        waiting: u32,
        profile: u32,
    ) -> u32;
    pub fn zk_speaker_renew(speaker: *mut zk_speaker) -> u32;
    pub fn zk_speaker_say(speaker: *mut zk_speaker, line: *const u8, length: usize) -> zk_say;
    pub fn zk_speaker_say_payload(
        speaker: *mut zk_speaker,
        side: u32,
        bytes: *const u8,
        length: usize,
    ) -> zk_payload;
    pub fn zk_speaker_frame(speaker: *mut zk_speaker, out: *mut u8, room: usize) -> zk_line;
    pub fn zk_speaker_free(speaker: *mut zk_speaker);
    pub fn zk_judge_first(bytes: *const u8, length: usize) -> zk_payload;
    pub fn zk_judge_request(profile: u32, bytes: *const u8, length: usize) -> zk_payload;
    pub fn zk_judge_connected(bytes: *const u8, length: usize) -> zk_payload;
    pub fn zk_judge_reply(
        operation: i32,
        parts: *const i32,
        count: usize,
        bytes: *const u8,
        length: usize,
    ) -> zk_payload;
    pub fn zk_judge_event(bytes: *const u8, length: usize) -> zk_payload;
    pub fn zk_write_request(
        xid: i32,
        operation: i32,
        fields: *const zk_field,
        count: usize,
        content: *const u8,
        length: usize,
        out: *mut u8,
        room: usize,
    ) -> zk_written;
    pub fn zk_write_first(
        fields: *const zk_field,
        count: usize,
        content: *const u8,
        length: usize,
        out: *mut u8,
        room: usize,
    ) -> zk_written;
    pub fn zk_write_reply(
        xid: i32,
        zxid: i64,
        err: i32,
        operation: i32,
        fields: *const zk_field,
        count: usize,
        content: *const u8,
        length: usize,
        out: *mut u8,
        room: usize,
    ) -> zk_written;
    pub fn zk_write_event(
        zxid: i64,
        fields: *const zk_field,
        count: usize,
        content: *const u8,
        length: usize,
        out: *mut u8,
        room: usize,
    ) -> zk_written;
    pub fn zk_write_connected(
        fields: *const zk_field,
        count: usize,
        content: *const u8,
        length: usize,
        out: *mut u8,
        room: usize,
    ) -> zk_written;
    pub fn zk_listing(
        pieces: *const zk_piece,
        count: usize,
        bytes: *const u8,
        length: usize,
        client: u32,
        server: u32,
        waiting: u32,
        profile: u32,
        out: *mut u8,
        room: usize,
    ) -> zk_line;
    pub fn zk_read_first(
        payload: *const u8,
        length: usize,
        out: *mut zk_field,
        room: usize,
    ) -> zk_read;
    pub fn zk_read_request(
        profile: u32,
        payload: *const u8,
        length: usize,
        out: *mut zk_field,
        room: usize,
    ) -> zk_read;
    pub fn zk_read_connected(
        payload: *const u8,
        length: usize,
        out: *mut zk_field,
        room: usize,
    ) -> zk_read;
    pub fn zk_read_reply(
        operation: i32,
        parts: *const i32,
        count: usize,
        payload: *const u8,
        length: usize,
        out: *mut zk_field,
        room: usize,
    ) -> zk_read;
    pub fn zk_read_event(
        payload: *const u8,
        length: usize,
        out: *mut zk_field,
        room: usize,
    ) -> zk_read;
}
