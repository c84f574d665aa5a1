//! What `include/coshalit.h` declares, by hand, and the library itself, which is linked statically. The header says what each call takes,
//! gives and promises; the crate `coshalit` has it in safe Rust.
//!
//! The library asks for memory by three functions. The feature `malloc`, which is on by default, brings them along. Without it the program
//! has to define `rattle_alloc`, `rattle_realloc` and `rattle_dealloc`, as `bindings/go/heap.c` says.
#![no_std]

#[cfg(feature = "malloc")]
mod heap;

/// The version of the header that this crate is written from: major * 10000 + minor * 100 + patch.
pub const COSHALIT_VERSION: u32 = 10000;

/// How many bytes a root has.
pub const COSHALIT_ROOT_BYTES: usize = 32;

pub const COSHALIT_LEADS: u32 = 0;
pub const COSHALIT_NOT_OPEN: u32 = 1;
pub const COSHALIT_WRONG_SHAPE: u32 = 2;
pub const COSHALIT_NO_PROOF: u32 = 3;
pub const COSHALIT_WRONG_LENGTH: u32 = 4;

pub const COSHALIT_DONE: u32 = 0;
pub const COSHALIT_NOT_ASKED: u32 = 2;
pub const COSHALIT_BAD_CASE: u32 = 3;
pub const COSHALIT_BAD_IMAGE: u32 = 4;
pub const COSHALIT_AUDIT_REFUSED: u32 = 8;
pub const COSHALIT_OUT_OF_MEMORY: u32 = 9;
pub const COSHALIT_TOO_LONG: u32 = 12;
pub const COSHALIT_ACCEPTED: u32 = 0;
pub const COSHALIT_NONE_LEFT: u32 = 10;
pub const COSHALIT_COLLISION: u32 = 11;
pub const COSHALIT_STILL_OPEN: u32 = 13;
pub const COSHALIT_BAD_NUMBERS: u32 = 14;
pub const COSHALIT_BAD_LOG: u32 = 15;

/// What a command answers: its status, and how many bytes its text has.
#[repr(C)]
#[derive(Clone, Copy, Debug, PartialEq, Eq)]
pub struct CoshalitAnswer {
    pub status: u32,
    pub length: usize,
}

/// The numbers by which a match is played.
#[repr(C)]
#[derive(Clone, Copy, Debug, PartialEq, Eq)]
pub struct CoshalitNumbers {
    pub version: u32,
    pub provers: u32,
    pub fan: u32,
    pub patience: u32,
    pub bound: u64,
    pub start: [u8; COSHALIT_ROOT_BYTES],
}

/// What a prover is asked.
#[repr(C)]
#[derive(Clone, Copy, Debug, Default, PartialEq, Eq)]
pub struct CoshalitQuestion {
    pub prover: u32,
    pub dispute: u32,
    pub round: u32,
    pub kind: u32,
    pub parts: u32,
    pub passes: u32,
    pub low: u64,
    pub high: u64,
}

/// What a match has come to after a log, or where the bytes are no log.
#[repr(C)]
#[derive(Clone, Copy, Debug, Default, PartialEq, Eq)]
pub struct CoshalitMatch {
    pub reply: u32,
    pub accepted: u32,
    pub asked: u32,
    pub cause: u32,
    pub rule: u32,
    pub at: u64,
}

unsafe extern "C" {
    pub safe fn coshalit_version() -> u32;
    pub fn coshalit_check_step(
        version: u32,
        root: *const u8,
        root_length: usize,
        wire: *const u8,
        wire_length: usize,
        next: *mut u8,
        next_length: usize,
    ) -> u32;
    pub fn coshalit_audit(text: *const u8, text_length: usize, room: *mut u8, room_length: usize) -> CoshalitAnswer;
    pub fn coshalit_run(json: *const u8, json_length: usize, room: *mut u8, room_length: usize) -> CoshalitAnswer;
    pub fn coshalit_list(json: *const u8, json_length: usize, room: *mut u8, room_length: usize) -> CoshalitAnswer;
    pub fn coshalit_match(
        numbers: *const CoshalitNumbers,
        log: *const u8,
        log_length: usize,
        found: *mut CoshalitMatch,
        asked: *mut CoshalitQuestion,
        asked_length: usize,
    ) -> u32;
    pub fn coshalit_match_text(
        numbers: *const CoshalitNumbers,
        log: *const u8,
        log_length: usize,
        room: *mut u8,
        room_length: usize,
    ) -> CoshalitAnswer;
    pub fn coshalit_match_balances(
        numbers: *const CoshalitNumbers,
        stake: u64,
        log: *const u8,
        log_length: usize,
        balances: *mut u64,
        balances_length: usize,
        pool: *mut u64,
    ) -> u32;
    pub fn coshalit_match_burned(
        numbers: *const CoshalitNumbers,
        stake: u64,
        log: *const u8,
        log_length: usize,
        balances: *mut u64,
        balances_length: usize,
        pool: *mut u64,
    ) -> u32;
    pub fn coshalit_start_root(json: *const u8, json_length: usize, room: *mut u8, room_length: usize) -> CoshalitAnswer;
    pub fn coshalit_roots_at(
        json: *const u8,
        json_length: usize,
        steps: *const u64,
        count: usize,
        room: *mut u8,
        room_length: usize,
    ) -> CoshalitAnswer;
    pub fn coshalit_answer(
        json: *const u8,
        json_length: usize,
        kind: u32,
        low: u64,
        high: u64,
        parts: u32,
        room: *mut u8,
        room_length: usize,
    ) -> CoshalitAnswer;
    pub fn coshalit_claim_root(wire: *const u8, wire_length: usize, root: *mut u8, root_length: usize) -> u32;
}
