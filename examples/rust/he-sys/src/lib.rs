//! libhe's functions, structs and numbers as `he.h` declares them, which is their documentation.
#![no_std]
#![allow(non_camel_case_types)]

pub const HE_VERSION: u32 = 10_000;
pub const HE_LINE_SIZE: usize = 128;

pub const HE_DONE: u32 = 0;
pub const HE_FAULT: u32 = 1;
pub const HE_BUFFER_TOO_SMALL: u32 = 2;
pub const HE_NO_MEMORY: u32 = 3;
pub const HE_NOT_ONE_RACE: u32 = 4;

pub const HE_KIND_NONE: u32 = 0;
pub const HE_KIND_HEADER: u32 = 1;
pub const HE_KIND_WORD: u32 = 2;
pub const HE_KIND_NUMBER: u32 = 3;
pub const HE_KIND_ADDRESS: u32 = 4;
pub const HE_KIND_PREFIX: u32 = 5;
pub const HE_KIND_REPEATED: u32 = 6;
pub const HE_KIND_RANGE: u32 = 7;
pub const HE_KIND_TOO_MANY: u32 = 8;
pub const HE_KIND_UNFINISHED: u32 = 9;
pub const HE_KIND_NO_DEFAULT_ROW: u32 = 10;
pub const HE_KIND_NO_MAPPED_ROW: u32 = 11;
pub const HE_KIND_SHARED_PRECEDENCE: u32 = 12;

pub const HE_ACTION_START: u32 = 1;
pub const HE_ACTION_WAIT: u32 = 2;
pub const HE_ACTION_WON: u32 = 3;
pub const HE_ACTION_EXHAUSTED: u32 = 4;
pub const HE_ACTION_LIMIT: u32 = 5;

#[repr(C)]
#[derive(Clone, Copy, Debug, Default, PartialEq, Eq)]
pub struct he_result {
    pub length: u64,
    pub line: u64,
    pub kind: u32,
}

#[repr(C)]
#[derive(Clone, Copy, Debug, Default, PartialEq, Eq)]
pub struct he_step {
    pub action: u32,
    pub family: u32,
    pub place: u64,
    pub tick: u64,
    pub pause_from: u64,
    pub pause_until: u64,
    pub address: [u8; 16],
}

#[repr(C)]
#[derive(Clone, Copy, Debug, Default, PartialEq, Eq)]
pub struct he_way {
    pub family: u32,
    pub interface: u16,
    pub prefix_length: u8,
    pub deprecated: u8,
    pub destination: [u8; 16],
    pub source: [u8; 16],
    pub tunnel: u8,
}

/// The type of `he_replay`, `he_order`, `he_explain`, `he_check` and `he_record_line`.
pub type he_text_call = unsafe extern "C" fn(*const u8, usize, *mut u8, usize, *mut he_result) -> u32;

unsafe extern "C" {
    pub fn he_version() -> u32;
    pub fn he_replay(text: *const u8, length: usize, buffer: *mut u8, size: usize, result: *mut he_result) -> u32;
    pub fn he_order(text: *const u8, length: usize, buffer: *mut u8, size: usize, result: *mut he_result) -> u32;
    pub fn he_explain(text: *const u8, length: usize, buffer: *mut u8, size: usize, result: *mut he_result) -> u32;
    pub fn he_check(text: *const u8, length: usize, buffer: *mut u8, size: usize, result: *mut he_result) -> u32;
    pub fn he_kind_text(kind: u32, buffer: *mut u8, size: usize, result: *mut he_result) -> u32;
    pub fn he_next(
        record: *const u8,
        length: usize,
        started: u64,
        now: u64,
        step: *mut he_step,
        result: *mut he_result,
    ) -> u32;
    pub fn he_setting_line(
        name: *const u8,
        length: usize,
        value: u64,
        buffer: *mut u8,
        size: usize,
        result: *mut he_result,
    ) -> u32;
    pub fn he_answer_line(
        family: u32,
        addresses: *const u8,
        length: usize,
        tick: u64,
        buffer: *mut u8,
        size: usize,
        result: *mut he_result,
    ) -> u32;
    pub fn he_connect_line(
        start: *const he_step,
        connected: u32,
        tick: u64,
        buffer: *mut u8,
        size: usize,
        result: *mut he_result,
    ) -> u32;
    pub fn he_pause_line(step: *const he_step, buffer: *mut u8, size: usize, result: *mut he_result) -> u32;
    pub fn he_source_line(way: *const he_way, buffer: *mut u8, size: usize, result: *mut he_result) -> u32;
    pub fn he_route_line(way: *const he_way, buffer: *mut u8, size: usize, result: *mut he_result) -> u32;
    pub fn he_record_line(words: *const u8, length: usize, buffer: *mut u8, size: usize, result: *mut he_result) -> u32;
    pub fn he_host_lines(
        family: u32,
        record: *const u8,
        length: usize,
        buffer: *mut u8,
        size: usize,
        result: *mut he_result,
    ) -> u32;
}
