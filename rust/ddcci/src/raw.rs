//! The exported functions, as `include/ddcci.h` and `include/ddcci_display.h` declare them.
//!
//! Nothing checks these declarations against the Rattle source: they are believed, and so they are few and plain.
//! Their sizes are those that the headers hold; both refuse to compile with others.
//!
//! # Safety
//! Every function may be called with any numbers. A pointer and the length behind it must be those of one slice that
//! may be read, and written where the pointer is `*mut`; a slice that is written overlaps no other slice of the call.
use crate::call_list::Entry;
use crate::display::{Declaration, Timing};
use crate::refusal::Answer;

#[repr(C)]
#[derive(Clone, Copy)]
pub struct Built {
    pub answer: u8,
    pub length: usize,
}

#[repr(C)]
#[derive(Clone, Copy)]
pub struct Request {
    pub answer: u8,
    pub command: u8,
    pub code: u8,
    pub word: u16,
    pub position: usize,
    pub length: usize,
}

#[repr(C)]
#[derive(Clone, Copy)]
pub struct Reply {
    pub answer: u8,
    pub command: u8,
    pub status: u8,
    pub code: u8,
    pub kind: u8,
    pub first: u16,
    pub second: u16,
    pub position: usize,
    pub length: usize,
}

extern "C" {
    pub fn ddcci_read_request(message: *const u8, message_length: usize) -> Request;
    pub fn ddcci_read_reply(message: *const u8, message_length: usize) -> Reply;

    pub fn ddcci_build_get(code: u8, out: *mut u8, out_length: usize) -> Built;
    pub fn ddcci_build_set(code: u8, value: u16, out: *mut u8, out_length: usize) -> Built;
    pub fn ddcci_build_timing(out: *mut u8, out_length: usize) -> Built;
    pub fn ddcci_build_save(out: *mut u8, out_length: usize) -> Built;
    pub fn ddcci_build_text(offset: u16, out: *mut u8, out_length: usize) -> Built;
    pub fn ddcci_build_table_read(code: u8, offset: u16, out: *mut u8, out_length: usize) -> Built;
    pub fn ddcci_build_table_write(
        code: u8,
        offset: u16,
        data: *const u8,
        data_length: usize,
        out: *mut u8,
        out_length: usize,
    ) -> Built;

    pub fn ddcci_build_value(
        result: u8,
        code: u8,
        kind: u8,
        max: u16,
        present: u16,
        out: *mut u8,
        out_length: usize,
    ) -> Built;
    pub fn ddcci_build_timing_reply(
        status: u8,
        horizontal: u16,
        vertical: u16,
        out: *mut u8,
        out_length: usize,
    ) -> Built;
    pub fn ddcci_build_text_fragment(
        offset: u16,
        data: *const u8,
        data_length: usize,
        out: *mut u8,
        out_length: usize,
    ) -> Built;
    pub fn ddcci_build_table_fragment(
        offset: u16,
        data: *const u8,
        data_length: usize,
        out: *mut u8,
        out_length: usize,
    ) -> Built;
    pub fn ddcci_build_null(out: *mut u8, out_length: usize) -> Built;
}

#[repr(C)]
#[derive(Clone, Copy)]
pub struct Reading {
    pub answer: u8,
    pub nodes: usize,
    pub position: usize,
}

#[repr(C)]
#[derive(Clone, Copy)]
pub struct Transfer {
    pub buffer_length: usize,
    pub offset: u16,
    pub budget: u16,
    pub count: u16,
    pub phase: u8,
    pub answer: u8,
}

extern "C" {
    pub fn ddcci_read_capabilities(
        text: *const u8,
        text_length: usize,
        starts: *mut u16,
        starts_length: usize,
        lengths: *mut u16,
        lengths_length: usize,
        parents: *mut u16,
        parents_length: usize,
        groups: *mut u8,
        groups_length: usize,
    ) -> Reading;

    pub fn ddcci_checksum(seed: u8, bytes: *const u8, bytes_length: usize) -> u8;

    pub fn ddcci_begin(kind: u8, buffer: *const u8, buffer_length: usize, budget: usize) -> Transfer;
    pub fn ddcci_request(transfer: Transfer, out: *mut u8, out_length: usize) -> Built;
    pub fn ddcci_receive(
        transfer: Transfer,
        buffer: *mut u8,
        buffer_length: usize,
        reply: *const u8,
        reply_length: usize,
    ) -> Transfer;
}

#[repr(C)]
#[derive(Clone, Copy)]
pub struct CallList {
    pub answer: u8,
    pub entries: usize,
    pub position: usize,
}

#[repr(C)]
#[derive(Clone, Copy)]
pub struct Household {
    pub answer: u8,
    pub there: u8,
    pub number: usize,
    pub position: usize,
}

extern "C" {
    pub fn ddcci_check_call_list(list: *const u8, list_length: usize) -> CallList;
    pub fn ddcci_find_household(list: *const u8, list_length: usize, household: u32) -> Household;
    pub fn ddcci_call_list_entry(list: *const u8, list_length: usize, number: usize) -> Entry;
}

#[repr(C)]
#[derive(Clone, Copy)]
pub struct Compared {
    pub answer: u8,
    /// The profile that is refused: 1 the first, 2 the second; else 0.
    pub profile: u8,
    pub differences: usize,
    pub position: usize,
}

extern "C" {
    pub fn ddcci_compare_profiles(
        first: *const u8,
        first_length: usize,
        second: *const u8,
        second_length: usize,
        codes: *mut u8,
        codes_length: usize,
        first_values: *mut u32,
        first_values_length: usize,
        second_values: *mut u32,
        second_values_length: usize,
    ) -> Compared;
}

#[repr(C)]
#[derive(Clone, Copy, PartialEq, Eq)]
pub struct Settings {
    pub declared: [u64; 4],
    pub readable: [u64; 4],
    pub writable: [u64; 4],
    pub momentary: [u64; 4],
    pub continuous: [u64; 4],
    pub maximum: [u16; 256],
    pub horizontal: u16,
    pub saved: [u16; 256],
    pub vertical: u16,
    pub present: [u16; 256],
    pub status: u8,
}

/// A text's length, and the offset and the length of the fragment that was sent last.
#[repr(C)]
#[derive(Debug, Clone, Copy, PartialEq, Eq)]
pub struct TextState {
    pub length: u16,
    pub offset: u16,
    pub sent_length: u16,
}

#[repr(C)]
#[derive(Clone, Copy, PartialEq, Eq)]
pub struct Display {
    pub settings: Settings,
    pub capabilities: TextState,
    pub table: TextState,
    pub fragment_size: u16,
}

#[repr(C)]
#[derive(Clone, Copy)]
pub struct DisplayChanged {
    pub display: Display,
    pub answer: u8,
}

#[repr(C)]
#[derive(Clone, Copy)]
pub struct DisplayStepped {
    pub display: Display,
    pub answer: u8,
    pub length: usize,
    pub offset: usize,
    pub count: usize,
    /// The text that a fragment was sent of: 0 none, else 1 more than its number.
    pub sent: u8,
}

#[repr(C)]
#[derive(Clone, Copy)]
pub struct DisplayLoaded {
    pub display: Display,
    pub answer: u8,
    pub position: usize,
}

/// What a message asked for. What it does not have is 0.
#[repr(C)]
#[derive(Clone, Copy)]
pub struct DisplayAsked {
    pub command: u8,
    pub code: u8,
    pub value: u16,
}

extern "C" {
    pub fn ddcci_display_start(
        timing: Timing,
        text: *const u8,
        text_length: usize,
        fragment_size: u16,
    ) -> DisplayChanged;
    pub fn ddcci_display_declare(display: Display, declaration: Declaration) -> DisplayChanged;
    pub fn ddcci_display_declared_count(display: Display) -> u16;
    pub fn ddcci_display_next_declared(display: Display, from: u16) -> u16;
    pub fn ddcci_display_step(
        display: Display,
        text: *const u8,
        text_length: usize,
        table: *mut u8,
        table_length: usize,
        message: *const u8,
        message_length: usize,
        out: *mut u8,
        out_length: usize,
    ) -> DisplayStepped;
    pub fn ddcci_display_set_all(
        display: Display,
        codes: *const u8,
        codes_length: usize,
        values: *const u16,
        values_length: usize,
        answers: *mut Answer,
        answers_length: usize,
    ) -> DisplayChanged;
    pub fn ddcci_display_asked(answer: u8, message: *const u8, message_length: usize) -> DisplayAsked;
    pub fn ddcci_display_write_profile(display: Display, out: *mut u8, out_length: usize) -> Built;
    pub fn ddcci_display_load_profile(display: Display, profile: *const u8, profile_length: usize) -> DisplayLoaded;
}

const fn has_size<T>(size: usize) {
    assert!(size_of::<T>() == size);
}

const _: () = {
    has_size::<Built>(16);
    has_size::<Request>(24);
    has_size::<Reply>(32);
    has_size::<Reading>(24);
    has_size::<Transfer>(16);
    has_size::<CallList>(24);
    has_size::<Household>(24);
    has_size::<Entry>(8);
    has_size::<Compared>(24);
    has_size::<Timing>(6);
    has_size::<Settings>(1704);
    has_size::<TextState>(6);
    has_size::<Display>(1720);
    has_size::<Declaration>(10);
    has_size::<Answer>(1);
    has_size::<DisplayChanged>(1728);
    has_size::<DisplayStepped>(1760);
    has_size::<DisplayLoaded>(1736);
    has_size::<DisplayAsked>(4);
};
