//! The declarations of tulvorn.h. bindings/tests/declarations.py compares them with the exports of the library.

use std::ptr::null_mut;

#[repr(C)]
pub struct Handle {
    at: *mut u8,
}

impl Handle {
    pub const NONE: Handle = Handle { at: null_mut() };
}

#[repr(C)]
#[derive(Clone, Copy, Default)]
pub struct Fault {
    pub code: u32,
    pub why: u32,
    pub at: u64,
}

/// The most that a value may take: of entries and of octets of its strings.
///
/// An entry is the value itself, and each of its components, absent ones too, of its elements and of its alternatives.
/// A string takes an octet for each octet, character or bit, a `UTF8String` for each octet.
#[repr(C)]
#[derive(Clone, Copy, Debug, PartialEq, Eq)]
pub struct Budget {
    /// The most entries.
    pub entries: u64,
    /// The most octets of its strings.
    pub octets: u64,
}

unsafe extern "C" {
    pub fn tulvorn_module(text: *const u8, len: usize, module: *mut Handle, fault: *mut Fault) -> u32;
    pub fn tulvorn_explain_module(text: *const u8, len: usize, words: *mut Handle) -> u32;
    pub fn tulvorn_type(module: *const Handle, name: *const u8, len: usize, ty: *mut Handle, fault: *mut Fault) -> u32;
    pub fn tulvorn_type_levels(
        module: *const Handle,
        name: *const u8,
        len: usize,
        levels: u32,
        ty: *mut Handle,
        fault: *mut Fault,
    ) -> u32;
    pub fn tulvorn_difference(module: *const Handle, name: *const u8, len: usize, words: *mut Handle) -> u32;
    pub fn tulvorn_share(ty: *const Handle, other: *mut Handle) -> u32;
    pub fn tulvorn_check(ty: *const Handle, rules: u32, octets: *const u8, len: usize, fault: *mut Fault) -> u32;
    pub fn tulvorn_decode(
        ty: *const Handle,
        rules: u32,
        octets: *const u8,
        len: usize,
        value: *mut Handle,
        fault: *mut Fault,
    ) -> u32;
    pub fn tulvorn_check_within(
        ty: *const Handle,
        rules: u32,
        octets: *const u8,
        len: usize,
        budget: *const Budget,
        fault: *mut Fault,
    ) -> u32;
    pub fn tulvorn_decode_within(
        ty: *const Handle,
        rules: u32,
        octets: *const u8,
        len: usize,
        budget: *const Budget,
        value: *mut Handle,
        fault: *mut Fault,
    ) -> u32;
    pub fn tulvorn_encode(value: *const Handle, rules: u32, octets: *mut Handle, fault: *mut Fault) -> u32;
    pub fn tulvorn_encoded_len(value: *const Handle, rules: u32, len: *mut usize, fault: *mut Fault) -> u32;
    pub fn tulvorn_encode_into(
        value: *const Handle,
        rules: u32,
        into: *mut u8,
        room: usize,
        len: *mut usize,
        fault: *mut Fault,
    ) -> u32;
    pub fn tulvorn_convert(
        ty: *const Handle,
        rules: u32,
        octets: *const u8,
        len: usize,
        other: *mut Handle,
        fault: *mut Fault,
    ) -> u32;
    pub fn tulvorn_explain(ty: *const Handle, rules: u32, octets: *const u8, len: usize, words: *mut Handle) -> u32;
    pub fn tulvorn_open(ty: *const Handle, rules: u32, session: *mut Handle) -> u32;
    pub fn tulvorn_feed(
        session: *mut Handle,
        piece: *const u8,
        len: usize,
        value: *mut Handle,
        used: *mut usize,
        fault: *mut Fault,
    ) -> u32;
    pub fn tulvorn_finish(session: *mut Handle, fault: *mut Fault) -> u32;
    pub fn tulvorn_read_newer(
        ty: *const Handle,
        rules: u32,
        octets: *const u8,
        len: usize,
        value: *mut Handle,
        skipped: *mut Handle,
        fault: *mut Fault,
    ) -> u32;
    pub fn tulvorn_skipped_count(skipped: *const Handle, count: *mut usize) -> u32;
    pub fn tulvorn_skipped(
        skipped: *const Handle,
        index: usize,
        place: *mut u32,
        into: *mut u8,
        room: usize,
        needed: *mut usize,
    ) -> u32;
    pub fn tulvorn_to_json(value: *const Handle, json: *mut Handle, fault: *mut Fault) -> u32;
    pub fn tulvorn_from_json(
        ty: *const Handle,
        json: *const u8,
        len: usize,
        value: *mut Handle,
        fault: *mut Fault,
    ) -> u32;
    pub fn tulvorn_misfit(ty: *const Handle, value: *const Handle, words: *mut Handle) -> u32;
    pub fn tulvorn_explain_json(ty: *const Handle, json: *const u8, len: usize, words: *mut Handle) -> u32;
    pub fn tulvorn_kind(value: *const Handle, path: *const u8, len: usize, kind: *mut u32) -> u32;
    pub fn tulvorn_boolean(value: *const Handle, path: *const u8, len: usize, truth: *mut u32) -> u32;
    pub fn tulvorn_integer(value: *const Handle, path: *const u8, len: usize, number: *mut i64) -> u32;
    pub fn tulvorn_unsigned(value: *const Handle, path: *const u8, len: usize, number: *mut u64) -> u32;
    pub fn tulvorn_count(value: *const Handle, path: *const u8, len: usize, count: *mut usize) -> u32;
    pub fn tulvorn_bit(value: *const Handle, path: *const u8, len: usize, index: usize, bit: *mut u32) -> u32;
    pub fn tulvorn_octets(
        value: *const Handle,
        path: *const u8,
        len: usize,
        into: *mut u8,
        room: usize,
        needed: *mut usize,
    ) -> u32;
    pub fn tulvorn_text(
        value: *const Handle,
        path: *const u8,
        len: usize,
        into: *mut u8,
        room: usize,
        needed: *mut usize,
    ) -> u32;
    pub fn tulvorn_name(
        value: *const Handle,
        path: *const u8,
        len: usize,
        into: *mut u8,
        room: usize,
        needed: *mut usize,
    ) -> u32;
    pub fn tulvorn_copy(octets: *const Handle, into: *mut u8, room: usize, needed: *mut usize) -> u32;
    pub fn tulvorn_words(fault: *const Fault, rules: u32, words: *mut Handle) -> u32;
    pub fn tulvorn_version(into: *mut u8, room: usize, needed: *mut usize) -> u32;
    pub fn tulvorn_interface() -> u32;
    pub fn tulvorn_close(held: *mut Handle);
}
