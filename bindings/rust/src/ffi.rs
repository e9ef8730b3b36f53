//! The calls of `flcol.h`, in its order, and the structs that they take. What each of them asks for and answers stands there.
//! Who calls them passes places that are as long as it says, and that nothing else uses meanwhile.
//!
//! Written by `tools/interface` of the repository.

#![allow(dead_code)] // the crate has no use for some calls

#[cfg(feature = "arrow")]
use crate::arrow::{ArrowArray, ArrowArrayStream, ArrowSchema};
use std::ffi::{c_char, c_void};

/// The version of the interface whose calls these are.
pub const ABI_VERSION: u32 = 2;

/// The word by which C holds an array.
#[repr(C)]
pub struct Handle {
    pub at: *mut c_void,
}

/// The items from a start on, as C writes a range.
#[repr(C)]
pub struct ItemRange {
    pub start: usize,
    pub len: usize,
}

/// An integer of 128 bits, as C writes it: two words, of which the high one has the sign.
#[repr(C)]
#[derive(Clone, Copy, Default)]
pub struct Integer {
    pub low: u64,
    pub high: i64,
}

/// What the foot of a file says of a chunk, as C writes it.
#[repr(C)]
#[derive(Clone, Copy, Default)]
pub struct Chunk {
    pub offset: u64,
    pub size: u64,
    pub checksum: u64,
    pub len: u64,
    pub null_count: u64,
    pub is_sorted: u64,
    pub least: Integer,
    pub greatest: Integer,
    pub sum: Integer,
}

#[rustfmt::skip]
extern "C" {
    pub fn flcol_abi_version() -> u32;
    pub fn flcol_from_u8(values: *const u8, values_len: usize, validity: *const u8, validity_len: usize, out: *mut Handle) -> i32;
    pub fn flcol_from_u16(values: *const u16, values_len: usize, validity: *const u8, validity_len: usize, out: *mut Handle) -> i32;
    pub fn flcol_from_u32(values: *const u32, values_len: usize, validity: *const u8, validity_len: usize, out: *mut Handle) -> i32;
    pub fn flcol_from_u64(values: *const u64, values_len: usize, validity: *const u8, validity_len: usize, out: *mut Handle) -> i32;
    pub fn flcol_from_i8(values: *const i8, values_len: usize, validity: *const u8, validity_len: usize, out: *mut Handle) -> i32;
    pub fn flcol_from_i16(values: *const i16, values_len: usize, validity: *const u8, validity_len: usize, out: *mut Handle) -> i32;
    pub fn flcol_from_i32(values: *const i32, values_len: usize, validity: *const u8, validity_len: usize, out: *mut Handle) -> i32;
    pub fn flcol_from_i64(values: *const i64, values_len: usize, validity: *const u8, validity_len: usize, out: *mut Handle) -> i32;
    pub fn flcol_constant_u8(value: u8, is_null: u8, len: usize, out: *mut Handle) -> i32;
    pub fn flcol_constant_u16(value: u16, is_null: u8, len: usize, out: *mut Handle) -> i32;
    pub fn flcol_constant_u32(value: u32, is_null: u8, len: usize, out: *mut Handle) -> i32;
    pub fn flcol_constant_u64(value: u64, is_null: u8, len: usize, out: *mut Handle) -> i32;
    pub fn flcol_constant_i8(value: i8, is_null: u8, len: usize, out: *mut Handle) -> i32;
    pub fn flcol_constant_i16(value: i16, is_null: u8, len: usize, out: *mut Handle) -> i32;
    pub fn flcol_constant_i32(value: i32, is_null: u8, len: usize, out: *mut Handle) -> i32;
    pub fn flcol_constant_i64(value: i64, is_null: u8, len: usize, out: *mut Handle) -> i32;
    pub fn flcol_from_bool(bits: *const u8, bits_len: usize, len: usize, validity: *const u8, validity_len: usize, out: *mut Handle) -> i32;
    pub fn flcol_deserialize(bytes: *const u8, bytes_len: usize, out: *mut Handle) -> i32;
    pub fn flcol_encode(array: *mut Handle, scheme: *const c_char, scheme_len: usize, out: *mut Handle) -> i32;
    pub fn flcol_compress(array: *mut Handle, out: *mut Handle) -> i32;
    pub fn flcol_compress_within(array: *mut Handle, encodings: u8, depth: u8, out: *mut Handle) -> i32;
    pub fn flcol_len(array: *mut Handle, len: *mut usize) -> i32;
    pub fn flcol_dtype(array: *mut Handle, dtype: *mut u8) -> i32;
    pub fn flcol_null_count(array: *mut Handle, count: *mut usize) -> i32;
    pub fn flcol_nbytes(array: *mut Handle, bytes: *mut u64) -> i32;
    pub fn flcol_scheme_len(array: *mut Handle, len: *mut usize) -> i32;
    pub fn flcol_scheme(array: *mut Handle, text: *mut c_char, text_len: usize) -> i32;
    pub fn flcol_inspect(container: *const u8, len: usize, text: *mut c_char, room: usize, text_len: *mut usize) -> i32;
    pub fn flcol_is_constant(array: *mut Handle, answer: *mut u8) -> i32;
    pub fn flcol_is_sorted(array: *mut Handle, strict: u8, answer: *mut u8) -> i32;
    pub fn flcol_read_u8(array: *mut Handle, values: *mut u8, values_len: usize, validity: *mut u8, validity_len: usize) -> i32;
    pub fn flcol_read_u16(array: *mut Handle, values: *mut u16, values_len: usize, validity: *mut u8, validity_len: usize) -> i32;
    pub fn flcol_read_u32(array: *mut Handle, values: *mut u32, values_len: usize, validity: *mut u8, validity_len: usize) -> i32;
    pub fn flcol_read_u64(array: *mut Handle, values: *mut u64, values_len: usize, validity: *mut u8, validity_len: usize) -> i32;
    pub fn flcol_read_i8(array: *mut Handle, values: *mut i8, values_len: usize, validity: *mut u8, validity_len: usize) -> i32;
    pub fn flcol_read_i16(array: *mut Handle, values: *mut i16, values_len: usize, validity: *mut u8, validity_len: usize) -> i32;
    pub fn flcol_read_i32(array: *mut Handle, values: *mut i32, values_len: usize, validity: *mut u8, validity_len: usize) -> i32;
    pub fn flcol_read_i64(array: *mut Handle, values: *mut i64, values_len: usize, validity: *mut u8, validity_len: usize) -> i32;
    pub fn flcol_read_bool(array: *mut Handle, bits: *mut u8, bits_len: usize, validity: *mut u8, validity_len: usize) -> i32;
    pub fn flcol_get_u8(array: *mut Handle, index: usize, value: *mut u8, is_null: *mut u8) -> i32;
    pub fn flcol_get_u16(array: *mut Handle, index: usize, value: *mut u16, is_null: *mut u8) -> i32;
    pub fn flcol_get_u32(array: *mut Handle, index: usize, value: *mut u32, is_null: *mut u8) -> i32;
    pub fn flcol_get_u64(array: *mut Handle, index: usize, value: *mut u64, is_null: *mut u8) -> i32;
    pub fn flcol_get_i8(array: *mut Handle, index: usize, value: *mut i8, is_null: *mut u8) -> i32;
    pub fn flcol_get_i16(array: *mut Handle, index: usize, value: *mut i16, is_null: *mut u8) -> i32;
    pub fn flcol_get_i32(array: *mut Handle, index: usize, value: *mut i32, is_null: *mut u8) -> i32;
    pub fn flcol_get_i64(array: *mut Handle, index: usize, value: *mut i64, is_null: *mut u8) -> i32;
    pub fn flcol_slice(array: *mut Handle, from: usize, to: usize, out: *mut Handle) -> i32;
    pub fn flcol_split(array: *mut Handle, out: *mut Handle, count: usize) -> i32;
    pub fn flcol_take(array: *mut Handle, indices: *const u64, indices_len: usize, validity: *const u8, validity_len: usize, out: *mut Handle) -> i32;
    pub fn flcol_take_ranges(array: *mut Handle, ranges: *const ItemRange, ranges_len: usize, out: *mut Handle) -> i32;
    pub fn flcol_filter(array: *mut Handle, mask: *const u8, mask_len: usize, out: *mut Handle) -> i32;
    pub fn flcol_cast(array: *mut Handle, dtype: u8, out: *mut Handle) -> i32;
    pub fn flcol_to_blocked(array: *mut Handle, out: *mut Handle) -> i32;
    pub fn flcol_compare_u8(array: *mut Handle, operator: u8, constant: u8, bits: *mut u8, bits_len: usize, validity: *mut u8, validity_len: usize) -> i32;
    pub fn flcol_compare_u16(array: *mut Handle, operator: u8, constant: u16, bits: *mut u8, bits_len: usize, validity: *mut u8, validity_len: usize) -> i32;
    pub fn flcol_compare_u32(array: *mut Handle, operator: u8, constant: u32, bits: *mut u8, bits_len: usize, validity: *mut u8, validity_len: usize) -> i32;
    pub fn flcol_compare_u64(array: *mut Handle, operator: u8, constant: u64, bits: *mut u8, bits_len: usize, validity: *mut u8, validity_len: usize) -> i32;
    pub fn flcol_compare_i8(array: *mut Handle, operator: u8, constant: i8, bits: *mut u8, bits_len: usize, validity: *mut u8, validity_len: usize) -> i32;
    pub fn flcol_compare_i16(array: *mut Handle, operator: u8, constant: i16, bits: *mut u8, bits_len: usize, validity: *mut u8, validity_len: usize) -> i32;
    pub fn flcol_compare_i32(array: *mut Handle, operator: u8, constant: i32, bits: *mut u8, bits_len: usize, validity: *mut u8, validity_len: usize) -> i32;
    pub fn flcol_compare_i64(array: *mut Handle, operator: u8, constant: i64, bits: *mut u8, bits_len: usize, validity: *mut u8, validity_len: usize) -> i32;
    pub fn flcol_between_u8(array: *mut Handle, lower: u8, upper: u8, lower_strict: u8, upper_strict: u8, bits: *mut u8, bits_len: usize, validity: *mut u8, validity_len: usize) -> i32;
    pub fn flcol_between_u16(array: *mut Handle, lower: u16, upper: u16, lower_strict: u8, upper_strict: u8, bits: *mut u8, bits_len: usize, validity: *mut u8, validity_len: usize) -> i32;
    pub fn flcol_between_u32(array: *mut Handle, lower: u32, upper: u32, lower_strict: u8, upper_strict: u8, bits: *mut u8, bits_len: usize, validity: *mut u8, validity_len: usize) -> i32;
    pub fn flcol_between_u64(array: *mut Handle, lower: u64, upper: u64, lower_strict: u8, upper_strict: u8, bits: *mut u8, bits_len: usize, validity: *mut u8, validity_len: usize) -> i32;
    pub fn flcol_between_i8(array: *mut Handle, lower: i8, upper: i8, lower_strict: u8, upper_strict: u8, bits: *mut u8, bits_len: usize, validity: *mut u8, validity_len: usize) -> i32;
    pub fn flcol_between_i16(array: *mut Handle, lower: i16, upper: i16, lower_strict: u8, upper_strict: u8, bits: *mut u8, bits_len: usize, validity: *mut u8, validity_len: usize) -> i32;
    pub fn flcol_between_i32(array: *mut Handle, lower: i32, upper: i32, lower_strict: u8, upper_strict: u8, bits: *mut u8, bits_len: usize, validity: *mut u8, validity_len: usize) -> i32;
    pub fn flcol_between_i64(array: *mut Handle, lower: i64, upper: i64, lower_strict: u8, upper_strict: u8, bits: *mut u8, bits_len: usize, validity: *mut u8, validity_len: usize) -> i32;
    pub fn flcol_is_in_u8(array: *mut Handle, list: *const u8, list_len: usize, bits: *mut u8, bits_len: usize, validity: *mut u8, validity_len: usize) -> i32;
    pub fn flcol_is_in_u16(array: *mut Handle, list: *const u16, list_len: usize, bits: *mut u8, bits_len: usize, validity: *mut u8, validity_len: usize) -> i32;
    pub fn flcol_is_in_u32(array: *mut Handle, list: *const u32, list_len: usize, bits: *mut u8, bits_len: usize, validity: *mut u8, validity_len: usize) -> i32;
    pub fn flcol_is_in_u64(array: *mut Handle, list: *const u64, list_len: usize, bits: *mut u8, bits_len: usize, validity: *mut u8, validity_len: usize) -> i32;
    pub fn flcol_is_in_i8(array: *mut Handle, list: *const i8, list_len: usize, bits: *mut u8, bits_len: usize, validity: *mut u8, validity_len: usize) -> i32;
    pub fn flcol_is_in_i16(array: *mut Handle, list: *const i16, list_len: usize, bits: *mut u8, bits_len: usize, validity: *mut u8, validity_len: usize) -> i32;
    pub fn flcol_is_in_i32(array: *mut Handle, list: *const i32, list_len: usize, bits: *mut u8, bits_len: usize, validity: *mut u8, validity_len: usize) -> i32;
    pub fn flcol_is_in_i64(array: *mut Handle, list: *const i64, list_len: usize, bits: *mut u8, bits_len: usize, validity: *mut u8, validity_len: usize) -> i32;
    pub fn flcol_count_u8(array: *mut Handle, operator: u8, constant: u8, count: *mut usize) -> i32;
    pub fn flcol_count_u16(array: *mut Handle, operator: u8, constant: u16, count: *mut usize) -> i32;
    pub fn flcol_count_u32(array: *mut Handle, operator: u8, constant: u32, count: *mut usize) -> i32;
    pub fn flcol_count_u64(array: *mut Handle, operator: u8, constant: u64, count: *mut usize) -> i32;
    pub fn flcol_count_i8(array: *mut Handle, operator: u8, constant: i8, count: *mut usize) -> i32;
    pub fn flcol_count_i16(array: *mut Handle, operator: u8, constant: i16, count: *mut usize) -> i32;
    pub fn flcol_count_i32(array: *mut Handle, operator: u8, constant: i32, count: *mut usize) -> i32;
    pub fn flcol_count_i64(array: *mut Handle, operator: u8, constant: i64, count: *mut usize) -> i32;
    pub fn flcol_count_between_u8(array: *mut Handle, lower: u8, upper: u8, lower_strict: u8, upper_strict: u8, count: *mut usize) -> i32;
    pub fn flcol_count_between_u16(array: *mut Handle, lower: u16, upper: u16, lower_strict: u8, upper_strict: u8, count: *mut usize) -> i32;
    pub fn flcol_count_between_u32(array: *mut Handle, lower: u32, upper: u32, lower_strict: u8, upper_strict: u8, count: *mut usize) -> i32;
    pub fn flcol_count_between_u64(array: *mut Handle, lower: u64, upper: u64, lower_strict: u8, upper_strict: u8, count: *mut usize) -> i32;
    pub fn flcol_count_between_i8(array: *mut Handle, lower: i8, upper: i8, lower_strict: u8, upper_strict: u8, count: *mut usize) -> i32;
    pub fn flcol_count_between_i16(array: *mut Handle, lower: i16, upper: i16, lower_strict: u8, upper_strict: u8, count: *mut usize) -> i32;
    pub fn flcol_count_between_i32(array: *mut Handle, lower: i32, upper: i32, lower_strict: u8, upper_strict: u8, count: *mut usize) -> i32;
    pub fn flcol_count_between_i64(array: *mut Handle, lower: i64, upper: i64, lower_strict: u8, upper_strict: u8, count: *mut usize) -> i32;
    pub fn flcol_min_max_u8(array: *mut Handle, least: *mut u8, greatest: *mut u8, is_none: *mut u8) -> i32;
    pub fn flcol_min_max_u16(array: *mut Handle, least: *mut u16, greatest: *mut u16, is_none: *mut u8) -> i32;
    pub fn flcol_min_max_u32(array: *mut Handle, least: *mut u32, greatest: *mut u32, is_none: *mut u8) -> i32;
    pub fn flcol_min_max_u64(array: *mut Handle, least: *mut u64, greatest: *mut u64, is_none: *mut u8) -> i32;
    pub fn flcol_min_max_i8(array: *mut Handle, least: *mut i8, greatest: *mut i8, is_none: *mut u8) -> i32;
    pub fn flcol_min_max_i16(array: *mut Handle, least: *mut i16, greatest: *mut i16, is_none: *mut u8) -> i32;
    pub fn flcol_min_max_i32(array: *mut Handle, least: *mut i32, greatest: *mut i32, is_none: *mut u8) -> i32;
    pub fn flcol_min_max_i64(array: *mut Handle, least: *mut i64, greatest: *mut i64, is_none: *mut u8) -> i32;
    pub fn flcol_sum_unsigned(array: *mut Handle, high: *mut u64, low: *mut u64) -> i32;
    pub fn flcol_sum_signed(array: *mut Handle, high: *mut i64, low: *mut u64) -> i32;
    pub fn flcol_filter_by_u8(array: *mut Handle, operator: u8, constant: u8, out: *mut Handle) -> i32;
    pub fn flcol_filter_by_u16(array: *mut Handle, operator: u8, constant: u16, out: *mut Handle) -> i32;
    pub fn flcol_filter_by_u32(array: *mut Handle, operator: u8, constant: u32, out: *mut Handle) -> i32;
    pub fn flcol_filter_by_u64(array: *mut Handle, operator: u8, constant: u64, out: *mut Handle) -> i32;
    pub fn flcol_filter_by_i8(array: *mut Handle, operator: u8, constant: i8, out: *mut Handle) -> i32;
    pub fn flcol_filter_by_i16(array: *mut Handle, operator: u8, constant: i16, out: *mut Handle) -> i32;
    pub fn flcol_filter_by_i32(array: *mut Handle, operator: u8, constant: i32, out: *mut Handle) -> i32;
    pub fn flcol_filter_by_i64(array: *mut Handle, operator: u8, constant: i64, out: *mut Handle) -> i32;
    pub fn flcol_filter_between_u8(array: *mut Handle, lower: u8, upper: u8, lower_strict: u8, upper_strict: u8, out: *mut Handle) -> i32;
    pub fn flcol_filter_between_u16(array: *mut Handle, lower: u16, upper: u16, lower_strict: u8, upper_strict: u8, out: *mut Handle) -> i32;
    pub fn flcol_filter_between_u32(array: *mut Handle, lower: u32, upper: u32, lower_strict: u8, upper_strict: u8, out: *mut Handle) -> i32;
    pub fn flcol_filter_between_u64(array: *mut Handle, lower: u64, upper: u64, lower_strict: u8, upper_strict: u8, out: *mut Handle) -> i32;
    pub fn flcol_filter_between_i8(array: *mut Handle, lower: i8, upper: i8, lower_strict: u8, upper_strict: u8, out: *mut Handle) -> i32;
    pub fn flcol_filter_between_i16(array: *mut Handle, lower: i16, upper: i16, lower_strict: u8, upper_strict: u8, out: *mut Handle) -> i32;
    pub fn flcol_filter_between_i32(array: *mut Handle, lower: i32, upper: i32, lower_strict: u8, upper_strict: u8, out: *mut Handle) -> i32;
    pub fn flcol_filter_between_i64(array: *mut Handle, lower: i64, upper: i64, lower_strict: u8, upper_strict: u8, out: *mut Handle) -> i32;
    pub fn flcol_count_under_u8(array: *mut Handle, mask: *const u8, mask_len: usize, operator: u8, constant: u8, count: *mut usize) -> i32;
    pub fn flcol_count_under_u16(array: *mut Handle, mask: *const u8, mask_len: usize, operator: u8, constant: u16, count: *mut usize) -> i32;
    pub fn flcol_count_under_u32(array: *mut Handle, mask: *const u8, mask_len: usize, operator: u8, constant: u32, count: *mut usize) -> i32;
    pub fn flcol_count_under_u64(array: *mut Handle, mask: *const u8, mask_len: usize, operator: u8, constant: u64, count: *mut usize) -> i32;
    pub fn flcol_count_under_i8(array: *mut Handle, mask: *const u8, mask_len: usize, operator: u8, constant: i8, count: *mut usize) -> i32;
    pub fn flcol_count_under_i16(array: *mut Handle, mask: *const u8, mask_len: usize, operator: u8, constant: i16, count: *mut usize) -> i32;
    pub fn flcol_count_under_i32(array: *mut Handle, mask: *const u8, mask_len: usize, operator: u8, constant: i32, count: *mut usize) -> i32;
    pub fn flcol_count_under_i64(array: *mut Handle, mask: *const u8, mask_len: usize, operator: u8, constant: i64, count: *mut usize) -> i32;
    pub fn flcol_compare_under_u8(array: *mut Handle, mask: *const u8, mask_len: usize, operator: u8, constant: u8, bits: *mut u8, bits_len: usize) -> i32;
    pub fn flcol_compare_under_u16(array: *mut Handle, mask: *const u8, mask_len: usize, operator: u8, constant: u16, bits: *mut u8, bits_len: usize) -> i32;
    pub fn flcol_compare_under_u32(array: *mut Handle, mask: *const u8, mask_len: usize, operator: u8, constant: u32, bits: *mut u8, bits_len: usize) -> i32;
    pub fn flcol_compare_under_u64(array: *mut Handle, mask: *const u8, mask_len: usize, operator: u8, constant: u64, bits: *mut u8, bits_len: usize) -> i32;
    pub fn flcol_compare_under_i8(array: *mut Handle, mask: *const u8, mask_len: usize, operator: u8, constant: i8, bits: *mut u8, bits_len: usize) -> i32;
    pub fn flcol_compare_under_i16(array: *mut Handle, mask: *const u8, mask_len: usize, operator: u8, constant: i16, bits: *mut u8, bits_len: usize) -> i32;
    pub fn flcol_compare_under_i32(array: *mut Handle, mask: *const u8, mask_len: usize, operator: u8, constant: i32, bits: *mut u8, bits_len: usize) -> i32;
    pub fn flcol_compare_under_i64(array: *mut Handle, mask: *const u8, mask_len: usize, operator: u8, constant: i64, bits: *mut u8, bits_len: usize) -> i32;
    pub fn flcol_between_under_u8(array: *mut Handle, mask: *const u8, mask_len: usize, lower: u8, upper: u8, lower_strict: u8, upper_strict: u8, bits: *mut u8, bits_len: usize) -> i32;
    pub fn flcol_between_under_u16(array: *mut Handle, mask: *const u8, mask_len: usize, lower: u16, upper: u16, lower_strict: u8, upper_strict: u8, bits: *mut u8, bits_len: usize) -> i32;
    pub fn flcol_between_under_u32(array: *mut Handle, mask: *const u8, mask_len: usize, lower: u32, upper: u32, lower_strict: u8, upper_strict: u8, bits: *mut u8, bits_len: usize) -> i32;
    pub fn flcol_between_under_u64(array: *mut Handle, mask: *const u8, mask_len: usize, lower: u64, upper: u64, lower_strict: u8, upper_strict: u8, bits: *mut u8, bits_len: usize) -> i32;
    pub fn flcol_between_under_i8(array: *mut Handle, mask: *const u8, mask_len: usize, lower: i8, upper: i8, lower_strict: u8, upper_strict: u8, bits: *mut u8, bits_len: usize) -> i32;
    pub fn flcol_between_under_i16(array: *mut Handle, mask: *const u8, mask_len: usize, lower: i16, upper: i16, lower_strict: u8, upper_strict: u8, bits: *mut u8, bits_len: usize) -> i32;
    pub fn flcol_between_under_i32(array: *mut Handle, mask: *const u8, mask_len: usize, lower: i32, upper: i32, lower_strict: u8, upper_strict: u8, bits: *mut u8, bits_len: usize) -> i32;
    pub fn flcol_between_under_i64(array: *mut Handle, mask: *const u8, mask_len: usize, lower: i64, upper: i64, lower_strict: u8, upper_strict: u8, bits: *mut u8, bits_len: usize) -> i32;
    pub fn flcol_min_max_under_u8(array: *mut Handle, mask: *const u8, mask_len: usize, least: *mut u8, greatest: *mut u8, is_none: *mut u8) -> i32;
    pub fn flcol_min_max_under_u16(array: *mut Handle, mask: *const u8, mask_len: usize, least: *mut u16, greatest: *mut u16, is_none: *mut u8) -> i32;
    pub fn flcol_min_max_under_u32(array: *mut Handle, mask: *const u8, mask_len: usize, least: *mut u32, greatest: *mut u32, is_none: *mut u8) -> i32;
    pub fn flcol_min_max_under_u64(array: *mut Handle, mask: *const u8, mask_len: usize, least: *mut u64, greatest: *mut u64, is_none: *mut u8) -> i32;
    pub fn flcol_min_max_under_i8(array: *mut Handle, mask: *const u8, mask_len: usize, least: *mut i8, greatest: *mut i8, is_none: *mut u8) -> i32;
    pub fn flcol_min_max_under_i16(array: *mut Handle, mask: *const u8, mask_len: usize, least: *mut i16, greatest: *mut i16, is_none: *mut u8) -> i32;
    pub fn flcol_min_max_under_i32(array: *mut Handle, mask: *const u8, mask_len: usize, least: *mut i32, greatest: *mut i32, is_none: *mut u8) -> i32;
    pub fn flcol_min_max_under_i64(array: *mut Handle, mask: *const u8, mask_len: usize, least: *mut i64, greatest: *mut i64, is_none: *mut u8) -> i32;
    pub fn flcol_sum_under_unsigned(array: *mut Handle, mask: *const u8, mask_len: usize, high: *mut u64, low: *mut u64) -> i32;
    pub fn flcol_sum_under_signed(array: *mut Handle, mask: *const u8, mask_len: usize, high: *mut i64, low: *mut u64) -> i32;
    pub fn flcol_lower_bound_u8(array: *mut Handle, value: u8, position: *mut usize) -> i32;
    pub fn flcol_lower_bound_u16(array: *mut Handle, value: u16, position: *mut usize) -> i32;
    pub fn flcol_lower_bound_u32(array: *mut Handle, value: u32, position: *mut usize) -> i32;
    pub fn flcol_lower_bound_u64(array: *mut Handle, value: u64, position: *mut usize) -> i32;
    pub fn flcol_lower_bound_i8(array: *mut Handle, value: i8, position: *mut usize) -> i32;
    pub fn flcol_lower_bound_i16(array: *mut Handle, value: i16, position: *mut usize) -> i32;
    pub fn flcol_lower_bound_i32(array: *mut Handle, value: i32, position: *mut usize) -> i32;
    pub fn flcol_lower_bound_i64(array: *mut Handle, value: i64, position: *mut usize) -> i32;
    pub fn flcol_indices_of(bits: *const u8, bits_len: usize, len: usize, out: *mut Handle) -> i32;
    pub fn flcol_and(bits: *mut u8, bits_len: usize, validity: *mut u8, validity_len: usize, other: *const u8, other_len: usize, other_validity: *const u8, other_validity_len: usize) -> i32;
    pub fn flcol_or(bits: *mut u8, bits_len: usize, validity: *mut u8, validity_len: usize, other: *const u8, other_len: usize, other_validity: *const u8, other_validity_len: usize) -> i32;
    pub fn flcol_xor(bits: *mut u8, bits_len: usize, validity: *mut u8, validity_len: usize, other: *const u8, other_len: usize, other_validity: *const u8, other_validity_len: usize) -> i32;
    pub fn flcol_not(bits: *mut u8, bits_len: usize, len: usize) -> i32;
    pub fn flcol_count_bits(bits: *const u8, bits_len: usize, validity: *const u8, validity_len: usize, len: usize, total: *mut usize) -> i32;
    pub fn flcol_pack_u8(width: usize, items: *const u8, items_blocks: usize, packed: *mut u8, packed_len: usize) -> i32;
    pub fn flcol_pack_u16(width: usize, items: *const u16, items_blocks: usize, packed: *mut u16, packed_len: usize) -> i32;
    pub fn flcol_pack_u32(width: usize, items: *const u32, items_blocks: usize, packed: *mut u32, packed_len: usize) -> i32;
    pub fn flcol_pack_u64(width: usize, items: *const u64, items_blocks: usize, packed: *mut u64, packed_len: usize) -> i32;
    pub fn flcol_unpack_u8(width: usize, packed: *const u8, packed_len: usize, items: *mut u8, items_blocks: usize) -> i32;
    pub fn flcol_unpack_u16(width: usize, packed: *const u16, packed_len: usize, items: *mut u16, items_blocks: usize) -> i32;
    pub fn flcol_unpack_u32(width: usize, packed: *const u32, packed_len: usize, items: *mut u32, items_blocks: usize) -> i32;
    pub fn flcol_unpack_u64(width: usize, packed: *const u64, packed_len: usize, items: *mut u64, items_blocks: usize) -> i32;
    pub fn flcol_unfor_pack_u8(width: usize, packed: *const u8, packed_len: usize, reference: u8, items: *mut u8, items_blocks: usize) -> i32;
    pub fn flcol_unfor_pack_u16(width: usize, packed: *const u16, packed_len: usize, reference: u16, items: *mut u16, items_blocks: usize) -> i32;
    pub fn flcol_unfor_pack_u32(width: usize, packed: *const u32, packed_len: usize, reference: u32, items: *mut u32, items_blocks: usize) -> i32;
    pub fn flcol_unfor_pack_u64(width: usize, packed: *const u64, packed_len: usize, reference: u64, items: *mut u64, items_blocks: usize) -> i32;
    pub fn flcol_transpose_u8(items: *const u8, items_blocks: usize, stored: *mut u8, stored_blocks: usize) -> i32;
    pub fn flcol_transpose_u16(items: *const u16, items_blocks: usize, stored: *mut u16, stored_blocks: usize) -> i32;
    pub fn flcol_transpose_u32(items: *const u32, items_blocks: usize, stored: *mut u32, stored_blocks: usize) -> i32;
    pub fn flcol_transpose_u64(items: *const u64, items_blocks: usize, stored: *mut u64, stored_blocks: usize) -> i32;
    pub fn flcol_untranspose_u8(stored: *const u8, stored_blocks: usize, items: *mut u8, items_blocks: usize) -> i32;
    pub fn flcol_untranspose_u16(stored: *const u16, stored_blocks: usize, items: *mut u16, items_blocks: usize) -> i32;
    pub fn flcol_untranspose_u32(stored: *const u32, stored_blocks: usize, items: *mut u32, items_blocks: usize) -> i32;
    pub fn flcol_untranspose_u64(stored: *const u64, stored_blocks: usize, items: *mut u64, items_blocks: usize) -> i32;
    pub fn flcol_delta_u8(items: *const u8, items_blocks: usize, bases: *const u8, bases_len: usize, deltas: *mut u8, deltas_blocks: usize) -> i32;
    pub fn flcol_delta_u16(items: *const u16, items_blocks: usize, bases: *const u16, bases_len: usize, deltas: *mut u16, deltas_blocks: usize) -> i32;
    pub fn flcol_delta_u32(items: *const u32, items_blocks: usize, bases: *const u32, bases_len: usize, deltas: *mut u32, deltas_blocks: usize) -> i32;
    pub fn flcol_delta_u64(items: *const u64, items_blocks: usize, bases: *const u64, bases_len: usize, deltas: *mut u64, deltas_blocks: usize) -> i32;
    pub fn flcol_undelta_u8(deltas: *const u8, deltas_blocks: usize, bases: *const u8, bases_len: usize, items: *mut u8, items_blocks: usize) -> i32;
    pub fn flcol_undelta_u16(deltas: *const u16, deltas_blocks: usize, bases: *const u16, bases_len: usize, items: *mut u16, items_blocks: usize) -> i32;
    pub fn flcol_undelta_u32(deltas: *const u32, deltas_blocks: usize, bases: *const u32, bases_len: usize, items: *mut u32, items_blocks: usize) -> i32;
    pub fn flcol_undelta_u64(deltas: *const u64, deltas_blocks: usize, bases: *const u64, bases_len: usize, items: *mut u64, items_blocks: usize) -> i32;
    #[cfg(feature = "arrow")]
    pub fn flcol_export_arrow(array: *mut Handle, out_array: *mut ArrowArray, out_schema: *mut ArrowSchema) -> i32;
    #[cfg(feature = "arrow")]
    pub fn flcol_import_arrow(array: *mut ArrowArray, schema: *mut ArrowSchema, out: *mut Handle) -> i32;
    #[cfg(feature = "arrow")]
    pub fn flcol_export_arrow_stream(arrays: *mut Handle, count: usize, out: *mut ArrowArrayStream) -> i32;
    #[cfg(feature = "arrow")]
    pub fn flcol_import_arrow_stream(stream: *mut ArrowArrayStream, out: *mut Handle) -> i32;
    pub fn flcol_serialized_len(array: *mut Handle, len: *mut usize) -> i32;
    pub fn flcol_serialize(array: *mut Handle, bytes: *mut u8, bytes_len: usize, len: *mut usize) -> i32;
    pub fn flcol_file_look(bytes: *const u8, bytes_len: usize, dtype: *mut u8, count: *mut usize) -> i32;
    pub fn flcol_file_chunks(bytes: *const u8, bytes_len: usize, chunks: *mut Chunk, chunks_len: usize) -> i32;
    pub fn flcol_file_chunk(bytes: *const u8, bytes_len: usize, chunk: *const Chunk, out: *mut Handle) -> i32;
    pub fn flcol_file_recover(bytes: *const u8, bytes_len: usize, end: *mut usize) -> i32;
    pub fn flcol_file_verify(bytes: *const u8, bytes_len: usize) -> i32;
    pub fn flcol_file_len_trusting(bytes: *const u8, bytes_len: usize, items: *mut u64) -> i32;
    pub fn flcol_file_null_count_trusting(bytes: *const u8, bytes_len: usize, nulls: *mut u64) -> i32;
    pub fn flcol_file_sum_trusting(bytes: *const u8, bytes_len: usize, sum: *mut Integer) -> i32;
    pub fn flcol_file_min_max_trusting(bytes: *const u8, bytes_len: usize, least: *mut Integer, greatest: *mut Integer, is_none: *mut u8) -> i32;
    pub fn flcol_file_plan(bytes: *const u8, bytes_len: usize, operator: u8, constant: *const Integer, plan: *mut u8, plan_len: usize) -> i32;
    pub fn flcol_file_plan_between(bytes: *const u8, bytes_len: usize, lower: *const Integer, upper: *const Integer, lower_strict: u8, upper_strict: u8, plan: *mut u8, plan_len: usize) -> i32;
    pub fn flcol_file_count_trusting(bytes: *const u8, bytes_len: usize, operator: u8, constant: *const Integer, passing: *mut u64) -> i32;
    pub fn flcol_file_count_between_trusting(bytes: *const u8, bytes_len: usize, lower: *const Integer, upper: *const Integer, lower_strict: u8, upper_strict: u8, passing: *mut u64) -> i32;
    pub fn flcol_file_append(array: *mut Handle, place: u64, bytes: *mut u8, bytes_len: usize, written: *mut usize, chunk: *mut Chunk) -> i32;
    pub fn flcol_file_finish(dtype: u8, chunks: *const Chunk, chunks_len: usize, place: u64, bytes: *mut u8, bytes_len: usize, written: *mut usize) -> i32;
    pub fn flcol_free(array: *mut Handle);
    pub fn flcol_status_name(status: i32) -> *const c_char;
    pub fn flcol_status_message(status: i32) -> *const c_char;
}
