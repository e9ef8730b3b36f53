//! The eight types of items, and the integers that items are compared with.

use crate::ffi::{self, Handle};
use crate::types::PType;
use std::fmt::{Debug, Display};
use std::hash::Hash;

/// The calls of `flcol.h` that have a type in their names. No other crate can add a type.
pub(crate) mod calls {
    use super::Handle;

    pub type From<T> = unsafe extern "C" fn(*const T, usize, *const u8, usize, *mut Handle) -> i32;
    pub type Constant<T> = unsafe extern "C" fn(T, u8, usize, *mut Handle) -> i32;
    pub type Read<T> = unsafe extern "C" fn(*mut Handle, *mut T, usize, *mut u8, usize) -> i32;
    pub type Get<T> = unsafe extern "C" fn(*mut Handle, usize, *mut T, *mut u8) -> i32;
    pub type Compare<T> = unsafe extern "C" fn(*mut Handle, u8, T, *mut u8, usize, *mut u8, usize) -> i32;
    pub type Between<T> = unsafe extern "C" fn(*mut Handle, T, T, u8, u8, *mut u8, usize, *mut u8, usize) -> i32;
    pub type Count<T> = unsafe extern "C" fn(*mut Handle, u8, T, *mut usize) -> i32;
    pub type CountBetween<T> = unsafe extern "C" fn(*mut Handle, T, T, u8, u8, *mut usize) -> i32;
    pub type MinMax<T> = unsafe extern "C" fn(*mut Handle, *mut T, *mut T, *mut u8) -> i32;
    pub type FilterBy<T> = unsafe extern "C" fn(*mut Handle, u8, T, *mut Handle) -> i32;
    pub type FilterBetween<T> = unsafe extern "C" fn(*mut Handle, T, T, u8, u8, *mut Handle) -> i32;
    pub type IsIn<T> = unsafe extern "C" fn(*mut Handle, *const T, usize, *mut u8, usize, *mut u8, usize) -> i32;
    pub type CountUnder<T> = unsafe extern "C" fn(*mut Handle, *const u8, usize, u8, T, *mut usize) -> i32;
    pub type MinMaxUnder<T> = unsafe extern "C" fn(*mut Handle, *const u8, usize, *mut T, *mut T, *mut u8) -> i32;
    pub type CompareUnder<T> = unsafe extern "C" fn(*mut Handle, *const u8, usize, u8, T, *mut u8, usize) -> i32;
    pub type BetweenUnder<T> = unsafe extern "C" fn(*mut Handle, *const u8, usize, T, T, u8, u8, *mut u8, usize) -> i32;
    pub type LowerBound<T> = unsafe extern "C" fn(*mut Handle, T, *mut usize) -> i32;

    pub trait Calls: Sized {
        const FROM: From<Self>;
        const CONSTANT: Constant<Self>;
        const READ: Read<Self>;
        const GET: Get<Self>;
        const COMPARE: Compare<Self>;
        const BETWEEN: Between<Self>;
        const COUNT: Count<Self>;
        const COUNT_BETWEEN: CountBetween<Self>;
        const MIN_MAX: MinMax<Self>;
        const FILTER_BY: FilterBy<Self>;
        const FILTER_BETWEEN: FilterBetween<Self>;
        const IS_IN: IsIn<Self>;
        const COUNT_UNDER: CountUnder<Self>;
        const MIN_MAX_UNDER: MinMaxUnder<Self>;
        const COMPARE_UNDER: CompareUnder<Self>;
        const BETWEEN_UNDER: BetweenUnder<Self>;
        const LOWER_BOUND: LowerBound<Self>;

        /// What the sum of items of the type is.
        type Wide;

        /// Writes the sum of an array, whose call goes by the type's sign.
        ///
        /// # Safety
        /// As of the call.
        unsafe fn sum(array: *mut Handle, sum: *mut Self::Wide) -> i32;

        /// Writes the sum of the items whose bits are set in a mask.
        ///
        /// # Safety
        /// As of the call.
        unsafe fn sum_under(array: *mut Handle, mask: &[u8], sum: *mut Self::Wide) -> i32;

        /// The integer, if the type has it.
        fn narrowed(integer: i128) -> Option<Self>;
    }

    /// The integers of all types. No other crate can add one.
    pub trait Widened {
        /// The integer, or the greatest of the type where it is above: no item is as great.
        fn to_i128(self) -> i128;
    }
}

/// A type that the items of an array can have: `u8` to `u64` and `i8` to `i64`.
pub trait Item: Default + Ord + Hash + Debug + Display + Integer + calls::Calls<Wide = Self::Sum> + 'static {
    /// The sum of items: `u128` of the types without a sign, and `i128` of the others. No array's sum is beyond it.
    type Sum: Copy + Default + Ord + Hash + Debug + Display + 'static;
    /// The type's name as a value.
    const PTYPE: PType;
    /// The least integer of the type.
    const MIN: Self;
    /// The greatest integer of the type.
    const MAX: Self;
}

macro_rules! items {
    ($(
        $item:ident $ptype:ident: $wide:ident $sum:ident $sum_under:ident
        $from:ident $constant:ident $read:ident $get:ident $compare:ident $between:ident
        $count:ident $count_between:ident $min_max:ident $filter_by:ident $filter_between:ident
        $is_in:ident $count_under:ident $min_max_under:ident $compare_under:ident $between_under:ident $lower_bound:ident;
    )+) => {
        $(impl Item for $item {
            type Sum = $wide;
            const PTYPE: PType = PType::$ptype;
            const MIN: $item = $item::MIN;
            const MAX: $item = $item::MAX;
        }

        impl calls::Calls for $item {
            const FROM: calls::From<$item> = ffi::$from;
            const CONSTANT: calls::Constant<$item> = ffi::$constant;
            const READ: calls::Read<$item> = ffi::$read;
            const GET: calls::Get<$item> = ffi::$get;
            const COMPARE: calls::Compare<$item> = ffi::$compare;
            const BETWEEN: calls::Between<$item> = ffi::$between;
            const COUNT: calls::Count<$item> = ffi::$count;
            const COUNT_BETWEEN: calls::CountBetween<$item> = ffi::$count_between;
            const MIN_MAX: calls::MinMax<$item> = ffi::$min_max;
            const FILTER_BY: calls::FilterBy<$item> = ffi::$filter_by;
            const FILTER_BETWEEN: calls::FilterBetween<$item> = ffi::$filter_between;
            const IS_IN: calls::IsIn<$item> = ffi::$is_in;
            const COUNT_UNDER: calls::CountUnder<$item> = ffi::$count_under;
            const MIN_MAX_UNDER: calls::MinMaxUnder<$item> = ffi::$min_max_under;
            const COMPARE_UNDER: calls::CompareUnder<$item> = ffi::$compare_under;
            const BETWEEN_UNDER: calls::BetweenUnder<$item> = ffi::$between_under;
            const LOWER_BOUND: calls::LowerBound<$item> = ffi::$lower_bound;

            type Wide = $wide;

            unsafe fn sum(array: *mut Handle, sum: *mut $wide) -> i32 {
                let (mut high, mut low) = (0, 0);
                let status = ffi::$sum(array, &mut high, &mut low);
                *sum = $wide::from(high) << 64 | $wide::from(low);
                status
            }

            unsafe fn sum_under(array: *mut Handle, mask: &[u8], sum: *mut $wide) -> i32 {
                let (mut high, mut low) = (0, 0);
                let status = ffi::$sum_under(array, mask.as_ptr(), mask.len(), &mut high, &mut low);
                *sum = $wide::from(high) << 64 | $wide::from(low);
                status
            }

            fn narrowed(integer: i128) -> Option<$item> {
                integer.try_into().ok()
            }
        })+
    };
}

items! {
    u8 U8: u128 flcol_sum_unsigned flcol_sum_under_unsigned
        flcol_from_u8 flcol_constant_u8 flcol_read_u8 flcol_get_u8 flcol_compare_u8 flcol_between_u8
        flcol_count_u8 flcol_count_between_u8 flcol_min_max_u8 flcol_filter_by_u8 flcol_filter_between_u8
        flcol_is_in_u8 flcol_count_under_u8 flcol_min_max_under_u8
        flcol_compare_under_u8 flcol_between_under_u8 flcol_lower_bound_u8;
    u16 U16: u128 flcol_sum_unsigned flcol_sum_under_unsigned
        flcol_from_u16 flcol_constant_u16 flcol_read_u16 flcol_get_u16 flcol_compare_u16 flcol_between_u16
        flcol_count_u16 flcol_count_between_u16 flcol_min_max_u16 flcol_filter_by_u16 flcol_filter_between_u16
        flcol_is_in_u16 flcol_count_under_u16 flcol_min_max_under_u16
        flcol_compare_under_u16 flcol_between_under_u16 flcol_lower_bound_u16;
    u32 U32: u128 flcol_sum_unsigned flcol_sum_under_unsigned
        flcol_from_u32 flcol_constant_u32 flcol_read_u32 flcol_get_u32 flcol_compare_u32 flcol_between_u32
        flcol_count_u32 flcol_count_between_u32 flcol_min_max_u32 flcol_filter_by_u32 flcol_filter_between_u32
        flcol_is_in_u32 flcol_count_under_u32 flcol_min_max_under_u32
        flcol_compare_under_u32 flcol_between_under_u32 flcol_lower_bound_u32;
    u64 U64: u128 flcol_sum_unsigned flcol_sum_under_unsigned
        flcol_from_u64 flcol_constant_u64 flcol_read_u64 flcol_get_u64 flcol_compare_u64 flcol_between_u64
        flcol_count_u64 flcol_count_between_u64 flcol_min_max_u64 flcol_filter_by_u64 flcol_filter_between_u64
        flcol_is_in_u64 flcol_count_under_u64 flcol_min_max_under_u64
        flcol_compare_under_u64 flcol_between_under_u64 flcol_lower_bound_u64;
    i8 I8: i128 flcol_sum_signed flcol_sum_under_signed
        flcol_from_i8 flcol_constant_i8 flcol_read_i8 flcol_get_i8 flcol_compare_i8 flcol_between_i8
        flcol_count_i8 flcol_count_between_i8 flcol_min_max_i8 flcol_filter_by_i8 flcol_filter_between_i8
        flcol_is_in_i8 flcol_count_under_i8 flcol_min_max_under_i8
        flcol_compare_under_i8 flcol_between_under_i8 flcol_lower_bound_i8;
    i16 I16: i128 flcol_sum_signed flcol_sum_under_signed
        flcol_from_i16 flcol_constant_i16 flcol_read_i16 flcol_get_i16 flcol_compare_i16 flcol_between_i16
        flcol_count_i16 flcol_count_between_i16 flcol_min_max_i16 flcol_filter_by_i16 flcol_filter_between_i16
        flcol_is_in_i16 flcol_count_under_i16 flcol_min_max_under_i16
        flcol_compare_under_i16 flcol_between_under_i16 flcol_lower_bound_i16;
    i32 I32: i128 flcol_sum_signed flcol_sum_under_signed
        flcol_from_i32 flcol_constant_i32 flcol_read_i32 flcol_get_i32 flcol_compare_i32 flcol_between_i32
        flcol_count_i32 flcol_count_between_i32 flcol_min_max_i32 flcol_filter_by_i32 flcol_filter_between_i32
        flcol_is_in_i32 flcol_count_under_i32 flcol_min_max_under_i32
        flcol_compare_under_i32 flcol_between_under_i32 flcol_lower_bound_i32;
    i64 I64: i128 flcol_sum_signed flcol_sum_under_signed
        flcol_from_i64 flcol_constant_i64 flcol_read_i64 flcol_get_i64 flcol_compare_i64 flcol_between_i64
        flcol_count_i64 flcol_count_between_i64 flcol_min_max_i64 flcol_filter_by_i64 flcol_filter_between_i64
        flcol_is_in_i64 flcol_count_under_i64 flcol_min_max_under_i64
        flcol_compare_under_i64 flcol_between_under_i64 flcol_lower_bound_i64;
}

/// An integer of any type of Rust, with which items of any type are compared as numbers.
pub trait Integer: Copy + calls::Widened {}

macro_rules! integers {
    ($($integer:ident)+) => {
        $(impl Integer for $integer {}

        impl calls::Widened for $integer {
            fn to_i128(self) -> i128 {
                i128::try_from(self).unwrap_or(i128::MAX)
            }
        })+
    };
}

integers!(u8 u16 u32 u64 u128 usize i8 i16 i32 i64 i128 isize);
