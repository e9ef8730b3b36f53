//! How items compare.

use super::{at_item_type, Array};
use crate::answers::Answers;
use crate::bitmap::Bitmap;
use crate::error::Error;
use crate::item::{Integer, Item};
use crate::memory::{reserved, written};
use crate::types::{Op, PType};
use std::ops::{Bound, RangeBounds};

impl Array {
    /// How each item compares with a constant, which is an integer of any type: a constant that the items' type doesn't
    /// have is above or below all of them. What is bit-packed is compared without being unpacked.
    ///
    /// ```
    /// # use flcol::{Array, Op};
    /// let array = Array::from_options(&[Some(7_u8), None])?;
    /// assert_eq!(array.compare(Op::Gt, 5)?.iter().collect::<Vec<_>>(), [Some(true), None]);
    /// assert_eq!(array.compare(Op::Gt, -300)?, array.compare(Op::Lt, u64::MAX)?);
    /// # Ok::<(), flcol::Error>(())
    /// ```
    ///
    /// # Errors
    /// `NotInteger`, `OutOfMemory`.
    pub fn compare(&self, op: Op, constant: impl Integer) -> Result<Answers, Error> {
        at_item_type!(self.compare_items(op, constant.to_i128()))
    }

    /// Whether each item lies in a range of values, such as `3..=5`. The bounds are integers of any type, as of
    /// [`Array::compare`].
    ///
    /// ```
    /// # use flcol::Array;
    /// let array = Array::new(&[-3_i16, 0, 4])?;
    /// assert_eq!(array.between(-100_000..4)?.count_true(), 2);
    /// # Ok::<(), flcol::Error>(())
    /// ```
    ///
    /// # Errors
    /// `NotInteger`, `OutOfMemory`.
    pub fn between<C: Integer>(&self, range: impl RangeBounds<C>) -> Result<Answers, Error> {
        let (least, greatest) = ends(range);
        at_item_type!(self.items_between(least, greatest))
    }

    /// Whether two arrays have the same column: items of one type, as many, and each equal to the other's, a null to a
    /// null. Their encodings don't count, nor whether the type allows nulls. Both are decoded some thousands of items
    /// at a time, up to the first that differ.
    ///
    /// ```
    /// # use flcol::Array;
    /// let array = Array::new(&[3_u32, 4, 5])?;
    /// assert!(array.equals(&array.encode("delta(bitpacked,_)")?)?);
    /// assert!(!array.equals(&array.slice(1..)?)?);
    /// # Ok::<(), flcol::Error>(())
    /// ```
    ///
    /// # Errors
    /// `OutOfMemory`.
    pub fn equals(&self, other: &Array) -> Result<bool, Error> {
        if self.dtype().ptype != other.dtype().ptype || self.len() != other.len() {
            return Ok(false);
        }
        match self.dtype().ptype {
            PType::Bool => Ok(self.to_answers()? == other.to_answers()?),
            _ => at_item_type!(self.has_items_of(other)),
        }
    }

    fn has_items_of<T: Item>(&self, other: &Array) -> Result<bool, Error> {
        let (mut left, mut right) = (self.chunks::<T>(), other.chunks::<T>());
        while let (Some(left), Some(right)) = (left.next_chunk()?, right.next_chunk()?) {
            if !left.iter().eq(right.iter()) {
                return Ok(false);
            }
        }
        Ok(true)
    }

    fn compare_items<T: Item>(&self, op: Op, constant: i128) -> Result<Answers, Error> {
        let (op, constant) = comparison::<T>(op, constant);
        self.bits(|bits, len, valid| unsafe { T::COMPARE(self.word(), op as u8, constant, bits, len, valid, len) })
    }

    fn items_between<T: Item>(&self, least: i128, greatest: i128) -> Result<Answers, Error> {
        let (least, greatest) = bounds::<T>(least, greatest);
        self.bits(|bits, len, valid| unsafe { T::BETWEEN(self.word(), least, greatest, 0, 0, bits, len, valid, len) })
    }

    /// The answers of a call that writes a bit for each item into two bitmaps of so many bytes each.
    pub(super) fn bits(&self, call: impl FnOnce(*mut u8, usize, *mut u8) -> i32) -> Result<Answers, Error> {
        let len = self.len();
        let bytes = len.div_ceil(8);
        let mut valid = reserved(bytes)?;
        // SAFETY: the call writes so many bytes of each.
        let bits = unsafe { written(bytes, |bits| call(bits, bytes, valid.as_mut_ptr())) }?;
        unsafe { valid.set_len(bytes) };
        let (bits, valid) = (Bitmap::from_bytes(bits, len)?, Bitmap::from_bytes(valid, len)?);
        match self.dtype().nullable {
            true => Answers::new(bits, valid),
            false => Ok(Answers::without_nulls(bits, valid)),
        }
    }
}

/// A comparison with an integer as one with an item of the type, which the same items meet.
pub(super) fn comparison<T: Item>(op: Op, constant: i128) -> (Op, T) {
    match T::narrowed(constant) {
        Some(constant) => (op, constant),
        None if holds_for_all(op, constant > 0) => (Op::Gte, T::MIN),
        None => (Op::Lt, T::MIN),
    }
}

/// The least and the greatest integer of a range; in none the least one is above.
pub(crate) fn ends<C: Integer>(range: impl RangeBounds<C>) -> (i128, i128) {
    let least = match range.start_bound() {
        Bound::Included(bound) => bound.to_i128(),
        Bound::Excluded(bound) => bound.to_i128().saturating_add(1),
        Bound::Unbounded => i128::MIN,
    };
    let greatest = match range.end_bound() {
        Bound::Included(bound) => bound.to_i128(),
        Bound::Excluded(bound) => bound.to_i128().saturating_sub(1),
        Bound::Unbounded => i128::MAX,
    };
    (least, greatest)
}

/// Two bounds as items of the type, between which the same items lie.
pub(super) fn bounds<T: Item>(least: i128, greatest: i128) -> (T, T) {
    let least = T::narrowed(least.max(T::MIN.to_i128()));
    let greatest = T::narrowed(greatest.min(T::MAX.to_i128()));
    least.zip(greatest).unwrap_or((T::MAX, T::MIN))
}

/// Whether a comparison holds for each item, with a constant that is above all items or below all.
fn holds_for_all(op: Op, is_above: bool) -> bool {
    match op {
        Op::Eq => false,
        Op::NotEq => true,
        Op::Lt | Op::Lte => is_above,
        Op::Gt | Op::Gte => !is_above,
    }
}
