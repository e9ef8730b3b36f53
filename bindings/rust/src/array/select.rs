//! Which items are kept, and as what.

use super::make::{at_least_one_byte, parts};
use super::Array;
use crate::bitmap::Bitmap;
use crate::error::{checked, Error};
use crate::ffi::{self, ItemRange};
use crate::memory::{gathered, reserved};
use crate::types::DType;
use std::ops::{Bound, Range, RangeBounds};
use std::ptr;

impl Array {
    /// The items of a range, in the same encodings. Nothing packed is copied or decoded.
    ///
    /// # Errors
    /// `RangeOutOfBounds`, `OutOfMemory`.
    pub fn slice(&self, range: impl RangeBounds<usize>) -> Result<Array, Error> {
        let after = |index: &usize| index.checked_add(1).ok_or(Error::RangeOutOfBounds);
        let from = match range.start_bound() {
            Bound::Included(start) => *start,
            Bound::Excluded(before) => after(before)?,
            Bound::Unbounded => 0,
        };
        let to = match range.end_bound() {
            Bound::Included(last) => after(last)?,
            Bound::Excluded(end) => *end,
            Bound::Unbounded => self.len(),
        };
        Array::make(|out| unsafe { ffi::flcol_slice(self.word(), from, to, out) })
    }

    /// The array cut into slices, one after another, for as many workers: each begins at a whole block of 1024 items, and
    /// none has more than one block more than another. Some are empty where there are fewer blocks.
    ///
    /// ```
    /// # use flcol::{Array, Error};
    /// let array = Array::try_from_iter(0..10_000_u32)?.encode("delta(bitpacked,_)")?;
    /// let sum = |part: Array| part.iter::<u32>().try_fold(0, |sum, item| Ok::<_, Error>(sum + item?.unwrap_or(0)));
    /// let workers: Vec<_> = array.split(4)?.into_iter().map(|part| std::thread::spawn(move || sum(part))).collect();
    /// let sums = workers.into_iter().map(|worker| worker.join().unwrap()).collect::<Result<Vec<_>, Error>>()?;
    /// assert_eq!((sums.len(), sums.iter().sum::<u32>()), (4, 49_995_000));
    /// # Ok::<(), flcol::Error>(())
    /// ```
    ///
    /// # Errors
    /// `OutOfMemory`.
    pub fn split(&self, count: usize) -> Result<Vec<Array>, Error> {
        let mut parts = reserved(count)?;
        parts.resize_with(count, Array::unmade);
        // An array is the word by which C holds it.
        checked(|| unsafe { ffi::flcol_split(self.word(), parts.as_mut_ptr().cast(), count) })?;
        Ok(parts)
    }

    /// A copy, which shares what is packed.
    ///
    /// # Errors
    /// `OutOfMemory`.
    pub fn try_clone(&self) -> Result<Array, Error> {
        self.slice(..)
    }

    /// The items at these indices.
    ///
    /// # Errors
    /// `NotInteger`, `IndexOutOfBounds`, `OutOfMemory`.
    pub fn take(&self, indices: &[u64]) -> Result<Array, Error> {
        Array::make(|out| unsafe { ffi::flcol_take(self.word(), indices.as_ptr(), indices.len(), ptr::null(), 0, out) })
    }

    /// The items at these indices, and a null for each `None`.
    ///
    /// # Errors
    /// `NotInteger`, `IndexOutOfBounds`, `OutOfMemory`.
    pub fn take_options(&self, indices: &[Option<u64>]) -> Result<Array, Error> {
        let (values, validity) = parts(indices)?;
        let bits = at_least_one_byte(validity.as_bytes());
        Array::make(|out| unsafe {
            ffi::flcol_take(self.word(), values.as_ptr(), values.len(), bits.as_ptr(), bits.len(), out)
        })
    }

    /// The items of these ranges, one range after another. A range without items is skipped wherever it starts.
    ///
    /// # Errors
    /// `NotInteger`, `RangeOutOfBounds`, `LengthOverflow`, `OutOfMemory`.
    pub fn take_ranges(&self, ranges: &[Range<usize>]) -> Result<Array, Error> {
        let ranges = gathered(ranges.iter().map(|range| ItemRange { start: range.start, len: range.len() }))?;
        Array::make(|out| unsafe { ffi::flcol_take_ranges(self.word(), ranges.as_ptr(), ranges.len(), out) })
    }

    /// The items whose bits are set.
    ///
    /// # Errors
    /// `MaskLength`, `NotInteger`, `OutOfMemory`.
    pub fn filter(&self, mask: &Bitmap) -> Result<Array, Error> {
        if mask.len() != self.len() {
            return Err(Error::MaskLength);
        }
        let bits = mask.as_bytes();
        Array::make(|out| unsafe { ffi::flcol_filter(self.word(), bits.as_ptr(), bits.len(), out) })
    }

    /// The same integers in another type, such as `PType::U8` or `PType::U8.nullable()`.
    ///
    /// # Errors
    /// `NotInteger`, `CastNull`, `CastOutOfRange`, `OutOfMemory`.
    pub fn cast(&self, dtype: impl Into<DType>) -> Result<Array, Error> {
        let number = dtype.into().number();
        Array::make(|out| unsafe { ffi::flcol_cast(self.word(), number, out) })
    }

    /// The same array with a boundary for each block wherever it is bit-packed at one width. Nothing is packed again.
    ///
    /// # Errors
    /// `OutOfMemory`.
    pub fn to_blocked(&self) -> Result<Array, Error> {
        Array::make(|out| unsafe { ffi::flcol_to_blocked(self.word(), out) })
    }
}
