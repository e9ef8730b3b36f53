//! What is said of the items that a mask keeps.

use super::compare::{bounds, comparison, ends};
use super::{at_item_type, Array};
use crate::bitmap::Bitmap;
use crate::error::{checked, Error};
use crate::item::{Integer, Item};
use crate::memory::written;
use crate::types::{Op, PType};
use std::ops::RangeBounds;

impl Array {
    /// How many of the items whose bits are set compare so with a constant, as of [`Array::count_where`]. A block of 1024
    /// items without a set bit is not read.
    ///
    /// ```
    /// # use flcol::{Array, Op};
    /// let array = Array::try_from([7_u8, 8, 9, 10])?;
    /// let mask = array.compare(Op::NotEq, 8)?.into_mask();
    /// assert_eq!(array.count_under(&mask, Op::Lt, 10)?, 2);
    /// # Ok::<(), flcol::Error>(())
    /// ```
    ///
    /// # Errors
    /// `NotInteger`, `MaskLength` if the mask is for another number of items, `OutOfMemory`.
    pub fn count_under(&self, mask: &Bitmap, op: Op, constant: impl Integer) -> Result<usize, Error> {
        at_item_type!(self.count_kept(mask, op, constant.to_i128()))
    }

    /// Which of the items whose bits are set compare so with a constant, as of [`Array::compare`]: a mask in its turn, under
    /// which another array is asked. Of a null and of any other item the bit is not set.
    ///
    /// ```
    /// # use flcol::{Array, Op};
    /// let (days, prices) = (Array::try_from([3_u16, 4, 5, 6])?, Array::try_from([90_u32, 20, 70, 10])?);
    /// let late = days.between(4..)?.into_mask();
    /// let cheap = prices.compare_under(&late, Op::Lt, 50)?;
    /// assert_eq!(prices.sum_under::<u32>(&cheap)?, 30);
    /// # Ok::<(), flcol::Error>(())
    /// ```
    ///
    /// # Errors
    /// `NotInteger`, `MaskLength`, `OutOfMemory`.
    pub fn compare_under(&self, mask: &Bitmap, op: Op, constant: impl Integer) -> Result<Bitmap, Error> {
        at_item_type!(self.compare_kept(mask, op, constant.to_i128()))
    }

    /// Which of the items whose bits are set lie in a range of values, as of [`Array::between`], as a mask.
    ///
    /// ```
    /// # use flcol::{Array, Bitmap};
    /// let array = Array::from_options(&[Some(-7_i16), None, Some(40), Some(3)])?;
    /// let mask: Bitmap = [true, true, true, false].into_iter().collect();
    /// assert_eq!(array.between_under(&mask, -10..=10)?, [true, false, false, false].into_iter().collect());
    /// # Ok::<(), flcol::Error>(())
    /// ```
    ///
    /// # Errors
    /// `NotInteger`, `MaskLength`, `OutOfMemory`.
    pub fn between_under<C: Integer>(&self, mask: &Bitmap, range: impl RangeBounds<C>) -> Result<Bitmap, Error> {
        let (least, greatest) = ends(range);
        at_item_type!(self.kept_between(mask, least, greatest))
    }

    /// The sum of the items whose bits are set and that aren't null, exactly, as of [`Array::sum`].
    ///
    /// ```
    /// # use flcol::{Array, Bitmap};
    /// let array = Array::from_options(&[Some(-7_i16), None, Some(40)])?;
    /// let mask: Bitmap = [true, true, false].into_iter().collect();
    /// assert_eq!(array.sum_under::<i16>(&mask)?, -7);
    /// # Ok::<(), flcol::Error>(())
    /// ```
    ///
    /// # Errors
    /// `WrongType`, `MaskLength`, `OutOfMemory`.
    pub fn sum_under<T: Item>(&self, mask: &Bitmap) -> Result<T::Sum, Error> {
        if self.dtype().ptype != T::PTYPE {
            return Err(Error::WrongType);
        }
        let mask = self.mask_bytes(mask)?;
        self.ask(|array, sum| unsafe { T::sum_under(array, mask, sum) })
    }

    /// The least and the greatest of the items whose bits are set and that aren't null, `None` if there is none.
    ///
    /// ```
    /// # use flcol::{Array, Bitmap};
    /// let array = Array::try_from([40_i32, -7, 12])?;
    /// let mask: Bitmap = [true, false, true].into_iter().collect();
    /// assert_eq!(array.min_max_under::<i32>(&mask)?, Some((12, 40)));
    /// # Ok::<(), flcol::Error>(())
    /// ```
    ///
    /// # Errors
    /// `WrongType`, `MaskLength`, `OutOfMemory`.
    pub fn min_max_under<T: Item>(&self, mask: &Bitmap) -> Result<Option<(T, T)>, Error> {
        if self.dtype().ptype != T::PTYPE {
            return Err(Error::WrongType);
        }
        let mask = self.mask_bytes(mask)?;
        let (bits, bytes) = (mask.as_ptr(), mask.len());
        let (mut least, mut greatest, mut is_none) = (T::default(), T::default(), 0);
        checked(|| unsafe { T::MIN_MAX_UNDER(self.word(), bits, bytes, &mut least, &mut greatest, &mut is_none) })?;
        Ok((is_none == 0).then_some((least, greatest)))
    }

    fn count_kept<T: Item>(&self, mask: &Bitmap, op: Op, constant: i128) -> Result<usize, Error> {
        let mask = self.mask_bytes(mask)?;
        let (op, constant) = comparison::<T>(op, constant);
        self.ask(|array, count| unsafe { T::COUNT_UNDER(array, mask.as_ptr(), mask.len(), op as u8, constant, count) })
    }

    fn compare_kept<T: Item>(&self, mask: &Bitmap, op: Op, constant: i128) -> Result<Bitmap, Error> {
        let mask = self.mask_bytes(mask)?;
        let (op, constant) = comparison::<T>(op, constant);
        self.mask_of(mask.len(), |bits, len| unsafe {
            T::COMPARE_UNDER(self.word(), mask.as_ptr(), mask.len(), op as u8, constant, bits, len)
        })
    }

    fn kept_between<T: Item>(&self, mask: &Bitmap, least: i128, greatest: i128) -> Result<Bitmap, Error> {
        let mask = self.mask_bytes(mask)?;
        let (least, greatest) = bounds::<T>(least, greatest);
        self.mask_of(mask.len(), |bits, len| unsafe {
            T::BETWEEN_UNDER(self.word(), mask.as_ptr(), mask.len(), least, greatest, 0, 0, bits, len)
        })
    }

    /// The mask of a call that writes so many bytes, a bit for each item.
    fn mask_of(&self, bytes: usize, call: impl FnOnce(*mut u8, usize) -> i32) -> Result<Bitmap, Error> {
        // SAFETY: the call writes so many bytes.
        let bits = unsafe { written(bytes, |bits| call(bits, bytes)) }?;
        Bitmap::from_bytes(bits, self.len())
    }

    /// The bytes of a mask that has a bit for each item.
    fn mask_bytes<'a>(&self, mask: &'a Bitmap) -> Result<&'a [u8], Error> {
        match mask.len() == self.len() {
            true => Ok(mask.as_bytes()),
            false => Err(Error::MaskLength),
        }
    }
}
