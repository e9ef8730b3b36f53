//! What is said of all items at once, and which items meet a test.

use super::compare::{bounds, comparison, ends};
use super::{at_item_type, Array};
use crate::error::{checked, Error};
use crate::ffi;
use crate::item::{Integer, Item};
use crate::types::{Op, PType};
use std::ops::RangeBounds;

impl Array {
    /// The sum of the items that aren't null, exactly: a `u128` of items without a sign, and an `i128` of others.
    ///
    /// ```
    /// # use flcol::Array;
    /// let array = Array::from_options(&[Some(u64::MAX), None, Some(2)])?;
    /// assert_eq!(array.sum::<u64>()?, (1 << 64) + 1);
    /// # Ok::<(), flcol::Error>(())
    /// ```
    ///
    /// # Errors
    /// `WrongType`, `OutOfMemory`.
    pub fn sum<T: Item>(&self) -> Result<T::Sum, Error> {
        if self.dtype().ptype != T::PTYPE {
            return Err(Error::WrongType);
        }
        self.ask(|array, sum| unsafe { T::sum(array, sum) })
    }

    /// The least item that isn't null, `None` if there is none.
    ///
    /// # Errors
    /// `WrongType`, `OutOfMemory`.
    pub fn min<T: Item>(&self) -> Result<Option<T>, Error> {
        Ok(self.min_max()?.map(|(least, _)| least))
    }

    /// The greatest item that isn't null, `None` if there is none.
    ///
    /// # Errors
    /// `WrongType`, `OutOfMemory`.
    pub fn max<T: Item>(&self) -> Result<Option<T>, Error> {
        Ok(self.min_max()?.map(|(_, greatest)| greatest))
    }

    /// The least and the greatest item that isn't null, found at once, `None` if there is none.
    ///
    /// ```
    /// # use flcol::Array;
    /// let array = Array::new(&[40_i32, -7, 12])?.encode("for(bitpacked)")?;
    /// assert_eq!(array.min_max::<i32>()?, Some((-7, 40)));
    /// assert_eq!(array.slice(..0)?.min_max::<i32>()?, None);
    /// # Ok::<(), flcol::Error>(())
    /// ```
    ///
    /// # Errors
    /// `WrongType`, `OutOfMemory`.
    pub fn min_max<T: Item>(&self) -> Result<Option<(T, T)>, Error> {
        let (mut least, mut greatest, mut is_none) = (T::default(), T::default(), 0);
        checked(|| unsafe { T::MIN_MAX(self.word(), &mut least, &mut greatest, &mut is_none) })?;
        Ok((is_none == 0).then_some((least, greatest)))
    }

    /// How many items compare so with a constant, as of [`Array::compare`]; no null does.
    ///
    /// ```
    /// # use flcol::{Array, Op};
    /// let array = Array::from_options(&[Some(7_u8), None, Some(9)])?;
    /// assert_eq!((array.count_where(Op::Lt, 9)?, array.count_where(Op::Lt, 300)?), (1, 2));
    /// # Ok::<(), flcol::Error>(())
    /// ```
    ///
    /// # Errors
    /// `NotInteger`, `OutOfMemory`.
    pub fn count_where(&self, op: Op, constant: impl Integer) -> Result<usize, Error> {
        at_item_type!(self.count_items(op, constant.to_i128()))
    }

    /// How many items lie in a range of values, as of [`Array::between`]; no null does.
    ///
    /// ```
    /// # use flcol::Array;
    /// let array = Array::new(&[-3_i16, 0, 4])?;
    /// assert_eq!((array.count_between(-3..4)?, array.count_between(1_u64..)?), (2, 1));
    /// # Ok::<(), flcol::Error>(())
    /// ```
    ///
    /// # Errors
    /// `NotInteger`, `OutOfMemory`.
    pub fn count_between<C: Integer>(&self, range: impl RangeBounds<C>) -> Result<usize, Error> {
        let (least, greatest) = ends(range);
        at_item_type!(self.count_items_between(least, greatest))
    }

    /// A plain array of the items that compare so with a constant, in their order; no null does.
    ///
    /// ```
    /// # use flcol::{Array, Op};
    /// let array = Array::from_options(&[Some(7_u8), None, Some(9)])?;
    /// assert_eq!(array.filter_by(Op::Gte, 8)?.to_vec::<u8>()?, [9]);
    /// # Ok::<(), flcol::Error>(())
    /// ```
    ///
    /// # Errors
    /// `NotInteger`, `OutOfMemory`.
    pub fn filter_by(&self, op: Op, constant: impl Integer) -> Result<Array, Error> {
        at_item_type!(self.filter_items(op, constant.to_i128()))
    }

    /// A plain array of the items that lie in a range of values, in their order; no null does.
    ///
    /// ```
    /// # use flcol::Array;
    /// let array = Array::new(&[-3_i16, 0, 4])?;
    /// assert_eq!(array.filter_between(0..=100_000)?.to_vec::<i16>()?, [0, 4]);
    /// # Ok::<(), flcol::Error>(())
    /// ```
    ///
    /// # Errors
    /// `NotInteger`, `OutOfMemory`.
    pub fn filter_between<C: Integer>(&self, range: impl RangeBounds<C>) -> Result<Array, Error> {
        let (least, greatest) = ends(range);
        at_item_type!(self.filter_items_between(least, greatest))
    }

    /// The sum of the items that aren't null, of integers of any type.
    pub(crate) fn exact_sum(&self) -> Result<i128, Error> {
        let low = &mut 0;
        let high = match self.dtype().ptype {
            PType::U8 | PType::U16 | PType::U32 | PType::U64 => {
                let high = self.ask(|array, high: *mut u64| unsafe { ffi::flcol_sum_unsigned(array, high, low) })?;
                i64::try_from(high).map_err(|_| Error::LengthOverflow)?
            }
            _ => self.ask(|array, high| unsafe { ffi::flcol_sum_signed(array, high, low) })?,
        };
        Ok(i128::from(high) << 64 | i128::from(*low))
    }

    /// The least and the greatest item that isn't null, of integers of any type, `None` if there is none.
    pub(crate) fn extremes(&self) -> Result<Option<(i128, i128)>, Error> {
        at_item_type!(self.item_extremes())
    }

    fn item_extremes<T: Item>(&self) -> Result<Option<(i128, i128)>, Error> {
        Ok(self.min_max::<T>()?.map(|(least, greatest)| (least.to_i128(), greatest.to_i128())))
    }

    fn count_items<T: Item>(&self, op: Op, constant: i128) -> Result<usize, Error> {
        let (op, constant) = comparison::<T>(op, constant);
        self.ask(|array, count| unsafe { T::COUNT(array, op as u8, constant, count) })
    }

    fn count_items_between<T: Item>(&self, least: i128, greatest: i128) -> Result<usize, Error> {
        let (least, greatest) = bounds::<T>(least, greatest);
        self.ask(|array, count| unsafe { T::COUNT_BETWEEN(array, least, greatest, 0, 0, count) })
    }

    fn filter_items<T: Item>(&self, op: Op, constant: i128) -> Result<Array, Error> {
        let (op, constant) = comparison::<T>(op, constant);
        Array::make(|out| unsafe { T::FILTER_BY(self.word(), op as u8, constant, out) })
    }

    fn filter_items_between<T: Item>(&self, least: i128, greatest: i128) -> Result<Array, Error> {
        let (least, greatest) = bounds::<T>(least, greatest);
        Array::make(|out| unsafe { T::FILTER_BETWEEN(self.word(), least, greatest, 0, 0, out) })
    }
}
