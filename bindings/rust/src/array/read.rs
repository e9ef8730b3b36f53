//! How items are read.

use super::Array;
use crate::answers::Answers;
use crate::bitmap::Bitmap;
use crate::chunks::Chunks;
use crate::error::{checked, Error};
use crate::ffi;
use crate::item::Item;
use crate::iter::Iter;
use crate::memory::{reserved, written};
use crate::types::PType;
use std::ptr;

impl Array {
    /// The values of an array without nulls.
    ///
    /// # Errors
    /// `WrongType`; `ValidityLength` if an item is null; `OutOfMemory`.
    pub fn to_vec<T: Item>(&self) -> Result<Vec<T>, Error> {
        let len = self.len_as(T::PTYPE)?;
        // SAFETY: the call writes so many values.
        unsafe { written(len, |values| T::READ(self.word(), values, len, ptr::null_mut(), 0)) }
    }

    /// The items, nulls as `None`.
    ///
    /// # Errors
    /// `WrongType`, `OutOfMemory`.
    pub fn to_options<T: Item>(&self) -> Result<Vec<Option<T>>, Error> {
        let mut items = reserved(self.len_as(T::PTYPE)?)?;
        let mut chunks = self.chunks::<T>();
        while let Some(chunk) = chunks.next_chunk()? {
            items.extend(chunk);
        }
        Ok(items)
    }

    /// The items of an array of booleans.
    ///
    /// # Errors
    /// `WrongType`, `OutOfMemory`.
    pub fn to_answers(&self) -> Result<Answers, Error> {
        self.len_as(PType::Bool)?;
        self.bits(|bits, len, valid| unsafe { ffi::flcol_read_bool(self.word(), bits, len, valid, len) })
    }

    /// How many items there are, if they are of a type. So a wrong type is answered before memory is asked for.
    fn len_as(&self, ptype: PType) -> Result<usize, Error> {
        if self.dtype().ptype != ptype {
            return Err(Error::WrongType);
        }
        Ok(self.len())
    }

    /// Decodes an array without nulls into memory that is there, which is as long as the array.
    ///
    /// # Errors
    /// `WrongType`; `WrongLength`; `ValidityLength` if an item is null; `OutOfMemory`.
    pub fn read_into<T: Item>(&self, values: &mut [T]) -> Result<(), Error> {
        checked(|| unsafe { T::READ(self.word(), values.as_mut_ptr(), values.len(), ptr::null_mut(), 0) })
    }

    /// Decodes the array into memory that is there, which is as long as the array, and answers which items are valid.
    /// What is written in the place of a null says nothing.
    ///
    /// # Errors
    /// `WrongType`, `WrongLength`, `OutOfMemory`.
    pub fn read_with_validity<T: Item>(&self, values: &mut [T]) -> Result<Bitmap, Error> {
        let mut valid = Bitmap::try_zeros(values.len())?;
        self.read_both(values, &mut valid)?;
        Ok(valid)
    }

    /// Decodes the array into values and bits, of which there are as many as items.
    pub(crate) fn read_both<T: Item>(&self, values: &mut [T], valid: &mut Bitmap) -> Result<(), Error> {
        let bits = valid.as_mut_bytes();
        checked(|| unsafe { T::READ(self.word(), values.as_mut_ptr(), values.len(), bits.as_mut_ptr(), bits.len()) })
    }

    /// The item at an index, `None` where it is null.
    ///
    /// # Errors
    /// `WrongType`, `IndexOutOfBounds`, `OutOfMemory`.
    pub fn get<T: Item>(&self, index: usize) -> Result<Option<T>, Error> {
        let (mut value, mut is_null) = (T::default(), 0);
        checked(|| unsafe { T::GET(self.word(), index, &mut value, &mut is_null) })?;
        Ok((is_null == 0).then_some(value))
    }

    /// Goes over the items, nulls as `None`, and decodes some thousands at a time. An error is the last that it answers.
    ///
    /// ```
    /// # use flcol::Array;
    /// let array = Array::new(&[3_u8, 4, 5])?.encode("bitpacked")?;
    /// let sum = array.iter::<u8>().try_fold(0, |sum, item| Ok(sum + item?.unwrap_or(0)))?;
    /// assert_eq!(sum, 12);
    /// # Ok::<(), flcol::Error>(())
    /// ```
    pub fn iter<T: Item>(&self) -> Iter<'_, T> {
        Iter::new(self)
    }

    /// Lends the items in windows of some blocks, one after another, each decoded into the memory of the one before.
    ///
    /// ```
    /// # use flcol::Array;
    /// let array = Array::try_from_iter(0..100_000_u32)?.encode("delta(bitpacked,_)")?;
    /// let (mut sum, mut chunks) = (0, array.chunks::<u32>());
    /// while let Some(chunk) = chunks.next_chunk()? {
    ///     sum += chunk.values().iter().map(|value| u64::from(*value)).sum::<u64>();
    /// }
    /// assert_eq!(sum, 4_999_950_000);
    /// # Ok::<(), flcol::Error>(())
    /// ```
    pub fn chunks<T: Item>(&self) -> Chunks<'_, T> {
        Chunks::new(self)
    }
}

impl TryFrom<&Array> for Answers {
    type Error = Error;

    fn try_from(array: &Array) -> Result<Answers, Error> {
        array.to_answers()
    }
}
