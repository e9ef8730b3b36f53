//! Which items are among others, and where a value stands in sorted ones.

use super::{at_item_type, Array};
use crate::answers::Answers;
use crate::error::Error;
use crate::item::{Integer, Item};
use crate::memory::{push, reserved};
use crate::types::PType;

impl Array {
    /// Whether each item is one of a list of integers of any type; null at a null.
    ///
    /// ```
    /// # use flcol::Array;
    /// let array = Array::from_options(&[Some(7_u8), None, Some(9)])?;
    /// assert_eq!(array.is_in(&[9, 300, -1])?.iter().collect::<Vec<_>>(), [Some(false), None, Some(true)]);
    /// # Ok::<(), flcol::Error>(())
    /// ```
    ///
    /// # Errors
    /// `NotInteger`, `OutOfMemory`.
    pub fn is_in(&self, list: &[impl Integer]) -> Result<Answers, Error> {
        at_item_type!(self.items_in(list))
    }

    /// The array as one that is sorted, as [`Array::is_sorted`] says after a look at all items.
    ///
    /// # Errors
    /// `NotSorted`, `NotInteger`, `OutOfMemory`.
    pub fn as_sorted(&self) -> Result<Sorted<'_>, Error> {
        match self.is_sorted()? {
            true => Ok(Sorted { array: self }),
            false => Err(Error::NotSorted),
        }
    }

    /// The first index of a sorted array whose item is not below a value, or the length. Who asks more than once asks
    /// [`Array::as_sorted`], since all items are looked at first.
    ///
    /// # Errors
    /// `NotSorted`, `NotInteger`, `OutOfMemory`.
    pub fn lower_bound(&self, value: impl Integer) -> Result<usize, Error> {
        self.as_sorted()?.lower_bound(value)
    }

    fn items_in<T: Item>(&self, list: &[impl Integer]) -> Result<Answers, Error> {
        let mut wanted = reserved(0)?;
        for item in list.iter().filter_map(|item| T::narrowed(item.to_i128())) {
            push(&mut wanted, item)?;
        }
        let (list, count) = (wanted.as_ptr(), wanted.len());
        self.bits(|bits, len, valid| unsafe { T::IS_IN(self.word(), list, count, bits, len, valid, len) })
    }

    fn first_from<T: Item>(&self, value: i128) -> Result<usize, Error> {
        match T::narrowed(value.max(T::MIN.to_i128())) {
            Some(value) => self.ask(|array, position| unsafe { T::LOWER_BOUND(array, value, position) }),
            None => Ok(self.len()),
        }
    }
}

/// An array that is sorted: no item is above the next, and a null is below every integer.
///
/// ```
/// # use flcol::Array;
/// let array = Array::from_options(&[None, Some(3_u32), Some(5), Some(5), Some(9)])?;
/// let sorted = array.as_sorted()?;
/// assert_eq!((sorted.lower_bound(5)?, sorted.upper_bound(5)?, sorted.lower_bound(-1)?), (2, 4, 1));
/// # Ok::<(), flcol::Error>(())
/// ```
#[derive(Clone, Copy, Debug)]
pub struct Sorted<'a> {
    array: &'a Array,
}

impl Sorted<'_> {
    /// The first index whose item is not below a value, which is an integer of any type; the length if there is none. One
    /// item of some blocks is read, and one block.
    ///
    /// # Errors
    /// `OutOfMemory`.
    pub fn lower_bound(&self, value: impl Integer) -> Result<usize, Error> {
        let array = self.array;
        at_item_type!(array.first_from(value.to_i128()))
    }

    /// The first index whose item is above a value; the length if there is none.
    ///
    /// # Errors
    /// `OutOfMemory`.
    pub fn upper_bound(&self, value: impl Integer) -> Result<usize, Error> {
        let array = self.array;
        at_item_type!(array.first_from(value.to_i128().saturating_add(1)))
    }
}
