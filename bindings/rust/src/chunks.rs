//! Windows of decoded items.

use crate::array::Array;
use crate::bitmap::Bitmap;
use crate::blocks::BLOCK;
use crate::error::Error;
use crate::indexed::{ByIndex, Indexed};
use crate::item::Item;
use crate::memory::filled;
use std::fmt;
use std::ops::Range;

/// How many items a window has at most.
const CHUNK: usize = 16 * BLOCK;

/// Lends the items of an array, window by window: [`Array::chunks`] makes it. It asks for memory at the first window,
/// and then for none that grows with the items.
pub struct Chunks<'a, T> {
    array: &'a Array,
    len: usize,
    nullable: bool,
    /// The indices of the items that are decoded.
    decoded: Range<usize>,
    values: Vec<T>,
    validity: Bitmap,
}

/// Items that are decoded, and lent until the next ones are.
#[derive(Clone, Copy, Debug)]
pub struct Chunk<'a, T> {
    start: usize,
    values: &'a [T],
    validity: Option<&'a Bitmap>,
}

impl<'a, T: Item> Chunks<'a, T> {
    pub(crate) fn new(array: &'a Array) -> Chunks<'a, T> {
        let (len, nullable) = (array.len(), array.dtype().nullable);
        Chunks { array, len, nullable, decoded: 0..0, values: Vec::new(), validity: Bitmap::default() }
    }

    /// Decodes the next items and lends them; `None` behind the last, and behind an error.
    ///
    /// # Errors
    /// `WrongType`, `OutOfMemory`.
    pub fn next_chunk(&mut self) -> Result<Option<Chunk<'_, T>>, Error> {
        Ok(self.decode_from(self.decoded.end)?.then(|| self.chunk()))
    }

    /// How many items are not yet decoded.
    pub(crate) fn left(&self) -> usize {
        self.len - self.decoded.end
    }

    /// The indices of the items that are decoded.
    pub(crate) fn decoded(&self) -> Range<usize> {
        self.decoded.clone()
    }

    /// The items that are decoded.
    pub(crate) fn chunk(&self) -> Chunk<'_, T> {
        let validity = self.nullable.then_some(&self.validity);
        Chunk { start: self.decoded.start, values: &self.values[..self.decoded.len()], validity }
    }

    /// Decodes items from an index on that is not below those that are decoded. Whether there are any.
    pub(crate) fn decode_from(&mut self, start: usize) -> Result<bool, Error> {
        let end = start + CHUNK.min(self.len - start);
        self.decoded = self.len..self.len;
        if start == end {
            return Ok(false);
        }
        self.decode(start..end)?;
        self.decoded = start..end;
        Ok(true)
    }

    /// Decodes the items of a range into the memory that is there. Only the last range is shorter than those before.
    fn decode(&mut self, range: Range<usize>) -> Result<(), Error> {
        let len = range.len();
        if self.values.is_empty() {
            self.values = filled(T::default(), len)?;
            self.validity = Bitmap::try_zeros(if self.nullable { len } else { 0 })?;
        }
        self.values.truncate(len);
        if self.nullable {
            self.validity.truncate(len);
        }
        self.array.slice(range)?.read_both(&mut self.values, &mut self.validity)
    }
}

impl<'a, T: Item> Chunk<'a, T> {
    /// How many items there are, at least one.
    #[allow(clippy::len_without_is_empty)]
    pub fn len(&self) -> usize {
        self.values.len()
    }

    /// The indices that the items have in the array.
    pub fn range(&self) -> Range<usize> {
        self.start..self.start + self.values.len()
    }

    /// The values. What stands in the place of a null says nothing.
    pub fn values(&self) -> &'a [T] {
        self.values
    }

    /// Which items are valid; `None` where the array's type has no nulls.
    pub fn validity(&self) -> Option<&'a Bitmap> {
        self.validity
    }

    /// The items, nulls as `None`.
    pub fn iter(&self) -> Indexed<Chunk<'a, T>> {
        Indexed::new(*self, self.values.len())
    }
}

impl<T: Item> ByIndex for Chunk<'_, T> {
    type Item = Option<T>;

    fn at(self, index: usize) -> Option<T> {
        let is_valid = self.validity.map_or(true, |validity| validity.get(index));
        is_valid.then(|| self.values[index])
    }
}

impl<'a, T: Item> IntoIterator for Chunk<'a, T> {
    type Item = Option<T>;
    type IntoIter = Indexed<Chunk<'a, T>>;

    fn into_iter(self) -> Indexed<Chunk<'a, T>> {
        self.iter()
    }
}

impl<T> fmt::Debug for Chunks<'_, T> {
    fn fmt(&self, f: &mut fmt::Formatter<'_>) -> fmt::Result {
        write!(f, "Chunks({:?} of {:?})", self.decoded, self.array)
    }
}
