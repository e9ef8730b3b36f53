//! Arrays one behind the other.

use crate::array::{at_item_type, Array};
use crate::bitmap::Bitmap;
use crate::error::Error;
use crate::item::Item;
use crate::memory::filled;
use crate::types::{DType, PType};

/// The items of arrays of a type, one behind the other, as a plain array; those of one alone stay as they are encoded.
pub(super) fn concatenated(mut parts: Vec<Array>, dtype: DType) -> Result<Array, Error> {
    if parts.len() == 1 {
        return Ok(parts.remove(0));
    }
    let joining = Joining { parts, dtype };
    at_item_type!(joining.joined())
}

/// Arrays of a type.
struct Joining {
    parts: Vec<Array>,
    dtype: DType,
}

impl Joining {
    fn dtype(&self) -> DType {
        self.dtype
    }

    fn joined<T: Item>(&self) -> Result<Array, Error> {
        let len = self.parts.iter().try_fold(0, |len: usize, part| len.checked_add(part.len()));
        let mut values = filled(T::default(), len.ok_or(Error::OutOfMemory)?)?;
        let mut validity = Bitmap::try_zeros(if self.dtype.nullable { values.len() } else { 0 })?;
        let mut done = 0;
        for part in &self.parts {
            let some = &mut values[done..done + part.len()];
            if self.dtype.nullable {
                let valid = part.read_with_validity(some)?;
                (0..part.len()).for_each(|at| validity.set(done + at, valid.get(at)));
            } else {
                part.read_into(some)?;
            }
            done += part.len();
        }
        match self.dtype.nullable {
            true => Array::with_validity(&values, &validity),
            false => Array::new(&values),
        }
    }
}
