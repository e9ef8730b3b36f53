//! How arrays are made.

use super::Array;
use crate::answers::Answers;
use crate::bitmap::Bitmap;
use crate::error::Error;
use crate::ffi;
use crate::item::Item;
use crate::limits::Limits;
use crate::memory::{gathered, push, reserved};
use std::ptr;

impl Array {
    /// A plain array of these values, without nulls.
    ///
    /// # Errors
    /// `OutOfMemory`; `LibraryVersion` if the linked library is of another version, as every call that makes an array.
    pub fn new<T: Item>(values: &[T]) -> Result<Array, Error> {
        Array::make(|out| unsafe { T::FROM(values.as_ptr(), values.len(), ptr::null(), 0, out) })
    }

    /// A plain array of these values, of which those are null whose bits are not set.
    ///
    /// ```
    /// # use flcol::{Array, Bitmap};
    /// let valid: Bitmap = [true, false, true].into_iter().collect();
    /// let array = Array::with_validity(&[1_i16, 0, -3], &valid)?;
    /// assert_eq!(array.to_options::<i16>()?, [Some(1), None, Some(-3)]);
    /// # Ok::<(), flcol::Error>(())
    /// ```
    ///
    /// # Errors
    /// `ValidityLength` if there is not one bit for each value; `OutOfMemory`.
    pub fn with_validity<T: Item>(values: &[T], validity: &Bitmap) -> Result<Array, Error> {
        if values.len() != validity.len() {
            return Err(Error::ValidityLength);
        }
        let bits = at_least_one_byte(validity.as_bytes());
        Array::make(|out| unsafe { T::FROM(values.as_ptr(), values.len(), bits.as_ptr(), bits.len(), out) })
    }

    /// A plain array of these items, of a nullable type.
    ///
    /// # Errors
    /// `OutOfMemory`.
    pub fn from_options<T: Item>(items: &[Option<T>]) -> Result<Array, Error> {
        let (values, validity) = parts(items)?;
        Array::with_validity(&values, &validity)
    }

    /// A plain array of what an iterator gives: integers, or booleans, or either as options, which make an array of a
    /// nullable type.
    ///
    /// ```
    /// # use flcol::{Array, PType};
    /// let squares = Array::try_from_iter((0..5).map(|i| i * i))?;
    /// assert_eq!(squares.to_vec::<i32>()?, [0, 1, 4, 9, 16]);
    /// let halves = Array::try_from_iter([4_u8, 5, 6].map(|i| (i % 2 == 0).then_some(i / 2)))?;
    /// assert_eq!(halves.to_options::<u8>()?, [Some(2), None, Some(3)]);
    /// assert_eq!(Array::try_from_iter([true, false])?.dtype(), PType::Bool.into());
    /// # Ok::<(), flcol::Error>(())
    /// ```
    ///
    /// # Errors
    /// `OutOfMemory`.
    pub fn try_from_iter<E: Element>(items: impl IntoIterator<Item = E>) -> Result<Array, Error> {
        let items = items.into_iter();
        let mut list = reserved(items.size_hint().0)?;
        for item in items {
            push(&mut list, item)?;
        }
        E::array_of(&list)
    }

    /// A plain array of booleans, without nulls.
    ///
    /// ```
    /// # use flcol::{Array, Bitmap};
    /// let bits: Bitmap = [true, false, true].into_iter().collect();
    /// let array = Array::from_bools(&bits)?;
    /// assert_eq!((array.len(), array.to_answers()?.as_mask()), (3, &bits));
    /// # Ok::<(), flcol::Error>(())
    /// ```
    ///
    /// # Errors
    /// `OutOfMemory`.
    pub fn from_bools(bits: &Bitmap) -> Result<Array, Error> {
        let (bytes, len) = (bits.as_bytes(), bits.len());
        Array::make(|out| unsafe { ffi::flcol_from_bool(bytes.as_ptr(), bytes.len(), len, ptr::null(), 0, out) })
    }

    /// A plain array of these answers as booleans, of a nullable type.
    ///
    /// # Errors
    /// `OutOfMemory`.
    pub fn from_answers(answers: &Answers) -> Result<Array, Error> {
        let (bytes, len) = (answers.as_mask().as_bytes(), answers.len());
        let valid = at_least_one_byte(answers.validity().as_bytes());
        Array::make(|out| unsafe {
            ffi::flcol_from_bool(bytes.as_ptr(), bytes.len(), len, valid.as_ptr(), valid.len(), out)
        })
    }

    /// `len` times the same item, in the memory of one. `None` makes an array of a nullable type.
    ///
    /// # Errors
    /// `OutOfMemory`.
    pub fn constant<T: Item>(item: Option<T>, len: usize) -> Result<Array, Error> {
        Array::make(|out| unsafe { T::CONSTANT(item.unwrap_or_default(), item.is_none().into(), len, out) })
    }

    /// The array of a container, as `to_bytes` or the program `flcol` writes it. The bytes may come from a stranger: any
    /// bytes make an array or an error. An array of few bytes may claim to have any number of items, of which the calls
    /// that need memory for all of them answer `OutOfMemory`.
    ///
    /// # Errors
    /// `BadContainer`, an error of what the container holds, `OutOfMemory`.
    pub fn from_bytes(bytes: &[u8]) -> Result<Array, Error> {
        Array::make(|out| unsafe { ffi::flcol_deserialize(bytes.as_ptr(), bytes.len(), out) })
    }

    /// The same column by a scheme such as `for(bitpacked)`. The words are `primitive`, `constant`, `bitpacked`,
    /// `bitpacked:7`, `blocked`, `for`, `forc`, `forw`, `forcw`, `delta`, `rle` and `dict`; in parentheses stand the
    /// schemes of the children, `_` for a plain one, at most fourteen in one another. What `dict` makes shows as `rle`.
    ///
    /// # Errors
    /// `BadScheme`, `NotInteger`, the errors of the encoding, `OutOfMemory`.
    pub fn encode(&self, scheme: &str) -> Result<Array, Error> {
        Array::make(|out| unsafe { ffi::flcol_encode(self.word(), scheme.as_ptr().cast(), scheme.len(), out) })
    }

    /// The same column by the scheme that takes the fewest bytes.
    ///
    /// ```
    /// # use flcol::Array;
    /// let plain = Array::new(&[1000_u64; 5000])?;
    /// assert!(plain.compress()?.nbytes() < plain.nbytes() / 1000);
    /// # Ok::<(), flcol::Error>(())
    /// ```
    ///
    /// # Errors
    /// `NotInteger`, `OutOfMemory`.
    pub fn compress(&self) -> Result<Array, Error> {
        Array::make(|out| unsafe { ffi::flcol_compress(self.word(), out) })
    }

    /// The same column by the scheme that takes the fewest bytes within limits. Fewer encodings compress faster.
    ///
    /// ```
    /// # use flcol::{Array, Encoding, Limits};
    /// let plain = Array::new(&[3_u16, 1000, 3, 1000, 3].repeat(1000))?;
    /// assert_eq!(plain.compress_within(Limits::of(&[Encoding::Bitpacked]))?.scheme()?, "bitpacked:10");
    /// assert!(plain.compress_within(Limits::default().without(Encoding::Dict))?.nbytes() >= plain.compress()?.nbytes());
    /// # Ok::<(), flcol::Error>(())
    /// ```
    ///
    /// # Errors
    /// `NotInteger`, `OutOfMemory`.
    pub fn compress_within(&self, limits: Limits) -> Result<Array, Error> {
        Array::make(|out| unsafe { ffi::flcol_compress_within(self.word(), limits.encodings(), limits.depth(), out) })
    }
}

/// The bytes of a validity, of which there is one at least: C takes no bytes for no nulls, and a type without them.
pub(super) fn at_least_one_byte(bytes: &[u8]) -> &[u8] {
    if bytes.is_empty() {
        &[0]
    } else {
        bytes
    }
}

/// The values of items, and which of them are valid.
pub(super) fn parts<T: Item>(items: &[Option<T>]) -> Result<(Vec<T>, Bitmap), Error> {
    let values = gathered(items.iter().map(|item| item.unwrap_or_default()))?;
    Ok((values, bitmap(items, Option::is_some)?))
}

/// What arrays are made of: an integer of a type of items or a boolean, or an option of either, of which `None` is a null.
/// No other crate can add a type.
pub trait Element: Sized + elements::Listed {}

mod elements {
    use super::{Array, Error};

    pub trait Listed: Sized {
        /// A plain array of these items.
        fn array_of(items: &[Self]) -> Result<Array, Error>;
    }
}

impl<E: elements::Listed> Element for E {}

impl<T: Item> elements::Listed for T {
    fn array_of(items: &[T]) -> Result<Array, Error> {
        Array::new(items)
    }
}

impl<T: Item> elements::Listed for Option<T> {
    fn array_of(items: &[Option<T>]) -> Result<Array, Error> {
        Array::from_options(items)
    }
}

impl elements::Listed for bool {
    fn array_of(items: &[bool]) -> Result<Array, Error> {
        Array::from_bools(&bitmap(items, |item| *item)?)
    }
}

impl elements::Listed for Option<bool> {
    fn array_of(items: &[Option<bool>]) -> Result<Array, Error> {
        let bits = bitmap(items, |item| *item == Some(true))?;
        Array::from_answers(&Answers::new(bits, bitmap(items, Option::is_some)?)?)
    }
}

/// A bit for each item.
fn bitmap<I>(items: &[I], bit: impl Fn(&I) -> bool) -> Result<Bitmap, Error> {
    let mut bitmap = Bitmap::try_zeros(items.len())?;
    for (index, item) in items.iter().enumerate() {
        bitmap.set(index, bit(item));
    }
    Ok(bitmap)
}

macro_rules! conversions {
    ($(($($parameters:tt)+) $list:ty;)+) => {
        $(impl<$($parameters)+> TryFrom<$list> for Array {
            type Error = Error;

            /// A plain array of these items, with nulls where they are options.
            fn try_from(items: $list) -> Result<Array, Error> {
                E::array_of(&items[..])
            }
        })+
    };
}

conversions! {
    (E: Element) &[E];
    (E: Element) Vec<E>;
    (E: Element) &Vec<E>;
    (E: Element, const N: usize) [E; N];
    (E: Element, const N: usize) &[E; N];
}

impl TryFrom<&Bitmap> for Array {
    type Error = Error;

    fn try_from(bits: &Bitmap) -> Result<Array, Error> {
        Array::from_bools(bits)
    }
}

impl TryFrom<&Answers> for Array {
    type Error = Error;

    fn try_from(answers: &Answers) -> Result<Array, Error> {
        Array::from_answers(answers)
    }
}
