//! Arrays.

mod aggregate;
mod compare;
mod make;
mod read;
mod search;
mod select;
mod under;

pub(crate) use compare::ends;
pub use make::Element;
pub use search::Sorted;

use crate::error::{checked, Error};
use crate::ffi::{self, Handle};
use crate::memory::written;
use crate::types::DType;
use std::cell::UnsafeCell;
use std::fmt;
use std::ptr;

/// A column of nullable integers or booleans in an encoding.
///
/// Each call that makes an array makes a new one; arrays don't change.
///
/// ```
/// use flcol::{Array, Op};
///
/// let times: Vec<u64> = (0..10_000).map(|i| 1_700_000_000_000 + 40 * i).collect();
/// let array = Array::new(&times)?.encode("for(bitpacked)")?;
/// assert_eq!(array.slice(17..20)?.to_vec::<u64>()?, times[17..20]);
///
/// let early = array.compare(Op::Lt, 1_700_000_000_100_u64)?;
/// assert_eq!(array.filter(early.as_mask())?.len(), 3);
/// # Ok::<(), flcol::Error>(())
/// ```
///
/// An array may go to another thread, also away from arrays that share what is packed with it. Two threads can't ask one
/// array at the same time:
///
/// ```
/// let array = flcol::Array::new(&[1_u8, 2, 3])?.encode("bitpacked")?;
/// let part = array.slice(1..)?;
/// let read = std::thread::spawn(move || part.to_vec::<u8>());
/// assert_eq!((array.get::<u8>(0)?, read.join().unwrap()?), (Some(1), vec![2, 3]));
/// # Ok::<(), flcol::Error>(())
/// ```
///
/// ```compile_fail
/// let array = flcol::Array::new(&[1_u8, 2, 3]).unwrap();
/// std::thread::scope(|scope| scope.spawn(|| array.len()).join().unwrap());
/// ```
#[repr(transparent)]
pub struct Array {
    handle: UnsafeCell<Handle>,
}

// SAFETY: the library proves it of the handle, and each call has the array alone, since an `Array` is not `Sync`.
unsafe impl Send for Array {}

impl Drop for Array {
    fn drop(&mut self) {
        // SAFETY: the word is held or null, and no one has it from here on.
        unsafe { ffi::flcol_free(self.handle.get()) }
    }
}

impl Array {
    /// The array as a container, which can be kept in a file.
    ///
    /// # Errors
    /// `BadContainer` if it has none, as where more than sixteen arrays stand in one another; `OutOfMemory`.
    pub fn to_bytes(&self) -> Result<Vec<u8>, Error> {
        let len = self.serialized_len()?;
        let mut all = 0;
        // SAFETY: the call writes exactly so many bytes.
        unsafe { written(len, |bytes| ffi::flcol_serialize(self.word(), bytes, len, &mut all)) }
    }

    /// How many bytes the container has.
    pub(crate) fn serialized_len(&self) -> Result<usize, Error> {
        self.ask(|array, len| unsafe { ffi::flcol_serialized_len(array, len) })
    }

    /// How many bytes all buffers of the array take.
    pub fn nbytes(&self) -> u64 {
        self.ask(|array, bytes| unsafe { ffi::flcol_nbytes(array, bytes) }).expect("an array is held")
    }

    /// How many items there are. A container of few bytes may say any number.
    pub fn len(&self) -> usize {
        self.ask(|array, len| unsafe { ffi::flcol_len(array, len) }).expect("an array is held")
    }

    /// Whether there are no items.
    pub fn is_empty(&self) -> bool {
        self.len() == 0
    }

    /// The type of the items.
    pub fn dtype(&self) -> DType {
        let number = self.ask(|array, dtype| unsafe { ffi::flcol_dtype(array, dtype) });
        number.and_then(DType::of).expect("an array has a type")
    }

    /// What the array is, as the text of a scheme: the words of [`Array::encode`], but that a width is always said, that
    /// `forw` and `forcw` are read as `for` and `forc`, and that `forc` is `for` where one reference serves all chunks.
    /// It is printed so too.
    ///
    /// ```
    /// # use flcol::Array;
    /// let array = Array::new(&[40_u32, 41, 47])?.encode("forw(bitpacked)")?;
    /// assert_eq!(array.scheme()?, "for(bitpacked:3)");
    /// assert_eq!(array.to_string(), array.scheme()?);
    /// # Ok::<(), flcol::Error>(())
    /// ```
    ///
    /// # Errors
    /// `NotInteger`, `OutOfMemory`.
    pub fn scheme(&self) -> Result<String, Error> {
        let len = self.ask(|array, len| unsafe { ffi::flcol_scheme_len(array, len) })?;
        // SAFETY: the call writes exactly so many bytes.
        let text = unsafe { written(len, |text: *mut u8| ffi::flcol_scheme(self.word(), text.cast(), len)) }?;
        Ok(String::from_utf8(text).expect("a scheme is ASCII"))
    }

    /// How many items are null.
    ///
    /// # Errors
    /// `OutOfMemory`.
    pub fn null_count(&self) -> Result<usize, Error> {
        self.ask(|array, count| unsafe { ffi::flcol_null_count(array, count) })
    }

    /// Whether all items are equal, a null to a null.
    ///
    /// # Errors
    /// `NotInteger`, `OutOfMemory`.
    pub fn is_constant(&self) -> Result<bool, Error> {
        Ok(self.ask(|array, answer: *mut u8| unsafe { ffi::flcol_is_constant(array, answer) })? != 0)
    }

    /// Whether no item is above the next; a null is below every integer.
    ///
    /// # Errors
    /// `NotInteger`, `OutOfMemory`.
    pub fn is_sorted(&self) -> Result<bool, Error> {
        Ok(self.ask(|array, answer: *mut u8| unsafe { ffi::flcol_is_sorted(array, 0, answer) })? != 0)
    }

    /// Whether each item is below the next; a null is below every integer.
    ///
    /// # Errors
    /// `NotInteger`, `OutOfMemory`.
    pub fn is_strictly_sorted(&self) -> Result<bool, Error> {
        Ok(self.ask(|array, answer: *mut u8| unsafe { ffi::flcol_is_sorted(array, 1, answer) })? != 0)
    }

    /// The word by its address, for one call.
    pub(crate) fn word(&self) -> *mut Handle {
        self.handle.get()
    }

    /// Whether there is an array behind the word, as everywhere but at the end of a stream.
    #[cfg(feature = "arrow")]
    pub(crate) fn is_held(&self) -> bool {
        // SAFETY: no call is at work on the word.
        unsafe { !(*self.word()).at.is_null() }
    }

    /// The array that a call makes.
    pub(crate) fn make(call: impl FnOnce(*mut Handle) -> i32) -> Result<Array, Error> {
        let array = Array::unmade();
        checked(|| call(array.word()))?;
        Ok(array)
    }

    /// A word behind which there is no array yet.
    fn unmade() -> Array {
        Array { handle: UnsafeCell::new(Handle { at: ptr::null_mut() }) }
    }

    /// The number that a call writes.
    fn ask<V: Default>(&self, call: impl FnOnce(*mut Handle, *mut V) -> i32) -> Result<V, Error> {
        let mut value = V::default();
        checked(|| call(self.word(), &mut value))?;
        Ok(value)
    }
}

/// Calls a method at the type of an array's items. Booleans are refused.
macro_rules! at_item_type {
    ($array:ident.$method:ident($($argument:expr),*)) => {
        match $array.dtype().ptype {
            PType::U8 => $array.$method::<u8>($($argument),*),
            PType::U16 => $array.$method::<u16>($($argument),*),
            PType::U32 => $array.$method::<u32>($($argument),*),
            PType::U64 => $array.$method::<u64>($($argument),*),
            PType::I8 => $array.$method::<i8>($($argument),*),
            PType::I16 => $array.$method::<i16>($($argument),*),
            PType::I32 => $array.$method::<i32>($($argument),*),
            PType::I64 => $array.$method::<i64>($($argument),*),
            PType::Bool => Err(Error::NotInteger),
        }
    };
}

pub(crate) use at_item_type;

/// The scheme, or `bool` of booleans, which no scheme makes.
impl fmt::Display for Array {
    fn fmt(&self, f: &mut fmt::Formatter<'_>) -> fmt::Result {
        match self.scheme() {
            Ok(scheme) => f.pad(&scheme),
            Err(Error::NotInteger) => f.pad("bool"),
            Err(_) => Err(fmt::Error),
        }
    }
}

/// The type and the length.
impl fmt::Debug for Array {
    fn fmt(&self, f: &mut fmt::Formatter<'_>) -> fmt::Result {
        write!(f, "Array({}, {})", self.dtype(), self.len())
    }
}
