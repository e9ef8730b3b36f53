//! Columns of Arrow, by its C Data Interface and its C Stream Interface: the three structs, which any library of Arrow
//! takes and gives. With the feature `arrow`.
//!
//! ```
//! use flcol::Array;
//!
//! let array = Array::try_from([Some(3_u32), None])?.encode("for(bitpacked)")?;
//! let (values, schema) = array.to_arrow()?;
//! assert_eq!((schema.format(), schema.is_nullable()), (Some(c"I"), true));
//! assert_eq!((values.len(), values.null_count()), (2, Some(1)));
//! // SAFETY: the schema is that of the values.
//! let again = unsafe { Array::from_arrow(values, schema) }?;
//! assert!(again.equals(&array)?);
//! # Ok::<(), flcol::Error>(())
//! ```
//!
//! A struct of another crate is of the same bytes: it is taken from its address by `from_raw`, and that crate takes one of
//! these from its address in the same way.

use crate::array::Array;
use crate::error::{checked, Error};
use crate::ffi;
use std::ffi::{c_char, c_int, c_void, CStr};
use std::iter::FusedIterator;
use std::{fmt, mem, ptr};

/// The type of a column of Arrow. It is released when it is dropped.
#[repr(C)]
pub struct ArrowSchema {
    format: *const c_char,
    name: *const c_char,
    metadata: *const c_char,
    flags: i64,
    n_children: i64,
    children: *mut *mut ArrowSchema,
    dictionary: *mut ArrowSchema,
    release: Option<unsafe extern "C" fn(*mut ArrowSchema)>,
    private_data: *mut c_void,
}

/// A column of Arrow. It is released when it is dropped.
#[repr(C)]
pub struct ArrowArray {
    length: i64,
    null_count: i64,
    offset: i64,
    n_buffers: i64,
    n_children: i64,
    buffers: *mut *const c_void,
    children: *mut *mut ArrowArray,
    dictionary: *mut ArrowArray,
    release: Option<unsafe extern "C" fn(*mut ArrowArray)>,
    private_data: *mut c_void,
}

/// Columns of Arrow of one type, one after another. It is released when it is dropped.
///
/// As an iterator it gives the columns as arrays; at the end and behind an error it is released, so that nothing follows.
///
/// ```
/// use flcol::arrow::ArrowArrayStream;
/// use flcol::Array;
///
/// let chunks = vec![Array::try_from([1_i64, 2])?, Array::try_from([3_i64])?];
/// let stream = ArrowArrayStream::new(chunks)?;
/// let lengths = stream.map(|chunk| Ok(chunk?.len())).collect::<Result<Vec<_>, flcol::Error>>()?;
/// assert_eq!(lengths, [2, 1]);
/// # Ok::<(), flcol::Error>(())
/// ```
#[repr(C)]
pub struct ArrowArrayStream {
    get_schema: Option<unsafe extern "C" fn(*mut ArrowArrayStream, *mut ArrowSchema) -> c_int>,
    get_next: Option<unsafe extern "C" fn(*mut ArrowArrayStream, *mut ArrowArray) -> c_int>,
    get_last_error: Option<unsafe extern "C" fn(*mut ArrowArrayStream) -> *const c_char>,
    release: Option<unsafe extern "C" fn(*mut ArrowArrayStream)>,
    private_data: *mut c_void,
}

/// Writes what the three structs have in common.
macro_rules! structs {
    ($($name:ident),+) => {
        $(
            // SAFETY: the interface ties a struct to no thread, and two can't use it at once, since it is not `Sync`.
            unsafe impl Send for $name {}

            impl $name {
                /// One that has been released, into which C can write another.
                pub fn empty() -> $name {
                    // SAFETY: numbers, pointers that may be null, and functions that may be absent.
                    unsafe { mem::zeroed() }
                }

                /// Takes the one at an address, and marks it there as moved away.
                ///
                /// # Safety
                /// It is one by Arrow's interface: it keeps what that says as long as it is not released. It may be
                /// released already.
                pub unsafe fn from_raw(at: *mut $name) -> $name {
                    let taken = ptr::read(at);
                    (*at).release = None;
                    taken
                }

                /// Writes this one to an address, whose user has to release it. What stood there is not released.
                ///
                /// # Safety
                /// There is memory for one, which may be written.
                pub unsafe fn into_raw(self, at: *mut $name) {
                    ptr::write(at, self);
                }

                /// Whether it has been released, or moved away.
                pub fn is_released(&self) -> bool {
                    self.release.is_none()
                }
            }

            impl Drop for $name {
                fn drop(&mut self) {
                    if let Some(release) = self.release {
                        // SAFETY: it has not been released, and no one has it from here on.
                        unsafe { release(self) }
                    }
                }
            }

            /// One that has been released.
            impl Default for $name {
                fn default() -> $name {
                    $name::empty()
                }
            }
        )+
    };
}

structs!(ArrowSchema, ArrowArray, ArrowArrayStream);

/// What `ArrowSchema` says of nulls.
const NULLABLE: i64 = 2;

impl ArrowSchema {
    /// The text of the type, as `I` of `u32`; `None` of a released one.
    pub fn format(&self) -> Option<&CStr> {
        // SAFETY: a schema that is not released has a text, which ends in a 0.
        (!self.is_released()).then(|| unsafe { CStr::from_ptr(self.format) })
    }

    /// Whether items may be null.
    pub fn is_nullable(&self) -> bool {
        self.flags & NULLABLE != 0
    }
}

impl ArrowArray {
    /// How many items there are.
    #[allow(clippy::len_without_is_empty)]
    pub fn len(&self) -> i64 {
        self.length
    }

    /// How many items are null, if that has been counted.
    pub fn null_count(&self) -> Option<i64> {
        (self.null_count >= 0).then_some(self.null_count)
    }
}

impl Array {
    /// The column as an array of Arrow, decoded into memory of its own, and its type.
    ///
    /// # Errors
    /// `OutOfMemory`.
    pub fn to_arrow(&self) -> Result<(ArrowArray, ArrowSchema), Error> {
        let (mut array, mut schema) = (ArrowArray::empty(), ArrowSchema::empty());
        checked(|| unsafe { ffi::flcol_export_arrow(self.word(), &mut array, &mut schema) })?;
        Ok((array, schema))
    }

    /// A plain array of what an array of Arrow holds, integers or booleans, which is copied. It is of a nullable type
    /// where the schema is, or an item is null. Both structs are released.
    ///
    /// # Safety
    /// The schema is that of the array.
    ///
    /// # Errors
    /// `NoArray` if one of them has been released; `WrongType` if the items are neither integers nor booleans;
    /// `BufferCount`, `WrongLength` and `ValidityLength` if the array is not sound; `OutOfMemory`.
    pub unsafe fn from_arrow(mut array: ArrowArray, mut schema: ArrowSchema) -> Result<Array, Error> {
        Array::make(|out| ffi::flcol_import_arrow(&mut array, &mut schema, out))
    }
}

impl ArrowArrayStream {
    /// A stream of arrays, each of which is decoded when it is asked for.
    ///
    /// # Errors
    /// `NoArray` if there is none; `TypeMismatch` if they are not of one type, but that only some may be nullable;
    /// `OutOfMemory`.
    pub fn new(mut arrays: Vec<Array>) -> Result<ArrowArrayStream, Error> {
        let mut stream = ArrowArrayStream::empty();
        // An array is the word by which C holds it, and the words are empty where the stream has taken the arrays.
        let words = arrays.as_mut_ptr().cast();
        checked(|| unsafe { ffi::flcol_export_arrow_stream(words, arrays.len(), &mut stream) })?;
        Ok(stream)
    }

    /// The type of the columns, which need not be integers or booleans.
    ///
    /// # Errors
    /// `Stream` if the stream fails, or has been released.
    pub fn schema(&mut self) -> Result<ArrowSchema, Error> {
        let get_schema = self.get_schema.filter(|_| !self.is_released()).ok_or(Error::Stream)?;
        let mut schema = ArrowSchema::empty();
        // SAFETY: a stream that is not released writes a schema, or nothing where it fails.
        match unsafe { get_schema(self, &mut schema) } {
            0 => Ok(schema),
            _ => Err(Error::Stream),
        }
    }

    /// The next array of integers or booleans, which is copied; `None` at the end, or of a released stream.
    ///
    /// # Errors
    /// `Stream` if the stream fails; those of [`Array::from_arrow`]. Then nothing more should be asked of it but what
    /// failed.
    pub fn next_array(&mut self) -> Result<Option<Array>, Error> {
        if self.is_released() {
            return Ok(None);
        }
        let array = Array::make(|out| unsafe { ffi::flcol_import_arrow_stream(self, out) })?;
        Ok(array.is_held().then_some(array))
    }

    /// What the stream says of its last failure.
    pub fn last_error(&mut self) -> Option<String> {
        let get_last_error = self.get_last_error.filter(|_| !self.is_released())?;
        // SAFETY: a stream that is not released says null or a text, which stands until the next call.
        unsafe {
            let text = get_last_error(self);
            (!text.is_null()).then(|| CStr::from_ptr(text).to_string_lossy().into_owned())
        }
    }
}

impl Iterator for ArrowArrayStream {
    type Item = Result<Array, Error>;

    fn next(&mut self) -> Option<Result<Array, Error>> {
        let next = self.next_array().transpose();
        if !matches!(next, Some(Ok(_))) {
            *self = ArrowArrayStream::empty();
        }
        next
    }
}

impl FusedIterator for ArrowArrayStream {}

impl TryFrom<Vec<Array>> for ArrowArrayStream {
    type Error = Error;

    fn try_from(arrays: Vec<Array>) -> Result<ArrowArrayStream, Error> {
        ArrowArrayStream::new(arrays)
    }
}

/// The text of the type, and whether there may be nulls.
impl fmt::Debug for ArrowSchema {
    fn fmt(&self, f: &mut fmt::Formatter<'_>) -> fmt::Result {
        write!(f, "ArrowSchema({:?}, nullable: {})", self.format(), self.is_nullable())
    }
}

/// The length and how many items are null.
impl fmt::Debug for ArrowArray {
    fn fmt(&self, f: &mut fmt::Formatter<'_>) -> fmt::Result {
        write!(f, "ArrowArray({}, nulls: {:?})", self.length, self.null_count())
    }
}

/// Whether it has been released.
impl fmt::Debug for ArrowArrayStream {
    fn fmt(&self, f: &mut fmt::Formatter<'_>) -> fmt::Result {
        write!(f, "ArrowArrayStream(released: {})", self.is_released())
    }
}
