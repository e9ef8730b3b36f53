//! Files of chunks that are written.

use super::joined::concatenated;
use super::records::added;
use super::File;
use crate::array::{Array, Element};
use crate::error::{checked, Error};
use crate::ffi;
use crate::limits::Limits;
use crate::memory::{filled, gathered, push};
use crate::types::{DType, PType};
use std::fmt;
use std::io::{self, Write};

/// What a file of chunks begins with.
const FILE_MARK: &[u8] = b"FLC2";
/// How many items a chunk has if nothing else is said.
const CHUNK: usize = 65_536;
/// The bytes that a foot has at most, with the zeros before it, beside those of its chunks and for each of them.
const FOOT_ROOM: (usize, usize) = (91, 96);

/// Why a file is not written.
#[derive(Debug)]
pub enum WriteError {
    /// A write failed, after which nothing more is written.
    Io(io::Error),
    /// The library's error. Nothing of it was written.
    Column(Error),
}

impl From<io::Error> for WriteError {
    fn from(error: io::Error) -> WriteError {
        WriteError::Io(error)
    }
}

impl From<Error> for WriteError {
    fn from(error: Error) -> WriteError {
        WriteError::Column(error)
    }
}

impl fmt::Display for WriteError {
    fn fmt(&self, f: &mut fmt::Formatter<'_>) -> fmt::Result {
        match self {
            WriteError::Io(error) => error.fmt(f),
            WriteError::Column(error) => error.fmt(f),
        }
    }
}

impl std::error::Error for WriteError {
    fn source(&self) -> Option<&(dyn std::error::Error + 'static)> {
        match self {
            WriteError::Io(error) => Some(error),
            WriteError::Column(error) => Some(error),
        }
    }
}

/// Writes a column as a file of chunks, of which one is in memory at a time. Without [`Writer::finish`] what is written is
/// no file.
///
/// ```
/// use flcol::{Array, File, PType, Writer};
///
/// let mut writer = Writer::new(Vec::new(), PType::I16.nullable())?;
/// writer.extend([Some(1999), None, Some(2005)])?;
/// writer.append(&Array::from_options(&[Some(7_i16), None])?.encode("for(bitpacked)")?)?;
/// let bytes = writer.finish()?;
/// assert_eq!(File::new(&bytes)?.slice(1..)?.to_options::<i16>()?, [None, Some(2005), Some(7), None]);
/// # Ok::<(), flcol::WriteError>(())
/// ```
///
/// Who writes to a path, and may be stopped, writes beside it, and puts the file there by [`std::fs::rename`] after
/// [`std::fs::File::sync_all`]. [`Writer::resume`] adds to a file that is there: until it is finished,
/// [`File::recovered`] finds the column that was there before.
pub struct Writer<W> {
    sink: W,
    /// How many bytes the file has.
    place: u64,
    dtype: DType,
    records: Vec<ffi::Chunk>,
    chunk: usize,
    limits: Limits,
    /// Items that are not yet a chunk.
    rest: Option<Array>,
    has_failed: bool,
}

impl<W: Write> Writer<W> {
    /// A writer of a new file, to where nothing has been written, of a type of integers.
    ///
    /// # Errors
    /// `NotInteger`, and those of the sink.
    pub fn new(sink: W, dtype: impl Into<DType>) -> Result<Writer<W>, WriteError> {
        let dtype = dtype.into();
        if dtype.ptype == PType::Bool {
            return Err(Error::NotInteger.into());
        }
        let mut writer = Writer::at(sink, 0, dtype, Vec::new());
        writer.write(FILE_MARK)?;
        Ok(writer)
    }

    /// A writer that adds chunks to a file, whose bytes stay as they are. What is written belongs behind all bytes of the
    /// file, also behind those which lost their end, and the file must be as [`File`] found it.
    ///
    /// ```
    /// use flcol::{File, PType, Writer};
    ///
    /// let mut writer = Writer::new(Vec::new(), PType::U8)?;
    /// writer.extend([1_u8, 2])?;
    /// let mut bytes = writer.finish()?;
    /// let more = {
    ///     let mut writer = Writer::resume(Vec::new(), &File::new(&bytes)?)?;
    ///     writer.extend([3_u8])?;
    ///     writer.finish()?
    /// };
    /// bytes.extend(more);
    /// assert_eq!(File::new(&bytes)?.slice(..)?.to_vec::<u8>()?, [1, 2, 3]);
    /// # Ok::<(), flcol::WriteError>(())
    /// ```
    ///
    /// # Errors
    /// `BadMark` of a container, `OutOfMemory`.
    pub fn resume<B: AsRef<[u8]>>(sink: W, file: &File<B>) -> Result<Writer<W>, WriteError> {
        if file.is_container {
            return Err(Error::BadMark.into());
        }
        let records = gathered(file.records.iter().copied())?;
        Ok(Writer::at(sink, file.bytes.as_ref().len() as u64, file.dtype, records))
    }

    fn at(sink: W, place: u64, dtype: DType, records: Vec<ffi::Chunk>) -> Writer<W> {
        Writer { sink, place, dtype, records, chunk: CHUNK, limits: Limits::default(), rest: None, has_failed: false }
    }

    /// The same with so many items to a chunk of [`Writer::extend`], one at least; 65,536 if nothing is said.
    #[must_use]
    pub fn with_chunk(self, items: usize) -> Writer<W> {
        Writer { chunk: items.max(1), ..self }
    }

    /// The same whose chunks of [`Writer::extend`] are compressed within limits.
    #[must_use]
    pub fn with_limits(self, limits: Limits) -> Writer<W> {
        Writer { limits, ..self }
    }

    /// Writes an array as a chunk, as it is encoded; of no items, nothing. Items that were gathered before are a chunk before
    /// it. Where the file's type is the array's with nulls, it is cast.
    ///
    /// # Errors
    /// `TypeMismatch`, `BadContainer` if the array has none, `FileTooLong`, `OutOfMemory`, and those of the sink.
    pub fn append(&mut self, array: &Array) -> Result<(), WriteError> {
        let dtype = array.dtype();
        if dtype.ptype != self.dtype.ptype || dtype.nullable && !self.dtype.nullable {
            return Err(Error::TypeMismatch.into());
        }
        self.flush()?;
        match dtype == self.dtype {
            true => self.write_chunk(array),
            false => self.write_chunk(&array.cast(self.dtype)?),
        }
    }

    /// Adds items, or options of them, which are gathered to chunks and compressed. They have to fit the type of the file:
    /// at the first that doesn't an error is returned, and those before it may have been added.
    ///
    /// # Errors
    /// `CastOutOfRange`, `CastNull`, `NotInteger` of booleans, `FileTooLong`, `OutOfMemory`, and those of the sink.
    pub fn extend<E: Element>(&mut self, items: impl IntoIterator<Item = E>) -> Result<(), WriteError> {
        let mut items = items.into_iter();
        loop {
            let room = self.chunk - self.rest.as_ref().map_or(0, Array::len);
            let mut some = Vec::new();
            for item in items.by_ref().take(room) {
                push(&mut some, item)?;
            }
            if some.is_empty() {
                return Ok(());
            }
            let is_full = some.len() == room;
            let part = E::array_of(&some)?.cast(self.dtype)?;
            self.rest = Some(match self.rest.take() {
                Some(rest) => concatenated(vec![rest, part], self.dtype)?,
                None => part,
            });
            if is_full {
                self.flush()?;
            }
        }
    }

    /// Makes a chunk of the items that were gathered.
    ///
    /// # Errors
    /// `FileTooLong`, `OutOfMemory`, and those of the sink.
    pub fn flush(&mut self) -> Result<(), WriteError> {
        if let Some(rest) = &self.rest {
            let chunk = rest.compress_within(self.limits)?;
            self.write_chunk(&chunk)?;
            self.rest = None;
        }
        Ok(())
    }

    /// Writes the items that were gathered and the foot, flushes the sink, and gives it back.
    ///
    /// # Errors
    /// `FileTooLong`, `OutOfMemory`, and those of the sink.
    pub fn finish(mut self) -> Result<W, WriteError> {
        self.flush()?;
        let (records, (more, each)) = (&self.records, FOOT_ROOM);
        let room = records.len().checked_mul(each).and_then(|all| all.checked_add(more)).ok_or(Error::OutOfMemory)?;
        let (mut bytes, mut len, dtype) = (filled(0_u8, room)?, 0, self.dtype.number());
        checked(|| unsafe {
            let (chunks, count) = (records.as_ptr(), records.len());
            ffi::flcol_file_finish(dtype, chunks, count, self.place, bytes.as_mut_ptr(), room, &mut len)
        })?;
        self.write(&bytes[..len])?;
        self.sink.flush()?;
        Ok(self.sink)
    }

    fn write_chunk(&mut self, array: &Array) -> Result<(), WriteError> {
        if array.is_empty() {
            return Ok(());
        }
        let (bytes, record) = added(array, self.place)?;
        self.records.try_reserve(1).map_err(|_| Error::OutOfMemory)?;
        self.write(&bytes)?;
        self.records.push(record);
        Ok(())
    }

    /// Writes bytes. After a failure it is not known how many were, and none are written.
    fn write(&mut self, bytes: &[u8]) -> Result<(), WriteError> {
        if self.has_failed {
            return Err(io::Error::other("a write failed before").into());
        }
        self.has_failed = true;
        self.sink.write_all(bytes)?;
        self.has_failed = false;
        self.place += bytes.len() as u64;
        Ok(())
    }
}

/// The type, the items that are chunks, and how many these are.
impl<W> fmt::Debug for Writer<W> {
    fn fmt(&self, f: &mut fmt::Formatter<'_>) -> fmt::Result {
        let len: u128 = self.records.iter().map(|record| u128::from(record.len)).sum();
        write!(f, "Writer({}, {len} in {} chunks)", self.dtype, self.records.len())
    }
}
