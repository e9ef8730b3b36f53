//! What a file says of its chunks.

use crate::array::Array;
use crate::error::{checked, Error};
use crate::ffi;
use crate::memory::written;
use crate::types::{DType, PType};

/// What a file says of a chunk: where its bytes lie, and its statistics.
#[derive(Clone, Copy, Debug, PartialEq, Eq)]
#[non_exhaustive]
pub struct FileChunk {
    /// Where its bytes begin in the file.
    pub offset: u64,
    /// How many bytes it has.
    pub size: u64,
    /// How many items it has.
    pub len: u64,
    /// How many of them are null.
    pub null_count: u64,
    /// The least and the greatest item that isn't null, `None` if each is.
    pub min_max: Option<(i128, i128)>,
    /// The sum of the items that aren't null.
    pub sum: i128,
    /// Whether no item is above the next; a null is below every integer.
    pub is_sorted: bool,
}

impl FileChunk {
    /// What is true of a container's array.
    pub(super) fn of_container(content: &[u8]) -> Result<FileChunk, Error> {
        let array = Array::from_bytes(content)?;
        Ok(FileChunk {
            offset: 0,
            size: content.len() as u64,
            len: array.len() as u64,
            null_count: array.null_count()? as u64,
            min_max: array.extremes()?,
            sum: array.exact_sum()?,
            is_sorted: array.is_sorted()?,
        })
    }

    pub(super) fn of(record: &ffi::Chunk) -> FileChunk {
        let extremes = (integer_of(record.least), integer_of(record.greatest));
        FileChunk {
            offset: record.offset,
            size: record.size,
            len: record.len,
            null_count: record.null_count,
            min_max: (record.null_count < record.len).then_some(extremes),
            sum: integer_of(record.sum),
            is_sorted: record.is_sorted != 0,
        }
    }
}

pub(super) fn integer_of(words: ffi::Integer) -> i128 {
    i128::from(words.high) << 64 | i128::from(words.low)
}

pub(super) fn words_of(integer: i128) -> ffi::Integer {
    ffi::Integer { low: integer as u64, high: (integer >> 64) as i64 }
}

/// The type and the chunks that the foot of a file says.
pub(super) fn of_file(content: &[u8]) -> Result<(DType, Vec<ffi::Chunk>), Error> {
    let (bytes, len) = (content.as_ptr(), content.len());
    let (mut number, mut count) = (0, 0);
    checked(|| unsafe { ffi::flcol_file_look(bytes, len, &mut number, &mut count) })?;
    // SAFETY: the call writes so many records.
    let records = unsafe { written(count, |chunks| ffi::flcol_file_chunks(bytes, len, chunks, count)) }?;
    Ok((DType::of(number)?, records))
}

/// The type of a container's array of integers, and its length as that of one chunk.
pub(super) fn of_container(content: &[u8]) -> Result<(DType, Vec<ffi::Chunk>), Error> {
    let array = Array::from_bytes(content)?;
    if array.dtype().ptype == PType::Bool {
        return Err(Error::NotInteger);
    }
    Ok((array.dtype(), vec![ffi::Chunk { len: array.len() as u64, ..ffi::Chunk::default() }]))
}

/// The bytes to add to a file of a length for an array, and what the foot is to say of them.
pub(super) fn added(array: &Array, place: u64) -> Result<(Vec<u8>, ffi::Chunk), Error> {
    let room = array.serialized_len()?.checked_add(63).ok_or(Error::OutOfMemory)?;
    let mut bytes = crate::memory::filled(0_u8, room)?;
    let (mut len, mut chunk) = (0, ffi::Chunk::default());
    let word = array.word();
    checked(|| unsafe { ffi::flcol_file_append(word, place, bytes.as_mut_ptr(), room, &mut len, &mut chunk) })?;
    bytes.truncate(len);
    Ok((bytes, chunk))
}
