//! Files of chunks.

mod joined;
mod records;
mod write;

pub use records::FileChunk;
pub use write::{WriteError, Writer};

use crate::array::Array;
use crate::error::{checked, Error};
use crate::ffi;
use crate::item::{Integer, Item};
use crate::memory::{gathered, reserved, written};
use crate::types::{DType, Op};
use joined::concatenated;
use records::{integer_of, words_of};
use std::fmt;
use std::ops::{Bound, RangeBounds};

/// What a container begins with.
const CONTAINER_MARK: &[u8] = b"FLC1";
/// What the statistics of a chunk say of a test: that no item passes.
const SKIP: u8 = 0;

/// A column in a file of chunks, which is read as far as an answer needs it. The file is whatever has its bytes: a list, a
/// slice, or a map into memory of another crate. A container is read as a file of one chunk.
///
/// ```
/// use flcol::{Array, File, Op, PType, Writer};
///
/// let mut writer = Writer::new(Vec::new(), PType::U32)?.with_chunk(1000);
/// writer.extend((0..10_000_u32).map(|i| i / 7))?;
/// let bytes = writer.finish()?;
///
/// let file = File::new(&bytes)?;
/// assert_eq!((file.len(), file.chunk_count(), file.min_max()?), (10_000, 10, Some((0, 1428))));
/// assert_eq!(file.count_where(Op::Lt, 100)?, 700);
/// assert_eq!(file.slice(4000..4003)?.to_vec::<u32>()?, [571, 571, 571]);
/// # Ok::<(), flcol::WriteError>(())
/// ```
///
/// The length, the counts, the sum, the least and the greatest item stand in the foot of the file, and a test reads the chunks
/// alone of which the foot does not say that no item passes, or that each does. All that is believed: checksums find what was
/// changed by accident, and only [`File::verify`] finds what somebody wrote there on purpose.
pub struct File<B> {
    bytes: B,
    /// How many of the bytes are a file: all, but of one whose end is lost.
    end: usize,
    dtype: DType,
    records: Vec<ffi::Chunk>,
    /// The index of the first item behind each chunk.
    ends: Vec<u64>,
    is_container: bool,
}

impl<B: AsRef<[u8]>> File<B> {
    /// The file of these bytes. The foot alone is read, of a container all.
    ///
    /// # Errors
    /// `FileTooShort`, `BadMark`, `BadFootLength`, `BadFootChecksum`, `BadField`, `BadPlace`; `LengthOverflow` if there are 2^64
    /// items or more; of a container the errors of [`Array::from_bytes`], and `NotInteger`; `OutOfMemory`.
    pub fn new(bytes: B) -> Result<File<B>, Error> {
        let end = bytes.as_ref().len();
        File::up_to(bytes, end)
    }

    /// The longest beginning of these bytes that is a file: the column that was there before bytes were added to the file which
    /// lost their end.
    ///
    /// # Errors
    /// `FileTooShort`, `BadMark` if there is none, and those of [`File::new`].
    pub fn recovered(bytes: B) -> Result<File<B>, Error> {
        let (all, mut end) = (bytes.as_ref(), bytes.as_ref().len());
        if !all.starts_with(CONTAINER_MARK) {
            checked(|| unsafe { ffi::flcol_file_recover(all.as_ptr(), all.len(), &mut end) })?;
        }
        File::up_to(bytes, end)
    }

    fn up_to(bytes: B, end: usize) -> Result<File<B>, Error> {
        let content = &bytes.as_ref()[..end];
        let is_container = content.starts_with(CONTAINER_MARK);
        let (dtype, records) = if is_container { records::of_container(content) } else { records::of_file(content) }?;
        let mut ends = reserved(records.len())?;
        for record in &records {
            let items = ends.last().copied().unwrap_or(0_u64).checked_add(record.len);
            ends.push(items.ok_or(Error::LengthOverflow)?);
        }
        Ok(File { bytes, end, dtype, records, ends, is_container })
    }

    /// Reads each chunk, and compares it with what the foot says. Of a container there is nothing to compare.
    ///
    /// # Errors
    /// `BadStatistics` if anything differs, `BadChunk`, an error of what a chunk holds, `OutOfMemory`.
    pub fn verify(&self) -> Result<(), Error> {
        let content = self.content();
        if self.is_container {
            return Ok(());
        }
        checked(|| unsafe { ffi::flcol_file_verify(content.as_ptr(), content.len()) })
    }

    /// How many items there are.
    pub fn len(&self) -> u64 {
        self.ends.last().copied().unwrap_or(0)
    }

    /// Whether there are no items.
    pub fn is_empty(&self) -> bool {
        self.len() == 0
    }

    /// The type of the items.
    pub fn dtype(&self) -> DType {
        self.dtype
    }

    /// What the file says of each chunk. Of a container it is asked of its items.
    ///
    /// # Errors
    /// `OutOfMemory`; of a container `LengthOverflow` if its sum is beyond an `i128`.
    pub fn chunks(&self) -> Result<Vec<FileChunk>, Error> {
        match self.is_container {
            true => Ok(vec![FileChunk::of_container(self.content())?]),
            false => gathered(self.records.iter().map(FileChunk::of)),
        }
    }

    /// How many chunks there are.
    pub fn chunk_count(&self) -> usize {
        self.records.len()
    }

    /// The items of a chunk, as it is encoded.
    ///
    /// # Errors
    /// `IndexOutOfBounds`, `BadChunk`, an error of what the chunk holds; `BadStatistics` if the array has another type or length
    /// than the file says; `OutOfMemory`.
    pub fn chunk(&self, index: usize) -> Result<Array, Error> {
        let (content, record) = (self.content(), self.records.get(index).ok_or(Error::IndexOutOfBounds)?);
        if self.is_container {
            return Array::from_bytes(content);
        }
        let made = Array::make(|out| unsafe { ffi::flcol_file_chunk(content.as_ptr(), content.len(), record, out) });
        let array = made?;
        if array.dtype() != self.dtype || array.len() as u64 != record.len {
            return Err(Error::BadStatistics);
        }
        Ok(array)
    }

    /// The array of each chunk, one after another. Each may be an error, as of [`File::chunk`].
    pub fn arrays(&self) -> impl ExactSizeIterator<Item = Result<Array, Error>> + '_ {
        (0..self.records.len()).map(|index| self.chunk(index))
    }

    /// The item at an index, `None` if it is null.
    ///
    /// # Errors
    /// `IndexOutOfBounds`, `WrongType`, and those of [`File::chunk`].
    pub fn get<T: Item>(&self, index: u64) -> Result<Option<T>, Error> {
        let (chunk, place) = self.place(index).ok_or(Error::IndexOutOfBounds)?;
        self.chunk(chunk)?.get(place)
    }

    /// The items of a range, of which the chunks alone are read that have some. Those of one chunk stay as they are encoded.
    ///
    /// # Errors
    /// `RangeOutOfBounds`, and those of [`File::chunk`].
    pub fn slice(&self, range: impl RangeBounds<u64>) -> Result<Array, Error> {
        let (mut start, end) = self.range(range).ok_or(Error::RangeOutOfBounds)?;
        let mut parts = Vec::new();
        while start < end {
            let (chunk, from) = self.place(start).ok_or(Error::RangeOutOfBounds)?;
            let behind = self.ends[chunk].min(end);
            parts.push(self.chunk(chunk)?.slice(from..from + (behind - start) as usize)?);
            start = behind;
        }
        concatenated(parts, self.dtype)
    }

    /// The items at these indices, for which each chunk is read once.
    ///
    /// # Errors
    /// `IndexOutOfBounds`, and those of [`File::chunk`].
    pub fn take(&self, indices: &[u64]) -> Result<Array, Error> {
        let mut order: Vec<usize> = gathered(0..indices.len())?;
        order.sort_by_key(|at| indices[*at]);
        let (mut parts, mut ranks, mut done) = (Vec::new(), gathered(indices.iter().map(|_| 0_u64))?, 0);
        while let Some(first) = order.get(done) {
            let (chunk, _) = self.place(indices[*first]).ok_or(Error::IndexOutOfBounds)?;
            let start = self.ends[chunk] - self.records[chunk].len;
            let some =
                order[done..].iter().map(|at| indices[*at]).take_while(|index| *index < self.ends[chunk]).count();
            let places: Vec<u64> = gathered(order[done..done + some].iter().map(|at| indices[*at] - start))?;
            parts.push(self.chunk(chunk)?.take(&places)?);
            done += some;
        }
        for (rank, at) in order.iter().enumerate() {
            ranks[*at] = rank as u64;
        }
        concatenated(parts, self.dtype)?.take(&ranks)
    }

    /// How many items are null.
    ///
    /// # Errors
    /// `OutOfMemory`.
    pub fn null_count(&self) -> Result<u64, Error> {
        if self.is_container {
            return Ok(self.chunk(0)?.null_count()? as u64);
        }
        self.ask(|bytes, len, nulls| unsafe { ffi::flcol_file_null_count_trusting(bytes, len, nulls) })
    }

    /// The sum of the items that aren't null, exactly.
    ///
    /// # Errors
    /// `LengthOverflow` if it is beyond an `i128`, `OutOfMemory`.
    pub fn sum(&self) -> Result<i128, Error> {
        if self.is_container {
            return self.chunk(0)?.exact_sum();
        }
        Ok(integer_of(self.ask(|bytes, len, sum| unsafe { ffi::flcol_file_sum_trusting(bytes, len, sum) })?))
    }

    /// The least and the greatest item that isn't null, `None` if there is none.
    ///
    /// # Errors
    /// `OutOfMemory`.
    pub fn min_max(&self) -> Result<Option<(i128, i128)>, Error> {
        if self.is_container {
            return self.chunk(0)?.extremes();
        }
        let (mut least, mut none) = (ffi::Integer::default(), 0);
        let greatest = self.ask(|bytes, len, greatest| unsafe {
            ffi::flcol_file_min_max_trusting(bytes, len, &mut least, greatest, &mut none)
        })?;
        Ok((none == 0).then(|| (integer_of(least), integer_of(greatest))))
    }

    /// How many items compare so with a constant, an integer of any type, as of [`Array::count_where`]; no null does.
    ///
    /// # Errors
    /// Those of [`File::chunk`].
    pub fn count_where(&self, op: Op, constant: impl Integer) -> Result<u64, Error> {
        if self.is_container {
            return Ok(self.chunk(0)?.count_where(op, constant)? as u64);
        }
        let constant = words_of(constant.to_i128());
        self.ask(|bytes, len, count| unsafe { ffi::flcol_file_count_trusting(bytes, len, op as u8, &constant, count) })
    }

    /// How many items lie in a range of values, as of [`Array::count_between`]; no null does.
    ///
    /// # Errors
    /// Those of [`File::chunk`].
    pub fn count_between<C: Integer>(&self, range: impl RangeBounds<C>) -> Result<u64, Error> {
        let (least, greatest) = crate::array::ends(range);
        if self.is_container {
            return Ok(self.chunk(0)?.count_between(least..=greatest)? as u64);
        }
        let (least, greatest) = (words_of(least), words_of(greatest));
        self.ask(|bytes, len, count| unsafe {
            ffi::flcol_file_count_between_trusting(bytes, len, &least, &greatest, 0, 0, count)
        })
    }

    /// A plain array of the items that compare so with a constant, in their order; no null does.
    ///
    /// # Errors
    /// Those of [`File::chunk`].
    pub fn filter_by(&self, op: Op, constant: impl Integer) -> Result<Array, Error> {
        let constant = constant.to_i128();
        let words = words_of(constant);
        let plan = self.plan(|bytes, len, plan, count| unsafe {
            ffi::flcol_file_plan(bytes, len, op as u8, &words, plan, count)
        })?;
        self.gathered(&plan, |chunk| chunk.filter_by(op, constant))
    }

    /// A plain array of the items that lie in a range of values, in their order; no null does.
    ///
    /// # Errors
    /// Those of [`File::chunk`].
    pub fn filter_between<C: Integer>(&self, range: impl RangeBounds<C>) -> Result<Array, Error> {
        let (least, greatest) = crate::array::ends(range);
        let (low, high) = (words_of(least), words_of(greatest));
        let plan = self.plan(|bytes, len, plan, count| unsafe {
            ffi::flcol_file_plan_between(bytes, len, &low, &high, 0, 0, plan, count)
        })?;
        self.gathered(&plan, |chunk| chunk.filter_between(least..=greatest))
    }

    /// What is chosen of the chunks of which the foot doesn't say that no item passes.
    fn gathered(&self, plan: &[u8], chosen: impl Fn(&Array) -> Result<Array, Error>) -> Result<Array, Error> {
        let mut parts = Vec::new();
        for (index, _) in plan.iter().enumerate().filter(|(_, said)| **said != SKIP) {
            parts.push(chosen(&self.chunk(index)?)?);
        }
        concatenated(parts, self.dtype)
    }

    /// What the foot says of a test, a number for each chunk. Of a container all is to be read.
    fn plan(&self, call: impl FnOnce(*const u8, usize, *mut u8, usize) -> i32) -> Result<Vec<u8>, Error> {
        if self.is_container {
            return Ok(vec![SKIP + 1]);
        }
        let (content, count) = (self.content(), self.records.len());
        // SAFETY: the call writes a number for each chunk.
        unsafe { written(count, |plan| call(content.as_ptr(), content.len(), plan, count)) }
    }

    /// The chunk that has an item, and the place of the item in it.
    fn place(&self, index: u64) -> Option<(usize, usize)> {
        let chunk = self.ends.partition_point(|end| *end <= index);
        let start = self.ends.get(chunk)? - self.records[chunk].len;
        Some((chunk, (index - start) as usize))
    }

    /// The first index of a range, and the one behind it.
    fn range(&self, range: impl RangeBounds<u64>) -> Option<(u64, u64)> {
        let start = match range.start_bound() {
            Bound::Included(start) => *start,
            Bound::Excluded(before) => before.checked_add(1)?,
            Bound::Unbounded => 0,
        };
        let end = match range.end_bound() {
            Bound::Included(last) => last.checked_add(1)?,
            Bound::Excluded(end) => *end,
            Bound::Unbounded => self.len(),
        };
        (start <= end && end <= self.len()).then_some((start, end))
    }

    /// The bytes that are a file.
    fn content(&self) -> &[u8] {
        &self.bytes.as_ref()[..self.end]
    }

    /// The number that a call writes.
    fn ask<V: Default>(&self, call: impl FnOnce(*const u8, usize, *mut V) -> i32) -> Result<V, Error> {
        let (content, mut value) = (self.content(), V::default());
        checked(|| call(content.as_ptr(), content.len(), &mut value))?;
        Ok(value)
    }
}

/// The type, the length and the number of chunks.
impl<B> fmt::Debug for File<B> {
    fn fmt(&self, f: &mut fmt::Formatter<'_>) -> fmt::Result {
        let len = self.ends.last().copied().unwrap_or(0);
        write!(f, "File({}, {len} in {} chunks)", self.dtype, self.records.len())
    }
}
