//! Memory whose size others say, which may be refused.

use crate::error::{checked, Error};

/// An empty list with room for so many items.
pub(crate) fn reserved<T>(len: usize) -> Result<Vec<T>, Error> {
    let mut list = Vec::new();
    list.try_reserve_exact(len).map_err(|_| Error::OutOfMemory)?;
    Ok(list)
}

/// A list of so many values, which a call writes.
///
/// # Safety
/// Where the call succeeds it has written so many.
pub(crate) unsafe fn written<T>(len: usize, call: impl FnOnce(*mut T) -> i32) -> Result<Vec<T>, Error> {
    let mut list = reserved(len)?;
    checked(|| call(list.as_mut_ptr()))?;
    list.set_len(len);
    Ok(list)
}

/// So many times the same value.
pub(crate) fn filled<T: Clone>(value: T, len: usize) -> Result<Vec<T>, Error> {
    let mut list = reserved(len)?;
    list.resize(len, value);
    Ok(list)
}

/// The items of an iterator that knows how many it has.
pub(crate) fn gathered<T>(items: impl ExactSizeIterator<Item = T>) -> Result<Vec<T>, Error> {
    let mut list = reserved(items.len())?;
    list.extend(items);
    Ok(list)
}

/// Adds an item, with room for more where there was none left.
pub(crate) fn push<T>(list: &mut Vec<T>, item: T) -> Result<(), Error> {
    if list.len() == list.capacity() {
        list.try_reserve(1).map_err(|_| Error::OutOfMemory)?;
    }
    list.push(item);
    Ok(())
}
