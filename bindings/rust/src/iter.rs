//! Items one after another.

use crate::array::Array;
use crate::blocks::BLOCK;
use crate::chunks::Chunks;
use crate::error::Error;
use crate::indexed::ByIndex;
use crate::item::Item;
use std::iter::FusedIterator;

/// The items of an array, `None` at a null. Behind an error nothing follows.
#[derive(Debug)]
pub struct Iter<'a, T> {
    chunks: Chunks<'a, T>,
    /// How many of the decoded items have been answered.
    answered: usize,
}

impl<'a, T: Item> Iter<'a, T> {
    pub(crate) fn new(array: &'a Array) -> Iter<'a, T> {
        Iter { chunks: Chunks::new(array), answered: 0 }
    }

    /// How many decoded items have not been answered.
    fn waiting(&self) -> usize {
        self.chunks.decoded().len() - self.answered
    }
}

impl<T: Item> Iterator for Iter<'_, T> {
    type Item = Result<Option<T>, Error>;

    fn next(&mut self) -> Option<Result<Option<T>, Error>> {
        self.nth(0)
    }

    /// Decodes no window of which it answers no item.
    fn nth(&mut self, n: usize) -> Option<Result<Option<T>, Error>> {
        if n < self.waiting() {
            self.answered += n;
        } else {
            let skipped = (n - self.waiting()).min(self.chunks.left());
            let index = self.chunks.decoded().end + skipped;
            self.answered = if skipped < self.chunks.left() { index % BLOCK } else { 0 };
            match self.chunks.decode_from(index - self.answered) {
                Ok(true) => (),
                Ok(false) => return None,
                Err(error) => return Some(Err(error)),
            }
        }
        self.answered += 1;
        Some(Ok(self.chunks.chunk().at(self.answered - 1)))
    }

    fn size_hint(&self) -> (usize, Option<usize>) {
        let left = self.chunks.left() + self.waiting();
        (left.min(1), Some(left))
    }
}

impl<T: Item> FusedIterator for Iter<'_, T> {}
