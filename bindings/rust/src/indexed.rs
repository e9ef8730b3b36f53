//! What is gone over by indices.

use std::iter::FusedIterator;
use std::ops::Range;

/// A list that is asked by indices. No other crate can add one.
pub trait ByIndex: Copy {
    /// What it has at an index.
    type Item;

    /// What it has at an index below its length.
    fn at(self, index: usize) -> Self::Item;
}

/// Goes over the bits of a [`Bitmap`](crate::Bitmap), over [`Answers`](crate::Answers) or over the items of a
/// [`Chunk`](crate::Chunk), from either end.
#[derive(Clone, Debug)]
pub struct Indexed<L> {
    list: L,
    indices: Range<usize>,
}

impl<L> Indexed<L> {
    pub(crate) fn new(list: L, len: usize) -> Indexed<L> {
        Indexed { list, indices: 0..len }
    }
}

impl<L: ByIndex> Iterator for Indexed<L> {
    type Item = L::Item;

    fn next(&mut self) -> Option<L::Item> {
        self.indices.next().map(|index| self.list.at(index))
    }

    fn nth(&mut self, n: usize) -> Option<L::Item> {
        self.indices.nth(n).map(|index| self.list.at(index))
    }

    fn size_hint(&self) -> (usize, Option<usize>) {
        self.indices.size_hint()
    }
}

impl<L: ByIndex> DoubleEndedIterator for Indexed<L> {
    fn next_back(&mut self) -> Option<L::Item> {
        self.indices.next_back().map(|index| self.list.at(index))
    }
}

impl<L: ByIndex> ExactSizeIterator for Indexed<L> {}

impl<L: ByIndex> FusedIterator for Indexed<L> {}
