//! The items of an accessor, one after the other.
use std::fmt;
use std::marker::PhantomData;
use std::ops::Range;
use std::sync::Arc;

use super::{Accessor, Item};
use crate::cast::CastingIter;
use crate::Buffer;

/// The bytes of items: those of the file, or a copy with the sparse ones applied.
#[derive(Clone)]
enum Bytes<'a> {
    Lent(&'a [u8]),
    Copied(Arc<[u8]>),
}

/// Where the items are that are left to be visited.
#[derive(Clone)]
pub(crate) struct Items<'a> {
    bytes: Bytes<'a>,
    stride: usize,
    size: usize,
    left: Range<usize>,
}

impl<'a> Items<'a> {
    /// All items; None where they cannot be read.
    pub(crate) fn new(accessor: &Accessor<'a>) -> Option<Self> {
        let (size, left) = (accessor.size(), 0..accessor.count());
        if let Some(bytes) = accessor.bytes() {
            let stride = accessor.stride();
            return Some(Items { bytes: Bytes::Lent(bytes), stride, size, left });
        }
        let bytes = Bytes::Copied(accessor.read_bytes().ok()?.into());
        Some(Items { bytes, stride: size, size, left })
    }

    fn at(&self, index: usize) -> &[u8] {
        let bytes = match &self.bytes {
            Bytes::Lent(bytes) => bytes,
            Bytes::Copied(bytes) => &bytes[..],
        };
        &bytes[index * self.stride..][..self.size]
    }

    pub(crate) fn next(&mut self) -> Option<&[u8]> {
        let index = self.left.next()?;
        Some(self.at(index))
    }

    pub(crate) fn nth(&mut self, n: usize) -> Option<&[u8]> {
        let index = self.left.nth(n)?;
        Some(self.at(index))
    }

    pub(crate) fn len(&self) -> usize {
        self.left.len()
    }
}

/// Visits the items of an accessor, with the sparse ones applied. Nothing is copied where they are
/// in the file as they are.
#[derive(Clone)]
pub struct Iter<'a, T> {
    items: Items<'a>,
    of: PhantomData<fn() -> T>,
}

impl<'a, T: Item> Iter<'a, T> {
    pub(crate) fn of_items(items: Items<'a>) -> Self {
        Iter { items, of: PhantomData }
    }

    /// The same items, each of which is made into something else.
    pub(crate) fn cast<U>(self, cast: fn(&[u8]) -> U) -> CastingIter<'a, U> {
        CastingIter::new(self.items, cast)
    }

    /// The items of an accessor; None where they are of another type or cannot be read. The bytes
    /// are those of the document: the function is never called, and is there for programs that were
    /// written for the crate `gltf`.
    pub fn new<'s, F>(accessor: Accessor<'a>, _get_buffer_data: F) -> Option<Self>
    where
        F: Clone + Fn(Buffer<'a>) -> Option<&'s [u8]>,
    {
        accessor.items()
    }
}

impl<T: Item> Iterator for Iter<'_, T> {
    type Item = T;

    fn next(&mut self) -> Option<T> {
        self.items.next().map(T::from_slice)
    }

    fn nth(&mut self, n: usize) -> Option<T> {
        self.items.nth(n).map(T::from_slice)
    }

    fn size_hint(&self) -> (usize, Option<usize>) {
        (self.items.len(), Some(self.items.len()))
    }
}

impl<T: Item> ExactSizeIterator for Iter<'_, T> {}

impl<T: Item + fmt::Debug> fmt::Debug for Iter<'_, T> {
    fn fmt(&self, f: &mut fmt::Formatter<'_>) -> fmt::Result {
        f.debug_list().entries(self.clone()).finish()
    }
}
