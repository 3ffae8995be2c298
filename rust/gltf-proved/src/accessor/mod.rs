//! Accessors: the items of vertices, indices and keyframes.
use std::mem;

use crate::error::{Error, Fault, Result, Status};
use crate::{buffer, sys};

mod item;
mod iter;
mod types;

pub use item::Item;
pub(crate) use iter::Items;
pub use iter::Iter;
pub use types::{DataType, Dimensions};

record! {
    /// An accessor (glTF 2.0, section 5.1).
    Accessor: gltf_accessor, GLTF_ACCESSORS
}

/// The sparse part of an accessor (glTF 2.0, section 5.2). It is applied where items are read.
#[derive(Clone, Copy, Debug, PartialEq, Eq)]
pub struct Sparse {
    count: usize,
}

impl Sparse {
    /// How many items are overridden.
    pub fn count(&self) -> usize {
        self.count
    }
}

impl<'a> Accessor<'a> {
    /// The bytes of the components of one item, without padding.
    pub fn size(&self) -> usize {
        self.info.item_size
    }

    /// The buffer view with the items.
    pub fn view(&self) -> Option<buffer::View<'a>> {
        crate::file::or_none(self.info.view).map(|index| buffer::View::new(self.document, index))
    }

    /// The bytes of the view before the first item.
    pub fn offset(&self) -> usize {
        self.info.byte_offset
    }

    /// The bytes from one item of the view to the next, with the padding of a small matrix: the
    /// view's stride, or what an item takes up there (glTF 2.0, section 3.6.2.4).
    pub fn stride(&self) -> usize {
        self.info.stride
    }

    /// How many items there are, as the file says it. An accessor that has no view may state any
    /// number: look at it before you read all items of a file that you do not trust.
    pub fn count(&self) -> usize {
        self.info.count
    }

    /// The type of the components.
    pub fn data_type(&self) -> DataType {
        DataType::of_number(self.info.component_type)
    }

    /// How many components an item has, and whether it is a matrix.
    pub fn dimensions(&self) -> Dimensions {
        Dimensions::of_info(self.info.components, self.info.is_matrix != 0)
    }

    /// The least value of each component, if the file states them.
    pub fn min(&self) -> Option<Vec<f64>> {
        self.bound(sys::GLTF_ACCESSOR_MIN)
    }

    /// The greatest value of each component, if the file states them.
    pub fn max(&self) -> Option<Vec<f64>> {
        self.bound(sys::GLTF_ACCESSOR_MAX)
    }

    fn bound(&self, what: u32) -> Option<Vec<f64>> {
        let numbers = self.document.file().numbers(what, self.index);
        (!numbers.is_empty()).then_some(numbers)
    }

    /// Whether integers stand for fractions (glTF 2.0, section 3.6.2.2).
    pub fn normalized(&self) -> bool {
        self.info.normalized != 0
    }

    /// The sparse part, if there is one.
    pub fn sparse(&self) -> Option<Sparse> {
        (self.info.sparse > 0).then_some(Sparse { count: self.info.sparse })
    }

    /// The bytes of the file from the first item to the end of the last one, in place. Item i
    /// begins at i * [`Accessor::stride`]. None where there are no items, or they are not in the
    /// file as they are: they have a sparse part, also one of no values, are padded inside, have a
    /// stride below their size, or no view that holds them.
    pub fn bytes(&self) -> Option<&'a [u8]> {
        if self.info.data.is_null() {
            return None;
        }
        let size = match self.info.count {
            0 => 0,
            count => (count - 1) * self.info.stride + self.info.item_size,
        };
        // SAFETY: gltf.h says that item i is at `data` + i * `stride`, for every i below `count`,
        // where `data` is not NULL; an item has `item_size` bytes.
        unsafe { self.document.file().lent(self.info.data, size) }
    }

    /// The items in place, as a slice. None where [`Accessor::bytes`] is, and where the items are
    /// not of this type, have a stride of more bytes than they are, or are not aligned.
    pub fn slice<T: Item>(&self) -> Option<&'a [T]> {
        let bytes = self.bytes().filter(|_| self.is_of::<T>())?;
        let is_tight = self.info.stride == mem::size_of::<T>();
        let is_aligned = bytes.as_ptr() as usize % mem::align_of::<T>() == 0;
        // SAFETY: the bytes are those of `count` items of the size of T, one after the other, and
        // aligned. T is a number or an array of numbers: all bytes are a value of it.
        (is_tight && is_aligned)
            .then(|| unsafe { std::slice::from_raw_parts(bytes.as_ptr().cast(), self.info.count) })
    }

    /// The items, with the sparse ones applied. None where [`Accessor::read`] fails.
    pub fn items<T: Item>(&self) -> Option<Iter<'a, T>> {
        self.is_of::<T>().then(|| Items::new(self)).flatten().map(Iter::of_items)
    }

    /// Whether items are of a type of Rust: the components are of its type, and as many.
    pub(crate) fn is_of<T: Item>(&self) -> bool {
        self.data_type() == T::DATA_TYPE && self.info.components as usize == T::COMPONENTS
    }

    /// A copy of all items, with the sparse ones applied.
    pub fn read<T: Item>(&self) -> Result<Vec<T>> {
        if !self.is_of::<T>() {
            return Err(self.error(sys::GLTF_OTHER_TYPE));
        }
        if let Some(slice) = self.slice() {
            return Ok(slice.to_vec());
        }
        match Items::new(self) {
            Some(items) => Ok(Iter::of_items(items).collect()),
            None => Err(self.read_bytes().err().unwrap_or(Error::NoMemory)),
        }
    }

    /// A copy of the bytes of the components of all items, without gaps and without the padding of
    /// small matrices (glTF 2.0, section 3.6.2.4), with the sparse ones applied. Without a view the
    /// items are zeros under these (section 5.1.1).
    pub fn read_bytes(&self) -> Result<Vec<u8>> {
        let size = self.info.count.checked_mul(self.info.item_size);
        let mut out = room(size.ok_or(Error::NoMemory)?, 0)?;
        match self.document.file().read(self.index, &mut out) {
            sys::GLTF_SUCCESS => Ok(out),
            status => Err(self.error(status)),
        }
    }

    /// A copy of the components of all items, which are integers without a sign: for indices and
    /// joints.
    pub fn read_u32(&self) -> Result<Vec<u32>> {
        let count = self.info.count.checked_mul(self.info.components as usize);
        let mut out = room(count.ok_or(Error::NoMemory)?, 0)?;
        match self.document.file().read_u32(self.index, &mut out) {
            sys::GLTF_SUCCESS => Ok(out),
            status => Err(self.error(status)),
        }
    }

    /// A copy of the components of all items as floats: normalized integers as the fractions that
    /// they mean, others as the nearest float.
    pub fn read_f32(&self) -> Result<Vec<f32>> {
        let (bytes, is_fraction) = (self.read_bytes()?, self.normalized());
        let of = self.data_type();
        Ok(bytes.chunks_exact(of.size()).map(|it| of.float(it, is_fraction)).collect())
    }

    fn error(&self, status: u32) -> Error {
        let message = match status {
            sys::GLTF_NO_MEMORY => return Error::NoMemory,
            sys::GLTF_UNREADABLE => {
                "the items are not inside their view, or the view is not inside its buffer"
            }
            sys::GLTF_OTHER_TYPE => "the items are of another type",
            _ => "the items cannot be read",
        };
        Error::of_fault(Fault::of_accessor(Status::of_number(status), self.index, message))
    }
}

/// A list of so many zeros, if there is memory for it.
fn room<T: Copy>(count: usize, zero: T) -> Result<Vec<T>> {
    let mut out = Vec::new();
    out.try_reserve_exact(count).map_err(|_| Error::NoMemory)?;
    out.resize(count, zero);
    Ok(out)
}
