//! Buffers, and views of them.
use std::fmt;
use std::ops::Deref;

use crate::{sys, Document};

record! {
    /// A buffer (glTF 2.0, section 5.10).
    Buffer: gltf_buffer, GLTF_BUFFERS
}

record! {
    /// A view of a buffer (glTF 2.0, section 5.11).
    View: gltf_buffer_view, GLTF_BUFFER_VIEWS
}

/// Where the bytes of a buffer come from.
#[derive(Clone, Copy, Debug, PartialEq, Eq)]
pub enum Source<'a> {
    /// The BIN chunk of a GLB container.
    Bin,
    /// A URI, as it is in the file.
    Uri(&'a str),
}

/// What a view is for (glTF 2.0, section 5.11.5).
#[derive(Clone, Copy, Debug, PartialEq, Eq, Hash)]
pub enum Target {
    /// Vertices.
    ArrayBuffer,
    /// Indices of vertices.
    ElementArrayBuffer,
}

impl Target {
    /// The number of it in the format: 34962 or 34963.
    pub fn as_gl_enum(self) -> u32 {
        match self {
            Target::ArrayBuffer => 34962,
            Target::ElementArrayBuffer => 34963,
        }
    }
}

impl<'a> Buffer<'a> {
    /// Where its bytes come from.
    pub fn source(&self) -> Source<'a> {
        let uri = self.document.text(sys::GLTF_BUFFER_URI, sys::GLTF_BUFFERS, self.index);
        uri.map_or(Source::Bin, Source::Uri)
    }

    /// How many bytes it declares.
    pub fn length(&self) -> usize {
        self.info.byte_length
    }

    /// Its bytes, in place, filled up with zeros to a multiple of four. Each buffer of a document
    /// has them; the crate `gltf` wants an `Option` in closures.
    pub fn bytes(&self) -> Option<&'a [u8]> {
        // SAFETY: gltf.h says that there are `size` bytes at the pointer.
        unsafe { self.document.file().lent(self.info.bytes, self.info.size) }
    }
}

impl<'a> View<'a> {
    /// The buffer that it is a view of.
    pub fn buffer(&self) -> Buffer<'a> {
        Buffer::new(self.document, self.info.buffer)
    }

    /// How many bytes it has.
    pub fn length(&self) -> usize {
        self.info.byte_length
    }

    /// The bytes of the buffer before it.
    pub fn offset(&self) -> usize {
        self.info.byte_offset
    }

    /// The bytes from one item to the next, if the file states them.
    pub fn stride(&self) -> Option<usize> {
        (self.info.byte_stride > 0).then_some(self.info.byte_stride)
    }

    /// What it is for, if the file states it.
    pub fn target(&self) -> Option<Target> {
        [Target::ArrayBuffer, Target::ElementArrayBuffer]
            .into_iter()
            .find(|target| target.as_gl_enum() == self.info.target)
    }

    /// Its bytes, in place. None where it is not inside its buffer.
    pub fn bytes(&self) -> Option<&'a [u8]> {
        self.buffer().bytes()?.get(self.offset()..)?.get(..self.length())
    }
}

/// The bytes of a buffer, as [`import`](crate::import()) returns them. They are those of the
/// document, in place; the file stays open as long as they are there.
#[derive(Clone)]
pub struct Data {
    document: Document,
    index: usize,
}

impl Data {
    pub(crate) fn new(document: &Document, index: usize) -> Data {
        Data { document: document.clone(), index }
    }
}

impl Deref for Data {
    type Target = [u8];

    fn deref(&self) -> &[u8] {
        Buffer::new(&self.document, self.index).bytes().unwrap_or(&[])
    }
}

impl AsRef<[u8]> for Data {
    fn as_ref(&self) -> &[u8] {
        self
    }
}

impl fmt::Debug for Data {
    fn fmt(&self, f: &mut fmt::Formatter<'_>) -> fmt::Result {
        write!(f, "Data({} bytes)", self.len())
    }
}
