//! What the crate `gltf` returns of a file: its document, its buffers and its images.
use std::path::Path;

use crate::{buffer, image, Document, Result};

/// What [`import()`] returns: a document, the bytes of its buffers, and its images. Nothing is
/// copied: both lists are views of the document.
pub type Import = (Document, Vec<buffer::Data>, Vec<image::Data>);

/// Opens the file at a path, as [`Document::open`].
pub fn import<P: AsRef<Path>>(path: P) -> Result<Import> {
    Document::open(path).map(import_of)
}

/// Opens a file that is in memory, as [`Document::from_slice`].
pub fn import_slice<S: AsRef<[u8]>>(slice: S) -> Result<Import> {
    Document::from_slice(slice.as_ref()).map(import_of)
}

fn import_of(document: Document) -> Import {
    let buffers = (0..document.buffers().len()).map(|index| buffer::Data::new(&document, index));
    let images = (0..document.images().len()).map(|index| image::Data::new(&document, index));
    let (buffers, images) = (buffers.collect(), images.collect());
    (document, buffers, images)
}
