//! Images. They are not decoded.
use std::fmt;

use crate::{buffer, sys, Document};

record! {
    /// An image (glTF 2.0, section 5.18).
    Image: gltf_image, GLTF_IMAGES
}

/// Where the bytes of an image are.
#[derive(Clone, Debug)]
pub enum Source<'a> {
    /// In a buffer view.
    View {
        /// The view.
        view: buffer::View<'a>,
        /// What they are, as `image/png`.
        mime_type: &'a str,
    },
    /// At a URI.
    Uri {
        /// The URI, as it is in the file: often the name of another file, or a data URI.
        uri: &'a str,
        /// What they are, if the file states it.
        mime_type: Option<&'a str>,
    },
}

impl<'a> Image<'a> {
    /// Where its bytes are.
    pub fn source(&self) -> Source<'a> {
        let text = |what| self.document.text(what, sys::GLTF_IMAGES, self.index);
        let mime_type = text(sys::GLTF_IMAGE_MIME_TYPE);
        match crate::file::or_none(self.info.view) {
            Some(view) => Source::View {
                view: buffer::View::new(self.document, view),
                // A rule is that it is there where the view is.
                mime_type: mime_type.unwrap_or(""),
            },
            None => Source::Uri { uri: text(sys::GLTF_IMAGE_URI).unwrap_or(""), mime_type },
        }
    }

    /// The bytes of the image's own file, as PNG or JPEG, in place, if they are in a buffer view.
    /// None where it is at a URI, or the view is not inside its buffer.
    pub fn bytes(&self) -> Option<&'a [u8]> {
        // SAFETY: gltf.h says that there are `size` bytes at the pointer.
        unsafe { self.document.file().lent(self.info.bytes, self.info.size) }
    }
}

/// An image, as [`import`](crate::import()) returns it: not decoded. The file stays open as long as
/// it is there.
#[derive(Clone)]
pub struct Data {
    document: Document,
    index: usize,
}

impl Data {
    pub(crate) fn new(document: &Document, index: usize) -> Data {
        Data { document: document.clone(), index }
    }

    /// The image.
    pub fn image(&self) -> Image<'_> {
        Image::new(&self.document, self.index)
    }

    /// The bytes of the image's own file, as [`Image::bytes`].
    pub fn bytes(&self) -> Option<&[u8]> {
        self.image().bytes()
    }
}

impl fmt::Debug for Data {
    fn fmt(&self, f: &mut fmt::Formatter<'_>) -> fmt::Result {
        self.image().fmt(f)
    }
}
