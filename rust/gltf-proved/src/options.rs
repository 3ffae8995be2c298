//! What a file is opened with.
use std::ffi::CString;
use std::fs;
use std::io;
use std::path::Path;

use crate::error::{Error, Fault, Result, Status};
use crate::file::File;
use crate::{sys, Document, Folder};

/// What is accepted besides when a file is opened.
///
/// ```no_run
/// # fn main() -> Result<(), gltf_proved::Error> {
/// let options = gltf_proved::Options::new().extension("EXT_meshopt_compression").outside(true);
/// let document = options.open("model.gltf")?;
/// # Ok(())
/// # }
/// ```
#[derive(Clone, Debug, Default)]
pub struct Options {
    extensions: Vec<CString>,
    outside: bool,
    exact_lengths: bool,
}

impl Options {
    /// Nothing besides.
    pub fn new() -> Options {
        Options::default()
    }

    /// The name of an extension that the caller handles: a file that requires it is accepted. A
    /// name with a zero byte is that of no extension.
    pub fn extension(mut self, name: &str) -> Options {
        self.extensions.extend(CString::new(name));
        self
    }

    /// Whether a file may name others that are not in its folder or below it, by `..`, by an
    /// absolute path or by a `file:` URI: for files that you trust.
    pub fn outside(mut self, is_allowed: bool) -> Options {
        self.outside = is_allowed;
        self
    }

    /// Whether each buffer has as many bytes as it declares. Else it may have up to three fewer: as
    /// many as there are zeros up to a multiple of four.
    pub fn exact_lengths(mut self, are_asked_for: bool) -> Options {
        self.exact_lengths = are_asked_for;
        self
    }

    /// Opens the file at a path, with its buffers in other files.
    pub fn open<P: AsRef<Path>>(&self, path: P) -> Result<Document> {
        let path = path.as_ref();
        let bytes = fs::read(path)?;
        let folder = Folder::new(path.parent().unwrap_or(Path::new("")), self.outside);
        self.from_slice_with(&bytes, |uri| folder.read(uri))
    }

    /// Opens a file that is in memory. A buffer in another file is refused.
    pub fn from_slice(&self, bytes: &[u8]) -> Result<Document> {
        File::open(bytes, self.flags(), &self.extensions).map(Document::of_file)
    }

    /// Opens a file that is in memory. Of each buffer in another file, `resolve` gets the URI, as
    /// it is in the file, and returns the bytes. [`Folder`] is one that reads them. An error of the
    /// kind [`io::ErrorKind::PermissionDenied`] that is not the system's means that the file must
    /// not be read.
    pub fn from_slice_with<F>(&self, bytes: &[u8], mut resolve: F) -> Result<Document>
    where
        F: FnMut(&str) -> io::Result<Vec<u8>>,
    {
        let flags = self.flags() | sys::GLTF_EXTERNAL;
        let mut file = File::open(bytes, flags, &self.extensions)?;
        for buffer in 0..file.count(sys::GLTF_BUFFERS) {
            let info: sys::gltf_buffer = file.info(buffer);
            if info.waits != 0 {
                let uri = file.text(sys::GLTF_BUFFER_URI, buffer).unwrap_or_default();
                let bytes = resolve(&uri).map_err(|why| not_read(buffer, &uri, why))?;
                give(&mut file, buffer, info.byte_length, &bytes)?;
            }
        }
        Ok(Document::of_file(file))
    }

    fn flags(&self) -> u32 {
        if self.exact_lengths {
            sys::GLTF_EXACT_LENGTHS
        } else {
            0
        }
    }
}

/// The error of a buffer whose file was not read.
fn not_read(buffer: usize, uri: &str, why: io::Error) -> Error {
    let is_refused = why.kind() == io::ErrorKind::PermissionDenied && why.raw_os_error().is_none();
    if is_refused {
        let message = format!("buffer {buffer}: `{uri}` is not read: {why}");
        return Error::ExternalReference(Fault::of_buffer(
            Status::ExternalReference,
            buffer,
            "/uri",
            message,
        ));
    }
    let message = format!("buffer {buffer}: `{uri}` cannot be read");
    Error::ExternalFile(Fault::of_buffer(Status::CannotRead, buffer, "/uri", message), why)
}

/// Supplies the bytes of a buffer that waits for them.
fn give(file: &mut File, buffer: usize, expected: usize, bytes: &[u8]) -> Result<()> {
    match file.give(buffer, bytes) {
        sys::GLTF_SUCCESS => Ok(()),
        sys::GLTF_SHORT_BUFFER => {
            Err(Error::BufferLength { buffer, expected, actual: bytes.len() })
        }
        status => {
            let message = format!("buffer {buffer}: the library returned {status}");
            let status = Status::of_number(status);
            Err(Error::of_fault(Fault::of_buffer(status, buffer, "", message)))
        }
    }
}
