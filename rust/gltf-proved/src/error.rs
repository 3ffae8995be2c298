//! Why a file is refused, or a call failed.
use std::borrow::Cow;
use std::{error, fmt, io, result};

use crate::sys;

/// The result of what may be refused.
pub type Result<T> = result::Result<T, Error>;

/// What the library answers: the numbers are those of `gltf.h`.
#[derive(Clone, Copy, Debug, PartialEq, Eq, Hash)]
#[non_exhaustive]
pub enum Status {
    /// There was no memory. This says nothing about the file.
    NoMemory,
    /// The bytes begin with `glTF` and are no GLB container (glTF 2.0, section 4.4).
    BadContainer,
    /// The text is not JSON, or not a glTF document (section 3.2).
    BadJson,
    /// The document breaks rules, as an index out of range.
    BrokenRules,
    /// The data of a data URI is not base64 (section 2.8).
    BadBase64,
    /// A buffer has fewer bytes than it declares (section 3.6.1).
    ShortBuffer,
    /// A buffer has no URI, and there is no BIN chunk for it (section 3.6.1.2).
    MissingBlob,
    /// A buffer is in another file, which must not be read.
    ExternalReference,
    /// A URI has a scheme that is neither `data` nor `file`.
    UnsupportedScheme,
    /// A file cannot be read.
    CannotRead,
    /// There is no record with that index, or it has not what was asked for.
    NoSuchIndex,
    /// The items of an accessor are not inside their view, or the view is not inside its buffer.
    Unreadable,
    /// The items do not fit into the room that was given.
    NoRoom,
    /// The components of an accessor are of another type.
    OtherType,
    /// An extension has a member that is missing or of another kind, an index out of range, or an
    /// unknown word.
    BadExtension,
    /// The library does not know what a file was to be opened with.
    BadArgument,
    /// What a later library answers.
    Unknown(u32),
}

/// What is wrong, and where.
#[derive(Clone, Debug, PartialEq, Eq)]
#[non_exhaustive]
pub struct Fault {
    /// The kind of fault.
    pub status: Status,
    /// A JSON Pointer (RFC 6901) to the member at fault, as `/nodes/0/mesh`; empty where it is the
    /// file as a whole.
    pub pointer: String,
    /// What is wrong, for people; of broken rules all of them, each with its path.
    pub message: String,
    /// The index of the buffer at fault.
    pub buffer: Option<usize>,
    /// How many rules are broken.
    pub rules: u32,
}

/// Why a file is refused, or a call failed.
#[derive(Debug)]
#[non_exhaustive]
pub enum Error {
    /// The file itself cannot be read.
    Io(io::Error),
    /// There was no memory. This says nothing about the file.
    NoMemory,
    /// The bytes are no GLB container.
    Binary(Fault),
    /// The text is not JSON, or not a glTF document.
    Deserialize(Fault),
    /// The document breaks rules.
    Validation(Fault),
    /// The data of a data URI is not base64.
    Base64(Fault),
    /// A buffer has fewer bytes than it declares.
    BufferLength {
        /// The index of the buffer.
        buffer: usize,
        /// How many bytes it declares.
        expected: usize,
        /// How many there are, without zeros after them.
        actual: usize,
    },
    /// A buffer has no URI, and there is no BIN chunk for it.
    MissingBlob(Fault),
    /// A buffer is in another file, which must not be read.
    ExternalReference(Fault),
    /// A buffer is in another file, which cannot be read.
    ExternalFile(Fault, io::Error),
    /// A URI has a scheme that is neither `data` nor `file`.
    UnsupportedScheme(Fault),
    /// The items of an accessor cannot be read, since they are not inside their view, or the view
    /// is not inside its buffer.
    Unreadable(Fault),
    /// The items of an accessor are not of the type that was asked for.
    OtherType(Fault),
    /// An extension of a record has a member that is missing or of another kind, an index out of
    /// range, or an unknown word ([`extension`](crate::extension)).
    BadExtension(Fault),
    /// What a later library answers.
    Other(Fault),
}

impl Status {
    pub(crate) fn of_number(number: u32) -> Status {
        match number {
            sys::GLTF_NO_MEMORY => Status::NoMemory,
            sys::GLTF_BAD_CONTAINER => Status::BadContainer,
            sys::GLTF_BAD_JSON => Status::BadJson,
            sys::GLTF_BROKEN_RULES => Status::BrokenRules,
            sys::GLTF_BAD_BASE64 => Status::BadBase64,
            sys::GLTF_SHORT_BUFFER => Status::ShortBuffer,
            sys::GLTF_MISSING_BLOB => Status::MissingBlob,
            sys::GLTF_EXTERNAL_REFERENCE => Status::ExternalReference,
            sys::GLTF_UNSUPPORTED_SCHEME => Status::UnsupportedScheme,
            sys::GLTF_CANNOT_READ => Status::CannotRead,
            sys::GLTF_NO_SUCH_INDEX => Status::NoSuchIndex,
            sys::GLTF_UNREADABLE => Status::Unreadable,
            sys::GLTF_NO_ROOM => Status::NoRoom,
            sys::GLTF_OTHER_TYPE => Status::OtherType,
            sys::GLTF_BAD_EXTENSION => Status::BadExtension,
            sys::GLTF_BAD_ARGUMENT => Status::BadArgument,
            other => Status::Unknown(other),
        }
    }
}

/// A text of a C struct, up to its zero byte.
fn text_of(bytes: &[u8]) -> String {
    let end = bytes.iter().position(|byte| *byte == 0).unwrap_or(bytes.len());
    // One that was cut may end within a character.
    String::from_utf8_lossy(&bytes[..end]).into_owned()
}

impl Fault {
    /// A fault at a buffer.
    pub(crate) fn of_buffer(status: Status, buffer: usize, member: &str, message: String) -> Fault {
        let pointer = format!("/buffers/{buffer}{member}");
        Fault { status, pointer, message, buffer: Some(buffer), rules: 0 }
    }

    /// A fault at an accessor.
    pub(crate) fn of_accessor(status: Status, accessor: usize, message: &str) -> Fault {
        let pointer = format!("/accessors/{accessor}");
        Fault { status, pointer, message: message.to_owned(), buffer: None, rules: 0 }
    }

    /// A fault at an extension of a record, by the pointer to the record.
    pub(crate) fn of_extension(status: Status, record: &str, extension: &str) -> Fault {
        let pointer = format!("{record}/extensions/{extension}");
        let message = match status {
            Status::BadExtension => "is not of its form, or has an index out of range",
            _ => "cannot be read",
        };
        let message = format!("the extension {extension} {message}");
        Fault { status, pointer, message, buffer: None, rules: 0 }
    }

    fn of_library(fault: &sys::gltf_fault) -> Fault {
        let buffer = (fault.buffer != sys::GLTF_NONE).then_some(fault.buffer);
        let mut pointer = text_of(&fault.path);
        if let (true, Some(index)) = (pointer.is_empty(), buffer) {
            pointer = format!("/buffers/{index}");
        }
        Fault {
            status: Status::of_number(fault.status),
            pointer,
            message: text_of(&fault.text),
            buffer,
            rules: fault.rules,
        }
    }
}

impl Error {
    /// The error of a fault that `gltf_open` filled in.
    pub(crate) fn of_library(raw: &sys::gltf_fault) -> Error {
        let fault = Fault::of_library(raw);
        if let (Status::ShortBuffer, Some(buffer)) = (fault.status, fault.buffer) {
            return Error::BufferLength { buffer, expected: raw.expected, actual: raw.actual };
        }
        Error::of_fault(fault)
    }

    /// The error of a fault with its status.
    pub(crate) fn of_fault(fault: Fault) -> Error {
        match fault.status {
            Status::NoMemory => Error::NoMemory,
            Status::BadContainer => Error::Binary(fault),
            Status::BadJson => Error::Deserialize(fault),
            Status::BrokenRules => Error::Validation(fault),
            Status::BadBase64 => Error::Base64(fault),
            Status::MissingBlob => Error::MissingBlob(fault),
            Status::ExternalReference => Error::ExternalReference(fault),
            Status::UnsupportedScheme => Error::UnsupportedScheme(fault),
            Status::Unreadable => Error::Unreadable(fault),
            Status::OtherType => Error::OtherType(fault),
            Status::BadExtension => Error::BadExtension(fault),
            _ => Error::Other(fault),
        }
    }

    /// What is wrong and where, as the library reports it; None of [`Error::Io`],
    /// [`Error::NoMemory`] and [`Error::BufferLength`], which are not about a member.
    pub fn fault(&self) -> Option<&Fault> {
        match self {
            Error::Io(_) | Error::NoMemory | Error::BufferLength { .. } => None,
            Error::Binary(fault)
            | Error::Deserialize(fault)
            | Error::Validation(fault)
            | Error::Base64(fault)
            | Error::MissingBlob(fault)
            | Error::ExternalReference(fault)
            | Error::ExternalFile(fault, _)
            | Error::UnsupportedScheme(fault)
            | Error::Unreadable(fault)
            | Error::OtherType(fault)
            | Error::BadExtension(fault)
            | Error::Other(fault) => Some(fault),
        }
    }

    /// The kind of fault.
    pub fn status(&self) -> Status {
        match self {
            Error::Io(_) => Status::CannotRead,
            Error::BufferLength { .. } => Status::ShortBuffer,
            _ => self.fault().map_or(Status::NoMemory, |fault| fault.status),
        }
    }

    /// A JSON Pointer (RFC 6901) to the member at fault, as `/nodes/0/mesh`; empty where it is the
    /// file as a whole.
    pub fn pointer(&self) -> Cow<'_, str> {
        match self {
            Error::BufferLength { buffer, .. } => Cow::Owned(format!("/buffers/{buffer}")),
            _ => self.fault().map_or(Cow::Borrowed(""), |fault| Cow::Borrowed(&fault.pointer)),
        }
    }

    /// The index of the buffer at fault.
    pub fn buffer(&self) -> Option<usize> {
        match self {
            Error::BufferLength { buffer, .. } => Some(*buffer),
            _ => self.fault().and_then(|fault| fault.buffer),
        }
    }

    /// How many bytes a buffer declares that has too few.
    pub fn expected(&self) -> Option<usize> {
        match self {
            Error::BufferLength { expected, .. } => Some(*expected),
            _ => None,
        }
    }

    /// How many bytes a buffer has that has too few.
    pub fn actual(&self) -> Option<usize> {
        match self {
            Error::BufferLength { actual, .. } => Some(*actual),
            _ => None,
        }
    }

    /// How many rules the document breaks.
    pub fn rules(&self) -> u32 {
        self.fault().map_or(0, |fault| fault.rules)
    }
}

impl fmt::Display for Error {
    fn fmt(&self, f: &mut fmt::Formatter<'_>) -> fmt::Result {
        match self {
            Error::Io(why) => why.fmt(f),
            Error::NoMemory => f.write_str("out of memory"),
            Error::BufferLength { buffer, expected, actual } => {
                write!(f, "buffer {buffer}: expected {expected} bytes but received {actual} bytes")
            }
            Error::ExternalFile(fault, why) => write!(f, "{}: {why}", fault.message),
            _ => f.write_str(self.fault().map_or("", |fault| &fault.message)),
        }
    }
}

impl error::Error for Error {
    fn source(&self) -> Option<&(dyn error::Error + 'static)> {
        match self {
            Error::Io(why) | Error::ExternalFile(_, why) => Some(why),
            _ => None,
        }
    }
}

impl From<io::Error> for Error {
    fn from(why: io::Error) -> Error {
        Error::Io(why)
    }
}
