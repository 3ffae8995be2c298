//! Where the bytes of other files come from.
use std::fs;
use std::io::{Error, ErrorKind, Result};
use std::path::{Component, Path, PathBuf};

/// Gives the bytes of the files in a folder, by the URIs of a document.
///
/// A URI leads no further up than the folder, also through a symbolic link: `..`, absolute paths
/// and schemes are refused, unless what is outside is allowed. Escapes as `%20` are decoded first.
#[derive(Clone, Debug)]
pub struct Folder {
    path: PathBuf,
    outside: bool,
}

impl Folder {
    /// The folder at a path. With `outside`, `..`, absolute paths and `file:` URIs are allowed.
    pub fn new<P: AsRef<Path>>(path: P, outside: bool) -> Folder {
        let path = path.as_ref();
        let path = if path.as_os_str().is_empty() { Path::new(".") } else { path };
        Folder { path: path.to_owned(), outside }
    }

    /// The bytes of the file that a URI names.
    pub fn read(&self, uri: &str) -> Result<Vec<u8>> {
        fs::read(self.place(uri)?)
    }

    /// The path of the file that a URI names.
    fn place(&self, uri: &str) -> Result<PathBuf> {
        let name = self.name(uri)?;
        let is_below = Path::new(&name)
            .components()
            .all(|part| matches!(part, Component::Normal(_) | Component::CurDir));
        if self.outside {
            return Ok(self.path.join(name));
        }
        if !is_below {
            return Err(refused("it leads out of the folder of the file"));
        }
        // A link may lead elsewhere.
        let (folder, place) = (self.path.canonicalize()?, self.path.join(name).canonicalize()?);
        if !place.starts_with(&folder) {
            return Err(refused("it leads out of the folder of the file"));
        }
        Ok(place)
    }

    /// The name of a file that a URI is, decoded.
    fn name(&self, uri: &str) -> Result<String> {
        let mut rest = uri;
        if let Some((scheme, after)) = uri.split_once(':').filter(|it| !it.0.contains('/')) {
            if !(self.outside && scheme.eq_ignore_ascii_case("file")) {
                return Err(refused("it has a scheme"));
            }
            rest = after.strip_prefix("//").unwrap_or(after);
        }
        match decoded(rest) {
            Some(name) if !name.is_empty() && !name.contains('\0') => Ok(name),
            _ => Err(refused("it names no file")),
        }
    }
}

/// What is not the system's answer, but this crate's.
fn refused(why: &str) -> Error {
    Error::new(ErrorKind::PermissionDenied, why)
}

/// A URI with its escapes decoded; None where they make no UTF-8.
fn decoded(uri: &str) -> Option<String> {
    let digit = |byte: Option<&u8>| byte.and_then(|it| char::from(*it).to_digit(16));
    let (bytes, mut out, mut at) = (uri.as_bytes(), Vec::new(), 0);
    while at < bytes.len() {
        let escape = digit(bytes.get(at + 1)).zip(digit(bytes.get(at + 2)));
        match escape {
            Some((high, low)) if bytes[at] == b'%' => {
                out.push((high * 16 + low) as u8);
                at += 3;
            }
            _ => {
                out.push(bytes[at]);
                at += 1;
            }
        }
    }
    String::from_utf8(out).ok()
}

#[cfg(test)]
mod tests {
    use super::*;

    #[test]
    fn escapes_are_decoded() {
        for (uri, wanted) in [
            ("a b", "a b"),
            ("a%20b", "a b"),
            ("%c3%ADr", "ír"),
            ("%zz%4", "%zz%4"),
            ("100%", "100%"),
            ("%", "%"),
        ] {
            assert_eq!(decoded(uri).as_deref(), Some(wanted), "{uri}");
        }
        assert_eq!(decoded("%ff"), None);
    }

    #[test]
    fn schemes_are_cut_off() {
        let folder = Folder::new("x", true);
        for (uri, wanted) in [
            ("file:a%20b", "a b"),
            ("file:///etc/x", "/etc/x"),
            ("FILE:a/b:c", "a/b:c"),
            ("a/b:c", "a/b:c"),
            ("../up", "../up"),
        ] {
            assert_eq!(folder.name(uri).ok().as_deref(), Some(wanted), "{uri}");
        }
        for uri in ["http://a/b", "data:,x", "", "a%00b", "file:"] {
            assert!(folder.name(uri).is_err(), "{uri}");
        }
    }
}
