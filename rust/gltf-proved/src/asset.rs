//! What a file says of itself.
use std::fmt;

use crate::{sys, Document, Result};

/// What a file says of itself (glTF 2.0, section 5.9).
#[derive(Clone)]
pub struct Asset<'a> {
    document: &'a Document,
}

impl<'a> Asset<'a> {
    pub(crate) fn new(document: &'a Document) -> Self {
        Asset { document }
    }

    /// The version of glTF that the file is for, as `2.0`.
    pub fn version(&self) -> String {
        self.text(sys::GLTF_ASSET_VERSION).unwrap_or_default()
    }

    /// The least version of glTF that it can be read by.
    pub fn min_version(&self) -> Option<String> {
        self.text(sys::GLTF_ASSET_MIN_VERSION)
    }

    /// The program that wrote it.
    pub fn generator(&self) -> Option<String> {
        self.text(sys::GLTF_ASSET_GENERATOR)
    }

    /// Whose it is.
    pub fn copyright(&self) -> Option<String> {
        self.text(sys::GLTF_ASSET_COPYRIGHT)
    }

    /// The extras, as JSON text.
    pub fn extras(&self) -> Option<String> {
        self.document.file().json(sys::GLTF_ASSET, 0, 0, None)
    }

    /// What it has of an extension, as JSON text.
    pub fn extension_value(&self, ext_name: &str) -> Option<String> {
        self.document.file().json(sys::GLTF_ASSET, 0, 0, Some(ext_name))
    }

    /// The packet of metadata that describes it (`KHR_xmp_json_ld`), by its position in the list of
    /// packets ([`extension`](crate::extension)).
    pub fn xmp_packet(&self) -> Result<Option<usize>> {
        self.document.file().xmp_packet(sys::GLTF_ASSET, 0, 0)
    }

    fn text(&self, what: u32) -> Option<String> {
        self.document.file().text(what, 0)
    }
}

impl fmt::Debug for Asset<'_> {
    fn fmt(&self, f: &mut fmt::Formatter<'_>) -> fmt::Result {
        f.debug_struct("Asset")
            .field("version", &self.version())
            .field("generator", &self.generator())
            .finish_non_exhaustive()
    }
}
