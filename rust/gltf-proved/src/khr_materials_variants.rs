//! Variants of materials (`KHR_materials_variants`).
use std::fmt;

use crate::{sys, Document, Material, Result};

/// A variant.
#[derive(Clone)]
pub struct Variant<'a> {
    document: &'a Document,
    index: usize,
}

impl<'a> Variant<'a> {
    pub(crate) fn new(document: &'a Document, index: usize) -> Self {
        Variant { document, index }
    }

    /// The index of it, in the order of the file.
    pub fn index(&self) -> usize {
        self.index
    }

    /// The name.
    pub fn name(&self) -> &'a str {
        self.document.name(sys::GLTF_VARIANTS, self.index).unwrap_or("")
    }

    /// The extras, as JSON text.
    pub fn extras(&self) -> Option<String> {
        self.document.file().json(sys::GLTF_VARIANTS, self.index, 0, None)
    }
}

impl fmt::Debug for Variant<'_> {
    fn fmt(&self, f: &mut fmt::Formatter<'_>) -> fmt::Result {
        f.debug_struct("Variant").field("index", &self.index).field("name", &self.name()).finish()
    }
}

/// The material that a primitive has in a variant.
#[derive(Clone)]
pub struct Mapping<'a> {
    document: &'a Document,
    /// The indices of the mesh and of the primitive in it.
    place: [usize; 2],
    variants: [u32; 1],
}

impl<'a> Mapping<'a> {
    pub(crate) fn new(document: &'a Document, place: [usize; 2], variant: usize) -> Self {
        Mapping { document, place, variants: [variant as u32] }
    }

    /// The indices of the variants: one.
    pub fn variants(&self) -> &[u32] {
        &self.variants
    }

    /// The material. Fails with [`Error::BadExtension`](crate::Error::BadExtension) where the
    /// document has no material with the index of the mapping, which no rule looks at; the error
    /// has the place of the index.
    pub fn material(&self) -> Result<Material<'a>> {
        let ([mesh, primitive], [variant]) = (self.place, self.variants);
        let named = self.document.file().variant_material(mesh, primitive, variant as usize)?;
        Ok(Material::new(self.document, named))
    }
}

impl fmt::Debug for Mapping<'_> {
    fn fmt(&self, f: &mut fmt::Formatter<'_>) -> fmt::Result {
        f.debug_struct("Mapping")
            .field("variants", &self.variants)
            .field("material", &self.material())
            .finish()
    }
}
