//! Meshes and their primitives.
use std::fmt;

use crate::accessor::Accessor;
use crate::file::{or_none, NO_TARGET};
use crate::khr_materials_variants::Mapping;
use crate::{iter, sys, Document, Material, Result};

mod attributes;
mod reader;
pub mod util;

pub use attributes::{Attribute, Attributes, MorphTarget, MorphTargets, Semantic};
pub use reader::Reader;

record! {
    /// A mesh (glTF 2.0, section 5.23).
    Mesh: gltf_mesh, GLTF_MESHES
}

/// Visits the primitives of a mesh.
pub type Primitives<'a> = iter::Parts<'a, Primitive<'a>>;

/// The least and the greatest position.
pub type BoundingBox = Bounds<[f32; 3]>;

/// The least and the greatest value.
#[derive(Clone, Copy, Debug, PartialEq)]
pub struct Bounds<T> {
    /// The least.
    pub min: T,
    /// The greatest.
    pub max: T,
}

/// What the vertices of a primitive make (glTF 2.0, section 5.24.4).
#[derive(Clone, Copy, Debug, PartialEq, Eq, Hash)]
pub enum Mode {
    /// Points.
    Points,
    /// Lines.
    Lines,
    /// A line that ends where it begins.
    LineLoop,
    /// A line of several parts.
    LineStrip,
    /// Triangles.
    Triangles,
    /// A strip of triangles.
    TriangleStrip,
    /// A fan of triangles.
    TriangleFan,
}

impl Mode {
    fn of_number(number: u32) -> Mode {
        match number {
            sys::GLTF_POINTS => Mode::Points,
            sys::GLTF_LINES => Mode::Lines,
            sys::GLTF_LINE_LOOP => Mode::LineLoop,
            sys::GLTF_LINE_STRIP => Mode::LineStrip,
            sys::GLTF_TRIANGLE_STRIP => Mode::TriangleStrip,
            sys::GLTF_TRIANGLE_FAN => Mode::TriangleFan,
            _ => Mode::Triangles,
        }
    }

    /// The number of it in the format: 0 to 6.
    pub fn as_gl_enum(self) -> u32 {
        match self {
            Mode::Points => sys::GLTF_POINTS,
            Mode::Lines => sys::GLTF_LINES,
            Mode::LineLoop => sys::GLTF_LINE_LOOP,
            Mode::LineStrip => sys::GLTF_LINE_STRIP,
            Mode::Triangles => sys::GLTF_TRIANGLES,
            Mode::TriangleStrip => sys::GLTF_TRIANGLE_STRIP,
            Mode::TriangleFan => sys::GLTF_TRIANGLE_FAN,
        }
    }
}

impl<'a> Mesh<'a> {
    /// Its primitives.
    pub fn primitives(&self) -> Primitives<'a> {
        iter::Parts::new(self.document, self.index, self.info.primitives, Primitive::new)
    }

    /// The weights of its morph targets, if the file states them.
    pub fn weights(&self) -> Option<&'a [f32]> {
        self.document.mesh_weights(self.index)
    }
}

/// A primitive of a mesh (glTF 2.0, section 5.24).
#[derive(Clone)]
pub struct Primitive<'a> {
    document: &'a Document,
    mesh: usize,
    index: usize,
    info: sys::gltf_primitive,
}

impl<'a> Primitive<'a> {
    fn new(document: &'a Document, mesh: usize, index: usize) -> Self {
        Primitive { document, mesh, index, info: document.file().part_info(mesh, index) }
    }

    fn place(&self, target: usize) -> [usize; 3] {
        [self.mesh, self.index, target]
    }

    /// The position of it in its mesh.
    pub fn index(&self) -> usize {
        self.index
    }

    /// The least and the greatest position, as the accessor of the positions states them. None
    /// where it does not: no rule asks for them.
    pub fn bounding_box(&self) -> Option<BoundingBox> {
        let accessor = self.get(&Semantic::Positions)?;
        let floats = |numbers: Vec<f64>| match numbers[..] {
            [x, y, z] => Some([x as f32, y as f32, z as f32]),
            _ => None,
        };
        Some(Bounds { min: floats(accessor.min()?)?, max: floats(accessor.max()?)? })
    }

    /// The accessor of the attribute with a meaning.
    pub fn get(&self, semantic: &Semantic) -> Option<Accessor<'a>> {
        attributes::find(self.document, self.place(NO_TARGET), semantic)
    }

    /// The accessor of the indices.
    pub fn indices(&self) -> Option<Accessor<'a>> {
        or_none(self.info.indices).map(|index| Accessor::new(self.document, index))
    }

    /// Its attributes, ordered by their meaning.
    pub fn attributes(&self) -> Attributes<'a> {
        Attributes::new(self.document, self.place(NO_TARGET), self.info.attributes)
    }

    /// Its material, or the default material.
    pub fn material(&self) -> Material<'a> {
        Material::new(self.document, or_none(self.info.material))
    }

    /// What its vertices make.
    pub fn mode(&self) -> Mode {
        Mode::of_number(self.info.mode)
    }

    /// Its morph targets.
    pub fn morph_targets(&self) -> MorphTargets<'a> {
        MorphTargets::new(self.document, self.mesh, self.index, self.info.targets)
    }

    /// The materials that it has in variants (`KHR_materials_variants`), one for each variant that
    /// the file names here, in the order of the variants.
    pub fn mappings(&self) -> impl Iterator<Item = Mapping<'a>> + 'a {
        let (document, mesh, index) = (self.document, self.mesh, self.index);
        let variants = document.file().count(sys::GLTF_VARIANTS);
        (0..variants).filter_map(move |variant| {
            document.file().variant_index(mesh, index, variant)?;
            Some(Mapping::new(document, [mesh, index], variant))
        })
    }

    /// The material that it has in a variant, by the index of that: what the variant names here, or
    /// its own material. Fails with [`Error::BadExtension`](crate::Error::BadExtension) where the
    /// document has no material with the index that the variant names, which no rule looks at; the
    /// error has the place of the index.
    pub fn material_in(&self, variant: usize) -> Result<Material<'a>> {
        let file = self.document.file();
        if variant >= file.count(sys::GLTF_VARIANTS) {
            return Ok(self.material());
        }
        let named = file.variant_material(self.mesh, self.index, variant)?;
        Ok(named.map_or_else(|| self.material(), |it| Material::new(self.document, Some(it))))
    }

    /// The extras, as JSON text.
    pub fn extras(&self) -> Option<String> {
        self.document.file().json(sys::GLTF_PRIMITIVES, self.mesh, self.index, None)
    }

    /// What the primitive has of an extension that this crate has no member for, as JSON text.
    pub fn extension_value(&self, ext_name: &str) -> Option<String> {
        self.document.file().json(sys::GLTF_PRIMITIVES, self.mesh, self.index, Some(ext_name))
    }

    /// The packet of metadata that describes it (`KHR_xmp_json_ld`), by its position in the list of
    /// packets ([`extension`](crate::extension)).
    pub fn xmp_packet(&self) -> Result<Option<usize>> {
        self.document.file().xmp_packet(sys::GLTF_PRIMITIVES, self.mesh, self.index)
    }
}

impl fmt::Debug for Primitive<'_> {
    fn fmt(&self, f: &mut fmt::Formatter<'_>) -> fmt::Result {
        f.debug_struct("Primitive")
            .field("mesh", &self.mesh)
            .field("index", &self.index)
            .field("mode", &self.mode())
            .finish()
    }
}
