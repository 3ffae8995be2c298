//! The attributes of primitives and of morph targets.
use std::fmt;
use std::ops::Range;

use crate::accessor::Accessor;
use crate::{sys, Document};

/// An attribute: what it means, and its accessor.
pub type Attribute<'a> = (Semantic, Accessor<'a>);

/// What an attribute means (glTF 2.0, section 3.7.2.1). A number is that of the set, as the 0 of
/// `TEXCOORD_0`.
#[derive(Clone, Debug, PartialEq, Eq, PartialOrd, Ord, Hash)]
pub enum Semantic {
    /// An attribute of the application: its name without the `_` that it begins with.
    Extras(String),
    /// Positions.
    Positions,
    /// Normals.
    Normals,
    /// Tangents.
    Tangents,
    /// Colours.
    Colors(u32),
    /// Coordinates of textures.
    TexCoords(u32),
    /// Indices of joints.
    Joints(u32),
    /// Weights of joints.
    Weights(u32),
}

impl Semantic {
    /// The meaning and the set, as `gltf_attribute_find` takes them; None of an attribute of the
    /// application.
    fn numbers(&self) -> Option<(u32, u32)> {
        match *self {
            Semantic::Extras(_) => None,
            Semantic::Positions => Some((sys::GLTF_POSITION, 0)),
            Semantic::Normals => Some((sys::GLTF_NORMAL, 0)),
            Semantic::Tangents => Some((sys::GLTF_TANGENT, 0)),
            Semantic::Colors(set) => Some((sys::GLTF_COLOR, set)),
            Semantic::TexCoords(set) => Some((sys::GLTF_TEXCOORD, set)),
            Semantic::Joints(set) => Some((sys::GLTF_JOINTS, set)),
            Semantic::Weights(set) => Some((sys::GLTF_WEIGHTS, set)),
        }
    }

    fn of_info(info: &sys::gltf_attribute, name: impl FnOnce() -> String) -> Semantic {
        match info.meaning {
            sys::GLTF_POSITION => Semantic::Positions,
            sys::GLTF_NORMAL => Semantic::Normals,
            sys::GLTF_TANGENT => Semantic::Tangents,
            sys::GLTF_COLOR => Semantic::Colors(info.set),
            sys::GLTF_TEXCOORD => Semantic::TexCoords(info.set),
            sys::GLTF_JOINTS => Semantic::Joints(info.set),
            sys::GLTF_WEIGHTS => Semantic::Weights(info.set),
            _ => Semantic::Extras(name()),
        }
    }
}

impl fmt::Display for Semantic {
    fn fmt(&self, f: &mut fmt::Formatter<'_>) -> fmt::Result {
        match self {
            Semantic::Extras(name) => write!(f, "_{name}"),
            Semantic::Positions => f.write_str("POSITION"),
            Semantic::Normals => f.write_str("NORMAL"),
            Semantic::Tangents => f.write_str("TANGENT"),
            Semantic::Colors(set) => write!(f, "COLOR_{set}"),
            Semantic::TexCoords(set) => write!(f, "TEXCOORD_{set}"),
            Semantic::Joints(set) => write!(f, "JOINTS_{set}"),
            Semantic::Weights(set) => write!(f, "WEIGHTS_{set}"),
        }
    }
}

/// The accessor of the attribute with a meaning, of the primitive or morph target at a place.
pub(super) fn find<'a>(
    document: &'a Document,
    place: [usize; 3],
    semantic: &Semantic,
) -> Option<Accessor<'a>> {
    match semantic.numbers() {
        Some((meaning, set)) => document
            .file()
            .attribute_find(place, meaning, set)
            .map(|index| Accessor::new(document, index)),
        None => Attributes::new(document, place, usize::MAX)
            .find(|(found, _)| found == semantic)
            .map(|(_, accessor)| accessor),
    }
}

/// Visits the attributes of a primitive or of a morph target, ordered by their meaning.
#[derive(Clone)]
pub struct Attributes<'a> {
    document: &'a Document,
    place: [usize; 3],
    left: Range<usize>,
}

impl<'a> Attributes<'a> {
    pub(super) fn new(document: &'a Document, place: [usize; 3], most: usize) -> Self {
        Attributes { document, place, left: 0..most }
    }
}

impl<'a> Iterator for Attributes<'a> {
    type Item = Attribute<'a>;

    fn next(&mut self) -> Option<Attribute<'a>> {
        let position = self.left.next()?;
        let file = self.document.file();
        let info = file.attribute(self.place, position)?;
        let semantic = Semantic::of_info(&info, || {
            let name = file.attribute_name(self.place, position).unwrap_or_default();
            name.strip_prefix('_').unwrap_or(&name).to_owned()
        });
        Some((semantic, Accessor::new(self.document, info.accessor)))
    }

    fn size_hint(&self) -> (usize, Option<usize>) {
        self.left.size_hint()
    }
}

impl ExactSizeIterator for Attributes<'_> {}

impl fmt::Debug for Attributes<'_> {
    fn fmt(&self, f: &mut fmt::Formatter<'_>) -> fmt::Result {
        f.debug_list().entries(self.clone()).finish()
    }
}

/// A morph target of a primitive (glTF 2.0, section 3.7.2.2).
#[derive(Clone)]
pub struct MorphTarget<'a> {
    document: &'a Document,
    place: [usize; 3],
}

impl<'a> MorphTarget<'a> {
    fn get(&self, semantic: Semantic) -> Option<Accessor<'a>> {
        find(self.document, self.place, &semantic)
    }

    /// By how much positions are moved.
    pub fn positions(&self) -> Option<Accessor<'a>> {
        self.get(Semantic::Positions)
    }

    /// By how much normals are moved.
    pub fn normals(&self) -> Option<Accessor<'a>> {
        self.get(Semantic::Normals)
    }

    /// By how much tangents are moved.
    pub fn tangents(&self) -> Option<Accessor<'a>> {
        self.get(Semantic::Tangents)
    }
}

impl fmt::Debug for MorphTarget<'_> {
    fn fmt(&self, f: &mut fmt::Formatter<'_>) -> fmt::Result {
        f.debug_struct("MorphTarget")
            .field("positions", &self.positions())
            .field("normals", &self.normals())
            .field("tangents", &self.tangents())
            .finish()
    }
}

/// Visits the morph targets of a primitive.
#[derive(Clone)]
pub struct MorphTargets<'a> {
    document: &'a Document,
    mesh: usize,
    primitive: usize,
    left: Range<usize>,
}

impl<'a> MorphTargets<'a> {
    pub(super) fn new(document: &'a Document, mesh: usize, primitive: usize, count: usize) -> Self {
        MorphTargets { document, mesh, primitive, left: 0..count }
    }
}

impl<'a> Iterator for MorphTargets<'a> {
    type Item = MorphTarget<'a>;

    fn next(&mut self) -> Option<MorphTarget<'a>> {
        let target = self.left.next()?;
        let place = [self.mesh, self.primitive, target];
        Some(MorphTarget { document: self.document, place })
    }

    fn nth(&mut self, n: usize) -> Option<MorphTarget<'a>> {
        let target = self.left.nth(n)?;
        let place = [self.mesh, self.primitive, target];
        Some(MorphTarget { document: self.document, place })
    }

    fn size_hint(&self) -> (usize, Option<usize>) {
        self.left.size_hint()
    }
}

impl ExactSizeIterator for MorphTargets<'_> {}

impl fmt::Debug for MorphTargets<'_> {
    fn fmt(&self, f: &mut fmt::Formatter<'_>) -> fmt::Result {
        f.debug_list().entries(self.clone()).finish()
    }
}
