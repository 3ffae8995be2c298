//! Reads the attributes of a primitive.
use super::util::{
    ReadColors, ReadIndices, ReadJoints, ReadMorphTargets, ReadNormals, ReadPositions,
    ReadTangents, ReadTexCoords, ReadWeights,
};
use super::{Primitive, Semantic};
use crate::Buffer;

/// Reads the attributes and the indices of a primitive. A method returns None where the primitive
/// has not what it reads, where that is of a type that the format does not allow there, and where
/// it cannot be read ([`Accessor::read`](crate::Accessor::read) says why).
#[derive(Clone, Debug)]
pub struct Reader<'a> {
    primitive: Primitive<'a>,
}

impl<'a> Primitive<'a> {
    /// Reads the attributes and the indices. The bytes are those of the document: the function is
    /// never called, and is there for programs that were written for the crate `gltf`.
    pub fn reader<'s, F>(&self, _get_buffer_data: F) -> Reader<'a>
    where
        F: Clone + Fn(Buffer<'a>) -> Option<&'s [u8]>,
    {
        Reader { primitive: self.clone() }
    }
}

impl<'a> Reader<'a> {
    /// The positions.
    pub fn read_positions(&self) -> Option<ReadPositions<'a>> {
        self.primitive.get(&Semantic::Positions)?.items()
    }

    /// The normals.
    pub fn read_normals(&self) -> Option<ReadNormals<'a>> {
        self.primitive.get(&Semantic::Normals)?.items()
    }

    /// The tangents.
    pub fn read_tangents(&self) -> Option<ReadTangents<'a>> {
        self.primitive.get(&Semantic::Tangents)?.items()
    }

    /// The colours of a set.
    pub fn read_colors(&self, set: u32) -> Option<ReadColors<'a>> {
        ReadColors::new(&self.primitive.get(&Semantic::Colors(set))?)
    }

    /// The indices. They are numbers in a buffer: no rule says that there is such a vertex.
    pub fn read_indices(&self) -> Option<ReadIndices<'a>> {
        ReadIndices::new(&self.primitive.indices()?)
    }

    /// The indices of the joints of a set.
    pub fn read_joints(&self, set: u32) -> Option<ReadJoints<'a>> {
        ReadJoints::new(&self.primitive.get(&Semantic::Joints(set))?)
    }

    /// The coordinates of textures of a set.
    pub fn read_tex_coords(&self, set: u32) -> Option<ReadTexCoords<'a>> {
        ReadTexCoords::new(&self.primitive.get(&Semantic::TexCoords(set))?)
    }

    /// The weights of the joints of a set.
    pub fn read_weights(&self, set: u32) -> Option<ReadWeights<'a>> {
        ReadWeights::new(&self.primitive.get(&Semantic::Weights(set))?)
    }

    /// The morph targets.
    pub fn read_morph_targets(&self) -> ReadMorphTargets<'a> {
        ReadMorphTargets { targets: self.primitive.morph_targets() }
    }
}
