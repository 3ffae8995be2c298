//! Skins.
use crate::accessor::{self, Accessor};
use crate::file::or_none;
use crate::{iter, sys, Buffer, Node};

record! {
    /// A skin (glTF 2.0, section 5.28).
    Skin: gltf_skin, GLTF_SKINS
}

/// Visits the joints of a skin.
pub type Joints<'a> = iter::Listed<'a, Node<'a>>;

/// Visits the inverse bind matrices of a skin, by columns.
pub type ReadInverseBindMatrices<'a> = accessor::Iter<'a, [[f32; 4]; 4]>;

/// Reads what belongs to the joints of a skin.
#[derive(Clone, Debug)]
pub struct Reader<'a> {
    skin: Skin<'a>,
}

impl<'a> Skin<'a> {
    /// The accessor of the inverse bind matrices; None: all are the unit matrix.
    pub fn inverse_bind_matrices(&self) -> Option<Accessor<'a>> {
        or_none(self.info.inverse_bind_matrices).map(|index| Accessor::new(self.document, index))
    }

    /// Reads the inverse bind matrices. The bytes are those of the document: the function is never
    /// called, and is there for programs that were written for the crate `gltf`.
    pub fn reader<'s, F>(&self, _get_buffer_data: F) -> Reader<'a>
    where
        F: Clone + Fn(Buffer<'a>) -> Option<&'s [u8]>,
    {
        Reader { skin: self.clone() }
    }

    /// The nodes that are its joints.
    pub fn joints(&self) -> Joints<'a> {
        let list = self.document.file().list(sys::GLTF_SKIN_JOINTS, self.index);
        iter::Listed::new(self.document, list, Node::new)
    }

    /// The node that is above all joints, if the file names it.
    pub fn skeleton(&self) -> Option<Node<'a>> {
        or_none(self.info.skeleton).map(|index| Node::new(self.document, index))
    }
}

impl<'a> Reader<'a> {
    /// The inverse bind matrices, in the order of the joints.
    pub fn read_inverse_bind_matrices(&self) -> Option<ReadInverseBindMatrices<'a>> {
        self.skin.inverse_bind_matrices()?.items()
    }
}
