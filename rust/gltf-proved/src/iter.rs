//! Lists of records.
use std::fmt;
use std::ops::Range;
use std::vec;

use crate::khr_lights_punctual::Light;
use crate::khr_materials_variants::Variant;
use crate::{
    buffer, texture, Accessor, Animation, Buffer, Camera, Document, Image, Material, Mesh, Node,
    Scene, Skin, Texture,
};

/// Visits all records of one kind, in the order of the file.
#[derive(Clone)]
pub struct Records<'a, T> {
    document: &'a Document,
    left: Range<usize>,
    make: fn(&'a Document, usize) -> T,
}

/// Visits the parts of a record, as the primitives of a mesh.
#[derive(Clone)]
pub struct Parts<'a, T> {
    document: &'a Document,
    whole: usize,
    left: Range<usize>,
    make: fn(&'a Document, usize, usize) -> T,
}

/// Visits records that another one lists, as the children of a node.
#[derive(Clone)]
pub struct Listed<'a, T> {
    document: &'a Document,
    left: vec::IntoIter<usize>,
    make: fn(&'a Document, usize) -> T,
}

impl<'a, T> Records<'a, T> {
    pub(crate) fn new(
        document: &'a Document,
        kind: u32,
        make: fn(&'a Document, usize) -> T,
    ) -> Self {
        Records { document, left: 0..document.file().count(kind), make }
    }
}

impl<'a, T> Parts<'a, T> {
    pub(crate) fn new(
        document: &'a Document,
        whole: usize,
        count: usize,
        make: fn(&'a Document, usize, usize) -> T,
    ) -> Self {
        Parts { document, whole, left: 0..count, make }
    }
}

impl<'a, T> Listed<'a, T> {
    pub(crate) fn new(
        document: &'a Document,
        list: Vec<usize>,
        make: fn(&'a Document, usize) -> T,
    ) -> Self {
        Listed { document, left: list.into_iter(), make }
    }
}

/// The iterators of a list of indices, each of which is made into what the list is of.
macro_rules! iterators {
    ($($name:ident: |$it:ident, $index:ident| $made:expr;)*) => {$(
        impl<'a, T> $name<'a, T> {
            fn made(&self, $index: usize) -> T {
                let $it = self;
                $made
            }
        }

        impl<'a, T> Iterator for $name<'a, T> {
            type Item = T;

            fn next(&mut self) -> Option<T> {
                let index = self.left.next()?;
                Some(self.made(index))
            }

            fn nth(&mut self, n: usize) -> Option<T> {
                let index = self.left.nth(n)?;
                Some(self.made(index))
            }

            fn size_hint(&self) -> (usize, Option<usize>) {
                self.left.size_hint()
            }
        }

        impl<'a, T> DoubleEndedIterator for $name<'a, T> {
            fn next_back(&mut self) -> Option<T> {
                let index = self.left.next_back()?;
                Some(self.made(index))
            }
        }

        impl<'a, T> ExactSizeIterator for $name<'a, T> {}

        impl<'a, T: fmt::Debug> fmt::Debug for $name<'a, T> {
            fn fmt(&self, f: &mut fmt::Formatter<'_>) -> fmt::Result {
                f.debug_list().entries(self.left.clone().map(|index| self.made(index))).finish()
            }
        }
    )*};
}

iterators! {
    Records: |it, index| (it.make)(it.document, index);
    Parts: |it, index| (it.make)(it.document, it.whole, index);
    Listed: |it, index| (it.make)(it.document, index);
}

/// All accessors of a document.
pub type Accessors<'a> = Records<'a, Accessor<'a>>;
/// All animations of a document.
pub type Animations<'a> = Records<'a, Animation<'a>>;
/// All buffers of a document.
pub type Buffers<'a> = Records<'a, Buffer<'a>>;
/// All cameras of a document.
pub type Cameras<'a> = Records<'a, Camera<'a>>;
/// The names of the extensions that a document requires.
pub type ExtensionsRequired<'a> = Records<'a, &'a str>;
/// The names of the extensions that a document uses.
pub type ExtensionsUsed<'a> = Records<'a, &'a str>;
/// All images of a document.
pub type Images<'a> = Records<'a, Image<'a>>;
/// All lights of a document.
pub type Lights<'a> = Records<'a, Light<'a>>;
/// All materials of a document.
pub type Materials<'a> = Records<'a, Material<'a>>;
/// All meshes of a document.
pub type Meshes<'a> = Records<'a, Mesh<'a>>;
/// All nodes of a document.
pub type Nodes<'a> = Records<'a, Node<'a>>;
/// All samplers of a document.
pub type Samplers<'a> = Records<'a, texture::Sampler<'a>>;
/// All scenes of a document.
pub type Scenes<'a> = Records<'a, Scene<'a>>;
/// All skins of a document.
pub type Skins<'a> = Records<'a, Skin<'a>>;
/// All textures of a document.
pub type Textures<'a> = Records<'a, Texture<'a>>;
/// All variants of materials of a document.
pub type Variants<'a> = Records<'a, Variant<'a>>;
/// All buffer views of a document.
pub type Views<'a> = Records<'a, buffer::View<'a>>;
