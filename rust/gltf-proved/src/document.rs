//! Documents.
use std::fmt;
use std::io::Read;
use std::path::Path;
use std::sync::{Arc, OnceLock};

use crate::file::File;
use crate::slots::Slots;
use crate::{import, iter, sys};
use crate::{Asset, Import, Options, Result, Scene};

/// An open file: its records, and the bytes of its buffers.
///
/// It owns both. All handles borrow it, and any number of threads may read it at the same time. A
/// clone is the same document, and copies nothing; the file is closed with the last of them.
#[derive(Clone)]
pub struct Document {
    held: Arc<Held>,
}

/// The name of a document in the crate `gltf` that has its binary chunk too, as each has here.
pub type Gltf = Document;

/// A file, and what was made of its records so far.
struct Held {
    file: File,
    names: [Slots<Option<Box<str>>>; sys::GLTF_EXTENSIONS_REQUIRED as usize + 1],
    texts: [Slots<Option<Box<str>>>; sys::GLTF_IMAGE_MIME_TYPE as usize + 1],
    mesh_weights: Slots<Box<[f32]>>,
    node_weights: Slots<Box<[f32]>>,
    materials: Slots<Box<sys::gltf_material>>,
    default_material: OnceLock<Box<sys::gltf_material>>,
}

// Also said by the types of its parts; here it is a promise.
const _: fn() = || {
    fn is_shared<T: Send + Sync>() {}
    is_shared::<Document>();
};

impl Document {
    /// Opens the file at a path. Buffers in other files are read from the folder of the file or
    /// below it; [`Options`] allow others.
    pub fn open<P: AsRef<Path>>(path: P) -> Result<Document> {
        Options::new().open(path)
    }

    /// Opens a file that is in memory: a GLB container if its bytes begin with `glTF`, else JSON
    /// text. The bytes are copied. A buffer in another file is refused, since there is no folder
    /// that its name could be relative to; [`Options::from_slice_with`] accepts it.
    pub fn from_slice(bytes: &[u8]) -> Result<Document> {
        Options::new().from_slice(bytes)
    }

    /// Opens the file that a reader gives, as [`Document::from_slice`].
    pub fn from_reader<R: Read>(mut reader: R) -> Result<Document> {
        let mut bytes = Vec::new();
        reader.read_to_end(&mut bytes)?;
        Document::from_slice(&bytes)
    }

    /// Does what the function [`import`](crate::import()) does.
    pub fn import<P: AsRef<Path>>(path: P) -> Result<Import> {
        import::import(path)
    }

    pub(crate) fn of_file(file: File) -> Document {
        Document {
            held: Arc::new(Held {
                file,
                names: [const { Slots::new() }; sys::GLTF_EXTENSIONS_REQUIRED as usize + 1],
                texts: [const { Slots::new() }; sys::GLTF_IMAGE_MIME_TYPE as usize + 1],
                mesh_weights: Slots::new(),
                node_weights: Slots::new(),
                materials: Slots::new(),
                default_material: OnceLock::new(),
            }),
        }
    }

    pub(crate) fn file(&self) -> &File {
        &self.held.file
    }

    /// The name of a record, of a kind that has names.
    pub(crate) fn name(&self, kind: u32, index: usize) -> Option<&str> {
        let (file, slots) = (self.file(), &self.held.names[kind as usize]);
        let name = slots.get(file.count(kind), index, || file.name(kind, index).map(Into::into));
        name.as_deref()
    }

    /// A text of a buffer or an image, of which there are so many.
    pub(crate) fn text(&self, what: u32, kind: u32, index: usize) -> Option<&str> {
        let (file, slots) = (self.file(), &self.held.texts[what as usize]);
        let text = slots.get(file.count(kind), index, || file.text(what, index).map(Into::into));
        text.as_deref()
    }

    pub(crate) fn mesh_weights(&self, index: usize) -> Option<&[f32]> {
        self.weights(&self.held.mesh_weights, sys::GLTF_MESHES, sys::GLTF_MESH_WEIGHTS, index)
    }

    pub(crate) fn node_weights(&self, index: usize) -> Option<&[f32]> {
        self.weights(&self.held.node_weights, sys::GLTF_NODES, sys::GLTF_NODE_WEIGHTS, index)
    }

    fn weights<'a>(
        &'a self,
        slots: &'a Slots<Box<[f32]>>,
        kind: u32,
        what: u32,
        index: usize,
    ) -> Option<&'a [f32]> {
        let file = self.file();
        let weights = slots.get(file.count(kind), index, || {
            file.numbers(what, index).into_iter().map(|number| number as f32).collect()
        });
        (!weights.is_empty()).then_some(weights)
    }

    /// The struct of a material; of the default material if there is no index.
    pub(crate) fn material(&self, index: Option<usize>) -> &sys::gltf_material {
        let file = self.file();
        match index {
            Some(index) => self
                .held
                .materials
                .get(file.count(sys::GLTF_MATERIALS), index, || Box::new(file.info(index))),
            None => self.held.default_material.get_or_init(|| Box::new(file.info(sys::GLTF_NONE))),
        }
    }

    /// What the file says of itself (glTF 2.0, section 3.2).
    pub fn asset(&self) -> Asset<'_> {
        Asset::new(self)
    }

    /// All accessors.
    pub fn accessors(&self) -> iter::Accessors<'_> {
        iter::Records::new(self, sys::GLTF_ACCESSORS, crate::Accessor::new)
    }

    /// All animations.
    pub fn animations(&self) -> iter::Animations<'_> {
        iter::Records::new(self, sys::GLTF_ANIMATIONS, crate::Animation::new)
    }

    /// All buffers.
    pub fn buffers(&self) -> iter::Buffers<'_> {
        iter::Records::new(self, sys::GLTF_BUFFERS, crate::Buffer::new)
    }

    /// All cameras.
    pub fn cameras(&self) -> iter::Cameras<'_> {
        iter::Records::new(self, sys::GLTF_CAMERAS, crate::Camera::new)
    }

    /// The scene to show at first, if the file names one.
    pub fn default_scene(&self) -> Option<Scene<'_>> {
        self.file().default_scene().map(|index| Scene::new(self, index))
    }

    /// The names of the extensions that the file uses.
    pub fn extensions_used(&self) -> iter::ExtensionsUsed<'_> {
        iter::Records::new(self, sys::GLTF_EXTENSIONS_USED, |document, index| {
            document.name(sys::GLTF_EXTENSIONS_USED, index).unwrap_or("")
        })
    }

    /// The names of the extensions that the file requires, without those that the caller handles
    /// ([`Options::extension`]).
    pub fn extensions_required(&self) -> iter::ExtensionsRequired<'_> {
        iter::Records::new(self, sys::GLTF_EXTENSIONS_REQUIRED, |document, index| {
            document.name(sys::GLTF_EXTENSIONS_REQUIRED, index).unwrap_or("")
        })
    }

    /// The extras of the document, as JSON text.
    pub fn extras(&self) -> Option<String> {
        self.file().json(sys::GLTF_ROOT, 0, 0, None)
    }

    /// What the document has of an extension that this crate has no member for, as JSON text.
    pub fn extension_value(&self, ext_name: &str) -> Option<String> {
        self.file().json(sys::GLTF_ROOT, 0, 0, Some(ext_name))
    }

    /// All images.
    pub fn images(&self) -> iter::Images<'_> {
        iter::Records::new(self, sys::GLTF_IMAGES, crate::Image::new)
    }

    /// All lights of `KHR_lights_punctual`; None where there are none.
    pub fn lights(&self) -> Option<iter::Lights<'_>> {
        let new = crate::khr_lights_punctual::Light::new;
        let lights = iter::Records::new(self, sys::GLTF_LIGHTS, new);
        (lights.len() > 0).then_some(lights)
    }

    /// All materials. The default material is not one of them.
    pub fn materials(&self) -> iter::Materials<'_> {
        iter::Records::new(self, sys::GLTF_MATERIALS, |document, index| {
            crate::Material::new(document, Some(index))
        })
    }

    /// All meshes.
    pub fn meshes(&self) -> iter::Meshes<'_> {
        iter::Records::new(self, sys::GLTF_MESHES, crate::Mesh::new)
    }

    /// All nodes.
    pub fn nodes(&self) -> iter::Nodes<'_> {
        iter::Records::new(self, sys::GLTF_NODES, crate::Node::new)
    }

    /// All samplers of textures. The default sampler is not one of them.
    pub fn samplers(&self) -> iter::Samplers<'_> {
        iter::Records::new(self, sys::GLTF_SAMPLERS, crate::texture::Sampler::at)
    }

    /// All scenes.
    pub fn scenes(&self) -> iter::Scenes<'_> {
        iter::Records::new(self, sys::GLTF_SCENES, crate::Scene::new)
    }

    /// All skins.
    pub fn skins(&self) -> iter::Skins<'_> {
        iter::Records::new(self, sys::GLTF_SKINS, crate::Skin::new)
    }

    /// All textures.
    pub fn textures(&self) -> iter::Textures<'_> {
        iter::Records::new(self, sys::GLTF_TEXTURES, crate::Texture::new)
    }

    /// All variants of `KHR_materials_variants`; None where there are none.
    pub fn variants(&self) -> Option<iter::Variants<'_>> {
        let new = crate::khr_materials_variants::Variant::new;
        let variants = iter::Records::new(self, sys::GLTF_VARIANTS, new);
        (variants.len() > 0).then_some(variants)
    }

    /// All buffer views.
    pub fn views(&self) -> iter::Views<'_> {
        iter::Records::new(self, sys::GLTF_BUFFER_VIEWS, crate::buffer::View::new)
    }
}

impl fmt::Debug for Document {
    fn fmt(&self, f: &mut fmt::Formatter<'_>) -> fmt::Result {
        f.debug_struct("Document")
            .field("asset", &self.asset())
            .field("scenes", &self.scenes())
            .field("nodes", &self.nodes())
            .field("meshes", &self.meshes())
            .field("materials", &self.materials())
            .field("accessors", &self.accessors().len())
            .field("buffers", &self.buffers())
            .finish_non_exhaustive()
    }
}
