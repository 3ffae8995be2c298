//! Extensions that are read when they are asked for: those of materials, textures, nodes and views
//! that the crate `gltf` has not.
//!
//! No rule looks at them when a file is opened. Each getter, as [`Material::clearcoat`], returns
//! None where the record has no such extension ([`Node::visible`] returns true). It fails with
//! [`Error::BadExtension`], which has the place of the extension, where the extension is no object,
//! a required member is missing, a member is of another kind than the extension asks for, an index
//! is out of range, or a word is unknown; and with [`Error::NoMemory`]. Members that are absent
//! have the defaults of the extension, and members that it does not define are ignored.
//!
//! A file that requires one of these extensions opens if [`Options::extension`] names it.
//!
//! # Packets of metadata
//!
//! `xmp_packet`, as [`Node::xmp_packet`], is the packet of metadata that describes a record
//! (`KHR_xmp_json_ld`). It is a position in the list `packets` of the document, which
//! [`Document::extension_value`] has as JSON text under that name. It is None where the record has
//! no such extension, and fails as above; a packet past the end of the list is
//! [`Error::BadExtension`] too. The extension is for scenes, nodes, meshes, materials, images,
//! animations and the [`Asset`]; other records can be asked as well.
//!
//! [`Asset`]: crate::Asset
//! [`Error::BadExtension`]: crate::Error::BadExtension
//! [`Error::NoMemory`]: crate::Error::NoMemory
//! [`Options::extension`]: crate::Options::extension
use std::fmt;

use crate::buffer::{Buffer, View};
use crate::file::{self, or_none, ExtensionCall};
use crate::material::{part, NormalTexture};
use crate::texture::Info;
use crate::{sys, Accessor, Document, Image, Material, Node, Result, Texture};

part! {
    /// `KHR_materials_clearcoat`: a clear layer above a surface, such as lacquer.
    Clearcoat: sys::gltf_clearcoat,
    numbers {
        /// How much of the layer there is, from 0 (none, the default) to 1.
        clearcoat_factor of clearcoat_factor;
        /// How rough the layer is, from 0 (smooth, the default) to 1.
        clearcoat_roughness_factor of clearcoat_roughness_factor;
    }
    lists {}
    textures {
        /// The texture of how much there is (red).
        clearcoat_texture of clearcoat;
        /// The texture of how rough it is (green).
        clearcoat_roughness_texture of clearcoat_roughness;
    }
    normals {
        /// The texture of the normals of the layer. Those of the surface below do not apply to it.
        clearcoat_normal_texture of clearcoat_normal;
    }
}

part! {
    /// `KHR_materials_sheen`: the soft reflection of cloth.
    Sheen: sys::gltf_sheen,
    numbers {
        /// How rough it is, from 0 (the default) to 1.
        sheen_roughness_factor of sheen_roughness_factor;
    }
    lists {
        /// The colour of the reflection, linear: red, green and blue. Black, the default, is none.
        sheen_color_factor of sheen_color_factor, 3;
    }
    textures {
        /// The texture of the colour (sRGB).
        sheen_color_texture of sheen_color;
        /// The texture of how rough it is (alpha).
        sheen_roughness_texture of sheen_roughness;
    }
}

part! {
    /// `KHR_materials_iridescence`: a thin film, whose colour depends on the angle of view.
    Iridescence: sys::gltf_iridescence,
    numbers {
        /// How much of the film there is, from 0 (none, the default) to 1.
        iridescence_factor of iridescence_factor;
        /// The index of refraction of the film; by default 1.3.
        iridescence_ior of iridescence_ior;
        /// How thick the film is where the texture is 0, in nanometres; by default 100.
        iridescence_thickness_minimum of iridescence_thickness_minimum;
        /// How thick the film is where the texture is 1, or there is none, in nanometres; by
        /// default 400.
        iridescence_thickness_maximum of iridescence_thickness_maximum;
    }
    lists {}
    textures {
        /// The texture of how much there is (red).
        iridescence_texture of iridescence;
        /// The texture of how thick it is (green).
        iridescence_thickness_texture of iridescence_thickness;
    }
}

part! {
    /// `KHR_materials_anisotropy`: reflections that are stretched, as those of brushed metal.
    Anisotropy: sys::gltf_anisotropy,
    numbers {
        /// How far they are stretched, from 0 (not at all, the default) to 1.
        anisotropy_strength of anisotropy_strength;
        /// The direction, in radians from the tangent, counter-clockwise; by default 0.
        anisotropy_rotation of anisotropy_rotation;
    }
    lists {}
    textures {
        /// The texture of the direction (red and green) and of the strength (blue).
        anisotropy_texture of anisotropy;
    }
}

part! {
    /// `KHR_materials_diffuse_transmission`: light that goes through a surface and is scattered, as
    /// through a leaf.
    DiffuseTransmission: sys::gltf_diffuse_transmission,
    numbers {
        /// How much of the light that is not mirrored goes through, from 0 (the default) to 1.
        diffuse_transmission_factor of diffuse_transmission_factor;
    }
    lists {
        /// The colour of what goes through, linear: red, green and blue. By default it is white.
        diffuse_transmission_color_factor of diffuse_transmission_color_factor, 3;
    }
    textures {
        /// The texture of how much goes through (alpha).
        diffuse_transmission_texture of diffuse_transmission;
        /// The texture of the colour (sRGB).
        diffuse_transmission_color_texture of diffuse_transmission_color;
    }
}

/// What a call finds of the record at an index, as `make` makes it; None where the record has no
/// such extension.
fn found<'a, I, T>(
    document: &'a Document,
    call: &ExtensionCall<I>,
    index: usize,
    make: impl FnOnce(&'a Document, I) -> T,
) -> Result<Option<T>> {
    Ok(document.file().extension(call, index)?.map(|info| make(document, info)))
}

impl<'a> Material<'a> {
    /// The same of a material. The default material has no extension.
    fn found<I, T>(
        &self,
        call: &ExtensionCall<I>,
        make: impl FnOnce(&'a Document, I) -> T,
    ) -> Result<Option<T>> {
        self.index().map_or(Ok(None), |index| found(self.document, call, index, make))
    }

    /// `KHR_materials_clearcoat`, if the material has it; an error if it is not of its form.
    pub fn clearcoat(&self) -> Result<Option<Clearcoat<'a>>> {
        self.found(&file::CLEARCOAT, Clearcoat::new)
    }

    /// `KHR_materials_sheen`, if the material has it; an error if it is not of its form.
    pub fn sheen(&self) -> Result<Option<Sheen<'a>>> {
        self.found(&file::SHEEN, Sheen::new)
    }

    /// `KHR_materials_iridescence`, if the material has it; an error if it is not of its form.
    pub fn iridescence(&self) -> Result<Option<Iridescence<'a>>> {
        self.found(&file::IRIDESCENCE, Iridescence::new)
    }

    /// `KHR_materials_anisotropy`, if the material has it; an error if it is not of its form.
    pub fn anisotropy(&self) -> Result<Option<Anisotropy<'a>>> {
        self.found(&file::ANISOTROPY, Anisotropy::new)
    }

    /// How a volume parts the colours of light, if the material has `KHR_materials_dispersion`: 20
    /// divided by the Abbe number; 0, the default, is not at all. An error if it is not of its
    /// form.
    pub fn dispersion(&self) -> Result<Option<f32>> {
        self.found(&file::DISPERSION, |_, info| info.dispersion as f32)
    }

    /// `KHR_materials_diffuse_transmission`, if the material has it; an error if it is not of its
    /// form.
    pub fn diffuse_transmission(&self) -> Result<Option<DiffuseTransmission<'a>>> {
        self.found(&file::DIFFUSE_TRANSMISSION, DiffuseTransmission::new)
    }
}

impl<'a> Texture<'a> {
    fn image_of(
        &self,
        call: &ExtensionCall<sys::gltf_texture_source>,
    ) -> Result<Option<Image<'a>>> {
        let image = found(self.document, call, self.index(), |document, info| {
            or_none(info.image).map(|index| Image::new(document, index))
        });
        image.map(Option::flatten)
    }

    /// The KTX2 image with Basis Universal of `KHR_texture_basisu`, for those who can decode it.
    /// None where the texture has no such extension, or this names no image; an error if it is not
    /// of its form.
    pub fn basisu(&self) -> Result<Option<Image<'a>>> {
        self.image_of(&file::BASISU)
    }

    /// The WebP image of `EXT_texture_webp`, for those who can decode it. None where the texture
    /// has no such extension, or this names no image; an error if it is not of its form.
    pub fn webp(&self) -> Result<Option<Image<'a>>> {
        self.image_of(&file::WEBP)
    }
}

impl<'a> Node<'a> {
    /// The instances of its mesh (`EXT_mesh_gpu_instancing`), if the node has them; an error if the
    /// extension is not of its form.
    pub fn instancing(&self) -> Result<Option<Instancing<'a>>> {
        found(self.document, &file::INSTANCING, self.index(), Instancing::new)
    }

    /// Whether it is shown (`KHR_node_visibility`): true where it has no such extension. Where it
    /// is not shown, neither are the nodes below it. An error if the extension is not of its form.
    pub fn visible(&self) -> Result<bool> {
        let visible =
            found(self.document, &file::VISIBILITY, self.index(), |_, info| info.visible != 0);
        visible.map(|it| it.unwrap_or(true))
    }
}

impl<'a> View<'a> {
    /// How it is compressed (`EXT_meshopt_compression`), if it is; an error if the extension is not
    /// of its form.
    pub fn meshopt(&self) -> Result<Option<Meshopt<'a>>> {
        found(self.document, &file::MESHOPT, self.index(), Meshopt::new)
    }
}

/// `EXT_mesh_gpu_instancing`: instances of the mesh of a node.
///
/// Each of its accessors has an item for each instance. No rule says that it is there, or that
/// their counts and types are the right ones: the accessors say both.
#[derive(Clone)]
pub struct Instancing<'a> {
    document: &'a Document,
    info: sys::gltf_instancing,
}

impl<'a> Instancing<'a> {
    fn new(document: &'a Document, info: sys::gltf_instancing) -> Self {
        Instancing { document, info }
    }

    fn accessor(&self, index: usize) -> Option<Accessor<'a>> {
        or_none(index).map(|index| Accessor::new(self.document, index))
    }

    /// Where the instances are, below the node (`TRANSLATION`). None: where the node is.
    pub fn translation(&self) -> Option<Accessor<'a>> {
        self.accessor(self.info.translation)
    }

    /// How they are turned (`ROTATION`), by quaternions x, y, z, w as the file has them: no rule
    /// says that they are unit quaternions. None: not at all.
    pub fn rotation(&self) -> Option<Accessor<'a>> {
        self.accessor(self.info.rotation)
    }

    /// By how much they are scaled (`SCALE`). None: not at all.
    pub fn scale(&self) -> Option<Accessor<'a>> {
        self.accessor(self.info.scale)
    }
}

impl fmt::Debug for Instancing<'_> {
    fn fmt(&self, f: &mut fmt::Formatter<'_>) -> fmt::Result {
        f.debug_struct("Instancing")
            .field("translation", &self.translation())
            .field("rotation", &self.rotation())
            .field("scale", &self.scale())
            .finish()
    }
}

/// What a compressed view holds (`mode` of `EXT_meshopt_compression`).
#[derive(Clone, Copy, Debug, PartialEq, Eq, Hash)]
pub enum MeshoptMode {
    /// `ATTRIBUTES`: items of any kind, as vertices and keyframes.
    Attributes,
    /// `TRIANGLES`: indices of lists of triangles.
    Triangles,
    /// `INDICES`: other indices.
    Indices,
}

/// What is done to the items after they are decompressed (`filter` of `EXT_meshopt_compression`).
#[derive(Clone, Copy, Debug, PartialEq, Eq, Hash)]
pub enum MeshoptFilter {
    /// `OCTAHEDRAL`: they are normals or tangents.
    Octahedral,
    /// `QUATERNION`: they are unit quaternions.
    Quaternion,
    /// `EXPONENTIAL`: they are floats, by an exponent and a fraction.
    Exponential,
}

/// `EXT_meshopt_compression`: where the compressed bytes of a view are, and how they are
/// decompressed. This crate decompresses nothing.
#[derive(Clone)]
pub struct Meshopt<'a> {
    document: &'a Document,
    info: sys::gltf_meshopt,
}

impl<'a> Meshopt<'a> {
    fn new(document: &'a Document, info: sys::gltf_meshopt) -> Self {
        Meshopt { document, info }
    }

    /// The buffer with the compressed bytes.
    pub fn buffer(&self) -> Buffer<'a> {
        Buffer::new(self.document, self.info.buffer)
    }

    /// The bytes of the buffer before them.
    pub fn offset(&self) -> usize {
        self.info.byte_offset
    }

    /// How many compressed bytes there are.
    pub fn length(&self) -> usize {
        self.info.byte_length
    }

    /// The bytes from one decompressed item to the next.
    pub fn stride(&self) -> usize {
        self.info.byte_stride
    }

    /// How many items there are, as the file says it: look at it before you make room for them.
    pub fn count(&self) -> usize {
        self.info.count
    }

    /// What the view holds.
    pub fn mode(&self) -> MeshoptMode {
        match self.info.mode {
            sys::GLTF_MESHOPT_TRIANGLES => MeshoptMode::Triangles,
            sys::GLTF_MESHOPT_INDICES => MeshoptMode::Indices,
            _ => MeshoptMode::Attributes,
        }
    }

    /// What is done to the items after they are decompressed; None is nothing.
    pub fn filter(&self) -> Option<MeshoptFilter> {
        match self.info.filter {
            sys::GLTF_MESHOPT_OCTAHEDRAL => Some(MeshoptFilter::Octahedral),
            sys::GLTF_MESHOPT_QUATERNION => Some(MeshoptFilter::Quaternion),
            sys::GLTF_MESHOPT_EXPONENTIAL => Some(MeshoptFilter::Exponential),
            _ => None,
        }
    }

    /// The compressed bytes, in place. None where they are not inside their buffer, which no rule
    /// looks at.
    pub fn bytes(&self) -> Option<&'a [u8]> {
        self.buffer().bytes()?.get(self.offset()..)?.get(..self.length())
    }
}

impl fmt::Debug for Meshopt<'_> {
    fn fmt(&self, f: &mut fmt::Formatter<'_>) -> fmt::Result {
        f.debug_struct("Meshopt")
            .field("buffer", &self.info.buffer)
            .field("offset", &self.offset())
            .field("length", &self.length())
            .field("stride", &self.stride())
            .field("count", &self.count())
            .field("mode", &self.mode())
            .field("filter", &self.filter())
            .finish()
    }
}
