//! Textures and their samplers.
use std::marker::PhantomData;

use crate::file::or_none;
use crate::{sys, Document, Image, Result};

record! {
    /// A texture (glTF 2.0, section 5.29).
    Texture: gltf_texture, GLTF_TEXTURES
}

/// How a texture is sampled where it is drawn larger than it is (glTF 2.0, section 5.26).
#[derive(Clone, Copy, Debug, PartialEq, Eq, Hash)]
pub enum MagFilter {
    /// 9728.
    Nearest,
    /// 9729.
    Linear,
}

/// How a texture is sampled where it is drawn smaller than it is (glTF 2.0, section 5.26).
#[derive(Clone, Copy, Debug, PartialEq, Eq, Hash)]
pub enum MinFilter {
    /// 9728.
    Nearest,
    /// 9729.
    Linear,
    /// 9984.
    NearestMipmapNearest,
    /// 9985.
    LinearMipmapNearest,
    /// 9986.
    NearestMipmapLinear,
    /// 9987.
    LinearMipmapLinear,
}

/// What is outside of a texture (glTF 2.0, section 5.26).
#[derive(Clone, Copy, Debug, PartialEq, Eq, Hash)]
pub enum WrappingMode {
    /// 33071.
    ClampToEdge,
    /// 33648.
    MirroredRepeat,
    /// 10497.
    Repeat,
}

/// The methods of an enum whose variants have numbers in the format.
macro_rules! numbered {
    ($($name:ident: $($variant:ident $number:literal,)*;)*) => {$(
        impl $name {
            fn of_number(number: u32) -> Option<Self> {
                match number {
                    $($number => Some($name::$variant),)*
                    _ => None,
                }
            }

            /// The number of it in the format.
            pub fn as_gl_enum(self) -> u32 {
                match self {
                    $($name::$variant => $number,)*
                }
            }
        }
    )*};
}

numbered! {
    MagFilter: Nearest 9728, Linear 9729,;
    MinFilter:
        Nearest 9728, Linear 9729, NearestMipmapNearest 9984, LinearMipmapNearest 9985,
        NearestMipmapLinear 9986, LinearMipmapLinear 9987,;
    WrappingMode: ClampToEdge 33071, MirroredRepeat 33648, Repeat 10497,;
}

impl<'a> Texture<'a> {
    /// Its sampler: the default sampler, which has no index, if the file names none.
    pub fn sampler(&self) -> Sampler<'a> {
        match or_none(self.info.sampler) {
            Some(index) => Sampler::at(self.document, index),
            None => Sampler { document: self.document, index: None, info: self.default_sampler() },
        }
    }

    /// The default sampler: the struct of the texture has its members.
    fn default_sampler(&self) -> sys::gltf_sampler {
        let it = &self.info;
        let (mag_filter, min_filter) = (it.mag_filter, it.min_filter);
        let (wrap_s, wrap_t) = (it.wrap_s, it.wrap_t);
        sys::gltf_sampler { mag_filter, min_filter, wrap_s, wrap_t, reserved: [0; 2] }
    }

    /// Its image. None where an extension has it: such a file requires that extension.
    pub fn source(&self) -> Option<Image<'a>> {
        or_none(self.info.image).map(|index| Image::new(self.document, index))
    }
}

/// How a texture is sampled (glTF 2.0, section 5.26).
#[derive(Clone)]
pub struct Sampler<'a> {
    document: &'a Document,
    index: Option<usize>,
    info: sys::gltf_sampler,
}

impl<'a> Sampler<'a> {
    pub(crate) fn at(document: &'a Document, index: usize) -> Self {
        Sampler { document, index: Some(index), info: document.file().info(index) }
    }

    /// The index of the record; None of the default sampler.
    pub fn index(&self) -> Option<usize> {
        self.index
    }

    /// The name, if the file states one.
    pub fn name(&self) -> Option<&'a str> {
        self.document.name(sys::GLTF_SAMPLERS, self.index?)
    }

    /// How it is drawn larger, if the file states it.
    pub fn mag_filter(&self) -> Option<MagFilter> {
        MagFilter::of_number(self.info.mag_filter)
    }

    /// How it is drawn smaller, if the file states it.
    pub fn min_filter(&self) -> Option<MinFilter> {
        MinFilter::of_number(self.info.min_filter)
    }

    /// What is outside of it along the first coordinate.
    pub fn wrap_s(&self) -> WrappingMode {
        WrappingMode::of_number(self.info.wrap_s).unwrap_or(WrappingMode::Repeat)
    }

    /// What is outside of it along the second coordinate.
    pub fn wrap_t(&self) -> WrappingMode {
        WrappingMode::of_number(self.info.wrap_t).unwrap_or(WrappingMode::Repeat)
    }

    /// The extras, as JSON text.
    pub fn extras(&self) -> Option<String> {
        self.document.file().json(sys::GLTF_SAMPLERS, self.index?, 0, None)
    }

    /// What the record has of an extension, as JSON text.
    pub fn extension_value(&self, ext_name: &str) -> Option<String> {
        self.document.file().json(sys::GLTF_SAMPLERS, self.index?, 0, Some(ext_name))
    }

    /// The packet of metadata that describes it (`KHR_xmp_json_ld`), by its position in the list of
    /// packets ([`extension`](crate::extension)).
    pub fn xmp_packet(&self) -> Result<Option<usize>> {
        let Some(index) = self.index else { return Ok(None) };
        self.document.file().xmp_packet(sys::GLTF_SAMPLERS, index, 0)
    }
}

impl std::fmt::Debug for Sampler<'_> {
    fn fmt(&self, f: &mut std::fmt::Formatter<'_>) -> std::fmt::Result {
        f.debug_struct("Sampler").field("index", &self.index).field("name", &self.name()).finish()
    }
}

/// A use of a texture in a material (glTF 2.0, section 5.30).
#[derive(Clone)]
pub struct Info<'a> {
    document: &'a Document,
    info: sys::gltf_texture_use,
}

/// How a use of a texture moves, turns and scales it (`KHR_texture_transform`).
#[derive(Clone, Copy, Debug)]
pub struct TextureTransform<'a> {
    info: sys::gltf_texture_use,
    of: PhantomData<&'a Document>,
}

impl<'a> Info<'a> {
    /// The use of a texture, if there is a texture.
    pub(crate) fn new(document: &'a Document, info: &sys::gltf_texture_use) -> Option<Self> {
        or_none(info.texture).map(|_| Info { document, info: *info })
    }

    /// The set of texture coordinates: that of `KHR_texture_transform` where it has one.
    pub fn tex_coord(&self) -> u32 {
        self.info.tex_coord
    }

    /// The texture.
    pub fn texture(&self) -> Texture<'a> {
        Texture::new(self.document, self.info.texture)
    }

    /// How it is moved, turned and scaled, if the file states it.
    pub fn texture_transform(&self) -> Option<TextureTransform<'a>> {
        let transform = TextureTransform { info: self.info, of: PhantomData };
        (self.info.has_transform != 0).then_some(transform)
    }

    /// The scale of a normal texture, or the strength of an occlusion texture.
    pub(crate) fn scale(&self) -> f32 {
        self.info.scale as f32
    }
}

impl std::fmt::Debug for Info<'_> {
    fn fmt(&self, f: &mut std::fmt::Formatter<'_>) -> std::fmt::Result {
        let mut shown = f.debug_struct("Info");
        shown.field("texture", &self.texture()).field("tex_coord", &self.tex_coord()).finish()
    }
}

impl TextureTransform<'_> {
    /// By how much it is moved.
    pub fn offset(&self) -> [f32; 2] {
        self.info.offset.map(|number| number as f32)
    }

    /// By how much it is turned, in radians.
    pub fn rotation(&self) -> f32 {
        self.info.rotation as f32
    }

    /// By how much it is scaled.
    pub fn scale(&self) -> [f32; 2] {
        self.info.size.map(|number| number as f32)
    }
}
