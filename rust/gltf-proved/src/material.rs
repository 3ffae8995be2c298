//! Materials.
use std::fmt;

use crate::texture::{Info, Texture, TextureTransform};
use crate::{sys, Document, Result};

/// How a material is laid over what is behind it (glTF 2.0, section 3.9.4).
#[derive(Clone, Copy, Debug, PartialEq, Eq, Hash)]
pub enum AlphaMode {
    /// It hides all of it.
    Opaque,
    /// It hides all of it or nothing.
    Mask,
    /// It is mixed with it.
    Blend,
}

/// A material (glTF 2.0, section 5.19).
#[derive(Clone)]
pub struct Material<'a> {
    pub(crate) document: &'a Document,
    index: Option<usize>,
    info: &'a sys::gltf_material,
}

impl<'a> Material<'a> {
    /// The material at an index; the default material if there is none.
    pub(crate) fn new(document: &'a Document, index: Option<usize>) -> Self {
        Material { document, index, info: document.material(index) }
    }

    fn has(&self, bit: u32) -> bool {
        self.info.has & bit != 0
    }

    /// The index of the record; None of the default material.
    pub fn index(&self) -> Option<usize> {
        self.index
    }

    /// The name, if the file states one.
    pub fn name(&self) -> Option<&'a str> {
        self.document.name(sys::GLTF_MATERIALS, self.index?)
    }

    /// From which alpha on it hides what is behind it, in the mode [`AlphaMode::Mask`]: 0.5 where
    /// the file states nothing.
    pub fn alpha_cutoff(&self) -> Option<f32> {
        Some(self.info.alpha_cutoff as f32)
    }

    /// How it is laid over what is behind it.
    pub fn alpha_mode(&self) -> AlphaMode {
        match self.info.alpha_mode {
            sys::GLTF_MASK => AlphaMode::Mask,
            sys::GLTF_BLEND => AlphaMode::Blend,
            _ => AlphaMode::Opaque,
        }
    }

    /// Whether the backs of triangles are drawn.
    pub fn double_sided(&self) -> bool {
        self.info.double_sided != 0
    }

    /// Its colours and its metal.
    pub fn pbr_metallic_roughness(&self) -> PbrMetallicRoughness<'a> {
        PbrMetallicRoughness::new(self.document, self.info)
    }

    /// `KHR_materials_pbrSpecularGlossiness`, if the material has it.
    pub fn pbr_specular_glossiness(&self) -> Option<PbrSpecularGlossiness<'a>> {
        self.has(sys::GLTF_SPECULAR_GLOSSINESS)
            .then(|| PbrSpecularGlossiness::new(self.document, self.info))
    }

    /// `KHR_materials_transmission`, if the material has it.
    pub fn transmission(&self) -> Option<Transmission<'a>> {
        self.has(sys::GLTF_TRANSMISSION).then(|| Transmission::new(self.document, self.info))
    }

    /// The index of refraction of `KHR_materials_ior`, if the material has it.
    pub fn ior(&self) -> Option<f32> {
        self.has(sys::GLTF_IOR).then_some(self.info.ior as f32)
    }

    /// The strength of `KHR_materials_emissive_strength`, if the material has it.
    pub fn emissive_strength(&self) -> Option<f32> {
        self.has(sys::GLTF_EMISSIVE_STRENGTH).then_some(self.info.emissive_strength as f32)
    }

    /// `KHR_materials_volume`, if the material has it.
    pub fn volume(&self) -> Option<Volume<'a>> {
        self.has(sys::GLTF_VOLUME).then(|| Volume::new(self.document, self.info))
    }

    /// `KHR_materials_specular`, if the material has it.
    pub fn specular(&self) -> Option<Specular<'a>> {
        self.has(sys::GLTF_SPECULAR).then(|| Specular::new(self.document, self.info))
    }

    /// Whether it has `KHR_materials_unlit`.
    pub fn unlit(&self) -> bool {
        self.has(sys::GLTF_UNLIT)
    }

    /// The texture of normals.
    pub fn normal_texture(&self) -> Option<NormalTexture<'a>> {
        NormalTexture::new(self.document, &self.info.normal)
    }

    /// The texture of what light does not reach.
    pub fn occlusion_texture(&self) -> Option<OcclusionTexture<'a>> {
        OcclusionTexture::new(self.document, &self.info.occlusion)
    }

    /// The texture of its own light.
    pub fn emissive_texture(&self) -> Option<Info<'a>> {
        Info::new(self.document, &self.info.emissive)
    }

    /// The colour of its own light.
    pub fn emissive_factor(&self) -> [f32; 3] {
        floats(self.info.emissive_factor)
    }

    /// The extras, as JSON text.
    pub fn extras(&self) -> Option<String> {
        self.document.file().json(sys::GLTF_MATERIALS, self.index?, 0, None)
    }

    /// What the material has of an extension, as JSON text: of one that this crate has no member
    /// for, and of those in [`extension`](crate::extension).
    pub fn extension_value(&self, key: &str) -> Option<String> {
        self.document.file().json(sys::GLTF_MATERIALS, self.index?, 0, Some(key))
    }

    /// The packet of metadata that describes it (`KHR_xmp_json_ld`), by its position in the list of
    /// packets ([`extension`](crate::extension)).
    pub fn xmp_packet(&self) -> Result<Option<usize>> {
        let Some(index) = self.index else { return Ok(None) };
        self.document.file().xmp_packet(sys::GLTF_MATERIALS, index, 0)
    }
}

impl fmt::Debug for Material<'_> {
    fn fmt(&self, f: &mut fmt::Formatter<'_>) -> fmt::Result {
        f.debug_struct("Material").field("index", &self.index).field("name", &self.name()).finish()
    }
}

pub(crate) fn floats<const N: usize>(numbers: [f64; N]) -> [f32; N] {
    numbers.map(|number| number as f32)
}

/// A part of a material: its type, the struct that has its members, its factors, of one number or
/// several, and its textures, of which those of normals are of another type.
macro_rules! part {
    (
        $(#[$about:meta])* $name:ident: $info:ty,
        numbers { $($(#[$one_about:meta])* $one:ident of $one_member:ident;)* }
        lists { $($(#[$many_about:meta])* $many:ident of $many_member:ident, $count:literal;)* }
        textures { $($(#[$use_about:meta])* $texture:ident of $use_member:ident;)* }
        $(normals { $($(#[$normal_about:meta])* $normal:ident of $normal_member:ident;)* })?
    ) => {
        $(#[$about])*
        #[derive(Clone)]
        pub struct $name<'a> {
            document: &'a Document,
            info: $info,
        }

        impl<'a> $name<'a> {
            pub(crate) fn new(document: &'a Document, info: $info) -> Self {
                $name { document, info }
            }

            $(
                $(#[$one_about])*
                pub fn $one(&self) -> f32 {
                    self.info.$one_member as f32
                }
            )*
            $(
                $(#[$many_about])*
                pub fn $many(&self) -> [f32; $count] {
                    $crate::material::floats(self.info.$many_member)
                }
            )*
            $(
                $(#[$use_about])*
                pub fn $texture(&self) -> Option<Info<'a>> {
                    Info::new(self.document, &self.info.$use_member)
                }
            )*
            $($(
                $(#[$normal_about])*
                pub fn $normal(&self) -> Option<NormalTexture<'a>> {
                    NormalTexture::new(self.document, &self.info.$normal_member)
                }
            )*)?
        }

        impl fmt::Debug for $name<'_> {
            fn fmt(&self, f: &mut fmt::Formatter<'_>) -> fmt::Result {
                let mut shown = f.debug_struct(stringify!($name));
                $(shown.field(stringify!($one), &self.$one());)*
                $(shown.field(stringify!($many), &self.$many());)*
                $(shown.field(stringify!($texture), &self.$texture());)*
                $($(shown.field(stringify!($normal), &self.$normal());)*)?
                shown.finish()
            }
        }
    };
}

pub(crate) use part;

part! {
    /// The colours and the metal of a material (glTF 2.0, section 5.22).
    PbrMetallicRoughness: &'a sys::gltf_material,
    numbers {
        /// How much of it is metal.
        metallic_factor of metallic_factor;
        /// How rough it is.
        roughness_factor of roughness_factor;
    }
    lists {
        /// Its colour: red, green, blue and alpha.
        base_color_factor of base_color_factor, 4;
    }
    textures {
        /// The texture of its colour.
        base_color_texture of base_color;
        /// The texture of its roughness (green) and metal (blue).
        metallic_roughness_texture of metallic_roughness;
    }
}

part! {
    /// `KHR_materials_pbrSpecularGlossiness`.
    PbrSpecularGlossiness: &'a sys::gltf_material,
    numbers {
        /// How glossy it is.
        glossiness_factor of glossiness_factor;
    }
    lists {
        /// The colour of what it scatters: red, green, blue and alpha.
        diffuse_factor of diffuse_factor, 4;
        /// The colour of what it mirrors.
        specular_factor of specular_glossiness_factor, 3;
    }
    textures {
        /// The texture of what it scatters.
        diffuse_texture of diffuse;
        /// The texture of what it mirrors, and of how glossy it is (alpha).
        specular_glossiness_texture of specular_glossiness;
    }
}

part! {
    /// `KHR_materials_transmission`: light that goes through a surface.
    Transmission: &'a sys::gltf_material,
    numbers {
        /// How much of the light goes through.
        transmission_factor of transmission_factor;
    }
    lists {}
    textures {
        /// The texture of how much goes through (red).
        transmission_texture of transmission;
    }
}

part! {
    /// `KHR_materials_volume`: what is inside of a surface.
    Volume: &'a sys::gltf_material,
    numbers {
        /// How thick it is.
        thickness_factor of thickness_factor;
        /// How far light goes on average before it meets a particle; infinite where the file states
        /// nothing.
        attenuation_distance of attenuation_distance;
    }
    lists {
        /// The colour that white light has after that distance.
        attenuation_color of attenuation_color, 3;
    }
    textures {
        /// The texture of how thick it is (green).
        thickness_texture of thickness;
    }
}

part! {
    /// `KHR_materials_specular`: how much a surface that is no metal mirrors.
    Specular: &'a sys::gltf_material,
    numbers {
        /// How much it mirrors.
        specular_factor of specular_factor;
    }
    lists {
        /// The colour of what it mirrors.
        specular_color_factor of specular_color_factor, 3;
    }
    textures {
        /// The texture of how much it mirrors (alpha).
        specular_texture of specular;
        /// The texture of the colour of what it mirrors.
        specular_color_texture of specular_color;
    }
}

/// The use of a texture that has a factor of its own.
macro_rules! factored {
    ($($(#[$about:meta])* $name:ident: $(#[$factor_about:meta])* $factor:ident;)*) => {$(
        $(#[$about])*
        #[derive(Clone, Debug)]
        pub struct $name<'a> {
            info: Info<'a>,
        }

        impl<'a> $name<'a> {
            /// The use of a texture, if there is a texture.
            pub(crate) fn new(
                document: &'a Document,
                info: &sys::gltf_texture_use,
            ) -> Option<Self> {
                Info::new(document, info).map(|info| $name { info })
            }

            $(#[$factor_about])*
            pub fn $factor(&self) -> f32 {
                self.info.scale()
            }

            /// The set of texture coordinates: that of `KHR_texture_transform` where it has one.
            pub fn tex_coord(&self) -> u32 {
                self.info.tex_coord()
            }

            /// The texture.
            pub fn texture(&self) -> Texture<'a> {
                self.info.texture()
            }

            /// How it is moved, turned and scaled, if the file states it.
            pub fn texture_transform(&self) -> Option<TextureTransform<'a>> {
                self.info.texture_transform()
            }
        }
    )*};
}

factored! {
    /// The texture of normals (glTF 2.0, section 5.20).
    NormalTexture:
    /// By how much the normals are tilted.
    scale;
    /// The texture of what light does not reach (glTF 2.0, section 5.21).
    OcclusionTexture:
    /// How dark that is.
    strength;
}
