//! `gltf.h`, the header of the library for C, version 2: its structs, numbers and calls by their
//! names there. This is the one place where they are declared. `tools/rust.py` compares each of
//! them with the header.
#![allow(non_camel_case_types)]
// All of the header is here, whether this crate uses it or not.
#![allow(dead_code)]

use std::os::raw::{c_char, c_void};

/// The version of the header: major * 10000 + minor * 100 + patch.
pub const GLTF_VERSION: u32 = 20200;

/// The index of a record that is absent.
pub const GLTF_NONE: usize = usize::MAX;

pub type gltf_status = u32;

/// An open file.
#[repr(C)]
pub struct gltf_file {
    _opaque: [u8; 0],
}

pub const GLTF_SUCCESS: u32 = 0;
pub const GLTF_NO_MEMORY: u32 = 1;
pub const GLTF_BAD_CONTAINER: u32 = 2;
pub const GLTF_BAD_JSON: u32 = 3;
pub const GLTF_BROKEN_RULES: u32 = 4;
pub const GLTF_BAD_BASE64: u32 = 5;
pub const GLTF_SHORT_BUFFER: u32 = 6;
pub const GLTF_MISSING_BLOB: u32 = 7;
pub const GLTF_EXTERNAL_REFERENCE: u32 = 8;
pub const GLTF_UNSUPPORTED_SCHEME: u32 = 9;
pub const GLTF_CANNOT_READ: u32 = 10;
pub const GLTF_CLOSED: u32 = 11;
pub const GLTF_NO_SUCH_INDEX: u32 = 12;
pub const GLTF_UNREADABLE: u32 = 13;
pub const GLTF_NO_ROOM: u32 = 14;
pub const GLTF_OTHER_TYPE: u32 = 16;
pub const GLTF_BAD_EXTENSION: u32 = 17;
pub const GLTF_BAD_ARGUMENT: u32 = 18;
pub const GLTF_EXTERNAL: u32 = 1;
pub const GLTF_EXACT_LENGTHS: u32 = 2;
pub const GLTF_BUFFERS: u32 = 0;
pub const GLTF_BUFFER_VIEWS: u32 = 1;
pub const GLTF_ACCESSORS: u32 = 2;
pub const GLTF_MESHES: u32 = 3;
pub const GLTF_NODES: u32 = 4;
pub const GLTF_MATERIALS: u32 = 5;
pub const GLTF_SCENES: u32 = 6;
pub const GLTF_SKINS: u32 = 7;
pub const GLTF_ANIMATIONS: u32 = 8;
pub const GLTF_IMAGES: u32 = 9;
pub const GLTF_TEXTURES: u32 = 10;
pub const GLTF_SAMPLERS: u32 = 11;
pub const GLTF_CAMERAS: u32 = 12;
pub const GLTF_LIGHTS: u32 = 13;
pub const GLTF_VARIANTS: u32 = 14;
pub const GLTF_EXTENSIONS_USED: u32 = 15;
pub const GLTF_EXTENSIONS_REQUIRED: u32 = 16;
pub const GLTF_ASSET: u32 = 17;
pub const GLTF_ROOT: u32 = 18;
pub const GLTF_PRIMITIVES: u32 = 19;
pub const GLTF_CHANNELS: u32 = 20;
pub const GLTF_ANIMATION_SAMPLERS: u32 = 21;
pub const GLTF_BUFFER_URI: u32 = 0;
pub const GLTF_IMAGE_URI: u32 = 1;
pub const GLTF_IMAGE_MIME_TYPE: u32 = 2;
pub const GLTF_ASSET_VERSION: u32 = 3;
pub const GLTF_ASSET_MIN_VERSION: u32 = 4;
pub const GLTF_ASSET_GENERATOR: u32 = 5;
pub const GLTF_ASSET_COPYRIGHT: u32 = 6;
pub const GLTF_SCENE_NODES: u32 = 0;
pub const GLTF_NODE_CHILDREN: u32 = 1;
pub const GLTF_SKIN_JOINTS: u32 = 2;
pub const GLTF_ACCESSOR_MIN: u32 = 0;
pub const GLTF_ACCESSOR_MAX: u32 = 1;
pub const GLTF_MESH_WEIGHTS: u32 = 2;
pub const GLTF_NODE_WEIGHTS: u32 = 3;
pub const GLTF_I8: u32 = 5120;
pub const GLTF_U8: u32 = 5121;
pub const GLTF_I16: u32 = 5122;
pub const GLTF_U16: u32 = 5123;
pub const GLTF_U32: u32 = 5125;
pub const GLTF_F32: u32 = 5126;
pub const GLTF_POINTS: u32 = 0;
pub const GLTF_LINES: u32 = 1;
pub const GLTF_LINE_LOOP: u32 = 2;
pub const GLTF_LINE_STRIP: u32 = 3;
pub const GLTF_TRIANGLES: u32 = 4;
pub const GLTF_TRIANGLE_STRIP: u32 = 5;
pub const GLTF_TRIANGLE_FAN: u32 = 6;
pub const GLTF_POSITION: u32 = 0;
pub const GLTF_NORMAL: u32 = 1;
pub const GLTF_TANGENT: u32 = 2;
pub const GLTF_COLOR: u32 = 3;
pub const GLTF_TEXCOORD: u32 = 4;
pub const GLTF_JOINTS: u32 = 5;
pub const GLTF_WEIGHTS: u32 = 6;
pub const GLTF_CUSTOM: u32 = 7;
pub const GLTF_UNLIT: u32 = 1;
pub const GLTF_SPECULAR_GLOSSINESS: u32 = 2;
pub const GLTF_TRANSMISSION: u32 = 4;
pub const GLTF_IOR: u32 = 8;
pub const GLTF_EMISSIVE_STRENGTH: u32 = 16;
pub const GLTF_VOLUME: u32 = 32;
pub const GLTF_SPECULAR: u32 = 64;
pub const GLTF_METALLIC_ROUGHNESS: u32 = 128;
pub const GLTF_OPAQUE: u32 = 0;
pub const GLTF_MASK: u32 = 1;
pub const GLTF_BLEND: u32 = 2;
pub const GLTF_HAS_MATRIX: u32 = 1;
pub const GLTF_HAS_TRANSLATION: u32 = 2;
pub const GLTF_HAS_ROTATION: u32 = 4;
pub const GLTF_HAS_SCALE: u32 = 8;
pub const GLTF_PATH_TRANSLATION: u32 = 0;
pub const GLTF_PATH_ROTATION: u32 = 1;
pub const GLTF_PATH_SCALE: u32 = 2;
pub const GLTF_PATH_WEIGHTS: u32 = 3;
pub const GLTF_LINEAR: u32 = 0;
pub const GLTF_STEP: u32 = 1;
pub const GLTF_CUBIC_SPLINE: u32 = 2;
pub const GLTF_DIRECTIONAL: u32 = 0;
pub const GLTF_POINT: u32 = 1;
pub const GLTF_SPOT: u32 = 2;
pub const GLTF_MESHOPT_ATTRIBUTES: u32 = 0;
pub const GLTF_MESHOPT_TRIANGLES: u32 = 1;
pub const GLTF_MESHOPT_INDICES: u32 = 2;
pub const GLTF_MESHOPT_NO_FILTER: u32 = 0;
pub const GLTF_MESHOPT_OCTAHEDRAL: u32 = 1;
pub const GLTF_MESHOPT_QUATERNION: u32 = 2;
pub const GLTF_MESHOPT_EXPONENTIAL: u32 = 3;

#[repr(C)]
#[derive(Clone, Copy, Debug)]
pub struct gltf_fault {
    pub status: gltf_status,
    pub rules: u32,
    pub buffer: usize,
    pub expected: usize,
    pub actual: usize,
    pub reserved: [usize; 4],
    pub path: [u8; 128],
    pub text: [u8; 512],
}

#[repr(C)]
#[derive(Clone, Copy, Debug)]
pub struct gltf_open_options {
    pub flags: u32,
    pub reserved_word: u32,
    pub extensions: *const *const c_char,
    pub extension_count: usize,
    pub reserved: [usize; 4],
}

#[repr(C)]
#[derive(Clone, Copy, Debug)]
pub struct gltf_buffer {
    pub bytes: *const u8,
    pub size: usize,
    pub byte_length: usize,
    pub waits: u32,
    pub reserved_word: u32,
    pub reserved: [usize; 2],
}

#[repr(C)]
#[derive(Clone, Copy, Debug)]
pub struct gltf_buffer_view {
    pub buffer: usize,
    pub byte_offset: usize,
    pub byte_length: usize,
    pub byte_stride: usize,
    pub target: u32,
    pub reserved_word: u32,
    /// An address, as a number: a handle is to be sent to other threads.
    pub bytes: usize,
    pub reserved: [usize; 1],
}

#[repr(C)]
#[derive(Clone, Copy, Debug)]
pub struct gltf_accessor {
    pub count: usize,
    pub item_size: usize,
    pub component_type: u32,
    pub components: u32,
    pub is_matrix: u32,
    pub normalized: u32,
    pub sparse: usize,
    pub view: usize,
    pub byte_offset: usize,
    pub stride: usize,
    pub data: *const u8,
    pub reserved: [usize; 4],
}

#[repr(C)]
#[derive(Clone, Copy, Debug)]
pub struct gltf_mesh {
    pub primitives: usize,
    pub weights: usize,
    pub reserved: [usize; 2],
}

#[repr(C)]
#[derive(Clone, Copy, Debug)]
pub struct gltf_primitive {
    pub mode: u32,
    pub reserved_word: u32,
    pub indices: usize,
    pub material: usize,
    pub attributes: usize,
    pub targets: usize,
    pub reserved: [usize; 2],
}

#[repr(C)]
#[derive(Clone, Copy, Debug)]
pub struct gltf_attribute {
    pub meaning: u32,
    pub set: u32,
    pub accessor: usize,
    pub reserved: [usize; 2],
}

#[repr(C)]
#[derive(Clone, Copy, Debug)]
pub struct gltf_texture_use {
    pub texture: usize,
    pub tex_coord: u32,
    pub has_transform: u32,
    pub scale: f64,
    pub offset: [f64; 2],
    pub rotation: f64,
    pub size: [f64; 2],
}

#[repr(C)]
#[derive(Clone, Copy, Debug)]
pub struct gltf_material {
    pub alpha_mode: u32,
    pub double_sided: u32,
    pub has: u32,
    pub reserved_word: u32,
    pub alpha_cutoff: f64,
    pub base_color_factor: [f64; 4],
    pub metallic_factor: f64,
    pub roughness_factor: f64,
    pub emissive_factor: [f64; 3],
    pub base_color: gltf_texture_use,
    pub metallic_roughness: gltf_texture_use,
    pub normal: gltf_texture_use,
    pub occlusion: gltf_texture_use,
    pub emissive: gltf_texture_use,
    pub diffuse_factor: [f64; 4],
    pub specular_glossiness_factor: [f64; 3],
    pub glossiness_factor: f64,
    pub diffuse: gltf_texture_use,
    pub specular_glossiness: gltf_texture_use,
    pub transmission_factor: f64,
    pub ior: f64,
    pub emissive_strength: f64,
    pub transmission: gltf_texture_use,
    pub thickness_factor: f64,
    pub attenuation_distance: f64,
    pub attenuation_color: [f64; 3],
    pub thickness: gltf_texture_use,
    pub specular_factor: f64,
    pub specular_color_factor: [f64; 3],
    pub specular: gltf_texture_use,
    pub specular_color: gltf_texture_use,
    pub reserved: [usize; 8],
}

#[repr(C)]
#[derive(Clone, Copy, Debug)]
pub struct gltf_sampler {
    pub mag_filter: u32,
    pub min_filter: u32,
    pub wrap_s: u32,
    pub wrap_t: u32,
    pub reserved: [usize; 2],
}

#[repr(C)]
#[derive(Clone, Copy, Debug)]
pub struct gltf_texture {
    pub image: usize,
    pub sampler: usize,
    pub mag_filter: u32,
    pub min_filter: u32,
    pub wrap_s: u32,
    pub wrap_t: u32,
    pub reserved: [usize; 2],
}

#[repr(C)]
#[derive(Clone, Copy, Debug)]
pub struct gltf_image {
    pub view: usize,
    pub bytes: *const u8,
    pub size: usize,
    pub reserved: [usize; 2],
}

#[repr(C)]
#[derive(Clone, Copy, Debug)]
pub struct gltf_scene {
    pub nodes: usize,
    pub reserved: [usize; 2],
}

#[repr(C)]
#[derive(Clone, Copy, Debug)]
pub struct gltf_node {
    pub mesh: usize,
    pub skin: usize,
    pub camera: usize,
    pub light: usize,
    pub children: usize,
    pub weights: usize,
    pub has: u32,
    pub reserved_word: u32,
    pub matrix: [f64; 16],
    pub translation: [f64; 3],
    pub rotation: [f64; 4],
    pub scale: [f64; 3],
    pub reserved: [usize; 4],
}

#[repr(C)]
#[derive(Clone, Copy, Debug)]
pub struct gltf_skin {
    pub joints: usize,
    pub skeleton: usize,
    pub inverse_bind_matrices: usize,
    pub reserved: [usize; 2],
}

#[repr(C)]
#[derive(Clone, Copy, Debug)]
pub struct gltf_animation {
    pub channels: usize,
    pub samplers: usize,
    pub reserved: [usize; 2],
}

#[repr(C)]
#[derive(Clone, Copy, Debug)]
pub struct gltf_channel {
    pub node: usize,
    pub path: u32,
    pub interpolation: u32,
    pub sampler: usize,
    pub input: usize,
    pub output: usize,
    pub reserved: [usize; 2],
}

#[repr(C)]
#[derive(Clone, Copy, Debug)]
pub struct gltf_camera {
    pub orthographic: u32,
    pub reserved_word: u32,
    pub znear: f64,
    pub zfar: f64,
    pub xmag: f64,
    pub ymag: f64,
    pub yfov: f64,
    pub aspect_ratio: f64,
    pub reserved: [usize; 2],
}

#[repr(C)]
#[derive(Clone, Copy, Debug)]
pub struct gltf_light {
    pub r#type: u32,
    pub reserved_word: u32,
    pub color: [f64; 3],
    pub intensity: f64,
    pub range: f64,
    pub inner_cone_angle: f64,
    pub outer_cone_angle: f64,
    pub reserved: [usize; 2],
}

#[repr(C)]
#[derive(Clone, Copy, Debug)]
pub struct gltf_clearcoat {
    pub clearcoat_factor: f64,
    pub clearcoat_roughness_factor: f64,
    pub clearcoat: gltf_texture_use,
    pub clearcoat_roughness: gltf_texture_use,
    pub clearcoat_normal: gltf_texture_use,
    pub reserved: [usize; 4],
}

#[repr(C)]
#[derive(Clone, Copy, Debug)]
pub struct gltf_sheen {
    pub sheen_color_factor: [f64; 3],
    pub sheen_roughness_factor: f64,
    pub sheen_color: gltf_texture_use,
    pub sheen_roughness: gltf_texture_use,
    pub reserved: [usize; 4],
}

#[repr(C)]
#[derive(Clone, Copy, Debug)]
pub struct gltf_iridescence {
    pub iridescence_factor: f64,
    pub iridescence_ior: f64,
    pub iridescence_thickness_minimum: f64,
    pub iridescence_thickness_maximum: f64,
    pub iridescence: gltf_texture_use,
    pub iridescence_thickness: gltf_texture_use,
    pub reserved: [usize; 4],
}

#[repr(C)]
#[derive(Clone, Copy, Debug)]
pub struct gltf_anisotropy {
    pub anisotropy_strength: f64,
    pub anisotropy_rotation: f64,
    pub anisotropy: gltf_texture_use,
    pub reserved: [usize; 4],
}

#[repr(C)]
#[derive(Clone, Copy, Debug)]
pub struct gltf_dispersion {
    pub dispersion: f64,
    pub reserved: [usize; 4],
}

#[repr(C)]
#[derive(Clone, Copy, Debug)]
pub struct gltf_diffuse_transmission {
    pub diffuse_transmission_factor: f64,
    pub diffuse_transmission_color_factor: [f64; 3],
    pub diffuse_transmission: gltf_texture_use,
    pub diffuse_transmission_color: gltf_texture_use,
    pub reserved: [usize; 4],
}

#[repr(C)]
#[derive(Clone, Copy, Debug)]
pub struct gltf_texture_source {
    pub image: usize,
    pub reserved: [usize; 3],
}

#[repr(C)]
#[derive(Clone, Copy, Debug)]
pub struct gltf_instancing {
    pub translation: usize,
    pub rotation: usize,
    pub scale: usize,
    pub reserved: [usize; 5],
}

#[repr(C)]
#[derive(Clone, Copy, Debug)]
pub struct gltf_visibility {
    pub visible: u32,
    pub reserved_word: u32,
    pub reserved: [usize; 3],
}

#[repr(C)]
#[derive(Clone, Copy, Debug)]
pub struct gltf_meshopt {
    pub buffer: usize,
    pub byte_offset: usize,
    pub byte_length: usize,
    pub byte_stride: usize,
    pub count: usize,
    pub mode: u32,
    pub filter: u32,
    pub reserved: [usize; 2],
}

extern "C" {
    pub fn gltf_version() -> u32;
    pub fn gltf_open(
        bytes: *const c_void,
        size: usize,
        options: *const gltf_open_options,
        file: *mut *mut gltf_file,
        fault: *mut gltf_fault,
    ) -> gltf_status;
    pub fn gltf_open_owned(
        bytes: *mut c_void,
        size: usize,
        options: *const gltf_open_options,
        file: *mut *mut gltf_file,
        fault: *mut gltf_fault,
    ) -> gltf_status;
    pub fn gltf_give(
        file: *mut gltf_file,
        index: usize,
        bytes: *const c_void,
        size: usize,
    ) -> gltf_status;
    pub fn gltf_close(file: *mut gltf_file);
    pub fn gltf_count(file: *const gltf_file, kind: u32) -> usize;
    pub fn gltf_name(
        file: *const gltf_file,
        kind: u32,
        index: usize,
        text: *mut c_char,
        room: usize,
        length: *mut usize,
    ) -> gltf_status;
    pub fn gltf_text(
        file: *const gltf_file,
        what: u32,
        index: usize,
        text: *mut c_char,
        room: usize,
        length: *mut usize,
    ) -> gltf_status;
    pub fn gltf_json(
        file: *const gltf_file,
        kind: u32,
        index: usize,
        part: usize,
        extension: *const c_char,
        extension_size: usize,
        text: *mut c_char,
        room: usize,
        length: *mut usize,
    ) -> gltf_status;
    pub fn gltf_list(
        file: *const gltf_file,
        what: u32,
        index: usize,
        out: *mut usize,
        room: usize,
        count: *mut usize,
    ) -> gltf_status;
    pub fn gltf_numbers(
        file: *const gltf_file,
        what: u32,
        index: usize,
        out: *mut f64,
        room: usize,
        count: *mut usize,
    ) -> gltf_status;
    pub fn gltf_buffer_info(
        file: *const gltf_file,
        index: usize,
        out: *mut gltf_buffer,
    ) -> gltf_status;
    pub fn gltf_buffer_view_info(
        file: *const gltf_file,
        index: usize,
        out: *mut gltf_buffer_view,
    ) -> gltf_status;
    pub fn gltf_accessor_info(
        file: *const gltf_file,
        index: usize,
        out: *mut gltf_accessor,
    ) -> gltf_status;
    pub fn gltf_accessor_read(
        file: *const gltf_file,
        index: usize,
        out: *mut c_void,
        room: usize,
    ) -> gltf_status;
    pub fn gltf_accessor_read_u32(
        file: *const gltf_file,
        index: usize,
        out: *mut u32,
        room: usize,
    ) -> gltf_status;
    pub fn gltf_mesh_info(file: *const gltf_file, index: usize, out: *mut gltf_mesh)
        -> gltf_status;
    pub fn gltf_primitive_info(
        file: *const gltf_file,
        mesh: usize,
        primitive: usize,
        out: *mut gltf_primitive,
    ) -> gltf_status;
    pub fn gltf_attribute_info(
        file: *const gltf_file,
        mesh: usize,
        primitive: usize,
        target: usize,
        position: usize,
        out: *mut gltf_attribute,
    ) -> gltf_status;
    pub fn gltf_attribute_name(
        file: *const gltf_file,
        mesh: usize,
        primitive: usize,
        target: usize,
        position: usize,
        text: *mut c_char,
        room: usize,
        length: *mut usize,
    ) -> gltf_status;
    pub fn gltf_attribute_find(
        file: *const gltf_file,
        mesh: usize,
        primitive: usize,
        target: usize,
        meaning: u32,
        set: u32,
        accessor: *mut usize,
    ) -> gltf_status;
    pub fn gltf_variant_material(
        file: *const gltf_file,
        mesh: usize,
        primitive: usize,
        variant: usize,
        material: *mut usize,
    ) -> gltf_status;
    pub fn gltf_variant_fault(
        file: *const gltf_file,
        mesh: usize,
        primitive: usize,
        variant: usize,
        fault: *mut gltf_fault,
    ) -> gltf_status;
    pub fn gltf_material_info(
        file: *const gltf_file,
        index: usize,
        out: *mut gltf_material,
    ) -> gltf_status;
    pub fn gltf_sampler_info(
        file: *const gltf_file,
        index: usize,
        out: *mut gltf_sampler,
    ) -> gltf_status;
    pub fn gltf_texture_info(
        file: *const gltf_file,
        index: usize,
        out: *mut gltf_texture,
    ) -> gltf_status;
    pub fn gltf_image_info(
        file: *const gltf_file,
        index: usize,
        out: *mut gltf_image,
    ) -> gltf_status;
    pub fn gltf_default_scene(file: *const gltf_file, scene: *mut usize) -> gltf_status;
    pub fn gltf_scene_info(
        file: *const gltf_file,
        index: usize,
        out: *mut gltf_scene,
    ) -> gltf_status;
    pub fn gltf_node_info(file: *const gltf_file, index: usize, out: *mut gltf_node)
        -> gltf_status;
    pub fn gltf_skin_info(file: *const gltf_file, index: usize, out: *mut gltf_skin)
        -> gltf_status;
    pub fn gltf_animation_info(
        file: *const gltf_file,
        index: usize,
        out: *mut gltf_animation,
    ) -> gltf_status;
    pub fn gltf_channel_info(
        file: *const gltf_file,
        animation: usize,
        channel: usize,
        out: *mut gltf_channel,
    ) -> gltf_status;
    pub fn gltf_camera_info(
        file: *const gltf_file,
        index: usize,
        out: *mut gltf_camera,
    ) -> gltf_status;
    pub fn gltf_light_info(
        file: *const gltf_file,
        index: usize,
        out: *mut gltf_light,
    ) -> gltf_status;
    pub fn gltf_clearcoat_info(
        file: *const gltf_file,
        material: usize,
        out: *mut gltf_clearcoat,
    ) -> gltf_status;
    pub fn gltf_sheen_info(
        file: *const gltf_file,
        material: usize,
        out: *mut gltf_sheen,
    ) -> gltf_status;
    pub fn gltf_iridescence_info(
        file: *const gltf_file,
        material: usize,
        out: *mut gltf_iridescence,
    ) -> gltf_status;
    pub fn gltf_anisotropy_info(
        file: *const gltf_file,
        material: usize,
        out: *mut gltf_anisotropy,
    ) -> gltf_status;
    pub fn gltf_dispersion_info(
        file: *const gltf_file,
        material: usize,
        out: *mut gltf_dispersion,
    ) -> gltf_status;
    pub fn gltf_diffuse_transmission_info(
        file: *const gltf_file,
        material: usize,
        out: *mut gltf_diffuse_transmission,
    ) -> gltf_status;
    pub fn gltf_basisu_info(
        file: *const gltf_file,
        texture: usize,
        out: *mut gltf_texture_source,
    ) -> gltf_status;
    pub fn gltf_webp_info(
        file: *const gltf_file,
        texture: usize,
        out: *mut gltf_texture_source,
    ) -> gltf_status;
    pub fn gltf_instancing_info(
        file: *const gltf_file,
        node: usize,
        out: *mut gltf_instancing,
    ) -> gltf_status;
    pub fn gltf_visibility_info(
        file: *const gltf_file,
        node: usize,
        out: *mut gltf_visibility,
    ) -> gltf_status;
    pub fn gltf_meshopt_info(
        file: *const gltf_file,
        view: usize,
        out: *mut gltf_meshopt,
    ) -> gltf_status;
    pub fn gltf_xmp_packet(
        file: *const gltf_file,
        kind: u32,
        index: usize,
        part: usize,
        packet: *mut usize,
    ) -> gltf_status;
}
