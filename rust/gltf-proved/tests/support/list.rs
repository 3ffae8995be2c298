//! Prints all that a file holds, a line each, as c/tests/expected.py has it: `list FILE`. Floats
//! are printed as the digits of their bits. tools/rust.py compares the lines.
use gltf_proved as gltf;
use gltf_proved::animation::{Interpolation, Property};
use gltf_proved::camera::Projection;
use gltf_proved::extension::{MeshoptFilter, MeshoptMode};
use gltf_proved::khr_lights_punctual::Kind;
use gltf_proved::material::{AlphaMode, Material, NormalTexture};
use gltf_proved::mesh::Primitive;
use gltf_proved::scene::Transform;
use gltf_proved::texture::{Info, Sampler, TextureTransform};
use gltf_proved::{buffer, Accessor, Document, Error, Node, Result, Status, Texture};
use std::fmt::Display;

const EXTENSIONS: [&str; 2] = ["EXT_mark", "KHR_materials_clearcoat"];

fn put(about: &str, member: &str, value: impl Display) {
    println!("{about} {member}: {value}");
}

fn put_if<T: Display>(about: &str, member: &str, value: Option<T>) {
    if let Some(value) = value {
        put(about, member, value);
    }
}

fn put_or_none<T: Display>(about: &str, member: &str, value: Option<T>) {
    put(about, member, value.map_or("none".to_owned(), |it| it.to_string()));
}

fn put_list<T: Display>(about: &str, member: &str, values: impl IntoIterator<Item = T>) {
    let words: String = values.into_iter().map(|it| format!(" {it}")).collect();
    println!("{about} {member}:{words}");
}

fn put_floats(about: &str, member: &str, floats: impl IntoIterator<Item = f32>) {
    put_list(about, member, floats.into_iter().map(|it| format!("{:08x}", it.to_bits())));
}

fn put_bytes(about: &str, member: &str, bytes: Option<&[u8]>) {
    let hex = bytes.map(|it| it.iter().map(|byte| format!("{byte:02x}")).collect::<String>());
    put_or_none(about, member, hex);
}

fn put_json(about: &str, extras: Option<String>, extension: impl Fn(&str) -> Option<String>) {
    put_if(about, "extras", extras);
    for name in EXTENSIONS {
        put_if(about, name, extension(name));
    }
}

fn put_packet(about: &str, packet: Result<Option<usize>>) {
    match number_of(&packet) {
        0 => put_if(about, "packet", packet.ok().flatten()),
        status => put(about, "status of packet", status),
    }
}

/// The lines of the name, the extras, the extensions and the packet of a record.
macro_rules! begin {
    ($about:expr, $record:expr) => {
        put_if($about, "name", $record.name());
        put_json($about, $record.extras(), |name| $record.extension_value(name));
        put_packet($about, $record.xmp_packet());
    };
}

fn number_of<T>(result: &Result<T>) -> u32 {
    match result.as_ref().map_err(Error::status) {
        Ok(_) => 0,
        Err(Status::Unreadable) => 13,
        Err(Status::OtherType) => 16,
        Err(Status::BadExtension) => 17,
        Err(other) => panic!("{other:?}"),
    }
}

/// The lines of an extension that a record has, or the status of why it is at fault.
fn list_extension<T>(about: &str, found: Result<Option<T>>, list: impl FnOnce(&str, T)) {
    match number_of(&found) {
        0 => {
            if let Ok(Some(it)) = found {
                list(about, it);
            }
        }
        status => put(about, "status", status),
    }
}

fn list_meshopt(it: &buffer::View) {
    list_extension(&format!("meshopt {}", it.index()), it.meshopt(), |about, it| {
        let mode = match it.mode() {
            MeshoptMode::Attributes => 0,
            MeshoptMode::Triangles => 1,
            MeshoptMode::Indices => 2,
        };
        let filter = match it.filter() {
            None => 0,
            Some(MeshoptFilter::Octahedral) => 1,
            Some(MeshoptFilter::Quaternion) => 2,
            Some(MeshoptFilter::Exponential) => 3,
        };
        put(about, "buffer", it.buffer().index());
        put(about, "byte_offset", it.offset());
        put(about, "byte_length", it.length());
        put(about, "byte_stride", it.stride());
        put(about, "count", it.count());
        put(about, "mode", mode);
        put(about, "filter", filter);
    });
}

fn list_buffers(document: &Document) {
    println!("{} buffers", document.buffers().len());
    for it in document.buffers() {
        let about = &format!("buffers {}", it.index());
        begin!(about, it);
        put(about, "byte_length", it.length());
        put_bytes(about, "bytes", it.bytes());
        if let gltf::buffer::Source::Uri(uri) = it.source() {
            put(about, "uri", uri);
        }
    }
    println!("{} bufferViews", document.views().len());
    for it in document.views() {
        let about = &format!("bufferViews {}", it.index());
        begin!(about, it);
        put(about, "buffer", it.buffer().index());
        put(about, "byte_offset", it.offset());
        put(about, "byte_length", it.length());
        put(about, "byte_stride", it.stride().unwrap_or(0));
        put(about, "target", it.target().map_or(0, |target| target.as_gl_enum()));
        put_bytes(about, "bytes", it.bytes());
        list_meshopt(&it);
    }
}

fn list_items(about: &str, it: &Accessor) {
    let bytes = it.read_bytes();
    put(about, "read", number_of(&bytes));
    put_if(about, "items", bytes.ok().map(hex));
    let words = it.read_u32();
    put(about, "read_u32", number_of(&words));
    if let Ok(words) = words {
        put_list(about, "words", words);
    }
    if let Ok(floats) = it.read_f32() {
        put_floats(about, "floats", floats);
    }
}

fn hex(bytes: Vec<u8>) -> String {
    bytes.iter().map(|byte| format!("{byte:02x}")).collect()
}

fn list_accessors(document: &Document) {
    println!("{} accessors", document.accessors().len());
    for it in document.accessors() {
        let about = &format!("accessors {}", it.index());
        begin!(about, it);
        let columns = format!("{:?}", it.dimensions());
        put(about, "count", it.count());
        put(about, "item_size", it.size());
        put(about, "component_type", it.data_type().as_gl_enum());
        put(about, "components", it.dimensions().multiplicity());
        put(about, "is_matrix", u32::from(columns.starts_with("Mat")));
        put(about, "normalized", u32::from(it.normalized()));
        put(about, "sparse", it.sparse().map_or(0, |sparse| sparse.count()));
        put_or_none(about, "view", it.view().map(|view| view.index()));
        put(about, "byte_offset", it.offset());
        put(about, "stride", it.stride());
        put(about, "in place", u32::from(it.bytes().is_some()));
        for (member, bound) in [("min", it.min()), ("max", it.max())] {
            put_floats(about, member, bound.into_iter().flatten().map(|number| number as f32));
        }
        list_items(about, &it);
    }
}

fn list_primitive(document: &Document, about: &str, it: &Primitive) {
    put(about, "mode", it.mode().as_gl_enum());
    put_or_none(about, "indices", it.indices().map(|accessor| accessor.index()));
    put_or_none(about, "material", it.material().index());
    put(about, "attributes", it.attributes().len());
    put(about, "targets", it.morph_targets().len());
    for mapping in it.mappings() {
        put(about, "variant", mapping.variants()[0]);
        match mapping.material() {
            Ok(material) => put_or_none(about, "of material", material.index()),
            Err(why) => {
                put(about, "of no material", why.pointer());
                put(about, "reason", why);
            }
        }
    }
    put_json(about, it.extras(), |name| it.extension_value(name));
    put_packet(about, it.xmp_packet());
    for (semantic, accessor) in it.attributes() {
        put(about, &semantic.to_string(), accessor.index());
        assert_eq!(it.get(&semantic).map(|it| it.index()), Some(accessor.index()));
    }
    assert_eq!(document.meshes().filter(|mesh| mesh.primitives().len() == 0).count(), 0);
}

fn list_meshes(document: &Document) {
    println!("{} meshes", document.meshes().len());
    for mesh in document.meshes() {
        let about = &format!("meshes {}", mesh.index());
        begin!(about, mesh);
        put(about, "primitives", mesh.primitives().len());
        let weights = mesh.weights().unwrap_or(&[]);
        put(about, "weights", weights.len());
        put_floats(about, "weights", weights.iter().copied());
        for it in mesh.primitives() {
            let place = format!("{} {}", mesh.index(), it.index());
            list_primitive(document, &format!("primitives {place}"), &it);
            for (index, target) in it.morph_targets().enumerate() {
                let about = &format!("target {place} {index}");
                put_if(about, "POSITION", target.positions().map(|it| it.index()));
                put_if(about, "NORMAL", target.normals().map(|it| it.index()));
                put_if(about, "TANGENT", target.tangents().map(|it| it.index()));
            }
        }
    }
}

fn list_node(about: &str, it: &Node) {
    put_or_none(about, "mesh", it.mesh().map(|it| it.index()));
    put_or_none(about, "skin", it.skin().map(|it| it.index()));
    put_or_none(about, "camera", it.camera().map(|it| it.index()));
    put_or_none(about, "light", it.light().map(|it| it.index()));
    let weights = it.weights().unwrap_or(&[]);
    put(about, "weights", weights.len());
    match it.transform() {
        Transform::Matrix { matrix } => {
            put_floats(about, "matrix", matrix.into_iter().flatten());
        }
        Transform::Decomposed { translation, rotation, scale } => {
            put_floats(about, "translation", translation);
            put_floats(about, "rotation", rotation);
            put_floats(about, "scale", scale);
        }
    }
    put_list(about, "children", it.children().map(|it| it.index()));
    put_floats(about, "weights", weights.iter().copied());
}

fn list_instancing(it: &Node) {
    list_extension(&format!("instancing {}", it.index()), it.instancing(), |about, it| {
        let index = |accessor: Option<Accessor>| accessor.map(|it| it.index());
        put_or_none(about, "translation", index(it.translation()));
        put_or_none(about, "rotation", index(it.rotation()));
        put_or_none(about, "scale", index(it.scale()));
    });
    let has = it.extension_value("KHR_node_visibility").is_some();
    let visible = it.visible().map(|visible| has.then_some(visible));
    list_extension(&format!("visibility {}", it.index()), visible, |about, visible| {
        put(about, "visible", u32::from(visible));
    });
}

fn list_nodes(document: &Document) {
    println!("{} nodes", document.nodes().len());
    for it in document.nodes() {
        let about = &format!("nodes {}", it.index());
        begin!(about, it);
        list_node(about, &it);
        list_instancing(&it);
    }
}

fn list_use(about: &str, name: &str, scale: f32, it: Option<Info>) {
    if let Some(it) = it {
        let texture = (it.texture().index(), it.tex_coord());
        list_parts(&format!("{about} {name}"), texture, it.texture_transform(), scale);
    }
}

fn list_normal(about: &str, name: &str, it: Option<NormalTexture>) {
    if let Some(it) = it {
        let texture = (it.texture().index(), it.tex_coord());
        list_parts(&format!("{about} {name}"), texture, it.texture_transform(), it.scale());
    }
}

fn list_parts(
    about: &str,
    (texture, set): (usize, u32),
    moved: Option<TextureTransform>,
    scale: f32,
) {
    let has_transform = u32::from(moved.is_some());
    put(about, "texture", format!("{texture}, set {set}, transform {has_transform}"));
    put_floats(about, "scale", [scale]);
    put_floats(about, "offset", moved.map_or([0.0, 0.0], |it| it.offset()));
    put_floats(about, "rotation", [moved.map_or(0.0, |it| it.rotation())]);
    put_floats(about, "size", moved.map_or([1.0, 1.0], |it| it.scale()));
}

fn list_factors(about: &str, it: &Material) {
    let mode = match it.alpha_mode() {
        AlphaMode::Opaque => 0,
        AlphaMode::Mask => 1,
        AlphaMode::Blend => 2,
    };
    put(about, "alpha_mode", mode);
    put(about, "double_sided", u32::from(it.double_sided()));
    let has = [
        it.unlit(),
        it.pbr_specular_glossiness().is_some(),
        it.transmission().is_some(),
        it.ior().is_some(),
        it.emissive_strength().is_some(),
        it.volume().is_some(),
        it.specular().is_some(),
    ];
    put(about, "has", (0..7).map(|bit| u32::from(has[bit]) << bit).sum::<u32>());
    put_floats(about, "alpha_cutoff", it.alpha_cutoff());
    let pbr = it.pbr_metallic_roughness();
    put_floats(about, "base_color_factor", pbr.base_color_factor());
    put_floats(about, "metallic_factor", [pbr.metallic_factor()]);
    put_floats(about, "roughness_factor", [pbr.roughness_factor()]);
    put_floats(about, "emissive_factor", it.emissive_factor());
    if let Some(it) = it.pbr_specular_glossiness() {
        put_floats(about, "diffuse_factor", it.diffuse_factor());
        put_floats(about, "specular_glossiness_factor", it.specular_factor());
        put_floats(about, "glossiness_factor", [it.glossiness_factor()]);
    }
    if let Some(it) = it.transmission() {
        put_floats(about, "transmission_factor", [it.transmission_factor()]);
    }
    for (member, factor) in [("ior", it.ior()), ("emissive_strength", it.emissive_strength())] {
        if let Some(factor) = factor {
            put_floats(about, member, [factor]);
        }
    }
    if let Some(it) = it.volume() {
        put_floats(about, "thickness_factor", [it.thickness_factor()]);
        put_floats(about, "attenuation_distance", [it.attenuation_distance()]);
        put_floats(about, "attenuation_color", it.attenuation_color());
    }
    if let Some(it) = it.specular() {
        put_floats(about, "specular_factor", [it.specular_factor()]);
        put_floats(about, "specular_color_factor", it.specular_color_factor());
    }
}

fn list_textures_of(about: &str, it: &Material) {
    let pbr = it.pbr_metallic_roughness();
    list_use(about, "base_color", 1.0, pbr.base_color_texture());
    list_use(about, "metallic_roughness", 1.0, pbr.metallic_roughness_texture());
    list_normal(about, "normal", it.normal_texture());
    if let Some(it) = it.occlusion_texture() {
        let (about, texture) = (format!("{about} occlusion"), it.texture().index());
        list_parts(&about, (texture, it.tex_coord()), it.texture_transform(), it.strength());
    }
    list_use(about, "emissive", 1.0, it.emissive_texture());
    if let Some(it) = it.pbr_specular_glossiness() {
        list_use(about, "diffuse", 1.0, it.diffuse_texture());
        list_use(about, "specular_glossiness", 1.0, it.specular_glossiness_texture());
    }
    if let Some(it) = it.transmission() {
        list_use(about, "transmission", 1.0, it.transmission_texture());
    }
    if let Some(it) = it.volume() {
        list_use(about, "thickness", 1.0, it.thickness_texture());
    }
    if let Some(it) = it.specular() {
        list_use(about, "specular", 1.0, it.specular_texture());
        list_use(about, "specular_color", 1.0, it.specular_color_texture());
    }
}

fn list_layers(index: usize, it: &Material) {
    list_extension(&format!("clearcoat {index}"), it.clearcoat(), |about, it| {
        put_floats(about, "clearcoat_factor", [it.clearcoat_factor()]);
        put_floats(about, "clearcoat_roughness_factor", [it.clearcoat_roughness_factor()]);
        list_use(about, "clearcoat", 1.0, it.clearcoat_texture());
        list_use(about, "clearcoat_roughness", 1.0, it.clearcoat_roughness_texture());
        list_normal(about, "clearcoat_normal", it.clearcoat_normal_texture());
    });
    list_extension(&format!("sheen {index}"), it.sheen(), |about, it| {
        put_floats(about, "sheen_color_factor", it.sheen_color_factor());
        put_floats(about, "sheen_roughness_factor", [it.sheen_roughness_factor()]);
        list_use(about, "sheen_color", 1.0, it.sheen_color_texture());
        list_use(about, "sheen_roughness", 1.0, it.sheen_roughness_texture());
    });
    list_extension(&format!("iridescence {index}"), it.iridescence(), |about, it| {
        let (least, most) =
            (it.iridescence_thickness_minimum(), it.iridescence_thickness_maximum());
        put_floats(about, "iridescence_factor", [it.iridescence_factor()]);
        put_floats(about, "iridescence_ior", [it.iridescence_ior()]);
        put_floats(about, "iridescence_thickness_minimum", [least]);
        put_floats(about, "iridescence_thickness_maximum", [most]);
        list_use(about, "iridescence", 1.0, it.iridescence_texture());
        list_use(about, "iridescence_thickness", 1.0, it.iridescence_thickness_texture());
    });
}

fn list_light_of(index: usize, it: &Material) {
    list_extension(&format!("anisotropy {index}"), it.anisotropy(), |about, it| {
        put_floats(about, "anisotropy_strength", [it.anisotropy_strength()]);
        put_floats(about, "anisotropy_rotation", [it.anisotropy_rotation()]);
        list_use(about, "anisotropy", 1.0, it.anisotropy_texture());
    });
    list_extension(&format!("dispersion {index}"), it.dispersion(), |about, it| {
        put_floats(about, "dispersion", [it]);
    });
    let about = format!("diffuse_transmission {index}");
    list_extension(&about, it.diffuse_transmission(), |about, it| {
        let (color, texture) =
            (it.diffuse_transmission_color_factor(), it.diffuse_transmission_color_texture());
        put_floats(about, "diffuse_transmission_factor", [it.diffuse_transmission_factor()]);
        put_floats(about, "diffuse_transmission_color_factor", color);
        list_use(about, "diffuse_transmission", 1.0, it.diffuse_transmission_texture());
        list_use(about, "diffuse_transmission_color", 1.0, texture);
    });
}

fn list_materials(document: &Document) {
    println!("{} materials", document.materials().len());
    for (index, it) in document.materials().enumerate() {
        let about = &format!("materials {index}");
        assert_eq!(it.index(), Some(index));
        begin!(about, it);
        list_factors(about, &it);
        list_textures_of(about, &it);
        list_layers(index, &it);
        list_light_of(index, &it);
    }
}

fn list_scenes(document: &Document) {
    println!("{} scenes", document.scenes().len());
    for it in document.scenes() {
        let about = &format!("scenes {}", it.index());
        begin!(about, it);
        put_list(about, "nodes", it.nodes().map(|it| it.index()));
    }
    println!("{} skins", document.skins().len());
    for it in document.skins() {
        let about = &format!("skins {}", it.index());
        begin!(about, it);
        put_or_none(about, "skeleton", it.skeleton().map(|it| it.index()));
        let matrices = it.inverse_bind_matrices().map(|it| it.index());
        put_or_none(about, "inverse_bind_matrices", matrices);
        put_list(about, "joints", it.joints().map(|it| it.index()));
    }
}

fn list_animations(document: &Document) {
    println!("{} animations", document.animations().len());
    for animation in document.animations() {
        let about = &format!("animations {}", animation.index());
        begin!(about, animation);
        put(about, "channels", animation.channels().len());
        for it in animation.channels() {
            let about = &format!("channels {} {}", animation.index(), it.index());
            let (target, sampler) = (it.target(), it.sampler());
            let path = match target.property() {
                Property::Translation => 0,
                Property::Rotation => 1,
                Property::Scale => 2,
                Property::MorphTargetWeights => 3,
            };
            let interpolation = match sampler.interpolation() {
                Interpolation::Linear => 0,
                Interpolation::Step => 1,
                Interpolation::CubicSpline => 2,
            };
            put_or_none(about, "node", target.node().map(|it| it.index()));
            put(about, "path", path);
            put(about, "interpolation", interpolation);
            put(about, "sampler", sampler.index());
            put(about, "input", sampler.input().index());
            put(about, "output", sampler.output().index());
            put_if(about, "extras", it.extras());
        }
        for it in animation.samplers() {
            let about = &format!("animationSamplers {} {}", animation.index(), it.index());
            put_if(about, "extras", it.extras());
        }
    }
}

fn list_sampler(about: &str, it: &Sampler) {
    put(about, "mag_filter", it.mag_filter().map_or(0, |it| it.as_gl_enum()));
    put(about, "min_filter", it.min_filter().map_or(0, |it| it.as_gl_enum()));
    put(about, "wrap_s", it.wrap_s().as_gl_enum());
    put(about, "wrap_t", it.wrap_t().as_gl_enum());
}

fn list_sources(it: &Texture) {
    let found =
        [("basisu", "KHR_texture_basisu", it.basisu()), ("webp", "EXT_texture_webp", it.webp())];
    for (kind, name, image) in found {
        let has = it.extension_value(name).is_some();
        let image = image.map(|image| has.then_some(image));
        list_extension(&format!("{kind} {}", it.index()), image, |about, image| {
            put_or_none(about, "image", image.map(|it| it.index()));
        });
    }
}

fn list_images(document: &Document) {
    println!("{} images", document.images().len());
    for it in document.images() {
        let about = &format!("images {}", it.index());
        begin!(about, it);
        let (view, uri, mime_type) = match it.source() {
            gltf::image::Source::View { view, mime_type } => (Some(view), None, Some(mime_type)),
            gltf::image::Source::Uri { uri, mime_type } => (None, Some(uri), mime_type),
        };
        put_or_none(about, "view", view.as_ref().map(|it| it.index()));
        put(about, "size", view.as_ref().map_or(0, |it| it.length()));
        put_bytes(about, "bytes", it.bytes());
        assert_eq!(it.bytes(), view.and_then(|it| it.bytes()));
        put_if(about, "uri", uri);
        put_if(about, "mimeType", mime_type);
    }
    println!("{} textures", document.textures().len());
    for it in document.textures() {
        let about = &format!("textures {}", it.index());
        begin!(about, it);
        put_or_none(about, "image", it.source().map(|it| it.index()));
        put_or_none(about, "sampler", it.sampler().index());
        list_sampler(about, &it.sampler());
        list_sources(&it);
    }
    println!("{} samplers", document.samplers().len());
    for (index, it) in document.samplers().enumerate() {
        let about = &format!("samplers {index}");
        assert_eq!(it.index(), Some(index));
        begin!(about, it);
        list_sampler(about, &it);
    }
}

fn list_cameras(document: &Document) {
    println!("{} cameras", document.cameras().len());
    for it in document.cameras() {
        let about = &format!("cameras {}", it.index());
        begin!(about, it);
        let (is_flat, numbers) = match it.projection() {
            Projection::Orthographic(it) => {
                (1, [it.znear(), it.zfar(), it.xmag(), it.ymag(), 0.0, 0.0])
            }
            Projection::Perspective(it) => {
                let (far, aspect) = (it.zfar().unwrap_or(0.0), it.aspect_ratio().unwrap_or(0.0));
                (0, [it.znear(), far, 0.0, 0.0, it.yfov(), aspect])
            }
        };
        put(about, "orthographic", is_flat);
        let members = ["znear", "zfar", "xmag", "ymag", "yfov", "aspect_ratio"];
        for (member, number) in members.into_iter().zip(numbers) {
            put_floats(about, member, [number]);
        }
    }
}

fn list_lights(document: &Document) {
    println!("{} lights", document.lights().map_or(0, |it| it.len()));
    for it in document.lights().into_iter().flatten() {
        let about = &format!("lights {}", it.index());
        begin!(about, it);
        let (kind, inner, outer) = match it.kind() {
            Kind::Directional => (0, 0.0, std::f32::consts::FRAC_PI_4),
            Kind::Point => (1, 0.0, std::f32::consts::FRAC_PI_4),
            Kind::Spot { inner_cone_angle, outer_cone_angle } => {
                (2, inner_cone_angle, outer_cone_angle)
            }
        };
        put(about, "type", kind);
        put_floats(about, "color", it.color());
        put_floats(about, "intensity", [it.intensity()]);
        put_floats(about, "range", [it.range().unwrap_or(0.0)]);
        put_floats(about, "inner_cone_angle", [inner]);
        put_floats(about, "outer_cone_angle", [outer]);
    }
    println!("{} variants", document.variants().map_or(0, |it| it.len()));
    for it in document.variants().into_iter().flatten() {
        let about = &format!("variants {}", it.index());
        put(about, "name", it.name());
        put_if(about, "extras", it.extras());
    }
}

fn list_document(document: &Document) {
    let lists = [
        ("extensionsUsed", document.extensions_used()),
        ("extensionsRequired", document.extensions_required()),
    ];
    for (kind, names) in lists {
        println!("{} {kind}", names.len());
        for (index, name) in names.enumerate() {
            put(&format!("{kind} {index}"), "name", name);
        }
    }
    let asset = document.asset();
    println!("1 asset");
    put_json("asset 0", asset.extras(), |name| asset.extension_value(name));
    put_packet("asset 0", asset.xmp_packet());
    put("asset 0", "version", asset.version());
    put_if("asset 0", "minVersion", asset.min_version());
    put_if("asset 0", "generator", asset.generator());
    put_if("asset 0", "copyright", asset.copyright());
    println!("1 root");
    put_json("root 0", document.extras(), |name| document.extension_value(name));
    put_or_none("root 0", "scene", document.default_scene().map(|it| it.index()));
    let mut primitives = document.meshes().flat_map(|mesh| mesh.primitives());
    if let Some(it) = primitives.find(|it| it.material().index().is_none()) {
        list_factors("default", &it.material());
        list_textures_of("default", &it.material());
    }
}

fn main() {
    for path in std::env::args_os().skip(1) {
        let document = match Document::open(&path) {
            Ok(document) => document,
            Err(why) => {
                println!("{:?} {} {why}", why.status(), why.pointer());
                continue;
            }
        };
        list_buffers(&document);
        list_accessors(&document);
        list_meshes(&document);
        list_nodes(&document);
        list_materials(&document);
        list_scenes(&document);
        list_animations(&document);
        list_images(&document);
        list_cameras(&document);
        list_lights(&document);
        list_document(&document);
    }
}
