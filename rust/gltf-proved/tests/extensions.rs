//! Extensions of materials, textures, nodes and views, by their members; and packets of metadata.
use gltf_proved::extension::{MeshoptFilter, MeshoptMode};
use gltf_proved::{Document, Error, Material, Options, Status};

mod support;
use support::{document_of, file};

/// A document with extensions of each kind, of which two are broken. The test of the package for
/// Python has the same one.
const MEMBERS: &str = r#",
    "images":[{"uri":"a.png"},{"uri":"b.ktx2"}],
    "textures":[{"source":0,"extensions":{"KHR_texture_basisu":{"source":1}}}],
    "materials":[
        {"extensions":{
            "KHR_materials_clearcoat":{"clearcoatFactor":0.5,
                "clearcoatNormalTexture":{"index":0,"texCoord":2,"scale":3}},
            "KHR_materials_iridescence":{},
            "KHR_materials_dispersion":{"dispersion":0.25}}},
        {"extensions":{
            "KHR_materials_sheen":{"sheenColorTexture":{"index":1}},
            "KHR_materials_anisotropy":{"anisotropyStrength":"1"}}}],
    "accessors":[{"componentType":5126,"count":2,"type":"VEC3"}],
    "nodes":[{"extensions":{
        "EXT_mesh_gpu_instancing":{"attributes":{"SCALE":0}},
        "KHR_node_visibility":{"visible":false}}},{}],
    "bufferViews":[{"buffer":0,"byteLength":4,"extensions":{"EXT_meshopt_compression":{
        "buffer":0,"byteLength":3,"byteStride":4,"count":1,"mode":"TRIANGLES"}}}]"#;

/// The document of one material with an extension, and of two textures.
fn material_with(name: &str, extension: &str) -> Document {
    let members = format!(
        r#","images":[{{"uri":"a.png"}}],"textures":[{{"source":0}},{{"source":0}}],
        "materials":[{{"extensions":{{"{name}":{extension}}}}}]"#
    );
    document_of(&members, &[0; 4]).unwrap()
}

fn first_material(document: &Document) -> Material<'_> {
    document.materials().next().unwrap()
}

/// Checks that an extension is at fault, and where it is.
#[track_caller]
fn assert_bad<T: std::fmt::Debug>(found: Result<T, Error>, pointer: &str) {
    let why = found.unwrap_err();
    assert!(matches!(why, Error::BadExtension(_)), "{why:?}");
    assert_eq!((why.status(), why.pointer().as_ref()), (Status::BadExtension, pointer));
    assert!(why.to_string().contains(pointer.rsplit('/').next().unwrap()), "{why}");
}

#[test]
fn materials_have_those_of_the_file() {
    let document = document_of(MEMBERS, &[0; 4]).unwrap();
    let coated = first_material(&document);
    let coat = coated.clearcoat().unwrap().unwrap();
    assert_eq!((coat.clearcoat_factor(), coat.clearcoat_roughness_factor()), (0.5, 0.0));
    assert!(coat.clearcoat_texture().is_none() && coat.clearcoat_roughness_texture().is_none());
    let normal = coat.clearcoat_normal_texture().unwrap();
    assert_eq!((normal.texture().index(), normal.tex_coord(), normal.scale()), (0, 2, 3.0));
    assert!(normal.texture_transform().is_none());
    let film = coated.iridescence().unwrap().unwrap();
    assert_eq!((film.iridescence_factor(), film.iridescence_ior()), (0.0, 1.3));
    let thickness = (film.iridescence_thickness_minimum(), film.iridescence_thickness_maximum());
    assert_eq!(thickness, (100.0, 400.0));
    assert_eq!(coated.dispersion().unwrap(), Some(0.25));
    assert!(coated.sheen().unwrap().is_none() && coated.anisotropy().unwrap().is_none());
    assert!(coated.diffuse_transmission().unwrap().is_none());
    let other = document.materials().nth(1).unwrap();
    assert!(other.clearcoat().unwrap().is_none() && other.iridescence().unwrap().is_none());
    assert_eq!(other.dispersion().unwrap(), None);
}

#[test]
fn textures_nodes_and_views_have_those_of_the_file() {
    let document = document_of(MEMBERS, &[7, 8, 9, 0]).unwrap();
    let texture = document.textures().next().unwrap();
    assert_eq!(texture.source().map(|it| it.index()), Some(0));
    assert_eq!(texture.basisu().unwrap().map(|it| it.index()), Some(1));
    assert!(texture.webp().unwrap().is_none());
    let (drawn, plain) = (document.nodes().next().unwrap(), document.nodes().nth(1).unwrap());
    assert_eq!((drawn.visible().unwrap(), plain.visible().unwrap()), (false, true));
    let instances = drawn.instancing().unwrap().unwrap();
    assert!(instances.translation().is_none() && instances.rotation().is_none());
    assert_eq!(instances.scale().map(|it| (it.index(), it.count())), Some((0, 2)));
    assert!(plain.instancing().unwrap().is_none());
    let packed = document.views().next().unwrap().meshopt().unwrap().unwrap();
    assert_eq!((packed.mode(), packed.filter()), (MeshoptMode::Triangles, None));
    assert_eq!((packed.buffer().index(), packed.offset(), packed.length()), (0, 0, 3));
    assert_eq!((packed.stride(), packed.count()), (4, 1));
    assert_eq!(packed.bytes(), Some(&[7, 8, 9][..]));
}

#[test]
fn what_is_not_of_its_form_is_an_error() {
    let document = document_of(MEMBERS, &[0; 4]).unwrap();
    let broken = document.materials().nth(1).unwrap();
    assert_bad(broken.sheen(), "/materials/1/extensions/KHR_materials_sheen");
    assert_bad(broken.anisotropy(), "/materials/1/extensions/KHR_materials_anisotropy");
    let members = r#","images":[{"uri":"a.png"}],"textures":[{"source":0,"extensions":{
            "KHR_texture_basisu":{"source":1},"EXT_texture_webp":[]}}],
        "nodes":[{"extensions":{"EXT_mesh_gpu_instancing":{},
            "KHR_node_visibility":{"visible":1}}}],
        "bufferViews":[{"buffer":0,"byteLength":4,"extensions":{"EXT_meshopt_compression":{
            "buffer":0,"byteLength":3,"byteStride":4,"count":1,"mode":"POINTS"}}}]"#;
    let document = document_of(members, &[0; 4]).unwrap();
    let texture = document.textures().next().unwrap();
    assert_bad(texture.basisu(), "/textures/0/extensions/KHR_texture_basisu");
    assert_bad(texture.webp(), "/textures/0/extensions/EXT_texture_webp");
    let node = document.nodes().next().unwrap();
    assert_bad(node.instancing(), "/nodes/0/extensions/EXT_mesh_gpu_instancing");
    assert_bad(node.visible(), "/nodes/0/extensions/KHR_node_visibility");
    let view = document.views().next().unwrap();
    assert_bad(view.meshopt(), "/bufferViews/0/extensions/EXT_meshopt_compression");
}

#[test]
fn the_surface_has_good_and_broken_ones() {
    let document = Document::from_slice(&file("c/tests/surface.gltf")).unwrap();
    let material = first_material(&document);
    let sheen = material.sheen().unwrap().unwrap();
    assert_eq!(sheen.sheen_color_factor(), [1.0, 0.0, 0.5]);
    assert_eq!(sheen.sheen_roughness_factor(), 0.0);
    assert!(sheen.sheen_color_texture().is_none());
    let rough = sheen.sheen_roughness_texture().unwrap();
    assert_eq!((rough.texture().name(), rough.tex_coord()), (Some("Wood"), 0));
    assert_bad(material.iridescence(), "/materials/0/extensions/KHR_materials_iridescence");
    assert_bad(material.anisotropy(), "/materials/0/extensions/KHR_materials_anisotropy");
    assert!(material.clearcoat().unwrap().is_none());
    let text = material.extension_value("KHR_materials_anisotropy");
    assert_eq!(text.as_deref(), Some(r#"{"anisotropyStrength":"0.5"}"#));
}

#[test]
fn members_of_materials_are_read() {
    let document = material_with(
        "KHR_materials_iridescence",
        r#"{"iridescenceFactor":1,"iridescenceIor":1.5,"iridescenceThicknessMinimum":50,
            "iridescenceThicknessMaximum":900.5,"iridescenceTexture":{"index":1},
            "iridescenceThicknessTexture":{"index":0,"texCoord":3}}"#,
    );
    let film = first_material(&document).iridescence().unwrap().unwrap();
    assert_eq!((film.iridescence_factor(), film.iridescence_ior()), (1.0, 1.5));
    let thickness = (film.iridescence_thickness_minimum(), film.iridescence_thickness_maximum());
    assert_eq!(thickness, (50.0, 900.5));
    assert_eq!(film.iridescence_texture().unwrap().texture().index(), 1);
    assert_eq!(film.iridescence_thickness_texture().unwrap().tex_coord(), 3);
    let document = material_with(
        "KHR_materials_anisotropy",
        r#"{"anisotropyStrength":0.5,"anisotropyRotation":-1,"anisotropyTexture":{"index":1}}"#,
    );
    let brushed = first_material(&document).anisotropy().unwrap().unwrap();
    assert_eq!((brushed.anisotropy_strength(), brushed.anisotropy_rotation()), (0.5, -1.0));
    assert_eq!(brushed.anisotropy_texture().unwrap().texture().index(), 1);
    let document = material_with(
        "KHR_materials_diffuse_transmission",
        r#"{"diffuseTransmissionFactor":0.5,"diffuseTransmissionColorFactor":[1,0,0.5],
            "diffuseTransmissionTexture":{"index":1}}"#,
    );
    let leaf = first_material(&document).diffuse_transmission().unwrap().unwrap();
    assert_eq!(leaf.diffuse_transmission_factor(), 0.5);
    assert_eq!(leaf.diffuse_transmission_color_factor(), [1.0, 0.0, 0.5]);
    assert_eq!(leaf.diffuse_transmission_texture().unwrap().texture().index(), 1);
    assert!(leaf.diffuse_transmission_color_texture().is_none());
    assert!(format!("{leaf:?}").contains("diffuse_transmission_color_factor: [1.0, 0.0, 0.5]"));
}

#[test]
fn textures_of_extensions_have_transforms() {
    let document = material_with(
        "KHR_materials_clearcoat",
        r#"{"clearcoatRoughnessTexture":{"index":1,"texCoord":2,"extensions":{
            "KHR_texture_transform":{"offset":[0.5,-0.25],"rotation":1.5,"texCoord":7}}}}"#,
    );
    // Neither the material nor the part of it has to be kept.
    let info = {
        let coat = first_material(&document).clearcoat().unwrap().unwrap();
        coat.clearcoat_roughness_texture().unwrap()
    };
    assert_eq!((info.texture().index(), info.tex_coord()), (1, 7));
    let moved = info.texture_transform().unwrap();
    assert_eq!((moved.offset(), moved.rotation(), moved.scale()), ([0.5, -0.25], 1.5, [1.0; 2]));
}

#[test]
fn members_of_textures_nodes_and_views_are_read() {
    let members = r#","images":[{"uri":"a.png"},{"uri":"b.webp"}],
        "textures":[{"source":0,"extensions":{
            "KHR_texture_basisu":{},"EXT_texture_webp":{"source":1}}}],
        "accessors":[{"componentType":5126,"count":2,"type":"VEC3"},
            {"componentType":5126,"count":2,"type":"VEC4"}],
        "nodes":[{"extensions":{"EXT_mesh_gpu_instancing":{
            "attributes":{"TRANSLATION":0,"ROTATION":1,"_ID":0}},"KHR_node_visibility":{}}}],
        "bufferViews":[{"buffer":0,"byteLength":4,"extensions":{"EXT_meshopt_compression":{
            "buffer":0,"byteOffset":1,"byteLength":4,"byteStride":16,"count":3,
            "mode":"ATTRIBUTES","filter":"QUATERNION"}}}]"#;
    let document = document_of(members, &[0; 4]).unwrap();
    let texture = document.textures().next().unwrap();
    assert!(texture.basisu().unwrap().is_none());
    assert_eq!(texture.webp().unwrap().map(|it| it.index()), Some(1));
    let node = document.nodes().next().unwrap();
    assert!(node.visible().unwrap());
    let instances = node.instancing().unwrap().unwrap();
    assert_eq!(instances.translation().map(|it| it.index()), Some(0));
    assert_eq!(instances.rotation().map(|it| it.index()), Some(1));
    assert!(instances.scale().is_none());
    let packed = document.views().next().unwrap().meshopt().unwrap().unwrap();
    assert_eq!(packed.mode(), MeshoptMode::Attributes);
    assert_eq!(packed.filter(), Some(MeshoptFilter::Quaternion));
    assert_eq!((packed.offset(), packed.length(), packed.stride()), (1, 4, 16));
    // The last of them is outside of the buffer.
    assert_eq!((packed.count(), packed.bytes()), (3, None));
}

#[test]
fn records_name_their_packets() {
    let packet =
        |index: &str| format!(r#""extensions":{{"KHR_xmp_json_ld":{{"packet":{index}}}}}"#);
    let (first, second, third, word) = (packet("0"), packet("1"), packet("2"), packet("\"0\""));
    let members = format!(
        r#","nodes":[{{{second}}},{{}},{{{third}}}],"materials":[{{{first}}},{{{word}}}],
        "samplers":[{{{second}}}],"meshes":[{{"primitives":[{{"attributes":{{}}}},
            {{"attributes":{{}},{second}}},{{"attributes":{{}},{third}}}],{first}}}],
        "extensions":{{"KHR_xmp_json_ld":{{"packets":[{{}},{{"dc:title":"two"}}]}}}}"#
    );
    let document = document_of(&members, &[0; 4]).unwrap();
    let nodes: Vec<_> = document.nodes().map(|it| it.xmp_packet()).collect();
    assert!(matches!(nodes[..2], [Ok(Some(1)), Ok(None)]), "{nodes:?}");
    assert_bad(
        document.nodes().nth(2).unwrap().xmp_packet(),
        "/nodes/2/extensions/KHR_xmp_json_ld",
    );
    assert_eq!(first_material(&document).xmp_packet().unwrap(), Some(0));
    let broken = document.materials().nth(1).unwrap();
    assert_bad(broken.xmp_packet(), "/materials/1/extensions/KHR_xmp_json_ld");
    assert_eq!(document.samplers().next().unwrap().xmp_packet().unwrap(), Some(1));
    assert_eq!(document.asset().xmp_packet().unwrap(), None);
    let mesh = document.meshes().next().unwrap();
    assert_eq!(mesh.xmp_packet().unwrap(), Some(0));
    let primitives: Vec<_> = mesh.primitives().collect();
    assert_eq!(primitives[0].xmp_packet().unwrap(), None);
    assert_eq!(primitives[1].xmp_packet().unwrap(), Some(1));
    let pointer = "/meshes/0/primitives/2/extensions/KHR_xmp_json_ld";
    assert_bad(primitives[2].xmp_packet(), pointer);
    let text = r#"{"asset":{"version":"2.0","extensions":{"KHR_xmp_json_ld":{"packet":0}}}}"#;
    let document = Document::from_slice(text.as_bytes()).unwrap();
    assert_bad(document.asset().xmp_packet(), "/asset/extensions/KHR_xmp_json_ld");
}

#[test]
fn the_default_material_has_none() {
    let members = r#","meshes":[{"primitives":[{"attributes":{}}]}]"#;
    let document = document_of(members, &[0; 4]).unwrap();
    let material = document.meshes().next().unwrap().primitives().next().unwrap().material();
    assert_eq!(material.index(), None);
    assert!(material.clearcoat().unwrap().is_none() && material.sheen().unwrap().is_none());
    assert!(material.dispersion().unwrap().is_none() && material.xmp_packet().unwrap().is_none());
}

#[test]
fn a_file_that_requires_one_opens_by_its_name() {
    let name = "KHR_node_visibility";
    let text = format!(
        r#"{{"asset":{{"version":"2.0"}},"extensionsUsed":["{name}"],
        "extensionsRequired":["{name}"],
        "nodes":[{{"extensions":{{"{name}":{{"visible":false}}}}}}]}}"#
    );
    assert!(matches!(Document::from_slice(text.as_bytes()), Err(Error::Validation(_))));
    let document = Options::new().extension(name).from_slice(text.as_bytes()).unwrap();
    assert!(!document.nodes().next().unwrap().visible().unwrap());
}

#[test]
fn a_material_of_a_variant_that_is_not_there_is_a_fault() {
    let members = r#","materials":[{"name":"Red"},{"name":"Blue"}],"meshes":[{"primitives":[]},
        {"primitives":[{"attributes":{}},{"attributes":{},"material":1,"extensions":
        {"KHR_materials_variants":{"mappings":[{"material":0,"variants":[1]},
        {"material":2,"variants":[0,1]}]}}}]}],"extensionsUsed":["KHR_materials_variants"],
        "extensions":{"KHR_materials_variants":{"variants":
        [{"name":"Lost"},{"name":"Day"},{"name":"Night"}]}}"#;
    let document = document_of(members, &[0; 4]).unwrap();
    let primitive = document.meshes().nth(1).unwrap().primitives().nth(1).unwrap();
    let place = "/meshes/1/primitives/1/extensions/KHR_materials_variants/mappings/1/material";
    for found in [primitive.material_in(0), primitive.mappings().next().unwrap().material()] {
        let why = found.unwrap_err();
        assert!(matches!(why, Error::BadExtension(_)), "{why:?}");
        assert_eq!((why.status(), why.pointer().as_ref()), (Status::BadExtension, place));
        assert_eq!(why.to_string(), "the document has no material with this index");
    }
    // The first mapping with the variant counts, and without one the primitive's own material.
    assert_eq!(primitive.material_in(1).unwrap().name(), Some("Red"));
    assert_eq!(primitive.material_in(2).unwrap().name(), Some("Blue"));
    assert_eq!(primitive.mappings().count(), 2);
    assert!(primitive.mappings().nth(1).unwrap().material().is_ok());
}
