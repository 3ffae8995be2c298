//! Items of many types, and the casts of them; records that the examples have not.
use gltf_proved::accessor::{DataType, Dimensions};
use gltf_proved::animation::util::ReadOutputs;
use gltf_proved::animation::{Interpolation, Property};
use gltf_proved::camera::Projection;
use gltf_proved::khr_lights_punctual::Kind;
use gltf_proved::material::AlphaMode;
use gltf_proved::mesh::util::ReadColors;
use gltf_proved::{image, Document, Error, Semantic};

mod support;
use support::{document_of, example, file};

/// A document of one primitive with one attribute over these bytes.
fn attribute(name: &str, component_type: u32, kind: &str, data: &[u8], more: &str) -> Document {
    let view = r#"{"buffer":0,"byteLength":"#.to_owned() + &data.len().to_string();
    let members = format!(
        r#","bufferViews":[{view}{more}}}],"accessors":[{{"bufferView":0,"componentType":
        {component_type},"count":2,"type":"{kind}","normalized":true}}],
        "meshes":[{{"primitives":[{{"attributes":{{"{name}":0}}}}]}}]"#
    );
    document_of(&members, data).unwrap()
}

#[test]
fn colours_are_cast() {
    let document =
        attribute("COLOR_1", 5121, "VEC3", &[0, 128, 255, 7, 1, 2, 3, 9], ",\"byteStride\":4");
    let primitive = document.meshes().next().unwrap().primitives().next().unwrap();
    let reader = primitive.reader(|buffer| buffer.bytes());
    let colors = reader.read_colors(1).unwrap();
    assert!(matches!(&colors, ReadColors::RgbU8(it) if it.len() == 2));
    let rgba: Vec<_> = colors.clone().into_rgba_u8().collect();
    assert_eq!(rgba, [[0, 128, 255, 255], [1, 2, 3, 255]]);
    let wide: Vec<_> = colors.clone().into_rgba_u16().collect();
    assert_eq!(wide[0], [0, 32768, 65280, 65535]);
    let floats: Vec<_> = colors.clone().into_rgb_f32().collect();
    assert_eq!(floats[0], [0.0, 128.0 / 255.0, 1.0]);
    assert_eq!(colors.clone().into_rgba_f32().nth(1).unwrap()[3], 1.0);
    assert_eq!(colors.into_rgb_u16().len(), 2);
    assert!(reader.read_colors(0).is_none());
    let accessor = primitive.get(&Semantic::Colors(1)).unwrap();
    assert_eq!(accessor.slice::<[u8; 3]>(), None);
    assert_eq!(accessor.bytes().unwrap(), [0, 128, 255, 7, 1, 2, 3]);
    assert_eq!((accessor.data_type(), accessor.dimensions()), (DataType::U8, Dimensions::Vec3));
    assert_eq!(accessor.read_f32().unwrap()[2], 1.0);
}

#[test]
fn joints_and_custom_attributes_are_found() {
    let document = attribute("JOINTS_0", 5121, "VEC4", &[1, 2, 3, 4, 5, 6, 7, 8], "");
    let primitive = document.meshes().next().unwrap().primitives().next().unwrap();
    let joints = primitive.reader(|_| None).read_joints(0).unwrap();
    assert_eq!(joints.into_u16().collect::<Vec<_>>(), [[1, 2, 3, 4], [5, 6, 7, 8]]);
    let document = attribute("_HEAT", 5122, "SCALAR", &[0, 128, 255, 127], "");
    let primitive = document.meshes().next().unwrap().primitives().next().unwrap();
    let accessor = primitive.get(&Semantic::Extras("HEAT".to_owned())).unwrap();
    assert_eq!(accessor.read::<i16>().unwrap(), [-32768, 32767]);
    assert_eq!(accessor.read_f32().unwrap(), [-1.0, 1.0]);
    assert!(primitive.get(&Semantic::Extras("COLD".to_owned())).is_none());
    assert!(primitive.get(&Semantic::Positions).is_none());
}

#[test]
fn unaligned_items_are_copied() {
    let mut data = vec![9];
    data.extend([1.0f32, 2.0].iter().flat_map(|it| it.to_le_bytes()));
    let members = r#","bufferViews":[{"buffer":0,"byteOffset":1,"byteLength":8}],
        "accessors":[{"bufferView":0,"componentType":5126,"count":2,"type":"SCALAR"}]"#;
    let document = document_of(members, &data).unwrap();
    let accessor = document.accessors().next().unwrap();
    assert_eq!(accessor.slice::<f32>(), None);
    assert_eq!(accessor.read::<f32>().unwrap(), [1.0, 2.0]);
    assert_eq!(accessor.items::<f32>().unwrap().nth(1), Some(2.0));
}

#[test]
fn matrices_are_arrays_of_columns() {
    let numbers: Vec<f32> = (0..16).map(|it| it as f32).collect();
    let data: Vec<u8> = numbers.iter().flat_map(|it| it.to_le_bytes()).collect();
    let members = r#","bufferViews":[{"buffer":0,"byteLength":64}],
        "accessors":[{"bufferView":0,"componentType":5126,"count":1,"type":"MAT4"}],
        "nodes":[{}],"skins":[{"joints":[0],"inverseBindMatrices":0,"skeleton":0}]"#;
    let document = document_of(members, &data).unwrap();
    let skin = document.skins().next().unwrap();
    let mut matrices = skin.reader(|it| it.bytes()).read_inverse_bind_matrices().unwrap();
    assert_eq!(matrices.next().unwrap()[1], [4.0, 5.0, 6.0, 7.0]);
    assert!(matrices.next().is_none());
    assert_eq!(skin.joints().len(), 1);
    assert_eq!(skin.skeleton().map(|it| it.index()), Some(0));
}

#[test]
fn padding_in_matrices_is_skipped() {
    // Each column begins at a multiple of four bytes (glTF 2.0, section 3.6.2.4).
    let data = [1, 2, 99, 99, 3, 4, 99, 99, 5, 6, 99, 99, 7, 8, 99, 99];
    let members = r#","bufferViews":[{"buffer":0,"byteLength":16}],
        "accessors":[{"bufferView":0,"componentType":5121,"count":2,"type":"MAT2"}]"#;
    let document = document_of(members, &data).unwrap();
    let accessor = document.accessors().next().unwrap();
    assert_eq!((accessor.size(), accessor.stride()), (4, 8));
    assert!(accessor.bytes().is_none());
    assert_eq!(accessor.read_bytes().unwrap(), [1, 2, 3, 4, 5, 6, 7, 8]);
    assert_eq!(accessor.read_u32().unwrap(), [1, 2, 3, 4, 5, 6, 7, 8]);
    assert_eq!(accessor.read_f32().unwrap()[7], 8.0);
    assert_eq!(accessor.read::<[u8; 4]>().unwrap(), [[1, 2, 3, 4], [5, 6, 7, 8]]);
}

#[test]
fn items_without_a_view_are_zeros() {
    let members = r#","bufferViews":[{"buffer":0,"byteLength":4},
        {"buffer":0,"byteOffset":4,"byteLength":24}],
        "accessors":[{"componentType":5126,"count":2,"type":"VEC3"},
        {"componentType":5123,"count":3,"type":"MAT3","sparse":{"count":1,
        "indices":{"bufferView":0,"componentType":5121},"values":{"bufferView":1}}}]"#;
    let mut data = vec![1, 0, 0, 0];
    for column in 0..3u8 {
        data.extend([3 * column, 0, 3 * column + 1, 0, 3 * column + 2, 0, 99, 99]);
    }
    let document = document_of(members, &data).unwrap();
    let accessor = |index: usize| document.accessors().nth(index).unwrap();
    assert_eq!(accessor(0).read::<[f32; 3]>().unwrap(), [[0.0; 3]; 2]);
    assert!(accessor(0).bytes().is_none());
    let wanted: Vec<u32> = (0..27).map(|it| if it / 9 == 1 { it % 9 } else { 0 }).collect();
    assert_eq!(accessor(1).read_u32().unwrap(), wanted);
}

#[test]
fn animations_have_keyframes() {
    let mut data: Vec<u8> = [0.0f32, 1.0].iter().flat_map(|it| it.to_le_bytes()).collect();
    data.extend([0i8, 0, 0, 127, 127, 0, 0, -127].map(|it| it as u8));
    let members = r#","bufferViews":[{"buffer":0,"byteLength":8},
        {"buffer":0,"byteOffset":8,"byteLength":8}],"nodes":[{"name":"Arm"}],
        "accessors":[{"bufferView":0,"componentType":5126,"count":2,"type":"SCALAR"},
        {"bufferView":1,"componentType":5120,"count":2,"type":"VEC4","normalized":true}],
        "animations":[{"name":"Wave","samplers":[{"input":0,"output":0},
        {"input":0,"output":1,"interpolation":"STEP","extras":[1]}],"channels":[
        {"sampler":1,"target":{"node":0,"path":"rotation"},"extras":{"a":2}}]}]"#;
    let document = document_of(members, &data).unwrap();
    let animation = document.animations().next().unwrap();
    assert_eq!(animation.name(), Some("Wave"));
    let channel = animation.channels().next().unwrap();
    assert_eq!(channel.target().node().unwrap().name(), Some("Arm"));
    assert_eq!(channel.target().property(), Property::Rotation);
    assert_eq!(channel.sampler().interpolation(), Interpolation::Step);
    assert_eq!(channel.extras().as_deref(), Some(r#"{"a":2}"#));
    let samplers: Vec<_> = animation.samplers().collect();
    assert_eq!((samplers.len(), samplers[0].index()), (1, 1));
    assert_eq!(samplers[0].extras().as_deref(), Some("[1]"));
    let reader = channel.reader(|buffer| buffer.bytes());
    assert_eq!(reader.read_inputs().unwrap().collect::<Vec<_>>(), [0.0, 1.0]);
    match reader.read_outputs() {
        Some(ReadOutputs::Rotations(it)) => {
            let floats: Vec<_> = it.clone().into_f32().collect();
            assert_eq!(floats, [[0.0, 0.0, 0.0, 1.0], [1.0, 0.0, 0.0, -1.0]]);
            assert_eq!(it.into_u8().nth(1), Some([254, 0, 0, 0]));
        }
        other => panic!("{other:?}"),
    }
}

#[test]
fn cameras_lights_and_variants_are_read() {
    let members = r#","cameras":[{"type":"orthographic","orthographic":
        {"xmag":1,"ymag":2,"znear":0.5,"zfar":9}},
        {"type":"perspective","perspective":{"yfov":0.5,"znear":0.25}}],
        "materials":[{"name":"Red"},{"name":"Blue"}],
        "meshes":[{"primitives":[{"attributes":{},"material":0,"extensions":
        {"KHR_materials_variants":{"mappings":[{"material":1,"variants":[1]}]}}}]}],
        "nodes":[{"camera":1,"extensions":{"KHR_lights_punctual":{"light":0}}}],
        "extensionsUsed":["KHR_lights_punctual","KHR_materials_variants"],
        "extensions":{"KHR_lights_punctual":{"lights":[{"type":"spot","intensity":3,
        "spot":{"innerConeAngle":0.25}}]},
        "KHR_materials_variants":{"variants":[{"name":"Day"},{"name":"Night"}]}}"#;
    let document = document_of(members, &[0; 4]).unwrap();
    match document.cameras().next().unwrap().projection() {
        Projection::Orthographic(it) => assert_eq!((it.ymag(), it.zfar()), (2.0, 9.0)),
        other => panic!("{other:?}"),
    }
    let node = document.nodes().next().unwrap();
    match node.camera().unwrap().projection() {
        Projection::Perspective(it) => {
            assert_eq!((it.yfov(), it.zfar(), it.aspect_ratio()), (0.5, None, None));
        }
        other => panic!("{other:?}"),
    }
    let light = node.light().unwrap();
    assert_eq!((light.intensity(), light.range(), light.color()), (3.0, None, [1.0; 3]));
    assert!(matches!(light.kind(), Kind::Spot { inner_cone_angle: 0.25, .. }));
    let names: Vec<_> = document.variants().unwrap().map(|it| it.name()).collect();
    assert_eq!(names, ["Day", "Night"]);
    let primitive = document.meshes().next().unwrap().primitives().next().unwrap();
    assert_eq!(primitive.material_in(0).unwrap().name(), Some("Red"));
    assert_eq!(primitive.material_in(1).unwrap().name(), Some("Blue"));
    assert_eq!(primitive.material_in(2).unwrap().name(), Some("Red"));
    assert_eq!(primitive.mappings().count(), 1);
    assert_eq!(primitive.mappings().next().unwrap().material().unwrap().name(), Some("Blue"));
    let document = Document::open(example("box.glb")).unwrap();
    assert!(document.lights().is_none() && document.variants().is_none());
}

#[test]
fn materials_have_their_extensions() {
    let text = file("c/tests/surface.gltf");
    let document = Document::from_slice(&text).unwrap();
    let material = document.materials().next().unwrap();
    assert_eq!((material.alpha_mode(), material.double_sided()), (AlphaMode::Mask, true));
    assert_eq!(material.alpha_cutoff(), Some(0.25));
    assert!(material.unlit());
    assert_eq!((material.ior(), material.emissive_strength()), (Some(1.25), Some(5.0)));
    let emissive = material.emissive_texture().unwrap();
    let transform = emissive.texture_transform().unwrap();
    assert_eq!((emissive.tex_coord(), transform.offset()), (0, [0.5, 0.0]));
    assert_eq!((transform.rotation(), transform.scale()), (1.0, [2.0, 2.0]));
    assert_eq!(material.normal_texture().unwrap().scale(), 2.0);
    assert_eq!(material.occlusion_texture().unwrap().strength(), 0.5);
    let volume = material.volume().unwrap();
    assert_eq!((volume.thickness_factor(), volume.attenuation_distance()), (0.5, 2.5));
    assert_eq!(material.specular().unwrap().specular_color_factor(), [1.0, 0.5, 1.0]);
    let glossy = material.pbr_specular_glossiness().unwrap();
    assert_eq!(glossy.glossiness_factor(), 0.5);
    assert!(material.transmission().unwrap().transmission_texture().is_some());
    assert_eq!(material.extras().as_deref(), Some(r#"{"by":"hand"}"#));
}

#[test]
fn lists_are_iterators_of_known_length() {
    let document = Document::open(example("triangle.gltf")).unwrap();
    let mut nodes = document.nodes();
    assert_eq!((nodes.len(), nodes.size_hint()), (2, (2, Some(2))));
    assert_eq!(nodes.clone().next_back().unwrap().name(), Some("Raised"));
    assert_eq!(nodes.nth(1).unwrap().name(), Some("Raised"));
    assert_eq!((nodes.len(), nodes.next().is_none()), (0, true));
    let roots: Vec<_> = document.scenes().next().unwrap().nodes().map(|it| it.index()).collect();
    assert_eq!(roots, [0, 1]);
    let document = Document::from_slice(&file("c/tests/rig.gltf")).unwrap();
    let children: Vec<_> =
        document.nodes().next().unwrap().children().map(|it| it.index()).collect();
    assert_eq!(children, [2, 1]);
    assert_eq!(document.scenes().next().unwrap().name(), Some("Bühne"));
    assert_eq!(document.nodes().nth(2).unwrap().weights(), Some(&[0.25, 1.0][..]));
    assert_eq!(document.nodes().nth(2).unwrap().name(), Some(""));
    assert_eq!(document.nodes().nth(1).unwrap().name(), None);
}

#[test]
fn accessors_of_no_items_are_read() {
    let members = r#","bufferViews":[{"buffer":0,"byteLength":0}],
        "accessors":[{"bufferView":0,"componentType":5126,"count":0,"type":"VEC3"},
                     {"componentType":5121,"count":0,"type":"SCALAR"}],
        "images":[{"bufferView":0,"mimeType":"image/png"}]"#;
    let document = document_of(members, b"1234").unwrap();
    for accessor in document.accessors() {
        assert_eq!((accessor.count(), accessor.bytes()), (0, None));
        for why in [
            accessor.read_bytes().unwrap_err(),
            accessor.read_f32().unwrap_err(),
            accessor.read::<[f32; 3]>().unwrap_err(),
            accessor.read_u32().unwrap_err(),
        ] {
            assert!(matches!(why, Error::Unreadable(_) | Error::OtherType(_)), "{why:?}");
        }
    }
    let image = document.images().next().unwrap();
    assert!(matches!(image.source(), image::Source::View { .. }));
    assert_eq!(image.bytes(), Some(&[][..]));
}
