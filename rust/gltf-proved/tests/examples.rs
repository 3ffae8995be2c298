//! The files of `examples/` hold what the scripts wrote that made them.
use gltf_proved::mesh::util::ReadIndices;
use gltf_proved::mesh::{Bounds, Mode};
use gltf_proved::scene::Transform;
use gltf_proved::texture::{MagFilter, MinFilter, WrappingMode};
use gltf_proved::{buffer, image, Document, Primitive, Semantic};

mod support;
use support::example;

/// The positions, the normals and the texture coordinates of the box, as make_box.py makes them.
fn vertices() -> Vec<([f32; 3], [f32; 3], [f32; 2])> {
    let corners = [(-0.5, -0.5), (0.5, -0.5), (0.5, 0.5), (-0.5, 0.5)];
    let tex_coords = [[0.0, 1.0], [1.0, 1.0], [1.0, 0.0], [0.0, 0.0]];
    let mut found = Vec::new();
    for axis in 0..3 {
        for sign in [1.0, -1.0] {
            for ((a, b), tex_coord) in corners.into_iter().zip(tex_coords) {
                let (mut position, mut normal) = ([0.0; 3], [0.0; 3]);
                normal[axis] = sign;
                position[axis] = sign / 2.0;
                position[(axis + 1) % 3] = a * sign;
                position[(axis + 2) % 3] = b;
                found.push((position, normal, tex_coord));
            }
        }
    }
    found
}

fn first_primitive(document: &Document) -> Primitive<'_> {
    document.meshes().next().unwrap().primitives().next().unwrap()
}

#[test]
fn the_box_has_its_vertices() {
    let document = Document::open(example("box.glb")).unwrap();
    let primitive = first_primitive(&document);
    let reader = primitive.reader(|buffer| buffer.bytes());
    let positions: Vec<_> = reader.read_positions().unwrap().collect();
    let normals: Vec<_> = reader.read_normals().unwrap().collect();
    let tex_coords: Vec<_> = reader.read_tex_coords(0).unwrap().into_f32().collect();
    let wanted = vertices();
    assert_eq!(positions, wanted.iter().map(|it| it.0).collect::<Vec<_>>());
    assert_eq!(normals, wanted.iter().map(|it| it.1).collect::<Vec<_>>());
    assert_eq!(tex_coords, wanted.iter().map(|it| it.2).collect::<Vec<_>>());
    let indices: Vec<u32> = reader.read_indices().unwrap().into_u32().collect();
    let wanted: Vec<u32> =
        (0..6).flat_map(|face| [0, 1, 2, 0, 2, 3].map(|corner| face * 4 + corner)).collect();
    assert_eq!(indices, wanted);
    assert!(matches!(reader.read_indices(), Some(ReadIndices::U16(it)) if it.len() == 36));
    assert!(reader.read_tangents().is_none());
    assert!(reader.read_colors(0).is_none());
    assert!(reader.read_tex_coords(1).is_none());
}

#[test]
fn the_box_is_read_in_place() {
    let document = Document::open(example("box.glb")).unwrap();
    let accessor = first_primitive(&document).get(&Semantic::Positions).unwrap();
    let slice: &[[f32; 3]] = accessor.slice().unwrap();
    assert_eq!(slice, vertices().iter().map(|it| it.0).collect::<Vec<_>>());
    let (bytes, buffer) = (accessor.bytes().unwrap(), document.buffers().next().unwrap());
    assert_eq!(bytes.as_ptr(), buffer.bytes().unwrap().as_ptr());
    assert_eq!(bytes.len(), 24 * 12);
    assert!(accessor.slice::<[u32; 3]>().is_none());
    assert!(accessor.slice::<f32>().is_none());
    assert!(accessor.items::<[f32; 2]>().is_none());
    assert_eq!(accessor.read::<[f32; 3]>().unwrap(), slice);
}

#[test]
fn the_box_has_its_records() {
    let document = Document::open(example("box.glb")).unwrap();
    assert_eq!(document.asset().version(), "2.0");
    assert_eq!(document.asset().generator().as_deref(), Some("examples/make_box.py"));
    let scene = document.default_scene().unwrap();
    let node = scene.nodes().next().unwrap();
    assert_eq!((node.name(), node.index()), (Some("Box"), 0));
    assert_eq!(node.mesh().unwrap().name(), Some("Box"));
    assert_eq!(node.children().len(), 0);
    let unit = ([0.0; 3], [0.0, 0.0, 0.0, 1.0], [1.0; 3]);
    assert_eq!(node.transform().decomposed(), unit);
    let primitive = first_primitive(&document);
    assert_eq!(primitive.mode(), Mode::Triangles);
    let bounds = Bounds { min: [-0.5; 3], max: [0.5; 3] };
    assert_eq!(primitive.bounding_box(), Some(bounds));
    let names: Vec<String> = primitive.attributes().map(|it| it.0.to_string()).collect();
    assert_eq!(names, ["POSITION", "NORMAL", "TEXCOORD_0"]);
}

#[test]
fn the_box_has_its_material() {
    let document = Document::open(example("box.glb")).unwrap();
    let material = first_primitive(&document).material();
    assert_eq!((material.name(), material.index()), (Some("Checker"), Some(0)));
    let pbr = material.pbr_metallic_roughness();
    assert_eq!((pbr.metallic_factor(), pbr.roughness_factor()), (0.0, 1.0));
    assert_eq!(pbr.base_color_factor(), [1.0; 4]);
    assert!(pbr.metallic_roughness_texture().is_none() && material.normal_texture().is_none());
    assert!(material.volume().is_none() && !material.unlit() && material.ior().is_none());
    let info = pbr.base_color_texture().unwrap();
    assert!(info.texture_transform().is_none());
    let (texture, sampler) = (info.texture(), info.texture().sampler());
    assert_eq!(sampler.index(), Some(0));
    assert_eq!(sampler.mag_filter(), Some(MagFilter::Nearest));
    assert_eq!(sampler.min_filter(), Some(MinFilter::Nearest));
    assert_eq!(sampler.wrap_s(), WrappingMode::Repeat);
    let image = texture.source().unwrap();
    assert_eq!(&image.bytes().unwrap()[..8], b"\x89PNG\r\n\x1a\n");
    match image.source() {
        image::Source::View { view, mime_type } => {
            assert_eq!((view.index(), mime_type), (4, "image/png"));
            assert_eq!(view.bytes(), image.bytes());
        }
        other => panic!("{other:?}"),
    }
}

#[test]
fn the_triangle_has_sparse_corners() {
    let document = Document::open(example("triangle.gltf")).unwrap();
    let corners = [[0.0, 0.0, 0.0], [1.0, 0.0, 0.0], [0.5, 1.0, 0.0]];
    let raised = [[0.0, 0.0, 0.0], [1.0, 0.0, 0.0], [0.5, 1.0, 0.25]];
    let bent = [[0.0, 0.0, 0.0], [0.25, -0.5, 0.0], [0.0, 0.0, 0.0]];
    let items = |index: usize| document.accessors().nth(index).unwrap().read::<[f32; 3]>().unwrap();
    assert_eq!(items(0), corners);
    assert_eq!(items(2), raised);
    assert_eq!(items(3), bent);
    let accessor = document.accessors().nth(2).unwrap();
    assert!(accessor.bytes().is_none() && accessor.slice::<[f32; 3]>().is_none());
    assert_eq!(accessor.sparse().unwrap().count(), 1);
    let reader = first_primitive(&document).reader(|buffer| buffer.bytes());
    let (positions, normals, tangents) = reader.read_morph_targets().next().unwrap();
    assert_eq!(positions.unwrap().collect::<Vec<_>>(), bent);
    assert!(normals.is_none() && tangents.is_none());
    let mesh = document.meshes().next().unwrap();
    assert_eq!(mesh.weights(), Some(&[0.0][..]));
    assert_eq!(document.meshes().nth(1).unwrap().weights(), None);
    let node = document.nodes().nth(1).unwrap();
    assert!(matches!(node.transform(), Transform::Decomposed { translation: [2.0, 0.0, 0.0], .. }));
}

#[test]
fn the_square_is_in_two_files() {
    let path = example("two files/square.gltf");
    let (document, buffers, images) = gltf_proved::import(&path).unwrap();
    let corners = [[0.0, 0.0, 0.0], [1.0, 0.0, 0.0], [1.0, 1.0, 0.0], [0.0, 1.0, 0.0]];
    let primitive = first_primitive(&document);
    let reader = primitive.reader(|buffer| Some(&buffers[buffer.index()]));
    assert_eq!(reader.read_positions().unwrap().collect::<Vec<_>>(), corners);
    let indices: Vec<u32> = reader.read_indices().unwrap().into_u32().collect();
    assert_eq!(indices, [0, 1, 2, 0, 2, 3]);
    assert!(images.is_empty());
    let buffer = document.buffers().next().unwrap();
    assert_eq!(buffer.source(), buffer::Source::Uri("square%20data.bin"));
    assert_eq!(buffer.length(), 60);
    let data = std::fs::read(example("two files/square data.bin")).unwrap();
    assert_eq!(buffer.bytes(), Some(&data[..]));
}

#[test]
fn what_an_import_returns_stays() {
    let (document, buffers, images) = gltf_proved::import(example("box.glb")).unwrap();
    let wanted = document.buffers().next().unwrap().bytes().unwrap().to_vec();
    drop(document);
    assert_eq!(buffers[0][..], wanted[..]);
    assert_eq!(&images[0].bytes().unwrap()[1..4], b"PNG");
    assert_eq!(images[0].image().name(), None);
}
