//! What several tests use.
#![allow(dead_code)]
use gltf_proved::{Document, Options, Result};

/// The path of a file of `examples/`.
pub fn example(name: &str) -> String {
    format!("{}/../../examples/{name}", env!("CARGO_MANIFEST_DIR"))
}

/// The bytes of a file below the repository.
pub fn file(name: &str) -> Vec<u8> {
    let path = format!("{}/../../{name}", env!("CARGO_MANIFEST_DIR"));
    std::fs::read(&path).unwrap_or_else(|why| panic!("{path}: {why}"))
}

/// A document of these members, and of `data` as its buffer 0.
pub fn document_of(members: &str, data: &[u8]) -> Result<Document> {
    let text = format!(
        r#"{{"asset":{{"version":"2.0"}},"buffers":[{{"byteLength":{},"uri":"data"}}]{members}}}"#,
        data.len()
    );
    Options::new().from_slice_with(text.as_bytes(), |uri| {
        assert_eq!(uri, "data");
        Ok(data.to_vec())
    })
}

/// Reads all that a document has, in many ways.
pub fn read_all(document: &Document) -> usize {
    let mut sum = format!("{document:?}").len();
    for accessor in document.accessors() {
        sum += accessor.bytes().map_or(0, |bytes| bytes.iter().map(|it| usize::from(*it)).sum());
        sum += accessor.min().map_or(0, |it| it.len()) + accessor.max().map_or(0, |it| it.len());
        sum += accessor.view().and_then(|view| view.bytes()).map_or(0, |it| it.len());
        if accessor.count() < 100_000 {
            sum += accessor.read_bytes().map_or(1, |it| it.len());
            sum += accessor.read_f32().map_or(1, |it| it.len());
            sum += accessor.read_u32().map_or(1, |it| it.len());
            sum += accessor.items::<[f32; 3]>().map_or(1, |it| it.len());
        }
    }
    for mesh in document.meshes() {
        sum += mesh.weights().map_or(0, |it| it.len()) + read_mesh(&mesh);
    }
    for material in document.materials() {
        sum += format!("{:?}", material.pbr_metallic_roughness().base_color_texture()).len();
        sum += format!("{:?} {:?}", material.volume(), material.normal_texture()).len();
        sum += material.extras().map_or(0, |it| it.len());
    }
    for animation in document.animations() {
        sum += animation.samplers().len();
        for channel in animation.channels() {
            let reader = channel.reader(|buffer| buffer.bytes());
            let is_short = channel.sampler().output().count() < 100_000;
            sum += reader.read_inputs().filter(|_| is_short).map_or(1, |it| it.len());
            sum += usize::from(is_short && reader.read_outputs().is_some());
        }
    }
    for image in document.images() {
        sum += image.bytes().map_or(0, |it| it.len()) + format!("{:?}", image.source()).len();
    }
    for node in document.nodes() {
        let (matrix, name) = (node.transform().matrix(), node.name().unwrap_or(""));
        sum += format!("{matrix:?}{name}{:?}", node.weights()).len() + node.children().len();
    }
    sum += format!("{:?}{:?}", document.skins(), document.cameras()).len();
    sum + read_extensions(document)
}

/// Reads the extensions that are read when they are asked for. What is at fault is read too.
fn read_extensions(document: &Document) -> usize {
    let mut sum = format!("{:?}", document.asset().xmp_packet()).len();
    for it in document.materials() {
        sum += format!("{:?}{:?}{:?}", it.clearcoat(), it.sheen(), it.iridescence()).len();
        sum += format!("{:?}{:?}", it.anisotropy(), it.diffuse_transmission()).len();
        sum += format!("{:?}{:?}", it.dispersion(), it.xmp_packet()).len();
    }
    for it in document.textures() {
        sum += format!("{:?}{:?}", it.basisu(), it.webp()).len();
    }
    for it in document.nodes() {
        sum += format!("{:?}{:?}{:?}", it.visible(), it.instancing(), it.xmp_packet()).len();
    }
    for it in document.views() {
        let meshopt = it.meshopt();
        sum += format!("{meshopt:?}").len();
        sum += meshopt.ok().flatten().and_then(|it| it.bytes()).map_or(0, |it| it.len());
    }
    sum
}

fn read_mesh(mesh: &gltf_proved::Mesh) -> usize {
    let mut sum = 0;
    for primitive in mesh.primitives() {
        let is_short = primitive.attributes().all(|(_, it)| it.count() < 100_000)
            && primitive.indices().map_or(true, |it| it.count() < 100_000);
        sum += primitive.morph_targets().len() + primitive.material().index().unwrap_or(0);
        if !is_short {
            continue;
        }
        let reader = primitive.reader(|buffer| buffer.bytes());
        sum += reader.read_positions().map_or(1, |it| it.count());
        sum += reader.read_indices().map_or(1, |it| it.into_u32().map(|it| it as usize % 7).sum());
        sum += reader.read_tex_coords(0).map_or(1, |it| it.into_u8().count());
        sum += reader.read_colors(0).map_or(1, |it| it.into_rgba_f32().count());
        sum += reader.read_joints(0).map_or(1, |it| it.into_u16().count());
        sum += reader.read_weights(0).map_or(1, |it| it.into_f32().count());
    }
    sum
}
