//! Prints the nodes of a file and what their meshes are made of: `display FILE`.
//!
//! It is written as for the crate `gltf`: with the first line in place of that crate, it needs
//! nothing else of this one.
use gltf_proved as gltf;

use std::error::Error;

/// How deep nodes are followed: no rule refuses a node that is below itself.
const DEPTH: usize = 64;

fn print_mesh(mesh: &gltf::Mesh, buffers: &[gltf::buffer::Data], indent: &str) {
    for primitive in mesh.primitives() {
        println!("{indent}- primitive #{}: {:?}", primitive.index(), primitive.mode());
        for (semantic, accessor) in primitive.attributes() {
            let (count, dimensions) = (accessor.count(), accessor.dimensions());
            println!(
                "{indent}  {semantic:?}: {count} of {dimensions:?} {:?}",
                accessor.data_type()
            );
        }
        let reader = primitive.reader(|buffer| Some(&buffers[buffer.index()]));
        if let Some(position) = reader.read_positions().and_then(|mut it| it.next()) {
            println!("{indent}  first position: {position:?}");
        }
        if let Some(indices) = reader.read_indices() {
            println!("{indent}  {} indices", indices.into_u32().len());
        }
        let pbr = primitive.material().pbr_metallic_roughness();
        println!("{indent}  base color: {:?}", pbr.base_color_factor());
    }
}

fn print_node(node: &gltf::Node, buffers: &[gltf::buffer::Data], depth: usize) {
    let indent = "  ".repeat(depth);
    println!("{indent}- node #{} {}", node.index(), node.name().unwrap_or(""));
    if let Some(mesh) = node.mesh() {
        print_mesh(&mesh, buffers, &format!("{indent}  "));
    }
    for child in node.children().take(if depth < DEPTH { usize::MAX } else { 0 }) {
        print_node(&child, buffers, depth + 1);
    }
}

fn run(path: &str) -> Result<(), Box<dyn Error>> {
    let (document, buffers, _images) = gltf::import(path)?;
    for scene in document.scenes() {
        println!("scene #{} {}", scene.index(), scene.name().unwrap_or(""));
        for node in scene.nodes() {
            print_node(&node, &buffers, 0);
        }
    }
    Ok(())
}

fn main() {
    match std::env::args().nth(1) {
        Some(path) => run(&path).expect("the file is not read"),
        None => println!("usage: display FILE"),
    }
}
