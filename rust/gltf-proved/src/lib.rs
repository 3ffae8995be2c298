//! Reads glTF 2.0 files by a loader that is proved: no file can crash it, and it accepts exactly
//! the files that its definition of the format accepts. The loader is a library for C, `libgltf`;
//! this crate is safe Rust over it, with the names of the crate `gltf`.
//!
//! ```no_run
//! use gltf_proved as gltf;
//!
//! # fn main() -> Result<(), gltf::Error> {
//! let document = gltf::Document::open("examples/box.glb")?;
//! for mesh in document.meshes() {
//!     for primitive in mesh.primitives() {
//!         let reader = primitive.reader(|buffer| buffer.bytes());
//!         for position in reader.read_positions().into_iter().flatten() {
//!             println!("{position:?}");
//!         }
//!     }
//! }
//! # Ok(())
//! # }
//! ```
//!
//! A [`Document`] owns the file and the bytes of its buffers. What it returns borrows it: a handle
//! cannot outlive its document.
//!
//! ```compile_fail,E0597
//! let mesh = {
//!     let document = gltf_proved::Document::open("examples/box.glb").unwrap();
//!     document.meshes().next().unwrap()
//! };
//! println!("{:?}", mesh.name());
//! ```
//!
//! Nor can the bytes of an accessor, which are lent in place.
//!
//! ```compile_fail,E0505
//! let document = gltf_proved::Document::open("examples/box.glb").unwrap();
//! let bytes = document.accessors().next().unwrap().bytes().unwrap();
//! drop(document);
//! println!("{}", bytes.len());
//! ```
//!
//! Any number of threads may read one document at the same time.
//!
//! # The README
#![doc = include_str!("../README.md")]
#![deny(missing_docs)]
#![deny(unsafe_op_in_unsafe_fn)]

#[cfg(not(all(target_endian = "little", target_pointer_width = "64")))]
compile_error!("gltf-proved is for 64-bit processors where the lowest byte comes first");

#[macro_use]
mod record;

pub mod accessor;
pub mod animation;
pub mod buffer;
pub mod camera;
pub mod extension;
pub mod image;
pub mod iter;
pub mod khr_lights_punctual;
pub mod khr_materials_variants;
pub mod material;
pub mod mesh;
pub mod scene;
pub mod skin;
pub mod texture;

mod asset;
mod cast;
mod document;
mod error;
mod file;
mod folder;
mod import;
mod options;
mod slots;
mod sys;

pub use accessor::Accessor;
pub use animation::Animation;
pub use asset::Asset;
pub use buffer::Buffer;
pub use camera::Camera;
pub use document::{Document, Gltf};
pub use error::{Error, Fault, Result, Status};
pub use file::library_version;
pub use folder::Folder;
pub use image::Image;
pub use import::{import, import_slice, Import};
pub use material::Material;
pub use mesh::{Attribute, Mesh, Primitive, Semantic};
pub use options::Options;
pub use scene::{Node, Scene};
pub use skin::Skin;
pub use texture::Texture;
