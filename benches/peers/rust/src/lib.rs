//! The Rust crate `gltf`, by the functions of `loader.h`. Images are left alone, as by the others.
use gltf::accessor::{DataType, Dimensions, Item, Iter};
use gltf::{buffer, Accessor, Buffer, Document, Gltf};
use std::ffi::{c_char, c_longlong, c_uchar, c_void};
use std::slice;

/// What `loader.h` counts.
const COUNTS: usize = 8;

struct Loaded {
    document: Document,
    buffers: Vec<buffer::Data>,
}

fn loaded(bytes: &[u8]) -> gltf::Result<Loaded> {
    let Gltf { document, blob } = Gltf::from_slice(bytes)?;
    let buffers = gltf::import_buffers(&document, None, blob)?;
    Ok(Loaded { document, buffers })
}

/// # Safety
/// As `loader.h` says it: the pointers are good for so many bytes.
#[no_mangle]
pub unsafe extern "C" fn loader_open(
    bytes: *const c_uchar,
    size: usize,
    why: *mut c_char,
    why_size: usize,
) -> *mut c_void {
    match loaded(slice::from_raw_parts(bytes, size)) {
        Ok(file) => Box::into_raw(Box::new(file)).cast(),
        Err(error) => {
            let text = error.to_string();
            let length = text.len().min(why_size - 1);
            why.cast::<u8>().copy_from(text.as_ptr(), length);
            *why.add(length) = 0;
            std::ptr::null_mut()
        }
    }
}

/// # Safety
/// The file is an open one, and there is room for all counts.
#[no_mangle]
pub unsafe extern "C" fn loader_counts(file: *mut c_void, counts: *mut usize) {
    let Loaded { document, buffers } = &*file.cast::<Loaded>();
    let found: [usize; COUNTS] = [
        document.accessors().len(),
        document.meshes().len(),
        document.nodes().len(),
        document.materials().len(),
        document.textures().len(),
        document.animations().len(),
        buffers.len(),
        buffers.iter().map(|data| data.len()).sum(),
    ];
    counts.copy_from(found.as_ptr(), COUNTS);
}

/// The sum of the bit patterns of all floats of all items.
fn sum<T, F>(file: &Loaded, accessor: Accessor<'_>, floats: impl Fn(T) -> F) -> u32
where
    T: Item,
    F: IntoIterator<Item = f32>,
{
    let bytes_of = |buffer: Buffer<'_>| file.buffers.get(buffer.index()).map(|data| &data.0[..]);
    let items = Iter::new(accessor, bytes_of).into_iter().flatten();
    items
        .flat_map(floats)
        .fold(0, |all, one| all.wrapping_add(one.to_bits()))
}

/// # Safety
/// The file is an open one.
#[no_mangle]
pub unsafe extern "C" fn loader_items(file: *mut c_void) -> c_longlong {
    let file = &*file.cast::<Loaded>();
    let mut all = 0u32;
    for accessor in file.document.accessors() {
        if accessor.data_type() != DataType::F32 {
            continue;
        }
        all = all.wrapping_add(match accessor.dimensions() {
            Dimensions::Scalar => sum(file, accessor, |x: f32| [x]),
            Dimensions::Vec2 => sum(file, accessor, |x: [f32; 2]| x),
            Dimensions::Vec3 => sum(file, accessor, |x: [f32; 3]| x),
            Dimensions::Vec4 | Dimensions::Mat2 => sum(file, accessor, |x: [f32; 4]| x),
            Dimensions::Mat3 => sum(file, accessor, |x: [[f32; 3]; 3]| x.into_iter().flatten()),
            Dimensions::Mat4 => sum(file, accessor, |x: [[f32; 4]; 4]| x.into_iter().flatten()),
        });
    }
    all.into()
}

/// # Safety
/// The file is one of `loader_open`, and is not used again.
#[no_mangle]
pub unsafe extern "C" fn loader_close(file: *mut c_void) {
    drop(Box::from_raw(file.cast::<Loaded>()));
}
