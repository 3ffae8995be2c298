//! An open file of the library. All calls of the library are in this file.
use std::alloc::{handle_alloc_error, Layout};
use std::ffi::CString;
use std::mem::MaybeUninit;
use std::os::raw::c_char;
use std::ptr::{self, NonNull};

use crate::error::{Error, Fault, Result, Status};
use crate::sys::{self, gltf_file, gltf_status};

/// The version of the library: major, minor, patch. It works with this crate if its major version
/// is 2 and it is not older than 2.2; this crate asks for nothing that 2.2.0 does not know.
pub fn library_version() -> (u32, u32, u32) {
    // SAFETY: the call takes nothing and changes nothing.
    let number = unsafe { sys::gltf_version() };
    (number / 10_000, number / 100 % 100, number % 100)
}

/// Owns an open file, and closes it when it is dropped.
pub(crate) struct File {
    at: NonNull<gltf_file>,
}

// SAFETY: nothing in the file belongs to the thread that opened it: its memory is of malloc, which
// any thread may free, and the library keeps nothing in memory of threads.
unsafe impl Send for File {}

// SAFETY: all methods that take `&self` make calls that take a `const gltf_file *`. These change
// nothing in the file, and gltf.h says that any number of threads may make them at the same time.
// The two calls that change it, gltf_give and gltf_close, are made where `&mut self` is held.
unsafe impl Sync for File {}

impl Drop for File {
    fn drop(&mut self) {
        // SAFETY: the file was opened, and is closed once, here. Nothing is left that borrows it.
        unsafe { sys::gltf_close(self.at.as_ptr()) }
    }
}

type InfoCall<T> = unsafe extern "C" fn(*const gltf_file, usize, *mut T) -> gltf_status;
type PartCall<T> = unsafe extern "C" fn(*const gltf_file, usize, usize, *mut T) -> gltf_status;

/// A struct that one call of the library fills in for the record at an index.
///
/// # Safety
/// `CALL` fills in all of the struct where it returns GLTF_SUCCESS. All bits 0 are a value of it.
pub(crate) unsafe trait Info: Sized {
    const CALL: InfoCall<Self>;
}

/// A struct that one call fills in for a part of a record.
///
/// # Safety
/// As for [`Info`].
pub(crate) unsafe trait PartInfo: Sized {
    const CALL: PartCall<Self>;
}

macro_rules! infos {
    ($kind:ident by $call_type:ident: $($name:ident $call:ident,)*) => {$(
        // SAFETY: gltf.h says so of each call; the members are numbers and pointers.
        unsafe impl $kind for sys::$name {
            const CALL: $call_type<sys::$name> = sys::$call;
        }
    )*};
}

infos! {
    Info by InfoCall:
    gltf_accessor gltf_accessor_info,
    gltf_animation gltf_animation_info,
    gltf_buffer gltf_buffer_info,
    gltf_buffer_view gltf_buffer_view_info,
    gltf_camera gltf_camera_info,
    gltf_image gltf_image_info,
    gltf_light gltf_light_info,
    gltf_material gltf_material_info,
    gltf_mesh gltf_mesh_info,
    gltf_node gltf_node_info,
    gltf_sampler gltf_sampler_info,
    gltf_scene gltf_scene_info,
    gltf_skin gltf_skin_info,
    gltf_texture gltf_texture_info,
}

infos! {
    PartInfo by PartCall:
    gltf_channel gltf_channel_info,
    gltf_primitive gltf_primitive_info,
}

/// A call that fills in an extension of the record at an index. There are only the constants below:
/// the members are private.
pub(crate) struct ExtensionCall<T> {
    call: InfoCall<T>,
    kind: u32,
    name: &'static str,
}

/// Each of these calls fills in all of the struct where it returns GLTF_SUCCESS, as gltf.h says of
/// it. All bits 0 are a value of the struct: its members are numbers.
macro_rules! extension_calls {
    ($($constant:ident: $info:ident by $call:ident of $kind:ident, $name:literal;)*) => {$(
        pub(crate) const $constant: ExtensionCall<sys::$info> =
            ExtensionCall { call: sys::$call, kind: sys::$kind, name: $name };
    )*};
}

extension_calls! {
    CLEARCOAT: gltf_clearcoat by gltf_clearcoat_info of GLTF_MATERIALS, "KHR_materials_clearcoat";
    SHEEN: gltf_sheen by gltf_sheen_info of GLTF_MATERIALS, "KHR_materials_sheen";
    IRIDESCENCE: gltf_iridescence by gltf_iridescence_info of GLTF_MATERIALS,
        "KHR_materials_iridescence";
    ANISOTROPY: gltf_anisotropy by gltf_anisotropy_info of GLTF_MATERIALS,
        "KHR_materials_anisotropy";
    DISPERSION: gltf_dispersion by gltf_dispersion_info of GLTF_MATERIALS,
        "KHR_materials_dispersion";
    DIFFUSE_TRANSMISSION: gltf_diffuse_transmission by gltf_diffuse_transmission_info
        of GLTF_MATERIALS, "KHR_materials_diffuse_transmission";
    BASISU: gltf_texture_source by gltf_basisu_info of GLTF_TEXTURES, "KHR_texture_basisu";
    WEBP: gltf_texture_source by gltf_webp_info of GLTF_TEXTURES, "EXT_texture_webp";
    INSTANCING: gltf_instancing by gltf_instancing_info of GLTF_NODES, "EXT_mesh_gpu_instancing";
    VISIBILITY: gltf_visibility by gltf_visibility_info of GLTF_NODES, "KHR_node_visibility";
    MESHOPT: gltf_meshopt by gltf_meshopt_info of GLTF_BUFFER_VIEWS, "EXT_meshopt_compression";
}

/// Ends the program where a call failed that does not fail: of a record that is there.
fn done(status: gltf_status) {
    match status {
        sys::GLTF_SUCCESS => {}
        // As all of Rust's own texts and lists do where there is no memory.
        sys::GLTF_NO_MEMORY => handle_alloc_error(Layout::new::<u8>()),
        _ => panic!("libgltf returned {status} of a record that is there"),
    }
}

/// The index of a primitive's own attributes, in place of that of a morph target.
pub(crate) const NO_TARGET: usize = sys::GLTF_NONE;

/// An index that may be absent.
pub(crate) fn or_none(index: usize) -> Option<usize> {
    (index != sys::GLTF_NONE).then_some(index)
}

impl File {
    /// Opens a file with these flags: buffers may wait for [`File::give`], and lengths be exact. A
    /// file that requires one of `extensions` is accepted.
    pub(crate) fn open(bytes: &[u8], flags: u32, extensions: &[CString]) -> Result<File> {
        let names: Vec<*const c_char> = extensions.iter().map(|name| name.as_ptr()).collect();
        let options = sys::gltf_open_options {
            flags,
            reserved_word: 0,
            extensions: names.as_ptr(),
            extension_count: names.len(),
            reserved: [0; 4],
        };
        let (mut at, mut fault) = (ptr::null_mut(), MaybeUninit::<sys::gltf_fault>::zeroed());
        // SAFETY: the bytes, the options and the texts that these name are there until the call
        // returns, and are not written; `at` and `fault` are room for what the call writes.
        let status = unsafe {
            let (data, size) = (bytes.as_ptr().cast(), bytes.len());
            sys::gltf_open(data, size, &options, &mut at, fault.as_mut_ptr())
        };
        // SAFETY: all of it is numbers, which were 0 before the call filled it in.
        let fault = unsafe { fault.assume_init() };
        match NonNull::new(at) {
            Some(at) if status == sys::GLTF_SUCCESS => Ok(File { at }),
            _ => Err(Error::of_library(&fault)),
        }
    }

    /// Supplies the bytes of a buffer that waits.
    pub(crate) fn give(&mut self, buffer: usize, bytes: &[u8]) -> gltf_status {
        // SAFETY: the file is open and nothing else uses it; the bytes are copied by the call.
        unsafe { sys::gltf_give(self.at.as_ptr(), buffer, bytes.as_ptr().cast(), bytes.len()) }
    }

    /// How many records of a kind there are.
    pub(crate) fn count(&self, kind: u32) -> usize {
        // SAFETY: the file is open.
        unsafe { sys::gltf_count(self.at.as_ptr(), kind) }
    }

    /// The struct of the record at an index.
    pub(crate) fn info<T: Info>(&self, index: usize) -> T {
        let mut out = MaybeUninit::zeroed();
        // SAFETY: the file is open, and `out` is room for the struct of this call.
        done(unsafe { T::CALL(self.at.as_ptr(), index, out.as_mut_ptr()) });
        // SAFETY: the call succeeded and has filled it in.
        unsafe { out.assume_init() }
    }

    /// The struct of a part of a record.
    pub(crate) fn part_info<T: PartInfo>(&self, whole: usize, part: usize) -> T {
        let mut out = MaybeUninit::zeroed();
        // SAFETY: the file is open, and `out` is room for the struct of this call.
        done(unsafe { T::CALL(self.at.as_ptr(), whole, part, out.as_mut_ptr()) });
        // SAFETY: the call succeeded and has filled it in.
        unsafe { out.assume_init() }
    }

    /// The attribute at a position of a primitive, or of a morph target of it; None past the last.
    pub(crate) fn attribute(
        &self,
        [mesh, primitive, target]: [usize; 3],
        position: usize,
    ) -> Option<sys::gltf_attribute> {
        let mut out = MaybeUninit::<sys::gltf_attribute>::zeroed();
        // SAFETY: the file is open, and `out` is room for the struct.
        let status = unsafe {
            let (at, out) = (self.at.as_ptr(), out.as_mut_ptr());
            sys::gltf_attribute_info(at, mesh, primitive, target, position, out)
        };
        // SAFETY: all of it is numbers, which were 0 before the call filled it in.
        found(status, unsafe { out.assume_init() })
    }

    /// The accessor of the attribute with a meaning.
    pub(crate) fn attribute_find(
        &self,
        [mesh, primitive, target]: [usize; 3],
        meaning: u32,
        set: u32,
    ) -> Option<usize> {
        let mut index = 0;
        // SAFETY: the file is open, and `index` is room for what the call writes.
        let status = unsafe {
            let at = self.at.as_ptr();
            sys::gltf_attribute_find(at, mesh, primitive, target, meaning, set, &mut index)
        };
        found(status, index)
    }

    /// The index that a primitive has in a variant for its material, whether there is such a
    /// material or not.
    pub(crate) fn variant_index(
        &self,
        mesh: usize,
        primitive: usize,
        variant: usize,
    ) -> Option<usize> {
        let mut index = 0;
        // SAFETY: the file is open, and `index` is room for what the call writes.
        let status = unsafe {
            sys::gltf_variant_material(self.at.as_ptr(), mesh, primitive, variant, &mut index)
        };
        found(status, index)
    }

    /// The material of a primitive in a variant; an error where the document has none with that
    /// index.
    pub(crate) fn variant_material(
        &self,
        mesh: usize,
        primitive: usize,
        variant: usize,
    ) -> Result<Option<usize>> {
        let mut fault = MaybeUninit::<sys::gltf_fault>::zeroed();
        // SAFETY: the file is open, and `fault` is room for the struct.
        let status = unsafe {
            let (at, fault) = (self.at.as_ptr(), fault.as_mut_ptr());
            sys::gltf_variant_fault(at, mesh, primitive, variant, fault)
        };
        // SAFETY: all of it is numbers, which were 0 before the call filled it in.
        match found(status, unsafe { fault.assume_init() }) {
            Some(fault) => Err(Error::of_library(&fault)),
            None => Ok(self.variant_index(mesh, primitive, variant)),
        }
    }

    /// The scene to show at first.
    pub(crate) fn default_scene(&self) -> Option<usize> {
        let mut index = 0;
        // SAFETY: the file is open, and `index` is room for what the call writes.
        let status = unsafe { sys::gltf_default_scene(self.at.as_ptr(), &mut index) };
        found(status, index)
    }

    /// The struct of an extension of the record at an index; None where the record has none.
    pub(crate) fn extension<T>(&self, of: &ExtensionCall<T>, index: usize) -> Result<Option<T>> {
        let mut out = MaybeUninit::zeroed();
        // SAFETY: the file is open, and `out` is room for the struct of this call, which is one of
        // the constants.
        let status = unsafe { (of.call)(self.at.as_ptr(), index, out.as_mut_ptr()) };
        // SAFETY: all of it is numbers, which were 0 before the call filled it in.
        let found = unsafe { out.assume_init() };
        stated(status, found, || (pointer_to(of.kind, index, 0), of.name))
    }

    /// The packet of metadata of a record, or of a part of it; None where it names none.
    pub(crate) fn xmp_packet(&self, kind: u32, index: usize, part: usize) -> Result<Option<usize>> {
        let mut packet = 0;
        // SAFETY: the file is open, and `packet` is room for what the call writes.
        let status =
            unsafe { sys::gltf_xmp_packet(self.at.as_ptr(), kind, index, part, &mut packet) };
        stated(status, packet, || (pointer_to(kind, index, part), "KHR_xmp_json_ld"))
    }

    /// The name of a record.
    pub(crate) fn name(&self, kind: u32, index: usize) -> Option<String> {
        // SAFETY: the file is open, and `text_of_call` gives room for what the call writes.
        text_of_call(|text, room, length| unsafe {
            sys::gltf_name(self.at.as_ptr(), kind, index, text, room, length)
        })
    }

    /// Another text of a record.
    pub(crate) fn text(&self, what: u32, index: usize) -> Option<String> {
        // SAFETY: the file is open, and `text_of_call` gives room for what the call writes.
        text_of_call(|text, room, length| unsafe {
            sys::gltf_text(self.at.as_ptr(), what, index, text, room, length)
        })
    }

    /// The name of an attribute, as `TEXCOORD_0`.
    pub(crate) fn attribute_name(
        &self,
        [mesh, primitive, target]: [usize; 3],
        position: usize,
    ) -> Option<String> {
        // SAFETY: the file is open, and `text_of_call` gives room for what the call writes.
        text_of_call(|text, room, length| unsafe {
            let at = self.at.as_ptr();
            sys::gltf_attribute_name(at, mesh, primitive, target, position, text, room, length)
        })
    }

    /// The JSON text of the extras of a record, or of what it has of an extension.
    pub(crate) fn json(
        &self,
        kind: u32,
        index: usize,
        part: usize,
        extension: Option<&str>,
    ) -> Option<String> {
        let (name, size) = extension.map_or((ptr::null(), 0), |it| (it.as_ptr().cast(), it.len()));
        // SAFETY: the file is open, the name has `size` bytes where it is not NULL, and
        // `text_of_call` gives room for what the call writes.
        text_of_call(|text, room, length| unsafe {
            let at = self.at.as_ptr();
            sys::gltf_json(at, kind, index, part, name, size, text, room, length)
        })
    }

    /// A list of indices of a record.
    pub(crate) fn list(&self, what: u32, index: usize) -> Vec<usize> {
        // SAFETY: the file is open, and `list_of_call` gives room for what the call writes.
        list_of_call(0, |out, room, count| unsafe {
            sys::gltf_list(self.at.as_ptr(), what, index, out, room, count)
        })
    }

    /// A list of numbers of a record; empty where it is absent.
    pub(crate) fn numbers(&self, what: u32, index: usize) -> Vec<f64> {
        // SAFETY: the file is open, and `list_of_call` gives room for what the call writes.
        list_of_call(0.0, |out, room, count| unsafe {
            sys::gltf_numbers(self.at.as_ptr(), what, index, out, room, count)
        })
    }

    /// Copies the items of an accessor, without gaps.
    pub(crate) fn read(&self, accessor: usize, out: &mut [u8]) -> gltf_status {
        // SAFETY: the file is open, and `out` has as many bytes as the call may write.
        unsafe {
            let (room, size) = (out.as_mut_ptr().cast(), out.len());
            sys::gltf_accessor_read(self.at.as_ptr(), accessor, room, size)
        }
    }

    /// Copies the components of an accessor, widened.
    pub(crate) fn read_u32(&self, accessor: usize, out: &mut [u32]) -> gltf_status {
        // SAFETY: the file is open, and `out` has as many numbers as the call may write.
        unsafe {
            let at = self.at.as_ptr();
            sys::gltf_accessor_read_u32(at, accessor, out.as_mut_ptr(), out.len())
        }
    }

    /// Lends bytes of the file; none where the pointer is NULL.
    ///
    /// # Safety
    /// The pointer is NULL, or one that the library gave of this file, to so many bytes there.
    pub(crate) unsafe fn lent(&self, bytes: *const u8, size: usize) -> Option<&[u8]> {
        // SAFETY: gltf.h says that they stay until gltf_close, which comes after all borrows of
        // `self`. They are not written: gltf_give only adds bytes to buffers that had none.
        (!bytes.is_null()).then(|| unsafe { std::slice::from_raw_parts(bytes, size) })
    }
}

/// What a call wrote; None where there is nothing of the kind.
fn found<T>(status: gltf_status, value: T) -> Option<T> {
    if status == sys::GLTF_NO_SUCH_INDEX {
        return None;
    }
    done(status);
    Some(value)
}

/// What a call wrote of an extension; None where the record has no such extension. `place` is the
/// pointer to the record, and the name of the extension.
fn stated<T>(
    status: gltf_status,
    value: T,
    place: impl FnOnce() -> (String, &'static str),
) -> Result<Option<T>> {
    match status {
        sys::GLTF_SUCCESS => Ok(Some(value)),
        sys::GLTF_NO_SUCH_INDEX => Ok(None),
        _ => {
            let (record, name) = place();
            Err(Error::of_fault(Fault::of_extension(Status::of_number(status), &record, name)))
        }
    }
}

/// The lists of a document with the records of a kind, by the number of the kind.
const LISTS: [&str; sys::GLTF_VARIANTS as usize + 1] = [
    "buffers",
    "bufferViews",
    "accessors",
    "meshes",
    "nodes",
    "materials",
    "scenes",
    "skins",
    "animations",
    "images",
    "textures",
    "samplers",
    "cameras",
    "extensions/KHR_lights_punctual/lights",
    "extensions/KHR_materials_variants/variants",
];

/// The JSON Pointer to a record, or to a part of it; empty where it is the document.
fn pointer_to(kind: u32, index: usize, part: usize) -> String {
    match (kind, LISTS.get(kind as usize)) {
        (_, Some(list)) => format!("/{list}/{index}"),
        (sys::GLTF_ASSET, _) => "/asset".to_owned(),
        (sys::GLTF_PRIMITIVES, _) => format!("/meshes/{index}/primitives/{part}"),
        _ => String::new(),
    }
}

/// The text that a call copies. The call gets the room for it, twice.
fn text_of_call(call: impl Fn(*mut c_char, usize, *mut usize) -> gltf_status) -> Option<String> {
    let mut length = 0;
    found(call(ptr::null_mut(), 0, &mut length), ())?;
    let mut text = vec![0; length + 1];
    done(call(text.as_mut_ptr().cast(), text.len(), &mut length));
    text.truncate(length);
    // The texts of the library are UTF-8.
    Some(
        String::from_utf8(text)
            .unwrap_or_else(|why| String::from_utf8_lossy(why.as_bytes()).into_owned()),
    )
}

/// The list that a call copies.
fn list_of_call<T: Copy>(
    zero: T,
    call: impl Fn(*mut T, usize, *mut usize) -> gltf_status,
) -> Vec<T> {
    let mut count = 0;
    done(call(ptr::null_mut(), 0, &mut count));
    let mut list = vec![zero; count];
    done(call(list.as_mut_ptr(), list.len(), &mut count));
    list
}
