//! The library from Rust: `main FILE` prints how many accessors a file has. It is written for rustc
//! 1.63 and later, of each edition before 2024.
use std::mem::MaybeUninit;
use std::os::raw::{c_char, c_void};
use std::process::ExitCode;
use std::ptr;

/// An open file.
#[repr(C)]
struct File {
    _opaque: [u8; 0],
}

/// Why a file is refused, as `gltf.h` has it.
#[repr(C)]
struct Fault {
    status: u32,
    rules: u32,
    buffer: usize,
    expected: usize,
    actual: usize,
    reserved: [usize; 4],
    path: [c_char; 128],
    text: [c_char; 512],
}

const SUCCESS: u32 = 0;
const ACCESSORS: u32 = 2;

extern "C" {
    fn gltf_open(
        bytes: *const u8,
        size: usize,
        options: *const c_void,
        file: *mut *mut File,
        fault: *mut Fault,
    ) -> u32;
    fn gltf_close(file: *mut File);
    fn gltf_count(file: *const File, kind: u32) -> usize;
}

fn main() -> ExitCode {
    let bytes = match std::env::args_os().nth(1).and_then(|path| std::fs::read(path).ok()) {
        Some(bytes) => bytes,
        None => return ExitCode::from(2),
    };
    let mut file = ptr::null_mut();
    let mut fault = MaybeUninit::<Fault>::uninit();
    // The bytes, the file and the fault are each as long as they are said to be, and apart.
    let status = unsafe {
        gltf_open(bytes.as_ptr(), bytes.len(), ptr::null(), &mut file, fault.as_mut_ptr())
    };
    if status == SUCCESS {
        println!("{} accessors", unsafe { gltf_count(file, ACCESSORS) });
    }
    unsafe { gltf_close(file) };
    ExitCode::from(u8::from(status != SUCCESS))
}
