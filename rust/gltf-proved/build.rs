//! Finds libgltf, the library for C that `make c` builds and `make install` installs: in the folder
//! that `GLTF_LIB_DIR` names, else where pkg-config says that it is. `GLTF_STATIC=1` takes the
//! archive in place of the shared library. No compiler of C is needed.
use std::env;
use std::path::Path;
use std::process::{self, Command};

const HELP: &str = "
gltf-proved needs libgltf, version 2.2 or a later 2, and did not find it. Do one of these:
  - install it where pkg-config finds it: in the repository of the loader, `make c`, then
    `make install PREFIX=FOLDER`, and export PKG_CONFIG_PATH=FOLDER/lib/pkgconfig
  - name the folder that has libgltf.so or libgltf.a: export GLTF_LIB_DIR=FOLDER/lib
What was tried: ";

fn main() {
    for name in ["GLTF_LIB_DIR", "GLTF_STATIC", "PKG_CONFIG_PATH", "DOCS_RS"] {
        println!("cargo:rerun-if-env-changed={name}");
    }
    // Where pages are made nothing is linked.
    if env::var_os("DOCS_RS").is_some() {
        return;
    }
    let is_static = env::var("GLTF_STATIC").is_ok_and(|it| !it.is_empty() && it != "0");
    let folders = match env::var("GLTF_LIB_DIR") {
        Ok(folder) => vec![folder_of_variable(&folder, is_static)],
        Err(_) => folders_of_pkg_config(),
    };
    for folder in &folders {
        println!("cargo:rustc-link-search=native={folder}");
        // A crate that depends on this one reads it as DEP_GLTF_LIB_DIR.
        println!("cargo:lib_dir={folder}");
    }
    println!("cargo:rustc-link-lib={}=gltf", if is_static { "static" } else { "dylib" });
}

fn not_found(why: &str) -> ! {
    eprintln!("{HELP}{why}");
    process::exit(1)
}

/// The folder that the variable names, where the library is in it.
fn folder_of_variable(folder: &str, is_static: bool) -> String {
    let name = if is_static { "libgltf.a" } else { "libgltf.so" };
    if !Path::new(folder).join(name).exists() {
        not_found(&format!("GLTF_LIB_DIR is {folder}, which has no {name}."));
    }
    folder.to_owned()
}

/// The folders that pkg-config names. None where the linker finds the library by itself.
fn folders_of_pkg_config() -> Vec<String> {
    let words = ["--libs-only-L", "--keep-system-libs", "gltf >= 2.2", "gltf < 3.0"];
    let ran = match Command::new("pkg-config").args(words).output() {
        Ok(ran) => ran,
        Err(why) => {
            not_found(&format!("GLTF_LIB_DIR is not set, and pkg-config cannot be run: {why}."))
        }
    };
    if !ran.status.success() {
        let why = String::from_utf8_lossy(&ran.stderr);
        not_found(&format!("GLTF_LIB_DIR is not set, and pkg-config says:\n{why}"));
    }
    let text = String::from_utf8_lossy(&ran.stdout);
    text.split_whitespace().filter_map(|word| word.strip_prefix("-L")).map(str::to_owned).collect()
}
