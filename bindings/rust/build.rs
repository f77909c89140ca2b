//! Links `libformat3.a` from the folder that FORMAT3_LIB_DIR names. If the library's header is beside that folder, as
//! ./build-library puts it, checks that both have the same version of the interface.

use std::path::Path;
use std::process::exit;

include!("src/api_version.rs");

fn main() {
    println!("cargo:rerun-if-changed=build.rs");
    println!("cargo:rerun-if-changed=src/api_version.rs");
    println!("cargo:rerun-if-env-changed=FORMAT3_LIB_DIR");
    let folder = std::env::var("FORMAT3_LIB_DIR").unwrap_or_default();
    if folder.is_empty() {
        fail("FORMAT3_LIB_DIR is not set: it must name the folder of libformat3.a, which ./build-library makes");
    }
    let folder = Path::new(&folder);
    if !folder.is_absolute() {
        fail("FORMAT3_LIB_DIR must be an absolute path");
    }
    let archive = folder.join("libformat3.a");
    println!("cargo:rerun-if-changed={}", archive.display());
    if !archive.is_file() {
        fail(&format!(
            "there is no {}: ./build-library makes it",
            archive.display()
        ));
    }
    check_header(&folder.join("../include/format3.h"));
    println!("cargo:rustc-link-search=native={}", folder.display());
    println!("cargo:rustc-link-lib=static=format3");
}

/// Fails if there is a header with another version of the interface than this crate's.
fn check_header(path: &Path) {
    let Ok(header) = std::fs::read_to_string(path) else {
        return;
    };
    println!("cargo:rerun-if-changed={}", path.display());
    let line = format!("#define FORMAT3_API_VERSION {API_VERSION}");
    if !header.lines().any(|other| other == line) {
        fail(&format!(
            "the library has another version of the interface: {} has no line `{line}`",
            path.display()
        ));
    }
}

fn fail(message: &str) -> ! {
    eprintln!("{message}");
    exit(1);
}
