//! Links the proved static library: NTIF_LIB names the archive.

use std::env;
use std::path::PathBuf;

/// Where the repository's own build leaves the archive.
const DEFAULT: &str = "../target/staticlib/libntif.a";

fn main() {
    println!("cargo:rerun-if-env-changed=NTIF_LIB");
    let home =
        PathBuf::from(env::var("CARGO_MANIFEST_DIR").expect("cargo sets CARGO_MANIFEST_DIR"));
    let archive = match env::var_os("NTIF_LIB") {
        Some(path) => PathBuf::from(path),
        None => home.join(DEFAULT),
    };
    println!("cargo:rerun-if-changed={}", archive.display());
    let Ok(archive) = archive.canonicalize() else {
        panic!(
            "no static library at {}: build it first, or set NTIF_LIB to the path of libntif.a",
            archive.display()
        );
    };
    let folder = archive.parent().expect("a file has a folder");
    let name = archive.file_name().expect("a file has a name");
    println!("cargo:rustc-link-search=native={}", folder.display());
    println!("cargo:rustc-link-lib=static:+verbatim={}", name.to_string_lossy());
}
