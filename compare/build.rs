//! Links the static library that holds the C entry under test, and its runtime if one is named.

use std::env;
use std::path::{Path, PathBuf};

fn main() {
    let library = path_in("RECORD_STORE_LIB").expect("RECORD_STORE_LIB must hold the full path of a static library");
    link(&library);
    if let Some(runtime) = path_in("RECORD_STORE_RUNTIME") {
        link(&runtime);
    }
}

/// The path that the environment variable holds, if it is set and not empty.
fn path_in(variable: &str) -> Option<PathBuf> {
    println!("cargo:rerun-if-env-changed={variable}");
    env::var_os(variable).filter(|path| !path.is_empty()).map(PathBuf::from)
}

/// Names one archive to the linker. The file name is taken as it is, so it need not have the form `lib*.a`.
fn link(archive: &Path) {
    assert!(archive.is_file(), "{} is no file", archive.display());
    let folder = archive.parent().expect("a file has a folder");
    let name = archive.file_name().expect("a file has a name");
    println!("cargo:rerun-if-changed={}", archive.display());
    println!("cargo:rustc-link-search=native={}", folder.display());
    println!("cargo:rustc-link-lib=static:-bundle,+verbatim={}", name.to_string_lossy());
}
