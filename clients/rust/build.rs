//! With the feature `embedded`: where libregistryd is. The variable `REGISTRYD_LIBRARY_FOLDER` names its folder; else it is the one that is
//! installed with this crate, or the one that the linker finds.
use std::env;
use std::path::{Path, PathBuf};

/// From PREFIX/share/registryd/clients/rust.
const INSTALLED: &str = concat!(env!("CARGO_MANIFEST_DIR"), "/../../../../lib");

fn main() {
    println!("cargo:rerun-if-env-changed=REGISTRYD_LIBRARY_FOLDER");
    if env::var_os("CARGO_FEATURE_EMBEDDED").is_none() {
        return;
    }
    let folder = env::var_os("REGISTRYD_LIBRARY_FOLDER").map_or(PathBuf::from(INSTALLED), PathBuf::from);
    if has_library(&folder) {
        println!("cargo:rustc-link-search=native={}", folder.display());
        println!("cargo:rustc-link-lib=static=registryd");
    } else {
        println!("cargo:rustc-link-lib=registryd");
    }
}

fn has_library(folder: &Path) -> bool {
    folder.join("libregistryd.a").is_file()
}
