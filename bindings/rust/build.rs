//! Links `libradixvm.a`, which `./radixvm --build-library` makes: from the folder that RADIXVM_LIBRARY names, or else from
//! the place in the sources where it is built, or next to this crate where that is installed.
use std::path::{Path, PathBuf};

const FOLDERS: [&str; 2] = ["../../crates/radixvm_c/out", "../../../lib"];

fn main() {
    println!("cargo:rerun-if-env-changed=RADIXVM_LIBRARY");
    let here = Path::new(env!("CARGO_MANIFEST_DIR"));
    let folder = std::env::var("RADIXVM_LIBRARY").map(PathBuf::from).unwrap_or_else(|_| {
        let mut folders = FOLDERS.iter().map(|folder| here.join(folder));
        folders.find(|folder| folder.join("libradixvm.a").exists()).unwrap_or_else(|| here.join(FOLDERS[0]))
    });
    println!("cargo:rustc-link-search=native={}", folder.display());
    println!("cargo:rustc-link-lib=static=radixvm");
}
