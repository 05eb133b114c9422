//! Links the static library `voltunnis`: from the folder that VOLTUNNIS_LIB names, else from
//! target/staticlib at the top of the repository, where tools/staticlib.sh writes it.

use std::path::{Path, PathBuf};

fn main() {
    println!("cargo::rerun-if-env-changed=VOLTUNNIS_LIB");
    let named = std::env::var_os("VOLTUNNIS_LIB");
    let folder = match &named {
        Some(folder) => PathBuf::from(folder),
        None => Path::new(env!("CARGO_MANIFEST_DIR")).join("../../target/staticlib"),
    };
    let archive = folder.join("libvoltunnis.a");
    println!("cargo::rerun-if-changed={}", archive.display());
    if !archive.exists() {
        match named {
            Some(_) => println!("cargo::error=VOLTUNNIS_LIB names no folder with libvoltunnis.a in it"),
            None => println!(
                "cargo::error=there is no target/staticlib/libvoltunnis.a: run `bash tools/staticlib.sh` \
                 first, or name the folder that holds it in VOLTUNNIS_LIB"
            ),
        }
        return;
    }
    println!("cargo::rustc-link-search=native={}", folder.display());
    println!("cargo::rustc-link-lib=static=voltunnis");
}
