//! The programs that the Rattle kit builds.

use std::path::{Path, PathBuf};

/// The program of this name, which `rt run` in its folder, or `rt ci`, writes.
pub fn program(name: &str) -> PathBuf {
    let program = Path::new(env!("CARGO_MANIFEST_DIR")).join(format!("../crates/{name}/out/{name}"));
    assert!(program.exists(), "there is no crates/{name}/out/{name}: run `rt run` in crates/{name} first");
    program.canonicalize().expect("a path")
}
