//! Rust files that nothing compiles: those that no target of their package reaches by its `mod` items.

use crate::layout::files_under;
use std::collections::BTreeSet;
use std::fs::read_to_string;
use std::path::Path;

const PACKAGES: [&str; 5] = ["tests", "gate", "generate", "bindings/rust", "workbench"];

/// The faults: each Rust file that is not compiled.
pub fn faults() -> Vec<String> {
    let mut faults = Vec::new();
    for package in PACKAGES {
        let files = files_under(package, "rs");
        let mut reached = BTreeSet::new();
        for file in files.iter().filter(|file| is_root(package, file)) {
            reach(file, &mut reached);
        }
        faults.extend(
            files.iter().filter(|f| !reached.contains(*f)).map(|f| format!("{f}: nothing compiles it")),
        );
    }
    faults
}

/// A file that cargo takes for a target's root by its place.
fn is_root(package: &str, file: &str) -> bool {
    let place = file.trim_start_matches(package).trim_start_matches('/');
    let parts: Vec<&str> = place.split('/').collect();
    matches!(
        parts.as_slice(),
        ["build.rs"]
            | ["src", "lib.rs" | "main.rs"]
            | ["tests" | "examples" | "benches", _]
            | ["tests" | "examples" | "benches", _, "main.rs"]
            | ["src", "bin", _]
            | ["src", "bin", _, "main.rs"]
    )
}

/// The file and all that its `mod` items name.
fn reach(file: &str, reached: &mut BTreeSet<String>) {
    if !reached.insert(file.to_string()) {
        return;
    }
    let path = Path::new(file);
    let stem = path.file_stem().unwrap_or_default().to_string_lossy().into_owned();
    let folder = path.parent().unwrap_or(Path::new("")).to_string_lossy().into_owned();
    let is_top =
        ["lib", "main", "mod"].contains(&stem.as_str()) || folder.ends_with("/bin") || is_target(&folder);
    let below = if is_top { folder } else { format!("{folder}/{stem}") };
    for line in read_to_string(file).unwrap_or_default().lines() {
        let line = line.trim_start().trim_start_matches("pub(crate) ").trim_start_matches("pub ");
        let Some(name) = line.strip_prefix("mod ").and_then(|rest| rest.strip_suffix(';')) else { continue };
        for place in [format!("{below}/{name}.rs"), format!("{below}/{name}/mod.rs")] {
            if Path::new(&place).exists() {
                reach(&place, reached);
            }
        }
    }
}

/// A folder whose files are targets of their own.
fn is_target(folder: &str) -> bool {
    ["tests", "examples", "benches"].iter().any(|name| {
        folder.rsplit('/').next() == Some(name)
            && Path::new(folder).parent().is_some_and(|p| p.join("Cargo.toml").exists())
    })
}
