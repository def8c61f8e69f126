// The folder that holds the given files, and copies of them: shared by the two build scripts.

use std::path::{Path, PathBuf};

/// The folder that SAMBUREXT_RUST names (a path from the repository's root, or an absolute one), else `../shared/docs/src` beside
/// the repository. `up` leads from the package to the repository's root.
fn folder(up: &str) -> PathBuf {
    println!("cargo:rerun-if-env-changed=SAMBUREXT_RUST");
    let package = std::env::var("CARGO_MANIFEST_DIR").expect("cargo names the package");
    let named = std::env::var("SAMBUREXT_RUST").unwrap_or_else(|_| "../shared/docs/src".into());
    Path::new(&package).join(up).join(named)
}

/// The given file, copied byte for byte.
fn copy(from: &Path, to: &Path) {
    println!("cargo:rerun-if-changed={}", from.display());
    std::fs::create_dir_all(to.parent().expect("a file in a folder")).expect("a folder for the copy");
    let bytes = std::fs::read(from)
        .unwrap_or_else(|e| panic!("{}: {e}. SAMBUREXT_RUST must name the folder that holds `crates`", from.display()));
    std::fs::write(to, bytes).expect("the copy");
}
