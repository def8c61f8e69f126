// Links target/staticlib/libsamburext.a, which tools/archive writes beside this folder. The archive is for x86-64 Linux. SAMBUREXT_ARCHIVE names
// another folder that has one (bench/arm.sh does).
use std::env::var;
use std::path::{Path, PathBuf};

fn main() {
    println!("cargo:rerun-if-env-changed=SAMBUREXT_ARCHIVE");
    let named = var("SAMBUREXT_ARCHIVE").map(PathBuf::from);
    let folder = named.clone().unwrap_or_else(|_| Path::new(env!("CARGO_MANIFEST_DIR")).join("../target/staticlib"));
    let archive = folder.join("libsamburext.a");
    println!("cargo:rerun-if-changed={}", archive.display());
    assert!(archive.exists(), "{} is missing: run tools/archive first", archive.display());
    let target = (var("CARGO_CFG_TARGET_ARCH"), var("CARGO_CFG_TARGET_OS"));
    if named.is_err() && target != (Ok("x86_64".to_string()), Ok("linux".to_string())) {
        println!("cargo:warning=libsamburext.a is for x86-64 Linux and links into no other program");
    }
    println!("cargo:rustc-link-search=native={}", folder.display());
    println!("cargo:rustc-link-lib=static=samburext");
}
