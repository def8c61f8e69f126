//! Copies the given files, byte for byte, into the build folder, beside stand-ins of our own for what is missing and the bits of one
//! pair of maps (the package's name says which).

include!("folder.rs");

fn main() {
    let out = PathBuf::from(std::env::var("OUT_DIR").expect("cargo names it")).join("src");
    let given = folder("../../..").join("crates/calib-targets-puzzleboard/src");
    for name in [
        "code_maps.rs",
        "detector/consensus.rs",
        "detector/decode/mod.rs",
        "detector/decode/hard.rs",
        "detector/decode/soft.rs",
        "detector/decode/tables.rs",
    ] {
        copy(&given.join(name), &out.join(name));
    }
    let own = Path::new("../../given");
    copy(&own.join("fixed.rs"), &out.join("detector/decode/fixed.rs"));
    copy(&own.join("root.rs"), &out.join("root.rs"));
    maps(&given.join("data"), &out.join("data"));
}

/// The maps' bytes: our own, or for package m0 those of the folder where it holds them.
fn maps(shipped: &Path, to: &Path) {
    let name = std::env::var("CARGO_PKG_NAME").expect("cargo names it");
    let number: usize = name[1..].parse().expect("m and a number");
    let (h, v) = plain::maps::pair(number);
    std::fs::create_dir_all(to).expect("a folder for the maps");
    for (file, patterns, vertical) in [("map_a.bin", v, true), ("map_b.bin", h, false)] {
        let theirs = shipped.join(file);
        if number == 0 && theirs.exists() {
            copy(&theirs, &to.join(file));
        } else {
            std::fs::write(to.join(file), plain::maps::packed(&patterns, vertical)).expect("the map");
        }
    }
}
