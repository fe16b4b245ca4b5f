// Links the static libraries of the features that are chosen.
use std::path::Path;

/// `built` is the name for scripts/build-library.
fn link(folder: &Path, built: &str, library: &str) {
    let file = folder.join(format!("lib{library}.a"));
    println!("cargo:rerun-if-changed={}", file.display());
    assert!(
        file.exists(),
        "{} is missing: `scripts/build-library {built}` proves and builds it",
        file.display()
    );
    println!("cargo:rustc-link-search=native={}", folder.display());
    println!("cargo:rustc-link-lib=static={library}");
}

fn main() {
    println!("cargo:rerun-if-changed=build.rs");
    let here = std::env::var("CARGO_MANIFEST_DIR").expect("cargo says where the package is");
    let folder = Path::new(&here).join("../target/staticlib");
    for (feature, built, library) in [
        ("CARGO_FEATURE_EMBED", "embed_c", "figmorella"),
        ("CARGO_FEATURE_PROBE", "probe", "probe"),
    ] {
        if std::env::var_os(feature).is_some() {
            link(&folder, built, library);
        }
    }
}
