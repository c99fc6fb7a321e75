//! Links the archives that `tools/c_library` and `tools/c_library --device` build. They are in the
//! folder `IVSHM_ARCHIVES`, or where those tools leave them.
use std::env;

fn main() {
    println!("cargo::rerun-if-env-changed=IVSHM_ARCHIVES");
    let here = env::var("CARGO_MANIFEST_DIR").expect("cargo sets it");
    for (feature, library) in [
        ("CARGO_FEATURE_LINK", "ivshm_c"),
        ("CARGO_FEATURE_DEVICE", "ivshm_device"),
    ] {
        if env::var_os(feature).is_none() {
            continue;
        }
        let folder = env::var("IVSHM_ARCHIVES")
            .unwrap_or_else(|_| format!("{here}/../crates/{library}/out"));
        println!("cargo::rustc-link-search=native={folder}");
        println!("cargo::rustc-link-lib=static={library}");
        println!("cargo::rerun-if-changed={folder}/lib{library}.a");
    }
}
