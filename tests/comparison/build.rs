//! Links the static library `probe`: in the folder that PROBE_LIBRARY names, or else where
//! `rt lib` in `crates/probe` leaves it.

use std::env;
use std::path::PathBuf;

fn main() {
    println!("cargo:rerun-if-env-changed=PROBE_LIBRARY");
    let folder = env::var_os("PROBE_LIBRARY").map_or_else(
        || {
            let package = env::var_os("CARGO_MANIFEST_DIR").expect("cargo names the package");
            PathBuf::from(package).join("../../crates/probe/out")
        },
        PathBuf::from,
    );
    let library = folder.join("libprobe.a");
    assert!(library.exists(), "{}: not there; run `rt lib` in crates/probe", library.display());
    println!("cargo:rerun-if-changed={}", library.display());
    println!("cargo:rustc-link-search=native={}", folder.display());
    println!("cargo:rustc-link-lib=static=probe");
}
