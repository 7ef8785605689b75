//! Finds libasogeren.a: in the folder that `ASOGEREN_LIB_DIR` names (an installed copy), or where `bindings/archive` makes it.
use std::env;
use std::path::{Path, PathBuf};

fn main() {
    println!("cargo:rerun-if-env-changed=ASOGEREN_LIB_DIR");
    let folder = env::var_os("ASOGEREN_LIB_DIR").map_or_else(made_here, PathBuf::from);
    let archive = folder.join("libasogeren.a");
    assert!(
        archive.exists(),
        "there is no {}: make it by `bindings/archive`, or set ASOGEREN_LIB_DIR to the folder of an installed one",
        archive.display()
    );
    println!("cargo:rerun-if-changed={}", archive.display());
    println!("cargo:rustc-link-search=native={}", folder.display());
    println!("cargo:rustc-link-lib=static=asogeren");
}

/// Each machine has an archive of its own there.
fn made_here() -> PathBuf {
    let root = Path::new(&env::var_os("CARGO_MANIFEST_DIR").expect("cargo sets it")).join("../..");
    root.join("target/staticlib")
        .join(env::var("CARGO_CFG_TARGET_ARCH").expect("cargo sets it"))
}
