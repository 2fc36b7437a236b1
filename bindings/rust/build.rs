//! Links the static library that `tools/library` has made; HAAFGRIM_LIB names another folder for it.
use std::{env, path::PathBuf};

fn main() {
    let root = PathBuf::from(env::var("CARGO_MANIFEST_DIR").unwrap()).join("../..");
    let folder = env::var("HAAFGRIM_LIB").map_or_else(|_| root.join("target/staticlib"), PathBuf::from);
    let library = folder.join("libhaafgrim.a");
    assert!(library.exists(), "{} is missing: run `tools/library`", library.display());
    println!("cargo:rustc-link-search=native={}", folder.display());
    println!("cargo:rustc-link-lib=static=haafgrim");
    println!("cargo:rerun-if-changed={}", library.display());
    println!("cargo:rerun-if-env-changed=HAAFGRIM_LIB");
}
