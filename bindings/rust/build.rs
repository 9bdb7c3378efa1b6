// Links libcodesearch: the folder that CODESEARCH_LIB_DIR names, or the one that `make lib` fills, or the system's.
use std::env;
use std::path::PathBuf;

fn main() {
    println!("cargo:rerun-if-env-changed=CODESEARCH_LIB_DIR");
    let made = PathBuf::from(env!("CARGO_MANIFEST_DIR")).join("../../out/lib");
    let folder = env::var_os("CODESEARCH_LIB_DIR").map(PathBuf::from).or(made.is_dir().then_some(made));
    if let Some(folder) = folder {
        println!("cargo:rustc-link-search=native={}", folder.display());
    }
    println!("cargo:rustc-link-lib=static=codesearch");
}
