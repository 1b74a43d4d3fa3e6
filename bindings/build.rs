// Links the static library that `scripts/build library` writes.
use std::path::Path;

fn main() {
    let root = Path::new(env!("CARGO_MANIFEST_DIR"))
        .parent()
        .expect("bindings/ stands in the repository");
    let folder = root.join("target/staticlib");
    let archive = folder.join("liblasso.a");
    println!("cargo:rerun-if-changed={}", archive.display());
    if !archive.exists() {
        panic!("target/staticlib/liblasso.a is not there: run `scripts/build library` first");
    }
    println!("cargo:rustc-link-search=native={}", folder.display());
    println!("cargo:rustc-link-lib=static=lasso");
}
