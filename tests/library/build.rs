//! Links the static libraries that `tools/lib-and-probe` makes: the product's, and the one with leaves
//! for the tests.

use std::path::Path;

fn main() {
    let target = Path::new(env!("CARGO_MANIFEST_DIR")).join("../../target");
    for (folder, name) in [("pierbracken", "pierbracken"), ("staticlib", "probe")] {
        let folder = target.join(folder);
        let archive = folder.join(format!("lib{name}.a"));
        if !archive.exists() {
            panic!(
                "{} is not there: run `tools/lib-and-probe` first",
                archive.display()
            );
        }
        println!("cargo:rustc-link-search=native={}", folder.display());
        println!("cargo:rustc-link-lib=static={name}");
        println!("cargo:rerun-if-changed={}", archive.display());
    }
}
