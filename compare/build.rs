//! Links the C face, target/staticlib/libpanel.a, which `. tools/face; face` makes.

use std::path::Path;
use std::process::exit;

fn main() {
    let folder = Path::new(env!("CARGO_MANIFEST_DIR")).join("../target/staticlib");
    let library = folder.join("libpanel.a");
    println!("cargo:rerun-if-changed={}", library.display());
    if !library.exists() {
        eprintln!("target/staticlib/libpanel.a is missing: make it by `. tools/face; face`");
        exit(1);
    }
    println!("cargo:rustc-link-search=native={}", folder.display());
    println!("cargo:rustc-link-lib=static=panel");
}
