//! Has Rust link the archive that `./library` leaves in target/jorumrain at the project's root.

use std::path::Path;
use std::process::exit;

fn main() {
    let root = Path::new(env!("CARGO_MANIFEST_DIR")).join("../..");
    let folder = root.join("target/jorumrain");
    let library = folder.join("libjorumrain.a");
    println!("cargo:rerun-if-changed={}", library.display());
    if !library.exists() {
        eprintln!(
            "{} is missing: run ./library first, at the project's root",
            library.display()
        );
        exit(1);
    }
    println!("cargo:rustc-link-search=native={}", folder.display());
    println!("cargo:rustc-link-lib=static=jorumrain");
}
