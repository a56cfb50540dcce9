//! Links the archive that `rt lib` writes in crates/tuvenikar, and links again when it has changed.
fn main() {
    let folder = concat!(env!("CARGO_MANIFEST_DIR"), "/../../crates/tuvenikar/out");
    println!("cargo:rustc-link-search=native={folder}");
    println!("cargo:rustc-link-lib=static=tuvenikar");
    println!("cargo:rerun-if-changed={folder}/libtuvenikar.a");
}
