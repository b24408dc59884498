//! Tells cargo where the proved library stands, and to link again when it changed.

fn main() {
    let library = concat!(env!("CARGO_MANIFEST_DIR"), "/../../target/staticlib");
    println!("cargo:rustc-link-search=native={library}");
    println!("cargo:rerun-if-changed={library}/libsaucewagon_c.a");
}
