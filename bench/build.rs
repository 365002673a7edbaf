//! Says where the static libraries of the proved functions stand.
fn main() {
    let libraries = format!("{}/../target/staticlib", std::env::var("CARGO_MANIFEST_DIR").unwrap());
    println!("cargo:rerun-if-changed={libraries}");
    println!("cargo:rustc-link-search=native={libraries}");
}
