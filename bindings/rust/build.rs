// The static library is made by `tests/library build` at the repository's root.
fn main() {
    let root = std::path::Path::new(env!("CARGO_MANIFEST_DIR")).join("../../target/staticlib");
    println!("cargo:rustc-link-search=native={}", root.display());
    println!("cargo:rustc-link-lib=static=spoutbeetle");
    println!("cargo:rerun-if-changed={}", root.join("libspoutbeetle.a").display());
}
