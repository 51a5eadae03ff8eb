//! Says where `libvilggodan.a` is: in the folder that VILGGODAN_LIB names, or in this repository's target/staticlib.
fn main() {
    let folder = std::env::var("VILGGODAN_LIB").unwrap_or_else(|_| {
        let here = std::env::var("CARGO_MANIFEST_DIR").expect("cargo sets it");
        format!("{here}/../../target/staticlib")
    });
    println!("cargo:rustc-link-search=native={folder}");
    println!("cargo:rustc-link-lib=static=vilggodan");
    println!("cargo:rerun-if-env-changed=VILGGODAN_LIB");
    println!("cargo:rerun-if-changed={folder}/libvilggodan.a");
}
