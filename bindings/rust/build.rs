//! Where the static library is: MIRCHOLLAN_LIB, or where `tools/staticlib capi` writes it.
fn main() {
    let here = std::env::var("CARGO_MANIFEST_DIR").unwrap();
    let folder = std::env::var("MIRCHOLLAN_LIB").unwrap_or(format!("{here}/../../target/staticlib"));
    println!("cargo:rustc-link-search=native={folder}");
    println!("cargo:rerun-if-env-changed=MIRCHOLLAN_LIB");
    println!("cargo:rerun-if-changed={folder}/libcapi.a");
}
