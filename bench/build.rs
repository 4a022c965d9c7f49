//! Links anew whenever the proved library was built anew: cargo does not watch what is linked.
fn main() {
    println!("cargo:rerun-if-changed=build.rs");
    println!("cargo:rerun-if-changed=../crates/capi/out/libcapi.a");
}
