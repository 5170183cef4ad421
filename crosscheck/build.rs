//! Links the static library that `rt lib` leaves in crates/bridge/out.

fn main() {
    let here = std::env::var("CARGO_MANIFEST_DIR").expect("cargo sets it");
    println!("cargo:rustc-link-search=native={here}/../crates/bridge/out");
    println!("cargo:rustc-link-lib=static=bridge");
    println!("cargo:rerun-if-changed={here}/../crates/bridge/out/libbridge.a");
}
