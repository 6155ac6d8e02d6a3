//! Links the static library that `rt lib` writes in crates/saltwhistle_c.

fn main() {
    let root = std::env::var("CARGO_MANIFEST_DIR").expect("cargo names the folder");
    println!("cargo:rustc-link-search=native={root}/../crates/saltwhistle_c/out");
    println!("cargo:rustc-link-lib=static=saltwhistle_c");
    println!("cargo:rerun-if-changed=../crates/saltwhistle_c/out/libsaltwhistle_c.a");
}
