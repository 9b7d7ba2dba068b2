//! Links libnghttp3, whose functions for QPACK `src/qpack.rs` calls.

fn main() {
    println!("cargo:rustc-link-lib=nghttp3");
}
