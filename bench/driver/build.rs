//! Links `libstreambench.a`, which has the parts of a stream and the bulk transfers in Rattle, if `STREAMBENCH` names it.

fn main() {
    println!("cargo:rerun-if-env-changed=STREAMBENCH");
    println!("cargo:rustc-check-cfg=cfg(streambench)");
    if let Ok(archive) = std::env::var("STREAMBENCH") {
        println!("cargo:rerun-if-changed={archive}");
        println!("cargo:rustc-cfg=streambench");
        println!("cargo:rustc-link-arg-bins={archive}");
    }
}
