//! Finds `libquic_streams`: in the folder that `QUIC_STREAMS_LIB_DIR` names, in `build/lib` or `lib` at the top of the
//! repository or of a release, or by pkg-config.
//!
//! Without the library the crate still compiles, so that `cargo check`, `clippy` and `doc` work. A program then fails to link.

use std::env;
use std::path::{Path, PathBuf};
use std::process::Command;

fn main() {
    println!("cargo:rerun-if-env-changed=QUIC_STREAMS_LIB_DIR");
    println!("cargo:rerun-if-changed=build.rs");
    match library() {
        Some((dir, kind)) => {
            println!("cargo:rustc-link-search=native={}", dir.display());
            println!("cargo:rustc-link-lib={kind}=quic_streams");
        }
        None => println!(
            "cargo:warning=libquic_streams was not found: programs will not link. Install it, or set QUIC_STREAMS_LIB_DIR \
             to its folder"
        ),
    }
}

/// The folder of the library, and how it is linked: as an archive, if there is one.
fn library() -> Option<(PathBuf, &'static str)> {
    if let Some(dir) = env::var_os("QUIC_STREAMS_LIB_DIR") {
        return found_in(Path::new(&dir));
    }
    let manifest = env::var_os("CARGO_MANIFEST_DIR")?;
    let top = Path::new(&manifest).join("../../..");
    // A build of the repository, a release that was unpacked, an installation.
    let built = found_in(&top.join("build/lib")).or_else(|| found_in(&top.join("lib")));
    built.or_else(|| found_in(&installed()?))
}

fn found_in(dir: &Path) -> Option<(PathBuf, &'static str)> {
    for (file, kind) in [
        ("libquic_streams.a", "static"),
        ("libquic_streams.so", "dylib"),
    ] {
        let path = dir.join(file);
        println!("cargo:rerun-if-changed={}", path.display());
        if path.is_file() {
            return Some((dir.to_owned(), kind));
        }
    }
    None
}

/// The folder that pkg-config knows.
fn installed() -> Option<PathBuf> {
    let mut command = Command::new("pkg-config");
    command.args(["--variable=libdir", "quic_streams"]);
    let output = command
        .output()
        .ok()
        .filter(|output| output.status.success())?;
    let dir = String::from_utf8(output.stdout).ok()?;
    Some(PathBuf::from(dir.trim()))
}
