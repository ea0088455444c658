//! Links the proved library, which `rt lib` writes in crates/plug_capi.

use std::path::PathBuf;
use std::process::{exit, Command};

fn main() {
    let here = PathBuf::from(std::env::var_os("CARGO_MANIFEST_DIR").expect("cargo sets this"));
    let folder = here.join("../crates/plug_capi/out");
    let library = folder.join("libplug_capi.a");
    println!("cargo:rerun-if-changed={}", library.display());
    if !library.is_file() {
        eprintln!();
        eprintln!("The proved library crates/plug_capi/out/libplug_capi.a is missing.");
        eprintln!("Build it with `rt lib` in crates/plug_capi.");
        eprintln!();
        exit(1);
    }
    println!("cargo:rustc-link-search=native={}", folder.display());
    println!("cargo:rustc-link-lib=static=plug_capi");
    println!("cargo:rustc-env=PLUG_RUSTC={}", compiler());
}

/// The compiler's version, which the benchmark prints.
fn compiler() -> String {
    let rustc = std::env::var_os("RUSTC").expect("cargo sets this");
    let output = Command::new(rustc).arg("-vV").output().expect("rustc runs");
    let text = String::from_utf8_lossy(&output.stdout);
    let field = |name: &str| {
        text.lines()
            .find_map(|line| line.strip_prefix(name))
            .unwrap_or("unknown")
            .trim()
            .to_string()
    };
    format!(
        "rustc {}, LLVM {}",
        field("release:"),
        field("LLVM version:")
    )
}
