//! Says where the static library is, and by which compiler this project is built.

use std::env;
use std::process::Command;

fn main() {
    println!("cargo:rerun-if-env-changed=NORTHBOUND_LIB");
    println!("cargo:rerun-if-changed=build.rs");
    if let Ok(folder) = env::var("NORTHBOUND_LIB") {
        println!("cargo:rerun-if-changed={folder}/libnorthbound.a");
        println!("cargo:rustc-link-search=native={folder}");
    }
    println!("cargo:rustc-env=COMPILER={}", compiler());
}

/// The compiler's name and version.
fn compiler() -> String {
    let command = env::var("RUSTC").unwrap_or_else(|_| String::from("rustc"));
    let answer = Command::new(command).arg("--version").output();
    let version = answer
        .ok()
        .and_then(|answer| String::from_utf8(answer.stdout).ok());
    version.map_or_else(
        || String::from("unknown rustc"),
        |version| String::from(version.trim()),
    )
}
