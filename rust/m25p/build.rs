// Finds libm25p.a, in M25P_LIB_DIR or in ../../target/staticlib. Where the machine can link it, it is
// linked; elsewhere, and where the feature `bridge` asks for it, the bridge is built, a program that makes
// the calls. Build scripts of packages above learn of the archive by DEP_M25P_ARCHIVE.
use std::path::{Path, PathBuf};

#[allow(dead_code)]
#[path = "src/kit.rs"]
mod kit;

fn main() {
    println!("cargo::rerun-if-env-changed=M25P_LIB_DIR");
    for file in ["build.rs", "src/kit.rs", "c/bridge.c", "../../include/m25p.h"] {
        println!("cargo::rerun-if-changed={file}");
    }
    let dir = match std::env::var_os("M25P_LIB_DIR") {
        Some(dir) => PathBuf::from(dir),
        None => PathBuf::from("../../target/staticlib"),
    };
    let archive = dir.join("libm25p.a");
    println!("cargo::rerun-if-changed={}", archive.display());
    let Ok(found) = archive.canonicalize() else {
        println!(
            "cargo::error=There is no {}: run `./archive` at the top first.",
            archive.display()
        );
        return;
    };
    println!("cargo::metadata=archive={}", found.display());
    if kit::NATIVE && std::env::var_os("CARGO_FEATURE_BRIDGE").is_none() {
        println!("cargo::rustc-link-search=native={}", found.parent().unwrap().display());
        println!("cargo::rustc-link-lib=static=m25p");
        return;
    }
    let bridge = PathBuf::from(std::env::var_os("OUT_DIR").unwrap()).join("bridge");
    let flags = ["-std=c99", "-O2", "-Wall", "-Wextra", "-Wpedantic", "-Werror"];
    match kit::build(Path::new("c/bridge.c"), &flags, &found, &bridge) {
        Ok(()) => println!("cargo::rustc-env=M25P_BRIDGE={}", bridge.display()),
        Err(why) => {
            let why = why.replace('\n', " | ");
            println!("cargo::error=The bridge to libm25p.a can't be built. {why}");
        }
    }
}
