//! Finds the proved library where it is built, and compiles the benchmark's
//! loops in C where there is a compiler.
//!
//! `cfg(proved)` says that the first is there, `cfg(in_c)` the second.

use std::env;
use std::path::{Path, PathBuf};
use std::process::Command;

const LOOPS: &str = "benches/cycle/loops.c";

fn main() {
    println!("cargo:rerun-if-changed=build.rs");
    println!("cargo:rustc-check-cfg=cfg(proved)");
    println!("cargo:rustc-check-cfg=cfg(in_c)");
    find_library();
    compile_loops();
}

/// The folder of the archive that `tools/build jorivelune` makes is searched by the
/// targets that link it.
fn find_library() {
    let folder = variable("CARGO_MANIFEST_DIR").join("../target/staticlib");
    let archive = folder.join("libjorivelune.a");
    if archive.is_file() {
        println!("cargo:rerun-if-changed={}", archive.display());
        println!("cargo:rustc-link-search=native={}", folder.display());
        println!("cargo:rustc-cfg=proved");
    } else {
        // a file that is never there, so that the next build looks again
        println!("cargo:rerun-if-changed={}.missing", archive.display());
    }
}

/// One object file, linked by the benchmark alone.
fn compile_loops() {
    println!("cargo:rerun-if-changed={LOOPS}");
    println!("cargo:rerun-if-env-changed=CC");
    let object = variable("OUT_DIR").join("loops.o");
    let named = env::var("CC").ok();
    let compilers = named.iter().map(String::as_str).chain(["gcc", "cc"]);
    for compiler in compilers {
        if compiles(compiler, &object) {
            println!("cargo:rustc-link-arg-benches={}", object.display());
            println!("cargo:rustc-cfg=in_c");
            println!("cargo:rustc-env=C_COMPILER={compiler}");
            return;
        }
    }
}

/// Whether the compiler is there and takes the loops. They start at a multiple
/// of 64, so that their time does not hang on where the linker puts them.
fn compiles(compiler: &str, object: &Path) -> bool {
    let run = Command::new(compiler)
        .args([
            "-std=c11",
            "-O3",
            "-falign-functions=64",
            "-Wall",
            "-Wextra",
        ])
        .args(["-c", LOOPS, "-o"])
        .arg(object)
        .status();
    run.is_ok_and(|status| status.success())
}

fn variable(name: &str) -> PathBuf {
    PathBuf::from(env::var_os(name).expect("set by cargo"))
}
