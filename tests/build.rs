// Compiles the check in C that the library's is timed against. The crate fbr links the archive; FBR_ARCHIVE is its path.
use std::path::{Path, PathBuf};
use std::process::Command;

fn main() {
    let here = PathBuf::from(std::env::var("CARGO_MANIFEST_DIR").unwrap());
    let archive = std::env::var("DEP_FBR_ARCHIVE").expect("the crate fbr names its archive");
    println!("cargo::rerun-if-changed={archive}");
    println!("cargo::rustc-env=FBR_ARCHIVE={archive}");
    check_in_c(&here);
}

fn check_in_c(here: &Path) {
    let out = PathBuf::from(std::env::var("OUT_DIR").unwrap());
    let (source, object, archive) = (here.join("c/check.c"), out.join("check.o"), out.join("libcheck.a"));
    println!("cargo::rerun-if-changed={}", source.display());
    let flags = ["-std=c99", "-pedantic", "-Wall", "-Wextra", "-Werror", "-O3", "-fPIC", "-c"];
    run(Command::new("cc").args(flags).arg(source).arg("-o").arg(&object));
    run(Command::new("ar").arg("crs").arg(archive).arg(object));
    println!("cargo::rustc-link-lib=static=check");
    println!("cargo::rustc-link-search=native={}", out.display());
}

fn run(command: &mut Command) {
    let status = command.status().unwrap_or_else(|e| panic!("{command:?}: {e}"));
    assert!(status.success(), "{command:?}: {status}");
}
