// Links the archive that `scripts/archive.sh` made: from the folder FBR_ARCHIVE_DIR names, else beside crates.txt.
// A dependent's build script finds the archive's path in DEP_FBR_ARCHIVE.
use std::env;
use std::path::{absolute, Path, PathBuf};

fn main() {
    println!("cargo::rerun-if-env-changed=FBR_ARCHIVE_DIR");
    // an empty variable is no folder
    let named = env::var_os("FBR_ARCHIVE_DIR").filter(|named| !named.is_empty());
    let dir = named.as_ref().map_or_else(beside_crates_txt, |named| absolute(named).unwrap_or(named.into()));
    let archive = dir.join("libfbr.a");
    println!("cargo::rerun-if-changed={}", archive.display());
    if !archive.is_file() {
        return missing(&archive, named.is_some());
    }
    println!("cargo::metadata=archive={}", archive.display());
    println!("cargo::rustc-link-lib=static=fbr");
    println!("cargo::rustc-link-search=native={}", dir.display());
}

fn beside_crates_txt() -> PathBuf {
    let here = PathBuf::from(env::var_os("CARGO_MANIFEST_DIR").unwrap_or_default());
    here.ancestors().nth(2).unwrap_or(&here).join("target/staticlib")
}

/// Cargo shows these lines and fails the build.
fn missing(archive: &Path, named: bool) {
    println!("cargo::error=there is no archive {}", archive.display());
    println!("cargo::error=`bash scripts/archive.sh` of the repository makes target/staticlib/libfbr.a there");
    if named {
        println!("cargo::error=FBR_ARCHIVE_DIR names the folder: unset it, or set it to the one that has libfbr.a");
    } else {
        println!("cargo::error=if it is elsewhere, set FBR_ARCHIVE_DIR to the full path of its folder");
    }
}
