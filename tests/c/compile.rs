//! C programs of the tests and of the manual: compiled as C and as C++ without a warning, linked with the archive, run.
use std::path::{Path, PathBuf};
use std::process::{Command, Output};

/// A compiler, and what makes it take a .c file as the oldest language that the header is for.
pub struct Language {
    pub compiler: &'static str,
    flags: [&'static str; 3],
}
pub const LANGUAGES: [Language; 2] = [
    Language { compiler: "cc", flags: ["-std=c99", "-x", "c"] },
    Language { compiler: "g++", flags: ["-std=c++11", "-x", "c++"] },
];
const STRICT: [&str; 6] = ["-pedantic", "-Wall", "-Wextra", "-Werror", "-Wconversion", "-O2"];

pub fn root() -> PathBuf {
    PathBuf::from(env!("CARGO_MANIFEST_DIR")).join("..")
}
pub fn text(path: &str) -> String {
    std::fs::read_to_string(root().join(path)).unwrap_or_else(|e| panic!("{path}: {e}"))
}

/// Fails where a tool is missing: what needs it is never left out silently.
pub fn needed(tool: &str) {
    let found = Command::new(tool).arg("--version").output();
    assert!(found.is_ok(), "no `{tool}` on this machine, so this was not tried: {}", found.unwrap_err());
}

/// What a command prints, once it has ended well.
pub fn printed(command: &mut Command) -> String {
    let Output { status, stdout, stderr } = command.output().unwrap_or_else(|e| panic!("{command:?}: {e}"));
    assert!(status.success(), "{command:?}: {status}\n{}", String::from_utf8_lossy(&stderr));
    String::from_utf8(stdout).unwrap()
}

/// The program that a source of the repository becomes in a folder.
pub fn compiled(language: &Language, source: &str, folder: &Path) -> PathBuf {
    needed(language.compiler);
    let name = Path::new(source).file_stem().unwrap().to_string_lossy();
    let program = folder.join(format!("{name}_{}", language.compiler));
    let mut compiler = Command::new(language.compiler);
    compiler.args(STRICT).args(language.flags).arg("-I").arg(root().join("include")).arg(root().join(source));
    printed(compiler.args(["-x", "none"]).arg(env!("FBR_ARCHIVE")).arg("-o").arg(&program));
    program
}
