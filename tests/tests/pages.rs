//! What is written beside the code agrees with it: the picture and the table drawn from crates.txt, the dependencies it
//! lists, and the paths and links of the pages.
use cache_tests::tree::{files, root};
use std::collections::{BTreeMap, BTreeSet};
use std::fs;
use std::path::{Path, PathBuf};
use std::process::Command;

const FOLDERS: [&str; 7] = ["crates/", "docs/", "tests/", "include/", "bindings/", "samples/", "scripts/"];

fn read(path: &Path) -> String {
    fs::read_to_string(path).unwrap_or_else(|e| panic!("{}: {e}", path.display()))
}

fn check(script: &str) {
    let mut command = Command::new("python3");
    command.args([script, "--check"]).current_dir(root()).env("PYTHONDONTWRITEBYTECODE", "1");
    let output = command.output().unwrap_or_else(|e| panic!("{command:?}: {e}"));
    let said = [output.stdout, output.stderr].map(|bytes| String::from_utf8_lossy(&bytes).into_owned()).concat();
    assert!(output.status.success(), "{script} --check:\n{said}");
}

#[test]
fn the_picture_of_the_layers_is_drawn_from_crates_txt() {
    check("scripts/layers.py");
}

#[test]
fn the_table_of_the_crates_is_the_trees() {
    check("scripts/crates_table.py");
}

/// README's first command, as it stands there: example a, and the day compared with its lines.
#[test]
fn the_first_command_of_the_readme() {
    let readme = read(&root().join("README.md"));
    let from = readme.find("    bash scripts/archive.sh").expect("no command begins with scripts/archive.sh");
    let command = readme[from..].split("\n\n").next().unwrap();
    let output = Command::new("bash").args(["-c", command]).current_dir(root()).output().unwrap();
    let said = String::from_utf8(output.stdout).unwrap();
    assert!(output.status.success(), "{said}{}", String::from_utf8_lossy(&output.stderr));
    assert!(said.starts_with("2 0\n2 0\n2 0\n2 0\n1 2\n1 2\n3 262155\ntotal 5 7\n"), "{said}");
    assert_eq!(said.lines().count(), 9, "{said}");
}

/// README.md, CONTRIBUTING.md, CHANGELOG.md and docs/*.md, those that exist.
fn pages() -> Vec<PathBuf> {
    let named = ["README.md", "CONTRIBUTING.md", "CHANGELOG.md"].map(|name| root().join(name));
    let docs = fs::read_dir(root().join("docs")).unwrap().map(|entry| entry.unwrap().path());
    let mut pages: Vec<PathBuf> = named.into_iter().filter(|path| path.is_file()).collect();
    pages.extend(docs.filter(|path| path.extension().is_some_and(|end| end == "md")));
    pages.sort();
    pages
}

/// A page without its fenced blocks, where brackets and back quotes are a program's.
fn prose(page: &Path) -> String {
    let mut fenced = false;
    let outside = |line: &&str| {
        let fence = line.trim_start().starts_with("```");
        fenced ^= fence;
        !fenced && !fence
    };
    read(page).lines().filter(outside).collect::<Vec<&str>>().join("\n")
}

/// Nothing is left to be filled in: no `@NAME@`.
#[test]
fn no_page_has_a_gap() {
    let gap = |word: &str| word.len() > 2 && word.chars().all(|c| c.is_ascii_uppercase());
    for page in pages() {
        let text = read(&page);
        let gaps: Vec<&str> = text.split('@').skip(1).filter(|word| gap(word)).collect();
        assert!(gaps.is_empty(), "{}: {gaps:?}", page.display());
    }
}

/// The targets of `[text](target)` that lead to files of the repository, without what follows a `#`.
fn relative_targets(text: &str) -> Vec<&str> {
    let targets = text.split("](").skip(1).filter_map(|rest| rest.split([')', ' ']).next());
    let files = targets.filter(|target| !target.contains("://") && !target.starts_with("mailto:"));
    files.map(|target| target.split('#').next().unwrap()).filter(|path| !path.is_empty()).collect()
}

/// The paths between back quotes, without patterns.
fn quoted_paths(text: &str) -> Vec<&str> {
    let words = text.split('`').skip(1).step_by(2).filter_map(|quoted| quoted.split_whitespace().next());
    let paths = words.filter(|word| FOLDERS.iter().any(|folder| word.starts_with(folder)));
    paths.filter(|path| !path.contains(['*', '<', '>', '{', '}']) && !path.contains("NAME")).collect()
}

/// What pages name by way of `names` and is not there, looked for from the folder that `from` gives of a page.
fn missing(names: fn(&str) -> Vec<&str>, from: fn(&Path) -> PathBuf) -> Vec<String> {
    let (mut wrong, mut seen) = (vec![], 0);
    for page in pages() {
        for name in names(&prose(&page)) {
            seen += 1;
            if !from(&page).join(name).exists() {
                wrong.push(format!("{}: {name}", page.display()));
            }
        }
    }
    assert!(seen > 0, "nothing was found");
    wrong
}

#[test]
fn links_lead_to_files() {
    assert_eq!(missing(relative_targets, |page| page.parent().unwrap().into()), [""; 0]);
}

#[test]
fn paths_in_back_quotes_exist() {
    assert_eq!(missing(quoted_paths, |_| root()), [""; 0]);
}

/// What crates.txt lists for each crate. Behind the name of a static library stands `staticlib`.
fn listed() -> BTreeMap<String, BTreeSet<String>> {
    let text = read(&root().join("crates.txt"));
    let lines = text.lines().filter(|line| !line.starts_with('#')).filter_map(|line| line.split_once(':'));
    let names = |list: &str| list.split_whitespace().map(String::from).collect();
    lines.map(|(name, list)| (name.trim_end_matches(" staticlib").into(), names(list))).collect()
}

/// The .rt and .antt files under a folder.
fn sources(folder: &Path) -> Vec<PathBuf> {
    let mut found = files(folder);
    found.retain(|path| path.extension().is_some_and(|end| end == "rt" || end == "antt"));
    found
}

fn in_name(c: char) -> bool {
    c.is_ascii_alphanumeric() || c == '_'
}

/// NAME of each `Rattle.NAME.` and, in code, of each `NAME::`.
fn named(path: &Path) -> BTreeSet<String> {
    let text = read(path);
    let after = text.split("Rattle.").skip(1).filter_map(|rest| rest.split_once('.')).map(|(name, _)| name);
    let mut names: BTreeSet<String> = after.map(String::from).collect();
    if path.extension().is_some_and(|end| end == "rt") {
        let before = text.split("::").map(|part| part.rsplit(|c| !in_name(c)).next().unwrap());
        names.extend(before.map(String::from));
    }
    names
}

#[test]
fn crates_txt_lists_what_each_crate_cites() {
    let listed = listed();
    let mut wrong = vec![];
    for (name, list) in &listed {
        let named: BTreeSet<String> =
            sources(&root().join("crates").join(name)).iter().flat_map(|path| named(path)).collect();
        let cited: BTreeSet<String> =
            named.into_iter().filter(|other| other != name && listed.contains_key(other)).collect();
        if cited != *list {
            let (more, fewer) = (list - &cited, &cited - list);
            wrong.push(format!("{name}: listed and not cited {more:?}; cited and not listed {fewer:?}"));
        }
    }
    assert!(wrong.is_empty(), "{}", wrong.join("\n"));
    assert!(listed.values().any(|list| !list.is_empty()), "no dependency was read");
}

/// Every folder of crates/ is a crate of crates.txt, and the other way round.
#[test]
fn crates_txt_lists_every_crate() {
    let folders = fs::read_dir(root().join("crates")).unwrap().map(|entry| entry.unwrap().file_name());
    let folders: BTreeSet<String> = folders.map(|name| name.into_string().unwrap()).collect();
    assert_eq!(folders, listed().into_keys().collect());
}
