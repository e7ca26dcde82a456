//! The forms that the scope names stand where docs/DECISIONS.md says: this reads the sources.
use cache_tests::tree::{files, root};
use std::fs;

fn source(name: &str) -> String {
    let path = root().join("crates").join(name);
    fs::read_to_string(&path).unwrap_or_else(|e| panic!("{}: {e}", path.display()))
}

/// The text of a function, from its name to the line of its closing brace.
fn function<'a>(text: &'a str, name: &str) -> &'a str {
    let start = text.find(name).unwrap_or_else(|| panic!("no {name}"));
    let line = &text[text[..start].rfind('\n').map_or(0, |i| i + 1)..];
    let indent = line.len() - line.trim_start_matches(' ').len();
    let closing = format!("\n{}}}\n", " ".repeat(indent));
    &text[start..start + text[start..].find(&closing).unwrap()]
}

#[test]
fn callers_of_lookup_take_the_entry_by_let_else() {
    let mut callers = 0;
    for path in files(&root().join("crates")) {
        if path.extension().is_none_or(|e| e != "rt") {
            continue;
        }
        let text = fs::read_to_string(&path).unwrap();
        for line in text.lines().filter(|line| line.contains("directory::lookup(")) {
            let line = line.trim();
            assert!(
                line.starts_with("let Some(") && line.contains(") = directory::lookup(") && line.ends_with("else {"),
                "{}: {line}",
                path.display()
            );
            callers += 1;
        }
    }
    assert_eq!(callers, 4, "a read or write, a purge, a pin, a look");
    let directory = source("directory/src/lib.rt");
    assert!(directory.contains("pub fn lookup(dir: &[u32], block: u32, s: Settings) -> Option<u32>"));
}

/// The victim search, and what hands its outcome on: each call is taken by `let .. else`, all pinned first.
#[test]
fn callers_of_the_victim_search_take_it_by_let_else() {
    for (name, call, pattern, callers) in [
        ("directory", "search::victim(", "let Some(picked) = search::victim(", 1),
        ("accesses", "directory::replace(", "let Some(r) = directory::replace(", 1),
        ("accesses", " access(", "let Some(a) = access(", 2),
    ] {
        let text = source(&format!("{name}/src/lib.rt"));
        let calls = text.lines().map(str::trim).filter(|line| line.contains(call) && !line.contains("fn "));
        let calls: Vec<&str> = calls.collect();
        assert_eq!(calls.len(), callers, "{name}: {calls:?}");
        assert!(calls.iter().all(|line| line.starts_with(pattern) && line.ends_with("else {")), "{name}: {calls:?}");
    }
    let search = source("search/src/lib.rt");
    assert!(function(&search, "pub fn victim(").contains("-> Option<Picked>"));
    let directory = source("directory/src/lib.rt");
    assert!(function(&directory, "pub fn replace(").contains("-> Option<Replaced>"));
}

#[test]
fn bucket_count_by_leading_zeros() {
    let settings = source("settings/src/lib.rt");
    assert!(function(&settings, "fn buckets(n: u32)").contains("u32::leading_zeros(n - 1)"));
    assert!(source("settings/specs/BucketLaws.antt").contains("pub buckets_least"));
}

#[test]
fn named_settings_belong_to_the_settings_type() {
    let settings = source("settings/src/lib.rt");
    let impl_settings = function(&settings, "impl Settings {");
    for (constant, of_n) in [("UNIX", "unix"), ("C51", "c51"), ("CUST11", "cust11")] {
        assert!(impl_settings.contains(&format!("pub const {constant}: ")), "{constant}");
        assert!(impl_settings.contains(&format!("pub fn {of_n}(n: u32, b: u32, m: u32) -> Settings")), "{of_n}");
    }
}

#[test]
fn multiply_that_wraps_on_purpose() {
    let fnv = source("fnv/src/lib.rt");
    let multiply = function(&fnv, "pub fn wrapping_mul(a: u32, b: u32) -> u32");
    assert!(multiply.contains("(a as u64) * (b as u64) % 4294967296"));
    assert!(function(&fnv, "fn step(").contains("wrapping_mul("));
    let directory = source("directory/src/lib.rt");
    assert!(function(&directory, "fn bucket_among(").contains("fnv::hash(block) % buckets"));
    assert!(function(&directory, "pub fn lookup(").contains("bucket_among("));
}

#[test]
fn words_are_slices_of_u32() {
    let cache = source("cache/src/lib.rt");
    let batch = function(&cache, "pub fn batch(");
    for parameter in ["dir: &mut [u32]", "work: &[u32]", "answers: &mut [u32]", "store: &mut [u8]", "incoming: &[u8]"] {
        assert!(batch.contains(parameter), "{parameter}");
    }
    assert!(source("fresh/src/lib.rt").contains("pub fn fresh(s: Settings, dir: &mut [u32]) -> Result<(), Refusal>"));
}

#[test]
fn a_look_returns_a_part_of_one_of_two_slices() {
    let looks = source("looks/src/lib.rt");
    assert!(looks.contains("pub fn look<'a>(dir: &[u32], bytes: &'a [u8], store: &'a [u8], block: u32) -> &'a [u8]"));
}

/// The arms that the class of a count is worked out by: the request's classes, and a last one for what no resident has.
const CLASS_ARMS: [&str; 9] = [
    "1 => 0", "2 => 1", "3..=4 => 2", "5..=8 => 3", "9..=16 => 4", "17..=64 => 5", "65..=1000 => 6",
    "1001..=65535 => 7", "_ => CLASSES",
];

/// The body of `class_of` is one `match` with ranges, without an `if` or a table, and no other place of the crate has
/// the ranges.
#[test]
fn count_class_by_a_match_with_ranges() {
    let occupancy: String = source("occupancy/src/lib.rt").lines().map(|line| uncommented(line) + "\n").collect();
    let class_of = function(&occupancy, "fn class_of(");
    let (front, arms) = class_of.split_once("match ").expect("a match");
    assert!(front.trim_end().ends_with('{'), "the match is not the whole body: {class_of}");
    let arms = arms.split_once(" {\n").expect("the arms").1.trim_end().strip_suffix('}').expect("the end of the match");
    let arms: Vec<&str> =
        arms.lines().map(|arm| arm.trim().trim_end_matches(',')).filter(|arm| !arm.is_empty()).collect();
    assert_eq!(arms, CLASS_ARMS);
    assert!(occupancy.matches("class_of(").count() > 1, "class_of is not used");
    for range in ["3..=4", "17..=64", "65..=1000", "1001..="] {
        assert_eq!(occupancy.matches(range).count(), 1, "{range}");
    }
    // the check is the only condition, and there is one walk along the stack
    assert_eq!((occupancy.matches("if ").count(), occupancy.matches("for ").count()), (1, 1));
    assert_eq!(occupancy.matches("directory::next(").count(), 1);
}
fn uncommented(line: &str) -> String {
    line.split("//").next().unwrap().trim_end().to_string()
}

/// What crates.txt lists for a crate: the checker refuses a file that names any other.
fn listed(name: &str) -> Vec<String> {
    let list = fs::read_to_string(root().join("crates.txt")).unwrap();
    let line = list.lines().find_map(|line| line.strip_prefix(&format!("{name}:")));
    line.unwrap_or_else(|| panic!("no crate {name}")).split_whitespace().map(String::from).collect()
}

/// The cache relies on the directory's promises: its crates can name nothing of what is under the directory, they use no address of a
/// link, and no statement of the directory's own.
#[test]
fn the_cache_never_sees_a_link() {
    let under = [
        "operations", "word_ops", "linkage", "links", "check_model", "lists", "search", "values", "stack_moves",
        "count_moves", "bucket_moves", "misses", "totals", "purging", "halving",
    ];
    let links = [
        "HEAD", "TAIL", "NEW_BOUNDARY", "OLD_BOUNDARY", "UNUSED", "TO_HEAD", "TO_TAIL", "CHAIN_TO_HEAD",
        "CHAIN_TO_TAIL", "NEXT_SYNONYM",
    ];
    let layout = source("layout/src/lib.rt");
    assert!(links.iter().all(|link| layout.contains(&format!("pub const {link}: "))));
    for name in ["cache_steps", "flushing", "accesses", "cache", "looks", "occupancy", "compare"] {
        let listed = listed(name);
        assert!(under.iter().all(|part| !listed.iter().any(|crate_listed| crate_listed == part)), "{name}: {listed:?}");
        for path in files(&root().join("crates").join(name)) {
            let text = fs::read_to_string(&path).unwrap();
            let address = links.iter().find(|link| text.contains(&format!("layout::{link}")));
            assert!(address.is_none() && !text.contains("layout.specs.Addresses"), "{}: {address:?}", path.display());
            let own = ["specs", "proofs"].iter().any(|part| text.contains(&format!("Rattle.directory.{part}")));
            assert!(!own, "{} cites the directory's own statements", path.display());
        }
    }
}

/// Calls that anyone may make ask for nothing.
#[test]
fn entry_points_have_no_requires() {
    for (file, name) in [
        ("fresh/src/lib.rt", "pub fn fresh("),
        ("cache/src/lib.rt", "pub fn batch("),
        ("looks/src/lib.rt", "pub fn look<'a>("),
        ("numbers/src/lib.rt", "pub fn look_number("),
        ("soundness/src/lib.rt", "pub fn sound("),
        ("belt/src/lib.rt", "pub fn cycle("),
        ("header/src/lib.rt", "pub fn totals_in("),
        ("occupancy/src/lib.rt", "pub fn occupancy("),
        ("load/src/lib.rt", "pub fn load("),
        ("load/src/lib.rt", "pub fn load_state("),
        ("compare/src/lib.rt", "pub fn check("),
        ("compare/src/lib.rt", "pub fn compare("),
        ("settings/src/lib.rt", "pub fn directory_words("),
    ] {
        let text = source(file);
        let entry = function(&text, name);
        assert!(entry.contains("ensures") && !entry.contains("requires"), "{name}");
    }
    let exports = source("fbr/src/lib.rt");
    assert!(exports.contains("#[unsafe(no_mangle)]"));
    for part in exports.split("#[unsafe(no_mangle)]").skip(1) {
        let head = &part[..part.find("\n{").unwrap()];
        assert!(head.contains("ensures") && !head.contains("requires"), "{head}");
    }
}

/// The texts between back quotes.
fn quoted(text: &str) -> Vec<&str> {
    text.split('`').skip(1).step_by(2).collect()
}

/// Each public function of the C interface, the directory, the settings, FNV-1a, the numbers, a look, the occupancy,
/// the load and the comparison has two wrong programs of its own: docs/PROOFS.md names them, a group for each function,
/// and they are there.
#[test]
fn every_public_function_has_two_wrong_programs() {
    let proofs = fs::read_to_string(root().join("docs/PROOFS.md")).unwrap();
    let table = &proofs[proofs.find("Wrong programs of each public function").unwrap()..];
    let mut told = vec![];
    for row in table.lines().filter(|line| line.starts_with("| `")) {
        let columns: Vec<&str> = row.split('|').collect();
        let functions = quoted(columns[1]);
        let groups: Vec<Vec<&str>> = columns[2].split(';').map(quoted).collect();
        assert!(groups.len() >= functions.len() && groups.iter().all(|edits| edits.len() >= 2), "{row}");
        for edits in groups {
            // an edit without a crate is of the crate named before it
            let mut of = "";
            for edit in edits {
                let (named, label) = edit.split_once('/').unwrap_or((of, edit));
                of = named;
                let path = root().join("crates").join(of).join("must-fail").join(format!("{label}.edit"));
                assert!(path.is_file(), "{}", path.display());
            }
        }
        told.extend(functions.iter().map(|name| name.rsplit("::").next().unwrap()));
    }
    for name in [
        "fbr", "directory", "settings", "fnv", "batch_number", "numbers", "looks", "occupancy", "load", "opt_ins",
        "compare",
    ] {
        for line in source(&format!("{name}/src/lib.rt")).lines().map(str::trim) {
            let Some(rest) = line.strip_prefix("pub fn ").or(line.strip_prefix("pub extern \"C\" fn ")) else {
                continue;
            };
            let function = rest.split(['(', '<']).next().unwrap();
            assert!(told.contains(&function), "{name}::{function}");
        }
    }
}

/// What `blocks::move_block` copies by. Only speed hangs on it.
#[test]
fn blocks_are_moved_by_memmove() {
    let archive = fs::read(env!("FBR_ARCHIVE")).unwrap();
    assert!(archive.windows(7).any(|name| name == b"memmove"), "the back end left the copy a loop");
}
