//! The programs of docs/MANUAL.md: it shows the files as they are and what they print, and its ways to build work.
use std::fs;
use std::os::unix::fs::symlink;
use std::path::{Path, PathBuf};
use std::process::Command;

#[path = "../c/compile.rs"]
mod compile;
use cache_tests::reference::compare as reference;
use cache_tests::reference::directory::{kind, value, word};
use cache_tests::reference::load::{states, word_of};
use cache_tests::reference::settings::{named, Profile};
use cache_tests::reference::stack::{answer, work, PlainStack};
use compile::{compiled, needed, printed, root, text, LANGUAGES};

/// The one block of the manual that is fenced with these words.
fn shown(info: &str) -> String {
    let manual = text("docs/MANUAL.md");
    let fence = format!("\n```{info}\n");
    let mut blocks = manual.split(&fence).skip(1).map(|rest| rest.split_once("\n```").expect("the end of a block").0);
    let block = blocks.next().unwrap_or_else(|| panic!("no block of {info}"));
    assert!(blocks.next().is_none(), "more than one block of {info}");
    format!("{block}\n")
}

/// A new folder of this name, for one test.
fn folder(name: &str) -> PathBuf {
    let folder = Path::new(env!("CARGO_TARGET_TMPDIR")).join("manual").join(name);
    let _ = fs::remove_dir_all(&folder);
    fs::create_dir_all(&folder).unwrap();
    folder
}

/// A folder that has what the manual's lines use of the repository: the archive may lie elsewhere.
fn repository(inside: &Path) -> PathBuf {
    let repository = inside.join("repository");
    fs::create_dir_all(repository.join("target/staticlib")).unwrap();
    for part in ["include", "docs", "samples"] {
        symlink(root().join(part), repository.join(part)).unwrap();
    }
    symlink(env!("FBR_ARCHIVE"), repository.join("target/staticlib/libfbr.a")).unwrap();
    repository
}

/// The lines of a block, run by the shell in a folder.
fn run(lines: &str, folder: &Path) -> String {
    printed(Command::new("sh").args(["-e", "-c"]).arg(lines).current_dir(folder).env_remove("MAKEFLAGS"))
}

/// Builds the manual's program by a tool: file and lines out of the manual, with the repository's path filled in.
fn built_by(tool: &str, file: &str, block: &str) {
    needed(tool);
    let (folder, lines) = (folder(tool), shown(block));
    assert_eq!(lines.matches("/path/to/fbr").count(), 1, "{block}: the path of the repository");
    let lines = lines.replace("/path/to/fbr", repository(&folder).to_str().unwrap());
    fs::write(folder.join(file), lines).unwrap();
    fs::write(folder.join("small.c"), shown("c")).unwrap();
    let all = run(&shown(&format!("sh {tool}")), &folder);
    assert!(all.ends_with(&shown("text small")), "{tool} and the program printed\n{all}");
}

/// What an example of the Rust crate prints, run in a folder of its own.
fn example(name: &str) -> String {
    let folder = folder(name);
    let mut cargo = cargo("run", &folder.with_file_name("bindings"));
    printed(cargo.args(["--release", "--example", name]).current_dir(folder))
}
fn cargo(command: &str, target: &Path) -> Command {
    let mut cargo = Command::new(env!("CARGO"));
    cargo.args([command, "--quiet", "--offline", "--manifest-path"]).arg(root().join("bindings/rust/Cargo.toml"));
    cargo.arg("--target-dir").arg(target);
    cargo
}

fn fnv64(bytes: &[u8]) -> u64 {
    bytes.iter().fold(14_695_981_039_346_656_037, |sum, &b| (sum ^ u64::from(b)).wrapping_mul(1_099_511_628_211))
}

/// A saved file beside the manual's table: mark, lengths, parts, checksum, and nothing more.
fn check_saved(file: &[u8]) {
    let number = |at: usize| u64::from_le_bytes(file[at..at + 8].try_into().unwrap());
    assert_eq!(&file[..8], b"FBRSAVE1");
    let sum_at = 32 + 4 * number(8) + number(16) + number(24);
    assert_eq!(file.len() as u64, sum_at + 8);
    assert_eq!(number(sum_at as usize), fnv64(&file[..sum_at as usize]));
}

#[test]
fn the_manual_shows_the_files() {
    assert_eq!(shown("c"), text("docs/manual/small.c"));
    assert_eq!(shown("rust"), text("bindings/rust/examples/small.rs"));
    assert_eq!(shown("rust occupancy"), text("bindings/rust/examples/occupancy.rs"));
    assert_eq!(shown("rust commission"), text("bindings/rust/examples/commission.rs"));
    assert!(text("docs/manual/map.c").contains(&shown("c map")));
}

/// A program of `docs/manual` prints what the manual says.
fn as_shown(name: &str) {
    let folder = folder(&format!("{name}_in_c"));
    for language in &LANGUAGES {
        let program = compiled(language, &format!("docs/manual/{name}.c"), &folder);
        assert_eq!(printed(&mut Command::new(program)), shown(&format!("text {name}")), "{}", language.compiler);
    }
}

#[test]
fn the_c_program() {
    as_shown("small");
}

/// What lines of the manual print in a program, after its lines about sizes.
fn after_the_sizes(test: &str, lines: &str, expected: &str) {
    let folder = folder(test);
    let front = "#include <stdio.h>\n#include <stdlib.h>\n#include \"fbr.h\"\nint main(void) {\n";
    let end = "free(dir); free(data); free(store);\nreturn 0;\n}\n";
    let source = folder.join("lines.c");
    fs::write(&source, [front, &shown("c sizes"), lines, end].concat()).unwrap();
    for language in &LANGUAGES {
        let program = compiled(language, source.to_str().unwrap(), &folder);
        assert_eq!(printed(&mut Command::new(program)), expected, "{}", language.compiler);
    }
}

#[test]
fn the_sizes_of_named_settings() {
    let say = "printf(\"%u %zu %u\\n\", (unsigned)number, words, (unsigned)s[FBR_NOLD]);\n";
    after_the_sizes("the_sizes_of_named_settings", say, "0 680 38\n");
}

/// A write of one block and a read of another.
const BATCH: &str = "
uint32_t work[2] = {fbr_word(FBR_WRITE, 3), fbr_word(FBR_READ, 5)}, answers[2];
uint8_t in[512] = {0}, read[512];
number = fbr_batch(dir, words, data, 64 * 512, store, 2048 * 512, work, 2, in, 512, answers, 2, read, 512);
";
const OCCUPANCY: &str = "         1         2        1
         2         0        0
    3 to 4         0        0
    5 to 8         0        0
   9 to 16         0        0
  17 to 64         0        0
65 to 1000         0        0
above 1000         0        0
";

#[test]
fn the_occupancy_in_c() {
    after_the_sizes("the_occupancy_in_c", &[BATCH, &shown("c occupancy")].concat(), OCCUPANCY);
}

/// The first tick marks the written block, the second writes it out.
#[test]
fn ticks_in_c() {
    let first = shown("c ticks");
    let again = &first[first.find("number = ").expect("a call")..];
    after_the_sizes("ticks_in_c", &[BATCH, &first, again].concat(), "0 written out\n1 written out\n");
}

/// The block is pinned where it was written before, and absent where not.
#[test]
fn pins_in_c() {
    let lines = shown("c pins");
    after_the_sizes("pins_in_c", &[BATCH, &lines].concat(), "block 3 is pinned\n");
    after_the_sizes("pins_in_c_absent", &lines, "block 3 is not in the cache\n");
}

/// The written block goes to the store, the sections are others, and the next read gives what was written. With an Nold
/// of 0 nothing but the flush is done.
#[test]
fn tuning_in_c() {
    let lines = shown("c tune");
    let write = "
uint32_t work = fbr_word(FBR_WRITE, 3), answer;
uint8_t bytes[512] = {0};
bytes[511] = 9;
number = fbr_batch(dir, words, data, 64 * 512, store, 2048 * 512, &work, 1, bytes, 512, &answer, 1, fbr_no_bytes(), 0);
";
    let read = "
work = fbr_word(FBR_READ, 3);
bytes[511] = 0;
number = fbr_batch(dir, words, data, 64 * 512, store, 2048 * 512, &work, 1, fbr_no_bytes(), 0, &answer, 1, bytes, 512);
printf(\"%u: kind %u, %u; \", (unsigned)number, (unsigned)FBR_KIND(answer), (unsigned)bytes[511]);
printf(\"Nold %u\\n\", (unsigned)s[FBR_NOLD]);
";
    let expected = "1 written out, Nold is 26 now\n0: kind 2, 9; Nold 26\n";
    after_the_sizes("tuning_in_c", &[write, &lines, read].concat(), expected);
    let none = lines.replace("nold = 26;", "nold = 0;").replace("stderr", "stdout");
    let expected = "refused 2: Nold is 0, or Nnew + Nold exceeds N\n0: kind 1, 9; Nold 38\n";
    after_the_sizes("tuning_in_c_declined", &[write, &none, read].concat(), expected);
}

#[test]
fn a_load_in_c() {
    after_the_sizes("a_load_in_c", &shown("c load"), &shown("text load"));
}

#[test]
fn commissioning_in_c() {
    as_shown("commission");
}

/// What the manual says that every site must see, by the reference alone: its load, its plain stack, its settings.
#[test]
fn commissioning_by_the_reference() {
    const SEED: u32 = 2_463_534_242;
    let s = named(Profile::Unix, 64, 64, 96);
    let mut stack = PlainStack::new(s, vec![0; 96 * 64]);
    let lent = stack.whole();
    let (mut answers, mut outgoing, mut given) = (vec![0; 1_024], vec![0; 1_024 * 64], vec![]);
    let words: Vec<u32> = states(SEED).take(100 * 1_024).map(|state| word_of(s.m, state)).collect();
    let mut said = "batches  reads  writes  blocks in  blocks out  halvings\n".to_string();
    let mut halvings = 0;
    for (k, batch) in (1..).zip(words.chunks(1_024)) {
        let incoming: Vec<u8> = (1..=1_024).flat_map(|j| (0..64).map(move |i| (k + 3 * j + 5 * i) as u8)).collect();
        assert_eq!(stack.batch(lent, batch, &incoming, &mut answers, &mut outgoing), 0);
        given.extend(&outgoing[..batch.iter().filter(|&&w| kind(w) == work::READ).count() * 64]);
        let marked = |&&a: &&u32| [answer::HIT, answer::ENTERED].contains(&kind(a)) && value(a) >= answer::HALVED;
        halvings += answers.iter().filter(marked).count();
        if [1, 10, 100].contains(&k) {
            let PlainStack { reads, writes, ins, outs, .. } = &stack;
            said += &format!("{k:>7}  {reads:>5}  {writes:>6}  {ins:>9}  {outs:>10}  {halvings:>8}\n");
        }
    }
    assert_eq!(stack.batch(lent, &[word(work::FLUSH, 0)], &[], &mut answers, &mut []), 0);
    said += &format!("a flush: {} written out\n", value(answers[0]));
    said += &format!("checksum of all bytes read: {:016x}\n", fnv64(&given));
    said += &format!("checksum of the store: {:016x}\n", fnv64(&stack.store));
    said += &format!("state of the load: {}\n", states(SEED).nth(words.len() - 1).unwrap());
    assert_eq!(said, shown("text commission"));
}

#[test]
fn saving_in_c() {
    let folder = folder("saving_in_c");
    for language in &LANGUAGES {
        let (program, file) = (compiled(language, "docs/manual/save.c", &folder), folder.join(language.compiler));
        assert_eq!(printed(Command::new(program).arg(&file)), shown("text save"), "{}", language.compiler);
        check_saved(&fs::read(&file).unwrap());
        assert!(!file.with_extension("new").exists(), "the other name is left");
    }
}

/// The spare store stays as it was made, and the right one has the block.
#[test]
fn mapping_in_c() {
    let folder = folder("mapping_in_c");
    for language in &LANGUAGES {
        let program = compiled(language, "docs/manual/map.c", &folder);
        let [spare, store] = ["spare", "store"].map(|name| folder.join(name));
        let mut command = Command::new(program);
        assert_eq!(printed(command.args([&spare, &store])), shown("text map"), "{}", language.compiler);
        assert_eq!(fs::read(spare).unwrap(), [b'.'; 96 * 8]);
        let expected = [&[b'.'; 80][..], b"bag 0042", &[b'.'; 424]].concat();
        assert_eq!(fs::read(store).unwrap(), expected);
    }
}

#[test]
fn the_plain_lines() {
    needed("cc");
    let repository = repository(&folder("the_plain_lines"));
    assert_eq!(run(&shown("sh cc"), &repository), shown("text small"));
    assert_eq!(run(&shown("sh save"), &repository), shown("text save"));
    assert_eq!(run(&shown("sh map"), &repository), shown("text map"));
    assert_eq!(run(&shown("sh commission"), &repository), shown("text commission"));
}

#[test]
fn built_by_make() {
    built_by("make", "Makefile", "make");
}
#[test]
fn built_by_cmake() {
    built_by("cmake", "CMakeLists.txt", "cmake");
}
#[test]
fn built_by_pkg_config() {
    built_by("pkg-config", "fbr.pc", "ini fbr.pc");
}

#[test]
fn the_rust_program() {
    assert_eq!(example("small"), shown("text small"));
}
#[test]
fn the_controller() {
    assert_eq!(example("controller"), shown("text controller"));
}
#[test]
fn the_timeline_of_ticks() {
    assert_eq!(example("ticks"), shown("text ticks"));
}
#[test]
fn a_flights_boarding() {
    assert_eq!(example("boarding"), shown("text boarding"));
}
#[test]
fn a_large_purge() {
    assert_eq!(example("purge"), shown("text purge"));
}
#[test]
fn settings_changed_while_belts_move() {
    assert_eq!(example("tune"), shown("text tune"));
}
#[test]
fn commissioning() {
    assert_eq!(example("commission"), shown("text commission"));
}
#[test]
fn the_occupancy_of_a_day() {
    assert_eq!(example("occupancy"), shown("text occupancy"));
}

/// The example `compare`, by the manual's line but for where its folders stand: the table that the manual shows, and
/// the picture beside it.
fn compared(name: &str, line: &str) {
    let folder = folder(&format!("compared_{name}"));
    let repository = repository(&folder);
    let (front, args) = line.trim_end().split_once(" -- ").expect("arguments");
    assert_eq!(front, "cargo run --offline --release --manifest-path bindings/rust/Cargo.toml --example compare");
    let mut cargo = cargo("run", &folder.with_file_name("bindings"));
    cargo.args(["--release", "--example", "compare", "--"]).args(args.split(' ')).current_dir(&repository);
    assert_eq!(printed(&mut cargo), shown(&format!("text {name}")));
    let drawn = fs::read_to_string(repository.join(format!("target/{name}.svg"))).unwrap();
    assert_eq!(drawn, text(&format!("docs/manual/{name}.svg")), "docs/manual/{name}.svg");
    assert!(text("docs/MANUAL.md").contains(&format!("](manual/{name}.svg)")));
}
#[test]
fn the_comparison_of_a_databases_pages() {
    compared("pages", &shown("sh compare"));
}
#[test]
fn the_comparison_of_the_days_reads() {
    compared("day", &shown("sh day"));
}

/// The same trace as work words gives the same table; a line that is no read is told, and so is a word that is none.
#[test]
fn a_trace_as_words() {
    let folder = folder("a_trace_as_words");
    let run = |trace: &str| {
        fs::write(folder.join("words.trace"), trace).unwrap();
        let mut cargo = cargo("run", &folder.with_file_name("bindings"));
        cargo.args(["--release", "--example", "compare", "--", "words.trace", "unix", "4", "64"]).current_dir(&folder);
        cargo.output().unwrap()
    };
    let blocks = text("samples/day.trace");
    let words = blocks.lines().map(|block| format!("{:#x}\n", word(work::READ, block.parse().unwrap())));
    let told = String::from_utf8(run(&words.collect::<String>()).stdout).unwrap();
    assert_eq!(told.split_once('\n').unwrap().1, shown("text day").split_once('\n').unwrap().1);
    for (trace, wrong) in [("3\nbag\n", "line 2, \\\"bag\\\""), ("3\n0x20000003\n", "refused with 14: a trace")] {
        let output = run(trace);
        let said = String::from_utf8_lossy(&output.stderr).to_string();
        assert!(!output.status.success() && said.contains(wrong), "{said}");
    }
}

/// The lines about a comparison print what the manual says, and so does the reference.
#[test]
fn the_lines_of_a_comparison() {
    after_the_sizes("the_lines_of_a_comparison", &shown("c compare"), &shown("text compare"));
    let trace = [7, 7, 3, 9, 5, 7, 5, 8, 7, 4, 4, 5].map(|block| word(work::READ, block));
    let s = cache_tests::Settings { n: 2, nnew: 0, nold: 2, cmax: 3, amax: 100, b: 512, m: 2_048 };
    let (_, [lru, chosen, opt, gain, possible]) = reference::compare(s, &trace);
    let improvement = 100 * gain / possible;
    assert_eq!(format!("LRU {lru}, chosen {chosen}, OPT {opt}\nimprovement {improvement}.0%\n"), shown("text compare"));
}

#[test]
fn the_crate_is_documented() {
    let mut cargo = cargo("doc", &folder("documentation"));
    printed(cargo.arg("--no-deps").env("RUSTDOCFLAGS", "-D warnings"));
}

#[test]
fn a_build_without_the_archive_says_what_makes_it() {
    let empty = folder("no_archive");
    let mut cargo = cargo("build", &empty.join("target"));
    let output = cargo.env("FBR_ARCHIVE_DIR", &empty).output().unwrap();
    let said = String::from_utf8_lossy(&output.stderr);
    assert!(!output.status.success() && said.contains("scripts/archive.sh"), "{said}");
    assert!(said.contains(empty.join("libfbr.a").to_str().unwrap()), "{said}");
}
