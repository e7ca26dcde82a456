//! include/fbr.h beside the declarations in Rust, the functions that the library exports, and the Rust crate's words.
use std::collections::BTreeMap;
use std::io::Write;
use std::path::{Path, PathBuf};
use std::process::{Command, Stdio};
use std::sync::OnceLock;

#[path = "../c/compile.rs"]
mod compile;
use cache_tests::reference::compare::BAD_TRACE;
use cache_tests::reference::load::{states, word_of};
use cache_tests::reference::stack::answer::KINDS;
use compile::{compiled, text, LANGUAGES};

/// A function's parameters, name and type, and what it returns; types are spelled as in Rust.
#[derive(Debug, PartialEq, Eq)]
struct Function {
    parameters: Vec<(String, String)>,
    result: String,
}
type Functions = BTreeMap<String, Function>;

fn names(functions: &Functions) -> Vec<&String> {
    functions.keys().collect()
}
fn types(function: &Function) -> Vec<String> {
    function.parameters.iter().map(|(_, kind)| kind.clone()).collect()
}

/// The parts of a text outside the pairs of these two marks.
fn outside(text: &str, from: &str, to: &str) -> String {
    let mut parts = text.split(from);
    let first = parts.next().unwrap().to_string();
    first + &parts.map(|part| part.split_once(to).expect(to).1).collect::<String>()
}
fn without_line_comments(text: &str) -> String {
    text.lines().map(|line| line.split("//").next().unwrap().to_string() + "\n").collect()
}

/// The last name of a C declaration, and the type before it.
fn c_named(declaration: &str) -> (String, String) {
    let declaration = declaration.trim();
    let at = declaration.rfind(|c: char| !c.is_alphanumeric() && c != '_').expect("a type and a name") + 1;
    (declaration[at..].to_string(), rust_type(declaration[..at].trim()))
}
fn rust_type(c: &str) -> String {
    match c.strip_suffix('*').map(str::trim) {
        Some(pointed) => match pointed.strip_prefix("const ") {
            Some(constant) => format!("*const {}", rust_type(constant)),
            None => format!("*mut {}", rust_type(pointed)),
        },
        None => ["uint8_t u8", "uint32_t u32", "int32_t i32", "uint64_t u64", "size_t usize"]
            .iter()
            .find_map(|pair| pair.strip_prefix(c)?.strip_prefix(' '))
            .unwrap_or_else(|| panic!("the C type {c}"))
            .to_string(),
    }
}

/// What the header declares, without its inline functions.
fn in_header() -> Functions {
    let header = outside(&text("include/fbr.h"), "/*", "*/");
    let lines = header.lines().filter(|line| !line.starts_with('#')).map(|line| format!("{line}\n"));
    let declared = outside(&lines.collect::<String>(), "static inline", "\n}\n");
    declared.split(';').filter_map(|part| part.split_once('(')).map(c_function).collect()
}
fn c_function((front, parameters): (&str, &str)) -> (String, Function) {
    let (name, result) = c_named(front);
    let parameters = parameters.trim().trim_end_matches(')').split(',').map(c_named).collect();
    (name, Function { parameters, result })
}

/// What the Rust crate declares.
fn in_rust() -> Functions {
    let sys = without_line_comments(&text("bindings/rust/src/sys.rs"));
    let blocks = sys.split("extern \"C\" {").skip(1).map(|block| block.split('}').next().unwrap());
    blocks.flat_map(|block| block.split(';')).filter_map(|part| part.split_once("fn ")).map(rust_function).collect()
}
fn rust_function((_, function): (&str, &str)) -> (String, Function) {
    let (front, result) = function.split_once("->").expect("a result");
    let (name, parameters) = front.split_once('(').expect("parameters");
    let parameters = parameters.trim().trim_end_matches(')').split(',').filter_map(|one| one.split_once(':'));
    let parameters = parameters.map(|(name, kind)| (name.trim().to_string(), kind.trim().to_string())).collect();
    (name.trim().to_string(), Function { parameters, result: result.trim().to_string() })
}

/// What the library exports. A slice is a pointer and a count there, and the count has no name.
fn in_library() -> Functions {
    let library = without_line_comments(&text("crates/fbr/src/lib.rt"));
    library.split("#[unsafe(no_mangle)]").skip(1).map(library_function).collect()
}
fn library_function(text: &str) -> (String, Function) {
    let (front, rest) = text.split_once(')').expect("parameters");
    let (name, parameters) = front.split_once("fn ").and_then(|(_, f)| f.split_once('(')).expect("a function");
    let name = name.split('<').next().unwrap().to_string();
    let parameters = parameters.split(',').filter_map(|one| one.split_once(':')).flat_map(passed).collect();
    let result = rest.split_once("->").expect("a result").1.split_whitespace().next().unwrap().to_string();
    (name, Function { parameters, result })
}
fn passed((name, kind): (&str, &str)) -> Vec<(String, String)> {
    let (name, kind) = (name.trim().to_string(), kind.trim());
    let Some(borrowed) = kind.strip_prefix('&') else { return vec![(name, kind.to_string())] };
    let (mode, slice) = borrowed.split_once('[').expect("a slice");
    let pointer = if mode.contains("mut") { "*mut" } else { "*const" };
    let element = slice.trim_end_matches(']');
    vec![(name, format!("{pointer} {element}")), (String::new(), "usize".to_string())]
}

/// Both programs of tests/c/header.c, compiled once.
fn programs() -> &'static [PathBuf] {
    static PROGRAMS: OnceLock<Vec<PathBuf>> = OnceLock::new();
    let folder = Path::new(env!("CARGO_TARGET_TMPDIR"));
    PROGRAMS.get_or_init(|| LANGUAGES.iter().map(|one| compiled(one, "tests/c/header.c", folder)).collect())
}

/// What tests/c/header.c answers to these lines, as C and as C++.
fn header_says(questions: &[String]) -> Vec<String> {
    let answers: Vec<String> = programs().iter().map(|program| asked(program, &questions.join("\n"))).collect();
    assert_eq!(answers[0], answers[1], "C and C++ differ");
    let lines: Vec<String> = answers[0].lines().map(str::to_string).collect();
    assert_eq!(lines.len(), questions.len());
    lines
}
fn asked(program: &Path, questions: &str) -> String {
    let mut child = Command::new(program).stdin(Stdio::piped()).stdout(Stdio::piped()).spawn().unwrap();
    let mut input = child.stdin.take().unwrap();
    let questions = questions.to_string();
    let writer = std::thread::spawn(move || input.write_all(questions.as_bytes()));
    let output = child.wait_with_output().unwrap();
    writer.join().unwrap().unwrap();
    assert!(output.status.success(), "{program:?}: {}", output.status);
    String::from_utf8(output.stdout).unwrap()
}
fn numbers(line: &str) -> Vec<u32> {
    line.split(' ').map(|number| number.parse().unwrap()).collect()
}

#[test]
fn the_rust_crate_declares_the_same_functions() {
    let (header, rust) = (in_header(), in_rust());
    assert!(header.contains_key("fbr_batch"));
    assert_eq!(names(&header), names(&rust));
    header.iter().for_each(|(name, function)| assert_eq!(*function, rust[name], "{name}"));
}

#[test]
fn the_library_exports_the_same_functions() {
    let (header, library) = (in_header(), in_library());
    assert!(library.contains_key("fbr_batch"));
    assert_eq!(names(&header), names(&library));
    for (name, function) in &header {
        assert_eq!(types(function), types(&library[name]), "{name}");
        assert_eq!(function.result, library[name].result, "{name}");
    }
}

#[test]
fn texts_of_the_numbers() {
    let asked: Vec<u32> = (0..=BAD_TRACE + 1).chain([99, u32::MAX]).collect();
    let said = header_says(&asked.iter().map(|number| format!("text {number}")).collect::<Vec<_>>());
    let none = BAD_TRACE as usize + 1;
    assert_eq!((said[0].as_str(), said[none].as_str()), ("accepted", "not a number of this library"));
    assert!(said[none..].iter().all(|text| *text == said[none]));
    for number in 1..=BAD_TRACE {
        let refusal = fbr::Refusal::from_number(number).unwrap();
        assert_eq!(format!("{number}: {}", said[number as usize]), refusal.to_string());
    }
}

/// A number, its name in C and its name in Rust.
type Named = (u32, String, String);

/// The refusals in the order of the checks: the Rust crate's, with the names that the header's enum gives the numbers.
fn refusals() -> Vec<Named> {
    let header = text("include/fbr.h");
    let list = header.split("/* The returned numbers").nth(1).expect("an enum").split("};").next().unwrap();
    let pairs = list.lines().filter_map(|line| line.trim().trim_end_matches(',').split_once(" = "));
    let pairs: Vec<(u32, &str)> = pairs.map(|(name, number)| (number.parse().unwrap(), name)).collect();
    assert_eq!(pairs[0], (0, "FBR_ACCEPTED"));
    assert_eq!(pairs.len(), fbr::Refusal::ALL.len() + 1);
    let with_c = |(refusal, &(number, c)): (&fbr::Refusal, &(u32, &str))| {
        assert_eq!(refusal.number(), number, "{c} beside {refusal:?}");
        (number, c.to_string(), format!("{refusal:?}"))
    };
    fbr::Refusal::ALL.iter().zip(&pairs[1..]).map(with_c).collect()
}

/// The header's enum and table, the manual's table and the Rust crate have the numbers in the order of the checks, and
/// 12 is checked right after 7.
#[test]
fn tables_in_the_order_of_the_checks() {
    let named = refusals();
    let order: Vec<u32> = named.iter().map(|one| one.0).collect();
    assert_eq!(order, [1, 2, 3, 4, 5, 6, 7, 12, 8, 9, 10, 11, 13, 14]);

    let header = text("include/fbr.h");
    let table = header.split("    0  accepted\n").nth(1).expect("a table").split(" */").next().unwrap();
    let rows = table.lines().filter_map(|line| line.get(3..7)?.trim().parse::<u32>().ok());
    assert_eq!(rows.collect::<Vec<_>>(), order, "the header's table");

    let manual = text("docs/MANUAL.md");
    let cell = |cells: &[&str], at: usize| cells[at].trim().trim_matches('`').to_string();
    let rows = manual.lines().map(|line| line.split('|').collect::<Vec<_>>()).filter(|cells| cells.len() == 7);
    let rows = rows.filter(|cells| cells[2].starts_with(" `FBR_") && cells[1].trim() != "0");
    let rows: Vec<Named> = rows.map(|c| (cell(&c, 1).parse().unwrap(), cell(&c, 2), cell(&c, 3))).collect();
    assert_eq!(rows, named, "the manual's table");
}

/// The C program's batch and looks over a store of each length: 12 where it is longer, 7 where it is shorter.
#[test]
fn a_store_of_the_wrong_size_in_c() {
    const M: usize = 262_144;
    let lengths = [0, M - 1, M, M + 1, M + 4_096, 2 * M];
    let said = header_says(&lengths.map(|length| format!("store {length}")));
    let (short, long) = ("7 7 0 kept", "12 12 0 kept");
    assert_eq!(said, [short, short, "0 0 1 changed", long, long, long]);
}

/// The C program's loads: the words at the front alone, none at all, and 13 with every word as it was.
#[test]
fn loads_in_c() {
    let asked =
        ["2463534242 100 3 4", "2463534242 100 0 0", "1 262144 4 4", "2463534242 100 3 2", "0 100 3 4", "1 0 1 4"];
    let said = header_says(&asked.map(|load| format!("load {load}")));
    let first = states(1).take(4).map(|state| format!(" {}", word_of(262_144, state)));
    let (last, first) = (states(1).nth(3).unwrap(), first.collect::<String>());
    let expected = [
        "0 2064144800 268435484 268435482 536870912 7".to_string(),
        "0 2463534242 7 7 7 7".to_string(),
        format!("0 {last}{first}"),
        "13 2064144800 7 7 7 7".to_string(),
        "13 0 7 7 7 7".to_string(),
        format!("13 {} 7 7 7 7", states(1).next().unwrap()),
    ];
    assert_eq!(said, expected);
}

/// The classes of the header are those of the Rust crate, by the same texts.
#[test]
fn texts_of_the_count_classes() {
    let settings = fbr::Settings::unix(1, 1, 1);
    let classes = fbr::Cache::new(&settings, vec![0]).unwrap().occupancy().unwrap().classes;
    assert_eq!(header_says(&["classes".to_string()]), [format!("{} {}", classes.len(), 2 * classes.len())]);
    let asked: Vec<u32> = (0..classes.len() as u32).collect();
    let said = header_says(&asked.iter().map(|class| format!("class {class}")).collect::<Vec<_>>());
    assert_eq!(said, classes.map(|class| class.to_string()));
    assert_eq!(header_says(&["class 8".to_string(), "class 4294967295".to_string()]), ["not a count class"; 2]);
}

/// Answer words of every kind, at the edges of their parts and elsewhere.
fn answer_words() -> Vec<u32> {
    let edges = [0, 1, 2, 3, 65_535, (1 << 18) - 1, 1 << 18, 33_816_579, 1 << 25, (1 << 26) - 1, 1 << 26, 1 << 27];
    let values: Vec<u32> = edges.into_iter().flat_map(|edge| [edge, edge + (1 << 26), edge ^ 0x0fff_ffff]).collect();
    let edges = (0..16).flat_map(|kind| values.iter().map(move |value| kind << 28 | value));
    edges.chain((0..2_000_u32).map(|i| i.wrapping_mul(0x9e37_79b1))).collect()
}
/// The parts of an answer, in the order of the header's macros.
fn parts_of(word: u32) -> [u32; 10] {
    let value = word % (1 << 28);
    let (bit, chains) = (|at: u32| value / (1 << at) % 2, value / (1 << 18) % 128);
    [word >> 28, value, value % (1 << 26), bit(26), value % (1 << 18), chains, bit(25), bit(0), value, bit(0)]
}
/// The parts of an answer that the header's macros gave, in the words of the Rust crate; none for no answer's kind.
fn in_words(parts: &[u32]) -> Option<String> {
    let (halved, written_out) = (parts[3] == 1, parts[6] == 1);
    Some(match parts[0] {
        1 => format!("Hit {{ count: {}, halved: {halved} }}", parts[2]),
        2 => format!("Entered {{ halved: {halved} }}"),
        3 => format!("Replaced {{ victim: {}, chains: {}, written_out: {written_out} }}", parts[4], parts[5]),
        4 => format!("Purged {{ discarded: {} }}", parts[7] == 1),
        5 => "Absent".to_string(),
        6 => format!("Flushed {{ written: {} }}", parts[8]),
        7 => "AllPinned".to_string(),
        8 => format!("Pinned {{ pinned: {} }}", parts[9] == 1),
        9 => "PurgeRefused".to_string(),
        _ => return None,
    })
}
/// Whether the value is one that an answer of its kind may have.
fn possible(kind: u32, value: u32) -> bool {
    match kind {
        1 => value >> 27 == 0,
        2 => value == 0 || value == 1 << 26,
        3 => value >> 26 == 0,
        4 | 8 => value <= 1,
        5 | 7 | 9 => value == 0,
        _ => kind == 6,
    }
}

#[test]
fn parts_of_the_answers() {
    let words = answer_words();
    let said = header_says(&words.iter().map(|word| format!("answer {word}")).collect::<Vec<_>>());
    let mut compared = [0; KINDS];
    for (&word, line) in words.iter().zip(&said) {
        let parts = numbers(line);
        assert_eq!(parts, parts_of(word), "{word:#x}");
        if possible(parts[0], parts[1]) {
            let (c, rust) = (in_words(&parts).unwrap(), format!("{:?}", fbr::Answer::from_word(word)));
            assert!(rust.contains(&c), "{word:#x}: {c} in C, {rust} in Rust");
            compared[parts[0] as usize] += 1;
        }
    }
    assert!(compared[1..].iter().all(|&count| count > 0), "{compared:?}");
}

#[test]
fn words_that_do_not_fit_are_refused() {
    const M: u64 = 262_144;
    let edges = [0, M, 1 << 28, 1 << 31, 1 << 32, 1 << 33, 1 << 60, u64::MAX];
    let near = |edge: u64| [-3, -2, -1, 0, 1, 2, 3].map(|by| edge.wrapping_add_signed(by));
    let pairs = (0..=17).chain([33, 1 << 28 | 1, u32::MAX]).flat_map(|kind| edges.map(|edge| (kind, edge)));
    let pairs: Vec<(u32, u64)> = pairs.flat_map(|(kind, edge)| near(edge).map(|value| (kind, value))).collect();
    let said = header_says(&pairs.iter().map(|(kind, value)| format!("word {kind} {value}")).collect::<Vec<_>>());
    let mut accepted = 0;
    for (&(kind, value), line) in pairs.iter().zip(&said) {
        let [word, number] = numbers(line)[..] else { panic!("{line}") };
        let meant = [1, 2, 3, 6, 7].contains(&kind) && value < M || [4, 5].contains(&kind) && value == 0;
        assert_eq!(number, if meant { 0 } else { 9 }, "kind {kind}, value {value}, word {word:#x}");
        let exact = kind < 16 && value < 1 << 28;
        assert!(!exact || u64::from(word) == u64::from(kind) << 28 | value, "kind {kind}, value {value}");
        accepted += u32::from(number == 0);
    }
    println!("{} words, {accepted} accepted", pairs.len());
    assert!(accepted > 10);
}

#[test]
fn empty_slices() {
    assert_eq!(header_says(&["empty".to_string()]), ["0"]);
}

#[test]
fn one_version() {
    let said = header_says(&["version".to_string()]);
    let (number, version) = said[0].split_once(' ').unwrap();
    let parts: Vec<u32> = version.split('.').map(|part| part.parse().unwrap()).collect();
    assert_eq!(parts.len(), 3);
    assert_eq!(number.parse::<u32>().unwrap(), parts[0] * 10_000 + parts[1] * 100 + parts[2]);
    assert!(text("bindings/rust/Cargo.toml").contains(&format!("\nversion = \"{version}\"\n")), "Cargo.toml");
    let manual = text("docs/MANUAL.md");
    assert!(manual.contains(&format!("\nVersion: {version}\n")), "fbr.pc in the manual");
    assert!(manual.contains(&format!(" so {number} for {version}.\n")), "the sentence in the manual");
    let changelog = text("CHANGELOG.md");
    assert!(changelog.split("\n## ").nth(1).unwrap().starts_with(&format!("{version} (")), "the newest entry");
}
