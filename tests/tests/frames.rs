//! How much stack a call takes, read off the disassembly of the archive: a bound along the deepest chain of calls.
//! What memmove and memset take themselves is the C library's.
use std::collections::BTreeMap;
use std::process::Command;

const EXPORTS: &str = include_str!("../../crates/fbr/src/lib.rt");
const OUTSIDE: [&str; 2] = ["memmove", "memset"];
/// What a page may state.
const LARGEST_FRAME: u64 = 512;
const MOST_STACK: u64 = 1_024;
/// A comparison takes more: it runs a cache of its own, in the longest directory.
const COMPARISON: &str = "fbr_compare";
const LONGEST_DIRECTORY: u64 = 4 * 41_112;
/// The section of a function's table of places to jump to, before its name; and the one of that kind that holds none.
const TABLE: &str = ".rodata.";
const CONSTANTS: &str = "cst16";
const TABLE_WORD: u64 = 4;

#[derive(Debug, Default)]
struct Function {
    /// Taken off the stack pointer. A large frame is taken page by page, in a loop: it is read where it is given back.
    frame: u64,
    /// All pushes at once, though some follow a pop: a bound.
    pushed: u64,
    /// Used below the stack pointer, as a function that calls nobody may.
    below: u64,
    calls: Vec<String>,
    /// Call instructions that no relocation names.
    unnamed: usize,
    /// Jumps by a register, as to the arms of a match.
    jumps: usize,
    /// How often it reads its own table of places to jump to.
    tables_read: usize,
}

impl Function {
    /// With the return address.
    fn bytes(&self) -> u64 {
        8 + self.frame + self.pushed + self.below
    }
}

fn objdump(arguments: &[&str]) -> String {
    let mut command = Command::new("objdump");
    command.args(arguments).arg(env!("FBR_ARCHIVE"));
    let output = command.output().unwrap_or_else(|e| panic!("{command:?}: {e}"));
    assert!(output.status.success(), "{command:?}: {}", String::from_utf8_lossy(&output.stderr));
    let text = String::from_utf8(output.stdout).unwrap();
    assert!(text.contains("elf64-x86-64"), "read for x86-64 only");
    text
}

/// The bytes of the tables of places to jump to, by the function that reads them.
fn table_bytes() -> BTreeMap<String, u64> {
    let row = |line: &str| {
        let cells: Vec<&str> = line.split_whitespace().collect();
        let name = cells.get(1)?.strip_prefix(TABLE)?;
        Some((name.to_string(), hex(cells[2])))
    };
    objdump(&["-h"]).lines().filter_map(row).filter(|(name, _)| name != CONSTANTS).collect()
}

/// Of each table the functions into which its words lead: `.text.NAME+0x71f`.
fn table_targets() -> BTreeMap<String, Vec<String>> {
    let mut targets = BTreeMap::<String, Vec<String>>::new();
    let mut table = None;
    for line in objdump(&["-r"]).lines() {
        if let Some(section) = line.strip_prefix("RELOCATION RECORDS FOR [") {
            table = section.strip_suffix("]:").and_then(|section| section.strip_prefix(TABLE)).map(str::to_string);
        } else if let (Some(name), true) = (&table, line.contains("R_X86_64_")) {
            let place = line.split_whitespace().last().unwrap();
            let (function, _) = place.strip_prefix(".text.").and_then(|place| place.split_once('+')).expect(line);
            targets.entry(name.clone()).or_default().push(function.into());
        }
    }
    targets
}

fn hex(digits: &str) -> u64 {
    u64::from_str_radix(digits.trim_start_matches("0x"), 16).unwrap_or_else(|e| panic!("{digits}: {e}"))
}

/// `0000000000000000 <NAME>:`
fn heading(line: &str) -> Option<&str> {
    line.strip_suffix(">:")?.split_once(" <").map(|(_, name)| name)
}

/// `35: R_X86_64_PLT32 .text.NAME-0x4`: the name, unless it is of a constant.
fn called(line: &str) -> Option<String> {
    let (_, target) = line.split_once("R_X86_64_")?;
    let name = target.split_whitespace().last()?.trim_end_matches("-0x4").trim_start_matches(".text.");
    (!name.starts_with(".LCPI") && !name.starts_with(".rodata")).then(|| name.into())
}

/// How deep an operand reaches below the stack pointer: N of `-0xN(%rsp)` and `-0xN(%rsp,..)`.
fn reach(operands: &str) -> u64 {
    let before = operands.split("(%rsp").next().unwrap().rsplit([',', ' ']).next().unwrap();
    if operands.contains("(%rsp") {
        before.strip_prefix('-').map_or(0, hex)
    } else {
        0
    }
}

/// N of `$N,%rsp`.
fn amount(operands: &str) -> i64 {
    hex(operands.strip_prefix('$').and_then(|rest| rest.strip_suffix(",%rsp")).expect(operands)) as i64
}

fn instruction(function: &mut Function, operation: &str, operands: &str) {
    function.below = function.below.max(reach(operands));
    match operation {
        "push" => function.pushed += 8,
        "sub" if operands.ends_with(",%rsp") => function.frame += amount(operands).max(0) as u64,
        // gives back what was taken; less than 0, it takes
        "add" if operands.ends_with(",%rsp") && amount(operands) < 0 => {
            function.frame += amount(operands).unsigned_abs()
        }
        "add" if operands.ends_with(",%rsp") => function.frame = function.frame.max(amount(operands) as u64),
        "jmp" if operands.starts_with("*%r") => function.jumps += 1,
        "call" | "jmp" if operands.starts_with('*') => panic!("{operation} {operands}: where to?"),
        "call" => function.unnamed += 1,
        "cmp" | "test" => (),
        _ => assert!(!operands.ends_with(",%rsp"), "{operation} {operands}: another way to take stack"),
    }
}

fn functions() -> BTreeMap<String, Function> {
    let mut functions = BTreeMap::<String, Function>::new();
    let (mut name, mut last) = (String::new(), String::new());
    for line in objdump(&["-dr", "--no-show-raw-insn"]).lines() {
        if let Some(next) = heading(line) {
            name = next.into();
            functions.entry(name.clone()).or_default();
        } else if line.contains("R_X86_64_") {
            let function = functions.get_mut(&name).unwrap();
            let read = line.split_whitespace().last().unwrap().trim_end_matches("-0x4");
            function.tables_read += usize::from(read.strip_prefix(TABLE) == Some(name.as_str()));
            function.calls.extend(called(line));
            function.unnamed -= usize::from(last == "call");
        } else if let Some((_, text)) = line.split_once(":\t") {
            let (operation, operands) = text.split_once(' ').unwrap_or((text, ""));
            instruction(functions.get_mut(&name).unwrap(), operation, operands.trim());
            last = operation.into();
        }
    }
    functions
}

/// The bytes of the deepest chain from a function on, and the chain.
fn deepest<'a>(functions: &'a BTreeMap<String, Function>, name: &'a str, above: &[&str]) -> (u64, Vec<&'a str>) {
    assert!(!above.contains(&name), "{name} calls itself, by way of {above:?}");
    let function = functions.get(name).unwrap_or_else(|| panic!("{name} is not in the archive"));
    let path: Vec<&str> = above.iter().copied().chain([name]).collect();
    let inside = function.calls.iter().filter(|called| !OUTSIDE.contains(&called.as_str()));
    let (below, mut chain) = inside.map(|called| deepest(functions, called, &path)).max().unwrap_or_default();
    chain.insert(0, name);
    (function.bytes() + below, chain)
}

#[test]
fn every_call_is_known() {
    for (name, function) in functions() {
        assert_eq!(function.unnamed, 0, "{name} calls {:?}, and more", function.calls);
    }
}

/// A jump by a register goes by a table of the function itself, each word of which leads into that function.
#[test]
fn every_jump_stays_inside() {
    let functions = functions();
    let (bytes, targets) = (table_bytes(), table_targets());
    for (name, Function { jumps, tables_read, .. }) in &functions {
        assert!(jumps <= tables_read, "{name}: {jumps} jumps, {tables_read} tables");
    }
    assert!(bytes.keys().eq(targets.keys()), "{bytes:?}, {targets:?}");
    for (name, into) in &targets {
        assert!(functions.contains_key(name) && into.iter().all(|function| function == name), "{name}: {into:?}");
        assert_eq!(bytes[name], TABLE_WORD * into.len() as u64, "{name}");
    }
}

#[test]
fn no_frame_is_large() {
    let functions = functions();
    let others = functions.iter().filter(|(name, _)| *name != COMPARISON);
    let (name, largest) = others.max_by_key(|(_, function)| function.frame).unwrap();
    println!("the largest frame: {} bytes, of {name}, {} more pushed", largest.frame, largest.pushed);
    assert!(largest.frame <= LARGEST_FRAME);
    assert!(largest.frame > 0, "no frame was read");
}

#[test]
fn no_call_takes_much_stack() {
    let functions = functions();
    let exported: Vec<&String> = functions.keys().filter(|name| name.starts_with("fbr_")).collect();
    assert_eq!(exported.len(), EXPORTS.matches("#[unsafe(no_mangle)]").count());
    for name in exported {
        let (bytes, chain) = deepest(&functions, name, &[]);
        println!("{name}: {bytes} bytes, by {chain:?}");
        let most = if name == COMPARISON { LONGEST_DIRECTORY } else { 0 } + MOST_STACK;
        assert!(bytes <= most, "{name}: {bytes} bytes, by {chain:?}");
    }
}

/// A comparison takes what one directory takes, and hardly more, as the manual says. So large frames are read right,
/// and no second directory stands there.
#[test]
fn a_comparison_holds_one_directory() {
    let functions = functions();
    let (bytes, chain) = deepest(&functions, COMPARISON, &[]);
    assert!(bytes >= LONGEST_DIRECTORY, "{bytes} bytes, by {chain:?}");
    let told = format!("{},{:03}", bytes / 1_000, bytes % 1_000);
    let (manual, decisions) = (include_str!("../../docs/MANUAL.md"), include_str!("../../docs/DECISIONS.md"));
    assert!(manual.contains(&format!("it takes {told} bytes of stack")), "the manual's section does not say {told}");
    assert!(manual.contains(&format!("`fbr_compare` takes {told}.")), "its \"Platform\" does not");
    assert!(decisions.contains(&format!("takes {told} bytes of stack")), "docs/DECISIONS.md does not");
}
