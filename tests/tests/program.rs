//! The program belt cycle as a process: its lines beside those of the plain stack, over many inputs.
//! It stands at ../target/bin/belt_cycle beside this folder, or where the environment variable BELT_CYCLE says.
use cache_tests::reference::directory::{kind, value, word};
use cache_tests::reference::rng::Rng;
use cache_tests::reference::stack::answer::KINDS;
use cache_tests::reference::stack::{work, PlainStack};
use cache_tests::reference::{histories, samples};
use cache_tests::BELT;
use std::io::Write;
use std::path::PathBuf;
use std::process::{Command, Stdio};
use std::time::{Duration, Instant};

const MOST_BYTES: usize = 4_100;
const MOST_TIME: Duration = Duration::from_secs(20);

fn program() -> PathBuf {
    let beside = || PathBuf::from(env!("CARGO_MANIFEST_DIR")).join("../target/bin/belt_cycle");
    let path = std::env::var("BELT_CYCLE").map(PathBuf::from).unwrap_or_else(|_| beside());
    assert!(path.is_file(), "no program at {}", path.display());
    path
}

/// What the program prints for an input, which it gets in these pieces.
fn printed(pieces: &[&[u8]]) -> String {
    let mut child = Command::new(program()).stdin(Stdio::piped()).stdout(Stdio::piped()).spawn().unwrap();
    let mut input = child.stdin.take().unwrap();
    for (i, piece) in pieces.iter().enumerate() {
        if i > 0 {
            std::thread::sleep(Duration::from_millis(5));
        }
        // a pipe has room for every input here; the program may have read its 4,100 bytes and ended
        if input.write_all(piece).is_err() {
            break;
        }
    }
    drop(input);
    let start = Instant::now();
    while child.try_wait().unwrap().is_none() {
        if start.elapsed() > MOST_TIME {
            child.kill().unwrap();
            panic!("the program does not end; input {pieces:x?}");
        }
        std::thread::sleep(Duration::from_micros(200));
    }
    let output = child.wait_with_output().unwrap();
    assert!(output.status.code().is_some(), "the program was ended by a signal");
    String::from_utf8(output.stdout).unwrap()
}

/// The plain stack's lines.
fn expected(input: &[u8]) -> String {
    let input = &input[..input.len().min(MOST_BYTES)];
    let words: Vec<u32> = input.chunks_exact(4).map(|four| u32::from_le_bytes(four.try_into().unwrap())).collect();
    let b = BELT.b as usize;
    let mut stack = PlainStack::new(BELT, vec![0; (BELT.m * BELT.b) as usize]);
    // the j-th write's bytes, j from 1, are all j mod 256
    let incoming: Vec<u8> = (0..words.len() * b).map(|i| ((i / b + 1) % 256) as u8).collect();
    let (mut answers, mut outgoing) = (vec![0; words.len()], vec![0; words.len() * b]);
    let lent = stack.whole();
    let number = stack.batch(lent, &words, &incoming, &mut answers, &mut outgoing);
    if number != 0 {
        return format!("refused {number}\n");
    }
    let lines: String = answers.iter().map(|&answer| format!("{} {}\n", kind(answer), value(answer))).collect();
    format!("{lines}total {} {}\n", stack.ins + stack.outs, stack.reads + stack.writes)
}

fn check(input: &[u8]) -> String {
    let lines = printed(&[input]);
    assert_eq!(lines, expected(input), "input {input:x?}");
    lines
}
fn bytes(words: &[u32]) -> Vec<u8> {
    words.iter().flat_map(|word| word.to_le_bytes()).collect()
}
fn reads(blocks: &[u32]) -> Vec<u8> {
    bytes(&blocks.iter().map(|&block| word(work::READ, block)).collect::<Vec<u32>>())
}

const EXAMPLE_A: [u32; 7] = [10, 11, 12, 13, 10, 10, 14];
const LINES_OF_A: &str = "2 0\n2 0\n2 0\n2 0\n1 2\n1 2\n3 262155\ntotal 5 7\n";

#[test]
fn example_a_with_odd_bytes() {
    let a = reads(&EXAMPLE_A);
    assert_eq!(check(&a), LINES_OF_A);
    for odd in 1..=3 {
        assert_eq!(check(&[&a[..], &vec![0xff; odd]].concat()), LINES_OF_A);
        assert_eq!(check(&vec![0xff; odd]), "total 0 0\n");
    }
    // a fourth byte makes a word
    assert_eq!(check(&[&a[..], &[0xff; 4]].concat()), "refused 9\n");
    assert_eq!(check(&[]), "total 0 0\n");
    println!("9 inputs about example a");
}

#[test]
fn inputs_about_4_100_bytes() {
    let mut rng = Rng::announced("inputs_about_4_100_bytes", 111);
    let mut words: Vec<u32> = (0..20_000).map(|_| word(work::WRITE, rng.within(0, 63))).collect();
    words[0] = word(work::READ, 5);
    let long = bytes(&words);
    for length in [4_092, 4_095, 4_096, 4_097, 4_098, 4_099] {
        let lines = check(&long[..length]);
        assert_eq!(lines.lines().count(), length / 4 + 1, "{length} bytes");
    }
    for length in [4_100, 4_101, 4_104, 5_000, 60_000] {
        assert_eq!(check(&long[..length]), "refused 8\n", "{length} bytes");
    }
    // 8 comes before 9, and 4,100 bytes decide
    assert_eq!(check(&vec![0; 4_100]), "refused 8\n");
    assert_eq!(check(&vec![0; 4_099]), "refused 9\n");
    println!("13 inputs about 4,100 bytes");
}

#[test]
fn refused_words() {
    let mut rng = Rng::announced("refused_words", 112);
    let (mut inputs, mut refused) = (0, 0);
    let mut wrong: Vec<u32> = [0, 8, 9, 10, 11, 12, 13, 14, 15].map(|k| word(k, 0)).to_vec();
    wrong.extend([
        word(1, 64),
        word(2, 64),
        word(3, 64),
        word(6, 64),
        word(7, 64),
        word(4, 1),
        word(5, 1),
        word(5, 63),
        word(1, (1 << 28) - 1),
        word(2, 1 << 20),
        word(4, 1 << 27),
        word(5, 1 << 27),
        word(6, 1 << 27),
    ]);
    for w in wrong {
        let length = rng.below(20) as usize;
        let mut words = samples::work_words(&mut rng, BELT, length);
        words.insert(rng.below(length as u64 + 1) as usize, w);
        assert_eq!(check(&bytes(&words)), "refused 9\n", "{w:#x}");
        inputs += 1;
    }
    // any bytes at all
    for _ in 0..40 {
        let length = rng.below(40) as usize;
        let input = histories::bytes(&mut rng, length);
        refused += u32::from(check(&input).starts_with("refused 9"));
        inputs += 1;
    }
    println!("{inputs} inputs, {refused} of the random ones refused");
    assert!(refused > 20);
}

#[test]
fn random_words() {
    let mut rng = Rng::announced("random_words", 113);
    let (mut kinds, mut ticks) = ([0u32; KINDS], [0u32; 2]);
    let inputs = 450;
    for input in 0..inputs {
        let length = if input % 10 == 0 { 1_024 } else { rng.within(0, 200) };
        let words = histories::work_words(&mut rng, BELT, length as usize);
        let odd = rng.below(4) as usize;
        let input = [bytes(&words), histories::bytes(&mut rng, odd)].concat();
        let lines = check(&input);
        for (line, &w) in lines.lines().zip(&words) {
            kinds[line[..1].parse::<usize>().unwrap()] += 1;
            if kind(w) == work::TICK {
                ticks[usize::from(line != "6 0")] += 1;
            }
        }
    }
    println!("{inputs} inputs, answers 1 to 9: {:?}; {ticks:?} ticks wrote out none, and some", &kinds[1..]);
    assert!(kinds[1..].iter().all(|&times| times > 500) && ticks.iter().all(|&times| times > 200));
}

/// Standard input may come in pieces that end amid a word.
#[test]
fn input_in_pieces() {
    let mut rng = Rng::announced("input_in_pieces", 114);
    let inputs = 20;
    for _ in 0..inputs {
        let length = rng.within(2, 300) as usize;
        let input = bytes(&histories::work_words(&mut rng, BELT, length));
        let (first, second) = (rng.within(0, 9) as usize % input.len(), rng.below(input.len() as u64) as usize);
        let (first, second) = (first.min(second), first.max(second));
        let lines = printed(&[&input[..first], &input[first..second], &input[second..]]);
        assert_eq!(lines, expected(&input), "pieces end at {first} and {second}; input {input:x?}");
    }
    println!("{inputs} inputs in three pieces");
}

fn sample(name: &str) -> Vec<u8> {
    let folder = PathBuf::from(env!("CARGO_MANIFEST_DIR")).join("../samples");
    std::fs::read(folder.join(name)).unwrap()
}

/// The samples that ship with the repository, and the lines stored beside three of them.
#[test]
fn samples_of_the_repository() {
    assert_eq!(check(&sample("example_a.words")), LINES_OF_A);
    let lines = check(&sample("day.words"));
    assert_eq!(lines.as_bytes(), &sample("day.lines")[..]);
    for kind in 1..=6 {
        assert!(lines.lines().any(|line| line.starts_with(&format!("{kind} "))), "no answer of kind {kind}");
    }
    for name in ["ticks", "pins"] {
        let [words, lines] = ["words", "lines"].map(|end| sample(&format!("{name}.{end}")));
        assert_eq!(check(&words).as_bytes(), &lines[..], "{name}");
    }
}

/// The plain stack's lines for example a are the scope's.
#[test]
fn expected_lines_of_a() {
    assert_eq!(expected(&reads(&EXAMPLE_A)), LINES_OF_A);
}

/// Two of its seven ticks write out, the second of them two blocks, one of which had left with a seen mark and entered
/// again.
#[test]
fn expected_lines_of_ticks() {
    let (words, lines) = (sample("ticks.words"), expected(&sample("ticks.words")));
    assert_eq!(lines.as_bytes(), &sample("ticks.lines")[..]);
    let answered = words.chunks_exact(4).zip(lines.lines());
    let ticks: Vec<&str> = answered.filter(|(word, _)| word[3] >> 4 == 5).map(|(_, line)| line).collect();
    assert_eq!(ticks, ["6 0", "6 1", "6 0", "6 0", "6 2", "6 0", "6 0"]);
}

/// Pins, unpins and purges; at the two answers of kind 7 all four residents are pinned, and the last victim is the only
/// unpinned one, of the middle section.
#[test]
fn expected_lines_of_pins() {
    let (words, lines) = (sample("pins.words"), expected(&sample("pins.words")));
    assert_eq!(lines.as_bytes(), &sample("pins.lines")[..]);
    let answered = words.chunks_exact(4).zip(lines.lines());
    let of_kind = |kind: u8| answered.clone().filter(move |(word, _)| word[3] >> 4 == kind).map(|(_, line)| line);
    assert_eq!(of_kind(6).collect::<Vec<_>>(), ["8 1", "8 1", "8 1", "5 0", "8 1", "8 1"]);
    assert_eq!(of_kind(7).collect::<Vec<_>>(), ["8 0", "8 0", "8 0", "5 0"]);
    assert_eq!(of_kind(3).collect::<Vec<_>>(), ["9 0", "4 0", "5 0"]);
    assert_eq!(lines.lines().filter(|&line| line == "7 0").count(), 2);
    assert!(lines.contains("\n3 786445\n"), "block 13, 3 chains: {lines}");
}
