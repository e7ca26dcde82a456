//! What the new rule gains on a trace of reads: a table over cache sizes, and a picture of the three miss curves.
//!
//!     compare TRACE [SETTINGS [SMALLEST LARGEST [PICTURE.svg]]]
//!
//! TRACE is a text file with one read a line: the number of a block, or a work word as 0x1000000a. SETTINGS is unix,
//! c51 or cust11; unix if left out. The sizes go from SMALLEST (4 if left out) to LARGEST (as many as the trace has
//! blocks), in steps of about a quarter.
use fbr::{Comparison, Settings, Work};
use std::collections::HashSet;
use std::error::Error;
use std::fmt::Write;
use std::{env, fs};

/// The words of a trace file.
fn trace(text: &str) -> Result<Vec<u32>, Box<dyn Error>> {
    let word = |(at, line): (usize, &str)| {
        let read = match line.trim().strip_prefix("0x") {
            Some(word) => u32::from_str_radix(word, 16),
            None => line.trim().parse().map(|block| Work::Read(block).word()),
        };
        read.map_err(|error| format!("line {}, {line:?}: {error}", at + 1).into())
    };
    text.lines().enumerate().map(word).collect()
}

type Named = fn(u32, u32, u32) -> Settings;

fn named(name: &str) -> Result<Named, Box<dyn Error>> {
    match name {
        "unix" => Ok(Settings::unix),
        "c51" => Ok(Settings::c51),
        "cust11" => Ok(Settings::cust11),
        _ => Err(format!("{name}: no such settings; there are unix, c51 and cust11").into()),
    }
}

/// From the smallest to the largest, each about a quarter larger than the one before.
fn sizes(smallest: u32, largest: u32) -> Vec<u32> {
    let next = |&n: &u32| Some((n + 1).max(n + n / 4).min(largest)).filter(|&next| next > n);
    std::iter::successors(Some(smallest), next).collect()
}

/// One row: the cache's size and what it came to.
type Row = (u32, Comparison);

fn table(rows: &[Row]) -> String {
    let mut told = String::from("   N   LRU  chosen   OPT  LRU - chosen  LRU - OPT  improvement\n");
    for (n, c) in rows {
        let Comparison { lru, chosen, opt, gain, possible } = c;
        let improvement = c.improvement();
        writeln!(told, "{n:>4} {lru:>5} {chosen:>7} {opt:>5} {gain:>13} {possible:>10} {improvement:>12}").unwrap();
    }
    told
}

/// The drawing area, within margins for the scales.
const LEFT: f64 = 60.0;
const TOP: f64 = 40.0;
const WIDTH: f64 = 600.0;
const HEIGHT: f64 = 320.0;

/// Where a cache size stands: doublings are equally wide.
fn across(rows: &[Row], n: u32) -> f64 {
    let (first, last) = (f64::from(rows[0].0).log2(), f64::from(rows[rows.len() - 1].0).log2());
    LEFT + WIDTH * (f64::from(n).log2() - first) / (last - first).max(f64::EPSILON)
}

/// Where a miss ratio stands, 0 at the bottom and 1 at the top.
fn up(ratio: f64) -> f64 {
    TOP + HEIGHT * (1.0 - ratio)
}

/// A line of the picture.
fn curve(rows: &[Row], reads: usize, colour: &str, ins: fn(&Comparison) -> u32) -> String {
    let ratio = |c: &Comparison| f64::from(ins(c)) / reads.max(1) as f64;
    let points: Vec<String> =
        rows.iter().map(|(n, c)| format!("{:.1},{:.1}", across(rows, *n), up(ratio(c)))).collect();
    format!("<polyline points=\"{}\" fill=\"none\" stroke=\"{colour}\" stroke-width=\"2\"/>\n", points.join(" "))
}

/// The three miss curves against N, as the figures 3.1 to 3.3 of the paper have them.
fn picture(name: &str, rows: &[Row], reads: usize) -> String {
    let (right, bottom) = (LEFT + WIDTH, TOP + HEIGHT);
    let mut svg = format!(
        "<svg xmlns=\"http://www.w3.org/2000/svg\" viewBox=\"0 0 {} {}\" \
         font-family=\"sans-serif\" font-size=\"13\">\n",
        right + 30.0,
        bottom + 60.0
    );
    svg += "<rect width=\"100%\" height=\"100%\" fill=\"white\"/>\n";
    for percent in (0..=100).step_by(20) {
        let y = up(f64::from(percent) / 100.0);
        writeln!(svg, "<line x1=\"{LEFT}\" y1=\"{y:.0}\" x2=\"{right}\" y2=\"{y:.0}\" stroke=\"#ddd\"/>").unwrap();
        writeln!(svg, "<text x=\"{}\" y=\"{:.0}\" text-anchor=\"end\">{percent}%</text>", LEFT - 6.0, y + 4.0).unwrap();
    }
    for n in (0..13).map(|doublings| 1 << doublings).filter(|n| (rows[0].0..=rows[rows.len() - 1].0).contains(n)) {
        let x = across(rows, n);
        writeln!(svg, "<line x1=\"{x:.1}\" y1=\"{TOP}\" x2=\"{x:.1}\" y2=\"{bottom}\" stroke=\"#ddd\"/>").unwrap();
        writeln!(svg, "<text x=\"{x:.1}\" y=\"{}\" text-anchor=\"middle\">{n}</text>", bottom + 18.0).unwrap();
    }
    writeln!(svg, "<text x=\"{LEFT}\" y=\"24\">{name}: reads that miss, of {reads}</text>").unwrap();
    let middle = LEFT + WIDTH / 2.0;
    writeln!(svg, "<text x=\"{middle}\" y=\"{}\" text-anchor=\"middle\">cache blocks, N</text>", bottom + 42.0)
        .unwrap();
    let lines: [(&str, &str, fn(&Comparison) -> u32); 3] =
        [("LRU", "#c0392b", |c| c.lru), ("chosen", "#2471a3", |c| c.chosen), ("OPT", "#1e8449", |c| c.opt)];
    for (at, (line, colour, ins)) in lines.into_iter().enumerate() {
        svg += &curve(rows, reads, colour, ins);
        let y = TOP + 20.0 + 18.0 * at as f64;
        writeln!(svg, "<text x=\"{}\" y=\"{y}\" text-anchor=\"end\" fill=\"{colour}\">{line}</text>", right - 8.0)
            .unwrap();
    }
    svg + "</svg>\n"
}

fn main() -> Result<(), Box<dyn Error>> {
    let args: Vec<String> = env::args().skip(1).collect();
    let arg = |at: usize, other: &str| args.get(at).cloned().unwrap_or(other.into());
    let file = args.first().ok_or("which trace? compare TRACE [SETTINGS [SMALLEST LARGEST [PICTURE.svg]]]")?;
    let words = trace(&fs::read_to_string(file).map_err(|error| format!("{file}: {error}"))?)?;
    let (settings, blocks) = (named(&arg(1, "unix"))?, words.iter().collect::<HashSet<_>>().len());
    let largest = arg(3, &blocks.clamp(1, 4_096).to_string()).parse()?;
    let smallest: u32 = arg(2, &4.min(largest).to_string()).parse()?;
    // the store's blocks: as many as the trace's highest needs
    let m = words.iter().map(|word| word % (1 << 28) + 1).max().unwrap_or(1);
    let compared = |n: u32| {
        let compared = Comparison::of_words(&settings(n, 512, m), &words);
        compared.map(|c| (n, c)).map_err(|refusal| format!("N {n}, refused with {refusal}"))
    };
    let rows = sizes(smallest, largest).into_iter().map(compared).collect::<Result<Vec<Row>, _>>()?;
    println!("{file}: {} reads of {blocks} blocks, settings {}", words.len(), arg(1, "unix"));
    print!("{}", table(&rows));
    if let Some(path) = args.get(4) {
        let name = file.rsplit('/').next().unwrap_or(file);
        fs::write(path, picture(name, &rows, words.len()))?;
    }
    Ok(())
}
