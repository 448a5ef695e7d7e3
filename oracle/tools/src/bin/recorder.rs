//! Records a sample of runs with the Rust's outputs, for a replay that needs no Rust.
//!
//! The file: the 8 bytes `TBRUNS01`, the number of records in 32 bits, then each record: the run's
//! length in bytes, the output's length in bytes, the run, the output. Lengths have 32 bits, most significant
//! byte first.

use runs::coverage;
use runs::width::Widths;
use runs::{generate, reference};
use std::collections::{BTreeMap, BTreeSet};
use std::fs::File;
use std::io::{BufWriter, Write};
use tools::arguments::Arguments;
use tools::program::Program;

const USAGE: &str = "usage: recorder --out FILE [--seed S] [--pool N] [--narrow N] [--count N] [--each K] [--oracle PATH]
  From N runs of the seed (--pool, 60000), and N each of those at 16 bits, at 32 bits and at widths that change
  (--narrow, 20000), take for each thing that they reach the K cheapest that reach it (--each, 8), and fill up with the
  cheapest to --count (3000). The answers are the oracle's.";

/// The widths of the pool's runs.
const WIDTHS: [Widths; 4] = [Widths::Start, Widths::First(16), Widths::First(32), Widths::Any];

/// A run's place in `WIDTHS`, and its index among those.
type Name = (usize, u64);

/// A run of the pool: its name, what it reaches, and the bytes that it takes in the file.
struct Entry {
    name: Name,
    features: Vec<u32>,
    cost: usize,
}

fn main() -> std::io::Result<()> {
    let arguments = Arguments::read();
    let Some(out) = arguments.text("--out") else {
        eprintln!("{USAGE}");
        std::process::exit(2);
    };
    let seed = arguments.number("--seed", 1);
    let narrow = arguments.number("--narrow", 20_000);
    let (pool, names) = pool(seed, [arguments.number("--pool", 60_000), narrow, narrow, narrow]);
    let each = arguments.number("--each", 8) as usize;
    let count = arguments.number("--count", 3000) as usize;
    let chosen = choose(&pool, names.len(), each, count);
    let own = std::env::current_exe()?.with_file_name("oracle").display().to_string();
    let oracle = arguments.text("--oracle").unwrap_or(&own).to_string();
    let bytes = record(out, seed, &chosen, oracle)?;
    println!("seed {seed}, pool {}, records {}, bytes {bytes}", pool.len(), chosen.len());
    report(&pool, &chosen, &names);
    Ok(())
}

/// Every run of the pool with what it reaches, and the names of all that is reached.
fn pool(seed: u64, counts: [u64; 4]) -> (Vec<Entry>, Vec<String>) {
    let mut numbers: BTreeMap<String, u32> = BTreeMap::new();
    let mut pool = Vec::new();
    for name in (0..4).flat_map(|of| (0..counts[of]).map(move |index| (of, index))) {
        let run = named(seed, name);
        let (output, reached) = coverage::during(|| reference::output(&run.bytes, false));
        let mut features = Vec::new();
        for name in reached.features() {
            let next = numbers.len() as u32;
            features.push(*numbers.entry(name).or_insert(next));
        }
        pool.push(Entry { name, features, cost: 8 + run.bytes.len() + output.len() });
    }
    let mut names = vec![String::new(); numbers.len()];
    numbers.into_iter().for_each(|(name, number)| names[number as usize] = name);
    (pool, names)
}

fn named(seed: u64, (of, index): Name) -> generate::Run {
    generate::run(WIDTHS[of], seed, index)
}

/// The cheapest runs that reach each thing `each` times, then the cheapest of those that reach most.
fn choose(pool: &[Entry], features: usize, each: usize, count: usize) -> BTreeSet<Name> {
    let mut by_cost: Vec<&Entry> = pool.iter().collect();
    by_cost.sort_by_key(|entry| (entry.cost, entry.name));
    let mut times = vec![0; features];
    let mut chosen = BTreeSet::new();
    for entry in &by_cost {
        if entry.features.iter().any(|&f| times[f as usize] < each) {
            entry.features.iter().for_each(|&f| times[f as usize] += 1);
            chosen.insert(entry.name);
        }
    }
    // Fill up with runs that reach much for their bytes.
    let mut rest: Vec<&Entry> = by_cost.into_iter().filter(|e| !chosen.contains(&e.name)).collect();
    rest.sort_by_key(|e| (e.cost * 100 / (e.features.len() + 1), e.name));
    chosen.extend(rest.iter().take(count.saturating_sub(chosen.len())).map(|e| e.name));
    chosen
}

fn record(out: &str, seed: u64, chosen: &BTreeSet<Name>, oracle: String) -> std::io::Result<usize> {
    let mut oracle = Program::start(&[oracle, "--batch".to_string()], true)?;
    let mut file = BufWriter::new(File::create(out)?);
    file.write_all(b"TBRUNS01")?;
    file.write_all(&(chosen.len() as u32).to_be_bytes())?;
    let mut bytes = 12;
    for &name in chosen {
        let run = named(seed, name).bytes;
        let output = oracle.ask(&run)?;
        assert!(!output.windows(3).any(|w| w == b" ! "), "run {name:?} has no answer of the Rust");
        file.write_all(&(run.len() as u32).to_be_bytes())?;
        file.write_all(&(output.len() as u32).to_be_bytes())?;
        file.write_all(&run)?;
        file.write_all(&output)?;
        bytes += 8 + run.len() + output.len();
    }
    oracle.end();
    file.flush()?;
    Ok(bytes)
}

/// What the sample reaches, and what only the pool does.
fn report(pool: &[Entry], chosen: &BTreeSet<Name>, names: &[String]) {
    let mut times = vec![0; names.len()];
    for entry in pool.iter().filter(|entry| chosen.contains(&entry.name)) {
        entry.features.iter().for_each(|&f| times[f as usize] += 1);
    }
    let count = |word: &str| names.iter().filter(|name| name.starts_with(word)).count();
    println!(
        "kinds with answers {}, pairs {}, retags {}, layouts {}, edges of a width {}",
        count("kind"),
        count("pair"),
        count("retag"),
        count("layout"),
        count("width")
    );
    let each: Vec<usize> = (0..4).map(|of| chosen.iter().filter(|name| name.0 == of).count()).collect();
    println!("records at 64 bits, 16 bits, 32 bits and widths that change: {each:?}");
    let missing: Vec<&String> =
        names.iter().zip(&times).filter(|(_, n)| **n == 0).map(|(name, _)| name).collect();
    println!("reached by the pool and not by the sample: {missing:?}");
}
