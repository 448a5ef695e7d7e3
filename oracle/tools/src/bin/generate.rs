//! Writes generated runs and counts what they reach.

use runs::coverage::{self, Coverage};
use runs::exchange::exchange;
use runs::random::Random;
use runs::reference::Reference;
use runs::width::Widths;
use runs::{generate, reference, start, words};
use std::collections::BTreeMap;
use std::fs::File;
use std::io::{BufWriter, Write};
use tools::arguments::Arguments;
use tools::framing;

const USAGE: &str = "usage: generate [--seed S] [--count N] [--from I] [--out FILE] [--lists | --starts] [--width W] [--counts] [--reached FILE]
  Runs I to I + N - 1 of the seed, written to FILE, each as a 32-bit length and its bytes.
  --lists   lists with exchanged neighbours instead: for each, three parts are written: the list, the
            list after the exchanges, and the exchanges as 32-bit numbers, each the first of two places
  --starts  lists that start from a memory and frames drawn by chance, each with a 32-bit length and the
            starting text before it, as `oracle --start` takes them
  --width W 16 or 32: each empties the memory to so many bits first; any: now and then, to any width; 64: neither
            (the default). With --starts, the width that a memory is drawn at
  --counts  print which refusals, pairs of code and access, layouts, and edges of a width were reached
  --reached write to FILE, on a line for each run, what it reaches when it goes on after refusals";

fn main() -> std::io::Result<()> {
    let arguments = Arguments::read();
    if arguments.has("--help") {
        println!("{USAGE}");
        return Ok(());
    }
    let seed = arguments.number("--seed", 1);
    let count = arguments.number("--count", 1000);
    let from = arguments.number("--from", 0);
    let mut out: Box<dyn Write> = match arguments.text("--out") {
        Some(path) => Box::new(BufWriter::new(File::create(path)?)),
        None => Box::new(std::io::sink()),
    };
    let mut reached_by_each: Box<dyn Write> = match arguments.text("--reached") {
        Some(path) => Box::new(BufWriter::new(File::create(path)?)),
        None => Box::new(std::io::sink()),
    };
    let mut reached = Coverage::default();
    let mut origins: BTreeMap<&str, u64> = BTreeMap::new();
    let (lists, starts) = (arguments.has("--lists"), arguments.has("--starts"));
    let widths = arguments.widths();
    for index in from..from + count {
        let (origin, memory, bytes) = if starts {
            let (memory, requests) = start::start(widths, seed, index);
            let bytes = words::bytes(&requests);
            framing::write(&mut out, &after_start(&memory, &bytes))?;
            ("start", memory, bytes)
        } else if lists {
            ("list", Reference::new(), write_exchanged(&mut out, widths, seed, index)?)
        } else {
            let run = generate::run(widths, seed, index);
            framing::write(&mut out, &run.bytes)?;
            (run.origin, Reference::new(), run.bytes)
        };
        *origins.entry(origin).or_default() += 1;
        if arguments.has("--counts") {
            let goes_on = lists || starts;
            let (_, mut covered) =
                coverage::during(|| reference::output_from(memory.clone(), &bytes, goes_on));
            covered.runs = 1;
            reached.add(&covered);
        }
        if arguments.has("--reached") {
            let (_, covered) = coverage::during(|| reference::output_from(memory, &bytes, true));
            let features: Vec<String> = covered.features().into_iter().collect();
            writeln!(reached_by_each, "{}", features.join("; "))?;
        }
    }
    out.flush()?;
    reached_by_each.flush()?;
    println!("seed {seed}, runs {from} to {}: {origins:?}", from + count - 1);
    if arguments.has("--counts") {
        print!("{}", reached.report());
        std::process::exit(!reached.missing_refusals().is_empty() as i32);
    }
    Ok(())
}

/// A run behind the text of the memory that it starts from.
fn after_start(memory: &Reference, run: &[u8]) -> Vec<u8> {
    let text = memory.text(true).into_bytes();
    [&(text.len() as u32).to_be_bytes(), &text[..], run].concat()
}

/// Both lists and the places; gives back the first list.
fn write_exchanged(out: &mut impl Write, widths: Widths, seed: u64, index: u64) -> std::io::Result<Vec<u8>> {
    let list = generate::list(widths, seed, index);
    let exchanged = exchange(&mut Random::new(!seed, index), &list, 20);
    let first = words::bytes(&list);
    let places: Vec<u32> = exchanged.places.iter().map(|&place| place as u32).collect();
    framing::write(out, &first)?;
    framing::write(out, &words::bytes(&exchanged.list))?;
    framing::write(out, &words::bytes(&[places]))?;
    Ok(first)
}
