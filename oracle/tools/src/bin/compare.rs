//! A program against the oracle, byte for byte, on generated runs.

use runs::coverage::{self, Coverage};
use runs::exchange::{exchange, Exchanged};
use runs::random::Random;
use runs::width::Widths;
use runs::{generate, reference, start, words};
use std::collections::{BTreeMap, VecDeque};
use std::path::PathBuf;
use tools::arguments::Arguments;
use tools::program::Program;
use tools::shrink::shrink;

const USAGE: &str = "usage: compare --program PATH [--batch] [--lists | --starts] [--seed S] [--count N] [--from I] [--width W] [--counts]
  Runs I to I + N - 1 of the seed, answered by the program and by the oracle, which stands beside this one
  (or at --oracle PATH). PATH may have arguments, with spaces between.
  --batch      the program answers many runs in one process: it is started with --batch, and each
               run and output is a 32-bit length and its bytes; without it, one process for each run
  --lists      lists with exchanged neighbours: the program is started with --list, both lists are compared
               with the oracle's answers, and the oracle's answers and memory with those before the exchanges
  --starts     lists that start from a memory and frames drawn by chance: the program is started with --list and
               --start, and each run has a 32-bit length and the starting text before it
  --width W    16 or 32: each run empties the memory to so many bits first; any: runs that empty it now and then, to
               any width; 64: neither (the default). With --starts, the width that a memory is drawn at
  --stream     the program's option for --batch, if it has another name
  --counts     print what the runs reached
  --show N     print this many differences (3)
  --no-shrink  print them as they are
Exit status 1 if there is a difference.";

/// Runs that are handed over before the first output is taken.
const AHEAD: usize = 64;

fn main() -> std::io::Result<()> {
    let arguments = Arguments::read();
    let Some(path) = arguments.text("--program") else {
        eprintln!("{USAGE}");
        std::process::exit(2);
    };
    let mut comparison = Comparison::start(&arguments, path)?;
    let seed = arguments.number("--seed", 1);
    let from = arguments.number("--from", 0);
    let count = arguments.number("--count", 1000);
    if comparison.starts {
        comparison.all_starts(seed, from..from + count)?;
    } else if comparison.lists {
        comparison.all_lists(seed, from..from + count)?;
    } else {
        comparison.all_runs(seed, from..from + count)?;
    }
    let what = if comparison.starts {
        "starts"
    } else if comparison.lists {
        "lists"
    } else {
        "runs"
    };
    let width = arguments.text("--width").unwrap_or("64");
    println!("seed {seed}, {what} {from} to {}, width {width}", from + count - 1);
    let differences = comparison.report();
    comparison.program.end();
    comparison.oracle.end();
    std::process::exit((differences > 0) as i32);
}

struct Comparison {
    program: Program,
    oracle: Program,
    lists: bool,
    starts: bool,
    widths: Widths,
    counts: bool,
    shrinks: bool,
    show: u64,
    compared: u64,
    differences: u64,
    unanswered: u64,
    exchanges: u64,
    broken_laws: u64,
    origins: BTreeMap<&'static str, u64>,
    reached: Coverage,
}

fn command(path: &str, options: &[(&str, bool)]) -> Vec<String> {
    let mut command: Vec<String> = path.split(' ').map(String::from).collect();
    command.extend(options.iter().filter(|option| option.1).map(|option| option.0.to_string()));
    command
}

fn beside(name: &str) -> String {
    let own = std::env::current_exe().unwrap_or_else(|_| PathBuf::from("."));
    own.with_file_name(name).display().to_string()
}

impl Comparison {
    fn start(arguments: &Arguments, path: &str) -> std::io::Result<Comparison> {
        let starts = arguments.has("--starts");
        let lists = arguments.has("--lists");
        let options = [("--list", lists || starts), ("--start", starts)];
        let batch = arguments.has("--batch");
        let stream = arguments.text("--stream").unwrap_or("--batch");
        let oracle = arguments.text("--oracle").map_or(beside("oracle"), String::from);
        Ok(Comparison {
            program: Program::start(&command(path, &[(stream, batch), options[0], options[1]]), batch)?,
            oracle: Program::start(&command(&oracle, &[("--batch", true), options[0], options[1]]), true)?,
            lists,
            starts,
            widths: arguments.widths(),
            counts: arguments.has("--counts"),
            shrinks: !arguments.has("--no-shrink"),
            show: arguments.number("--show", 3),
            compared: 0,
            differences: 0,
            unanswered: 0,
            exchanges: 0,
            broken_laws: 0,
            origins: BTreeMap::new(),
            reached: Coverage::default(),
        })
    }

    fn send(&mut self, run: &[u8]) {
        self.program.send(run);
        self.oracle.send(run);
    }

    fn all_runs(&mut self, seed: u64, indices: std::ops::Range<u64>) -> std::io::Result<()> {
        let mut ahead: VecDeque<(u64, Vec<u8>)> = VecDeque::new();
        for index in indices {
            let run = generate::run(self.widths, seed, index);
            *self.origins.entry(run.origin).or_default() += 1;
            self.count(&run.bytes);
            self.ask(index, run.bytes, &mut ahead)?;
        }
        self.compare_rest(&mut ahead)
    }

    /// Hands an input to both programs, which may work on a few of them before the first is compared.
    fn ask(&mut self, index: u64, input: Vec<u8>, ahead: &mut VecDeque<(u64, Vec<u8>)>) -> std::io::Result<()> {
        self.send(&input);
        ahead.push_back((index, input));
        if ahead.len() >= AHEAD {
            let (index, input) = ahead.pop_front().expect("not empty");
            self.compare(index, &input, ahead)?;
        }
        Ok(())
    }

    fn compare_rest(&mut self, ahead: &mut VecDeque<(u64, Vec<u8>)>) -> std::io::Result<()> {
        while let Some((index, input)) = ahead.pop_front() {
            self.compare(index, &input, ahead)?;
        }
        Ok(())
    }

    fn count(&mut self, run: &[u8]) {
        if self.counts {
            let (_, mut reached) = coverage::during(|| reference::output(run, self.lists));
            reached.runs = 1;
            self.reached.add(&reached);
        }
    }

    /// Take both outputs of a run. `ahead` has those that are under way.
    fn compare(
        &mut self,
        index: u64,
        run: &[u8],
        ahead: &mut VecDeque<(u64, Vec<u8>)>,
    ) -> std::io::Result<Vec<u8>> {
        let (ours, theirs) = (self.oracle.receive()?, self.program.receive()?);
        self.compared += 1;
        self.unanswered += ours.windows(3).any(|w| w == b" ! ") as u64;
        if ours == theirs {
            return Ok(ours);
        }
        self.differences += 1;
        if self.differences <= self.show {
            // Let what is under way come in first, and compare it afterwards.
            let waiting: Vec<_> = ahead.drain(..).collect();
            for _ in &waiting {
                self.oracle.receive()?;
                self.program.receive()?;
            }
            self.show_difference(index, run)?;
            for (index, run) in waiting {
                self.send(&run);
                ahead.push_back((index, run));
            }
        }
        Ok(ours)
    }

    fn show_difference(&mut self, index: u64, run: &[u8]) -> std::io::Result<()> {
        let mut smallest = run.to_vec();
        if self.shrinks && !self.starts {
            let (oracle, program) = (&mut self.oracle, &mut self.program);
            smallest = shrink(run, |candidate| oracle.ask(candidate).ok() != program.ask(candidate).ok());
        }
        let (ours, theirs) = (self.oracle.ask(&smallest)?, self.program.ask(&smallest)?);
        println!("difference at {index}, smallest run:");
        if self.starts {
            let length = 4 + u32::from_be_bytes(smallest[..4].try_into().expect("a length")) as usize;
            print!("{}", String::from_utf8_lossy(&smallest[4..length]));
            smallest.drain(..length);
        }
        println!("{}", hexadecimal(&smallest));
        println!("oracle:\n{}program:\n{}", String::from_utf8_lossy(&ours), String::from_utf8_lossy(&theirs));
        Ok(())
    }

    fn all_lists(&mut self, seed: u64, indices: std::ops::Range<u64>) -> std::io::Result<()> {
        for index in indices {
            let list = generate::list(self.widths, seed, index);
            let exchanged = exchange(&mut Random::new(!seed, index), &list, 20);
            let (first, second) = (words::bytes(&list), words::bytes(&exchanged.list));
            self.count(&first);
            self.send(&first);
            self.send(&second);
            let mut under_way = VecDeque::from([(index, second.clone())]);
            let before = self.compare(index, &first, &mut under_way)?;
            let after = self.compare(index, &second, &mut VecDeque::new())?;
            self.exchanges += exchanged.places.len() as u64;
            if !same_but_exchanged(&before, &after, &exchanged) {
                self.broken_laws += 1;
                if self.broken_laws <= self.show {
                    println!("list {index}: exchanges {:?} change more than the order", exchanged.places);
                    println!("{}", hexadecimal(&first));
                }
            }
        }
        Ok(())
    }

    fn all_starts(&mut self, seed: u64, indices: std::ops::Range<u64>) -> std::io::Result<()> {
        let mut ahead: VecDeque<(u64, Vec<u8>)> = VecDeque::new();
        for index in indices {
            let (memory, requests) = start::start(self.widths, seed, index);
            let text = memory.text(true).into_bytes();
            let run = words::bytes(&requests);
            if self.counts {
                let (_, mut reached) = coverage::during(|| reference::output_from(memory, &run, true));
                reached.runs = 1;
                self.reached.add(&reached);
            }
            let whole = [(text.len() as u32).to_be_bytes().to_vec(), text, run].concat();
            self.ask(index, whole, &mut ahead)?;
        }
        self.compare_rest(&mut ahead)
    }

    fn report(&self) -> u64 {
        println!("compared {}, differences {}", self.compared, self.differences);
        println!("without an answer of the Rust: {}", self.unanswered);
        if self.lists {
            println!("exchanges {}, lists changed by them: {}", self.exchanges, self.broken_laws);
        } else {
            println!("origins: {:?}", self.origins);
        }
        if self.counts {
            print!("{}", self.reached.report());
        }
        self.differences + self.unanswered + self.broken_laws
    }
}

/// Every answer is found again at its request's new place, and memory, frames and width are the same.
fn same_but_exchanged(before: &[u8], after: &[u8], exchanged: &Exchanged) -> bool {
    let (before, after) = (String::from_utf8_lossy(before), String::from_utf8_lossy(after));
    let before: Vec<&str> = before.lines().collect();
    let after: Vec<&str> = after.lines().collect();
    let count = exchanged.order.len();
    if before.len() < count || before.len() != after.len() || before[count..] != after[count..] {
        return false;
    }
    let answer = |line: &str| line.split_once(' ').map(|(_, answer)| answer.to_string());
    (0..count).all(|place| answer(after[place]) == answer(before[exchanged.order[place]]))
}

fn hexadecimal(run: &[u8]) -> String {
    let words: Vec<String> = run.chunks(4).map(|w| w.iter().map(|b| format!("{b:02x}")).collect()).collect();
    words.join(" ")
}
