// Whole runs, read and printed, from the same file: the program, the Rust (`oracle`) and the peer (bench/peer.rs), by time; and the program and the
// peer by instructions, which valgrind's callgrind counts. All have to print the same. Usage: whole PROGRAM PEER FOLDER [ORACLE]
mod list;
mod mixed;
use list::Reference::{Mutable, Shared};
use list::{List, Place, end_call, load, new_call, retag, start, store, trees};
use std::fs::File;
use std::process::{Command, Stdio};
use std::time::Instant;

const REQUESTS: u32 = 600_000;
const NODES: u32 = 8;
const BYTES: u32 = 64;
/// How often a run is timed; the Rust, which takes long, less often.
const ROUNDS: u32 = 10;
const ROUNDS_OF_THE_RUST: u32 = 3;
/// Where all requests of a run are alike, the instructions of so many are counted.
const COUNTED: usize = 20_000;

struct Run {
    name: &'static str,
    list: List,
    /// the instructions of so many are counted: the first ones
    counted: usize,
}

impl Run {
    fn new(name: &'static str, list: List) -> Run {
        let counted = list.ends.len().min(COUNTED);
        Run { name, list, counted }
    }
}

/// A load or a store of 1 to 8 bytes through the last node.
fn access(n: u32) -> Vec<u32> {
    let (bytes, place) = (1 + n % 8, Place { allocation: 0, node: NODES - 1, offset: n % (BYTES - 8) });
    if n % 2 == 0 { load(place, bytes) } else { store(place, bytes) }
}

/// A frame is opened and closed around every four accesses, or none is.
fn request(n: u32, calls: bool) -> Vec<u32> {
    match n % 6 {
        4 if calls => end_call(0),
        5 if calls => new_call(0),
        _ => access(n),
    }
}

/// An allocation with its nodes, each a child of the root or of the one before it, a frame, and so many requests.
fn accesses(chain: bool, calls: bool) -> List {
    let mut list = trees(1, BYTES, NODES, chain);
    list.add(&new_call(0));
    for n in 0..REQUESTS {
        list.add(&request(n, calls));
    }
    list
}

/// Loads of all bytes through the last node.
fn wide_loads() -> List {
    let mut list = trees(1, BYTES, NODES, true);
    for _ in 0..100_000 {
        list.add(&load(start(0, NODES - 1), BYTES));
    }
    list
}

/// Calls over 16 allocations of 32 bytes, each with four arguments, two of them mutable: each is read, and the mutable ones are written. The memory
/// has no room for more nodes.
fn calls() -> List {
    let mut list = trees(16, 32, 1, false);
    for call in 0..250 {
        list.add(&new_call(0));
        let arguments = [0, 1, 2, 3].map(|k| ((4 * call + k) % 16, 1 + call / 4, if k < 2 { Mutable } else { Shared }));
        for (a, _, kind) in arguments {
            list.add(&retag(kind, start(a, 0), 32, Some(0)));
        }
        for (a, node, kind) in arguments {
            list.add(&load(start(a, node), 8));
            if kind == Mutable {
                list.add(&store(Place { allocation: a, node, offset: 8 }, 8));
            }
        }
        list.add(&end_call(0));
    }
    list
}

/// How many of a list's requests are of some kinds, in percent.
fn share(list: &List, kinds: &[u32]) -> f64 {
    let starts = std::iter::once(0).chain(list.ends.iter().map(|&end| end as usize));
    let those = starts.take(list.ends.len()).filter(|&at| kinds.contains(&(list.words[at] >> 28)));
    100.0 * those.count() as f64 / list.ends.len() as f64
}

/// Its trees grow, so all of it is counted.
fn mixed_run() -> Run {
    let list = mixed::run();
    let parts = [("loads", &[2][..]), ("stores", &[3]), ("dereference tests", &[7, 8]), ("retags", &[4]), ("calls and their ends", &[5, 6])];
    println!("the mixed run: {}", parts.map(|(name, kinds)| format!("{:.1} % {name}", share(&list, kinds))).join(", "));
    let counted = list.ends.len();
    Run { name: "mixed, 30 allocations", list, counted }
}

/// The first requests of a list.
fn first(list: &List, count: usize) -> List {
    let ends = list.ends[..count].to_vec();
    let words = list.words[..*ends.last().unwrap_or(&0) as usize].to_vec();
    List { words, ends }
}

fn command(program: &str, file: &str) -> Command {
    let mut command = Command::new(program);
    command.stdin(File::open(file).expect("a run"));
    command
}

/// The mean seconds of some processes. What they print goes nowhere, so that none waits for a reader.
fn seconds(program: &str, file: &str, processes: u32) -> f64 {
    let start = Instant::now();
    for _ in 0..processes {
        command(program, file).stdout(Stdio::null()).status().expect("a program");
    }
    start.elapsed().as_secs_f64() / processes as f64
}

/// The least seconds of each of several programs, over so many rounds in which they take turns. Of a short run a round has several processes.
fn least_seconds(programs: &[(&str, u32)], file: &str) -> Vec<f64> {
    let processes: Vec<u32> = programs.iter().map(|(program, _)| (0.05 / seconds(program, file, 1)).clamp(1.0, 50.0) as u32).collect();
    let mut least = vec![f64::MAX; programs.len()];
    for round in 0..ROUNDS {
        for (i, (program, _)) in programs.iter().enumerate().filter(|(_, (_, rounds))| round < *rounds) {
            least[i] = least[i].min(seconds(program, file, processes[i]));
        }
    }
    least
}

/// The instructions of one process, if valgrind is there. An instruction that fills or copies many bytes counts once for each of them there, so the
/// C library is asked to do without.
fn instructions(program: &str, file: &str) -> Option<f64> {
    let tunables = "glibc.cpu.x86_rep_stosb_threshold=1000000000:glibc.cpu.x86_rep_movsb_threshold=1000000000";
    let callgrind = ["--tool=callgrind", "--callgrind-out-file=/dev/null", program];
    let out = command("valgrind", file).env("GLIBC_TUNABLES", tunables).args(callgrind).stdout(Stdio::null()).output().ok()?;
    let text = String::from_utf8_lossy(&out.stderr);
    let (_, count) = text.lines().find_map(|line| line.split_once("Collected : "))?;
    count.trim().parse().ok()
}

/// What is measured, and where runs are written.
struct Programs {
    program: String,
    peer: String,
    oracle: Option<String>,
    file: String,
}

impl Programs {
    fn write(&self, list: &List) {
        std::fs::write(&self.file, list.bytes()).unwrap();
    }

    fn printed(&self, program: &str) -> Vec<u8> {
        command(program, &self.file).output().expect("a program").stdout
    }

    /// All print the same, and no request is refused: the program stops after a refusal.
    fn agree(&self, run: &Run) {
        let Run { name, list, .. } = run;
        let printed = self.printed(&self.program);
        for other in self.oracle.iter().chain([&self.peer]) {
            assert!(printed == self.printed(other), "{name}: {other} prints something else");
        }
        let answers = printed.split(|&byte| byte == b'\n').take_while(|line| line.first().is_some_and(u8::is_ascii_digit));
        let accepted = answers.filter(|line| line.split(|&byte| byte == b' ').nth(1) == Some(b"0"));
        assert!(accepted.count() == list.ends.len(), "{name}: a request is refused");
    }

    /// The instructions that the program and the peer need for a list.
    fn instructions(&self, list: &List) -> Option<[f64; 2]> {
        self.write(list);
        Some([instructions(&self.program, &self.file)?, instructions(&self.peer, &self.file)?])
    }

    /// The instructions that each needs for a request, over those of an empty run.
    fn counted(&self, run: &Run) -> Option<[f64; 2]> {
        let empty = self.instructions(&List::default())?;
        let some = self.instructions(&first(&run.list, run.counted))?;
        (run.counted > 0).then(|| [0, 1].map(|i| (some[i] - empty[i]) / run.counted as f64))
    }

    fn measure(&self, run: &Run) -> Figures {
        self.write(&run.list);
        self.agree(run);
        let mut programs = vec![(self.program.as_str(), ROUNDS), (self.peer.as_str(), ROUNDS)];
        programs.extend(self.oracle.as_ref().map(|oracle| (oracle.as_str(), ROUNDS_OF_THE_RUST)));
        let least = least_seconds(&programs, &self.file);
        let counted = self.counted(run);
        std::fs::remove_file(&self.file).unwrap();
        Figures { program: least[0], peer: least[1], rust: least.get(2).copied(), counted }
    }
}

/// The seconds of a run, and the instructions that the program and the peer need for one of its requests.
struct Figures {
    program: f64,
    peer: f64,
    rust: Option<f64>,
    counted: Option<[f64; 2]>,
}

impl Figures {
    /// The columns of the table: a dash for what is not known.
    fn columns(&self) -> [String; 8] {
        let show = |value: Option<f64>, digits: usize| value.map_or("-".into(), |value| format!("{value:.digits$}"));
        let (seconds, whole, ratio) = (|value| show(value, 5), |value| show(value, 0), |value| show(value, 1));
        [
            seconds(Some(self.program)),
            seconds(self.rust),
            ratio(self.rust.map(|rust| rust / self.program)),
            seconds(Some(self.peer)),
            ratio(Some(self.program / self.peer)),
            whole(self.counted.map(|[program, _]| program)),
            whole(self.counted.map(|[_, peer]| peer)),
            ratio(self.counted.map(|[program, peer]| program / peer)),
        ]
    }
}

const HEAD: [&str; 8] = ["program, s", "the Rust, s", "times", "peer, s", "times peer", "program, ir", "peer, ir", "times peer"];

fn print_line(name: &str, requests: &str, columns: &[impl AsRef<str>]) {
    print!("{name:<50} {requests:>9}");
    for column in columns {
        print!(" {:>11}", column.as_ref());
    }
    println!();
}

/// The model of the processors, and how many there are.
fn machine() -> String {
    let text = std::fs::read_to_string("/proc/cpuinfo").unwrap_or_default();
    let model = text.lines().find(|line| line.starts_with("model name")).and_then(|line| line.split_once(": "));
    let processors = text.lines().filter(|line| line.starts_with("processor")).count();
    format!("{}, {processors} processors", model.map_or("a machine that does not name itself", |(_, name)| name))
}

fn main() {
    let arguments: Vec<String> = std::env::args().skip(1).collect();
    let [program, peer, folder, oracle @ ..] = &arguments[..] else { panic!("usage: whole PROGRAM PEER FOLDER [ORACLE]") };
    let (program, peer, file) = (program.clone(), peer.clone(), format!("{folder}/run.bin"));
    let programs = Programs { program, peer, oracle: oracle.first().cloned(), file };
    println!("{}", machine());
    let runs = [
        Run::new("1 to 8 bytes, 8 nodes, children of the root", accesses(false, false)),
        Run::new("1 to 8 bytes, 8 nodes, a chain", accesses(true, false)),
        Run::new("1 to 8 bytes, 8 nodes, a chain, with calls", accesses(true, true)),
        Run::new("loads of 64 bytes, 8 nodes, a chain", wide_loads()),
        Run::new("calls with 4 protected arguments, 16 allocations", calls()),
        mixed_run(),
        Run::new("nothing", List::default()),
    ];
    print_line("run", "requests", &HEAD);
    for run in &runs {
        print_line(run.name, &run.list.ends.len().to_string(), &programs.measure(run).columns());
    }
    println!("ir: instructions a request, of the mixed run or of the first {COUNTED} requests, less those of a run of nothing");
}
