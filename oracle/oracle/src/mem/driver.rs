//! The program: runs in, outputs out.

use super::itself;
use super::print;
use super::refusals::{last_message, Failure};
use super::request::{cut, MOST_WORDS};
use super::start;
use super::state::{Answer, Options};
use super::targets::{on, AnyState};
use std::io::{BufReader, BufWriter, Read, Write};
use std::panic::{catch_unwind, AssertUnwindSafe};

const USAGE: &str =
    "usage: oracle [--list] [--start] [--batch] [--whole-counts] [--confirm-panics] [--messages] [--time N]
       oracle --itself [--batch] [--whole-counts] [--no-memory]
  A run on standard input, document 01's output on standard output.
  --list            go on after a refusal, take any number of words behind a fourth, and print the open frames
                    and the width last (f, w)
  --start           before the run stand a 32-bit length and a text of that length: memory and frames to start
                    from, in the lines that --list prints last (a, d, n, f, w)
  --batch           many runs, each as a 32-bit length in bytes, most significant first, and its bytes;
                    outputs come in the same form
  --whole-counts    have the Rust loop over every count of elements of size 0
  --confirm-panics  check that the Rust panics where the port refuses instead (3, 14)
  --messages        print what the Rust said to refused requests to standard error
  --time N          make the run, its last request N times from the same memory, and print the nanoseconds
                    that one of them takes, without the reading and printing
  --itself          a text on standard input, a request's words on each line: every call as it stands, and what the
                    Rust says to it, in its own words, up to the first that it does not accept
  --no-memory       with --itself: not the memory that is left";

#[derive(Clone, Copy, Default)]
struct Mode {
    list: bool,
    start: bool,
    itself: bool,
    options: Options,
}

pub fn main() -> i32 {
    let mut mode = Mode::default();
    let mut batch = false;
    let mut times = None;
    let mut arguments = std::env::args().skip(1);
    while let Some(argument) = arguments.next() {
        match argument.as_str() {
            "--list" => mode.list = true,
            "--start" => mode.start = true,
            "--batch" => batch = true,
            "--itself" => mode.itself = true,
            "--no-memory" => mode.options.no_memory = true,
            "--whole-counts" => mode.options.whole_counts = true,
            "--confirm-panics" => mode.options.confirm_panics = true,
            "--time" => times = arguments.next().and_then(|n| n.parse().ok()),
            "--messages" => mode.options.messages = true,
            _ => {
                eprintln!("{USAGE}");
                return 2;
            }
        }
    }
    // A panic of the Rust is reported in the output.
    std::panic::set_hook(Box::new(|_| {}));
    let ended = match times {
        Some(times) => time(times, mode),
        None if batch => all_runs(mode),
        None => one_run(mode),
    };
    match ended {
        Ok(()) => 0,
        Err(error) => {
            eprintln!("oracle: {error}");
            1
        }
    }
}

fn one_run(mode: Mode) -> std::io::Result<()> {
    let mut input = Vec::new();
    std::io::stdin().lock().read_to_end(&mut input)?;
    std::io::stdout().lock().write_all(run(&input, mode).as_bytes())
}

fn all_runs(mode: Mode) -> std::io::Result<()> {
    let mut input = BufReader::with_capacity(1 << 16, std::io::stdin().lock());
    let mut output = BufWriter::with_capacity(1 << 16, std::io::stdout().lock());
    let mut bytes = Vec::new();
    loop {
        // An answer must not wait in the buffer while the other side waits for it.
        if input.buffer().is_empty() {
            output.flush()?;
        }
        let mut length = [0; 4];
        match input.read_exact(&mut length) {
            Err(error) if error.kind() == std::io::ErrorKind::UnexpectedEof => return output.flush(),
            other => other?,
        }
        bytes.resize(u32::from_be_bytes(length) as usize, 0);
        input.read_exact(&mut bytes)?;
        let text = run(&bytes, mode);
        output.write_all(&(text.len() as u32).to_be_bytes())?;
        output.write_all(text.as_bytes())?;
    }
}

/// How long the last request of a run takes.
fn time(times: u32, mode: Mode) -> std::io::Result<()> {
    let mut input = Vec::new();
    std::io::stdin().lock().read_to_end(&mut input)?;
    let mut state = AnyState::new(64, mode.options);
    let mut at = 0;
    loop {
        let (words, next) = cut(&input, at);
        if next >= input.len() {
            let took = state.time_of(words.as_deref(), times);
            println!("{:.1}", took.as_nanos() as f64 / times as f64);
            return Ok(());
        }
        let _ = state.step(words.as_deref());
        at = next;
    }
}

/// The whole output of one run.
fn run(input: &[u8], mode: Mode) -> String {
    libspecr::hidden::reset();
    if mode.itself {
        return itself::run(std::str::from_utf8(input).expect("a text"), mode.options);
    }
    let (mut state, input) = if mode.start {
        let (length, after) = input.split_at(4);
        let length = u32::from_be_bytes(length.try_into().expect("four bytes")) as usize;
        let text = std::str::from_utf8(&after[..length]).expect("a text");
        (start::parse(text, mode.options), &after[length..])
    } else {
        (AnyState::new(64, mode.options), input)
    };
    let mut out = String::new();
    let (mut at, mut index) = (0, 0);
    while at < input.len() {
        let (words, next) = cut(input, at);
        let words = words.filter(|words| mode.list || words.len() <= 4 + MOST_WORDS);
        let answer = caught(|| state.step(words.as_deref()));
        print::answer(&mut out, index, &answer);
        if mode.options.messages && answer.is_err() {
            eprintln!("{index} {}", last_message().unwrap_or_else(|| "not asked, or accepted".into()));
        }
        match answer {
            Err(Failure::Unexpected(_)) => return out,
            Err(_) if !mode.list => break,
            _ => {}
        }
        at = next;
        index += 1;
    }
    on!(&state, state => print::memory(&mut out, state));
    if mode.list {
        on!(&state, state => print::frames_and_width(&mut out, state));
    }
    out
}

/// The answer, or the panic that came instead.
fn caught(step: impl FnOnce() -> Answer) -> Answer {
    catch_unwind(AssertUnwindSafe(step)).unwrap_or_else(|payload| {
        let text = payload
            .downcast_ref::<String>()
            .cloned()
            .or_else(|| payload.downcast_ref::<&str>().map(|text| text.to_string()))
            .unwrap_or_default();
        Err(Failure::Unexpected(std::format!("panic: {text}")))
    })
}
