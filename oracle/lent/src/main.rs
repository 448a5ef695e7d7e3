//! The proved library's entries, called through its archive, against the reference and the oracle: on memories that
//! are well formed, on memories damaged in one number, and with frames that are wrong.

mod buffers;
mod call;
mod counts;
mod damage;
mod lent;

use buffers::{decode, encode};
use call::{agrees, Call};
use counts::Counts;
use lent::{Lent, AREA};
use runs::random::Random;
use runs::reference::{next_request, Reference, Third};
use runs::width::Widths;
use runs::{generate, start, words};
use std::collections::VecDeque;
use std::time::{Duration, Instant};
use tools::arguments::Arguments;
use tools::program::Program;
use tree_borrows::raw::Reply;

const USAGE: &str = "usage: lent [--seed S] [--count N] [--from I] [--damages D] [--no-oracle] [--show N]
  Memories I to I + N - 1 of the seed, at each width. Each is lent once as it is, D times damaged in one number (4), once
  with a frame that is wrong, and once with an address or position that is too big for its width; every call's answer and all that was lent are compared afterwards with what the reference says.
  Calls on undamaged memories are compared with the oracle too, which stands beside this program (or at --oracle PATH).
  --show N     print this many differences (3)
Exit status 1 if there is a difference.";

/// Kinds of requests, as they are drawn.
const KINDS: [u64; 10] = [4, 6, 6, 6, 8, 0, 6, 3, 3, 2];
const FRAMES: [u64; 10] = [0, 0, 0, 0, 1, 0, 3, 0, 0, 0];

/// Calls that the oracle is asked about before its first answer is taken.
const AHEAD: usize = 64;

fn main() -> std::io::Result<()> {
    let arguments = Arguments::read();
    if arguments.has("--help") {
        println!("{USAGE}");
        return Ok(());
    }
    let mut comparison = Comparison::start(&arguments)?;
    let seed = arguments.number("--seed", 1);
    let from = arguments.number("--from", 0);
    let count = arguments.number("--count", 1000);
    for index in from..from + count {
        comparison.memory(seed, index, arguments.number("--damages", 4))?;
    }
    comparison.oracle_rest()?;
    println!("seed {seed}, memories {from} to {}", from + count - 1);
    let differences = comparison.report();
    std::process::exit((differences > 0) as i32);
}

struct Comparison {
    oracle: Option<Program>,
    /// What the library made of the calls that the oracle is asked about.
    asked: VecDeque<(String, String)>,
    show: u64,
    differences: u64,
    as_they_are: Counts,
    damaged: Counts,
    wrong_frames: Counts,
    too_big: Counts,
    at_boundary: Counts,
    damaged_but_formed: u64,
    views: u64,
    with_oracle: u64,
    oracle_differences: u64,
    in_library: Duration,
}

impl Comparison {
    fn start(arguments: &Arguments) -> std::io::Result<Comparison> {
        let beside = std::env::current_exe()?.with_file_name("oracle").display().to_string();
        let path = arguments.text("--oracle").unwrap_or(&beside);
        let command: Vec<String> =
            [path, "--batch", "--list", "--start"].iter().map(|word| word.to_string()).collect();
        let asks = !arguments.has("--no-oracle");
        Ok(Comparison {
            oracle: if asks { Some(Program::start(&command, true)?) } else { None },
            asked: VecDeque::new(),
            show: arguments.number("--show", 3),
            differences: 0,
            as_they_are: Counts::default(),
            damaged: Counts::default(),
            wrong_frames: Counts::default(),
            too_big: Counts::default(),
            at_boundary: Counts::default(),
            damaged_but_formed: 0,
            views: 0,
            with_oracle: 0,
            oracle_differences: 0,
            in_library: Duration::ZERO,
        })
    }

    /// All calls on one memory.
    fn memory(&mut self, seed: u64, index: u64, damages: u64) -> std::io::Result<()> {
        let m = memory(seed, index);
        let r = &mut Random::new(!seed, index);
        let (call, lent) = lend(r, &m, KINDS);
        let (reply, after) = self.compare(index, "as it is", &call, &lent);
        self.as_they_are.add(&format!("{}, {} bits", call.name(), m.width), reply.refusal);
        self.compare_view(r, &reply, &after);
        self.ask_oracle(&m, &call, &lent, &reply, &after)?;
        for _ in 0..damages {
            let (call, mut lent) = lend(r, &m, KINDS);
            let name = damage::damage(r, &m, &mut lent.buffers);
            let (reply, _) = self.compare(index, &name, &call, &lent);
            self.damaged.add(&name, reply.refusal);
            self.damaged_but_formed += decode(&lent.buffers).is_some() as u64;
        }
        let (call, mut lent) = lend(r, &m, FRAMES);
        let call = if call.takes_frame() { call } else { Call::EndCall };
        let name = damage::wrong_frame(r, &m, &call, &mut lent);
        let (reply, after) = self.compare(index, &name, &call, &lent);
        self.wrong_frames.add(&name, reply.refusal);
        self.ask_oracle(&m, &call, &lent, &reply, &after)?;
        self.too_big(&m, seed, index)?;
        self.boundary(&m, seed, index);
        Ok(())
    }

    /// An address or a position that is too big for the width of the memory.
    fn too_big(&mut self, m: &Reference, seed: u64, index: u64) -> std::io::Result<()> {
        let r = &mut Random::new(seed.rotate_left(16), index);
        let (mut call, lent) = lend(r, m, KINDS);
        let Some(name) = call.leave_width(r, m.width) else { return Ok(()) };
        let (reply, after) = self.compare(index, name, &call, &lent);
        self.too_big.add(&format!("{}, {} bits: {name}", call.name(), m.width), reply.refusal);
        self.ask_oracle(m, &call, &lent, &reply, &after)
    }

    /// Numbers that only the boundary to C can hand over, and the two entries that no request stands for.
    fn boundary(&mut self, m: &Reference, seed: u64, index: u64) {
        let r = &mut Random::new(seed.rotate_left(32), index);
        let (mut call, lent) = lend(r, m, KINDS);
        if let Some(name) = call.leave_lists(r) {
            let (reply, _) = self.compare(index, name, &call, &lent);
            self.at_boundary.add(&format!("{}: {name}", call.name()), reply.refusal);
        }
        let (_, mut lent) = lend(r, m, KINDS);
        let name = damage::damage(r, m, &mut lent.buffers);
        let (reply, _) = self.compare(index, &name, &Call::New, &lent);
        self.at_boundary.add("new", reply.refusal);
        let (_, mut lent) = lend(r, m, FRAMES);
        let name = damage::wrong_list(r, &mut lent);
        let (reply, _) = self.compare(index, name, &Call::NewCall, &lent);
        self.at_boundary.add(&format!("new_call: {name}"), reply.refusal);
    }

    /// Calls the entry, and holds its reply and all that was lent against what the reference says.
    fn compare(&mut self, index: u64, damage: &str, call: &Call, lent: &Lent) -> (Reply, Lent) {
        let mut after = lent.clone();
        let started = Instant::now();
        let reply = call.make(&mut after);
        self.in_library += started.elapsed();
        let (answer, expected) = call.outcome(lent);
        if !agrees(call, &reply, &answer, lent) || after != expected {
            self.differences += 1;
            if self.differences <= self.show {
                println!("difference at {index}, {damage}: {call:?}");
                println!("the library: {reply:?}, the reference: {answer:?}");
                println!("buffers as they should be: {}", after.buffers == expected.buffers);
                print!("lent: {lent:?}left: {after:?}due: {expected:?}{}", memory_text(lent));
            }
        }
        (reply, after)
    }

    /// What `load_view` hands out of the buffers that the call left: the words that its reply names, or none.
    fn compare_view(&mut self, r: &mut Random, reply: &Reply, after: &Lent) {
        let words = match call::third(reply, after) {
            Third::Words(words) => words,
            _ => Vec::new(),
        };
        let room = (words.len() as u32 + 2).saturating_sub(r.below(4) as u32);
        let mut out: Vec<u32> = (7..7 + room).collect();
        let mut expected = out.clone();
        if words.len() <= out.len() {
            expected[..words.len()].copy_from_slice(&words);
        }
        let count = after.buffers.load_view(*reply, &mut out);
        self.views += 1;
        if count != words.len() || out != expected {
            self.differences += 1;
            println!("difference in a load view: {reply:?}, {count} words, {out:?} for {expected:?}");
        }
    }

    /// The same call for the oracle, if a run has words for it and the library did not refuse it with 1.
    fn ask_oracle(
        &mut self,
        m: &Reference,
        call: &Call,
        lent: &Lent,
        reply: &Reply,
        after: &Lent,
    ) -> std::io::Result<()> {
        let Some(oracle) = &mut self.oracle else { return Ok(()) };
        if reply.refusal == 1 || !call.fits_a_list() {
            return Ok(());
        }
        let before = Reference { frames: call.frames(lent), ..m.clone() }.text(true);
        let run = words::bytes(&[call.words()]);
        oracle.send(&[&(before.len() as u32).to_be_bytes(), before.as_bytes(), &run].concat());
        self.with_oracle += 1;
        self.asked.push_back((format!("{call:?}\n{before}"), said(call, reply, after)));
        if self.asked.len() > AHEAD {
            self.take_from_oracle()?;
        }
        Ok(())
    }

    fn take_from_oracle(&mut self) -> std::io::Result<()> {
        let (Some(oracle), Some((asked, ours))) = (&mut self.oracle, self.asked.pop_front()) else {
            return Ok(());
        };
        let theirs = String::from_utf8_lossy(&oracle.receive()?).into_owned();
        if ours != theirs {
            self.oracle_differences += 1;
            if self.oracle_differences <= self.show {
                println!("difference from the oracle: {asked}the library:\n{ours}the oracle:\n{theirs}");
            }
        }
        Ok(())
    }

    fn oracle_rest(&mut self) -> std::io::Result<()> {
        while !self.asked.is_empty() {
            self.take_from_oracle()?;
        }
        Ok(())
    }

    fn report(&self) -> u64 {
        self.as_they_are.print("memories as they are, by entry, width and refusal");
        self.damaged.print("memories damaged, by damage and refusal");
        println!("  still well formed by document 01: {}", self.damaged_but_formed);
        self.wrong_frames.print("frames that are wrong, by what is wrong and refusal");
        self.too_big.print("too big for the width, by entry and refusal");
        self.at_boundary.print("at the boundary to C, by what is wrong and refusal");
        let counts = [&self.as_they_are, &self.damaged, &self.wrong_frames, &self.too_big, &self.at_boundary];
        let calls: u64 = counts.iter().map(|count| count.total()).sum();
        println!(
            "{:.1} microseconds in the library for a call",
            self.in_library.as_secs_f64() * 1e6 / calls as f64
        );
        println!(
            "compared {calls} calls and {} load views with the reference, differences {}",
            self.views, self.differences
        );
        println!(
            "compared {} calls with the oracle, differences {}",
            self.with_oracle, self.oracle_differences
        );
        self.differences + self.oracle_differences
    }
}

/// Drawn by chance, with frames, now and then with an address that many alignments divide; or as a run leaves it. At
/// each of the three widths.
fn memory(seed: u64, index: u64) -> Reference {
    let widths = [Widths::Start, Widths::First(16), Widths::First(32), Widths::Any][(index / 4 % 4) as usize];
    if index % 4 != 0 {
        let mut m = start::start(widths, seed, index).0;
        if index % 4 == 1 {
            m.allocs[0].address = 1 << (m.width as u64 - 1).min(30 + index % 20);
        }
        return m;
    }
    let run = generate::run(widths, seed, index).bytes;
    let mut m = Reference::new();
    let mut at = 0;
    while at < run.len() {
        let (request, next) = next_request(&run, at);
        m.step(request.as_deref());
        at = next;
    }
    m
}

/// A call on a memory, and what is lent for it. A working area may hold anything, and so may places behind entries.
fn lend(r: &mut Random, m: &Reference, kinds: [u64; 10]) -> (Call, Lent) {
    let (call, mut frame) = call::draw(r, m, kinds);
    let held = if r.one_in(2) { 0 } else { r.next() as u8 };
    if r.one_in(2) {
        frame.fill_behind(r);
    }
    (call, Lent { buffers: encode(m), frame, area: vec![held; AREA] })
}

fn memory_text(lent: &Lent) -> String {
    decode(&lent.buffers).map_or("not well formed\n".into(), |m| m.text(false))
}

/// What the library said and left, as a list's output.
fn said(call: &Call, reply: &Reply, after: &Lent) -> String {
    let third = match call::third(reply, after) {
        Third::None => "-".into(),
        Third::Pointer(allocation, node) => format!("{allocation}.{node}"),
        Third::Leak(allocation) => allocation.to_string(),
        Third::Words(words) => words.iter().map(|w| format!("{w:08x}")).collect::<Vec<_>>().join(" "),
    };
    let answer = format!("0 {} {third}\n", reply.refusal);
    let Some(mut m) = decode(&after.buffers) else { return answer + "not well formed\n" };
    m.frames = call.frames(after);
    if *call == Call::EndCall && reply.refusal == 0 {
        m.frames[0] = None;
    }
    answer + &m.text(true)
}
