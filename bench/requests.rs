// Requests in a run, the port beside the Rust: each row is a run whose last requests are measured. The port makes them in `run_list`, through the
// archive of the proved library; the Rust in `oracle --time`, from the same memory. Usage: requests ORACLE [ROW..]
mod list;
use list::Reference::Mutable;
use list::{Lent, List, allocate, end_call, load, new_call, retag, start, store, trees};
use std::hint::black_box;
use std::io::Write;
use std::process::{Command, Stdio};
use std::time::Instant;

struct Row {
    name: String,
    before: List,
    /// made one after the other, each at about the same cost; the last is what the Rust is asked for
    requests: Vec<Vec<u32>>,
}

fn rows() -> Vec<Row> {
    let mut rows = Vec::new();
    let sizes = [(1, 1), (1, 8), (1, 1024), (64, 1), (64, 8), (32, 1024), (4096, 1), (4096, 8)];
    for (bytes, nodes) in sizes {
        for chain in [false, true] {
            if nodes == 1 && chain {
                continue;
            }
            let shape = if nodes == 1 { "" } else if chain { ", a chain" } else { ", children of the root" };
            let last = nodes - 1;
            for (kind, request) in [("load", load(start(0, last), bytes)), ("store", store(start(0, last), bytes))] {
                let name = format!("{kind} of {bytes} bytes, {nodes} nodes{shape}");
                rows.push(Row { name, before: trees(1, bytes, nodes, chain), requests: vec![request; 200] });
            }
            rows.extend(first_stores(bytes, nodes, chain, shape));
            rows.push(retags(bytes, nodes, chain, shape));
        }
    }
    for (allocation, nodes) in [(0, 1), (63, 1), (127, 1), (127, 3)] {
        rows.extend(one_of_many(allocation, nodes));
    }
    for (entries, bytes) in [(0, 1), (1, 1), (1, 64), (8, 64), (64, 64), (7, 4096)] {
        rows.push(end_calls(entries, bytes));
    }
    rows
}

/// The rows above repeat an access, and after the first time it changes no code. Here each is the first of its allocation.
fn first_stores(bytes: u32, nodes: u32, chain: bool, shape: &str) -> Option<Row> {
    let allocations = if nodes == 1024 { return None } else { (4096 / bytes).min(32768 / (bytes * nodes)).min(16) };
    let requests = (0..allocations).map(|a| store(start(a, nodes - 1), bytes)).collect();
    let name = format!("first store of {bytes} bytes, {nodes} nodes{shape}{}", among(allocations));
    Some(Row { name, before: trees(allocations, bytes, nodes, chain), requests })
}

fn among(allocations: u32) -> String {
    if allocations == 1 { String::new() } else { format!(", {allocations} allocations") }
}

/// A retag adds a node: one in each of several allocations, or a few beside a large tree.
fn retags(bytes: u32, nodes: u32, chain: bool, shape: &str) -> Row {
    let (allocations, nodes, times) = match (bytes, nodes) {
        (_, 1024) => (1, 992, 32),
        (4096, 8) => (1, 7, 1),
        (4096, _) => (1, nodes, 1),
        _ => (16, nodes, 1),
    };
    let requests = (0..allocations).flat_map(|a| vec![retag(Mutable, start(a, nodes - 1), bytes, None); times]).collect();
    let name = format!("retag of {bytes} bytes, {nodes} nodes{shape}{}", among(allocations));
    Row { name, before: trees(allocations, bytes, nodes, chain), requests }
}

/// Requests of 8 bytes in one of 128 allocations, all of so many nodes: what it costs to find the allocation's parts. A retag adds a node, so it
/// is repeated a few times only.
fn one_of_many(allocation: u32, nodes: u32) -> Vec<Row> {
    let place = start(allocation, nodes - 1);
    let kinds = [("load", load(place, 8), 200), ("store", store(place, 8), 200), ("retag", retag(Mutable, place, 8, None), 4)];
    let row = |(kind, request, times)| Row {
        name: format!("{kind} of 8 bytes through allocation {allocation} of 128, {nodes} nodes"),
        before: trees(128, 8, nodes, false),
        requests: vec![request; times],
    };
    kinds.map(row).into()
}

/// A frame for each of several allocations, all of whose nodes but the root it protects.
fn end_calls(entries: u32, bytes: u32) -> Row {
    let frames = match entries * bytes {
        0 => 32,
        1..=512 => 16,
        _ => 1,
    };
    let mut before = List::default();
    for f in 0..frames {
        before.add(&allocate(f, bytes));
        before.add(&new_call(f));
        for _ in 0..entries {
            before.add(&retag(Mutable, start(f, 0), bytes, Some(f)));
        }
    }
    let requests = (0..frames).map(end_call).collect();
    Row { name: format!("end call of {entries} entries, {bytes} bytes{}", among(frames)), before, requests }
}

/// The nanoseconds that one run of a list takes.
fn time(lent: &mut Lent, list: &List) -> f64 {
    let start = Instant::now();
    black_box(lent.run(black_box(list)));
    start.elapsed().as_nanos() as f64
}

/// What the requests of a row add to the run before them, each: the median over a stretch of runs with and without them, by turns, so that
/// what slows the machine slows both.
fn port(lent: &mut Lent, row: &Row) -> f64 {
    let mut with = row.before.clone();
    for request in &row.requests {
        with.add(request);
    }
    assert!(lent.run(&with).whole == 1 && lent.refusals(&with).iter().all(|&refusal| refusal == 0), "{}: refused", row.name);
    let rounds = (50_000_000.0 / time(lent, &with)).clamp(20.0, 10_000.0) as usize;
    let mut added: Vec<f64> = (0..rounds).map(|_| time(lent, &with) - time(lent, &row.before)).collect();
    added.sort_by(f64::total_cmp);
    added[rounds / 2] / row.requests.len() as f64
}

/// What a process prints that is given these bytes: nanoseconds.
fn asked(program: &mut Command, bytes: &[u8]) -> f64 {
    let mut child = program.stdin(Stdio::piped()).stdout(Stdio::piped()).spawn().expect("a process");
    child.stdin.take().unwrap().write_all(bytes).unwrap();
    let out = child.wait_with_output().unwrap();
    String::from_utf8_lossy(&out.stdout).trim().parse().expect("nanoseconds")
}

/// The port in a process of its own, as the Rust is: where its memory lies tells as much as a tenth of the time.
fn port_by_itself(row: &Row) -> f64 {
    asked(Command::new(std::env::current_exe().unwrap()).args(["--port", &row.name]), &[])
}

fn rust(oracle: &str, row: &Row) -> f64 {
    let mut list = row.before.clone();
    for request in &row.requests {
        list.add(request);
    }
    let bytes = list.bytes();
    let ask = |times: u32| asked(Command::new(oracle).args(["--time", &times.to_string()]), &bytes);
    ask((50_000_000.0 / ask(3).max(1.0)).clamp(3.0, 200_000.0) as u32)
}

fn main() {
    let mut arguments = std::env::args().skip(1);
    let oracle = arguments.next().expect("usage: requests ORACLE [ROW..]");
    let wanted: Vec<String> = arguments.collect();
    let mut rows = rows();
    if oracle == "--port" {
        let row = rows.iter().find(|row| row.name == wanted[0]).expect("a row");
        println!("{}", port(&mut Lent::new(1 << 22), row));
        return;
    }
    rows.retain(|row| wanted.is_empty() || wanted.iter().any(|w| row.name.contains(w.as_str())));
    // The least of some stretches of each: what the machine does when nothing disturbs it. A row's stretches lie far apart.
    let mut least = vec![(f64::MAX, f64::MAX); rows.len()];
    for _ in 0..12 {
        for (row, (p, r)) in rows.iter().zip(&mut least) {
            *p = p.min(port_by_itself(row));
            *r = r.min(rust(&oracle, row));
        }
    }
    println!("{:<72} {:>12} {:>14} {:>8}", "request", "port, ns", "the Rust, ns", "times");
    for (row, (port, rust)) in rows.iter().zip(least) {
        println!("{:<72} {port:>12.1} {rust:>14.1} {:>8.1}", row.name, rust / port);
    }
}
