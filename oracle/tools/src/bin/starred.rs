//! Document 01's starred cases, asked of the oracle or of another program.

use runs::words::*;
use tools::arguments::Arguments;
use tools::program::Program;

const USAGE: &str = "usage: starred [--program PATH]
  Each starred case of document 01 is a run; its last answer or one line of its memory is checked.
  Without a program the oracle is asked, which stands beside this one.";

const EXAMPLE: &str = "0 0 0.0\n1 0 0.1\n2 0 -\n3 0 80000007\n4 18 -\na 0 live heap 16 2 0\nd 0 80000007 00000000\nn 0 0 - no 33\nn 0 1 0 no 41\n";

fn at(address: u64, node: usize) -> Ptr {
    Ptr { address, provenance: Some((0, node)) }
}

/// A retag of a sized layout without cells.
fn reborrow(from: Ptr, extra: u32, frame: Option<u32>, size: u32) -> Words {
    let flags = Flags { frame, unpin: true, freeze: true };
    let mut layout = vec![metadata(0, 0)];
    layout.extend(header(0, size, &[]));
    retag(from, extra, flags, &layout)
}

fn example() -> Vec<Words> {
    vec![
        allocate(1, 0, 16, 2),
        reborrow(at(16, 0), 1, None, 2),
        store(at(16, 1), 0, &[byte(7)]),
        load(at(16, 0), 0, 1),
        store(at(16, 1), 0, &[byte(8)]),
    ]
}

/// An allocation of one byte, two open frames, and a protected mutable reference in frame 0.
fn protected(size: u32) -> Vec<Words> {
    vec![allocate(1, 0, 16, 1), new_call(0), new_call(1), reborrow(at(16, 0), 1, Some(0), size)]
}

/// Each case: its name, its run, and a line that its output has.
fn cases() -> Vec<(&'static str, Vec<Words>, &'static str)> {
    let top = u64::MAX - 1;
    let beside = |address| vec![allocate(1, 0, 16, 2), allocate(1, 0, address, 0)];
    let with = |mut requests: Vec<Words>, more: Vec<Words>| {
        requests.extend(more);
        requests
    };
    let other = || reborrow(at(16, 0), 1, Some(1), 0);
    vec![
        ("size 1 at 2^64 - 2", vec![allocate(1, 0, top, 1)], "0 0 0.0"),
        ("size 2 at 2^64 - 2", vec![allocate(1, 0, top, 2)], "0 5 -"),
        ("beside 16..18, size 0 at 16", beside(16), "1 5 -"),
        ("beside 16..18, size 0 at 17", beside(17), "1 5 -"),
        ("beside 16..18, size 0 at 18", beside(18), "1 0 1.0"),
        // Node 2 has code 7 until the release: a read makes it 9, a write e.
        ("code 8 releases a read", with(protected(1), vec![other(), end_call(0)]), "n 0 2 0 strong 9"),
        (
            "code b releases a write",
            with(protected(1), vec![store(at(16, 1), 0, &[byte(1)]), other(), end_call(0)]),
            "n 0 2 0 strong e",
        ),
        (
            "a foreign write on 7 gives e",
            with(protected(0), vec![store(at(16, 0), 0, &[byte(1)])]),
            "n 0 1 0 strong e",
        ),
        (
            "a foreign write on d",
            vec![
                allocate(1, 0, 16, 1),
                new_call(0),
                reborrow(at(16, 0), 0, Some(0), 1),
                store(at(16, 0), 0, &[byte(1)]),
            ],
            "3 22 -",
        ),
        (
            "signed length -1 at the start",
            vec![allocate(1, 0, 16, 1), signed_dereferenceable(at(16, 0), -1)],
            "1 9 -",
        ),
    ]
}

fn main() -> std::io::Result<()> {
    let arguments = Arguments::read();
    if arguments.has("--help") {
        println!("{USAGE}");
        return Ok(());
    }
    let own = std::env::current_exe()?.with_file_name("oracle").display().to_string();
    let command: Vec<String> =
        arguments.text("--program").unwrap_or(&own).split(' ').map(String::from).collect();
    let mut program = Program::start(&command, false)?;
    let mut wrong = 0;
    let mut check = |name: &str, right: bool| {
        println!("{name}: {}", if right { "as starred" } else { "WRONG" });
        wrong += !right as i32;
    };
    check("the example run", program.ask(&bytes(&example()))? == EXAMPLE.as_bytes());
    for (name, run, line) in cases() {
        let output = String::from_utf8_lossy(&program.ask(&bytes(&run))?).into_owned();
        check(name, output.lines().any(|l| l == line));
    }
    std::process::exit((wrong > 0) as i32);
}
