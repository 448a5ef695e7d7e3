//! The reference as a program, with the same options as the oracle.

use runs::reference::{self, Reference};
use std::io::{Read, Write};
use tools::framing;

fn main() -> std::io::Result<()> {
    let arguments: Vec<String> = std::env::args().skip(1).collect();
    let has = |name: &str| arguments.iter().any(|a| a == name);
    let (list, start) = (has("--list"), has("--start"));
    if has("--batch") {
        return framing::serve(|run| answer(run, list, start));
    }
    let mut input = Vec::new();
    std::io::stdin().lock().read_to_end(&mut input)?;
    std::io::stdout().lock().write_all(answer(&input, list, start).as_bytes())
}

fn answer(input: &[u8], list: bool, start: bool) -> String {
    if !start {
        return reference::output(input, list);
    }
    let length = u32::from_be_bytes(input[..4].try_into().expect("a length")) as usize;
    let text = String::from_utf8_lossy(&input[4..4 + length]);
    reference::output_from(Reference::parse(&text), &input[4 + length..], list)
}
