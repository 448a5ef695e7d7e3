//! A memory as text, as the program `verdict` prints it: docs/FORMAT.md, "What is printed".

use crate::memory::Memory;
use std::fmt;

const KINDS: [&str; 5] = ["stack", "heap", "global", "function", "vtable"];
const PROTECTORS: [&str; 3] = ["no", "weak", "strong"];

/// Words in eight digits, or `-` for none.
fn words(words: &[u32]) -> String {
    match words {
        [] => "-".into(),
        _ => words.iter().map(|word| format!("{word:08x}")).collect::<Vec<_>>().join(" "),
    }
}

/// A digit for each code, or `-` for none.
fn codes(codes: &[u8]) -> String {
    match codes {
        [] => "-".into(),
        _ => codes.iter().map(|code| format!("{code:x}")).collect(),
    }
}

impl fmt::Display for Memory {
    fn fmt(&self, f: &mut fmt::Formatter) -> fmt::Result {
        let b = self.buffers();
        let made = b.allocs.chunks_exact(9).take_while(|record| record[0] != 0);
        for (number, record) in made.enumerate() {
            let &[state, kind, exponent, address, size, nodes, first_word, first_node, first_code] = record else { unreachable!() };
            let (size, nodes) = (size as usize, nodes as usize);
            let (first_word, first_node, first_code) = (first_word as usize, first_node as usize, first_code as usize);
            let live = if state == 1 { "live" } else { "dead" };
            writeln!(f, "a {number} {live} {} {address} {size} {exponent}", KINDS[kind as usize])?;
            writeln!(f, "d {number} {}", words(&b.words[first_word..first_word + size]))?;
            for node in 0..nodes {
                let parent = if node == 0 { "-".into() } else { b.parents[first_node + node].to_string() };
                let protector = PROTECTORS[b.protectors[first_node + node] as usize];
                let row = first_code + node * size;
                writeln!(f, "n {number} {node} {parent} {protector} {}", codes(&b.codes[row..row + size]))?;
            }
        }
        Ok(())
    }
}
