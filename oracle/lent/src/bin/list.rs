//! The proved library's list of requests (`tree_borrows_run_list`) behind the interface of `oracle --batch --list`, so that `compare --lists`
//! can hold it against the Rust: answers, memory, frames and width. The buffers of one list are lent to the next as they are.

#[allow(dead_code)]
#[path = "../buffers.rs"]
mod buffers;

use runs::reference::next_request;
use std::cell::RefCell;
use std::fmt::Write;
use tools::framing;
use tree_borrows::Buffers;

const FRAMES: usize = 32 * 65;

/// Everything that is lent.
struct Lent {
    memory: Buffers,
    frames: Vec<u32>,
    answers: Vec<u32>,
}

impl Lent {
    /// Contents that no list leaves: it empties them first.
    fn new() -> Lent {
        let memory = Buffers {
            allocs: vec![7; buffers::ALLOCS],
            parents: vec![7; buffers::NODES],
            protectors: vec![7; buffers::NODES],
            words: vec![7; buffers::WORDS],
            codes: vec![7; buffers::CODES],
            width: 7,
        };
        Lent { memory, frames: vec![7; FRAMES], answers: Vec::new() }
    }

    fn run(&mut self, words: &[u32], ends: &[u32]) {
        self.answers.resize(ends.len() * (5 + buffers::WORDS), 0);
        let reply = self.memory.run_list(&mut self.frames, words, ends, &mut self.answers);
        assert!(reply.refusal == 0 && reply.whole == 1 && reply.at <= self.answers.len());
        self.memory.width = reply.width;
    }
}

/// The requests of a run: all words, and where each request ends. One that is cut short has no words.
fn cut(run: &[u8]) -> (Vec<u32>, Vec<u32>) {
    let (mut words, mut ends, mut at) = (Vec::new(), Vec::new(), 0);
    while at < run.len() {
        let (request, next) = next_request(run, at);
        words.extend(request.unwrap_or_default());
        ends.push(words.len() as u32);
        at = next;
    }
    (words, ends)
}

/// What the answer at the front of the words gives; and how many of them it has.
fn third(answer: &[u32]) -> (String, usize) {
    let &[refusal, gives, first, second, count, ..] = answer else { panic!("a cut answer") };
    let loaded = &answer[5..5 + count as usize];
    let text = match (refusal, gives, first, second, count) {
        (0, 1, allocation, node, 0) => format!("{allocation}.{node}"),
        (25, 3, allocation, 0, 0) => allocation.to_string(),
        (_, 0, 0, 0, 0) => "-".into(),
        (0, 0, 0, 0, _) => loaded.iter().map(|w| format!("{w:08x}")).collect::<Vec<_>>().join(" "),
        _ => panic!("an answer of two kinds"),
    };
    (text, 5 + count as usize)
}

fn answer(lent: &mut Lent, run: &[u8]) -> String {
    let (words, ends) = cut(run);
    let mut text = String::new();
    let mut at = 0;
    lent.run(&words, &ends);
    for index in 0..ends.len() {
        let (shown, length) = third(&lent.answers[at..]);
        writeln!(text, "{index} {} {shown}", lent.answers[at]).unwrap();
        at += length;
    }
    let mut memory = buffers::decode(&lent.memory).expect("the list leaves a well-formed memory");
    for (frame, words) in memory.frames.iter_mut().zip(lent.frames.chunks_exact(65)) {
        let count = words[0] as usize;
        assert!(count <= 65 && words[1 + count.saturating_sub(1)..].iter().all(|w| *w == 0));
        let entry = |w: &u32| ((w / 4096) as usize, (w % 4096) as usize);
        *frame = (count > 0).then(|| words[1..count].iter().map(entry).collect());
    }
    text + &memory.text(true)
}

fn main() -> std::io::Result<()> {
    let lent = RefCell::new(Lent::new());
    framing::serve(|run| answer(&mut lent.borrow_mut(), run))
}
