//! What runs have reached, counted while the reference answers them.

use std::cell::RefCell;
use std::collections::{BTreeMap, BTreeSet};
use std::fmt::Write;

#[derive(Clone, Default)]
pub struct Coverage {
    pub runs: u64,
    pub requests: u64,
    pub accepted: u64,
    /// How often each answer was given, by kind of request.
    pub answers: BTreeMap<(u32, u8), u64>,
    /// Code, access (0 read, 1 write), relation (0 local, 1 foreign).
    pub pairs: BTreeMap<(u8, u8, u8), u64>,
    /// Kinds of retags and layouts, in words.
    pub layouts: BTreeMap<String, u64>,
    /// What depends on the width, in words.
    pub widths: BTreeMap<String, u64>,
}

thread_local! {
    static CURRENT: RefCell<Option<Coverage>> = const { RefCell::new(None) };
}

/// Count what `work` reaches.
pub fn during<T>(work: impl FnOnce() -> T) -> (T, Coverage) {
    CURRENT.set(Some(Coverage::default()));
    let result = work();
    (result, CURRENT.take().expect("set above"))
}

fn count(note: impl FnOnce(&mut Coverage)) {
    CURRENT.with_borrow_mut(|current| current.as_mut().map(note));
}

pub fn answer(kind: u32, refusal: u8) {
    count(|c| {
        c.requests += 1;
        c.accepted += (refusal == 0) as u64;
        *c.answers.entry((kind, refusal)).or_default() += 1;
    });
}

pub fn pair(code: u8, access: u8, relation: u8) {
    count(|c| *c.pairs.entry((code, access, relation)).or_default() += 1);
}

pub fn layouts(names: impl FnOnce() -> Vec<String>) {
    count(|c| names().into_iter().for_each(|name| *c.layouts.entry(name).or_default() += 1));
}

pub fn width(names: impl FnOnce() -> Vec<String>) {
    count(|c| names().into_iter().for_each(|name| *c.widths.entry(name).or_default() += 1));
}

impl Coverage {
    pub fn add(&mut self, other: &Coverage) {
        self.runs += other.runs;
        self.requests += other.requests;
        self.accepted += other.accepted;
        other.answers.iter().for_each(|(k, n)| *self.answers.entry(*k).or_default() += n);
        other.pairs.iter().for_each(|(k, n)| *self.pairs.entry(*k).or_default() += n);
        other.layouts.iter().for_each(|(k, n)| *self.layouts.entry(k.clone()).or_default() += n);
        other.widths.iter().for_each(|(k, n)| *self.widths.entry(k.clone()).or_default() += n);
    }

    /// Everything reached, as short texts that can be compared.
    pub fn features(&self) -> BTreeSet<String> {
        let answers = self.answers.keys().map(|(kind, refusal)| format!("kind {kind} answer {refusal}"));
        let pairs = self.pairs.keys().map(|(c, a, r)| format!("pair {c} {a} {r}"));
        let words = self.layouts.keys().chain(self.widths.keys()).cloned();
        answers.chain(pairs).chain(words).collect()
    }

    pub fn refusals(&self) -> BTreeMap<u8, u64> {
        let mut sums = BTreeMap::new();
        self.answers.iter().for_each(|((_, refusal), n)| *sums.entry(*refusal).or_default() += n);
        sums
    }

    /// Refusals that a run can reach and these didn't: 1 is the library's, 16 no run reaches.
    pub fn missing_refusals(&self) -> Vec<u8> {
        let reached = self.refusals();
        (2..=28).filter(|&n| n != 16 && !reached.contains_key(&n)).collect()
    }

    pub fn report(&self) -> String {
        let mut text = String::new();
        let accepted = self.accepted as f64 * 100.0 / self.requests.max(1) as f64;
        writeln!(text, "runs {}, requests {}, accepted {accepted:.1}%", self.runs, self.requests).unwrap();
        for (refusal, n) in self.refusals() {
            writeln!(text, "answer {refusal}: {n}").unwrap();
        }
        writeln!(text, "missing refusals: {:?}", self.missing_refusals()).unwrap();
        for ((kind, refusal), n) in &self.answers {
            writeln!(text, "kind {kind} answer {refusal}: {n}").unwrap();
        }
        writeln!(text, "pairs of code, access and relation: {} of 60", self.pairs.len()).unwrap();
        for ((code, access, relation), n) in &self.pairs {
            let access = ["read", "write"][*access as usize];
            let relation = ["local", "foreign"][*relation as usize];
            writeln!(text, "code {code:x} {relation} {access}: {n}").unwrap();
        }
        writeln!(text, "retags and layouts: {}", self.layouts.len()).unwrap();
        for (name, n) in self.layouts.iter().chain(&self.widths) {
            writeln!(text, "{name}: {n}").unwrap();
        }
        text
    }
}
