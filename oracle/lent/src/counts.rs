//! What was called and answered.

use std::collections::BTreeMap;

/// How often each refusal was answered, by name.
#[derive(Default)]
pub struct Counts(BTreeMap<String, BTreeMap<u8, u64>>);

impl Counts {
    pub fn add(&mut self, name: &str, refusal: u8) {
        *self.0.entry(name.into()).or_default().entry(refusal).or_default() += 1;
    }

    pub fn total(&self) -> u64 {
        self.0.values().flat_map(|refusals| refusals.values()).sum()
    }

    pub fn print(&self, title: &str) {
        println!("{title}: {}", self.total());
        for (name, refusals) in &self.0 {
            let each: Vec<String> = refusals.iter().map(|(refusal, n)| format!("{refusal}: {n}")).collect();
            println!("  {name}: {}  ({})", refusals.values().sum::<u64>(), each.join(", "));
        }
    }
}
