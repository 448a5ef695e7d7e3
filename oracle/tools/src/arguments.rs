//! `--name value` and `--flag` arguments.

use runs::width::Widths;

pub struct Arguments(Vec<String>);

impl Arguments {
    pub fn read() -> Arguments {
        Arguments(std::env::args().skip(1).collect())
    }

    pub fn has(&self, name: &str) -> bool {
        self.0.iter().any(|a| a == name)
    }

    pub fn text(&self, name: &str) -> Option<&str> {
        let at = self.0.iter().position(|a| a == name)?;
        self.0.get(at + 1).map(String::as_str)
    }

    pub fn number(&self, name: &str, default: u64) -> u64 {
        match self.text(name) {
            None => default,
            Some(text) => text.replace(',', "").parse().unwrap_or_else(|_| panic!("{name} takes a number")),
        }
    }

    /// `--width`: of generated runs.
    pub fn widths(&self) -> Widths {
        let named = self.text("--width").map_or(Some(Widths::Start), Widths::named);
        named.expect("--width takes 16, 32, 64 or any")
    }
}
