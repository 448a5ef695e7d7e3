//! The Rust's messages as the numbers of document 01 and of M-100.

use super::request::Refusal;
use super::state::Value;
use super::*;

pub enum Failure {
    Refused(Refusal, Value),
    /// The Rust said something that document 01 has no number for: never an answer.
    Unexpected(std::string::String),
}

impl From<Refusal> for Failure {
    fn from(refusal: Refusal) -> Failure {
        Failure::Refused(refusal, Value::Nothing)
    }
}

thread_local! {
    /// What the Rust said to the last request, if it refused it.
    static MESSAGE: std::cell::RefCell<Option<std::string::String>> = const { std::cell::RefCell::new(None) };
}

pub fn last_message() -> Option<std::string::String> {
    MESSAGE.take()
}

pub fn set_message(message: Option<std::string::String>) {
    MESSAGE.set(message);
}

/// The number of a message. The Rust has the words of 21 for 23 too; a load and a retag only read, a store
/// and a deallocation only write, so the request tells them apart.
pub fn failure(info: TerminationInfo, access: AccessKind) -> Failure {
    set_message(Some(std::format!("{info:?}")));
    let TerminationInfo::Ub(message) = info else {
        return Failure::Unexpected(std::format!("{info:?}"));
    };
    let number = match message.as_str() {
        "asking for a too large allocation" => 15,
        "load from a misaligned pointer" | "store to a misaligned pointer" => 6,
        "deallocating invalid pointer" | "dereferencing pointer without provenance" => 7,
        "double-free" | "dereferencing pointer to dead allocation" => 8,
        "dereferencing pointer outside the bounds of its allocation" => 9,
        "deallocating with pointer not to the beginning of its allocation" => 10,
        text if text.ends_with(" deallocation operation") => 11,
        "deallocating with incorrect size information" => 12,
        "deallocating with incorrect alignment information" => 13,
        "Tree Borrows: deallocating strongly protected allocation" => 24,
        text => tree_refusal(text, access),
    };
    match number {
        0 => Failure::Unexpected(std::format!("{message:?}")),
        number => number.into(),
    }
}

fn tree_refusal(text: &str, access: AccessKind) -> Refusal {
    match text.strip_prefix("Tree Borrows: ").unwrap_or("") {
        "local read of Disabled reference" => 17,
        "local write of Frozen reference" => 18,
        "local write of Disabled reference" => 19,
        "local write to protected Reserved reference that had a foreign read" => 20,
        "foreign read of protected Unique reference" if access == AccessKind::Read => 21,
        "foreign read of protected Unique reference" => 23,
        "foreign write of protected Frozen reference which had a local read"
        | "foreign write of protected Reserved reference which had a local read" => 22,
        "local read of protected Disabled reference" => 26,
        "local write to protected Frozen reference" => 27,
        "local write to protected Disabled reference" => 28,
        _ => 0,
    }
}
