//! The oracle: what the Rust answers to a run, printed as document 01 says.
//!
//! mem.rs and prelude.rs are compiled as they are, from the folder that the build was given. The driver is
//! a child of the module that holds mem.rs, so it may look into the memory, whose fields are private.
#![feature(yeet_expr)]
#![allow(dead_code, private_interfaces, unused_macros)]

// The Rust's messages are texts of the stand-in, so they are made by its `format!`.
#[macro_use(format)]
extern crate libspecr;

#[macro_use]
pub mod prelude {
    include!(concat!(env!("MINIRUST_FILES"), "/prelude.rs"));
}
pub mod lang;
pub mod mem {
    include!(concat!(env!("MINIRUST_FILES"), "/mem.rs"));
    pub mod driver;
    mod itself;
    mod layout;
    mod numbering;
    mod print;
    mod refusals;
    mod release;
    mod request;
    mod retag;
    mod start;
    mod state;
    mod targets;
}

fn main() {
    // The tree is visited by recursion, up to 1,023 nodes deep.
    let worker = std::thread::Builder::new().stack_size(1 << 28).spawn(mem::driver::main);
    let ended = worker.expect("a thread").join().expect("the driver ends");
    std::process::exit(ended);
}
