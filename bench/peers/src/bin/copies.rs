//! The calls of `crates/bench` on a `Vec<u64>`, of which each version is a whole copy.

use peers::{keep_each, Clones};
use std::process::ExitCode;

fn main() -> ExitCode {
    shared::main(keep_each::<Clones<Vec<u64>>>)
}
