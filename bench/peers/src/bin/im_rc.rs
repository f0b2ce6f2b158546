//! The calls of `crates/bench` on a persistent vector of words, of the crate `im-rc`. Its clones share what is equal.

use im_rc::Vector;
use peers::{keep_each, Clones};
use std::process::ExitCode;

fn main() -> ExitCode {
    shared::main(keep_each::<Clones<Vector<u64>>>)
}
