//! Versions with roots, and their proofs, by the `AuthenticatedBitMap` of the Rust crate in `native` under SHA-256, and the same versions without
//! roots.
//!
//! A bitmap begins with version 0, of whole chunks. The argument COMMITS says how many versions follow before the measured calls; it is 0 if it is
//! left out. Each of these flips one random bit.

mod commits;
mod hash;
mod proofs;
mod versions;

use shared::Arguments;
use std::process::ExitCode;

// Runs a call on bitmaps with chunks of `N` bytes.
fn run_at<const N: usize>(arguments: &Arguments) -> Option<u64> {
    let count = arguments.commits.unwrap_or(0);
    hash::run::<N>(arguments).or_else(|| commits::run::<N>(arguments, count)).or_else(|| proofs::run::<N>(arguments, count))
}

fn run(arguments: &Arguments) -> Option<u64> {
    match arguments.width {
        8 => run_at::<8>(arguments),
        32 => run_at::<32>(arguments),
        64 => run_at::<64>(arguments),
        _ => None,
    }
}

fn main() -> ExitCode {
    shared::main(run)
}
