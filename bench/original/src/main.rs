//! The calls of `crates/bench` on the bitmaps of the Rust crate `commonware-utils`. Each prints the checksum that `crates/bench` prints.
//!
//! A call that this crate does not have is left out, apart from those of `kept`, which say what they do instead.
//!
//! The package `native` compiles the same sources with the Rust crate of this repository under the name `commonware_utils`, and adds the calls of `own`,
//! which `commonware-utils` does not have.

mod batches;
mod dense;
mod historical;
mod kept;
#[cfg(feature = "native")]
#[path = "../../native/src/own.rs"]
mod own;
mod pruned;

use shared::Arguments;
use std::process::ExitCode;

// Runs a call on bitmaps with chunks of `N` bytes. Some calls take a second bitmap, with chunks of `M` bytes.
fn run_at<const N: usize, const M: usize>(arguments: &Arguments) -> Option<u64> {
    #[cfg(feature = "native")]
    if let Some(sum) = own::run::<N>(arguments) {
        return Some(sum);
    }
    if let Some(commits) = arguments.commits {
        return kept::run::<N>(arguments, commits);
    }
    historical::run::<N>(arguments)
        .or_else(|| pruned::run::<N>(arguments))
        .or_else(|| dense::run::<N, M>(arguments))
}

fn run(arguments: &Arguments) -> Option<u64> {
    match arguments.width {
        1 => run_at::<1, 8>(arguments),
        3 => run_at::<3, 8>(arguments),
        4 => run_at::<4, 8>(arguments),
        8 => run_at::<8, 3>(arguments),
        32 => run_at::<32, 8>(arguments),
        _ => None,
    }
}

fn main() -> ExitCode {
    shared::main(run)
}
