//! What all programs of the benchmarks share: their arguments, their clock, and the pseudorandom positions of their edits and reads.

use std::env;
use std::ffi::{c_int, c_long};
use std::hint::black_box;
use std::process::ExitCode;
use std::sync::atomic::{AtomicU64, Ordering};

/// The number of edits in a batch that sets or removes bits, and of the bits that are read to compare bitmaps.
pub const SETS: u64 = 1000;

/// The number of edits in a batch that only appends.
pub const PUSHES: u64 = 4096;

/// The byte of which each chunk of a historical bitmap is made.
pub const BYTE: u8 = 105;

/// One bit in so many is set in a sparse bitmap.
pub const SPARSE: u64 = 1000;

/// Calls that read bits at random positions read one per so many bits of the bitmap.
pub const FAR: u64 = 32;

/// The arguments of a program.
pub struct Arguments {
    /// The name of the call.
    pub call: String,
    /// The bytes per chunk. Programs without chunks ignore it.
    pub width: usize,
    /// The bytes of the bitmap.
    pub bytes: u64,
    /// How often the call is run.
    pub times: u64,
    /// The kept commits, for a call that may depend on their number.
    pub commits: Option<u64>,
}

impl Arguments {
    /// Returns the arguments that some words have, or `None` if they have none.
    fn from_words(words: &[String]) -> Option<Arguments> {
        let [call, width, bytes, times, commits @ ..] = words else {
            return None;
        };
        let commits = match commits {
            [] => None,
            [commits] => Some(commits.parse().ok()?),
            _ => return None,
        };
        Some(Arguments {
            call: call.clone(),
            width: width.parse().ok()?,
            bytes: bytes.parse().ok()?,
            times: times.parse().ok()?,
            commits,
        })
    }
}

// The processor time that the measured calls have taken, in nanoseconds.
static TAKEN: AtomicU64 = AtomicU64::new(0);

// What `clock_gettime` of the C library writes, and its clock of the processor time of a process.
#[repr(C)]
struct Timespec {
    seconds: c_long,
    nanoseconds: c_long,
}
const PROCESSOR_TIME: c_int = 2;

extern "C" {
    fn clock_gettime(clock: c_int, time: *mut Timespec) -> c_int;
}

// The processor time of this process so far, in nanoseconds.
fn processor_time() -> u64 {
    let mut time = Timespec { seconds: 0, nanoseconds: 0 };
    // SAFETY: `time` has the layout of the C library's `struct timespec` on 64-bit Linux, and is written before the call returns.
    unsafe { clock_gettime(PROCESSOR_TIME, &mut time) };
    time.seconds as u64 * 1_000_000_000 + time.nanoseconds as u64
}

/// Runs calls that are measured: their processor time is what the program prints, if it is asked for. What is before them makes a bitmap, say.
pub fn timed<T>(calls: impl FnOnce() -> T) -> T {
    let before = processor_time();
    let result = black_box(calls());
    TAKEN.fetch_add(processor_time() - before, Ordering::Relaxed);
    result
}

/// Runs the call that the program's arguments name, and prints its checksum. `run` returns `None` if there is no such call.
///
/// If the environment has the variable `BENCH_TIME`, it also prints how many nanoseconds the measured calls took, as an error message.
pub fn main(run: impl Fn(&Arguments) -> Option<u64>) -> ExitCode {
    let words: Vec<String> = env::args().skip(1).collect();
    match Arguments::from_words(&words).and_then(|arguments| run(&arguments)) {
        Some(sum) => {
            println!("{sum}");
            if env::var_os("BENCH_TIME").is_some() {
                eprintln!("{}", TAKEN.load(Ordering::Relaxed));
            }
            ExitCode::SUCCESS
        }
        None => {
            eprintln!("usage: CALL WIDTH BYTES TIMES [COMMITS]");
            ExitCode::from(2)
        }
    }
}

/// Pseudorandom positions, the same as those of `crates/bench`.
pub struct Positions {
    state: u64,
}

impl Positions {
    /// Returns the sequence of a seed.
    pub fn from_seed(seed: u64) -> Positions {
        Positions { state: seed }
    }

    /// Returns the next position, below `2^44`.
    pub fn step(&mut self) -> u64 {
        self.state = self
            .state
            .wrapping_mul(6364136223846793005)
            .wrapping_add(1442695040888963407);
        self.state >> 20
    }
}
