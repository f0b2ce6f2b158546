//! Calls that fail because an allocation fails.

mod common;

use std::env;
use std::process::Command;

use common::{WIDTHS, bitmap_of, commit};
use mortarpink_proved::{Bitmap, Error, Width};

/// The variable of the environment that the small process has.
const IS_SMALL: &str = "MORTARPINK_TEST_IS_SMALL";

/// Runs the checks in a process of its own, whose address space has 160 MiB.
#[test]
fn allocations_may_fail() {
    if env::var_os(IS_SMALL).is_some() {
        WIDTHS.into_iter().for_each(check);
        return WIDTHS.into_iter().for_each(check_log);
    }
    let mut shell = Command::new("sh");
    shell.args(["-c", "ulimit -v 163840 && exec \"$0\" --exact allocations_may_fail"]);
    shell.arg(env::current_exe().unwrap()).env(IS_SMALL, "1");
    let output = shell.output().unwrap();
    assert!(output.status.success(), "{}", String::from_utf8_lossy(&output.stdout));
}

/// Copies the bitmap until an allocation fails.
fn fill_memory(bitmap: &Bitmap) -> Vec<Bitmap> {
    let mut copies = Vec::with_capacity(1000);
    loop {
        match bitmap.try_clone() {
            Ok(copy) => copies.push(copy),
            Err(error) => {
                assert_eq!(error, Error::NoMemory);
                return copies;
            }
        }
    }
}

/// Returns the encoding of a MiB of set bits.
fn large(width: Width) -> Vec<u8> {
    let mut bytes = bitmap_of(width, &[0xff; 1 << 10]).to_bytes().unwrap();
    bytes[8..16].copy_from_slice(&(8u64 << 20).to_be_bytes());
    bytes.resize(16 + (1 << 20), 0xff);
    bytes
}

/// Checks the calls that allocate while there is no memory, and once there is.
fn check(width: Width) {
    let bytes = large(width);
    let (mut bitmap, _) = Bitmap::from_bytes(width, &bytes, ..).unwrap();
    commit(&mut bitmap, 1, |batch| batch.set(0, true).unwrap());
    let (history, bits) = (bitmap.save().unwrap(), vec![true; 4 << 20]);
    let copies = fill_memory(&bitmap);

    assert_eq!(bitmap.to_bytes(), Err(Error::NoMemory));
    assert_eq!(bitmap.at(1).unwrap().to_bytes(), Err(Error::NoMemory));
    let decoded = Bitmap::from_bytes(width, &bytes, ..);
    assert_eq!(decoded.unwrap_err(), Error::NoMemory);
    assert_eq!(bitmap.save(), Err(Error::NoMemory));
    assert_eq!(Bitmap::load(width, &history, .., ..).unwrap_err(), Error::NoMemory);
    let mut batch = bitmap.begin();
    assert_eq!(batch.push_bits(&bits), Err(Error::NoMemory));
    assert_eq!(batch.extend_to(1 << 40), Err(Error::NoMemory));
    assert_eq!(batch.len(), 8 << 20);
    let mut pushes = (0..).map(|count| (count, batch.push_bytes(&[1; 4096])));
    let (count, failed) = pushes.find_map(|(count, push)| Some((count, push.err()?))).unwrap();
    assert_eq!(failed.error(), Error::NoMemory);
    let pushed = (1 << 20) + count * 4096 + failed.appended() as u64;
    assert_eq!(batch.len(), 8 * pushed);

    // The same calls succeed as soon as there is memory.
    drop(copies);
    batch.push_byte(0).unwrap();
    batch.commit(2).unwrap();
    assert_eq!(bitmap.len(), 8 * pushed + 8);
    assert_eq!(bitmap.at(1).unwrap().count_ones(..), 8 << 20);
    assert_eq!(bitmap.at(1).unwrap().to_bytes(), Ok(bytes));
    let (loaded, _) = Bitmap::load(width, &history, .., ..).unwrap();
    assert_eq!(loaded.count_ones(..), 8 << 20);
}

/// Checks the calls on a log while there is no memory, and once there is.
fn check_log(width: Width) {
    let (mut plain, _) = Bitmap::from_bytes(width, &large(width), ..).unwrap();
    let mut logged = plain.try_clone().unwrap();
    logged.begin_log().unwrap();
    let bytes = logged.log_bytes().unwrap();
    let len = bytes.len() as u64;
    // The entry of the commit would have more than a MiB.
    let chunks = (1 << 17).min((1 << 20) / width.bytes() as u64);
    let mut batch = logged.begin();
    batch.set_range(..chunks * width.bits(), false).unwrap();
    let mut copies = fill_memory(&plain);
    assert_eq!(batch.commit(1), Err(Error::NoMemory));
    // The batch was aborted, which has freed memory.
    copies.extend(fill_memory(&plain));

    assert_eq!((logged.log_position(), logged.count_ones(..)), (Ok(len), 8 << 20));
    assert_eq!(logged.log_bytes(), Err(Error::NoMemory));
    assert_eq!(logged.take_log(), Err(Error::NoMemory));
    assert_eq!(Bitmap::recover(width, &bytes).unwrap_err().error(), Error::NoMemory);
    assert_eq!((plain.begin_log(), plain.keeps_log()), (Err(Error::NoMemory), false));
    // Each clear appends 25 bytes, until the log cannot grow.
    let mut clears = (0..).map(|count| (count, logged.clear()));
    let (count, failed) = clears.find_map(|(count, clear)| Some((count, clear.err()?))).unwrap();
    assert_eq!((failed, logged.log_position()), (Error::NoMemory, Ok(len + 25 * count)));

    // The same calls succeed as soon as there is memory.
    drop(copies);
    logged.clear().unwrap();
    plain.begin_log().unwrap();
    let appended = logged.take_log().unwrap();
    assert_eq!(appended.len() as u64, len + 25 * (count + 1));
    assert_eq!(appended[..bytes.len()], bytes);
    let recovered = Bitmap::recover(width, &appended).unwrap();
    assert_eq!((recovered.good, recovered.torn), (appended.len(), false));
    assert_eq!(recovered.bitmap.count_ones(..), 8 << 20);
}
