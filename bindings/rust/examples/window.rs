//! A log of events with a window: old events are pruned, and old versions are dropped, while other
//! threads read.
//!
//! Run it with `cargo run --example window`.

use std::thread;

use mortarpink_proved::{Bitmap, Error, Width};

/// The number of events that are kept at least.
const WINDOW: u64 = 1000;

/// The number of hours whose versions are kept.
const HOURS: u64 = 3;

/// Returns the events of an hour: whether each request failed.
fn events(hour: u64) -> Vec<bool> {
    (0..300).map(|request| request % (hour + 4) == 0).collect()
}

/// Appends the events of an hour, prunes the chunks that end before the window, and commits. Then
/// drops the versions of older hours, which still need the pruned chunks.
fn append(log: &mut Bitmap, hour: u64) -> Result<(), Error> {
    let mut batch = log.begin();
    batch.push_bits(&events(hour))?;
    batch.prune(batch.len().saturating_sub(WINDOW))?;
    batch.commit(hour)?;
    log.drop_before((hour + 1).saturating_sub(HOURS))?;
    Ok(())
}

/// Prints what a log has.
fn print(log: &Bitmap) {
    let first = log.pruned_chunks() * log.width().bits();
    let hours: Vec<u64> = log.commits().collect();
    println!("events {first} to {}, {} failed, hours {hours:?}", log.len(), log.count_ones(..));
}

fn main() -> Result<(), Error> {
    let mut log = Bitmap::new(Width::Bytes32)?;
    for hour in 1..=6 {
        append(&mut log, hour)?;
        print(&log);
    }

    // A bitmap is `Sync`: threads read its versions in place, each another one at the same time.
    let counts: Vec<(u64, u64)> = thread::scope(|scope| {
        let readers: Vec<_> = log
            .commits()
            .map(|hour| (hour, log.at(hour).expect("the hour is kept")))
            .map(|(hour, version)| (hour, scope.spawn(move || version.count_ones(..))))
            .collect();
        readers.into_iter().map(|(hour, reader)| (hour, reader.join().unwrap())).collect()
    });
    for (hour, count) in counts {
        println!("hour {hour} had {count} failures in its window");
    }

    // A version that is checked out is a bitmap of its own. Its reader goes on while the log grows,
    // and while the log drops that version.
    let hour_5 = log.checkout(5)?;
    let count = thread::scope(|scope| {
        let reader = scope.spawn(|| hour_5.count_ones(..));
        (7..=9).try_for_each(|hour| append(&mut log, hour))?;
        Ok::<u64, Error>(reader.join().unwrap())
    })?;
    print(&log);
    println!("a thread counted {count} failures of hour 5");
    println!("hour 5 in the log: {}", log.at(5).unwrap_err());
    println!("event 1000: {}, event 2699: {:?}", log.get(1000).unwrap_err(), log.get(2699));
    Ok(())
}
