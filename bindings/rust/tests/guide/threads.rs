use mortarpink_proved::Bitmap;
use std::sync::Mutex;
use std::thread;

/// Counts the set bits of the newest version while another thread appends a bit. The lock gives
/// the bitmap to one thread at a time.
pub fn count_and_append(flags: &Mutex<Bitmap>, number: u64) -> u64 {
    let append = || {
        let mut flags = flags.lock().unwrap();
        let mut batch = flags.begin();
        batch.push(true)?;
        batch.commit(number)
    };
    thread::scope(|scope| {
        let writer = scope.spawn(append);
        let counted = flags.lock().unwrap().count_ones(..);
        writer.join().unwrap().unwrap();
        counted
    })
}
