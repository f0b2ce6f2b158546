//! A scheduler of slots: bit k says whether slot k is taken, and each minute is a commit.
//!
//! Run it with `cargo run --example scheduler`.

use std::iter;

use mortarpink_proved::{Bitmap, Error, Width};

/// The slots, with the version of each minute.
struct Scheduler {
    slots: Bitmap,
}

impl Scheduler {
    /// Makes a scheduler whose slots are all free at minute 0.
    fn new(count: u64) -> Result<Scheduler, Error> {
        let mut slots = Bitmap::new(Width::Bytes8)?;
        // With an index, a read of an old minute takes one search, however many minutes follow.
        slots.set_indexed(true)?;
        let mut batch = slots.begin();
        batch.extend_to(count)?;
        batch.commit(0)?;
        Ok(Scheduler { slots })
    }

    /// Returns the free slots of the latest minute, ascending.
    fn free(&self) -> impl Iterator<Item = u64> {
        iter::successors(self.slots.next_zero(0), |slot| self.slots.next_zero(slot + 1))
    }

    /// Frees the slots of the jobs that end in a minute, takes a slot for each new job, and commits.
    /// Returns the taken slots, which are fewer than the jobs if there are not enough. A slot that is
    /// freed can be taken from the next minute on. After an error nothing has changed.
    fn minute(&mut self, minute: u64, ended: &[u64], jobs: usize) -> Result<Vec<u64>, Error> {
        let taken: Vec<u64> = self.free().take(jobs).collect();
        let mut batch = self.slots.begin();
        batch.set_many(ended, false)?;
        batch.set_many(&taken, true)?;
        batch.commit(minute)?;
        Ok(taken)
    }

    /// Returns the slots that were taken at a minute.
    fn taken_at(&self, minute: u64) -> Result<Vec<u64>, Error> {
        Ok(self.slots.at(minute)?.ones(..).collect())
    }

    /// Returns the minutes at which a slot was taken.
    fn minutes_of(&self, slot: u64) -> Vec<u64> {
        let is_taken = |minute: &u64| self.slots.at(*minute).and_then(|past| past.get(slot));
        self.slots.commits().filter(|minute| is_taken(minute) == Ok(true)).collect()
    }
}

fn main() -> Result<(), Error> {
    let mut scheduler = Scheduler::new(8)?;
    for (minute, ended, jobs) in
        [(1, vec![], 3), (2, vec![1], 2), (3, vec![0, 4], 1), (5, vec![], 9)]
    {
        let taken = scheduler.minute(minute, &ended, jobs)?;
        println!("minute {minute}: {jobs} slots wanted, {taken:?} taken, {ended:?} freed");
    }

    // Each minute is still there to read.
    for minute in [0, 2, 3] {
        println!("taken at minute {minute}: {:?}", scheduler.taken_at(minute)?);
    }
    println!("taken at minute 4: {}", scheduler.taken_at(4).unwrap_err());
    println!("slot 4 was taken at minutes {:?}", scheduler.minutes_of(4));

    // A minute that fails changes nothing: there is no slot 8, and minute 5 is over.
    println!("minute 6: {}", scheduler.minute(6, &[2, 8], 0).unwrap_err());
    println!("minute 5: {}", scheduler.minute(5, &[2], 0).unwrap_err());
    println!("free now: {:?}", scheduler.free().collect::<Vec<u64>>());

    // Minutes before 3 are forgotten.
    let dropped = scheduler.slots.drop_before(3)?;
    println!(
        "{dropped} minutes dropped, {:?} left",
        scheduler.slots.commits().collect::<Vec<u64>>()
    );
    Ok(())
}
