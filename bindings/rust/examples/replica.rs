//! A writer and two replicas, which follow it by deltas. One of them is away for some time.
//!
//! Run it with `cargo run --example replica`.

use mortarpink_proved::{Bitmap, Error, Width};

const WIDTH: Width = Width::Bytes32;

/// What a writer sends to a replica: the delta from its version to the latest one, or all versions.
enum Message {
    Delta(Vec<u8>),
    History(Vec<u8>),
}

/// Returns the message for a replica that is at a version, or `None` if it is at the latest one. A
/// replica whose version the writer does not keep gets the history.
fn message_for(writer: &Bitmap, at: Option<u64>) -> Result<Option<Message>, Error> {
    if at.is_some() && at == writer.latest() {
        return Ok(None);
    }
    if let (Some(older), Some(newer)) = (at, writer.latest()) {
        if let Some(bytes) = writer.delta(older, newer)? {
            return Ok(Some(Message::Delta(bytes)));
        }
    }
    Ok(Some(Message::History(writer.save()?)))
}

/// Applies a message. After an error the replica is as before. No version that a history brings has
/// more than a million bits, and at most 1,000 versions follow the first one.
fn receive(replica: &mut Bitmap, message: &Message) -> Result<(), Error> {
    match message {
        Message::Delta(bytes) => replica.apply_delta(bytes)?,
        Message::History(bytes) => *replica = Bitmap::load(WIDTH, bytes, ..=1_000_000, ..=1000)?.0,
    }
    Ok(())
}

/// Brings a replica to the latest version of the writer, and prints what was sent.
fn follow(name: &str, replica: &mut Bitmap, writer: &Bitmap) -> Result<(), Error> {
    let Some(message) = message_for(writer, replica.latest())? else {
        println!("{name} is up to date");
        return Ok(());
    };
    receive(replica, &message)?;
    assert_eq!(replica.to_bytes()?, writer.to_bytes()?);
    let (kind, bytes) = match message {
        Message::Delta(bytes) => ("delta", bytes),
        Message::History(bytes) => ("history", bytes),
    };
    let kept: Vec<u64> = replica.commits().collect();
    println!("{name} gets a {kind} of {} bytes, and has versions {kept:?}", bytes.len());
    Ok(())
}

/// Commits a version: some positions are set, and the bitmap has at least this length.
fn write(writer: &mut Bitmap, number: u64, positions: &[u64], len: u64) -> Result<(), Error> {
    let mut batch = writer.begin();
    batch.extend_to(len)?;
    batch.set_many(positions, true)?;
    batch.commit(number)
}

fn main() -> Result<(), Error> {
    let mut writer = Bitmap::new(WIDTH)?;
    let (mut near, mut away) = (Bitmap::new(WIDTH)?, Bitmap::new(WIDTH)?);
    write(&mut writer, 1, &[3, 5, 999], 1000)?;
    follow("near", &mut near, &writer)?;
    follow("away", &mut away, &writer)?;

    // One replica follows each version. The other one is away, and takes two versions at once.
    write(&mut writer, 2, &[4], 1000)?;
    follow("near", &mut near, &writer)?;
    write(&mut writer, 3, &[1999], 2000)?;
    follow("near", &mut near, &writer)?;
    follow("away", &mut away, &writer)?;
    follow("away", &mut away, &writer)?;

    // While it is away again, the writer drops the version that it is at.
    write(&mut writer, 4, &[0], 2000)?;
    write(&mut writer, 5, &[1], 2000)?;
    let delta = Message::Delta(writer.delta(4, 5)?.expect("both versions are kept"));
    println!("a delta from 4, at 3: {}", receive(&mut away, &delta).unwrap_err());
    writer.drop_before(4)?;
    follow("away", &mut away, &writer)?;
    write(&mut writer, 6, &[2], 2000)?;
    follow("away", &mut away, &writer)
}
