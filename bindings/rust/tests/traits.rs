//! Traits of the types: threads, `Debug`, `Display`, errors and copies.

mod common;

use std::collections::HashSet;
use std::error;
use std::sync::{Mutex, mpsc};
use std::thread;

use common::{WIDTHS, bitmap_of, commit};
use mortarpink_proved::{
    Batch, Bitmap, ChangedChunks, Chunk, CommitError, Commits, Error, NoSuchWidthError, Ones,
    PushBytesError, RecoverError, Recovered, SetManyError, Version, Width,
};

/// Fails to compile if a type has a trait: then there are two candidates for `_`.
macro_rules! assert_not {
    ($type:ty: $trait:ident) => {
        const _: fn() = || {
            trait Candidate<T> {
                fn choose() {}
            }
            impl<T: ?Sized> Candidate<()> for T {}
            impl<T: ?Sized + $trait> Candidate<u8> for T {}
            <$type as Candidate<_>>::choose()
        };
    };
}

assert_not!(Bitmap: Clone);

const _: fn() = || {
    fn is_shared<T: Send + Sync>() {}
    fn is_plain<T: Send + Sync + Copy + 'static>() {}
    is_shared::<Bitmap>();
    is_shared::<Batch<'_>>();
    is_shared::<ChangedChunks<'_>>();
    is_shared::<CommitError<'_>>();
    is_shared::<Commits<'_>>();
    is_shared::<Ones<'_>>();
    is_shared::<Recovered>();
    is_shared::<Version<'_>>();
    is_plain::<Chunk>();
    is_plain::<Error>();
    is_plain::<PushBytesError>();
    is_plain::<RecoverError>();
    is_plain::<SetManyError>();
    is_plain::<NoSuchWidthError>();
    is_plain::<Width>();
};

#[test]
fn a_bitmap_moves_between_threads() {
    let mut bitmap = bitmap_of(Width::Bytes8, &[1]);
    for number in 2..10 {
        let worker = thread::spawn(move || {
            commit(&mut bitmap, number, |batch| batch.push(true).unwrap());
            bitmap
        });
        bitmap = worker.join().unwrap();
    }
    assert_eq!(bitmap.len(), 16);
    assert!(bitmap.commits().eq(1..10));
}

#[test]
fn a_batch_moves_to_another_thread() {
    let mut bitmap = bitmap_of(Width::Bytes8, &[1]);
    let mut batch = bitmap.begin();
    batch.push(true).unwrap();
    thread::scope(|scope| {
        scope.spawn(move || batch.commit(2).unwrap());
    });
    assert_eq!(bitmap.len(), 9);
}

#[test]
fn threads_share_a_bitmap_behind_a_mutex() {
    let bitmap = Mutex::new(Bitmap::new(Width::Bytes32).unwrap());
    thread::scope(|scope| {
        for _ in 0..4 {
            scope.spawn(|| {
                for _ in 0..100 {
                    let mut bitmap = bitmap.lock().unwrap();
                    let number = bitmap.latest().map_or(0, |latest| latest + 1);
                    commit(&mut bitmap, number, |batch| batch.push(true).unwrap());
                }
            });
        }
    });
    let bitmap = bitmap.into_inner().unwrap();
    assert_eq!(bitmap.len(), 400);
    assert!(bitmap.commits().eq(0..400));
}

#[test]
fn threads_use_copies_at_the_same_time() {
    let (sender, receiver) = mpsc::channel();
    let bitmap = bitmap_of(Width::Bytes1, &[0xff; 100]);
    for number in 2..6 {
        let (sender, mut copy) = (sender.clone(), bitmap.try_clone().unwrap());
        thread::spawn(move || {
            commit(&mut copy, number, |batch| batch.prune(8 * number).unwrap());
            sender.send((number, copy)).unwrap();
        });
    }
    drop(sender);
    for (number, copy) in receiver {
        assert_eq!(copy.count_ones(..), 800 - 8 * number);
    }
    assert_eq!(bitmap.count_ones(..), 800);
}

#[test]
fn widths_have_bytes_and_bits() {
    assert_eq!(WIDTHS.map(Width::bytes), [1, 8, 32, 64]);
    assert_eq!(WIDTHS.map(Width::bits), [8, 64, 256, 512]);
    for bytes in (0..=130).chain([u32::MAX]) {
        let expected = WIDTHS.into_iter().find(|width| width.bytes() as u32 == bytes);
        assert_eq!(Width::try_from(bytes), expected.ok_or(NoSuchWidthError(bytes)));
    }
    let mut bitmap = bitmap_of(Width::Bytes32, &[1]);
    assert_eq!(bitmap.at(1).unwrap().width(), Width::Bytes32);
    assert_eq!(bitmap.chunk(0).unwrap().width(), Width::Bytes32);
    assert_eq!(bitmap.begin().width(), Width::Bytes32);
    assert_eq!(HashSet::from(WIDTHS).len(), 4);
}

#[test]
fn chunks_are_slices() {
    let bitmap = bitmap_of(Width::Bytes8, &[1, 2, 3]);
    let chunk = bitmap.chunk(0).unwrap();
    assert_eq!(chunk.as_slice(), [1, 2, 3, 0, 0, 0, 0, 0]);
    assert_eq!(chunk.as_ref(), chunk.as_slice());
    assert_eq!(chunk.iter().sum::<u8>(), 6);
    assert_eq!((chunk.len(), chunk[2]), (8, 3));
    assert_eq!(chunk, bitmap.chunk(63 - 40).unwrap());
    let narrow = bitmap_of(Width::Bytes1, &[1]).chunk(0).unwrap();
    let wide = bitmap_of(Width::Bytes64, &[1]).chunk(0).unwrap();
    assert_ne!(narrow, wide);
    assert_eq!(HashSet::from([chunk, narrow, wide, narrow]).len(), 3);
}

#[test]
fn debug_output_names_the_state() {
    let mut bitmap = bitmap_of(Width::Bytes1, &[1, 2]);
    let expected = "Bitmap { width: Bytes1, len: 16, pruned_chunks: 0, latest: Some(1) }";
    assert_eq!(format!("{bitmap:?}"), expected);
    let version = bitmap.at(1).unwrap();
    assert_eq!(format!("{version:?}"), "Version { number: 1, len: 16, pruned_chunks: 0 }");
    assert_eq!(format!("{:?}", version.ones(..9)), "Ones { at: Some(1), to: 9, .. }");
    assert_eq!(format!("{:?}", bitmap.commits()), "Commits { .. }");
    let changed = bitmap.changed_chunks(1, 1).unwrap();
    assert_eq!(format!("{changed:?}"), "ChangedChunks { commits: (1, 1), .. }");
    assert_eq!(format!("{:?}", bitmap.chunk(8).unwrap()), "Chunk([2])");

    let mut batch = bitmap.begin();
    batch.prune(8).unwrap();
    assert_eq!(format!("{batch:?}"), "Batch { len: 16, pruned_chunks: 1, .. }");
    let failed = batch.try_commit(u64::MAX).unwrap_err();
    let expected = "CommitError { batch: Batch { len: 16, pruned_chunks: 1, .. }, \
                    error: ReservedCommitNumber }";
    assert_eq!(format!("{failed:?}"), expected);
}

#[test]
fn errors_have_texts() {
    let texts = [
        (Error::OutOfBounds, "position out of bounds"),
        (Error::Pruned, "position is pruned"),
        (Error::TooLong, "length would pass 2^64 - 1"),
        (Error::NoRetainedBit, "no retained bit to pop"),
        (Error::ReservedCommitNumber, "commit number 2^64 - 1 is reserved"),
        (
            Error::NonMonotonicCommit { previous: 7, attempted: 5 },
            "commit number 5 is not above the last one, 7",
        ),
        (Error::PrunedChunksOverflow, "number of pruned bits would pass 2^64 - 1"),
        (Error::EndOfBuffer, "bytes end before the encoding does"),
        (
            Error::InvalidLength { length: 100 },
            "encoded number of retained bits, 100, is out of range",
        ),
        (Error::Invalid, "bytes are not an encoding"),
        (Error::NoSuchCommit, "no commit is kept under the number"),
        (Error::NoMemory, "memory allocation failed"),
        (Error::WrongSize, "chunk or buffer has the wrong size"),
        (
            Error::WrongHeader,
            "bytes do not begin as a history, a log or a delta of this width does",
        ),
        (
            Error::CutOff,
            "bytes end before the history, the delta or the first bitmap of the log does",
        ),
        (Error::Damaged, "a digest is not that of the bytes before it"),
        (
            Error::NotAccepted,
            "a part of the bytes is no bitmap, or no commit or other entry that can follow",
        ),
        (Error::OutOfRange, "a number of retained bits or of commits is out of range"),
        (Error::NotAtBase, "delta does not start at the current bitmap"),
        (Error::HasLog, "bitmap keeps a log already"),
        (Error::NoLog, "bitmap keeps no log"),
        (Error::NotVerified, "proof does not verify against the root, or it is of another chunk"),
    ];
    for (error, text) in texts {
        assert_eq!(error.to_string(), text);
    }
    assert_eq!(HashSet::from(texts.map(|(error, _)| error)).len(), 22);
}

#[test]
fn wrapping_errors_have_texts() {
    let mut bitmap = Bitmap::with_pruned_chunks(Width::Bytes8, u64::MAX / 64).unwrap();
    let mut batch = bitmap.begin();
    let failed = batch.push_bytes(&[0; 9]).unwrap_err();
    assert_eq!(failed.to_string(), "length would pass 2^64 - 1 after 7 bytes");
    assert_eq!(Error::from(failed), Error::TooLong);
    let failed = batch.set_many(&[u64::MAX - 63, 0, 1], true).unwrap_err();
    assert_eq!(failed.to_string(), "position is pruned after 1 positions");
    assert_eq!(Error::from(failed), Error::Pruned);
    let failed = batch.try_commit(u64::MAX).unwrap_err();
    assert_eq!(failed.to_string(), "commit number 2^64 - 1 is reserved");
    assert!(error::Error::source(&failed).is_none());
}

#[test]
fn an_error_of_a_log_has_a_position() {
    let mut bitmap = Bitmap::new(Width::Bytes8).unwrap();
    bitmap.begin_log().unwrap();
    let mut bytes = bitmap.log_bytes().unwrap();
    let failed = Bitmap::recover(Width::Bytes8, &bytes[..40]).unwrap_err();
    assert_eq!(failed.to_string(), Error::CutOff.to_string());
    bytes[50] ^= 1;
    let failed = Bitmap::recover(Width::Bytes8, &bytes).unwrap_err();
    let text = "a digest is not that of the bytes before it, in the frame at byte 32";
    assert_eq!(failed.to_string(), text);
    assert_eq!(Error::from(failed), Error::Damaged);
}

#[test]
fn errors_convert() {
    fn edit(bitmap: &mut Bitmap, bytes: &[u8], number: u64) -> Result<(), Error> {
        let mut batch = bitmap.begin();
        batch.push_bytes(bytes)?;
        batch.commit(number)?;
        Ok(())
    }
    fn boxed(bitmap: &mut Bitmap) -> Result<(), Box<dyn error::Error + Send + Sync>> {
        bitmap.begin().set_many(&[], true)?;
        bitmap.begin().commit(2)?;
        bitmap.begin().push_bytes(&[0; 9])?;
        Ok(())
    }
    let mut bitmap = Bitmap::with_pruned_chunks(Width::Bytes8, u64::MAX / 64).unwrap();
    assert_eq!(edit(&mut bitmap, &[0; 9], 1), Err(Error::TooLong));
    assert_eq!(edit(&mut bitmap, &[0; 2], u64::MAX), Err(Error::ReservedCommitNumber));
    assert_eq!(edit(&mut bitmap, &[0; 2], 1), Ok(()));
    assert!(boxed(&mut bitmap).is_err());
    assert_eq!(bitmap.len(), u64::MAX - 63 + 16);
}

#[test]
fn iterators_are_copied_with_what_is_left() {
    let mut bitmap = bitmap_of(Width::Bytes8, &[0xff; 20]);
    commit(&mut bitmap, 2, |batch| batch.set(0, false).unwrap());
    let version = bitmap.at(1).unwrap();
    let mut ones = version.ones(..);
    assert_eq!(ones.nth(99), Some(99));
    let copy = ones.clone();
    assert!(ones.eq(100..160));
    assert!(copy.eq(100..160));

    let mut commits = bitmap.commits();
    commits.next();
    assert!(commits.clone().eq([2]));
    let mut changed = bitmap.changed_chunks(1, 2).unwrap();
    assert!(changed.clone().eq([0]));
    changed.next();
    assert_eq!(changed.next(), None);
    let same = version;
    assert_eq!((same.number(), version.number()), (1, 1));
}

#[test]
fn an_iterator_outlives_its_version() {
    let bitmap = bitmap_of(Width::Bytes8, &[5]);
    let ones = {
        let version = bitmap.at(1).unwrap();
        version.ones(..)
    };
    assert!(ones.eq([0, 2]));
}

#[test]
fn the_interface_has_a_version() {
    assert_eq!(mortarpink_proved::interface_version(), 2);
}
