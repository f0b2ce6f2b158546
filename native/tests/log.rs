//! Logs: frames that are cut off or damaged, bases, and the worked log of docs/FORMATS.md, read and written.

mod formats;

use formats::{bytes_of, rows, section};
use mortarpink::bitmap::codec::RangeCfg;
use mortarpink::bitmap::historical::{CleanBitMap, DirtyBitMap, Error, RewindError};
use mortarpink::bitmap::{Prunable, Readable};
use mortarpink::log::frames::{HeaderError, Place, Stop, next_frame, push_frame, push_header, read_header};
use mortarpink::log::{
    Damage, Entry, Log, Past, RecoverError, Recovered, apply_change, apply_delta, base_bytes, clear_logged, commit_logged, delta,
    drop_before_logged, from_base, history_size, push_chunk, read_base, read_entry, read_history, recover, rewind_logged, write_history,
};
use mortarpink::support::hash::{DefaultHasher, Hasher};
use std::time::{Duration, Instant};

fn digest(bytes: &[u8]) -> u64 {
    let mut hasher = DefaultHasher::new();
    hasher.write(bytes);
    hasher.finish()
}

/// The cells of the rows of the one table in a text, without its heading.
fn table(text: &str) -> impl Iterator<Item = Vec<&str>> {
    rows(text).skip(1)
}

/// Worked bytes, from the rows of the tables of a section: a position, and bytes in hexadecimal digits.
fn worked(heading: &str) -> Vec<u8> {
    let mut bytes = Vec::new();
    for cells in rows(section(heading)) {
        if cells[1] == bytes.len().to_string() {
            bytes.extend(bytes_of(cells[2].trim_matches('`')));
        }
    }
    bytes
}

fn worked_log() -> Vec<u8> {
    worked("### A worked log")
}

#[test]
fn digests_are_those_of_the_formats() {
    for (input, expected) in [
        ("", 0xd1fba762150c532c),
        ("000102030405060708090a0b0c0d0e", 0xf30eb725bb91c9ea),
        ("4d504249544c4f4700000000000000010000000000000001", 0x0b5345d577e3df7b),
    ] {
        assert_eq!(digest(&bytes_of(input)), expected, "{input}");
    }
}

/// Rust's hasher has the same function so far. Bytes that are written in parts give the digest of all of them.
#[test]
fn digests_are_those_of_std() {
    let bytes: Vec<u8> = (0..100u32).map(|k| ((k * k * 37) >> 3) as u8).collect();
    for end in 0..bytes.len() {
        for cut in 0..=end {
            let (mut ours, mut other) = (DefaultHasher::new(), std::hash::DefaultHasher::new());
            ours.write(&bytes[..cut]);
            ours.write(&bytes[cut..end]);
            other.write(&bytes[..end]);
            assert_eq!(ours.finish(), other.finish(), "{cut} of {end} bytes");
        }
    }
}

/// The bodies of the frames of a log, and why reading stopped.
fn bodies(mut place: Place, mut rest: &[u8]) -> (Vec<&[u8]>, Stop) {
    let mut found = Vec::new();
    loop {
        match next_frame(place, rest) {
            Ok(frame) => {
                found.push(frame.body);
                (place, rest) = (frame.next, frame.rest);
            }
            Err(stop) => return (found, stop),
        }
    }
}

#[test]
fn a_log_that_is_cut_off_has_its_whole_frames() {
    let (mut log, mut ends) = (Vec::new(), Vec::new());
    let mut place = push_header(&mut log, 4).unwrap();
    for size in [1, 7, 8, 30] {
        place = push_frame(&mut log, place, &vec![size as u8; size]).unwrap();
        assert_eq!(place.at, log.len() as u64);
        ends.push(log.len());
    }
    assert!(matches!(read_header(&log[..31], 4), Err(HeaderError::Short)));
    assert!(matches!(read_header(&log, 8), Err(HeaderError::Width(4))));
    for cut in 32..=log.len() {
        let (place, rest) = read_header(&log[..cut], 4).unwrap();
        let (found, stop) = bodies(place, rest);
        assert_eq!((found.len(), stop), (ends.iter().filter(|end| **end <= cut).count(), Stop::Torn), "{cut} bytes");
    }
}

#[test]
fn a_damaged_byte_is_found() {
    let mut log = Vec::new();
    let place = push_header(&mut log, 4).unwrap();
    push_frame(&mut log, place, b"a body").unwrap();
    for at in 0..log.len() {
        let mut damaged = log.clone();
        damaged[at] ^= 16;
        let found = read_header(&damaged, 4).map(|(place, rest)| next_frame(place, rest).map(|frame| frame.body.to_vec()));
        assert!(!matches!(found, Ok(Ok(_))), "byte {at}");
        assert!(!matches!(found, Ok(Err(Stop::Torn))), "byte {at}");
    }
}

#[test]
fn a_base_is_read_as_it_was_written() {
    let mut bits = Prunable::<4>::new_with_pruned_chunks(2).unwrap();
    bits.push_byte(0b0101_0001);
    for (past, last, latest) in
        [(Past::NoCommit, None, None), (Past::Dropped(9), Some(9), None), (Past::KeptUnder { number: 9, count: 3 }, Some(9), Some(9))]
    {
        let bytes = base_bytes(&bits, past).unwrap();
        let (read, again) = read_base::<4>(&bytes).unwrap();
        assert_eq!((again, read.encode()), (past, bits.encode()));
        let bitmap = from_base(read, again).unwrap();
        assert_eq!((bitmap.last_number(), bitmap.latest_commit(), bitmap.current().encode()), (last, latest, bits.encode()));
        assert!(read_base::<4>(&bytes[..bytes.len() - 1]).is_err());
    }
}

/// Applies the bytes of an entry to a bitmap.
fn applied(mut bitmap: CleanBitMap<1>, body: &[u8]) -> CleanBitMap<1> {
    match read_entry::<1>(body).unwrap() {
        Entry::Commit(change) => apply_change(bitmap, &change).map_err(|(_, error)| error).unwrap(),
        Entry::Rewind(number) => bitmap.rewind_to(number).unwrap(),
        Entry::DropBefore(number) => {
            bitmap.prune_commits_before(number);
            bitmap
        }
        Entry::Clear => {
            bitmap.clear_history();
            bitmap
        }
    }
}

/// The set positions, the kept numbers and the last number.
type State = (Vec<u64>, Vec<u64>, Option<u64>);

fn state<const N: usize>(bitmap: &CleanBitMap<N>) -> State {
    (bitmap.current().ones_iter_from(0).collect(), bitmap.commits().collect(), bitmap.last_number())
}

#[test]
fn the_worked_log_makes_its_states() {
    let log = worked_log();
    assert_eq!((log.len(), digest(&log)), (306, 0x1c5c9ac3e560cfc7));
    let (place, rest) = read_header(&log, 1).unwrap();
    let (bodies, stop) = bodies(place, rest);
    assert_eq!((bodies.len(), stop), (6, Stop::Torn));
    let (bits, past) = read_base::<1>(bodies[0]).unwrap();
    let mut bitmap = from_base(bits, past).unwrap();
    let mut states = Vec::new();
    for body in &bodies[1..] {
        bitmap = applied(bitmap, body);
        states.push(state(&bitmap));
    }
    let first = |kept| (vec![0, 2], kept, Some(1));
    let second = (vec![0, 2, 3, 4, 6, 9, 10], vec![1, 5], Some(5));
    assert_eq!(states, [first(vec![1]), second, first(vec![1]), first(vec![1]), first(vec![])]);
}

/// The same bytes are written by the calls that write frames, bases and chunks.
#[test]
fn the_worked_log_is_written() {
    let commit = |number: u64, len: u64, chunks: &[(u64, [u8; 1])]| {
        let mut body = [&[1], &number.to_be_bytes()[..], &len.to_be_bytes(), &0u64.to_be_bytes()].concat();
        for (index, bytes) in chunks {
            push_chunk(&mut body, *index, bytes).unwrap();
        }
        body
    };
    let with_number = |kind: u8, number: u64| [&[kind], &number.to_be_bytes()[..]].concat();
    let mut log = Vec::new();
    let mut place = push_header(&mut log, 1).unwrap();
    for body in [
        base_bytes(&Prunable::<1>::new(), Past::NoCommit).unwrap(),
        commit(1, 3, &[(0, [0b0000_0101])]),
        commit(5, 11, &[(0, [0b0101_1101]), (1, [0b0000_0110])]),
        with_number(2, 1),
        with_number(3, 1),
        vec![5],
    ] {
        place = push_frame(&mut log, place, &body).unwrap();
    }
    assert_eq!(log, worked_log());
}

/// The calls that log their change append the same bytes.
#[test]
fn logged_calls_write_the_worked_log() {
    let bitmap = CleanBitMap::<1>::new();
    let mut log = Log::begin(&bitmap).unwrap();
    let mut batch = bitmap.into_dirty();
    batch.push(true).push(false).push(true);
    let mut batch = commit_logged(batch, 1, &mut log).unwrap().into_dirty();
    batch.push_byte(0b1100_1011);
    let bitmap = commit_logged(batch, 5, &mut log).unwrap();
    assert_eq!(state(&bitmap), (vec![0, 2, 3, 4, 6, 9, 10], vec![1, 5], Some(5)));
    let mut bitmap = rewind_logged(bitmap, 1, &mut log).unwrap();
    drop_before_logged(&mut bitmap, 1, &mut log).unwrap();
    clear_logged(&mut bitmap, &mut log).unwrap();
    assert_eq!(log.bytes(), worked_log());
    assert_eq!((log.position(), log.digest()), (306, 0x7356dd36b6d8bbf2));
}

/// A call that fails appends nothing.
#[test]
fn failed_calls_are_not_logged() {
    let bitmap = CleanBitMap::<1>::new().apply_batch(3, |_| ()).unwrap();
    let mut log = Log::begin(&bitmap).unwrap();
    let before = (log.bytes().to_vec(), log.position(), log.digest());
    let (batch, error) = commit_logged(bitmap.into_dirty(), 3, &mut log).unwrap_err();
    assert_eq!(error, Error::NonMonotonicCommit { previous: 3, attempted: 3 });
    let (batch, error) = commit_logged(batch, u64::MAX, &mut log).unwrap_err();
    assert_eq!(error, Error::ReservedCommitNumber);
    let (bitmap, error) = rewind_logged(batch.abort(), 2, &mut log).unwrap_err();
    assert_eq!(error, RewindError::NoSuchCommit);
    assert_eq!((log.bytes().to_vec(), log.position(), log.digest()), before);
    assert_eq!(state(&recover::<1>(log.bytes()).unwrap().bitmap), state(&bitmap));
}

/// The places at which an entry of the worked log ends, the name of the state there, and the state.
fn worked_states() -> [(u64, &'static str, State); 6] {
    let first = |kept| (vec![0, 2], kept, Some(1));
    [
        (90, "the base", (vec![], vec![], None)),
        (148, "commit 1", first(vec![1])),
        (215, "commit 5", (vec![0, 2, 3, 4, 6, 9, 10], vec![1, 5], Some(5))),
        (248, "the rewind", first(vec![1])),
        (281, "the drop", first(vec![1])),
        (306, "the clear", first(vec![])),
    ]
}

/// What `recover` returns for a copy of the worked log, in the words of the formats.
fn recovered<const N: usize>(bytes: &[u8]) -> String {
    match recover::<N>(bytes) {
        Ok(Recovered { bitmap, log, torn }) => {
            let (good, name, expected) = worked_states().into_iter().find(|(end, ..)| *end == log.position()).unwrap();
            assert_eq!((state(&bitmap), log.bytes()), (expected, &[][..]));
            assert_eq!(torn, bytes.len() as u64 > good);
            format!("the state after {name}, {good} good bytes, {}torn", if torn { "" } else { "not " })
        }
        Err(error) => format!("`{}`", format!("{error:?}").replace("damage: ", "")),
    }
}

#[test]
fn every_prefix_of_the_worked_log_is_recovered() {
    let log = worked_log();
    for cut in 0..=log.len() {
        let expected = match worked_states().into_iter().rfind(|(end, ..)| *end <= cut as u64) {
            _ if cut < 32 => "`Header(Short)`".to_string(),
            None => "`NoBase`".to_string(),
            Some((good, name, _)) if good == cut as u64 => format!("the state after {name}, {good} good bytes, not torn"),
            Some((good, name, _)) => format!("the state after {name}, {good} good bytes, torn"),
        };
        assert_eq!(recovered::<1>(&log[..cut]), expected, "{cut} bytes");
    }
}

/// The first bytes of the worked log, and then a frame with a body.
fn with_frame(len: usize, body: &[u8]) -> Vec<u8> {
    let mut log = worked_log()[..len].to_vec();
    let digest = u64::from_be_bytes(log[len - 8..].try_into().unwrap());
    push_frame(&mut log, Place { at: len as u64, digest }, body).unwrap();
    log
}

/// The worked log with other bytes from a position on.
fn with_bytes(at: usize, bytes: &[u8]) -> Vec<u8> {
    let mut log = worked_log();
    log[at..at + bytes.len()].copy_from_slice(bytes);
    log
}

#[test]
fn changed_copies_of_the_worked_log_are_read_as_the_formats_say() {
    let log = worked_log();
    let (_, changed) = section("### A worked log").split_once("Changed copies").unwrap();
    for cells in table(changed) {
        let copy = match cells[1] {
            "all 306 bytes" | "unchanged, and the reader is for width 3" => log.clone(),
            "all of them, and then 15 bytes `ff`" => [&log[..], &[0xff; 15]].concat(),
            "all of them, and then 4,096 zero bytes" => [&log[..], &[0; 4096]].concat(),
            "all of them, and then 16 bytes `ff`" => [&log[..], &[0xff; 16]].concat(),
            "without bytes 248 to 280, the frame of the drop" => [&log[..248], &log[281..]].concat(),
            "bytes 148 to 163 are zero, the first two fields of commit 5" => with_bytes(148, &[0; 16]),
            "the header, and the frame of the body `05`" => with_frame(32, &[5]),
            "the header, and the frame of a base with flag 0 and last number 3" => {
                with_frame(32, &[&[4, 0][..], &3u64.to_be_bytes(), &[0; 24]].concat())
            }
            "the first 90 bytes, and a whole frame for this place with a rewind to 1" => {
                with_frame(90, &[&[2][..], &1u64.to_be_bytes()].concat())
            }
            other => {
                let words: Vec<&str> = other.split([' ', ',', '`']).collect();
                match words[..] {
                    ["the", "first", count, "bytes"] => log[..count.parse().unwrap()].to_vec(),
                    ["byte", at, "is", "", byte, ..] => with_bytes(at.parse().unwrap(), &bytes_of(byte)),
                    _ => panic!("a row of the formats that this test does not know: {other}"),
                }
            }
        };
        let found = if cells[1].ends_with("width 3") { recovered::<3>(&copy) } else { recovered::<1>(&copy) };
        assert_eq!(found, cells[2], "{}", cells[1]);
    }
}

/// The bodies of the table of changes, each as the next entry after commit 1 of the worked log.
#[test]
fn bodies_are_accepted_as_the_formats_say() {
    for cells in table(section("### Changes").split_once("The bodies below").unwrap().1) {
        let body = bytes_of(&cells[1].replace(['`', ' '], ""));
        let found = match recover::<1>(&with_frame(148, &body)) {
            Ok(_) => "accepted".to_string(),
            Err(RecoverError::Damaged { at: 148, damage: Damage::Entry(error) }) => format!("`{error:?}`"),
            Err(error) => panic!("{}: {error}", cells[1]),
        };
        assert_eq!(found, cells[2].split(':').next().unwrap(), "{}", cells[1]);
    }
}

/// The bitmap of the worked history, with the state under 2 alone, as a batch has edited it or not.
fn older(edit: impl FnOnce(&mut DirtyBitMap<3>)) -> CleanBitMap<3> {
    let bitmap = CleanBitMap::new().apply_batch(2, |batch: &mut DirtyBitMap<3>| {
        batch.push_chunk(&[0x81, 0x00, 0xff]).push_chunk(&[0x02, 0x01, 0xc0]);
        batch.push(true).push(false).push(true).push(true).push(false).push(false);
        edit(batch);
    });
    bitmap.unwrap()
}

/// The bitmap of the worked history.
fn versions() -> CleanBitMap<3> {
    let bitmap = older(|_| ()).apply_batch(9, |batch| {
        batch.set_chunk(1, &[0x00, 0x01, 0x40]).extend_to(72).push_byte(0xa7).prune_to_bit(24);
    });
    bitmap.unwrap()
}

#[test]
fn the_worked_history_is_written() {
    let mut bytes = Vec::new();
    let place = write_history(&versions(), &mut bytes).unwrap();
    assert_eq!(bytes, worked("## History"));
    assert_eq!((digest(&bytes), place.at, history_size(&versions())), (0x61b9f4c095b03085, 170, Some(170)));
    assert_eq!(Log::begin(&versions()).unwrap().bytes(), bytes);
    assert_eq!(recover::<3>(&bytes).unwrap().bitmap.commits().collect::<Vec<_>>(), [2, 9]);
}

#[test]
fn the_worked_history_is_read_as_the_formats_say() {
    let (bytes, any) = (worked("## History"), RangeCfg::any());
    for cells in table(section("## History").split_once("These bytes in other ways").unwrap().1) {
        let (input, bits, commits) = match cells[1] {
            "all of them, and then any bytes" => ([&bytes[..], b"more"].concat(), any, any),
            "the first 31 bytes" => (bytes[..31].to_vec(), any, any),
            "the first 98 bytes" => (bytes[..98].to_vec(), any, any),
            "the first 99 bytes" => (bytes[..99].to_vec(), any, any),
            "the first 169 bytes" => (bytes[..169].to_vec(), any, any),
            "all of them; the range of commits is that from 2 on" => (bytes.clone(), any, RangeCfg::at_least(2)),
            "all of them; the range of bits is that up to 53" => (bytes.clone(), RangeCfg::at_most(53), any),
            "all of them; the range of bits is that up to 55" => (bytes.clone(), RangeCfg::at_most(55), any),
            other => panic!("a row of the formats that this test does not know: {other}"),
        };
        let mut from = input.as_slice();
        match read_history::<3>(&mut from, &bits, &commits) {
            Ok(read) => {
                assert_eq!((cells[2], from), ("both states; the other bytes are left", &b"more"[..]));
                assert!(read.commits().eq([2, 9]));
                assert_eq!(read.get_at_commit(2), older(|_| ()).get_at_commit(2));
                assert_eq!((read.current(), read.last_number()), (versions().current(), Some(9)));
            }
            Err(error) => {
                assert_eq!(format!("`{error:?}`"), cells[2].split(": ").next().unwrap(), "{}", cells[1]);
                assert_eq!(from, input);
            }
        }
    }
}

/// What `apply_delta` does with a bitmap, in the words of the formats. After an error the bitmap is as it was.
fn applied_delta<const N: usize>(bitmap: CleanBitMap<N>, bytes: &[u8]) -> String {
    let before = (bitmap.current().encode(), bitmap.last_number());
    match apply_delta(bitmap, bytes) {
        Ok(bitmap) => {
            let kept: Vec<u64> = bitmap.commits().collect();
            assert_eq!(bitmap.last_number(), Some(9));
            if bitmap.get_bit(50) != versions().get_bit(50) {
                return "no error: the bitmap is at 9, and its bit 50 differs from the sender's".to_string();
            }
            assert_eq!(bitmap.current().encode(), versions().current().encode());
            format!("the bitmap is at 9, and {}", if kept == [2, 9] { "2 and 9 are kept" } else { "9 is kept" })
        }
        Err((bitmap, error)) => {
            assert_eq!((bitmap.current().encode(), bitmap.last_number()), before);
            format!("`{error:?}`")
        }
    }
}

/// The bits of the state under 2, and a last number whose commit is not kept.
fn with_last_number(number: u64) -> CleanBitMap<3> {
    from_base(older(|_| ()).current().clone(), Past::Dropped(number)).unwrap()
}

#[test]
fn the_worked_delta_is_written_and_applied() {
    let bytes = worked("## Delta");
    assert_eq!((bytes.len(), delta(&versions(), 2, 9).unwrap()), (110, Some(bytes.clone())));
    for (from, to) in [(9, 2), (2, 2), (2, 3), (1, 9)] {
        assert_eq!(delta(&versions(), from, to).unwrap(), None);
    }
    for cells in table(section("## Delta").split_once("This delta, applied to several bitmaps").unwrap().1) {
        let found = match cells[1] {
            "the state under 2, which is the last number" => applied_delta(older(|_| ()), &bytes),
            "the same, but 2 is not kept: it is only the last number" => applied_delta(with_last_number(2), &bytes),
            "the same; the first 87 bytes" => applied_delta(older(|_| ()), &bytes[..87]),
            "the same; the first 109 bytes" => applied_delta(older(|_| ()), &bytes[..109]),
            "the same; and one byte more" => applied_delta(older(|_| ()), &[&bytes[..], &[0]].concat()),
            "the same; byte 88 is `01`" => applied_delta(older(|_| ()), &[&bytes[..88], &[1], &bytes[89..]].concat()),
            "a bitmap of width 4" => applied_delta(CleanBitMap::<4>::new(), &bytes),
            "a new bitmap without a last number" => applied_delta(CleanBitMap::<3>::new(), &bytes),
            "the state under 2, and the last number is 3" => applied_delta(with_last_number(3), &bytes),
            "the bitmap at 9, that is, the delta for the second time" => applied_delta(versions(), &bytes),
            "the state under 2, but bit 30 differs; it is in chunk 1, which is listed" => {
                applied_delta(older(|batch| _ = batch.set_bit(30, true)), &bytes)
            }
            "the state under 2, but bit 50 differs; it is in chunk 2, which is not listed" => {
                applied_delta(older(|batch| _ = batch.set_bit(50, false)), &bytes)
            }
            "the state under 2; byte 63 is `02`, so `to` is 2, and the digest is made anew" => {
                let fields = [&bytes[..63], &[2], &bytes[64..102]].concat();
                applied_delta(older(|_| ()), &[&fields[..], &digest(&fields).to_be_bytes()].concat())
            }
            other => panic!("a row of the formats that this test does not know: {other}"),
        };
        assert_eq!(found, cells[2], "{}", cells[1]);
    }
}

/// A commit that prunes chunks far past the end is applied at once: the chunks between are not appended.
#[test]
fn a_gap_of_pruned_chunks_takes_no_time() {
    let start = Instant::now();
    let pruned = 1u64 << 57;
    let body = [&[1][..], &[6, 8 * pruned, pruned].map(u64::to_be_bytes).concat()].concat();
    let recovered = recover::<1>(&with_frame(148, &body)).unwrap();
    assert_eq!((recovered.bitmap.len(), recovered.bitmap.pruned_chunks()), (1 << 60, 1 << 57));
    assert_eq!(recovered.bitmap.at(1).unwrap().retained_bytes(0), Some([5]));
    assert!(start.elapsed() < Duration::from_secs(1));
}
