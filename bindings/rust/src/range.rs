//! Ranges of the callers, as the C interface takes them.

use std::ops::{Bound, RangeBounds};

use crate::Error;

/// Returns the least and the greatest value of a range. If it is empty, the least one is above.
pub fn inclusive(range: impl RangeBounds<u64>) -> (u64, u64) {
    let least = match range.start_bound() {
        Bound::Included(&least) => Some(least),
        Bound::Excluded(&below) => below.checked_add(1),
        Bound::Unbounded => Some(0),
    };
    let greatest = match range.end_bound() {
        Bound::Included(&greatest) => Some(greatest),
        Bound::Excluded(&above) => above.checked_sub(1),
        Bound::Unbounded => Some(u64::MAX),
    };
    least.zip(greatest).unwrap_or((1, 0))
}

/// Returns the first position of a range, and the one after its last position.
///
/// A length is at most `u64::MAX`, so no bitmap has a bit at position `u64::MAX`.
pub fn half_open(range: impl RangeBounds<u64>) -> (u64, u64) {
    let (first, last) = inclusive(range);
    (first, last.saturating_add(1))
}

/// Returns the first position of a range to edit, and the one after its last position. An end that
/// the range leaves out is that of the retained positions.
///
/// Fails if the range has position `u64::MAX`, at which no bitmap has a bit.
pub fn edited(
    range: impl RangeBounds<u64>,
    (first_retained, len): (u64, u64),
) -> Result<(u64, u64), Error> {
    let from = match range.start_bound() {
        Bound::Included(&from) => from,
        Bound::Excluded(&u64::MAX) => return Ok((0, 0)),
        Bound::Excluded(&below) => below + 1,
        Bound::Unbounded => first_retained,
    };
    let to = match range.end_bound() {
        Bound::Included(&last) => last.checked_add(1).ok_or(Error::OutOfBounds)?,
        Bound::Excluded(&to) => to,
        Bound::Unbounded => len,
    };
    Ok((from, to))
}

/// Returns the first position of a range to read, and the one after its last position. An end that
/// the range leaves out is that of the retained positions.
///
/// Fails if the range has position `u64::MAX`, at which no bitmap has a bit, or begins after it.
pub fn read(
    range: impl RangeBounds<u64>,
    (first_retained, len): (u64, u64),
) -> Result<(u64, u64), Error> {
    match range.start_bound() {
        Bound::Excluded(&u64::MAX) => Err(Error::OutOfBounds),
        _ => edited(range, (first_retained, len)),
    }
}

#[cfg(test)]
mod tests {
    use super::*;

    #[test]
    fn bounds_of_each_kind() {
        assert_eq!(inclusive(..), (0, u64::MAX));
        assert_eq!(inclusive(3..5), (3, 4));
        assert_eq!(inclusive(3..=5), (3, 5));
        assert_eq!(inclusive((Bound::Excluded(3), Bound::Unbounded)), (4, u64::MAX));
        assert_eq!(half_open(..), (0, u64::MAX));
        assert_eq!(half_open(3..5), (3, 5));
        assert_eq!(half_open(3..=u64::MAX), (3, u64::MAX));
    }

    #[test]
    fn an_end_that_is_left_out_is_that_of_the_retained_positions() {
        assert_eq!(edited(.., (8, 20)), Ok((8, 20)));
        assert_eq!(edited(3.., (8, 20)), Ok((3, 20)));
        assert_eq!(edited(..30, (8, 20)), Ok((8, 30)));
        assert_eq!(edited(9..=11, (8, 20)), Ok((9, 12)));
        assert_eq!(edited((Bound::Excluded(9), Bound::Unbounded), (8, 20)), Ok((10, 20)));
    }

    #[test]
    fn no_range_to_edit_has_the_greatest_position() {
        assert_eq!(edited(9..=u64::MAX, (8, u64::MAX)), Err(Error::OutOfBounds));
        assert_eq!(edited(9..u64::MAX, (8, u64::MAX)), Ok((9, u64::MAX)));
        assert_eq!(edited((Bound::Excluded(u64::MAX), Bound::Unbounded), (8, 20)), Ok((0, 0)));
    }

    #[test]
    fn a_range_to_read_has_the_ends_of_one_to_edit() {
        assert_eq!(read(.., (8, 20)), Ok((8, 20)));
        assert_eq!(read(9..=11, (8, 20)), Ok((9, 12)));
        let (start, end) = (11, 9);
        assert_eq!(read(start..end, (8, 20)), Ok((11, 9)));
        assert_eq!(read(9..=u64::MAX, (8, u64::MAX)), Err(Error::OutOfBounds));
        let past_the_end = (Bound::Excluded(u64::MAX), Bound::Unbounded);
        assert_eq!(read(past_the_end, (8, 20)), Err(Error::OutOfBounds));
    }

    #[test]
    fn empty_ranges_stay_empty() {
        let past_the_end = (Bound::Excluded(u64::MAX), Bound::Unbounded);
        for (least, greatest) in [inclusive(..0), inclusive(5..5), inclusive(past_the_end)] {
            assert!(least > greatest);
        }
        for (from, to) in [half_open(..0), half_open(5..5), half_open(past_the_end)] {
            assert!(from >= to);
        }
    }
}
