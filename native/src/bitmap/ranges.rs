//! Ranges as the lengths that decoding admits.

use crate::bitmap::codec::RangeCfg;
use core::ops::{Bound, RangeBounds};

/// Every range of lengths in bits converts to a `RangeCfg`.
impl<R: RangeBounds<u64>> From<R> for RangeCfg {
    /// Admits the lengths in the range. If the range is empty, it admits none.
    ///
    /// ```
    /// use mortarpink::bitmap::BitMap;
    /// use mortarpink::bitmap::codec::RangeCfg;
    ///
    /// let bytes = BitMap::<8>::ones(9).encode();
    /// assert!(BitMap::<8>::decode(&mut bytes.as_slice(), &(..=9).into()).is_ok());
    /// assert!(BitMap::<8>::decode(&mut bytes.as_slice(), &(..9).into()).is_err());
    /// assert_eq!(RangeCfg::from(1..10), RangeCfg::between(1, 9));
    /// ```
    fn from(range: R) -> RangeCfg {
        let least = match range.start_bound() {
            Bound::Included(least) => Some(*least),
            Bound::Excluded(below) => below.checked_add(1),
            Bound::Unbounded => Some(0),
        };
        let greatest = match range.end_bound() {
            Bound::Included(greatest) => Some(*greatest),
            Bound::Excluded(above) => above.checked_sub(1),
            Bound::Unbounded => Some(u64::MAX),
        };
        match (least, greatest) {
            (Some(least), Some(greatest)) => RangeCfg::between(least, greatest),
            // No length is below 0 or above `u64::MAX`.
            _ => RangeCfg::between(1, 0),
        }
    }
}
