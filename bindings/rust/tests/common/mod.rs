//! Set-up that the tests share.

use mortarpink_proved::{Batch, Bitmap, Width};

pub const WIDTHS: [Width; 4] = [Width::Bytes1, Width::Bytes8, Width::Bytes32, Width::Bytes64];

/// Makes the edits in a batch, and commits it.
pub fn commit(bitmap: &mut Bitmap, number: u64, edits: impl FnOnce(&mut Batch<'_>)) {
    let mut batch = bitmap.begin();
    edits(&mut batch);
    batch.commit(number).unwrap();
}

/// Returns a bitmap whose commit 1 appended the bytes.
pub fn bitmap_of(width: Width, bytes: &[u8]) -> Bitmap {
    let mut bitmap = Bitmap::new(width).unwrap();
    commit(&mut bitmap, 1, |batch| batch.push_bytes(bytes).unwrap());
    bitmap
}
