//! A safe wrapper of a CRoaring bitmap that copies on write.

use std::os::raw::c_void;

#[link(name = "bench_croaring", kind = "static")]
extern "C" {
    fn bench_new() -> *mut c_void;
    fn bench_contains(bitmap: *const c_void, position: u32) -> bool;
    fn bench_sum(bitmap: *const c_void) -> u64;
}

#[link(name = "roaring")]
extern "C" {
    fn roaring_bitmap_add(bitmap: *mut c_void, position: u32);
    fn roaring_bitmap_remove(bitmap: *mut c_void, position: u32);
    fn roaring_bitmap_copy(bitmap: *const c_void) -> *mut c_void;
    fn roaring_bitmap_free(bitmap: *const c_void);
}

/// A set of positions below `2^32`.
pub struct Roaring {
    // Points to a bitmap that this value owns.
    bitmap: *mut c_void,
}

impl Roaring {
    /// Returns the set of the bits that are set in some words.
    pub fn from_words(words: &[u64]) -> Roaring {
        // SAFETY: the function takes no argument, and the pointer that it returns is tested.
        let bitmap = unsafe { bench_new() };
        assert!(!bitmap.is_null(), "out of memory");
        let mut set = Roaring { bitmap };
        for (index, word) in words.iter().enumerate() {
            for bit in (0..64).filter(|bit| word >> bit & 1 == 1) {
                set.put(64 * index as u64 + bit, true);
            }
        }
        set
    }

    /// Adds or removes a position.
    pub fn put(&mut self, position: u64, value: bool) {
        let position = position as u32;
        // SAFETY: `bitmap` points to a bitmap that no other value owns.
        unsafe {
            if value {
                roaring_bitmap_add(self.bitmap, position);
            } else {
                roaring_bitmap_remove(self.bitmap, position);
            }
        }
    }

    /// Returns whether a position is in the set.
    pub fn contains(&self, position: u64) -> bool {
        // SAFETY: `bitmap` points to a bitmap.
        unsafe { bench_contains(self.bitmap, position as u32) }
    }

    /// Returns the sum of all positions.
    pub fn sum(&self) -> u64 {
        // SAFETY: `bitmap` points to a bitmap.
        unsafe { bench_sum(self.bitmap) }
    }
}

impl Clone for Roaring {
    fn clone(&self) -> Roaring {
        // SAFETY: `bitmap` points to a bitmap, and the pointer that the function returns is tested.
        let bitmap = unsafe { roaring_bitmap_copy(self.bitmap) };
        assert!(!bitmap.is_null(), "out of memory");
        Roaring { bitmap }
    }
}

impl Drop for Roaring {
    fn drop(&mut self) {
        // SAFETY: `bitmap` points to a bitmap that no other value owns.
        unsafe { roaring_bitmap_free(self.bitmap) }
    }
}
