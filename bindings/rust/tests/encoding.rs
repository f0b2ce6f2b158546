//! Encoding and decoding.

mod common;

use common::{WIDTHS, bitmap_of, commit};
use mortarpink_proved::{Bitmap, Error, Width};

/// Returns the bytes of two numbers and of chunks.
fn encoding(pruned_chunks: u64, retained: u64, chunks: &[u8]) -> Vec<u8> {
    [&pruned_chunks.to_be_bytes(), &retained.to_be_bytes(), chunks].concat()
}

/// Decodes bytes with any number of retained bits, and returns the error.
fn error(width: Width, bytes: &[u8]) -> Error {
    Bitmap::from_bytes(width, bytes, ..).unwrap_err()
}

#[test]
fn an_empty_bitmap_has_sixteen_bytes() {
    for width in WIDTHS {
        let bytes = Bitmap::new(width).unwrap().to_bytes().unwrap();
        assert_eq!(bytes, [0; 16]);
        let (bitmap, used) = Bitmap::from_bytes(width, &bytes, ..).unwrap();
        assert_eq!(used, 16);
        assert!(bitmap.is_empty());
    }
}

#[test]
fn chunks_follow_two_numbers() {
    for width in WIDTHS {
        let mut bitmap = bitmap_of(width, &vec![0xaa; 2 * width.bytes()]);
        commit(&mut bitmap, 2, |batch| {
            batch.push(true).unwrap();
            batch.push(false).unwrap();
            batch.push(true).unwrap();
            batch.prune(width.bits()).unwrap();
        });
        let mut chunks = vec![0xaa; 2 * width.bytes()];
        chunks[width.bytes()..].fill(0);
        chunks[width.bytes()] = 0b101;
        let bytes = bitmap.to_bytes().unwrap();
        assert_eq!(bytes, encoding(1, width.bits() + 3, &chunks));

        let (copy, used) = Bitmap::from_bytes(width, &bytes, ..).unwrap();
        assert_eq!(used, bytes.len());
        assert_eq!((copy.width(), copy.len()), (width, 2 * width.bits() + 3));
        assert_eq!(copy.pruned_chunks(), 1);
        assert!(copy.ones(..).eq(bitmap.ones(..)));
        assert_eq!(copy.commits().next(), None);
    }
}

#[test]
fn a_version_has_its_own_encoding() {
    for width in WIDTHS {
        let mut bitmap = bitmap_of(width, &vec![0x11; width.bytes()]);
        commit(&mut bitmap, 2, |batch| batch.prune(width.bits()).unwrap());
        let first = encoding(0, width.bits(), &vec![0x11; width.bytes()]);
        assert_eq!(bitmap.at(1).unwrap().to_bytes().unwrap(), first);
        assert_eq!(bitmap.at(2).unwrap().to_bytes().unwrap(), encoding(1, 0, &[]));
        assert_eq!(bitmap.to_bytes().unwrap(), encoding(1, 0, &[]));
    }
}

#[test]
fn bytes_after_the_encoding_are_left() {
    let bytes = [encoding(0, 8, &[0x81]), vec![0xff; 5]].concat();
    let (bitmap, used) = Bitmap::from_bytes(Width::Bytes1, &bytes, ..).unwrap();
    assert_eq!(used, 17);
    assert!(bitmap.ones(..).eq([0, 7]));
}

#[test]
fn a_decoded_bitmap_may_be_edited() {
    let bytes = encoding(2, 3, &[0b010]);
    let (mut bitmap, _) = Bitmap::from_bytes(Width::Bytes1, &bytes, ..).unwrap();
    commit(&mut bitmap, 0, |batch| batch.set(16, true).unwrap());
    assert!(bitmap.ones(..).eq([16, 17]));
    assert!(bitmap.commits().eq([0]));
}

#[test]
fn the_number_of_retained_bits_is_limited() {
    let bytes = encoding(3, 10, &[0xff, 0x03]);
    let decode = |least, most| Bitmap::from_bytes(Width::Bytes1, &bytes, least..=most).map(drop);
    let out_of_range = Err(Error::InvalidLength { length: 10 });
    for (least, most) in [(0, 10), (10, 10), (10, u64::MAX), (0, u64::MAX)] {
        assert_eq!(decode(least, most), Ok(()));
    }
    for (least, most) in [(0, 9), (11, u64::MAX), (11, 9), (u64::MAX, 0)] {
        assert_eq!(decode(least, most), out_of_range);
    }
    let half_open = Bitmap::from_bytes(Width::Bytes1, &bytes, 10..10).map(drop);
    assert_eq!(half_open, out_of_range);
    let open = Bitmap::from_bytes(Width::Bytes1, &bytes, ..11).map(drop);
    assert_eq!(open, Ok(()));
}

#[test]
fn every_proper_prefix_ends_too_early() {
    for width in WIDTHS {
        let mut whole = encoding(1, 1, &[1]);
        whole.resize(16 + width.bytes(), 0);
        for len in 0..whole.len() {
            assert_eq!(error(width, &whole[..len]), Error::EndOfBuffer, "{len}");
        }
        assert!(Bitmap::from_bytes(width, &whole, ..).is_ok());
    }
}

#[test]
fn a_length_without_its_chunks_ends_too_early() {
    for width in WIDTHS {
        for retained in [1, 1 << 40, u64::MAX] {
            assert_eq!(error(width, &encoding(0, retained, &[])), Error::EndOfBuffer);
        }
    }
}

#[test]
fn set_bits_past_the_length_are_invalid() {
    for width in WIDTHS {
        let mut chunk = vec![0; width.bytes()];
        chunk[0] = 0b0000_0111;
        assert!(Bitmap::from_bytes(width, &encoding(0, 3, &chunk), ..).is_ok());
        assert_eq!(error(width, &encoding(0, 2, &chunk)), Error::Invalid);
        chunk[0] = 0;
        chunk[width.bytes() - 1] = 0x80;
        assert_eq!(error(width, &encoding(0, 1, &chunk)), Error::Invalid);
    }
}

#[test]
fn too_many_pruned_bits_are_invalid() {
    for width in WIDTHS {
        let most = u64::MAX / width.bits();
        assert!(Bitmap::from_bytes(width, &encoding(most, 0, &[]), ..).is_ok());
        assert_eq!(error(width, &encoding(most + 1, 0, &[])), Error::Invalid);
        assert_eq!(error(width, &encoding(u64::MAX, 0, &[])), Error::Invalid);
        // The pruned bits and those of a whole chunk are 2^64.
        let chunk = vec![0; width.bytes()];
        assert_eq!(error(width, &encoding(most, width.bits(), &chunk)), Error::Invalid);
    }
}

#[test]
fn the_first_error_is_reported() {
    let width = Width::Bytes8;
    // The pruned chunks are read before the number of retained bits.
    assert_eq!(error(width, &[0xff; 8]), Error::Invalid);
    // The limit is checked before the chunks are looked for, and they before their bits.
    let limited = Bitmap::from_bytes(width, &encoding(0, 100, &[]), ..=99);
    assert_eq!(limited.unwrap_err(), Error::InvalidLength { length: 100 });
    assert_eq!(error(width, &encoding(0, 1, &[0xff; 7])), Error::EndOfBuffer);
}
