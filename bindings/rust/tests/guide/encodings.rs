use mortarpink_proved::{Bitmap, Width};
use std::error::Error;

/// Returns the encoding of a version.
pub fn to_bytes(versions: &Bitmap, number: u64) -> Result<Vec<u8>, Box<dyn Error>> {
    Ok(versions.at(number)?.to_bytes()?)
}

/// Decodes a bitmap of at most 4,096 retained bits. The bytes have to be its encoding, with nothing
/// after it.
pub fn from_bytes(bytes: &[u8]) -> Result<Bitmap, Box<dyn Error>> {
    let (bitmap, used) = Bitmap::from_bytes(Width::Bytes8, bytes, ..=4096)?;
    if used != bytes.len() {
        return Err("there are bytes after the bitmap".into());
    }
    Ok(bitmap)
}
