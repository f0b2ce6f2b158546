use mortarpink_proved::{Bitmap, Width};
use std::error::Error;

/// Returns the current bitmap and the versions from a number on, as one value.
pub fn versions_from(versions: &Bitmap, first: u64) -> Result<Vec<u8>, Box<dyn Error>> {
    let mut last = versions.try_clone()?;
    last.drop_before(first)?;
    Ok(last.save()?)
}

/// Makes a bitmap with its versions from the bytes of someone else. No version has more than 4,096
/// retained bits, and at most 100 versions follow the first one.
pub fn received(bytes: &[u8]) -> Result<Bitmap, Box<dyn Error>> {
    let (versions, used) = Bitmap::load(Width::Bytes8, bytes, ..=4096, ..=100)?;
    if used != bytes.len() {
        return Err("there are bytes after the history".into());
    }
    Ok(versions)
}
