use mortarpink_proved::{Bitmap, Width};
use std::error::Error;
use std::fs;
use std::path::Path;

/// Writes one version to a file, as the history of a bitmap that has no other.
pub fn save_version(versions: &Bitmap, number: u64, path: &Path) -> Result<(), Box<dyn Error>> {
    let version = versions.checkout(number)?;
    fs::write(path, version.save()?)?;
    Ok(())
}

/// Makes a bitmap, without commits, of a file that `save_version` wrote. Returns an error if the
/// file is damaged, or if its bitmap has another width.
pub fn load_version(width: Width, path: &Path) -> Result<Bitmap, Box<dyn Error>> {
    let bytes = fs::read(path)?;
    let (version, used) = Bitmap::load(width, &bytes, .., ..=0)?;
    if used != bytes.len() {
        return Err("there are bytes after the version".into());
    }
    Ok(version)
}
