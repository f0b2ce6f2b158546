use mortarpink_proved::{Bitmap, Width};
use std::error::Error;
use std::fs::{self, File};
use std::io::Write;
use std::path::Path;

/// Writes a bitmap with all its versions to a file. A crash leaves the old file or the new one.
pub fn save(versions: &Bitmap, path: &Path) -> Result<(), Box<dyn Error>> {
    let new = path.with_extension("new");
    let mut file = File::create(&new)?;
    file.write_all(&versions.save()?)?;
    file.sync_all()?;
    fs::rename(&new, path)?;
    Ok(())
}

/// Makes the bitmap of a file that `save` wrote, with all its versions.
pub fn load(width: Width, path: &Path) -> Result<Bitmap, Box<dyn Error>> {
    let bytes = fs::read(path)?;
    let (bitmap, used) = Bitmap::load(width, &bytes, .., ..)?;
    if used != bytes.len() {
        return Err("there are bytes after the history".into());
    }
    Ok(bitmap)
}
