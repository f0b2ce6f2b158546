use mortarpink_proved::{Bitmap, Width};
use std::error::Error;
use std::fs::{File, OpenOptions};
use std::io::{Read, Write};
use std::path::Path;

/// Opens the file of a log, and makes the bitmap with all its versions, after a crash too. If the
/// file has no bytes, or a crash has cut off its first write, the log of an empty bitmap begins.
pub fn open(width: Width, path: &Path) -> Result<(Bitmap, File), Box<dyn Error>> {
    let mut file = OpenOptions::new().read(true).append(true).create(true).open(path)?;
    let mut bytes = Vec::new();
    file.read_to_end(&mut bytes)?;
    let (versions, good) = match Bitmap::recover(width, &bytes) {
        Ok(recovered) => (recovered.bitmap, recovered.good),
        Err(failed) if failed.error() == mortarpink_proved::Error::CutOff => {
            keep_copy(&bytes, path)?;
            let mut versions = Bitmap::new(width)?;
            versions.begin_log()?;
            (versions, 0)
        }
        Err(failed) => return Err(failed.into()),
    };
    file.set_len(good as u64)?;
    Ok((versions, file))
}

/// Writes the bytes of a file whose log begins again to a copy beside it, if there are any. Fails if
/// there is a copy from an earlier time: then a person has to look at both.
fn keep_copy(bytes: &[u8], path: &Path) -> Result<(), Box<dyn Error>> {
    if !bytes.is_empty() {
        let mut copy = File::create_new(path.with_extension("cut"))?;
        copy.write_all(bytes)?;
        copy.sync_all()?;
    }
    Ok(())
}

/// Appends the entries that are not in the file yet. After an error they are still in the log.
pub fn append_entries(versions: &mut Bitmap, file: &mut File) -> Result<(), Box<dyn Error>> {
    let bytes = versions.log_bytes()?;
    // Cuts off what a write that failed has left.
    file.set_len(versions.log_position()? - bytes.len() as u64)?;
    file.write_all(&bytes)?;
    file.sync_data()?;
    versions.forget_log()?;
    Ok(())
}
