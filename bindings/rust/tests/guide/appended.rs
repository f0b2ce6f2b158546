use mortarpink_proved::{Bitmap, Error};

/// Appends a bit, and commits. After an error the bitmap is unchanged.
pub fn append_version(versions: &mut Bitmap, number: u64, bit: bool) -> Result<(), Error> {
    let mut batch = versions.begin();
    batch.push(bit)?;
    batch.commit(number)
}
