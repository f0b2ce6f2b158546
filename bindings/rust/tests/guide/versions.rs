use mortarpink_proved::Bitmap;

/// Returns the bit at a position of a version, or `None` if the version is not kept or does not
/// retain the position.
pub fn bit_then(versions: &Bitmap, number: u64, position: u64) -> Option<bool> {
    versions.at(number).ok()?.get(position).ok()
}
