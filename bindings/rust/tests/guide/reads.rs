use mortarpink_proved::{Bitmap, Error, Width};

/// Makes 1,001 versions, and reads them in three ways.
pub fn read_versions() -> Result<(), Error> {
    let mut versions = Bitmap::new(Width::Bytes8)?;
    let mut batch = versions.begin();
    batch.extend_to(100_000)?;
    batch.commit(0)?;
    for number in 1..=1000 {
        let mut batch = versions.begin();
        batch.set(number, true)?;
        batch.commit(number)?;
    }

    // A few bits of one version: read them in place.
    let past = versions.at(10)?;
    assert_eq!((past.get(10), past.get(11)), (Ok(true), Ok(false)));

    // Bits of many versions: add the index once, and read in place.
    versions.set_indexed(true)?;
    for number in versions.commits() {
        assert_eq!(versions.at(number)?.get(500), Ok(number >= 500));
    }

    // Most bits of one version: make a bitmap of it.
    let whole = versions.checkout(10)?;
    assert!(whole.ones(..).eq(1..=10));
    Ok(())
}
