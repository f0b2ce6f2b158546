//! The build script's check of the folder of the library.

#[allow(dead_code)]
#[path = "../build.rs"]
mod build;

use build::check_library;
use std::fs;
use std::path::Path;

/// A name that no library has.
const FILE: &str = "libmortarpink_of_the_test.a";

#[test]
fn a_folder_needs_the_library_and_an_absolute_path() {
    let folder = Path::new(env!("CARGO_TARGET_TMPDIR"));
    fs::write(folder.join(FILE), "a library").unwrap();
    assert_eq!(check_library(folder, FILE), Ok(()));

    let wanted = format!("set MORTARPINK_LIB_DIR to the absolute path of the folder of {FILE}");
    for wrong in [&folder.join("none"), Path::new("."), Path::new("")] {
        let error = check_library(wrong, FILE).unwrap_err();
        assert_eq!(error, format!("{wanted}: it is not {wrong:?}"));
    }

    // The tests run in the folder of the crate, so this path leads to a file. It is relative.
    assert!(Path::new("src/lib.rs").is_file());
    assert!(check_library(Path::new("src"), "lib.rs").is_err());
}
