//! Finds the library `mortarpink`, and links it.

use std::env;
use std::path::Path;
use std::process::Command;

fn main() {
    for name in ["MORTARPINK_LIB_DIR", "MORTARPINK_SHARED", "PKG_CONFIG_PATH"] {
        println!("cargo:rerun-if-env-changed={name}");
    }
    let folder = env::var("MORTARPINK_LIB_DIR").unwrap_or_else(|_| folder_by_pkg_config());
    let (kind, file) = match env::var_os("MORTARPINK_SHARED") {
        Some(_) => ("dylib", "libmortarpink.so"),
        None => ("static", "libmortarpink.a"),
    };
    if let Err(error) = check_library(Path::new(&folder), file) {
        panic!("{error}");
    }
    println!("cargo:rerun-if-changed={folder}/{file}");
    println!("cargo:rustc-link-search=native={folder}");
    println!("cargo:rustc-link-lib={kind}=mortarpink");
}

/// Checks that a folder has the library, and an absolute path. The script, the compiler and the
/// linker run in different folders, and would look for a relative one in each of them.
pub fn check_library(folder: &Path, file: &str) -> Result<(), String> {
    if folder.is_absolute() && folder.join(file).is_file() {
        return Ok(());
    }
    Err(format!(
        "set MORTARPINK_LIB_DIR to the absolute path of the folder of {file}: it is not {folder:?}"
    ))
}

/// Returns the folder of the library that the program `pkg-config` reports.
fn folder_by_pkg_config() -> String {
    let output = Command::new("pkg-config")
        .args(["--variable=libdir", "--print-errors", "mortarpink"])
        .output()
        .expect("set MORTARPINK_LIB_DIR to the folder of the library, or install pkg-config");
    let errors = String::from_utf8_lossy(&output.stderr);
    assert!(
        output.status.success(),
        "set MORTARPINK_LIB_DIR to the folder of the library: pkg-config does not find it: {errors}"
    );
    let folder = String::from_utf8(output.stdout).expect("the name of the folder is UTF-8");
    folder.trim().to_owned()
}
