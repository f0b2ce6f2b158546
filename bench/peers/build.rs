//! Compiles `src/croaring.c`, which calls the parts of CRoaring that its header defines, and links the library.

use std::env;
use std::process::Command;

fn run(program: &str, arguments: &[&str]) {
    let status = Command::new(program).args(arguments).status();
    assert!(status.is_ok_and(|status| status.success()), "{program} failed");
}

fn main() {
    let folder = env::var("OUT_DIR").expect("cargo sets OUT_DIR");
    let object = format!("{folder}/croaring.o");
    run("cc", &["-O3", "-march=x86-64-v2", "-c", "src/croaring.c", "-o", &object]);
    run("ar", &["rcs", &format!("{folder}/libbench_croaring.a"), &object]);
    println!("cargo:rustc-link-search=native={folder}");
    println!("cargo:rerun-if-changed=src/croaring.c");
}
