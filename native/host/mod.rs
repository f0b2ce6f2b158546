//! What the repository's tests and its program `replay` use of Rattle's standard library, over Rust's. Not a part of the crate.
//!
//! `tools/erase.py --tests` makes a crate of the tests and of `replay`. This is its module `support`: that of the crate `mortarpink`,
//! with the handle of the runtime, strings, files, streams and SHA-256 in addition.

pub use mortarpink::support::*;

/// The handle of the runtime, which a Rattle program gets as the argument of `main`, and a test as its own.
#[derive(Clone, Copy, Debug)]
pub struct HostRuntime;

impl HostRuntime {
    pub fn alloc(&self) -> alloc::Global {
        alloc::Global
    }

    pub fn stdout(&self) -> std::io::Stdout {
        std::io::stdout()
    }

    pub fn stderr(&self) -> std::io::Stderr {
        std::io::stderr()
    }

    pub fn eprintln(&self, line: impl std::fmt::Display) -> std::io::Result<()> {
        use std::io::Write;

        writeln!(std::io::stderr(), "{line}")
    }
}

/// The constructor of Rattle's strings that takes the allocator.
pub trait StringWithin: Sized {
    fn from_str_within(alloc: alloc::Global, text: &str) -> Result<Self, mortarpink::AllocError>;
}

impl StringWithin for String {
    fn from_str_within(_alloc: alloc::Global, text: &str) -> Result<Self, mortarpink::AllocError> {
        Ok(text.to_owned())
    }
}

/// Implements `TryClone` for types that are `Copy`, as the macro of the crate does.
macro_rules! clones_by_copy {
    ([$($parameters:tt)*] $type:ty) => {
        impl<$($parameters)*> mortarpink::TryClone for $type {
            fn try_clone(&self) -> Result<Self, mortarpink::AllocError> {
                Ok(*self)
            }
        }
    };
}
pub(crate) use clones_by_copy;

/// `format!(in alloc; ..)` of Rattle.
macro_rules! format_within {
    ($alloc:expr; $($arguments:tt)*) => {{
        let _: crate::support::alloc::Global = $alloc;
        Ok::<_, mortarpink::AllocError>(std::format!($($arguments)*))
    }};
}
pub(crate) use format_within;

pub mod cell {
    pub use std::cell::Cell;
}

pub mod env {
    use super::HostRuntime;

    /// Returns the arguments of the program. An argument that is not UTF-8 is an error.
    pub fn args(_rt: &HostRuntime) -> std::io::Result<std::vec::IntoIter<String>> {
        let words: Result<Vec<String>, _> = std::env::args_os().map(std::ffi::OsString::into_string).collect();
        match words {
            Ok(words) => Ok(words.into_iter()),
            Err(_) => Err(std::io::ErrorKind::InvalidData.into()),
        }
    }
}

pub mod fs {
    use super::HostRuntime;

    /// A file that is open to be read.
    pub struct File;

    impl File {
        pub fn open(_rt: &HostRuntime, path: &str) -> std::io::Result<std::fs::File> {
            std::fs::File::open(path)
        }
    }
}

pub mod hash {
    pub use std::hash::{DefaultHasher, Hash, Hasher};
}

pub mod io {
    pub use std::io::{Error, ErrorKind, Read, Result, Write};
}

pub mod mem {
    pub use std::mem::{replace, swap, take};
}

#[path = "../examples/sha256/mod.rs"]
mod sha256;

pub mod sha2 {
    //! SHA-256, by the names of the toolchain's crate `sha2`.
    pub use super::sha256::Hasher as Sha256;

    /// The trait of hashers. What the tests call of it, `Sha256` has itself.
    pub trait Digest {}
}

pub mod process {
    pub use std::process::ExitCode;

    /// What can end the process: the handle of the runtime, and references to it.
    pub trait Abort {
        fn abort(&self) -> ! {
            std::process::abort()
        }
    }

    impl Abort for super::HostRuntime {}

    impl<T: Abort> Abort for &T {}
}

pub mod prelude {
    pub use super::HostRuntime;
    pub use super::StringWithin;
    pub use super::process::Abort as _;
    pub use mortarpink::support::prelude::*;
}
