//! Ranges, which are Rust's own, and operators whose result is a `Result`.

pub use core::ops::{Bound, Range};

/// Declares a trait of an operator: its name, its function and what it is.
macro_rules! operators {
    ($($name:ident $function:ident $words:literal;)+) => {$(
        #[doc = $words]
        pub trait $name<Right> {
            /// What the operator returns.
            type Output;

            /// Applies the operator.
            fn $function(self, right: Right) -> Self::Output;
        }
    )+};
}

operators! {
    BitAnd bitand "The operator `&`, which may run out of memory.";
    BitOr bitor "The operator `|`, which may run out of memory.";
    BitXor bitxor "The operator `^`, which may run out of memory.";
    Sub sub "The operator `-`, which may run out of memory.";
}
