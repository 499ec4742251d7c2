//! Stands in for `log`: messages are checked by the compiler and never made.

/// Looks at its arguments only, so that none counts as unused.
#[macro_export]
macro_rules! error {
    ($($message:tt)*) => {
        if false {
            let _ = ::core::format_args!($($message)*);
        }
    };
}

pub use error as debug;
pub use error as info;
pub use error as trace;
pub use error as warn;
