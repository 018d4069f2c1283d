//! Stand-in for the crate `log`: the five macros that docs/src uses. They check their arguments and print nothing.

#[doc(hidden)]
#[macro_export]
macro_rules! swallow {
    ($($arg:tt)*) => {{
        let _ = ::core::format_args!($($arg)*);
    }};
}

pub use swallow as debug;
pub use swallow as error;
pub use swallow as info;
pub use swallow as trace;
pub use swallow as warn;
