//! Stand-in for `log`: logging counts as on, so every argument is evaluated (the last read of `init` is one).
//! The texts of `error!` are kept, since the interrupt handler shows its failures nowhere else.

use std::cell::UnsafeCell;
use std::fmt::Arguments;

struct Kept(UnsafeCell<Vec<String>>);

// One thread runs the Rust.
unsafe impl Sync for Kept {}

static ERRORS: Kept = Kept(UnsafeCell::new(Vec::new()));

/// Ours: the texts of `error!` since they were last cleared.
pub fn errors() -> &'static mut Vec<String> {
    unsafe { &mut *ERRORS.0.get() }
}

pub fn evaluated(_: Arguments) {}

#[cold]
pub fn kept(text: Arguments) {
    errors().push(text.to_string());
}

#[macro_export]
macro_rules! debug {
    ($($t:tt)*) => { $crate::evaluated(::core::format_args!($($t)*)) };
}

#[macro_export]
macro_rules! warn {
    ($($t:tt)*) => { $crate::evaluated(::core::format_args!($($t)*)) };
}

#[macro_export]
macro_rules! error {
    ($($t:tt)*) => { $crate::kept(::core::format_args!($($t)*)) };
}
