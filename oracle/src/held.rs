//! What is held against something, in every run but one that asks for what a changed rule tells.

use std::sync::atomic::{AtomicBool, Ordering::Relaxed};

static HOLDS: AtomicBool = AtomicBool::new(true);

pub fn let_go() {
    HOLDS.store(false, Relaxed);
}

pub fn holds() -> bool {
    HOLDS.load(Relaxed)
}

/// `assert_eq!`, unless nothing is held.
#[macro_export]
macro_rules! hold_eq {
    ($($parts:tt)*) => {
        if $crate::held::holds() {
            assert_eq!($($parts)*);
        }
    };
}
