//! Panics of the Rust, caught and read.

use std::cell::Cell;
use std::panic::{self, AssertUnwindSafe};

thread_local! {
    static SILENT: Cell<bool> = const { Cell::new(false) };
}

/// From here on a panic that is caught says nothing on the screen.
pub fn silence_caught() {
    let say = panic::take_hook();
    panic::set_hook(Box::new(move |panic| {
        if !SILENT.get() {
            say(panic);
        }
    }));
}

/// The answer of `call`, or the message that it panics with.
pub fn caught<T>(call: impl FnOnce() -> T) -> Result<T, String> {
    SILENT.set(true);
    let result = panic::catch_unwind(AssertUnwindSafe(call));
    SILENT.set(false);
    result.map_err(|message| match message.downcast::<&str>() {
        Ok(text) => text.to_string(),
        Err(message) => *message.downcast::<String>().expect("a message of text"),
    })
}
