//! The original prints to the error output and panics; both are kept silent here.

use std::any::Any;
use std::cell::Cell;
use std::fs::File;
use std::io::{self, Write};
use std::os::fd::{AsFd, AsRawFd};
use std::panic::{self, AssertUnwindSafe};

thread_local! {
    /// Whether the original runs on this thread.
    static INSIDE: Cell<bool> = const { Cell::new(false) };
}

unsafe extern "C" {
    fn dup2(from: i32, to: i32) -> i32;
}

/// Sends the error output to nowhere; panics outside the original still go where it went before.
pub fn silence() -> io::Result<()> {
    let before = File::from(io::stderr().as_fd().try_clone_to_owned()?);
    let nowhere = File::options().write(true).open("/dev/null")?;
    // SAFETY: both are open files of this process.
    if unsafe { dup2(nowhere.as_raw_fd(), io::stderr().as_raw_fd()) } < 0 {
        return Err(io::Error::last_os_error());
    }
    panic::set_hook(Box::new(move |info| {
        if !INSIDE.get() {
            let _ = writeln!(&before, "{info}");
        }
    }));
    Ok(())
}

/// Runs a part of the original; a panic answers its words.
pub fn inside<T>(call: impl FnOnce() -> T) -> Result<T, String> {
    INSIDE.set(true);
    let answer = panic::catch_unwind(AssertUnwindSafe(call));
    INSIDE.set(false);
    answer.map_err(|payload| words(&*payload))
}

fn words(payload: &dyn Any) -> String {
    if let Some(text) = payload.downcast_ref::<&str>() {
        return (*text).to_owned();
    }
    match payload.downcast_ref::<String>() {
        Some(text) => text.clone(),
        None => "a panic without words".to_owned(),
    }
}
