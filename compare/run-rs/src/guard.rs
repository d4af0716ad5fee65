//! Panics, caught and kept for the report.

use std::panic::{catch_unwind, set_hook, AssertUnwindSafe};
use std::sync::Mutex;

/// The number that stands alone for a panic.
pub const PANIC: u64 = u64::MAX;

static LAST: Mutex<String> = Mutex::new(String::new());

/// From here on a panic is not printed, and its text kept.
pub fn keep_panics() {
    set_hook(Box::new(|info| {
        let said = info.payload();
        let text = said.downcast_ref::<&str>().map(|text| text.to_string());
        let text = text.or(said.downcast_ref::<String>().cloned()).unwrap_or("no text".into());
        if let Ok(mut last) = LAST.lock() {
            *last = text;
        }
    }));
}

/// The text of the last panic.
pub fn last_panic() -> String {
    LAST.lock().map(|last| last.clone()).unwrap_or_default()
}

pub fn caught<T>(call: impl FnOnce() -> T) -> Option<T> {
    catch_unwind(AssertUnwindSafe(call)).ok()
}

/// Fills `to` by the call; with a panic alone where it panics.
pub fn numbers(to: &mut Vec<u64>, call: impl FnOnce(&mut Vec<u64>)) {
    to.clear();
    if caught(|| call(to)).is_none() {
        to.clear();
        to.push(PANIC);
    }
}
