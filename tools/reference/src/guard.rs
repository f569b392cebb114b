//! Runs the published code so that a panic becomes an answer: an index, an assertion, an overflow when checked.

use std::cell::RefCell;
use std::panic::{AssertUnwindSafe, catch_unwind, set_hook};

thread_local! {
    static LAST: RefCell<String> = const { RefCell::new(String::new()) };
}

/// Keeps a panic's place and message instead of printing them.
pub fn silence() {
    set_hook(Box::new(|info| {
        let place = info.location().map_or(String::new(), |l| {
            let file = l.file().rsplit('/').next().unwrap_or("");
            format!("{file}:{} ", l.line())
        });
        let payload = info.payload();
        let message = payload
            .downcast_ref::<&str>()
            .map(|s| s.to_string())
            .or_else(|| payload.downcast_ref::<String>().cloned())
            .unwrap_or_default();
        LAST.with(|last| *last.borrow_mut() = format!("{place}{}", message.replace('\n', " ")));
    }));
}

/// What `work` answers, or where and why it panicked.
pub fn guarded<T>(work: impl FnOnce() -> T) -> Result<T, String> {
    catch_unwind(AssertUnwindSafe(work)).map_err(|_| LAST.with(|last| last.borrow().clone()))
}
