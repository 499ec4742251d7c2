//! Calls of the original that may panic.

use std::cell::Cell;
use std::panic::{catch_unwind, set_hook, take_hook, AssertUnwindSafe};
use std::sync::Once;

use protocol::{Reply, Stop};

thread_local! {
    static QUIET: Cell<bool> = const { Cell::new(false) };
}

/// What the call gives, or `err panic`, with nothing printed.
pub fn caught<T>(call: impl FnOnce() -> T) -> Reply<T> {
    static HOOK: Once = Once::new();
    HOOK.call_once(|| {
        let usual = take_hook();
        set_hook(Box::new(move |panic| {
            if !QUIET.get() {
                usual(panic);
            }
        }));
    });
    QUIET.set(true);
    let outcome = catch_unwind(AssertUnwindSafe(call));
    QUIET.set(false);
    outcome.map_err(|_| Stop::Error("panic".to_string()))
}
