//! Calls that may panic, with the panic as an answer and no message for it.

use std::cell::Cell;
use std::panic::{self, AssertUnwindSafe};
use std::sync::Once;

thread_local! {
    static EXPECTED: Cell<bool> = const { Cell::new(false) };
}

/// What is said of an original that does so.
pub const PANICKED: &str = "panicked where no panic is documented";

static HOOK: Once = Once::new();

/// What `call` gives, or `None` if it panics.
pub fn caught<T>(call: impl FnOnce() -> T) -> Option<T> {
    HOOK.call_once(quiet_where_expected);
    EXPECTED.set(true);
    let outcome = panic::catch_unwind(AssertUnwindSafe(call));
    EXPECTED.set(false);
    outcome.ok()
}

fn quiet_where_expected() {
    let loud = panic::take_hook();
    panic::set_hook(Box::new(move |info| {
        if !EXPECTED.get() {
            loud(info);
        }
    }));
}

/// Whether this build panics where a sum overflows, as the comparison needs it to.
pub fn overflow_panics() -> bool {
    caught(|| std::hint::black_box(u8::MAX) + std::hint::black_box(1)).is_none()
}

#[cfg(test)]
mod tests {
    use super::caught;

    #[test]
    fn a_panic_is_an_answer() {
        assert_eq!(caught(|| 5), Some(5));
        assert_eq!(caught(|| -> u8 { panic!("expected") }), None);
    }
}
