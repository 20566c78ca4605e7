//! Threads of a scope.

use std::io;
use std::panic;
use std::thread::{Builder, Scope, ScopedJoinHandle};

/// Runs this in a thread of the scope. The error is that of the system where there is none.
pub fn spawn<'scope, T: Send + 'scope>(
    scope: &'scope Scope<'scope, '_>,
    run: impl FnOnce() -> T + Send + 'scope,
) -> io::Result<ScopedJoinHandle<'scope, T>> {
    Builder::new().spawn_scoped(scope, run)
}

/// What came of a thread, once it has ended. A panic of it goes on here.
pub fn join<T>(thread: ScopedJoinHandle<'_, T>) -> T {
    thread
        .join()
        .unwrap_or_else(|cause| panic::resume_unwind(cause))
}
